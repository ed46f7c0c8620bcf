"""Compares the program with model.py, a second implementation: random scenarios on networks of all kinds by `run` and `audit`, with
and without each of `--load`, `--latency`, `--deliveries`, `--needed`, `--budget` and `--network`, with `--names` and with `--csv`, and by
`run --transcript`, and random lines by `node`; every octet of what is printed and of each table, and the status.

    python3 tests/second/compare.py [COUNT [SEED [PROGRAM]]]

COUNT (500) of each, from SEED (1) on, by PROGRAM (bin/hsr_bench). The first difference is shown, with its input, and ends it. The last
line says how many agreed.
"""
import random
import subprocess
import sys
import tempfile
from collections import Counter
from pathlib import Path

import model

PROGRAM = Path(__file__).resolve().parents[2] / "bin" / "hsr_bench"
GROUP = "01-00-5E-00-00-01"
DRAIN_LIMIT = 10000  # above that the model is too slow, and the scenario is left out


def mac(number):
    return f"02-00-00-00-00-{number:02X}"


def digits(chance, octets):
    return "".join(chance.choice("0123456789ABCDEF") for _ in range(2 * octets))


# ---- topologies


def danh(chance, name, number):
    return {"name": name, "role": "danh", "mac": mac(number), "mode": chance.choices("HUN", (64, 30, 6))[0]}


def station(name, number, count):
    return {"name": name, "role": "station", "macs": [mac(number + place) for place in range(count)]}


def ring_of(names, turned=()):
    """The ends of a ring's links: from B to the next one's A, and of the QuadBoxes that are turned from D to C."""
    ports = {name: "DC" if name in turned else "BA" for name in names}
    return [[f"{name}.{ports[name][0]}", f"{after}.{ports[after][1]}"] for name, after in zip(names, names[1:] + names[:1])]


def ring_or_line(chance, is_line):
    names = [f"n{i}" for i in range(chance.randint(2, 5))]
    nodes = [danh(chance, name, i + 1 if chance.random() < 0.97 else 1) for i, name in enumerate(names)]
    return nodes, ring_of(names)[: len(names) - is_line]


def chain(chance, count):
    """`count` rings, each coupled with the next one by one or two QuadBoxes."""
    rings, nodes, links = [[f"{ring}{i}" for i in range(chance.randint(1, 2))] for ring in "abc"[:count]], [], []
    before = []
    for place, names in enumerate(rings):
        after = [f"q{place}{i}" for i in range(chance.randint(1, 2))] if place + 1 < count else []
        nodes += [danh(chance, name, 1 + len(nodes) + i) for i, name in enumerate(names)]
        nodes += [{"name": name, "role": "quadbox"} for name in after]
        links += ring_of(before + names + after, before)
        before = after
    return nodes, links


def redboxes(chance, count, is_coupled=False):
    """A ring with `count` RedBoxes, each with a Station; it may be coupled with a ring of one DANH."""
    names = [f"n{i}" for i in range(chance.randint(1, 3))]
    nodes = [danh(chance, name, i + 1) for i, name in enumerate(names)]
    boxes, quads = [f"r{i}" for i in range(count)], ["q0"] * is_coupled
    links = ring_of(boxes[:1] + names + boxes[1:] + quads)
    for i, box in enumerate(boxes):
        nodes.append({"name": box, "role": "redbox", "mac": mac(9 + i), "mode": chance.choice("HHUUN")})
        nodes.append(station(f"s{i}", 16 + 16 * i, chance.randint(1, 3)))
        links.append([f"{box}.I", f"s{i}.P"])
    if is_coupled:
        nodes += [danh(chance, "c0", 8), {"name": "q0", "role": "quadbox"}]
        links += ring_of(["c0", "q0"], ["q0"])
    return nodes, links


def stations(chance):
    """Stations, joined two by two, and a RedBox with one at times."""
    nodes, links = redboxes(chance, 1) if chance.random() < 0.4 else ([], [])
    for i in range(1, chance.randint(2, 3)):
        nodes += [station(f"t{i}", 32 + 32 * i, chance.randint(1, 2)), station(f"u{i}", 48 + 32 * i, 1)]
        links.append([f"t{i}.P", f"u{i}.P"])
    return nodes, links


def on_a_ring(chance):
    """A line of DANHs with a Station at its end, which isn't a network."""
    nodes, links = ring_or_line(chance, True)
    return nodes + [station("s0", 16, 1)], links + [[nodes[-1]["name"] + ".B", "s0.P"]]


NETWORKS = {  # how often each kind is taken, and what makes it
    "ring": (6, lambda chance: ring_or_line(chance, False)),
    "line": (2, lambda chance: ring_or_line(chance, True)),
    "redbox": (3, lambda chance: redboxes(chance, 1)),
    "two redboxes": (2, lambda chance: redboxes(chance, 2)),
    "redbox and quadbox": (1, lambda chance: redboxes(chance, 1, True)),
    "coupled rings": (3, lambda chance: chain(chance, 2)),
    "three rings": (2, lambda chance: chain(chance, 3)),
    "stations": (2, stations),
    "station on a ring": (1, on_a_ring),
}


def topology(chance):
    made_by = chance.choices([made_by for _, made_by in NETWORKS.values()], [often for often, _ in NETWORKS.values()])[0]
    nodes, links = made_by(chance)
    if chance.random() < 0.1:
        chance.shuffle(links)
    return nodes, [{"ends": ends if chance.random() < 0.7 else ends[::-1]} for ends in links]


# ---- steps


class Steps:
    """Makes steps that can mostly be done, by playing them in a world of the model; with `is_odd` now and then one that can't."""

    def __init__(self, chance, scenario, capacity):
        self.chance, self.scenario, self.is_odd = chance, scenario, chance.random() < 0.15
        self.world = model.World(scenario, capacity)
        nodes = scenario["node"]
        macs = [node["mac"] for node in nodes if "mac" in node] + [one for node in nodes for one in node.get("macs", [])]
        self.macs = macs + [mac(99), model.printed(model.SUPERVISION), GROUP, GROUP]

    def do(self, step):
        self.scenario["step"].append(step)
        self.world.step(step, DRAIN_LIMIT)

    def send(self):
        node = self.chance.choice([node for node in self.scenario["node"] if self.is_odd or node["role"] != "quadbox"])
        macs = node.get("macs", [node.get("mac")])
        place = self.chance.randrange(len(macs)) if not self.is_odd else self.chance.choice([0, 0, 0, 1])
        to = [one for one in self.macs if self.is_odd or one != macs[place]]
        kinds = [0x0800, 0x0800, 0x88BA, 0x88FB] + ([0x892F, 0x8100] if self.is_odd else [])
        length = self.chance.choice([0, 1, 2, 3, 46] + ([1500, 1501] if self.is_odd else []))
        step = {"do": "send", "node": node["name"], "to": self.chance.choice(to)}
        step["type"] = self.chance.choice(kinds + [0x88FB] * 4 * (step["to"] == model.printed(model.SUPERVISION)))
        step["payload"] = digits(self.chance, length)
        if self.chance.random() < 0.2:
            step["vlan"] = self.chance.choice([0, 5, 0x6005, 65535])
        if place:
            step["from"] = place
        self.do(self.named_stream(step))

    def named_stream(self, step):
        """A step that sends, perhaps with the name of a stream, which changes nothing."""
        return {**step, "stream": self.chance.choice(["a", "sv1", "-", "goose-12", "9" * 32])} if self.chance.random() < 0.2 else step

    def life(self):
        node = self.chance.choice(self.scenario["node"])
        if node["role"] in ("danh", "redbox") or self.is_odd:
            step = {"do": "life", "node": node["name"]}
            box = self.world.nodes[self.world.numbers[node["name"]]]
            about = [one for one in self.macs if box.knows(model.address(one), self.world.at)]
            if node["role"] == "redbox" and about and self.chance.random() < 0.7:
                step["about"] = self.chance.choice(about)
            elif self.is_odd and self.chance.random() < 0.5:
                step["about"] = self.chance.choice(self.macs)
            self.do(self.named_stream(step))

    def clock(self):
        later = self.chance.choice([1, 5, 100, 200, 399, 400, 401, -50, 1000, 59999, 60000])
        if self.world.unit == 1:  # in microseconds: the same moments, or close to them
            later = later * 1000 + self.chance.choice([0, 0, -1, 1])
        self.do({"do": "clock", "at": max(0, self.world.at // self.world.unit + later)})

    def age(self):
        self.do({"do": "age", "node": self.chance.choice(self.scenario["node"])["name"]})

    def cut_or_mend(self):
        self.do({"do": self.chance.choice(["cut", "mend"]), "link": self.chance.randrange(len(self.world.links))})

    def inject(self):
        if self.is_odd and self.chance.random() < 0.3:
            octets = digits(self.chance, self.chance.choice([0, 13, 14, 20, 60, 2048, 2049]))
            link, dir = self.chance.randrange(len(self.world.links)), self.chance.choice(["forth", "back"])
            self.do({"do": "inject", "link": link, "dir": dir, "octets": octets})

    def by_hand(self):
        """A few of the puts, takes and judgements that can be done, in any order."""
        for _ in range(self.chance.randint(1, 12)):
            world = self.world
            can_put = [end for end in world.ends if world.outbox[end] or self.is_odd and self.chance.random() < 0.01]
            ready = [{"do": "put", "port": self.named(end)} for end in can_put]
            ready += [{"do": "judge", "port": self.named(end)} for end in world.ends if world.hand[end]]
            for number, link in enumerate(world.links):
                for dir in (0, 1):
                    if link.queues[dir] and (self.is_odd or not world.hand[link.ends[1 - dir]]):
                        ready.append({"do": "take", "link": number, "dir": ["forth", "back"][dir]})
            if not ready:
                return
            self.do(self.chance.choice(ready))

    def named(self, end):
        return f"{self.scenario['node'][end[0]]['name']}.{end[1]}"

    def drain(self):
        self.do({"do": "drain"})


def scenario(chance, capacity, by_hand=True):
    nodes, links = topology(chance)
    made = {"node": nodes, "link": links, "step": []}
    if chance.random() < 0.3:
        made["capacity"] = chance.randint(1, 4)
    if chance.random() < 0.5:
        made["unit"] = chance.choice(["ms", "us"])
    steps = Steps(chance, made, capacity)
    kinds = [steps.send] * 8 + [steps.clock] * 3 + [steps.by_hand] * 3 * by_hand + [steps.drain] * 2 + [steps.life] * 2
    kinds += [steps.cut_or_mend] * 2 + [steps.age, steps.inject]
    try:
        for _ in range(chance.randint(1, 40)):
            chance.choice(kinds)()
        if chance.random() < 0.95:
            steps.drain()
    except model.Refused:
        pass
    return made


def toml(value):
    if isinstance(value, dict):
        return "{" + ", ".join(f"{key} = {toml(inner)}" for key, inner in value.items()) + "}"
    if isinstance(value, list):
        return "[" + ", ".join(toml(inner) for inner in value) + "]"
    return f'"{value}"' if isinstance(value, str) else str(value)


def document(made):
    return "".join(f"{key} = {toml(value)}\n" for key, value in made.items())


# ---- lines of `node`


def frame(chance):
    """Octets that are mostly a frame."""
    macs = [model.address(mac(number)) for number in (1, 2, 3, 7)] + [model.address(GROUP), model.SUPERVISION]
    dst, src = chance.choice(macs), chance.choice(macs[:5])
    kind = chance.choice([0x0800, 0x0800, 0x0040, 0x88FB, model.VLAN, model.HSR])
    payload = chance.randbytes(chance.choice([0, 1, 2, 5, 46])) if chance.random() < 0.97 else bytes(chance.choice([1500, 1501, 1506, 1507]))
    made = model.Frame(dst, src, chance.choice([None, None, None, 5, 0xFFFF]), kind, payload)
    octets = made.tagged(chance.choice("AB"), chance.choice([0, 1, 7, 65535])) if chance.random() < 0.75 else made.plain()
    if chance.random() < 0.15:
        return octets[: chance.randrange(len(octets) + 1)]
    if chance.random() < 0.1:
        place = chance.randrange(min(len(octets), 24))
        return octets[:place] + chance.randbytes(1) + octets[place + 1 :]
    return octets


def plain_frame(chance):
    """Octets that are mostly a plain frame, as they come by an interlink."""
    octets = frame(chance)
    made = model.read(octets)
    return octets if isinstance(made, int) or chance.random() < 0.1 else made.plain()


def node_line(chance, role, at):
    """A line of `node`, which for a QuadBox is now and then none of its kind."""
    kind = chance.random()
    if kind < 0.2 and (role != "quadbox" or chance.random() < 0.01):
        payload = chance.randbytes(chance.choice([0, 1, 46])) if chance.random() < 0.95 else bytes(chance.choice([1500, 1501]))
        to, type4 = chance.choice([mac(2), mac(1), GROUP]), chance.choice([0x0800, 0x0800, 0x88FB, model.VLAN, model.HSR])
        return f"send {at} {to} {type4:04X} {model.hexadecimal(payload)}" + chance.choice(["", "", " 0005"])
    if kind < 0.25 and role != "quadbox":
        about = chance.choice(["", " " + mac(chance.choice([1, 2, 2, 3, 7]))]) if role == "redbox" or chance.random() < 0.01 else ""
        return f"life {at}{about}"
    if kind < 0.3:
        return f"age {at}"
    port = chance.choice(model.PORTS[role])
    return f"arrive {at} {port} {model.hexadecimal(plain_frame(chance) if port == 'I' else frame(chance))}"


def node_lines(chance, role, unit):
    at, lines = 0, []
    for _ in range(chance.randint(1, 60)):
        later = chance.choice([0, 0, 1, 10, 100, 399, 400, -30])
        # Stations are forgotten after a minute.
        if role == "redbox" and chance.random() < 0.03:
            later = chance.choice([59900, 59999, 60000])
        if unit == "us":
            later = later * 1000 + chance.choice([0, 0, -1, 1])
        at = max(0, at + later)
        lines.append(node_line(chance, role, at))
    return lines


# ---- comparing


def bench(words, given):
    done = subprocess.run([PROGRAM, *words], input=given, capture_output=True, text=True, timeout=120)
    return done.returncode, done.stdout, done.stderr


class Differs(Exception):
    """What the program answers isn't what the model answers."""


def expect(what, words, given, expected):
    got = bench(words, given)
    if got == expected:
        return
    print(f"{what}: {' '.join(words)}\n--- input\n{given}")
    for name, (status, printed, fault) in (("the program", got), ("the model", expected)):
        print(f"--- {name}: status {status}\n{printed}{fault}")
    raise Differs


def compare_told(name, transcript, capacity, ends):
    """Compares what `audit --table auto` says of a transcript, and of one that tells another size or one that there isn't."""
    expect(name, ["audit", "--table", "auto"], transcript, ends)
    for size in ("100", "0512", "65536", str(next(size for size in model.SIZES if size != capacity))):
        text = transcript.replace(f"\ntable {capacity}\n", f"\ntable {size}\n", 1)
        if fault := model.size_fault(text, model.told_size(text)):
            expect(name, ["audit", "--table", "auto"], text, (1, "", fault))


def compare_named(name, given, transcript, words, ends):
    """Compares the report by names, of a run and of an audit that takes the names from a file."""
    expect(name, ["run", "--names", *words], given, ends)
    with tempfile.NamedTemporaryFile("w", suffix=".toml") as scenario:
        scenario.write(given)
        scenario.flush()
        expect(name, ["audit", "--names", scenario.name, *words], transcript, ends)


def compare_tables(name, given, transcript, words, world, made):
    """Compares the tables of a run by numbers, and of an audit by names."""
    is_network = "--network" in words
    with tempfile.TemporaryDirectory() as folder:
        scenario = Path(folder) / "scenario.toml"
        scenario.write_text(given)
        for told, names, taken in ((["run"], None, given), (["audit", "--names", str(scenario)], world.names(made), transcript)):
            bench([*told, "--csv", folder, *words], taken)
            for table, expected in world.tables(is_network, names).items():
                file = Path(folder) / f"{table}.csv"
                got = file.read_text() if file.exists() else "no file\n"
                if got != expected:
                    print(f"{name}: {table}.csv of {' '.join(told)}\n--- input\n{given}--- the program\n{got}--- the model\n{expected}")
                    raise Differs


def compare_made(name, made, capacity, asked, word=None):
    """Compares all that the program says of a scenario, and tells how it ended."""
    table = ["--table", word or str(capacity)]
    status, report, fault, world = model.run(made, capacity, DRAIN_LIMIT)
    given = document(made)
    expect(name, ["run", *table], given, (status, report, fault))
    if fault:
        return fault.rstrip("\n") if "check" in fault else "fault: step .. " + fault.split()[-1]
    flags, parts = ["--" + part for part in asked], world.report(asked)
    ends = 0 if parts.splitlines()[-1].startswith("certified") else 2
    if ends == 0 and "network" in asked and world.deliveries()[:-1]:
        print(f"{name}: certified, and not all sends are complete\n{given}")
        raise Differs
    expect(name, ["run", *flags, *table], given, (ends, parts, ""))
    transcript = world.transcript()
    expect(name, ["run", "--transcript", *flags, *table], given, (ends, transcript, ""))
    expect(name, ["audit", *table], transcript, (status, report, ""))
    expect(name, ["audit", *flags, *table], transcript, (ends, parts, ""))
    compare_named(name, given, transcript, [*flags, *table], (ends, world.names(made).report(parts), ""))
    compare_tables(name, given, transcript, [*flags, *table], world, made)
    compare_told(name, transcript, capacity, (status, report, ""))
    if world.is_whole():
        expect(name, ["audit", *table], world.transcript("ms"), (status, report, ""))
    verdict = world.network_verdict() if "network" in asked else world.verdict()
    return ("network " if "network" in asked else "") + " ".join(verdict.split()[: 1 if ends == 0 else 2])


def size(chance):
    """A size of tables, by its word: mostly small, where tables forget, or large."""
    word = chance.choice(["small", "small", "large", *model.SIZE_WORDS])
    return word, model.SIZE_WORDS[word]


def compare_scenario(seed):
    chance = random.Random(seed)
    word, capacity = size(chance)
    try:
        made = scenario(chance, capacity)
    except model.Unsettled:
        return "left out"
    asked = [part for part in ("load", "latency", "deliveries", "needed", "budget", "network") if chance.random() < 0.8]
    return compare_made(f"seed {seed}", made, capacity, asked, word)


def far_edges():
    """Scenarios for what chance doesn't find: a number that comes again, and the moment from which on a station isn't known."""
    alone = {"node": [danh(random.Random(1), "n0", 1)], "link": []}
    send = {"do": "send", "node": "n0", "to": GROUP, "type": 0x88B5}
    yield "a number comes again", {**alone, "step": [send] * 65538}, []
    nodes = [{"name": "n0", "role": "danh", "mac": mac(1)}, {"name": "r0", "role": "redbox", "mac": mac(2)}, {"name": "s0", "role": "station", "macs": [mac(16)]}]
    links = [{"ends": ends} for ends in (["n0.B", "r0.A"], ["r0.B", "n0.A"], ["r0.I", "s0.P"])]
    for later in (59999999, 60000000):
        steps = [{"do": "send", "node": "s0", "to": GROUP, "type": 0x88B5}, {"do": "drain"}, {"do": "clock", "at": later}]
        steps += [{"do": "send", "node": "n0", "to": mac(16), "type": 0x88B5}, {"do": "drain"}]
        yield f"a station heard {later} us ago", {"unit": "us", "node": nodes, "link": links, "step": steps}, ["load", "latency", "deliveries", "needed", "network"]


def compare_node(seed):
    chance = random.Random(seed)
    mode, (word, capacity), unit = chance.choice("HNU"), size(chance), chance.choice(["ms", "us"])
    role = chance.choice(["danh", "redbox", "redbox", "quadbox"])
    lines = node_lines(chance, role, unit)
    words = ["node", "--mode", mode, "--table", word]
    words += ["--unit", unit] if unit == "us" else []
    words += ["--role", role] if role != "danh" or chance.random() < 0.5 else []
    expect(f"seed {seed}", words, model.text(lines), model.node_run(lines, role, mode, capacity, unit))
    return "node " + role


def use(program):
    """The program that is compared."""
    global PROGRAM
    PROGRAM = program


def main():
    words = sys.argv[1:3]
    use(sys.argv[3] if len(sys.argv) > 3 else PROGRAM)
    count, first = (int(word) for word in words + ["500", "1"][len(words) :])
    seen, failed = Counter(), 0
    try:
        for name, made, asked in far_edges():
            seen[compare_made(name, made, 512, asked)] += 1
        for seed in range(first, first + count):
            seen[compare_scenario(seed)] += 1
            seen[compare_node(seed)] += 1
    except Differs:
        failed = 1
    print(", ".join(f"{how}: {many}" for how, many in sorted(seen.items())))
    print(f"{seen.total() - seen['left out']} passed, {failed} failed")
    return failed


if __name__ == "__main__":
    sys.exit(main())
