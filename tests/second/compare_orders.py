"""Compares the program with any_order.py, a second reading of "certified in any order": the line and the status of `certify`, for random
scenarios, and for those that are one step, one entry of a table or one microsecond beside one that is certified.

    python3 tests/second/compare_orders.py [COUNT [SEED [PROGRAM]]]

COUNT (500) scenarios, from SEED (1) on, by PROGRAM (bin/hsr_bench). The first difference is shown, with its input, and ends it. The last
line says how many agreed.
"""
import random
import sys
from collections import Counter

import any_order
import compare
import model
import random_plays

BESIDE = 6  # scenarios that are made of each
LONG = 10_000  # steps
LONGEST = 400_000  # the most that --within takes, since a table remembers no longer


def compare_line(name, made, table, within, is_coarse):
    """Compares what the program says of a scenario, and tells what that is."""
    within = None if within is None else min(within, LONGEST)
    line = any_order.certify(made, table, within, is_coarse)
    words = ["certify", "--table", str(table)] + (["--within", str(within)] if within is not None else []) + ["--coarse"] * is_coarse
    compare.expect(name, words, compare.document(made), (0 if any_order.is_certified(line) else 2, line + "\n", ""))
    return "certified" if any_order.is_certified(line) else " ".join(line.split()[:2])


def with_step(chance, step, made):
    """A step beside another: a clock by little more or less, a cut for a mending, a send or life of another kind."""
    stations = [one for node in made["node"] for one in node.get("macs", [])] or [compare.mac(99)]
    unit = model.MICROSECONDS[made["unit"]]
    if step["do"] == "clock":
        later = chance.choice([1, -1, 1, -1, 1000, 400_000 // unit])
        return {**step, "at": max(0, step["at"] + later)}
    if step["do"] in ("cut", "mend"):
        return {**step, "do": chance.choice(["cut", "mend"])}
    if step["do"] == "send":
        supervision = {"type": 0x88FB, "to": model.printed(model.SUPERVISION)}
        to_station = {"to": chance.choice(stations)}
        return {**step, **chance.choice([supervision, to_station, to_station, {"type": 0x8100}, {"payload": "00" * 1501}])}
    return {**step, "about": chance.choice(stations)} if step["do"] == "life" else step


def beside(chance, made, table, within):
    """What differs from a scenario in one thing."""
    steps, unit = list(made["step"]), model.MICROSECONDS[made["unit"]]
    place = chance.randrange(len(steps)) if steps else 0
    how = chance.choice(["leave out", "move", "again", "change", "change", "drain", "clock", "room", "table", "within", "link"])
    if how == "leave out":
        del steps[place : place + 1]
    elif how == "move" and steps:
        step = steps.pop(place)
        steps.insert(chance.randrange(len(steps) + 1), step)
    elif how == "again":
        steps[place:place] = steps[place : place + 1]
    elif how == "change" and steps:
        steps[place] = with_step(chance, steps[place], made)
    elif how == "drain":
        steps.insert(place, {"do": "drain"})
    elif how == "clock":
        now = max((step["at"] for step in steps[:place] if step["do"] == "clock"), default=0)
        later = chance.choice([0, unit, 399_999, 400_000, 59_999_999, 60_000_000]) // unit
        steps.insert(place, {"do": "clock", "at": now + later})
    elif how == "within":
        within = chance.choice([None, 1, 400_000, (within or 1000) + 1, max(1, (within or 1000) - 1)])
    elif how == "table":
        table = chance.choice([4, 8, 16])
    room = max(1, made["capacity"] + chance.choice([1, -1])) if how == "room" else made["capacity"]
    made = {**made, "capacity": room, "step": steps}
    if how == "link" and made["link"] and not any("link" in step for step in steps):
        made["link"] = made["link"][:-1]
    return made, table, within


def compare_seed(seed):
    """Compares a scenario, and some beside it; tells how each ended."""
    chance = random.Random(seed)
    if chance.random() < 0.3:
        table, within = chance.choice([4, 4, 512]), chance.choice(random_plays.WITHIN + [None] * 8)
        try:
            made = compare.scenario(chance, table)
        except model.Unsettled:
            return []
        return [compare_line(f"seed {seed}", made, table, within, is_coarse) for is_coarse in (False, True)]
    made, table, within = random_plays.scenario(chance)
    seen = [compare_line(f"seed {seed}", made, table, within, chance.random() < 0.2)]
    for number in range(BESIDE):
        other = beside(chance, made, table, within)
        if chance.random() < 0.2:
            other = beside(chance, *other)
        seen.append(compare_line(f"seed {seed}, beside {number}", *other, chance.random() < 0.2))
    return seen


# ---- what chance doesn't find


def ring(count):
    names = [f"n{i}" for i in range(count)]
    nodes = [{"name": name, "role": "danh", "mac": compare.mac(place + 1)} for place, name in enumerate(names)]
    return {"node": nodes, "link": [{"ends": ends} for ends in compare.ring_of(names)]}


def box():
    """A ring of a DANH and a RedBox with a Station."""
    made = ring(2)
    made["node"][1]["role"] = "redbox"
    station = {"name": "s0", "role": "station", "macs": [compare.mac(16), compare.mac(17)]}
    return {"node": [*made["node"], station], "link": [*made["link"], {"ends": ["n1.I", "s0.P"]}]}


def send(node, to=compare.GROUP, **more):
    return {"do": "send", "node": node, "to": to, "type": 0x88B8, **more}


def groups(sends, size):
    """Sends with a drain behind each few."""
    drain = [{"do": "drain"}]
    return [step for place in range(0, len(sends), size) for step in sends[place : place + size] + drain]


def far_edges():
    """Scenarios for what chance doesn't find, each with a table, and how long a copy lives at most."""
    yield "nothing", {"node": [], "link": [], "step": []}, 512, None
    for count in (65536, 65537):
        yield f"{count} numbers", {**ring(2), "step": groups([send("n0")] * count, 64)}, 512, None
        mixed = [send("n1")] * 30000 + [send("s0", compare.mac(2))] * 30000 + [{"do": "life", "node": "n1"}] * (count - 60000)
        yield f"{count} numbers of a RedBox and its Station", {**box(), "step": groups(mixed, 64)}, 512, None
    yield "65536 numbers of each of two nodes", {**ring(2), "step": groups([send("n0"), send("n1")] * 65536, 64)}, 512, None
    yield "a number that comes again", {**ring(3), "step": groups([send("n0")] + [send("n0", compare.mac(3))] * 65535 + [send("n0")], 1)}, 4, None
    for count in (512, 513):
        yield f"{count} spans that meet", {"capacity": 4096, **ring(2), "step": groups([send("n0")] * count, count)}, 512, None
    for count in (64, 65):
        yield f"{count} are open", {**ring(2), "step": groups([send("n0")] * count, count)}, 512, None
    last = {"do": "clock", "at": 2**63 - 1}  # TOML has no greater number
    for within in (1, LONGEST):
        yield "the last moment", {"unit": "us", **ring(2), "step": [last, send("n0"), last]}, 512, within
        yield "from the first moment to the last", {"unit": "us", **ring(2), "step": [send("n0"), last]}, 512, within
    yield "a rise to the last moment", {"unit": "us", **ring(2), "step": [send("n0"), last, {"do": "drain"}]}, 512, None
    for later in (59_999_999, 60_000_000):
        for place in (0, 1):
            steps = [send("s0", **{"from": place}), {"do": "drain"}, {"do": "clock", "at": later}]
            steps += [{"do": "life", "node": "n1", "about": compare.mac(16)}, {"do": "drain"}]
            yield f"a station heard {later} us ago", {"unit": "us", **box(), "step": steps}, 512, None
    told = {"do": "life", "node": "n1", "about": compare.mac(16)}
    sent = [send("s0"), {"do": "drain"}]
    cut, mend = {"do": "cut", "link": 2}, {"do": "mend", "link": 2}
    for name, steps in (
        ("last heard before its link was cut", [*sent, cut, *sent, mend, told]),
        ("heard over a link that is cut since", [*sent, cut, told]),
        ("not heard, as its link was cut", [cut, *sent, mend, told]),
        ("not heard, as its link was cut meanwhile", [send("s0"), cut, mend, {"do": "drain"}, told]),
        ("heard before another send of it ended", [*sent, send("s0"), told]),
    ):
        yield f"a station {name}", {**box(), "step": [*steps, {"do": "drain"}]}, 512, None
    rows = [[{"do": "clock", "at": second * 1_000_000}, *sent] + [told, {"do": "drain"}] * (second % 4 == 0) for second in range(200)]
    yield "a station told of for 200 s", {"unit": "us", **box(), "step": [step for row in rows for step in row]}, 512, None
    for about in (compare.mac(1), compare.mac(2)):
        for node in ("n0", "n1"):
            steps = [{"do": "life", "node": node, "about": about}, {"do": "drain"}]
            yield "life about the own address of a node, or another's", {**box(), "step": steps}, 512, None


def compare_edges():
    """Compares what chance doesn't find, by coarse orders too where that isn't long."""
    seen = []
    for name, made, table, within in far_edges():
        for is_coarse in (False, True)[: 1 + (len(made["step"]) < LONG)]:
            seen.append(compare_line(name, made, table, within, is_coarse))
    return seen


def main():
    words = sys.argv[1:3]
    compare.use(sys.argv[3] if len(sys.argv) > 3 else compare.PROGRAM)
    count, first = (int(word) for word in words + ["500", "1"][len(words) :])
    seen, failed = Counter(), 0
    try:
        seen.update(compare_edges())
        for seed in range(first, first + count):
            seen.update(compare_seed(seed))
    except compare.Differs:
        failed = 1
    print(", ".join(f"{how}: {many}" for how, many in sorted(seen.items())))
    print(f"{seen.total()} passed, {failed} failed")
    return failed


if __name__ == "__main__":
    sys.exit(main())
