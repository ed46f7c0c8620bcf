"""Plays scenarios that any_order.py certifies, in model.py's world, in many orders: none may go wrong.

    python3 tests/second/random_plays.py [COUNT [SEED [WEAKER]]]

COUNT (300) scenarios, from SEED (1) on, each PLAYS times. Rings, coupled rings and RedBoxes with Stations are made, with small tables and
little room, so that spans are about as full, and clocks rise about as much, as can be certified. A play puts, takes and judges between the
steps: at once, late, one side later than the other, the youngest copies first, or at random. In each play no step is refused, no queue
overruns, no direction of a link carries a send twice, a send is lost on links alone that are down in its span, there are no more moves than
the rules say, each send comes once to each node that it is due at, and to no other, and the audit of networks certifies the run.

With WEAKER, a word of any_order.WEAKER, scenarios are played that are certified only since that condition is weaker. Then plays are to
go wrong: of how many scenarios some did, and how, is told. With `outlive` copies live longer than they may. `all` does so with each word.
Chance doesn't number 65537 sends, so of `wrapped` there are none.
"""
import random
import sys
from collections import Counter
from dataclasses import dataclass

import any_order
import compare
import model

PLAYS = 6
WEAKER_PLAYS = 40
SIZES = [(4, 4), (4, 5), (4, 64), (8, 64), (16, 1), (16, 2), (16, 4), (512, 3), (512, 64)]  # entries of a table, and room in a direction of a link
WITHIN = [1, 1000, 5000, 100_000, 399_999, 400_000, 500_000, 1_000_000]  # how long copies live at most, in microseconds
TRIED = 40  # steps of a scenario that are tried, at most
DRAIN = {"do": "drain"}


# ---- scenarios


def wired(chance):
    """DANHs, QuadBoxes and perhaps a RedBox, with their ring ports linked as it comes."""
    nodes = [{"name": f"n{i}", "role": "danh", "mode": "H", "mac": ""} for i in range(chance.randint(1, 4))]
    nodes += [{"name": f"q{i}", "role": "quadbox"} for i in range(chance.randint(1, 3))]
    nodes += [{"name": "r0", "role": "redbox", "mode": "U", "mac": ""}, compare.station("s0", 16, 2)] * (chance.random() < 0.4)
    ends = [f"{node['name']}.{port}" for node in nodes for port in model.PORTS[node["role"]] if port not in "IP"]
    chance.shuffle(ends)
    links = [["r0.I", "s0.P"]] * (nodes[-1]["name"] == "s0")
    while ends:
        end = ends.pop()
        others = [other for other in ends if other.split(".")[0] != end.split(".")[0]]
        if others and chance.random() < 0.95:
            ends.remove(others[0])
            links.append([end, others[0]])
    return nodes, links


def network(chance, weaker):
    """A network of any kind, mostly one without a doubt of its own."""
    kind = "redboxes" if weaker.startswith("known") else chance.choices(["redboxes", "wired", "any"], (4, 4, 12))[0]
    if kind != "any":
        nodes, links = compare.redboxes(chance, chance.randint(1, 2)) if kind == "redboxes" else wired(chance)
        links = [{"ends": ends} for ends in links]
    else:
        nodes, links = compare.topology(chance)
    is_whole = chance.random() < 0.97 or kind == "wired"
    for place, node in enumerate(nodes):
        if "mac" in node and is_whole:
            node["mac"] = compare.mac(0x80 + place if weaker != "same-address" else chance.randint(0x80, 0x82))
            node["mode"] = node["mode"].replace("N", "H") if weaker != "mode" else node["mode"]
    return nodes, links


class Maker:
    """Makes a scenario step by step. A step is mostly taken where the scenario is certified with it and a drain behind it, so that spans fill
    up until no more is certified."""

    def __init__(self, chance, weaker, is_timed):
        self.chance, self.weaker = chance, weaker
        (self.table, room), self.within = chance.choice(SIZES), chance.choice(WITHIN) if is_timed and chance.random() < 0.4 else None
        self.oddness = chance.choice([0, 0, 0, 0, 0.02, 0.2])  # how often a step is taken that isn't certified
        self.doubt = "doubt empty"
        nodes, links = network(chance, weaker)
        self.made = {"capacity": room, "unit": chance.choice(["ms", "us", "us"]), "node": nodes, "link": links, "step": []}
        self.unit = model.MICROSECONDS[self.made["unit"]]
        self.senders = [node for node in nodes if node["role"] != "quadbox"]
        macs = [node["mac"] for node in nodes if "mac" in node]
        stations = [one for node in nodes for one in node.get("macs", [])] * (chance.random() < 0.1 or "uncovered" in weaker)
        others = [compare.mac(99), model.printed(model.SUPERVISION)] + [compare.GROUP] * (1 + len(macs))
        self.macs = macs + stations + others

    def certifier(self, steps, weaker):
        return any_order.Certifier({**self.made, "step": steps}, self.table, self.within, weaker)

    def offer(self, step):
        """Takes a step, if it brings no new doubt; whether it's taken."""
        longer = [*self.made["step"], step]
        line = self.certifier([*longer, DRAIN], self.weaker).line()
        is_taken = any_order.is_certified(line) or line == self.doubt or self.chance.random() < self.oddness
        if is_taken:
            self.made["step"], self.doubt = longer, line
        return is_taken

    def now(self):
        """The moment, in microseconds, and those of the sends that are open."""
        certifier = self.certifier(self.made["step"], "")
        return certifier.moment(len(certifier.steps)), [certifier.moment(send.step) for send in certifier.sends if send.end is None]

    # -- steps

    def send(self):
        node = self.chance.choice(self.senders)
        macs = node.get("macs", [node.get("mac")])
        place = self.chance.randrange(len(macs))
        to = self.chance.choice([one for one in self.macs if one != macs[place] or self.chance.random() < self.oddness])
        step = {"do": "send", "node": node["name"], "to": to, "type": self.chance.choice([0x0800, 0x88B8, 0x88FB])}
        step |= {"payload": compare.digits(self.chance, self.chance.choice([0, 1, 3]))} if self.chance.random() < 0.5 else {}
        step |= {"from": place} if place else {}
        return self.offer(step)

    def burst(self):
        """Sends until no more is certified, and mostly what ends spans then."""
        if not all(self.send() for _ in range(self.chance.randint(1, 8))):
            self.chance.choice([self.clock, self.drain, self.cut, self.clock])()

    def life(self):
        boxes = [node for node in self.senders if node["role"] == "redbox"]
        node = self.chance.choice(boxes if boxes and self.chance.random() < 0.7 else self.senders)
        about = [one for node in self.senders for one in node.get("macs", [])]
        is_about = node["role"] == "redbox" and about and self.chance.random() < 0.8 or self.chance.random() < self.oddness
        if node["role"] != "station" or self.chance.random() < self.oddness:
            own = {"do": "life", "node": node["name"]}
            if not is_about or not any(self.offer({**own, "about": self.chance.choice(about or self.macs)}) for _ in range(4)):
                self.offer(own)

    def clock(self):
        """A clock, mostly by as much as may be."""
        now, opens = self.now()
        since = min(opens, default=now)
        moments = [now, now + 1, now + 1000, now + 100_000, since + 399_999, since + 399_999, since + 400_000]
        moments += [now + 59_999_999, now + 60_000_000, max(0, now - 1000)]
        if self.within is not None:
            moments += [self.chance.choice(opens or [now]) + self.within - self.chance.choice([0, 0, 1]) for _ in range(8)]
        self.offer({"do": "clock", "at": self.chance.choice(moments) // self.unit})

    def cut(self):
        if self.made["link"]:
            self.offer({"do": "cut", "link": self.chance.randrange(len(self.made["link"]))})

    def mend(self):
        cut = {step["link"] for step in self.made["step"] if step["do"] == "cut"}
        if cut:
            self.offer({"do": "mend", "link": self.chance.choice(sorted(cut))})

    def drain(self):
        self.offer(DRAIN)

    def age(self):
        self.offer({"do": "age", "node": self.chance.choice(self.made["node"])["name"]})

    def end(self):
        """Ends the spans that are open, mostly."""
        now, opens = self.now()
        if self.within is not None and opens and self.chance.random() < 0.5:
            self.offer({"do": "clock", "at": -(-(max(now, *opens) + self.within) // self.unit)})
        if self.now()[1] and self.chance.random() >= self.oddness and self.weaker != "open":
            self.made["step"].append(DRAIN)


def scenario(chance, weaker="", is_timed=True):
    """A scenario, with the entries of a table, and how long copies live at most: None without `is_timed`."""
    maker = Maker(chance, weaker, is_timed)
    kinds = [maker.send] * 6 + [maker.burst, maker.life, maker.cut, maker.mend] * 2 + [maker.clock] * 4 + [maker.drain, maker.age]
    kinds += ([maker.life, maker.drain] * 6 + [maker.clock] * 4) * weaker.startswith("known")
    for _ in range(chance.randint(2, TRIED)):
        chance.choice(kinds)()
    maker.end()
    return maker.made, maker.table, maker.within


# ---- plays


class Wrong(Exception):
    """What went wrong in a play."""


@dataclass
class Move:
    """A put, take or judgement that may be done now: of the copy of a send on a channel, by the port where that starts, and its goal."""

    kind: str
    channel: tuple
    goal: tuple
    send: tuple
    link: model.Link


@dataclass
class Style:
    """How a play goes: how likely there is another move before a step, which is next, which wait until nothing else is left, and whether
    before the end of a span no more is done than that needs."""

    eagerness: float
    order: str
    held: object
    is_strict: bool


def no_move(_):
    return False


def held(chance, world):
    """A side that is late: some kinds of moves at some places."""
    kinds = chance.choice([("put",), ("take",), ("judge",), ("take", "judge"), ("put", "take", "judge")])
    channel = chance.choice(world.ends)
    goal, some = world.goal(channel), {end for end in world.ends if chance.random() < 0.5}
    where = [
        lambda move: True,
        lambda move: move.channel == channel,
        lambda move: move.channel in (channel, goal),
        lambda move: move.channel[1] == channel[1],
        lambda move: move.channel[0] == channel[0],
        lambda move: move.goal[0] == goal[0],
        lambda move: move.channel in some,
    ]
    at = chance.choice(where)
    return lambda move: move.kind in kinds and at(move)


def style(chance, world):
    order, is_strict = chance.choice(["random", "newest", "oldest", "last", "first"]), chance.random() < 0.5
    kind = chance.choice(["at once", "late", "starved", "starved", "starved", "random", "random"]) if world.ends else "late"
    if kind == "starved":
        return Style(chance.choice([1, 1, 1, 0.95]), order, held(chance, world), is_strict)
    eagerness = {"at once": 1, "late": 0, "random": chance.choice([0.5, 0.9, 0.97])}[kind]
    return Style(eagerness, order, held(chance, world) if kind == "late" and world.ends else no_move, is_strict)


class Play:
    """A play of a scenario, in a style."""

    def __init__(self, made, table, within, chance, may_outlive=False):
        self.certifier, self.world, self.chance = any_order.Certifier(made, table, within), model.World(made, table), chance
        self.style, self.may_outlive = style(chance, self.world), may_outlive
        self.longest = 0  # how many copies waited in a direction of a link
        self.sent, self.open = {}, []  # by the names of sends in records: what was sent, and those whose spans haven't ended
        self.count, self.since = 0, {}  # moves, and when something last came to a place
        self.most = 6 * len(self.world.links) * len(self.certifier.sends)

    # -- moves

    def moves(self):
        world, found = self.world, []
        for channel, (link, dir) in world.lanes.items():
            goal = link.ends[1 - dir]
            if world.outbox[channel]:
                found.append(Move("put", channel, goal, world.outbox[channel][0][1], link))
            if world.hand[goal]:
                found.append(Move("judge", channel, goal, world.hand[goal].send, link))
            elif link.queues[dir]:
                found.append(Move("take", channel, goal, link.queues[dir][0].send, link))
        return found

    def place(self, move):
        return move.kind, move.channel

    def chosen(self, moves):
        """The move that the style takes next."""
        moves = [move for move in moves if not self.style.held(move)] or moves
        if self.style.order == "random":
            return self.chance.choice(moves)
        self.chance.shuffle(moves)
        sign = -1 if self.style.order in ("newest", "last") else 1
        if self.style.order in ("newest", "oldest"):
            return min(moves, key=lambda move: sign * self.sent[move.send].step)
        return min(moves, key=lambda move: sign * self.since.get(self.place(move), 0))

    def do(self, move):
        self.count += 1
        if self.count > self.most:
            raise Wrong("too many moves")
        if move.kind == "put":
            self.world.put(move.channel)
            if move.link.rows[-1].fate == "overrun":
                raise Wrong("overrun")
            self.since["take", move.channel] = self.count
            self.longest = max(self.longest, *map(len, move.link.queues))
        elif move.kind == "take":
            self.world.take(*self.world.lanes[move.channel])
            self.since["judge", move.channel] = self.count
        else:
            self.world.judge(move.goal)
            self.since |= {("put", end): self.count for end in self.world.ends if end[0] == move.goal[0]}

    # -- what is done before a step

    def on_way(self):
        """Where copies are on their way: the kind of the move, its channel, and the send."""
        for channel, (link, dir) in self.world.lanes.items():
            yield from (("put", channel, send) for _, send in self.world.outbox[channel])
            yield from (("take", channel, row.send) for row in link.queues[dir])
            if row := self.world.hand[link.ends[1 - dir]]:
                yield "judge", channel, row.send

    def some(self):
        """Moves that nothing asks for."""
        while self.chance.random() < self.style.eagerness:
            free = [move for move in self.moves() if not self.style.held(move)]
            if not free:
                return
            self.do(self.chosen(free))

    def all(self):
        """All moves, up to a drain."""
        while moves := self.moves():
            self.do(self.chosen(moves))
        if any(self.on_way()):
            raise Wrong("no move left")

    def bring(self, ended):
        """Brings all copies of some sends to their end."""
        while waiting := {(kind, channel) for kind, channel, send in self.on_way() if send in ended}:
            # Behind a full hand nothing is taken.
            channels = {channel for kind, channel in waiting if kind == "take"}
            moves = self.moves()
            asked = [move for move in moves if self.place(move) in waiting or move.kind == "judge" and move.channel in channels]
            if not asked:
                raise Wrong("no move left")
            self.do(self.chosen(asked if self.style.is_strict else moves))

    def before(self, step):
        said, ended = self.certifier.steps[step], [send for send in self.open if self.sent[send].end == step]
        self.some()
        if said["do"] == "drain":
            self.all()
        elif ended and not self.may_outlive:
            self.bring(ended)
        self.open = [send for send in self.open if send not in ended]

    # -- the play

    def step(self, step, own):
        said = self.certifier.steps[step]
        self.before(step)
        if said["do"] != "drain":
            try:
                self.world.step(said, 0)
            except model.Refused as refused:
                raise Wrong(f"refused {refused}") from None
        if said["do"] in ("send", "life"):
            number = self.world.numbers[said["node"]]
            send = (number, len(self.world.nodes[number].record) - 1)
            self.sent[send] = next(own)
            self.open.append(send)

    def look(self):
        """What holds at the end of a play."""
        carried = Counter((number, row.dir, row.send) for number, link in enumerate(self.world.links) for row in link.rows)
        if max(carried.values(), default=0) > 1:
            raise Wrong("a send twice in a direction")
        if self.world.cause():
            raise Wrong("on its way at the end")
        for send, losses in self.world.losses().items():
            if not {number for number, _ in losses} <= self.certifier.downs(self.sent[send]):
                raise Wrong("lost on a link that is up")
        if missed := self.world.deliveries()[:-1]:
            words = missed[0].split()
            raise Wrong(" ".join(word for word, nodes in zip(words[8::2], words[9::2]) if word != "lost" and nodes != "-"))
        verdict = self.world.network_verdict()
        if verdict != f"certified {len(self.certifier.sends)}":
            raise Wrong("audit: " + " ".join(verdict.split()[:2]))

    def bounds(self):
        """Which bounds the play came to."""
        needed, latest = max(node.needed[0] for node in self.world.nodes), 0
        moments = self.world.moments()
        for node in self.world.nodes:
            for at, (_, _, event, _) in zip(moments[node.number], node.record):
                latest = max(latest, at - moments[event.send[0]][event.send[1]] if event.send else 0)
        found = ["plays"] + ["plays that needed a whole table"] * (needed == self.world.capacity)
        found += ["plays with a full queue"] * (self.longest == self.world.room)
        return found + ["plays with a copy 399 ms late"] * (399_000 <= latest < 400_000)

    def wrong(self):
        """What went wrong, or nothing."""
        own = iter(self.certifier.sends)
        try:
            for step in range(len(self.certifier.steps)):
                self.step(step, own)
            self.look()
        except Wrong as wrong:
            return str(wrong)
        return ""


# ---- counts


def bounds(made, table, within):
    """Which bounds a certified scenario is at."""
    certifier = any_order.Certifier(made, table, within)
    sends = certifier.sends
    found = ["certified", "certified within"][: 1 + (within is not None)]
    found += ["span as full as the table"] * any(certifier.met(send) == table for send in sends)
    found += ["as many open as room"] * any(certifier.count_open(send.step) == certifier.world.room for send in sends)
    found += ["clock at 399 ms"] * any(399_000 <= certifier.rise(send.step, send.end) for send in sends)
    found += ["links down"] * any(certifier.downs(send) for send in sends)
    found += ["life of a station"] * any(send.said["do"] == "life" and "about" in send.said for send in sends)
    return found + ["clock ends a span"] * any(certifier.steps[send.end]["do"] == "clock" for send in sends)


def verdict_of_run(made, table):
    """What the audit of networks says of what `run` plays, by the second bench."""
    _, _, fault, world = model.run(made, table, compare.DRAIN_LIMIT)
    return fault or world.network_verdict()


def one(seed, reached, plays=PLAYS):
    """The line of a scenario, and what went wrong in plays of it."""
    chance = random.Random(seed)
    made, table, within = scenario(chance)
    line = any_order.certify(made, table, within)
    if not any_order.is_certified(line):
        return "doubt " + line.split()[1], ""
    reached.update(bounds(made, table, within))
    if within is None and (verdict := verdict_of_run(made, table)) != line.removesuffix(" in any order"):
        return "wrong", f"seed {seed}, as run plays it: {verdict}\n--- table {table}\n{compare.document(made)}"
    for number in range(plays):
        play = Play(made, table, within, chance)
        if wrong := play.wrong():
            return "wrong", f"seed {seed}, play {number}: {wrong}\n--- table {table}, within {within}\n{compare.document(made)}"
        reached.update(play.bounds())
    return "certified", ""


def weakened(seed, weaker):
    """What went wrong in plays of a scenario that is certified only since a condition is weaker; None where it isn't."""
    chance = random.Random(seed)
    may_outlive = weaker == "outlive"
    made, table, within = scenario(chance, "" if may_outlive else weaker)
    is_certified = any_order.is_certified(any_order.certify(made, table, within))
    if is_certified != may_outlive or may_outlive and within is None:
        return None
    if not may_outlive and not any_order.is_certified(any_order.certify(made, table, within, weaker=weaker)):
        return None
    for _ in range(WEAKER_PLAYS):
        if wrong := Play(made, table, within, chance, may_outlive).wrong():
            return wrong
    return ""


def experiment(weaker, seeds):
    wrongs = [wrong for wrong in (weakened(seed, weaker) for seed in seeds) if wrong is not None]
    kinds = Counter(wrong for wrong in wrongs if wrong)
    told = ", ".join(f"{wrong}: {count}" for wrong, count in kinds.most_common())
    print(f"{weaker}: {kinds.total()} of {len(wrongs)} went wrong" + (f" ({told})" if told else ""), flush=True)


def main():
    count, first = (int(word) for word in (sys.argv[1:] + ["300", "1"][len(sys.argv[1:3]) :])[:2])
    seeds = range(first, first + count)
    if len(sys.argv) > 3:
        for weaker in [*any_order.WEAKER, "outlive"] if sys.argv[3] == "all" else sys.argv[3:]:
            experiment(weaker, seeds)
        return 0
    seen, reached, wrongs = Counter(), Counter(), []
    for seed in seeds:
        how, wrong = one(seed, reached)
        seen[how] += 1
        wrongs += [wrong] if wrong else []
    print("\n".join(wrongs[:3]))
    for counts in (seen, reached):
        print(", ".join(f"{how}: {many}" for how, many in sorted(counts.items())))
    print(f"{seen['certified'] * PLAYS} plays passed, {len(wrongs)} failed")
    return bool(wrongs)


if __name__ == "__main__":
    sys.exit(main())
