"""Random plans, by the planner's program: what each scenario says against what docs/REFERENCE.md says that the plan means, in another language.

    python3 tests/second/random_plans.py PLANNER [COUNT [SEED [BENCH [SECONDS]]]]

COUNT (1000) plans from SEED (1) on, or as many as SECONDS allow. Of each that is no fault: the comments are its title, and how many nodes,
links and sends the scenario has, with the most sends in 800 ms; the capacity is the plan's own, or what it needs; `--check` finds it right; the steps are those that the plan means, in order; model.py refuses none of them; and a RedBox sends supervision about a station just where the model's RedBox knows it then. With BENCH
the program plays the scenario too, and refuses no step. Each 20th plan is swept, and the lines compared with what model.py counts. About
half of the plans move copies by hops or wires: there each copy is put in the moment of the entry that passed it, and taken and judged just
a hop later, or when its wires and nodes let it come, before anything else happens at that moment. Of each that is a fault: the status is 1, nothing is written, and the line says why there
is none: the reason, or one of those, that this script finds by itself.

What is excused:
- Of a fault's line only the reason is compared, not line and column; where a plan has several reasons, the line may tell any of them.
- In which order copies are put, taken and judged at one moment is compared with no other reading: model.py plays the steps as they stand.
- A sweep is compared where it ends. Its line on a terminal isn't looked at.
- With tables of fewer than 512 entries, which may forget, the bench may end a run as unsettled.

The first difference is shown, with its plan, and ends it. The last line but one says how many plans were told, how many of these by hops
or wires, how many were swept, and how many were faults, each by its reason; the last how many passed and failed.
"""
import random
import subprocess
import sys
import time
import tomllib
from bisect import bisect_left
from collections import Counter

import model
import published

PLANNER = BENCH = None
EACH = 20  # each 20th plan is swept
GROUP = "01-0C-CD-01-00-01"
TYPES = {"goose": 0x88B8, "sv": 0x88BA}
ENDLESS = 1 << 41
KINDS = {"goose": "goose", "sv": "sv"}  # how the names of their streams begin; those of streams under a number with `other`
TABLES = model.SIZE_WORDS


# ---- a random plan


def names_of(chance):
    """Rings of names; some names are in two rings."""
    rings = [[f"r{ring}-{place}" for place in range(chance.randint(2, 4))] for ring in range(chance.choice([1, 1, 1, 2, 2, 3]))]
    for ring in range(1, len(rings)):
        shared = chance.sample(rings[ring - 1], min(len(rings[ring - 1]), chance.choice([1, 1, 2])))
        rings[ring] += [name for name in shared if sum(name in other for other in rings) < 2]
        chance.shuffle(rings[ring])
    return rings


def stream_of(chance, senders, targets):
    said = {"from": chance.choice([chance.choice(senders), chance.sample(senders, chance.randint(1, min(3, len(senders))))])}
    said["to"] = chance.choice([GROUP, GROUP, chance.choice(targets)])
    said["type"] = chance.choice(["goose", "sv", 0x88B5, 0x0800])
    said["every_us"] = chance.choice([100, 250, 1000, 3000])
    for key, values in (("size", [0, 4, 46, 120, 140, 200, 400]), ("vlan", [0, 10, 4095]), ("priority", [0, 4, 7]), ("grow", [1, 2, 3]), ("most_us", [50, 1000, 4000])):
        if chance.random() < 0.3:
            said[key] = chance.choice(values)
    if chance.random() < 0.5:
        said["start_us"] = chance.choice([chance.randint(0, 5000), sorted(chance.randint(0, 9000) for _ in range(chance.randint(1, 3)))])
    if chance.random() < 0.5:
        said["count"] = chance.randint(1, 6)
    said |= naming_of(chance, said["type"])
    if said["type"] == "sv" and chance.random() < 0.4:
        said |= {"smp_rate": chance.choice([4000, 4800, 12800, 14400])}
        for key in ("every_us", "grow", "most_us"):
            chance.random() < 0.99 and said.pop(key, None)
    if chance.random() < 0.3:
        said["for"] = chance.choice([said["to"] if said["to"] != GROUP else chance.choice(targets), chance.sample(targets, chance.randint(1, min(3, len(targets))))])
    if chance.random() < 0.03:
        said |= chance.choice([{"start_us": []}, {"start_us": [3, 2]}, {"count": 0}, {"from": []}])
    return said


def naming_of(chance, kind):
    """Names and numbers of a stream; few where they say nothing."""
    keys = {"appid": [0, 1, 2, 3, 0x3FFF, 0x4000, 0x4001, 65535], "control_block": ["gcb2", "Trip_1"], "id": ["Trip", "a/b$c." + "x" * 59], "data_set": ["ds_2", "D" * 32]}
    keys |= {"asdus": [1, 2, 3, 8], "smp_rate": [4000]}
    may = [] if kind not in TYPES else ["appid", "control_block", "id", "data_set", "asdus"] if kind == "sv" else ["appid", "control_block", "id", "data_set"]
    return {key: chance.choice(keys[key]) for key in keys if chance.random() < (0.25 if key in may else 0.005)}


def event_of(chance, rings, redboxes):
    ring = chance.choice(rings)
    place = chance.randrange(len(ring))
    ends = [ring[place], ring[(place + 1) % len(ring)]]
    if redboxes and chance.random() < 0.3:
        box = chance.choice(list(redboxes))
        ends = [box, f"{box}-sans"]
    key = chance.choice(["cut", "off"])
    return {"at_us": chance.choice([0, 1000, chance.randint(0, 9000)]), key: ends if key == "cut" else chance.choice(ends)}


def events_of(chance, rings, redboxes, until):
    """Events, most of them in time; some cuts are mended, and some nodes that are off set on, mostly later."""
    events = []
    for _ in range(chance.choice([0, 0, 1, 3])):
        event = event_of(chance, rings, redboxes)
        event["at_us"] = min(event["at_us"], chance.choice([until] * 9 + [9000]))
        back = {"at_us": chance.choice([event["at_us"], until, chance.randint(event["at_us"], max(until, event["at_us"]))])}
        back |= {"mend": event["cut"]} if "cut" in event else {"on": event["off"]}
        events += chance.choice([[event], [event], [event, back], [event, back], [event, back], [back, event]])
    chance.random() < 0.5 and chance.shuffle(events)
    return events


def wires_of(chance):
    """Keys of wires, some of them; rates that are slow for a plan are among them."""
    said = {"rate_mbps": chance.choice([1, 2, 10, 100, 1000, 100000]), "residence_us": chance.choice([0, 1, 5, 300]), "switching": chance.choice(["store", "cut", "cut"])}
    return {key: item for key, item in said.items() if chance.random() < 0.7}


def moving_of(chance):
    """How copies move. Hops are told by two keys or by one; few are told wrong."""
    hop = chance.choice([1, chance.randint(1, 1500)])
    if chance.random() < 0.3:
        wrong = chance.random() < 0.05 and chance.choice([{"rate_mbps": 0}, {"residence_us": 1000001}, {"switching": "through"}, {"moves": "hops", "hop_us": hop}, {"hop_us": hop}])
        return {"moves": "wire", **wires_of(chance), **(wrong or {})}
    if chance.random() < 0.03:
        return chance.choice([{"moves": "hops"}, {"hop_us": hop}, {"moves": "hops", "hop_us": 0}, {"moves": f"hop_us = {hop}", "hop_us": hop}])
    return chance.choice([{"moves": "each send drains"}, {"moves": "each moment drains"}, {"moves": "hops", "hop_us": hop}, {"moves": f"hop_us = {hop}"}])


def random_plan(chance):
    rings = names_of(chance)
    alone = [name for ring in rings for name in ring if sum(name in other for other in rings) == 1]
    boxes = chance.sample(alone, min(len(alone), chance.choice([0, 1, 1, 2])))
    redboxes = {box: [f"s-{box}-{k}" for k in range(chance.choice([1, 2, 3, 16]))] for box in boxes}
    senders = [*alone, *(name for names in redboxes.values() for name in names)]
    said = {"title": "random", "until_us": chance.randint(1, 10000), **moving_of(chance)}
    said |= {"ring": rings[0]} if len(rings) == 1 else {}
    said["life_ms"] = chance.choice([0, 1, 1, 2, 5])
    if chance.random() < 0.3:
        said["epoch"] = chance.choice([1, 1767225600, 4294967295])
    if chance.random() < 0.3:
        said["capacity"] = chance.choice([1, 2, 5])
    said["streams"] = [stream_of(chance, senders, senders) for _ in range(chance.randint(0, 3))] if senders else []
    said["events"] = events_of(chance, rings, redboxes, said["until_us"])
    for stream in said["streams"]:
        if chance.random() < 0.95:  # most starts come in time
            starts = stream.get("start_us", 0)
            stream["start_us"] = [at for at in dict.fromkeys(starts) if at < said["until_us"]] or 0 if isinstance(starts, list) else min(starts, said["until_us"] - 1)
        if stream["type"] in TYPES and stream.get("size", 1500) < 120 and chance.random() < 0.95:  # most sizes are enough
            del stream["size"]
    said["tables"] = {"redbox": redboxes} if redboxes else {}
    if len(rings) > 1:
        said["tables"]["rings"] = {f"k{ring}": names for ring, names in enumerate(rings)}
    if senders and chance.random() < 0.2:
        # (two given addresses that are the same are a fault: plans/faults)
        given = zip(chance.sample(senders, min(2, len(senders))), chance.sample(range(1, 5), 2))
        said["tables"]["address"] = {name: f"02-00-00-00-{chance.choice([1, 9, 9, 9]):02X}-{last:02X}" for name, last in given}
    if chance.random() < 0.2:
        said["tables"]["mode"] = {name: chance.choice("HNU") for name in chance.sample(alone, min(1, len(alone)))}
    if chance.random() < 0.1:  # a name that isn't there, or one that can't do this
        said["streams"].append({"from": chance.choice(["nobody", rings[0][0]]), "to": chance.choice(["nobody", GROUP]), "type": 1, "every_us": 900})
    return said


def value(said):
    if isinstance(said, list):
        return "[" + ", ".join(value(item) for item in said) + "]"
    return f'"{said}"' if isinstance(said, str) else str(said)


def text(said):
    parts = {key: said[key] for key in said if key not in ("streams", "events", "tables")}
    lines = [f"{key} = {value(item)}" for key, item in parts.items()]
    for name, table in said["tables"].items():
        lines += [f"[{name}]"] + [f"{key} = {value(item)}" for key, item in table.items()]
    for name in ("stream", "event"):
        for table in said[name + "s"]:
            lines += [f"[[{name}]]"] + [f"{key} = {value(item)}" for key, item in table.items()]
    return "\n".join(lines) + "\n"


# ---- what a plan means


def hop_of(plan):
    """How long a hop takes, or None where copies don't move by hops."""
    moves = plan.get("moves", "")
    return plan.get("hop_us") if moves == "hops" else int(moves.split()[-1]) if moves.startswith("hop_us") else None


def is_paced(plan):
    """Whether copies move by hops or wires."""
    return bool(hop_of(plan)) or plan.get("moves") == "wire"


class Meaning:
    def __init__(self, plan):
        self.plan = plan
        self.rings = [plan["ring"]] if "ring" in plan else []
        self.rings += [plan["rings"][key] for key in sorted(plan.get("rings", {}))]
        self.names = list(dict.fromkeys(name for ring in self.rings for name in ring))
        self.redboxes = plan.get("redbox", {})
        self.boxes = [name for name in self.names if name in self.redboxes]
        self.first = {name: next(k for k, ring in enumerate(self.rings) if name in ring) for name in self.names}
        self.couplers = {name for name in self.names if sum(name in ring for ring in self.rings) == 2}
        self.until = plan.get("until_us")
        self.published = list(published.published(plan))

    def mac(self, name):
        if name in self.names:
            ring = self.first[name]
            usual = f"02-00-00-00-{ring + 1:02X}-{self.rings[ring].index(name) + 1:02X}"
        else:
            usual = next(f"02-00-00-01-{k + 1:02X}-{self.redboxes[box].index(name) + 1:02X}" for k, box in enumerate(self.boxes) if name in self.redboxes[box])
        return self.plan.get("address", {}).get(name, usual)

    def behind(self, name):
        """The RedBox that a station is behind, or None."""
        return next((box for box in self.boxes if name in self.redboxes[box]), None)

    def node(self, name):
        """The node that a name is of: of a station its RedBox's Station."""
        behind = self.behind(name)
        return f"{behind}-sans" if behind else name

    def senders(self, stream):
        return stream["from"] if isinstance(stream["from"], list) else [stream["from"]]

    def receivers(self, stream):
        """Whom a stream is for, as its `for` says; nobody where there is none."""
        said = stream.get("for", [])
        return said if isinstance(said, list) else [said]

    def is_off(self, node, at):
        """Whether the last event about a node, at a moment or before, put it off."""
        about = [event for event in self.plan.get("event", []) if event["at_us"] <= at and node in (event.get("off"), event.get("on"))]
        return bool(about) and "off" in sorted(about, key=lambda event: event["at_us"])[-1]

    def reasons(self):
        """Why the plan may mean nothing, each by words of a fault's line."""
        known = [name for name in self.names if name not in self.couplers] + [name for box in self.boxes for name in self.redboxes[box]]
        if any(len({*map(self.mac, names)}) < len(names) for names in self.redboxes.values()):
            yield "no network"
        given = self.plan.get("address", {})
        yield from (f"the address of {name} is another's:" for name in given if any(other != name and self.mac(other) == given[name] for other in known))
        yield from self.reasons_of_moves()
        yield from self.reasons_of_events()
        yield from published.reasons(self.plan) if all(stream["from"] and self.starts(stream) and self.is_paced(stream) for stream in self.plan.get("stream", [])) else ()
        for stream in self.plan.get("stream", []):
            target = stream["to"]
            yield from (f"unknown name {name}:" for name in [*self.senders(stream), target, *self.receivers(stream)] if name not in [*known, *self.couplers, GROUP])
            yield from (f"{name} has no address:" for name in [*self.senders(stream), target, *self.receivers(stream)] if name in self.couplers)
            yield from self.reasons_of_stream(stream)
            for name in self.receivers(stream):
                is_goal = target == GROUP or {name, target} <= {*known} and self.mac(target) == self.mac(name)
                if not is_goal or all(self.node(sender) == self.node(name) for sender in self.senders(stream)):
                    yield f"frames of this stream aren't due at {name}:"
            for name in self.senders(stream):
                if target in known and name in known and self.mac(target) in map(self.mac, self.redboxes.get(self.behind(name), [name])):
                    yield f"{name} sends to itself"

    def reasons_of_stream(self, stream):
        """Why a stream may send less than it seems to say."""
        starts = self.starts(stream)
        if not starts or any(later <= earlier for earlier, later in zip(starts, starts[1:])):
            yield "bad value of start_us:"
        yield from (f"bad value of {key}:" for key in ("count", "from") if stream.get(key) in (0, []))
        end = min(end for end in (self.until, stream.get("until_us"), ENDLESS) if end is not None)
        if any(start >= end for start in starts):
            yield "a start at or behind the end:"
        if stream["type"] in TYPES and stream.get("size", 1500) == 0:
            yield "bad value of size:"
        if any(key in stream for key in ("appid", "control_block", "id", "data_set") if stream["type"] not in TYPES):
            yield "this changes nothing:"
        if any(key in stream for key in ("smp_rate", "asdus") if stream["type"] != "sv"):
            yield "this changes nothing:"
        elif "smp_rate" in stream:
            yield from (f"{key} beside smp_rate:" for key in ("every_us", "grow", "most_us") if key in stream)

    def is_paced(self, stream):
        """Whether one thing tells the stream's moments."""
        return ("smp_rate" in stream) != ("every_us" in stream)

    def reasons_of_moves(self):
        """Why it isn't told how copies move: `hop_us` stands beside "hops", and there alone, as the keys of wires beside "wire"."""
        moves, hop = self.plan.get("moves", ""), self.plan.get("hop_us")
        if moves == "wire":
            right = {"rate_mbps": range(1, 100001), "residence_us": range(1000001), "switching": ("store", "cut")}
            yield from (f"bad value of {key}:" for key, values in right.items() if key in self.plan and self.plan[key] not in values)
        elif any(key in self.plan for key in ("rate_mbps", "residence_us", "switching")):
            yield "this changes nothing:"
        if moves == "hops" and not hop:
            yield "missing word hop_us:" if hop is None else "bad value of hop_us:"
        if moves != "hops" and hop is not None:
            yield "hop_us in moves and beside it:" if hop_of(self.plan) else "this changes nothing:"

    def reasons_of_events(self):
        """Why an event may change nothing: what comes last before it, of those about its link or node, doesn't cut it or put it off."""
        down = set()
        for event in sorted(self.plan.get("event", []), key=lambda event: event["at_us"]):
            if self.until is not None and event["at_us"] > self.until:
                yield "an event behind the end of the plan:"
            what = next((tuple(sorted(event[key])) for key in ("cut", "mend") if key in event), None) or event.get("off") or event.get("on")
            if ("mend" in event or "on" in event) and what not in down:
                yield "this changes nothing:"
            (down.add if "cut" in event or "off" in event else down.discard)(what)

    def starts(self, stream):
        starts = stream.get("start_us", 0)
        return starts if isinstance(starts, list) else [starts]

    def ends(self):
        """The links, each by its two ends."""
        for number, ring in enumerate(self.rings):
            for name, after in zip(ring, ring[1:] + ring[:1]):
                yield f"{name}.{'BD'[self.first[name] != number]}", f"{after}.{'AC'[self.first[after] != number]}"
        yield from ((f"{box}.I", f"{box}-sans.P") for box in self.boxes)

    def moments(self, stream):
        """Each frame's moment, the number of its start, and its number since."""
        starts = self.starts(stream)
        ends = [end for end in (self.until, stream.get("until_us")) if end is not None]
        for state, start in enumerate(starts):
            until = min(ends + starts[state + 1 : state + 2] or [ENDLESS])
            if "smp_rate" in stream:
                yield from self.samples(stream, state, start, until)
                continue
            most = stream.get("most_us", 1 << 40)
            at, gap, count = start, min(stream["every_us"], most), 0
            while at < until and count < stream.get("count", ENDLESS):
                yield at, state, count
                at, gap, count = at + gap, min(gap * stream.get("grow", 1), most), count + 1

    def samples(self, stream, state, start, until):
        for count in range(stream.get("count", ENDLESS)):
            rate, samples = stream["smp_rate"], count * stream.get("asdus", 1)
            at = start + (2 * samples * 1000000 + rate) // (2 * rate)  # half a microsecond is rounded up
            if at >= until:
                return
            yield at, state, count

    def streams(self):
        """The plan's streams, each with its name, its kind and its number among those of its kind, from 1; and with what it publishes."""
        seen = Counter()
        for stream, one in zip(self.plan.get("stream", []), self.published):
            kind = KINDS.get(stream["type"], "other")
            seen[kind] += 1
            yield f"{kind}{seen[kind]}", stream, one

    def send(self, stream, title, one, name, state, count):
        behind = self.behind(name)
        kind = TYPES.get(stream["type"], stream["type"])
        said = {"do": "send", "node": f"{behind}-sans" if behind else name, "to": stream["to"], "type": kind, "stream": title}
        if behind and self.redboxes[behind].index(name):
            said["from"] = self.redboxes[behind].index(name)
        if "vlan" in stream or "priority" in stream or stream["type"] in TYPES:
            said["vlan"] = stream.get("priority", 4 if stream["type"] in TYPES else 0) * 8192 + stream.get("vlan", 0)
        said["to"] = stream["to"] if "-" in stream["to"] and len(stream["to"]) == 17 and stream["to"][2] == "-" else self.mac(stream["to"])
        if isinstance(stream["type"], int):
            said["payload"] = (count.to_bytes(4, "big") + bytes(1500))[: stream.get("size", 46)]
        else:
            said["payload"] = one.payload(name, state, count)
        return said

    def occasions(self):
        """What is to happen: a moment and what; those of one moment in their order."""
        listed = [(event["at_us"], event) for event in self.plan.get("event", [])]
        life = self.plan.get("life_ms", 2000) * 1000
        lives = [name for name in self.names if name not in self.couplers]
        listed += [(at, {"do": "life", "node": name}) for at in (range(0, self.until, life) if life else ()) for name in lives]
        for title, stream, one in self.streams():
            listed += [(at, self.send(stream, title, one, name, state, count)) for name in self.senders(stream) for at, state, count in self.moments(stream)]
        return sorted(listed, key=lambda occasion: occasion[0])

    def steps(self):
        """The steps that tell it: supervision about stations, and drains, are not among them."""
        links, now = list(self.ends()), 0
        off, cut = set(), set()
        for at, what in self.occasions():
            if at != now:
                now = at
                yield {"do": "clock", "at": at}
            if what.get("do") in ("life", "send"):
                if what["node"] not in off:
                    yield what
                continue
            before = [self.is_down(ends, off, cut) for ends in links]
            self.change(what, links, off, cut)
            for number, ends in enumerate(links):
                if self.is_down(ends, off, cut) != before[number]:
                    yield {"do": "mend" if before[number] else "cut", "link": number}

    def is_down(self, ends, off, cut):
        return ends in cut or any(end.split(".")[0] in off for end in ends)

    def change(self, what, links, off, cut):
        for key, one in (("off", off.add), ("on", off.discard)):
            if key in what:
                one(what[key])
        for key, one in (("cut", cut.add), ("mend", cut.discard)):
            if key in what:
                pair = set(what[key])
                one(next(ends for ends in links if {end.split(".")[0] for end in ends} == pair or set(ends) == pair))


# ---- the comparison


def is_told(said, step):
    """Whether a step of a scenario is what is meant."""
    want = {key: item for key, item in said.items() if key != "payload"}
    got = {key: item for key, item in step.items() if key not in ("payload", "port")}
    return want == got and ("payload" not in said or bytes.fromhex(step["payload"]) == said["payload"])


def known_behind(meaning, world, name):
    """The addresses of the stations behind a RedBox that it knows now, as supervision tells them."""
    box, macs = world.nodes[world.numbers[name]], map(meaning.mac, meaning.redboxes[name])
    return [(name, mac) for mac in macs if model.address(mac) != box.mac and box.knows(model.address(mac), max(box.moment, world.at))]


def wanted_deeds(meaning):
    """The steps that tell a plan, each with its moment."""
    now = 0
    for step in meaning.steps():
        if step["do"] == "clock":
            now = step["at"]
        else:
            yield now, step


class Paced:
    """A scenario that moves copies by hops or wires, played step by step; a step that stands where it may not is what is wrong."""

    def __init__(self, plan, scenario, table):
        self.meaning, self.has_begun = Meaning(plan), False
        self.world, self.wanted, self.abouts = model.World(scenario, table), wanted_deeds(self.meaning), []

    def waiting(self):
        return [row for link in self.world.links for queue in link.queues for row in queue]

    def is_tidy(self):
        return not any(self.world.outbox.values()) and not any(self.world.hand.values())

    def is_due(self, moment):
        return any(self.due(row, link) <= moment for link in self.world.links for queue in link.queues for row in queue[:1])

    def deed(self, step):
        """What is wrong with a step that is no move, or None."""
        if not self.is_tidy() or self.is_due(self.world.at):
            return "a copy comes first"
        if "about" in step:
            return None if self.abouts and self.abouts.pop(0) == (step["node"], step["about"]) else "about"
        at, said = next(self.wanted, (None, {}))
        return None if not self.abouts and at == self.world.at and is_told(said, step) else f"wanted {at} {said} {self.abouts}"

    def move(self, step):
        """What is wrong with a move of a copy, or None."""
        if step["do"] == "take":
            link = self.world.links[step["link"]]
            queue = link.queues[["forth", "back"].index(step["dir"])]
            return None if self.is_tidy() and queue and self.due(queue[0], link) == self.world.at else "not in time"
        return None

    def clock(self, step):
        if not self.is_tidy() or self.is_due(step["at"] - 1):
            return "a copy comes first"
        return None if step["at"] > self.world.at else "no later moment"

    def wrong(self, step):
        """What is wrong with the next step, or None; then it is done."""
        why = self.clock(step) if step["do"] == "clock" else self.move(step) if step["do"] in ("put", "take", "judge") else self.deed(step)
        rows = [len(link.rows) for link in self.world.links]
        if step["do"] == "drain":
            return "a drain"
        try:
            self.world.step(step, 1 << 30)
        except model.Refused as refused:
            return f"refused: {refused}"
        for link, count in zip(self.world.links, rows):
            for row in link.rows[count:]:
                self.note(row, link)
        self.has_begun = step["do"] not in ("clock", "put", "take", "judge") or self.has_begun and step["do"] != "clock"
        if step["do"] == "life" and "about" not in step and step["node"] in self.meaning.redboxes:
            self.abouts = known_behind(self.meaning, self.world, step["node"])
        return why

    def end(self):
        left = next(self.wanted, None)
        return None if self.is_tidy() and not self.waiting() and not self.abouts and left is None else f"the end: {left}"


class Hops(Paced):
    """By hops, each copy is taken so long after it was put."""

    def note(self, row, link):
        row.put_at = self.world.at

    def due(self, row, link):
        return row.put_at + hop_of(self.meaning.plan)


class Wires(Paced):
    """By wires, each direction of a link carries one frame at a time."""

    def __init__(self, plan, scenario, table):
        super().__init__(plan, scenario, table)
        self.rate, self.residence, self.cuts = plan.get("rate_mbps", 100), plan.get("residence_us", 5), plan.get("switching") == "cut"
        self.last = {}  # of each end of a link the copy that went last from there

    def time(self, octets):
        return -(-octets * 8 // self.rate)

    def free(self, end):
        """From when on the direction from an end is free."""
        row = self.last.get(end)
        return 0 if row is None or row.fate == "cut" else row.ends

    def note(self, row, link):
        """A copy that was put: unless it was lost then, it begins when its direction is free."""
        if row.fate is None:
            end = link.ends[row.dir]
            least = 60 if model.read(row.octets).seq is None else 66
            row.begins = max(self.world.at, self.free(end))
            row.ends = row.begins + self.time(max(least, len(row.octets)) + 24)
            self.last[end] = row

    def due(self, row, link):
        early = row.begins + self.time(22) + self.residence
        is_to_come = early > self.world.at or early == self.world.at and not self.has_begun
        here = link.ends[1 - row.dir]
        others = [end for end in self.world.ends if end[0] == here[0] and end != here]
        if self.cuts and is_to_come and others and all(self.free(end) <= early for end in others):
            return early
        return row.ends + self.residence


def check_paced(plan, scenario, table):
    """What is wrong with a scenario that moves copies by hops or wires, or None."""
    paced = (Hops if hop_of(plan) else Wires)(plan, scenario, table)
    for place, step in enumerate(scenario["step"]):
        if why := paced.wrong(step):
            return f"step {place}: {step}: {why}"
    return paced.end()


def sends_told(meaning):
    """The moments of the sends that a plan by hops or wires tells: of a RedBox about each station, known or not."""
    for at, step in wanted_deeds(meaning):
        if step["do"] in ("send", "life"):
            yield from [at] * (1 + len(meaning.redboxes.get(step["node"], [])) * (step["do"] == "life"))


def room(plan, scenario):
    """The capacity that a plan has: where it says none, the most sends that may be under way at once, 64 to 4096."""
    if "capacity" in plan:
        return plan["capacity"]
    most = sends = 0
    if hop := hop_of(plan):
        moments, way = list(sends_told(Meaning(plan))), 2 * len(scenario["link"]) * hop
        most = max((place + 1 - bisect_left(moments, at - way) for place, at in enumerate(moments)), default=0)
    elif is_paced(plan):
        # on wires a send may wait for as long as there is room
        most = len(list(sends_told(Meaning(plan))))
    for step in scenario["step"]:
        sends = 0 if step["do"] == "drain" else sends + (step["do"] in ("send", "life"))
        most = max(most, 0 if is_paced(plan) else sends)
    return max(64, min(most, 4096))


def check(plan, scenario, table):
    """What is wrong with a scenario, or None."""
    meaning = Meaning(plan)
    if scenario["capacity"] != room(plan, scenario):
        return f"capacity: not {room(plan, scenario)}"
    if [tuple(link["ends"]) for link in scenario["link"]] != list(meaning.ends()):
        return "links"
    if is_paced(plan):
        return check_paced(plan, scenario, table)
    world, wanted = model.World(scenario, TABLES["large"]), meaning.steps()
    abouts, last, each_send = [], None, plan.get("moves", "each send drains") == "each send drains"
    for place, step in enumerate(scenario["step"]):
        if step["do"] == "drain":
            if last is None or last not in ("send", "life") or (not each_send and place + 1 < len(scenario["step"]) and scenario["step"][place + 1]["do"] != "clock"):
                return f"drain at {place}"
        elif each_send and last in ("send", "life"):
            return f"no drain before {place}"
        elif step["do"] == "clock" and last in ("send", "life"):
            return f"no drain before {place}"
        elif "about" in step:
            if not abouts or abouts.pop(0) != (step["node"], step["about"]):
                return f"about at {place}"
        else:
            if abouts:
                return f"nothing about {abouts[0]} before {place}"
            if not is_told(next(wanted, {}), step):
                return f"step {place}: {step}"
        try:
            world.step(step, 1 << 30)
        except model.Refused as refused:
            return f"step {place} is refused: {refused}"
        if step["do"] == "life" and "about" not in step and step["node"] in meaning.redboxes:
            abouts = known_behind(meaning, world, step["node"])
        last = step["do"]
    if abouts or last in ("send", "life") or (more := next(wanted, None)):
        return f"the end: {abouts} {last} {more if not abouts and last not in ('send', 'life') else ''}"
    return None


def by_names(line, names):
    """A line of a report of which the nodes are told by their names, and entries by a node's name and their number."""
    words = line.split(" ")
    if words[0] == "doubt" and len(words) > 3 or words[:2] == ["budget", "late"]:
        words[2:] = [f"{names[int(words[2])]}:{words[3]}", *(names[int(word)] for word in words[4:])]
    return " ".join(words)


def outcomes(plan, scenario, world, names):
    """Each send, and of those that need it who missed it, had it twice, or had it where it wasn't due. It is needed by those whom its stream
    is for, as far as they are on then; by all, where its stream names none."""
    meaning, told = Meaning(plan), [iter(titles) for titles in model.streams(scenario)]
    whom = {title: {meaning.node(name) for name in meaning.receivers(stream)} for title, stream, *_ in meaning.streams()}
    for (number, place), _, (_, *got, _) in world.all_deliveries():
        at, receivers = world.nodes[number].record[place][1], whom.get(next(told[number]))
        needs = [not (receivers and name not in receivers or meaning.is_off(name, at)) for name in names]
        yield (number, place), [[node for node in nodes if needs[node]] for nodes in got]


class Count:
    """What a line of a sweep says of a plan's run, by model.py."""

    def __init__(self, said):
        ended = subprocess.run([PLANNER], input=said, capture_output=True, text=True, timeout=60)
        scenario = tomllib.loads(ended.stdout)
        _, _, fault, world = model.run(scenario, 512, 1 << 30)
        names = [node["name"] for node in scenario["node"]]
        sends, all_outcomes = zip(*outcomes(tomllib.loads(said), scenario, world, names)) if world.sends() else ((), ())
        self.sends, self.complete = len(sends), sum(not any(outcome) for outcome in all_outcomes)
        self.missed, self.twice = (sum(bool(outcome[place]) for outcome in all_outcomes) for place in (0, 1))
        self.needed, self.budget = int(world.needed().split()[1]), by_names(world.budget(), names)
        latency, load = world.latency()[-1].split(), world.load()[-1].split()
        self.latency, self.load = 0 if latency[1] == "none" else int(latency[2]), 0 if load[1] == "none" else int(load[2])
        self.doubt = by_names(world.network_verdict(), names) + fault
        if self.doubt.startswith("doubt cut-off "):
            first = next(((send, outcome[0][0]) for send, outcome in zip(sends, all_outcomes) if outcome[0]), None)
            self.doubt = f"doubt cut-off {names[first[0][0]]}:{first[0][1]} {names[first[1]]}" if first else "none missed"

    def line(self, limits):
        """The line behind what was off, with these limits on latency and load."""
        numbers = f"sends {self.sends} complete {self.complete} missed {self.missed} twice {self.twice} needed {self.needed} {self.budget}"
        over = ["" if limit is None or number <= limit else f" over {limit}" for number, limit in zip((self.latency, self.load), limits)]
        return f"{numbers} latency {self.latency}{over[0]} load {self.load}{over[1]} {self.doubt}"

    def is_over(self, limits):
        return any(limit is not None and number > limit for number, limit in zip((self.latency, self.load), limits))


def cases_of(plan, at, pairs):
    """All that is off in turn: how many links and nodes, what a line calls it, what the list of single points does, and the events."""
    meaning = Meaning(plan)
    ends, nodes = list(meaning.ends()), meaning.names + [f"{box}-sans" for box in meaning.boxes]
    ones = [(f"link {k} {a} {b}", f"{a}-{b}", f'cut = ["{a}", "{b}"]') for k, (a, b) in enumerate(ends)]
    ones += [(f"node {k} {name}", name, f'off = "{name}"') for k, name in enumerate(nodes)]
    events = [f"[[event]]\nat_us = {at}\n{deed}\n" for _, _, deed in ones]
    yield from ((1, line, point, event) for (line, point, _), event in zip(ones, events))
    if pairs:
        for first in range(len(ones)):
            yield from ((2, f"{ones[first][0]}, {ones[second][0]}", None, events[first] + events[second]) for second in range(first + 1, len(ones)))
    yield 0, "undisturbed", None, ""


def lines_of_sweep(said, at, pairs, part, limits):
    """The lines of a sweep, and its status."""
    cases = [*cases_of(tomllib.loads(said), at, pairs)]
    cases = cases[part[0] - 1 :: part[1]] if part else cases
    counts = [Count(said + event) for _, _, _, event in cases]
    whole = [count.complete == count.sends for count in counts]
    lines = [f"{line} {count.line(limits)}" for (_, line, _, _), count in zip(cases, counts)]
    status = 2 if any(count.is_over(limits) or off < 2 and not is_whole for (off, _, _, _), count, is_whole in zip(cases, counts, whole)) else 0
    if part:
        return lines, status
    points = [point for (off, _, point, _), is_whole in zip(cases, whole) if off == 1 and not is_whole]
    lines += [f"single points of failure: {', '.join(points)}" if points else "no single point of failure"]
    beyond = [count.budget for count in counts if not count.budget.split()[1].isdigit()]
    budget = beyond[0] if beyond else f"budget {max(int(count.budget.split()[1]) for count in counts)}"
    return [*lines, f"needed {max(count.needed for count in counts)}", budget], status


def swept(said, at, chance):
    """What is wrong with the lines of a sweep, or None."""
    plan = tomllib.loads(said)
    pairs, part = chance.random() < 0.2 and len([*Meaning(plan).ends()]) < 5, chance.choice([None, None, (1, 2), (2, 2), (2, 3), (9, 9)])
    limits = [chance.choice([None, None, 0, 200]), chance.choice([None, None, 0, 1500])]
    words = ["--pairs"] * pairs + (["--part", f"{part[0]}/{part[1]}"] if part else [])
    words += [word for name, limit in zip(("latency", "load"), limits) if limit is not None for word in (f"--limit-{name}", str(limit))]
    ended = subprocess.run([PLANNER, "sweep", "--at-us", str(at), *words], input=said, capture_output=True, text=True, timeout=300)
    if at > plan.get("until_us", at):
        is_told = ended.returncode == 1 and not ended.stdout and ended.stderr.startswith("fault: plan ") and "until_us" in ended.stderr
        return None if is_told else f"status {ended.returncode}, {ended.stderr}, not that {at} is behind until_us"
    wanted, status = lines_of_sweep(said, at, pairs, part, limits)
    wrong = next((f"{got} and not {want}" for got, want in zip(ended.stdout.splitlines() + [""], wanted + [""]) if got != want), ended.stderr or None)
    return wrong or (None if ended.returncode == status else f"status {ended.returncode} and not {status}")


def played(scenario, table):
    """What the bench says of a refused step, or None. Where a small table forgets what it needs, copies may go round for ever."""
    ended = subprocess.run([BENCH, "run", "--table", table], input=scenario, capture_output=True, text=True, timeout=120)
    if ended.returncode in (0, 2) or TABLES[table] < 512 and ended.stderr.endswith(" unsettled\n"):
        return None
    return ended.stderr


def faulty(plan, table, ended):
    """The reason that a fault's line tells, and what is wrong with it, or None."""
    reasons = [*Meaning(plan).reasons()]
    if TABLES[table] < 512 and is_paced(plan):
        reasons.append("copies are still on their way after ")
    line = ended.stderr
    reason = next((reason for reason in reasons if reason in line), None)
    if ended.returncode != 1 or ended.stdout or not line.startswith("fault: plan ") or line.count("\n") != 1 or not reason:
        return reason, f"status {ended.returncode}, {line}, not {reasons}"
    return " ".join(word for word in reason.split() if "-" not in word and word != "nobody:"), None


def comments(plan, scenario):
    """The title, and the comment that counts, by the steps of the scenario."""
    moments, now = [], 0
    for step in scenario["step"]:
        now = step.get("at", now)
        moments += [now] * (step["do"] in ("send", "life"))
    most = max((bisect_left(moments, start + 800_000) - bisect_left(moments, start) for start in moments), default=0)
    counts = f"{len(scenario['node'])} nodes, {len(scenario['link'])} links, {len(moments)} sends, at most {most} in 800 ms"
    moves = f"hop_us = {hop_of(plan)}" if hop_of(plan) else plan.get("moves", "each send drains")
    if moves == "wire":
        moves = f"wire {plan.get('rate_mbps', 100)} Mbit/s, {plan.get('residence_us', 5)} us, {plan.get('switching', 'store')}"
    return f"# {plan['title']}\n# {counts}; copies: {moves}\n"


def checked(scenario):
    """What `--check` says of a scenario, or None."""
    ended = subprocess.run([PLANNER, "--check"], input=scenario, capture_output=True, text=True, timeout=120)
    return ended.stderr or ended.stdout or (f"status {ended.returncode}" if ended.returncode else None)


def told(plan, table, scenario):
    """What is wrong with the scenario of a plan, or None."""
    for reason in Meaning(plan).reasons():
        return f"no fault, although {reason}"
    read = tomllib.loads(scenario)
    if not scenario.startswith(comments(plan, read)):
        return f"the comments: not {comments(plan, read)}"
    return check(plan, read, TABLES[table]) or (TABLES[table] == 512 and checked(scenario)) or (BENCH and played(scenario, table))


def one(seed, counts):
    """Plans one random plan, and counts it. What is wrong, or None."""
    said, table = text(random_plan(random.Random(seed))), random.Random(-seed).choice(["small", "large", "large", *TABLES])
    plan = tomllib.loads(said)
    ended = subprocess.run([PLANNER, "--table", table], input=said, capture_output=True, text=True, timeout=60)
    if ended.returncode:
        reason, wrong = faulty(plan, table, ended)
        counts[f"fault: {reason}"] += 1
    else:
        wrong = told(plan, table, ended.stdout)
        counts["told"] += 1
        counts["by hops"] += hop_of(plan) is not None
        counts["by wires"] += plan.get("moves") == "wire"
        if not wrong and seed % EACH == 0:
            wrong = swept(said, seed % 3 * 2000, random.Random(seed))
            counts["swept"] += 1
    return wrong and f"{said}\nseed {seed}: {wrong}"


def use(planner, bench):
    """The programs that are compared; without a bench no scenario is played by it."""
    global PLANNER, BENCH
    PLANNER, BENCH = planner, bench


def compare(seeds, seconds):
    """Compares the plans of these seeds, or as many as the seconds allow: how many passed, what came of them, and what is wrong."""
    counts, passed, began = Counter(), 0, time.monotonic()
    for seed in seeds:
        if seconds and time.monotonic() > began + seconds:
            break
        if wrong := one(seed, counts):
            return passed, counts, wrong
        passed += 1
    return passed, counts, None


def main():
    planner, count, seed, bench, seconds = (sys.argv[1:] + ["1000", "1", None, 0][len(sys.argv) - 2 :])[:5]
    use(planner, bench)
    passed, counts, wrong = compare(range(int(seed), int(seed) + int(count)), float(seconds))
    print(wrong or "", end="\n" if wrong else "")
    print(", ".join(f"{count} {what}" for what, count in sorted(counts.items())))
    print(f"{passed} passed, {1 if wrong else 0} failed")
    sys.exit(1 if wrong else 0)


if __name__ == "__main__":
    main()
