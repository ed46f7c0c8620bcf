"""A second reading of docs/RULES.md, "Certified in any order": of the steps of a scenario alone, with no play of them.

    python3 tests/second/any_order.py [--table T] [--within US] [--coarse] < SCENARIO.toml

It prints the line, and ends with status 0 where the scenario is certified, and 2 where it is doubted. Networks are model.py's.

Where the rules may be read in two ways:
- The clock rises from a step up to the moment of another, which is that before the other. So a clock that ends a span is no rise in it.
- A step `life` that names the node's own address is refused of a DANH, as in worlds, and of a RedBox, as its own address is no station's.
- A node numbers each send of its own, and a RedBox each of its Station, even if it turns out in a play that one gets no number.
"""
import argparse
import sys
from bisect import bisect_left, bisect_right
from dataclasses import dataclass
from itertools import accumulate

import model

FINE = ("put", "take", "judge", "inject")
NUMBERS = 65536
# Conditions that `weaker` may leave out, or weaken by one; for experiments alone.
WEAKER = {
    "open": "a span may go on to the end of the steps",
    "mode": "a node may be in mode N",
    "same-address": "two nodes may have an address",
    "back": "the clock may go back",
    "late": "the clock may rise by 400 ms",
    "crowded": "a span may meet one more than a table has entries",
    "wrapped": "a node may number 65537 sends",
    "uncovered-address": "a send may be to a Station's address",
    "uncovered-supervision": "a Station may send supervision to a Station",
    "queue": "one more may be open than a direction has room",
    "cut-off": "no route needs to be there",
    "cut-before": "a link that was cut before the span counts as none that is down",
    "cut-within": "a link that is cut in the span counts as none that is down",
    "cut-mended": "a link that is cut in the span and mended there counts as none that is down",
    "known-unsaid": "a RedBox needs no send of its Station to know its addresses",
    "known-other": "a send from another address of the Station will do",
    "known-open": "the span of the Station's send needn't have ended",
    "known-down": "the link may be down in the span of the Station's send",
    "known-late": "the clock may rise by 60 s since then",
    "within": "a span ends with a clock that sets the moment to one less",
}


@dataclass
class Send:
    """A send: its step, what that says, its node, and the step that ends its span, if one does."""

    step: int
    said: dict
    node: model.Node
    end: int | None

    def source(self):
        return self.node.addresses()[self.said.get("from", 0)]

    def frame(self):
        """Its frame, of a send that isn't refused."""
        if self.said["do"] == "life":
            about = model.address(self.said["about"]) if "about" in self.said else None
            return model.supervision(self.node.mac, about, 0)
        dst, payload = model.address(self.said["to"]), bytes.fromhex(self.said.get("payload", ""))
        return model.Frame(dst, self.source(), self.said.get("vlan"), self.said["type"], payload)


class Certifier:
    """What is asked of a scenario, one doubt after the other. Each says the words behind its name, at the lowest step, or None."""

    def __init__(self, scenario, table, within=None, weaker=""):
        self.world = model.World(scenario, table)  # nothing is played in it
        self.steps, self.table, self.within, self.weaker = scenario["step"], table, within, weaker
        moments = [said["at"] * self.world.unit if said["do"] == "clock" else None for said in self.steps]
        self.behind = list(accumulate(moments, lambda before, at: before if at is None else at, initial=0))[1:]  # the moment behind each step
        self.cuts = [(step, said["do"], said["link"]) for step, said in enumerate(self.steps) if said["do"] in ("cut", "mend")]
        self.sends = [self.send_at(step) for step, said in enumerate(self.steps) if said["do"] in ("send", "life")]
        self.ends = sorted(send.end for send in self.sends if send.end is not None)
        self.routes = {}  # where it was looked already where a frame comes

    # -- spans, and what the clock and links do in them

    def moment(self, step):
        """The moment of a step, which is that before it."""
        return self.behind[step - 1] if step else 0

    def send_at(self, step):
        said = self.steps[step]
        return Send(step, said, self.node(said["node"]), self.end_of(step))

    def end_of(self, step):
        """The step that ends the span of a send."""
        for later in range(step + 1, len(self.steps)):
            do = self.steps[later]["do"]
            if do == "drain" or do == "clock" and self.within is not None and self.behind[later] >= self.moment(step) + self.least():
                return later
        return len(self.steps) if self.weaker == "open" else None

    def least(self):
        """How long a copy lives at most, by which a clock ends a span."""
        return self.within - (self.weaker == "within")

    def rise(self, first, other):
        """By how much the clock rises from a step to another."""
        between = self.behind[first:other]
        return max((late - early for late, early in zip(between, accumulate(between, min))), default=0)

    def downs(self, send):
        """The links that are down in the span of a send."""
        before, within, mended = set(), set(), set()
        for step, do, link in self.cuts:
            if step < send.step:
                before = before | {link} if do == "cut" else before - {link}
            elif send.end is None or step < send.end:
                (within if do == "cut" else mended).add(link)
        before = set() if self.weaker == "cut-before" else before
        within = set() if self.weaker == "cut-within" else within - mended if self.weaker == "cut-mended" else within
        return before | within

    def met(self, send):
        """How many spans the span of a send meets, its own too: those that begin before it ends, but for those that have ended where it begins."""
        return bisect_left(self.sends, send.end, key=lambda one: one.step) - self.ended(send.step)

    def count_open(self, step):
        """How many sends are open behind a step."""
        return bisect_right(self.sends, step, key=lambda one: one.step) - self.ended(step)

    def ended(self, step):
        """How many spans have ended at a step, with it or before."""
        return bisect_right(self.ends, step)

    # -- the network

    def node(self, name):
        return self.world.nodes[self.world.numbers[name]] if name in self.world.numbers else None

    def joined(self, node, role):
        """The node of a role with which a RedBox is joined by its interlink, or a Station by its port; and the number of that link."""
        for number, link in enumerate(self.world.links):
            for own, other in (link.ends, link.ends[::-1]):
                if own == (node.number, model.PORTS[node.role][-1]) and self.world.nodes[other[0]].role == role:
                    return self.world.nodes[other[0]], number
        return None, None

    def numbering(self, send):
        """The node that numbers a send, or None."""
        return self.joined(send.node, "redbox")[0] if send.node.role == "station" else send.node

    # -- refused steps

    def is_refused(self, step):
        said = self.steps[step]
        if "link" in said:
            return not 0 <= said["link"] < len(self.world.links)
        if "node" not in said:
            return False
        node = self.node(said["node"])
        is_refused = {"send": self.is_send_refused, "life": self.is_life_refused, "age": lambda *_: False}
        return node is None or is_refused[said["do"]](step, said, node)

    def is_send_refused(self, _, said, node):
        if said.get("from", 0) >= len(node.addresses()):
            return True
        is_to_itself = model.address(said["to"]) == node.addresses()[said.get("from", 0)]
        return is_to_itself or said["type"] in (model.HSR, model.VLAN) or len(said.get("payload", "")) > 2 * 1500

    def is_life_refused(self, step, said, node):
        if node.role in ("quadbox", "station"):
            return True
        if "about" not in said:
            return False
        return node.role == "danh" or not self.surely_knows(node, model.address(said["about"]), step)

    def surely_knows(self, box, mac, step):
        """Whether a RedBox knows an address at a step in each play."""
        station, link = self.joined(box, "station")
        if station is None or mac not in station.addresses():
            return False
        if self.weaker == "known-unsaid":
            return True
        return any(self.tells(send, mac, link, step) for send in self.sends if send.node is station)

    def tells(self, send, mac, link, step):
        """Whether a send of the Station tells its RedBox an address for sure, so that it knows it at a step."""
        place, macs = send.said.get("from", 0), send.node.addresses()
        if place >= len(macs) or macs[place] != mac and self.weaker != "known-other":
            return False
        if self.weaker == "known-open":
            return send.step < step
        is_down = self.weaker != "known-down" and send.end is not None and link in self.downs(send)
        most = model.PROXY_FORGET + (self.weaker == "known-late")
        return send.end is not None and send.end <= step and not is_down and self.rise(send.step, step) < most

    # -- the doubts

    def empty(self):
        return None if self.sends else []

    def fine(self):
        return first(step for step, said in enumerate(self.steps) if said["do"] in FINE)

    def open(self):
        return first(send.step for send in self.sends if send.end is None)

    def mode(self):
        return [] if any(node.mode == "N" for node in self.world.nodes) and self.weaker != "mode" else None

    def same_address(self):
        macs = [mac for node in self.world.nodes for mac in node.addresses()]
        return [] if len(set(macs)) < len(macs) and self.weaker != "same-address" else None

    def side(self):
        return first(number for number, link in enumerate(self.world.links) if len({port in "IP" for _, port in link.ends}) == 2)

    def refused(self):
        return first(step for step in range(len(self.steps)) if self.is_refused(step))

    def back(self):
        clocks = (step for step, said in enumerate(self.steps) if said["do"] == "clock" and self.weaker != "back")
        return first(step for step in clocks if self.behind[step] < self.moment(step))

    def late(self):
        most = model.ENTRY_FORGET + (self.weaker == "late")
        return first(send.step for send in self.sends if self.rise(send.step, send.end) >= most)

    def crowded(self):
        most = self.table + (self.weaker == "crowded")
        return first(send.step for send in self.sends if self.met(send) > most)

    def wrapped(self):
        most, counts = NUMBERS + (self.weaker == "wrapped"), {}
        for send in self.sends:
            if box := self.numbering(send):
                if counts.get(box.number, 0) >= most:
                    return [send.step]
                counts[box.number] = counts.get(box.number, 0) + 1
        return None

    def uncovered(self):
        return first(send.step for send in self.sends if self.is_uncovered(send))

    def is_uncovered(self, send):
        frame, stations = send.frame(), [node for node in self.world.nodes if node.role == "station"]
        if any(frame.dst in station.macs for station in stations):
            return self.weaker != "uncovered-address"
        if send.node.role != "station" or not frame.is_supervision() or self.weaker == "uncovered-supervision":
            return False
        return self.joined(send.node, "station")[0] is not None

    def queue(self):
        most = self.world.room + (self.weaker == "queue")
        return first(send.step for send in self.sends if self.count_open(send.step) > most)

    def cut_off(self):
        for send in self.sends if self.weaker != "cut-off" else []:
            frame, downs = send.frame(), self.downs(send)
            key = (send.node.number, frame.src, frame.dst, frame.kind, tuple(sorted(downs)))
            if key not in self.routes:
                self.routes[key] = self.cut_offs(send, frame, downs)
            if self.routes[key]:
                return [send.step, self.routes[key][0]]
        return None

    def cut_offs(self, send, frame, downs):
        """The nodes to which no route leads a send that is due there, rising."""
        own = (send.node.number, None)
        lost = [end for number in downs for end in self.world.links[number].ends]
        reached = self.world.reached(own, frame, lost)
        return [number for number in self.world.due(own, frame) if not self.world.comes(own, frame, number, reached, lost)]

    def line(self):
        for name, ask in DOUBTS.items():
            words = ask(self)
            if words is not None:
                return " ".join(["doubt", name, *map(str, words)])
        return f"certified {len(self.sends)} in any order"


DOUBTS = {  # in the order in which they are asked
    "empty": Certifier.empty,
    "fine": Certifier.fine,
    "open": Certifier.open,
    "mode": Certifier.mode,
    "same-address": Certifier.same_address,
    "side": Certifier.side,
    "refused": Certifier.refused,
    "back": Certifier.back,
    "late": Certifier.late,
    "crowded": Certifier.crowded,
    "wrapped": Certifier.wrapped,
    "uncovered": Certifier.uncovered,
    "queue": Certifier.queue,
    "cut-off": Certifier.cut_off,
}


def first(numbers):
    """The first of some numbers, as what a doubt names; None where there is none."""
    lowest = next(iter(numbers), None)
    return None if lowest is None else [lowest]


def coarse_of(scenario):
    """The scenario of which coarse orders are."""
    return {**scenario, "step": [said for said in scenario["step"] if said["do"] not in FINE] + [{"do": "drain"}]}


def certify(scenario, table, within=None, coarse=False, weaker=""):
    """The line of a scenario: `certified <sends> in any order`, or its first doubt."""
    return Certifier(coarse_of(scenario) if coarse else scenario, table, within, weaker).line()


def is_certified(line):
    return line.startswith("certified")


def main():
    parser = argparse.ArgumentParser()
    parser.add_argument("--table", choices=model.SIZE_WORDS, default="large")
    parser.add_argument("--within", type=int)
    parser.add_argument("--coarse", action="store_true")
    chosen = parser.parse_args()
    import tomllib  # of Python 3.11; the tests go without it

    said = tomllib.loads(sys.stdin.read())
    scenario = {"node": [], "link": [], "step": [], **said}
    line = certify(scenario, model.SIZE_WORDS[chosen.table], chosen.within, chosen.coarse)
    print(line)
    return 0 if is_certified(line) else 2


if __name__ == "__main__":
    sys.exit(main())
