"""A second bench, written after docs/RULES.md and in another language, to compare the program with (compare.py does that).

It is plain, not fast and not proved: a node keeps all that it ever noted, and looks through it. All modes and kinds of nodes; moments
are in microseconds.
"""
from dataclasses import dataclass, field
from itertools import accumulate

SUPERVISION = bytes.fromhex("01154E000100")
VLAN, HSR, SUPERVISION_TYPE = 0x8100, 0x892F, 0x88FB
ENTRY_FORGET, PROXY_FORGET, PROXIES = 400_000, 60_000_000, 64
SIZES = [4, 8, 16, 32, 64, 128, 256, 512, 1024, 2048, 4096, 8192, 16384, 32768, 65535]  # how many entries a table may have
SIZE_WORDS = {"small": 4, "large": 512, **{str(size): size for size in SIZES}}
MICROSECONDS = {"ms": 1000, "us": 1}  # in one of the unit in which a text tells moments
PORTS = {"danh": "AB", "redbox": "ABI", "quadbox": "ABCD", "station": "P"}
CAUSES = ["duplicate", "returned", "foreign", "local", "untagged", "tagged", "malformed"]


class Refused(Exception):
    """A step that is refused, with its word."""


class Unsettled(Exception):
    """A drain that takes more steps than it may."""


# ---- addresses and frames


def address(text):
    return bytes(int(pair, 16) for pair in text.split("-"))


def printed(mac):
    return "-".join(f"{octet:02X}" for octet in mac)


def is_group(mac):
    return mac[0] & 1 == 1


def word(number):
    return number.to_bytes(2, "big")


def word_at(octets, place):
    return octets[place] * 256 + octets[place + 1]


def hexadecimal(octets):
    return octets.hex().upper() if octets else "-"


@dataclass
class Frame:
    """A frame without its HSR tag; `seq` is the number in its tag, if it came with one."""

    dst: bytes
    src: bytes
    vlan: int | None
    kind: int
    payload: bytes
    seq: int | None = None

    def head(self):
        return self.dst + self.src + (b"" if self.vlan is None else word(VLAN) + word(self.vlan))

    def plain(self):
        return self.head() + word(self.kind) + self.payload

    def tagged(self, port, seq):
        path = {"A": 0, "B": 1}[port]
        return self.head() + word(HSR) + word(path << 12 | len(self.payload) + 6) + word(seq) + word(self.kind) + self.payload

    def is_supervision(self):
        return self.dst == SUPERVISION and self.kind == SUPERVISION_TYPE


def read(octets):
    """The frame that octets are, or the number of the first fault."""
    if len(octets) < 14:
        return 1
    place, vlan = 12, None
    if word_at(octets, 12) == VLAN:
        if len(octets) < 18:
            return 1
        place, vlan = 16, word_at(octets, 14)
    dst, src, kind, rest = octets[:6], octets[6:12], word_at(octets, place), octets[place + 2 :]
    if len(rest) > 1506:
        return 2
    if is_group(src):
        return 3
    if vlan is not None and kind == VLAN:
        return 4
    if kind != HSR:
        return 2 if len(rest) > 1500 else Frame(dst, src, vlan, kind, rest)
    if len(rest) < 6:
        return 5
    inner = word_at(rest, 4)
    if inner == HSR:
        return 6
    if inner == VLAN:
        return 4
    return Frame(dst, src, vlan, inner, rest[6:], word_at(rest, 2))


def supervision(own, about, life):
    """The supervision frame of a node with address `own`, about itself or a station."""
    said = word(1) + word(life) + bytes([23, 6]) + (about or own) + (bytes([30, 6]) + own if about else b"")
    return Frame(SUPERVISION, own, None, SUPERVISION_TYPE, said.ljust(46, b"\0"))


# ---- nodes


@dataclass
class Answer:
    """What an event does: its outcome as a transcript spells it, and the copies that leave, by port."""

    outcome: str
    copies: dict


@dataclass
class Wish:
    """What is made of an arrival before any table is asked."""

    exits: list = field(default_factory=list)
    cause: str = ""
    key: tuple | None = None
    is_numbered: bool = False


class Node:
    def __init__(self, number, said, capacity):
        self.number, self.role, self.capacity = number, said["role"], capacity
        self.mac = address(said["mac"]) if "mac" in said else None
        self.macs = [address(mac) for mac in said.get("macs", [])]
        self.mode = said.get("mode", "H")
        self.moment = self.next = self.lives = self.sent = self.up = self.forwarded = 0
        self.causes = dict.fromkeys(CAUSES, 0)
        self.notes = {}  # by egress: (source and number, moment, send), the oldest first
        self.heard = []  # (address, moment) of stations, the latest last
        self.record = []
        self.frames = {}  # of its own, by place
        self.forgot = self.mistaken = self.numbered_late = None  # the first place of each
        self.needed = (0, None)  # the greatest count of notes that an arrival needed, and its first place
        self.unknown = set()  # the sends that were handled while the destination wasn't a known station

    def spelled(self):
        said = {"station": [printed(mac) for mac in self.macs], "quadbox": []}
        return " ".join([self.role] + said.get(self.role, [printed(self.mac or b""), self.mode]))

    def addresses(self):
        return self.macs if self.role == "station" else [self.mac] if self.mac else []

    # -- what is remembered and known

    def remembered(self, out):
        youngest = self.notes.get(out, [])[-self.capacity :]
        return [note for note in youngest if self.moment - note[1] < ENTRY_FORGET]

    def note(self, outs, key, send):
        for out in outs:
            self.notes.setdefault(out, []).append((key, self.moment, send))

    def hear(self, mac):
        self.heard = [(other, at) for other, at in self.heard if other != mac] + [(mac, self.moment)]

    def knows(self, mac, moment):
        return any(other == mac and moment - at < PROXY_FORGET for other, at in self.heard[-PROXIES:])

    def ask(self, frame, send):
        """Notes a send whose destination isn't known when it is handled."""
        if not isinstance(frame, int) and not self.knows(frame.dst, self.moment):
            self.unknown.add(send)

    def take_number(self):
        number, self.next = self.next, (self.next + 1) % 65536
        return number

    # -- events of its own

    def source(self, place):
        macs = self.addresses()
        if place >= len(macs):
            raise Refused("wrong-event")
        return macs[place]

    def send(self, at, place, dst, vlan, kind, payload):
        own = self.source(place)
        if dst == own:
            raise Refused("self-addressed")
        if kind in (HSR, VLAN):
            raise Refused("reserved-type")
        if len(payload) > 1500:
            raise Refused("too-long")
        self.moment, self.sent = max(self.moment, at), self.sent + 1
        frame = self.frames[len(self.record)] = Frame(dst, own, vlan, kind, payload)
        self.ask(frame, (self.number, len(self.record)))
        if self.role == "station" or self.role == "redbox" and self.knows(dst, self.moment):
            port = PORTS[self.role][-1]
            return Answer(f"sent - {port}", {port: frame.plain()})
        ports = PORTS[self.role] if is_group(dst) and not frame.is_supervision() else "AB"
        return self.numbered("sent {}", frame, ports)

    def life(self, at, about):
        if self.mac is None or about is not None and self.role == "danh":
            raise Refused("wrong-event")
        if about is not None and (about == self.mac or not self.knows(about, max(self.moment, at))):
            raise Refused("not-proxied")
        self.moment, life = max(self.moment, at), self.lives % 65536
        self.lives += 1
        frame = self.frames[len(self.record)] = supervision(self.mac, about, life)
        return self.numbered(f"life {{}} {life}", frame, "AB")

    def numbered(self, outcome, frame, ports):
        """A frame of the node's own leaves with the next number, without a look."""
        seq = self.take_number()
        self.note(ports, (frame.src, seq), (self.number, len(self.record)))
        copies = {port: frame.plain() if port == "I" else frame.tagged(port, seq) for port in ports}
        return Answer(" ".join([outcome.format(seq), *ports]), copies)

    def age(self, at):
        self.moment = max(self.moment, at)
        return Answer("aged", {})

    # -- arrivals

    def wish(self, port, frame):
        if isinstance(frame, int):
            return Wish(cause="malformed")
        if self.role == "station":
            return self.wish_of_station(frame)
        if self.role == "quadbox":
            others = [other for other in "ABCD" if other != port]
            return Wish(others, key=(frame.src, frame.seq)) if frame.seq is not None else Wish(cause="untagged")
        return self.wish_from_interlink(frame) if port == "I" else self.wish_from_ring(port, frame)

    def wish_of_station(self, frame):
        if frame.seq is not None:
            return Wish(cause="tagged")
        if frame.src in self.macs:
            return Wish(cause="returned")
        return Wish(["up"]) if frame.dst in self.macs or is_group(frame.dst) else Wish(cause="foreign")

    def wish_from_interlink(self, frame):
        if frame.seq is not None:
            return Wish(cause="tagged")
        if frame.src == self.mac:
            return Wish(cause="returned")
        self.hear(frame.src)
        if frame.dst == self.mac:
            return Wish(["up"])
        if self.knows(frame.dst, self.moment):
            return Wish(cause="local")
        return Wish(["up", "A", "B"] if is_group(frame.dst) else ["A", "B"], is_numbered=True)

    def wish_from_ring(self, port, frame):
        if frame.seq is None:
            return Wish(cause="untagged")
        key, onward = (frame.src, frame.seq), {"A": ["B"], "B": ["A"]}[port] if self.mode != "N" else []
        delivered_on = onward if self.mode == "U" else []
        if frame.src == self.mac:
            return Wish(cause="returned")
        if frame.dst == self.mac:
            return Wish(["up"] + delivered_on, key=key)
        if is_group(frame.dst):
            interlink = ["I"] if self.role == "redbox" and not frame.is_supervision() else []
            return Wish(["up"] + interlink + onward, key=key)
        if self.role == "redbox" and self.knows(frame.dst, self.moment):
            return Wish(["I"] + delivered_on, key=key)
        return Wish(onward, "foreign", key)

    def judge(self, at, port, octets, send):
        self.moment = max(self.moment, at)
        frame = read(octets)
        wish = self.wish(port, frame)
        self.ask(frame, send)
        if wish.key:
            self.doubt(wish, send)
            self.measure(wish, send)
        if wish.is_numbered:
            self.doubt_number(send)
        seq = self.take_number() if wish.is_numbered else None
        passed = [out for out in wish.exits if all(note[0] != wish.key for note in self.remembered(out))] if wish.key else wish.exits
        if wish.key or wish.is_numbered:
            key = (frame.src, seq) if wish.is_numbered else wish.key
            self.note(passed + (["I"] if wish.is_numbered else []), key, send)
        cause = "passed" if passed else "duplicate" if wish.exits else wish.cause
        return self.judged(frame, octets, passed, cause, seq)

    def judged(self, frame, octets, passed, cause, seq):
        ports = [port for port in PORTS[self.role] if port in passed]
        self.up += "up" in passed
        self.forwarded += len(ports)
        if cause != "passed":
            self.causes[cause] += 1
        copies = {}
        for port in ports:
            copies[port] = frame.tagged(port, seq) if seq is not None else frame.plain() if port == "I" else octets
        words = ["judged", f"malformed-{frame}" if cause == "malformed" else cause, "-" if seq is None else str(seq)]
        return Answer(" ".join(words + (["up"] if "up" in passed else []) + ports), copies)

    def doubt(self, wish, send):
        """Notes the first place where something needed is forgotten, and where a number is mistaken."""
        for out in wish.exits:
            remembered = self.remembered(out)
            was_noted = any(note[2] == send for note in self.notes.get(out, []))
            if self.forgot is None and was_noted and all(note[2] != send for note in remembered):
                self.forgot = len(self.record)
            if self.mistaken is None and any(note[0] == wish.key and note[2] != send for note in remembered):
                self.mistaken = len(self.record)

    def measure(self, wish, send):
        """Notes the greatest count of notes that a table must hold to know an arrival's send again, and the first place of it."""
        for out in wish.exits:
            counts = [count for count, note in enumerate(reversed(self.notes.get(out, [])), 1) if note[2] == send]
            if counts and self.moment - self.notes[out][-counts[0]][1] < ENTRY_FORGET and counts[0] > self.needed[0]:
                self.needed = (counts[0], len(self.record))

    def doubt_number(self, send):
        """Notes the first place where a frame gets a number though its send was noted before, so that its copies don't match."""
        if self.numbered_late is None and any(note[2] == send for notes in self.notes.values() for note in notes):
            self.numbered_late = len(self.record)

    # -- what the audit of networks supposes of a node

    def passes_on(self, port, frame):
        """Whether a frame of another node, that came by a port, goes on to the other ports."""
        if self.role in ("quadbox", "station"):
            return self.role == "quadbox"
        return frame.dst != self.mac or self.mode != "H" and port != "I"

    def lets_out(self, port, frame):
        """Whether a frame that goes on leaves by a port."""
        return port != "I" or is_group(frame.dst) and not frame.is_supervision()

    # -- what a report says

    def counters(self):
        dropped = sum(self.causes[cause] for cause in CAUSES[2:])
        counts = [("sent", self.sent), ("life", self.lives), ("up", self.up), ("forwarded", self.forwarded)]
        counts += [("duplicate", self.causes["duplicate"]), ("returned", self.causes["returned"]), ("dropped", dropped)]
        return " ".join(f"{name} {count}" for name, count in counts)


# ---- worlds


@dataclass
class Row:
    """A copy on a link: its direction (0 forth, 1 back), its send, and what became of it (None: it waits)."""

    dir: int
    send: tuple | None
    octets: bytes
    fate: str | None = None


@dataclass
class Link:
    ends: tuple
    is_cut: bool = False
    rows: list = field(default_factory=list)
    queues: tuple = field(default_factory=lambda: ([], []))


class World:
    def __init__(self, scenario, capacity):
        self.capacity, self.room = capacity, scenario.get("capacity", 64)
        self.unit = MICROSECONDS[scenario.get("unit", "ms")]
        self.nodes = [Node(number, said, capacity) for number, said in enumerate(scenario["node"])]
        self.numbers = {said["name"]: number for number, said in enumerate(scenario["node"])}
        self.links = [Link(tuple(self.end(end) for end in said["ends"])) for said in scenario["link"]]
        self.lanes = {link.ends[dir]: (link, dir) for link in self.links for dir in (0, 1)}
        self.ends = sorted(self.lanes, key=lambda end: (end[0], PORTS[self.nodes[end[0]].role].index(end[1])))
        self.outbox = {end: [] for end in self.ends}
        self.hand = dict.fromkeys(self.ends)
        self.passes = {end: [] for end in self.ends}  # what entries passed there: place, send and octets
        self.at, self.was_injected, self.main = 0, False, []

    def end(self, text):
        name, port = text.split(".")
        return self.numbers[name], port

    def enter(self, worker, number, event, answer):
        self.nodes[number].record.append((worker, self.at, event, answer.outcome))
        for port, octets in answer.copies.items():
            if (number, port) in self.outbox:
                place = len(self.nodes[number].record) - 1
                send = event.send or (number, place)
                self.outbox[number, port].append((octets, send))
                self.passes[number, port].append((place, send, octets))
        if worker == 0:
            self.main.append(number)

    # -- steps

    def step(self, said, limit):
        getattr(self, "do_" + said["do"])(said) if said["do"] != "drain" else self.drain(limit)

    def do_clock(self, said):
        self.at = said["at"] * self.unit

    def do_send(self, said):
        number, place, vlan = self.numbers[said["node"]], said.get("from", 0), said.get("vlan")
        dst, payload = address(said["to"]), bytes.fromhex(said.get("payload", ""))
        answer = self.nodes[number].send(self.at, place, dst, vlan, said["type"], payload)
        tag = "-" if vlan is None else f"{vlan:04X}"
        self.enter(0, number, Event(f"send {place} {printed(dst)} {tag} {said['type']:04X} {hexadecimal(payload)}"), answer)

    def do_life(self, said):
        number, about = self.numbers[said["node"]], address(said["about"]) if "about" in said else None
        answer = self.nodes[number].life(self.at, about)
        self.enter(0, number, Event("life " + (printed(about) if about else "own")), answer)

    def do_age(self, said):
        number = self.numbers[said["node"]]
        self.enter(0, number, Event("age"), self.nodes[number].age(self.at))

    def do_put(self, said):
        self.put(self.end(said["port"]))

    def do_judge(self, said):
        self.judge(self.end(said["port"]))

    def do_take(self, said):
        self.take(self.links[said["link"]], ["forth", "back"].index(said["dir"]))

    def do_cut(self, said):
        link = self.links[said["link"]]
        link.is_cut = True
        for queue in link.queues:
            for row in queue:
                row.fate = "cut"
            queue.clear()

    def do_mend(self, said):
        self.links[said["link"]].is_cut = False

    def do_inject(self, said):
        octets = bytes.fromhex(said["octets"])
        if len(octets) > 2048:
            raise Refused("too-long")
        self.was_injected = True
        self.carry(self.links[said["link"]], ["forth", "back"].index(said["dir"]), octets, None)

    def carry(self, link, dir, octets, send):
        row = Row(dir, send, octets)
        link.rows.append(row)
        if link.is_cut:
            row.fate = "down"
        elif len(link.queues[dir]) >= self.room:
            row.fate = "overrun"
        else:
            link.queues[dir].append(row)

    def put(self, end):
        if not self.outbox[end]:
            raise Refused("nothing")
        self.carry(*self.lanes[end], *self.outbox[end].pop(0))

    def take(self, link, dir):
        end = link.ends[1 - dir]
        if self.hand[end]:
            raise Refused("busy")
        if not link.queues[dir]:
            raise Refused("nothing")
        row = link.queues[dir].pop(0)
        row.fate, self.hand[end] = "taken", row

    def judge(self, end):
        if not self.hand[end]:
            raise Refused("nothing")
        (number, port), row = end, self.hand[end]
        answer = self.nodes[number].judge(self.at, port, row.octets, row.send)
        self.hand[end] = None
        worker = 1 + 8 * number + PORTS[self.nodes[number].role].index(port)
        self.enter(worker, number, Event(f"arrive {port} {named(row.send)} {hexadecimal(row.octets)}", row.send), answer)

    def next(self):
        """What a drain does next."""
        for todo, step in ((self.hand, self.judge), (self.outbox, self.put)):
            for end in self.ends:
                if todo[end]:
                    return lambda: step(end)
        waiting = ((link, dir) for link in self.links for dir in (0, 1) if link.queues[dir])
        lane = next(waiting, None)
        return lane and (lambda: self.take(*lane))

    def drain(self, limit):
        while step := self.next():
            if limit == 0:
                raise Unsettled
            limit -= 1
            step()

    # -- the end

    def cause(self):
        """Why the world can't be closed: the number of the first cause, or None."""
        waits = [any(self.outbox.values()), any(self.hand.values()), self.was_injected, any(any(link.queues) for link in self.links)]
        return waits.index(True) + 1 if True in waits else None

    def is_ring(self):
        count = len(self.nodes)
        joined = all(set(link.ends) == {(i, "B"), ((i + 1) % count, "A")} for i, link in enumerate(self.links))
        return count >= 2 and len(self.links) == count and joined and all(node.role == "danh" for node in self.nodes)

    def verdict(self):
        if not self.is_ring():
            return "doubt not-ring"
        if any(node.mode == "N" for node in self.nodes):
            return "doubt mode"
        if len({node.mac for node in self.nodes}) < len(self.nodes):
            return "doubt same-address"
        if sum(any(row.fate != "taken" for row in link.rows) for link in self.links) > 1:
            return "doubt two-links"
        return self.doubt_of_nodes(["forgot", "mistaken"]) or f"certified {len(self.sends())}"

    def doubt_of_nodes(self, whats):
        """The first doubt that a node noted: by the order of `whats`, then by node. None where there is none."""
        for what in whats:
            for node in self.nodes:
                place = getattr(node, what.replace("-", "_"))
                if place is not None:
                    return f"doubt {what} {node.number} {place}"
        return None

    # -- who got what

    def sends(self):
        """All sends, supervisions too, by node and place, with their frames."""
        return [((node.number, place), frame) for node in self.nodes for place, frame in sorted(node.frames.items())]

    def due(self, send, frame):
        """The nodes that a send is for. Its addresses and type say it alone, whatever became of it."""
        others = [node for node in self.nodes if node.number != send[0] and node.role != "quadbox"]
        if is_group(frame.dst):
            return [node.number for node in others if node.role != "station" or not frame.is_supervision()]
        return [node.number for node in others if frame.dst in node.addresses()]

    def ups(self):
        """By send: the nodes at which an arrival of it went up, each as often as that happened."""
        ups = {}
        for node in self.nodes:
            for _, _, event, outcome in node.record:
                if event.send and "up" in outcome.split(" "):
                    ups.setdefault(event.send, []).append(node.number)
        return ups

    def losses(self):
        """By send: its lost copies, by link and place on the link, each with its link's number and its row."""
        losses = {}
        for number, link in enumerate(self.links):
            for row in link.rows:
                if row.fate != "taken":
                    losses.setdefault(row.send, []).append((number, row))
        return losses

    def delivery(self, send, frame, ups, losses):
        """Who got a send: the nodes that it was due at, those of them that missed it or had it twice, those to which it strayed, and its losses."""
        due = self.due(send, frame)
        missed = [number for number in due if ups.count(number) == 0]
        twice = [number for number in due if ups.count(number) > 1]
        strayed = sorted(set(ups) - set(due))
        return due, missed, twice, strayed, [f"{link}:{['forth', 'back'][row.dir]}:{row.fate}" for link, row in losses]

    def all_deliveries(self):
        """Each send with its frame and who got it."""
        ups, losses = self.ups(), self.losses()
        return [(send, frame, self.delivery(send, frame, ups.get(send, []), losses.get(send, []))) for send, frame in self.sends()]

    def deliveries(self):
        """The lines of sends: one for each that isn't complete, and the counts."""
        lines, count = [], 0
        for (number, place), frame, (due, missed, twice, strayed, lost) in self.all_deliveries():
            count += 1
            if missed or twice or strayed:
                at = self.nodes[number].record[place][1]
                got = f"missed {listed(missed)} twice {listed(twice)} strayed {listed(strayed)} lost {listed(lost)}"
                lines.append(f"send {number}:{place} at {at} to {printed(frame.dst)} due {len(due)} {got}")
        return [*lines, f"deliveries {count} complete {count - len(lines)}"]

    def needed(self):
        """The line of what the run needed: the greatest count of all nodes, at the lowest that has it."""
        most = max((node.needed[0] for node in self.nodes), default=0)
        met = [node for node in self.nodes if node.needed[0] == most]
        return f"needed {most} {met[0].number} {met[0].needed[1]}" if most else "needed 0"

    # -- what links carried, and how long frames took

    def moments(self):
        """The effective moments of entries, by node and place."""
        return [list(accumulate((at for _, at, _, _ in node.record), max)) for node in self.nodes]

    def carried(self, link, dir, moments):
        """What a channel carried: of each copy its moment and its octets on the wire."""
        start, copies, earlier = link.ends[dir], [], []
        for row in link.rows:
            if row.dir == dir:
                passed = [place for place, send, octets in self.passes[start] if (send, octets) == (row.send, row.octets)]
                place = passed[earlier.count((row.send, row.octets))]
                earlier.append((row.send, row.octets))
                if row.fate in ("taken", "cut"):
                    least = 60 if read(row.octets).seq is None else 66
                    copies.append((moments[start[0]][place], max(least, len(row.octets)) + 24))
        return copies

    def load(self):
        """The lines of load."""
        moments = self.moments()
        return load_lines([(link.ends[dir], link.ends[1 - dir], self.carried(link, dir, moments)) for link in self.links for dir in (0, 1)])

    def latency(self):
        """The lines of latency."""
        came = []
        for node in self.nodes:
            arrivals = [(place, event.send, "up" in outcome.split(" ")) for place, (_, _, event, outcome) in enumerate(node.record)]
            came.append([(place, send, is_up) for place, send, is_up in arrivals if send])
        return latency_lines(came, self.moments())

    # -- networks

    def network_verdict(self):
        """The first doubt of the audit of networks, else its certificate."""
        if not self.sends():
            return "doubt empty"
        if any(node.mode == "N" for node in self.nodes):
            return "doubt mode"
        macs = [mac for node in self.nodes for mac in node.addresses()]
        if len(set(macs)) < len(macs):
            return "doubt same-address"
        for number, link in enumerate(self.links):
            if len({port in "IP" for _, port in link.ends}) == 2:
                return f"doubt side {number}"
        return self.doubt_of_nodes(["forgot", "mistaken", "numbered-late"]) or self.doubt_of_sends() or f"certified {len(self.sends())}"

    def lacks(self):
        """The lines of ports on rings without a link, and of sends that are due at no node."""
        rings = [(node.number, port) for node in self.nodes for port in PORTS[node.role] if port not in "IP"]
        lines = [f"unlinked {number}.{port}" for number, port in rings if (number, port) not in self.lanes]
        return lines + [f"nobody {named(send)}" for send, frame in self.sends() if not self.due(send, frame)]

    def doubt_of_sends(self):
        """The first send that doesn't come to a node that it is for, else the first to a Station that its RedBox didn't know each time,
        else the first that isn't covered. None where there is none."""
        losses = self.losses()
        for send, frame in self.sends():
            lost = [self.links[number].ends[row.dir] for number, row in losses.get(send, [])]
            reached = self.reached(send, frame, lost)
            for number in self.due(send, frame):
                if not self.comes(send, frame, number, reached, lost):
                    return "doubt cut-off {} {} {}".format(*send, number)
        for what, is_so in ("unknown-station", self.is_known), ("uncovered", self.is_covered):
            for send, frame in self.sends():
                if not is_so(send, frame):
                    return "doubt {} {} {}".format(what, *send)
        return None

    def comes(self, send, frame, number, reached, lost):
        """Whether a send comes to a node. To a Station with its address it comes over the last channel, from the sender or a RedBox."""
        if is_group(frame.dst) or self.nodes[number].role != "station":
            return number in reached
        lasts = [channel for channel in self.lanes if self.goal(channel)[0] == number and channel not in lost]
        return any(channel[0] == send[0] or self.nodes[channel[0]].role == "redbox" and channel[0] in reached for channel in lasts)

    def is_known(self, send, frame):
        """Whether each RedBox at a Station that a send to one address is for knew that address each time that it handled the send."""
        stations = [number for number in self.due(send, frame) if self.nodes[number].role == "station" and not is_group(frame.dst)]
        starts = [channel[0] for channel in self.lanes if self.goal(channel)[0] in stations]
        boxes = [self.nodes[start] for start in starts if self.nodes[start].role == "redbox"]
        return not any(send in box.unknown for box in boxes)

    def is_covered(self, send, frame):
        """A Station takes up supervision that comes from a Station, though it is due at none, so that isn't covered."""
        here = (send[0], "P")
        return not (frame.is_supervision() and here in self.lanes and self.nodes[self.goal(here)[0]].role == "station")

    def goal(self, start):
        """The end of a channel. A channel is named by the port at which it starts, as each port has one link."""
        link, dir = self.lanes[start]
        return link.ends[1 - dir]

    def onward(self, start, send, frame):
        """The channels that a send takes from the end of a channel, lost or not."""
        number, port = self.goal(start)
        node, others = self.nodes[number], [channel for channel in self.ends if channel[0] == number and channel[1] != port]
        if not node.passes_on(port, frame):
            return []
        return [channel for channel in others if node.lets_out(channel[1], frame) and self.goal(channel)[0] != send[0]]

    def reached(self, send, frame, lost):
        """The nodes that a send reaches: the ends of the channels that it takes, from its sender on, but for those where it was lost."""
        todo, taken = [channel for channel in self.ends if channel[0] == send[0]], []
        while todo:
            channel = todo.pop()
            if channel not in taken and channel not in lost:
                taken.append(channel)
                todo += self.onward(channel, send, frame)
        return {self.goal(channel)[0] for channel in taken}

    # -- what is written

    def budget(self):
        """The line of the budget, by its definition: each arrival, and each window that begins with a send."""
        moments = self.moments()
        sends = []
        for node in self.nodes:
            for place, (_, _, event, _) in enumerate(node.record):
                moment = moments[node.number][place]
                if event.send:
                    sent = moments[event.send[0]][event.send[1]]
                    if not sent <= moment < sent + ENTRY_FORGET:
                        return f"budget late {node.number} {place}"
                elif event.text != "age":
                    sends.append(moment)
        crowds = {start: sum(start <= moment < start + 2 * ENTRY_FORGET for moment in sends) for start in sends}
        crowded = [start for start, count in crowds.items() if count > self.capacity]
        return f"budget crowded {min(crowded)}" if crowded else f"budget {max(crowds.values(), default=0)}"

    def report(self, asked=()):
        """Its report, with the parts that are asked for: load, latency, deliveries, needed, budget; by the audit of networks where that
        is, with what the network lacks."""
        lines = [f"bench 1 table {self.capacity} nodes {len(self.nodes)} links {len(self.links)}"]
        lines += [f"node {node.number} {node.role} {node.counters()}" for node in self.nodes]
        for number, link in enumerate(self.links):
            taken = sum(row.fate == "taken" for row in link.rows)
            lines.append(f"link {number} put {len(link.rows)} taken {taken} lost {len(link.rows) - taken}")
        lines += self.load() if "load" in asked else []
        lines += self.latency() if "latency" in asked else []
        lines += self.deliveries() if "deliveries" in asked else []
        lines += [self.needed()] if "needed" in asked else []
        lines += [self.budget()] if "budget" in asked else []
        lines += self.lacks() if "network" in asked else []
        return text([*lines, self.network_verdict() if "network" in asked else self.verdict()])

    def names(self, scenario):
        """What the report with `--names` calls nodes and entries."""
        entries = []
        for node, told in zip(self.nodes, map(iter, streams(scenario))):
            is_own = [event.text.split(" ")[0] in ("send", "life") for _, _, event, _ in node.record]
            entries.append([(at, next(told) if own else "") for (_, at, _, _), own in zip(node.record, is_own)])
        return Names([said["name"] for said in scenario["node"]], entries)

    def tables(self, is_network, names=None):
        """The six tables of `--csv`, by their names: of each its rows, its head first."""
        names = names or Numbers()
        rows = {"nodes": ["node role sent life up forwarded duplicate returned dropped".split()]}
        for node in self.nodes:
            rows["nodes"].append([names.node(node.number), node.role, *node.counters().split(" ")[1::2]])
        rows["links"] = ["link from to put taken lost lost_down lost_cut lost_overrun".split()]
        for number, link in enumerate(self.links):
            fates = [row.fate for row in link.rows]
            lost = [fates.count(fate) for fate in ("down", "cut", "overrun")]
            rows["links"].append([number, *(names.port(end) for end in link.ends), len(fates), fates.count("taken"), sum(lost), *lost])
        rows["sends"] = ["send node place at_us to complete due missed twice strayed lost".split()]
        for send, frame, (due, *wrong, lost) in self.all_deliveries():
            number, place = send
            lists = [" ".join(names.node(one) for one in nodes) for nodes in (due, *wrong)] + [" ".join(lost)]
            at = self.nodes[number].record[place][1]
            rows["sends"].append([names.send(send), names.node(number), place, at, printed(frame.dst), "no" if any(wrong) else "yes", *lists])
        rows["load"] = ["from to frames octets mean_kbit_s worst_ms_kbit_s at_us".split()]
        for words in (line.split(" ") for line in self.load()[:-1]):
            rows["load"].append([*(names.port_word(word) for word in words[1:3]), *words[4::2]])
        rows["latency"] = ["node frames worst_us worst_send second_us second_send".split()]
        for words in (line.split(" ") for line in self.latency()[:-1]):
            second = [words[9], names.send_word(words[11])] if len(words) > 10 else ["", ""]
            rows["latency"].append([names.node(int(words[1])), words[3], words[5], names.send_word(words[7]), *second])
        rows["doubt"] = ["audit verdict sends doubt entry node place receiver link".split(), self.doubt_row(is_network, names)]
        return {name: "".join(",".join(map(str, row)) + "\n" for row in table) for name, table in rows.items()}

    def doubt_row(self, is_network, names):
        """The row of what the audit found."""
        verdict, *words = (self.network_verdict() if is_network else self.verdict()).split(" ")
        audit = "network" if is_network else "ring"
        if verdict == "certified":
            return [audit, verdict, words[0], "", "", "", "", "", ""]
        doubt, *numbers = words
        numbers = [int(number) for number in numbers]
        if doubt == "side":
            return [audit, verdict, "", doubt, "", "", "", "", numbers[0]]
        if not numbers:
            return [audit, verdict, "", doubt, "", "", "", "", ""]
        receiver = names.node(numbers[2]) if numbers[2:] else ""
        return [audit, verdict, "", doubt, names.send(tuple(numbers[:2])), names.node(numbers[0]), numbers[1], receiver, ""]

    def transcript(self, unit="us"):
        """Its text of version 2, or of version 1, which tells milliseconds."""
        lines = [f"hsr-bench {['ms', 'us'].index(unit) + 1}", f"table {self.capacity}", f"nodes {len(self.nodes)}"]
        lines += [node.spelled() for node in self.nodes] + [f"links {len(self.links)}"]
        lines += [" ".join(f"{number}.{port}" for number, port in link.ends) for link in self.links]
        lines += [f"main {len(self.main)}"] + [str(number) for number in self.main]
        for node in self.nodes:
            lines.append(f"record {len(node.record)}")
            lines += [f"{worker} {at // MICROSECONDS[unit]} {event.text} = {outcome}" for worker, at, event, outcome in node.record]
        for link in self.links:
            lines.append(f"carried {len(link.rows)}")
            lines += [f"{['forth', 'back'][row.dir]} {named(row.send)} {hexadecimal(row.octets)} {row.fate}" for row in link.rows]
        return text(lines + ["end"])

    def is_whole(self):
        """Whether version 1 can tell each moment."""
        return all(at % 1000 == 0 for node in self.nodes for _, at, _, _ in node.record)


@dataclass
class Event:
    """An event as a transcript spells it, and the send of what arrived."""

    text: str
    send: tuple | None = None


def named(send):
    return "{}:{}".format(*send) if send else "-"


def listed(words):
    return ",".join(map(str, words)) or "-"


def text(lines):
    return "".join(line + "\n" for line in lines)


class Numbers:
    """What a report calls nodes, ports and sends without `--names`."""

    def node(self, number):
        return str(number)

    def port(self, end):
        return f"{self.node(end[0])}.{end[1]}"

    def send(self, send):
        return "{}:{}".format(*send)

    def port_word(self, word):
        number, port = word.split(".")
        return self.port((int(number), port))

    def send_word(self, word):
        return self.send(tuple(int(number) for number in word.split(":")))


class Names(Numbers):
    """What it calls them with `--names`: by the nodes' names, and of each node's entries their moments and streams."""

    def __init__(self, nodes, entries):
        self.nodes, self.entries = nodes, entries

    def node(self, number):
        return self.nodes[number]

    def send(self, send):
        number, place = send
        at, stream = self.entries[number][place]
        return f"{self.nodes[number]}@{at}us:{place}" + (f"/{stream}" if stream else "")

    def line(self, line):
        """A line of a report by names."""
        words = line.split(" ")
        if words[0] == "node":
            words[1] = self.node(int(words[1]))
        elif words[:2] == ["load", "most"]:
            words[3] = self.port_word(words[3])
        elif words[0] == "load" and words[1] != "none":
            words[1:3] = [self.port_word(word) for word in words[1:3]]
        elif words[0] == "latency" and words[1] != "none":
            place = 3 if words[1] == "worst" else 1
            words[place] = self.node(int(words[place]))
            words = [self.send_word(word) if ":" in word else word for word in words]
        elif words[0] == "send":
            words[1] = self.send_word(words[1])
            for place in (9, 11, 13):
                words[place] = listed([self.node(int(word)) for word in words[place].split(",") if word != "-"])
        elif words[0] in ("unlinked", "nobody"):
            words[1] = self.port_word(words[1]) if words[0] == "unlinked" else self.send_word(words[1])
        elif words[0] == "needed" and words[2:]:
            words[2:4] = [self.send((int(words[2]), int(words[3])))]
        elif words[:2] == ["budget", "late"] or words[0] == "doubt" and len(words) > 3:
            receiver = [self.node(int(word)) for word in words[4:]]
            words[2:] = [self.send((int(words[2]), int(words[3]))), *receiver]
        return " ".join(words)

    def report(self, report):
        """A report by names."""
        return text(self.line(line) for line in report.splitlines())


def load_lines(channels):
    """The lines of load, of channels by their ends and the copies that they carried: of each its moment and its octets on the wire."""
    all_moments = [moment for _, _, copies in channels for moment, _ in copies]
    time = max(1000, max(all_moments) - min(all_moments)) if all_moments else 1000
    lines, most = [], None
    for start, goal, copies in channels:
        if copies:
            octets = sum(octets for _, octets in copies)
            worst, at = max((sum(other for moment, other in copies if at <= moment < at + 1000) * 8, -at) for at, _ in copies)
            ends = " ".join(f"{number}.{port}" for number, port in (start, goal))
            lines.append(f"load {ends} frames {len(copies)} octets {octets} mean {octets * 8000 // time} worst-ms {worst} at {-at}")
            most = (worst, start) if most is None or worst > most[0] else most
    return lines + ["load most {} {}.{}".format(most[0], *most[1]) if most else "load none"]


def latency_lines(came, moments):
    """The lines of latency, of each node's arrivals, by place and send and whether they went up, and of the effective moments."""
    lines, worst = [], None
    for number, arrivals in enumerate(came):
        times = {place: max(0, moments[number][place] - moments[send[0]][send[1]]) for place, send, _ in arrivals}
        ups = [(times[place], send) for place, send, is_up in arrivals if is_up]
        seconds = [(times[place], send) for place, send, _ in arrivals if any(s == send and p != place and up for p, s, up in arrivals)]
        if ups:
            slowest = [min(said, key=lambda one: (-one[0], one[1])) for said in (ups, seconds) if said]
            told = [f"{time} at {named(send)}" for time, send in slowest] + ["-"]
            lines.append(f"latency {number} frames {len(ups)} worst {told[0]} second {told[1]}")
            if worst is None or slowest[0][0] > worst[0]:
                worst = (slowest[0][0], number, named(slowest[0][1]))
    return lines + ["latency worst {} {} at {}".format(*worst) if worst else "latency none"]


def run(scenario, capacity, limit):
    """The status, what is printed and what goes to standard error, and the world at the end."""
    world = World(scenario, capacity)
    for place, said in enumerate(scenario["step"]):
        try:
            world.step(said, limit)
        except Refused as refused:
            return 1, "", f"fault: step {place} {refused}\n", world
    if cause := world.cause():
        return 1, "", f"fault: check {cause}\n", world
    return 0 if world.verdict().startswith("certified") else 2, world.report(), "", world


def streams(scenario):
    """Of each node the stream of each of its sends and supervision frames, in their order; an empty name where it's from none."""
    told = {said["name"]: [] for said in scenario["node"]}
    for said in scenario["step"]:
        if said["do"] in ("send", "life"):
            told[said["node"]].append(said.get("stream", ""))
    return list(told.values())


# ---- the command `node`


REASONS = ["self-addressed", "reserved-type", "spent", "too-long", "not-proxied"]


def octets_of(digits):
    return b"" if digits == "-" else bytes.fromhex(digits)


def answered(node, line, unit):
    """The lines that answer a line of `node`; refused as a wrong event where the line isn't one of this kind of node."""
    words = line.split(" ")
    at = int(words[1]) * MICROSECONDS[unit]
    try:
        if words[0] == "age":
            return [node.age(at).outcome]
        if words[0] == "arrive":
            return judgement(node, at, words[2], octets_of(words[3]))
        if words[0] == "send":
            vlan = int(words[5], 16) if len(words) > 5 else None
            answer = node.send(at, 0, address(words[2]), vlan, int(words[3], 16), octets_of(words[4]))
        else:
            answer = node.life(at, address(words[2]) if len(words) > 2 else None)
    except Refused as refused:
        if str(refused) == "wrong-event":
            raise
        return [f"refused {REASONS.index(str(refused)) + 1}"]
    outcome = answer.outcome.split(" ")
    return [" ".join(outcome[: -len(answer.copies)])] + left_by(answer.copies)


def left_by(copies):
    return [f"{port} {hexadecimal(octets)}" for port, octets in copies.items()]


def judgement(node, at, port, octets):
    if port not in PORTS[node.role]:
        raise Refused("wrong-event")
    answer = node.judge(at, port, octets, object())
    cause, _, *outs = answer.outcome.split(" ")[1:]
    lines = [" ".join([cause.replace("-", " "), *outs])]
    if "up" in outs:
        lines.append("up " + hexadecimal(read(octets).plain()))
    # What a DANH passes on leaves as it came, and isn't told again.
    return lines if node.role == "danh" else lines + left_by(answer.copies)


def node_run(lines, role, mode, capacity, unit="ms"):
    """The status, what is printed, and what goes to standard error."""
    node, printed = Node(0, {"role": role, "mac": "02-00-00-00-00-01", "mode": mode}, capacity), []
    if role == "quadbox":
        node.mac = None
    for number, line in enumerate(lines, 1):
        try:
            printed += answered(node, line, unit)
        except Refused:
            return 1, text(printed), f"fault: line {number}\n"
    return 0, text(printed + [node.counters()]), ""


def told_size(transcript):
    """How many entries the tables have of which a transcript tells, or 512 where it tells none that there is."""
    first, _, rest = transcript.partition("\n")
    second, ended, _ = rest.partition("\n")
    told = second.removeprefix("table ")
    is_told = first in ("hsr-bench 1", "hsr-bench 2") and second != told and ended and told in map(str, SIZES)
    return int(told) if is_told else 512


def size_fault(transcript, size):
    """The fault of a transcript with a good first line, where its second one isn't that of tables of this size."""
    return "" if transcript.split("\n")[1] == f"table {size}" else "fault: transcript line 2\n"
