"""A second reading of `hsr_tap judge`, from docs/TAP.md alone, over the second bench (model.py). A device is a dict, as its document says, which has
to be right: of its faults only that of the table's size is told.

    python3 tests/second/judge.py [--full] [--list N] [--octets] [--fcs N] DEVICE.toml < CAPTURE

It is plain, not fast: each copy is held against all others.
"""
import argparse
import sys
import tomllib
from dataclasses import dataclass, field
from pathlib import Path

import captures
import model
from captures import Fault, Frame
from node_lines import ends_of, passing, plain

ORDER = ("A", "B", "C", "D", "I", "up")
SENDS, PASSES = ORDER, ("up", "I", "A", "B", "C", "D")  # in which order the copies of a send leave, and those of what came
ROLES = {"danh": ("A", "B", "up"), "redbox": ("A", "B", "I", "up"), "quadbox": ("A", "B", "C", "D")}
IGNORED = ("path", "padding", "life-up", "life-payload", "interlink-source", "interlink-flood", "link-local")
RING = "ABCD"
FORGET, BEGUN, LEAST, SHOWN = 400_000, 800_000, 52, 32
MOST = 1525  # octets of a packet that are told: a frame has fewer
TABLES = [*(2**n for n in range(16)), 65535]  # entries of a reference node's table
ABOUT_END = 12  # where the address of supervision ends


def address(mac):
    return "-" if mac is None else model.printed(mac)


@dataclass(eq=False)
class Copy:
    """Octets that pass an end of the device: as captured, or as the reference lets them out. Stamps are nanoseconds since the first packet."""

    end: str
    packet: int
    stamp: int
    octets: bytes
    known: int  # how many of the octets weren't cut off
    is_in: bool = False
    length: int = 0  # with all that was cut off
    frame: Frame | int = field(init=False)
    mate: object = None
    fate: str = ""
    told: str = ""  # the fields in which it is altered

    def __post_init__(self):
        self.length = self.length or len(self.octets)
        self.frame = captures.frame_of(captures.Packet(0, 0, 0, "", self.octets, len(self.octets)))

    @property
    def at(self):
        return self.stamp // 1000

    @property
    def number(self):
        return self.frame.number if isinstance(self.frame, Frame) else None

    @property
    def is_life(self):
        return isinstance(self.frame, Frame) and self.frame.is_life

    @property
    def head(self):
        """How many octets stand in front of the payload."""
        return len(self.octets) - self.frame.length

    @property
    def lost(self):
        """How many octets were cut off."""
        return self.length - self.known

    def octet(self, place):
        """The octet of the payload at a place: 0 behind its end."""
        return self.frame.payload[place] if place < self.frame.length else 0


@dataclass(eq=False)
class Wanted(Copy):
    """A copy that the reference lets out, at the moment of what caused it."""

    by: str = ""  # the end at which that came, or `own`
    came: int | None = None  # the number of the tagged frame that came
    is_numbered: bool = False  # whether the reference gave it its number
    is_sent_on: bool = False  # whether it left from ring port to ring port as it came
    is_own_life: bool = False


def after(earlier, later):
    """How many microseconds one is behind the other: a difference of nanoseconds, rounded down."""
    return (later.stamp - earlier.stamp) // 1000


# ---- what the reference does


class Play:
    """The reference node is told what came, and what the device began by itself; what it lets out is wanted."""

    def __init__(self, device, passed, numbers):
        self.device, self.numbers, self.role = device, numbers, device["role"]
        self.node = model.Node(0, device, device.get("table", 512))
        self.node.next, self.node.lives = device.get("start", 0), device.get("life_start", 0)
        for station in device.get("stations", []) if self.role == "redbox" else []:
            self.node.hear(model.address(station))
        self.wanted, self.answers, self.handed, self.begun = [], [], [], {}
        self.own = self.lives = 0
        self.numbered = []
        for copy in passed:
            self.take(copy)

    def take(self, copy):
        number, life = self.numbers.get(copy.packet, (None, None))
        if number is not None:
            self.node.next = number
        if life is not None:
            self.node.lives = life
        if copy.is_in and copy.end == "up":
            self.hand_down(copy)
        elif copy.is_in:
            self.arrive(copy)
        elif self.begins(copy):
            self.begin(copy)

    def arrive(self, came):
        answer = self.node.judge(came.at, came.end, came.octets, (0, came.packet))
        _, cause, number, *outs = answer.outcome.split(" ")
        self.answers.append((came, cause))
        if number != "-":
            self.numbered.append((came.packet, False))
        for out in outs:
            octets = answer.copies[out] if out in answer.copies else model.read(came.octets).plain()
            is_numbered = number != "-" and out in RING
            self.want(out, came, octets, came.end, is_numbered, came.end in RING and out in RING)

    def hand_down(self, came):
        if self.role == "quadbox":
            return
        frame = came.frame
        if not isinstance(frame, Frame) or frame.number is not None:
            self.answers.append((came, "refused-2"))
            return
        if frame.is_life:
            self.handed.append(came)
        try:
            answer = self.node.send(came.at, 0, frame.dst, frame.vlan, frame.kind, frame.payload)
        except model.Refused as refused:
            self.answers.append((came, f"refused-{model.REASONS.index(str(refused)) + 1}"))
            return
        self.answers.append((came, "sent"))
        self.let_out(came, answer, "up")

    def begins(self, copy):
        """Whether a copy that leaves begins a send, or a supervision. Supervision that can't be read begins a send."""
        if copy.number is None or copy.end not in ("A", "B") or copy.frame.src != self.node.mac:
            return False
        if copy.number in self.begun and after(self.begun[copy.number], copy) < BEGUN:
            return False
        if copy.is_life:
            return not any(self.is_handed(came, copy) for came in self.handed)
        return not self.device["host"]

    def is_handed(self, came, copy):
        return came.octets == plain(copy.octets) and after(came, copy) <= self.device["within_us"]

    def begin(self, copy):
        self.begun[copy.number], self.own = copy, self.own + 1
        frame, said = copy.frame, captures.life_of(copy.frame.payload) if copy.is_life else None
        try:
            if said:
                answer = self.node.life(copy.at, said.about if said.about != self.node.mac else None)
            else:
                answer = self.node.send(copy.at, 0, frame.dst, frame.vlan, frame.kind, frame.payload)
        except model.Refused:
            return
        self.lives += said is not None
        self.let_out(copy, answer, "own", said is not None)

    def let_out(self, came, answer, by, is_life=False):
        is_numbered = answer.outcome.split(" ")[1] != "-"
        if is_numbered:
            self.numbered.append((came.packet, is_life))
        for out, octets in answer.copies.items():
            self.want(out, came, octets, by, is_numbered and out in RING, False, is_life)

    def counters(self):
        """Those of the node, which knows its supervision counter alone, and not how often that was."""
        self.node.lives = self.lives
        return f"own {self.own} {self.node.counters()}"

    def want(self, out, came, octets, by, is_numbered, is_sent_on, is_own_life=False):
        if out in self.device["tapped"]:
            known = len(octets) if is_own_life else max(0, len(octets) - (len(came.octets) - came.known))
            number = None if by == "own" else came.number
            marks = {"is_numbered": is_numbered, "is_sent_on": is_sent_on, "is_own_life": is_own_life}
            self.wanted.append(Wanted(out, came.packet, came.stamp, octets, known, by=by, came=number, **marks))


# ---- what agrees


def is_right(copy):
    """Whether the size is the payload and six, or lacks zeros at the end alone, of a payload of up to 52 octets."""
    if copy.frame.size == copy.frame.length + 6:
        return True
    least = len(copy.frame.payload.rstrip(b"\0")) + 6
    return copy.frame.length <= LEAST and least <= copy.frame.size <= copy.frame.length + 6


def is_any_cut(*copies):
    return any(copy.lost for copy in copies)


def surplus(copy):
    """How much of the size doesn't follow from the payload's length."""
    return copy.frame.size - copy.frame.length


class Likeness:
    """What need not agree: the words of `ignore`, and while the device's numbers are looked for its own numbers and supervision numbers."""

    def __init__(self, words, is_searching):
        self.words, self.is_searching = words, is_searching

    def places(self, want, seen):
        """The places of the payload that are compared: of cut copies those of the shorter one, less what was cut off."""
        lengths = want.frame.length, seen.frame.length
        most = min(lengths) - max(want.lost, seen.lost) if is_any_cut(want, seen) else max(lengths)
        return [place for place in range(most) if not (want.is_own_life and place in (2, 3))]

    def others(self, want, seen):
        """The places of other octets of the payload, zeros at the end apart; where one ends before that, its end."""
        least = min(want.frame.length, seen.frame.length)
        return [min(place, least) for place in self.places(want, seen) if want.octet(place) != seen.octet(place)]

    def first_other(self, want, seen):
        """The first of these places that counts, or none."""
        others = self.others(want, seen)
        if want.is_own_life and "life-payload" in self.words:
            others = [place for place in others if place < ABOUT_END]
        return others[0] if others else None

    def lives(self, want, seen):
        """The supervision numbers of a supervision frame of its own, where they don't agree."""
        lives = [copy.frame.payload[2:4] for copy in (want, seen) if want.is_own_life and copy.frame.length >= 4]
        return [] if len(set(lives)) < 2 or self.is_searching else [int.from_bytes(life, "big") for life in lives]

    def has_payload(self, want, seen):
        """Whether the payloads agree, zeros at the end apart; the number of own supervision belongs to them."""
        return self.first_other(want, seen) is None and not self.lives(want, seen)

    def has_length(self, want, seen):
        """Whether the payloads' lengths agree."""
        lengths = want.frame.length, seen.frame.length
        if want.is_own_life and "life-payload" in self.words and want.frame.size == seen.frame.size:
            return True
        return lengths[0] == lengths[1] or "padding" in self.words and max(lengths) <= LEAST

    def has_source(self, want, seen):
        return want.frame.src == seen.frame.src or want.end == "I" and "interlink-source" in self.words

    def has_number(self, want, seen):
        return want.number == seen.number or self.is_searching and want.is_numbered and None not in (want.number, seen.number)

    def has_size(self, want, seen):
        if want.frame.size == seen.frame.size:
            return True
        is_short = max(want.frame.length, seen.frame.length) <= LEAST
        return "padding" in self.words and is_short and is_right(want) and is_right(seen)

    def has_path(self, want, seen):
        return want.frame.path == seen.frame.path or want.is_sent_on and "path" in self.words

    def is_equal(self, want, seen):
        """Whether the octets are equal, but for what need not agree. Of cut copies lengths and sizes are to be equal all the same."""
        known = min(want.known, seen.known)
        if not isinstance(seen.frame, Frame) or known < max(want.head, seen.head):
            return want.length == seen.length and want.octets[:known] == seen.octets[:known]
        if (want.frame.dst, want.frame.kind) != (seen.frame.dst, seen.frame.kind) or self.fields(want, seen):
            return False
        if is_any_cut(want, seen):
            return (want.frame.length, want.frame.size) == (seen.frame.length, seen.frame.size)
        return self.has_length(want, seen) and (want.number is None or self.has_size(want, seen))

    def is_like(self, want, seen):
        """Whether one may be the other one altered."""
        if not isinstance(seen.frame, Frame) or (want.frame.dst, want.frame.kind) != (seen.frame.dst, seen.frame.kind):
            return False
        source, payload = want.frame.src == seen.frame.src, self.has_payload(want, seen)
        if None in (want.number, seen.number):
            return source or payload
        return source + payload + self.has_number(want, seen) >= 2

    def fields(self, want, seen):
        """The fields that don't agree, each with what was expected and what was seen; `tag` stands alone."""
        if (want.number is None) != (seen.number is None):
            return ["tag:no:yes" if want.number is None else "tag:yes:no"]
        found = []
        if not self.has_source(want, seen):
            found.append(f"source:{address(want.frame.src)}:{address(seen.frame.src)}")
        if want.frame.vlan != seen.frame.vlan:
            found.append(f"vlan:{control(want)}:{control(seen)}")
        is_tagged = want.number is not None
        if is_tagged and not self.has_path(want, seen):
            found.append(f"path:{want.frame.path}:{seen.frame.path}")
        place = self.first_other(want, seen)
        if not self.others(want, seen) and not self.has_length(want, seen) and not is_any_cut(want, seen):
            found.append(f"padding:{want.frame.length}:{seen.frame.length}")
        if is_tagged and not self.has_size(want, seen) and surplus(want) != surplus(seen):
            found.append(f"size:{want.frame.size}:{seen.frame.size}")
        if place is not None:
            found.append(f"payload:{place}:{eight(want, place)}:{eight(seen, place)}")
        if is_tagged and not self.has_number(want, seen):
            found.append(f"number:{want.number}:{seen.number}")
        lives = self.lives(want, seen)
        if lives:
            found.append("life:{}:{}".format(*lives))
        return found


def control(copy):
    return "-" if copy.frame.vlan is None else f"{copy.frame.vlan:04X}"


def eight(copy, place):
    return model.hexadecimal(copy.frame.payload[place : place + 8])


# ---- matching


def is_in_window(device, want, seen):
    if seen.stamp < want.stamp:
        return after(seen, want) <= device["early_us"]
    return after(want, seen) <= device["within_us"]


def is_soon(device, want, seen):
    """Whether it isn't too late to be told as late."""
    return is_in_window(device, want, seen) or 0 <= after(want, seen) <= device["within_us"] + FORGET


def matched(device, wanted, seen, is_searching, marks):
    """Gives each copy that was seen its mate and its fate; `marks` are of frames whose numbers aren't the next ones."""
    likeness = Likeness(device["ignore"], is_searching)
    for copy in seen:
        copy.mate, copy.fate, copy.told = None, "", ""
    equal, like = likeness.is_equal, likeness.is_like
    for fate, is_timely, agrees in (("same", is_in_window, equal), ("late", is_soon, equal), ("altered", is_in_window, like)):
        for copy in (copy for copy in seen if not copy.mate):
            for want in wanted:
                if want.end == copy.end and not want.mate and is_timely(device, want, copy) and agrees(want, copy):
                    want.mate, copy.mate, copy.fate = copy, want, fate
                    break
    firsts = {packet: next(copies_of(packet, seen), None) for packet in marks}
    for copy in (copy for copy in seen if copy.mate):
        own = marks[copy.mate.packet] if copy is firsts.get(copy.mate.packet) else []
        if own or copy.fate == "altered":
            others = [] if equal(copy.mate, copy) else likeness.fields(copy.mate, copy)
            copy.fate, copy.told = "altered", ",".join([*others, *own]) or "octets"


def copies_of(packet, seen):
    """The copies that were seen of the frame that a packet began and the reference numbered."""
    return (copy for copy in seen if copy.mate and copy.mate.packet == packet and copy.mate.is_numbered)


def numbers_of(device, play, seen):
    """The numbers of the device, by the packet of what began each frame, and what is told of those that aren't the next ones."""
    numbers, marks = {}, {}
    last, last_life = said_before(device, "start"), said_before(device, "life_start")
    for packet, is_life in play.numbered:
        first = next((copy for copy in copies_of(packet, seen) if copy.number is not None), None)
        if not first:
            continue
        life = int.from_bytes(first.frame.payload[2:4], "big") if is_life else None
        told = []
        if last is not None and first.number != (last + 1) % 65536:
            told.append(f"number:{(last + 1) % 65536}:{first.number}")
        if is_life and last_life is not None and life != (last_life + 1) % 65536:
            told.append(f"life:{(last_life + 1) % 65536}:{life}")
        if told:
            marks[packet] = told
        last, last_life = first.number, last_life if life is None else life
        numbers[packet] = first.number, life
    return numbers, marks


def said_before(device, key):
    """The number before a first one that the device's document tells."""
    return device[key] - 1 if key in device else None


# ---- what becomes of what is left


def is_twice(copy, seen):
    """Whether a copy of the same frame left there less than 400 ms before."""
    for other in seen[: seen.index(copy)]:
        if other.end == copy.end and after(other, copy) < FORGET:
            if copy.number is None and copy.octets == other.octets:
                return True
            if copy.number is not None and (copy.frame.src, copy.number) == (other.number is not None and other.frame.src, other.number):
                return True
    return False


def without_tag(octets):
    """The octets without their tag, or none where they have none."""
    head = 18 if octets[12:14] == b"\x81\x00" else 14
    return plain(octets) if octets[head - 2 : head] == b"\x89\x2f" and len(octets) >= head + 4 else None


def is_that_frame(came, copy):
    """Whether what came is the frame that left."""
    if not isinstance(came.frame, Frame) or not isinstance(copy.frame, Frame):
        return came.octets in (copy.octets, without_tag(copy.octets)) or copy.octets == without_tag(came.octets)
    if None not in (came.number, copy.number):
        return (came.frame.src, came.number) == (copy.frame.src, copy.number)
    if (came.frame.dst, came.frame.kind) != (copy.frame.dst, copy.frame.kind):
        return False
    return came.frame.payload.rstrip(b"\0") == copy.frame.payload.rstrip(b"\0")


def answer_to(device, copy, answers):
    """What the reference said of the youngest arrival of that frame at another end: the arrival and the cause."""
    for came, cause in reversed(answers):
        is_near = after(copy, came) <= device["early_us"] if came.stamp > copy.stamp else after(came, copy) <= FORGET
        if came.end != copy.end and is_near and is_that_frame(came, copy):
            return came, cause
    return None


def is_let_pass(device, copy):
    """Whether `ignore` lets an extra copy pass."""
    if not isinstance(copy.frame, Frame):
        return False
    words, frame = device["ignore"], copy.frame
    if copy.end == "up":
        return "life-up" in words and frame.is_life
    if copy.end == "I":
        return "interlink-flood" in words and not frame.is_group
    return "link-local" in words and frame.number is None and frame.dst[:5] == b"\x01\x80\xc2\0\0" and frame.dst[5] < 16


def may_miss(device, want):
    """Whether `ignore` or `down` lets a missing copy pass."""
    if want.end == "up" and want.is_life and "life-up" in device["ignore"]:
        return True
    return any(down["port"] == want.end and down["from_us"] <= want.at < down["until_us"] for down in device["down"])


def is_open(device, want):
    """Whether a missing copy may have left outside of the capture."""
    if want.at < device["warm_us"]:
        return True
    if device["whole"]:
        return False
    ends = (device["end"] - want.stamp) // 1000 < device["within_us"]
    return ends or want.at + device["within_us"] > device["until_us"]


def settle(device, play, seen):
    for want in play.wanted:
        if not want.mate:
            want.fate = "open" if is_open(device, want) else "ignored" if may_miss(device, want) else "missing"
    for copy in seen:
        if not copy.mate:
            copy.fate = "open" if copy.at < device["warm_us"] else "ignored" if is_let_pass(device, copy) else "extra"


# ---- the report


def shown(copy, is_all):
    if copy.length <= SHOWN or is_all:
        return model.hexadecimal(copy.octets)
    return f"{copy.octets[:SHOWN].hex().upper()}..{min(copy.length, MOST)}"


def frame_words(copy, number, is_all):
    frame = copy.frame
    if not isinstance(frame, Frame):
        return f"malformed {frame} octets {shown(copy, is_all)}"
    number = number if copy.number is None else copy.number
    said = "-" if number is None else number
    return f"from {address(frame.src)} to {address(frame.dst)} number {said} type {frame.kind:04X} octets {shown(copy, is_all)}"


@dataclass
class Deviation:
    word: str
    copy: Copy
    line: str
    kind: str
    is_twice: bool = False

    def rank(self):
        """How grave it is."""
        order = ["extra twice", "missing", "altered", "late", "extra"]
        return order.index("extra twice" if self.is_twice else self.word)

    def place(self):
        """Where it comes in the list: of one packet what was seen first, then what is missing, in the order in which the node lets it out."""
        order = SENDS if self.word != "missing" or self.copy.by in ("up", "own") else PASSES
        return self.copy.at, self.copy.packet, self.word == "missing", order.index(self.copy.end)


def deviations_of(device, play, seen, is_all):
    found = [missing(want, is_all) for want in play.wanted if want.fate == "missing"]
    for copy in seen:
        if copy.fate == "extra":
            found.append(extra(device, copy, play, seen, is_all))
        elif copy.fate in ("late", "altered"):
            found.append(late_or_altered(copy, is_all))
    return sorted(found, key=Deviation.place)


def missing(want, is_all):
    kind = f"missing {want.end} came by {want.by}"
    line = f"missing {want.end} at {want.at} packet {want.packet} came by {want.by} {frame_words(want, want.came, is_all)}"
    return Deviation("missing", want, line, kind)


def extra(device, copy, play, seen, is_all):
    twice, found = is_twice(copy, seen), answer_to(device, copy, play.answers)
    word, cause, by, number = "twice" if twice else "stray", "-", "-", None
    if found:
        came, cause = found
        by, number = f"{cause} by {came.end} packet {came.packet}", came.number
    line = f"extra {copy.end} at {copy.at} packet {copy.packet} {word} reference {by} {frame_words(copy, number, is_all)}"
    return Deviation("extra", copy, line, f"extra {copy.end} {word} reference {cause}", twice)


def late_or_altered(copy, is_all):
    want = copy.mate
    came = f"came by {want.by} packet {want.packet} {frame_words(copy, want.came, is_all)}"
    start = f"{copy.fate} {copy.end} at {copy.at} packet {copy.packet}"
    if copy.fate == "late":
        return Deviation("late", copy, f"{start} after {after(want, copy)} {came}", f"late {copy.end} came by {want.by}")
    names = ",".join(one.partition(":")[0] for one in copy.told.split(","))
    return Deviation("altered", copy, f"{start} {copy.told} {came}", f"altered {copy.end} {names}")


def sums_of(deviations):
    lines = []
    for kind in sorted({one.kind for one in deviations}):
        those = [one for one in deviations if one.kind == kind]
        lines.append(f"sum {len(those)} first packet {those[0].copy.packet} {kind}")
    return lines


def port_lines(device, end, passed, play, seen, full):
    came = sum(copy.is_in and copy.end == end for copy in passed)
    counts = [("in", came if end in device["tapped_in"] else "-")]
    if end in device["tapped"]:
        wanted, copies = [want for want in play.wanted if want.end == end], [copy for copy in seen if copy.end == end]
        fates = [want.fate for want in wanted if not want.mate] + [copy.fate for copy in copies]
        counts += [("expected", len(wanted)), ("seen", len(copies))]
        counts += [(fate, fates.count(fate)) for fate in ("same", "late", "altered", "missing", "extra", "ignored", "open")]
    words = ["port", end] + [f"{name} {count}" for name, count in counts if full or count != 0]
    if end not in device["tapped"]:
        return [" ".join([*words, "out not tapped"])]
    delays = sorted(after(copy.mate, copy) for copy in copies if copy.mate and copy.mate.by != "own")
    told = [delays[0], delays[(len(delays) - 1) // 2], delays[-1]] if delays else ["-"] * 3
    return [" ".join(words)] + ["delay {} min {} mid {} max {}".format(end, *told)] * full


def verdict(device, deviations, fates, ends):
    count = {word: sum(one.word == word for one in deviations) for word in ("missing", "extra", "late", "altered")}
    if deviations:
        first = min(deviations, key=Deviation.rank)
        counts = " ".join(f"{word} {n}" for word, n in count.items())
        return f"deviates {len(deviations)} {counts} first {first.word} at {first.copy.at} packet {first.copy.packet}", 2
    if "same" not in fates:
        return "deviates 0 empty", 2
    not_tapped = ",".join(end for end in ends if end not in device["tapped"]) or "-"
    return f"conforms {fates.count('same')} ignored {fates.count('ignored')} open {fates.count('open')} not-tapped {not_tapped}", 0


# ---- all of it


def completed(device, capture, ends, start):
    """The device with what is taken where its document says nothing, and with the ends that are tapped."""
    said = {"mode": "H", "table": 512, "within_us": 1000, "early_us": 0, "from_us": 0, "until_us": 2**64, "warm_us": 0, "whole": False, "down": []}
    said |= {"host": any(end == "up" and way != "out" for end, way in ends.values())} | device
    said["ignore"] = [word for word in IGNORED if word in device.get("ignore", [])]
    said["tapped"] = {end for end, way in ends.values() if way != "in"}
    said["tapped_in"] = {end for end, way in ends.values() if way != "out"}
    said["end"] = max([capture.end] + [packet.moment for packet in capture.packets]) - start
    return said


def passed_of(packets, ends, start):
    """What passes the device's ends, in the order of time."""
    copies = []
    for packet in packets:
        way = passing(packet, ends)
        if way:
            octets = (packet.octets + bytes(max(0, min(packet.length, MOST) - len(packet.octets))))[:MOST]
            copies.append(Copy(way[0], packet.number, packet.moment - start, octets, len(packet.octets), way[1], packet.length))
    return copies


def head_lines(device, capture, ends, packets, mac, full):
    mode = f"mode {device['mode']} table {device['table']} within {device['within_us']}"
    ignored = ",".join(device["ignore"]) or "-"
    lines = [f"judge 1 {device['role']} {mac} {mode} packets {len(packets)} us {device['end'] // 1000} ignore {ignored}"]
    for i, interface in enumerate(capture.interfaces if full else ()):
        count = sum(packet.interface == i for packet in packets)
        name = interface.name.decode("utf-8", "surrogateescape") or "-"
        lines.append(f"interface {i} packets {count} is {' '.join(ends[i]).rstrip() if i in ends else '-'} name {name}")
    return lines


def told(octets, device, list=100, octets_all=False, full=False, fcs=0):
    """The report, and the status."""
    capture = captures.read(octets, fcs)
    packets = sorted(capture.packets, key=lambda packet: packet.moment)
    start = packets[0].moment if packets else 0
    ends = ends_of(capture, device)
    device = completed(device, capture, ends, start)
    packets = [packet for packet in packets if device["from_us"] <= (packet.moment - start) // 1000 <= device["until_us"]]
    passed = passed_of(packets, ends, start)
    if device["table"] not in TABLES:
        raise Fault("device table bad-value")
    seen = [copy for copy in passed if not copy.is_in]
    search = Play(device, passed, {})
    matched(device, search.wanted, seen, True, {})
    numbers, marks = numbers_of(device, search, seen)
    play = Play(device, passed, numbers)
    matched(device, play.wanted, seen, False, marks)
    settle(device, play, seen)
    deviations = deviations_of(device, play, seen, octets_all)

    lines = head_lines(device, capture, ends, packets, address(play.node.mac), full)
    lines += [one.line for one in deviations[:list]]
    lines += [f"more {len(deviations) - list}"] if len(deviations) > list else []
    lines += sums_of(deviations)
    role_ends = [end for end in ORDER if end in ROLES[device["role"]] or end in device["tapped"] | device["tapped_in"]]
    for end in role_ends:
        lines += port_lines(device, end, passed, play, seen, full)
    if full:
        lines.append(f"reference {play.counters()}")
    fates = [want.fate for want in play.wanted if not want.mate] + [copy.fate for copy in seen]
    last, status = verdict(device, deviations, fates, role_ends)
    return "".join(line + "\n" for line in [*lines, last]), status


def main():
    parser = argparse.ArgumentParser(description="Judges a device by a second reading of docs/TAP.md.")
    parser.add_argument("--full", action="store_true")
    parser.add_argument("--list", type=int, default=100)
    parser.add_argument("--octets", action="store_true")
    parser.add_argument("--fcs", type=int, default=0)
    parser.add_argument("device", metavar="DEVICE.toml", type=Path)
    chosen = parser.parse_args()
    device = tomllib.loads(chosen.device.read_text())
    try:
        text, status = told(sys.stdin.buffer.read(), device, chosen.list, chosen.octets, chosen.full, chosen.fcs)
    except Fault as fault:
        print(f"fault: {fault}", file=sys.stderr)
        sys.exit(1)
    sys.stdout.buffer.write(text.encode("utf-8", "surrogateescape"))
    sys.exit(status)


if __name__ == "__main__":
    main()
