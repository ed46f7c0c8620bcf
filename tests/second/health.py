#!/usr/bin/env python3
"""A second reading of `hsr_tap health`, from docs/TAP.md alone. It is plain, not fast: each word of the report as its definition reads.

    python3 tests/second/health.py [WORDS] < CAPTURE
"""
import argparse
import re
import sys
import tomllib
from collections import Counter, defaultdict
from dataclasses import dataclass, field
from datetime import datetime, timezone
from functools import cached_property
from pathlib import Path

import captures
from captures import Fault, Frame, frame_of, life_of

SECOND = 10**9
FORGOTTEN, LASTS, SILENCE, KNOWN = 400_000_000, 2 * SECOND, 5 * SECOND, 60 * SECOND
BEHIND, STORM, TOLD, MOST_SOURCES, PADDED, MOST_TOLD = 4096, 4, 4, 1024, 52, 2**64 - 1
LIFE_KINDS = {20: "prp", 21: "prp-accept", 23: "hsr"}
LINK_LOCAL = bytes.fromhex("0180C20000")
FATES = ("twice", "once", "more", "open")


class NoSuchInterface(Exception):
    """`--interface` or `--point` has a number that no interface has."""


def address(mac):
    return "-".join(f"{octet:02X}" for octet in mac)


def addresses(macs):
    return ",".join(map(address, sorted(macs))) or "-"


def named(name):
    """A name as it is told: a character that is no printable ASCII is `?`, so that of its octets (UTF-8) the first alone counts."""
    return "".join(chr(octet) if 32 <= octet < 127 else "?" for octet in name if not 128 <= octet < 192) or "-"


def us(moment):
    return moment // 1000


def place(packet, start):
    return f"packet {packet.number} at {us(packet.moment - start)}"


def lowest_mid_most(times):
    """The least, the lower median and the greatest, as words."""
    said = sorted(times)
    return tuple(us(said[n]) for n in (0, (len(said) - 1) // 2, -1)) if said else ("-", "-", "-")


# ---- copies and frames


@dataclass(eq=False)
class Copy:
    packet: captures.Packet
    frame: Frame
    direction: object = None
    sent: object = None  # the frame that it is a copy of
    seen: object = None  # that frame at its point
    place: int = 0  # among the copies of that frame on its direction, from 1
    is_clash: bool = False

    @property
    def at(self):
        return self.packet.moment

    @property
    def key(self):
        return self.frame.src, self.frame.number

    @property
    def lane(self):
        return self.frame.path % 2

    @property
    def priority(self):
        """Of its VLAN tag; 0 without one."""
        return 0 if self.frame.vlan is None else self.frame.vlan >> 13

    @property
    def is_late(self):
        return self.at - self.seen.at >= FORGOTTEN

    @property
    def about(self):
        """Whom it tells of as supervision, by its own octets, with zeros for those that were cut off."""
        frame = self.frame
        life = life_of(frame.payload + bytes(frame.length - len(frame.payload))) if frame.is_life else None
        return life and life.about

    @property
    def is_off_lane(self):
        return self.lane != self.direction.way

    @property
    def has_wrong_size(self):
        frame = self.frame
        payload = frame.payload + bytes(frame.length - len(frame.payload))
        if frame.size == frame.length + 6:
            return False
        return not (6 <= frame.size < frame.length + 6 and frame.length <= PADDED and not any(payload[frame.size - 6 :]))


@dataclass(eq=False)
class Sent:
    """A frame: its copies, in order. It begins with the first."""

    copies: list

    @property
    def first(self):
        return self.copies[0]

    @property
    def at(self):
        return self.first.at

    @property
    def src(self):
        return self.first.frame.src

    @property
    def number(self):
        return self.first.frame.number

    @property
    def is_group(self):
        return self.first.frame.is_group

    @property
    def life(self):
        """What it says as supervision; None where it is none, or can't be read."""
        frame = self.first.frame
        return life_of(frame.payload + bytes(frame.length - len(frame.payload))) if frame.is_life else None


@dataclass(eq=False)
class Seen:
    """A frame at a point."""

    sent: Sent
    copies: list = field(default_factory=list)

    @property
    def first(self):
        return self.copies[0]

    @property
    def at(self):
        return self.first.at

    @cached_property
    def ways(self):
        return {copy.direction.way for copy in self.copies}

    def fate(self, health):
        """Twice, once, more or open."""
        if any(copy.place > 1 for copy in self.copies):
            return "more"
        if len(self.ways) == 2:
            return "twice"
        is_early, is_late = self.at - health.start < FORGOTTEN, health.end - self.at < FORGOTTEN
        return "open" if (is_early or is_late) and not health.whole else "once"

    @property
    def skew(self):
        first = [min(copy.at for copy in self.copies if copy.direction.way == way) for way in self.ways]
        return max(first) - min(first) if len(first) == 2 else None


@dataclass(eq=False)
class Direction:
    interface: int
    part: str
    copies: list = field(default_factory=list)

    @cached_property
    def way(self):
        ones = sum(copy.lane for copy in self.copies)
        return int(ones * 2 > len(self.copies))


@dataclass(eq=False)
class Point:
    name: str
    interfaces: list
    directions: list = field(default_factory=list)
    seen: list = field(default_factory=list)  # frames, as they began there

    @property
    def copies(self):
        return sorted((copy for direction in self.directions for copy in direction.copies), key=lambda copy: (copy.at, copy.packet.number))

    @property
    def groups(self):
        return [seen for seen in self.seen if seen.sent.is_group]

    @property
    def group_ways(self):
        return set().union(*(seen.ways for seen in self.groups))

    @property
    def is_both(self):
        return len(self.group_ways) == 2


def without_path(frame):
    """The payload of a frame; that of supervision without the path in its first 4 bits."""
    payload = frame.payload
    return bytes([payload[0] & 15]) + payload[1:] if payload and frame.is_life else payload


def is_same(one, other):
    """Whether two frames say the same: address, type and payload; of cut ones what both have, else zeros at the end apart."""
    if (one.dst, one.kind) != (other.dst, other.kind):
        return False
    first, second = without_path(one), without_path(other)
    if any(len(frame.payload) < frame.length for frame in (one, other)):
        both = min(len(first), len(second))
        return first[:both] == second[:both]
    return first.rstrip(b"\0") == second.rstrip(b"\0")


def frames_of(copies):
    """The frames of the copies, which stand in order."""
    sents, latest, before = [], {}, {}
    for copy in copies:
        earlier, sent = before.get(copy.key), latest.get(copy.key)
        differs = earlier is not None and copy.at - earlier.at < FORGOTTEN and not is_same(copy.frame, earlier.frame)
        begins = sent is None or copy.at - sent.at >= LASTS or not is_same(copy.frame, sent.first.frame)
        copy.is_clash = begins and differs
        if begins:
            sent = latest[copy.key] = Sent([])
            sents.append(sent)
        sent.copies.append(copy)
        copy.sent = sent
        before[copy.key] = copy
    return sents


# ---- numbers


@dataclass
class Span:
    """Numbers from one restart to the next: of each place in the count what had it."""

    places: dict
    greatest: int
    at: int

    def step(self, number):
        return (number - self.greatest + 32768) % 65536 - 32768

    def is_restart(self, number, at):
        step = self.step(number)
        return abs(step) > BEHIND or step <= 0 and (at - self.at >= FORGOTTEN or self.greatest + step in self.places)

    def add(self, number, at, what):
        step = self.step(number)
        self.places[self.greatest + step] = what
        if step > 0:
            self.greatest, self.at = self.greatest + step, at

    @property
    def gaps(self):
        """First and last number that never came, how many, and what came behind them."""
        rising = sorted(self.places)
        return [((a + 1) % 65536, (b - 1) % 65536, b - a - 1, self.places[b]) for a, b in zip(rising, rising[1:]) if b - a > 1]


def spans_of(counted):
    """The spans of numbers with their moments and what had them; and of each restart what it was and the greatest number before."""
    spans, restarts = [], []
    for number, at, what in counted:
        if not spans or spans[-1].is_restart(number, at):
            if spans:
                restarts.append((what, spans[-1]))
            spans.append(Span({number: what}, number, at))
        else:
            spans[-1].add(number, at, what)
    return spans, restarts


# ---- runs of frames that came one way alone


@dataclass(eq=False)
class Run:
    point: Point
    frames: list

    @property
    def start(self):
        return self.frames[0].at

    @property
    def end(self):
        return self.frames[-1].at

    def is_while(self, other):
        return self.start <= other.end and other.start <= self.end

    def group(self, way):
        return {seen.sent.src for seen in self.frames if way in seen.ways}

    @property
    def is_thin(self):
        return bool(self.group(0) & self.group(1)) or not self.group(0) or not self.group(1)

    def line(self, start):
        word = "thin" if self.is_thin else "broken"
        between = f"from {us(self.start - start)} to {us(self.end - start)} frames {len(self.frames)}"
        return f"{word} {self.point.name} {between} way-0 {addresses(self.group(0))} way-1 {addresses(self.group(1))}"


def runs_of(health, point):
    """The runs of a point, in time."""
    runs, latest = [], []
    for seen in point.groups if point.is_both else ():
        if seen.fate(health) == "once":
            if not latest:
                runs.append(Run(point, latest))
            latest.append(seen)
        elif len(seen.ways) == 2 and seen.sent.src in {other.sent.src for other in latest}:
            latest = []
    return runs


def told_runs(runs):
    """The runs with the most frames, by time, and the others."""
    most = sorted(runs, key=lambda run: -len(run.frames))[:TOLD]
    return [run for run in runs if run in most], [run for run in runs if run not in most]


# ---- what the capture has


class Health:
    def __init__(self, octets, table, whole, taps, points, interfaces, fcs):
        self.capture = captures.read(octets, fcs)
        self.table, self.whole, self.taps = table, whole, taps
        count = len(self.capture.interfaces)
        if any(not 0 <= n < count for n in [*interfaces, *(n for _, numbers in points for n in numbers)]):
            raise NoSuchInterface
        self.packets = sorted(self.capture.packets, key=lambda packet: packet.moment)
        self.start = self.packets[0].moment if self.packets else 0
        self.end = max(self.packets[-1].moment, self.capture.end) if self.packets else 0
        self.chosen = sorted(set(interfaces)) if interfaces else list(range(count))
        self.looked_at = [i for i in self.chosen if self.capture.interfaces[i].link == 1]
        self.read_packets()
        self.sents = frames_of(self.copies)
        if len({sent.src for sent in self.sents}) > MOST_SOURCES:
            raise Fault("capture 0 sources")
        self.place_points(points)
        self.place_copies()

    @property
    def length(self):
        return us(self.end - self.start)

    def read_packets(self):
        """Of each interface its packets, and of each packet its frame, the number of its fault, or None where it is unread."""
        self.by_interface = {i: [packet for packet in self.packets if packet.interface == i] for i in self.looked_at}
        self.read = {packet.number: frame_of(packet) for i in self.looked_at for packet in self.by_interface[i]}
        tagged = [packet for packet in self.packets if self.is_tagged(packet)]
        self.copies = [Copy(packet, self.read[packet.number]) for packet in tagged]

    def is_tagged(self, packet):
        frame = self.read.get(packet.number)
        return isinstance(frame, Frame) and frame.number is not None

    def is_untagged(self, packet):
        frame = self.read.get(packet.number)
        return isinstance(frame, Frame) and frame.number is None

    def is_malformed(self, packet):
        return isinstance(self.read.get(packet.number), int)

    def taps_of(self, i):
        if self.taps != "auto":
            return self.taps
        if any(packet.way for packet in self.by_interface[i]):
            return "flags"
        lanes = Counter(copy.lane for copy in self.copies if copy.packet.interface == i)
        return "both" if lanes.total() and min(lanes[0], lanes[1]) * 10 >= lanes.total() else "one"

    def part_of(self, copy):
        match self.taps_of(copy.packet.interface):
            case "one":
                return "-"
            case "both":
                return str(copy.lane)
        return copy.packet.way or "-"

    def point_name(self, i, points):
        asked = [name.encode() for name, numbers in points if i in numbers]
        if asked:
            return asked[-1]
        _, arrow, end = self.capture.interfaces[i].name.partition(b">")
        node, dot, _ = end.rpartition(b".")
        return node if arrow and dot else b"all"

    def place_points(self, points):
        by_name = {}
        for i in self.looked_at:
            by_name.setdefault(self.point_name(i, points), []).append(i)
        self.points = [Point(named(name), numbers) for name, numbers in by_name.items()]

    def place_copies(self):
        for point in self.points:
            directions, frames = {}, {}
            for copy in self.copies:
                if copy.packet.interface not in point.interfaces:
                    continue
                key = copy.packet.interface, self.part_of(copy)
                copy.direction = directions.setdefault(key, Direction(*key))
                copy.direction.copies.append(copy)
                copy.seen = frames.setdefault(copy.sent, Seen(copy.sent))
                copy.seen.copies.append(copy)
                copy.place = sum(other.direction is copy.direction for other in copy.seen.copies)
            point.directions = [directions[key] for key in sorted(directions)]
            point.seen = list(frames.values())

    # ---- sources

    @property
    def sources(self):
        return sorted({sent.src for sent in self.sents})

    def lives(self):
        """The readable supervision frames, as they began, and what they say."""
        return [(sent, sent.life) for sent in self.sents if sent.life is not None]

    def redbox_of(self, src):
        """The RedBox that the latest supervision about a source names, or that it came from; else the source itself."""
        said = [life.redbox or sent.src for sent, life in self.lives() if life.about == src]
        return said[-1] if said else src

    def families(self):
        """The sources that count together, by RedBox."""
        families = defaultdict(list)
        for src in self.sources:
            families[self.redbox_of(src)].append(src)
        return families

    def numbers_of(self, family):
        return spans_of([(sent.number, sent.at, sent) for sent in self.sents if sent.src in family and not sent.first.is_clash])

    def life_numbers_of(self, src):
        return spans_of([(life.number, sent.at, (sent, life)) for sent, life in self.lives() if sent.src == src])[0]

    def elsewhere_of(self, src, spans):
        """The numbers between a source's own that others of its RedBox had."""
        count = 0
        for span in spans:
            own = [number for number, sent in span.places.items() if sent.src == src]
            if own:
                count += sum(min(own) < number < max(own) for number, sent in span.places.items() if sent.src != src)
        return count

    # ---- tables

    def needed(self, point):
        most, begun = 0, {}
        for copy in point.copies:
            if copy is copy.seen.first:
                begun[copy.seen] = len(begun)
            elif copy.at - copy.seen.at < FORGOTTEN:
                most = max(most, len(begun) - begun[copy.seen])
        return most

    def crowds(self):
        """Of each frame at a point how many began there in the 400 ms that begin with it."""
        for point in self.points:
            for n, seen in enumerate(point.seen):
                yield sum(other.at - seen.at < FORGOTTEN for other in point.seen[n:]), seen

    def crowd(self):
        return max((count for count, _ in self.crowds()), default=0)

    def overtakings(self, direction):
        """The first copies on a direction that are behind the greatest number, and that number. Any other is the greatest from then on."""
        greatest = {}
        for copy in direction.copies:
            if copy.place > 1:
                continue
            count = copy.frame.src, copy.priority
            before = greatest.get(count)
            behind = (before.frame.number - copy.frame.number) % 65536 if before else 0
            if 1 <= behind <= BEHIND and copy.at - before.at < FORGOTTEN:
                yield copy, before.frame.number
            else:
                greatest[count] = copy

    def breaks(self):
        """The runs of all points that aren't thin."""
        return [run for point in self.points for run in runs_of(self, point) if not run.is_thin]

    def silences(self):
        """Address, supervision before (None at the start), and begin and end."""
        heard = defaultdict(list)
        for sent, life in self.lives():
            heard[life.about].append(sent)
        for about in sorted(heard):
            moments = [(None, self.start), *((sent, sent.at) for sent in heard[about]), (None, self.end)]
            for (before, begin), (_, end) in zip(moments, moments[1:]):
                if end - begin > SILENCE:
                    yield about, before, begin, end

    def untold(self):
        """Sources that no supervision tells of."""
        told = {life.about for _, life in self.lives()}
        return [src for src in self.sources if src not in told] if self.end - self.start >= SILENCE else []


# ---- lines


def first_line(health, full):
    latest, late = 0, []
    for packet in health.capture.packets:
        if packet.moment < latest:
            late.append(latest - packet.moment)
        latest = max(latest, packet.moment)
    start = "-"
    if health.packets:
        seconds = datetime.fromtimestamp(health.start // SECOND, timezone.utc).strftime("%Y-%m-%dT%H:%M:%S")
        start = f"{seconds}.{health.start % SECOND // 1000:06}Z"
    counts = f"packets {len(health.packets)} interfaces {len(health.capture.interfaces)} us {health.length}"
    disorder = f"disorder {len(late)} by {us(max(late, default=0))} " if late or full else ""
    yield f"health 1 {counts} start {start} {disorder}end {'short' if health.capture.is_short else 'whole'}"


def thousandths(rate):
    return f"{rate // 1000}.{rate % 1000:03}"


def bits(packets):
    return sum(max(packet.length, 60) + 24 for packet in packets) * 8


def peak(packets, time):
    """The greatest sum in a time that begins with a packet, in thousandths of Mbit/s."""
    most = max((bits(p for p in packets if first.moment <= p.moment < first.moment + time) for first in packets), default=0)
    return most * 10**6 // time


def interface_lines(health):
    for i in health.chosen:
        interface = health.capture.interfaces[i]
        if i not in health.looked_at:
            yield f"interface {i} link {interface.link} skipped name {named(interface.name)}"
            continue
        packets = health.by_interface[i]
        kinds = [sum(map(is_kind, packets)) for is_kind in (health.is_tagged, health.is_untagged, health.is_malformed)]
        cut = sum(len(packet.octets) < packet.length for packet in packets)
        counts = "packets {} tagged {} untagged {} malformed {} unread {}".format(len(packets), *kinds, len(packets) - sum(kinds))
        dropped = "-" if interface.dropped is None else interface.dropped
        average = bits(packets) * 1000 // health.length if health.length else 0
        load = " ".join(map(thousandths, (average, peak(packets, 10**6), peak(packets, SECOND)))).split()
        yield (f"interface {i} {counts} cut {cut} dropped {dropped} taps {health.taps_of(i)} "
               f"load average {load[0]} peak-1ms {load[1]} peak-1s {load[2]} name {named(interface.name)}")


def direction_line(health, point, direction):
    copies, way = direction.copies, direction.way
    again, most = sum(copy.place > 1 for copy in copies), max(copy.place for copy in copies)
    late, overtaken = sum(copy.is_late for copy in copies), len(list(health.overtakings(direction)))
    others = [seen for seen in point.groups if 1 - way in seen.ways and seen.fate(health) != "open"]
    alone = sum(way not in seen.ways for seen in others)
    counts = f"copies {len(copies)} again {again} most {most} overtaken {overtaken} late {late} alone {alone} of {len(others)}"
    return f"direction {direction.interface} {direction.part} way {way} {counts}"


def run_lines(health, point):
    told, others = told_runs(runs_of(health, point))
    yield from (run.line(health.start) for run in told)
    if others:
        yield f"broken {point.name} more {len(others)} frames {sum(len(run.frames) for run in others)}"


def point_lines(health):
    for point in health.points:
        ways = "both" if point.is_both else "one"
        yield f"point {point.name} frames {len(point.seen)} ways {ways} needed {health.needed(point)}"
        for direction in point.directions:
            yield direction_line(health, point, direction)
        yield from run_lines(health, point)


def break_lines(health):
    """Breaks of several points in one time: a run with the first one of each later point in its time, and what all of them allow."""
    told = {point: [run for run in told_runs(runs_of(health, point))[0] if not run.is_thin] for point in health.points}
    joined = []
    for n, point in enumerate(health.points):
        for run in told[point]:
            later = [[other for other in told[after] if other.is_while(run)] for after in health.points[n + 1 :]]
            together = [run, *(others[0] for others in later if others)]
            if run in joined or len(together) < 2:
                continue
            joined += together
            groups = [set.intersection(*(one.group(way) for one in together)) for way in (0, 1)]
            if all(groups):
                yield f"break between {addresses(groups[0])} and {addresses(groups[1])}"


def source_lines(health):
    for redbox, family in health.families().items():
        spans, restarts = health.numbers_of(family)
        for src in family:
            yield src, list(lines_of_source(health, src, spans, restarts))


def lines_of_source(health, src, spans, restarts):
    sents, copies = [sent for sent in health.sents if sent.src == src], [copy for copy in health.copies if copy.frame.src == src]
    seen = [seen for point in health.points for seen in point.seen if seen.sent.src == src]
    gaps = [gap for span in spans for gap in span.gaps]
    clashes, late = sum(copy.is_clash for copy in copies), sum(copy.is_late for copy in copies)
    sizes, lanes = sum(copy.has_wrong_size for copy in copies), sum(copy.is_off_lane for copy in copies)
    numbers = f"frames {len(sents)} first {sents[0].number} last {sents[-1].number} gaps {len(gaps)} missing {sum(gap[2] for gap in gaps)}"
    counts = f"elsewhere {health.elsewhere_of(src, spans)} restarts {len(restarts)} clashes {clashes} late {late} size {sizes} lane {lanes}"
    yield f"source {address(src)} {numbers} {counts}"
    fates = Counter((one.sent.is_group, one.fate(health)) for one in seen)
    told = [" ".join(f"{fate} {fates[is_group, fate]}" for fate in FATES) for is_group in (True, False)]
    yield f"copies {address(src)} group {told[0]} single {told[1]}"
    skews = [one.skew for one in seen if one.skew is not None]
    yield "skew {} min {} mid {} max {}".format(address(src), *lowest_mid_most(skews))
    supervision = [sent for sent in sents if sent.first.frame.is_life]
    if supervision:
        readable = sum(sent.life is not None for sent in supervision)
        missing = sum(gap[2] for span in health.life_numbers_of(src) for gap in span.gaps)
        yield f"supervision {address(src)} frames {readable} missing {missing} unreadable {len(supervision) - readable}"


def node_lines(health):
    heard = defaultdict(list)
    for sent, life in health.lives():
        heard[life.about].append((sent, life))
    for about in sorted(heard):
        sents = [sent for sent, _ in heard[about]]
        last, life = heard[about][-1]
        copies = [copy for copy in health.copies if copy.at >= sents[0].at and copy.about == about]
        known = "known" if health.end - max(copy.at for copy in copies) < KNOWN else "forgotten"
        ways = [max((us(copy.at - health.start) for copy in copies if copy.direction.way == way), default="-") for way in (0, 1)]
        every = lowest_mid_most(after.at - before.at for before, after in zip(sents, sents[1:]))
        redbox = address(life.redbox) if life.redbox else "-"
        yield (f"node {address(about)} {known} kind {LIFE_KINDS[life.kind]} redbox {redbox} from {address(last.src)} heard {len(sents)} "
               "every min {} mid {} max {} last way-0 {} way-1 {}".format(*every, *ways))


def vlan_lines(health):
    """Each value of the tag control information by itself; those without a tag first."""
    said = Counter(-1 if vlan is None else vlan for vlan in (sent.first.frame.vlan for sent in health.sents))
    for vlan, count in sorted(said.items()):
        number, priority = ("-", "-") if vlan < 0 else (vlan & 4095, vlan >> 13)
        yield f"vlan {number} priority {priority} frames {count}"


def is_link_local(frame):
    return frame.dst[:5] == LINK_LOCAL and frame.dst[5] < 16


def odd_lines(health):
    """Packets that are no tagged frames."""
    untagged, malformed = Counter(), Counter()
    for i in health.looked_at:
        for packet in health.by_interface[i]:
            frame = health.read[packet.number]
            if health.is_untagged(packet):
                untagged[i, frame.kind, is_link_local(frame)] += 1
            elif health.is_malformed(packet):
                malformed[i, captures.KINDS[frame]] += 1
    for (i, kind, is_local), count in sorted(untagged.items()):
        yield f"untagged {i} type {kind:04X} packets {count}" + (" link-local" if is_local else "")
    for (i, kind), count in sorted(malformed.items()):
        yield f"malformed {i} {kind} packets {count}"


def absent_of(health, expect):
    """The addresses that sent nothing, and that no supervision tells of."""
    there = {address(mac) for mac in [*health.sources, *(life.about for _, life in health.lives())]}
    return [said.upper() for said in expect if said.upper() not in there]


# ---- reasons


@dataclass
class Reason:
    word: str
    count: int
    packet: object  # None where there is none
    tail: str

    def told(self, start):
        return f"{place(self.packet, start) if self.packet else 'packet - at -'} {self.tail}"


def of_all(word, found, count=None):
    """A reason of what was found, each with its packet, if it has one, and what is told of it; None where there is nothing."""
    if not found:
        return None
    packet, tail = min(found, key=lambda one: (one[0].moment, one[0].number) if one[0] else (-1, 0))
    return Reason(word, len(found) if count is None else count, packet, tail)


def number_of(frame):
    return f"{address(frame.src)} number {frame.number}"


def copies_reason(word, copies, tail):
    return of_all(word, [(copy.packet, tail(copy)) for copy in copies])


def once_seen(health):
    return [seen for point in health.points if point.is_both for seen in point.groups if seen.fate(health) == "once"]


def point_of(health, seen):
    return next(point for point in health.points if seen in point.seen)


def one_way(health):
    def told(seen):
        return f"point {point_of(health, seen).name} {number_of(seen.first.frame)} way {min(seen.ways)} alone"

    return of_all("one-way", [(seen.first.packet, told(seen)) for seen in once_seen(health)])


def one_sided(health):
    points = [point for point in health.points if len(point.group_ways) == 1]
    return of_all("one-sided", [(point.groups[0].first.packet, f"point {point.name} way {min(point.group_ways)} alone") for point in points])


def dropped(health):
    lost = [(i, number) for i in health.chosen if (number := health.capture.interfaces[i].dropped)]
    return Reason("dropped", min(sum(n for _, n in lost), MOST_TOLD), None, "interface {} packets {}".format(*lost[0])) if lost else None


def lost(health):
    found, missing = [], 0
    singles = {sent.src for sent in health.sents if not sent.is_group}
    for family in health.families().values():
        if singles.isdisjoint(family):
            continue
        for span in health.numbers_of(family)[0]:
            for first, last, count, behind in span.gaps:
                found.append((behind.first.packet, f"{address(behind.src)} numbers {first} to {last} missing {count}"))
                missing += count
    return of_all("lost", found, missing)


def restarts_of(health):
    """Each restart: the frame, and the span before it."""
    return [restart for family in health.families().values() for restart in health.numbers_of(family)[1]]


def restart(health):
    def told(sent, span):
        return f"{number_of(sent.first.frame)} after {span.greatest % 65536}"

    return of_all("restart", [(sent.first.packet, told(sent, span)) for sent, span in restarts_of(health)])


def overtaken(health):
    found = [pair for point in health.points for direction in point.directions for pair in health.overtakings(direction)]
    return of_all("overtaken", [(copy.packet, f"interface {copy.packet.interface} {number_of(copy.frame)} behind {by}") for copy, by in found])


def crowded(health):
    most = health.crowd()
    if most <= health.table:
        return None
    first = min((seen.first.packet for count, seen in health.crowds() if count == most), key=lambda packet: (packet.moment, packet.number))
    return Reason("crowded", 1, first, f"{most} frames in 400000 us, table {health.table}")


def silent(health):
    """The first is the one that begins first, of several by address. Those of sources that none tells of come last, since they have no time."""
    found, untold = list(health.silences()), health.untold()
    if found:
        about, before, begin, end = min(found, key=lambda silence: silence[2])
        return Reason("silent", len(found) + len(untold), before.first.packet if before else None, f"{address(about)} for {us(end - begin)}")
    return of_all("silent", [(None, f"{address(src)} no supervision") for src in untold])


def life(health):
    found, missing = [], 0
    for src in health.sources:
        for span in health.life_numbers_of(src):
            for first, _, count, (sent, said) in span.gaps:
                found.append((sent.first.packet, f"{address(src)} supervision number {said.number} after {(first - 1) % 65536}"))
                missing += count
    return of_all("life", found, missing)


def malformed(health):
    packets = [packet for packet in health.packets if health.is_malformed(packet)]
    return of_all("malformed", [(p, f"interface {p.interface} {captures.KINDS[health.read[p.number]]}") for p in packets])


def untagged(health):
    found = []
    for packet in health.packets:
        frame = health.read.get(packet.number)
        if health.is_untagged(packet) and not is_link_local(frame):
            found.append((packet, f"interface {packet.interface} type {frame.kind:04X} from {address(frame.src)}"))
    return of_all("untagged", found)


def absent(health, expect):
    missing = absent_of(health, expect)
    return Reason("absent", len(missing), None, missing[0]) if missing else None


def unjudged(health):
    fates = {seen.fate(health) for point in health.points for seen in point.groups}
    return Reason("unjudged", 1, None, "all group frames are open") if health.copies and fates <= {"open"} else None


def has_break(health, word):
    """Whether a break began in a time of silence, or before a restart."""
    if word == "silent":
        times = [(begin, end) for _, _, begin, end in health.silences()]
    else:
        times = [(span.at, sent.at) for sent, span in restarts_of(health)]
    return any(begin <= run.start <= end for begin, end in times for run in health.breaks())


def reasons_of(health, expect):
    def on_interface(copy):
        return f"interface {copy.packet.interface} {number_of(copy.frame)}"

    def after(copy):
        return f"{number_of(copy.frame)} after {us(copy.at - copy.seen.at)}"

    def size(copy):
        return f"{number_of(copy.frame)} size {copy.frame.size} is {copy.frame.length + 6}"

    copies = health.copies
    lane = copies_reason("lane", [c for c in copies if c.is_off_lane], lambda c: f"{number_of(c.frame)} path {c.frame.path}")
    alone, off, again = one_way(health), silent(health), restart(health)
    lane_is_common = lane is not None and lane.count * 10 >= len(copies)
    is_single = len({seen.sent.src for point in health.points for seen in point.groups if seen.fate(health) == "once"}) == 1
    off_is_first, again_is_first = has_break(health, "silent"), has_break(health, "restart")
    found = [
        None if copies else Reason("empty", 1, None, "no tagged frame"),
        unjudged(health),
        dropped(health),
        one_sided(health),
        lane if lane_is_common else None,
        absent(health, expect),
        off if off_is_first else None,
        again if again_is_first else None,
        copies_reason("storm", [copy for copy in copies if copy.place >= STORM], on_interface),
        copies_reason("again", [copy for copy in copies if 2 <= copy.place < STORM], on_interface),
        copies_reason("clash", [copy for copy in copies if copy.is_clash], lambda copy: number_of(copy.frame)),
        copies_reason("late", [copy for copy in copies if copy.is_late], after),
        alone if is_single else None,
        lost(health),
        overtaken(health),
        None if is_single else alone,
        None if again_is_first else again,
        crowded(health),
        None if off_is_first else off,
        life(health),
        malformed(health),
        untagged(health),
        copies_reason("size", [copy for copy in copies if copy.has_wrong_size], size),
        None if lane_is_common else lane,
    ]
    return [reason for reason in found if reason]


def verdict(health, reasons):
    if reasons:
        return f"doubt {reasons[0].word} {reasons[0].told(health.start)}"
    fates = Counter(seen.fate(health) for point in health.points for seen in point.groups)
    return f"healthy {len(health.sents)} twice {fates['twice']} of {fates['twice'] + fates['once'] + fates['more']} for {health.length}"


def lines_told(health, full, expect):
    yield from first_line(health, full)
    if full:
        yield from interface_lines(health)
        yield from point_lines(health)
    else:
        for point in health.points:
            yield from run_lines(health, point)
    yield from break_lines(health)
    if full:
        for _, lines in sorted(source_lines(health)):
            yield from lines
        yield from node_lines(health)
        yield from vlan_lines(health)
        yield from odd_lines(health)
        yield f"table needed {max(map(health.needed, health.points), default=0)} crowd {health.crowd()} of {health.table}"
    yield from (f"absent {said}" for said in absent_of(health, expect))
    reasons = reasons_of(health, expect)
    yield from (f"reason {reason.word} {reason.count} {reason.told(health.start)}" for reason in reasons)
    yield verdict(health, reasons)


def told(octets, full=False, expect=(), table=512, whole=False, taps="auto", points=(), interfaces=(), fcs=0):
    """The report and the status. Points are names, each with its interfaces; addresses are told as text."""
    try:
        health = Health(octets, table, whole, taps, points, interfaces, fcs)
    except NoSuchInterface:
        return "", 3
    lines = list(lines_told(health, full, expect))
    return "".join(line + "\n" for line in lines), 0 if lines[-1].startswith("healthy ") else 2


# ---- by hand


def expected(word):
    """The addresses of a word of `--expect`: its own, or those of the plan in that file."""
    if all(re.fullmatch("[0-9A-Fa-f]{2}(-[0-9A-Fa-f]{2}){5}", part) for part in word.split(",")):
        return word.split(",")
    from random_plans import Meaning

    meaning = Meaning(tomllib.loads(Path(word).read_text()))
    stations = [name for box in meaning.boxes for name in meaning.redboxes[box]]
    return [meaning.mac(name) for name in meaning.names if name not in meaning.couplers] + [meaning.mac(name) for name in stations]


def words():
    parser = argparse.ArgumentParser(description=__doc__.splitlines()[0])
    parser.add_argument("--full", action="store_true")
    parser.add_argument("--whole", action="store_true")
    parser.add_argument("--expect", help="addresses, parted by commas, or a plan's file")
    parser.add_argument("--table", type=int, default=512)
    parser.add_argument("--taps", choices=("auto", "one", "both"), default="auto")
    parser.add_argument("--point", action="append", default=[])
    parser.add_argument("--interface", action="append", type=int, default=[])
    parser.add_argument("--fcs", type=int, default=0)
    return parser.parse_args()


def point_said(word):
    name, _, numbers = word.partition("=")
    return name, [int(number) for number in numbers.split(",")]


def main():
    said = words()
    expect = expected(said.expect) if said.expect else ()
    octets, points = sys.stdin.buffer.read(), list(map(point_said, said.point))
    try:
        text, status = told(octets, said.full, expect, said.table, said.whole, said.taps, points, said.interface, said.fcs)
    except Fault as fault:
        sys.stderr.write(f"fault: {fault}\n")
        sys.exit(1)
    sys.stdout.buffer.write(text.encode())
    sys.exit(status)


if __name__ == "__main__":
    main()
