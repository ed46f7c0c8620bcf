#!/usr/bin/env python3
"""Random captures of a ring's traffic, and words for `hsr_tap health`. Each has a theme: a ring that is healthy but for one thing, so that each
reason of the report comes first now and then. Half of them have more that is wrong.

    python3 tests/second/random_rings.py SEED > CAPTURE

writes the capture of a seed, and its words to standard error.
"""
import random
import struct
import sys
from dataclasses import dataclass, field

import random_captures
from random_captures import Packet, copied, padded, some

MS, SECOND = 10**6, 10**9
START = 1_790_000_000 * SECOND
GROUPS = [bytes.fromhex(group) for group in ("010CCD010001", "010CCD040001", "FFFFFFFFFFFF")]
SUPERVISION, NOBODY = random_captures.SUPERVISION, bytes.fromhex("020000000FF0")
TYPES = (0x88B8, 0x88BA, 0x0800)


def word(number):
    return struct.pack(">H", number % 65536)


def own(number):
    return bytes.fromhex("0200000000") + bytes([number])


# ---- a ring, and what its nodes send


@dataclass
class Node:
    macs: list  # its own, and those of its stations
    number: int
    life_number: int = 0
    life_every: int = 2 * SECOND
    kind: int = 23
    dead_port: int | None = None  # a port by which nothing of its own leaves

    @property
    def is_redbox(self):
        return len(self.macs) > 1


@dataclass
class Send:
    at: int
    node: int
    src: bytes
    dst: bytes
    kind: int
    payload: bytes
    vlan: int | None = None


@dataclass
class Ring:
    chance: random.Random
    nodes: list
    length: int
    sends: list = field(default_factory=list)
    down: list = field(default_factory=list)  # links and times at which they carry nothing
    off: list = field(default_factory=list)  # nodes and times
    hush: list = field(default_factory=list)  # nodes and times without supervision
    slow: list = field(default_factory=list)  # links, directions, times and how much later
    delays: dict = field(default_factory=dict)  # of links and directions
    later_changes: list = field(default_factory=list)  # of the packets
    taps: list = field(default_factory=list)
    names: list = field(default_factory=list)

    def is_off(self, node, at):
        return any(node == other and begin <= at < end for other, begin, end in self.off)

    def is_hushed(self, node, at):
        return any(node == other and begin <= at < end for other, begin, end in self.hush)

    def is_down(self, link, at):
        is_cut = any(link == other and begin <= at < end for other, begin, end in self.down)
        return is_cut or any(self.is_off(n % len(self.nodes), at) for n in (link, link + 1))

    def later(self, link, path, at):
        return sum(by for other, way, begin, end, by in self.slow if (other, way) == (link, path) and begin <= at < end)


def ring_of(chance, length):
    nodes = []
    for n in range(chance.randint(3, 6)):
        stations = [own(16 * (n + 1) + k) for k in range(chance.choice([0, 0, 0, 1, 2]))]
        number = chance.choice([0, 64512, chance.randrange(65536), 65536 - chance.randint(1, 20)])
        life_number, every = chance.choice([0, 65534, chance.randrange(65536)]), chance.choice([2 * SECOND, 2 * SECOND, SECOND, 400 * MS])
        nodes.append(Node([own(n + 1), *stations], number, life_number, every, chance.choice([23] * 8 + [20, 21])))
    delays = {(link, path): chance.randrange(5_000, 60_000) for link in range(len(nodes)) for path in (0, 1)}
    return Ring(chance, nodes, length, delays=delays)


def supervise(ring):
    chance = ring.chance
    for n, node in enumerate(ring.nodes):
        at = chance.randrange(min(node.life_every, ring.length))
        while at < ring.length:
            if not ring.is_hushed(n, at):
                for about in node.macs:
                    ring.sends.append(Send(at, n, node.macs[0], SUPERVISION, 0x88FB, about))
            at += node.life_every + chance.randrange(20 * MS)


def send_groups(ring):
    chance = ring.chance
    count = len(ring.nodes)
    for n in chance.sample(range(count), chance.randint(1, count)):
        every = max(chance.choice([60 * MS, 150 * MS, 600 * MS]), ring.length // 25)
        vlan = chance.choice([None, None, None, 0x8001, 0x2005, 0x3005, 100])
        group, kind, at = chance.choice(GROUPS), chance.choice(TYPES), chance.randrange(every)
        while at < ring.length:
            src = chance.choice(ring.nodes[n].macs)
            ring.sends.append(Send(at, n, src, group, kind, chance.randbytes(chance.choice([4, 30, 46, 52, 60])), vlan))
            at += every if chance.random() < 0.7 else chance.randrange(1, 2 * every)


def send_singles(ring):
    chance = ring.chance
    macs = [mac for node in ring.nodes for mac in node.macs]
    for n in chance.sample(range(len(ring.nodes)), chance.randint(0, 2)):
        for _ in range(chance.randint(1, 8)):
            dst = chance.choice([mac for mac in macs if mac not in ring.nodes[n].macs])
            payload = chance.randbytes(chance.choice([10, 46, 80]))
            ring.sends.append(Send(chance.randrange(ring.length), n, chance.choice(ring.nodes[n].macs), dst, 0x0800, payload))


def life_payload(node, about):
    said = word(0) + word(node.life_number) + bytes([node.kind, 6]) + about
    node.life_number += 1
    if node.is_redbox:
        said += bytes([30, 6]) + node.macs[0]
    return said.ljust(46, b"\0")


# ---- the packets that taps see


def octets_of(send, number, path, payload):
    vlan = b"" if send.vlan is None else random_captures.VLAN + word(send.vlan)
    return bytearray(send.dst + send.src + vlan + b"\x89\x2f" + word(path << 12 | len(payload) + 6) + word(number) + word(send.kind) + payload)


def play(ring):
    """The packets of the taps, in order."""
    packets = []
    for send in sorted(ring.sends, key=lambda send: send.at):
        node = ring.nodes[send.node]
        if ring.is_off(send.node, send.at):
            continue
        payload = life_payload(node, send.payload) if send.dst == SUPERVISION else send.payload
        for path in (0, 1):
            if node.dead_port != path:
                packets += passing(ring, send, path, octets_of(send, node.number, path, payload))
        node.number += 1
    return sorted(packets, key=lambda packet: packet.at)


def passing(ring, send, path, octets):
    """The packets of a copy that goes round."""
    count, at = len(ring.nodes), send.at
    for hop in range(count):
        link = (send.node + hop) % count if path else (send.node - 1 - hop) % count
        if ring.is_down(link, at):
            return
        at += ring.delays[link, path] + ring.later(link, path, at)
        for tapped, way, interface, flag in ring.taps:
            if (tapped, way) == (link, path):
                yield Packet(START + at, interface, bytearray(octets), len(octets), flag)
        reached = (link + path) % count
        if send.dst in ring.nodes[reached].macs:
            return


def rename(ring):
    """Names that aren't quite those of hsr_view."""
    odd = [b"a>b", b">n1.A", b"n0.B>.A", b"n0.B>n1.", b"a>b>n1.A", b"n0.B>n1.A.B", b"n0.B > n 1.A", b"n1.A", b"\xc3\xa4>\xc3\xb6.A"]
    ring.names = [ring.chance.choice(odd) if ring.chance.random() < 0.7 else name for name in ring.names]


def tap(ring, kind, point):
    """One more place that is tapped."""
    chance, count, first = ring.chance, len(ring.nodes), len(ring.names)
    link = chance.randrange(count)
    after = (link + 1) % count
    match kind:
        case "cable":
            ring.names.append(chance.choice([b"eth0", b"", b"n%d.B>n%d.A" % (link, after)]))
            ring.taps += [(link, 0, first, ""), (link, 1, first, "")]
        case "flags":
            ring.names.append(chance.choice([b"eth1", b""]))
            ring.taps += [(link, 0, first, "out"), (link, 1, first, "in")]
        case "ways":
            plain, pointed = [b"%d-back" % point, b"%d-forth" % point], [b"n%d.A>p%d.B" % (after, point), b"n%d.B>p%d.A" % (link, point)]
            ring.names += chance.choice([plain, pointed])
            ring.taps += [(link, 0, first, ""), (link, 1, first + 1, "")]
        case "node":
            ring.names += [b"n%d.B>n%d.A" % (link, after), b"n%d.A>n%d.B" % ((link + 2) % count, after)]
            ring.taps += [(link, 1, first, ""), (after, 0, first + 1, "")]
        case "one":
            ring.names.append(b"n%d.B>n%d.A" % (link, after))
            ring.taps.append((link, 1, first, ""))


# ---- what may be wrong, before it is played and after


def middle(ring, least, most):
    """A time in the ring's time, of a length between these."""
    length = ring.chance.randint(least, most)
    begin = ring.chance.randint(500 * MS, max(500 * MS, ring.length - length - 500 * MS))
    return begin, begin + length


def other_link(ring):
    """A link that isn't tapped, if there is one."""
    free = [link for link in range(len(ring.nodes)) if link not in {tapped[0] for tapped in ring.taps}]
    return ring.chance.choice(free or [0])


def break_link(ring):
    ring.down.append((other_link(ring), *middle(ring, 300 * MS, 3 * SECOND)))


def break_all_along(ring):
    ring.down.append((other_link(ring), 0, 2 * ring.length))


def far_node(ring):
    """A node whose links aren't tapped, if there is one."""
    tapped = {link for link, *_ in ring.taps}
    count = len(ring.nodes)
    free = [n for n in range(count) if n not in tapped and (n - 1) % count not in tapped]
    return ring.chance.choice(free or range(count))


def switch_off(ring):
    """A node is off for a time in which its supervision is missed."""
    ring.off.append((far_node(ring), *middle(ring, 5200 * MS, 7 * SECOND)))


def start_anew(ring):
    """A node is off for a time, and begins with other numbers."""
    node = far_node(ring)
    begin, end = middle(ring, 300 * MS, 2 * SECOND)
    ring.off.append((node, begin, end))
    number, macs = ring.chance.choice([0, 20000]), ring.nodes[node].macs
    ring.later_changes.append(lambda packets: renumber_behind(packets, macs, START + end, number))


def renumber_behind(packets, macs, at, by):
    for packet in packets:
        if packet.is_tagged and packet.at >= at and bytes(packet.octets[6:12]) in macs:
            packet.put(16, packet.get(16) + 20000 + by)


def anew(ring):
    """A node begins with other numbers, and nothing else is to be seen of it."""
    macs, at = ring.chance.choice(ring.nodes).macs, START + ring.chance.randrange(ring.length)
    ring.later_changes.append(lambda packets: renumber_behind(packets, macs, at, 0))


def slow_down(ring):
    link, path, *_ = ring.chance.choice(ring.taps)
    ring.slow.append((link, path, *middle(ring, 300 * MS, 2 * SECOND), ring.chance.choice([400 * MS, 450 * MS, 399_950_000, 1100 * MS, 1999 * MS])))


def hold_up(ring):
    """Single copies are held up, so that others overtake them."""
    for _ in range(ring.chance.randint(1, 4)):
        link, path, *_ = ring.chance.choice(ring.taps)
        begin = ring.chance.randrange(ring.length)
        ring.slow.append((link, path, begin, begin + 30 * MS, ring.chance.choice([100 * MS, 300 * MS, 390 * MS])))


def kill_port(ring):
    ring.chance.choice(ring.nodes).dead_port = ring.chance.randrange(2)


def hush_node(ring):
    node = ring.chance.randrange(len(ring.nodes))
    ring.hush.append((node, 0, 2 * ring.length) if ring.chance.random() < 0.4 else (node, *middle(ring, 4 * SECOND, 8 * SECOND)))


def skip_numbers(ring):
    """Frames that nobody sees: they are sent while both links of their node are down."""
    for _ in range(ring.chance.randint(1, 3)):
        node, begin = ring.chance.randrange(len(ring.nodes)), ring.chance.randrange(ring.length)
        for link in (node, node - 1):
            ring.down.append((link % len(ring.nodes), begin, begin + ring.chance.choice([100 * MS, 400 * MS])))
        for _ in range(ring.chance.randint(1, 3)):
            ring.sends.append(Send(begin + ring.chance.randrange(90 * MS), node, ring.nodes[node].macs[0], GROUPS[0], 0x88B8, bytes(20)))
        ring.sends.append(Send(ring.chance.randrange(ring.length), node, ring.nodes[node].macs[0], NOBODY, 0x0800, bytes(20)))


def skip_lives(ring):
    """Supervision numbers that no frame has."""
    chance = ring.chance
    node = chance.choice(ring.nodes)
    at, by = START + chance.randrange(ring.length), chance.choice([1, 2, 5, 300, 5000])

    def change(packets):
        for packet in packets:
            is_life = packet.is_tagged and packet.octets[:6] == SUPERVISION and len(packet.octets) > 26
            if is_life and packet.at >= at and bytes(packet.octets[6:12]) == node.macs[0]:
                packet.put(22, packet.get(22) + by)

    ring.later_changes.append(change)


def repeat(ring, times):
    def change(packets):
        chance = ring.chance
        step = chance.choice([1000, 100_000, 20 * MS, 150 * MS])
        for packet in some(chance, [packet for packet in packets if packet.is_tagged], 4):
            packets += [copied(packet, packet.at + step * n) for n in range(1, chance.choice(times) + 1)]

    ring.later_changes.append(change)


def twins(ring):
    """Two devices with one address: others' frames with the same numbers."""
    def change(packets):
        chance = ring.chance
        for packet in some(chance, [packet for packet in packets if packet.is_tagged and len(packet.octets) > 24], 3):
            other = copied(packet, packet.at + chance.choice([1000, 10 * MS, 399 * MS]))
            other.octets[chance.choice([5, 23, 24])] ^= 1
            packets.append(other)

    ring.later_changes.append(change)


def lose_copies(ring):
    share = ring.chance.choice([0.02, 0.1, 0.3])
    ring.later_changes.append(lambda packets: random_captures.lose_share(ring.chance, packets, share))


def on_packets(change):
    return lambda ring: ring.later_changes.append(lambda packets: change(ring.chance, packets))


def spoil_sizes(chance, packets):
    tagged = [packet for packet in packets if packet.is_tagged]
    for packet in some(chance, tagged, 6):
        packet.put(14, packet.get(14) & 0xF000 | (packet.get(14) & 4095) + chance.choice([1, 100, -1, -4, -40]) & 4095)


def pad(chance, packets):
    for packet in some(chance, [packet for packet in packets if packet.is_tagged], 8):
        packet.octets += bytes(chance.choice([2, 16, 30]))
        packet.length = len(packet.octets)
        if chance.random() < 0.3:
            packet.put(14, packet.get(14) & 0xF000 | len(packet.octets) - 14)


def spoil_lanes(chance, packets):
    for packet in some(chance, [packet for packet in packets if packet.is_tagged], 4):
        packet.octets[14] ^= chance.choice([0x10, 0x30, 0x90])


def only_untagged(chance, packets):
    if chance.random() < 0.3:
        packets.clear()
    for packet in packets:
        packet.octets[12:14] = chance.choice([b"\x88\xcc", b"\x08\x00"])


def cut(chance, packets):
    kept = chance.choice([16, 19, 20, 22, 24, 30, 40, 60])
    for packet in chance.sample(packets, len(packets) // chance.choice([1, 1, 2, 8])):
        packet.octets = packet.octets[:kept]


OF_RING = {
    "one-way": [break_link],
    "lost": [skip_numbers],
    "silent-first": [switch_off],
    "restart-first": [start_anew],
    "restart": [anew],
    "late": [slow_down],
    "overtaken": [hold_up],
    "single": [kill_port],
    "silent": [hush_node],
    "life": [skip_lives],
    "storm": [lambda ring: repeat(ring, [3, 5])],
    "again": [lambda ring: repeat(ring, [1, 2])],
    "clash": [twins],
    "size": [on_packets(spoil_sizes)],
    "lane": [on_packets(spoil_lanes)],
    "malformed": [on_packets(random_captures.put_malformed)],
    "untagged": [on_packets(random_captures.put_untagged)],
    "empty": [on_packets(only_untagged)],
    "unjudged": [break_all_along],
}
MORE = [
    *(change for theme, changes in OF_RING.items() for change in changes if theme not in ("empty", "unjudged")),
    slow_down,
    lambda ring: repeat(ring, [4, 5]),
    *map(on_packets, (random_captures.put_malformed, random_captures.put_untagged)),
    lose_copies,
    *map(on_packets, (pad, cut, random_captures.garble_supervision, random_captures.tag, random_captures.renumber)),
    *map(on_packets, (random_captures.alter, random_captures.rename, random_captures.stretch, random_captures.move)),
]
OTHERS = ("healthy", "dropped", "one-sided", "lane-most", "absent", "crowded")
THEMES = [*OF_RING, *OTHERS, *["unjudged", "unjudged", "empty", "empty"] * 2, "healthy", "crowded", "untagged", "late", "silent", "life"]
CLEAN = ("healthy", "unjudged", "crowded", "untagged", "life")  # nothing more is wrong


# ---- the file


def pcap(chance, packets):
    order, is_nano = chance.choice("<>"), chance.random() < 0.5
    scale = 1 if is_nano else 1000
    octets = struct.pack(order + "IHHiIII", 0xA1B23C4D if is_nano else 0xA1B2C3D4, 2, 4, 0, 0, 65535, 1)
    for packet in packets:
        octets += struct.pack(order + "IIII", packet.at // SECOND, packet.at % SECOND // scale, len(packet.octets), packet.length) + packet.octets
    return octets


def pcapng(chance, names, packets, end, lost, links):
    """A section; `lost` has the packets that each interface lost, as the file says it: by statistics or by a packet."""
    order = chance.choice("<<>")
    digits = [chance.choice([6, 9]) for _ in names]

    def block(kind, body):
        return struct.pack(order + "II", kind, len(body) + 12) + body + struct.pack(order + "I", len(body) + 12)

    def option(code, value):
        return struct.pack(order + "HH", code, len(value)) + padded(value)

    def stamp(i, moment):
        ticks = moment // 10 ** (9 - digits[i])
        return struct.pack(order + "II", ticks >> 32, ticks & 0xFFFFFFFF)

    octets = block(0x0A0D0D0A, struct.pack(order + "IHHq", 0x1A2B3C4D, 1, 0, -1))
    for name, power, link in zip(names, digits, links):
        octets += block(1, struct.pack(order + "HHI", link, 0, 0) + option(2, name) + option(9, bytes([power])) + bytes(4))
    by_packet = {i for i in lost if chance.random() < 0.5}
    for packet in packets:
        said = option(2, struct.pack(order + "I", {"in": 1, "out": 2}[packet.way])) if packet.way else b""
        if packet.interface in by_packet:
            said += option(4, struct.pack(order + "Q", lost[packet.interface]))
            by_packet.remove(packet.interface)
        head = struct.pack(order + "I", packet.interface) + stamp(packet.interface, packet.at)
        head += struct.pack(order + "II", len(packet.octets), packet.length)
        octets += block(6, head + padded(packet.octets) + (said + bytes(4) if said else b""))
    for i in range(len(names)):
        said = (option(3, stamp(i, end)) if end else b"") + (option(5, struct.pack(order + "Q", lost[i])) if i in lost else b"")
        if said:
            octets += block(5, struct.pack(order + "I", i) + stamp(i, START) + said + bytes(4))
    return octets


def file_of(chance, theme, ring, packets):
    end = chance.choice([0, 0, START + ring.length + 500 * MS, START + 100])
    lost = {i: 0 for i in range(len(ring.names)) if chance.random() < 0.2}
    if theme == "dropped" or chance.random() < 0.1:
        lost[chance.randrange(len(ring.names))] = chance.randint(1, 9)
    links = [1] * len(ring.names)
    if chance.random() < 0.05:
        links[chance.randrange(len(links))] = 113
    is_plain = len(ring.names) == 1 and not any(packet.way for packet in packets) and links == [1] and theme != "dropped"
    octets = pcap(chance, packets) if is_plain and chance.random() < 0.7 else pcapng(chance, ring.names, packets, end, lost, links)
    return octets[: chance.randint(len(octets) - 200, len(octets) - 1)] if chance.random() < 0.06 and len(octets) > 300 else octets


# ---- words


def words_of(chance, theme, ring):
    """The words, by the arguments of the second reading."""
    count, words = len(ring.names), {"full": chance.random() < 0.85}
    macs = ["-".join(f"{octet:02X}" for octet in mac) for node in ring.nodes for mac in node.macs]
    if theme == "absent" or chance.random() < 0.15:
        extra = ["02-00-00-00-0F-F1", "02-00-00-00-0F-F2"][: chance.randint(theme == "absent", 2)]
        words["expect"] = chance.sample(macs, chance.randint(0, len(macs))) + extra
        chance.shuffle(words["expect"])
    if theme == "crowded" or chance.random() < 0.08:
        words["table"] = chance.randint(1, 4)
    if theme == "lane-most":
        words["taps"] = "one"
    elif chance.random() < 0.06:
        words["taps"] = chance.choice(["one", "both"])
    if chance.random() < 0.1:
        words["whole"] = True
    if chance.random() < 0.12:
        words["points"] = [(f"x{k}", chance.sample(range(count), chance.randint(1, count))) for k in range(chance.randint(1, 2))]
    if chance.random() < 0.06:
        words["interfaces"] = chance.sample(range(count), chance.randint(1, count))
    if chance.random() < 0.03:
        words["fcs"] = chance.choice([1, 4])
    return {key: value for key, value in words.items() if value not in (False, [])}


def arguments(words):
    """The words as a program takes them."""
    told = ["health"] + [f"--{key}" for key in ("full", "whole") if words.get(key)]
    told += [item for key in ("table", "taps", "fcs") if key in words for item in (f"--{key}", str(words[key]))]
    if words.get("expect"):
        told += ["--expect", ",".join(words["expect"])]
    for name, numbers in words.get("points", ()):
        told += ["--point", f"{name}={','.join(map(str, numbers))}"]
    for number in words.get("interfaces", ()):
        told += ["--interface", str(number)]
    return told


def length_of(chance, theme):
    if theme in ("silent-first", "silent"):
        return chance.randint(8 * SECOND, 11 * SECOND)
    if theme == "unjudged":
        return chance.randint(200 * MS, 780 * MS)
    return chance.choice([1500 * MS, 3 * SECOND, 4 * SECOND, 5 * SECOND, 6 * SECOND, 8 * SECOND])


def taps_of(chance, theme, ring):
    kinds = {"one-sided": ["one"], "lane-most": ["cable"]}.get(theme, ["cable", "cable", "ways", "ways", "node", "flags"])
    for point in range(chance.choice([1, 1, 1, 2, 3])):
        tap(ring, chance.choice(kinds), point)
    if chance.random() < 0.05:
        rename(ring)


def made(seed):
    """The octets of a capture, and words."""
    chance = random.Random(f"ring {seed}")
    theme = THEMES[seed % len(THEMES)] if chance.random() < 0.8 else "more"
    ring = ring_of(chance, length_of(chance, theme))
    taps_of(chance, theme, ring)
    send_groups(ring)
    if chance.random() < 0.6:
        send_singles(ring)
    for change in OF_RING.get(theme, []):
        change(ring)
    if theme == "more" or theme not in CLEAN and chance.random() < 0.4:
        for _ in range(chance.randint(2, 6)):
            chance.choice(MORE)(ring)
    supervise(ring)
    packets = play(ring)
    for change in ring.later_changes:
        change(packets)
    for packet in packets:
        packet.at = max(0, packet.at)
    packets.sort(key=lambda packet: packet.at)
    if chance.random() < 0.2:
        packets.sort(key=lambda packet: packet.at + chance.choice([0, 0, 0, 200 * MS]))
    return file_of(chance, theme, ring, packets), words_of(chance, theme, ring)


def main():
    octets, words = made(int(sys.argv[1]))
    sys.stdout.buffer.write(octets)
    print(" ".join(arguments(words)), file=sys.stderr)


if __name__ == "__main__":
    main()
