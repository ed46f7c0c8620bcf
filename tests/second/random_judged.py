"""Random captures for `judge`, by their seeds: a device of any role and mode in a ring, what comes to it, and what it lets out. That is what
the node of the second bench (model.py) lets out, then spoilt at random.

    python3 tests/second/random_judged.py [COUNT [SEED]]

This counts in how many of COUNT (200) reports of the second reading, from SEED (0) on, each word stands.
"""
import heapq
import random
import sys
from collections import Counter
from dataclasses import dataclass, field

import judge
import model
import random_captures
from model import word
from random_captures import Packet

OWN, OTHER_OWN = bytes.fromhex("020000000002"), bytes.fromhex("020000000005")
NODES = [bytes.fromhex(f"02000000001{n}") for n in range(4)]
STATIONS = [bytes.fromhex(f"02000000003{n}") for n in range(3)]
GROUPS = [bytes.fromhex("01005E000001"), bytes.fromhex("010CCD010001"), model.SUPERVISION]
LINK_LOCAL = bytes.fromhex("0180C2000000")
US, MS = 1000, 1_000_000
WAITS = [1 * US, 40 * US, 300 * US, 900 * US, 5 * MS, 40 * MS]
PAUSES = [399 * MS, 400 * MS, 500 * MS, 800 * MS, 1200 * MS]
IGNORED = ("path", "padding", "life-up", "life-payload", "interlink-source", "interlink-flood", "link-local")


@dataclass
class Out:
    """What leaves the device."""

    at: int
    end: str
    octets: bytearray


def payload_of(chance):
    size = chance.choice([0, 1, 2, 4, 10, 28, 45, 46, 47, 52, 53, 60])
    octets = bytes(chance.choice([0, 0x5A, 0xAA, chance.randrange(256)]) for _ in range(size))
    return octets[: size // 2].ljust(size, b"\0") if chance.random() < 0.4 else octets


def life_payload(chance, about, redbox=None, number=None):
    said = word(chance.choice([0, 1, 0x1001])) + word(chance.randrange(5) if number is None else number)
    said += bytes([chance.choice([23, 23, 20, 21, 22, 0]), chance.choice([6, 6, 6, 5])]) + about
    said += bytes([30, 6]) + redbox if redbox else b""
    return said.ljust(chance.choice([46, 46, 12, 52, 60]), b"\0")


def tag_of(chance, path, number, length):
    size = length + 6 if chance.random() < 0.9 else chance.choice([length, 52, 4095, max(0, length + 2)])
    return word(model.HSR) + word(path << 12 | size & 4095) + word(number)


# ---- what comes


@dataclass
class World:
    """The ring about the device: what comes when, in a heap, and what leaves."""

    chance: random.Random
    device: dict
    node: model.Node
    has_own: bool  # whether it sends by itself, or by its host
    is_kind: bool  # whether all is tapped, and the document is right
    spoils: list = field(default_factory=list)

    def __post_init__(self):
        self.role, self.outs, self.ins, self.heap, self.count = self.device["role"], [], [], [], 0
        self.dropped = []  # what came and left nowhere
        self.ring = [port for port in model.PORTS[self.role] if port != "I"]
        self.numbers = {source: self.chance.randrange(65536) for source in NODES + STATIONS + [OWN]}

    def put(self, at, what, *said):
        self.count += 1
        heapq.heappush(self.heap, (max(at, 0), self.count, what, said))

    def payload_for(self, dst, source):
        chance = self.chance
        if dst == model.SUPERVISION and chance.random() < 0.9:
            return model.SUPERVISION_TYPE, life_payload(chance, source, chance.choice([None, None, source]))
        return chance.choice([0x0800, 0x88B8, 0x88FB, 0x88B5]), payload_of(chance)

    def destination(self):
        return self.chance.choice(GROUPS + GROUPS[:2] + [OWN, OWN, NODES[0]] + (STATIONS[:2] if self.role == "redbox" else []))

    def from_ring(self, at):
        """A frame of another node, mostly by both ways."""
        chance = self.chance
        source, dst = chance.choice(NODES + STATIONS[2:] + [OWN] * (chance.random() < 0.2)), self.destination()
        kind, payload = self.payload_for(dst, source)
        if chance.random() < 0.9:
            self.numbers[source] += chance.choice([1, 1, 1, 2, 50])
        number = self.numbers[source] % 65536
        vlan = word(model.VLAN) + word(chance.choice([1, 0x6005])) if chance.random() < 0.15 else b""
        port = chance.choice(self.ring)
        for way in [port, *self.others(port)] if chance.random() < 0.8 else [port]:
            path = "BADC".index(way) % 2 if chance.random() < 0.95 else chance.randrange(16)
            octets = dst + source + vlan + tag_of(chance, path, number, len(payload)) + word(kind) + payload
            self.put(at, "arrive", way, octets)
            at += chance.choice(WAITS)
        if chance.random() < 0.1:
            self.put(at + chance.choice(WAITS + PAUSES), "arrive", port, octets)

    def others(self, port):
        return [self.chance.choice([other for other in self.ring if other != port])]

    def wrong(self, at):
        """Octets that are no frame for a ring port, or none at all."""
        chance, payload = self.chance, payload_of(self.chance)
        source, dst = chance.choice(NODES), self.destination()
        tag = tag_of(chance, 1, chance.randrange(9), len(payload)) + word(0x0800)
        match chance.randrange(9):
            case 0:
                octets = dst + source + word(0x0800) + payload
            case 1:
                octets = (dst + source)[: chance.randrange(13)]
            case 2:
                octets = dst + GROUPS[0] + tag + payload
            case 3:
                octets = dst + source + (word(model.VLAN) + word(5)) * 2 + word(0x0800) + payload
            case 4:
                octets = dst + source + tag[: chance.randrange(2, 6)]
            case 5:
                octets = dst + source + tag[:6] + tag + payload
            case 6:
                octets = LINK_LOCAL[:5] + bytes([chance.choice([0, 14, 15, 16])]) + source + word(0x88CC) + payload
            case 7 if self.role == "redbox":
                self.put(at, "arrive", "I", dst + source + tag + payload)
                return
            case _:
                octets = dst + source + tag + bytes(1501)
        self.put(at, "arrive", chance.choice(model.PORTS[self.role]), octets)

    def from_station(self, at):
        chance = self.chance
        source, dst = chance.choice(STATIONS[:2] + [OWN] * (chance.random() < 0.1)), self.destination()
        kind, payload = self.payload_for(dst, source)
        octets = dst + source + (word(model.VLAN) + word(7) if chance.random() < 0.1 else b"") + word(kind) + payload
        self.put(at, "arrive", "I", octets)
        if chance.random() < 0.1:
            self.put(at + chance.choice(WAITS), "arrive", "I", octets)

    def from_host(self, at):
        chance, dst = self.chance, self.destination()
        kind, payload = self.payload_for(dst, OWN)
        source = chance.choice([OWN] * 9 + [OTHER_OWN])
        octets = dst + source + (word(model.VLAN) + word(7) if chance.random() < 0.1 else b"") + word(kind) + payload
        if chance.random() < 0.05:
            octets = chance.choice([octets[:10], dst + source + word(model.VLAN) + word(3) + word(model.VLAN) + octets[12:]])
        self.put(at, "send", octets)

    def supervise(self, at):
        self.put(at, "life", self.chance.choice([None, None, *STATIONS[:2]]) if self.role == "redbox" else None)

    # -- what the device does

    def fill(self, events):
        chance, at = self.chance, self.chance.choice([0, 0, 5 * MS])
        kinds = [self.from_ring] * 8 + [self.wrong]
        if self.role == "redbox":
            kinds += [self.from_station] * 5
        if self.role != "quadbox" and self.has_own:
            kinds += [self.from_host] * 4 + [self.supervise] * 2
        for _ in range(events):
            chance.choice(kinds)(at)
            at += chance.choice(PAUSES) if chance.random() < 0.04 else chance.choice(WAITS)

    def run(self):
        while self.heap and self.count < 150:
            at, _, what, said = heapq.heappop(self.heap)
            getattr(self, "do_" + what)(at, *said)

    def do_arrive(self, at, port, octets):
        self.ins.append(Out(at, port, bytearray(octets)))
        answer = self.node.judge(at // US, port, bytes(octets), (0, self.count))
        copies = dict(answer.copies)
        if "up" in answer.outcome.split(" "):
            copies["up"] = model.read(bytes(octets)).plain()
        self.leave(at, copies)
        if not copies:
            self.dropped.append(self.ins[-1])

    def do_send(self, at, octets):
        self.ins.append(Out(at, "up", bytearray(octets)))
        frame = model.read(octets)
        if isinstance(frame, int):
            return
        try:
            answer = self.node.send(at // US, 0, frame.dst, frame.vlan, frame.kind, frame.payload)
        except model.Refused:
            self.dropped.append(self.ins[-1])
            return
        self.leave(at, answer.copies)

    def do_life(self, at, about):
        try:
            answer = self.node.life(at // US, about)
        except model.Refused:
            return
        self.leave(at, answer.copies)

    def leave(self, at, copies):
        chance = self.chance
        for end, octets in copies.items():
            out = Out(at + chance.choice([0, 500, 1 * US, 20 * US, 99 * US, 800 * US]), end, bytearray(octets))
            self.outs.append(out)
            # What went round comes back by another port.
            if end in self.ring and octets[0] % 2 and chance.random() < 0.3:
                self.put(out.at + chance.choice(WAITS), "arrive", self.others(end)[0], octets)
        if self.is_kind:
            return
        if chance.random() < 0.03:
            self.node.next = (self.node.next + chance.choice([1, 1, 5, 4000])) % 65536
        if chance.random() < 0.02:
            self.node.lives += chance.choice([1, 3])


# ---- what is spoilt


def head_of(octets):
    return 18 if octets[12:14] == b"\x81\x00" else 14


def is_tagged(octets):
    head = head_of(octets)
    return octets[head - 2 : head] == b"\x89\x2f" and len(octets) >= head + 6


def some(chance, outs, most=4):
    return chance.sample(outs, min(len(outs), chance.randint(1, most)))


def lose(chance, outs):
    for out in some(chance, outs):
        outs.remove(out)


def send_twice(chance, outs):
    for out in some(chance, outs):
        outs.append(Out(out.at + chance.choice([0, *WAITS, *PAUSES]), out.end, bytearray(out.octets)))


def stray(chance, outs):
    for out in some(chance, outs):
        octets = bytearray(out.octets)
        match chance.randrange(5):
            case 0:
                octets = bytearray(LINK_LOCAL + NODES[0] + word(0x88CC) + bytes(30))
            case 1 if is_tagged(octets):
                head = head_of(octets)
                octets = octets[: head - 2] + octets[head + 4 :]
            case 2 if len(octets) > 12:
                octets[6] |= 1
            case 3:
                octets = octets[: chance.randrange(len(octets) + 1)]
            case _:
                octets[4:6] = chance.randbytes(2)
        outs.append(Out(out.at + chance.choice(WAITS), chance.choice([out.end, other_end(chance, outs)]), octets))


def other_end(chance, outs):
    return chance.choice(outs).end


def stray_at_another(chance, outs):
    """Frames that go where the reference doesn't let them."""
    for out in some(chance, outs):
        octets = bytearray(out.octets)
        end = other_end(chance, outs)
        if end in ("I", "up") and is_tagged(octets):
            head = head_of(octets)
            octets = octets[: head - 2] + octets[head + 4 :]
        outs.append(Out(out.at + chance.choice(WAITS), end, octets))


def delay(chance, outs):
    for out in some(chance, outs):
        out.at += chance.choice([1 * MS, 2 * MS, 30 * MS, 399 * MS, 400 * MS, 401 * MS, 402 * MS])


def swap(chance, outs):
    """Two copies leave in the other order."""
    for out in some(chance, outs):
        other = chance.choice(outs)
        out.at, other.at = other.at, out.at


def alter(chance, outs):
    for out in some(chance, outs, 5):
        for _ in range(chance.choice([1, 1, 1, 2])):
            alter_octets(chance, out)


def alter_octets(chance, out):
    octets, head = out.octets, head_of(out.octets)
    start = head + 6 if is_tagged(octets) else head
    choice = chance.randrange(12)
    if choice == 0 and is_tagged(octets):
        octets[head] ^= chance.choice([0x10, 0x20, 0x40])
    elif choice == 1 and is_tagged(octets):
        octets[head + 3] ^= chance.choice([1, 2, 7])
    elif choice == 2 and is_tagged(octets):
        octets[head + 1] = (octets[head + 1] + chance.choice([1, 8, 250])) % 256
    elif choice == 3 and is_tagged(octets):
        octets[head - 2 : head + 4] = b""
    elif choice == 4 and not is_tagged(octets) and len(octets) > head:
        octets[head - 2 : head - 2] = word(model.HSR) + word(len(octets) - head + 6) + word(chance.randrange(9))
    elif choice == 5 and len(octets) > 12:
        octets[11] = chance.choice([octets[11] ^ 1, 2])
    elif choice == 6 and head == 14 and len(octets) > 14:
        octets[12:12] = word(model.VLAN) + word(9)
    elif choice == 7 and head == 18:
        octets[15] ^= 1
    elif choice in (8, 9):
        octets += bytes(chance.choice([1, 4, 16, 30]))
    elif choice == 10:
        while len(octets) > start and octets[-1] == 0:
            octets.pop()
    elif len(octets) > start:
        octets[chance.randrange(start, len(octets))] ^= chance.choice([1, 0xFF])


def pad(chance, outs):
    """The device fills all frames up to 60 octets, and its sizes count that or don't."""
    counts = chance.random() < 0.5
    for out in outs:
        lacks = 60 - len(out.octets)
        if lacks > 0 and len(out.octets) > 20:
            if is_tagged(out.octets) and counts:
                head = head_of(out.octets)
                out.octets[head : head + 2] = word(int.from_bytes(out.octets[head : head + 2], "big") + lacks)
            out.octets += bytes(lacks)


def repath(chance, outs):
    """The device writes paths into what it sends on."""
    for out in outs:
        if is_tagged(out.octets) and out.end in "AB":
            head = head_of(out.octets)
            out.octets[head] = out.octets[head] & 15 | "AB".index(out.end) << 4


def resource(chance, outs):
    """The device writes its own address into what leaves by its interlink."""
    for out in outs:
        if out.end == "I" and len(out.octets) > 12:
            out.octets[6:12] = OWN


def flood(chance, outs):
    """Single addresses leave by the interlink, though none stands there."""
    for out in [out for out in outs if out.end == "A" and is_tagged(out.octets)][:6]:
        head = head_of(out.octets)
        octets = out.octets[: head - 2] + out.octets[head + 4 :]
        octets[:6] = chance.choice([NODES[1], STATIONS[0], octets[:6]])
        outs.append(Out(out.at + 10 * US, "I", octets))


def hush_up(chance, outs):
    """Supervision isn't passed up, or other supervision is."""
    outs[:] = [out for out in outs if not (out.end == "up" and out.octets[:6] == model.SUPERVISION)]
    if chance.random() < 0.5:
        outs += [Out(out.at, "up", out.octets[:12] + out.octets[18:]) for out in outs if out.octets[:6] == model.SUPERVISION and out.end == "A"]


def pad_life(chance, outs):
    for out in outs:
        if out.octets[:6] == model.SUPERVISION and out.octets[6:12] == OWN and out.end in "AB":
            out.octets[32:] = chance.choice([b"", bytes(20), b"\x1e\x06" + OWN + bytes(10), b"\x05\x01\x01"])
            if chance.random() < 0.7:
                out.octets[14:16] = word(int.from_bytes(out.octets[14:15], "big") << 8 & 0xF000 | len(out.octets) - 14)


def let_through(chance, outs, world):
    """What the reference drops leaves all the same."""
    ends = [*model.PORTS[world.role], *["up"] * (world.role != "quadbox")]
    for came in some(chance, world.dropped, 8):
        octets, head = bytearray(came.octets), head_of(came.octets)
        end = chance.choice([end for end in ends if end != came.end])
        if is_tagged(octets) and end in ("I", "up"):
            octets[head - 2 : head + 4] = b""
        elif not is_tagged(octets) and came.end in ("I", "up") and end in "AB" and len(octets) >= head:
            octets[head - 2 : head - 2] = tag_of(chance, "AB".index(end), chance.randrange(65536), len(octets) - head)
        outs.append(Out(came.at + chance.choice([0, *WAITS]), end, octets))


def take_down(chance, outs):
    """A port lets nothing out for a while."""
    out = chance.choice(outs)
    outs[:] = [other for other in outs if other.end != out.end or not out.at <= other.at < out.at + 100 * MS]


def link_local(chance, outs):
    for out in some(chance, outs):
        octets = bytearray(LINK_LOCAL[:5] + bytes([chance.choice([0, 14, 15, 16])]) + NODES[0] + word(0x88CC) + bytes(30))
        outs.append(Out(out.at + chance.choice(WAITS), chance.choice([out.end, other_end(chance, outs)]), octets))


def send_round(chance, outs):
    """The device drops no second copies for a while."""
    for out in outs[: len(outs) // 2]:
        if out.end in "ABCD" and is_tagged(out.octets) and chance.random() < 0.4:
            outs.append(Out(out.at + chance.choice(WAITS), out.end, bytearray(out.octets)))


ONCE = (send_twice, stray, stray_at_another, swap, send_round, pad, repath, resource, flood, flood, hush_up, pad_life, take_down, link_local)
SPOILS = (*ONCE, lose, lose, delay, delay, alter, alter, alter)
LETS_PASS = {pad: "padding", repath: "path", resource: "interlink-source", flood: "interlink-flood", hush_up: "life-up", pad_life: "life-payload"}
LETS_PASS |= {link_local: "link-local"}


# ---- how it is tapped


def forms(chance, end, is_kind):
    """The interfaces of an end: each a name, what the document says, and which ways it shows."""
    choice = chance.choice([0.3, 0.9]) if is_kind and end != "up" else chance.random()
    if choice < 0.08:
        return []
    if choice < 0.13:
        return [(f"{end}i", f"{end} in", "in")]
    if choice < 0.18:
        return [(f"{end}o", f"{end} out", "out")]
    if choice < 0.45:
        return [(f"{end}i", f"{end} in", "in"), (f"{end}o", f"{end} out", "out")]
    if choice < 0.55 and end in "ABCD":
        return [(f"{end}l", f"{end} lane", "lane")]
    return [(f"eth{end}", end, "flags")]


def tapped(chance, ends, is_kind):
    taps = [tap for end in ends for tap in forms(chance, end, is_kind)]
    if chance.random() < 0.1:
        taps.append(("left", "", "in"))
    chance.shuffle(taps)
    return taps


def packets_of(chance, taps, ins, outs, is_kind):
    """What the interfaces show. Clocks may differ by a little."""
    packets, skews = [], [chance.choice([0] if is_kind else [0, 0, 0, 0, -30 * US, 30 * US, -700 * US]) for _ in taps]
    for is_in, copies in ((True, ins), (False, outs)):
        for copy in copies:
            for i, (_, said, way) in enumerate(taps):
                end = said.partition(" ")[0]
                if end != copy.end or way not in ("in" if is_in else "out", "lane", "flags"):
                    continue
                # The host's own device shows what it sends as outbound.
                flag = ("in" if is_in != (end == "up") else "out") if way == "flags" else chance.choice(["", "", "in", "out"])
                packets.append(Packet(max(0, copy.at + skews[i]), i, bytearray(copy.octets), len(copy.octets), flag))
    if taps and taps[-1][0] == "left" and ins:
        packets.append(Packet(ins[0].at, len(taps) - 1, bytearray(ins[0].octets), len(ins[0].octets), ""))
    packets.sort(key=lambda packet: packet.at)
    return packets


def keys_of(chance, device, times, world):
    """The keys that say when something counts, and what need not agree."""
    is_kind = world.is_kind
    within = chance.choice([1000, 1000, 1000, 20_000, 400_000] if is_kind else [100, 500, 1000, 1000, 20_000, 0, 400_000])
    if within != 1000 or chance.random() < 0.3:
        device["within_us"] = within
    moments = [time // US for time in times] or [0]
    middle, last = moments[len(moments) // 2], moments[-1]
    for key, values, share in (
        ("early_us", (30, 700, 1000), 0.3),
        ("from_us", (0, moments[len(moments) // 4]), 0.12),
        ("until_us", (last, middle, last - 1 if last else 0), 0.15),
        ("warm_us", (400_000, middle), 0.2),
        ("host", (True, False), 0.25),
        ("whole", (True, False), 0.25),
    ):
        if chance.random() < share and not (is_kind and key in ("from_us", "until_us", "host")):
            device[key] = chance.choice(values)
    passing = [LETS_PASS[spoil] for spoil in world.spoils if spoil in LETS_PASS]
    if chance.random() < 0.6 or passing and chance.random() < 0.6:
        words = sorted({*chance.sample(IGNORED, chance.randint(0, 4)), *passing})
        device["ignore"] = chance.sample(words, len(words))
    if chance.random() < (0.8 if take_down in world.spoils else 0.1):
        ends = model.PORTS[device["role"]]
        device["down"] = []
        for _ in range(chance.choice([1, 2])):
            times = {"from_us": chance.choice([0, middle // 2]), "until_us": chance.choice([middle, last])}
            device["down"].append({"port": chance.choice(ends), **times})


def device_of(chance):
    role = chance.choice(["danh"] * 4 + ["redbox"] * 4 + ["quadbox"] * 2)
    device = {"role": role}
    if role != "quadbox":
        device["mac"] = model.printed(OWN)
        if chance.random() < 0.6:
            device["mode"] = chance.choice("HNU")
    if chance.random() < 0.5:
        device["table"] = chance.choice([4, 4, 4, 8, 8, 16, 512] if chance.random() < 0.98 else [1, 3, 100, 65535, 65536])
    return device


def made(seed):
    """The octets of a capture, a device, and arguments: of the list, of octets, whether it is full, and of a frame check sequence."""
    chance = random.Random(seed)
    device = device_of(chance)
    node, is_kind = model.Node(0, device, device.get("table", 512)), chance.random() < 0.4
    node.next, node.lives = chance.choice([0, 64512, 65534, chance.randrange(65536)]), chance.choice([0, 65535, 7])
    if device["role"] != "quadbox":
        for key, value in (("start", node.next), ("life_start", node.lives)):
            if chance.random() < 0.3:
                device[key] = chance.choice([value, value, value, value if is_kind else (value + 1) % 65536])
    if device["role"] == "redbox" and chance.random() < 0.4:
        device["stations"] = [model.printed(station) for station in STATIONS[: chance.randint(1, 2)]]
        for station in STATIONS[: chance.choice([len(device["stations"])] * 3 + [0] * (not is_kind))]:
            node.hear(station)
    world = World(chance, device, node, chance.random() < 0.8, is_kind)
    world.fill(chance.choice([3, 8, 8, 15, 15, 25, 40] + [0] * (chance.random() < 0.1)))
    world.run()
    world.spoils = chance.sample(SPOILS, chance.choice([0, 0, 0, 1, 1, 2] if is_kind else [0, 1, 1, 2, 3, 4]))
    for spoil in world.spoils if world.outs else ():
        spoil(chance, world.outs)
        if not world.outs:
            break
    if chance.random() < (0.1 if is_kind else 0.5):
        let_through(chance, world.outs, world)
    ends = [*model.PORTS[device["role"]], *["up"] * (device["role"] != "quadbox" or chance.random() < 0.1)]
    return captured(chance, device, world, ends)


def captured(chance, device, world, ends):
    taps = tapped(chance, ends, world.is_kind)
    packets = packets_of(chance, taps, world.ins, world.outs, world.is_kind)
    if chance.random() < 0.1:
        kept, share = chance.choice([30, 40, 50, 60, 60, 64]), chance.choice([1, 1, 0.5])
        for packet in packets:
            packet.octets = packet.octets[: kept if chance.random() < share else None]
    if chance.random() < 0.02 and packets:
        chance.choice(packets).way = ""
    start = packets[0].at if packets else 0
    keys_of(chance, device, [packet.at - start for packet in packets], world)
    said = {name if chance.random() < 0.5 else str(i): word_said for i, (name, word_said, _) in enumerate(taps) if word_said}
    if chance.random() < 0.02:
        said["nowhere"] = "A"
    if said:
        device["interface"] = said
    end = packets[-1].at + chance.choice([0, 500 * US, 500 * MS]) if packets and chance.random() < 0.4 else 0
    if chance.random() < 0.2:
        chance.shuffle(packets)
    octets = random_captures.written([name.encode() for name, _, _ in taps], packets, end, None)
    said = {"list": chance.choice([100, 100, 100, 3, 0]), "octets_all": chance.random() < 0.2, "full": chance.random() < 0.85}
    return octets, device, said | {"fcs": chance.choice([0] * 20 + [4])}


def document_of(device):
    """The text of TOML that says so."""

    def value(said):
        match said:
            case bool():
                return str(said).lower()
            case dict():
                return "{" + ", ".join(f'"{name}" = {value(word_said)}' for name, word_said in said.items()) + "}"
            case list():
                return "[" + ", ".join(value(one) for one in said) + "]"
            case str():
                return f'"{said}"'
        return str(said)

    return "".join(f"{key} = {value(said)}\n" for key, said in device.items())


def kinds_of(text):
    """What a report tells, as words to be counted."""
    kinds = set()
    for words in (line.split(" ") for line in text.splitlines()):
        match words[0]:
            case "sum" if words[5] == "altered":
                kinds |= {f"altered {name}" for name in words[7].split(",")}
            case "sum":
                kinds.add(" ".join(words[5:6] + words[7:]))
            case "port":
                kinds |= {f"port {word}" for word, count in zip(words[2::2], words[3::2]) if count != "0"}
            case "deviates" | "conforms":
                kinds.add(" ".join(words[:3]) if words[1:3] == ["0", "empty"] else words[0])
                kinds |= {f"first {words[12]}"} if "first" in words else set()
            case "missing" | "extra" | "late" | "altered" | "delay" | "reference" | "interface":
                kinds |= {"malformed octets"} if "malformed" in words else set()
                kinds |= {"delay"} if words[0] == "delay" and words[3] != "-" else set()
            case _:
                kinds.add(words[0])
    return kinds


def main():
    count, seed = (int(word) for word in (sys.argv[1:] + ["200", "0"][len(sys.argv) - 1 :]))
    kinds = Counter()
    for n in range(seed, seed + count):
        octets, device, said = made(n)
        try:
            kinds.update(kinds_of(judge.told(octets, device, **said)[0]))
        except judge.Fault as fault:
            kinds["fault " + " ".join(str(fault).split(" ")[:3])] += 1
    for kind, number in sorted(kinds.items()):
        print(number, kind)


if __name__ == "__main__":
    main()
