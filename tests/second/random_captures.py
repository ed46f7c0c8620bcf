"""Random captures: the examples, with packets changed, lost, sent again, moved in time, and packets that are no copies put in."""
import random
import struct
from dataclasses import dataclass
from pathlib import Path

import captures

EXAMPLES = Path(__file__).resolve().parents[2] / "examples" / "captures"
NAMES = ("lines.pcapng", "danh.pcapng", "dumpcap_down.pcapng", "tcpdump_healthy.pcap", "tcpdump_short.pcap")
WHENS = (1000, 100_000, 10_000_000, 399_999_999, 400_000_000, 500_000_000, 3_000_000_000)
HSR, VLAN, SUPERVISION = b"\x89\x2f", b"\x81\x00", bytes.fromhex("01154E000100")


@dataclass
class Packet:
    at: int
    interface: int
    octets: bytearray
    length: int
    way: str

    @property
    def is_tagged(self):
        return self.octets[12:14] == HSR and len(self.octets) > 20

    def put(self, at, number):
        self.octets[at : at + 2] = struct.pack(">H", number % 65536)

    def get(self, at):
        return int.from_bytes(self.octets[at : at + 2], "big")


# ---- a capture is written


def block(kind, body):
    return struct.pack("<II", kind, len(body) + 12) + body + struct.pack("<I", len(body) + 12)


def padded(octets):
    return bytes(octets) + bytes(-len(octets) % 4)


def option(code, value):
    return struct.pack("<HH", code, len(value)) + padded(value)


def written(names, packets, end, lost):
    octets = block(0x0A0D0D0A, struct.pack("<IHHq", 0x1A2B3C4D, 1, 0, -1))
    for name in names:
        octets += block(1, struct.pack("<HHI", 1, 0, 0) + option(2, name) + option(9, b"\x09") + bytes(4))
    for packet in packets:
        flags = option(2, struct.pack("<I", {"in": 1, "out": 2}[packet.way])) + bytes(4) if packet.way else b""
        head = struct.pack("<IIIII", packet.interface, packet.at >> 32, packet.at & 0xFFFFFFFF, len(packet.octets), packet.length)
        octets += block(6, head + padded(packet.octets) + flags)
    if end:
        told = option(3, struct.pack("<II", end >> 32, end & 0xFFFFFFFF)) + (option(5, struct.pack("<Q", lost)) if lost is not None else b"")
        octets += block(5, bytes(12) + told + bytes(4))
    return octets


# ---- what is changed


def some(chance, packets, most):
    return chance.sample(packets, min(len(packets), chance.randint(1, most)))


def copied(packet, at, octets=None):
    octets = bytearray(packet.octets if octets is None else octets)
    return Packet(at, packet.interface, octets, packet.length if octets == packet.octets else len(octets), packet.way)


def lose_share(chance, packets, share):
    packets[:] = [packet for packet in packets if chance.random() > share]


def lose(chance, packets):
    lose_share(chance, packets, chance.choice([0.02, 0.1, 0.3]))


def repeat(chance, packets):
    packets += [copied(packet, packet.at + chance.choice(WHENS)) for packet in some(chance, packets, 12)]


def renumber(chance, packets):
    for packet in some(chance, packets, 6):
        if packet.is_tagged:
            packet.put(16, packet.get(16) + chance.choice([-1, 1, 2, 5, -3, 4096, -4096, 5000]))


def resize(chance, packets):
    for packet in some(chance, packets, 6):
        if packet.is_tagged:
            packet.octets[15] = (packet.octets[15] + chance.choice([1, -1, 7])) % 256


def repath(chance, packets):
    for packet in some(chance, packets, 6):
        if packet.is_tagged:
            packet.octets[14] ^= chance.choice([0x10, 0x20, 0x30])


def restart(chance, packets):
    if packets:
        middle, source = packets[len(packets) // 2].at, packets[0].octets[6:12]
        for packet in packets:
            if packet.is_tagged and packet.at > middle and packet.octets[6:12] == source:
                packet.put(16, packet.get(16) + 20000)


def tag(chance, packets):
    control = chance.choice([1, 0x2005, 0xE003])
    for packet in some(chance, packets, 20):
        if packet.octets[12:14] != VLAN:
            packet.octets[12:12] = VLAN + struct.pack(">H", control)
            packet.length += 4


def put_untagged(chance, packets):
    for packet in some(chance, packets, 3):
        to = chance.choice(["0180C2000000", "0180C200000E", "0180C2000010", "FFFFFFFFFFFF"])
        octets = bytes.fromhex(to) + bytes(packet.octets[6:12]) + chance.choice([b"\x88\xcc", b"\x08\x00", b"\x88\xfb"]) + bytes(46)
        packets.append(copied(packet, packet.at + 5, octets))


def put_malformed(chance, packets):
    for packet in some(chance, packets, 4):
        octets = bytearray(packet.octets)
        match chance.randint(0, 5):
            case 0:
                octets = octets[: chance.randint(0, 13)]
            case 1:
                octets += bytes(1600)
            case 2 if len(octets) > 6:
                octets[6] |= 1
            case 3:
                octets[12:14] = octets[16:18] = VLAN
            case 4:
                octets = octets[: chance.randint(14, 19)]
            case _:
                octets[18:20] = HSR
        packets.append(copied(packet, packet.at + 7, octets))


def cut(chance, packets):
    kept = chance.choice([16, 20, 24, 30, 40, 60])
    for packet in chance.sample(packets, len(packets) // chance.choice([1, 2, 4])):
        packet.octets = packet.octets[:kept]


def stretch(chance, packets):
    by = chance.choice([(2, 1), (5, 1), (20, 1), (1, 100)])
    start = packets[0].at if packets else 0
    for packet in packets:
        packet.at = max(0, start + (packet.at - start) * by[0] // by[1])


def delay(chance, packets):
    for packet in some(chance, packets, 5):
        packet.at += chance.choice(WHENS)


def move(chance, packets):
    for packet in some(chance, packets, 10):
        packet.at = max(0, packet.at + chance.randint(-(10**6), 10**6))


def hush(chance, packets):
    packets[:] = [packet for packet in packets if packet.octets[:6] != SUPERVISION or chance.random() > 0.8]


def garble_supervision(chance, packets):
    for packet in packets:
        place = chance.choice([22, 23, 24, 25, 26, 36])
        if packet.octets[:6] == SUPERVISION and chance.random() < 0.1 and len(packet.octets) > place:
            packet.octets[place] ^= chance.choice([1, 2])


def alter(chance, packets):
    for packet in some(chance, packets, 5):
        if len(packet.octets) > 30:
            packet.octets[-1] ^= 255


def rename(chance, packets):
    for packet in some(chance, packets, 5):
        if len(packet.octets) > 11:
            packet.octets[11] = chance.randrange(256)


def keep_one_lane(chance, packets):
    packets[:] = [packet for packet in packets if not (packet.is_tagged and packet.octets[14] & 0x10)]


CHANGES = (lose, repeat, renumber, resize, repath, restart, tag, put_untagged, put_malformed, cut, stretch, delay, move, hush, garble_supervision, alter, rename, keep_one_lane)


# ---- a capture, a device and arguments


def capture_of(chance):
    """The octets of a capture, and the names of its interfaces."""
    capture = captures.read((EXAMPLES / chance.choice(NAMES)).read_bytes())
    packets = [Packet(p.moment, p.interface, bytearray(p.octets), p.length, p.way) for p in sorted(capture.packets, key=lambda p: p.moment)]
    names = [interface.name for interface in capture.interfaces]
    if chance.random() < 0.3:
        names = [b"t%d" % i for i in range(len(names))]
    for _ in range(chance.randint(0, 4)):
        chance.choice(CHANGES)(chance, packets)
    if chance.random() < 0.8:
        packets.sort(key=lambda packet: packet.at)
    if chance.random() < 0.2:
        for packet in packets:
            packet.way = chance.choice(["in", "out", packet.way])
    return written(names, packets, 0, None), names


def device_of(chance, names):
    """A device's document, of its keys and values; mostly it fits the interfaces of those names."""
    device = {"role": chance.choice(["danh"] * 12 + ["redbox"]), "mac": "02-00-00-00-00-0" + chance.choice("1222344")}
    words = ["A", "B", "up", "A in", "B in", "A out", "B out", "A lane", "B lane", "up in", "up out"]
    told = {}
    for i, name in enumerate(names):
        if chance.random() < 0.9:
            told[name.decode() if name and chance.random() < 0.5 else str(i)] = chance.choice(words)
    if chance.random() < 0.05:
        told["nowhere"] = "A"
    if told:
        device["interface"] = told
    for key, values in (("host", (True, False)), ("within_us", (0, 20_000, 10**9)), ("from_us", (0, 1000, 500_000)), ("until_us", (400_000, 1_500_000))):
        if chance.random() < 0.4:
            device[key] = chance.choice(values)
    return device


def document_of(device):
    """The text of TOML that says so."""
    def value(said):
        match said:
            case bool():
                return str(said).lower()
            case dict():
                return "{" + ", ".join(f'"{name}" = "{word}"' for name, word in said.items()) + "}"
            case str():
                return f'"{said}"'
        return str(said)

    return "".join(f"{key} = {value(said)}\n" for key, said in device.items())


def made(seed):
    """The octets of a capture, and a device or none; and how many octets are a frame check sequence."""
    chance = random.Random(seed)
    octets, names = capture_of(chance)
    device = device_of(chance, names) if chance.random() < 0.85 else None
    return octets, device, chance.choice([0] * 8 + [1, 4])
