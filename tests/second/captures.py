"""A second reading of captures and of the frames in them, from docs/TAP.md and docs/RULES.md alone."""
import struct
from dataclasses import dataclass, field

MOST_OCTETS, MOST_PACKETS, MOST_INTERFACES = 1 << 28, 1 << 20, 64
MOST_FILLED = 4096  # octets of a packet with the zeros for what was cut off; a frame has fewer
KINDS = {1: "short", 2: "long", 3: "group-source", 4: "vlan", 5: "short-tag", 6: "nested-tag"}


class Fault(Exception):
    """A fault's line, without its first word."""


@dataclass
class Interface:
    name: bytes
    link: int
    resolution: int = 6
    offset: int = 0
    fcs: int = 0
    by_packets: int | None = None
    by_statistics: int | None = None

    def moment(self, ticks):
        power = 2 ** (self.resolution - 128) if self.resolution > 127 else 10**self.resolution
        return min(max(ticks * 10**9 // power + self.offset * 10**9, 0), 2**64 - 1)

    @property
    def dropped(self):
        said = [n for n in (self.by_packets, self.by_statistics) if n is not None]
        return max(said) if said else None


@dataclass
class Packet:
    number: int
    moment: int
    interface: int
    way: str
    octets: bytes
    length: int


@dataclass
class Capture:
    interfaces: list = field(default_factory=list)
    packets: list = field(default_factory=list)
    end: int = 0
    is_short: bool = False

    def add(self, offset, interface, moment, flags, octets, wire):
        if len(self.packets) == MOST_PACKETS:
            raise Fault(f"capture {offset} packets")
        fcs = flags >> 5 & 15 or self.interfaces[interface].fcs
        length = max(0, max(wire, len(octets)) - fcs)
        self.packets.append(Packet(len(self.packets) + 1, moment, interface, {1: "in", 2: "out"}.get(flags & 3, ""), octets[:length], length))


def read(octets, fcs=0):
    if len(octets) > MOST_OCTETS:
        raise Fault("capture 0 too-large")
    if octets[:2] == b"\x1f\x8b":
        raise Fault("capture 0 gzip")
    if octets[:4] == b"\x0a\x0d\x0d\x0a":
        return read_pcapng(octets, fcs)
    for magic, order, scale in ((0xA1B2C3D4, "<", 1000), (0xA1B2C3D4, ">", 1000), (0xA1B23C4D, "<", 1), (0xA1B23C4D, ">", 1)):
        if octets[:4] == struct.pack(order + "I", magic):
            return read_pcap(octets, order, scale, fcs)
    raise Fault("capture 0 magic")


def read_pcap(octets, order, scale, fcs):
    if len(octets) < 24:
        raise Fault("capture 0 header")
    link = struct.unpack_from(order + "I", octets, 20)[0]
    said = (link >> 28) * 2 if link & 1 << 26 else fcs
    capture = Capture([Interface(b"", link & 0xFFFF, fcs=said)])
    at = 24
    while at < len(octets):
        head = octets[at : at + 16]
        kept = struct.unpack_from(order + "I", head, 8)[0] if len(head) == 16 else 0
        if kept > 1 << 18:
            raise Fault(f"capture {at} packet")
        if len(head) < 16 or at + 16 + kept > len(octets):
            capture.is_short = True
            break
        seconds, part, _, wire = struct.unpack(order + "IIII", head)
        capture.add(at, 0, seconds * 10**9 + part * scale, 0, octets[at + 16 : at + 16 + kept], wire)
        at += 16 + kept
    return capture


def options_of(octets, order):
    found = {}
    while len(octets) >= 4:
        code, size = struct.unpack_from(order + "HH", octets)
        if code == 0:
            break
        found.setdefault(code, octets[4 : 4 + size])
        octets = octets[4 + (size + 3) // 4 * 4 :]
    return found


def number_in(found, code, order, size):
    """The number of an option, if it has this size; of flags the first four octets."""
    value = found.get(code, b"")
    if code == 2 and len(value) >= 4:
        value = value[:4]
    return int.from_bytes(value, "little" if order == "<" else "big") if len(value) == size else None


def read_pcapng(octets, fcs):
    capture, order, first, at, stamp = Capture(), "<", 0, 0, 0
    while at < len(octets):
        if at + 12 > len(octets):
            capture.is_short = True
            break
        if octets[at : at + 4] == b"\x0a\x0d\x0d\x0a":
            if octets[at + 8 : at + 12] not in (b"\x4d\x3c\x2b\x1a", b"\x1a\x2b\x3c\x4d"):
                raise Fault(f"capture {at} byte-order")
            order = "<" if octets[at + 8] == 0x4D else ">"
            first = len(capture.interfaces)
        kind, size = struct.unpack_from(order + "II", octets, at)
        if size < 12 or size % 4:
            raise Fault(f"capture {at} block")
        if at + size > len(octets):
            capture.is_short = True
            break
        if struct.unpack_from(order + "I", octets, at + size - 4)[0] != size:
            raise Fault(f"capture {at} block")
        try:
            stamp = read_block(capture, kind, octets[at + 8 : at + size - 4], order, first, at, stamp, fcs)
        except struct.error:
            raise Fault(f"capture {at} block") from None
        at += size
    return capture


def read_block(capture, kind, body, order, first, at, stamp, fcs):
    """What a block adds; the latest stamp behind it."""
    if kind == 0x0A0D0D0A and struct.unpack_from(order + "H", body, 4)[0] != 1:
        raise Fault(f"capture {at} version")
    if kind == 1:
        found = options_of(body[8:], order)
        interface = Interface(found.get(2) or found.get(3) or b"", struct.unpack_from(order + "HHI", body)[0], fcs=fcs)
        if found.get(9):
            interface.resolution = found[9][0]
        if len(found.get(14, b"")) == 8:
            interface.offset = struct.unpack(order + "q", found[14])[0]
        if found.get(13):
            interface.fcs = found[13][0]
        capture.interfaces.append(interface)
        if len(capture.interfaces) > MOST_INTERFACES:
            raise Fault("capture 0 interfaces")
    elif kind in (2, 6):
        if kind == 6:
            number, high, low, kept, wire = struct.unpack_from(order + "IIIII", body)
        else:
            number, _, high, low, kept, wire = struct.unpack_from(order + "HHIIII", body)
        if first + number >= len(capture.interfaces):
            raise Fault(f"capture {at} interface")
        if 20 + kept > len(body):
            raise Fault(f"capture {at} packet")
        found, interface = options_of(body[20 + (kept + 3) // 4 * 4 :], order), capture.interfaces[first + number]
        lost = number_in(found, 4, order, 8)
        if lost is not None:
            interface.by_packets = min((interface.by_packets or 0) + lost, 2**64 - 1)
        stamp = interface.moment(high << 32 | low)
        capture.add(at, first + number, stamp, number_in(found, 2, order, 4) or 0, body[20 : 20 + kept], wire)
    elif kind == 3:
        wire = struct.unpack_from(order + "I", body)[0]
        if first >= len(capture.interfaces):
            raise Fault(f"capture {at} interface")
        capture.add(at, first, stamp, 0, body[4 : 4 + wire], wire)
    elif kind == 5:
        number = struct.unpack_from(order + "III", body)[0]
        if first + number < len(capture.interfaces):
            found, interface = options_of(body[12:], order), capture.interfaces[first + number]
            lost = [n for n in (number_in(found, code, order, 8) for code in (5, 7)) if n is not None]
            if lost:
                interface.by_statistics = min(sum(lost), 2**64 - 1)
            if len(found.get(3, b"")) == 8:
                high, low = struct.unpack(order + "II", found[3])
                capture.end = max(capture.end, interface.moment(high << 32 | low))
    return stamp


# ---- frames


@dataclass
class Frame:
    dst: bytes
    src: bytes
    vlan: int | None
    kind: int
    payload: bytes
    length: int  # of the payload, of which as much as was captured stands there
    path: int | None = None
    size: int | None = None
    number: int | None = None

    @property
    def is_group(self):
        return self.dst[0] % 2 == 1

    @property
    def is_life(self):
        return self.dst == b"\x01\x15\x4e\x00\x01\x00" and self.kind == 0x88FB


def frame_of(packet):
    """The frame that a packet is: the number of what is wrong with it, or None where it can't be read."""
    octets, cut = packet.octets, len(packet.octets) < packet.length
    head = 18 if octets[12:14] == b"\x81\x00" else 14
    if cut and (len(octets) < head or octets[head - 2 : head] == b"\x89\x2f" and len(octets) < head + 6):
        return None
    front, behind = octets[:24].ljust(24, b"\0"), packet.length - head  # the front is as long as any head and tag
    if packet.length < 14 or behind < 0:
        return 1
    if behind > 1506:
        return 2
    if front[6] % 2:
        return 3
    kind = int.from_bytes(front[head - 2 : head], "big")
    if head == 18 and kind == 0x8100:
        return 4
    vlan = int.from_bytes(front[14:16], "big") if head == 18 else None
    if kind != 0x892F:
        return 2 if behind > 1500 else Frame(front[:6], front[6:12], vlan, kind, octets[head:], behind)
    if behind < 6:
        return 5
    word, number, inner = struct.unpack_from(">HHH", front, head)
    if inner == 0x892F:
        return 6
    if inner == 0x8100:
        return 4
    return Frame(front[:6], front[6:12], vlan, inner, octets[head + 6 :], behind - 6, word >> 12, word & 4095, number)


@dataclass
class Life:
    kind: int
    about: bytes
    redbox: bytes | None
    number: int


def life_of(payload):
    """What a supervision payload says; None where it can't be read."""
    if len(payload) < 12 or payload[4] not in (20, 21, 23) or payload[5] != 6:
        return None
    said, at = Life(payload[4], payload[6:12], None, int.from_bytes(payload[2:4], "big")), 12
    while at < len(payload) and payload[at : at + 1] != b"\0" or at + 1 == len(payload):
        if at + 2 > len(payload):
            return None
        kind, size = payload[at], payload[at + 1]
        if kind == 30 and size != 6 or at + 2 + size > len(payload):
            return None
        if kind == 30 and said.redbox is None:
            said.redbox = payload[at + 2 : at + 8]
        at += 2 + size
    return said
