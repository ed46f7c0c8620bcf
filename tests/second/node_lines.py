"""A second reading of `hsr_tap lines`, from docs/TAP.md alone. A device is a dict, as its document says."""
import captures
from captures import Fault, Frame, frame_of

LONGEST, LONGEST_PACKET, MOST_HANDED = 4096, 2048, 64


def digits(octets):
    return octets.hex().upper() or "-"


def address(mac):
    return "-".join(f"{octet:02X}" for octet in mac)


def ends_of(capture, device):
    """Of each interface its end and its way."""
    if device is None:
        said = {0: "A in", 1: "B in"}
    else:
        told = {name.encode(): word for name, word in device.get("interface", {}).items()}
        said = {i: told[name] for i, interface in enumerate(capture.interfaces) for name in (str(i).encode(), interface.name) if name in told}
    ends = {}
    for i, interface in enumerate(capture.interfaces):
        if i in said:
            if interface.link != 1:
                raise Fault(f"device interface link {interface.link}")
            end, _, way = said[i].partition(" ")
            ends[i] = end, way
    known = {str(i).encode() for i in range(len(capture.interfaces))} | {interface.name for interface in capture.interfaces}
    # The keys of a table of TOML stand in the order of their octets.
    for name in sorted(name.encode() for name in device.get("interface", {})) if device else ():
        if name not in known:
            raise Fault(f"device interface no-such-name {name.decode()}")
    return ends


def passing(packet, ends):
    """The end at which a packet is, and whether it goes in; or None."""
    if packet.interface not in ends:
        return None
    end, way = ends[packet.interface]
    if way == "lane":
        frame = frame_of(packet)
        is_copy = isinstance(frame, Frame) and frame.number is not None
        return end, not is_copy or frame.path % 2 != "ABCD".index(end) % 2
    if way:
        return end, way == "in"
    if not packet.way:
        raise Fault(f"device interface no-direction packet {packet.number}")
    return end, (packet.way == "in") != (end == "up")


def whole(packet):
    return packet.octets + bytes(packet.length - len(packet.octets))


def filled(packet):
    return captures.Packet(packet.number, packet.moment, packet.interface, packet.way, whole(packet), packet.length)


def plain(octets):
    """The frame of a copy without its tag."""
    head = 18 if octets[12:14] == b"\x81\x00" else 14
    return octets[: head - 2] + octets[head + 4 :]


def is_own_send(device, has_host, at, frame, octets, handed, latest):
    """Whether a copy that left by a ring port begins a send."""
    if not isinstance(frame, Frame) or frame.number is None or address(frame.src) != device["mac"]:
        return False
    if at - latest.get(frame.number, -(10**9)) < 800_000:
        return False
    if not frame.is_life:
        return not has_host
    return all(at - when > device.get("within_us", 1000) or held != plain(octets) for when, held in handed)


def send_line(at, packet):
    frame = frame_of(filled(packet))
    if not isinstance(frame, Frame):
        return None
    return f"send {at} {address(frame.dst)} {frame.kind:04X} {digits(frame.payload)}" + ("" if frame.vlan is None else f" {frame.vlan:04X}")


def told(octets, device=None, fcs=0):
    """What is written on standard output, and how many packets gave no line."""
    capture = captures.read(octets, fcs)
    packets = sorted(capture.packets, key=lambda packet: packet.moment)
    start = packets[0].moment if packets else 0
    if device is not None and device["role"] != "danh":
        raise Fault("device role lines-are-of-a-danh")
    ends, said = ends_of(capture, device), device or {}
    has_host = said.get("host", any(end == "up" and way != "out" for end, way in ends.values()))
    lines, skipped, latest, handed = [], 0, {}, []
    for packet in packets:
        at = (packet.moment - start) // 1000
        if not said.get("from_us", 0) <= at <= said.get("until_us", 2**64):
            continue
        way = passing(packet, ends)
        if way is None:
            continue
        end, is_in = way
        if packet.length > LONGEST_PACKET:
            skipped += is_in
            continue
        frame = frame_of(packet)
        if is_in and end != "up":
            line = f"arrive {at} {end} {digits(whole(packet))}"
        elif is_in:
            line, down = send_line(at, packet), frame_of(filled(packet))
            if isinstance(down, Frame) and down.number is None and down.is_life:
                handed = [*handed, (at, whole(packet))][-MOST_HANDED:]
        elif device is None or end == "up" or not is_own_send(device, has_host, at, frame, whole(packet), handed, latest):
            continue
        else:
            latest[frame.number] = at
            line = f"life {at}" if frame.is_life else send_line(at, packet)
        if line is None or len(line) > LONGEST:
            skipped += 1
        else:
            lines.append(line + "\n")
    return "".join(lines), skipped
