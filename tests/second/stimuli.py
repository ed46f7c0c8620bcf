"""A second reading of `hsr_tap stimuli`, from docs/TAP.md alone: the frames, the list, and the capture. A device is a dict, as its document
says; the answers are those of the second bench (model.py)."""
import struct

import model
from model import word

GROUP, EXPERIMENT, VLAN_100 = bytes.fromhex("034853520000"), 0x88B5, 0x2064
CAUSES = "passed duplicate returned foreign local untagged tagged".split() + [f"malformed-{n}" for n in range(1, 7)]
BEYOND = {"A": "B", "B": "A", "C": "D", "D": "C"}
SECONDS = {"A": 2, "B": 3, "C": 4, "D": 5}
MOST_STEP, FILL_TIME, LEAST_STEP = 1000, 390_000, 7
STATION, NODES, STATIONS = 400, 65, 64


class Scene:
    """Frames of one sender that come to a port, from a second on."""

    def __init__(self, mac, second, port, sender, out):
        self.mac, self.start, self.port, self.sender, self.out = mac, second * 1_000_000, port, sender, out

    def other(self, number):
        return bytes([6 if self.mac[0] == 2 else 2]) + b"HSR" + word(number)

    def at(self, port=None, sender=None):
        scene = Scene(self.mac, 0, port or self.port, self.sender if sender is None else sender, self.out)
        scene.start = self.start
        return scene

    def tag(self, number, size=52, path=None):
        path = (1 if self.port in "ACI" else 0) if path is None else path
        return word(model.HSR) + word(path << 12 | size) + word(number)

    def put(self, ms, rule, dst, between, payload, src=None, at=None):
        octets = dst + (self.other(self.sender) if src is None else src) + between + payload
        self.out.append((self.start + 1000 * ms if at is None else at, self.port, rule, octets))

    def usual(self, ms, rule, dst, number, src=None, at=None):
        self.put(ms, rule, dst, self.tag(number) + word(EXPERIMENT), b"\x5a" * 46, src, at)

    def plain(self, ms, rule, dst, src=None, length=46):
        self.put(ms, rule, dst, word(EXPERIMENT), b"\x5a" * length, src)

    def supervise(self, ms, rule, number, first, second=(0, 0, bytes(6))):
        said = word(1) + word(number) + b"".join(bytes([kind, length]) + mac for kind, length, mac in (first, second))
        self.put(ms, rule, model.SUPERVISION, self.tag(number) + word(model.SUPERVISION_TYPE), said.ljust(46, b"\0"))


def group_frames(s):
    s.usual(0, "to-group", GROUP, 0)
    s.at(BEYOND[s.port]).usual(1, "to-group-second", GROUP, 0)
    s.usual(2, "to-group-again", GROUP, 0)
    kind, filled = word(EXPERIMENT), b"\x5a" * 46
    s.put(3, "vlan-tag", GROUP, word(model.VLAN) + word(VLAN_100) + s.tag(1) + kind, filled)
    s.put(4, "other-path", GROUP, s.tag(2, path=5) + kind, filled)
    s.put(5, "wrong-size", GROUP, s.tag(3, size=152) + kind, filled)
    s.put(6, "least-payload", GROUP, s.tag(4, size=46) + kind, b"\x5a" * 40)
    s.put(7, "longest-payload", GROUP, s.tag(5, size=1506) + kind, b"\x5a" * 1500)
    s.plain(8, "untagged", GROUP)


def thrice(s, ms, rule, dst, number):
    s.usual(ms, rule, dst, number)
    s.at(BEYOND[s.port]).usual(ms + 1, rule + "-second", dst, number)
    s.usual(ms + 2, rule + "-again", dst, number)


def supervision_frames(s):
    src = s.other(s.sender)
    s.supervise(30, "supervision-hsr", 30, (23, 6, src))
    s.supervise(31, "supervision-redbox", 31, (23, 6, s.other(501)), (30, 6, src))
    s.supervise(32, "supervision-prp", 32, (20, 6, src))
    s.supervise(33, "supervision-prp-accept", 33, (21, 6, src))
    s.supervise(34, "supervision-cut-off", 34, (23, 6, src), (5, 200, src))
    s.supervise(35, "supervision-kind", 35, (22, 6, src))
    s.supervise(36, "supervision-length", 36, (23, 5, src))
    s.supervise(37, "supervision-redbox-length", 37, (23, 6, src), (30, 5, src))


def malformed_octets(s):
    tag, kind, vlan = s.tag(40), word(EXPERIMENT), word(model.VLAN) + word(VLAN_100)
    filled, long = b"\x5a" * 46, b"\x5a" * 1501
    s.put(40, "short", GROUP, vlan, b"")
    s.put(41, "long", GROUP, tag + kind, long)
    s.put(42, "long-untagged", GROUP, kind, long)
    s.put(43, "group-source", GROUP, tag + kind, filled, src=GROUP)
    s.put(44, "two-vlan-tags", GROUP, vlan + vlan + kind, filled)
    s.put(45, "vlan-tag-behind", GROUP, tag + vlan + kind, filled)
    s.put(46, "short-tag", GROUP, tag, b"")
    s.put(47, "nested-tag", GROUP, tag + tag + kind, filled)


def port_frames(s, is_addressed):
    group_frames(s)
    thrice(s, 10, "to-another", s.other(500), 10)
    if is_addressed:
        thrice(s, 20, "to-device", s.mac, 20)
        s.usual(23, "from-device", GROUP, 21, src=s.mac)
    supervision_frames(s)
    malformed_octets(s)


def step_for(entries):
    return min(MOST_STEP, FILL_TIME // (entries + 4))


def table_frames(s, entries):
    step = step_for(entries)
    if step < LEAST_STEP:
        return
    for n in range(entries):
        s.usual(0, "table", GROUP, n, at=s.start + step * n)
    behind = [("table-full", 0), ("table-one-more", entries), ("table-kept", 1), ("table-pushed-out", 0)]
    for n, (rule, number) in enumerate(behind, entries):
        s.usual(0, rule, GROUP, number, at=s.start + step * n)


def remembering(scene, entries):
    s = scene(6, "A", 104)
    s.usual(0, "first", GROUP, 0)
    s.usual(399, "remembered", GROUP, 0)
    s.usual(400, "forgotten", GROUP, 0)
    s = scene(7, "A", 105)
    for ms, number in enumerate([65534, 65535, 0, 1] * 2):
        s.usual(ms, "number-wraps" if ms < 4 else "number-again", GROUP, number)
    s.at(sender=502).usual(8, "number-of-another", GROUP, 0)
    table_frames(scene(8, "A", 106), entries)


def from_stations(ring, start):
    one, two = ring.at("I", STATION), ring.at("I", STATION + 1)
    first, second = ring.other(STATION), ring.other(STATION + 1)
    one.plain(0, "station-to-another", ring.other(500))
    two.plain(1, "station-to-group", GROUP)
    one.plain(2, "station-to-device", ring.mac)
    one.plain(3, "station-to-station", second)
    two.put(4, "station-vlan-tag", GROUP, word(model.VLAN) + word(VLAN_100) + word(EXPERIMENT), b"\x5a" * 46)
    one.plain(5, "device-at-interlink", GROUP, src=ring.mac)
    one.usual(6, "tagged-at-interlink", GROUP, 0)
    malformed_octets(ring.at("I"))
    if start is not None:
        ring.at(sender=STATION).usual(200, "came-back", ring.other(500), start)
        ring.at(sender=STATION + 1).usual(201, "group-came-back", GROUP, (start + 1) % 65536)
    thrice(ring, 202, "to-station", first, 7)
    ring.at(sender=STATION).usual(205, "station-on-ring", GROUP, 40000)


def stations(scene):
    ring = scene(10, "A", 108)
    for n in range(STATIONS):
        ring.at("I", 2000 + n).plain(n, "station", ring.mac)
    ring.usual(300, "to-oldest-station", ring.other(2000), 0)
    ring.at("I", 2000 + STATIONS).plain(500, "station-one-more", ring.mac)
    ring.usual(700, "to-station-pushed-out", ring.other(2000), 1)
    ring.usual(701, "to-station-kept", ring.other(2001), 2)
    ring = scene(11, "A", 109)
    ring.at("I", 2100).plain(0, "station", ring.mac)
    ring.usual(59_999, "to-station-remembered", ring.other(2100), 0)
    ring.usual(60_000, "to-station-forgotten", ring.other(2100), 1)


def made(device):
    """The frames for a device: moment, port, rule and octets."""
    out, role, entries = [], device["role"], device.get("table", 512)
    mac = model.address(device["mac"]) if role != "quadbox" else bytes(6)

    def scene(second, port, sender):
        return Scene(mac, second, port, sender, out)

    if role == "redbox":
        from_stations(scene(1, "A", 110), device.get("start"))
    for n, port in enumerate("ABCD" if role == "quadbox" else "AB"):
        port_frames(scene(SECONDS[port], port, 100 + n), role != "quadbox")
    remembering(scene, entries)
    if role != "quadbox":
        for n in range(NODES):
            s = scene(9, "A", 1000 + n)
            s.supervise(n, "node", 0, (23, 6, s.other(1000 + n)))
    if role == "redbox":
        stations(scene)
    return out


def awaited(rule, mode):
    """The cause of a rule's answer, by the table of docs/TAP.md."""
    duplicates = "to-group-again to-device-again remembered table-full table-kept number-again to-station-again group-came-back".split()
    malformed = {"short": 1, "long": 2, "long-untagged": 2, "group-source": 3, "two-vlan-tags": 4, "vlan-tag-behind": 4, "short-tag": 5, "nested-tag": 6}
    if rule in malformed:
        return f"malformed-{malformed[rule]}"
    if rule in duplicates:
        return "duplicate"
    by_mode = {  # in modes H, U and N
        "to-another": "passed passed foreign",
        "to-another-second": "passed passed foreign",
        "to-another-again": "duplicate duplicate foreign",
        "to-group-second": "passed passed duplicate",
        "to-device-second": "duplicate passed duplicate",
        "to-station-second": "duplicate passed duplicate",
        "came-back": "duplicate duplicate foreign",
        "to-station-pushed-out": "passed passed foreign",
        "to-station-forgotten": "passed passed foreign",
    }
    if rule in by_mode:
        return by_mode[rule].split()["HUN".index(mode)]
    others = {"from-device": "returned", "device-at-interlink": "returned", "station-to-station": "local", "untagged": "untagged"}
    return others.get(rule, "tagged" if rule == "tagged-at-interlink" else "passed")


def answers(device, frames):
    """What the reference node answers: the cause, where it goes, and the number that it gets."""
    node = model.Node(0, device, device.get("table", 512))
    node.next = device.get("start", 0)
    for n, (at, port, _, octets) in enumerate(frames):
        _, cause, seq, *outs = node.judge(at, port, octets, (0, n)).outcome.split()
        yield cause, outs, None if seq == "-" else int(seq)


def list_of(device):
    """The list, as text."""
    frames, lines, causes, unlike = made(device), [], [], 0
    mode = device.get("mode", "H") if device["role"] != "quadbox" else "H"
    for n, ((at, port, rule, _), (cause, outs, seq)) in enumerate(zip(frames, answers(device, frames)), 1):
        lines.append(" ".join([f"packet {n} at {at} {port} {rule} {cause}", *outs] + ([f"number {seq}"] if seq is not None else [])))
        causes.append(cause)
        unlike += cause != awaited(rule, mode)
    entries = device.get("table", 512)
    if step_for(entries) < LEAST_STEP:
        lines.append(f"not-tried table {entries}")
    if device["role"] == "redbox" and "start" not in device:
        lines.append("not-tried came-back start")
    counts = [f"{cause} {causes.count(cause)}" for cause in CAUSES]
    lines.append(" ".join(["reached", *counts, f"unlike {unlike}"]))
    return "".join(line + "\n" for line in lines)


def block(kind, body):
    length = struct.pack("<I", len(body) + 12)
    return struct.pack("<I", kind) + length + body + length


def padded(octets):
    return octets + bytes(-len(octets) % 4)


def option(code, value):
    return struct.pack("<HH", code, len(value)) + padded(value)


def capture_of(device):
    """The capture, as pcapng."""
    out = block(0x0A0D0D0A, struct.pack("<IHHq", 0x1A2B3C4D, 1, 0, -1) + option(4, b"hsr_tap") + bytes(4))
    ports = model.PORTS[device["role"]]
    for port in ports:
        options = option(2, port.encode()) + option(3, b"frames for this port") + option(9, b"\x06") + bytes(4)
        out += block(1, struct.pack("<HHI", 1, 0, 0) + options)
    for at, port, rule, octets in made(device):
        head = struct.pack("<IIIII", ports.index(port), at >> 32, at & 0xFFFFFFFF, len(octets), len(octets))
        out += block(6, head + padded(octets) + option(1, rule.encode()) + bytes(4))
    return out
