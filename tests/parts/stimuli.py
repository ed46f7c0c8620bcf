"""Stimuli for devices (`hsr_tap stimuli`): capture and list against a second reading from docs/TAP.md, octet for octet, for each role and
mode, and for tables and first numbers of several sizes. No answer is unlike its rule's, and each cause is reached that the role has. The
capture for a DANH, as lines, is answered by `hsr_bench node` as the list says; and a RedBox or QuadBox of a scenario, to which the frames
are injected, counts what the list says."""
import itertools
import json
from pathlib import Path

import model
import stimuli

from lib.running import Job, Tally, difference, run

SIZES = [(4, None), (4, 65535), (64, None), (64, 3), (512, None)]  # tables, and first numbers
MACS = ["02-00-00-00-00-02", "06-48-53-52-01-F4"]
MOST_SENDS = 10  # a greater first number isn't tried by a scenario
LARGE = {32768: 32768 + 145, 65535: 141}  # a DANH's packets with tables of so many entries
NEVER = {  # causes that a role has in no mode, or not in this one
    "danh": {"local", "tagged"},
    "redbox": set(),
    "quadbox": {"returned", "foreign", "local", "tagged"},
}
FAULTS = {
    'role = "danh"\nmac = "02-00-00-00-00-02"\ntable = 5\n': "device table bad-value",
    'role = "danh"\n': "device mac missing",
    'role = "danh"\nmac = "03-00-00-00-00-02"\n': "device mac bad-value",
    'role = "station"\nmac = "02-00-00-00-00-02"\n': "device role bad-value",
    "role": "device top text",
}


def devices():
    for mac, mode, (table, start) in itertools.product(MACS, "HNU", SIZES):
        told = {"mode": mode, "table": table} | ({} if start is None else {"start": start})
        yield {"role": "danh", "mac": mac} | told
        yield {"role": "redbox", "mac": mac} | told
        if mac == MACS[0]:
            yield {"role": "quadbox"} | told


def document_of(device):
    return "".join(f'{key} = "{value}"\n' if isinstance(value, str) else f"{key} = {value}\n" for key, value in device.items())


def written(setting, name, text):
    path = Path(setting.work) / f"{name}.toml"
    path.write_text(text)
    return path


def reached_in(line):
    """How often each cause was reached, and how many answers are unlike, by the last line of a list."""
    words = line.split()
    return {word: int(count) for word, count in zip(words[1::2], words[2::2])}


def unreached(device, line):
    never = NEVER[device["role"]] | (set() if device.get("mode") == "N" else {"foreign"})
    reached = reached_in(line)
    bad = [cause for cause in stimuli.CAUSES if (reached[cause] == 0) != (cause in never)]
    return [f"{cause}: {reached[cause]}" for cause in bad] + (["unlike"] if reached["unlike"] else [])


def try_device(setting, tally, number, device):
    path = written(setting, f"stimuli{number}", document_of(device))
    status, output, error = run(setting, "hsr_tap", ["stimuli", str(path)], b"")
    listed = stimuli.list_of(device)
    why = [] if status == 0 else [f"status {status}"]
    why += difference("capture", output, stimuli.capture_of(device)) + difference("list", error, listed.encode())
    why += unreached(device, listed.splitlines()[-1])
    tally.count(f"{device}", "\n".join(why))
    got = run(setting, "hsr_tap", ["stimuli", "--list", str(path)], b"")
    tally.count(f"{device}, --list", "" if got == (0, listed.encode(), b"") else f"status {got[0]}, {got[2]!r}")
    if device["role"] == "danh":
        try_played(setting, tally, number, device, output, listed)
    elif device.get("start", 0) < MOST_SENDS:
        try_injected(setting, tally, device, listed)


def try_played(setting, tally, number, device, capture, listed):
    """The capture for a DANH, answered by the bench's own node."""
    ends = 'interface = {"A" = "A in", "B" = "B in"}\n'
    path = written(setting, f"played{number}", document_of(device) + ends)
    _, lines, _ = run(setting, "hsr_tap", ["lines", str(path)], capture)
    words = ["node", "--unit", "us", "--mac", device["mac"], "--mode", device["mode"], "--table", str(device["table"])]
    _, answers, _ = run(setting, "hsr_bench", words, lines)
    said = [line for line in answers.decode().splitlines()[:-1] if not line.startswith("up ")]
    wanted = [" ".join(line.split()[6:]).replace("malformed-", "malformed ") for line in listed.splitlines() if line.startswith("packet ")]
    tally.count(f"{device}, played", "" if said == wanted else f"{sum(a != b for a, b in zip(said, wanted))} answers differ, {len(said)} of {len(wanted)}")


def scenario_of(device):
    """The frames injected to a RedBox or QuadBox, each link of which leads to another node. It has sent as many frames before as its first
    number says."""
    ports = model.PORTS[device["role"]]
    keys = ("role",) if device["role"] == "quadbox" else ("role", "mac", "mode")
    nodes, links = [{"name": "box"} | {key: device[key] for key in keys}], []
    for number, port in enumerate(ports):
        mac = f"02-00-00-00-77-{number:02X}"
        nodes.append({"name": f"n{number}", "role": "station", "macs": [mac]} if port == "I" else {"name": f"n{number}", "role": "danh", "mac": mac})
        links.append({"ends": [f"n{number}.{'P' if port == 'I' else 'A' if port in 'BD' else 'B'}", f"box.{port}"]})
    sends = device.get("start", 0) if device["role"] == "redbox" else 0
    steps = [{"do": "send", "node": "box", "to": model.printed(stimuli.GROUP), "type": 0x88B5}] * sends
    for at, port, _, octets in stimuli.made(device):
        link = ports.index(port)
        steps.append({"do": "clock", "at": at})
        steps.append({"do": "inject", "link": link, "dir": "forth", "octets": octets.hex()})
        steps.append({"do": "take", "link": link, "dir": "forth"})
        steps.append({"do": "judge", "port": f"box.{port}"})
    tables = [("node", nodes), ("link", links), ("step", steps)]
    # Strings, numbers and lists of strings are spelled alike in TOML and JSON.
    text = ['unit = "us"\n']
    for name, many in tables:
        for said in many:
            text += [f"[[{name}]]\n"] + [f"{key} = {json.dumps(value)}\n" for key, value in said.items()]
    return "".join(text)


def try_injected(setting, tally, device, listed):
    answers = [line.split()[6:] for line in listed.splitlines() if line.startswith("packet ")]
    causes = [answer[0] for answer in answers]
    passed = [[word for word in answer[1:] if word in ("up", *"ABCDI")] for answer in answers]
    up = sum("up" in outs for outs in passed)
    counts = [up, sum(map(len, passed)) - up, causes.count("duplicate"), causes.count("returned")]
    dropped = len(causes) - causes.count("passed") - sum(counts[2:])
    wanted = "up {} forwarded {} duplicate {} returned {}".format(*counts) + f" dropped {dropped}"
    _, output, error = run(setting, "hsr_bench", ["run", "--open", "--table", str(device["table"])], scenario_of(device).encode())
    said = [line for line in output.decode().splitlines() if line.startswith("node 0 ")]
    tally.count(f"{device}, injected", "" if said and said[0].endswith(wanted) else f"{said} {error!r}, and {wanted} was wanted")


def try_devices(setting, first, after):
    tally = Tally()
    for number, device in itertools.islice(enumerate(devices()), first, after):
        try_device(setting, tally, number, device)
    return tally


def try_large(setting):
    tally = Tally()
    for table, packets in LARGE.items():
        path = written(setting, f"large{table}", document_of({"role": "danh", "mac": MACS[0], "table": table}))
        status, output, _ = run(setting, "hsr_tap", ["stimuli", "--list", str(path)], b"")
        lines = output.decode().splitlines()
        reached = reached_in(lines[-1])
        count = sum(line.startswith("packet ") for line in lines)
        good = status == 0 and count == packets and reached["unlike"] == 0 and (f"not-tried table {table}" in lines) == (table == 65535)
        tally.count(f"a table of {table}", "" if good else f"status {status}, {count} packets, {lines[-1]}")
    return tally


def try_faults(setting):
    tally = Tally()
    for number, (text, fault) in enumerate(FAULTS.items()):
        got = run(setting, "hsr_tap", ["stimuli", str(written(setting, f"fault{number}", text))], b"")
        tally.count(fault, "" if got == (1, b"", f"fault: {fault}\n".encode()) else f"{got}")
    got = run(setting, "hsr_tap", ["stimuli", str(Path(setting.work) / "nothing.toml")], b"")
    tally.count("no file", "" if got == (1, b"", b"fault: device top read\n") else f"{got}")
    status, _, _ = run(setting, "hsr_tap", ["stimuli"], b"")
    tally.count("no device", "" if status == 3 else f"status {status}")
    return tally


def jobs(setting):
    many = sum(1 for _ in devices())
    tried = [Job(try_devices, (first, min(first + 10, many)), 10) for first in range(0, many, 10)]
    return tried + [Job(try_large, (), 10), Job(try_faults, (), 1)]
