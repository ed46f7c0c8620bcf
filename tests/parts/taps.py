"""Captures by `hsr_tap lines`: the lines that another program wrote of them (`taps/`), octet for octet; and against a second reading from
docs/TAP.md: the examples, random captures with random devices, and a small capture that is changed at each octet and cut at each length.
What is written is answered by `hsr_bench node`. Captures by `hsr_tap health` and `judge`: the reports of the examples (`taps/`), and against
a second reading random captures of rings with random words, of random devices, and small captures that are changed and cut."""
import tomllib
from collections import Counter
from pathlib import Path

import captures
import health
import judge
import node_lines
import random_captures
import random_judged
import random_rings

from lib.case_files import ROOT
from lib.running import Job, Tally, difference, run

COUNT, EACH = 600, 20
RINGS, RINGS_EACH = 200, 10
KEPT = 700  # octets of the small capture
CHANGED = 3  # values that each of its octets gets
EXAMPLES, TOLD = ROOT / "examples" / "captures", ROOT / "tests" / "taps"
TOLD_WORDS = {"dumpcap_down": ["--point", "n2=0,1"]}  # of examples by `health`


def compared(got, wanted):
    """What differs between two runs: status, output and error."""
    why = [] if got[0] == wanted[0] else [f"status {got[0]}, and {wanted[0]} was wanted"]
    return "\n".join(why + difference("output", got[1], wanted[1]) + difference("error", got[2], wanted[2]))


def read_again(octets, device=None, fcs=0):
    """What the second reading writes."""
    try:
        text, skipped = node_lines.told(octets, device, fcs)
    except captures.Fault as fault:
        return 1, b"", f"fault: {fault}\n".encode()
    return 0, text.encode(), f"skipped {skipped}\n".encode() if skipped else b""


def words_of(path=None, fcs=0):
    return ["lines"] + (["--fcs", str(fcs)] if fcs else []) + ([str(path)] if path else [])


def try_lines(setting, tally, name, octets, path=None, fcs=0):
    """The lines of a capture; `path` is that of a device's document."""
    words = words_of(path, fcs)
    wanted = read_again(octets, tomllib.loads(path.read_text()) if path else None, fcs)
    got = run(setting, "hsr_tap", words, octets)
    tally.count(f"{name} ({' '.join(words)})", compared(got, wanted))
    return got


def try_told(setting):
    """The captures whose lines another program wrote, and the answers to them."""
    tally = Tally()
    for path in sorted(TOLD.glob("*.lines")):
        document = EXAMPLES / f"{path.stem}.toml"
        octets = (EXAMPLES / f"{path.stem}.pcapng").read_bytes()
        got = run(setting, "hsr_tap", words_of(document), octets)
        tally.count(path.name, compared(got, (0, path.read_bytes(), b"")))
        mac = tomllib.loads(document.read_text())["mac"]
        status, _, error = run(setting, "hsr_bench", ["node", "--unit", "us", "--mac", mac], got[1])
        tally.count(f"{path.name}, answered", f"status {status}, {error!r}" if (status, error) != (0, b"") else "")
    return tally


def try_examples(setting):
    tally = Tally()
    for path in sorted(EXAMPLES.glob("*.pcap*")):
        octets, document = path.read_bytes(), path.with_suffix(".toml")
        try_lines(setting, tally, path.name, octets)
        if document.exists():
            try_lines(setting, tally, path.name, octets, document)
    return tally


def try_seeds(setting, first, after):
    tally = Tally()
    for seed in range(first, after):
        octets, device, fcs = random_captures.made(seed)
        path = None
        if device is not None:
            path = Path(setting.work) / f"device{seed}.toml"
            path.write_text(random_captures.document_of(device))
        try_lines(setting, tally, f"capture {seed}", octets, path, fcs)
    return tally


# ---- health


def health_again(octets, words):
    """What the second reading of `health` writes."""
    try:
        text, status = health.told(octets, **words)
    except captures.Fault as fault:
        return 1, b"", f"fault: {fault}\n".encode()
    return status, text.encode(), b""


def try_health(setting, tally, name, octets, words):
    told = random_rings.arguments(words)
    got, wanted = run(setting, "hsr_tap", told, octets), health_again(octets, words)
    error = wanted[2] if wanted[0] != 3 else got[2]  # which is free there
    tally.count(f"{name} ({' '.join(told)})", compared(got, (*wanted[:2], error)))
    return wanted[1].decode().splitlines()


def try_told_health(setting):
    """The examples, and what is to be told of them."""
    tally = Tally()
    for path in sorted(TOLD.glob("*.health")):
        octets = next(EXAMPLES.glob(f"{path.stem}.pcap*")).read_bytes()
        wanted = path.read_bytes()
        got = run(setting, "hsr_tap", ["health", "--full", *TOLD_WORDS.get(path.stem, [])], octets)
        is_doubt = wanted.splitlines()[-1].startswith(b"doubt ")
        tally.count(path.name, compared(got, (2 if is_doubt else 0, wanted, b"")))
    return tally


def try_rings(setting, first, after):
    """Random captures of rings. Reasons are counted, and which comes first."""
    tally = Tally()
    for seed in range(first, after):
        lines = try_health(setting, tally, f"ring {seed}", *random_rings.made(seed))
        tally.reached.update({f"reason {line.split()[1]}" for line in lines if line.startswith("reason ")})
        tally.reached.update(f"first {line.split()[1]}" for line in lines if line.startswith("doubt "))
        tally.reached.update("healthy" for line in lines if line.startswith("healthy "))
    return tally


# ---- small captures


def small(name):
    return (EXAMPLES / name).read_bytes()[:KEPT]


def try_cut(setting, trial, name, told):
    """A small capture, cut at each length."""
    tally, octets = Tally(), small(name)
    for length in range(len(octets)):
        trial(setting, tally, f"{name}, {length} octets", octets[:length], told)
    return tally


def try_changed(setting, trial, name, told, first, after):
    """A small capture, changed at each octet."""
    tally, octets = Tally(), small(name)
    for place in range(first, min(after, len(octets))):
        for change in (1, 0x80, 0xFF)[:CHANGED]:
            changed = octets[:place] + bytes([octets[place] ^ change]) + octets[place + 1 :]
            trial(setting, tally, f"{name}, octet {place} by {change}", changed, told)
    return tally


def jobs(setting):
    documented, full = EXAMPLES / "lines.toml", {"full": True}
    files = [(try_lines, "lines.pcapng", documented), (try_lines, "tcpdump_short.pcap", None)]
    files += [(try_health, "redbox.pcapng", full), (try_health, "tcpdump_short.pcap", full)]
    tries = [Job(try_told, (), 2), Job(try_examples, (), 2), Job(try_told_health, (), 2)]
    tries += [Job(try_seeds, (first, first + EACH), 3) for first in range(0, COUNT, EACH)]
    tries += [Job(try_rings, (first, first + RINGS_EACH), 3) for first in range(0, RINGS, RINGS_EACH)]
    tries += [Job(try_cut, file, 5) for file in files]
    tries += [Job(try_changed, (*file, first, first + 100), 3) for file in files for first in range(0, KEPT, 100)]
    return tries + judge_jobs()


# ---- judge

JUDGED, JUDGED_EACH, JUDGED_FILE = 200, 20, "case_h3"


def judged_again(octets, device, **words):
    """What the second reading says of a device."""
    try:
        text, status = judge.told(octets, device, **words)
    except captures.Fault as fault:
        return 1, b"", f"fault: {fault}\n".encode()
    return status, text.encode("utf-8", "surrogateescape"), b""


def words_of_judge(path, list=100, octets_all=False, full=False, fcs=0):
    said = [["--list", str(list)]] * (list != 100) + [["--octets"]] * octets_all + [["--full"]] * full + [["--fcs", str(fcs)]] * (fcs != 0)
    return ["judge", *[word for words in said for word in words], str(path)]


def try_judge(setting, tally, name, octets, path, **said):
    """The report of a capture, and its kinds of lines; `path` is that of a device's document."""
    words, wanted = words_of_judge(path, **said), judged_again(octets, tomllib.loads(path.read_text()), **said)
    tally.count(f"{name} ({' '.join(words)})", compared(run(setting, "hsr_tap", words, octets), wanted))
    return random_judged.kinds_of(wanted[1].decode("utf-8", "surrogateescape")) if wanted[1] else {"fault"}


def try_judged(setting):
    """The captures whose reports are told."""
    tally = Tally()
    for path in sorted(TOLD.glob("*.judge")):
        document, octets = EXAMPLES / f"{path.stem}.toml", (EXAMPLES / f"{path.stem}.pcapng").read_bytes()
        status, text, error = run(setting, "hsr_tap", words_of_judge(document, full=True), octets)
        wanted = 0 if path.read_bytes().splitlines()[-1].startswith(b"conforms") else 2
        tally.count(path.name, compared((status, text, error), (wanted, path.read_bytes(), b"")))
        for said in ({}, {"full": True}, {"list": 1, "octets_all": True}):
            try_judge(setting, tally, path.stem, octets, document, **said)
    return tally


def try_judged_seeds(setting, first, after):
    tally, kinds = Tally(), Counter()
    for seed in range(first, after):
        octets, device, said = random_judged.made(seed)
        path = Path(setting.work) / f"judged{seed}.toml"
        path.write_text(random_judged.document_of(device))
        kinds.update(try_judge(setting, tally, f"judged capture {seed}", octets, path, **said))
    tally.told.append(f"judged {first} to {after - 1}: " + ", ".join(f"{count} {kind}" for kind, count in sorted(kinds.items())))
    return tally


def judged_file():
    return (EXAMPLES / f"{JUDGED_FILE}.pcapng").read_bytes(), EXAMPLES / f"{JUDGED_FILE}.toml"


def try_judged_cut(setting):
    """A small capture, cut at each length."""
    tally, (octets, document) = Tally(), judged_file()
    for length in range(len(octets)):
        try_judge(setting, tally, f"{JUDGED_FILE}, {length} octets", octets[:length], document, full=True)
    return tally


def try_judged_changed(setting, first, after):
    """A small capture, changed at each octet."""
    tally, (octets, document) = Tally(), judged_file()
    for place in range(first, min(after, len(octets))):
        for change in (1, 0x80, 0xFF)[:CHANGED]:
            changed = octets[:place] + bytes([octets[place] ^ change]) + octets[place + 1 :]
            try_judge(setting, tally, f"{JUDGED_FILE}, octet {place} by {change}", changed, document, full=True)
    return tally


def judge_jobs():
    tries = [Job(try_judged, (), 2), Job(try_judged_cut, (), 5)]
    tries += [Job(try_judged_seeds, (first, first + JUDGED_EACH), 3) for first in range(0, JUDGED, JUDGED_EACH)]
    return tries + [Job(try_judged_changed, (first, first + 100), 3) for first in range(0, len(judged_file()[0]), 100)]
