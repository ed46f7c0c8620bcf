"""Reads of one octet and writes of five each, which signals interrupt, and inputs of many reads: the examples and the cases of three groups
by a small preloaded `read` and `write`, and `node` over more than a million octets."""
from lib.running import Job, Tally, run
from parts import cases, examples

PRELOAD = ("pieces",)
GROUPS = ("first-path", "arrivals", "texts")
SENDS = b"send 5 02-00-00-00-00-02 0800 AABBCCDD\n" * 40_000
COUNTS = b"sent 40000 life 0 up 0 forwarded 0 duplicate 0 returned 0 dropped 0"


def try_pieces(setting, function, *arguments):
    return function(setting.preloaded("pieces"), *arguments)


def try_many(setting):
    """`node` over 40,000 sends."""
    tally = Tally()
    status, output, _ = run(setting, "hsr_bench", ["node"], SENDS)
    lines = output.split(b"\n")
    is_right = status == 0 and lines[-2:] == [COUNTS, b""] and len(lines) == 120_002
    tally.count("node: 40000 sends", "" if is_right else f"status {status}, {len(lines) - 1} lines, {lines[-2:]}")
    return tally


def jobs(setting):
    slow = [Job(try_pieces, (job.function, *job.arguments), 3) for job in examples.jobs(setting)]
    return slow + [Job(try_pieces, (cases.try_group, "hsr_bench", name), 2) for name in GROUPS] + [Job(try_many)]
