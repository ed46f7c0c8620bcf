"""Refuses each request for memory in turn: of a run the first request, the second, .. up to a run in which none is refused. First a short row
of each command, to the end; then all cases, examples and plans, for 90 seconds of one processor or to the end.

A row has to answer as without a refusal, where the memory wasn't needed; or to end with status 1, the line `fault: memory` and nothing on
standard output. Of what `node` and `sweep` write a front stands, `threads` may say `fault: thread`, and hsr_plan names a place too. With
`--explain` the lines that explain may be missing: a failed allocation leaves them out, and nothing else. A run of more than ten seconds has
failed. So has a row without requests.
"""
import re
from dataclasses import dataclass

from lib import case_files
from lib.case_files import ROOT
from lib.refusing import UNENDED, Refuser, moment_after, slices
from lib.running import Job, Tally, run

PRELOAD = ("refuse",)
SECONDS = 90
WANT, SPARE, WRONG = "told as want of memory", "not needed", "wrong"
FRONTS = (("hsr_bench", "node"), ("hsr_plan", "sweep"))  # what these have written stands
SHORT_PLAN = b'ring = ["a", "b"]\nlife_ms = 0\n[[stream]]\nfrom = "a"\nto = "b"\ntype = 2048\nevery_us = 1000\ncount = 1\n'
THREADED = ("red", "ring2", "ring3")  # examples that threads play


@dataclass
class Row:
    title: str
    program: str
    words: list[str]
    given: bytes

    @property
    def command(self):
        return self.words[0] if self.words else "node"


# ---- one row


def is_want(row, run):
    """Whether a program says, by one line, that it wants memory."""
    if run.status != 1:
        return False
    if row.program == "hsr_plan":
        return re.fullmatch(rb"fault: ([^\n]* )?memory\n", run.error) is not None
    told = [b"fault: memory\n"] + [b"fault: thread\n"] * ((row.program, row.command) == ("hsr_bench", "threads"))
    return run.error in told


def is_unexplained(row, run, whole):
    """Whether a run answers as the one without a refusal, but for lines that explain."""
    if "--explain" not in row.words or (run.status, run.output) != (whole.status, whole.output):
        return False
    told = [line for line in whole.error.splitlines(keepends=True) if not line.startswith(b"explain: ")]
    return [line for line in run.error.splitlines(keepends=True) if not line.startswith(b"explain: ")] == told


def verdict(row, run, whole):
    """What a run with a refusal answers, beside the run without."""
    if run.answer() == whole.answer() or is_unexplained(row, run, whole):
        return SPARE
    is_front = (row.program, row.command) in FRONTS and whole.output.startswith(run.output)
    return WANT if is_want(row, run) and (not run.output or is_front) else WRONG


def count(tally, row, request, run, whole):
    """Counts the answer to one refused request."""
    how = verdict(row, run, whole)
    tally.kinds[how] += how != WRONG
    why = f"status {run.status}, {run.error[:200]!r}, {len(run.output)} octets written"
    tally.count(f"{row.title}, request {request}", why if how == WRONG else "")


def try_row(setting, row, until=None):
    """Refuses each request of a row in turn, until a moment."""
    tally = Tally()
    with Refuser(setting, setting.programs[row.program], row.words, row.given) as refuser:
        whole, last = refuser.run(0), None
        for request, last in refuser.runs(until):
            if last.refused == 1:
                count(tally, row, request, last, whole)
    if not whole.requests or last and last.refused != 1 and last.status is UNENDED:
        tally.count(row.title, f"{whole.requests} requests, status {whole.status}; no end, or nothing to refuse")
    is_done = last is not None and last.refused != 1
    tally.kinds["rows to the end" if is_done else "rows cut short"] += 1
    tally.told.append(f"{row.title}: status {whole.status}, {whole.requests} requests{'' if is_done else ', and not the rest'}")
    return tally


def try_rows(setting, rows, seconds):
    """As many of the rows as the seconds allow."""
    tally, until = Tally(), moment_after(seconds)
    for row in rows:
        some = try_row(setting, row, until)
        if not some.passed and not some.wrong:
            break
        tally.add(some)
    return tally


# ---- rows


def case_of(program, group, name):
    return next(case for case in case_files.group(program, group) if case.name == name)


def short_rows():
    """A short row of each command."""
    ring = case_of("hsr_bench", "threads", "group-round-a-ring").given
    transcript = case_of("hsr_bench", "texts", "group-round-a-ring-audit").given
    lines = case_of("hsr_bench", "words", "defaults-by-their-words").given
    rows = [("hsr_bench", ["node"], lines), ("hsr_bench", ["run"], ring), ("hsr_bench", ["threads"], ring), ("hsr_bench", ["audit"], transcript)]
    rows += [("hsr_bench", ["certify", "--coarse"], ring)]
    rows += [("hsr_view", [word], transcript) for word in ("picture", "capture", "devices")]
    rows += [("hsr_plan", [], SHORT_PLAN), ("hsr_plan", ["--check"], ring), ("hsr_plan", ["sweep"], SHORT_PLAN), ("hsr_plan", ["report"], SHORT_PLAN)]
    captures = ROOT / "examples" / "captures"
    rows += [("hsr_tap", ["lines", "examples/captures/lines.toml"], (captures / "lines.pcapng").read_bytes())]
    rows += [("hsr_tap", ["health", "--full"], (captures / "tcpdump_down.pcap").read_bytes())]
    rows += [("hsr_tap", ["judge", "--full", "examples/captures/case_r14.toml"], (captures / "case_r14.pcapng").read_bytes())]
    rows += [(program, ["sweep", "--mode", "X"], b"") for program in ("hsr_bench", "hsr_plan", "hsr_view", "hsr_tap")]
    return [Row(" ".join([program, *words]), program, words, given) for program, words, given in rows]


def case_rows(program):
    cases = [case for name, group in case_files.groups() if name == program for case in case_files.group(name, group)]
    return [Row(case.title, program, case.words, case.given) for case in cases]


def example_rows(setting, path):
    """An example of a scenario by each command that takes it, or the run of it."""
    text, name = path.read_bytes(), path.relative_to(ROOT)
    transcript = run(setting, "hsr_bench", ["run", "--transcript"], text)[1]
    rows = [("hsr_bench", ["run"], text), ("hsr_bench", ["run", "--transcript"], text), ("hsr_bench", ["audit"], transcript), ("hsr_bench", ["certify"], text)]
    rows += [("hsr_view", ["picture", "--names", str(name)], transcript), ("hsr_plan", ["--check"], text)]
    rows += [("hsr_bench", ["threads"], text)] * (path.stem in THREADED)
    return [Row(f"{program} {words[0]}: {name}", program, words, given) for program, words, given in rows]


def all_rows(setting):
    """All cases, examples and plans."""
    folder = ROOT / "examples"
    rows = case_rows("hsr_bench") + case_rows("hsr_view")
    rows += [Row(f"hsr_bench node: {path.name}", "hsr_bench", ["node"], path.read_bytes()) for path in sorted(folder.glob("lines/*.txt"))]
    rows += [row for path in sorted(folder.glob("scenarios/*.toml")) for row in example_rows(setting, path)]
    rows += [Row(f"hsr_plan: {path.name}", "hsr_plan", [], path.read_bytes()) for path in sorted(folder.glob("plans/*.toml"))]
    return rows + case_rows("hsr_plan")


def jobs(setting):
    rest = [Job(try_rows, part, SECONDS / setting.processors) for part in slices(all_rows(setting), setting, SECONDS)]
    return [Job(try_row, (row,), 15) for row in short_rows()] + rest
