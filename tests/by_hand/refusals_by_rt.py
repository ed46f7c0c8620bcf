"""Refuses each request for memory in turn by `rt try --fail-alloc`, which builds the programs for it: of the short rows of tests/run refusals,
and of the tests of single calls of hsr_memory_tests. It needs the Rattle kit.

    python3 tests/by_hand/refusals_by_rt.py            all requests of a row over one build, for a kit that takes `--fail-alloc 1..`
    python3 tests/by_hand/refusals_by_rt.py FROM TO    these requests, each by a build of its own: about three minutes for each

What is wrong is a run that faults or hangs, or that ends with the same status and other output. The last line says how many passed.
"""
import re
import subprocess
import sys
import tempfile
from pathlib import Path

sys.path.insert(0, str(Path(__file__).resolve().parents[1]))
from lib.case_files import ROOT
from lib.refusing import Run
from lib.running import Tally
from parts import refusals

TESTS = "hsr_memory_tests"


def rt_try(crate, flags, words, given):
    """What `rt try` answers in a crate's folder."""
    with tempfile.TemporaryFile() as source:
        source.write(given)
        source.seek(0)
        command = ["rt", "try", *flags, "--", *words]
        return subprocess.run(command, stdin=source, capture_output=True, cwd=ROOT / "crates" / crate)


def try_all(tally, title, crate, flags, words, given):
    """Refuses each request over one build; rt says from which request on it has to be called again."""
    start, said = "1", ""
    while start:
        ended = rt_try(crate, [*flags, "--fail-alloc", f"{start}.."], words, given)
        said = (ended.stdout + ended.stderr).decode("latin-1").rstrip("\n").split("\n")[-1]
        more = re.search(r"next=(\d+)", said)
        start = more and more[1] if ended.returncode == 6 else None
    is_fine = ended.returncode in (0, 1, 2, 3) and said.startswith("run=ended")
    tally.count(title, "" if is_fine else f"status {ended.returncode}, {said}")
    print(f"{title}: {said}", flush=True)


def answer(ended):
    """What a program answered behind rt's own lines."""
    faults = b"".join(line + b"\n" for line in ended.stderr.split(b"\n") if line.startswith(b"fault: "))
    return Run(ended.returncode, ended.stdout, faults, 1, 1)


def try_some(tally, row, first, last):
    """Refuses some requests of a row, each by a build of its own."""
    whole = answer(rt_try(row.program, [], row.words, row.given))
    for request in range(first, last + 1):
        got = answer(rt_try(row.program, ["--fail-alloc", str(request)], row.words, row.given))
        refusals.count(tally, row, request, got, whole)
        print(f"{row.title}, request {request}: {refusals.verdict(row, got, whole)}", flush=True)


def try_tests(tally, first, last):
    """Refuses some requests of the tests of single calls, each by a build of its own."""
    for request in range(first, last + 1):
        said = rt_try(TESTS, ["--test", "--fail-alloc", str(request)], [], b"").stdout.decode()
        for name, how in re.findall(r"^test (\S+).* (ok|FAILED)$", said, re.MULTILINE) or [("no test", "FAILED")]:
            tally.count(f"{name}, request {request}", "" if how == "ok" else how)


def main():
    tally, rows = Tally(), refusals.short_rows()
    if len(sys.argv) == 3:
        for row in rows:
            try_some(tally, row, int(sys.argv[1]), int(sys.argv[2]))
        try_tests(tally, int(sys.argv[1]), int(sys.argv[2]))
    else:
        for row in rows:
            try_all(tally, row.title, row.program, [], row.words, row.given)
        try_all(tally, f"tests of {TESTS}", TESTS, ["--test"], [], b"")
    print("\n".join(["wrong: " + why for why in tally.wrong] + [f"{tally.passed} passed, {len(tally.wrong)} failed"]))
    sys.exit(len(tally.wrong) > 0)


if __name__ == "__main__":
    main()
