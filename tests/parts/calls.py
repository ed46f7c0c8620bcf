"""Refuses each request for memory of single calls in turn: in the tests that were written for it, which the gate builds. A test passes only
where a call says that an allocation failed, has changed nothing, handed back what it was given, and answers the same call, made again, as it does
with memory. All tests together have 90 seconds of one processor, or run to the end."""
import subprocess

from lib.refusing import Refuser, moment_after, slices
from lib.running import Job, Tally

PRELOAD = ("refuse",)
SECONDS = 90
CRATE = "hsr_memory_tests"


def is_passed(run):
    return run.status == 0 and any(line.endswith(b" ok") for line in (run.output + b"\n" + run.error).split(b"\n"))


def try_test(setting, path, test, until):
    """Refuses each request of a test in turn, until a moment."""
    tally = Tally()
    with Refuser(setting, path, [test], b"") as refuser:
        for request, run in refuser.runs(until):
            said = next((line for line in (run.output + run.error).split(b"\n") if line), b"")
            tally.count(f"{test}, request {request}", "" if is_passed(run) else f"status {run.status}, {said!r}")
            tally.kinds["requests refused"] += run.refused
    tally.told.append(f"{test}: {tally.passed} runs")
    return tally


def try_tests(setting, tests, seconds):
    """As many of the tests as the seconds allow."""
    tally, until = Tally(), moment_after(seconds)
    for path, test in tests:
        some = try_test(setting, path, test, until)
        if not some.passed and not some.wrong:
            break
        tally.add(some)
        tally.kinds["tests"] += 1
    return tally


def all_tests(setting):
    """The built tests of the crate, each with the path of their program."""
    path = setting.built / f"{CRATE}_tests"
    if not path.is_file():
        return []
    listed = subprocess.run([path, "--list"], stdout=subprocess.PIPE, text=True).stdout
    return [(str(path), line.removesuffix(": test")) for line in listed.splitlines() if line.endswith(": test")]


def tell_none(setting):
    """Counts that there is no test to try."""
    return Tally(0, [f"there are no tests of {CRATE} in {setting.built}"])


def jobs(setting):
    tests = all_tests(setting)
    if not tests:
        return [Job(tell_none)]
    return [Job(try_tests, part, SECONDS / setting.processors) for part in slices(tests, setting, SECONDS)]
