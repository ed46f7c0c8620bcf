"""Runs scenarios by `threads` many times in a row: each run has to end, and to say the same.

    python3 tests/by_hand/again.py PROGRAM [TIMES [GROUP]]

TIMES (200) for each of the examples in which each send is drained before the next step: status and report have to be those of `run`. The
examples that move copies by hand have to be refused, by the place of the first such step. With a GROUP the cases of
tests/cases/hsr_bench/GROUP.cases are run instead. A run that hasn't ended after a minute is a failure. Each failure is shown; the last line
says how many runs passed, and the status is 0 if all did.
"""
import subprocess
import sys
import tomllib
from pathlib import Path

sys.path.insert(0, str(Path(__file__).resolve().parents[1]))
from lib import case_files

SECONDS = 60
EXAMPLES = case_files.ROOT / "examples" / "scenarios"
DRAINED = ("coupled_rings", "quad", "red", "ring2", "ring3")
BY_HAND = ("ring3_cut", "ring16_cut")


def bench(program, words, given):
    """The status, what was printed, and what went to standard error; or None where it didn't end."""
    try:
        done = subprocess.run([program, *words], input=given, capture_output=True, timeout=SECONDS)
    except subprocess.TimeoutExpired:
        return None
    return done.returncode, done.stdout, done.stderr


def examples(program):
    for name in DRAINED + BY_HAND:
        given = (EXAMPLES / f"{name}.toml").read_bytes()
        if name in DRAINED:
            wanted = bench(program, ["run"], given)
        else:
            steps = tomllib.loads(given.decode())["step"]
            place = next(place for place, step in enumerate(steps) if step["do"] in ("put", "take", "judge"))
            wanted = (1, b"", b"fault: step %d fine\n" % place)
        yield name, ["threads"], given, wanted


def cases(group):
    for case in case_files.group("hsr_bench", group):
        yield case.name, case.words, case.given, (case.status, case.output, case.error)


def main():
    program, times = sys.argv[1], int((sys.argv[2:] + ["200"])[0])
    passed, failed = 0, 0
    for name, words, given, wanted in cases(sys.argv[3]) if len(sys.argv) > 3 else examples(program):
        for turn in range(times):
            got = bench(program, words, given)
            passed, failed = (passed + 1, failed) if got == wanted else (passed, failed + 1)
            if got != wanted:
                print(f"{name}, run {turn}: {'no end' if got is None else got}, and not {wanted}", flush=True)
    print(f"{passed} passed, {failed} failed")
    sys.exit(failed > 0)


if __name__ == "__main__":
    main()
