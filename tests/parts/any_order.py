"""Certified in any order: random plays of random scenarios that a second reading of the rules certifies go as the rules say; and `certify`
says of random scenarios, and of those a step or a microsecond beside one that is certified, what that reading says."""
import contextlib
import io
from collections import Counter

import compare
import compare_orders
import random_plays

from lib.running import Job, Tally

PLAYED, COMPARED, EACH = 600, 100, 20


def try_plays(_, first, after):
    tally = Tally()
    for seed in range(first, after):
        how, wrong = random_plays.one(seed, tally.reached)
        tally.kinds[f"scenarios {how}"] += 1
        if wrong:
            tally.wrong.append(wrong)
    tally.passed = tally.reached["plays"]
    return tally


def compared(setting, function, *arguments):
    """A comparison of some scenarios; where one differs, what was printed of that."""
    compare.use(setting.programs["hsr_bench"])
    said, seen, tally = io.StringIO(), [], Tally()
    try:
        with contextlib.redirect_stdout(said):
            seen = function(*arguments)
    except compare.Differs:
        tally.wrong.append(said.getvalue())
    tally.passed, tally.kinds = len(seen), Counter(f"compared {how}" for how in seen)
    return tally


def try_lines(setting, first, after):
    tally = Tally()
    for seed in range(first, after):
        tally.add(compared(setting, compare_orders.compare_seed, seed))
    return tally


def try_edges(setting):
    return compared(setting, compare_orders.compare_edges)


def jobs(_):
    plays = [Job(try_plays, (first, first + EACH), 3) for first in range(1, PLAYED + 1, EACH)]
    lines = [Job(try_edges, (), 60)] + [Job(try_lines, (first, first + EACH), 5) for first in range(1, COMPARED + 1, EACH)]
    return plays + lines
