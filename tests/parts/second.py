"""The second implementation: random scenarios and random lines in model.py, and by the program, octet by octet."""
import contextlib
import io

import compare

from lib.running import Job, Tally

COUNT, EACH = 300, 20


def tried(function, *arguments):
    """What came of one comparison; where it differs, what was printed of that."""
    said = io.StringIO()
    try:
        with contextlib.redirect_stdout(said):
            return function(*arguments), ""
    except compare.Differs:
        return "differs", said.getvalue()


def count(tally, how, why):
    if how != "left out":
        tally.kinds[how] += 1
        tally.count("second", why)


def try_edges(setting):
    """The scenarios that chance doesn't find."""
    compare.use(setting.programs["hsr_bench"])
    tally = Tally()
    for name, made, asked in compare.far_edges():
        count(tally, *tried(compare.compare_made, name, made, 512, asked))
    return tally


def try_seeds(setting, first, after):
    compare.use(setting.programs["hsr_bench"])
    tally = Tally()
    for seed in range(first, after):
        count(tally, *tried(compare.compare_scenario, seed))
        count(tally, *tried(compare.compare_node, seed))
    return tally


def jobs(setting):
    return [Job(try_edges, (), 20)] + [Job(try_seeds, (first, first + EACH), 8) for first in range(1, COUNT + 1, EACH)]
