"""Random scenarios by `threads --transcript`: each text is audited, and what no order of threads changes is compared. Of those that are certified
in any order threads have to be certified."""
import contextlib
import io

import by_threads

from lib.running import Job, Tally

COUNT, EACH = 100, 10


def try_seeds(setting, first, after):
    tally = Tally()
    for seed, tried in ((seed, tried) for seed in range(first, after) for tried in (by_threads.try_one, by_threads.try_order)):
        said = io.StringIO()
        with contextlib.redirect_stdout(said):
            how = tried(setting.programs["hsr_bench"], seed)
        tally.kinds[how] += 1
        tally.count("threads", said.getvalue())
    return tally


def jobs(setting):
    return [Job(try_seeds, (first, first + EACH), 5) for first in range(1, COUNT + 1, EACH)]
