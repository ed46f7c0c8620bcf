"""Random plans by the planner's program, against a second reading of what a plan means; the second bench plays them too."""
import random_plans

from lib.running import Job, Tally

COUNT, SECONDS = 1000, 30


def try_seeds(setting, seeds, seconds):
    random_plans.use(setting.programs["hsr_plan"], setting.programs["hsr_bench"])
    passed, counts, wrong = random_plans.compare(seeds, seconds)
    return Tally(passed, [wrong] if wrong else [], [], counts)


def jobs(setting):
    """Each processor takes each second, third, .. twenty of the plans, so that each has sweeps, and its share of the time."""
    lanes = setting.processors
    seconds = 0 if setting.whole else SECONDS / lanes
    shares = [[seed for seed in range(1, COUNT + 1) if seed // random_plans.EACH % lanes == lane] for lane in range(lanes)]
    return [Job(try_seeds, (seeds, seconds), SECONDS / lanes) for seeds in shares]
