"""Plays the scenario of each example of a plan: its report and status are those of the scenario in tests/plans, which another program wrote
of that plan, and so is its comment that counts; a sweep says of the undisturbed run what the bench's audit of networks says, and without events what
it says of the plan without them."""
import re

from lib.case_files import ROOT
from lib.running import Job, Tally, difference, run

PLANS = ROOT / "examples" / "plans"
SCENARIOS = ROOT / "tests" / "plans"


def last_line(text):
    return text.decode().rstrip("\n").split("\n")[-1]


def comments(text):
    """The title, and the comment that counts."""
    return b"\n".join(text.split(b"\n")[:2]) + b"\n"


def try_plan(setting, name):
    """Compares one plan."""
    tally, plan = Tally(), (PLANS / f"{name}.toml").read_bytes()
    status, scenario, _ = run(setting, "hsr_plan", [], plan)
    other = (SCENARIOS / f"{name}.scenario").read_bytes()
    ours, theirs = (run(setting, "hsr_bench", ["run", "--budget"], text) for text in (scenario, other))
    why = [f"status {status}"] * (status != 0) + ["status of the run"] * (ours[0] != theirs[0])
    why += difference("the comments", comments(scenario), comments(other))
    tally.count(name, "\n".join(why + difference("the report", ours[1], theirs[1])))
    verdict = last_line(run(setting, "hsr_bench", ["run", "--network"], scenario)[1])
    swept = run(setting, "hsr_plan", ["sweep"], plan)[1].decode()
    # Of a send that doesn't come to a node the sweep tells another: the first that was missed by who needs it, or that none was.
    told = r"(doubt cut-off \S+ \S+|none missed)" if verdict.startswith("doubt cut-off ") else re.escape(" ".join(verdict.split(" ")[:2])) + ".*"
    is_told = re.search(rf"^undisturbed .* load [0-9]* {told}$", swept, re.MULTILINE)
    tally.count(f"sweep of {name}", "" if is_told else f"it doesn't say {verdict} of the undisturbed run")
    # Events stand last in these plans.
    alone, cut = (run(setting, "hsr_plan", words, text) for words, text in ((["sweep", "--without-events"], plan), (["sweep"], plan.split(b"[[event]]")[0])))
    tally.count(f"sweep of {name} without events", "" if alone == cut else "it isn't that of the plan without them")
    return tally


def jobs(setting):
    return [Job(try_plan, (path.stem,), 5) for path in sorted(PLANS.glob("*.toml"))]
