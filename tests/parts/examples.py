"""Plays each example of a scenario by `run`: the report is the one in the example's comments, and the transcript is audited to the same
report and status."""
from lib.case_files import ROOT
from lib.running import Job, Tally, difference, run

EXAMPLES = ROOT / "examples" / "scenarios"
INSET = b"#   "  # before a line of the report in the comments


def report_of(text):
    return b"".join(line[len(INSET) :] + b"\n" for line in text.split(b"\n") if line.startswith(INSET))


def try_example(setting, name):
    """Plays and audits one example."""
    tally, text = Tally(), (EXAMPLES / name).read_bytes()
    status, report, _ = run(setting, "hsr_bench", ["run"], text)
    tally.count(name, "\n".join(difference("the report", report, report_of(text))))
    _, transcript, _ = run(setting, "hsr_bench", ["run", "--transcript"], text)
    audited = run(setting, "hsr_bench", ["audit"], transcript)
    why = [] if audited[0] == status else [f"status {audited[0]} of the audit, and {status} of the run"]
    tally.count(name, "\n".join(why + difference("the audit of its transcript", audited[1], report)))
    return tally


def jobs(setting):
    return [Job(try_example, (path.name,)) for path in sorted(EXAMPLES.glob("*.toml"))]
