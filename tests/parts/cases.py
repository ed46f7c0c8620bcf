"""The worked cases of tests/cases: arguments, input, output, error and status of each."""
import tempfile
from pathlib import Path

from lib import case_files
from lib.running import Job, Tally, difference, run

USAGE = b"usage: --mac"
FOLDER = "FOLDER"  # a word that stands for an empty folder of the case's own


def told_freely(error):
    """What is wrong with the error of arguments that are refused: a text that says more than a line of a fault."""
    is_fault = any(line.startswith(b"fault: ") or line == USAGE for line in error.split(b"\n"))
    return ["error: no text about the words"] if len(error) <= 20 or is_fault else []


def wrong_files(case, files):
    """What is wrong with the files that are in the folder of a case."""
    found = [] if sorted(files) == sorted(case.files) else [f"files {sorted(files)} and not {sorted(case.files)}"]
    for name in sorted(files.keys() & case.files.keys()):
        found += difference(name, files[name], case.files[name])
    return found


def run_case(setting, case):
    """Runs a case: its status, output, error, and what it put into its folder."""
    with tempfile.TemporaryDirectory(dir=setting.work) as folder:
        words = [word.replace(FOLDER, folder) for word in case.words]
        answer = run(setting, case.program, words, case.given)
        return *answer, {path.name: path.read_bytes() for path in Path(folder).iterdir()}


def wrong(case, status, output, error, files):
    """What is wrong with an answer to a case."""
    found = [] if status == case.status else [f"status {status} and not {case.status}"]
    if case.output is not case_files.ANY:
        found += difference("output", output, case.output)
    if case.error is not case_files.ANY:
        found += difference("error", error, case.error)
    elif case.status == 3:
        found += told_freely(error)
    found += wrong_files(case, files)
    return "\n".join(found)


def try_group(setting, program, name):
    """Runs the cases of a file."""
    tally = Tally()
    for case in case_files.group(program, name):
        tally.count(case.title, wrong(case, *run_case(setting, case)))
    return tally


def jobs(setting):
    return [Job(try_group, group) for group in case_files.groups()]
