"""Runs the commands that documents show, in their order: each prints what stands below it, and a file that it writes is the one of that name
in docs/, if there is one. tests/README.md says how a document shows a command. Then tools/crates --check.

The commands run in a folder of their own, in which bin/ has the programs that are tested."""
import os
import re
import subprocess
from dataclasses import dataclass, field

from lib.case_files import ROOT
from lib.running import SECONDS, Job, Tally, difference
from parts.launcher import try_command

DOCUMENTS = ("README.md", "docs/GUIDE.md", "docs/REFERENCE.md", "docs/TAP.md", "tests/README.md")
INSET, PROMPT, MORE = "    ", "    $ ", "        "
BY_HAND = ("./install", "tshark")  # commands that change the user's home, or need what the tests don't


@dataclass
class Shown:
    """A command that a document shows: the number of its line, and the lines that it is to print."""

    number: int
    command: str
    lines: list[str] = field(default_factory=list)


def commands_of(text):
    """The commands of a document."""
    found, last = [], None
    for number, line in enumerate(text.split("\n"), 1):
        if line.startswith(PROMPT):
            last = Shown(number, line.removeprefix(PROMPT))
            found.append(last)
        elif not (last and line.startswith(INSET)):
            last = None
        elif line.startswith(MORE) and last.command.endswith("|"):
            last.command += "\n" + line.removeprefix(INSET)
        else:
            last.lines.append(line.removeprefix(INSET))
    return found


def pattern_of(lines):
    """What a command may print where these lines are shown: two dots stand for a part of a line, and alone for any lines."""
    return "".join(r"(?:.*\n)*" if line == ".." else ".*".join(map(re.escape, line.split(".."))) + r"\n" for line in lines)


def wrong_with(shown, work):
    """How what a command prints, on both streams, differs from what is shown."""
    ended = subprocess.run(
        ["bash", "-c", shown.command], stdin=subprocess.DEVNULL, stdout=subprocess.PIPE, stderr=subprocess.STDOUT, timeout=SECONDS, cwd=work
    )
    if re.fullmatch(pattern_of(shown.lines), ended.stdout.decode(errors="replace")):
        return []
    return difference("what it prints", ended.stdout, "".join(line + "\n" for line in shown.lines).encode())


def prepared(setting, name):
    """A folder with the programs in bin/, and the examples."""
    work = setting.work / name.replace("/", "_")
    (work / "bin").mkdir(parents=True)
    for program, path in setting.programs.items():
        (work / "bin" / program).symlink_to(os.path.abspath(path))
    (work / "examples").symlink_to(ROOT / "examples")
    return work


def pictures_that_differ(work):
    """The files which were written here and aren't as they stand in docs/."""
    written = [path for path in sorted(work.iterdir()) if path.is_file() and (ROOT / "docs" / path.name).is_file()]
    return [f"docs/{path.name} isn't what the command writes" for path in written if path.read_bytes() != (ROOT / "docs" / path.name).read_bytes()]


def try_document(setting, name):
    """Runs the commands of one document."""
    tally, work = Tally(), prepared(setting, name)
    for shown in commands_of((ROOT / name).read_text()):
        if not shown.command.startswith(BY_HAND):
            tally.count(f"{name}:{shown.number}", "\n".join(wrong_with(shown, work)))
    tally.count(f"pictures of {name}", "\n".join(pictures_that_differ(work)))
    return tally


def jobs(setting):
    return [Job(try_document, (name,), 5) for name in DOCUMENTS] + [Job(try_command, (["tools/crates", "--check"],), 1)]
