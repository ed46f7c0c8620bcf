"""What a user calls besides the programs: the launcher, the release and `install` (tests/launcher.sh), and the manuals, which have to be those
that `--help` says (tools/manuals --check). Each ends with a line `N passed, M failed`, or its status tells of one try."""
import re
import subprocess

from lib.case_files import ROOT
from lib.running import Job, Tally

SECONDS = 300


def try_command(setting, words):
    """Runs a script, and counts what its last line says."""
    if not (ROOT / words[0]).is_file():
        return Tally(0, [f"{words[0]} isn't there"])
    ended = subprocess.run([ROOT / words[0], *words[1:]], stdout=subprocess.PIPE, stderr=subprocess.STDOUT, text=True, timeout=SECONDS, cwd=ROOT)
    *said, last = ended.stdout.rstrip("\n").split("\n")
    found = re.fullmatch(r"(\d+) passed, (\d+) failed", last)
    if not found:
        return Tally(1) if ended.returncode == 0 else Tally(0, [f"{' '.join(words)}: status {ended.returncode}\n{ended.stdout}"])
    failed = int(found[2])
    return Tally(int(found[1]), ["\n".join([" ".join(words), *said])] * (failed > 0) + [f"{words[0]}: one more"] * (failed - 1))


def jobs(setting):
    """The manuals are those of the programs that are tested, where the release, in which they stand, is of these sources."""
    manuals = ["tools/manuals", "--check", *([setting.folder] if setting.folder else [])]
    is_of_these = subprocess.run([ROOT / "tools" / "release", "--check"], stdout=subprocess.DEVNULL, stderr=subprocess.DEVNULL, cwd=ROOT).returncode != 1
    return [Job(try_command, (["tests/launcher.sh"],), 30)] + ([Job(try_command, (manuals,), 2)] if is_of_these else [])
