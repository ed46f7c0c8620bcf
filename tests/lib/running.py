"""What all parts use: where the programs are, how one is run, and how tries are counted."""
import difflib
import itertools
import os
import subprocess
import threading
from collections import Counter
from dataclasses import dataclass, field, replace
from pathlib import Path

from lib.case_files import ROOT

NAMES = ("hsr_bench", "hsr_plan", "hsr_view", "hsr_tap")
SECONDS = 60  # a run that takes longer has failed
SHOWN, WIDTH, COMPARED = 12, 200, 200_000  # lines of a difference that are shown, their length, and octets that are compared by line


@dataclass
class Setting:
    """What a call of tests/run chose, and where it works."""

    work: Path
    programs: dict[str, str]
    folder: str | None = None
    built: Path | None = None
    whole: bool = False
    processors: int = 1
    env: dict[str, str] = field(default_factory=dict)

    def preloaded(self, name, **env):
        """The same with a small library of tests/preload in front of the C library's functions."""
        return replace(self, env={"LD_PRELOAD": str(self.work / f"{name}.so"), **env})


@dataclass
class Job:
    """A piece of a part, which runs by itself; the longest are begun first."""

    function: object
    arguments: tuple = ()
    seconds: float = 1


@dataclass
class Tally:
    """How many tries passed, what is wrong with the others, and what else there is to say."""

    passed: int = 0
    wrong: list[str] = field(default_factory=list)
    told: list[str] = field(default_factory=list)
    kinds: Counter = field(default_factory=Counter)
    reached: Counter = field(default_factory=Counter)  # what came up, and how often; it is shown with --tell

    def count(self, what, why):
        """Counts one try: it passed where there is nothing wrong with it."""
        if why:
            self.wrong.append(f"{what}: {why}")
        else:
            self.passed += 1

    def add(self, other):
        self.passed += other.passed
        self.wrong += other.wrong
        self.told += other.told
        self.kinds += other.kinds
        self.reached += other.reached


# ---- programs


def path_of(name, folder):
    """The path of a program: in the folder, else that of the program that bin/NAME runs."""
    if folder:
        return f"{folder}/{name}"
    launcher = ROOT / "tools" / "launcher"
    if not launcher.is_file():
        return str(ROOT / "bin" / name)
    return subprocess.run([launcher, name], stdout=subprocess.PIPE, text=True).stdout.strip()


def programs_of(folder):
    return {name: path_of(name, folder) for name in NAMES}


def missing(programs):
    """The programs that aren't there."""
    return [name for name, path in programs.items() if not os.access(path, os.X_OK)]


def preload(name, work):
    """Builds one of the small libraries of tests/preload."""
    source, made = ROOT / "tests" / "preload" / f"{name}.c", work / f"{name}.so"
    subprocess.run(["cc", "-O2", "-shared", "-fPIC", "-o", made, source], check=True)


# ---- runs


def run(setting, name, words, given=b"", seconds=SECONDS):
    """Runs a program: its status, output and error. Where it doesn't end the status is None, and by a signal it is negative."""
    path, env = setting.programs.get(name, name), os.environ | setting.env
    try:
        ended = subprocess.run([path, *words], input=given, capture_output=True, timeout=seconds, cwd=ROOT, env=env)
    except subprocess.TimeoutExpired:
        return None, b"", b""
    return ended.returncode, ended.stdout, ended.stderr


def wait(process, seconds):
    """Waits for a process without a look at a clock again and again; whether it ended by itself."""
    late = []
    timer = threading.Timer(seconds, lambda: (late.append(True), process.kill()))
    timer.start()
    process.wait()
    timer.cancel()
    return not late


# ---- differences


def lines_of(octets):
    """An output as lines that may be printed: of a text its own, else sixteen octets each."""
    if not octets.isascii() or b"\0" in octets:
        return [octets[place : place + 16].hex(" ") for place in range(0, len(octets), 16)]
    *lines, rest = octets.decode().split("\n")
    return lines + [rest + " (no line end)"] * (rest != "")


def difference(name, got, wanted):
    """How an output differs from the wanted one, or nothing."""
    if got == wanted:
        return []
    if max(len(got), len(wanted)) > COMPARED:
        return [f"{name} differs: {len(got)} octets, and {len(wanted)} were wanted"]
    lines = difflib.unified_diff(lines_of(wanted), lines_of(got), "wanted", "got", lineterm="", n=1)
    return [f"{name} differs:"] + [line[:WIDTH] for line in itertools.islice(lines, SHOWN)]
