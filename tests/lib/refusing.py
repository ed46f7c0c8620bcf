"""Runs with one request for memory refused, by a small allocator that is preloaded (tests/preload/refuse.c)."""
import os
import shutil
import struct
import subprocess
import tempfile
import time
from dataclasses import dataclass
from pathlib import Path

from lib.case_files import ROOT
from lib.running import wait

SECONDS = 10  # a run that takes longer has failed
UNENDED = None


@dataclass
class Run:
    """What a run answered, how many requests for memory it had, and how many of them were refused."""

    status: int | None
    output: bytes
    error: bytes
    requests: int
    refused: int

    def answer(self):
        return self.status, self.output, self.error


class Refuser:
    """Runs a program again and again over one input, each time with another request refused."""

    def __init__(self, setting, path, words, given):
        self.folder = Path(tempfile.mkdtemp(dir=setting.work))
        self.command = [path, *words]
        self.env = os.environ | {"LD_PRELOAD": str(setting.work / "refuse.so"), "REFUSE_TALLY": str(self.folder / "tally")}
        (self.folder / "input").write_bytes(given)

    def __enter__(self):
        return self

    def __exit__(self, *_):
        shutil.rmtree(self.folder)

    def counted(self):
        """How many requests there were, and how many of them were refused."""
        told = (self.folder / "tally").read_bytes()
        return struct.unpack("=QQ", told) if len(told) == 16 else (0, 0)

    def run(self, request):
        """Runs it with that request refused, none where it is 0."""
        (self.folder / "tally").write_bytes(b"")
        env = self.env | {"REFUSE_AT": str(request)}
        with open(self.folder / "input", "rb") as given, open(self.folder / "output", "w+b") as output, open(self.folder / "error", "w+b") as error:
            process = subprocess.Popen(self.command, stdin=given, stdout=output, stderr=error, cwd=ROOT, env=env)
            status = process.returncode if wait(process, SECONDS) else UNENDED
            output.seek(0), error.seek(0)
            return Run(status, output.read(), error.read(), *self.counted())

    def runs(self, until):
        """The runs with the first request refused, the second, .. up to one in which none is; or until a moment."""
        request = 0
        while until is None or time.monotonic() < until:
            request += 1
            run = self.run(request)
            yield request, run
            if run.refused != 1:
                return


def slices(rows, setting, seconds):
    """The rows cut up for the processors, each slice with its share of the seconds, or None for no end."""
    lanes = setting.processors
    return [(rows[lane::lanes], None if setting.whole else seconds / lanes) for lane in range(lanes)]


def moment_after(seconds):
    """The moment that is `seconds` from now."""
    return None if seconds is None else time.monotonic() + seconds
