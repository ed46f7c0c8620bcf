"""Pages in Debian's chromium without a window, where it is there: tests/by_hand/page/page.py says what is compared. Where there is none, that is told,
and nothing else. tests/by_hand/page.sh does the same in Firefox too, by hand."""
import shutil
import subprocess
import sys

from lib.case_files import ROOT
from lib.running import Job, Tally, run
from parts.pages import HOSTILE

PAGE = ROOT / "tests" / "by_hand" / "page" / "page.py"
NEEDED = ("chromium", "pdftotext")
TRIES, SECONDS = 3, 400  # a browser that doesn't answer on a busy machine is asked again; what a page shows wrong is told at once


def tried(words):
    """What is wrong with a page in a browser."""
    for _ in range(TRIES):
        ended = subprocess.run([sys.executable, PAGE, *words], capture_output=True, text=True, timeout=SECONDS)
        if not ended.returncode or "Wrong: " not in ended.stderr:
            break
    return ended.stderr if ended.returncode else ""


def kept(setting, name, octets):
    """A file of the tests' folder with these octets."""
    path = setting.work / name
    path.write_bytes(octets)
    return path


def try_run(setting, name, scenario):
    """The page of the run of a scenario."""
    tally, names = Tally(), kept(setting, f"browser-{name}.toml", scenario)
    _, transcript, _ = run(setting, "hsr_bench", ["run", "--transcript"], scenario)
    _, page, _ = run(setting, "hsr_view", ["page", "--names", str(names), "--title", name], transcript)
    files = kept(setting, f"browser-{name}.html", page), kept(setting, f"browser-{name}.transcript", transcript)
    tally.count(f"run of {name}", tried(["run", *files]))
    return tally


def try_plan(setting, name, plan):
    """The page of a plan."""
    tally = Tally()
    _, page, _ = run(setting, "hsr_plan", ["report", "--date", "2026-11-28"], plan)
    tally.count(f"plan {name}", tried(["plan", kept(setting, f"browser-{name}.plan.html", page)]))
    return tally


def try_hostile(setting, scenario):
    """The page of a run under a hostile title."""
    tally = Tally()
    _, transcript, _ = run(setting, "hsr_bench", ["run", "--transcript"], scenario)
    _, page, _ = run(setting, "hsr_view", ["page", "--title", HOSTILE], transcript)
    tally.count("hostile title", tried(["hostile", kept(setting, "browser-hostile.html", page), HOSTILE]))
    return tally


def say(_setting, lacking):
    return Tally(told=[f"no {lacking}: no page was tried in a browser"])


def jobs(_setting):
    lacking = [name for name in NEEDED if not shutil.which(name)]
    if lacking:
        return [Job(say, (lacking[0],))]
    scenarios = [(path.stem, path.read_bytes()) for path in sorted((ROOT / "examples/scenarios").glob("*.toml"))]
    scenarios = [one for one in scenarios if one[0] != "sampled_values"]  # 640,000 copies are too many for a page
    plans = [(path.stem, path.read_bytes()) for path in sorted((ROOT / "examples/plans").glob("*.toml"))]
    found = [Job(try_run, one, 12) for one in scenarios] + [Job(try_plan, one, 12) for one in plans]
    return found + [Job(try_hostile, (dict(scenarios)["ring3_cut"],), 6)]
