"""One read of standard input, or one write to standard output, fails, and the next would not (by a small preloaded library): each command has
to end at once with status 1 and tell which it was. After a read that failed it has written a front of what it writes otherwise, and not all
of it; after a write that failed a front or all, since what stands in the buffer is tried once more at the end. And `node` has to tell a
bad line while its input is still open."""
import os
import subprocess
import threading

from lib import case_files
from lib.case_files import ROOT
from lib.running import Job, Tally, run

PRELOAD = ("once",)
SENDS = b"send 5 02-00-00-00-00-02 0800 AABBCCDD\n" * 2000
SECONDS = 20


def long_scenario():
    """A scenario of over 128 KiB, so that three reads of 64 KiB are needed."""
    remarks = "".join(f"# {number}\n" for number in range(1, 20001))
    return (ROOT / "examples" / "scenarios" / "ring3.toml").read_bytes() + remarks.encode()


def wrong(what, whole, status, output, error):
    """What is wrong with a command that was stopped by a read or a write."""
    if status != 1 or error != b"fault: %s\n" % what.encode():
        return f"status {status}, {error!r}"
    is_front = whole.startswith(output) and (what == "write" or output != whole)
    return "" if is_front else f"{len(output)} octets were written, which are no front of the {len(whole)} that it writes otherwise"


def try_command(setting, words, given, reads, writes):
    """Lets each of the first `reads` reads and `writes` writes of a command fail."""
    tally, whole = Tally(), run(setting, "hsr_bench", words, given)[1]
    places = [("read", place) for place in range(1, reads + 1)] + [("write", place) for place in range(1, writes + 1)]
    for what, place in places:
        failing = setting.preloaded("once", **{f"{what.upper()}_FAILS": str(place)})
        why = wrong(what, whole, *run(failing, "hsr_bench", words, given, SECONDS))
        tally.count(f"{' '.join(words)}, where {what} {place} fails", why)
    return tally


def answer_while_open(setting, case):
    """What a program answers whose input stays open; a status of None is one that waits for more."""
    reader, writer = os.pipe()
    os.write(writer, case.given)
    process = subprocess.Popen([setting.programs[case.program], *case.words], stdin=reader, stdout=subprocess.PIPE, stderr=subprocess.PIPE)
    os.close(reader)
    timer = threading.Timer(SECONDS, os.close, [writer])
    timer.start()
    output, error = process.communicate()
    is_in_time = timer.is_alive()
    timer.cancel()
    if is_in_time:
        os.close(writer)
    return process.returncode if is_in_time else None, output, error


def try_open(setting):
    tally = Tally()
    case = next(case for case in case_files.group("hsr_bench", "arrivals") if case.name == "bad-line")
    got = answer_while_open(setting, case)
    tally.count("a bad line, where the input stays open", "" if got == (case.status, case.output, case.error) else f"{got}")
    return tally


def jobs(setting):
    scenario = long_scenario()
    transcript = run(setting, "hsr_bench", ["run", "--transcript"], scenario)[1]
    tries = [(["node"], SENDS, 3, 3), (["run"], scenario, 3, 1), (["threads"], scenario, 3, 1), (["certify"], scenario, 3, 1)]
    tries += [(["run", "--transcript"], scenario, 1, 1), (["audit"], transcript, 2, 1)]
    return [Job(try_command, one) for one in tries] + [Job(try_open)]
