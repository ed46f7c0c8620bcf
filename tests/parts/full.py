"""Each command with a standard output that takes nothing: /dev/full, and a pipe whose reader is gone. It has to end with status 1 and
`fault: write`; the signal that says that a reader is gone may end it too. What a command writes stands in a buffer until its end or until it
is full, so the longer inputs try a write, and the short ones a flush."""
import os
import signal
import subprocess

from lib.case_files import ROOT
from lib.running import SECONDS, Job, Tally, run

FAULT = b"fault: write\n"


def commands(setting):
    """Each command with an input: program, arguments, input."""
    ring, line = (ROOT / "examples" / "scenarios" / "ring3.toml").read_bytes(), (ROOT / "examples" / "lines" / "one_send.txt").read_bytes()
    plan = (ROOT / "examples" / "plans" / "two_rings.toml").read_bytes()
    transcript = run(setting, "hsr_bench", ["run", "--transcript"], ring)[1]
    for words in ([], ["node"]):
        yield "hsr_bench", words, line
    yield "hsr_bench", ["node"], b"age 0\n" * 200_000
    for words in (["run"], ["run", "--transcript"], ["threads"], ["certify"]):
        yield "hsr_bench", words, ring
    yield "hsr_bench", ["audit"], transcript
    for words in (["picture"], ["capture"], ["devices"]):
        yield "hsr_view", words, transcript
    for words in ([], ["sweep"], ["report"]):
        yield "hsr_plan", words, plan
    captures = ROOT / "examples" / "captures"
    for words in (["lines"], ["health"]):
        yield "hsr_tap", words, (captures / "tcpdump_short.pcap").read_bytes()
    yield "hsr_tap", ["judge", "examples/captures/danh.toml"], (captures / "danh.pcapng").read_bytes()


def full():
    return os.open("/dev/full", os.O_WRONLY)


def closed():
    reader, writer = os.pipe()
    os.close(reader)
    return writer


def wrong(setting, stream, program, words, given):
    """What is wrong with a command whose output goes to a stream."""
    output = stream()
    try:
        ended = subprocess.run([setting.programs[program], *words], input=given, stdout=output, stderr=subprocess.PIPE, timeout=SECONDS)
    except subprocess.TimeoutExpired:
        return "no end"
    finally:
        os.close(output)
    is_ended = stream is closed and ended.returncode == -signal.SIGPIPE
    return "" if is_ended or (ended.returncode, ended.stderr) == (1, FAULT) else f"status {ended.returncode}, {ended.stderr!r}"


def try_stream(setting, stream):
    tally = Tally()
    for program, words, given in commands(setting):
        tally.count(" ".join([program, *words, stream.__name__]), wrong(setting, stream, program, words, given))
    return tally


def jobs(setting):
    return [Job(try_stream, (stream,)) for stream in (full, closed)]
