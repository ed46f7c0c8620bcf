"""Gives each command what no friend would: random octets, lines, texts and runs that are far too large, and a folder as input. Each has to end
with its status and its last line, within two minutes and a bounded address space (1 GB; 6 GB for `threads`, each of whose threads takes
some for its stack), and without a crash."""
import contextlib
import os
import resource
import subprocess
import tempfile
import time

from lib import hostile_inputs as inputs
from lib.case_files import ROOT
from lib.running import Job, Tally, wait
from lib.scenarios import ring, storm

SECONDS = 120
ROOM, ROOM_OF_SWEEPS, ROOM_OF_THREADS = 1_000_000 * 1024, 2_000_000 * 1024, 6_000_000 * 1024
NO_LINE, NO_TEXT, NO_TRANSCRIPT = "fault: line 1", "fault: scenario top text", "fault: transcript version"
NAMES = "explain: this is no scenario"
NO_ANSWER = "sent 0 life 0 up 0 forwarded 0 duplicate 0 returned 0 dropped 0"


# ---- one run


@contextlib.contextmanager
def opened(folder, given):
    """An input to read from: a stream's words, octets, or a folder."""
    if isinstance(given, bytes):
        with tempfile.TemporaryFile(dir=folder) as file:
            file.write(given)
            file.seek(0)
            yield file
    elif os.path.isdir(given):
        place = os.open(given, os.O_RDONLY)
        yield place
        os.close(place)
    else:
        with subprocess.Popen(["/bin/sh", "-c", given], stdout=subprocess.PIPE) as writer:
            yield writer.stdout
            writer.stdout.close()


def bounded(room, is_sweep):
    """What a program does before it starts: it takes no more room than that. A sweep takes that of as many runs as it has processors: of one here."""
    if is_sweep:
        os.sched_setaffinity(0, {min(os.sched_getaffinity(0))})
    resource.setrlimit(resource.RLIMIT_AS, (room, room))
    resource.setrlimit(resource.RLIMIT_CORE, (0, 0))


def last_line(*files):
    """The last line of the last file in which there is one, its first 100 characters."""
    said = ""
    for file in files:
        file.seek(max(0, file.seek(0, os.SEEK_END) - 4096))
        said = file.read().decode("latin-1").rstrip("\n").split("\n")[-1] or said
    return said[:100]


def program_of(words):
    """The program whose first word it is."""
    return "hsr_view" if words[0] in ("picture", "capture", "devices") else "hsr_bench"


def command_of(setting, words):
    """A command line of the program by whose name the words begin, or whose command the first is."""
    name, rest = (words[0], words[1:]) if words[0] in setting.programs else (program_of(words), words)
    return [setting.programs[name], *rest]


def ended(setting, words, given):
    """The status and last line of a run in its bounds; nothing where it doesn't end."""
    room = ROOM_OF_THREADS if words[0] == "threads" else ROOM_OF_SWEEPS if "sweep" in words else ROOM
    with opened(setting.work, given) as source, tempfile.TemporaryFile(dir=setting.work) as output, tempfile.TemporaryFile(dir=setting.work) as error:
        command = command_of(setting, words)
        process = subprocess.Popen(command, stdin=source, stdout=output, stderr=error, cwd=ROOT, preexec_fn=lambda: bounded(room, "sweep" in words))
        return (process.returncode, last_line(output, error)) if wait(process, SECONDS) else (None, "")


# ---- rows


def try_rows(setting, rows, make, *arguments):
    """Runs commands on one input, each to its status and last line."""
    tally, given = Tally(), make(*arguments)
    for name, words, *wanted in rows:
        began = time.monotonic()
        status, said = ended(setting, words, given)
        title = f"{' '.join(words)}, {name}"
        tally.count(title, "" if [status, said] == wanted else f"status {status}, {said}; {wanted} was to come")
        tally.told.append(f"{title}: status {status}, {said}, {time.monotonic() - began:.1f} s")
    return tally


def same(given):
    return given


def hurled(name, text=NO_TEXT):
    """What is no text of any command."""
    rows = [(name, ["node"], 1, NO_LINE), (name, ["audit"], 1, NO_TRANSCRIPT)]
    return rows + unread(name, text)


def both(name, status, last):
    """A scenario by both commands that play one."""
    return [(name, [command], status, last) for command in ("run", "threads")]


def unread(name, last):
    """What is no scenario by each command that takes one."""
    return both(name, 1, last) + [(name, ["certify"], 1, last)]


def planned(name, said):
    """What is no plan, with and without a sweep, and by its page."""
    return [(name, ["hsr_plan", *words], 1, f"fault: plan {said}"[:100]) for words in ([], ["sweep"], ["report"])]


def transcript_of_many(setting):
    command = [setting.programs["hsr_bench"], "run", "--transcript"]
    return subprocess.run(command, input=inputs.many_steps(), stdout=subprocess.PIPE, timeout=SECONDS).stdout


def try_transcript(setting):
    rows = [("transcript of 200,000 steps", ["audit"], 0, "certified 0")]
    return try_rows(setting, rows, transcript_of_many, setting)


def try_large_names(setting):
    """Names from a file of 3 GB of zeros, of which the disk keeps nothing."""
    with tempfile.NamedTemporaryFile(dir=setting.work) as file:
        os.truncate(file.fileno(), inputs.GB_3)
        rows = [("names of 3 GB", [word, "--names", file.name], 1, NAMES) for word in ("picture", "capture", "devices")]
        return try_rows(setting, rows, same, b"hsr-bench 2\ntable 512\nnodes 0\nlinks 0\nmain 0\nend\n")


def try_many_cuts(setting):
    """A picture by a scenario that cuts a link 200,000 times."""
    text = inputs.one_send()
    command = [setting.programs["hsr_bench"], "run", "--transcript"]
    transcript = subprocess.run(command, input=text.encode(), stdout=subprocess.PIPE, timeout=SECONDS).stdout
    with tempfile.NamedTemporaryFile("w", dir=setting.work) as file:
        file.write(inputs.many_cuts())
        file.flush()
        rows = [("names with 200,000 cuts", ["picture", "--names", file.name], 0, "</svg>")]
        return try_rows(setting, rows, same, transcript)


def jobs_to_show():
    zeros = [("3 GB of zeros", [word], 1, NO_TRANSCRIPT) for word in ("picture", "capture", "devices")]
    version = [("a version, then a line of 1 GB", ["picture"], 1, "fault: transcript line 2")]
    return [
        Job(try_rows, (zeros, same, inputs.ZEROS), 2),
        Job(try_rows, (version, same, "echo hsr-bench 2; " + inputs.LONG_LINE), 2),
        Job(try_large_names, (), 2),
        Job(try_many_cuts, (), 2),
    ]


def jobs_of_no_text():
    return [
        Job(try_rows, (hurled("10 MB of random octets"), inputs.random_octets), 3),
        Job(try_rows, (hurled("a line of 1 GB"), same, inputs.LONG_LINE), 6),
        Job(try_rows, ([("a line, then one of 1 GB", ["node"], 1, "fault: line 2")], same, "echo age 0; " + inputs.LONG_LINE), 2),
        Job(try_rows, ([("a version, then a line of 1 GB", ["audit"], 1, "fault: transcript line 2")], same, "echo hsr-bench 2; " + inputs.LONG_LINE), 2),
        Job(try_rows, (hurled("100,000 open brackets"), inputs.open_brackets), 2),
        Job(try_rows, (hurled("100,000 brackets that are closed"), inputs.brackets), 2),
        Job(try_rows, (hurled("500,000 keys", "fault: scenario top unknown"), inputs.keys), 8),
        Job(try_rows, (hurled("500,000 keys of a node", "fault: scenario node 0 missing role"), inputs.keys_of_a_node), 8),
        Job(try_rows, (hurled("a key of 100,000 parts"), inputs.dotted_key), 2),
    ]


def jobs_of_large_texts():
    counts = b"hsr-bench 2\ntable 512\nnodes 18446744073709551615\nquadbox\nquad\n"
    return [
        Job(try_rows, (both("16 MiB", 0, "certified 1") + [("16 MiB", ["certify"], 0, "certified 1 in any order")], inputs.padded, inputs.MIB_16), 4),
        Job(try_rows, (unread("16 MiB and one octet", NO_TEXT), inputs.padded, inputs.MIB_16 + 1), 2),
        Job(try_rows, (both("200,000 steps", 0, "certified 0") + [("200,000 steps", ["certify"], 2, "doubt empty")], inputs.many_steps), 8),
        Job(try_transcript, (), 4),
        Job(try_rows, (both("64 nodes, and 4096 copies on each link", 0, "certified 0"), ring(64, 4096).encode), 2),
        Job(try_rows, (unread("capacity 4097", "fault: scenario top bad-value capacity"), ring(64, 4097).encode), 1),
        Job(try_rows, ([("16 MiB and one octet of lines", ["node"], 0, NO_ANSWER)], inputs.lines, inputs.MIB_16 + 1), 4),
        Job(try_rows, ([("counts of 2^64 - 1", ["audit"], 1, "fault: transcript line 5")], same, counts), 1),
        Job(try_rows, ([("a storm", ["run", "--table", "small"], 1, "fault: step 5 unsettled")], storm(5).encode), 20),
    ]


def jobs_of_plans():
    large = "no network: over 64 nodes, each RedBox with its Station two of them"
    senders = "bad value of from: a name, or a list of 1 to 4096 names"
    sends = "more than 1048576 sends, supervision frames and events: an earlier until_us, or fewer streams"
    return [
        Job(try_rows, (planned("a ring of 50,000 names", f"1:1 {large}"), inputs.large_ring), 2),
        Job(try_rows, (planned("100,000 rings", f"1:2 {large}"), inputs.many_rings), 2),
        Job(try_rows, (planned("a million senders", f"5:1 {senders}"), inputs.many_senders, 1_000_000), 4),
        Job(try_rows, (planned("4096 senders of a million frames", f"4:3 {sends}"), inputs.many_senders, 4096), 2),
        Job(try_rows, (planned("2000 streams of a million frames", f"10:3 {sends}"), inputs.many_streams), 2),
        Job(try_rows, ([("200,000 streams", ["hsr_plan", "sweep"], 0, "budget crowded 0")], inputs.many_small_streams), 20),
    ]


def jobs_of_captures():
    lines, health = ["hsr_tap", "lines"], ["hsr_tap", "health"]
    judge = ["hsr_tap", "judge", "examples/captures/danh.toml"]
    all_of_them = [(lines, "lines"), (health, "health"), (judge, "judge")]
    large, many = "fault: capture 0 too-large", "fault: capture 16777240 packets"
    jobs = [
        Job(try_rows, ([("a million packets of 4 GB, all cut", lines, 0, "skipped 1048576")], inputs.cut_packets, 2**32 - 1), 3),
        Job(try_rows, ([("a million packets of 2 KB, all cut", lines, 1, "fault: memory")], inputs.cut_packets, 2000), 6),
        Job(try_rows, ([("a million packets that are cut", health, 2, "doubt empty packet - at - no tagged frame")], inputs.cut_packets, 60), 6),
        Job(try_rows, ([("1025 sources", health, 1, "fault: capture 0 sources")], inputs.many_sources, 1025), 2),
    ]
    for words, name in all_of_them:
        jobs += [
            Job(try_rows, ([(f"{name}: 10 MB of random octets", words, 1, "fault: capture 0 magic")], inputs.random_octets), 1),
            Job(try_rows, ([(f"{name}: 3 GB of zeros", words, 1, large)], same, inputs.ZEROS), 3),
            Job(try_rows, ([(f"{name}: 256 MiB", words, 1, "fault: capture 0 magic")], same, inputs.zeros(2**28)), 1),
            Job(try_rows, ([(f"{name}: 256 MiB and one octet", words, 1, large)], same, inputs.zeros(2**28 + 1)), 1),
            Job(try_rows, ([(f"{name}: a packet too many", words, 1, many)], inputs.cut_packets, 60, 2**20 + 1), 3),
            Job(try_rows, ([(f"{name}: a folder as input", words, 1, "fault: read")], same, str(ROOT)), 1),
        ]
    return jobs


def jobs(setting):
    folder = [("a folder as input", [command], 1, "fault: read") for command in ("node", "run", "threads", "audit", "certify", "picture")]
    return jobs_of_no_text() + jobs_of_large_texts() + jobs_of_plans() + jobs_to_show() + jobs_of_captures() + [Job(try_rows, (folder, same, str(ROOT)), 1)]
