"""Runs random scenarios by `threads --transcript`, audits each text by `audit`, and compares what no order of threads changes. Of those that
any_order.py certifies in any order, threads are to be certified.

    python3 tests/second/by_threads.py PROGRAM [COUNT [SEED]]

COUNT (300) scenarios, from SEED (1) on, by the generator of compare.py, without its puts, takes and judgements. In half of them, and in
all with small tables, each step is drained before the next one: then the counts of every node and link, the fault and the kind of the
doubt have to be those of `run`. In the others each node has sent as often as the scenario says. In all of them each copy that was put was
taken or lost, each arrival was judged by the worker of its port, each node's ager aged it at the last clock, and `audit` of the text has
the status of `threads`, and prints the report that tells of the text, with the lines of load and latency that the text tells. Where
any_order.py certifies a scenario with a drain behind it, `threads --network` certifies all its sends; so it is with as many scenarios of
random_plays.py. A run that hasn't ended after a minute is a failure. Each failure is shown; the last line says how many scenarios passed, and
the status is 0 if all did.
"""
import random
import subprocess
import sys
from collections import Counter
from itertools import accumulate

import any_order
import compare
import model
import random_plays

SECONDS = 60
PORTS = {"A": 0, "B": 1, "C": 2, "D": 3, "I": 2, "P": 0}  # by their letters
LIVELY = ("send", "life", "inject")  # steps that bring copies about


class Differs(Exception):
    pass


def bench(program, words, given):
    try:
        done = subprocess.run([program, *words], input=given, capture_output=True, text=True, timeout=SECONDS)
    except subprocess.TimeoutExpired:
        raise Differs(f"{' '.join(words)}: no end after {SECONDS} s") from None
    return done.returncode, done.stdout, done.stderr


def expect(what, got, wanted):
    if got != wanted:
        raise Differs(f"{what}: {got!r}, and not {wanted!r}")


def drained(steps):
    """The same steps, each that brings copies about with a drain behind it."""
    return [one for step in steps for one in ([step, {"do": "drain"}] if step["do"] in LIVELY else [step])]


def counts(report):
    """The report without its last line, and the kind of what was found there."""
    *lines, found = report.splitlines()
    return lines, found.split()[:2]


def own_sends(made):
    """How often each node sends and tells of itself."""
    sent = Counter((step["do"], step["node"]) for step in made["step"] if step["do"] in ("send", "life"))
    return [(sent["send", node["name"]], sent["life", node["name"]]) for node in made["node"]]


def look_at(made, report):
    """What holds of a report whatever came first."""
    lines = [line.split() for line in report.splitlines()]
    said = [dict(zip(line[3::2], map(int, line[4::2]))) for line in lines if line[0] == "node"]
    expect("sends", [(one["sent"], one["life"]) for one in said], own_sends(made))
    for _, number, _, put, _, taken, _, lost in (line for line in lines if line[0] == "link"):
        expect(f"link {number}: copies put", int(put), int(taken) + int(lost))


def last_clock(made):
    """The moment of the last clock step, in microseconds."""
    moments = [step["at"] for step in made["step"] if step["do"] == "clock"]
    return (moments or [0])[-1] * model.MICROSECONDS[made.get("unit", "ms")]


def look_at_record(made, node, lines):
    """Each arrival was judged by the worker of its port; the ager aged, at the last clock too; the main worker did the steps."""
    own, aged = Counter(), []
    for worker, at, done, *rest in lines:
        if done == "arrive":
            expect(f"worker of an arrival at {node} {rest[0]}", int(worker), 1 + 8 * node + PORTS[rest[0]])
        elif done == "age" and worker != "0":
            expect(f"ager of {node}", int(worker), 8 + 8 * node)
            aged.append(int(at))
        else:
            expect(f"worker of a step at {node}", worker, "0")
            own[done] += 1
    expect(f"last moment at which {node} was aged", (aged or [0])[-1], last_clock(made))
    told = Counter(step["do"] for step in made["step"] if step.get("node") == made["node"][node]["name"])
    expect(f"ages of {node} that were steps", own["age"], told["age"])


def look_at_workers(made, text):
    """What each record says of who did it."""
    records = []
    for line in text.splitlines():
        word, *rest = line.split()
        if word == "record":
            records.append([])
        elif word == "carried":
            break
        elif records:
            records[-1].append([word, *rest])
    for node, lines in enumerate(records):
        look_at_record(made, node, lines)


def send_of(word):
    """A send, as a transcript names it."""
    return tuple(map(int, word.split(":")))


def load_and_latency(text):
    """The lines of load and latency, told of a transcript's records and rows alone."""
    records, links, rows, said = [], [], [], None
    for line in text.splitlines():
        word, *rest = line.split()
        said = {"links": links, "main": None, "record": records, "carried": rows}.get(word, said)
        if word in ("record", "carried"):
            said.append([])
        elif said is links and word != "links":
            links.append([(int(end.split(".")[0]), end.split(".")[1]) for end in (word, *rest)])
        elif said and word not in ("links", "main", "end"):
            said[-1].append([word, *rest])
    moments = [list(accumulate((int(entry[1]) for entry in record), max)) for record in records]
    came, passed = [], {}
    for number, record in enumerate(records):
        came.append([])
        for place, (_, _, done, *rest) in enumerate(record):
            outcome = rest[rest.index("=") + 1 :]
            send = send_of(rest[1]) if done == "arrive" else (number, place)
            if done == "arrive":
                came[-1].append((place, send, "up" in outcome))
            for port in outcome[1:] if done != "age" else []:
                if port in PORTS:
                    # From ring to ring a copy leaves as it came, so a later one of the send may have another path. Others are alike.
                    octets = rest[2] if done == "arrive" and not {rest[0], port} & {"I", "P"} else None
                    passed.setdefault((number, port, send), []).append((octets, moments[number][place]))
    channels = []
    for ends, carried in zip(links, rows):
        for dir, start in zip(("forth", "back"), ends):
            copies, put = [], Counter()
            for row_dir, send, octets, fate in carried:
                if row_dir == dir:
                    equal = [moment for passing, moment in passed[(*start, send_of(send))] if passing in (None, octets)]
                    moment = equal[put[send, octets]]
                    put[send, octets] += 1
                    if fate in ("taken", "cut"):
                        frame = bytes.fromhex(octets)
                        copies.append((moment, max(60 if model.read(frame).seq is None else 66, len(frame)) + 24))
            channels.append((start, ends[dir == "forth"], copies))
    return model.load_lines(channels) + model.latency_lines(came, moments)


def look_at_order(program, made, table):
    """Whether a scenario is certified in any order, with a drain behind it. Then threads have to be certified by the audit of networks."""
    made = {**made, "step": [*made["step"], {"do": "drain"}]}
    line = any_order.certify(made, table)
    if any_order.is_certified(line):
        flags, wanted = ["--network", "--deliveries", "--table", str(table)], line.removesuffix(" in any order")
        status, text, fault = bench(program, ["threads", "--transcript", *flags], compare.document(made))
        expect("threads of a scenario that is certified in any order", (status, fault), (0, ""))
        look_at_workers(made, text)
        status, report, fault = bench(program, ["audit", *flags], text)
        expect("audit of what is certified in any order", (status, report.splitlines()[-1:], fault), (0, [wanted], ""))
        told = [text for text in report.splitlines() if text.split()[0] in ("send", "deliveries")]
        expect("deliveries of what is certified in any order", told, ["deliveries {0} complete {0}".format(wanted.split()[1])])
    return any_order.is_certified(line)


def try_order(program, seed):
    """What became of a scenario that is mostly certified in any order, in some words."""
    made, table, _ = random_plays.scenario(random.Random(seed), is_timed=False)
    try:
        return "in any order: " + ("certified" if look_at_order(program, made, table) else "left out")
    except Differs as difference:
        print(f"seed {seed}, in any order: {difference}\n--- input, table {table}\n{compare.document(made)}", flush=True)
        return "FAILED"


def try_one(program, seed):
    """What became of a scenario, in a word or two."""
    chance = random.Random(seed)
    capacity = chance.choice([4, 512])
    table = ["--table", "small" if capacity == 4 else "large"]
    is_drained = capacity == 4 or chance.random() < 0.5
    try:
        made = compare.scenario(chance, capacity, by_hand=False)
        made["step"] = drained(made["step"]) if is_drained else made["step"]
        model.run(made, capacity, compare.DRAIN_LIMIT)
    except model.Unsettled:
        return "left out"
    given = compare.document(made)
    try:
        status, text, fault = bench(program, ["threads", "--transcript", *table], given)
        ran_status, ran, ran_fault = bench(program, ["run", *table], given)
        if status == 1:
            expect("printed beside a fault", text, "")
            expect("lines of the fault", fault.count("\n"), 1)
            if is_drained:
                expect("fault", fault, ran_fault)
            return "fault: " + " ".join("step .." if word == "step" else word for word in fault.split()[1:] if not word.isdigit())
        look_at_workers(made, text)
        audit_status, report, audit_fault = bench(program, ["audit", *table], text)
        expect("status of the audit", (audit_status, audit_fault), (status, ""))
        more = bench(program, ["audit", "--load", "--latency", *table], text)[1]
        expect("load and latency", [line for line in more.splitlines() if line.split()[0] in ("load", "latency")], load_and_latency(text))
        look_at(made, report)
        if is_drained:
            expect("status of the run", ran_status, status)
            expect("report", counts(report), counts(ran))
        look_at_order(program, made, capacity)
        return " ".join(counts(report)[1][: 1 if status == 0 else 2])
    except Differs as difference:
        print(f"seed {seed}: {difference}\n--- input\n{given}", flush=True)
        return "FAILED"


def main():
    program, count, first = sys.argv[1], *(int(word) for word in (sys.argv[2:] + ["300", "1"][len(sys.argv) - 2 :]))
    seen = Counter(tried(program, seed) for seed in range(first, first + count) for tried in (try_one, try_order))
    print(", ".join(f"{how}: {many}" for how, many in sorted(seen.items())))
    print(f"{2 * count - seen['FAILED']} passed, {seen['FAILED']} failed")
    sys.exit(seen["FAILED"] > 0)


if __name__ == "__main__":
    main()
