"""Changes one octet, or one line, of lines for `node` and of a transcript, and compares what the program makes of each changed
text with what the grammar says: which line is bad, that the text ends early, that a run can't be done again or doesn't agree, or
just the run that the changed text tells, whose report model.py works out.

    python3 tests/by_hand/changed.py PROGRAM [EACH]

Only each EACH-th change (1: all) is tried, the rest is left out. The first difference is shown, and ends it.
"""
import re
import subprocess
import sys
from collections import Counter
from pathlib import Path

sys.path.insert(0, str(Path(__file__).resolve().parents[1] / "second"))
import model

NUMBER = r"(?:0|[1-9][0-9]*)"
UPPER = r"(?:-|(?:[0-9A-F]{2})+)"
LINES = (
    "send 0 02-00-00-00-00-02 0800 AABB\n"
    "send 7 01-00-5E-00-00-01 88fb - 0005\n"
    "life 8\n"
    "arrive 9 A 020000000001020000000002892F000800070800AABB\n"
    "age 410\n"
    "arrive 410 B 01005E000001020000000002892F0006FFFF0800\n"
)
RING = {
    "node": [{"name": f"n{i}", "role": "danh", "mac": f"02-00-00-00-00-0{i + 1}"} for i in range(3)],
    "link": [{"ends": [f"n{i}.B", f"n{(i + 1) % 3}.A"]} for i in range(3)],
    "step": [{"do": "send", "node": "n0", "to": "01-00-5E-00-00-01", "type": 0x0800, "payload": "AABB"}, {"do": "drain"}],
}


def is_number(word, bits=64):
    return re.fullmatch(NUMBER, word) is not None and int(word) < 2**bits


def is_moment(word, factor):
    """Whether a word is a moment of fewer than 2^64 microseconds, with `factor` of them in its unit."""
    return is_number(word) and int(word) * factor < 2**64


# ---- changes


def changes(text):
    """The text with one octet changed, left out or doubled, cut short, and with a line left out, doubled or moved up."""
    octets = text.encode()
    for place, octet in enumerate(octets):
        front, back = octets[:place], octets[place + 1 :]
        others = {octet ^ 1, octet ^ 32, (octet + 1) % 256, *b" -\n09Az", 0xFF} - {octet}
        yield from (front + bytes([other]) + back for other in sorted(others))
        yield from (front, front + back, front + bytes([octet]) + octets[place:])
    lines = octets.splitlines(keepends=True)
    for place, line in enumerate(lines):
        front, back = b"".join(lines[:place]), b"".join(lines[place + 1 :])
        yield from (front + back, front + line + line + back)
        if place:
            yield b"".join(lines[: place - 1]) + line + lines[place - 1] + back
    yield octets + b"\n"
    yield octets + b"end"


# ---- lines of `node`


def is_line(line):
    """Whether a line is in form."""
    words = line.split(" ")
    mac, four, octets = r"[0-9A-Fa-f]{2}(-[0-9A-Fa-f]{2}){5}", r"[0-9A-Fa-f]{4}", r"-|([0-9A-Fa-f]{2})+"
    forms = {"send": [mac, four, octets, four], "arrive": ["[AB]", octets], "life": [], "age": []}
    if not line.isascii() or len(words) < 2 or words[0] not in forms or not is_moment(words[1], 1000):
        return False
    wanted, said = forms[words[0]], words[2:]
    lengths = (len(wanted), len(wanted) - (words[0] == "send"))
    return len(said) in lengths and all(re.fullmatch(form, word) for form, word in zip(wanted, said))


def node_answer(octets):
    lines = octets.decode("latin-1").split("\n")
    if lines[-1] == "":
        lines.pop()
    bad = next((place for place, line in enumerate(lines) if not is_line(line)), None)
    node = model.Node(0, RING["node"][0], 512)
    printed = [answer for line in lines[:bad] for answer in model.answered(node, line, "ms")]
    if bad is None:
        return 0, model.text(printed + [node.counters()]), ""
    return 1, model.text(printed), f"fault: line {bad + 1}\n"


# ---- transcripts of rings of DANHs


class Fault(Exception):
    """What follows `fault:`."""


class Lines:
    """The lines of a text, one after the other."""

    def __init__(self, octets):
        self.lines = octets.decode("latin-1").split("\n")
        self.rest = self.lines.pop()
        self.number = 0

    def bad(self):
        return Fault(f"transcript line {self.number}")

    def next(self):
        if self.number == len(self.lines):
            raise Fault("transcript end")
        self.number += 1
        return self.lines[self.number - 1]

    def match(self, form):
        found = re.fullmatch(form, self.next())
        if not found:
            raise self.bad()
        return found.groups()

    def count(self, word):
        (said,) = self.match(rf"{word} (\S+)")
        if not is_number(said):
            raise self.bad()
        return int(said)


def port_of(said, count, lines):
    number, port = said
    if not is_number(number) or int(number) >= count:
        raise lines.bad()
    return int(number), port


def entry(lines, factor):
    """A record's entry: the worker, the moment in microseconds, the event as words, and the outcome."""
    probe, ports = rf"({NUMBER}):({NUMBER})", r"(?: A)?(?: B)?"
    mac = r"[0-9A-F]{2}(?:-[0-9A-F]{2}){5}"
    events = [rf"send {NUMBER} {mac} (?:-|[0-9A-F]{{4}}) [0-9A-F]{{4}} {UPPER}", "life own", f"life {mac}", rf"arrive [AB] {probe} {UPPER}", "age"]
    cause = "(?:passed|duplicate|returned|foreign|local|untagged|tagged|malformed-[1-6])"
    outcomes = [rf"sent (?:-|({NUMBER})){ports}", rf"life ({NUMBER}) ({NUMBER}){ports}", rf"judged {cause} (?:-|({NUMBER}))(?: up)?{ports}", "aged"]
    worker, at, event, outcome = lines.match(r"(\S+) (\S+) (.*) = (.*)")
    found = next(filter(None, (re.fullmatch(form, event) for form in events)), None)
    answer = next(filter(None, (re.fullmatch(form, outcome) for form in outcomes)), None)
    if not (found and answer and is_number(worker, 16) and is_moment(at, factor)):
        raise lines.bad()
    small = [(number, 64) for number in found.groups() if number] + [(number, 16) for number in answer.groups() if number]
    words = event.split(" ")
    small += [(words[1], 8)] if words[0] == "send" else []
    if not all(is_number(number, bits) for number, bits in small):
        raise lines.bad()
    return int(worker), int(at) * factor, words, outcome, lines.number


def row(lines):
    dir, number, place, octets, fate = lines.match(rf"(forth|back) ({NUMBER}):({NUMBER}) ({UPPER}) (taken|down|cut|overrun)")
    if not (is_number(number) and is_number(place)):
        raise lines.bad()
    return ["forth", "back"].index(dir), (int(number), int(place)), octets, fate


def sections(lines):
    """All that the text tells, in form."""
    factor = {"hsr-bench 1": 1000, "hsr-bench 2": 1}.get(lines.next())
    if factor is None:
        raise Fault("transcript version")
    lines.match("table 512")
    nodes = [lines.match(r"danh ([0-9A-F]{2}(?:-[0-9A-F]{2}){5}) ([HN])") for _ in range(lines.count("nodes"))]
    links = []
    for _ in range(lines.count("links")):
        said = lines.match(r"(\S+)\.([AB]) (\S+)\.([AB])")
        links.append((port_of(said[:2], len(nodes), lines), port_of(said[2:], len(nodes), lines)))
    wired = lines.number
    main = []
    order = lines.number + 1
    for _ in range(lines.count("main")):
        (said,) = lines.match(r"(\S+)")
        if not is_number(said):
            raise lines.bad()
        main.append(int(said))
    records = [[entry(lines, factor) for _ in range(lines.count("record"))] for _ in nodes]
    rows = [[row(lines) for _ in range(lines.count("carried"))] for _ in links]
    lines.match("end")
    if lines.number < len(lines.lines) or lines.rest:
        raise Fault(f"transcript line {lines.number + 1}")
    return nodes, links, wired, main, order, records, rows


def done_again(node, entry):
    """The outcome of an entry's event, or nothing where it is refused."""
    _, at, words, _, _ = entry
    try:
        if words[0] == "send":
            vlan = None if words[3] == "-" else int(words[3], 16)
            return node.send(at, int(words[1]), model.address(words[2]), vlan, int(words[4], 16), spelled(words[5]))
        if words[0] == "life":
            return node.life(at, None if words[1] == "own" else model.address(words[1]))
        if words[0] == "age":
            return node.age(at)
        return node.judge(at, words[1], spelled(words[3]), words[2])
    except model.Refused:
        return None


def spelled(word):
    return b"" if word == "-" else bytes.fromhex(word)


def replayed(world, records):
    """Does the records again; what each port passed, and what came to it, as copies with the sends that they name."""
    passed, came = Counter(), Counter()
    for number, record in enumerate(records):
        node = world.nodes[number]
        for place, said in enumerate(record):
            words = said[2]
            # a send is named as the model names it
            probe = (number, place) if words[0] != "arrive" else tuple(int(part) for part in words[2].split(":"))
            if words[0] == "arrive":
                said = (*said[:2], [*words[:2], probe, words[3]], *said[3:])
            answer = done_again(node, said)
            if answer is None or answer.outcome != said[3]:
                raise Fault(f"transcript line {said[4]}")
            node.record.append(said)
            if words[0] == "arrive":
                came[number, words[1], probe, words[3]] += 1
            for port, octets in answer.copies.items():
                passed[number, port, probe, model.hexadecimal(octets)] += 1
    return passed, came


def of_end(copies, end):
    return Counter({key[2:]: count for key, count in copies.items() if key[:2] == end})


def agree(links, rows, passed, came):
    """That what was put is what was passed, and what was taken what came: else the number of the cause."""
    for cause, side, copies in ((1, 0, passed), (2, 1, came)):
        for (forth, back), carried in zip(links, rows):
            for dir, ends in enumerate([(forth, back), (back, forth)]):
                told = Counter(said[1:3] for said in carried if said[0] == dir and (cause == 1 or said[3] == "taken"))
                if told != of_end(copies, ends[side]):
                    raise Fault(f"check {cause}")


def audit_answer(octets):
    try:
        nodes, links, wired, main, order, records, rows = sections(Lines(octets))
        ends = [end for link in links for end in link]
        if len(set(ends)) < len(ends) or any(model.is_group(model.address(mac)) for mac, _ in nodes):
            raise Fault(f"transcript line {wired}")
        own = Counter(number for number, record in enumerate(records) for said in record if said[0] == 0)
        if Counter(main) != own:
            raise Fault(f"transcript line {order}")
        said = [{"name": f"n{i}", "role": "danh", "mac": mac, "mode": mode} for i, (mac, mode) in enumerate(nodes)]
        world = model.World({"node": said, "link": [{"ends": [f"n{node}.{port}" for node, port in link]} for link in links]}, 512)
        passed, came = replayed(world, records)
        if any((number, port) not in ends for number, port, _, _ in came):
            raise Fault("check 6")
        agree(links, rows, passed, came)
        for link, carried in zip(world.links, rows):
            link.rows = [model.Row(dir, probe, spelled(octets), fate) for dir, probe, octets, fate in carried]
        report = world.report()
        return 0 if "\ncertified" in report else 2, report, ""
    except Fault as fault:
        return 1, "", f"fault: {fault}\n"


# ---- comparing


def expect(program, word, given, expected):
    done = subprocess.run([program, word], input=given, capture_output=True, timeout=120)
    got = done.returncode, done.stdout.decode(), done.stderr.decode()
    if got == expected:
        return
    print(f"{word}\n--- input\n{given!r}")
    for name, (status, printed, fault) in (("the program", got), ("the grammar", expected)):
        print(f"--- {name}: status {status}\n{printed}{fault}")
    sys.exit(1)


def main():
    program, each = sys.argv[1], int((sys.argv[2:] or ["1"])[0])
    world = model.run(RING, 512, 1000)[3]
    passed = 0
    for word, text, answer in (
        ("node", LINES, node_answer),
        ("audit", world.transcript("ms"), audit_answer),
        ("audit", world.transcript("us"), audit_answer),
    ):
        told = Counter()
        for number, given in enumerate([text.encode(), *changes(text)]):
            if number % each == 0:
                expected = answer(given)
                expect(program, word, given, expected)
                told[re.sub(r"line \d+", "line", expected[2]).strip() or f"status {expected[0]}"] += 1
        passed += sum(told.values())
        print(f"{word}: " + ", ".join(f"{many} {how}" for how, many in told.most_common()))
    print(f"{passed} passed, 0 failed")


main()
