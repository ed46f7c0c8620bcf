"""Reads what `hsr_plan report` writes of plans: its policy lets the page's own script run alone, each number of its data is the one that a command
prints of that plan, its tables show these numbers and lines, the sum is that of the plan's text, and no text breaks out of its place."""
import hashlib
import json
import re

from lib.case_files import ROOT
from lib.transcripts import Run
from lib.running import Job, Tally, run
from parts.pages import HOSTILE, policy_of, read

PLANS = ROOT / "examples" / "plans"
COUNTS = re.compile(r"^(.*?)(?: off)?:? ?sends (\d+) complete (\d+) missed (\d+) twice (\d+) needed (\d+) budget (.+?) latency (\d+)(?: over \d+)? load (\d+)(?: over \d+)? (.*)$")
LOAD = re.compile(r"load (\S+)\.(.) (\S+)\.(.) frames (\d+) octets (\d+) mean (\d+) worst-ms (\d+) at (\d+)")
LATENCY = re.compile(r"latency (\S+) frames (\d+) worst (\d+) at (\S+)(?: second (\d+) at (\S+))?")
OUTAGE = re.compile(r"^(.*) off: cut-off (\d+) of (\d+): (.*)$")
MOST_BARS, MOST_ROWS = 24, 26


def rows(data, key):
    """A list of the data, without what ends it."""
    assert data[key][-1] == 0, key
    return data[key][:-1]


def lines_of(setting, words, plan):
    status, out, fault = run(setting, "hsr_plan", words, plan)
    return status, out.decode().splitlines(), fault


def sweep_of(setting, words, plan):
    """The status of a sweep, and what its lines say: what is off, numbers as the data has them, the budget, and what was found."""
    status, lines, _ = lines_of(setting, ["sweep", *words], plan)
    found = [match.groups() for match in map(COUNTS.match, lines) if match]
    return status, [(off, [int(n) for n in (sends, complete, missed, twice, needed, latency, load)], budget, told)
                    for off, sends, complete, missed, twice, needed, budget, latency, load, told in found]


def without_events(plan):
    """The plan's text up to its first event; events stand last in these plans."""
    return plan.split(b"[[event]]")[0]


def numbers_of(data, report, names):
    """What is wrong with the numbers of the run: they are those of its report by names."""
    loads = [[names.index(a), names.index(b), *map(int, rest)] for a, _, b, _, *rest in (match.groups() for match in map(LOAD.match, report) if match)]
    told = [[a, b, *rest] for a, _, b, _, *rest in rows(data, "loads")]
    if told != loads:
        return f"loads: {told[:1]}, and not {loads[:1]}"
    latencies = [[names.index(node), int(frames), int(worst)] for node, frames, worst, *_ in (match.groups() for match in map(LATENCY.match, report) if match)]
    if [row[:3] for row in rows(data, "latency")] != latencies:
        return f"latencies: {rows(data, 'latency')[:2]}, and not {latencies[:2]}"
    words = {line.split(" ")[0]: line.split(" ") for line in report}
    tally = data["tally"][0]
    wanted = [int(words["needed"][1]), max([row[2] for row in latencies] or [0]), max([row[-2] for row in loads] or [0])]
    return "" if tally[2:] == wanted and data["budget"] == " ".join(words["budget"][1:]) and data["run"] == report[-1] else f"tally {tally}, and not {wanted}; {data['run']}"


def sweeps_of(data, page, own, bare):
    """What is wrong with the sweeps: their numbers are those of `hsr_plan sweep`, and each line that is to be shown has its row."""
    for key, wanted in (("cases", own), ("bare_cases", bare)):
        if rows(data, key) != [numbers for _, numbers, _, _ in wanted]:
            return f"{key}: {rows(data, key)[:2]}, and not {[numbers for _, numbers, _, _ in wanted][:2]}"
    shown = [text for _, text in page.of("tr")]
    for off, numbers, budget, told in own + bare:
        is_few = len(own) <= MOST_ROWS + 1
        if (is_few or numbers[0] != numbers[1] or off == "undisturbed") and not any(text.startswith(off) and text.endswith(told) for text in shown):
            return f"{off} isn't shown with {told}"
    if own and data["tally"][0][:2] != own[-1][1][:2]:
        return f"{data['tally'][0][:2]} sends, and not {own[-1][1][:2]}"
    return ""


def stream_names(plan):
    """The names of a plan's streams, given or by their kinds."""
    names, many = [], {}
    for block in plan.decode().split("[[stream]]")[1:]:
        keys = dict(re.findall(r'^(\w+) = "?([^"\n]*)"?', block.split("\n[[")[0], re.MULTILINE))
        kind = keys["type"] if keys["type"] in ("goose", "sv") else "other"
        many[kind] = many.get(kind, 0) + 1
        names.append(keys.get("name", f"{kind}{many[kind]}"))
    return names


def off_in(plan):
    """When which node is off in a plan: lists of name, from and to."""
    spans, since = [], {}
    for at, deed, name in re.findall(r'at_us = (\d+)\n(off|on) = "([^"]*)"', plan.decode()):
        if deed == "off":
            since[name] = int(at)
        else:
            spans.append((name, since.pop(name), int(at)))
    return spans + [(name, at, 1 << 64) for name, at in since.items()]


def streams_by_send(run, scenario, names):
    """The stream of each send of a run, as the scenario of the plan says them; supervision is of None."""
    sent, found = {node: [] for node in range(len(names))}, {}
    for node, rest in re.findall(r'^  \{do="(?:send|life)", node="([^"]*)"(.*)$', scenario, re.MULTILINE):
        stream = re.search(r', stream="([^"]*)"', rest)
        sent[names.index(node)].append(stream[1] if stream else None)
    for node, place in sorted(run.entries):
        if run.entries[node, place]["kind"] in ("send", "life"):
            found[node, place] = sent[node].pop(0)
    assert not any(sent.values())
    return found


def longest_of(transcript, scenario, names):
    """How long the slowest send of each stream took to a node that took it up."""
    run, longest = Run(transcript), {}
    streams = streams_by_send(run, scenario, names)
    for entry in run.entries.values():
        if entry["kind"] == "arrive" and entry["up"]:
            stream = streams[entry["send"]]
            longest[stream] = max(longest.get(stream, 0), entry["at"] - run.entries[entry["send"]]["at"])
    return longest


def missing_of(report, plan, names):
    """Which nodes missed a send of each stream while they were on, by the lines of deliveries; for plans in which each stream is for all."""
    missing = {}
    for send, at, missed in re.findall(r"^send (\S+) at (\d+) .* missed (\S+) twice ", "\n".join(report), re.MULTILINE):
        stream = send.split("/")[1] if "/" in send else None
        off = [name for name, since, until in off_in(plan) if since <= int(at) < until]
        missing.setdefault(stream, set()).update(names.index(node) for node in missed.split(",") if node != "-" and node not in off)
    return missing


def streams_of(data, page, own, longest, missing, named):
    """What is wrong with the streams: together they have the sends of the undisturbed run, each its longest and who missed it, and the numbers of
    each stand in its row."""
    found = rows(data, "streams")
    for (_, _, longest_told, missing_told), name in zip(found, [*named, None]):
        if (longest_told, missing_told) != ([longest[name]] if name in longest else [], sorted(missing.get(name, ()))):
            return f"{name}: longest {longest_told}, missed by {missing_told}, and not {longest.get(name)}, {missing.get(name)}"
    if own and [sum(row[k] for row in found) for k in (0, 1)] != own[-1][1][:2]:
        return f"sends and complete of streams {found}, and not {own[-1][1][:2]} in all"
    shown = [text for _, text in page.of("tr") if "µs" in text or "ms" in text]
    for sends, complete, _, _ in found:
        wanted = "✓ all" if sends == complete else f"✗ {complete} of {sends}"
        if not any(f"{sends}" in text.replace("\u202f", "") and wanted in text.replace("\u202f", "") for text in shown):
            return f"no row with {sends} and {wanted}"
    return ""


def cut_from(cuts, names):
    """How many sends are cut off from each node, by the words of a line: `19 of prot1 from bcu1,bcu2; 3 of ..`."""
    counts = [0] * len(names)
    for sends, nodes in re.findall(r"(\d+) of \S+ from ([^;]+)", cuts):
        for node in nodes.split(","):
            counts[names.index(node.strip())] += int(sends)
    return counts


def outages_of(data, page, told, names):
    """What is wrong with what faults cut off: the lines of `hsr_plan certify --sweep`, where the plan without its events is certified."""
    if not told or not told[0].startswith("certified "):
        return ""
    cutting = [match.groups() for match in map(OUTAGE.match, told) if match]
    found = [row for row in rows(data, "outages") if row[0]]
    if found != [[int(sends), cut_from(cuts, names)] for _, sends, _, cuts in cutting]:
        return f"cut off {found[:4]}, and not {cutting[:2]}"
    shown = [text for _, text in page.of("tr")]
    for off, _, _, cuts in cutting:
        if not any(text.startswith(off) and text.endswith(cuts.replace(",", ", ")) for text in shown):
            return f"{off} isn't shown with {cuts}"
    return ""


def body_of(page, data, plan, names, date):
    """What is wrong with what is seen: title, date and sum, both verdicts, each device, and each node and link once in both drawings."""
    sum = hashlib.sha256(plan).hexdigest()
    facts = page.of("p", **{"class": "facts"})[0][1]
    if data["sum"] != sum or not facts.startswith(date) or not facts.endswith(sum[:16]) or not any(text == sum for _, text in page.of("td", **{"class": "sum"})):
        return f"another sum or date: {facts}"
    if not all(any(text.strip("✓! ") == line for tag in ("b", "div") for _, text in page.of(tag)) for line in (data["any_order"], data["run"])):
        return "a verdict isn't shown"
    if [text.split(" ")[0] for _, text in page.of("li") if text.split(" ")[0] in names][: len(names)] != names:
        return "other devices"
    told = sorted(int(attrs["data-node"]) for attrs, _ in page.of("g") if "data-node" in attrs)
    if told != sorted(2 * list(range(len(names)))):
        return f"nodes {told}"
    bars = [attrs for attrs, _ in page.of("rect") if attrs.get("class") == "peak"]
    return "" if len(bars) == min(MOST_BARS, len(rows(data, "loads"))) else f"{len(bars)} bars"


def try_plan(setting, name, plan):
    """Reads the page of one plan, whose texts have no hostile octets but its title and its date."""
    tally = Tally()
    status, octets, fault = run(setting, "hsr_plan", ["report", "--date", HOSTILE], plan)
    if status not in (0, 2):
        tally.count(name, fault.decode())
        return tally
    page = read(octets)
    data = json.loads(page.of("script", id="data")[0][1])
    _, scenario, _ = run(setting, "hsr_plan", [], plan)
    names = re.findall(r'^  \{name="([^"]*)", role=', scenario.decode(), re.MULTILINE)
    _, report, _ = lines_of(setting, ["run", "--names", "--network", "--load", "--latency", "--deliveries", "--needed", "--budget"], plan)
    certified, told, _ = lines_of(setting, ["certify"], plan)
    has_events = b"[[event]]" in plan
    swept, own = sweep_of(setting, [], plan)
    alone, bare = sweep_of(setting, ["--without-events"], plan)
    _, outages, _ = lines_of(setting, ["certify", "--sweep"], without_events(plan))
    tally.count(f"policy of {name}", policy_of(page))
    tally.count(f"numbers of {name}", numbers_of(data, report, names))
    tally.count(f"any order of {name}", "" if data["any_order"] == told[0] else data["any_order"])
    tally.count(f"sweeps of {name}", sweeps_of(data, page, own, bare if has_events else []))
    _, transcript, _ = run(setting, "hsr_plan", ["run", "--transcript"], plan)
    longest, missing = longest_of(transcript.decode(), scenario.decode(), names), missing_of(report, plan, names)
    tally.count(f"streams of {name}", streams_of(data, page, own, longest, missing, stream_names(plan)))
    tally.count(f"outages of {name}", outages_of(data, page, outages, names))
    tally.count(f"what is seen of {name}", body_of(page, data, plan, names, HOSTILE))
    wanted = 2 if certified or not report[-1].startswith("certified ") or alone else 0
    tally.count(f"status of {name}", "" if status == wanted else f"{status}, and not {wanted}")
    return tally


# One QuadBox alone joins both rings, so that something is cut off where it is off.
ONE_QUADBOX = b"""life_ms = 0
until_us = 5000

[rings]
r1 = ["a", "b", "qb"]
r2 = ["c", "d", "qb"]

[[stream]]
from = "a"
to = "01-0C-CD-01-00-01"
type = "goose"
size = 160
start_us = 10
every_us = 1000

[[stream]]
from = "c"
to = "b"
type = 0x88B5
size = 60
start_us = 20
every_us = 2000
"""


def hostile():
    """A plan whose title would break out of its place."""
    title = json.dumps(HOSTILE)
    return f'title = {title}\nring = ["a", "b", "c"]\nuntil_us = 3000\n\n[[stream]]\nfrom = "a"\nto = "01-0C-CD-01-00-01"\ntype = "goose"\nsize = 140\nstart_us = 10\nevery_us = 1000\ncount = 3\n'.encode()


def try_hostile(setting):
    tally = Tally()
    _, octets, _ = run(setting, "hsr_plan", ["report"], hostile())
    page = read(octets)
    tally.count("hostile title", "" if page.of("h1")[0][1] == HOSTILE and page.of("title")[0][1] == HOSTILE else page.of("h1")[0][1])
    tally.count("policy of a hostile title", policy_of(page))
    for text, fault in ((b"ring = 3", b"fault: plan 1:1 another kind of value for ring"), (b"\xff", b"fault: plan 1:1 no UTF-8")):
        status, octets, told = run(setting, "hsr_plan", ["report"], text)
        tally.count(f"no page of {text}", "" if status == 1 and not octets and told.startswith(fault) else told.decode())
    return tally


def jobs(setting):
    plans = [(path.stem, path.read_bytes()) for path in sorted(PLANS.glob("*.toml"))]
    return [Job(try_plan, one, 20) for one in [*plans, ("one_quadbox", ONE_QUADBOX)]] + [Job(try_hostile, (), 2)]
