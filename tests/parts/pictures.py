"""Draws runs of large networks, of long names, of lost copies, and of links and nodes that are down: each picture has an arrow for each
copy, no text lies on another or beyond its edge, it is at most so wide, links are shaded where the scenario of the run has them down, and
nodes have marks where they go off and come on."""
import re

from lib.case_files import ROOT
from lib.running import Job, Tally, run
from lib.scenarios import GROUP, ring
from lib.svg_texts import beyond, collisions, shades_of, size_of

WIDTH = 2400

# two rings that two QuadBoxes join, with a RedBox and its Station: 16 nodes; each ring loses a link, and then a node goes off
JOINED = """until_us = 4000000
moves = "{moves}"
{hop}[rings]
process = ["mu1", "mu2", "qb1", "prot1", "rb1", "mu3", "qb2"]
station = ["ied1", "qb1", "ied2", "ied3", "qb2", "gw", "ied4", "ied5", "ied6", "ied7"]
[redbox]
rb1 = ["cam1", "cam2"]
[[stream]]
from = ["mu1", "prot1"]
to = "01-0C-CD-04-00-01"
type = "goose"
size = 110
every_us = 1000000
start_us = 1000000
[[stream]]
from = "cam1"
to = "gw"
type = 0x88B5
every_us = 2000000
[[event]]
at_us = 2000000
cut = ["mu1", "mu2"]
[[event]]
at_us = 2000000
cut = ["ied2", "ied3"]
[[event]]
at_us = 3500000
off = "ied5"
"""


def short(node):
    return f"n{node}"


def long(node):
    return f"ied-of-bay-{node:02}-".ljust(32, "x")


def large(name):
    """A ring of 64, of which two send to all."""
    text = ring(64)
    for node in reversed(range(64)):
        text = text.replace(f'"n{node}"', f'"{name(node)}"').replace(f'"n{node}.', f'"{name(node)}.')
    sends = [f'{{do="send", node="{name(node)}", to="{GROUP}", type=0x88B5}}, {{do="drain"}}, {{do="clock", at=1500}},\n' for node in (5, 40)]
    return text + "step = [\n" + "".join(sends) + "]\n"


def try_picture(setting, name, scenario, *choice):
    """Draws one run."""
    tally, file = Tally(), setting.work / f"picture-{name}.toml"
    file.write_bytes(scenario)
    _, transcript, _ = run(setting, "hsr_bench", ["run", "--transcript"], scenario)
    status, picture, fault = run(setting, "hsr_view", ["picture", "--names", str(file), *choice], transcript)
    text = picture.decode()
    if status:
        tally.count(name, fault.decode())
        return tally
    width, found = size_of(text)[0], collisions(text)
    tally.count(f"width of {name}", f"{width}" if width > WIDTH else "")
    tally.count(f"texts of {name}", f"{found[0][0]} lies on {found[0][1]}, one of {len(found)}" if found else "")
    tally.count(f"edges of {name}", f"{beyond(text)[0]} runs out of it" if beyond(text) else "")
    return tally


def try_joined(setting, moves, since, until):
    """Draws a span of a run of joined rings."""
    hop = "hop_us = 10\n" if moves == "hops" else ""
    _, scenario, _ = run(setting, "hsr_plan", [], JOINED.format(moves=moves, hop=hop).encode())
    name = f"joined-{moves.replace(' ', '-')}-{since}"
    return try_picture(setting, name, scenario, "--from", str(since), "--until", str(until))


def draw(setting, name, transcript, scenario):
    """The picture of a transcript, with the names of a scenario."""
    file = setting.work / f"picture-{name}.toml"
    file.write_text(scenario)
    return run(setting, "hsr_view", ["picture", "--names", str(file)], transcript)[1].decode()


def without_changes(scenario):
    return "".join(line for line in scenario.splitlines(True) if not re.search('do="(cut|mend)"', line))


def try_downs(setting):
    """Draws a link that is down: by the scenario of the run, also where nothing mends it; and by others, which have another plan."""
    tally = Tally()
    scenario = (ROOT / "examples/scenarios/sampled_values.toml").read_text()
    unmended = scenario.replace('  {do="mend", link=0},\n', "")
    cut, mend = "cut 1 ms", "mend 1.500 ms"
    for name, ran, given, marks in (
        ("a-cut-and-a-mend", scenario, scenario, [cut, mend]),
        ("no-mend", unmended, unmended, [cut]),
        ("another-moment", scenario, scenario.replace('"clock", at=1500', '"clock", at=1501'), []),
        ("one-step-more", scenario, scenario.replace("step = [\n", 'step = [\n  {do="age", node="mu1"},\n'), []),
        ("no-change", scenario, without_changes(scenario), []),
    ):
        _, transcript, _ = run(setting, "hsr_bench", ["run", "--transcript"], ran.encode())
        picture = draw(setting, name, transcript, given)
        told = sorted(re.findall(r">((?:cut|mend) [\d.]+ m?s)</text>", picture))
        # one shade, and its sample in the legend
        shades = 2 if marks else 0
        tally.count(f"marks of {name}", f"{told}, and not {marks}" if told != marks else "")
        tally.count(f"shades of {name}", f"{len(shades_of(picture))}, and not {shades}" if len(shades_of(picture)) != shades else "")
        if not marks:
            plain = draw(setting, name, transcript, without_changes(scenario))
            tally.count(f"octets of {name}", "another picture than without cuts" if picture != plain else "")
    return tally


def try_offs(setting):
    """Draws a node that goes off: it has a mark on each of its lines where its last link goes down, and where one is up again."""
    tally = Tally()
    sent = [f'{{do="clock", at={at}}}, {{do="send", node="n0", to="{GROUP}", type=0x88B5}}, {{do="drain"}},' for at in (1, 3, 5)]
    cuts = '{do="cut", link=0}, {do="clock", at=2}, {do="cut", link=1},'
    mend = '{do="clock", at=4}, {do="mend", link=1}, {do="mend", link=0},'
    # the first node of a ring has two lines
    first = cuts.replace("link=1", "link=2")
    for name, changes, marks in (
        ("off-and-on", (cuts, mend), ["off 2 ms", "on 4 ms"]),
        ("off-for-good", (cuts, ""), ["off 2 ms"]),
        ("one-link-up", ('{do="cut", link=0},', ""), []),
        ("two-lines", (first, ""), ["off 2 ms", "off 2 ms"]),
    ):
        text = ring(3) + "step = [\n" + "\n".join((sent[0], changes[0], sent[1], changes[1], sent[2])) + "\n]\n"
        _, transcript, _ = run(setting, "hsr_bench", ["run", "--transcript"], text.encode())
        picture = draw(setting, name, transcript, text)
        told, found = sorted(re.findall(r">((?:off|on) [\d.]+ m?s)</text>", picture)), collisions(picture)
        tally.count(f"marks of {name}", f"{told}, and not {marks}" if told != marks else "")
        tally.count(f"texts of {name}", f"{found[0][0]} lies on {found[0][1]}" if found else "")
    return tally


def try_told(setting):
    """Draws a send that many nodes of long names missed: all of it can be read."""
    text = large(long).replace("step = [\n", 'step = [\n  {do="cut", link=10}, {do="cut", link=50},\n')
    return try_picture(setting, "missed", text.encode())


def jobs(setting):
    rings = [Job(try_picture, (f"ring-{name.__name__}", large(name).encode()), 2) for name in (short, long)]
    drained = [Job(try_joined, (f"each {what} drains", moment, moment)) for what in ("send", "moment") for moment in (1000000, 3000000)]
    spans = [(1000000, 1000400), (2000000, 2000030), (2000030, 2000090), (3000000, 3000300)]
    downs = [Job(try_downs, (), 2), Job(try_offs, (), 2), Job(try_told, (), 2)]
    return rings + drained + downs + [Job(try_joined, ("hops", *span)) for span in spans]
