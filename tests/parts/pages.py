"""Reads what `hsr_view page` writes of runs: its policy lets the page's own script run alone, its data is the run's by a second reading of the
transcript, its list and its report are those of `hsr_bench audit`, and no text breaks out of its place."""
import base64
import hashlib
import json
import re
from html.parser import HTMLParser

from lib.case_files import ROOT
from lib.running import Job, Tally, run
from lib.scenarios import GROUP, ring

HOSTILE = "</script><script>alert(1)</script><img src=x onerror=alert(1)> \"quoted\" 'so' &lt; &#60; </title>"
SPOT = re.compile(r"(\d+):(\d+)")
MOST = 200  # lines of sends that aren't complete


class Read(HTMLParser):
    """A page as it is read: elements with their attributes, and the texts of some of them."""

    def __init__(self):
        super().__init__()
        self.tags, self.texts, self.open = [], [], []

    def handle_starttag(self, tag, attrs):
        self.tags.append((tag, dict(attrs)))
        self.texts.append("")
        if tag not in ("meta", "input", "img", "br", "link"):
            self.open.append(len(self.tags) - 1)

    def handle_startendtag(self, tag, attrs):
        self.tags.append((tag, dict(attrs)))
        self.texts.append("")

    def handle_endtag(self, tag):
        while self.open and self.tags[self.open.pop()][0] != tag:
            pass

    def handle_data(self, data):
        for at in self.open:
            self.texts[at] += data

    def of(self, tag, **wanted):
        """The attributes and texts of the elements of a kind that have these."""
        return [(attrs, text) for (name, attrs), text in zip(self.tags, self.texts) if name == tag and all(attrs.get(k) == v for k, v in wanted.items())]


def read(octets):
    page = Read()
    page.feed(octets.decode())
    page.close()
    return page


# ---- a transcript, read a second time


def sections(transcript):
    """Its nodes, links, order of the main worker, records and carried rows, each as lines."""
    lines, found, at = transcript.decode().splitlines()[2:], {"nodes": [], "links": [], "main": [], "record": [], "carried": []}, 0
    while lines[at] != "end":
        name, count = lines[at].split()
        part = lines[at + 1 : at + 1 + int(count)]
        if name in ("record", "carried"):
            found[name].append(part)
        else:
            found[name] = part
        at += 1 + int(count)
    return found


def entry_of(node, place, line):
    """What a page tells of an entry, but for when it was."""
    head, tail = line.split(" = ")
    words, out = head.split(), tail.split()
    kind, verb = words[2], out.pop(0)
    spot = SPOT.fullmatch(words[4]) if kind == "arrive" else None
    came = [int(n) for n in spot.groups()] if spot else [-1, -1]
    cause = out.pop(0).split("-")[0] if verb == "judged" else ""
    number = out.pop(0) if out else "-"
    if verb == "life":
        out.pop(0)
    up = 1 if out[:1] == ["up"] else 0
    return [node, place, kind, *came, words[3] if kind == "arrive" else "", cause, up, "".join(out[up:]), -1 if number == "-" else int(number)]


def entries_of(found):
    return sorted(entry_of(n, p, line) for n, record in enumerate(found["record"]) for p, line in enumerate(record))


def rows(data, key):
    """A list of the data, without what ends it and its rows."""
    assert data[key][-1] == 0, key
    return [row[:-1] if isinstance(row, list) else row for row in data[key][:-1]]


# ---- what is looked at


def policy_of(page):
    """What is wrong with the policy: it names the sums of the script and of the style, and nothing else may run or load."""
    says = [attrs["content"] for attrs, _ in page.of("meta") if attrs.get("http-equiv") == "Content-Security-Policy"]
    scripts, styles = page.of("script"), page.of("style")
    if len(says) != 1 or len(scripts) != 2 or len(styles) != 1 or scripts[0][0] != {"type": "application/json", "id": "data"} or scripts[1][0]:
        return f"{len(says)} policies, {len(scripts)} scripts, {len(styles)} styles"
    sums = ["'sha256-%s'" % base64.b64encode(hashlib.sha256(text.encode()).digest()).decode() for text in (scripts[1][1], styles[0][1])]
    wanted = f"default-src 'none'; script-src {sums[0]}; style-src {sums[1]}; base-uri 'none'; form-action 'none'"
    handlers = [(tag, key) for tag, attrs in page.tags for key in attrs if key == "style" or key.startswith("on") or key in ("src", "srcset")]
    return "another policy" if says != [wanted] else f"{handlers[0]}" if handlers else ""


def network_of(data, found):
    """What is wrong with nodes, links and the plan of the data."""
    nodes = [[role, *words] for role, *words in (line.split() for line in found["nodes"])]
    told = [[role, *macs[:-1], *([mode] if mode else [])] for _, role, mode, macs in data["nodes"][:-1]]
    links = [[x for end in line.split() for x in (int(end.split(".")[0]), end.split(".")[1])] for line in found["links"]]
    for name, one, other in (("nodes", told, nodes), ("links", rows(data, "links"), links), ("planned", rows(data, "planned"), list(range(len(found["main"]))))):
        if one != other:
            return f"{name}: {one[:3]}, and not {other[:3]}"
    return ""


def order_of(data):
    """What is wrong with the order of entries: they rise, those of a node stand in the order of its record, and a copy comes behind what passed it."""
    stamps, places = {}, {}
    before = (0, 0)
    for node, place, moment, step, *_ in rows(data, "entries"):
        if (moment, step) < before or place != places.get(node, -1) + 1:
            return f"{node}:{place} stands at {moment}, {step}"
        before, places[node], stamps[node, place] = (moment, step), place, (moment, step)
    for link, way, fate, n, p, to, at in rows(data, "copies"):
        if to >= 0 and stamps[n, p] >= stamps[to, at]:
            return f"a copy on link {link} comes before it is passed"
    return ""


def copies_of(data, found):
    """What is wrong with the copies: each row once, passed by the node at its one end, and judged by the node at its other."""
    links, entries = rows(data, "links"), {(row[0], row[1]): row for row in rows(data, "entries")}
    for link, way, fate, n, p, to, at in rows(data, "copies"):
        a, port, b, other = links[link] if way == "forth" else links[link][2:] + links[link][:2]
        passed, judged = entries[n, p], entries.get((to, at))
        if n != a or port not in passed[10] or (to >= 0) != (fate == "taken") or (judged and (to != b or judged[7] != other)):
            return f"{link} {way} {fate} {n}:{p} {to}:{at}"
        if judged and judged[5:7] != (passed[5:7] if passed[4] == "arrive" else passed[:2]):
            return f"of another send: {n}:{p} {to}:{at}"
    told = sorted([link, way, fate] for link, way, fate, *_ in rows(data, "copies"))
    carried = sorted([link, line.split()[0], line.split()[-1]] for link, lines in enumerate(found["carried"]) for line in lines)
    return f"{len(told)} copies, and not {len(carried)}" if told != carried else ""


def report_of(page, report, data):
    """What is wrong with the list and the report: as many rows as sends, each send of the report that isn't complete among the data, and each line shown."""
    listed = [attrs["class"] for attrs, _ in page.of("tr") if "data-send" in attrs]
    sends, lacking = rows(data, "sends"), [line for line in report if line.startswith("send ")]
    complete = ["ok" if not (missed or twice or strayed) else "bad" for *_, missed, twice, strayed, _ in sends]
    if listed != complete or complete.count("bad") != len(lacking):
        return f"{len(listed)} rows, {complete.count('bad')} not complete, and the report has {len(lacking)}"
    shown = {text for tag in ("dt", "li") for _, text in page.of(tag)}
    wanted = [line for line in report if not line.startswith("send ")] + lacking[:MOST]
    left = [line for line in wanted if line not in shown]
    return f"{left[0]} isn't shown" if left else ""


def drawings_of(page, found):
    """What is wrong with the drawings: two, each with each node and link once, and with each link's two lanes."""
    for key, count in (("node", len(found["nodes"])), ("link", len(found["links"]))):
        told = sorted(int(attrs[f"data-{key}"]) for attrs, _ in page.of("g") if f"data-{key}" in attrs)
        if told != sorted(2 * list(range(count))):
            return f"{key}s {told}"
    lanes = sorted(attrs["data-lane"] for attrs, _ in page.of("g") if "data-lane" in attrs)
    return "" if lanes == sorted(2 * [f"{link}{way}" for link in range(len(found["links"])) for way in "fb"]) else f"lanes {lanes[:4]}"


def by_numbers(line):
    """A line of a report by names, where nodes are called by their numbers, as the report without names has it."""
    if line.startswith(("needed", "budget", "doubt")):
        line = re.sub(r"\bn(\d+):(\d+)\b", r"\1 \2", line)
    return re.sub(r"\bn(\d+)\b", r"\1", line)


def try_page(setting, name, scenario):
    """Reads the page of one run."""
    tally, file = Tally(), setting.work / f"page-{name}.toml"
    file.write_bytes(scenario)
    _, transcript, _ = run(setting, "hsr_bench", ["run", "--transcript"], scenario)
    words = ["audit", "--names", str(file), "--network", "--deliveries", "--needed", "--budget"]
    status, octets, fault = run(setting, "hsr_view", ["page", "--names", str(file), "--title", HOSTILE], transcript)
    if status:
        tally.count(name, fault.decode())
        return tally
    page, found = read(octets), sections(transcript)
    data = json.loads(page.of("script", id="data")[0][1])
    told = sorted([row[:2] + row[4:] for row in rows(data, "entries")])
    tally.count(f"title of {name}", "" if page.of("h1")[0][1] == HOSTILE and page.of("title")[0][1] == HOSTILE else page.of("h1")[0][1])
    tally.count(f"policy of {name}", policy_of(page))
    tally.count(f"network of {name}", network_of(data, found))
    tally.count(f"entries of {name}", "" if told == entries_of(found) else "other entries")
    tally.count(f"order of {name}", order_of(data))
    tally.count(f"copies of {name}", copies_of(data, found))
    tally.count(f"drawings of {name}", drawings_of(page, found))
    # by numbers, since a report by names tells moments and streams too
    _, report, _ = run(setting, "hsr_bench", [word for word in words if word not in ("--names", str(file))], transcript)
    _, plain, _ = run(setting, "hsr_view", ["page"], transcript)
    shown = read(plain)
    shown.texts = [by_numbers(text) for text in shown.texts]
    tally.count(f"report of {name}", report_of(shown, report.decode().splitlines(), data))
    return tally


def crowd():
    """A ring of 64 in which each node sends twice: too many copies for a picture, and few enough for a page."""
    sends = "".join(f'{{do="send", node="n{node}", to="{GROUP}", type=0x88B8, payload="00"}}, {{do="drain"}},\n' for node in range(46))
    return ring(64) + "step = [\n" + sends + "]\n"


def try_bound(setting):
    """More than 6000 copies are refused, and a choice of them is shown, with how many are left out."""
    tally = Tally()
    text = crowd()
    text = text[: text.rindex("]")] + "".join(f'{{do="clock", at=9}}, {{do="send", node="n{n}", to="{GROUP}", type=0x88B8}}, {{do="drain"}},\n' for n in range(4)) + "]\n"
    _, transcript, _ = run(setting, "hsr_bench", ["run", "--transcript"], text.encode())
    status, _, fault = run(setting, "hsr_view", ["page"], transcript)
    wanted = b"fault: copies 6400, and a page shows 6000: choose by --send, --from or --until\n"
    tally.count("over 6000 copies", "" if (status, fault) == (1, wanted) else fault.decode())
    status, octets, fault = run(setting, "hsr_view", ["page", "--send", "n0:0"], transcript)
    page = read(octets)
    notes = [told for attrs, told in page.of("p", **{"class": "note"})]
    data = json.loads(page.of("script", id="data")[0][1])
    tally.count("a choice of them", "" if len(rows(data, "copies")) == 128 and any("128 of 6\u202f400 copies" in note for note in notes) else f"{notes}")
    return tally


def jobs(setting):
    found = [(path.stem, path.read_bytes()) for path in sorted((ROOT / "examples/scenarios").glob("*.toml"))]
    found = [one for one in found if one[0] != "sampled_values"]  # 640,000 copies are too many for a page
    return [Job(try_page, one, 1) for one in found] + [Job(try_page, ("crowd", crowd().encode()), 4), Job(try_bound, (), 4)]
