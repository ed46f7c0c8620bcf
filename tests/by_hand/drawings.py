#!/usr/bin/env python3
"""drawings.py [--networks N] [--seed N] [--programs FOLDER]: draws random networks by `hsr_view page`, and looks at each drawing.

The networks have up to 64 nodes: up to six rings and lines, QuadBoxes between them (chains, trees, rings in a circle, several boxes between
two rings, boxes in any order, a box twice in one ring), RedBoxes with their Stations, Stations at ring ports, Stations that face Stations,
nodes without links, and several networks at once.  A page draws each twice: for a wide room and for a tall one.  A network in which nobody
has a link has no page.

Of each drawing it checks: each node and each link is drawn once; no two boxes overlap, those of nodes that are drawn twice included; all
lies within the view box; each link begins and ends at its nodes' boxes; each link has its two lanes.  It prints the number of each network of
which something isn't so, and ends with status 1.
"""
import argparse
import random
import pathlib
import re
import subprocess
import sys
import tempfile
import xml.etree.ElementTree as ElementTree

RING_PORTS = {'danh': 2, 'redbox': 2, 'quadbox': 4}
PORTS = {'danh': 'AB', 'redbox': 'ABI', 'quadbox': 'ABCD', 'station': 'P'}


class Network:
    def __init__(self):
        self.roles, self.names, self.links = [], [], []

    def add(self, role, name=None):
        self.roles.append(role)
        self.names.append(name or '%s%d' % (role[:1], len(self.roles)))
        return len(self.roles) - 1

    def wire(self, order, is_closed, used):
        """A ring, or a line, by these nodes: out by B or D, in by A or C, or the other way round."""
        steps = list(zip(order, order[1:] + order[:1]))
        if not is_closed:
            steps = steps[:-1]
        ports = []
        for node in order:
            low = 2 if (node, 0) in used else 0
            used.add((node, low))
            ports.append((low, low + 1) if random.random() < 0.8 else (low + 1, low))
        for k, (a, b) in enumerate(steps):
            ends = [(a, ports[k][1]), (b, ports[(k + 1) % len(order)][0])]
            if random.random() < 0.3:
                ends.reverse()
            self.links.append(tuple(ends))


def name_of(random_names, role, number):
    if not random_names:
        return None
    length = random.choice([0, 2, 4, 6, 9, 14, 20, 26])
    return '%s%d%s' % (role[:2], number, 'x' * length)


def coupled(net, most, used):
    """Rings that share QuadBoxes: a chain, a tree, a star, or a circle."""
    rings = random.randint(1, 6)
    form = random.choice(['chain', 'tree', 'star', 'circle'])
    members = [[] for _ in range(rings)]
    pairs = []
    for k in range(1, rings):
        other = {'chain': k - 1, 'circle': k - 1, 'star': 0, 'tree': random.randrange(k)}[form]
        pairs.append((other, k))
    if form == 'circle' and rings > 2:
        pairs.append((rings - 1, 0))
    for a, b in pairs:
        for _ in range(random.choice([1, 1, 2, 2, 3, 4])):
            if len(net.roles) < most:
                box = net.add('quadbox')
                members[a].append(box)
                members[b].append(box)
    if random.random() < 0.04 and len(net.roles) < most:
        members[0] += [net.add('quadbox')] * 2
    stations = []
    for mine in members:
        for _ in range(random.choice([0, 1, 2, 3, 5, 8, 20])):
            if len(net.roles) < most:
                node = net.add(random.choice(['danh', 'danh', 'redbox']))
                mine.append(node)
                if net.roles[node] == 'redbox':
                    stations.append(node)
    for mine in members:
        if random.random() < 0.7:
            random.shuffle(mine)
        if len(mine) > 1 and not (len(mine) == 2 and mine[0] == mine[1]):
            while any(a == b for a, b in zip(mine, mine[1:] + mine[:1])) and len(set(mine)) > 1:
                random.shuffle(mine)
                if len(mine) < 4 and len(set(mine)) < len(mine):
                    mine[:] = list(dict.fromkeys(mine))
            net.wire(mine, random.random() < 0.85, used)
    for node in stations:
        if random.random() < 0.8 and len(net.roles) < most:
            net.links.append(((node, 2), (net.add('station'), 0)))


def free_ports(net):
    used = {end for link in net.links for end in link}
    return [(node, port) for node, role in enumerate(net.roles) for port in range(RING_PORTS.get(role, 0)) if (node, port) not in used]


def beside(net, most):
    """Stations at ring ports, Stations that face Stations, and nodes without links."""
    if random.random() < 0.1:
        ports = free_ports(net)
        for end in random.sample(ports, min(len(ports), random.randint(1, 3))):
            if len(net.roles) < most:
                net.links.append((end, (net.add('station'), 0)))
    for _ in range(random.choice([0, 0, 0, 1, 2])):
        if len(net.roles) + 2 <= most:
            net.links.append(((net.add('station'), 0), (net.add('station'), 0)))
    for _ in range(random.choice([0, 0, 0, 1, 3])):
        if len(net.roles) < most:
            net.add(random.choice(['danh', 'redbox', 'quadbox', 'station']))


def network():
    net, used = Network(), set()
    most = random.choice([6, 12, 24, 40, 64])
    for _ in range(random.choice([1, 1, 1, 1, 2, 3])):
        coupled(net, most, used)
    beside(net, most)
    if not net.roles:
        net.add('danh')
    if random.random() < 0.3:
        net.names = [name_of(True, role, number) for number, role in enumerate(net.roles)]
    if random.random() < 0.3:
        random.shuffle(net.links)
    return net


def scenario(net):
    """The network as a scenario in which one node sends; None where nobody has a link."""
    senders = sorted({node for link in net.links for node, _ in link if net.roles[node] in ('danh', 'station')})
    if not senders:
        return None
    nodes = []
    for number, (role, name) in enumerate(zip(net.roles, net.names)):
        address = {'quadbox': '', 'station': ', macs=["02-00-00-00-01-%02X"]'}.get(role, ', mac="02-00-00-00-00-%02X"')
        nodes.append('  {name="%s", role="%s"%s},\n' % (name, role, address % number if address else ''))
    end = lambda it: '%s.%s' % (net.names[it[0]], PORTS[net.roles[it[0]]][it[1]])
    links = ['  {ends=["%s", "%s"]},\n' % (end(a), end(b)) for a, b in net.links]
    step = '  {do="send", node="%s", to="01-00-5E-00-00-01", type=0x88B5}, {do="drain"},\n' % net.names[senders[0]]
    return 'node = [\n%s]\nlink = [\n%s]\nstep = [\n%s]\n' % (''.join(nodes), ''.join(links), step)


def page_of(programs, text, file):
    """The page of a scenario's run, or the fault."""
    file.write_text(text, encoding='utf-8')
    run = subprocess.run([programs / 'hsr_bench', 'run', '--transcript'], input=text.encode(), capture_output=True)
    page = subprocess.run([programs / 'hsr_view', 'page', '--names', file], input=run.stdout, capture_output=True)
    return page.stdout.decode(), (run.stderr if run.returncode == 1 else page.stderr).decode()


def rectangle(element):
    x, y, w, h = (float(element.get(it)) for it in ('x', 'y', 'width', 'height'))
    return x, y, x + w, y + h


def meets(a, b):
    return a[0] < b[2] - 0.15 and b[0] < a[2] - 0.15 and a[1] < b[3] - 0.15 and b[1] < a[3] - 0.15


def boxes_of(svg):
    boxes, twins = {}, []
    for group in svg.iter('g'):
        classes = group.get('class', '').split()
        if 'node' in classes:
            rects = [it for it in group.findall('rect') if it.get('class') is None]
            boxes.setdefault(int(group.get('data-node')), []).append(rectangle(rects[0]))
        elif 'ghost' in classes:
            twins.append(rectangle(group.find('rect')))
    return boxes, twins


def points_of(path):
    """The points of a path's absolute letters, without the radii of arcs."""
    points = []
    for letter, numbers in re.findall(r'([MLA])([^MLAZVl]*)', path):
        found = [float(it) for it in numbers.split()]
        points.append(tuple(found[-2:]))
    return points


def is_near(point, box):
    return box[0] - 1 < point[0] < box[2] + 1 and box[1] - 1 < point[1] < box[3] + 1


def faults(net, text):
    svg = ElementTree.fromstring(text)
    boxes, twins = boxes_of(svg)
    left, top, width, height = (float(it) for it in svg.get('viewBox').split())
    if sorted(boxes) != list(range(len(net.roles))) or any(len(it) > 1 for it in boxes.values()):
        yield 'nodes'
    links = sorted(int(it.get('data-link')) for it in svg.iter('g') if it.get('data-link'))
    if links != list(range(len(net.links))):
        yield 'links'
    lanes = sorted(it.get('data-lane') for it in svg.iter('g') if it.get('data-lane'))
    if lanes != sorted('%d%s' % (k, d) for k in range(len(net.links)) for d in 'fb'):
        yield 'lanes'
    all_boxes = [it for many in boxes.values() for it in many] + twins
    for k, a in enumerate(all_boxes):
        for b in all_boxes[k + 1:]:
            if meets(a, b):
                yield 'overlap'
        if a[0] < left or a[1] < top or a[2] > left + width or a[3] > top + height:
            yield 'outside'
    for group in svg.iter('g'):
        if group.get('data-link'):
            points = points_of(group.find('path').get('d'))
            if any(not (left <= x <= left + width and top <= y <= top + height) for x, y in points):
                yield 'wire outside'
            near = [node for node, _ in net.links[int(group.get('data-link'))]]
            for point in (points[0], points[-1]):
                if not any(is_near(point, it) for node in near for it in boxes.get(node, [])) and not any(is_near(point, it) for it in twins):
                    yield 'wire end'


def main():
    arguments = argparse.ArgumentParser(description=__doc__, formatter_class=argparse.RawDescriptionHelpFormatter)
    arguments.add_argument('--networks', type=int, default=1500)
    arguments.add_argument('--seed', type=int, default=1)
    arguments.add_argument('--programs', type=pathlib.Path, default=pathlib.Path(__file__).resolve().parents[2] / 'bin')
    given = arguments.parse_args()
    random.seed(given.seed)
    drawn = wrong = unlinked = 0
    with tempfile.TemporaryDirectory() as folder:
        for number in range(given.networks):
            net = network()
            text = scenario(net)
            if text is None:
                unlinked += 1
                continue
            page, fault = page_of(given.programs, text, pathlib.Path(folder) / 'scenario.toml')
            drawings = re.findall(r'<svg class="net.*?</svg>', page, re.S)
            found = sorted({it for drawing in drawings for it in faults(net, drawing)}) if len(drawings) == 2 else ['%d drawings %s' % (len(drawings), fault.strip())]
            drawn += len(drawings)
            if found:
                wrong += 1
                print('network %d: %s' % (number, ', '.join(found)))
    print('%d drawings, %d networks with faults, %d without a page' % (drawn, wrong, unlinked))
    return 1 if wrong else 0


if __name__ == '__main__':
    sys.exit(main())
