"""What the page of a run has to show, found anew from its transcript: entries in the order of time, copies, who missed what."""
import heapq
from collections import Counter, defaultdict

LOST = ('down', 'cut', 'overrun')
LOOK = {'duplicate': 'dup', 'returned': 'ret'}


class Run:
    """nodes, links, entries by (node, place), rows of links; `step` of each entry by its place among the rows of time."""

    def __init__(self, text):
        self.lines = iter(text.split('\n'))
        assert next(self.lines).startswith('hsr-bench '), 'no transcript'
        self.table = self.count()
        self.nodes = [next(self.lines).split(' ') for _ in range(self.count())]
        self.links = [tuple((int(n), p) for n, p in (e.split('.') for e in next(self.lines).split(' '))) for _ in range(self.count())]
        self.main = [int(next(self.lines)) for _ in range(self.count())]
        self.entries = {}
        for n in range(len(self.nodes)):
            for p in range(self.count()):
                self.entries[n, p] = self.entry(next(self.lines))
        self.rows = [[next(self.lines).split(' ') for _ in range(self.count())] for _ in self.links]
        self.copies = self.copies_of()
        self.order()

    def count(self):
        return int(next(self.lines).split(' ')[1])

    @staticmethod
    def entry(line):
        w = line.split(' ')
        at = w.index('=')
        said, did = w[2:at], w[at + 1:]
        rest = {'sent': did[2:], 'life': did[3:], 'judged': did[3:], 'aged': []}[did[0]]
        is_up = rest[:1] == ['up']
        look = '' if did[0] != 'judged' else LOOK.get(did[1], 'oth') if did[1] != 'passed' else 'up' if is_up else 'on'
        return dict(main=w[0] == '0', at=int(w[1]), kind=said[0], port=said[1] if said[0] == 'arrive' else '', send=tuple(map(int, said[2].split(':'))) if said[0] == 'arrive' else None,
                    octets=said[3] if said[0] == 'arrive' else '', look=look, up=is_up, out=rest[is_up:])

    def copies_of(self):
        """(link, direction, fate, send, cause, arrival or None): the k-th equal row is the k-th such copy that was passed, and taken."""
        causes, taken = defaultdict(list), defaultdict(list)
        for k in sorted(self.entries):
            e = self.entries[k]
            for port in e['out']:
                causes[k[0], port, e['send'] or k].append(k)
            if e['kind'] == 'arrive':
                taken[k[0], e['port'], e['send'], e['octets']].append(k)
        found = []
        for link, rows in enumerate(self.rows):
            for way, send, octets, fate in rows:
                (a, p), (b, q) = self.links[link] if way == 'forth' else self.links[link][::-1]
                send = tuple(map(int, send.split(':')))
                places = causes[a, p, send]
                at = next(i for i, k in enumerate(places) if self.entries[k]['kind'] != 'arrive' or 'I' in (self.entries[k]['port'], p) or self.entries[k]['octets'] == octets)
                found.append((link, way[0], fate, send, places.pop(at), None if fate in LOST else taken[b, q, send, octets].pop(0)))
        return found

    def order(self):
        """Rows of time: (greatest moment that leads here, longest chain within it)."""
        after, left = defaultdict(list), Counter()

        def edge(a, b, weight):
            after[a].append((b, weight))
            left[b] += 1
        mains = defaultdict(list)
        for k in sorted(self.entries):
            if k[1]:
                edge((k[0], k[1] - 1), k, 1)
            if self.entries[k]['main']:
                mains[k[0]].append(k)
        self.planned = [mains[n].pop(0) for n in self.main]
        for a, b in zip(self.planned, self.planned[1:]):
            edge(a, b, 1)
        for _, _, _, _, cause, arrival in self.copies:
            if arrival:
                edge(cause, arrival, 1)
        row = {k: (e['at'], 0) for k, e in self.entries.items()}
        ready = [(row[k], k) for k in row if not left[k]]
        heapq.heapify(ready)
        while ready:
            (moment, step), k = heapq.heappop(ready)
            for b, weight in after[k]:
                row[b] = max(row[b], (moment, step + weight))
                left[b] -= 1
                if not left[b]:
                    heapq.heappush(ready, (row[b], b))
        self.marks = sorted(set(row.values()))
        place = {m: i for i, m in enumerate(self.marks)}
        self.mark = {k: place[row[k]] for k in row}

    def spans(self, send=None):
        """(first mark, end, look, link, fate) of each copy: it is under way from its cause's mark to its arrival's; one that is lost for one mark."""
        found = []
        for link, _, fate, s, cause, arrival in self.copies:
            if send is None or s == send:
                begin = self.mark[cause]
                found.append((begin, max(begin + 1, self.mark[arrival] if arrival else 0), self.entries[arrival]['look'] if arrival else 'lost', link, fate))
        return found

    def tally(self, mark, send=None):
        put = [s for s in self.spans(send) if s[0] <= mark]
        lost = sum(s[2] == 'lost' for s in put)
        taken = sum(s[2] != 'lost' and s[1] <= mark for s in put)
        return dict(put=len(put), taken=taken, lost=lost, way=len(put) - taken - lost)
