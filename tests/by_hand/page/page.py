#!/usr/bin/env python3
"""Pages in a real browser (Debian's chromium, without a window; with --firefox Debian's firefox-esr).

page.py run PAGE TRANSCRIPT [--shots FOLDER] [--speed]
                                                  the page of a run, against the transcript that it was made of; --speed asks for
                                                  30 pictures a second and 30 ms a step at most: on a machine that does nothing else
page.py plan PAGE [--shots FOLDER]                the page of a plan: rows that are pressed are marked in the drawing, and it prints
page.py hostile PAGE TITLE [--shots FOLDER]       a page whose title and names are hostile

Prints `ok PAGE` with what was compared, or what is wrong, and then the status is 1.
"""
import base64
import hashlib
import json
import os
import re
import subprocess
import sys
import tempfile
import time
from collections import Counter
from html.parser import HTMLParser

sys.dont_write_bytecode = True
HERE = os.path.dirname(os.path.abspath(__file__))
sys.path[:0] = [HERE, os.path.join(HERE, '..', '..')]
if '--firefox' in sys.argv:
    from firefox import Browser, Tab    # noqa: E402
else:
    from browser import Browser, Tab    # noqa: E402
from lib.transcripts import Run         # noqa: E402

WIDTHS = (320, 390, 640, 641, 768, 900, 1024, 1280, 1499, 1500, 1920, 2560)
SHOTS = ((390, 844, False), (1024, 768, False), (1920, 1080, False), (1440, 900, True))
HIDDEN = re.compile('[\x00-\x08\x0b-\x1f\x7f-\x9f\u00ad\u061c\u200b-\u200f\u2028-\u202e\u2060-\u2069\ufeff\ufff9-\ufffb]')
MOST_TOKENS, MOST_LINES, MOST_BESIDE = 240, 40, 6


class Failed(Exception):
    """What a page shows is not what it has to show."""


def same(what, found, wanted):
    if found != wanted:
        raise Failed('%s: %r, and not %r' % (what, found, wanted))


def holds(what, is_so):
    if not is_so:
        raise Failed(what)


# ---------------------------------------------------------------- the text of a page
class Reader(HTMLParser):
    """Elements of a page, with the texts of its scripts, style and headings."""

    def __init__(self):
        super().__init__()
        self.kept, self.policy, self.at, self.tags, self.ids = {'script': [], 'style': [], 'h1': [], 'title': []}, '', None, Counter(), Counter()

    def handle_starttag(self, tag, attributes):
        self.tags[tag] += 1
        for key, value in attributes:
            holds('an attribute %s of %s' % (key, tag), not key.startswith('on') and key not in ('style', 'src', 'srcset', 'action', 'formaction', 'ping'))
            holds('a reference of %s to %s' % (tag, value), key not in ('href', 'xlink:href') or value.startswith('#'))
            if key == 'id':
                self.ids[value] += 1
        if tag == 'meta' and dict(attributes).get('http-equiv') == 'Content-Security-Policy':
            self.policy = dict(attributes)['content']
        if tag in self.kept and not (tag == 'title' and self.kept['title']):
            self.at = tag
            self.kept[tag].append('')

    def handle_endtag(self, tag):
        if tag == self.at:
            self.at = None

    def handle_data(self, text):
        if self.at:
            self.kept[self.at][-1] += text


def check_text(path):
    """The file: one policy that names its own script and style, nothing of the net, each id once. Gives its data."""
    with open(path, encoding='utf-8', newline='') as f:
        text = f.read()
    holds('a CR or a NUL in the file', '\r' not in text and '\0' not in text)
    reader = Reader()
    reader.feed(text)
    same('scripts', len(reader.kept['script']), 2)
    same('styles', len(reader.kept['style']), 1)
    same('h1', len(reader.kept['h1']), 1)
    data, script = reader.kept['script']

    def sum_of(t):
        return "'sha256-%s'" % base64.b64encode(hashlib.sha256(t.encode()).digest()).decode()
    same('policy', reader.policy, "default-src 'none'; script-src %s; style-src %s; base-uri 'none'; form-action 'none'" % (sum_of(script), sum_of(reader.kept['style'][0])))
    for tag in ('img', 'iframe', 'object', 'embed', 'link', 'base', 'form', 'video', 'audio'):
        same('elements ' + tag, reader.tags[tag], 0)
    same('ids that come again', [k for k, n in reader.ids.items() if n > 1], [])
    return json.loads(data)


KINDS = {'send': 's', 'life': 'l', 'arrive': 'a', 'age': 'g'}
TYPES = {0x0800: 'IPv4', 0x88B8: 'GOOSE', 0x88BA: 'sampled values', 0x88F7: 'PTP', 0x88FB: 'supervision'}


def look_of(cause, up, kind):
    """What became of a copy, by the words of an entry."""
    if kind != 'arrive':
        return ''
    return ('up' if up else 'on') if cause == 'passed' else {'duplicate': 'dup', 'returned': 'ret'}.get(cause, 'oth')


def numbered(raw):
    """The data of a page with entries and sends by their places in lists, as the script numbers them: a 0 ends each list, -1 is none."""
    rows = {key: raw[key][:-1] for key in ('nodes', 'links', 'entries', 'planned', 'sends', 'copies', 'downs', 'drains')}
    marks = sorted({(row[2], row[3]) for row in rows['entries']})
    mark, at = {m: i for i, m in enumerate(marks)}, {(row[0], row[1]): i for i, row in enumerate(rows['entries'])}
    place = {(row[0], row[1]): i for i, row in enumerate(rows['sends'])}
    entries = []
    for node, p, moment, step, kind, n, sent, port, cause, up, out, number, _ in rows['entries']:
        send = place.get((n, sent) if kind == 'arrive' else (node, p), -1)
        entries.append([node, p, mark[moment, step], KINDS[kind], send, port, look_of(cause, up, kind), up, out, '', number])
    owner = {mac: name for name, _, _, macs in rows['nodes'] for mac in macs[:-1]}
    sends = []
    for n, p, moment, dst, source, vlan, kind, length, about, due, missed, twice, strayed, lost, _ in rows['sends']:
        what = 'supervision' + (' of ' + about if about else '') if kind < 0 else TYPES.get(kind, '%04X' % kind)
        sends.append(dict(n=n, p=p, at=moment, m=entries[at[n, p]][2], to='all' if kind < 0 else owner.get(dst, dst), what=what, due=due, missed=missed, twice=twice,
                          strayed=strayed, lost=lost, ok=not (missed or twice or strayed)))
    copies = [[link, way[0], 'ok' if fate == 'taken' else fate, entries[at[n, p]][4], at[n, p], at.get((to, judged), -1)] for link, way, fate, n, p, to, judged, _ in rows['copies']]
    own = [i for i, entry in enumerate(entries) if entry[3] != 'a']
    same('numbers of what was planned', rows['planned'], list(range(len(own))))
    return dict(table=raw['table'], nodes=[dict(name=name, role=role, mode=mode, macs=macs[:-1]) for name, role, mode, macs in rows['nodes']], links=[row[:-1] for row in rows['links']],
                marks=marks, entries=entries, sends=sends, copies=copies, planned=own, downs=[row[:-1] for row in rows['downs']], drains=[row[:-1] for row in rows['drains']])


def check_data(data, run):
    """Each entry and each row of the transcript is in the data once, in the order of time."""
    entries, copies, sends = data['entries'], data['copies'], data['sends']
    same('entries', sorted((e[0], e[1]) for e in entries), sorted(run.entries))
    same('marks', [tuple(m) for m in data['marks']], run.marks)
    holds('the order of entries', all(a[2] <= b[2] for a, b in zip(entries, entries[1:])))
    for node, place, mark, kind, send, port, look, up, out, noted, number in entries:
        e = run.entries[node, place]
        same('entry %d:%d' % (node, place), (mark, kind, port, look, up, list(out)), (run.mark[node, place], {'age': 'g'}.get(e['kind'], e['kind'][0]), e['port'], e['look'], int(e['up']), e['out']))
    where = {(e[0], e[1]): i for i, e in enumerate(entries)}
    place = {(s['n'], s['p']): i for i, s in enumerate(sends)}
    same('copies', Counter(map(tuple, copies)), Counter((link, way, {'taken': 'ok'}.get(fate, fate), place[send], where[cause], -1 if arrival is None else where[arrival])
                                                       for link, way, fate, send, cause, arrival in run.copies))
    holds('the order of copies', all(c[5] < 0 or c[4] < c[5] for c in copies))
    same('planned', [tuple(entries[e][:2]) for e in data['planned']], run.planned)


# ---------------------------------------------------------------- what every page has to do
def check_silent(tab):
    same('what the console said', tab.said(), [])


def check_widths(browser, path):
    """At no width the page is wider than the window."""
    with Tab(browser, path, 1024, 768) as tab:
        for width in WIDTHS:
            made = tab.size(width, 800)
            wide = tab.run('document.documentElement.scrollWidth')
            holds('%d px: the page is %d wide' % (made, wide), wide <= made)
        check_silent(tab)


CONTRAST = r'''(() => {
  const lum = c => { const [r, g, b] = c.map(x => { x /= 255; return x <= 0.03928 ? x / 12.92 : ((x + 0.055) / 1.055) ** 2.4; }); return 0.2126 * r + 0.7152 * g + 0.0722 * b; };
  const parse = s => { const m = s.match(/[\d.]+/g).map(Number); return m.length > 3 && m[3] === 0 ? null : m.slice(0, 3); };
  const ground = e => { for (; e; e = e.parentElement) { const c = parse(getComputedStyle(e).backgroundColor); if (c) return c; } return [255, 255, 255]; };
  const found = [];
  let n = 0;
  for (const e of document.querySelectorAll('body *')) {
    if (e.closest('script,style,option') || !e.getClientRects().length || ![...e.childNodes].some(t => t.nodeType === 3 && t.textContent.trim())) continue;
    const style = getComputedStyle(e), isDrawn = e instanceof SVGElement;
    if (style.visibility === 'hidden' || e.closest(':disabled,.aria,.skip')) continue;
    const box = isDrawn && e.closest('.node') && !e.classList.contains('tag') ? e.closest('.node').querySelector('rect:not(.pile)') : null;
    const ink = parse(isDrawn ? style.fill : style.color), paper = box ? parse(getComputedStyle(box).fill) : ground(isDrawn ? e.ownerSVGElement.parentElement : e);
    if (!ink) continue;
    const [a, b] = [lum(ink), lum(paper)].sort((x, y) => y - x), ratio = (a + 0.05) / (b + 0.05);
    n++;
    if (ratio < 4.5) found.push(e.tagName + '.' + (e.getAttribute('class') || '') + ' ' + e.textContent.trim().slice(0, 30) + ' ' + ratio.toFixed(2));
  }
  return [n, [...new Set(found)].slice(0, 10)];
})()'''


def check_contrast(browser, path, before=None):
    """Text against what it stands on: 4.5 to 1, in light and dark."""
    count = 0
    for dark in (False, True):
        with Tab(browser, path, 1440, 900, dark=dark) as tab:
            if before:
                tab.run(before)
            n, found = tab.run(CONTRAST)
            same('contrast below 4.5 to 1, dark %s' % dark, found, [])
            count += n
    return count


def check_names(tab):
    """Each control has a name for readers."""
    controls = tab.controls()
    same('controls without a name', [role for role, name in controls if not name and role != 'table'], [])
    return len(controls)


FOCUS = r'''(() => {
  const e = document.activeElement;
  if (!e || e === document.body) return null;
  const style = getComputedStyle(e), box = e.matches('.node') ? getComputedStyle(e.querySelector('rect:not(.pile)')) : null;
  const isSeen = box ? parseFloat(box.strokeWidth) >= 4 : style.outlineStyle !== 'none' && parseFloat(style.outlineWidth) >= 2;
  return [e.tagName + '#' + e.id + '.' + (e.getAttribute('class') || ''), isSeen && e.getClientRects().length > 0];
})()'''


def check_focus(tab, most=40):
    """Tab goes on through the controls, and each shows that it has the focus."""
    seen = []
    for _ in range(most):
        tab.key('Tab')
        at = tab.run(FOCUS)
        if at is None:
            break
        holds('the focus is not seen at ' + at[0], at[1])
        seen.append(at[0])
    return len(seen)


def check_paper(tab, folder, *texts):
    """The page prints, and its paper has these texts."""
    path = os.path.join(folder, 'paper.pdf')
    tab.pdf(path)
    said = re.sub(r'\s+', ' ', subprocess.run(['pdftotext', '-layout', path, '-'], capture_output=True, text=True, check=True).stdout)
    for text in texts:
        holds('no %r on paper' % text, re.sub(r'\s+', ' ', text.replace('\u202f', ' ')) in said.replace('\u202f', ' '))
    os.remove(path)


def take_shots(browser, path, folder, before=None):
    name = os.path.splitext(os.path.basename(path))[0]
    for width, height, dark in SHOTS:
        with Tab(browser, path, width, height, dark=dark) as tab:
            if before:
                tab.run(before)
            tab.shot(os.path.join(folder, '%s_%d%s.png' % (name, width, '_dark' if dark else '')), whole=not dark)


# ---------------------------------------------------------------- the page of a run
SEEN = '[...document.querySelectorAll("svg.net")].find(s => s.getClientRects().length)'
GO = '(() => { const t = document.getElementById("time"); t.value = %d; t.dispatchEvent(new Event("input", {bubbles: true})); })()'
TALLY = 'document.getElementById("tally").textContent.match(/[\\d\u202f]+/g).map(n => Number(n.replace(/\u202f/g, "")))'


def lines_of(run, mark, send):
    """How many lines tell of entries and losses at a step, of all sends or one."""
    mine = [k for k in run.entries if run.mark[k] == mark and (send is None or (run.entries[k]['send'] or k) == send)]
    lost = [s for s in run.spans(send) if s[2] == 'lost' and s[0] == mark]
    return sum(min(len(x), MOST_LINES) + (len(x) > MOST_LINES) for x in (mine, lost))


def check_position(tab, run, mark, send=None):
    """At a step: copies that are drawn, copies that are counted, lines that are told."""
    tab.run(GO % mark)
    under = [s for s in run.spans(send) if s[0] <= mark + 0.5 < s[1]]
    drawn = tab.run('[...%s.querySelectorAll(".token")].filter(t => t.getAttribute("display") !== "none").map(t => t.getAttribute("class").slice(6))' % SEEN)
    if len(under) <= MOST_TOKENS:
        same('copies under way at step %d' % mark, Counter(drawn), Counter(s[2] for s in under))
    else:
        same('copies drawn at step %d' % mark, len(drawn), MOST_TOKENS)
    wanted = run.tally(mark, send)
    same('copies till step %d' % mark, tab.run(TALLY), [wanted['put'], wanted['taken'], wanted['lost'], wanted['way']])
    told = tab.run('[...document.querySelectorAll("#now li")].filter(l => !/: (goes down|is up again)$|^the scenario drains|^nothing/.test(l.textContent)).length')
    same('lines at step %d' % mark, told, lines_of(run, mark, send))


def check_positions(tab, run):
    last = len(run.marks) - 1
    tab.key('Escape')
    for mark in sorted({0, last // 4, last // 2, 3 * last // 4, last}):
        check_position(tab, run, mark)
    return len({0, last // 4, last // 2, 3 * last // 4, last})


def check_sends(tab, data, run):
    """Each chosen send shows its lanes by fate, at its first, middle and last step."""
    sends = data['sends']
    some = sorted({0, len(sends) // 2, len(sends) - 1} | {i for i, s in enumerate(sends) if not s['ok']} & set(range(40))) if sends else []
    last = len(run.marks) - 1
    for i in some:
        if tab.run('document.querySelector("#sends tr.chosen")?.dataset.send') != str(i):
            tab.run('document.querySelectorAll("#sends tbody tr")[%d].querySelector("button").click()' % i)
        send = sends[i]['n'], sends[i]['p']
        same('the step of a chosen send', tab.run('Number(document.getElementById("time").value)'), run.mark[send])
        for mark in (run.mark[send], (run.mark[send] + last) // 2, last):
            check_position(tab, run, mark, send)
        ranks, wanted = Counter(), Counter()
        order = {k: n for n, k in enumerate((e[0], e[1]) for e in data['entries'])}
        for link, way, fate, s, cause, arrival in sorted((c for c in run.copies if c[3] == send), key=lambda c: order[c[4]]):
            ranks[link, way] += 1
            if ranks[link, way] <= MOST_BESIDE:
                wanted[run.entries[arrival]['look'] if arrival else 'lost'] += 1
        lanes = Counter(tab.run('[...%s.querySelectorAll(".lane.seen")].map(l => l.getAttribute("class").split(" ")[2])' % SEEN))
        same('lanes of send %d:%d' % send, lanes, wanted)
    tab.key('Escape')
    same('lanes where no send is chosen', tab.run('%s.querySelectorAll(".lane.seen").length' % SEEN), 0)
    return len(some)


COUNTERS = r'''(() => {
  const wrong = [], names = NAMES;
  let n = 0;
  for (const dt of document.querySelectorAll('.report details dt')) {
    const w = dt.textContent.split(' ');
    if (w[0] !== 'node') continue;
    SEEN.querySelector('.node[data-node="' + names.indexOf(w[1]) + '"]').dispatchEvent(new MouseEvent('click', {bubbles: true}));
    const said = [...document.querySelectorAll('#node dt')].find(x => x.textContent === 'till now').nextSibling.textContent.replace(/\u202f/g, '');
    for (const k of ['sent', 'life', 'up', 'forwarded', 'duplicate', 'returned', 'dropped']) {
      const m = said.match(new RegExp(k + ' (\\d+)')), mine = m ? Number(m[1]) : 0, theirs = Number(w[w.indexOf(k) + 1]);
      n++;
      if (mine !== theirs) wrong.push([w[1], k, mine, theirs]);
    }
  }
  return [n, wrong];
})()'''.replace('SEEN', SEEN)
REPORT = '[...document.querySelectorAll(".report dt, .report li")].map(e => e.textContent)'


def check_report(tab, data, run):
    """At the last step the page counts what the report counts: of each node, of all links, of deliveries."""
    tab.run(GO % (len(run.marks) - 1))
    n, wrong = tab.run(COUNTERS.replace('NAMES', json.dumps([node['name'] for node in data['nodes']])))
    same('counters of nodes', wrong, [])
    words = [l.split(' ') for l in tab.run(REPORT)]
    links = [w for w in words if w[0] == 'link']
    if links:
        tally = tab.run(TALLY)
        same('copies put, taken, lost', tally[:3], [sum(int(w[w.index(k) + 1]) for w in links) for k in ('put', 'taken', 'lost')])
    for w in words:
        if w[0] == 'deliveries':
            same('rows of the list', tab.run('document.querySelectorAll("#sends tbody tr").length'), int(w[1]))
            same('rows that are complete', tab.run('document.querySelectorAll("#sends tbody tr.ok").length'), int(w[3]))
    return n


SHOWN = '[...document.querySelectorAll("#sends tbody tr")].filter(r => !r.hidden).map(r => Number(r.dataset.send))'


def set_field(tab, name, value):
    tab.run('(() => { const f = document.getElementById(%s); if (f.type === "checkbox") f.checked = %s; else f.value = %s; f.dispatchEvent(new Event("input", {bubbles: true})); })()' % (
        json.dumps(name), json.dumps(value), json.dumps(value)))


def check_filter(tab, data):
    """The list by sender, by text, by what is incomplete, and by what nothing fits."""
    sends, every = data['sends'], list(range(len(data['sends'])))
    same('rows at first', tab.run(SHOWN), every)
    for sender in sorted({s['n'] for s in sends})[:3]:
        set_field(tab, 'sender', str(sender))
        same('rows from %d' % sender, tab.run(SHOWN), [i for i in every if sends[i]['n'] == sender])
    set_field(tab, 'sender', '')
    set_field(tab, 'bad', True)
    same('rows that are incomplete', tab.run(SHOWN), [i for i in every if not sends[i]['ok']])
    set_field(tab, 'bad', False)
    text = '%s:%d' % (data['nodes'][sends[-1]['n']]['name'], sends[-1]['p'])
    set_field(tab, 'find', text.upper())
    shown = tab.run(SHOWN)
    holds('the row of ' + text, len(sends) - 1 in shown)
    count = tab.run('document.getElementById("count").textContent')
    same('the count', count.split(' complete')[0].replace('\u202f', ''), '%d of %d' % (sum(sends[i]['ok'] for i in shown), len(shown)))
    set_field(tab, 'find', 'no such send anywhere')
    same('rows that nothing fits', (tab.run(SHOWN), tab.run('document.getElementById("none").hidden')), ([], False))
    set_field(tab, 'find', '')
    same('rows again', tab.run(SHOWN), every)


AT = 'Number(document.getElementById("time").value)'


def check_keys(tab, data):
    """All that is done by pointer is done by keys."""
    last = len(data['marks']) - 1
    tab.run('document.activeElement.blur()')
    tab.key('Home')
    same('Home', tab.run(AT), 0)
    tab.key('ArrowRight', 'ArrowRight', 'ArrowLeft')
    same('right, right, left', tab.run(AT), min(1, last))
    tab.key('End')
    same('End', tab.run(AT), last)
    later = [s['m'] for s in data['sends'] if s['m'] > 0]
    tab.key('Home', 'n')
    same('N', tab.run(AT), min(later, default=last))
    tab.key('p')
    same('P', tab.run(AT), max([s['m'] for s in data['sends'] if s['m'] < min(later, default=last)], default=0))
    tab.key('/')
    same('/', tab.run('document.activeElement.id'), 'find')
    tab.key('x', 'Escape')
    same('Esc in the field', tab.run('document.getElementById("find").value'), '')
    tab.run('document.querySelector("#sends tbody tr button").focus()')
    tab.key('ArrowDown')
    if len(data['sends']) > 1:
        same('down in the list', tab.run('document.querySelector("#sends tr.chosen").dataset.send'), '1')
    tab.run('document.activeElement.blur()')
    tab.key('Escape')
    same('Esc', tab.run('document.querySelectorAll("#sends tr.chosen").length'), 0)
    tab.run('%s.querySelector(".node").focus()' % SEEN)
    tab.key('Enter')
    same('Enter on a node', tab.run('document.getElementById("node-title").textContent'), data['nodes'][0]['name'])
    tab.key(' ')
    same('space on a node', tab.run('document.getElementById("node-title").textContent'), 'Chosen node')
    tab.run('document.activeElement.blur()')
    wide = tab.run('%s.getBoundingClientRect().width' % SEEN)
    tab.key('+', '+')
    holds('+ draws larger', tab.run('%s.getBoundingClientRect().width' % SEEN) > wide)
    tab.key('-', '-', '-')
    same('- draws as before', tab.run('%s.getBoundingClientRect().width' % SEEN), wide)


def check_play(tab, data):
    """Space plays to the end and stops there. Gives pictures a second, and how many ms a step takes."""
    last = len(data['marks']) - 1
    tab.key('Escape', 'Home')
    tab.run('document.getElementById("speed").value = "40"')
    # what the key said is kept, since a short run may be at its end before it is asked for
    tab.run('{ const play = document.getElementById("play"); window.labels = []; '
            'new MutationObserver(() => labels.push(play.getAttribute("aria-label"))).observe(play, { attributeFilter: ["aria-label"] }); }')
    # the first picture has a moment from before the key was pressed, as where the browser was busy: here one second before
    tab.run('{ const now = performance.now.bind(performance); performance.now = () => now() + 1000; window.giveBack = () => { performance.now = now; }; }')
    tab.key(' ')
    tab.run('giveBack()')
    same('the play key', tab.run('labels[0] ?? null'), 'Pause')
    frames = tab.run('new Promise(done => { let n = 0; const t = performance.now(), f = now => { n++; if (now - t < 1000) requestAnimationFrame(f); else done(n); }; requestAnimationFrame(f); })')
    until = time.monotonic() + 240
    while tab.run(AT) < last and time.monotonic() < until:
        time.sleep(0.2)
    same('the end of the play', tab.run(AT), last)
    time.sleep(0.2)
    same('the play key at the end', tab.run('document.getElementById("play").getAttribute("aria-label")'), 'Play')
    slow = tab.run('(() => { const t = performance.now(); let n = 0; for (let m = 0; m <= %d; m += %d) { document.getElementById("time").value = m; '
                   'document.getElementById("time").dispatchEvent(new Event("input")); n++; } return (performance.now() - t) / n; })()' % (last, max(1, last // 100)))
    return frames, slow


TURNS = r'''(() => {
  const time = document.getElementById('time'), net = SEEN, found = [];
  for (let mark = 0; mark <= Number(time.max); mark++) {
    time.value = mark;
    time.dispatchEvent(new Event('input'));
    found.push([[...document.querySelectorAll('#now li')].map(l => l.textContent).filter(t => /: (goes down|is up again)$/.test(t)),
      [...net.querySelectorAll('.link.down')].map(g => Number(g.dataset.link))]);
  }
  return found;
})()'''.replace('SEEN', SEEN)


def check_downs(tab, data, run):
    """Each cut and mend is told once; what a downtime lost it lost while its link is drawn down. Gives (turns, copies that were carried by a link while it is drawn down)."""
    if not data['downs']:
        return 0, 0
    tab.key('Escape')
    told, carried, begun = [], 0, {}
    for span in run.spans():
        begun.setdefault(span[0], []).append(span)
    shown = tab.run(TURNS)
    for mark, (said, down) in enumerate(shown):
        told += said
        for _, _, _, link, fate in begun.get(mark, []):
            holds('link %d lost a copy by its downtime at step %d, and is drawn up' % (link, mark), fate != 'down' or link in down)
            holds('link %d was cut with a copy of step %d on it, and is drawn up from there on' % (link, mark), fate != 'cut' or any(link in later for _, later in shown[mark:]))
            carried += fate == 'taken' and link in down
    wanted = Counter()
    for link, _, _, end, _ in data['downs']:
        wanted[link, 'goes down'] += 1
        wanted[link, 'is up again'] += end >= 0
    same('turns', Counter((int(t.split(' ')[1].rstrip(',')), t.split(': ')[-1]) for t in told), +wanted)
    bars = tab.run('document.querySelectorAll(".strip .cutbar").length')
    links = sorted({d[0] for d in data['downs']})[:6]
    same('bars on the strip', bars, sum(d[0] in links for d in data['downs']))
    return len(told), carried


def check_beside(browser, path):
    """Nothing of a step is told by the play alone: with less motion each step is drawn at its rest."""
    with Tab(browser, path, 1024, 768, reduced=True) as tab:
        tab.key('Home', ' ')
        time.sleep(0.3)
        tab.key(' ')
        check_silent(tab)


def check_without_script(browser, path):
    with Tab(browser, path, 1024, 768, scripts=False) as tab:
        check_silent(tab)
        # a page whose scripts are off answers no expression: its paper tells what is seen
        with tempfile.TemporaryDirectory() as folder:
            check_paper(tab, folder, 'Sends')


def run_page(path, transcript, shots, has_speed):
    data = numbered(check_text(path))
    with open(transcript, encoding='ascii') as f:
        run = Run(f.read())
    check_data(data, run)
    said = ['%d entries, %d copies' % (len(run.entries), len(run.copies))]
    with Browser() as browser, tempfile.TemporaryDirectory() as folder:
        with Tab(browser, path, 1024, 768) as tab:
            wrong = next((i for i, s in enumerate(data['sends']) if not s['ok']), None)
            same('the send at first', tab.run('document.querySelector("#sends tr.chosen")?.dataset.send ?? null'), None if wrong is None else str(wrong))
            in_sight = tab.run('document.getElementById("play").getBoundingClientRect().bottom')
            holds('the play key lies at %d' % in_sight, in_sight <= 768)
            title, verdict = tab.run('[document.querySelector("h1").textContent, document.querySelector(".verdict b")?.textContent ?? ""]')
            check_filter(tab, data)
            said.append('%d steps' % check_positions(tab, run))
            said.append('%d sends' % check_sends(tab, data, run))
            said.append('%d counters' % check_report(tab, data, run))
            said.append('%d turns (%d copies carried meanwhile)' % check_downs(tab, data, run))
            check_keys(tab, data)
            frames, slow = check_play(tab, data)
            holds('%d pictures a second, %.1f ms a step' % (frames, slow), not has_speed or (frames >= 30 and slow < 30))
            said.append('%d pictures a second, %.1f ms a step' % (frames, slow))
            said.append('%d controls' % check_names(tab))
            check_silent(tab)
            check_paper(tab, folder, title, *verdict.split(' ')[1:2])
        with Tab(browser, path, 1024, 768) as tab:
            said.append('focus at %d' % check_focus(tab))
        check_beside(browser, path)
        check_without_script(browser, path)
        check_widths(browser, path)
        said.append('%d texts in contrast' % check_contrast(browser, path, '%s.querySelector(".node").dispatchEvent(new MouseEvent("click", {bubbles: true}))' % SEEN))
        if shots:
            take_shots(browser, path, shots)
    return said


# ---------------------------------------------------------------- the page of a plan
def check_marks(tab):
    """A row that is pressed marks its links and nodes in the drawing and keeps them; pressed again it lets them go."""
    marked = '[...document.querySelectorAll("svg.net .lit")].map(g => g.dataset.link !== undefined ? "l" + g.dataset.link : "n" + g.dataset.node).filter((x, i, all) => all.indexOf(x) === i).sort()'
    rows = tab.run('[...document.querySelectorAll("button.show")].map(b => { const r = b.closest("tr"); return [r.dataset.links, r.dataset.nodes]; })')
    for at, (links, nodes) in enumerate(rows):
        press = 'document.querySelectorAll("button.show")[%d].click()' % at
        wanted = sorted(['l' + n for n in links.split(',') if n] + ['n' + n for n in nodes.split(',') if n])
        tab.run(press)
        same('marks of row %d' % at, tab.run(marked), wanted)
        tab.run(press)
        same('marks behind row %d' % at, tab.run(marked), [])
    return len(rows)


def plan_page(path, shots):
    data = check_text(path)
    with Browser() as browser, tempfile.TemporaryDirectory() as folder:
        with Tab(browser, path, 1024, 768) as tab:
            title, verdict = tab.run('[document.querySelector("h1").textContent, document.querySelector(".verdict b").textContent]')
            same('the verdict', verdict[2:], data['any_order'])
            said = ['%d rows' % check_marks(tab), '%d controls' % check_names(tab)]
            check_silent(tab)
            check_paper(tab, folder, title.split(' ')[0], *verdict.split(' ')[1:2], data['sum'])
        with Tab(browser, path, 1024, 768) as tab:
            said.append('focus at %d' % check_focus(tab))
        with Tab(browser, path, 1024, 768, scripts=False) as tab:
            check_silent(tab)
            check_paper(tab, folder, data['sum'])
        check_widths(browser, path)
        said.append('%d texts in contrast' % check_contrast(browser, path))
        if shots:
            take_shots(browser, path, shots)
    return said


# ---------------------------------------------------------------- hostile texts
def hostile_page(path, title, shots):
    """A text that would break out of its place is shown as it is, and does nothing."""
    check_text(path)
    seen = HIDDEN.sub(lambda m: '\u27e8U+%04X\u27e9' % ord(m.group()), title)
    with Browser() as browser, tempfile.TemporaryDirectory() as folder:
        with Tab(browser, path, 1024, 768) as tab:
            same('the heading', tab.run('document.querySelector("h1").textContent'), seen)
            same('the title', tab.run('document.title')[:len(seen)], ' '.join(seen.split()))
            same('elements of a text', tab.run('document.querySelectorAll("img,body b:not(.verdict b,.tile b,.devices b,.sum,section b),iframe,form").length'), 0)
            same('scripts', tab.run('document.scripts.length'), 2)
            for node in tab.run('[...document.querySelectorAll("svg.wide .node")].map(g => g.dataset.node)'):
                tab.run('document.querySelector("svg.wide .node[data-node=\\"%s\\"]").dispatchEvent(new MouseEvent("click", {bubbles: true}))' % node)
            tab.key('Home', 'ArrowRight', 'End')
            check_silent(tab)
            check_paper(tab, folder, 'script')
        check_widths(browser, path)
        if shots:
            take_shots(browser, path, shots)
    return ['hostile texts']


def main(words):
    shots, has_speed = None, '--speed' in words
    words = [w for w in words if w not in ('--speed', '--firefox')]
    if '--shots' in words:
        at = words.index('--shots')
        shots = words[at + 1]
        del words[at:at + 2]
    kinds = {'run': lambda page, transcript: run_page(page, transcript, shots, has_speed), 'hostile': lambda page, title: hostile_page(page, title, shots),
             'plan': lambda page: plan_page(page, shots)}
    if not words or words[0] not in kinds or len(words) != (2 if words[0] == 'plan' else 3):
        sys.exit(__doc__)
    try:
        said = kinds[words[0]](*words[1:])
    except Failed as fault:
        sys.exit('%s: %s' % (words[1], fault))
    print('ok %s: %s' % (words[1], ', '.join(said)))


if __name__ == '__main__':
    main(sys.argv[1:])
