"""Reads the cases: the files of tests/cases. Their form stands in tests/README.md."""
import re
import shlex
from dataclasses import dataclass, field
from pathlib import Path

ROOT = Path(__file__).resolve().parents[2]
FOLDER = ROOT / "tests" / "cases"
HEAD = re.compile(r"([a-z]+)(?: ([^|\\]*[^|\\ ]))?(?: ([|\\].*))?")
ESCAPES = {"t": b"\t", "r": b"\r", "n": b"\n", "\\": b"\\"}
ANY = None  # an output or error that isn't compared


class Fault(Exception):
    """What is wrong with a file of cases, and where."""


@dataclass
class Part:
    """A line that begins with a word, and the lines of text behind it."""

    place: str
    word: str
    said: str
    text: bytes | None = None


@dataclass
class Case:
    """One run of a program: what it is given, and what it has to answer. The error of a refused word may be free (ANY)."""

    program: str
    group: str
    name: str
    words: list[str] = field(default_factory=list)
    given: bytes = b""
    output: bytes | None = b""
    error: bytes | None = b""
    status: int = 0
    files: dict[str, bytes] = field(default_factory=dict)  # what it has to put into FOLDER, by names

    @property
    def title(self):
        return f"{self.program}/{self.group}/{self.name}"


# ---- lines and parts


def unescaped(said, place):
    """A text in which \\t, \\r, \\n, \\\\ and \\xHH stand for octets."""
    made, rest = b"", said
    while "\\" in rest:
        front, _, rest = rest.partition("\\")
        size = 3 if rest[:1] == "x" else 1
        octet = bytes.fromhex(rest[1:3]) if size == 3 else ESCAPES.get(rest[:1])
        if octet is None:
            raise Fault(f"{place}: unknown escape \\{rest[:1]}")
        made, rest = made + front.encode() + octet, rest[size:]
    return made + rest.encode()


def octets_of(line, place):
    """What a line of text stands for."""
    mark, blank, said = line[:1], line[1:2], line[2:]
    if blank not in ("", " "):
        raise Fault(f"{place}: a blank is missing behind {mark}")
    if mark == "x":
        return bytes.fromhex(said.partition("#")[0])
    if mark == "\\":
        return unescaped(said, place)
    if said != said.rstrip() or "\t" in said:
        raise Fault(f"{place}: a blank at the end or a tab: begin the line with \\ and write \\x20\\n or \\t")
    return said.encode() + b"\n"


def head(line, place):
    """The part that a line begins."""
    word, _, said = line.partition(" ")
    if word == "words":
        return Part(place, word, said)
    found = HEAD.fullmatch(line)
    if not found:
        raise Fault(f"{place}: neither a word nor a text")
    text = octets_of(found[3], place) if found[3] else None
    return Part(place, found[1], found[2] or "", text)


def parts(path):
    """The parts of a file, in order."""
    found = []
    for number, line in enumerate(path.read_bytes().decode("ascii").split("\n"), 1):
        place = f"{path.relative_to(ROOT)}:{number}"
        if not line or line[0] == "#":
            continue
        if line[:2].rstrip() in ("|", "\\", "x") or line[0] in "|\\":
            if not found:
                raise Fault(f"{place}: a text of nothing")
            found[-1].text = (found[-1].text or b"") + octets_of(line, place)
        else:
            found.append(head(line, place))
    return found


# ---- cases


def file_of(name, place):
    path = ROOT / name
    if not path.is_file():
        raise Fault(f"{place}: no file {name}")
    return path.read_bytes()


def earlier(name, cases, place):
    if name not in cases:
        raise Fault(f"{place}: no earlier case {name}")
    return cases[name]


def octets_named(part, cases):
    """The octets that a part tells: its own text, a file's, or those of an earlier case."""
    how, _, name = part.said.partition(" ")
    if not part.said:
        return part.text or b""
    if part.text is not None:
        raise Fault(f"{part.place}: a text, and another source")
    if how == "file":
        return file_of(name, part.place)
    if how == "as":
        return getattr(earlier(name, cases, part.place), "given" if part.word == "input" else part.word)
    if part.said.startswith("written by "):
        return earlier(part.said[len("written by ") :], cases, part.place).output
    raise Fault(f"{part.place}: {part.word} file PATH, as CASE, or written by CASE")


def add(case, part, cases):
    """Adds a part to its case; lines that are replaced come later."""
    if part.word == "words":
        case.words = shlex.split(part.said)
    elif part.word == "status":
        case.status = int(part.said)
    elif part.word == "input":
        case.given = octets_named(part, cases)
    elif part.word == "puts":
        case.files[part.said] = part.text or b""
    elif part.word in ("output", "error"):
        setattr(case, part.word, ANY if part.said == "any" else octets_named(part, cases))
    else:
        raise Fault(f"{part.place}: unknown word {part.word}")


def made(name, told, program, group, cases):
    """A case of its parts."""
    case, words = Case(program, group, name), set()
    for part in (part for part in told if part.word != "line"):
        word = f"puts {part.said}" if part.word == "puts" else part.word
        if word in words:
            raise Fault(f"{part.place}: {word} twice")
        words.add(word)
        add(case, part, cases)
    case.given = with_lines(case.given, [part for part in told if part.word == "line"])
    if case.status == 3 and "error" not in words:
        case.error = ANY
    return case


def span(part, least, most):
    """The lines that a part replaces, as their first and last number."""
    first, _, last = part.said.partition("-")
    first, last = int(first), int(last or first)
    if not least < first <= last <= most:
        raise Fault(f"{part.place}: no such lines, or not in order")
    return first, last


def with_lines(base, told):
    """A text with the lines that parts name replaced by theirs; they are counted in the base, from 1."""
    *lines, rest = base.split(b"\n")
    made, done = [], 0
    for part in told:
        first, last = span(part, done, len(lines))
        made += [line + b"\n" for line in lines[done : first - 1]] + [part.text or b""]
        done = last
    return b"".join(made + [line + b"\n" for line in lines[done:]]) + rest


def cases_of(path):
    """The cases of a file, by their names."""
    cases, told = {}, parts(path)
    starts = [place for place, part in enumerate(told) if part.word == "case"]
    if starts[:1] != [0]:
        raise Fault(f"{path.relative_to(ROOT)}: no case, or something before the first")
    for start, end in zip(starts, starts[1:] + [len(told)]):
        name = told[start].said
        if name in cases or not re.fullmatch(r"[a-z0-9-]+", name):
            raise Fault(f"{told[start].place}: a name twice, or not of small letters, digits and hyphens")
        cases[name] = made(name, told[start + 1 : end], path.parent.name, path.stem, cases)
    return cases


def group(program, name):
    """The cases of one file."""
    return list(cases_of(FOLDER / program / f"{name}.cases").values())


def groups():
    """All files of cases, each by its program and its name."""
    return [(path.parent.name, path.stem) for path in sorted(FOLDER.glob("*/*.cases"))]
