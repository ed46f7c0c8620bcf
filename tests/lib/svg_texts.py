"""Texts of a picture by hsr_view, and the room that each takes on the paper."""
import html
import re
from dataclasses import dataclass
from itertools import combinations

# how wide letters of DejaVu Sans are, in parts of their size; any other letter is at most as wide as REST
LETTERS = dict(zip("abcdefghijklmnopqrstuvwxyz", [0.613, 0.635, 0.55, 0.635, 0.615, 0.352, 0.635, 0.634, 0.278, 0.278, 0.579, 0.278, 0.974,
                                                  0.634, 0.612, 0.635, 0.635, 0.411, 0.521, 0.392, 0.634, 0.592, 0.818, 0.592, 0.592, 0.525]))
LETTERS |= {digit: 0.636 for digit in "0123456789"} | {":": 0.337, "-": 0.361, " ": 0.318, ".": 0.318, ",": 0.318, ";": 0.337}
REST, BOLD = 0.79, 1.12

TEXT = re.compile(
    r'<text x="(\d+)" y="(\d+)" font-size="([\d.]+)" fill="[^"]*" text-anchor="(\w+)" font-weight="(\w+)"'
    r'( transform="rotate\(-90 \1 \2\)")?>(.*?)</text>'
)
SHADE = re.compile(r'<rect class="down" x="(\d+)" y="(\d+)" width="(\d+)" height="(\d+)" fill="#e3e3e3"/>')
SIZE = re.compile(r'<svg [^>]*width="(\d+)" height="(\d+)"')


@dataclass
class Box:
    """A text and its room: from left to right, and from top to bottom."""

    words: str
    left: float
    top: float
    right: float
    bottom: float

    def is_on(self, other):
        return self.left < other.right and other.left < self.right and self.top < other.bottom and other.top < self.bottom


def box_of(x, y, size, anchor, weight, turn, words):
    x, y, size = int(x), int(y), float(size)
    width = sum(LETTERS.get(letter, REST) for letter in words) * size * (BOLD if weight == "bold" else 1)
    before = {"start": 0, "middle": width / 2, "end": width}[anchor]
    over = size * (0.76 if re.search("[A-Zbdfhklt0-9]", words) else 0.56)
    under = size * (0.23 if re.search("[gjpqy,;()]", words) else 0)
    if turn:  # a quarter turn against the clock about the place: what lay at the right of it lies above
        return Box(words, x - over, y - width + before, x + under, y + before)
    return Box(words, x - before, y - over, x - before + width, y + under)


def boxes_of(picture):
    found = [(*match.groups()[:-1], html.unescape(match.group(7))) for match in TEXT.finditer(picture)]
    return [box_of(*parts) for parts in found if parts[-1].strip()]


def size_of(picture):
    """Its width and height."""
    return tuple(map(int, SIZE.search(picture).groups()))


def shades_of(picture):
    """The places of all shades: left, top, width and height."""
    return [tuple(map(int, match.groups())) for match in SHADE.finditer(picture)]


def beyond(picture):
    """The texts that run out of the picture."""
    width, height = size_of(picture)
    return [box.words for box in boxes_of(picture) if box.left < 0 or box.right > width or box.bottom > height]


def collisions(picture):
    """The pairs of texts of which one lies on the other."""
    return [(box.words, other.words) for box, other in combinations(boxes_of(picture), 2) if box.is_on(other)]
