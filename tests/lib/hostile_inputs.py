"""Inputs that no friend would give. A stream is a shell's words that write it; all others are octets."""
import random
import struct

from lib.scenarios import GROUP, ring, send

LONG_LINE = "head -c 1000000000 /dev/zero | tr '\\0' a"  # 1 GB without an end
GB_3 = 3_000_000_000
MIB_16 = 16 * 1024 * 1024


def zeros(octets):
    """The words that give so many zeros."""
    return f"head -c {octets} /dev/zero"


ZEROS = zeros(GB_3)


def random_octets():
    return random.Random(1).randbytes(10**7)


def open_brackets():
    return b"node = " + b"[" * 100_000 + b"\n"


def brackets():
    return b"node = " + b"[" * 100_000 + b"]" * 100_000 + b"\n"


def keys():
    return "".join(f"k{number} = 0\n" for number in range(1, 500_001)).encode()


def keys_of_a_node():
    return ("node = [{" + "".join(f"k{number} = 0, " for number in range(1, 500_000)) + "k = 0}]\n").encode()


def dotted_key():
    """A key of 100,000 parts, which is deeper than tables may stand in one another."""
    return b"a" + b".a" * 100_000 + b" = 0\n"


def padded(size):
    """A ring and a send to all, drained, in `size` octets: the last line is a comment."""
    text = ring(3, 64) + "step = [" + send(GROUP) + '{do="drain"}]\n#'
    return text.encode().ljust(size, b"x")


def many_steps():
    """Steps of the clock and of a node that drops what is expired, one after the other."""
    steps = "".join(f'{{do="clock", at={at}}},\n{{do="age", node="n1"}},\n' for at in range(100_000))
    return (ring(3, 64) + "step = [\n" + steps + "]\n").encode()


def one_send():
    return ring(3, 64) + "step = [" + send(GROUP) + '{do="drain"},\n]'


def many_cuts():
    """The scenario of one send, followed by cuts of a link: its plan is the same."""
    return one_send().removesuffix("]") + '{do="cut", link=0},\n' * 200_000 + "]"


def lines(size):
    """`size` octets of lines for `node`."""
    return (b"age 0\n" * (size // 6 + 1))[:size]


# ---- plans


def large_ring():
    return ("ring = [" + ", ".join(f'"n{number}"' for number in range(50_000)) + "]\n").encode()


def many_rings():
    return ("[rings]\n" + "".join(f'r{number} = ["a{number}", "b{number}"]\n' for number in range(100_000))).encode()


def plan_of(streams):
    """A plan of two nodes that ends late, and its streams from the fourth line on, each of as many frames as there is time for."""
    return ('ring = ["a", "b"]\nuntil_us = 1099511627776\nlife_ms = 0\n' + "".join(f'[[stream]]\n{stream}to = "01-0C-CD-01-00-01"\ntype = 1\n' for stream in streams)).encode()


def many_senders(count):
    return plan_of(["from = [" + ", ".join(['"a"'] * count) + "]\nevery_us = 1\n"])


def many_small_streams():
    """Streams that send once, all in the first moment."""
    stream = '[[stream]]\nfrom = "a"\nto = "01-0C-CD-01-00-01"\ntype = 1\nevery_us = 1\ncount = 1\n'
    return ('ring = ["a", "b"]\nuntil_us = 1000000\nlife_ms = 0\n' + stream * 200_000).encode()


def many_streams():
    """Each but the first sends too much by itself; the first sends once."""
    return plan_of(['from = "a"\nevery_us = 1\ncount = 1\n'] + ['from = "a"\nevery_us = 1\n'] * 2000)


def cut_packets(length, count=2**20):
    """A capture of packets of which nothing was captured."""
    head = struct.pack("<IHHiIII", 0xA1B2C3D4, 2, 4, 0, 0, 65535, 1)
    return head + struct.pack("<IIII", 0, 0, 0, length) * count


def many_sources(count):
    """A capture of a tagged frame of each of so many sources, a microsecond apart."""
    text = struct.pack("<IHHiIII", 0xA1B2C3D4, 2, 4, 0, 0, 65535, 1)
    for at in range(count):
        source = b"\2\0\0\0" + struct.pack(">H", at)
        octets = bytes.fromhex("010CCD010001") + source + struct.pack(">HHHH", 0x892F, 52, 0, 0x88B8) + bytes(46)
        text += struct.pack("<IIII", 0, at, len(octets), len(octets)) + octets
    return text
