"""What GOOSE and sampled values of a plan say, by the words of docs/REFERENCE.md alone: names, APPIDs, and each payload, octet by octet."""

BLOCKS = {"goose": "gcb", "sv": "msvcb"}
FIRST, BEHIND = {"goose": 1, "sv": 0x4000}, {"goose": 0x4000, "sv": 0x8000}
SECOND = 1000000
NO_BOUND, NO_END = 1 << 40, 1 << 41
LONGEST = 1500


def field(tag, value):
    size = len(value)
    length = [size] if size < 128 else [0x81, size] if size < 256 else [0x82, *size.to_bytes(2, "big")]
    return bytes([tag, *length]) + value


def integer(number):
    return number.to_bytes(number.bit_length() // 8 + 1, "big")


def longest_gap(stream, until):
    """The longest gap of a stream by gaps that has this end."""
    first, grow, most = stream["every_us"], stream.get("grow", 1), stream.get("most_us", NO_BOUND)
    if grow == 1:
        return min(first, most)
    if most < NO_BOUND:
        return most
    starts = stream.get("start_us", 0)
    at, gap, sent = starts[0] if isinstance(starts, list) else starts, first, 1
    moments = [at]
    while sent < stream.get("count", NO_END) and at + gap < until:
        at, gap, sent = at + gap, min(gap * grow, NO_BOUND), sent + 1
        moments.append(at)
    return moments[-1] - moments[-2] if len(moments) > 1 else first


def count_of(stream):
    return len(stream["from"]) if isinstance(stream["from"], list) else 1


class Published:
    """What a stream publishes: its number among those of its kind, and how many senders those before it have."""

    def __init__(self, plan, stream, number, senders):
        self.kind, self.stream, self.epoch = stream["type"], stream, plan.get("epoch", 0)
        ends = [end for end in (plan.get("until_us"), stream.get("until_us")) if end is not None]
        self.until = min(ends, default=NO_END)
        self.first = stream.get("appid", FIRST[self.kind] + senders)
        self.appids = range(self.first, self.first + count_of(stream))
        self.behind = 0x10000 if "appid" in stream else BEHIND[self.kind]
        self.block = stream.get("control_block", f"{BLOCKS[self.kind]}{number}")
        self.set = stream.get("data_set", f"ds_{self.kind}{number}")

    def names(self, sender):
        """Reference of the control block, id, reference of the data set."""
        said = self.stream.get("id", f"{sender}_{self.block}")
        return f"{sender}/LLN0$GO${self.block}".encode(), said.encode(), f"{sender}/LLN0${self.set}".encode()

    def goose(self, sender, state, count, spare):
        block, said, data = self.names(sender)
        starts = self.stream.get("start_us", 0)
        since = self.epoch * SECOND + (starts[state] if isinstance(starts, list) else starts)
        seconds, rest = divmod(since, SECOND)
        time = (seconds % (1 << 32)).to_bytes(4, "big") + (rest * (1 << 24) // SECOND).to_bytes(3, "big") + b"\x0a"
        live = -(-2 * longest_gap(self.stream, self.until) // 1000)
        fields = [(0x80, block), (0x81, integer(live)), (0x82, data), (0x83, said), (0x84, time), (0x85, integer(state + 1)), (0x86, integer(count))]
        fields += [(0x87, b"\0"), (0x88, b"\1"), (0x89, b"\0"), (0x8A, b"\2"), (0xAB, field(0x83, bytes([state % 2])) + field(0x89, bytes(spare)))]
        return field(0x61, b"".join(field(tag, value) for tag, value in fields))

    def samples(self, sender, count, spare):
        _, said, data = self.names(sender)
        rate, asdus = self.stream.get("smp_rate"), self.stream.get("asdus", 1)
        whole = b""
        for number in range(count * asdus, count * asdus + asdus):
            fields = [(0x80, said), (0x81, data), (0x82, (number % (rate or 4000)).to_bytes(2, "big")), (0x83, b"\0\0\0\1"), (0x85, b"\2")]
            whole += field(0x30, b"".join(field(tag, value) for tag, value in [*fields, (0x87, bytes(64 + 8 * spare))]))
        return field(0x60, field(0x80, bytes([asdus])) + field(0xA2, whole))

    def shaped(self, sender, state, count, spare):
        """The payload with so much more than the shortest one."""
        pdu = self.goose(sender, state, count, spare) if self.kind == "goose" else self.samples(sender, count, spare)
        senders = self.stream["from"] if isinstance(self.stream["from"], list) else [self.stream["from"]]
        return self.appids[senders.index(sender)].to_bytes(2, "big") + (len(pdu) + 8).to_bytes(2, "big") + bytes(4) + pdu

    def payload(self, sender, state, count):
        size, spare = self.stream.get("size", 0), 0
        while len(self.shaped(sender, state, count, spare + 1)) <= size:
            spare += 1
        return self.shaped(sender, state, count, spare)

    def shortest(self, sender):
        return len(self.shaped(sender, 0, 0, 0))


def published(plan):
    """Of each stream of a plan what it publishes, or None."""
    streams, senders = {"goose": 0, "sv": 0}, {"goose": 0, "sv": 0}
    for stream in plan.get("stream", []):
        kind = stream["type"]
        if kind not in BLOCKS:
            yield None
            continue
        streams[kind] += 1
        yield Published(plan, stream, streams[kind], senders[kind])
        senders[kind] += count_of(stream)


def reasons(plan):
    """Why a plan's streams may not publish what they say, each by words of a fault's line."""
    taken = set()
    for stream, one in zip(plan.get("stream", []), published(plan)):
        if one is None:
            continue
        if one.appids.stop > one.behind or taken & set(one.appids):
            yield "the APPID is another's:"
            return  # what comes behind isn't formed
        taken |= set(one.appids)
        for sender in stream["from"] if isinstance(stream["from"], list) else [stream["from"]]:
            least = one.shortest(sender)
            if least > LONGEST:
                yield "octets at least for this sender"
            elif "size" in stream and stream["size"] < least:
                yield "a size below the shortest payload of this type:"
