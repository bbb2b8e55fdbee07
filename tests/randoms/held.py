"""Bytes held over some lines, and the orders that take them."""
from orders.words import pairs
from randoms.odd import ODD
from randoms.single import Single
from randoms.source import LINE_BYTES
from rules.command import escaped
from rules.numbers import unsigned_bytes

# Orders out of form: they leave the bytes as they are.
LEAVING = ("packet 4201 +", "pieces 65536 +", "piecelist 0 +", "piecelist 1, +", "stream + ", "sum more 00", "more 0", "units +",
           "sum units +", "lent +", "feed +", "stream ++", "more +", "sum sum stream +", "definition + +", "load +",
           "lines +", "loads 1 +", "mores 1 +", "sum mores 1 00", "mores 1", "mores 65601 00", "earlier - - +")
# Around the most bytes of one call of next, and around the most that are held.
FULL = (65535, 65536, 65537, 65540, 69999, 70000, 79999, 80000, 80001, 85000)


def more_lines(source, data):
    """The bytes in lines, some of them empty, with lines in between that leave the bytes held as they are."""
    lines = []
    for piece in source.cuts(data):
        for at in range(0, max(len(piece), 1), LINE_BYTES):
            lines.append("more " + pairs(piece[at:at + LINE_BYTES]))
            if source.chance(0.2):
                lines.append(source.pick("# between", "", "dump", "new 2", "stream 05", source.r.choice(LEAVING), source.r.choice(ODD)))
    return lines


def wide_definition(source):
    """A definition whose items do not fit a line, mostly."""
    kind, count = source.pick(5, 6), source.pick(300, 1000, source.r.randrange(3000))
    items = b"".join((bytes([0]) if kind == 5 else source.field(4)) + source.pick(b"\x00", b"\x01x", b"\x02\xc3\xa9")
                     for _ in range(count))
    body = source.field(10) + bytes(2) + unsigned_bytes(kind * 16, 2) + unsigned_bytes(count, 2) + items
    return source.damaged(body, source.pick(0, 0, 1))


def stream_of(source, size):
    data = b""
    while len(data) < size:
        data += source.stream()
    return data[:size]


def some(source):
    """Bytes for one order, and that order; now and then an order out of form before it, and after it the same with none held."""
    single = Single(source)
    order, data = source.pick(
        ("stream +", stream_of(source, source.r.randrange(20000))),
        ("pieces %d +" % source.pick(1, 7, 4096), stream_of(source, source.r.randrange(20000))),
        ("piecelist %s +" % single.size_list(), stream_of(source, source.r.randrange(20000))),
        ("definition +", source.pick(source.definition(), wide_definition(source))),
        ("packet %d +" % source.pick(4093, 4094, 4095, 4200),
         source.r.randbytes(source.pick(8190, 8191, 8192, 8193, source.r.randrange(9000)))))
    order = source.pick("", "sum ") + order
    before = [source.r.choice(LEAVING)] if source.chance(0.3) else []
    return more_lines(source, data) + before + [order] + ([order] if source.chance(0.2) else [])


def full(source):
    """As many bytes as are held at most, about; past 65,536 they are too many for one call of next, and stay for the pieces."""
    single, size = Single(source), source.r.choice(FULL)
    lines = more_lines(source, stream_of(source, size))
    last = source.pick("pieces %d +" % source.pick(4096, 65535), "piecelist %s +" % single.size_list())
    return ["stream +"] + lines + ["more " + pairs(bytes(source.pick(1, 100)))] + ["sum stream +", "sum " + last, "stream +"]


def long_body(source):
    """A body whose count comes as 02's long one, around the limits of 16 bits and of the store, and the tokens after it."""
    count = source.pick(0, 1, 4095, 4096, 4097, 65534, 65535, 65536, 65537, 70000)
    front = source.short_stream(40) + escaped(b"\xdf\x00\x00" + unsigned_bytes(count, 4))
    unit = source.pick(b"A", b"\xdf\xde", b"\xdf\xdf", b"\xdf\xd4A")
    times = min(count, 60000 // len(unit)) if len(unit) > 1 else count
    lines = ["more " + pairs(front), "mores %d %s" % (min(times, 60000), pairs(unit)), "mores %d 42" % max(0, min(times - 60000, 15000))]
    size = source.pick(1, 2, 3, 7, 8, 100, 4096, 65535, source.r.randrange(1, 65536))
    return lines + ["more " + pairs(source.short_stream(40)), source.pick("sum pieces %d +" % size, "pieces %d +" % size)]


def held(source):
    if source.chance(0.15):
        return full(source)
    return long_body(source) if source.chance(0.2) else some(source)
