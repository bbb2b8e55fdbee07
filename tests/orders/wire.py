"""Orders on streams of bytes."""
from orders.compact import bits32, flag, refused
from orders.node import definition_text
from orders.states import MOST, by_number, inside_text
from orders.words import UINT16, UINT32, count, demand, hex_of, number
from rules.decoder import CALL_LIMIT, State, check_call, escape, events, is_sound, pending_unit
from rules.earlier import SIZE, carry_over
from rules.refusal import Refusal

FRONT = 63          # the longest front that the order streams takes
SPLIT = 4200        # the longest stream that the order splits takes
SHORT = 24          # the longest that it cuts into three pieces
SHORT_CUTS = 626    # the places of two cuts, 25 by 25, and byte by byte
REPEATED = 65600    # the most bytes that the order state makes


def value_text(node, value):
    kind, content = value
    return kind + bits32(node) + (bits32(content) if kind == "i" else content.hex())


def event_text(event):
    if event[0] == "value":
        return value_text(event[1], event[2])
    if event[0] == "body":
        return "b" + event[1].hex() + ":" + definition_text(event[1])
    return refused(event[1]) if event[0] == "refused" else "e"


def last_text(s):
    """Escaped, channel and node after the last byte, and whether a token waits."""
    return "." + flag(s.escaped) + bits32(s.channel) + bits32(s.node) + flag(s.kind is not None)


def events_text(s, data):
    return "".join(event_text(event) + "@" + bits32(at) for event, at in events(s, data))


def read_text(s, data):
    """Every event with the place reached, then the state. A call that is refused by itself ends it."""
    try:
        check_call(s, data)
    except Refusal as r:
        return refused(r.why) + "@" + bits32(0) + last_text(s)
    return events_text(s, data) + last_text(s)


def stream(data):
    demand(len(data) <= CALL_LIMIT)
    return read_text(State(), data)


def whole_text(data):
    """In pieces, so that no call is too long. 01: "Bytes that end inside a token leave it waiting", so the pieces do not tell."""
    s = State()
    return events_text(s, data) + last_text(s)


def pieces(size, data):
    """With pieces of no bytes nothing is ever handed over."""
    return whole_text(data if count(size, UINT16) > 0 else b"")


def piece_list(sizes, data):
    sizes = sizes.split(b",")
    demand(len(sizes) <= 64 and all(number(size, 1, UINT16) for size in sizes))
    return whole_text(data)


def streams(word):
    """The 256 streams that are one byte longer."""
    front = hex_of(word)
    demand(len(front) <= FRONT)
    return "".join(stream(front + bytes([last])) for last in range(256))


def units(word):
    s, text = State(), "units"
    for byte in hex_of(word):
        given = escape(s, byte)
        while given:
            text += " %02x%s" % (given[0], "+" if given[1] else "")
            given = pending_unit(s) if s.pending is not None else None
    return text + "; channel=%d escaped=%s" % (s.channel, flag(s.escaped))


def state(name, times, word):
    s, data = by_number(count(name, MOST)), hex_of(word)
    times = count(times, UINT32)
    demand(times * len(data) <= REPEATED)
    sound = flag(is_sound(s))
    return "sound=%s %s" % (sound, read_text(s, data * times)) + inside_text(s)


def earlier(head, store, word):
    """A state of version 1 by its fields and the front of its store, carried over; then a stream from it."""
    saved, data = hex_of(head) + hex_of(store), hex_of(word)
    try:
        s = carry_over(saved + bytes(max(0, SIZE - len(saved))))
    except Refusal as r:
        return refused(r.why)
    return "carried " + read_text(s, data) + inside_text(s)


def splits(word):
    """How many cuts are tried: this decoder goes by the byte, and 01 lets no cut tell."""
    length = len(hex_of(word))
    demand(length <= SPLIT)
    return "%d same" % (SHORT_CUTS if length <= SHORT else length + 1)


def lent(word):
    s = State()
    return read_text(s, hex_of(word)) + inside_text(s)


LONG = {b"stream": (1, stream), b"pieces": (2, pieces), b"piecelist": (2, piece_list)}
TABLE = {b"streams": ((1,), streams), b"units": ((1,), units), b"state": ((3,), state), b"splits": ((1,), splits), b"earlier": ((3,), earlier),
         b"lent": ((1,), lent)}
