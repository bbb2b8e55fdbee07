"""02, Job 4: a decoder state of version 1, and how it is carried over."""
from rules.decoder import BODY_LIMIT, State, is_sound
from rules.numbers import signed, signed_bytes, unsigned_bytes
from rules.refusal import refuse_if

SIZE = 27 + BODY_LIMIT
# The kinds of a number by the class's number in the bytes. Classes that begin no number make no sound state.
CLASSES = ("skipped", "integer", "string", "length", "int16", "int32", "float", "node", "end", "count", "longcount")
WIDTHS = {"length": 1, "int16": 2, "int32": 4, "float": 4, "node": 4, "skipped": 2, "count": 2, "longcount": 4}


def number(data, at):
    return int.from_bytes(data[at:at + 4], "big")


def token(s, data):
    """The token in progress: kind, class, wanted, left, stored, value; what it has not is 0."""
    kind, class_number = data[9], data[10]
    want, left, stored, value = (number(data, at) for at in (11, 15, 19, 23))
    if kind == 1:
        refuse_if(class_number >= len(CLASSES) or want or stored or left >= 2**16, 8)
        s.kind, s.left, s.number = CLASSES[class_number], left, value
        s.want = WIDTHS.get(s.kind, 0)
        return
    refuse_if(class_number or value, 8)
    refuse_if(kind > 3 or kind == 0 and (want or left or stored) or kind == 2 and stored, 8)
    # The counts had 16 bits.
    refuse_if(max(want, left, stored) >= 2**16, 8)
    s.kind, s.want, s.left = {0: None, 2: "string", 3: "body"}[kind], want, left
    s.stored = want - left if kind == 2 else stored


def earlier_state(data):
    """The state that bytes of version 1 say: version, escaped, channel, whether a byte is pending and which, node, token, store."""
    refuse_if(len(data) != SIZE or data[0] != 1 or data[1] > 1 or data[3] > 1 or (data[3] == 0 and data[4] != 0), 8)
    s = State()
    s.escaped = data[1] == 1
    s.channel = signed(data[2:3])
    s.pending = data[4] if data[3] else None
    s.node = signed(data[5:9])
    s.store = bytearray(data[27:])
    token(s, data)
    return s


def earlier_bytes(s):
    """The fields of a state under version 1, and the front of its store. Counts that had no room then are spelled in all their bytes."""
    kinds = {None: 0, "string": 2, "body": 3}
    kind = kinds.get(s.kind, 1)
    number_class = CLASSES.index(s.kind) if kind == 1 else 0
    pending = bytes([0, 0]) if s.pending is None else bytes([1, s.pending])
    counts = (0 if kind == 1 else s.want, s.left, s.stored if kind == 3 else 0, s.number if kind == 1 else 0)
    head = bytes([1, s.escaped]) + signed_bytes(s.channel, 1) + pending + signed_bytes(s.node, 4) + bytes([kind, number_class])
    return head + b"".join(unsigned_bytes(n, 4) for n in counts), bytes(s.store[:s.stored])


def carry_over(data):
    """02: "An old sound state is carried over with its units left, stored bytes and all else the same; one that has taken any of the
    four units after count 0, or isn't sound, gets 8"."""
    s = earlier_state(data)
    refuse_if(not is_sound(s), 8)
    refuse_if(s.kind == "longcount" and s.left < 4, 8)
    return s
