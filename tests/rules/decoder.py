"""01, 'Escapes' and 'Tokens', with 02's rule on counts: a console's bytes become units, and units become events."""
from rules.numbers import signed, unsigned
from rules.refusal import Why, not_utf8, refuse_if

BODY_LIMIT = 4096       # 01: "body (4,096 bytes)"; a count over it is refused
CALL_LIMIT = 65536      # 01: "The next call takes up to 65,536 bytes"

# Units that a token wants after its first one, of the kinds whose units spell a number. d2 wants two and d9 one.
NUMBERS = {"length": (1,), "int16": (2,), "int32": (4,), "float": (4,), "node": (4,), "skipped": (1, 2), "count": (2,),
           "longcount": (4,)}

# 01's table, of the first units that begin such a token.
FIRST = {0xD1: ("length", 1), 0xD2: ("skipped", 2), 0xD3: ("int16", 2), 0xD4: ("int32", 4), 0xD5: ("float", 4),
         0xD6: ("float", 4), 0xD7: ("node", 4), 0xD9: ("skipped", 1), 0xDF: ("count", 2)}


class State:
    """01: "A fresh state is unescaped, channel −1, nothing pending, current node 0, between tokens"."""

    def __init__(self):
        self.escaped = False
        self.channel = -1
        self.pending = None
        self.node = 0
        self.kind = None        # of the token in progress; None between tokens
        self.want = 0           # the units that the token wants after its first one (and a body after its count)
        self.left = 0           # how many of them are still to come
        self.number = 0         # what the others spell, of the kinds in NUMBERS
        self.stored = 0         # the bytes stored: a string's units, or what a body's units appended
        self.store = bytearray(BODY_LIMIT)

    def collected(self):
        return self.want - self.left


def is_sound_escape(s):
    """01: "channel −1 to 13; a pending byte only when unescaped with channel at least 0"."""
    if not -1 <= s.channel <= 13:
        return False
    return s.pending is None or (not s.escaped and s.channel >= 0)


def can_want(s):
    """Whether a token of this kind can want so many units, and can spell such a number so far."""
    if s.kind == "string":
        return 1 <= s.want <= 256
    if s.kind == "body":
        return 1 <= s.want <= 0xFFFFFFFF
    return s.want in NUMBERS.get(s.kind, ()) and 0 <= s.number < 256 ** s.collected()


def is_sound_token(s):
    """01: "fewer units collected than its token wants; no more bytes stored than units collected; a string's stored bytes
    exactly as many as its string units collected; none stored for a body whose count is over 4,096"."""
    if s.kind is None:
        return s.stored == 0
    if not 0 <= s.collected() < s.want or not can_want(s):
        return False
    if s.kind == "string":
        return s.stored == s.collected()
    if s.kind == "body" and s.want <= BODY_LIMIT:
        return s.stored <= s.collected()
    return s.stored == 0


def is_sound(s):
    """01's sound states; the last part is "unused store bytes 0"."""
    return is_sound_escape(s) and is_sound_token(s) and s.store.count(0, s.stored) == BODY_LIMIT - s.stored


def escape(s, byte):
    """One byte through the escapes: (unit, whether it is appended), or None for no unit."""
    if not s.escaped:
        if byte == 0xDF:
            s.escaped = True
            return None
        return byte, True
    if byte == 0xDF:
        return 0xDF, False
    s.escaped = False
    if byte == 0xDE:
        return 0xDF, True
    if 0xD0 <= byte <= 0xDD:
        s.channel = byte - 0xD0
        return None
    if s.channel >= 0:
        s.pending = byte
        return 0xDF, True
    return byte, True


def pending_unit(s):
    """01: "A pending byte is the next unit and is appended to the body"."""
    byte = s.pending
    s.pending = None
    return byte, True


def begin(s, kind, want):
    s.kind, s.want, s.left, s.number = kind, want, want, 0


def end(s):
    """Between tokens, with nothing stored."""
    begin(s, None, 0)
    s.store[:s.stored] = bytes(s.stored)
    s.stored = 0


def store(s, unit):
    s.store[s.stored] = unit
    s.stored += 1


def first(s, unit):
    """The first unit of a token: an event that it is by itself, or None."""
    if unit <= 0x3F:
        return "value", s.node, ("i", unit)
    if 0x80 <= unit <= 0xBF:
        begin(s, "string", unit - 0x80 + 1)
    elif 0xC0 <= unit <= 0xCF:
        begin(s, "string", unit - 0xC0 + 1)
    elif unit == 0xD0:
        return "value", s.node, ("s", b"")
    elif unit == 0xDE:
        return ("end",)
    elif unit in FIRST:
        begin(s, *FIRST[unit])
    return None


def collect(s, unit, appended):
    """One unit more of the token in progress."""
    s.left -= 1
    if s.kind == "string":
        store(s, unit)
    elif s.kind == "body":
        if appended and s.want <= BODY_LIMIT:
            store(s, unit)
    else:
        s.number = s.number * 256 + unit


def string_event(s, data):
    why = not_utf8(data, 1)
    return ("refused", why) if why else ("value", s.node, ("s", data))


def body_event(want, data):
    """01: "Count over 4,096 reads all c units, then answers 2"; 02: "2 that the count in force is over 4,096"."""
    return ("body", data) if want <= BODY_LIMIT else ("refused", Why(2))


def number_event(s, kind, number, want):
    """A token of NUMBERS that is whole: its event, or None and what it does to the state."""
    data = number.to_bytes(want, "big")
    if kind in ("int16", "int32"):
        return "value", s.node, ("i", signed(data))
    if kind == "float":
        return "value", s.node, ("f", data)
    if kind == "longcount" and number == 0:
        return "refused", Why(3)    # 02: "Refusal 3 now means that both counts are 0"
    if kind == "node":
        s.node = signed(data)
    elif kind == "length":
        begin(s, "string", unsigned(data) + 1)
    elif kind == "count" and number == 0:
        begin(s, "longcount", 4)
    elif kind in ("count", "longcount"):
        # 02: "count 0 and then a 32-bit count .. the 32-bit count is the count".
        begin(s, "body", number)
    return None


def take(s, unit, appended):
    """One unit: the event or refusal that it completes, or None."""
    if s.kind is None:
        return first(s, unit)
    collect(s, unit, appended)
    if s.left > 0:
        return None
    kind, want, number, data = s.kind, s.want, s.number, bytes(s.store[:s.stored])
    end(s)
    if kind == "string":
        return string_event(s, data)
    if kind == "body":
        return body_event(want, data)
    return number_event(s, kind, number, want)


def advance(s, data, at):
    """From a place on up to the first event or refusal: that one, or None for "more", and the place reached."""
    while s.pending is not None or at < len(data):
        if s.pending is not None:
            given = pending_unit(s)
        else:
            given = escape(s, data[at])
            at += 1
        event = take(s, *given) if given else None
        if event:
            return event, at
    return None, at


def check_call(s, data):
    """What next and feed are refused for: 8, then 14."""
    refuse_if(not is_sound(s), 8)
    refuse_if(len(data) > CALL_LIMIT, 14)


def events(s, data):
    """Next until "more": every event with the place reached. After each of them the state is sound and less is left, so
    that the calls after the first are not refused."""
    at = 0
    while True:
        event, at = advance(s, data, at)
        if event is None:
            return
        yield event, at
