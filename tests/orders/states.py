"""The states that the order `state` names by number, and a state as text."""
from rules.decoder import State

ESCAPES = ((False, -1, None), (False, 14, None), (False, -2, None), (True, 0, 5), (False, -1, 5), (False, 13, None),
           (False, 0, 5), (True, -1, None))
# Kind, want, left and number.
NUMBERS = (("int16", 2, 0, 0), ("int16", 2, 3, 0), ("int16", 2, 2, 0), ("int16", 2, 1, 0xFF), ("int16", 2, 1, 0x100),
           ("end", 0, 1, 0))
# Kind, want, left, stored, and a byte of the store with its place. A string has as many stored as collected.
STORED = (("string", 1, 2, -1, 0, 0), ("string", 257, 257, 0, 0, 0), ("string", 256, 256, 0, 0, 0), ("string", 1, 0, 1, 0, 0),
          ("string", 3, 1, 2, 1, 0x41), ("string", 3, 1, 2, 2, 0x41), ("body", 4, 2, 3, 0, 0), ("body", 4097, 4096, 1, 0, 0),
          ("body", 4, 2, 2, 1, 0x41), ("body", 4097, 4096, 0, 0, 0), ("body", 4, 2, 1, 1, 0x41), ("body", 4, 0, 0, 0, 0),
          (None, 0, 0, 0, 0, 1), (None, 0, 0, 0, 4095, 1), ("longcount", 4, 4, 0, 0, 0), ("longcount", 4, 1, 0, 0, 0),
          ("longcount", 4, 5, 0, 0, 0), ("body", 65536, 1, 0, 0, 0), ("body", 65536, 65537, 0, 0, 0),
          ("body", 2**32 - 1, 2**32 - 1, 0, 0, 0), ("body", 2**32 - 1, 2, 1, 0, 0))
MOST = len(ESCAPES) + len(NUMBERS) + len(STORED) - 1


def by_number(number):
    s = State()
    if number < len(ESCAPES):
        s.escaped, s.channel, s.pending = ESCAPES[number]
        return s
    number -= len(ESCAPES)
    if number < len(NUMBERS):
        s.kind, s.want, s.left, s.number = NUMBERS[number]
        return s
    s.kind, s.want, s.left, s.stored, at, byte = STORED[number - len(NUMBERS)]
    s.store[at] = byte
    return s


def token_text(s):
    if s.kind is None:
        return "between"
    if s.kind == "string":
        return "string left=%d of %d" % (s.left, s.want)
    if s.kind == "body":
        return "body left=%d of %d stored=%d" % (s.left, s.want, s.stored)
    return "number %s left=%d value=%08x" % (s.kind, s.left, s.number)


def inside_text(s):
    """What a state holds besides escaped, channel and node."""
    pending = "none" if s.pending is None else "%02x" % s.pending
    store = s.store.rstrip(b"\x00").hex() or "-"
    return " pending=%s token=%s store=%s" % (pending, token_text(s), store)
