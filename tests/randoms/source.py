"""Random bytes: fields, strings, definitions, tokens and streams. Bytes that tell come more often than chance has it."""
from rules.command import escaped
from rules.numbers import signed_bytes, unsigned_bytes

IDS = (0, 1, 2, 3, 5, 100, 223, 0xDF00, 0x7FFFFFFF, -1, -2, -3, -33, -0x21000000, -0x20202021, -0x80000000, 0x00DFDEDF)
INTEGERS = (0, 1, 62, 63, 64, 65, 222, 223, 224, -1, -33, 32767, 32768, -32768, -32769, 0xDF, 0xDFDF, 0xDF00, -0x20202021,
            2**31 - 1, -2**31)
LETTERS = ("a", "B", "0", "ß", "é", "€", "漢", "\U0001F39A", "\x7f", "\x00", "\u07ff", "\u0800", "\ud7ff", "\ue000", "\uffff",
           "\U00010000", "\U0010ffff")
BROKEN = (b"\x80", b"\xbf", b"\xc0\x80", b"\xc1\xbf", b"\xed\xa0\x80", b"\xed\xbf\xbf", b"\xe0\x80\x80", b"\xe0\x9f\xbf",
          b"\xf4\x90\x80\x80", b"\xf0\x80\x80\x80", b"\xf0\x8f\xbf\xbf", b"\xf5\x80\x80\x80", b"\xf8\x88\x80\x80\x80", b"\xff",
          b"\xc3", b"\xe2\x82", b"\xf0\x9f\x8e", b"\xdf", b"\xdf\xdf", b"\xc3\xc3", b"\xc2", b"\xe0", b"\xe0\xa0", b"\xe2", b"\xed\x9f",
          b"\xef\xbf", b"\xf0", b"\xf0\x90", b"\xf0\x90\x80", b"\xf0\x9f", b"\xf4\x8f", b"\xf4\x8f\xbf", b"\xc3\xa9\x80",
          b"\xe2\x82\xac\xbf", b"\xf0\x9f\x98\x80\x80", b"\xe2\x82\xc3\xa9", b"\xf0\x9f\xe2\x82\xac")
LENGTHS = (0, 1, 1, 2, 3, 15, 16, 17, 63, 64, 65, 222, 223, 224, 225, 255, 256, 257)
# Bytes that the decoder tells apart.
TELLING = (0xDF,) * 6 + (0xDE,) * 4 + tuple(range(0xD0, 0xDE)) + (0xD7,) * 4 + (0x00, 0x01, 0x3F, 0x40, 0x7F, 0x80, 0x81, 0xBF,
                                                                           0xC0, 0xCF, 0xE0, 0xFF)
NO_EVENT = (0x40, 0x7F, 0xD8, 0xDA, 0xDB, 0xDC, 0xDD, 0xE0, 0xFF)
LINE_BYTES = 8100       # the most bytes whose pairs fit a line with any order's other words


class Source:
    def __init__(self, rng):
        self.r = rng
        self.ids = list(IDS)

    def chance(self, p):
        return self.r.random() < p

    def pick(self, *choices):
        return self.r.choice(choices)

    def field(self, width):
        """Bytes of a number, df among them more often than chance has it."""
        return bytes(self.pick(0xDF, 0x00, 0xFF, self.r.randrange(256)) for _ in range(width))

    def telling(self, most):
        return bytes(self.r.choice(TELLING) for _ in range(self.r.randrange(most + 1)))

    def int32(self):
        return self.pick(self.r.choice(INTEGERS), self.r.choice(INTEGERS), self.r.randrange(-2**31, 2**31),
                         self.r.randrange(-40000, 40000))

    def uint16(self):
        return self.pick(0, 1, 222, 223, 224, 0xDF00, 0xDFDF, 65534, 65535, self.r.randrange(65536))

    def node(self):
        return self.r.choice(self.ids) if self.chance(0.9) else self.r.randrange(-2**31, 2**31)

    def good_text(self, length):
        """UTF-8 of this many bytes."""
        out = b""
        while len(out) < length:
            letter = self.r.choice(LETTERS).encode() if self.chance(0.4) else b"x"
            out += letter if len(out) + len(letter) <= length else b"y"
        return out

    def broken(self, text, most):
        """With a fault somewhere; no longer than this. The fault may end the string, and may stand inside a character of it."""
        wrong = self.r.choice(BROKEN)
        at = self.r.randrange(max(min(len(text), most - len(wrong)), 0) + 1)
        rest = b"" if self.chance(0.2) else text[at + len(wrong):]
        return (text[:at] + wrong + rest)[:most]

    def text(self, most, faults=0.15):
        length = min(self.pick(self.r.choice(LENGTHS), self.r.randrange(most + 1)), most)
        text = self.good_text(length)
        return self.broken(text, most) if self.chance(faults) else text

    def name(self, faults=0.02):
        """As it stands in a definition. A body has many of these, so faults are rare in each."""
        text = self.text(20 if self.chance(0.95) else 255, faults)
        return bytes([len(text)]) + text

    def damaged(self, data, times):
        """Some bytes put in, left out or changed."""
        out = bytearray(data)
        for _ in range(times):
            at = self.r.randrange(len(out) + 1)
            how = self.r.randrange(3)
            out[at:at + (how > 0)] = b"" if how == 1 else bytes([self.pick(self.r.choice(TELLING), self.r.randrange(256))])
        return bytes(out)

    def item(self, kind, faults=0.02):
        return (self.name(faults) if kind == 5 else self.field(4)) + self.name(faults)

    def details(self, kind, faults):
        """What stands after the flags, by the type."""
        if kind in (5, 6):
            items = self.pick(0, 1, 2, 3, self.r.randrange(12))
            count = items if self.chance(0.93) else self.pick(items + 1, 65535, max(items - 1, 0))
            return unsigned_bytes(count, 2) + b"".join(self.item(kind, faults) for _ in range(items))
        return self.field({1: 12, 2: 12, 4: 8, 7: 2}.get(kind, 0))

    def enumeration(self):
        """A definition with items."""
        return self.good_definition(self.pick(5, 6))

    def broken_definition(self):
        """With a string that is not UTF-8, or some, or none: either name or a string of any item; of all types, enums mostly."""
        return self.good_definition(self.pick(None, 5, 6), self.pick(0.1, 0.3))

    def good_definition(self, of_type=None, faults=0.02):
        kind = of_type or (self.r.randrange(8) if self.chance(0.9) else self.r.randrange(16))
        flags = kind * 16 + self.r.randrange(16) + self.pick(0, 512) + self.pick(0, 0, 256, 1024, 0xFC00)
        return self.field(10) + self.name(faults) + self.name(faults) + unsigned_bytes(flags, 2) + self.details(kind, faults)

    def definition(self):
        body = self.broken_definition() if self.chance(0.15) else self.good_definition()
        how = self.r.random()
        if how < 0.15:
            return body[:self.r.randrange(len(body) + 1)]
        if how < 0.25:
            return body + self.field(self.r.randrange(4))
        return self.damaged(body, 1) if how < 0.35 else body

    def string_units(self):
        """The units of a string token."""
        form = self.pick("80", "80", "c0", "d1")
        text = self.text({"80": 64, "c0": 16, "d1": 256}[form]) or b"a"
        if form == "d1":
            return b"\xd1" + bytes([len(text) - 1]) + text
        return bytes([int(form, 16) + len(text) - 1]) + text

    def value_units(self):
        """The units of a value token."""
        return self.pick(lambda: bytes([self.r.randrange(0x40)]), lambda: b"\xd3" + self.field(2), lambda: b"\xd4" + self.field(4),
                         lambda: bytes([self.pick(0xD5, 0xD6)]) + self.field(4), lambda: b"\xd0", self.string_units,
                         self.string_units)()

    def count_units(self, count):
        """df and a count, now and then as 02's long one."""
        if count > 65535 or self.chance(0.3):
            return b"\xdf\x00\x00" + unsigned_bytes(count, 4)
        return b"\xdf" + unsigned_bytes(count, 2)

    def body_units(self):
        body = self.definition()
        count = len(body) if self.chance(0.9) else self.pick(0, len(body) + 1, max(len(body) - 1, 0))
        return self.count_units(count) + body

    def wide_body_units(self):
        """A count around 01's limit. A longer one comes to its end only in another feed, or never."""
        count = self.pick(4095, 4096, 4097, 4098, 6000)
        if self.chance(0.1):
            return self.count_units(self.pick(65535, 65536, 65537, 70000, 2**24 + 5, 2**32 - 1)) + self.good_definition()
        return self.count_units(count) + (self.good_definition() + bytes(count))[:count]

    def token_units(self):
        kind = self.r.random()
        if kind < 0.6:
            return b"\xd7" + signed_bytes(self.node(), 4) + self.value_units()
        if kind < 0.7:
            return self.value_units()
        if kind < 0.82:
            return self.body_units()
        return self.pick(lambda: b"\xde", lambda: b"\xdf\x00\x00" + self.field(4), lambda: b"\xd2" + self.field(2),
                         lambda: b"\xd9" + self.field(1), lambda: bytes([self.r.choice(NO_EVENT)]))()

    def token(self):
        """A token as bytes: escaped as a console does, or some df left bare."""
        units = self.token_units() if not self.chance(0.004) else self.wide_body_units()
        out = escaped(units) if self.chance(0.8) else units
        return out + bytes([0xDF, self.r.choice(TELLING)]) if self.chance(0.06) else out

    def stream(self, tokens=12):
        if self.chance(0.1):
            return self.telling(60)
        channel = bytes([0xDF, self.pick(0xD0, 0xD1, 0xD1, 0xD5, 0xDD)]) if self.chance(0.7) else b""
        data = channel + b"".join(self.token() for _ in range(self.r.randrange(1, tokens + 1)))
        data = self.damaged(data, self.pick(0, 0, 0, 0, 1, 1, 3))
        return data[:self.r.randrange(len(data) + 1)] if self.chance(0.2) else data

    def short_stream(self, most):
        return self.stream()[:self.r.randrange(most + 1)]

    def cuts(self, data):
        """The data in pieces, empty ones among them."""
        at = sorted(self.r.randrange(len(data) + 1) for _ in range(self.pick(0, 0, 1, 2, 4)))
        if self.chance(0.02):
            at = list(range(min(len(data), 40)))
        return [data[a:b] for a, b in zip([0] + at, at + [len(data)])]
