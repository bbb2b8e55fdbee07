"""Definitions to be written, from fields and anew: good ones, and those that meet a refusal or some at once."""
from orders.define import ROOM
from orders.words import UINT16, pairs
from randoms.source import LINE_BYTES
from rules.define import BODY_LIMIT, NAME_LIMIT, Given, body_of, kept, name_bytes, read, write, written_anew
from rules.definition import FLOAT_ENUM, STRING_ENUM, Definition, has_items
from rules.numbers import unsigned, unsigned_bytes
from rules.refusal import Refusal

OVER_SEVEN = (8, 9, 12, 15, 16, 21, 128, 255)
LONG_NAMES = (256, 256, 257, 300)
SIZES = (4095, 4096, 4096, 4097, 4097, 4098, 6000)        # of a body, around the most
UNUSED = 0xFD00         # of the flags: all but type, unit and read-only
OVER = 0x88             # the bits that make a type and a unit over 7
# Flags to be altered by: each unused bit, read-only, type and unit over 7, and some at once.
FLIPS = (0x0100, 0x0400, 0x0800, 0x1000, 0x2000, 0x4000, 0x8000, 0x0200, 0x0080, 0x0080, 0x0008, 0x0008, 0x0088, 0xFD00, 0xFFFF)
LEAST_ITEM, WIDEST_ITEM = 5, 260        # of those that are made by their size: of either enum there is one of each size


def flags_at(g):
    return 12 + len(g.name) + len(g.long_name)


def one_more(g):
    return min(g.count + 1, UINT16)


def check_reading_back(g, body):
    """02: "What it writes reads back as the same fields, those its type lacks left out"."""
    assert read(body) == kept(g), "the model breaks 02: what is written reads back as other fields"


def check_anew(body, written):
    """02: "the same bytes exactly when the type and unit bits of its flags are below 8 each, its unused flag bits are 0 and no
    bytes follow its last field"."""
    at = flags_at(read(body))
    plain = unsigned(body[at:at + 2]) & (UNUSED | OVER) == 0 and len(body) == Definition(body).end
    assert (written == body) == plain, "the model breaks 02: a body written anew"


class Definitions:
    def __init__(self, source):
        self.s = source
        self.r = source.r

    def name(self):
        return self.s.good_text(self.s.pick(0, 1, 1, 3, 8, 20, self.r.randrange(256), self.s.pick(254, NAME_LIMIT, NAME_LIMIT)))

    def kind(self):
        return self.s.pick(STRING_ENUM, FLOAT_ENUM) if self.s.chance(0.4) else self.r.randrange(8)

    def fields(self, kind, items):
        return Given(self.s.int32(), self.s.int32(), self.s.uint16(), kind, self.r.randrange(8), self.r.randrange(2),
                     self.s.field(4), self.s.field(4), self.s.int32(), len(items), self.s.uint16(), self.name(), self.name(),
                     b"".join(items))

    def narrow(self):
        """Of any type, with few items."""
        kind = self.kind()
        items = self.s.pick(0, 1, 2, 3, self.r.randrange(12)) if has_items(kind) else 0
        return self.fields(kind, [self.s.item(kind) for _ in range(items)])

    def item(self, kind, size):
        """An item of so many bytes."""
        if kind == FLOAT_ENUM:
            return self.s.field(4) + name_bytes(self.s.good_text(size - 5))
        short = self.r.randrange(max(size - 257, 0), min(size - 2, NAME_LIMIT) + 1)
        return name_bytes(self.s.good_text(short)) + name_bytes(self.s.good_text(size - 2 - short))

    def items(self, kind, size):
        """Items of so many bytes in all: many short ones, or fewer."""
        items, widest = [], self.s.pick(8, 60, WIDEST_ITEM)
        while size > 0:
            one = size if size < 2 * LEAST_ITEM else self.r.randrange(LEAST_ITEM, min(widest, size - LEAST_ITEM) + 1)
            items.append(self.item(kind, one))
            size -= one
        return items

    def wide(self, size):
        """An enum whose body has so many bytes."""
        g = self.fields(self.s.pick(STRING_ENUM, FLOAT_ENUM), [])
        items = self.items(g.kind, size - len(body_of(g)))
        return g._replace(count=len(items), items=b"".join(items))

    def good(self):
        return self.wide(self.r.choice(SIZES)) if self.s.chance(0.25) else self.narrow()

    def long_name(self, g):
        """15."""
        text = self.s.good_text(self.r.choice(LONG_NAMES))
        text = self.s.broken(text, len(text)) if self.s.chance(0.3) else text
        return g._replace(**{self.s.pick("name", "long_name"): text})

    def over_seven(self, g):
        """16."""
        return g._replace(**{self.s.pick("kind", "unit"): self.r.choice(OVER_SEVEN)})

    def other_count(self, g):
        """16, mostly: items more or fewer than the count, or a count with a type that has no items."""
        return g._replace(count=self.s.pick(one_more(g), one_more(g), max(g.count - 1, 0), 0, UINT16))

    def other_items(self, g):
        """16, mostly: a byte less or more, an item more, items with a type that has none."""
        return g._replace(items=self.s.pick(g.items[:-1], g.items[:-1], g.items[1:], g.items + self.s.field(1),
                                            g.items + self.s.item(self.s.pick(STRING_ENUM, FLOAT_ENUM)), b"\x00" + g.items))

    def other_kind(self, g):
        """16 where the type had items or gets them, mostly: the lengths may chance to be right."""
        return g._replace(kind=self.r.randrange(8))

    def bad_name(self, g):
        """5."""
        field = self.s.pick("name", "long_name")
        text = getattr(g, field)
        return g._replace(**{field: self.s.broken(text, max(len(text), NAME_LIMIT))})

    def bad_item(self, g):
        """5: an item more, first or last, with a string that is not UTF-8."""
        if not has_items(g.kind):
            return self.bad_name(g)
        good = name_bytes(self.s.good_text(self.r.randrange(9)))
        bad, other = [name_bytes(self.s.broken(self.s.good_text(self.r.randrange(9)), NAME_LIMIT)) for _ in range(2)]
        item = self.s.field(4) + bad if g.kind == FLOAT_ENUM else self.s.pick(bad + good, good + bad, bad + other)
        return g._replace(count=one_more(g), items=self.s.pick(item + g.items, g.items + item))

    def bad_strings(self, g):
        """5, of the first of some strings: name, long name, items in order."""
        for _ in range(self.s.pick(2, 2, 3, 4)):
            g = self.s.pick(self.bad_name, self.bad_item, self.bad_item)(g)
        return g

    def faulty(self):
        """With no fault, one or some."""
        g = self.good()
        for _ in range(self.s.pick(0, 0, 0, 0, 0, 1, 1, 1, 1, 2, 2, 3)):
            g = self.s.pick(self.long_name, self.over_seven, self.other_count, self.other_items, self.other_kind, self.bad_name,
                            self.bad_item, self.bad_strings, self.bad_strings)(g)
        return g

    def room(self, g):
        """Exact, one less, to spare, none."""
        named = max(len(g.name), len(g.long_name)) <= NAME_LIMIT
        exact = len(body_of(g)) if named else 600
        room = self.s.pick(exact, exact, exact, exact - 1, exact + 1, 0, BODY_LIMIT, ROOM, self.r.randrange(600))
        return min(room, ROOM)

    def define(self):
        g = self.faulty()
        try:
            check_reading_back(g, write(g, ROOM))
        except Refusal:
            pass
        head = "define %d %d %d %d %d %d %s %s %d %d %d" % (g[:6] + (g.low.hex(), g.high.hex()) + g[8:11])
        return " ".join([head, pairs(g.name), pairs(g.long_name), pairs(g.items), str(self.room(g))])

    def flipped(self, g):
        """A body whose flags are altered."""
        body, at = body_of(g), flags_at(g)
        return body[:at] + unsigned_bytes(unsigned(body[at:at + 2]) ^ self.r.choice(FLIPS), 2) + body[at + 2:]

    def cut(self, g):
        body = body_of(g)
        return body[:self.s.pick(len(body) - 1, self.r.randrange(len(body)))]

    def longer(self, g):
        """A body with bytes after its last field; some bodies are over the most bytes with these alone."""
        later = self.s.pick(self.s.field(1), self.s.field(self.r.randrange(9)), bytes(BODY_LIMIT))
        return (body_of(g) + later)[:LINE_BYTES]

    def bad(self, g):
        return body_of(self.s.pick(self.bad_name, self.bad_item, self.bad_strings)(g))

    def body(self):
        g = self.good()
        return self.s.pick(body_of, body_of, body_of, self.flipped, self.flipped, self.cut, self.longer, self.bad)(g)

    def again(self):
        body = self.s.definition() if self.s.chance(0.2) else self.body()
        try:
            check_anew(body, written_anew(body))
        except Refusal:
            pass
        return "again " + pairs(body)
