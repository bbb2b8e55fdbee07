"""01, 'Definitions': the fields of a body that is read, and its items."""
from rules.numbers import signed, unsigned
from rules.refusal import Refusal, refuse_if, refuse_not_utf8

NODE, LINEAR, LOG, FADER, INTEGER, STRING_ENUM, FLOAT_ENUM, STRING = range(8)


class Fields:
    """The fields one after the other from a place on. 01: "the first failing field counts, length before UTF-8"."""

    def __init__(self, body, at=0):
        self.body = body
        self.at = at

    def take(self, width):
        refuse_if(width > len(self.body) - self.at, 4)
        self.at += width
        return self.body[self.at - width:self.at]

    def signed(self, width):
        return signed(self.take(width))

    def unsigned(self, width):
        return unsigned(self.take(width))

    def name(self):
        """01: "name (length byte, bytes)". The bytes, and the place where they start."""
        text = self.take(self.unsigned(1))
        refuse_not_utf8(text, 5)
        return text, self.at - len(text)

    def item(self, kind):
        """01: "short and long string (each as a name), or 4 bytes of float bits and a string"."""
        if kind == STRING_ENUM:
            return "strings", self.name(), self.name()
        return "float", self.take(4), self.name()


def seven_at_most(number):
    """01: "both 0 if over 7"."""
    return number if number <= 7 else 0


def has_items(kind):
    return kind in (STRING_ENUM, FLOAT_ENUM)


class Definition:
    """A body that the parser takes; else Refusal 4 or 5."""

    def __init__(self, body):
        f = Fields(body)
        self.parent, self.id, self.index = f.signed(4), f.signed(4), f.unsigned(2)
        self.name, self.long_name = f.name(), f.name()
        flags = f.unsigned(2)
        self.kind = seven_at_most(flags // 16 % 16)
        self.unit = seven_at_most(flags % 16)
        self.read_only = flags // 512 % 2
        self.details = details(f, self.kind)
        self.count, self.first, self.items = 0, 0, b""
        if has_items(self.kind):
            self.count, self.first = f.unsigned(2), f.at
            for _ in range(self.count):
                f.item(self.kind)
            self.items = body[self.first:f.at]
        self.end = f.at


def details(f, kind):
    """What stands after the flags, of the types without items."""
    if kind in (LINEAR, LOG):
        return f.take(4), f.take(4), f.signed(4)
    if kind == INTEGER:
        return f.signed(4), f.signed(4)
    if kind == STRING:
        return (f.unsigned(2),)
    return ()


def refusal_of(body):
    """Why the parser refuses a body, 4 or 5; None for one that it takes."""
    try:
        Definition(body)
        return None
    except Refusal as r:
        return r.why


def begin_items(body):
    """The walk at the first item: (place, items left, type). A type without items has place 0 and 0 left."""
    d = Definition(body)
    return d.first, d.count, d.kind


def step(body, at, left, kind):
    """01: "A step gives "none" when no items are left or the type has none, else the item there, or 4 or 5".

    The item and the walk after it; a refusal (raised) leaves the walk as it was."""
    if left == 0 or not has_items(kind):
        return None, (at, left, kind)
    f = Fields(body, at)
    item = f.item(kind)
    return item, (f.at, left - 1, kind)


def walk(body):
    """Every item of a body that the parser takes."""
    w = begin_items(body)
    while w[1] > 0 and has_items(w[2]):
        item, w = step(body, *w)
        yield item


def item_by_number(body, number):
    """01: "a body that the parser refuses gives its 4 or 5 before 14, and types without items have count 0"."""
    items = list(walk(body))
    refuse_if(number >= len(items), 14)
    return items[number]
