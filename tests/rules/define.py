"""02, Job 1: the fields of a definition, two names and the bytes of its items become a body."""
from typing import NamedTuple

from rules.command import into
from rules.definition import FLOAT_ENUM, INTEGER, LINEAR, LOG, STRING, Definition, has_items
from rules.numbers import signed_bytes, unsigned_bytes
from rules.refusal import refuse_if, refuse_not_utf8

NAME_LIMIT = 255        # 02: "a name over 255 bytes is 15"
BODY_LIMIT = 4096       # 02: "a body over 4,096 gets 2"
NOTHING = bytes(4)


class Given(NamedTuple):
    """What the writer gets: every field that any type has. Low and high are four bytes, float bits or an integer's."""
    parent: int
    id: int
    index: int
    kind: int
    unit: int
    read_only: int
    low: bytes
    high: bytes
    steps: int
    count: int
    length: int
    name: bytes
    long_name: bytes
    items: bytes


def has_steps(kind):
    return kind in (LINEAR, LOG)


def has_limits(kind):
    return has_steps(kind) or kind == INTEGER


def parted(data, width):
    """So many bytes and those after them; 16 where there are fewer."""
    refuse_if(width > len(data), 16)
    return data[:width], data[width:]


def string_parted(data):
    """01: "length byte, bytes"."""
    length, rest = parted(data, 1)
    return parted(rest, length[0])


def item_parted(kind, data):
    """The strings of the item at the front, and what is after it."""
    if kind == FLOAT_ENUM:
        _, data = parted(data, 4)
        text, data = string_parted(data)
        return [text], data
    short, data = string_parted(data)
    long_text, data = string_parted(data)
    return [short, long_text], data


def item_strings(g):
    """Every string of the items. 02: "item bytes that aren't exactly the given count of the type's items, or a count above 0 or
    item bytes with a type that has no items, is 16": by their lengths alone."""
    refuse_if(g.count > 0 and not has_items(g.kind), 16)
    strings, rest = [], g.items
    for _ in range(g.count):
        texts, rest = item_parted(g.kind, rest)
        strings += texts
    refuse_if(rest, 16)
    return strings


def name_bytes(text):
    return bytes([len(text)]) + text


def flags_of(g):
    """02: "Unused flag bits are written 0"."""
    return g.kind * 16 + g.unit + g.read_only * 512


def details_bytes(g):
    """What stands after the flags: of the fields those that the type has."""
    if has_steps(g.kind):
        return g.low + g.high + signed_bytes(g.steps, 4)
    if g.kind == INTEGER:
        return g.low + g.high
    if has_items(g.kind):
        return unsigned_bytes(g.count, 2) + g.items
    return unsigned_bytes(g.length, 2) if g.kind == STRING else b""


def body_of(g):
    """01: "Parent id 4, id 4, index 2, name (length byte, bytes), long name (same), flags 2"."""
    head = signed_bytes(g.parent, 4) + signed_bytes(g.id, 4) + unsigned_bytes(g.index, 2)
    return head + name_bytes(g.name) + name_bytes(g.long_name) + unsigned_bytes(flags_of(g), 2) + details_bytes(g)


def write(g, room):
    """02: "the writer's order is 15, 16, 5, 2, 9"; else the body. 5 tells of the first string that fails."""
    names = [g.name, g.long_name]
    refuse_if(any(len(name) > NAME_LIMIT for name in names), 15)
    refuse_if(g.kind > 7 or g.unit > 7, 16)
    for text in names + item_strings(g):
        refuse_not_utf8(text, 5)
    body = body_of(g)
    refuse_if(len(body) > BODY_LIMIT, 2)
    return into(room, body)


def limits_of(d):
    """The low and the high of a body that was read."""
    if has_steps(d.kind):
        return d.details[:2]
    return [signed_bytes(n, 4) for n in d.details] if d.kind == INTEGER else (NOTHING, NOTHING)


def read(body):
    """A body's fields as the writer gets them; the items run to the end of the last one, without later bytes. 4, 5."""
    d = Definition(body)
    low, high = limits_of(d)
    steps = d.details[2] if has_steps(d.kind) else 0
    length = d.details[0] if d.kind == STRING else 0
    return Given(d.parent, d.id, d.index, d.kind, d.unit, d.read_only, low, high, steps, d.count, length, d.name[0],
                 d.long_name[0], d.items)


def written_anew(body):
    """4, 5 of the parser, then the writer's refusals."""
    return write(read(body), BODY_LIMIT)


def kept(g):
    """02: "those its type lacks left out": what reads back of fields that were written."""
    limits = (g.low, g.high) if has_limits(g.kind) else (NOTHING, NOTHING)
    return g._replace(low=limits[0], high=limits[1], steps=g.steps if has_steps(g.kind) else 0,
                      length=g.length if g.kind == STRING else 0)
