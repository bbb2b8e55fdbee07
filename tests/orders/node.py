"""Orders on definition bodies and their items."""
from orders import answers
from orders.answers import or_refused
from orders.compact import bits16, bits32, flag, refused
from orders.words import UINT32, count, hex_of
from rules.definition import (INTEGER, LINEAR, LOG, STRING, Definition, begin_items, has_items, item_by_number, refusal_of,
                              seven_at_most, step, walk)
from rules.refusal import Refusal


def item_text(item):
    form, value, (long_item, _) = item
    return ",%s/%s" % ((value[0] if form == "strings" else value).hex(), long_item.hex())


def numbered_text(body, number):
    try:
        return item_text(item_by_number(body, number))
    except Refusal as r:
        return refused(r.why)


def items_text(body, items):
    """The items in order and the "none" after them, the last one by its number, and the number past it."""
    walked = "".join(map(item_text, items)) + "-"
    last = max(len(items) - 1, 0)
    return bits16(len(items)) + walked + "#" + numbered_text(body, last) + numbered_text(body, len(items))


def details_text(body, d):
    if d.kind in (LINEAR, LOG):
        return "f" + d.details[0].hex() + d.details[1].hex() + bits32(d.details[2])
    if d.kind == INTEGER:
        return "i" + bits32(d.details[0]) + bits32(d.details[1])
    if d.kind == STRING:
        return "s" + bits16(d.details[0])
    return "c" + items_text(body, list(walk(body))) if has_items(d.kind) else "-"


def definition_text(body):
    try:
        d = Definition(body)
    except Refusal as r:
        return refused(r.why)
    head = bits32(d.parent) + bits32(d.id) + bits16(d.index)
    names = "n" + d.name[0].hex() + "l" + d.long_name[0].hex()
    return head + names + "k%02x%02x" % (d.kind, d.unit) + flag(d.read_only) + details_text(body, d)


def cuts(word):
    """Every front of a body, in runs of equal answers."""
    body = hex_of(word)
    runs = []
    for length in range(len(body) + 1):
        why = refusal_of(body[:length])
        if runs and runs[-1][2] == why:
            runs[-1][1] = length
        else:
            runs.append([length, length, why])
    return ", ".join("%d-%d %s" % (a, b, answers.refused(why) if why else "good") for a, b, why in runs)


def item_order(number, word):
    number, body = count(number, UINT32), hex_of(word)
    return or_refused(lambda: item_text(item_by_number(body, number)))


def step_text(body, at, left, kind):
    """One step, with where the walk stands after it, and that walk."""
    after = at, left, kind
    try:
        item, after = step(body, at, left, kind)
        text = "none" if item is None else item_text(item)
    except Refusal as r:
        text = answers.refused(r.why)
    return "%s at %d left %d" % ((text,) + after[:2]), after


def step_order(at, left, kind, word):
    return step_text(hex_of(word), count(at, 65535), count(left, 65535), seven_at_most(count(kind, 65535)))[0]


def walk_order(word):
    """The walk at the first item, then every step, one more than there are items."""
    body = hex_of(word)
    try:
        walk_at = begin_items(body)
    except Refusal as r:
        return answers.refused(r.why)
    texts = ["at %d left %d" % walk_at[:2]]
    for _ in range(walk_at[1] + 1):
        text, walk_at = step_text(body, *walk_at)
        texts.append(text)
    return "; ".join(texts)


LONG = {b"definition": (1, definition_text)}
TABLE = {b"cuts": ((1,), cuts), b"item": ((2,), item_order), b"step": ((4,), step_order), b"walk": ((1,), walk_order)}
