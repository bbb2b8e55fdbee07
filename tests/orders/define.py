"""Orders on definitions that are written, from fields and anew."""
from orders.answers import or_refused, output_text
from orders.words import UINT16, count, hex_of, hex_width, int32, pairs
from rules.define import Given, write, written_anew

ROOM = 16384        # the largest output of a definition


def define(parent, node, index, kind, unit, read_only, low, high, steps, number, length, name, long_name, items, room):
    given = Given(int32(parent), int32(node), count(index, UINT16), count(kind, 255), count(unit, 255), count(read_only, 1),
                  hex_width(low, 4), hex_width(high, 4), int32(steps), count(number, UINT16), count(length, UINT16),
                  hex_of(name), hex_of(long_name), hex_of(items))
    room = count(room, ROOM)
    return output_text("wrote", lambda: write(given, room))


def compared(body, written):
    return "same" if written == body else "other " + pairs(written)


def again(word):
    body = hex_of(word)
    return or_refused(lambda: compared(body, written_anew(body)))


TABLE = {b"define": ((15,), define), b"again": ((1,), again)}
