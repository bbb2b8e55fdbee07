"""Orders on the wire's writers, meters and packets, on getters and on UTF-8."""
from orders.compact import bits16, bits32, flag, refused
from orders.words import UINT16, count, demand, hex_of, hex_width, int32
from rules.command import data_request, definition_request, format_id, into, keep_alives, meter_request, packet, set_command
from rules.numbers import signed
from rules.refusal import Refusal
from rules.utf8 import good, is_utf8
from rules.value import integer_of, string_of

ROOM = 16384                # the largest output of a command
KEEP_ALIVE_ROOM = 851968    # 13 bytes, the longest keep-alive, 65,536 times
READINGS = 4200             # the largest output of a packet's readings
PLACES = 256                # the bytes of a string that the order places makes
RTA = 0xAA


def written(call):
    """The meter id (0 where there is none), the bytes, and 1: nothing past them was written. Or the refusal, and 1."""
    try:
        meter_id, data = call()
    except Refusal as r:
        return refused(r.why) + "1"
    return bits16(meter_id) + data.hex() + "1"


def command(room, data):
    """A command without a meter id into an output of this room."""
    room = count(room, ROOM)
    return written(lambda: (0, into(room, data)))


def set_order(room, node, value):
    room, node = count(room, ROOM), int32(node)
    return written(lambda: (0, set_command(room, node, value)))


def set_int(room, node, value):
    return set_order(room, node, ("i", int32(value)))


def set_float(room, node, value):
    return set_order(room, node, ("f", hex_width(value, 4)))


def set_string(room, node, value):
    return set_order(room, node, ("s", hex_of(value)))


def format_order(room, node, prefix, suffix):
    end = b"" if suffix == b"-" else hex_width(suffix, 1)
    return command(room, format_id(int32(node), hex_width(prefix, 1), end))


def ask_definition(room, node):
    return command(room, definition_request(int32(node)))


def ask_data(room, node):
    return command(room, data_request(int32(node)))


def meter_of(kind, index):
    """Kinds are counted from 0, channel, in 01's order. A kind past the last is rta."""
    return (0xA0 + kind if kind <= 15 else RTA), index


def meters_of(data, fill):
    """The array of 64: the pairs of the order, a missing last index being 0, then the filler."""
    meters = [meter_of(kind, index) for kind, index in zip(data[0::2], data[1::2] + b"\x00")]
    return (meters + [fill] * 64)[:64]


def ask_meters_fill(room, port, last, number, fill, items):
    room, port, last, number = count(room, ROOM), count(port, UINT16), count(last, UINT16), count(number, 255)
    meters = meters_of(hex_of(items), meter_of(*hex_width(fill, 2)))
    return written(lambda: meter_request(room, port, last, meters, number))


def ask_meters(room, port, last, number, items):
    return ask_meters_fill(room, port, last, number, b"0a00", items)


def keep_alive(room, last, port):
    room, last, port = count(room, KEEP_ALIVE_ROOM), count(last, UINT16), count(port, UINT16)
    return written(lambda: (0, keep_alives(room, last, port)))


def packet_text(room, data):
    try:
        number, readings = packet(room, data)
    except Refusal as r:
        return refused(r.why) + "1"
    return bits16(number) + bits32(len(readings)) + ":" + "".join(map(bits16, readings)) + "1"


def utf8_text(data):
    return flag(is_utf8(data)) + bits16(good(data))


def utf8_order(word):
    return utf8_text(hex_of(word))


def utf8s_order(word):
    """The 256 byte strings that are one byte longer."""
    front = hex_of(word)
    demand(len(front) <= 255)
    return "".join(utf8_text(front + bytes([last])) for last in range(256))


def placed(piece, at):
    """The bytes at a place of a string of 256 bytes that is a everywhere else."""
    return b"a" * at + piece + b"a" * (PLACES - at - len(piece))


def places_order(word):
    """The good of the bytes at every place that a string of 256 bytes has for them."""
    piece = hex_of(word)
    demand(1 <= len(piece) <= PLACES)
    return "".join(bits16(good(placed(piece, at))) for at in range(PLACES - len(piece) + 1))


def value_of(kind, data):
    if kind == 2:
        demand(len(data) <= 256)
        return "s", data
    demand(len(data) == 4)
    return ("i", signed(data)) if kind == 0 else ("f", data)


def got(value):
    text = string_of(value)
    return bits32(integer_of(value)) + ("-" if text is None else "s" + text.hex())


def getters(kind, word):
    return got(value_of(count(kind, 2), hex_of(word)))


def get_string(length, word):
    """A string value that says a length; its array of 256 bytes holds ee past the order's. It has no more than these."""
    length, data = count(length, UINT16), hex_of(word)
    demand(len(data) <= 256)
    return got(("s", data.ljust(256, b"\xee")[:length]))


def packet_order(room, data):
    return packet_text(count(room, READINGS), data)


TABLE = {
    b"setint": ((3,), set_int), b"setfloat": ((3,), set_float), b"setstring": ((3,), set_string),
    b"format": ((4,), format_order), b"askdefinition": ((2,), ask_definition), b"askdata": ((2,), ask_data),
    b"askmeters": ((5,), ask_meters), b"askmetersfill": ((6,), ask_meters_fill), b"keepalive": ((3,), keep_alive),
    b"utf8": ((1,), utf8_order), b"utf8s": ((1,), utf8s_order), b"places": ((1,), places_order),
    b"getters": ((2,), getters), b"getstring": ((2,), get_string),
}
LONG = {b"packet": (2, packet_order)}
