"""01, 'Writers' and 'Meters and requests': the bytes of each command, and what a packet says."""
from rules.numbers import signed, signed_bytes, unsigned, unsigned_bytes
from rules.refusal import refuse_if, refuse_not_utf8

STRING_LIMIT = 256
METER_LIMIT = 64
WITHOUT_INDEX = (0xA9, 0xAA)        # monitor and rta


def escaped(data):
    """01: "Every df in a written id, value, string, length, port, meter index or meter id is followed by de"."""
    return data.replace(b"\xdf", b"\xdf\xde")


def into(room, data):
    """01: 9, "Output too short for the whole"."""
    refuse_if(len(data) > room, 9)
    return data


def format_id(node, prefix, suffix):
    return prefix + escaped(signed_bytes(node, 4)) + suffix


def integer_bytes(number):
    if 0 <= number <= 63:
        return bytes([number])
    if -32768 <= number <= 32767:
        return b"\xd3" + escaped(signed_bytes(number, 2))
    return b"\xd4" + escaped(signed_bytes(number, 4))


def string_bytes(text):
    if not text:
        return b"\xd0"
    if len(text) <= 64:
        return bytes([0x80 + len(text) - 1]) + escaped(text)
    return b"\xd1" + escaped(bytes([len(text) - 1])) + escaped(text)


def value_bytes(value):
    kind, content = value
    if kind == "i":
        return integer_bytes(content)
    return b"\xd5" + escaped(content) if kind == "f" else string_bytes(content)


def set_bytes(node, value):
    """01: "Set: d7, id, value"."""
    return format_id(node, b"\xd7", b"") + value_bytes(value)


def check_value(value):
    """10, then 1: a value that no set takes."""
    kind, content = value
    if kind == "s":
        refuse_if(len(content) > STRING_LIMIT, 10)
        refuse_not_utf8(content, 1)


def set_command(room, node, value):
    check_value(value)
    return into(room, set_bytes(node, value))


def definition_request(node):
    """01: "da dd for id 0, else d7 id dd"."""
    return b"\xda\xdd" if node == 0 else format_id(node, b"\xd7", b"\xdd")


def data_request(node):
    """01: "data request dc for dd"."""
    return b"\xda\xdc" if node == 0 else format_id(node, b"\xd7", b"\xdc")


def meter_item(kind, index):
    """01: "Items a0 to a8 with index .. a9 monitor, aa rta alone; ab to af" with index again."""
    return bytes([kind]) + (b"" if kind in WITHOUT_INDEX else escaped(bytes([index])))


def meter_request(room, port, last, meters, count):
    """The new id and the command; 11, 12, 9. The meters are 64 pairs (a0 to af, index), as many as the count of them sent."""
    refuse_if(count > METER_LIMIT, 11)
    refuse_if(last == 65535, 12)
    number, port_bytes = escaped(unsigned_bytes(last + 1, 2)), escaped(unsigned_bytes(port, 2))
    items = b"".join(meter_item(kind, index) for kind, index in meters[:count])
    return last + 1, into(room, b"\xdf\xd3\xd3" + port_bytes + b"\xd4" + number + port_bytes + b"\xdc" + items + b"\xde\xdf\xd1")


def keep_alives(room, last, port):
    """01: "for ids from last to 1, df d3 d4 id port df d1"."""
    port_bytes = escaped(unsigned_bytes(port, 2))
    each = (b"\xdf\xd3\xd4" + escaped(unsigned_bytes(i, 2)) + port_bytes + b"\xdf\xd1" for i in range(last, 0, -1))
    return into(room, b"".join(each))


def packet(room, data):
    """01: "id 2, two ignored, signed 16-bit readings; an odd last byte is dropped"; 13, 9. The id and the readings."""
    refuse_if(not 4 <= len(data) <= 8192, 13)
    readings = [signed(data[at:at + 2]) for at in range(4, len(data) - 1, 2)]
    return unsigned(data[:2]), into(room, readings)
