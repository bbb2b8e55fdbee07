"""02, Job 2: a table printed as the program mirror lists it, and such a text loaded into a table."""
import re

from rules.command import check_value, into
from rules.decoder import State
from rules.mirror import CONSOLE, Record
from rules.refusal import Refusal, Why, refuse_if

HEADER = b"id,kind,value"
TEXT_LIMIT = 65536      # 02: "up to 65,536 bytes"
# 02: "Integers fit 32 bits and have no leading zero, no plus sign and no minus zero": no such number has over ten digits.
INTEGER = re.compile(rb"0|-?[1-9][0-9]{0,9}")
# 02: "hex digits are lower case". 01: "the value (decimal; eight hex digits; hex pairs)", by the kind's letter.
VALUES = {b"i": INTEGER, b"f": re.compile(rb"[0-9a-f]{8}"), b"s": re.compile(rb"(?:[0-9a-f]{2})*")}


class BadLine(Refusal):
    """A refusal of one line of the text; the header is line 1."""

    def __init__(self, why, line):
        super().__init__(why)
        self.line = line


def record_text(record):
    """01: "with commas between, id in decimal, kind letter i, f or s, and the value". A line has no origin."""
    kind, content = record.value
    return "%d,%s,%s" % (record.node, kind, content if kind == "i" else content.hex())


def listing(records):
    """01: "a header, then for each record in order" its line, "each line ended by 0a"."""
    lines = [HEADER] + [record_text(record).encode() for record in records]
    return b"".join(line + b"\n" for line in lines)


def printed(mirror, room):
    """7, 9; else the listing."""
    return into(room, listing(mirror.usable_records()))


def integer_of(field):
    """17, out of form; a number that 32 bits do not hold is out of form too."""
    refuse_if(not INTEGER.fullmatch(field), 17)
    number = int(field)
    refuse_if(not -2**31 <= number < 2**31, 17)
    return number


def value_of(kind, field):
    """17, by the form of the kind's values."""
    refuse_if(kind not in VALUES or not VALUES[kind].fullmatch(field), 17)
    if kind == b"i":
        return "i", integer_of(field)
    return kind.decode(), bytes.fromhex(field.decode())


def record_of(line, before):
    """02: within a line "17, 18, 10, 1". The record, which comes after those before it; "its origins are 0"."""
    fields = line.split(b",")
    refuse_if(len(fields) != 3, 17)
    node, value = integer_of(fields[0]), value_of(*fields[1:])
    refuse_if(before and node <= before[-1].node, 18)
    check_value(value)
    return Record(node, value, CONSOLE)


def records_of(text):
    """02: "the first bad line decides". The header is the first; text after the last newline is a line out of form."""
    *lines, rest = text.split(b"\n")
    if lines[:1] != [HEADER]:
        raise BadLine(Why(17), 1)
    records = []
    for number, line in enumerate(lines[1:], 2):
        try:
            records.append(record_of(line, records))
        except Refusal as r:
            raise BadLine(r.why, number) from None
    if rest:
        raise BadLine(Why(17), len(lines) + 1)
    return tuple(records)


def load(mirror, text):
    """7 by the places alone, 14, the first bad line, 6; else how many records there are, which replace the old ones."""
    refuse_if(not 1 <= mirror.places() <= 1024, 7)
    refuse_if(len(text) > TEXT_LIMIT, 14)
    records = records_of(text)
    refuse_if(len(records) > mirror.places(), 6)
    mirror.keep(records)
    mirror.state = State()
    return len(records)
