"""01, 'Mirror and plain machine', with 02's rule on origins: the table of records, and the calls over it."""
from functools import lru_cache
from typing import NamedTuple

from rules.command import check_value, into, set_bytes
from rules.decoder import CALL_LIMIT, State, events, is_sound
from rules.definition import refusal_of
from rules.numbers import signed, signed_bytes, unsigned, unsigned_bytes
from rules.refusal import refuse_if
from rules.utf8 import is_utf8

WIDTH = 264
KINDS = "ifs"
STORED, UNPLACED, STRING_REFUSED, READ, REFUSED, ENDS = range(6)
CONSOLE, SET_ORDER = 0, 1       # 02: "0 when the last value came from the console, 1 when a set order gave it"


class Record(NamedTuple):
    node: int
    value: tuple
    origin: int


def record_bytes(record):
    """01: "id (4, signed), kind (1: 0 integer, 1 float, 2 string), 00, length (2 ..), payload (256, zero-filled)".
    02: "The zero byte in each record becomes its origin"."""
    kind, content = record.value
    payload = signed_bytes(content, 4) if kind == "i" else content
    head = signed_bytes(record.node, 4) + bytes([KINDS.index(kind), record.origin]) + unsigned_bytes(len(payload), 2)
    return (head + payload).ljust(WIDTH, b"\x00")


def value_in(kind, payload):
    """The value, or None where the length does not go with the kind or the string is no UTF-8."""
    if kind == "s":
        return ("s", payload) if len(payload) <= 256 and is_utf8(payload) else None
    if len(payload) != 4:
        return None
    return ("i", signed(payload)) if kind == "i" else ("f", payload)


def record_in(data):
    """The record of 264 bytes, or None where they have not its form. 02: "A table with an origin over 1 gets 7"."""
    length = unsigned(data[6:8])
    if data[4] > 2 or data[5] > SET_ORDER or length > 256 or any(data[8 + length:]):
        return None
    value = value_in(KINDS[data[4]], data[8:8 + length])
    return value and Record(signed(data[:4]), value, data[5])


@lru_cache(maxsize=8)
def records_in(data):
    """The records that stand in the bytes, or None where one is out of form or the ids do not rise."""
    records = tuple(record_in(data[at:at + WIDTH]) for at in range(0, len(data), WIDTH))
    if None in records:
        return None
    rising = all(a.node < b.node for a, b in zip(records, records[1:]))
    return records if rising else None


def from_console(records):
    """02, of a mirror rebuilt from recall bytes and of a loaded listing: "the origin is set aside .. its origins are 0"."""
    return tuple(record._replace(origin=CONSOLE) for record in records)


class Machine:
    """01's plain machine: a map, and how many entries it may have. 02: it "records them too", the origins."""

    def __init__(self, places, records):
        self.places = places
        self.map = {record.node: record for record in records}

    def has_room(self, node):
        return node in self.map or len(self.map) < self.places

    def put(self, node, value, origin):
        """02: "0 for a put by a feed and 1 for one by a set"; what stood there before is no matter."""
        self.map[node] = Record(node, value, origin)

    def hear(self, event):
        """One event of the decoder: which of the six counts it is. A value is put where there is room."""
        if event[0] == "value":
            if not self.has_room(event[1]):
                return UNPLACED
            self.put(*event[1:], CONSOLE)
            return STORED
        if event[0] == "body":
            return REFUSED if refusal_of(event[1]) else READ
        if event[0] == "refused":
            return STRING_REFUSED if event[1].number == 1 else REFUSED
        return ENDS

    def feed(self, state, data):
        counts = [0] * 6
        for event, _ in events(state, data):
            counts[self.hear(event)] += 1
        return counts

    def set(self, node, value, room):
        """10, 1, 6, 9; else the bytes sent."""
        check_value(value)
        refuse_if(not self.has_room(node), 6)
        data = into(room, set_bytes(node, value))
        self.put(node, value, SET_ORDER)
        return data

    def records(self):
        """01: "Its nodes in rising id order give the records"."""
        return tuple(self.map[node] for node in sorted(self.map))


class Mirror:
    """01: "A mirror is a decoder state, a table buffer and its count"."""

    def __init__(self, table):
        self.state = State()
        self.table = table
        self.count = 0

    def places(self):
        return len(self.table) // WIDTH

    def records(self):
        """The records of a sound table, whatever its places; None for one that is not sound."""
        if self.count > self.places():
            return None
        return records_in(bytes(self.table[:self.count * WIDTH]))

    def usable_records(self):
        """01: 7, "Table unsound or places outside 1–1,024"."""
        records = self.records()
        refuse_if(records is None or not 1 <= self.places() <= 1024, 7)
        return records

    def keep(self, records):
        """The records at the front of the table; 01: "no call writes past the last record it leaves"."""
        data = b"".join(map(record_bytes, records))
        self.table[:len(data)] = data
        self.count = len(records)

    def feed(self, data):
        """8, 7, 14; else the six counts."""
        refuse_if(not is_sound(self.state), 8)
        records = self.usable_records()
        refuse_if(len(data) > CALL_LIMIT, 14)
        machine = Machine(self.places(), records)
        counts = machine.feed(self.state, data)
        self.keep(machine.records())
        return counts

    def set(self, node, value, room):
        machine = Machine(self.places(), self.usable_records())
        data = machine.set(node, value, room)
        self.keep(machine.records())
        return data

    def recall(self, room):
        """01: "Recall writes df d1, then the set bytes of each record in order"; 7, 9. A set's bytes have no origin."""
        records = self.usable_records()
        return into(room, b"\xdf\xd1" + b"".join(set_bytes(record.node, record.value) for record in records))

    def lookup(self, node):
        """The record's number, or None."""
        ids = [record.node for record in self.usable_records()]
        return ids.index(node) if node in ids else None

    def record(self, number):
        records = self.usable_records()
        refuse_if(number >= len(records), 14)
        return records[number]
