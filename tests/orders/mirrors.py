"""Orders to one mirror and its table memory."""
from orders.answers import or_refused, output_text, refused
from orders.words import UINT32, count, demand, hex_of, hex_width, int32, pairs
from rules.listing import record_text
from rules.mirror import WIDTH, Mirror
from rules.refusal import Why

MOST_PLACES = 1026
MEMORY = MOST_PLACES * WIDTH
FEED = 65600            # the most bytes that a repeat order makes
SET_ROOM = 512
RECALL_ROOM = 16384
PEEK = 4096


class MirrorOrders:
    def __init__(self):
        self.mirror = Mirror(bytearray())
        self.fill = 0

    def table(self):
        """Each order's name: how many words it has besides, and what answers it."""
        return {
            b"new": ((1, 2, 3), self.new), b"feed": ((1,), self.feed), b"repeat": ((2,), self.repeat),
            b"int": ((3,), self.set_int), b"float": ((3,), self.set_float), b"string": ((3,), self.set_string),
            b"recall": ((1,), self.recall), b"dump": ((0,), self.dump), b"lookup": ((1,), self.lookup),
            b"record": ((1,), self.record), b"poke": ((2,), self.poke), b"count": ((1,), self.hand_over),
            b"peek": ((2,), self.peek),
        }

    def new(self, places, extra=b"0", fill=b"0"):
        size = count(places, MOST_PLACES) * WIDTH + count(extra, WIDTH - 1)
        fill = count(fill, 255)
        demand(size <= MEMORY)
        self.mirror, self.fill = Mirror(bytearray([fill]) * size), fill
        return "places %d" % self.mirror.places()

    def fed(self, data):
        return or_refused(lambda: "fed " + " ".join(map(str, self.mirror.feed(data))))

    def feed(self, word):
        return self.fed(hex_of(word))

    def repeat(self, times, word):
        times, data = count(times, UINT32), hex_of(word)
        demand(times * len(data) <= FEED)
        return self.fed(data * times)

    def set(self, node, value, room):
        node, room = int32(node), count(room, SET_ROOM)
        return output_text("sent", lambda: self.mirror.set(node, value, room))

    def set_int(self, node, word, room):
        return self.set(node, ("i", int32(word)), room)

    def set_float(self, node, word, room):
        return self.set(node, ("f", hex_width(word, 4)), room)

    def set_string(self, node, word, room):
        return self.set(node, ("s", hex_of(word)), room)

    def recall(self, room):
        room = count(room, RECALL_ROOM)
        return output_text("sent", lambda: self.mirror.recall(room))

    def dump(self):
        """The places alone do not make it refused."""
        records = self.mirror.records()
        if records is None:
            return refused(Why(7))
        rest = self.mirror.table[len(records) * WIDTH:]
        clean = "clean" if rest.count(self.fill) == len(rest) else "dirt"
        return " ".join(["%d records %s" % (len(records), clean)] + [record_text(r) for r in records])

    def lookup(self, node):
        node = int32(node)
        return or_refused(lambda: self.found(self.mirror.lookup(node)))

    @staticmethod
    def found(number):
        return "none" if number is None else "at %d" % number

    @staticmethod
    def with_origin(record):
        """As mirror lists it, and 02's origin."""
        return "%s origin %d" % (record_text(record), record.origin)

    def record(self, number):
        number = count(number, UINT32)
        return or_refused(lambda: self.with_origin(self.mirror.record(number)))

    def poke(self, at, word):
        at, data = count(at, MEMORY), hex_of(word)
        demand(at + len(data) <= len(self.mirror.table))
        self.mirror.table[at:at + len(data)] = data
        return "poked"

    def hand_over(self, number):
        self.mirror.count = count(number, UINT32)
        return "count %d" % self.mirror.count

    def peek(self, at, number):
        at, number = count(at, MEMORY), count(number, PEEK)
        demand(at + number <= len(self.mirror.table))
        return pairs(bytes(self.mirror.table[at:at + number]))
