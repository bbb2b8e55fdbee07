"""Orders that stand alone: streams, definitions read and written, commands, packets, getters, UTF-8, states, listings, windows."""
from orders.states import MOST
from orders.words import UINT32, pairs
from orders.writers import KEEP_ALIVE_ROOM
from randoms.define import Definitions
from randoms.listing import Listings
from randoms.source import BROKEN, LETTERS, LINE_BYTES
from randoms.window import Windows
from rules.command import data_request, definition_request, escaped, format_id, keep_alives, meter_request, set_bytes
from rules.decoder import State, events
from rules.definition import Definition, refusal_of
from rules.earlier import earlier_bytes
from rules.refusal import Refusal

WIDE = 10**6
# Rooms around which the code goes another way: the largest number, id, meter request and string, and the limits of the orders.
SWITCHES = (0, 1, 9, 10, 11, 17, 18, 19, 211, 212, 213, 394, 395, 396, 511, 512, 513, 16383, 16384)
EDGES = (0x7F, 0x80, 0x8F, 0x90, 0x9F, 0xA0, 0xBF, 0xC0, 0xC1, 0xC2, 0xDF, 0xE0, 0xED, 0xEF, 0xF0, 0xF4, 0xF5, 0xFF)
SOUND = (0, 5, 6, 7, 10, 11, 16, 18, 22, 23, 28, 29, 31, 33)        # the numbers of the sound states
# Lists of sizes out of form.
ODD_LISTS = ("0", "-", "+", "x", ",", "1,", ",1", "1,,2", "1,0,2", "-1", "65536", "1,65536", "00000000001", "1;2", ",".join(["1"] * 65))


class Single:
    def __init__(self, source):
        self.s = source
        self.r = source.r

    def room(self, exact):
        """Room to spare, exact and one less, and around the switches."""
        return max(0, self.s.pick(exact, exact, exact - 1, exact - 1, exact + 1, 16384, self.r.choice(SWITCHES),
                                  self.r.randrange(513)))

    def stream(self):
        return "stream " + pairs(self.s.stream()[:LINE_BYTES])

    def size(self):
        """Of a piece. 0 is rare: shell then makes as many calls as the longest stream may want, and each takes nothing."""
        return 0 if self.s.chance(0.02) else self.s.pick(1, 1, 2, 3, 7, 64, 4096, 65535, self.r.randrange(1, 65536))

    def pieces(self):
        return "pieces %d %s" % (self.size(), pairs(self.s.stream()[:LINE_BYTES]))

    def size_list(self):
        sizes = self.s.pick(1, 2, 5, 64, self.r.randrange(1, 65))
        return ",".join(str(self.s.pick(1, 1, 2, 3, 4096, 65535, self.r.randrange(1, 40), self.r.randrange(1, 65536)))
                        for _ in range(sizes))

    def piece_list(self):
        sizes = self.r.choice(ODD_LISTS) if self.s.chance(0.1) else self.size_list()
        return "piecelist %s %s" % (sizes, pairs(self.s.stream()[:LINE_BYTES]))

    def more(self):
        """Bytes that are held until an order with + takes them."""
        return "more " + pairs(self.s.pick(b"", self.s.stream()[:LINE_BYTES], self.s.definition(), self.s.telling(9)))

    def taking(self):
        """An order on the bytes held."""
        order = self.s.pick("stream", "pieces %d" % self.size(), "piecelist " + self.size_list(), "definition",
                            "packet %d" % self.s.pick(4200, 4094, self.r.randrange(4201)))
        return self.s.pick("", "", "sum ") + order + " +"

    def streams(self):
        """Some fronts lack a string's last byte alone."""
        string = escaped(self.s.string_units())[:-1]
        return "streams " + pairs(self.s.pick(self.s.short_stream(self.s.pick(3, 20, 63)), string)[:63])

    def definition(self):
        return "definition " + pairs(self.s.definition())

    def define(self):
        return Definitions(self.s).define()

    def again(self):
        return Definitions(self.s).again()

    def listing(self):
        return Listings(self.s).single()

    def window(self):
        return Windows(self.s).single()

    def near(self):
        """Bytes at the edges of the grammar's rows."""
        return bytes(self.r.choice(EDGES) for _ in range(self.r.randrange(1, 7)))

    def utf8(self):
        return "utf8 " + pairs(self.s.pick(self.s.text(300, 0.5), self.s.text(8, 0.5), self.near()))

    def utf8s(self):
        return "utf8s " + pairs(self.s.text(self.s.pick(3, 255)))

    def places(self):
        """A broken piece, a character whole or cut, a string, or bytes at the edges of the grammar's rows."""
        letter = self.r.choice(LETTERS).encode()
        piece = self.s.pick(self.r.choice(BROKEN), self.r.choice(BROKEN), letter, letter[:self.r.randrange(len(letter)) + 1], self.near(),
                            self.s.text(12, 0.5), self.s.text(256, 0.5))
        return "places " + pairs(piece)

    def set_int(self):
        node, value = self.s.node(), self.s.int32()
        return "setint %d %d %d" % (self.room(len(set_bytes(node, ("i", value)))), node, value)

    def set_float(self):
        node, bits = self.s.node(), self.s.field(4)
        return "setfloat %d %d %s" % (self.room(len(set_bytes(node, ("f", bits)))), node, bits.hex())

    def set_string(self):
        node, text = self.s.node(), self.s.text(self.s.pick(3, 64, 256, 260), 0.3)
        if self.s.chance(0.1):
            text = self.s.pick(b"\xdf\xbf" * 128, b"\xdf\xbf" * 112, b"z" * 2000, b"z" * 256 + b"\xff", b"\x80" * 300)
        exact = len(set_bytes(node, ("s", text))) if len(text) <= 256 else 300
        return "setstring %d %d %s" % (self.room(exact), node, pairs(text))

    def format(self):
        node, prefix, suffix = self.s.node(), self.s.field(1), self.s.pick(b"", self.s.field(1))
        return "format %d %d %s %s" % (self.room(len(format_id(node, prefix, suffix))), node, prefix.hex(), pairs(suffix))

    def ask(self):
        node = self.s.pick(0, self.s.node(), self.s.node())
        name, make = self.s.pick(("askdefinition", definition_request), ("askdata", data_request))
        return "%s %d %d" % (name, self.room(len(make(node))), node)

    def meter_words(self):
        """Port, last id, count, and the pairs of kind and index."""
        port, last = self.s.uint16(), self.s.pick(0, 1, 222, 65535, self.s.uint16())
        meters = self.s.pick(0, 1, 3, 63, 64, 65, self.r.randrange(65))
        count = self.s.pick(meters, meters, meters, meters + 1, 64, self.r.randrange(65), self.s.pick(65, 255))
        items = b"".join(bytes([self.s.pick(self.r.randrange(16), self.r.randrange(256)), self.s.pick(0xDF, self.r.randrange(256))])
                         for _ in range(meters))
        return port, last, min(count, 255), items + (self.s.field(1) if self.s.chance(0.05) else b"")

    def meter_room(self, port, last, count):
        """About as long as the request is: with every index escaped or none."""
        try:
            meters = [(0xA0, self.s.pick(0, 0xDF))] * 64
            return self.room(len(meter_request(WIDE, port, last, meters, count)[1]))
        except Refusal:
            return self.room(212)

    def ask_meters(self):
        port, last, count, items = self.meter_words()
        return "askmeters %d %d %d %d %s" % (self.meter_room(port, last, count), port, last, count, pairs(items))

    def ask_meters_fill(self):
        port, last, count, items = self.meter_words()
        fill = bytes([self.s.pick(self.r.randrange(16), self.r.randrange(256)), self.s.pick(0xDF, self.r.randrange(256))])
        room = self.meter_room(port, last, count)
        return "askmetersfill %d %d %d %d %s %s" % (room, port, last, count, fill.hex(), pairs(items))

    def keep_alive(self):
        last, port = self.s.pick(0, 1, 2, 30, 222, 223, 224, 300, self.r.randrange(1200)), self.s.uint16()
        if self.s.chance(0.02):
            last = self.s.pick(65535, 65535, 57311)
        exact = len(keep_alives(WIDE, last, port))
        room = self.s.pick(KEEP_ALIVE_ROOM, self.room(exact), exact, max(exact - 1, 0), 13 * last, max(13 * last - 1, 0))
        return "keepalive %d %d %d" % (min(room, KEEP_ALIVE_ROOM), last, port)

    def packet(self):
        length = self.s.pick(0, 3, 4, 5, 6, 9, 80, self.r.randrange(200), self.r.randrange(LINE_BYTES))
        readings = max(length - 4, 0) // 2
        room = self.s.pick(readings, max(readings - 1, 0), readings + 1, 4200, self.r.randrange(4201))
        return "packet %d %s" % (room, pairs(self.r.randbytes(length)))

    def getters(self):
        kind = self.r.randrange(3)
        data = self.s.text(256) if kind == 2 else self.s.pick(self.s.field(4), self.s.int32().to_bytes(4, "big", signed=True))
        return "getters %d %s" % (kind, pairs(data))

    def get_string(self):
        text = self.s.text(256)
        return "getstring %d %s" % (self.s.pick(len(text), 0, 255, 256, 257, 65535, self.r.randrange(300)), pairs(text))

    def cuts(self):
        return "cuts " + pairs(self.s.pick(self.s.definition(), self.s.broken_definition())[:300])

    def item(self):
        """Mostly a number that the body has, or the one past it."""
        body = self.s.pick(self.s.definition(), self.s.broken_definition(), self.s.enumeration(), self.s.enumeration())
        count = 0 if refusal_of(body) else Definition(body).count
        number = self.s.pick(0, self.r.randrange(count + 1), max(count - 1, 0), count, 65535, 65536, UINT32)
        return "item %d %s" % (number, pairs(body))

    def items_at(self):
        """Items of a type, broken ones among them, with the place of one."""
        kind, front = self.s.pick(5, 6), self.s.field(self.r.randrange(20))
        items = [self.s.item(kind, self.s.pick(0.02, 0.5)) for _ in range(3)]
        return front + b"".join(items), len(front) + self.s.pick(0, len(items[0]), len(items[0] + items[1])), kind

    def step(self):
        body, at, kind = self.items_at()
        if self.s.chance(0.6):
            body = self.s.pick(self.s.definition(), body)
            at = self.s.pick(0, len(body), len(body) - 1, self.r.randrange(len(body) + 1), self.s.uint16())
            kind = self.s.pick(5, 5, 6, 6, 6, 0, 7, 8, 21, 65535)
        return "step %d %d %d %s" % (max(at, 0), self.s.pick(0, 1, 1, 2, 2, 65535), kind, pairs(body))

    def walk(self):
        return "walk " + pairs(self.s.pick(self.s.definition(), self.s.broken_definition(), self.s.enumeration()))

    def units(self):
        return "units " + pairs(self.s.pick(self.s.telling(40), self.s.short_stream(200)))

    def state(self):
        times = self.s.pick(0, 1, 1, 1, 1, 2, 3)
        data = self.s.pick(b"", b"\x05", self.s.telling(6), self.s.short_stream(30))
        if self.s.chance(0.05):
            times, data = self.s.pick(65535, 65536, 65537, 65600), self.s.pick(b"\x40", b"\xdf", b"\xd1")
        number = self.s.pick(0, self.r.choice(SOUND), self.r.randrange(MOST + 1))
        return "state %d %d %s" % (number, times, pairs(data))

    def earlier_state(self):
        """The bytes of version 1 of what a stream leaves; the decoder's rule on counts is today's, so that some had no such form."""
        s = State()
        for _ in events(s, self.s.stream()[:LINE_BYTES]):
            pass
        head, store = earlier_bytes(s)
        return self.s.pick(head, head, head, self.s.damaged(head, 1)), store

    def earlier(self):
        head, store = self.earlier_state()
        if self.s.chance(0.1):
            store = self.s.pick(b"", store + b"\x00", store + b"\x01", b"\x00" * 4096, b"\x00" * 4097, store[:-1])
        return "earlier %s %s %s" % (pairs(head), pairs(store[:4200]), pairs(self.s.short_stream(60)))

    def splits(self):
        return "splits " + pairs(self.s.pick(self.s.telling(24), self.s.short_stream(24), self.s.stream()[:120]))

    def lent(self):
        return "lent " + pairs(self.s.stream()[:LINE_BYTES])

    def summed(self):
        return "sum " + self.r.choice((
            self.stream, self.pieces, self.piece_list, self.streams, self.definition, self.utf8s, self.places, self.set_string,
            self.ask_meters, self.ask_meters_fill, self.keep_alive, self.packet, self.getters, self.cuts, self.item, self.step, self.walk, self.units,
            self.state, self.earlier, self.lent))()

    def order(self):
        return self.r.choice(self.kinds())()

    def kinds(self):
        """Some kinds stand more than once, so that they come more often."""
        return ((self.stream, self.definition, self.define) * 6 + (self.again,) * 5 + (self.listing,) * 4
                + (self.pieces, self.set_int, self.set_string, self.ask_meters, self.step) * 3
                + (self.piece_list, self.utf8, self.places, self.cuts, self.set_float, self.packet, self.item, self.walk, self.units, self.lent,
                   self.state, self.earlier, self.earlier, self.summed, self.getters, self.ask_meters_fill) * 2
                + (self.format, self.ask, self.keep_alive, self.get_string, self.splits, self.more, self.taking, self.window))

    def rare(self):
        """Orders whose answers are long."""
        return self.s.pick(self.streams, self.utf8s)()
