"""Histories of one mirror: feeds, sets and loads, refused ones among them, queries, recalls into a fresh mirror, listings printed
and loaded, tables poked."""
from orders.listing import ListingOrders
from orders.mirrors import RECALL_ROOM, SET_ROOM, MirrorOrders
from orders.words import UINT32, pairs
from randoms.listing import Listings
from randoms.listing import PLACES as LISTED_PLACES
from randoms.source import IDS, LINE_BYTES
from rules.command import set_bytes
from rules.decoder import State
from rules.listing import TEXT_LIMIT, listing, records_of
from rules.mirror import CONSOLE, SET_ORDER, WIDTH, Record, from_console, record_bytes
from rules.numbers import signed_bytes, unsigned_bytes
from rules.utf8 import is_utf8

PLACES = (0, 1, 1, 1, 2, 2, 2, 3, 3, 4, 5, 8, 16, 40, 128, 1024, 1025, 1026)
MOST_FED = 8150         # the most bytes that a feed order can spell, about
ORIGINS = (CONSOLE, SET_ORDER, SET_ORDER, 2, 2, 2, 3, 127, 128, 254, 255)
ORIGIN_AT = 5           # of a record's bytes


class History:
    """Lines, said to a model of the mirror as they are made, so that what they hold is known."""

    def __init__(self, source):
        self.s = source
        self.r = source.r
        self.lines = []
        self.orders = MirrorOrders()
        self.table = {**self.orders.table(), **ListingOrders(self.orders).table()}
        self.listings = Listings(source)

    def say(self, line):
        self.lines.append(line)
        name, *words = line.encode().split(b" ")
        return self.table[name][1](*words)

    @property
    def mirror(self):
        return self.orders.mirror

    def new(self, places):
        line = "new %d" % places
        if self.s.chance(0.6):
            line += " %d" % (0 if places >= 1026 else self.s.pick(0, 1, 100, 263))
            if self.s.chance(0.8):
                line += " %d" % self.s.pick(255, 223, 1, self.r.randrange(256))
        self.say(line)
        self.s.ids = self.r.sample(IDS, min(len(IDS), self.s.pick(places, places + 1, places + 3) + 1))
        if places >= 16:
            self.s.ids += [self.r.randrange(-2**31, 2**31) for _ in range(places // 2)]

    def feed(self):
        """A stream in some feeds."""
        for piece in self.s.cuts(self.s.stream()[:MOST_FED]):
            self.say("feed " + pairs(piece))
        if self.s.chance(0.1):
            self.say("feed -")

    def flood(self):
        """More nodes than there are places, in any order."""
        nodes = self.r.sample(range(-2**31, 2**31), self.mirror.places() + self.s.pick(-1, 0, 1, 5))
        self.s.ids = nodes[-8:] + nodes[:8]
        for at in range(0, len(nodes), 200):
            self.say("feed " + b"".join(set_bytes(n, ("i", self.r.randrange(64))) for n in nodes[at:at + 200]).hex())

    def repeat(self):
        times = self.s.pick(65536, 65537, 65600, 1, 0)
        if self.s.chance(0.3):
            self.say("repeat %d %s" % (times, self.s.pick("40", "01", "de", "df")))
        else:
            self.say("repeat %d %s" % (self.r.randrange(9), pairs(self.s.stream()[:7000])))

    def value(self):
        """A value, and its word in an order."""
        kind = self.s.pick("int", "float", "string")
        if kind == "int":
            number = self.s.int32()
            return kind, str(number), ("i", number)
        data = self.s.field(4) if kind == "float" else self.s.text(self.s.pick(3, 64, 256, 300), 0.4)
        return kind, pairs(data), (kind[0], data)

    def set(self):
        node, (kind, word, value) = self.s.node(), self.value()
        exact = len(set_bytes(node, value)) if kind != "string" or len(value[1]) <= 256 else 300
        room = self.s.pick(512, 512, exact, exact, exact - 1, exact + 1, 0, self.r.randrange(513))
        self.say("%s %d %s %d" % (kind, node, word, min(max(room, 0), SET_ROOM)))

    def query(self):
        records = min(self.mirror.count, UINT32 - 1)
        self.say(self.s.pick("dump", "lookup %d" % self.s.node(), "lookup %d" % self.s.node(),
                             "record %d" % self.s.pick(0, 1, max(records - 1, 0), records, records + 1, UINT32),
                             "recall %d" % self.s.pick(RECALL_ROOM, 2, self.r.randrange(RECALL_ROOM))))

    def look(self, most=3):
        """Some records by their numbers, with the bytes that are their origins."""
        records = min(self.mirror.count, self.mirror.places())
        for number in self.r.sample(range(records), min(records, most)):
            self.say("record %d" % number)
            if self.s.chance(0.3):
                self.say("peek %d 1" % (number * WIDTH + ORIGIN_AT))

    def peek(self):
        size = len(self.mirror.table)
        at = self.s.pick(0, size, max(size - WIDTH, 0), self.r.randrange(size + 1), min(WIDTH * self.r.randrange(5), size))
        self.say("peek %d %d" % (at, self.s.pick(0, min(size - at, 4096), min(size - at, self.r.randrange(600)))))

    def poke(self, at, data):
        """Bytes into the table, as far as it goes; the order that undoes it."""
        at = min(at, len(self.mirror.table))
        data = data[:len(self.mirror.table) - at]
        undo = "poke %d %s" % (at, pairs(bytes(self.mirror.table[at:at + len(data)])))
        self.say("poke %d %s" % (at, pairs(data)))
        return undo

    def poke_field(self):
        """One field of a record, out of form mostly; the order that undoes it."""
        at = WIDTH * self.r.randrange(max(min(self.mirror.count, self.mirror.places()), 1))
        tail = self.s.pick(0, 1, 4, 255, self.r.randrange(256))
        return self.poke(*self.s.pick(
            (at, self.s.field(4)), (at, signed_bytes(self.s.node(), 4)), (at + 4, bytes([self.s.pick(0, 1, 2, 3, 255)])),
            (at + ORIGIN_AT, bytes([self.r.choice(ORIGINS)])), (at + 6, unsigned_bytes(self.s.pick(0, 3, 4, 5, 255, 256, 257, 0x400), 2)),
            (at + 8 + tail, self.s.pick(b"\x01", b"\xff", b"\x00")), (at + 8, self.s.field(4)), (at + 8, b"\x80"),
            (at + WIDTH, bytes(self.mirror.table[at:at + 4])), (at + WIDTH, self.s.field(4))))

    def hand_over(self, count):
        undo = "count %d" % self.mirror.count
        self.say("count %d" % min(count, UINT32))
        return undo

    def poke_count(self):
        count, places = self.mirror.count, self.mirror.places()
        return self.hand_over(self.s.pick(0, max(count - 1, 0), count + 1, places, places + 1, 1025, UINT32))

    def poke_record(self):
        """A record after the last one, written by hand, and the count one more."""
        value = self.s.pick(("i", self.s.int32()), ("f", self.s.field(4)), ("s", self.s.text(256)))
        record = Record(self.s.pick(2**31 - 1, self.s.node()), value, self.s.pick(CONSOLE, SET_ORDER))
        self.poke(self.mirror.count * WIDTH, record_bytes(record))
        return self.hand_over(self.mirror.count + 1)

    def load(self):
        """Taken or refused; a token may be half read before it, and what it left is seen by a feed."""
        if self.s.chance(0.3):
            self.say("feed " + self.s.pick("d70000", "8241", "d5", "df", "dfd1", "df0010", "d700000001d3", "dfd500"))
        self.say(self.listings.loads() if self.s.chance(0.05) else self.listings.load(min(self.mirror.places(), 1024)))
        self.s.pick(self.feed, self.dump, self.dump, self.print, self.peek, self.query, self.look)()

    def print(self):
        """With room for the whole, exact or one byte less, of a table that is usable or not."""
        self.say(self.listings.print(len(listing(self.mirror.records() or ()))))

    def dump(self):
        self.say("dump")

    def mend(self):
        """A table poked, then a load, which does not look at it."""
        self.s.pick(self.poke_field, self.poke_count, self.poke_record)()
        self.load()
        self.dump()

    def reload(self):
        """What is printed is loaded, over other records and into other places; 02 wants an equal mirror with a fresh decoder, "the
        origin is set aside"."""
        before = from_console(self.mirror.usable_records())
        text = listing(before)
        if len(text) <= TEXT_LIMIT:
            assert records_of(text) == before, "the model breaks 02: a printed table is loaded as another"
        self.print()
        if len(text) > LINE_BYTES:
            return
        places = self.s.pick(max(1, len(before)), min(1024, self.mirror.places() + 1), max(len(before) - 1, 0), 1024)
        if self.s.chance(0.5):
            self.say("new %d %d %d" % (places, self.s.pick(0, 1, 263), self.s.pick(0, 0xDF, self.r.randrange(256))))
        for _ in range(self.s.pick(0, 1, 2)):
            self.s.pick(self.feed, self.set)()
        taken = self.say(self.s.pick("load ", "lines ") + pairs(text)).startswith("loaded")
        assert taken == (1 <= self.mirror.places() and len(before) <= self.mirror.places())
        if taken:
            assert self.mirror.records() == before, "the model breaks 02: a printed table is loaded as another"
            assert vars(self.mirror.state) == vars(State()), "the model breaks 02: a decoder that is not fresh"
        self.dump()
        self.look()

    def damage(self):
        """A table poked, then each kind of call, then mostly made good again."""
        undo = self.s.pick(self.poke_field, self.poke_field, self.poke_count, self.poke_record)()
        for call in self.r.sample((self.feed, self.set, self.set, self.query, self.query, self.query, self.peek, self.print, self.look), 4):
            call()
        if self.s.chance(0.95):
            self.say(undo)

    def wide(self):
        """Sets after which a recall is as long as the largest output that a recall order may have, or nearly."""
        left = RECALL_ROOM - 2 + self.s.pick(-1, 0, 0, 0, 1)
        while left > 0:
            node, text = self.r.randrange(-2**31, 2**31), self.s.text(256)
            if left < 600:
                # 72 to 263 bytes are one string, but for the one of 224 bytes, whose length byte is escaped.
                text = b"z" * (left - 7 if left <= 263 and left != 231 else 100)
            if is_utf8(text):
                self.say("string %d %s 512" % (node, pairs(text)))
                left -= len(set_bytes(node, ("s", text)))

    def pieces(self, data):
        """The bytes in some feeds, empty ones too, some of them cut after a df."""
        cuts = [self.r.randrange(len(data) + 1) for _ in range(self.s.pick(0, 1, 2, 5, 20))]
        if self.s.chance(0.5):
            cuts += [at + 1 for at, byte in enumerate(data) if byte == 0xDF][:30]
        cuts = sorted(cuts + list(range(0, len(data), MOST_FED)) + [len(data)])
        for a, b in zip(cuts, cuts[1:]):
            self.say("feed " + pairs(data[a:b]))

    def rebuild(self):
        """Recalls of the mirror, and a mirror made anew of what they write; 01 wants it equal, 02 "the origin is set aside"."""
        before = from_console(self.mirror.usable_records())
        data = self.mirror.recall(10**7)
        for room in (len(data), len(data) - 1, len(data) + 1, self.s.pick(0, 1, RECALL_ROOM, self.r.randrange(len(data)))):
            self.say("recall %d" % min(room, RECALL_ROOM))
        self.say("dump")
        places = self.s.pick(max(1, len(before)), self.mirror.places(), min(1024, self.mirror.places() + 1), 1024)
        self.say("new %d %d %d" % (places, self.s.pick(0, 1, 263), self.s.pick(0, 0xDF, self.r.randrange(256))))
        self.pieces(data)
        self.say("dump")
        self.look()
        assert self.mirror.records() == before, "the model breaks 01: a recall fed to a fresh mirror made another one"

    def is_usable(self):
        return self.mirror.records() is not None and 1 <= self.mirror.places() <= 1024

    def call(self):
        kind = self.r.random()
        if kind < 0.5:
            self.feed()
        elif kind < 0.7:
            self.set()
        elif kind < 0.83:
            self.query()
        elif kind < 0.87:
            self.load()
        else:
            self.pick_rare()

    def pick_rare(self):
        self.r.choice((self.damage, self.damage, self.peek, self.peek, self.repeat, self.print, self.mend, self.look, self.look))()

    def whole(self):
        """A history from a fresh mirror to a dump and some records."""
        places = self.r.choice(PLACES)
        self.new(places)
        if places == 1024 and self.s.chance(0.2):
            self.wide()
        elif 16 <= places <= 1024 and self.s.chance(0.3):
            self.flood()
        for _ in range(self.s.pick(3, 10, 30, 60) if self.is_usable() else 5):
            self.call()
        if self.is_usable() and self.s.chance(0.5):
            self.rebuild()
        if self.is_usable() and self.s.chance(0.5):
            self.reload()
        self.say("dump")
        self.look()
        return self.lines

    def listed(self):
        """A short one, of loads mostly."""
        self.new(self.r.choice(LISTED_PLACES))
        for _ in range(self.s.pick(1, 2, 3, 5, 8)):
            self.s.pick(self.load, self.load, self.load, self.feed, self.set, self.print, self.mend)()
        if self.is_usable():
            self.reload()
        return self.lines


def history(source):
    return History(source).whole()


def listed(source):
    return History(source).listed()
