"""Histories of a few nodes, with feeds and sets in turn, of the same value and of another, and what may alter an origin or must not.
After each call some records are read, so that a wrong origin shows."""
from orders.mirrors import RECALL_ROOM
from orders.words import pairs
from randoms.histories import ORIGIN_AT, ORIGINS, History
from rules.command import STRING_LIMIT, escaped, set_bytes
from rules.listing import listing
from rules.mirror import WIDTH
from rules.numbers import signed_bytes

PLACES = (1, 2, 2, 3, 3, 4, 5, 8)
SHORT = (0, 5)          # rooms that no set order fits into
LONG = b"z" * (STRING_LIMIT + 1)
# Units that put nothing: an end, a definition that does not parse, tokens that are skipped, a string that is not UTF-8.
NOTHING = (b"", b"\xde", b"\xdf\x00\x01\x00", b"\xd2\x00\x00", b"\xd9\x00", b"\xdd", b"\x80\xff", b"\x81\xc3\x41")


class Origins(History):
    def __init__(self, source):
        super().__init__(source)
        self.last = {}          # the value that was tried last at each node

    def value_at(self, node):
        """The last one again, or another."""
        if node not in self.last or self.s.chance(0.5):
            self.last[node] = self.value()
        return self.last[node]

    def see(self, node):
        """Its record, where it has one."""
        for number, record in enumerate(self.mirror.records() or ()):
            if record.node == node:
                self.say("record %d" % number)

    def fed(self, data):
        for piece in self.s.cuts(data):
            self.say("feed " + pairs(piece))

    def put(self):
        """By a feed or by a set. A string that no feed can have goes by a set, which is refused."""
        node = self.s.node()
        kind, word, value = self.value_at(node)
        too_long = kind == "string" and len(value[1]) > STRING_LIMIT
        if too_long or self.s.chance(0.5):
            self.say("%s %d %s 512" % (kind, node, word))
        else:
            self.fed(set_bytes(node, value))
        self.see(node)

    def refused(self):
        """9, 1, 10; and 6 or 7 where the table is so. 02: "0 for a put by a feed and 1 for one by a set", and these put nothing."""
        node = self.s.node()
        kind, word, _ = self.value_at(node)
        self.say(self.s.pick("%s %d %s %d" % (kind, node, word, self.r.choice(SHORT)), "string %d %s 512" % (node, pairs(LONG)),
                             "string %d 61c3 512" % node))
        self.see(node)

    def too_much(self):
        """14: a byte more than a feed may have, each a value of the current node."""
        self.say("repeat 65537 01")

    def nothing(self):
        """A node without a value, and tokens that put none."""
        node = self.s.node()
        self.fed(escaped(b"\xd7" + signed_bytes(node, 4) + self.r.choice(NOTHING)))
        self.see(node)

    def own_recall(self):
        """The mirror is fed its own recall: the values stay, and came from the console then."""
        if self.is_usable():
            data = self.mirror.recall(10**7)
            self.say("recall %d" % min(len(data), RECALL_ROOM))
            self.fed(data)

    def own_listing(self):
        """The mirror is loaded with its own listing."""
        if self.is_usable():
            text = listing(self.mirror.records())
            self.say("print %d" % len(text))
            self.say("load " + pairs(text))

    def poke_origin(self):
        """02: "A table with an origin over 1 gets 7", and one with 0 or 1 is sound: each kind of call, then made good again."""
        at = WIDTH * self.r.randrange(max(min(self.mirror.count, self.mirror.places()), 1)) + ORIGIN_AT
        undo = self.poke(at, bytes([self.r.choice(ORIGINS) if self.s.chance(0.8) else self.r.randrange(256)]))
        for call in self.r.sample((self.put, self.put, self.refused, self.query, self.query, self.print, self.dump, self.look), 4):
            call()
        self.say(self.s.pick(undo, undo, "poke %d 00" % at, "poke %d 01" % at))

    def fewer(self):
        """The last record is none for a while. Its origin is no matter then, and whoever puts it again decides."""
        count = self.mirror.count
        if 1 <= count <= self.mirror.places():
            self.poke((count - 1) * WIDTH + ORIGIN_AT, bytes([self.r.choice(ORIGINS)]))
            self.hand_over(count - 1)
            self.put()

    def step(self):
        kind = self.r.random()
        if kind < 0.55:
            self.put()
        elif kind < 0.75:
            self.s.pick(self.refused, self.nothing)()
        else:
            self.s.pick(self.own_recall, self.own_listing, self.poke_origin, self.poke_origin, self.fewer, self.too_much, self.feed,
                        self.set)()
        self.look(1)

    def whole(self):
        self.new(self.r.choice(PLACES))
        for _ in range(self.s.pick(4, 8, 12)):
            self.step()
        if self.is_usable():
            self.s.pick(self.rebuild, self.reload)()
        self.look(8)
        return self.lines


def origins(source):
    return Origins(source).whole()
