"""What the program shell must answer, by 01 and by 02's requests alone: a second opinion on the library.

The rules are in rules/, the orders of docs/ORDERS.md in orders/.

    python3 tests/model.py < crates/shell/stdin                  # the lines that shell prints
    python3 tests/model.py --mirror < samples/capture.bin        # the listing that the program mirror prints
    target/bin/mirror < samples/capture.bin | python3 tests/model.py --recall      # what the program recall writes
    python3 tests/model.py --meters 64 < samples/meters.bin      # what the program meters prints
"""
import sys

from orders import define, node, wire, writers
from orders.compact import summed
from orders.listing import ListingOrders
from orders.mirrors import MirrorOrders
from orders.window import WindowOrders
from orders.wire import REPEATED
from orders.words import UINT32, OutOfForm, count, demand, hex_of
from rules.decoder import CALL_LIMIT
from rules.listing import BadLine, listing, load
from rules.mirror import WIDTH, Mirror
from rules.packets import BadPacket, table
from rules.refusal import Refusal
from rules.window import WIDEST, checked_width

LINE = 16384        # the longest line that shell reads
HELD = 80000        # the most bytes that it holds for a later order
LISTED = 128        # places of the program mirror
RECALLED = 1024     # places of the program recall
# What the program recall says of a refusal, by its number.
CAUSES = {1: "string not UTF-8", 6: "more than 1,024 records", 10: "string over 256 bytes", 14: "text over 65,536 bytes",
          17: "header or line out of form", 18: "id not above the one before"}
METERED = 2**20     # the most bytes that the program meters takes
WORD = 64           # and the most of its width


class Orders:
    """The orders by name, and what they hold between lines."""

    # Their last word is HEX, or + for the bytes held.
    LONG = {**wire.LONG, **node.LONG, **writers.LONG}
    SHORT = {**wire.TABLE, **node.TABLE, **writers.TABLE}

    def __init__(self):
        self.held = b""
        # Orders that have no sum: those to the mirror, to the window and to the bytes held, and those of 02.
        mirrors = MirrorOrders()
        self.unsummed = {**mirrors.table(), **ListingOrders(mirrors).table(), **WindowOrders().table(), **define.TABLE,
                         b"more": ((1,), self.more), b"mores": ((2,), self.mores)}

    def hold(self, more):
        data = self.held + more
        demand(len(data) <= HELD)
        self.held = data
        return "held %d" % len(data)

    def more(self, word):
        return self.hold(hex_of(word))

    def mores(self, times, word):
        """The bytes so many times over."""
        times, data = count(times, UINT32), hex_of(word)
        demand(times * len(data) <= REPEATED)
        return self.hold(data * times)

    def long_order(self, name, words):
        wanted, answer = self.LONG[name]
        demand(len(words) == wanted)
        if words[-1] != b"+":
            return answer(*words[:-1], hex_of(words[-1]))
        text = answer(*words[:-1], self.held)
        self.held = b""
        return text

    @staticmethod
    def order_in(table, name, words):
        demand(name in table)
        wanted, answer = table[name]
        demand(len(words) in wanted)
        return answer(*words)

    def summed_order(self, name, words):
        """An order that may also stand after sum."""
        if name in self.LONG:
            return self.long_order(name, words)
        return self.order_in(self.SHORT, name, words)

    def order(self, name, words):
        if name == b"sum" and words:
            return summed(self.summed_order(words[0], words[1:]))
        if name in self.unsummed:
            return self.order_in(self.unsummed, name, words)
        return self.summed_order(name, words)

    def answer(self, line):
        """What one line prints, without its end."""
        if len(line) > LINE:
            return b"?"
        if not line or line[:1] == b"#":
            return line
        name, *words = line.split(b" ")
        try:
            return self.order(name, words).encode()
        except OutOfForm:
            return b"? " + line


def answers(text):
    """What shell prints of its input."""
    lines = text.split(b"\n")
    if lines[-1] == b"":
        lines.pop()
    orders = Orders()
    return b"".join(orders.answer(line) + b"\n" for line in lines)


def mirrored(data):
    """What the program mirror prints of its input."""
    mirror = Mirror(bytearray(LISTED * WIDTH))
    for at in range(0, len(data), CALL_LIMIT):
        mirror.feed(data[at:at + CALL_LIMIT])
    return listing(mirror.records())


def complaint(refusal):
    """What the program recall says of a listing that is refused, with its line where it has one."""
    line = "line %d: " % refusal.line if isinstance(refusal, BadLine) else ""
    number, good = refusal.why
    of_string = "" if good is None else " good %d" % good
    return ("recall: %s%d%s, %s\n" % (line, number, of_string, CAUSES[number])).encode()


def recalled(text):
    """What the program recall writes, to standard output and to standard error."""
    mirror = Mirror(bytearray(RECALLED * WIDTH))
    try:
        load(mirror, text)
    except Refusal as r:
        return b"", complaint(r)
    return mirror.recall(10**7), b""


def width_of(words):
    """The width that the program meters is started with: 0, which is none, for a word that is no decimal number."""
    if not words:
        return WIDEST
    digits = words[0] and all(c in b"0123456789" for c in words[0])
    return int(words[0]) if digits and len(words[0]) <= WORD else 0


def metered(words, data):
    """What the program meters writes of its words and its input, to standard output and to standard error."""
    if len(words) > 1:
        return b"", b"meters: the width is the only argument\n"
    try:
        width = checked_width(width_of(words))
    except Refusal as r:
        return b"", b"meters: %d, width not a number from 1 to 256\n" % r.why.number
    if len(data) > METERED:
        return b"", b"meters: the input is longer than 1,048,576 bytes\n"
    try:
        return table(data, width), b""
    except BadPacket as bad:
        fault = b"the input ends inside it" if bad.why is None else b"%d, length outside 4 to 8,192" % bad.why
        return b"", b"meters: packet %d: %s\n" % (bad.number, fault)


def main():
    given = sys.stdin.buffer.read()
    if sys.argv[1:] == ["--recall"] or sys.argv[1:2] == ["--meters"]:
        out, said = recalled(given) if sys.argv[1] == "--recall" else metered([word.encode() for word in sys.argv[2:]], given)
        sys.stdout.buffer.write(out)
        sys.stderr.buffer.write(said)
    else:
        sys.stdout.buffer.write(mirrored(given) if sys.argv[1:] == ["--mirror"] else answers(given))


if __name__ == "__main__":
    main()
