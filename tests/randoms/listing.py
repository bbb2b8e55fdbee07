"""Listings, good and with faults, and orders on them."""
from orders.listing import PRINT_ROOM, TEXT
from orders.words import pairs
from randoms.listing_faults import Faults
from randoms.source import LINE_BYTES
from rules.listing import HEADER, TEXT_LIMIT, listing, record_text, records_of
from rules.mirror import CONSOLE, Record
from rules.refusal import Refusal

ENDS = (0, 1, -1, 9, 10, -9, -10, 99, 100, 2**31 - 1, 2**31 - 2, -2**31, -2**31 + 1)
PLACES = (0, 1, 1, 2, 2, 3, 5, 8, 16, 40, 1023, 1024, 1024, 1024, 1025, 1026)
MANY = 1000             # records, of which each must be short to fit an order
MOST = 1099             # short records that fit an order
WIDEST = 523            # of a line with an id of seven digits: 11 bytes besides the pairs of 256 bytes


def check_again(text):
    """02: "Printing a loaded text gives its bytes again"."""
    try:
        records = records_of(text)
    except Refusal:
        return
    assert listing(records) == text, "the model breaks 02: a loaded text is printed as another"


def check_back(records):
    """02: "Loading a table printed .. gives an equal mirror"."""
    assert records_of(listing(records)) == tuple(records), "the model breaks 02: a printed table is loaded as another"


def short_records(number):
    """So many, each in the fewest bytes."""
    return [Record(node, ("s", b""), CONSOLE) for node in range(-99, number - 99)]


def lines_of(records):
    check_back(records)
    return [HEADER] + [record_text(record).encode() for record in records]


def joined(lines):
    return b"".join(line + b"\n" for line in lines)


class Listings:
    def __init__(self, source):
        self.s = source
        self.r = source.r
        self.faults = Faults(source)

    def string(self):
        return self.s.good_text(self.s.pick(0, 1, 2, 3, 8, 20, self.s.pick(63, 64, 65, 255, 256, 256, self.r.randrange(257))))

    def value(self):
        kind = self.s.pick("i", "i", "f", "s", "s")
        if kind == "i":
            return kind, self.s.pick(self.s.int32(), self.r.choice(ENDS))
        return kind, self.s.field(4) if kind == "f" else self.string()

    def node(self):
        return self.s.pick(self.s.node(), self.s.node(), self.r.choice(ENDS), self.r.randrange(-300, 300),
                           self.r.randrange(-2**31, 2**31))

    def records(self, number):
        """So many, or fewer where a node came twice."""
        values = {self.node(): self.value() for _ in range(number)}
        return [Record(node, values[node], CONSOLE) for node in sorted(values)]

    def good(self, places):
        """Of as many records as there are places, about, or of a few. It fits an order."""
        number = max(0, self.s.pick(places, places, places - 1, places + 1, self.r.randrange(places + 1), 1, 2, 3, 5))
        if MANY < number <= MOST or self.s.chance(0.02):
            return lines_of(short_records(number))
        lines = lines_of(self.records(min(number, 200)))
        while sum(len(line) + 1 for line in lines) > LINE_BYTES:
            del lines[self.r.randrange(1, len(lines)):]
        return lines

    def text(self, places):
        """For so many places, with no fault, one, two or more. It fits an order."""
        lines = self.faults.some(self.good(places), self.s.pick(0, 0, 0, 0, 0, 1, 1, 1, 1, 1, 2, 2, 3))
        text = joined(lines)[:LINE_BYTES]
        text = self.faults.end(text)[:LINE_BYTES] if self.s.chance(0.12) else text
        check_again(text)
        return text

    def load(self, places):
        return self.s.pick("load ", "lines ", "lines ") + pairs(self.text(places))

    def loads(self):
        """A block over and over: around the most bytes of a text and of the order, or few times. There are other faults with 14."""
        block = self.s.pick(b"\n", b"0", HEADER + b"\n", self.text(3), self.text(40)) or b"\n"
        around = TEXT_LIMIT // len(block)
        times = self.s.pick(around, around, around + 1, around + 1, TEXT // len(block), 0, 1, 1, 2)
        return "loads %d %s" % (min(times, TEXT // len(block)), pairs(block))

    def print(self, exact):
        """With room for so many bytes, one less, one more, to spare."""
        room = self.s.pick(exact, exact, exact - 1, exact + 1, PRINT_ROOM, PRINT_ROOM, 0, 13, 14, self.r.randrange(exact + 1))
        return "print %d" % min(max(room, 0), PRINT_ROOM)

    def single(self):
        """An order to whatever mirror there is."""
        kind = self.r.random()
        if kind < 0.7:
            return self.load(self.s.pick(1, 2, 3, 8, 40))
        return self.loads() if kind < 0.8 else self.print(self.r.randrange(14, 200))

    def line_of(self, node, length):
        return b"%d,s,%s" % (node, self.s.good_text(length).hex().encode())

    def sized(self, size):
        """A good one of so many bytes. An id of eight digits at the end makes an even line."""
        lines, left, node, most = [HEADER], size - len(HEADER) - 1, 10**6, self.s.pick(30, 60, 256)
        while left > WIDEST:
            length = self.r.randrange(min(most, (left - 23) // 2) + 1)
            lines.append(self.line_of(node, length))
            left -= 11 + 2 * length
            node += 1
        lines.append(self.line_of(node if left % 2 else 10**7, (left - 11) // 2))
        return joined(lines)

    def long_text(self):
        """For the program recall: around its most bytes and its most records, or as an order may have it."""
        size = self.s.pick(TEXT_LIMIT - 1, TEXT_LIMIT, TEXT_LIMIT, TEXT_LIMIT + 1, TEXT_LIMIT + 2, 70000, 140000, 30000)
        records = self.s.pick(1023, 1024, 1024, 1025, 1025, 1026, MOST, 3000)
        text = self.s.pick(lambda: self.sized(size), lambda: self.sized(size), lambda: listing(short_records(records)),
                           lambda: b"\n" * size, lambda: self.s.r.randbytes(size))()
        lines = self.faults.some(text.split(b"\n")[:-1], self.s.pick(0, 0, 0, 1)) if text.startswith(HEADER) else []
        return joined(lines) if lines else text

    def at_limits(self):
        """Of no bytes and of no records; around the most bytes and the most records."""
        wide = self.sized(TEXT_LIMIT)
        return [b"", HEADER, HEADER + b"\n", wide, wide[:-1], wide + b"\n", self.sized(TEXT_LIMIT + 1), listing(short_records(1024)),
                listing(short_records(1025)), listing(short_records(1025))[:-1]]

    def any_text(self):
        text = self.long_text() if self.s.chance(0.3) else self.text(self.r.choice(PLACES))
        check_again(text)
        return text
