"""Files of meter packets for the program meters, good and with faults, and the words that it is started with."""
from rules.numbers import signed_bytes, unsigned_bytes
from rules.packets import LONGEST, MOST_READINGS

FILE = 2**20        # the most bytes that the program takes
LENGTHS = (0, 1, 3, 4, 5, LONGEST - 1, LONGEST, LONGEST + 1, 0x8000, 65535)
# Widths, and what is none: out of range, no number, over 64 bytes.
WIDTHS = (b"1", b"2", b"3", b"10", b"64", b"255", b"256", b"0256", b"000001")
NO_WIDTHS = (b"0", b"257", b"1000", b"1001", b"9999999", b"65537", b"4294967297", b"18446744073709551617", b"", b"-1", b"+1", b" 1",
             b"1 ", b"1x", b"x", b"0x10", b"1.0", b"1e2", b"\xd9\xa3", b"0" * 63 + b"1x", b"0" * 64 + b"1", b"9" * 64)


def with_length(content):
    return unsigned_bytes(len(content), 2) + content


def packet(meter, readings, rest=b""):
    return with_length(unsigned_bytes(meter, 2) + b"\xdf\xff" + b"".join(signed_bytes(x, 2) for x in readings) + rest)


class PacketFiles:
    def __init__(self, source):
        self.s = source
        self.r = source.r

    def words(self):
        """What the program is started with: no width, or one."""
        return self.s.pick([], [self.r.choice(WIDTHS)], [b"%d" % self.r.randrange(1, 257)])

    def reading(self, n, shape):
        """The n-th of a strip that is flat, goes down (the largest leaves at each step), up, from end to end, or anyhow."""
        low, high = -32768, 32767
        return {"low": low, "high": high, "down": max(high - 200 * n, low), "up": min(low + 150 * n, high), "ends": (low, high)[n % 2],
                "near": self.r.randrange(-9, 9)}.get(shape, self.r.randrange(low, high + 1))

    def packets(self, number, most_strips):
        """So many, of a few ids or of many, each with any number of readings or mostly the same."""
        ids = self.s.pick([0], [65535, 0], [1, 2, 3], [self.r.randrange(65536) for _ in range(self.s.pick(2, 5, 60))])
        shapes = [self.s.pick("low", "high", "down", "up", "ends", "near", "any") for _ in range(most_strips)]
        uneven = self.s.chance(0.5)
        for n in range(number):
            strips = self.r.randrange(most_strips + 1) if uneven or self.s.chance(0.05) else most_strips
            yield packet(self.r.choice(ids), [self.reading(n, shape) for shape in shapes[:strips]], self.s.pick(b"", b"", b"\x80"))

    def good(self):
        """Few packets or more than a window holds, of few strips or many."""
        return list(self.packets(*self.s.pick((0, 3), (1, 5), (2, 2), (5, 9), (40, 5), (300, 3), (300, 1), (600, 3), (900, 1), (3, 128),
                                              (8, MOST_READINGS))))

    def wrong_length(self, packets):
        """A length other than the packet has."""
        at = self.r.randrange(len(packets))
        length = self.s.pick(self.r.choice(LENGTHS), len(packets[at]) - 3, len(packets[at]) - 1, self.r.randrange(65536))
        return packets[:at] + [unsigned_bytes(length, 2) + packets[at][2:]] + packets[at + 1:]

    def other_packet(self, packets):
        """One of another length, whole."""
        at = self.r.randrange(len(packets) + 1)
        return packets[:at] + [with_length(self.r.randbytes(self.r.choice(LENGTHS)))] + packets[at:]

    def any_file(self):
        packets = self.good()
        kind = self.r.random()
        if kind < 0.5 or not packets:
            return b"".join(packets)
        if kind < 0.65:
            return b"".join(self.wrong_length(packets))
        if kind < 0.8:
            return b"".join(self.other_packet(packets))
        data = b"".join(packets)
        if kind < 0.9:
            return data[:self.r.randrange(len(data))]
        return self.s.damaged(data, self.s.pick(1, 2, 5))

    def ids_twice(self):
        """Every id, one reading each, and again from the last id down: the longest file that is taken."""
        each = [packet(meter, [meter - 32768]) for meter in range(65536)]
        return b"".join(each + each[::-1])

    def one_long(self):
        """A packet of the most readings and as many empty ones as a file holds, all of one id."""
        long = packet(7, [self.r.randrange(-32768, 32768) for _ in range(MOST_READINGS)])
        return long + packet(7, []) * ((FILE - len(long)) // 6)

    def at_limits(self):
        """Words and files. Every width of the lists, and a word too many. Files of no bytes, of one and of two; packets around the
        least and the most; files around the most bytes and packets."""
        small = b"".join(self.packets(3, 2))
        whole = [small + with_length(self.r.randbytes(length)) for length in LENGTHS]
        cut = [small + unsigned_bytes(length, 2) + bytes(there) for length in LENGTHS for there in {0, length // 2, max(length - 1, 0)}]
        wide, empty = self.ids_twice(), packet(9, []) * (FILE // 6)
        files = [b"", b"\x00", b"\x04", b"\x00\x04", small + b"\x00", small] + whole + cut + [
            wide, wide + b"\x00", wide[:-1], empty[6:] + packet(9, [5, -6]), empty + packet(9, [5]), self.one_long()]
        return [([word], small) for word in WIDTHS + NO_WIDTHS] + [([b"1", b""], small)] + [(self.words(), data) for data in files]
