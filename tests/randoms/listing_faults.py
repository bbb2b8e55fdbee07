"""Faults of a listing, of each refusal. A listing is a list of lines without their ends here, the header first."""

# Integers out of form, of an id and of a value.
NUMBERS = (b"", b"-", b"--1", b"-0", b"+0", b"+1", b"00", b"01", b"-01", b"007", b"0x1", b"1.0", b"1e3", b" 1", b"1 ", b"1-", b"1a",
           b"2147483648", b"2147483650", b"-2147483649", b"-2147483650", b"3000000000", b"4294967295", b"4294967296",
           b"9999999999", b"-9999999999", b"10000000000", b"99999999999", b"18446744073709551616", b"-18446744073709551617",
           b"9" * 30, b"0" * 10, b"1" + b"0" * 40, b"\xd9\xa1")
KINDS = (b"", b"I", b"F", b"S", b"x", b"ii", b"is", b"0", b"1", b"b", b" i", b"i ", b"-", b"\"i\"", b"d", b"\x00", b"g", b"e",
         b"h", b"t") + (b"i", b"f", b"s") * 4
HEADERS = (b"", b"ID,kind,value", b"id,kind,value\r", b"id, kind,value", b"id,kind,value ", b" id,kind,value", b"id,kind",
           b"id;kind;value", b"id,kind,values", b"id,kind,valu", b"id,kind,value,", b"\"id\",\"kind\",\"value\"",
           b"\xef\xbb\xbfid,kind,value", b"Id,Kind,Value", b"id,value,kind", b"1,i,5", b"#", b"id,kind,value\x00")
# Bytes that a reader of lines tells apart, to be put in anywhere.
MARKS = (b",", b",", b"\n", b"\n", b"\r", b" ", b"\t", b"-", b"+", b"0", b"\"", b"'", b";", b"\x00", b"\xff", b"\x80", b"A", b"a",
         b"g", b"f", b"/", b":", b"`", b"@", b"\x0b", b"\x85")
LONG = (257, 257, 258, 259, 300, 511, 512, 1000)    # strings over the most bytes


class Faults:
    def __init__(self, source):
        self.s = source
        self.r = source.r

    @staticmethod
    def changed(lines, at, line):
        return lines[:at] + [line] + lines[at + 1:]

    def some_line(self, lines):
        """The number of a line, of a record's where there is one."""
        return self.r.randrange(1, len(lines)) if len(lines) > 1 else 0

    def with_field(self, lines, place, fields):
        """One field of a line becomes another."""
        at = self.some_line(lines)
        parts = lines[at].split(b",")
        parts[min(place, len(parts) - 1)] = self.r.choice(fields)
        return self.changed(lines, at, b",".join(parts))

    def with_value(self, lines, kind, *values):
        """A line whose id stays."""
        at = self.some_line(lines)
        return self.changed(lines, at, b",".join([lines[at].split(b",")[0], kind, self.r.choice(values)]))

    def bad_id(self, lines):
        """17."""
        return self.with_field(lines, 0, NUMBERS)

    def bad_kind(self, lines):
        """17, but where the value has the form of the other kind."""
        return self.with_field(lines, 1, KINDS)

    def bad_integer(self, lines):
        """17."""
        return self.with_value(lines, b"i", *NUMBERS)

    def bad_float(self, lines):
        """17, but for bits without a letter in upper case."""
        bits = self.s.field(4).hex().encode()
        return self.with_value(lines, b"f", bits[:-1], bits + b"0", b"", bits.upper(), b"0x" + bits[2:], b"-" + bits[1:],
                               bits[:-1] + b"g", bits * 2, bits[:-2], bits + b"00", b"+" + bits[1:], b" " + bits[1:])

    def bad_pairs(self, lines):
        """17, but for pairs without a letter in upper case."""
        text = self.s.good_text(self.s.pick(0, 1, 3, 20, 256)).hex().encode()
        return self.with_value(lines, b"s", text + b"4", text[:-1], text + b"4G", text + b"4A", text + b"-", b" " + text,
                               b"\"" + text + b"\"", text + b"g0", text.upper(), text + b"c3A9", text + b"4:", text + b"4`",
                               text + b"/4", text + b"@4")

    def long_pairs(self, lines):
        """10, not UTF-8 now and then; 17 with an odd number of digits."""
        text = self.s.good_text(self.r.choice(LONG))
        text = self.s.broken(text, len(text)) if self.s.chance(0.4) else text
        digits = text.hex().encode()
        return self.with_value(lines, b"s", digits, digits, digits, digits, digits + b"4")

    def broken_pairs(self, lines):
        """1."""
        text = self.s.good_text(self.s.pick(0, 1, 3, 20, 256))
        return self.with_value(lines, b"s", self.s.broken(text, 256).hex().encode())

    def comma(self, lines):
        """17: one more, one less, another byte for them."""
        at = self.some_line(lines)
        line, place = lines[at], self.r.randrange(len(lines[at]) + 1)
        more = line[:place] + b"," + line[place:]
        return self.changed(lines, at, self.s.pick(
            more, more, line + b",", b"," + line, line.replace(b",", b"", 1), b"".join(line.rsplit(b",", 1)), line.split(b",")[0],
            line.replace(b",", b";"), line.replace(b",", b", "), line.replace(b",", b",,", 1), b",", b",,", b",,,"))

    def again(self, lines):
        """18: a line twice, or the last one also before another."""
        at = self.some_line(lines)
        return self.s.pick(lines[:at + 1] + lines[at:], lines[:at] + lines[-1:] + lines[at:])

    def swapped(self, lines):
        """18."""
        at = self.some_line(lines)
        return lines[:at] + lines[at + 1:at + 2] + lines[at:at + 1] + lines[at + 2:]

    def unsigned(self, lines):
        """18: the ids below 0 after the others."""
        return lines[:1] + sorted(lines[1:], key=lambda line: line[:1] == b"-")

    def low_id(self, lines):
        """18, mostly: an id that is not above the one before."""
        at = self.some_line(lines)
        before = lines[at - 1].split(b",")[0] if at > 1 else b"-2147483648"
        node = self.s.pick(before, b"-2147483648", b"%d" % self.s.node())
        return self.changed(lines, at, b",".join([node] + lines[at].split(b",")[1:]))

    def low_string(self, lines):
        """18 with 10 or 1 in the same line, and 10 with 1; now and then 17 too."""
        at = self.some_line(lines)
        before = lines[at - 1].split(b",")[0] if at > 1 else b"%d" % self.s.node()
        text = self.s.broken(self.s.good_text(self.s.pick(3, 256, 257, 300)), 400)
        line = b",".join([before, b"s", text.hex().encode() + self.s.pick(b"", b"", b"", b"4")])
        return self.changed(lines, at, line)

    def bad_header(self, lines):
        """17 in line 1; or a second header."""
        other = [self.r.choice(HEADERS)] + lines[1:]
        return self.s.pick(other, other, lines[1:] or [b""], lines[:1] + lines)

    def empty_line(self, lines):
        """17."""
        at = self.r.randrange(len(lines) + 1)
        return lines[:at] + [b""] * self.s.pick(1, 1, 2) + lines[at:]

    def line_ends(self, lines):
        """17: a carriage return before the newline, in one line or in all, or in its place."""
        at = self.some_line(lines)
        return self.s.pick(self.changed(lines, at, lines[at] + b"\r"), [line + b"\r" for line in lines], [b"\r".join(lines)])

    def mark(self, lines):
        """A byte put in, put in the place of another, or left out."""
        at = self.some_line(lines)
        line, place = lines[at], self.r.randrange(len(lines[at]) + 1)
        byte = self.s.pick(self.r.choice(MARKS), self.r.choice(MARKS), b"")
        return self.changed(lines, at, line[:place] + byte + line[place + self.r.randrange(2):])

    def one(self, lines):
        """Those that a line in form may have come more often: the others are many, and all of them 17."""
        form = (self.bad_id, self.bad_integer, self.bad_kind, self.bad_float, self.bad_pairs, self.comma, self.bad_header,
                self.empty_line, self.line_ends, self.mark, self.mark)
        formed = (self.long_pairs, self.broken_pairs, self.again, self.swapped, self.unsigned, self.low_id, self.low_string)
        return self.r.choice(form + formed * 2 + (self.broken_pairs,) * 4)(lines)

    def some(self, lines, number):
        """So many faults. A listing without records mostly gets one first."""
        if number and len(lines) == 1 and self.s.chance(0.8):
            lines = lines + [b"7,i,7"]
        for _ in range(number):
            lines = self.one(lines)
        return lines

    def end(self, text):
        """Cut, or with more after the last newline: 17, mostly."""
        return self.s.pick(text[:-1], text[:-1], text[:self.r.randrange(len(text) + 1)], text + b"\n", text + b"\x00", text + b" ",
                           text + b"9", text + b"\r\n", b"\n" + text, b"")
