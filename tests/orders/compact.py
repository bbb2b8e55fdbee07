"""The text of the orders that the comparison with libwing asks: fields of fixed width with nothing between them."""

PRIME = 4294967291      # the greatest of 32 bits


def bits16(n):
    return "%04x" % (n % 2**16)


def bits32(n):
    return "%08x" % (n % 2**32)


def flag(yes):
    return "1" if yes else "0"


def refused(why):
    """02, Job 5: the good stands beside 1 and 5."""
    return "r%02d" % why.number + ("" if why.good is None else "g" + bits16(why.good))


def summed(text):
    """The text as digits to the base 257, mod the greatest prime of 32 bits."""
    total = 0
    for byte in text.encode():
        total = (total * 257 + byte) % PRIME
    return bits32(total)
