"""The words of an order: numbers and hex. A word out of form makes its line so."""

INT16 = (-2**15, 2**15 - 1)
INT32 = (-2**31, 2**31 - 1)
UINT16 = 2**16 - 1
UINT32 = 2**32 - 1


class OutOfForm(Exception):
    pass


def demand(good):
    if not good:
        raise OutOfForm


def number(word, low, high):
    """One to ten decimal digits, with a minus before them only where a number may be negative."""
    digits = word[1:] if low < 0 and word[:1] == b"-" else word
    demand(1 <= len(digits) <= 10 and all(c in b"0123456789" for c in digits))
    n = int(word)
    demand(low <= n <= high)
    return n


def count(word, most):
    return number(word, 0, most)


def int32(word):
    return number(word, *INT32)


def hex_of(word):
    """Pairs in lower case, or - for no bytes."""
    if word == b"-":
        return b""
    demand(word and len(word) % 2 == 0 and all(c in b"0123456789abcdef" for c in word))
    return bytes.fromhex(word.decode())


def hex_width(word, width):
    data = hex_of(word)
    demand(len(data) == width)
    return data


def pairs(data):
    return data.hex() or "-"
