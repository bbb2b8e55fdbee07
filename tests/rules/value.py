"""Values and their getters. A value is (kind, content): ("i", a number), ("f", its 4 bytes) or ("s", its bytes)."""


def integer_of(value):
    """01: "The integer getter gives 0 for other kinds"."""
    kind, content = value
    return content if kind == "i" else 0


def string_of(value):
    """01: "The string getter gives the string, an integer's decimal, and "none" for a float"."""
    kind, content = value
    if kind == "i":
        return b"%d" % content
    return content if kind == "s" else None
