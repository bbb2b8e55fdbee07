"""Lines out of form, comments, and lines at the limits."""
from randoms import odd_define, odd_listing, odd_window

LINE = 16384
ODD = (
    "feed", "feed ", "feed 0", "feed 0g", "feed 00 ", "feed DF", "feed --", "feed 00 00", "feed +", "new", "new 1027",
    "new 1026 1", "new x", "new 1 2 3 4", "new -1", "new 1 264", "new 1 0 256", "new 1  0", "dump 1", "int 1 2",
    "int 1 2 513", "int 2147483648 0 9", "int -2147483649 0 9", "int 1 2147483648 9", "int 00000000001 2 9", "float 1 00 9",
    "float 1 0000000000 9", "float 1 - 9", "string 1 4 9", "string  41 9", "string 1 41 513", "lookup", "lookup +1",
    "lookup --1", "lookup -", "lookup 1 1", "record -1", "record 4294967296", "record", "repeat 2", "repeat 65601 00",
    "repeat 32801 0000", "repeat -1 00", " dump", "Dump", "feeds 00", "# a comment", "", "#", "\tdump", "dump\r", "recall",
    "recall 16385", "recall -1", "recall 2 2", "recall ", "poke", "poke 0", "poke 300000 00", "poke -1 00",
    "poke 4294967296 -", "peek 0 4097", "peek 0 300000", "peek 0", "peek 0 -1", "count", "count -1", "count 4294967296",
    "count 1 1", "stream", "stream 0", "stream 00 00", "stream xx", "stream ++", "pieces 00", "pieces -1 00",
    "pieces 65536 00", "pieces 1", "piecelist 0 00", "piecelist , 00", "piecelist 1, 00", "piecelist ,1 00",
    "piecelist 65536 00", "piecelist - 00", "streams " + "00" * 64, "streams +", "definition", "definition 0", "utf8",
    "utf8 ", "utf8s " + "41" * 256, "utf8 +", "places", "places ", "places -", "places +", "places 0",
    "places C3", "places c3 c3", "places " + "41" * 257, "sum places -", "place c3",
    "setint 16385 0 0", "setint 0 0", "setint 9 2147483648 0", "setint 9 0 0 0",
    "setfloat 9 0 000000", "setfloat 9 0 -", "setstring 9 0", "setstring 9 x 41", "format 9 0 4 -", "format 9 0 - -",
    "format 9 0 4142 -", "format 9 0 41 4142", "format 9 0 41", "askdefinition 9", "askdata 9 0 0", "askmeters 9 65536 0 0 -",
    "askmeters 9 0 65536 0 -", "askmeters 9 0 0 256 -", "askmeters 9 0 0 0", "askmetersfill 9 0 0 0 00 -",
    "askmetersfill 9 0 0 0 - -", "askmetersfill 9 0 0 0 000000 -", "keepalive 851969 0 0", "keepalive 0 65536 0",
    "keepalive 0 0 65536", "keepalive 0 0", "packet 4201 00000000", "packet 0", "packet", "getters 3 00", "getters 0 00",
    "getters 0 -", "getters 1 0000000000", "getters 2 " + "41" * 257, "getters 2", "getstring 65536 -",
    "getstring 1 " + "41" * 257, "getstring 1", "sum", "sum sum utf8 41", "sum feed 00", "sum cuts", "sum stream",
    "sum dump", "sum units", "sum lent", "sum state 0 0", "sum more 00", "cuts", "cuts +", "item 4294967296 00",
    "item 0", "item -1 00", "step 0 0 0", "step 65536 0 0 00", "step 0 65536 0 00", "step 0 0 65536 00", "walk", "walk 0",
    "walk +", "units", "units 0", "state 35 1 -", "earlier", "earlier 00 00", "earlier 0 - -", "earlier - - - -", "earlier - - +", "mores", "mores 1", "mores x 00", "mores 1 00 00", "mores 65601 00", "state 0 65601 00", "state 0 1", "state -1 1 00", "state 0 4294967296 -",
    "splits", "splits " + "00" * 4201, "lent", "lent +", "more", "more +", "more 0", "mirror", "exit", "?", "? dump", "-",
    "sum ", "STREAM 00", "stream  00", "dump ", "dump  ", "more 00 00", "more 0g", "more AB", "more  00", "stream + +", "pieces +",
    "pieces + 00", "piecelist 1", "piecelist", "piecelist 1 1 00", "piecelist 1,,1 00", "piecelist 1,0 00", "piecelist -1 00",
    "piecelist 1;2 00", "piecelist + 00", "piecelist 00000000001 00", "packet + 00", "units +", "splits +", "state 0 1 +",
    "item 0 +", "step 0 0 5 +", "utf8s +", "setstring 9 0 +", "askmeters 9 0 0 0 +", "askmetersfill 9 0 0 0 0000 +",
    "askmetersfill 9 0 0 0 0000", "askmetersfill 9 0 0 0 0A00 -", "askmetersfill 9 0 0 256 0000 -",
    "askmetersfill 16385 0 0 0 0000 -", "getters 2 +", "getstring 1 +", "repeat 1 +", "string 1 + 9", "poke 0 +", "sum more 00",
    "sum units +", "sum stream + +", "sum +", "+",
) + odd_define.ODD + odd_listing.ODD + odd_window.ODD


def at_limit(source):
    """A line of the most bytes that a line may have, or one more."""
    length = LINE + source.pick(-1, 0, 0, 1, 2, 100)
    word = source.pick("#", "feed ", "stream ", "utf8 ", "more ", "x", "lookup 1 ", "again ", "load ", "lines ", "readings ")
    if word != "readings ":
        return word + "4" * (length - len(word))
    readings = length - len(word) - len(" 16384")
    return word + ("4," * readings)[:readings - 1] + source.pick("4", "4", ",") + " 16384"


def changed(source, line):
    """A line in form with a byte of it changed, put in or left out, in its first words mostly."""
    at = source.r.randrange(min(len(line), 40))
    return line[:at] + source.pick("", " ", "-", "0", "g", "A", "+", "  ") + line[at + source.pick(0, 1):]


EDGES = (
    "repeat 65600 40", "repeat 4294967295 -", "repeat 32800 4041", "peek 0 0", "poke 0 -", "count 4294967295", "count 0",
    "streams " + "40" * 63, "utf8s " + "41" * 255, "places " + "41" * 256, "places " + "41" * 255 + "c3", "places ff",
    "splits " + "41" * 200, "getters 2 " + "41" * 256, "item 4294967295 00",
    "state 34 65600 40", "mores 65600 00", "mores 0 00", "mores 4294967295 -", "state 0 65536 40", "pieces 65535 05", "lookup -2147483648", "lookup 2147483647", "lookup -0",
    "lookup 0000000001", "record 4294967295", "keepalive 851968 1 0", "packet 4200 00000000", "packet 0 00000000", "more -",
    "stream +", "definition +", "piecelist " + ",".join(["1"] * 64) + " 0505", "piecelist " + ",".join(["1"] * 65) + " 0505",
) + odd_define.EDGES + odd_listing.EDGES + odd_window.EDGES


def limits(source):
    """An order at the edge of what its form allows."""
    return source.r.choice(EDGES)
