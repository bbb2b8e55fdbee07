"""Orders to a window out of form, and at the limits of their words."""
# The words of an order in form, by their places.
GOOD = ("hold", "2", "2", "1", "32773", "65541", "32768,32773")
UINT16 = ("", "x", "-", "-1", "+1", "65536", "00000000001", "1,2")
# Words out of form, by the place where they are.
WRONG = {1: UINT16, 2: UINT16, 3: UINT16, 4: UINT16, 5: ("", "x", "-", "-1", "4294967296", "00000000001", "1,2"),
         6: ("", "x", ",", "1,", ",1", "1,,2", "-1", "--", "-,1", "1,-", "65536", "1,65536", "1;2", "+", ",".join(["0"] * 257))}
ENDS = {1: ("0", "65535", "0000000002"), 2: ("0", "65535"), 3: ("0", "65535"), 4: ("0", "65535"), 5: ("0", "4294967295"),
        6: ("-", "0", "65535", "0,0", "0000032768,32773", ",".join(["0"] * 256))}
# A list of readings out of form.
LISTS = ("", "x", ",", "1,", ",1", "1,,2", "--1", "--", "-,1", "1,-", "+1", "32768", "-32769", "1,32768", "1,-32769", "1;2", "00000000001",
         "-00000000001", "+")


def with_word(place, word):
    return " ".join(GOOD[:place] + (word,) + GOOD[place + 1:])


def with_words(table):
    return tuple(with_word(place, word) for place, words in table.items() for word in words)


WHOLE = " ".join(GOOD)
ODD = with_words(WRONG) + tuple("readings %s 10" % some for some in LISTS) + (
    "hold", " ".join(GOOD[:-1]), WHOLE + " 0", WHOLE + " ", "Hold" + WHOLE[4:], "sum " + WHOLE, "holds", "window", "window ", "window -1",
    "window x", "window 4294967296", "window 00000000001", "window 1 1", "window 1 ", "window  1", "window +", "Window 1", "windows 1",
    "sum window 1", "window 1,2", "reading", "reading ", "reading 32768", "reading -32769", "reading --1", "reading -", "reading +1",
    "reading 00000000001", "reading 1 1", "reading 1,1", "reading 0x1", "reading +", "sum reading 1", "Reading 1", "figures ", "figures 1",
    "figures -", "Figures", "figure", "sum figures", "readings", "readings 1", "readings 10", "readings - ", "readings - -1", "readings - 16385",
    "readings - -", "readings - +", "readings - x", "readings 1 10 1", "readings 1 00000000010", "readings 1 10 ", "sum readings 1 10",
    "Readings 1 10", "readings 10 1,1", "ring ", "ring 1", "Ring", "rings", "sum ring",
)
EDGES = with_words(ENDS) + (
    WHOLE, "window 0", "window 1", "window 256", "window 257", "window 0000000001", "window 4294967295", "reading 32767",
    "reading -32768", "reading -0", "reading 0000000001", "reading -0000000001", "readings - 0", "readings - 16384", "readings -0 5",
    "readings -32768,32767 0000000010", "readings 0000032767,-0000032768 16384", "figures", "ring",
)
