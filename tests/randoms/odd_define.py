"""Orders `define` and `again` out of form, and at the limits of their words."""
# The words of an order in form, by their places.
GOOD = ("define", "1", "2", "3", "5", "6", "1", "3f800000", "40000000", "9", "1", "16", "41", "4243", "01440145", "4096")
INT32 = ("", "x", "+1", "--1", "-", "2147483648", "-2147483649", "00000000001")
UINT16 = ("", "-1", "65536", "0x1")
BITS = ("", "-", "3f8000", "3f8000000", "3f80000000", "3F800000", "3f80000g", "+")
HEX = ("", "0", "0g", "AB", "+", "--", "00-")
# Words out of form, by the place where they are.
WRONG = {1: INT32, 2: INT32, 3: UINT16, 4: ("", "-1", "256"), 5: ("", "-1", "256"), 6: ("", "-1", "2", "10"), 7: BITS, 8: BITS,
         9: INT32, 10: UINT16, 11: UINT16, 12: HEX, 13: HEX, 14: HEX, 15: ("", "-1", "16385", "+", "-")}
# Words at the ends of what the form allows.
ENDS = {1: ("2147483647", "-2147483648", "-0"), 2: ("2147483647", "-2147483648"), 3: ("0", "65535", "0000000003"),
        4: ("0", "255"), 5: ("0", "255"), 6: ("0", "01"), 7: ("00000000", "ffffffff"), 8: ("00000000", "ffffffff"),
        9: ("2147483647", "-2147483648"), 10: ("0", "65535"), 11: ("0", "65535"), 12: ("-",), 13: ("-",), 14: ("-",),
        15: ("0", "16384", "0000004096")}


def with_word(place, word):
    return " ".join(GOOD[:place] + (word,) + GOOD[place + 1:])


def with_words(table):
    return tuple(with_word(place, word) for place, words in table.items() for word in words)


WHOLE = " ".join(GOOD)
ODD = with_words(WRONG) + (
    "define", "define ", " ".join(GOOD[:-1]), WHOLE + " 0", WHOLE + " ", " " + WHOLE, "sum " + WHOLE, "Define" + WHOLE[6:], "again",
    "again ", "again 0", "again 0g", "again AB", "again +", "again 00 00", "again  00", "again 00 ", "again --", "sum again 00",
    "sum again -", "Again -", "again-",
)
EDGES = with_words(ENDS) + (WHOLE, "again -", "again 00")
