"""01, 'What is sent back': a call that is refused has a number and changes nothing. 02, Job 5: "Wire strings, set orders and
definitions all pass that number on beside refusals 1 and 5": how many leading bytes of the string are good."""
from typing import NamedTuple, Optional

from rules.utf8 import good, is_utf8

OF_STRINGS = (1, 5)     # the refusals of a string that is not UTF-8


class Why(NamedTuple):
    """A number alone, or 1 or 5 with its good."""
    number: int
    good: Optional[int] = None


class Refusal(Exception):
    def __init__(self, why):
        super().__init__(why)
        assert (why.number in OF_STRINGS) == (why.good is not None), "a good stands beside 1 and 5, and beside no other"
        self.why = why


def refuse_if(cause, number):
    if cause:
        raise Refusal(Why(number))


def not_utf8(data, number):
    """Why such a string is refused, by 1 or 5; None for UTF-8."""
    return None if is_utf8(data) else Why(number, good(data))


def refuse_not_utf8(data, number):
    why = not_utf8(data, number)
    if why:
        raise Refusal(why)
