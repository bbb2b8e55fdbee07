"""02, Job 6: a window over a strip's last readings. The whole list of readings is kept, and every figure is worked out afresh from it.

A state may be made up: one "that no list of readings leaves gets 8". What a list leaves is worked out from the list alone. The state's form is
in no paper, but in docs/ORDERS.md: levels, readings raised by 32,768, in 256 places; the k-th reading stands at k mod the width."""
from typing import NamedTuple, Tuple

from rules.refusal import refuse_if

WIDEST = 256
PLACES = 256
FIGURES = 5             # the values of a row
RAISE = 32768           # a level is a reading raised by this


class State(NamedTuple):
    """Width, number held, next place, largest level, sum of levels, and a level for each place."""
    width: int
    held: int
    next: int
    top: int
    sum: int
    levels: Tuple[int, ...]


def filled(levels):
    """Places without a level are 0."""
    return tuple(levels) + (0,) * (PLACES - len(levels))


def checked_width(width):
    """02: "a width outside 1 to 256 is 19"."""
    refuse_if(not 1 <= width <= WIDEST, 19)
    return width


NO_WINDOW = State(0, 0, 0, 0, 0, filled(()))


def figures_of(readings):
    """02: "how many it holds, the sum, and the sum divided by that number as a whole quotient, rounded down, with its exact remainder ..
    It tells the largest reading too." None for no readings."""
    if not readings:
        return None
    total, number = sum(readings), len(readings)
    return number, total, total // number, total % number, max(readings)


def last_of(width, readings):
    """02: "the last readings of that list"."""
    return readings[-width:]


def left_by(width, readings):
    """The state that a list of readings leaves in a window of a width."""
    ring = [0] * PLACES
    for number, reading in enumerate(readings):
        ring[number % width] = reading + RAISE
    kept = [reading + RAISE for reading in last_of(width, readings)]
    return State(width, len(kept), len(readings) % width, max(kept, default=0), sum(kept), tuple(ring))


def list_of(s):
    """The list that a state spells, if any leaves it: one round, and once the window is full those of the round after it up to the next place."""
    kept = [level - RAISE for level in s.levels[:s.held]]
    return kept if s.held < s.width else kept + kept[:s.next]


def is_left_by_some(s):
    """02: whether some list of readings leaves the state. Until the window is full the next place is after the last one used."""
    if not 1 <= s.width <= WIDEST or s.held > s.width:
        return False
    in_place = s.next == s.held if s.held < s.width else s.next < s.width
    if not in_place:
        return False
    kept, unused = s.levels[:s.held], s.levels[s.held:]
    return not any(unused) and s.sum == sum(kept) and s.top == max(kept, default=0)


def is_left_by_own(s):
    """The same in another way: the list that it spells leaves it."""
    return 1 <= s.width <= WIDEST and left_by(s.width, list_of(s)) == s


class Window:
    """The readings so far, in a width; or a state that no list leaves."""

    def __init__(self, width):
        self.width, self.readings, self.unsound = checked_width(width), [], None

    @classmethod
    def made_up(cls, s):
        """By its state alone. Where a list leaves it, that list is what the window holds."""
        window, sound = cls(WIDEST), is_left_by_some(s)
        assert sound == is_left_by_own(s), "the model breaks 02: it judges a state in two ways that differ"
        if sound:
            window.width, window.readings = s.width, list_of(s)
        else:
            window.unsound = s
        return window

    def state(self):
        return self.unsound or left_by(self.width, self.readings)

    def figures(self):
        """8; the figures of the last readings, or None."""
        refuse_if(self.unsound, 8)
        return figures_of(last_of(self.width, self.readings))

    def reading(self, reading):
        """8; the figures with that reading among them."""
        refuse_if(self.unsound, 8)
        self.readings.append(reading)
        return self.figures()

    def follow(self, readings, room):
        """8, 9 for a room that has less than five values for each; else the figures after each reading."""
        refuse_if(self.unsound, 8)
        refuse_if(room < FIGURES * len(readings), 9)
        return [self.reading(reading) for reading in readings]
