"""Orders to the window over a strip's last readings."""
from orders.answers import or_refused
from orders.words import INT16, UINT16, UINT32, count, demand, number
from rules.window import NO_WINDOW, PLACES, State, Window, filled

ROOM = 16384            # the largest output of figures, in values


def numbers(word, low, high):
    """With commas between, or - for none."""
    return [] if word == b"-" else [number(part, low, high) for part in word.split(b",")]


def listed(some):
    return ",".join(map(str, some)) or "-"


def told(figures):
    return "none" if figures is None else "held %d sum %d mean %d rest %d top %d" % figures


def made_up(*words):
    """A state by its words."""
    levels = numbers(words[5], 0, UINT16)
    demand(len(levels) <= PLACES)
    return State(*(count(word, UINT16) for word in words[:4]), count(words[4], UINT32), filled(levels))


class WindowOrders:
    def __init__(self):
        self.window = Window.made_up(NO_WINDOW)

    def table(self):
        return {b"window": ((1,), self.make), b"reading": ((1,), self.reading), b"figures": ((0,), self.figures),
                b"readings": ((2,), self.readings), b"ring": ((0,), self.ring), b"hold": ((6,), self.hold)}

    def made(self, width):
        self.window = Window(width)
        return "window %d" % width

    def make(self, width):
        width = count(width, UINT32)
        return or_refused(lambda: self.made(width))

    def reading(self, word):
        reading = number(word, *INT16)
        return or_refused(lambda: told(self.window.reading(reading)))

    def figures(self):
        return or_refused(lambda: told(self.window.figures()))

    def rows(self, readings, room):
        rows = self.window.follow(readings, room)
        return "rows %d %s" % (len(rows), listed(value for row in rows for value in row))

    def readings(self, word, room):
        readings, room = numbers(word, *INT16), count(room, ROOM)
        return or_refused(lambda: self.rows(readings, room)) + " clean"

    def ring(self):
        """The levels up to the last that is not 0."""
        s = self.window.state()
        used = max((place + 1 for place, level in enumerate(s.levels) if level), default=0)
        return "width %d held %d next %d top %d sum %d levels %s" % (*s[:5], listed(s.levels[:used]))

    def hold(self, *words):
        self.window = Window.made_up(made_up(*words))
        return "held"
