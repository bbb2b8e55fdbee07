"""Windows over readings: widths and readings at the limits, runs in which the largest leaves or stays, states made up and damaged."""
from orders.window import ROOM, listed
from orders.words import INT16, UINT16, UINT32
from rules.window import FIGURES, PLACES, RAISE, WIDEST, State, filled, left_by

LOWEST, HIGHEST = INT16
WIDTHS = (1, 1, 2, 2, 3, 4, 5, 8, 128, 254, 255, 255, 256, 256)
# 65,536 and more: a width cut to 16 bits would be another one.
BAD_WIDTHS = (0, 257, 258, 512, 65535, 65536, 65537, 65538, 65792, 2**31, UINT32)
READINGS = (LOWEST, LOWEST + 1, -257, -256, -255, -2, -1, 0, 1, 2, 255, 256, 257, HIGHEST - 1, HIGHEST)
LINE_READINGS = 2300    # of these, with commas, a line has room for any


class Windows:
    def __init__(self, source):
        self.s = source
        self.r = source.r

    def width(self):
        return self.s.pick(self.r.choice(WIDTHS), self.r.choice(WIDTHS), self.r.randrange(1, WIDEST + 1))

    def bad_width(self):
        return self.s.pick(self.r.choice(BAD_WIDTHS), self.r.randrange(257, 2**32))

    def reading(self):
        return self.s.pick(self.r.choice(READINGS), self.r.randrange(LOWEST, HIGHEST + 1), self.r.randrange(-9, 10))

    def falling(self, number):
        """So that the largest is the one that leaves."""
        step = self.s.pick(1, 2, 100)
        start = self.s.pick(HIGHEST, self.reading())
        return [max(LOWEST, start - step * i) for i in range(number)]

    def equal_largest(self, number):
        """Lower ones between, so that one of the largest leaves and another stays, or none."""
        top, share = self.reading(), self.s.pick(0.02, 0.1, 0.5, 0.9)
        return [top if self.s.chance(share) else self.r.randrange(LOWEST, top + 1) for _ in range(number)]

    def near(self, number):
        """Of few readings, so that many are equal."""
        some = [self.reading() for _ in range(self.s.pick(1, 2, 3))]
        return [self.r.choice(some) for _ in range(number)]

    def series(self, number):
        return self.s.pick(
            lambda: [self.reading() for _ in range(number)], lambda: [self.s.pick(LOWEST, HIGHEST, self.reading())] * number,
            lambda: self.falling(number), lambda: self.falling(number)[::-1], lambda: self.equal_largest(number),
            lambda: self.near(number))()

    def number(self, width):
        """How many readings: few, around the width, or many times over."""
        number = self.s.pick(0, 1, 2, 3, 7, width - 1, width, width + 1, 2 * width, 3 * width + 1, self.r.randrange(4 * width + 1))
        return min(max(number, 0), LINE_READINGS) if not self.s.chance(0.01) else LINE_READINGS

    def room(self, number):
        exact = FIGURES * number
        room = self.s.pick(exact, exact, exact, exact, exact - 1, exact - FIGURES, exact + 1, exact + 4, ROOM, 0, self.r.randrange(ROOM + 1))
        return min(max(room, 0), ROOM)

    def window(self):
        return "window %d" % (self.width() if self.s.chance(0.8) else self.bad_width())

    def one(self):
        return "reading %d" % self.reading()

    def some(self, width):
        number = self.number(width)
        return "readings %s %d" % (listed(self.series(number)), self.room(number))

    def call(self, width):
        """Most calls go on with the window; a refused window keeps it."""
        return self.s.pick(self.one(), self.one(), self.some(width), self.some(width), self.some(width), "figures", "ring",
                           "window %d" % self.bad_width())

    def sound(self):
        """A state that a list leaves, full at any next place or not full."""
        width = self.width()
        return left_by(width, self.series(self.number(width)))

    def with_level(self, s, place, level):
        """With one level another, and the sum and the largest of the levels held as they then are, or as they were."""
        levels = s.levels[:place] + (level,) + s.levels[place + 1:]
        if self.s.chance(0.5):
            return s._replace(levels=levels)
        kept = levels[:s.held]
        return s._replace(levels=levels, sum=sum(kept), top=max(kept, default=0))

    def of_all(self, s):
        """The sum and the largest of all the places, those not used too."""
        return s._replace(sum=sum(s.levels), top=max(s.levels))

    def level(self):
        return self.s.pick(0, 1, RAISE - 1, RAISE, RAISE + 1, UINT16, self.r.randrange(UINT16 + 1))

    def damaged(self, s):
        """Any field another, or a level, in a place that is used or not; some are left by a list all the same."""
        place = self.s.pick(0, s.next % PLACES, s.held % PLACES, s.width % PLACES, PLACES - 1, self.r.randrange(PLACES))
        return self.s.pick(
            lambda: s._replace(width=self.s.pick(0, 257, s.width + 1, max(s.width - 1, 0), 65535, s.held, self.r.randrange(300))),
            lambda: s._replace(held=self.s.pick(0, s.held + 1, max(s.held - 1, 0), s.width, s.width + 1, 65535, self.r.randrange(300))),
            lambda: s._replace(next=self.s.pick(0, s.next + 1, max(s.next - 1, 0), s.width, s.held, 65535, self.r.randrange(300))),
            lambda: s._replace(next=self.r.randrange(max(s.width, 1))),
            lambda: s._replace(top=self.s.pick(min(s.top + 1, UINT16), max(s.top - 1, 0), 0, UINT16, self.level())),
            lambda: s._replace(sum=self.s.pick(s.sum + 1, max(s.sum - 1, 0), s.sum + 65536, 0, UINT32, self.r.randrange(2**32))),
            lambda: self.with_level(s, place, self.level()), lambda: self.of_all(self.with_level(s, place, self.level())))()

    def any_state(self):
        """Numbers with no list behind them."""
        levels = [self.level() for _ in range(self.s.pick(0, 1, 3, 256, self.r.randrange(PLACES + 1)))]
        return State(*(self.s.uint16() for _ in range(4)), self.r.randrange(2**32), filled(levels))

    def hold(self, s):
        """Zeros after the last level stand there or are left out."""
        used = max((place + 1 for place, level in enumerate(s.levels) if level), default=0)
        shown = self.s.pick(used, used, max(used, min(s.held, PLACES)), PLACES)
        return "hold %d %d %d %d %d %s" % (*s[:5], listed(s.levels[:shown]))

    def state(self):
        kind = self.r.random()
        if kind < 0.35:
            return self.sound()
        return self.damaged(self.sound()) if kind < 0.95 else self.any_state()

    def made_up(self):
        s = self.state()
        width = min(max(s.width, 1), WIDEST)
        calls = self.r.sample(("figures", "ring", self.one(), self.some(width), "window %d" % self.bad_width()), self.s.pick(1, 2, 3))
        return [self.hold(s)] + calls

    def watched(self):
        """A window from its making on."""
        width = self.width()
        first = [] if self.s.chance(0.1) else ["window %d" % width]
        return first + [self.call(width) for _ in range(self.s.pick(1, 3, 6, 12))] + [self.s.pick("ring", "figures")]

    def single(self):
        return self.s.pick(self.window, self.one, lambda: self.some(self.width()), lambda: self.hold(self.state()),
                           lambda: "figures", lambda: "ring")()


def windows(source):
    """Some lines to one window."""
    made = Windows(source)
    lines = made.watched() if source.chance(0.5) else []
    for _ in range(source.pick(1, 2, 4) if not lines else source.pick(0, 1)):
        lines += made.made_up()
    return lines
