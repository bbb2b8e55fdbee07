"""Orders that load a listing into the mirror and print one of it."""
from orders.answers import or_refused, output_text, refused
from orders.words import UINT32, count, demand, hex_of
from rules.listing import load, printed
from rules.refusal import Refusal

TEXT = 65600            # the most bytes that a loads order makes
PRINT_ROOM = 16384


class ListingOrders:
    """Over the mirror that the mirror's orders have."""

    def __init__(self, mirrors):
        self.mirrors = mirrors

    def table(self):
        return {b"load": ((1,), self.load), b"loads": ((2,), self.loads), b"lines": ((1,), self.lines),
                b"print": ((1,), self.print)}

    def loaded(self, text):
        return "loaded %d" % load(self.mirrors.mirror, text)

    def load(self, word):
        text = hex_of(word)
        return or_refused(lambda: self.loaded(text))

    def loads(self, times, word):
        times, text = count(times, UINT32), hex_of(word)
        demand(times * len(text) <= TEXT)
        return or_refused(lambda: self.loaded(text * times))

    def lines(self, word):
        """As load; a refusal says its line too, 0 for one that has none."""
        text = hex_of(word)
        try:
            return self.loaded(text)
        except Refusal as r:
            return "%s line %d" % (refused(r.why), getattr(r, "line", 0))

    def print(self, room):
        room = count(room, PRINT_ROOM)
        return output_text("printed", lambda: printed(self.mirrors.mirror, room))
