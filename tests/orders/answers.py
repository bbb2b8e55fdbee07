"""The answers of the fixed orders, as text."""
from orders.words import pairs
from rules.refusal import Refusal


def refused(why):
    """02, Job 5: the good stands beside 1 and 5."""
    return "refused %d" % why.number + ("" if why.good is None else " good %d" % why.good)


def or_refused(call):
    try:
        return call()
    except Refusal as r:
        return refused(r.why)


def output_text(done, call):
    """The bytes in the lent output after a word that says what was done, or the refusal; no other byte of it is altered."""
    return or_refused(lambda: "%s %s" % (done, pairs(call()))) + " clean"
