"""Random lines, a block of them at a time."""
from randoms.held import held
from randoms.histories import history, listed
from randoms.odd import ODD, at_limit, changed, limits
from randoms.origins import origins
from randoms.single import Single
from randoms.window import windows


def block(source):
    """Some lines that belong together, or one."""
    single, kind = Single(source), source.r.random()
    if kind < 0.82:
        return [single.order()]
    if kind < 0.83:
        return origins(source)
    if kind < 0.84:
        return windows(source)
    if kind < 0.85:
        return listed(source)
    if kind < 0.86:
        return history(source)
    if kind < 0.88:
        return held(source) if source.chance(0.5) else [single.rare()]
    if kind < 0.93:
        return [source.r.choice(ODD)]
    if kind < 0.96:
        return [limits(source)]
    return [changed(source, single.order())] if not source.chance(0.01) else [at_limit(source)]


def lines(source, number):
    out = []
    while len(out) < number:
        out += block(source)
    return out
