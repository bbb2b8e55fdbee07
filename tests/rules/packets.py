"""02, Job 6, over a file of meter packets, each after its length in two bytes: the figures of each strip's last readings."""
from rules.command import packet
from rules.numbers import unsigned
from rules.refusal import Refusal, refuse_if
from rules.window import figures_of, last_of

LONGEST = 8192      # 01: "Packet outside 4–8,192" is 13
MOST_READINGS = (LONGEST - 4) // 2


class BadPacket(Exception):
    """The first packet that is wrong, by its number from 1: refused, or cut short by the file's end, which has no refusal."""

    def __init__(self, number, why=None):
        super().__init__(number, why)
        self.number = number
        self.why = why


def packet_at(data, at):
    """The packet whose length stands there, or None where the file ends inside it. A length is judged before what follows it."""
    if len(data) < at + 2:
        return None
    length = unsigned(data[at:at + 2])
    refuse_if(not 4 <= length <= LONGEST, 13)
    return data[at + 2:at + 2 + length] if at + 2 + length <= len(data) else None


def packets_of(data):
    """Each packet's id and readings."""
    found, at = [], 0
    while at < len(data):
        try:
            content = packet_at(data, at)
        except Refusal as r:
            raise BadPacket(len(found) + 1, r.why.number) from None
        if content is None:
            raise BadPacket(len(found) + 1)
        found.append(packet(MOST_READINGS, content))
        at += 2 + len(content)
    return found


def strips_of(packets):
    """Each strip's readings in the order of the packets, by the meter's id and the reading's place in its packet: ids in the order
    in which they first come."""
    meters = {}
    for meter, readings in packets:
        strips = meters.setdefault(meter, [])
        strips += [[] for _ in range(len(readings) - len(strips))]
        for strip, reading in zip(strips, readings):
            strip.append(reading)
    return [(meter, number, strip) for meter, strips in meters.items() for number, strip in enumerate(strips)]


def table(data, width):
    """The text: a header, then a line for each strip, which has a reading at least."""
    rows = ((meter, number) + figures_of(last_of(width, strip)) for meter, number, strip in strips_of(packets_of(data)))
    return b"id,strip,held,sum,mean,rest,top\n" + b"".join(b"%d,%d,%d,%d,%d,%d,%d\n" % row for row in rows)
