"""Writes samples/meters.bin, what a box might keep of a console's meter packets: the README's command for `meters` prints its figures.

    python3 samples/meters.py > samples/meters.bin
"""
import struct
import sys

LOUD, LOWEST = 32767, -32768


def packet(meter, readings, rest=b""):
    """Its length in two bytes, then 01's packet: id, two bytes that are ignored, the readings, at times an odd last byte."""
    data = struct.pack(">H2s%dh" % len(readings), meter, b"\xdf\xde", *readings) + rest
    return struct.pack(">H", len(data)) + data


def wave(n, middle, height):
    """Up and down again in 40 packets, and a little noise that is the same each time."""
    return middle + height * abs(n % 40 - 20) // 20 + n * 7919 % 23


def strips(n):
    """Silence, full level, a strip below 0, one whose largest comes early and leaves a narrow window, and one that only some packets have."""
    peaks = {60: 30000, 90: 20000}
    return [LOWEST, LOUD, wave(n, -20000, 9000), peaks.get(n, wave(n, -900, 300))] + [wave(n, 100, 50)] * (n % 3 == 0)


out = b""
for n in range(150):
    out += packet(700, [wave(n, -3 * strip, 11) for strip in range(n % 7)], b"\x80" * (n % 5 == 0))
    out += packet(2, strips(n), b"\x7f" * (n % 4 == 1))
sys.stdout.buffer.write(out)
