"""Writes samples/capture.bin, what a console might send at the start of a show: the README's first command prints it.

    python3 samples/capture.py > samples/capture.bin
"""
import struct
import sys

NAMES = ["Sprecher", "Flöte", "Geige 1", "Geige 2", "Cello", "Bass", "Pauke", "Klavier", "Chor links", "Chor rechts", "Regie ♪", "Zuspieler",
         "Harfe", "Saal"]


def escaped(data):
    return data.replace(b"\xdf", b"\xdf\xde")


def node(i):
    return b"\xd7" + escaped(struct.pack(">i", i))


def integer(n):
    return bytes([n]) if 0 <= n <= 63 else b"\xd3" + escaped(struct.pack(">h", n))


def level(x):
    return b"\xd5" + escaped(struct.pack(">f", x))


def string(text):
    data = text.encode()
    return bytes([0x80 + len(data) - 1]) + escaped(data) if data else b"\xd0"


def definition(i, name):
    body = struct.pack(">iiH", 0, i, 1) + bytes([len(name)]) + name.encode() + b"\x00" + struct.pack(">H", 3 * 16)
    return escaped(b"\xdf" + struct.pack(">H", len(body)) + body)


out = b"\xdf\xd1"
for strip, name in enumerate(NAMES):
    out += node(1000 + strip) + string(name)
    out += node(2000 + strip) + level(-2.5 * strip)
    out += node(3000 + strip) + integer(strip % 3 == 0)
    out += node(-1000 - strip) + level(-90.0 if strip % 4 else 0.0)
out += definition(2000, "fader") + b"\xde"
# Values and ids with df in them, a name that is empty, a fader that moves: the last value counts.
out += node(223) + integer(223) + node(0xDFDF) + integer(-8225) + node(-538976289) + level(struct.unpack(">f", b"\xdf\xdf\x00\x00")[0])
out += node(1100) + string("") + node(4000) + string("Ende: ß߂")
for step in range(20):
    out += node(2000) + level(-0.5 * step)
sys.stdout.buffer.write(out + node(0) + integer(7) + b"\xde")
