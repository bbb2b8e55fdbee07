"""Orders on listings out of form, and at the limits of their words."""
HEADER = "69642c6b696e642c76616c75650a"
ODD = (
    "load", "load ", "load 0", "load 0g", "load 0A", "load +", "load --", "load 00 00", "load  00", "load 00 ", "Load 00", "load00",
    "sum load 00", "load 1 " + HEADER, "lines", "lines ", "lines 0", "lines 0A", "lines +", "lines 1 " + HEADER,
    "lines " + HEADER + " ", "sum lines -", "Lines -", "line -", "loads", "loads 1", "loads -1 0a", "loads x 0a", "loads  0a",
    "loads 1 0", "loads 1 +", "loads 1 0a 0a", "loads 65601 0a", "loads 32801 0a0a", "loads 4294967296 -", "loads 4294967295 0a",
    "loads 00000000001 0a", "loads " + HEADER, "loads 1 " + HEADER + " ", "loads 4686 " + HEADER, "sum loads 1 0a", "print",
    "print ", "print -", "print -1", "print x", "print 16385", "print 16384 ", "print 00000000014", "print 14 14", "print +",
    "sum print 14", "Print 14", "prints 14",
)
EDGES = (
    "load -", "load " + HEADER, "lines -", "lines " + HEADER, "loads 0 0a", "loads 1 -", "loads 4294967295 -", "loads 65600 0a",
    "loads 65537 0a", "loads 65536 0a", "loads 32800 0a0a", "loads 1 " + HEADER, "loads 2 " + HEADER, "loads 4685 " + HEADER,
    "loads 0000000001 " + HEADER, "print 0", "print 16384", "print 0000000014",
)
