"""The rules of 01 in plain Python, written from that paper alone: what every call answers and leaves."""
