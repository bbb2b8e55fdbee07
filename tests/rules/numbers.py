"""01: "Multi-byte numbers are big-endian"."""


def signed(data):
    return int.from_bytes(data, "big", signed=True)


def unsigned(data):
    return int.from_bytes(data, "big")


def signed_bytes(number, width):
    return number.to_bytes(width, "big", signed=True)


def unsigned_bytes(number, width):
    return number.to_bytes(width, "big")
