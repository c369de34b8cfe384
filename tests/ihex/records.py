"""Records of Intel HEX: how one is written, and what well-formed lines say of theirs."""


def record(address, kind, data=b""):
    """A line."""
    body = bytes([len(data), address >> 8, address & 255, kind]) + data
    return b":" + (body + bytes([-sum(body) & 255])).hex().encode() + b"\n"


def kinds(text):
    """The type of each line's record."""
    return [int(line[7:9], 16) for line in text.splitlines()]


def crosses(line):
    """A data record has bytes on both sides of a multiple of 65,536."""
    return line[7:9] == b"00" and int(line[3:7], 16) + int(line[1:3], 16) > 0x10000
