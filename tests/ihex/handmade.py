"""Short texts that no program writes, and calls that are refused before any line."""
from case import AREA, PLACE, SIZE, TEXT, accepted, refused
from records import record

END = record(0, 1)
IMAGE = bytes([0x09, 0x0A, 0x0F, 0x10])
DATA = record(0, 0, IMAGE)
BUFFER = bytes(range(40))
LONGEST = 32768


def read(name, text, base=0, image=IMAGE):
    return accepted(name, text, base, image, BUFFER)


def broken(name, text, line=1):
    return refused(name, text, 0, len(IMAGE), BUFFER, TEXT, line)


def digits():
    """What stands in a digit's place would give its value, and so the right checksum, in a reader that does not look closely enough."""
    yield read("digits", DATA + END)
    for pair, other in (
        (b"0a", b"0:"), (b"09", b"0@"), (b"09", b"0`"), (b"10", b"0G"), (b"10", b"0g"), (b"0f", b"1/"), (b"0f", b"0/"),
        (b"09", b" 9"), (b"09", b"\x009"), (b"09", b"0\x19"), (b"09", b"0\xb9"), (b"0a", b"0\xe1"),
    ):
        yield broken(f"{other} for {pair}", DATA.replace(pair, other, 1) + END)


def types():
    for kind in [*range(2, 4), *range(5, 8), 0x10, 0x40, 0x80, 0xFF]:
        yield broken(f"type {kind:02x}", DATA + record(0, kind, bytes(2)) + END, 2)
    for length in 1, 2, 255:
        yield broken(f"an end record with {length} bytes", DATA + record(0, 1, bytes(length)), 2)
    for length in 0, 1, 3, 4, 255:
        yield broken(f"04 with {length} bytes", record(0, 4, bytes(length)) + DATA + END)
    yield read("addresses that are not looked at", record(0xFFFF, 4, bytes(2)) + DATA + record(0x1234, 1))


def addresses():
    up, down = record(0, 4, b"\x00\x01"), record(0, 4, b"\x00\x00")
    halves = [record(0xFFFE, 0, IMAGE[:2]), record(0, 0, IMAGE[2:])]
    yield read("a half for each piece", halves[0] + up + halves[1] + END, 0xFFFE)
    yield read("the halves in the other order", up + halves[1] + down + halves[0] + END, 0xFFFE)
    yield read("a record across 64 KiB", record(0xFFFE, 0, IMAGE) + END, 0xFFFE)
    yield read("no record", END, 7, b"\xff" * 4)
    yield read("no byte, and so none outside", record(0x4000, 0) + DATA + END)
    last = record(0, 4, b"\xff\xff") + record(0xFFFF, 0, b"\x00\x00") + END
    for base in 0xFFFFFFFF, 0:
        yield refused(f"past the last address, read from {base:#x} on", last, base, 1, BUFFER, PLACE, 2)


def before_any_line():
    for text in DATA + END, b"\n":
        for length in 0, LONGEST + 1, 1 << 32, (1 << 32) + 4, (1 << 64) - 4, (1 << 64) - 1:
            yield refused(f"length {length}", text, 0, length, bytes(LONGEST + 1), SIZE, 0)
        for base, length in ((1 << 32) - 1, 2), ((1 << 32) - 1, LONGEST), ((1 << 32) - LONGEST + 1, LONGEST), (5, (1 << 64) - 5):
            yield refused(f"{length} bytes from {base:#x} on", text, base, length, b"", SIZE, 0)
        for length in 1, 4, LONGEST:
            yield refused(f"a byte too little room for {length}", text, 0, length, bytes(length - 1), AREA, 0)


def all_handmade():
    for make in digits, types, addresses, before_any_line:
        yield from make()
