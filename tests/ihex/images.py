"""Images as others' programs write them, at places of every kind, whole and with holes: each is read as it was."""
from case import accepted
from makers import MIB, SEGMENT, objcopy, srec_cat

ALL = 1 << 32
LONGEST = 32768


def places(random, length):
    """Bases at which neither program writes a record of type 02."""
    boundary = SEGMENT * random.randrange(MIB // SEGMENT + 1, SEGMENT)
    return {
        "below 64 KiB": random.randrange(SEGMENT - length + 1),
        "up to 64 KiB": SEGMENT - length,
        "from 1 MiB on": random.randrange(MIB, ALL - length + 1),
        "across a boundary": boundary - random.randrange(1, length),
        "up to a boundary": boundary - length,
        "from a boundary on": boundary,
        "up to the last address": ALL - length,
    }


def low_places(random, length):
    """Bases at which objcopy does, and srec_cat does not."""
    return {"across 64 KiB": SEGMENT - random.randrange(1, length), "64 KiB to 1 MiB": random.randrange(SEGMENT, MIB - length)}


def layout(random):
    """How srec_cat is to write: the bytes of a record, and the end of a line."""
    return [f"-obs={random.choice([1, 2, 7, 16, 32, 100, 255])}", f"-line-termination={random.choice(['nl', 'crlf'])}"]


def read_back(random, name, base, image, text):
    """With a buffer of the image's length, or a longer one."""
    buffer = random.randbytes(len(image) + random.choice([0, 1, 300]))
    return accepted(f"{name}, {len(image)} bytes from {base:#x} on", text, base, image, buffer)


def whole(random):
    for length in 2, random.randrange(3, 50), random.randrange(50, LONGEST), LONGEST:
        image = random.randbytes(length)
        for name, base in places(random, length).items():
            yield read_back(random, f"objcopy, {name}", base, image, objcopy([(base, image)]))
        for name, base in {**places(random, length), **low_places(random, length)}.items():
            options = layout(random)
            yield read_back(random, f"srec_cat {' '.join(options)}, {name}", base, image, srec_cat([(base, image)], *options))


def one_byte(random):
    base, image = random.randrange(MIB, ALL), random.randbytes(1)
    yield read_back(random, "objcopy", base, image, objcopy([(base, image)]))
    yield read_back(random, "srec_cat", base, image, srec_cat([(base, image)]))


def holes(random):
    """Two pieces, and unnamed bytes before, between and behind them."""
    for name, base in places(random, LONGEST).items():
        before, first, hole, last = (random.randrange(1, LONGEST // 4) for _ in range(4))
        pieces = [(base + before, random.randbytes(first)), (base + before + first + hole, random.randbytes(last))]
        image = (b"\xff" * before + pieces[0][1] + b"\xff" * hole + pieces[1][1]).ljust(LONGEST, b"\xff")
        random.shuffle(pieces)
        yield read_back(random, f"objcopy, two pieces, {name}", base, image, objcopy(pieces))
        yield read_back(random, f"srec_cat, two pieces, {name}", base, image, srec_cat(pieces, *layout(random)))


def edited(random):
    """srec_cat takes bytes out of an image, and fills some of them in."""
    base, image = random.randrange(MIB, ALL - 500), bytearray(random.randbytes(500))
    text = srec_cat([(base, image)], "-exclude", str(base + 100), str(base + 200), "-fill", "0x5A", str(base + 150), str(base + 170))
    image[100:200] = b"\xff" * 50 + b"\x5a" * 20 + b"\xff" * 30
    yield read_back(random, "srec_cat -exclude -fill", base, bytes(image), text)
    text = srec_cat([(base, image)], "-crop", str(base + 7), str(base + 450))
    image[:7], image[450:] = b"\xff" * 7, b"\xff" * 50
    yield read_back(random, "srec_cat -crop", base, bytes(image), text)
