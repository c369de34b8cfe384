"""What comes of a text that is read, once it is changed, and at which line."""
from case import PLACE, TEXT, TWICE, refused
from records import kinds, record

DIGITS = b"0123456789ABCDEFabcdef"
# The characters beside the digits in ASCII, and others that a reader may be tempted to skip.
NO_DIGITS = b"/:@G`gx \t\r\n\0\xff"


def same(random, text):
    """The same records in other words."""
    yield "small digits", text.lower()
    yield "mixed digits", bytes(random.choice([c, ord(chr(c).lower())]) for c in text)
    yield "mixed line ends", b"".join(line + random.choice([b"\n", b"\r\n"]) for line in text.splitlines())


def broken_line(random, line):
    bare = line.rstrip()
    end = line[len(bare) :]
    at = random.randrange(1, len(bare))
    others = [d for d in DIGITS if int(chr(d), 16) != int(chr(bare[at]), 16)]
    yield "another digit", bare[:at] + bytes([random.choice(others)]) + bare[at + 1 :] + end
    yield "no digit", bare[:at] + bytes([random.choice(NO_DIGITS)]) + bare[at + 1 :] + end
    yield "a character less", bare[: at - 1] + bare[at:] + end
    yield "two digits less", bare[:-2] + end
    yield "a digit more", bare + b"0" + end
    yield "two digits more", bare + b"00" + end
    yield "a space before", b" " + line
    yield "a space behind", bare + b" " + end
    yield "CR alone", bare + b"\r"
    yield "CR twice", bare + b"\r\r\n"
    yield "an empty line before", b"\n" + line


def broken_text(random, text):
    """Each is refused 16; with the line."""
    lines = text.splitlines(keepends=True)
    for k in 0, random.randrange(len(lines)), len(lines) - 1:
        for name, line in broken_line(random, lines[k]):
            yield name, b"".join(lines[:k] + [line] + lines[k + 1 :]), k + 1
    cut = text[: random.randrange(len(text))]
    yield "cut", cut, cut.count(b"\n") + 1
    yield "no end record", b"".join(lines[:-1]), len(lines)
    for name, more in ("an empty line", b"\n"), ("a NUL", b"\0"), ("its first line", lines[0]), ("its end record", lines[-1]):
        yield f"{name} behind", text + more, len(lines) + 1


def repeated(c):
    """The image's last byte once more, before the end record. Yields name, text, answer and line."""
    lines = c.text.splitlines(keepends=True)
    last = c.base + c.length - 1
    upper, again, beyond = record(0, 4, (last >> 16).to_bytes(2, "big")), record(last & 0xFFFF, 0, b"\0"), record(last & 0xFFFF, 0, b"\0\0")
    for name, extra, answer in (
        ("a byte again", [again], TWICE),
        ("a byte again and one beyond", [beyond], PLACE),
        ("a byte again and one beyond, counted wrong", [beyond.replace(b":02", b":03")], TEXT),
        ("a byte again, then one beyond", [again, beyond], TWICE),
        ("a byte again, then a broken line", [again, b"\n"], TWICE),
        ("a byte beyond, then a broken line", [beyond, b"\n"], PLACE),
        ("a broken line, then a byte again", [b"\n", again], TEXT),
    ):
        yield name, b"".join([*lines[:-1], upper, *extra, lines[-1]]), answer, len(lines) + 1


def shorter(c):
    """The image's first or last byte is no part of it any more. Yields name, base, line."""
    data = [number for number, kind in enumerate(kinds(c.text), 1) if kind == 0]
    yield "the first byte outside", c.base + 1, data[0]
    yield "the last byte outside", c.base, data[-1]


def damaged(random, c):
    """The cases that a case with an image without holes, of two bytes or more, gives."""
    for name, text in same(random, c.text):
        yield c._replace(name=f"{name}: {c.name}", text=text)
    for name, text, line in broken_text(random, c.text):
        yield refused(f"{name}: {c.name}", text, c.base, c.length, c.buffer, TEXT, line)
    for name, text, answer, line in repeated(c):
        yield refused(f"{name}: {c.name}", text, c.base, c.length, c.buffer, answer, line)
    for name, base, line in shorter(c):
        yield refused(f"{name}: {c.name}", c.text, base, c.length - 1, c.buffer, PLACE, line)
