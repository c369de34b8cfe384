"""Records of types 02, 03 and 05, as others' programs write them: each is a broken line. And the commands that leave them out."""
from case import TEXT, accepted, refused
from makers import MIB, SEGMENT, from_binary, joined, objcopy, run, srec_cat
from records import kinds

FLASH = 0x0800FF00
LENGTH = 600
FROM_ELF = ["objcopy", "-O", "ihex", "elf", "text"]
FROM_TEXT = ["srec_cat", "other", "-intel", "-o", "text", "-intel"]
FROM_SRECORDS = ["srec_cat", "srec", "-motorola", "-o", "text", "-intel"]
NO_START = "-disable=exec-start-address"


def segments(random, image):
    """Type 02, for an image that lies below 1 MiB, at its start or where it crosses 64 KiB. Yields name, type, base, text."""
    bases = [SEGMENT, random.randrange(SEGMENT, MIB - LENGTH), SEGMENT - 200, MIB - 200]
    for base in bases:
        yield f"objcopy, from {base:#x} on", 2, base, objcopy([(base, image)])
    for base in bases[:-1]:
        yield f"srec_cat, addresses of 20 bits, from {base:#x} on", 2, base, srec_cat([(base, image)], "-address-length=3")


def starts(image):
    """Types 03 and 05, for a start address below 1 MiB and for another."""
    pieces = [(FLASH, image)]
    yield "objcopy, a start", 3, 0, objcopy([(0, image)], "--set-start=1")
    yield "objcopy, a start in flash", 5, FLASH, objcopy(pieces, f"--set-start={FLASH}")
    yield "objcopy, the start moved too", 5, FLASH, run(pieces, ["objcopy", "-I", "binary", "-O", "ihex", f"--change-addresses={FLASH}", "piece0", "text"])
    yield "objcopy, an ELF file's start", 5, FLASH, run(pieces, elf(pieces), FROM_ELF)
    yield "objcopy, S-records' start", 5, FLASH, run(pieces, srecords(pieces), ["objcopy", "-I", "srec", "-O", "ihex", "srec", "text"])
    yield "srec_cat, a start", 5, FLASH, srec_cat(pieces, f"-exec-start-address={FLASH}")
    yield "srec_cat, S-records' start", 5, FLASH, run(pieces, srecords(pieces), FROM_SRECORDS)


def left_out(random, image):
    """The same without them. Yields name, base, text."""
    pieces, low = [(FLASH, image)], random.randrange(SEGMENT, MIB - LENGTH)
    yield "objcopy, an ELF file without its start", FLASH, run(pieces, elf(pieces), [*FROM_ELF, "--set-start=0"])
    yield "srec_cat, S-records without their start", FLASH, run(pieces, srecords(pieces), [*FROM_SRECORDS, NO_START])
    other = from_binary([(low, image)], "ihex", "other", f"--set-start={low}")
    yield "srec_cat, objcopy's text with 02 and 03", low, run([(low, image)], other, [*FROM_TEXT, NO_START])
    yield "srec_cat, a start in the end record", 0, srec_cat([(0, image)], "-exec-start-address=1", "-address-length=2")


def elf(pieces):
    return from_binary(pieces, "elf32-little", "elf", f"--set-start={FLASH}")


def srecords(pieces):
    return joined(pieces, f"-exec-start-address={FLASH}", "-o", "srec", "-motorola")


def all_foreign(random):
    image, buffer = random.randbytes(LENGTH), random.randbytes(LENGTH + 1)
    for name, kind, base, text in [*segments(random, image), *starts(image)]:
        yield refused(f"{name}: type {kind:02}", text, base, LENGTH, buffer, TEXT, kinds(text).index(kind) + 1)
    for name, base, text in left_out(random, image):
        yield accepted(name, text, base, image, buffer)
