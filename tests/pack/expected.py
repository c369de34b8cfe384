"""Slip and bundle by the rules of documents 01 and 02, with nothing of the product: expected.py BLOCK MODEL SERIAL, in a folder with image.bin, writes
expected_slip.bin, and with signature.bin expected_bundle.bin."""
import hashlib
import os
import sys


def number(x, length):
    return x.to_bytes(length, "big")


def split(n):
    k = 1
    while 2 * k < n:
        k *= 2
    return k


def label(blocks):
    if len(blocks) == 1:
        return hashlib.sha256(blocks[0]).digest()
    k = split(len(blocks))
    return hashlib.sha256(label(blocks[:k]) + label(blocks[k:])).digest()


# The labels that go with the block that has `before` blocks before it.
def carried(blocks, before):
    if len(blocks) == 1:
        return b""
    k = split(len(blocks))
    if before == 0:
        return carried(blocks[:k], 0) + label(blocks[k:])
    return carried(blocks[:k], before) if before < k else carried(blocks[k:], before - k)


block, model, serial = (int(x) for x in sys.argv[1:])
image = open("image.bin", "rb").read()
blocks = [image[i : i + block] for i in range(0, len(image), block)]
slip = number(1, 2) + number(block, 2) + number(model, 4) + number(serial, 4) + number(len(image), 4) + label(blocks)
open("expected_slip.bin", "wb").write(slip)
if os.path.exists("signature.bin"):
    program = b"\x01" + slip + open("signature.bin", "rb").read()
    messages = b"".join(b"\x02" + number(i + 1, 2) + b + carried(blocks, i) for i, b in enumerate(blocks))
    open("expected_bundle.bin", "wb").write(messages + program + number(len(program), 4))
