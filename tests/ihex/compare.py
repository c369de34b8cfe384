"""Reads every text, and compares answer, line and the buffer after with what is due: the outside cases of cases.jsonl, texts by objcopy and srec_cat, and
these damaged. The same texts in every run."""
import json
import os
import random
import sys

from case import Case
from damage import damaged
from foreign import all_foreign
from handmade import all_handmade
from images import edited, holes, one_byte, whole
from reader import read
from records import crosses, kinds

SEED = 3
passed = failed = 0


def count(name, wrong):
    global passed, failed
    passed, failed = passed + (not wrong), failed + bool(wrong)
    if wrong:
        print(f"failed: {name}: {wrong}")


def compare(c):
    answer, line, after = read(c.text, c.base, c.length, c.buffer)
    if answer != c.answer or line not in c.lines:
        count(c.name, f"{answer} at line {line}, not {c.answer} at {c.lines}")
    else:
        count(c.name, after != c.after and "the buffer after")


def outside_cases():
    with open(os.path.join(os.path.dirname(__file__), "cases.jsonl"), encoding="ascii") as file:
        for case in map(json.loads, file):
            text, buffer = bytes.fromhex(case["text"]), bytes.fromhex(case["buffer"])
            # The cases say no lines. A refusal of the text is at one of its lines, or at the one after the last.
            lines = range(1, text.count(b"\n") + 2) if case["refusal"] >= 16 else [0]
            after = buffer if case["after"] is None else bytes.fromhex(case["after"])
            yield Case(case["name"], text, case["base"], case["length"], buffer, case["refusal"], lines, after)


rng = random.Random(SEED)
images = list(whole(rng))
made = [*images, *one_byte(rng), *holes(rng), *edited(rng), *all_foreign(rng)]
count("a record that crosses 64 KiB", not any(crosses(line) for c in images for line in c.text.splitlines()) and "none")
count("several upper halves in a text", not any(kinds(c.text).count(4) > 1 for c in images) and "none")
for c in [*outside_cases(), *all_handmade(), *made]:
    compare(c)
for c in rng.sample(images, 12):
    for d in damaged(rng, c):
        compare(d)
print(f"{passed} passed, {failed} failed")
sys.exit(failed > 0)
