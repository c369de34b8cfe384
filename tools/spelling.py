#!/usr/bin/env python3
"""Brings the repository's own definitions and lemmas to one spelling: words in snake case, types, facts and modules in camel case, a prime as an apostrophe.

usage: python3 tools/spelling.py          rewrites crates/*/{src,specs,proofs} in place, and prints what it renamed
       python3 tools/spelling.py --look   changes nothing, and prints the renames and every place where two names would fall together

Run once, after the kit's own script. A dash between two names in a lemma's name stays; a lemma that would have its function's name gets `_lem`. Names that
RFC 8554 gives stay as it writes them.
"""

import glob
import re
import sys

KEPT = {"strTou32"}  # RFC 8554's word
LEMMAS = {"goes_by", "chain_steps", "zero_bits"}  # lemmas that would have their function's new name
TOKEN = re.compile(r"[^\s(){}\[\],;.:\"«»`|]+")
CAMEL = re.compile(r"(?<![A-Za-z0-9])[a-z][a-z0-9]*(?:[A-Z][a-z0-9₀-₉]*)+")


def snake(word):
    return re.sub(r"[A-Z]+", lambda m: "_" + m.group(0).lower(), word)


def respelled(token, dashed):
    if token in KEPT or token.startswith("--"):
        return token
    if token in LEMMAS:
        return token + "_lem"
    if token in dashed:
        token = token.replace("-", "_")
    return CAMEL.sub(lambda m: m.group(0) if m.group(0) in KEPT else snake(m.group(0)), token).replace("′", "'")


def declared_with_dash():
    """Definitions of specs/ and fields of records whose names have dashes: these become words."""
    names = set()
    for path in glob.glob("crates/*/specs/*.antt") + glob.glob("crates/*/proofs/**/*.antt", recursive=True):
        fields = False
        for line in open(path, encoding="utf-8"):
            if re.match(r"\s*(pub )?record ", line):
                fields = True
                continue
            if fields and not line.strip():
                fields = False
            m = re.match(r"\s*(?:unfoldable |abbrev |pub )*([A-Za-z][^\s:(){}]*)\s+:\s", line)
            if m and "-" in m.group(1) and (fields or "/specs/" in path):
                names.add(m.group(1))
    return names


def antt_of(text, turned):
    """A source file with its pieces of antt turned: ghost imports, clauses up to their closing brace, and comments."""
    out, at = [], 0
    for m in re.finditer(r"ghost use [^;]*;|^\s*(?:requires|ensures)\b[^{\n]*\{|//.*$", text, re.M):
        if m.start() < at:
            continue
        end = m.end()
        if m.group(0).endswith("{") and not m.group(0).lstrip().startswith("//"):
            deep = 1
            while deep:
                deep += (text[end] == "{") - (text[end] == "}")
                end += 1
        out += [text[at:m.start()], turned(text[m.start():end])]
        at = end
    return "".join(out) + text[at:]


def turn(text, dashed, said):
    def one(m):
        new = respelled(m.group(0), dashed)
        if new != m.group(0):
            said[m.group(0)] = new
        return new
    return TOKEN.sub(one, text)


def main():
    look = "--look" in sys.argv
    dashed = declared_with_dash()
    files = sorted(glob.glob("crates/*/specs/*.antt") + glob.glob("crates/*/proofs/**/*.antt", recursive=True) + glob.glob("crates/*/src/**/*.rt", recursive=True))
    said = {}
    for path in files:
        text = open(path, encoding="utf-8").read()
        before = set(TOKEN.findall(text))
        here = {}
        if path.endswith(".rt"):
            new = antt_of(text, lambda piece: turn(piece, dashed, here))
        else:
            new = turn(text, dashed, here)
        for old, to in here.items():
            if to in before:
                print(f"together: {path}: {old} and {to}")
        said |= here
        if not look and new != text:
            open(path, "w", encoding="utf-8").write(new)
    for old in sorted(said):
        print(f"{old} {said[old]}")


main()
