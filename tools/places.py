#!/usr/bin/env python3
"""Lists the places that docs/DESIGN-PASS.md speaks of, a line each, and how many there are of each kind.

usage: python3 tools/places.py [COMMIT]     of the sources at this commit; without one, of those that stand here
"""

import collections
import glob
import re
import subprocess
import sys

# What a line of the sources shows by itself. Of an enum or a struct the cases and fields decide, and a reader: the page says which of these are places.
LINES = {
    "enums": r"^\s*(pub )?enum \w+",
    "structs": r"^\s*(pub )?struct \w+",
    "cases told by a bool": r"^\s*(pub )?(done|same|found|answer): \w+,$",
    "constants that stand for a kind or for nothing": r"^\s*(pub )?const (NO_\w+|\w*UPDATE): u\d+ =",
    "functions that give a number for a case": r"fn (\w+_number|number_of|kind_of)\(|impl From<\w+> for u\d+",
    "bare numbers of refusals": r"^\s*(return [1-9]\d*;|9)$",
    "while loops": r"^\s*while ",
    "for loops over numbers": r"^\s*for \w+ in \w*[^ ]*\.\.",
    "answers true or false one by one": r"return (true|false);",
    "conversions by hand": r"fn (low|wide|be16|be32|be64|u16_at|u32_at|bytes32_at|key_in|key_of|to_bytes|equal)\(",
    "derives": r"#\[derive\(",
    "switches by a bool": r"fn .*\b(update|path|hex|right): bool",
    "own buffers and indexes": r"\b(out|buffer|bytes): &mut \[u8\], at: usize",
}
CLAUSE = re.compile(r"requires \w* ?\{(.*?)\}\s*\n", re.S)
SIGNATURE = re.compile(r"fn (\w+)(?:<[^>]*>)?\(([^)]*)\)([^;{]*?\n)((?: +(?:requires|ensures)[^\n]*\n(?: +×[^\n]*\n)*)*)")


def sources(commit):
    if commit is None:
        return {f: open(f, encoding="utf-8").read() for f in sorted(glob.glob("crates/*/src/**/*.rt", recursive=True))}
    names = subprocess.run(["git", "ls-tree", "-r", "--name-only", commit, "crates"], check=True, capture_output=True, text=True).stdout.split()
    names = [n for n in names if re.fullmatch(r"crates/\w+/src/.*\.rt", n)]
    return {n: subprocess.run(["git", "show", f"{commit}:{n}"], check=True, capture_output=True, text=True).stdout for n in names}


def lines(files):
    for title, pattern in LINES.items():
        found = [(f, i, t.strip()) for f, text in files.items() for i, t in enumerate(text.split("\n"), 1) if re.search(pattern, t)]
        print(f"## {title}: {len(found)}")
        for f, i, t in found:
            print(f"  {f.removeprefix('crates/')}:{i}: {t}")


def contracts(files):
    facts, groups = collections.defaultdict(set), collections.defaultdict(set)
    for f, text in files.items():
        crate = f.split("/")[1]
        for m in SIGNATURE.finditer(text):
            name, where = m.group(1), f"{crate}::{m.group(1)}"
            for clause in CLAUSE.findall(m.group(4)):
                for fact in re.split(r" × ", " ".join(clause.split())):
                    facts[fact.strip().strip("()").strip()].add(where)
            names = [p.split(":")[0].strip() for p in m.group(2).replace("\n", " ").split(",") if ":" in p]
            for k in range(len(names) - 1):
                groups[(names[k], names[k + 1])].add(where)
    for title, found in ("facts required by three functions or more", facts), ("neighbouring parameters of four functions or more", groups):
        least = 3 if found is facts else 4
        kept = sorted(((len(v), k) for k, v in found.items() if len(v) >= least), key=lambda x: (-x[0], str(x[1])))
        print(f"## {title}: {len(kept)}")
        for n, k in kept:
            print(f"  {n}: {k if isinstance(k, str) else ', '.join(k)}")


def proofs(commit):
    show = (lambda f: open(f, encoding="utf-8").read()) if commit is None else (lambda f: subprocess.run(["git", "show", f"{commit}:{f}"], check=True, capture_output=True, text=True).stdout)
    if commit is None:
        names = sorted(glob.glob("crates/*/proofs/**/*.antt", recursive=True))
    else:
        names = subprocess.run(["git", "ls-tree", "-r", "--name-only", commit, "crates"], check=True, capture_output=True, text=True).stdout.split()
        names = [n for n in names if re.fullmatch(r"crates/\w+/proofs/.*\.antt", n)]
    of = collections.Counter()
    for n in names:
        kind = n.split("/")[-1] if n.split("/")[-1] in ("Answers.antt", "Invariants.antt") else "lemmas"
        of[n.split("/")[1], kind] += show(n).count("\n")
    print("## lines of proofs: answers, invariants, lemmas")
    for crate in sorted({c for c, _ in of}):
        print(f"  {crate}: {of[crate, 'Answers.antt']}, {of[crate, 'Invariants.antt']}, {of[crate, 'lemmas']}")


def main():
    commit = sys.argv[1] if len(sys.argv) > 1 else None
    files = sources(commit)
    lines(files)
    contracts(files)
    proofs(commit)


if __name__ == "__main__":
    main()
