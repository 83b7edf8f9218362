#!/usr/bin/env python3
"""Brings this repository's own definitions, fields and lemmas to snake case, once, after the kit's port.py.

    python3 tools/port_names.py

Run at the top of the checkout. Each word in lower camel case that a specs/ or proofs/ file, a clause or an edit speaks becomes snake
case; in a dashed name each part does. Types, facts and modules keep their capitals, Rust keeps its names. Where a lemma already had
its definition's new name, the lemma gets `_lem` first. Strings of src/, C and the oracle are not read. It changes nothing on a second
run.
"""
import glob
import re
import sys

WORD = re.compile(r"(?<![A-Za-z0-9_])[A-Za-z_][A-Za-z0-9_]*")
CAMEL = re.compile(r"[a-z][a-z0-9_]*[A-Z][A-Za-z0-9_]*$")

# A lemma that would have its definition's name: the folders where it is said, the lemma.
LEMMAS = [
    ("crates/laws/proofs", "same_id"),
    ("crates/tree_rows/proofs", "runs_of"),
    ("crates/compactor_finish/proofs", "runs_of"),
    ("crates/tree_rows/proofs", "rows_before"),
    ("crates/merging/proofs", "too_many"),
    ("crates/tree_pick/proofs/UsedIds.antt", "same_key"),
    ("crates/compactor_state/proofs/Taking.antt", "entries_fit"),
]

# Words of the library in camel case that proof files still say.
KEPT = {"getD", "fitsF", "uint_Makes", "uint_Tells", "uint_Lawful", "float_Makes", "float_Tells", "walk_Meets", "shr_slice_Tells"}


def snake(word):
    return re.sub(r"([a-z0-9])([A-Z])", r"\1_\2", word).lower()


def sayings():
    files = []
    for pattern in ("specs/**/*.antt", "proofs/**/*.antt", "src/**/*.rt", "must-fail/*.edit"):
        files += glob.glob("crates/*/" + pattern, recursive=True)
    return sorted(files)


def lemmas_apart(path, text):
    for place, lemma in LEMMAS:
        if path.startswith(place):
            text = re.sub(r"(?<![A-Za-z0-9_.-])%s(?![A-Za-z0-9_'-])" % lemma, lemma + "_lem", text)
    return text


def outside_strings(line, turn):
    parts = re.split(r'("(?:[^"\\]|\\.)*")', line)
    return "".join(p if k % 2 else turn(p) for k, p in enumerate(parts))


def main():
    files = sayings()
    texts = {f: open(f, encoding="utf-8").read() for f in files}
    words = set()
    for text in texts.values():
        words |= {w for w in WORD.findall(text) if CAMEL.match(w) and w not in KEPT}
    if not words:
        return 0
    turn = lambda part: WORD.sub(lambda m: snake(m[0]) if m[0] in words else m[0], part)
    for path, text in texts.items():
        new = lemmas_apart(path, text)
        new = "\n".join(outside_strings(line, turn) for line in new.split("\n")) if path.endswith(".rt") else turn(new)
        if new != text:
            open(path, "w", encoding="utf-8").write(new)
    print(len(words), "words")
    return 0


sys.exit(main())
