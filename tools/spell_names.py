#!/usr/bin/env python3
"""Spells this repository's own definitions and lemmas in snake case, after port.py, once.

usage: python3 tools/spell_names.py        at the top of the repository

A name that begins with a small letter and has a capital inside is turned: `netOver` to `net_over`, `scaleL`
to `scale_l`, `natAbs-neg` to `nat_abs-neg`. Names are collected from specs/ and proofs/ (comments left out)
and turned in specs/, proofs/, src/, the edits, README.md and docs/. LEMMAS first gives the lemmas that would
then fall together with a definition another name. A name of the source that a definition now shares is no
fall: clauses and code have names of their own.
"""

import glob
import re

# (files, a lemma's name as port.py left it, its new name)
LEMMAS = [
    ("crates/*/proofs/**/*.antt", "all_pass", "all-passes"),
    ("crates/projection/proofs/Signed.antt", "is_negative", "is_negative-seen"),
    ("crates/projection/proofs/leads_negative/Proof.antt", "is_negative", "is_negative-seen"),
    ("crates/nets/proofs/Moves.antt", "point_at", "point_at-of"),
    ("crates/nets/proofs/Vertices.antt", "point_at", "point_at-of"),
    ("crates/machine/proofs/Accuracy.antt", "step_by", "step_by-accurate"),
]

WORD = r"[^\s(){}\[\].,;:`'\"λ⌜⌝@|×]+"
HEAD = r"(?<![A-Za-z0-9_])"
TAIL = r"(?![A-Za-z0-9_])"


def snake(word):
    return re.sub(r"(?<=[a-z0-9])(?=[A-Z])", "_", word).lower()


def proofs():
    own = glob.glob("crates/*/specs/**/*.antt", recursive=True)
    return sorted(own + glob.glob("crates/*/proofs/**/*.antt", recursive=True))


def texts():
    others = glob.glob("crates/*/src/**/*.rt", recursive=True)
    others += glob.glob("crates/*/must-fail/*.edit") + glob.glob("tests/edits/*/*.edit")
    others += glob.glob("docs/**/*.md", recursive=True) + glob.glob("README.md")
    return sorted(proofs() + others)


def read(path):
    with open(path, encoding="utf-8") as f:
        return f.read()


def turn(path, pattern, by):
    """Whether the file changed."""
    text = read(path)
    new = pattern.sub(by, text)
    if new == text:
        return False
    with open(path, "w", encoding="utf-8") as f:
        f.write(new)
    return True


def camels():
    found = set()
    for path in proofs():
        for word in re.findall(WORD, re.sub(r"--.*", "", read(path))):
            if re.match(r"^[a-z]", word) and re.search(r"[a-z][A-Z]", word):
                parts = re.findall(r"[a-z][A-Za-z0-9]*", word)
                found.update(w for w in parts if re.search(r"[a-z0-9][A-Z]", w))
    return found


def main():
    for files, old, new in LEMMAS:
        for path in glob.glob(files, recursive=True):
            turn(path, re.compile(HEAD + re.escape(old) + r"(?![A-Za-z0-9_-])"), lambda _: new)
    names = sorted(camels(), key=lambda n: (-len(n), n))
    turned = {}
    for n in names:
        turned.setdefault(snake(n), []).append(n)
    for t, ns in turned.items():
        if len(ns) > 1:
            print(f"fall together: {ns} to {t}")
    pattern = re.compile(HEAD + "(" + "|".join(names) + ")" + TAIL)
    changed = sum(turn(path, pattern, lambda m: snake(m.group(1))) for path in texts())
    print(f"{len(names)} names turned, in {changed} files")


if __name__ == "__main__":
    main()
