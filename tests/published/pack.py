#!/usr/bin/env python3
"""Packs tests/samples and the published nets for the program `vectors` of the gate.

    python3 pack.py            writes crates/vectors/stdin and crates/vectors/stdout
    python3 pack.py --check    writes nothing; says whether the two files are up to date

Run it after make_samples.py or make_published.py has changed a record or a text.

A vector is a label (one byte with its length, then its letters), a record and
the expected text (each: two bytes with its length, the high one first, then its
bytes).  Samples come first, in the order of their INDEX, then the published
nets, chapter after chapter, in the order of published.txt.

Nothing here runs the program or the library.  For every vector but one kind the
line that `vectors` must write is `LABEL equal`: the expected texts were written
by hand or made from the printed nets, and check.py has held them to the
calculator.  The one kind is a net that its source misprints.  Its label has two
vectors: LABEL with the net as it is printed, and LABEL-corrected with the net as
it should be.  The first must differ, at the first byte where the printed net's
text and the text that calculator.py gives for the record part.
"""
import os
import sys
from fractions import Fraction

import calculator as calc
from check import HERE, SAMPLES, blocks, hexbytes, load, shape

CRATE = os.path.join(HERE, "..", "..", "crates", "vectors")
RECORD, TEXT = 4096, 4183          # the program's buffers for a record and for a text


def index():
    """The samples' names, in the order of INDEX."""
    for line in open(os.path.join(HERE, SAMPLES, "INDEX")):
        if line.strip() and not line.startswith("#"):
            yield line.split()[0]


def published():
    """The published nets, chapter after chapter."""
    return sorted(blocks(), key=lambda b: b["chapter"])


def as_printed(b):
    """The text with the printed net, numbers times the factor, as if it were right.  No move, so
    the frame is the record's."""
    assert b["moves"] == "none" and "point" not in b and "vertex-scale" not in b
    kind, degrees = shape(b)
    factor = Fraction(b["factor"])
    text = calc.first_line(kind, degrees) + "\nframe " + b["frame"] + "\n"
    for e, numbers in zip(calc.entries(kind, degrees), b["e"]):
        row = [factor * n for n in numbers]
        assert all(v.denominator == 1 for v in row)
        text += " ".join(str(v) for v in tuple(e) + tuple(row)) + "\n"
    return text


def first_difference(a, b):
    n = 0
    while n < len(a) and n < len(b) and a[n] == b[n]:
        n += 1
    assert n < len(a) or n < len(b)
    return n


def vectors():
    """(label, record, expected text, what the program must say of it)."""
    for name in index():
        yield name, hexbytes(load(SAMPLES, name, ".hex")), load(SAMPLES, name, ".txt"), "equal"
    for b in published():
        name = b["net"]
        record = hexbytes(load("records", name, ".hex"))
        if b["verdict"] == "equal":
            yield name, record, load("expected", name, ".txt"), "equal"
            continue
        printed = as_printed(b)
        place = first_difference(printed, calc.netprint(record))
        yield name, record, printed, "differs at %d" % place
        yield name + "-corrected", record, load("expected-misprints", name, ".txt"), "equal"


def packed(data, width, most):
    assert len(data) < 256 ** width and len(data) <= most
    return len(data).to_bytes(width, "big") + data


def made():
    """The bytes of the two files."""
    stdin, stdout, labels = b"", "", set()
    equal = different = 0
    for label, record, text, verdict in vectors():
        assert label and label not in labels and text
        labels.add(label)
        stdin += packed(label.encode("ascii"), 1, 255) + packed(record, 2, RECORD)
        stdin += packed(text.encode("ascii"), 2, TEXT)
        stdout += "%s %s\n" % (label, verdict)
        if verdict == "equal":
            equal += 1
        else:
            different += 1
    stdout += "%d equal, %d different\n" % (equal, different)
    return stdin, stdout.encode("ascii")


def main(argv):
    bad = 0
    for name, data in zip(("stdin", "stdout"), made()):
        path = os.path.join(CRATE, name)
        if argv == ["--check"]:
            same = os.path.exists(path) and open(path, "rb").read() == data
            bad += not same
            print("%s %s" % (os.path.relpath(path), "is up to date" if same else "DIFFERS"))
        else:
            with open(path, "wb") as f:
                f.write(data)
            print("%s: %d bytes" % (os.path.relpath(path), len(data)))
    return 1 if bad else 0


if __name__ == "__main__":
    sys.exit(main(sys.argv[1:]))
