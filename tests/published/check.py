#!/usr/bin/env python3
"""Reads published.txt, records/, expected*/ and ../samples back and checks them.

    python3 check.py                 against calculator.py
    python3 check.py ./netprint      also runs that program on every record

Each record is fed on standard input; the whole output must be the expected text.
"""
import os
import subprocess
import sys
from fractions import Fraction as Fr

import calculator as calc

HERE = os.path.dirname(os.path.abspath(__file__))
SAMPLES = os.path.join("..", "samples")     # seen from here


def load(folder, name, ext):
    with open(os.path.join(HERE, folder, name + ext)) as f:
        return f.read()


def hexbytes(s):
    return bytes.fromhex("".join(s.split()))


def blocks():
    b = None
    for line in open(os.path.join(HERE, "published.txt")):
        line = line.rstrip("\n")
        if not line or line.startswith("#"):
            continue
        k, _, v = line.partition(" ")
        if k == "net":
            b = {"net": v, "c": [], "e": [], "differs": []}
        elif k in ("c", "e"):
            b[k].append(tuple(int(x) for x in v.split()))
        elif k == "differs":
            i, c, n, s = v.split()
            b[k].append((int(i), "xyzw".index(c), int(n), Fr(s)))
        elif k == "end":
            yield b
        else:
            b[k] = v


def shape(b):
    """Kind and degrees of a block."""
    kind = next(k for k, word in calc.WORD.items() if word == b["kind"])
    return kind, tuple(int(x) for x in b["degree"].split())


def main(argv):
    prog = argv[0] if argv else None
    fails = runs = 0

    def same(name, rec, want):
        nonlocal fails, runs
        runs += 1
        if calc.netprint(rec) != want:
            fails += 1
            print("FAIL calculator", name)
        if prog:
            got = subprocess.run([prog], input=rec, stdout=subprocess.PIPE).stdout
            if got != want.encode("ascii"):
                fails += 1
                print("FAIL program", name, "\nwant:", want, "\ngot:", got.decode("ascii", "replace"))

    count = {}
    labels = set()
    for b in blocks():
        labels.add(b["net"])
        kind, degrees = shape(b)
        n = [int(x) for x in b["frame"].split()]
        d = 3 if kind == 2 else 2            # numbers of a vertex
        frame = tuple(tuple(n[i:i + d]) for i in range(0, len(n), d))
        mv = [] if b["moves"] == "none" else [int(x) for x in b["moves"].split()]
        moves = [tuple(mv[i:i + 5]) for i in range(0, len(mv), 5)]
        point = tuple(int(x) for x in b["point"].split()) if "point" in b else None
        assert int(b["monomials"]) == len(b["c"]) and int(b["entries"]) == len(b["e"])
        rec = calc.record(kind, degrees, frame, b["c"], moves or None, point)
        assert rec == hexbytes(load("records", b["net"], ".hex")), b["net"]
        reached = frame
        for x in moves:
            number, reached = calc.judge_move(kind, degrees, b["c"], reached, x[0], x[1], x[2:])
            assert number == 0
        ours = calc.net(kind, degrees, b["c"], reached)
        f = Fr(b["factor"])
        vs = [int(x) for x in b["vertex-scale"].split()] if "vertex-scale" in b else [1] * len(frame)
        diff = {(i, c): (n_, s) for i, c, n_, s in b["differs"]}
        rows = []
        for i, (e, a, p) in enumerate(zip(calc.entries(kind, degrees), ours, b["e"])):
            x = 1
            for c, s in zip(calc.copies(kind, degrees, e), vs):
                x *= s ** c
            row = []
            for c in range(4):
                v = Fr(p[c])
                if (i, c) in diff:
                    assert diff[(i, c)][0] == p[c] and diff[(i, c)][1] != p[c]
                    v = diff[(i, c)][1]
                assert a[c] == f * v * x, (b["net"], e, c)
                row.append(f * v * x)
            rows.append((e, row))
        verdict = "misprint" if diff else "equal"
        assert b["verdict"] == verdict, b["net"]
        text = calc.first_line(kind, degrees) + "\n" + calc.frame_line(reached) + "\n"
        for e, row in rows:
            text += " ".join(str(int(v)) for v in tuple(e) + tuple(row)) + "\n"
        want = load("expected" if verdict == "equal" else "expected-misprints", b["net"], ".txt")
        assert want.startswith(text), b["net"]
        same(b["net"], rec, want)
        key = (b["source"], b["polynomials"], verdict)
        count[key] = count.get(key, 0) + 1
    assert labels == {f[:-4] for f in os.listdir(os.path.join(HERE, "records"))}
    assert labels == {f[:-4] for d in ("expected", "expected-misprints")
                      for f in os.listdir(os.path.join(HERE, d))}
    for k in sorted(count):
        print("%3d  net %-8s polynomials %-8s %s" % ((count[k],) + k))
    names = sorted(f[:-4] for f in os.listdir(os.path.join(HERE, SAMPLES)) if f.endswith(".hex"))
    for name in names:
        same(name, hexbytes(load(SAMPLES, name, ".hex")), load(SAMPLES, name, ".txt"))
    print("%d published nets, %d samples, %d texts compared, %d failed"
          % (len(labels), len(names), runs, fails))
    return 1 if fails else 0


if __name__ == "__main__":
    sys.exit(main(sys.argv[1:]))
