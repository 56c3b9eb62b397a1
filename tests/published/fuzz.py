#!/usr/bin/env python3
"""Random records, whole and broken, through a program and calculator.py.

    python3 fuzz.py PROGRAM [COUNT [SEED]]      stops at the first difference
    python3 fuzz.py - [COUNT [SEED]]            calculator only, prints a tally
    python3 fuzz.py --rules [COUNT [SEED]]      wrong calculators against the right one

The program reads a record on standard input.  A differing record is printed in
hex with both texts.

--rules shows that the records can tell right from wrong: the calculator is run on the
samples and on generated records with size rules that leave named polar values out
(sizes.py), with wrong projections at common zeros (zeros.py), and with tags and lengths
read without their high bits.  For each it prints on how many of both the text is another
one, and it fails if one of the two is 0.  With nothing left out no text may differ.
"""
import os
import random
import re
import subprocess
import sys

import calculator as calc
import sizes
import zeros
from check import HERE, SAMPLES, hexbytes, load


def whole(rnd):
    kind = rnd.choice((1, 1, 2, 3, 3))
    degrees = tuple(rnd.randint(1, top) for top in calc.TOP[kind])
    d = 3 if kind == 2 else 2                # numbers of a vertex, weights of a move
    vertices = 4 if kind == 3 else d
    small = rnd.choice((1, 2, 4))
    while True:
        frame = tuple(tuple(rnd.randint(-small, small) for _ in range(d)) for _ in range(vertices))
        if not calc.flat(kind, frame) or rnd.random() < 0.02:
            break
    top = rnd.choice((1, 3, 1000, 1048576))
    zero = rnd.choice((0.0, 0.5, 0.9))
    coeffs = [tuple(0 if rnd.random() < zero else rnd.randint(-top, top) for _ in range(4))
              for _ in calc.monomials(kind, degrees)]
    if rnd.random() < 0.02:
        coeffs[-1] = (0, 0, 0, rnd.choice((1048577, -1048577, 2**31 - 1, -2**31)))

    def weight():
        return rnd.choice((0, 1, -1, rnd.randint(-9, 9), rnd.randint(-9, 9),
                           rnd.randint(-4096, 4096), 4096, -4096, 4097))

    def move():
        if rnd.random() < 0.05:
            return (rnd.randint(0, 3), rnd.randint(0, 5), weight(), weight(), weight())
        vertex = rnd.randint(1, vertices)
        if rnd.random() < 0.3:
            return (2, vertex, 0, 0, 0)
        return (1, vertex, weight(), weight(), weight() if kind == 2 else 0)
    moves = None
    if rnd.random() < 0.8:
        moves = [move() for _ in range(rnd.choice((0, 1, 2, 3, 5)) if rnd.random() < 0.98 else 33)]
    point = tuple(weight() for _ in range(vertices)) if rnd.random() < 0.7 else None
    if rnd.random() < 0.02:
        degrees += (rnd.randint(0, 5),)      # a degree too many
    return calc.record(kind, degrees, frame, coeffs, moves, point)


def growing(rnd):
    """A frame that grows to 2^48 and past it under entries that stay small: the polynomials are 0, or
    they are the last monomial alone, which does not see the first vertex of a group, (0, 1) or (0, 0, 1)."""
    kind = rnd.choice((1, 2, 3))
    degrees = tuple(rnd.randint(1, min(top, 4)) for top in calc.TOP[kind])
    d = 3 if kind == 2 else 2
    vertices = 4 if kind == 3 else d
    while True:
        frame = tuple((0,) * (d - 1) + (rnd.choice((1, -1, 4)),) if v % d == 0
                      else tuple(rnd.randint(-2, 2) for _ in range(d)) for v in range(vertices))
        if not calc.flat(kind, frame):
            break
    coeffs = [(0, 0, 0, 0) for _ in calc.monomials(kind, degrees)]
    if rnd.random() < 0.7:
        coeffs[-1] = tuple(rnd.choice((0, 1, -3, 1048576)) for _ in range(4))

    def move():
        vertex = rnd.randint(1, vertices) if rnd.random() < 0.5 else 1
        seat = (vertex - 1) % d
        if rnd.random() < 0.1:
            return (2, vertex, 0, 0, 0)
        weights = [0] * 3
        if rnd.random() < 0.5:
            weights[:d] = (rnd.choice((0, 1, -1)) for _ in range(d))
        weights[seat] = rnd.choice((1, -1, 2, 16, 4096, 4096, 4096, -4096))
        return (1, vertex) + tuple(weights)
    point = tuple(rnd.choice((0, 1, -1, 4096)) for _ in range(vertices))
    return calc.record(kind, degrees, frame, coeffs, [move() for _ in range(rnd.randint(4, 32))], point)


def high_bits(rnd, b):
    """One tag or one length of a whole record with other high bits.  Who reads three bits of a tag, or ten
    of a length, reads as before."""
    b = bytearray(b)
    heads, p = [], 0
    while p < len(b):
        heads.append(p)
        p += 3 + int.from_bytes(b[p + 1:p + 3], "big")
    p = rnd.choice(heads)
    if rnd.random() < 0.5:
        b[p] ^= rnd.choice((0x08, 0x10, 0x20, 0x40, 0x80, 8 * rnd.randint(1, 31)))
    else:
        b[p + 1] ^= rnd.choice((0x04, 0x08, 0x10, 0x20, 0x40, 0x80, 4 * rnd.randint(1, 63)))
    return bytes(b)


def broken(rnd, b):
    if rnd.random() < 0.35:
        return high_bits(rnd, b)
    b = bytearray(b)
    for _ in range(rnd.randint(1, 2)):
        way = rnd.randrange(5)
        if way == 0:
            del b[rnd.randint(0, len(b)):]
        elif way == 1 and b:
            b[rnd.randrange(min(len(b), 30))] = rnd.choice((0, 1, 2, 3, 4, 5, 6, 255, rnd.randrange(256)))
        elif way == 2:
            b += bytes(rnd.randrange(256) for _ in range(rnd.randint(1, 9)))
        elif way == 3 and b:
            b[rnd.randrange(len(b))] ^= 1 << rnd.randrange(8)
        elif b:
            i = rnd.randrange(len(b))
            del b[i:i + rnd.randint(1, 3)]
    return bytes(b)


def generated(rnd):
    sort = rnd.random()
    if sort < 0.15:
        return sizes.one_beyond(rnd)
    if sort < 0.3:
        rec = zeros.through_zero(rnd)
    else:
        rec = growing(rnd) if sort < 0.43 else whole(rnd)
    return broken(rnd, rec) if rnd.random() < 0.35 else rec


class Reading:
    """The calculator with another reading of tags and lengths, while it is open."""

    def __init__(self, tags, lengths):
        self.tags, self.lengths = tags, lengths

    def head_at(self, b, p):
        tag, length = self.right(b, p)
        return tag % self.tags, length % self.lengths

    def __enter__(self):
        self.right, calc.head_at = calc.head_at, self.head_at

    def __exit__(self, *_):
        calc.head_at = self.right


def wrong():
    """(name, calculator, whether it may differ on a record with this text).  A size rule that leaves
    something out differs only where its call is refused 10, and another projection only where a point is
    found.  No accepted record has a tag beyond 5 or a length beyond 768, so one without the high bits reads
    it alike."""
    for name, call, kind, *rest in sizes.rules():
        first = "move" if call == "replace" else call
        line = re.compile(r"%s (.*\n)*%s.* refused 10\n" % (calc.WORD[kind], first))
        yield name, sizes.Judging(call, kind, *rest), line.match
    for where, name, rule in zeros.RULES:
        found = {zeros.PATCH: r"(?s)(patch|rect).*\nnowhere"}.get(where, r"(?s)curve.*\n(at|far|nowhere)")
        yield "%s: %s" % (where, name), zeros.Projecting(where, rule), re.compile(found).match
    for bits in range(3, 8):
        yield "tags modulo %d" % 2 ** bits, Reading(2 ** bits, 2 ** 16), re.compile("refused").match
    for bits in range(10, 16):
        yield "lengths modulo %d" % 2 ** bits, Reading(2 ** 8, 2 ** bits), re.compile("refused").match


def told_apart(records):
    """Calculator's name -> on how many of these records its text is another one."""
    nothing, calculators = sizes.Judging("replace", 0, 0, None), list(wrong())
    told = {name: 0 for name, _, _ in calculators}
    for rec in records:
        want = calc.netprint(rec)
        with nothing:
            if "refused 10" in want and calc.netprint(rec) != want:
                raise SystemExit("differs where nothing is left out: " + rec.hex())
        for name, calculator, may_differ in calculators:
            if may_differ(want):
                with calculator:
                    told[name] += calc.netprint(rec) != want
    return told


def tell_apart(count, rnd):
    names = sorted(f[:-4] for f in os.listdir(os.path.join(HERE, SAMPLES)) if f.endswith(".hex"))
    samples = told_apart(hexbytes(load(SAMPLES, name, ".hex")) for name in names)
    made = told_apart(generated(rnd) for _ in range(count))
    print("told apart by %d samples and by %d generated records:" % (len(names), count))
    for name in made:
        print("%6d %6d  %s" % (samples[name], made[name], name))
    missed = [name for name in made if 0 in (samples[name], made[name])]
    print("%d wrong calculators, %d not told apart by the samples or by the generated records"
          % (len(made), len(missed)))
    return 1 if missed else 0


def main(argv):
    prog = argv[0]
    count = int(argv[1]) if len(argv) > 1 else 1000
    rnd = random.Random(int(argv[2]) if len(argv) > 2 else 1)
    if prog == "--rules":
        return tell_apart(count, rnd)
    tally = {}
    for n in range(count):
        rec = generated(rnd)
        want = calc.netprint(rec)
        for line in want.split("\n"):
            w = line.split()
            if "refused" in w or (w and w[0] in ("at", "far", "nowhere", "curve", "patch", "rect")):
                key = w[0] if w[0] not in ("refused", "move", "point") else (
                    "refused " + w[1] if w[0] == "refused" else w[0] + " refused " + w[-1])
                tally[key] = tally.get(key, 0) + 1
        if prog != "-":
            got = subprocess.run([prog], input=rec, stdout=subprocess.PIPE).stdout
            if got != want.encode("ascii"):
                print("record %d differs\n%s\nwant:\n%s\ngot:\n%s"
                      % (n, rec.hex(), want, got.decode("ascii", "replace")))
                return 1
    print("%d records alike" % count if prog != "-" else "%d records" % count)
    for k in sorted(tally):
        print("%6d  %s" % (tally[k], k))
    return 0


if __name__ == "__main__":
    sys.exit(main(sys.argv[1:]))
