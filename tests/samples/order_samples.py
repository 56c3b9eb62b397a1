"""The samples of request E10, order of flips and splits, used by make_samples.py.

Each law is a pair of records, -a and -b, one for each way.  All four polynomials are powers of
linear forms, so an entry is the scale times a product of the form's values at its points; the
frame that a record reaches is typed, and a text follows from it by that rule.
"""
import math

from fields import FLP, REPL, f1, f2, f3, f4

OUT = []


def group(title):
    OUT.append((None, "Order of flips and splits: " + title, None, None))


# ------------------------------------------------------------------------------ nets of powers

def curve(frame):
    """Degree 4, scale 12: (T + 2Z)^4, (T - Z)^4, (2T + Z)^4, (3T + Z)^4."""
    forms = ((1, 2), (1, -1), (2, 1), (3, 1))
    rows = [tuple(math.comb(4, k) * a ** k * b ** (4 - k) for a, b in forms) for k in range(5)]
    r, s = [[a * v[0] + b * v[1] for a, b in forms] for v in frame]
    entries = ["%d %d %d %d %d\n" % (j, *(12 * r[c] ** (4 - j) * s[c] ** j for c in range(4))) for j in range(5)]
    return f1(1, 4), f3(*rows), "curve 4 12\n", "".join(entries)


def patch(frame):
    """Degree 3, scale 6: (U + 2V + Z)^3, (U - V)^3, (V + Z)^3, (U + V + 3Z)^3."""
    forms = ((1, 2, 1), (1, -1, 0), (0, 1, 1), (1, 1, 3))
    rows = [tuple(math.comb(3, h) * math.comb(3 - h, l) * a ** h * b ** l * c ** (3 - h - l) for a, b, c in forms)
            for h in range(4) for l in range(4 - h)]
    r, s, t = [[a * v[0] + b * v[1] + c * v[2] for a, b, c in forms] for v in frame]
    entries = ["%d %d %d %d %d %d %d\n" % (i, j, 3 - i - j, *(6 * r[c] ** i * s[c] ** j * t[c] ** (3 - i - j) for c in range(4)))
               for i in range(3, -1, -1) for j in range(3 - i, -1, -1)]
    return f1(2, 3), f3(*rows), "patch 3 6\n", "".join(entries)


def rect(frame):
    """Degrees 3 and 2, scale 3 x 2: a form's cube in the first pair times a form's square in the second."""
    forms = (((1, 2), (1, 1)), ((1, -1), (2, 1)), ((2, 1), (1, -2)), ((3, 1), (1, 3)))
    rows = [tuple(math.comb(3, k) * a ** k * b ** (3 - k) * math.comb(2, l) * c ** l * d ** (2 - l) for (a, b), (c, d) in forms)
            for k in range(4) for l in range(3)]
    first = [[a * v[0] + b * v[1] for (a, b), _ in forms] for v in frame[:2]]
    second = [[c * v[0] + d * v[1] for _, (c, d) in forms] for v in frame[2:]]
    entries = ["%d %d %d %d %d %d\n" % (i, j, *(6 * first[0][c] ** (3 - i) * first[1][c] ** i * second[0][c] ** (2 - j) * second[1][c] ** j
                                               for c in range(4)))
               for i in range(4) for j in range(3)]
    return f1(3, 3, 2), f3(*rows), "rect 3 2 6\n", "".join(entries)


NETS = {1: curve, 2: patch, 3: rect}
USUAL = {1: ((0, 1), (1, 1)), 2: ((0, 0, 1), (1, 0, 1), (0, 1, 1)), 3: ((0, 1), (1, 1), (0, 1), (1, 1))}


def numbers(frame):
    return [x for vertex in frame for x in vertex]


def S(name, kind, moves, refused, frame, comment):
    """A record with these moves, of which those in `refused` (place and number) are, and the frame that it reaches."""
    first, coefficients, head, entries = NETS[kind](frame)
    text = head + "".join("move %d refused %d\n" % r for r in refused)
    text += "frame" + "".join(" %d" % x for x in numbers(frame)) + "\n" + entries
    OUT.append((name, comment, first + f2(*numbers(USUAL[kind])) + coefficients + f4(*moves), text))


def both(name, kind, one, other, frame, comment):
    """Two ways that end in one net."""
    S(name + "-a", kind, one, (), frame, comment)
    S(name + "-b", kind, other, (), frame, "the same net")


def flip(v):
    return (FLP, v, 0, 0, 0)


def replace(u, *weights):
    return (REPL, u, *weights, *[0] * (3 - len(weights)))


# ------------------------------------------------------------------------------
group("flips")
S("order-curve-twice", 1, [flip(1), flip(1)], (), USUAL[1], "flip r twice: the first net")
S("order-patch-twice", 2, [flip(3), flip(3)], (), USUAL[2], "flip t twice: the first net")
S("order-rect-twice", 3, [flip(4), flip(4)], (), USUAL[3], "flip s2 twice: the first net")
both("order-curve-flips", 1, [flip(1), flip(2)], [flip(2), flip(1)], ((0, -1), (-1, -1)), "flip r and s, in either order")
both("order-patch-flips", 2, [flip(1), flip(3)], [flip(3), flip(1)], ((0, 0, -1), (1, 0, 1), (0, -1, -1)),
     "flip r and t, in either order")
both("order-rect-flips", 3, [flip(1), flip(4)], [flip(4), flip(1)], ((0, -1), (1, 1), (0, 1), (-1, -1)),
     "flip r1 and s2, in either order")

group("a flip and a replace of another vertex: the flipped one's weight is negated")
# 2 (0, -1) + 3 (1, 1) = (3, 1)
both("order-curve-another", 1, [flip(1), replace(2, 2, 3)], [replace(2, -2, 3), flip(1)], ((0, -1), (3, 1)),
     "flip r, then s at (2, 3); or s at (-2, 3), then flip r")
# (0, 0, 1) + 2 (1, 0, 1) + 3 (0, -1, -1) = (2, -3, 0)
both("order-patch-another", 2, [flip(3), replace(1, 1, 2, 3)], [replace(1, 1, 2, -3), flip(3)], ((2, -3, 0), (1, 0, 1), (0, -1, -1)),
     "flip t, then r at (1, 2, 3); or r at (1, 2, -3), then flip t")
both("order-rect-another", 3, [flip(3), replace(4, 2, 3)], [replace(4, -2, 3), flip(3)], ((0, 1), (1, 1), (0, -1), (3, 1)),
     "flip r2, then s2 at (2, 3); or s2 at (-2, 3), then flip r2")
# 2 (0, 1) + 3 (1, 1) = (3, 5)
both("order-rect-apart", 3, [flip(1), replace(4, 2, 3)], [replace(4, 2, 3), flip(1)], ((0, -1), (1, 1), (0, 1), (3, 5)),
     "flip r1 and s2 at (2, 3), in different pairs: nothing is negated")
both("order-rect-apart-second", 3, [flip(4), replace(1, 2, 3)], [replace(1, 2, 3), flip(4)], ((3, 5), (1, 1), (0, 1), (-1, -1)),
     "flip s2 and r1 at (2, 3), in different pairs: nothing is negated")

group("a flip and a replace of another vertex that is refused: the flip stays, before or after it")
# the value of 3T + Z at 4096 (0, -1) + 4095 (1, 1) is 12284, and 12 x 12284^4 is beyond 2^48
S("order-curve-refused-a", 1, [flip(1), replace(2, 4096, 4095)], [(2, 10)], ((0, -1), (1, 1)),
  "flip r, then s at (4096, 4095), which is 10")
S("order-curve-refused-b", 1, [replace(2, -4096, 4095), flip(1)], [(1, 10)], ((0, -1), (1, 1)),
  "s at (-4096, 4095) is 10, then flip r")
S("order-patch-refused-a", 2, [flip(3), replace(1, 0, 2, 3)], [(2, 9)], ((0, 0, 1), (1, 0, 1), (0, -1, -1)),
  "flip t, then r with weight 0, which is 9")
S("order-patch-refused-b", 2, [replace(1, 0, 2, -3), flip(3)], [(1, 9)], ((0, 0, 1), (1, 0, 1), (0, -1, -1)),
  "r with weight 0 is 9, then flip t")
S("order-rect-refused-a", 3, [flip(1), replace(4, 4097, 1)], [(2, 8)], ((0, -1), (1, 1), (0, 1), (1, 1)),
  "flip r1, then s2 with a weight outside, which is 8")
S("order-rect-refused-b", 3, [replace(4, 4097, 1), flip(1)], [(1, 8)], ((0, -1), (1, 1), (0, 1), (1, 1)),
  "s2 with a weight outside is 8, then flip r1")

group("a flip and a replace of the same vertex")
# 2 (0, 1) - 3 (1, 1) = (-3, -1)
both("order-curve-itself", 1, [flip(2), replace(2, 2, 3)], [replace(2, 2, -3)], ((0, 1), (-3, -1)),
     "flip s, then s at (2, 3); or s at (2, -3) alone")
# (0, 0, 1) - 2 (1, 0, 1) + 3 (0, 1, 1) = (-2, 3, 2)
both("order-patch-itself", 2, [flip(2), replace(2, 1, 2, 3)], [replace(2, 1, -2, 3)], ((0, 0, 1), (-2, 3, 2), (0, 1, 1)),
     "flip s, then s at (1, 2, 3); or s at (1, -2, 3) alone")
both("order-rect-itself", 3, [flip(4), replace(4, 2, 3)], [replace(4, 2, -3)], ((0, 1), (1, 1), (0, 1), (-3, -1)),
     "flip s2, then s2 at (2, 3); or s2 at (2, -3) alone")
S("order-curve-itself-refused-a", 1, [flip(2), replace(2, 4096, -4095)], [(2, 10)], ((0, 1), (-1, -1)),
  "flip s, then s at (4096, -4095), which is 10: the flipped net")
S("order-curve-itself-refused-b", 1, [replace(2, 4096, 4095)], [(1, 10)], USUAL[1], "s at (4096, 4095) alone is 10: the old net")
S("order-patch-itself-refused-a", 2, [flip(2), replace(2, 1, 0, 3)], [(2, 9)], ((0, 0, 1), (-1, 0, -1), (0, 1, 1)),
  "flip s, then s with weight 0, which is 9: the flipped net")
S("order-patch-itself-refused-b", 2, [replace(2, 1, 0, 3)], [(1, 9)], USUAL[2], "s with weight 0 alone is 9: the old net")
S("order-rect-itself-refused-a", 3, [flip(4), replace(4, 1, 4097)], [(2, 8)], ((0, 1), (1, 1), (0, 1), (-1, -1)),
  "flip s2, then s2 with a weight outside, which is 8: the flipped net")
S("order-rect-itself-refused-b", 3, [replace(4, 1, -4097)], [(1, 8)], USUAL[3], "s2 with a weight outside alone is 8: the old net")


def samples():
    return OUT
