"""The samples of request E5, the net knows its frame, used by make_samples.py.

Here a text has its line `frame` from the start: typed, or worked out beside it.  2 to the 48th
is 281474976710656; four replaces of a vertex by 4096 times itself multiply its numbers by it.
"""
import math

import frames
from fields import FLP, REPL, f1, f2, f3, f4, f5

OUT = []
M = 1048576                      # the largest coefficient, 2^20
FULL = 281474976710656           # 2^48, the largest number of a frame
GROUPS = {1: ((0, 1),), 2: ((0, 1, 2),), 3: ((0, 1), (2, 3))}          # places of the vertices
VERTICES = {1: ("r", "s"), 2: ("r", "s", "t"), 3: ("r1", "s1", "r2", "s2")}
WORDS = {1: "curve", 2: "patch", 3: "rect"}


def group(title):
    OUT.append((None, "The frame: " + title, None, None))


def S(name, rec, text, comment):
    OUT.append((name, comment, rec, text))


def own(vertex, weight, kind=1):
    """A replace of the vertex by a multiple of itself; vertices are counted from 1."""
    seat = (vertex - 1) % 2 if kind == 3 else vertex - 1
    weights = [0, 0, 0]
    weights[seat] = weight
    return (REPL, vertex, *weights)


def grow(vertex, kind=1, sign=1):
    """The vertex 2^48 times as large, or -2^48 times, in four replaces."""
    return [own(vertex, 4096, kind)] * 3 + [own(vertex, 4096 * sign, kind)]


def flip(vertex):
    return (FLP, vertex, 0, 0, 0)


# ------------------------------------------------------------------------------ nets of zeros

def zero(kind, *degrees):
    """(field 1, field 3, first line, entries) of polynomials that are all 0."""
    scales = {(1, 1): 1, (1, 10): 2520, (2, 1): 1, (2, 8): 1680, (3, 1, 1): 1, (3, 5, 5): 100}
    if kind == 1:
        indices = ["%d" % j for j in range(degrees[0] + 1)]
    elif kind == 2:
        m = degrees[0]
        indices = ["%d %d %d" % (i, j, m - i - j) for i in range(m, -1, -1) for j in range(m - i, -1, -1)]
    else:
        indices = ["%d %d" % (i, j) for i in range(degrees[0] + 1) for j in range(degrees[1] + 1)]
    head = " ".join([WORDS[kind]] + [str(m) for m in degrees] + [str(scales[(kind,) + degrees])]) + "\n"
    return (f1(kind, *degrees), f3(*[(0, 0, 0, 0)] * len(indices)), head,
            "".join(i + " 0 0 0 0\n" for i in indices))


LINEAR = {1: zero(1, 1), 2: zero(2, 1), 3: zero(3, 1, 1)}
USUAL = {1: (0, 1, 1, 1), 2: (0, 0, 1, 1, 0, 1, 0, 1, 1), 3: (0, 1, 1, 1, 0, 1, 1, 1)}


def on_zeros(name, kind, moves, lines, comment, numbers=None, shape=None):
    """Moves on a net of zeros, of degree 1 and over the usual frame if nothing else is said."""
    first, coefficients, head, entries = shape or LINEAR[kind]
    S(name, first + f2(*(numbers or USUAL[kind])) + coefficients + f4(*moves), head + lines + entries, comment)


# ------------------------------------------------------------------------------
group("reached by moves, true after each, and left by what is refused")
CIRCLE = f1(1, 2) + f2(0, 1, 1, 1) + f3((1, 0, 0, 1), (0, 2, 0, 0), (-1, 0, 0, 1))
S("frame-first", CIRCLE + f5(1, 1),
  "curve 2 2\nframe 0 1 1 1\n0 2 0 0 2\n1 2 2 0 2\n2 0 4 0 4\n"
  "at 3fe3333333333333 3fe999999999999a 0000000000000000\n",
  "the circle of document 01 with the request's own line: the record's frame")
# q = 2 (0, 1) + 3 (1, 1) = (3, 5)
S("frame-curve-replace-r", CIRCLE + f4((REPL, 1, 2, 3, 0)),
  "curve 2 2\nframe 3 5 1 1\n0 32 60 0 68\n1 4 16 0 16\n2 0 4 0 4\n", "replace r at (2, 3): q in r's place")
S("frame-curve-replace-s", CIRCLE + f4((REPL, 2, 2, 3, 0)),
  "curve 2 2\nframe 0 1 3 5\n0 2 0 0 2\n1 10 6 0 10\n2 32 60 0 68\n", "replace s at (2, 3): q in s's place")
S("frame-curve-flip-r", CIRCLE + f4(flip(1)),
  "curve 2 2\nframe 0 -1 1 1\n0 2 0 0 2\n1 -2 -2 0 -2\n2 0 4 0 4\n", "flip r: its numbers change sign, and 0 has none")
S("frame-curve-flip-both", CIRCLE + f4(flip(1), flip(2)),
  "curve 2 2\nframe 0 -1 -1 -1\n0 2 0 0 2\n1 2 2 0 2\n2 0 4 0 4\n",
  "both flipped: the entries of degree 2 are the first ones, the frame is not")
# s = (1, 2), r = (0, -1), r = 2 (0, -1) + (1, 2) = (1, 0), s = -3 (1, 0) + 2 (1, 2) = (-1, 4)
S("frame-curve-several", CIRCLE + f4((REPL, 2, 1, 1, 0), flip(1), (REPL, 1, 2, 1, 0), (REPL, 2, -3, 2, 0)) + f5(1, 1),
  "curve 2 2\nframe 1 0 -1 4\n0 -2 0 0 2\n1 2 8 0 -2\n2 30 -16 0 34\n"
  "at 3ff0000000000000 0000000000000000 0000000000000000\n",
  "four moves, each from the frame that the last one reached; the point (1, 1) is at q = (0, 4)")
S("frame-refused-stays", CIRCLE + f4((REPL, 1, 1, 4097, 0), (REPL, 2, 1, 0, 0), (FLP, 1, 1, 0, 0), (3, 1, 0, 0, 0)),
  "curve 2 2\nmove 1 refused 8\nmove 2 refused 9\nmove 3 refused 8\nmove 4 refused 8\n"
  "frame 0 1 1 1\n0 2 0 0 2\n1 2 2 0 2\n2 0 4 0 4\n", "four refused moves leave the frame; their lines come before it")
# B8: t = r + s + t = (1, 1, 3), s = (0, -1, -1), r = 2 (1, 0, 1) + (0, -1, -1) - (1, 1, 3) = (1, -2, -2)
S("frame-patch-several", f1(2, 2) + f2(1, 0, 1, 0, 1, 1, 0, 0, 1)
  + f3((0, 0, 0, 1), (0, 1, 0, 0), (0, 0, 0, 0), (1, 0, 0, 0), (0, 0, 1, 0), (0, 0, 0, 0))
  + f4((REPL, 3, 1, 1, 1), flip(2), (REPL, 1, 2, 1, -1)),
  "patch 2 2\nframe 1 -2 -2 0 -1 -1 1 1 3\n2 0 0 -4 8 -4 8\n1 1 0 -1 4 -1 4\n1 0 1 1 -8 -1 -12\n"
  "0 2 0 0 2 0 2\n0 1 1 -1 -4 -1 -6\n0 0 2 6 6 2 18\n", "B8: a replace of t, a flip of s, a replace of r")
# x, y, z, w are T1 T2, T1 Z2, Z1 T2, Z1 Z2.  s2 = (1, 2), r1 = (0, -1), r2 = 2 (0, 1) - (1, 2) = (-1, 0),
# s1 = -(0, -1) + 3 (1, 1) = (3, 4)
S("frame-rect-several", f1(3, 1, 1) + f2(0, 1, 1, 1, 0, 1, 1, 1) + f3((0, 0, 0, 1), (0, 0, 1, 0), (0, 1, 0, 0), (1, 0, 0, 0))
  + f4((REPL, 4, 1, 1, 0), flip(1), (REPL, 3, 2, -1, 0), (REPL, 2, -1, 3, 0)),
  "rect 1 1 1\nframe 0 -1 3 4 -1 0 1 2\n0 0 0 0 1 0\n0 1 0 0 -1 -2\n1 0 -3 0 -4 0\n1 1 3 6 4 8\n",
  "each vertex of both pairs moved once, by its own pair's weights")
# x = T, y = Z: an entry is its vertex.  r and s are added up in turn: Fibonacci's numbers 31 to 33
S("frame-fibonacci", f1(1, 1) + f2(1, 0, 0, 1) + f3((0, 1, 0, 0), (1, 0, 0, 0))
  + f4(*[(REPL, 1, 1, 1, 0), (REPL, 2, 1, 1, 0)] * 16),
  "curve 1 1\nframe 1346269 2178309 2178309 3524578\n0 1346269 2178309 0 0\n1 2178309 3524578 0 0\n",
  "32 replaces at (1, 1), r and s in turn; x = T and y = Z, so that each entry is its vertex")

# ------------------------------------------------------------------------------
group("2 to the 48th is taken, one more is 12; each vertex replaced, each number of q, both signs; all polynomials 0")


def unit(size, place):
    return tuple(int(n == place % size) for n in range(size))


def one_beyond(kind, vertex, place, sign):
    """The vertex is 1 1 (1) and the next of its group is the unit of this place, times 2^48 or -2^48: it
    is taken.  Then q is that one and the vertex, once each, with 2^48 + 1 or -2^48 - 1 in this place."""
    places = next(g for g in GROUPS[kind] if vertex in g)
    big = places[(places.index(vertex) + 1) % len(places)]
    size = len(places)
    frame = [unit(size, k) for k in range(len(VERTICES[kind]))]
    frame[vertex] = (1,) * size
    frame[big] = unit(size, place)
    if kind == 2:                # the third one, in another direction
        third = next(k for k in places if k not in (vertex, big))
        frame[third] = unit(size, place + 1)
    weights = [0, 0, 0]
    weights[places.index(big)], weights[places.index(vertex)] = 1, sign
    moves = grow(big + 1, kind, sign) + [(REPL, vertex + 1, *weights)]
    numbers = [n for v in frame for n in v]
    frame[big] = tuple(sign * FULL * n for n in frame[big])
    letter = ("U", "V", "Z")[place] if kind == 2 else ("T", "Z")[place]
    name, other = VERTICES[kind][vertex], VERTICES[kind][big]
    on_zeros("m12-%s-%s-%s%s" % (WORDS[kind], name, letter.lower(), "" if sign > 0 else "-negative"), kind, moves,
             "move 5 refused 12\nframe %s\n" % " ".join(str(n) for v in frame for n in v),
             "%s of %s becomes %s2^48 and is taken; then replace %s by %s %s %s: %s of q is %s"
             % (letter, other, "" if sign > 0 else "-", name, other, "+" if sign > 0 else "-", name, letter,
                "2^48 + 1" if sign > 0 else "-2^48 - 1"), numbers)


for kind in (1, 2, 3):
    for vertex in range(len(VERTICES[kind])):
        for place in range(3 if kind == 2 else 2):
            for sign in (1, -1):
                one_beyond(kind, vertex, place, sign)

# ------------------------------------------------------------------------------
group("at its limit, by hand; all polynomials 0")
on_zeros("m12-less", 1, grow(1) + [(REPL, 2, 1, -1, 0)],
         "frame 0 281474976710656 -1 281474976710655\n", "r - s: 2^48 - 1 is taken")
on_zeros("m12-sum", 1, grow(1) + [(REPL, 2, 1, -1, 0), (REPL, 1, 1, -1, 0), (REPL, 2, 1, 1, 0), (REPL, 2, 1, 1, 0)],
         "move 8 refused 12\nframe 1 1 0 281474976710656\n",
         "s is 2^48 - 1 and r comes back to 1 1: r + s is 2^48 and taken, once more it is 2^48 + 1")
on_zeros("m12-sum-negative", 1,
         grow(1, 1, -1) + [(REPL, 2, 1, 1, 0), (REPL, 1, 1, -1, 0), (REPL, 2, 1, 1, 0), (REPL, 2, 1, 1, 0)],
         "move 8 refused 12\nframe -1 -1 0 -281474976710656\n", "the same with the other sign")
on_zeros("m12-own-curve", 1, grow(2) + [own(2, 2), own(2, -1)],
         "move 5 refused 12\nframe 0 1 -281474976710656 -281474976710656\n",
         "2 s is beyond by both numbers; -s is taken, minus 2^48 twice")
on_zeros("m12-own-patch", 2, grow(3, 2) + [own(3, -2, 2), own(3, -1, 2)],
         "move 5 refused 12\nframe 0 0 1 1 0 1 0 -281474976710656 -281474976710656\n",
         "patch, -2 t is beyond; -t is taken")
on_zeros("m12-own-rect", 3, grow(4, 3) + [own(4, 2, 3), own(4, -1, 3)],
         "move 5 refused 12\nframe 0 1 1 1 0 1 -281474976710656 -281474976710656\n",
         "rectangular patch, 2 s2 is beyond; -s2 is taken")
on_zeros("m12-then-next", 1, grow(1) + [(REPL, 2, 1, 1, 0), flip(2), (REPL, 2, 1, 1, 0)],
         "move 5 refused 12\nframe 0 281474976710656 -1 281474976710655\n",
         "after 12 the frame is as it was and the next is tried: s flipped, and then r + s is taken")
on_zeros("m12-28-times", 2, grow(1, 2) + [(REPL, 2, 4096, 1, 0)] * 28,
         "".join("move %d refused 12\n" % k for k in range(5, 33))
         + "frame 0 0 281474976710656 1 0 1 0 1 1\n", "patch, the same move refused 28 times")
on_zeros("m12-largest", 2, [own(v, w, 2) for v in (1, 2, 3) for w in (4096, 4096, 4096, 1024)]
         + [(REPL, 1, 4096, 4096, 4096), (REPL, 2, -4096, -4096, -4096), (REPL, 1, 1, -1, 0)],
         "move 13 refused 12\nmove 14 refused 12\nframe 0 0 -70368744177664 -281474976710656 -281474976710656"
         " -211106232532992 -281474976710656 -211106232532992 -281474976710656\n",
         "U of q is -12288 times 2^48, the largest that it can be, and then the other sign: 12; r - s is taken",
         (-4, -4, -4, -4, -4, -3, -4, -3, -4))
on_zeros("m12-rect-own-pair", 3, grow(1, 3) + [(REPL, 4, 1, 1, 0), (REPL, 2, 1, 1, 0), (REPL, 3, 1, 1, 0)],
         "move 6 refused 12\nframe 0 281474976710656 1 1 1 3 1 2\n",
         "r1 at 2^48: replaces in the second pair at (1, 1) are taken, in the first one it is 12")
on_zeros("m12-rect-own-pair-second", 3, grow(3, 3) + [(REPL, 2, 1, 1, 0), (REPL, 4, 1, 1, 0), (REPL, 1, 1, 1, 0)],
         "move 6 refused 12\nframe 1 3 1 2 0 281474976710656 1 1\n", "the same with the pairs exchanged")
for kind, degrees in ((1, (10,)), (2, (8,)), (3, (5, 5))):
    on_zeros("m12-%s-%s" % (WORDS[kind], "-".join(str(m) for m in degrees)), kind,
             grow(1, kind) + [(REPL, 2, 1, 1, 0)],
             "move 5 refused 12\nframe %s\n" % {
                 1: "0 281474976710656 1 1", 2: "0 0 281474976710656 1 0 1 0 1 1",
                 3: "0 281474976710656 1 1 0 1 1 1"}[kind],
             "the largest degree: the frame is tested as at any other", shape=zero(kind, *degrees))
on_zeros("frame-flip-edge-curve", 1, grow(2) + [flip(2)],
         "frame 0 1 -281474976710656 -281474976710656\n", "a flip at 2^48 is taken: both numbers are minus 2^48")
on_zeros("frame-flip-edge-patch", 2, grow(1, 2) + grow(3, 2, -1) + [flip(1), flip(3), flip(2)],
         "frame 0 0 -281474976710656 -1 0 -1 0 281474976710656 281474976710656\n",
         "patch, flips at 2^48 and at minus 2^48 are taken")
on_zeros("frame-flip-edge-rect", 3, grow(2, 3) + grow(3, 3, -1) + [flip(2), flip(3)],
         "frame 0 1 -281474976710656 -281474976710656 0 281474976710656 1 1\n",
         "rectangular patch, flips at 2^48 in the first pair and at minus 2^48 in the second")
# nine numbers of 16 bytes: -4 and -3 times 2^46
on_zeros("frame-longest-line", 2, [own(v, w, 2) for v in (1, 2, 3) for w in (4096, 4096, 4096, 1024)],
         "frame" + " -281474976710656" * 5 + " -211106232532992 -281474976710656 -211106232532992 -281474976710656\n",
         "the longest line of a frame, 159 bytes: nine numbers of 16", (-4, -4, -4, -4, -4, -3, -4, -3, -4))

# ------------------------------------------------------------------------------
group("past 2 to the 48th under entries that stay small")
S("m12-vanishing-curve", f1(1, 3) + f2(0, 1, 1, 1) + f3((0, 0, 0, 0), (0, 0, 0, 0), (0, 0, 0, 0), (1, 0, 0, 0))
  + f4(*grow(1), (REPL, 2, 1, 1, 0), (REPL, 2, -1, -1, 0)),
  "curve 3 3\nmove 5 refused 12\nmove 6 refused 12\nframe 0 281474976710656 1 1\n"
  "0 0 0 0 0\n1 0 0 0 0\n2 0 0 0 0\n3 3 0 0 0\n",
  "x = T^3 does not see r = (0, 1): q = r + s has the values of s, and its Z is 2^48 + 1")
S("m12-vanishing-patch", f1(2, 2) + f2(0, 0, 1, 1, 0, 1, 0, 1, 1) + f3(*[(0, 0, 0, 0)] * 5, (1, 0, 0, 0))
  + f4(*grow(1, 2), (REPL, 3, 1, 0, 1), (REPL, 3, -1, 1, 1)),
  "patch 2 2\nmove 5 refused 12\nframe 0 0 281474976710656 1 0 1 1 1 -281474976710654\n"
  "2 0 0 0 0 0 0\n1 1 0 0 0 0 0\n1 0 1 0 0 0 0\n0 2 0 2 0 0 0\n0 1 1 2 0 0 0\n0 0 2 2 0 0 0\n",
  "x = U^2 does not see r = (0, 0, 1): t + r is 12, s + t - r is taken")
S("m12-vanishing-rect", f1(3, 1, 2) + f2(0, 1, 1, 1, 0, 1, 1, 1) + f3(*[(0, 0, 0, 0)] * 5, (1, 0, 0, 0))
  + f4(*grow(1, 3), *grow(3, 3), (REPL, 2, 1, 1, 0), (REPL, 4, 1, 1, 0)),
  "rect 1 2 2\nmove 9 refused 12\nmove 10 refused 12\nframe 0 281474976710656 1 1 0 281474976710656 1 1\n"
  "0 0 0 0 0 0\n0 1 0 0 0 0\n0 2 0 0 0 0\n1 0 0 0 0 0\n1 1 0 0 0 0\n1 2 2 0 0 0\n",
  "x = T1 T2^2 sees neither r1 nor r2, both at 2^48: 12 in both pairs")

# ------------------------------------------------------------------------------
group("12 after 8 and 9 and before the size")
# x = 2^20 T over r = (0, 1), s = (1, 0).  r becomes (0, 2^48) and s (2^24, 0), where x is 2^44.  Then
# 17 s has too large a value, and 2 r too large a number.
STEEP = {
    1: (f1(1, 1) + f2(0, 1, 1, 0) + f3((0, 0, 0, 0), (M, 0, 0, 0)), grow(1) + [own(2, 4096)] * 2, 2, "curve 1 1\n",
        "frame 0 281474976710656 16777216 0\n0 0 0 0 0\n1 17592186044416 0 0 0\n"),
    2: (f1(2, 1) + f2(0, 0, 1, 1, 0, 0, 0, 1, 0) + f3((0, 0, 0, 0), (0, 0, 0, 0), (M, 0, 0, 0)),
        grow(1, 2) + [own(2, 4096, 2)] * 2, 3, "patch 1 1\n",
        "frame 0 0 281474976710656 16777216 0 0 0 1 0\n1 0 0 0 0 0 0\n0 1 0 17592186044416 0 0 0\n0 0 1 0 0 0 0\n"),
    3: (f1(3, 1, 1) + f2(0, 1, 1, 0, 0, 1, 1, 0) + f3(*[(0, 0, 0, 0)] * 3, (M, 0, 0, 0)),
        grow(3, 3) + [own(4, 4096, 3)] * 2, 4, "rect 1 1 1\n",
        "frame 0 1 1 0 0 281474976710656 16777216 0\n0 0 0 0 0 0\n0 1 0 0 0 0\n1 0 0 0 0 0\n1 1 17592186044416 0 0 0\n")}


def steep(name, kind, weights, number, comment):
    """A replace of s, t or s2 after those growths."""
    record, before, vertex, head, rest = STEEP[kind]
    S("%s-%s" % (name, WORDS[kind]), record + f4(*before, (REPL, vertex, *weights)),
      head + "move 7 refused %d\n" % number + rest, comment)


for kind, last in ((1, 0), (2, 1), (3, 0)):
    steep("m10-frame-at-edge", kind, (1, 17, last), 10, "a number of q is 2^48 and in range, a value is 17 times 2^44: 10")
    steep("m12-value-at-edge", kind, (2, 16, last), 12, "the value is 2^48 and in range, a number of q is 2^49: 12")
    steep("m12-before-10", kind, (2, 17, last), 12, "a number of q is 2^49 and a value 17 times 2^44: 12 before 10")
    steep("m9-before-12", kind, (2, 0, 0) if kind != 2 else (2, 17, 0), 9,
          "the replaced vertex has weight 0 and q is beyond: 9 before 12")
    steep("m8-before-12", kind, (2, 4097, last), 8, "a weight outside and q beyond: 8 before 12")
S("m12-before-10-first-pair", f1(3, 1, 1) + f2(0, 1, 1, 0, 0, 1, 1, 0) + f3(*[(0, 0, 0, 0)] * 3, (M, 0, 0, 0))
  + f4(*grow(1, 3), *[own(2, 4096, 3)] * 2, (REPL, 2, 2, 17, 0), (REPL, 2, 1, 17, 0), (REPL, 2, 1, 16, 0)),
  "rect 1 1 1\nmove 7 refused 12\nmove 8 refused 10\nframe 0 281474976710656 268435456 281474976710656 0 1 1 0\n"
  "0 0 0 0 0 0\n0 1 0 0 0 0\n1 0 0 0 0 0\n1 1 281474976710656 0 0 0\n",
  "the first pair: 12 with both, 10 with the value alone, then both at 2^48 and taken")
S("m12-third-weight", STEEP[1][0] + f4(*STEEP[1][1], (REPL, 2, 2, 16, 1)),
  "curve 1 1\nmove 7 refused 8\n" + STEEP[1][4], "a curve's third weight not 0 and q beyond: 8")
S("m12-among-others", STEEP[1][0]
  + f4(*STEEP[1][1], (9, 9, 9, 9, 9), (REPL, 2, 2, 0, 0), (REPL, 2, 1, 17, 0), (REPL, 2, 2, 16, 0), (REPL, 2, 1, 16, 0)),
  "curve 1 1\nmove 7 refused 8\nmove 8 refused 9\nmove 9 refused 10\nmove 10 refused 12\n"
  "frame 0 281474976710656 268435456 281474976710656\n0 0 0 0 0\n1 281474976710656 0 0 0\n",
  "8, 9, 10 and 12 one after the other leave the frame; then frame and value at 2^48 are taken")
# x = T, y = Z: an entry is its vertex
S("m12-before-10-by-one", f1(1, 1) + f2(0, 1, 1, 1) + f3((0, 1, 0, 0), (1, 0, 0, 0)) + f4(*grow(1), (REPL, 2, 1, 1, 0)),
  "curve 1 1\nmove 5 refused 12\nframe 0 281474976710656 1 1\n0 0 281474976710656 0 0\n1 1 1 0 0\n",
  "x = T, y = Z: frame and entry are 2^48 and taken; then both would be 2^48 + 1, and it is 12")

# ------------------------------------------------------------------------------
group("a point's q is not tested")


def beyond(name, record, moves, weights, head, rest, comment):
    """The last move has the point's q and is 12; the point is found: x is 2, w is 1."""
    S(name, record + f4(*moves) + f5(*weights), head + "move 5 refused 12\n" + rest
      + "at 4000000000000000 0000000000000000 0000000000000000\n", comment)


beyond("q-beyond-curve", f1(1, 1) + f2(0, 1, 1, 1) + f3((0, 0, 0, 0), (2, 0, 0, 1)),
       grow(1) + [(REPL, 2, 4096, 1, 0)], (4096, 1), "curve 1 1\n", "frame 0 281474976710656 1 1\n0 0 0 0 0\n1 2 0 0 1\n",
       "x = 2T, w = T: Z of q is 2^60 + 1, the values are small: a replace is 12, the point is found")
beyond("q-beyond-patch", f1(2, 1) + f2(0, 0, 1, 1, 0, 1, 0, 1, 1) + f3((0, 0, 0, 0), (0, 0, 0, 0), (2, 0, 0, 1)),
       grow(1, 2) + [(REPL, 3, 4096, 1, 1)], (4096, 1, 1), "patch 1 1\n",
       "frame 0 0 281474976710656 1 0 1 0 1 1\n1 0 0 0 0 0 0\n0 1 0 2 0 0 1\n0 0 1 0 0 0 0\n", "the same of a patch, x = 2U, w = U")
TWO = f1(3, 1, 1) + f2(0, 1, 1, 1, 0, 1, 1, 1) + f3(*[(0, 0, 0, 0)] * 3, (2, 0, 0, 1))
TWOS = "0 0 0 0 0 0\n0 1 0 0 0 0\n1 0 0 0 0 0\n1 1 2 0 0 1\n"
beyond("q-beyond-rect-first", TWO, grow(1, 3) + [(REPL, 2, -4096, 1, 0)], (-4096, 1, 0, 1), "rect 1 1 1\n",
       "frame 0 281474976710656 1 1 0 1 1 1\n" + TWOS, "x = 2 T1 T2, w = T1 T2: q1 is beyond, minus 2^60")
beyond("q-beyond-rect-second", TWO, grow(3, 3) + [(REPL, 4, 4096, 1, 0)], (0, 1, 4096, 1), "rect 1 1 1\n",
       "frame 0 1 1 1 0 281474976710656 1 1\n" + TWOS, "the same: q2 is beyond")
S("q-beyond-nowhere", LINEAR[1][0] + f2(0, 1, 1, 1) + LINEAR[1][1] + f4(*grow(1), *grow(2)) + f5(4096, 4096),
  "curve 1 1\nframe 0 281474976710656 281474976710656 281474976710656\n0 0 0 0 0\n1 0 0 0 0\nnowhere\n",
  "all polynomials 0: q is (2^60, 2^61)")
S("q-beyond-10", STEEP[1][0] + f4(*STEEP[1][1]) + f5(2, 17), STEEP[1][3] + STEEP[1][4] + "point refused 10\n",
  "q is beyond and so is the value: 10, a point has no other refusal")

# ------------------------------------------------------------------------------
group("the longest text of all samples")
# All four polynomials are -1675 (U + V + Z)^8, and U + V + Z is 10 at each vertex: every entry is -1675 L 10^8.
# The weights of the moves add up to 1, so that it stays 10.
TRINOMIALS = [math.comb(8, h) * math.comb(8 - h, l) for h in range(9) for l in range(9 - h)]
GROWN = [(REPL, 1, 4096, -2048, -2047), (REPL, 2, 4096, -4095, 0), (REPL, 3, 0, 4096, -4095), (REPL, 1, 1801, 0, -1800),
         (REPL, 2, 1, 1, -1), (REPL, 3, 0, -1, 2)]
LINE = frames.line(2, ((4, 4, 2), (4, 2, 4), (2, 4, 4)), GROWN)
LONGEST = ("patch 8 1680\n" + "".join("move %d refused 12\n" % k for k in range(7, 33)) + LINE
           + "".join("%d %d %d%s\n" % (i, j, 8 - i - j, " -281400000000000" * 4)
                     for i in range(8, -1, -1) for j in range(8 - i, -1, -1))
           + "at 3ff0000000000000 3ff0000000000000 3ff0000000000000\n")
S("frame-longest-text", f1(2, 8) + f2(4, 4, 2, 4, 2, 4, 2, 4, 4) + f3(*((-1675 * n,) * 4 for n in TRINOMIALS))
  + f4(*GROWN, *[own(1, 4096, 2)] * 26) + f5(1, 0, 0), LONGEST,
  "a text of %d bytes: 26 moves refused 12, a frame of %d, 180 numbers of 16, a point" % (len(LONGEST), len(LINE)))


def samples():
    return OUT
