"""The samples of the size rule's names, used by make_samples.py.

A replace and a point are refused 10 exactly when some polar value of m points taken from the frame and q, any
number of each, is beyond 2 to the 48th.  In a refused record below one such value is beyond and all others
are in range; in the record beside it that value is 2 to the 48th itself, or 2^32 less, and the call is taken.

How the numbers were found: on a curve of degree 3 with q = 2r + 2s, in units of which 2^48 has 262144, let
the entries rrr, rrs, rss, sss be a, b, c, d.  Then qrr = 2(a + b), qrs = 2(b + c), qss = 2(c + d), qqr =
2(qrr + qrs), qqs = 2(qrs + qss), qqq = 2(qqr + qqs).  With a = -262143, b = 131072, c = 13762, d = -144810:

    qrr -262142   qrs 289668   qss -262096   qqr 55052   qqs 55144   qqq 220392

so that q r s alone is beyond.  With c = -2 and d = -129000 it is 262140, with c = 0 and the same d 262144.
The nets of the triangular patches are a few small numbers, in units of which 2^48 has 2^20, 8 and 16; those
of degree 3 and 4 were found by the search of published/sizes.py.  In each record `only` names the value that
is beyond, and `most` the value that is the limit; both are held to all the named values, which are found here
by the rule for handed nets: a value with q in a place is the sum of those with a vertex there, times its
weight.  The calculator has no net: it works them out from the polynomials and the frame.
"""
import struct
from itertools import combinations_with_replacement as taken_of
from itertools import product
from math import factorial

from fields import REPL, f1, f2, f3, f4, f5

OUT = []
LIMIT = 2 ** 48
WORD = {1: "curve", 2: "patch", 3: "rect"}
GROUPS = {1: (("r", "s"),), 2: (("r", "s", "t"),), 3: (("r1", "s1"), ("r2", "s2"))}
UNITS = {1: ((0, 1), (1, 0)), 2: ((1, 0, 0), (0, 1, 0), (0, 0, 1)), 3: ((0, 1), (1, 0), (0, 1), (1, 0))}


# ------------------------------------------------------------------ nets and the values that a call names

def entries(kind, degrees):
    """The points of each entry, in the net's order."""
    return [sum(e, ()) for e in product(*(taken_of(g, m) for g, m in zip(GROUPS[kind], degrees)))]


def index(kind, points):
    if kind == 2:
        return tuple(points.count(v) for v in "rst")
    return tuple(points.count(v) for v in ("s", "s1", "s2") if any(v in g for g in GROUPS[kind]))


def value(net, points, qs):
    """The polar value of these points: the first q among them gives way to each vertex, times its weight."""
    for n, p in enumerate(points):
        if p in qs:
            parts = [(w, value(net, points[:n] + (v,) + points[n + 1:], qs)) for v, w in qs[p].items()]
            return tuple(sum(w * part[c] for w, part in parts) for c in range(4))
    return net[tuple(sorted(points))]


def named_by_replace(kind, degrees, own):
    return [sum(e, ()) for e in product(*(taken_of(("q",) + g if g == own else g, m)
                                          for g, m in zip(GROUPS[kind], degrees)))]


def named_by_point(kind, degrees):
    """q of a curve or triangular patch.  Of a rectangular patch q1 with the first pair, the second pair's
    points from its vertices; then q1 alone, and q2 with the second pair."""
    if kind < 3:
        return named_by_replace(kind, degrees, GROUPS[kind][0])
    (one, two), (p, q) = GROUPS[3], degrees
    first = product(taken_of(("q1",) + one, p), taken_of(two, q))
    second = product([("q1",) * p], taken_of(("q2",) + two, q))
    return [sum(e, ()) for e in [*first, *second]]


# --------------------------------------------------------------------------------------------- a record

def multinomial(points):
    out = factorial(len(points))
    for v in set(points):
        out //= factorial(points.count(v))
    return out


def made(kind, degrees, L, x, w):
    """Field 3 for the first net over the vertices of UNITS: its x and w, where they are not 0, by their
    points.  An entry is its coefficient times L, divided by its multinomial."""
    def coefficient(numbers, points):
        share = 1
        for g in GROUPS[kind]:
            share *= multinomial([p for p in points if p in g])
        number = numbers.get(" ".join(points), 0) * share
        assert number % L == 0
        return number // L
    # the record's order: the powers of T, or of U and V, rise; of U they are those of r, of V of s
    order = {2: ("r", "s")}.get(kind, ("s", "s1", "s2"))
    rows = sorted(entries(kind, degrees), key=lambda points: tuple(points.count(v) for v in order))
    return f3(*((coefficient(x, points), 0, 0, coefficient(w, points)) for points in rows))


def grown(kind, degrees, x, w, times):
    """The net after each vertex has been replaced by so many times itself."""
    net = {}
    for points in entries(kind, degrees):
        factor = 1
        for p in points:
            factor *= times.get(p, 1)
        name = " ".join(points)
        net[tuple(sorted(points))] = (x.get(name, 0) * factor, 0, 0, w.get(name, 0) * factor)
    return net


def lines(kind, degrees, net):
    return "".join(" ".join(map(str, index(kind, points) + net[tuple(sorted(points))])) + "\n"
                   for points in entries(kind, degrees))


def line_of(x, y, z, w):
    """The point's line.  y and z are 0 in all nets here."""
    if w == 0:
        return "far 1 0 0 %d\n" % abs(x)
    return "at %s %s %s\n" % (struct.pack(">d", x / w if x else 0.0).hex(), "0" * 16, "0" * 16)


def judged(net, names, qs, only, most):
    """Whether one value is beyond, after a look at all of them."""
    sizes = {" ".join(name): max(map(abs, value(net, name, qs))) for name in names}
    assert [name for name in sizes if sizes[name] > LIMIT] == [only][:only is not None], sizes
    assert most is None or sizes[most] == LIMIT, sizes
    return only is not None


class Net:
    """Kind, degrees, scale, x and w of the first net, and the multiples that moves bring the vertices to."""

    def __init__(self, kind, degrees, L, x, w, times, steps):
        self.kind, self.degrees, self.times = kind, degrees, times
        self.head = "%s %s %d\n" % (WORD[kind], " ".join(map(str, degrees)), L)
        frame = f2(*(n for v in UNITS[kind] for n in v))
        self.bytes = f1(kind, *degrees) + frame + made(kind, degrees, L, x, w)
        self.net = grown(kind, degrees, x, w, times)
        self.moves = []
        for vertex, seat, *parts in steps:
            for part in parts:
                weights = [0, 0, 0]
                weights[seat] = part
                self.moves.append((REPL, vertex, *weights))

    def frame(self):
        vertices = sum(GROUPS[self.kind], ())
        return [[n * self.times.get(v, 1) for n in u] for v, u in zip(vertices, UNITS[self.kind])]

    def replace(self, name, vertex, weights, comment, only=None, most=None):
        vertices = sum(GROUPS[self.kind], ())
        v = vertices[vertex - 1]
        own = next(g for g in GROUPS[self.kind] if v in g)
        qs = {"q": dict(zip(own, weights))}
        names = named_by_replace(self.kind, self.degrees, own)
        frame, net, refused = self.frame(), self.net, ""
        if judged(net, names, qs, only, most):
            refused = "move %d refused 10\n" % (len(self.moves) + 1)
        else:
            new = [frame[vertices.index(u)] for u in own]
            frame[vertex - 1] = [sum(w * u[n] for w, u in zip(weights, new)) for n in range(len(own))]
            # over the new frame each copy of the vertex is a copy of q
            net = {points: value(net, tuple("q" if p == v else p for p in points), qs) for points in net}
        move = (REPL, vertex, *weights, *[0] * (3 - len(weights)))
        self.put(name, comment, f4(*self.moves, move), refused, frame, net, "")

    def point(self, name, weights, comment, only=None, most=None):
        groups, qs, left = GROUPS[self.kind], {}, list(weights)
        for g, q in zip(groups, ("q",) if self.kind < 3 else ("q1", "q2")):
            qs[q], left = dict(zip(g, left)), left[len(g):]
        if judged(self.net, named_by_point(self.kind, self.degrees), qs, only, most):
            line = "point refused 10\n"
        else:
            line = line_of(*value(self.net, sum(((q,) * m for q, m in zip(qs, self.degrees)), ()), qs))
        self.put(name, comment, f4(*self.moves) + f5(*weights), "", self.frame(), self.net, line)

    def put(self, name, comment, fields, refused, frame, net, line):
        text = self.head + refused + "frame " + " ".join(str(n) for v in frame for n in v) + "\n"
        OUT.append((name, comment, self.bytes + fields, text + lines(self.kind, self.degrees, net) + line))


# ------------------------------------------------------------------------------------------ the samples

OUT.append((None, "Names of the size rule: one polar value of vertices and q is beyond, all others in range",
            None, None))
TAKEN, FOUND = "the same at 2 to the 48th exactly: taken", "the same at 2 to the 48th exactly: found"


def cubic(c, d):
    """The curve above: w = Z^3 + T^3, 1024 r and 1024 s in the places of r and s."""
    x = {"r r r": -262143, "r r s": 131072, "r s s": c, "s s s": d}
    return Net(1, (3,), 3, x, {"r r r": 3, "s s s": 3}, {"r": 1024, "s": 1024}, ((1, 0, 1024), (2, 1, 1024)))


BEYOND, WITHIN, EDGE = (13762, -144810), (-2, -129000), (0, -129000)
cubic(*BEYOND).replace("m10-mixed-cubic-refused", 1, (2, 2),
                       "degree 3, q = 2r + 2s: q r s is beyond, and no other value", only="q r s")
cubic(*WITHIN).replace("m10-mixed-cubic-taken", 1, (2, 2), "the same with q r s 2^32 below the limit: taken")
cubic(*EDGE).replace("m10-mixed-cubic-edge", 1, (2, 2), TAKEN, most="q r s")
cubic(*BEYOND).replace("m10-mixed-cubic-s-refused", 2, (2, 2), "the same q in the place of s", only="q r s")
cubic(*BEYOND).point("q10-mixed-cubic", (2, 2),
                     "a point at the same q: its value q q q is in range, q r s is beyond", only="q r s")
cubic(*EDGE).point("q10-mixed-cubic-edge", (2, 2), FOUND, most="q r s")


def first(c, d):
    """Degrees 3 and 1: the same numbers in x of the entries with s2; w is (Z1^3 + T1^3) Z2."""
    x = {"r1 r1 r1 s2": -262143, "r1 r1 s1 s2": 131072, "r1 s1 s1 s2": c, "s1 s1 s1 s2": d}
    return Net(3, (3, 1), 3, x, {"r1 r1 r1 r2": 3, "s1 s1 s1 r2": 3}, {"r1": 1024, "s1": 1024},
               ((1, 0, 1024), (2, 1, 1024)))


def second(c, d):
    """Degrees 1 and 3: the same in the second pair, with s1."""
    x = {"s1 r2 r2 r2": -262143, "s1 r2 r2 s2": 131072, "s1 r2 s2 s2": c, "s1 s2 s2 s2": d}
    return Net(3, (1, 3), 3, x, {"r1 r2 r2 r2": 3, "r1 s2 s2 s2": 3}, {"r2": 1024, "s2": 1024},
               ((3, 0, 1024), (4, 1, 1024)))


first(*BEYOND).replace("m10-mixed-rect-cubic-refused", 1, (2, 2),
                       "degrees 3 and 1, q = 2 r1 + 2 s1: q r1 s1, with s2, is beyond, and no other value",
                       only="q r1 s1 s2")
first(*EDGE).replace("m10-mixed-rect-cubic-edge", 1, (2, 2), TAKEN, most="q r1 s1 s2")
first(*BEYOND).point("q10-mixed-rect-cubic", (2, 2, 1, 1),
                     "a point's first stage: q1 r1 s1, with s2, alone is beyond", only="q1 r1 s1 s2")
first(*EDGE).point("q10-mixed-rect-cubic-edge", (2, 2, 1, 1), FOUND, most="q1 r1 s1 s2")
second(*BEYOND).replace("m10-mixed-rect-second-cubic-refused", 3, (2, 2),
                        "degrees 1 and 3, q = 2 r2 + 2 s2: q r2 s2, with s1, is beyond, and no other value",
                        only="s1 q r2 s2")
second(*EDGE).replace("m10-mixed-rect-second-cubic-edge", 3, (2, 2), TAKEN, most="s1 q r2 s2")
second(*BEYOND).point("q10-mixed-rect-second-cubic", (1, 1, 2, 2),
                      "a point's second stage: q2 r2 s2, with q1, alone is beyond", only="q1 q2 r2 s2")
second(*EDGE).point("q10-mixed-rect-second-cubic-edge", (1, 1, 2, 2), FOUND, most="q1 q2 r2 s2")


def quadratic(rr, rs):
    """Units of 2^28.  q = r + s: q r is rr + rs, q s is rs + ss, q q is rr + 2 rs + ss, with t all is 0."""
    return Net(2, (2,), 2, {"r r": rr, "r s": rs, "s s": -943718}, {"t t": 2}, {"r": 16384, "s": 16384},
               ((1, 0, 4096, 4), (2, 1, 4096, 4)))


LARGE, HALF = (629146, 629146), (524288, 524288)
quadratic(*LARGE).replace("m10-mixed-patch-refused", 1, (1, 1, 0),
                          "patch of degree 2, q = r + s: q with the old r is beyond, and no other value",
                          only="q r")
quadratic(*HALF).replace("m10-mixed-patch-edge", 1, (1, 1, 0), TAKEN, most="q r")
quadratic(*LARGE).point("q10-mixed-patch", (1, 1, 0),
                        "a point at the same q: its value q q is in range, q r is beyond", only="q r")
quadratic(*HALF).point("q10-mixed-patch-edge", (1, 1, 0), FOUND, most="q r")


def of_units(numbers, unit):
    return {points: number * unit for points, number in numbers.items()}


def cubic_patch(rrs):
    """Units of 2^45.  q = r + s + t: q r s is rrs + rss + rst = rrs + 4 + 0."""
    x = {"r r s": rrs, "r r t": -3, "r s s": 4, "r t t": -1, "s s t": -3}
    return Net(2, (3,), 6, of_units(x, 2 ** 15), {"t t t": 6}, {"r": 1024, "s": 1024, "t": 1024},
               ((1, 0, 1024), (2, 1, 1024), (3, 2, 1024)))


def quartic_patch(rrst):
    """Units of 2^44.  q = r + s + t: q r s t is rrst + rsst + rstt = rrst + 7 + 4."""
    x = {"r r r s": -3, "r r s s": -10, "r r s t": rrst, "r r t t": -8, "r s s s": -3, "r s s t": 7,
         "r s t t": 4, "s s s s": -3, "s s t t": -9}
    return Net(2, (4,), 12, of_units(x, 2 ** 16), {"t t t t": 12}, {"r": 128, "s": 128, "t": 128},
               ((1, 0, 128), (2, 1, 128), (3, 2, 128)))


def of_a_patch(degree, net, beyond, edge, points):
    for vertex, letter in ((1, "r"), (2, "s"), (3, "t")):
        name = "m10-mixed-patch-%s-%s" % (degree, letter)
        comment = "patch of degree %s, %s at (1, 1, 1): %s alone is beyond" % (degree, letter, points)
        net(beyond).replace(name + "-refused", vertex, (1, 1, 1), comment, only=points)
        net(edge).replace(name + "-edge", vertex, (1, 1, 1), TAKEN, most=points)
    name, comment = "q10-mixed-patch-" + degree, "a point at the same q: %s alone is beyond" % points
    net(beyond).point(name, (1, 1, 1), comment, only=points)
    net(edge).point(name + "-edge", (1, 1, 1), FOUND, most=points)


of_a_patch("3", cubic_patch, 5, 4, "q r s")
of_a_patch("4", quartic_patch, 6, 5, "q r s t")


def samples():
    return OUT
