"""The samples of request E7, curves through a common zero, used by make_samples.py.

A curve is written as a product: linear forms that all four polynomials have in common, times four
polynomials.  Where q is a root of d of the forms, what is left at q is the product of the other forms and of
the four polynomials there.  So nothing is divided here and no polar value is taken.  Entry j, times the
binomial of m over j, is the scale times the coefficient of a^(m-j) b^j in F(a r + b s), which is multiplied
out.  Which moves and points are refused, and with which number, is typed.

A polynomial is a list of its coefficients at T^k Z^(n-k), k rising; a form (a, b) is a T + b Z.
"""
import struct
from math import comb, gcd

import frames
from fields import FLP, REPL, f1, f2, f3, f4, f5

OUT = []
SCALES = (1, 2, 3, 12, 10, 60, 105, 280, 252, 2520)
USUAL = ((0, 1), (1, 1))
UNITS = ((0, 1), (1, 0))


def group(title):
    OUT.append((None, "Common zeros: " + title, None, None))


# ------------------------------------------------------------------------------------------- a curve

def times(f, form):
    a, b = form
    return [a * x + b * y for x, y in zip([0] + f, f + [0])]


def value(f, q):
    return sum(x * q[0] ** k * q[1] ** (len(f) - 1 - k) for k, x in enumerate(f))


def over(f, r, s):
    """The coefficients at a^(m-j) b^j of f at a r + b s, j rising: each T and each Z is a form in b and a."""
    m, out = len(f) - 1, [0] * len(f)
    for k, x in enumerate(f):
        product = [x]
        for number in [0] * k + [1] * (m - k):
            product = times(product, (s[number], r[number]))
        out = [x + y for x, y in zip(out, product)]
    return out


class Curve:
    """All four polynomials are the product of the forms times one of the four."""

    def __init__(self, forms, *four):
        self.forms, self.four = forms, four
        self.degree = len(forms) + len(four[0]) - 1
        self.scale = SCALES[self.degree - 1]

    def polynomials(self):
        out = []
        for f in self.four:
            for form in self.forms:
                f = times(f, form)
            out.append(f)
        return out

    def entries(self, frame):
        rows = zip(*(over(f, *frame) for f in self.polynomials()))
        lines = []
        for j, row in enumerate(rows):
            numbers = [x * self.scale for x in row]
            assert all(x % comb(self.degree, j) == 0 for x in numbers)
            lines.append(" ".join(str(x) for x in [j] + [x // comb(self.degree, j) for x in numbers]) + "\n")
        return "".join(lines)

    def order(self, q):
        return sum(value(list(form[::-1]), q) == 0 for form in self.forms)

    def line(self, q):
        """The point's line: the values at q of what is left there, of L F where q is no zero."""
        product = 1
        for form in self.forms:
            product *= value(list(form[::-1]), q) or 1
        x, y, z, w = [product * value(f, q) for f in self.four]
        assert any((x, y, z, w)) or not any(map(any, self.four)), "a root of what is left"
        if w:
            return "at " + " ".join(struct.pack(">d", n / w if n else 0.0).hex() for n in (x, y, z)) + "\n"
        if not any((x, y, z)):
            return "nowhere\n"
        g = gcd(x, y, z)
        sign = 1 if next(n for n in (x, y, z) if n) > 0 else -1
        length = 1 if self.order(q) else g * self.scale
        return "far %d %d %d %d\n" % (*(sign * n // g for n in (x, y, z)), length)


def sample(name, curve, frame, weights, order, comment, moves=(), refused=None, point=None):
    """order: of the zero that q is; refused: the number of a move, counted from 1 -> that of its refusal;
    point: that of the point's."""
    refused = refused or {}
    record = f1(1, curve.degree) + f2(*(n for v in frame for n in v)) + f3(*zip(*curve.polynomials()))
    record += (f4(*moves) if moves else b"") + f5(*weights)
    text = "curve %d %d\n" % (curve.degree, curve.scale)
    for k, move in enumerate(moves, 1):
        if k in refused:
            text += "move %d refused %d\n" % (k, refused[k])
        else:
            frame = frames.after(1, frame, move)
    text += frames.line(1, frame, ()) + curve.entries(frame)
    q = tuple(sum(w * v[n] for w, v in zip(weights, frame)) for n in range(2))
    assert curve.order(q) == order, name
    text += "point refused %d\n" % point if point else curve.line(q)
    OUT.append((name, comment, record, text))


# ------------------------------------------------------------------- every order at every degree

# frame and weights of q, and what they name; q is a multiple of small numbers, so that powers of the form
# that vanishes there have coefficients within the limits
PLACES = (
    (USUAL, (1, 0), "at r, q's weight of s 0"),
    (USUAL, (0, 1), "at s"),
    (USUAL, (1, 1), "between the vertices"),
    (USUAL, (2, -1), "outside the segment"),
    (((1, 0), (0, 1)), (-2, 0), "at r, weights -2 and 0"),
    (((1, 0), (0, 1)), (0, -3), "at s, weights 0 and -3"),
    (((1, 0), (0, 1)), (2, 1), "between the vertices, weights 2 and 1"),
    (((2, 1), (1, -1)), (1, -1), "outside the segment, weights 1 and -1"),
    (((1, 2), (-1, 1)), (-1, -1), "between the vertices, both weights negative"),
    (((1, -1), (1, 1)), (4, 0), "at r, weights 4 and 0"),
    (((2, 1), (1, 2)), (0, 1), "at s"),
    (((1, 2), (-1, 1)), (1, -2), "outside the segment, weights 1 and -2"),
    (((-1, 1), (0, 2)), (-3, 1), "outside the segment, weights -3 and 1"),
)


def form_through(q):
    """The form of least whole numbers that vanishes at q."""
    g = gcd(*q)
    return (q[1] // g, -q[0] // g)


def some(degree, seed, q):
    """Small numbers of either sign, a polynomial that is not 0 at q."""
    tried = ([(3 * k + seed + n) % 7 - 3 for k in range(degree + 1)] for n in range(7))
    return next(f for f in tried if value(f, q))


def of_order(number, degree, order):
    """Every third has a direction left: w has the form once more, or is 0 if nothing else is left.  In every
    fifth y is 0."""
    frame, weights, where = PLACES[number % len(PLACES)]
    q = tuple(sum(w * v[n] for w, v in zip(weights, frame)) for n in range(2))
    form, left = form_through(q), degree - order
    x, y, z, w = [some(left, 5 * c + 2 * degree + order, q) for c in range(4)]
    what = "finite"
    if number % 5 == 3:
        y, where = [0] * (left + 1), where + ", y = 0"
    if number % 3 == 2:
        w, what = times(some(left - 1, degree, q), form) if left else [0], "a direction"
    curve = Curve([form] * order, x, y, z, w)
    assert curve.line(q).startswith("at" if what == "finite" else "far"), (degree, order)
    sample("zero-%d-%d" % (degree, order), curve, frame, weights, order,
           "degree %d, a zero of order %d %s: %s" % (degree, order, where, what))


group("every order at every degree")
for number, (degree, order) in enumerate((m, d) for m in range(1, 11) for d in range(1, m + 1)):
    of_order(number, degree, order)

# ------------------------------------------------------------------------------- the circle of degree 4

group("the circle entered at degree 4")
CIRCLE = ([1, 0, -1], [0, 2, 0], [0, 0, 0], [1, 0, 1])
# roots at u = T/Z of 1/2 and 2/3; the circle is at (1 - u^2)/(1 + u^2), 2u/(1 + u^2)
INSIDE = Curve([(2, -1), (3, -2)], *CIRCLE)
sample("zero-circle-half", INSIDE, USUAL, (1, 1), 1,
       "times (2T - Z)(3T - 2Z), at the root 1/2: the circle's 3/5 4/5")
sample("zero-circle-two-thirds", INSIDE, USUAL, (1, 2), 1, "the same at its root 2/3: 5/13 12/13")
sample("zero-circle-third", INSIDE, USUAL, (2, 1), 0, "the same at 1/3, which is no root: 4/5 3/5")
sample("zero-circle-split-s", INSIDE, USUAL, (0, 1), 1,
       "the same after s is replaced at the root 1/2, at s", [(REPL, 2, 1, 1, 0)])
sample("zero-circle-split-r", INSIDE, USUAL, (1, 0), 1,
       "the same after r is replaced at the root 1/2, at r", [(REPL, 1, 1, 1, 0)])
ENDS = Curve([(1, 0), (1, -1)], *CIRCLE)
sample("zero-circle-r", ENDS, USUAL, (1, 0), 1, "times T(T - Z), at r: 1 0")
sample("zero-circle-s", ENDS, USUAL, (0, 1), 1, "the same at s: 0 1")
OUTER = Curve([(1, 1), (1, -2)], *CIRCLE)
sample("zero-circle-minus-one", OUTER, USUAL, (2, -1), 1,
       "times (T + Z)(T - 2Z), at the root -1, outside the segment: 0 -1")
sample("zero-circle-two", OUTER, USUAL, (-1, 2), 1, "the same at the root 2: -3/5 4/5")
sample("zero-circle-double", Curve([(2, -1), (2, -1)], *CIRCLE), USUAL, (3, 3), 2,
       "times (2T - Z)^2: order 2, weights 3 and 3")

# ------------------------------------------------------------------------------------- the zero curve

group("the zero curve is nowhere")
for degree, weights in ((1, (1, 0)), (3, (0, 1)), (7, (2, -1)), (10, (1, 1))):
    where = {(1, 0): "r", (0, 1): "s"}.get(weights, "%d-%d" % tuple(map(abs, weights)))
    sample("zero-curve-%d-%s" % (degree, where), Curve([], *[[0] * (degree + 1)] * 4), USUAL, weights, 0,
           "degree %d, weights %d and %d" % (degree, *weights))
sample("zero-curve-moved", Curve([], *[[0] * 5] * 4), USUAL, (0, 1), 0,
       "degree 4, after a replace and a flip", [(REPL, 1, 3, -1, 0), (FLP, 2, 0, 0, 0)])

# ----------------------------------------------------------------------------------------- directions

group("directions that are left have length 1")
T, Z = (1, 0), (0, 1)
sample("zero-far-divisor", Curve([T], [4, 0], [-6, 0], [0, 0], [0, 1]), UNITS, (1, 0), 1,
       "4 -6 0 0 is left at r: 2 -3 0, length 1 and not 2")
sample("zero-far-negative", Curve([T], [-4, 0], [6, 0], [0, 0], [0, 1]), UNITS, (1, 0), 1,
       "-4 6 0 0: first made positive")
sample("zero-far-axis", Curve([Z], [0], [0], [-7], [0]), UNITS, (0, 1), 1, "degree 1, 0 0 -7 0 at s")
sample("zero-far-weight", Curve([(1, -1)] * 2, [9, 0], [3, 0], [-6, 0], [-1, 1]), USUAL, (0, -4), 2,
       "weight -4 of s: order 2, and w has the form once more")
# x, y, z of degree 2 and w = T(T - Z), times T: at r everything vanishes, at s w alone
LENGTHS = Curve([T], [4, 0, 2], [8, 0, -2], [0, 0, 0], [0, -1, 1])
sample("zero-far-and-r", LENGTHS, USUAL, (1, 0), 1, "a common zero at r: 4 8 0, length 1")
sample("zero-far-and-s", LENGTHS, USUAL, (0, 1), 0,
       "the same curve at s, no common zero: 6 6 0 times the scale 3, length 18")
sample("zero-far-and-at", LENGTHS, USUAL, (1, 1), 0, "the same curve between them: finite")
sample("zero-far-no-zero", Curve([], [4, 0], [-6, 0], [0, 0], [0, 1]), UNITS, (1, 0), 0,
       "4 -6 0 0 is the point itself: length 2")

# ----------------------------------------------------------------- the power is the least over the four

group("the power taken out is the least over the four polynomials")
ROOT = (1, -1)


def powers(*counts):
    """Degree 4: each polynomial is a number times (T - Z)^n times Z^(4-n); None is the zero polynomial."""
    four = []
    for c, n in enumerate(counts):
        f = [0 if n is None else c + 2]
        for form in [ROOT] * (n or 0) + [Z] * (4 - (n or 0)):
            f = times(f, form)
        four.append(f)
    return four


def least(name, counts, line, comment):
    """The polynomials whose counts are the least are left; their numbers, 2, 3, 4 and 5, are in the line."""
    f = powers(*counts)
    whole = Curve([], *f)
    record = f1(1, 4) + f2(0, 1, 1, 1) + f3(*zip(*f)) + f5(0, 1)
    OUT.append((name, comment, record, "curve 4 12\nframe 0 1 1 1\n" + whole.entries(USUAL) + line))


least("zero-least-x", (1, 2, 3, 4), "far 1 0 0 1\n", "orders 1, 2, 3, 4 at s: x alone is left")
least("zero-least-y", (3, 1, None, 2), "far 0 1 0 1\n", "orders 3, 1, any, 2: y alone")
least("zero-least-z", (4, 4, 2, 3), "far 0 0 1 1\n", "orders 4, 4, 2, 3: z alone, the second power")
least("zero-least-w", (2, 3, 2, 1), "at %s %s %s\n" % (("0" * 16,) * 3),
      "orders 2, 3, 2, 1: w alone, so 0 0 0")
least("zero-least-x-w", (2, 3, None, 2), "at %s %s %s\n" % (struct.pack(">d", 0.4).hex(), "0" * 16, "0" * 16),
      "orders 2, 3, any, 2: 2 0 0 5 is left")
least("zero-least-y-z", (4, 3, 3, 4), "far 0 3 4 1\n", "orders 4, 3, 3, 4: 0 3 4 0 is left")
least("zero-least-none", (0, 1, 2, 3), "far 1 0 0 24\n",
      "orders 0, 1, 2, 3: no common zero, 2 times the scale 12 is the length")

# ------------------------------------------------------------------------------------- several roots

group("several roots, and numbers")
ROOTS = Curve([(1, -1)] * 2 + [(1, 0)] * 3, [1, 2], [0, 1], [3, 0], [1, 1])
sample("zero-roots-r", ROOTS, USUAL, (5, 0), 3, "degree 6, T^3 (T - Z)^2: order 3 at r")
sample("zero-roots-s", ROOTS, USUAL, (0, 5), 2, "the same, order 2 at s")
sample("zero-roots-neither", ROOTS, USUAL, (1, 1), 0, "the same between them: no zero")
sample("zero-thirds", Curve([(1, 1)], [10, 0], [20, 0], [3, 0], [30, 0]), USUAL, (-2, 1), 1,
       "10 20 3 30 is left: 1/3 2/3 1/10 to the last bit")
sample("zero-over-negative", Curve([(1, -1)], [0, 0], [1, 0], [0, 1], [-2, 0]), USUAL, (0, 1), 1,
       "0 1 1 -2 is left: a component 0 prints as +0")
sample("zero-large", Curve([T], [1048576], [-1048575], [3], [1048573]), UNITS, (4096, 0), 1,
       "degree 1, coefficients at their limit, weight 4096")
sample("zero-widest", Curve([(1, 1)], [1048576], [1], [-1048576], [-1048575]), UNITS, (4096, -4096), 1,
       "degree 1, weights 4096 and -4096")

# ------------------------------------------------------------------------------------------ after moves

group("after moves")
MOVED = Curve([(1, -1)] * 3, [2, 1, 3], [0, 1, -1], [1, 0, 2], [1, 1, 1])
WIDE = ((0, 1), (2, 1))
sample("zero-moved-r", MOVED, WIDE, (1, 0), 3,
       "degree 5, order 3: r replaced by the zero", [(REPL, 1, 1, 1, 0)])
sample("zero-moved-s", MOVED, WIDE, (0, 2), 3, "s replaced by the zero", [(REPL, 2, -1, -1, 0)])
sample("zero-moved-away", MOVED, WIDE, (2, -1), 3,
       "s replaced by 3r + s: the zero is 2r - s then", [(REPL, 2, 3, 1, 0)])
sample("zero-moved-flip-r", MOVED, WIDE, (-1, 1), 3, "r flipped", [(FLP, 1, 0, 0, 0)])
sample("zero-moved-flip-s", MOVED, WIDE, (1, -1), 3, "s flipped", [(FLP, 2, 0, 0, 0)])
sample("zero-moved-flips", MOVED, WIDE, (1, 0), 3,
       "r replaced by the zero, both flipped", [(REPL, 1, 2, 2, 0), (FLP, 1, 0, 0, 0), (FLP, 2, 0, 0, 0)])
sample("zero-moved-refused", MOVED, WIDE, (0, 1), 3, "refused moves between: 10, 9, 8",
       [(REPL, 1, 4096, -4096, 0), (REPL, 2, 1, 1, 0), (REPL, 2, 1, 0, 0), (FLP, 1, 1, 0, 0),
        (FLP, 2, 0, 0, 0)],
       {1: 10, 3: 9, 4: 8})
sample("zero-moved-off", MOVED, WIDE, (1, 1), 0,
       "r replaced: r + s is no zero any more", [(REPL, 1, 1, 1, 0)])
# T^3 does not see r = (0, 1), which four replaces bring to 2^48; q = s + r is one beyond
SEEN = Curve([T] * 3, [2], [-4], [6], [0])
GROWN = [(REPL, 1, 4096, 0, 0)] * 4
sample("zero-moved-grown", SEEN, USUAL, (1, 0), 3,
       "T^3 at r = (0, 2^48): order 3; a move refused 12 before it", GROWN + [(REPL, 2, 1, 1, 0)], {5: 12})
sample("zero-moved-beyond", SEEN, USUAL, (-4096, 0), 3, "the same at a q of 2^60", GROWN)

# ---------------------------------------------------------------------------------------------- size

group("the size test of a point is the same at a common zero")
# T Z over the units: r r and s s are 0, r s is 2^20, and 2^44 after two replaces of s by 4096 s
HYPERBOLA = Curve([T, Z], [1048576], [0], [-1048576], [3])
FAR = Curve([T, Z], [-1048576], [0], [1048576], [0])
S_GROWN = [(REPL, 2, 0, 4096, 0)] * 2
sample("zero-size-edge", HYPERBOLA, UNITS, (16, 0), 1, "q s is 2^48, and projected", S_GROWN)
sample("zero-size-refused", HYPERBOLA, UNITS, (17, 0), 1,
       "q s is 17 x 2^44: refused 10 though the value at q is 0", S_GROWN, point=10)
sample("zero-size-far", FAR, UNITS, (16, 0), 1,
       "the same without w: of length 2^48, which does not count", S_GROWN)
# Z^2 - T^2: r r and -s s are 2^21, 2^45 with 4096 r and 4096 s, 2^47 with 8192 of each
CROSS = Curve([(1, 1), (-1, 1)], [1048576], [1048576], [0], [-1048576])
BOTH = [(REPL, 1, 4096, 0, 0), (REPL, 2, 0, 4096, 0), (REPL, 1, 2, 0, 0), (REPL, 2, 0, 2, 0)]
sample("zero-size-between-edge", CROSS, UNITS, (2, 2), 1, "q r and -q s are 2^48, q q is 0", BOTH)
sample("zero-size-between-refused", CROSS, UNITS, (3, -3), 1, "q r is 3 x 2^47: refused 10", BOTH, point=10)

# ------------------------------------------------------------------------------------------- patches

group("patches of both kinds are nowhere there")


def patch(name, record, head, entries, comment):
    OUT.append((name, comment, record, head + entries + "nowhere\n"))


AXES = f2(1, 0, 0, 0, 1, 0, 0, 0, 1)
AXES_LINE = "frame 1 0 0 0 1 0 0 0 1\n"
SQUARE = f1(2, 2) + AXES + f3(*[(0, 0, 0, 0)] * 5, (1, 2, 3, 4))
SQUARE_NET = "2 0 0 2 4 6 8\n1 1 0 0 0 0 0\n1 0 1 0 0 0 0\n0 2 0 0 0 0 0\n0 1 1 0 0 0 0\n0 0 2 0 0 0 0\n"
patch("zero-patch-square", SQUARE + f5(0, 1, 2), "patch 2 2\n" + AXES_LINE, SQUARE_NET,
      "U^2 vanishes on the line s t, twice")
patch("zero-patch-square-t", SQUARE + f5(0, 0, 1), "patch 2 2\n" + AXES_LINE, SQUARE_NET, "the same at t")
UV_NET = "2 0 0 0 0 0 0\n1 1 0 1 1 1 1\n1 0 1 0 0 0 0\n0 2 0 0 0 0 0\n0 1 1 0 0 0 0\n0 0 2 0 0 0 0\n"
UV = f1(2, 2) + AXES + f3(*[(0, 0, 0, 0)] * 4, (1, 1, 1, 1), (0, 0, 0, 0))
patch("zero-patch-r", UV + f5(1, 0, 0), "patch 2 2\n" + AXES_LINE, UV_NET,
      "UV at r: the entry r s beside it is not 0")
patch("zero-patch-s", UV + f5(0, -2, 0), "patch 2 2\n" + AXES_LINE, UV_NET, "UV at s")
AXES_RECT = f2(0, 1, 1, 0, 0, 1, 1, 0)
RECT_LINE = "frame 0 1 1 0 0 1 1 0\n"
# T1 Z2 and T1 T2 over the units: entries 1 0 and 1 1
RECT = f1(3, 1, 1) + AXES_RECT + f3((0, 0, 0, 0), (0, 0, 0, 0), (1, 2, 3, 4), (5, 6, 7, 8))
RECT_NET = "0 0 0 0 0 0\n0 1 0 0 0 0\n1 0 1 2 3 4\n1 1 5 6 7 8\n"
patch("zero-rect-first", RECT + f5(1, 0, 1, 1), "rect 1 1 1\n" + RECT_LINE, RECT_NET,
      "T1 vanishes at r1, wherever q2 is")
# T1 T2 alone
CORNER = f1(3, 1, 1) + AXES_RECT + f3((0, 0, 0, 0), (0, 0, 0, 0), (0, 0, 0, 0), (1, 2, 3, 4))
CORNER_NET = "0 0 0 0 0 0\n0 1 0 0 0 0\n1 0 0 0 0 0\n1 1 1 2 3 4\n"
patch("zero-rect-second", CORNER + f5(0, 1, 1, 0), "rect 1 1 1\n" + RECT_LINE, CORNER_NET,
      "T1 T2 at s1 and r2")
patch("zero-rect-both", CORNER + f5(1, 0, 1, 0), "rect 1 1 1\n" + RECT_LINE, CORNER_NET, "T1 T2 at r1 and r2")


def samples():
    return OUT
