"""The samples of kind 3, rectangular patches (request E3), used by make_samples.py.

The texts come from first nets that are worked out beside them by hand, and from the
rules below, which move a net by its own entries.  The calculator does it the other
way: it has no net, only polynomials and a frame.
"""
import math
import struct

from fields import FLP, REPL, f1, f2, f3, f4, f5, field

OUT = []
M = 1048576                      # the largest coefficient, 2^20
CURVE = (1, 2, 3, 12, 10)        # the scales of curves of degree 1 to 5


def group(title):
    OUT.append((None, "Rectangular patches: " + title, None, None))


def S(name, rec, text, comment):
    OUT.append((name, comment, rec, text))


# ------------------------------------------------------------- nets and their moves
# A net maps i, j to x, y, z, w.

def lines(net):
    return "".join("%d %d %d %d %d %d\n" % (e + net[e]) for e in sorted(net))


def shares(n, a, b):
    """a r + b s taken n times: the number before k copies of s, k from 0 to n."""
    return [math.comb(n, k) * a ** (n - k) * b ** k for k in range(n + 1)]


def added(net, terms):
    return tuple(sum(c * net[e][n] for e, c in terms) for n in range(4))


def replaced(net, vertex, a, b):
    """a r + b s of its pair in the place of the vertex."""
    def spread(i, m):            # entry i of a pair: the old entries, each with its number
        if vertex in (1, 3):
            return [(i + k, c) for k, c in enumerate(shares(m - i, a, b))]
        return list(enumerate(shares(i, a, b)))
    p, q = max(net)
    if vertex <= 2:
        return {(i, j): added(net, [((k, j), c) for k, c in spread(i, p)]) for i, j in net}
    return {(i, j): added(net, [((i, k), c) for k, c in spread(j, q)]) for i, j in net}


def flipped(net, vertex):
    """Entries change sign where the vertex is taken an odd number of times."""
    p, q = max(net)
    return {(i, j): tuple((-1) ** (p - i, i, q - j, j)[vertex - 1] * c for c in net[i, j])
            for i, j in net}


def moved(net, moves):
    """Moves that are all taken."""
    for op, vertex, a, b, _ in moves:
        net = flipped(net, vertex) if op == FLP else replaced(net, vertex, a, b)
        assert all(abs(c) <= 2 ** 48 for e in net for c in net[e])
    return net


def found(net, weights):
    p, q = max(net)
    one, two = shares(p, *weights[:2]), shares(q, *weights[2:])
    return added(net, [((i, j), one[i] * two[j]) for i, j in net])


def at(x, y, z, w):
    return "at " + " ".join(struct.pack(">d", n / w if n else 0.0).hex() for n in (x, y, z)) + "\n"


# --------------------------------------------------------------------- the surfaces
# A cylinder, bidegree (2, 1): x and y of the circle of B1 times Z2, z its w times T2, w
# its w times Z2.  Over (0, 1), (1, 1) twice entry i j has x, y, w of the circle's entry i,
# and z = j w.  Fields of 6, 19 and 99 bytes, at 0, 6 and 25; end at 124.
UNIT2 = (0, 1, 1, 1) * 2
R1 = f1(3, 2, 1)
R2 = f2(*UNIT2)
R3 = f3((1, 0, 0, 1), (0, 0, 1, 0), (0, 2, 0, 0), (0, 0, 0, 0), (-1, 0, 0, 1), (0, 0, 1, 0))
R = R1 + R2 + R3
assert (len(R1), len(R2), len(R3)) == (6, 19, 99)
RHEAD = "rect 2 1 2\n"
RNET = {(0, 0): (2, 0, 0, 2), (0, 1): (2, 0, 2, 2),
        (1, 0): (2, 2, 0, 2), (1, 1): (2, 2, 2, 2),
        (2, 0): (0, 4, 0, 4), (2, 1): (0, 4, 4, 4)}

# The folium of B6 drawn along z, bidegree (1, 3): the folium is in the second pair.
# Entry i j has x, y, w of the folium's entry j, and z = i w.
K = (f1(3, 1, 3) + f2(*UNIT2)
     + f3((0, 0, 0, 1), (3, 0, 0, 0), (0, 3, 0, 0), (0, 0, 0, 1),
          (0, 0, 1, 0), (0, 0, 0, 0), (0, 0, 0, 0), (0, 0, 1, 0)))
KHEAD = "rect 1 3 3\n"
KNET = {(0, 0): (0, 0, 0, 3), (0, 1): (3, 0, 0, 3), (0, 2): (6, 3, 0, 3), (0, 3): (9, 9, 0, 6),
        (1, 0): (0, 0, 3, 3), (1, 1): (3, 0, 3, 3), (1, 2): (6, 3, 3, 3), (1, 3): (9, 9, 6, 6)}

# The four products T1 T2, T1 Z2, Z1 T2, Z1 Z2 as x, y, z, w, bidegree (1, 1)
PRODUCTS = f3((0, 0, 0, 1), (0, 0, 1, 0), (0, 1, 0, 0), (1, 0, 0, 0))

# ------------------------------------------------------------------------------
group("whole records")
S("rect-cylinder", R + f5(1, 1, 1, 1), RHEAD + lines(RNET) + at(12, 16, 10, 20),
  "bidegree (2, 1): a cylinder; its point (1, 1, 1, 1) is 12 16 10 20")
S("rect-folium", K, KHEAD + lines(KNET), "bidegree (1, 3): the folium of B6 in the second pair")
S("rect-order", f1(3, 2, 3) + f2(0, 1, 1, 0, 0, 1, 1, 0)
  + f3(*((math.comb(2, h) * math.comb(3, l) * (10 * h + l), 0, 0, 0) for h in range(3) for l in range(4))),
  "rect 2 3 6\n" + "".join("%d %d %d 0 0 0\n" % (i, j, 6 * (10 * i + j)) for i in range(3) for j in range(4)),
  "h rising then l in the record, i rising then j in the text: x is 6 (10 i + j)")
S("rect-four-vertices", f1(3, 1, 1) + f2(4, -3, 2, 1, -1, 4, 3, -2) + PRODUCTS,
  "rect 1 1 1\n0 0 -4 16 3 -12\n0 1 12 -8 -9 6\n1 0 -2 8 -1 4\n1 1 6 -4 3 -2\n",
  "four different vertices: T1 T2, T1 Z2, Z1 T2, Z1 Z2 of each two")

# ------------------------------------------------------------------------------
group("refusals of the record, 1 to 3")
S("r1-rect-value-field1", field(1, b"\x03\x02", 3), "refused 1 at 0\n", "field 1 of length 3, its second degree absent")
S("r1-rect-value-field1-curve", field(1, b"\x01\x02", 3), "refused 1 at 0\n",
  "field 1 of length 3, two bytes there and kind 1: value present is tested before values")
S("r1-rect-value-field2", R1 + R2[:-1], "refused 1 at 6\n", "value of field 2 one byte short")
S("r1-rect-value-field3", R1 + R2 + R3[:-1], "refused 1 at 25\n", "value of field 3 one byte short")
S("r1-rect-value-field5", R + f5(1, 1, 1, 1)[:-2], "refused 1 at 124\n", "value of field 5 two bytes short")
S("r2-rect-absent-2", R1, "refused 2 at 6\n", "ends after field 1: offset is the record's length")
S("r2-rect-absent-3", R1 + R2, "refused 2 at 25\n", "ends after field 2")
S("r2-rect-after", R + f5(1, 1, 1, 1) + field(6, b""), "refused 2 at 135\n", "tag 6 after a whole record")
S("r3-rect-field1-1", field(1, b"\x03") + R2 + R3, "refused 3 at 0\n", "field 1 of length 1, kind 3")
S("r3-rect-field1-4", field(1, b"\x03\x02\x01\x00") + R2 + R3, "refused 3 at 0\n", "field 1 of length 4, kind 3")
for n in (8, 14, 15, 17, 18):
    S("r3-rect-field2-%d" % n, R1 + field(2, b"\0" * n) + R3, "refused 3 at 6\n",
      "frame of length %d%s" % (n, {8: ", a curve's", 18: ", a patch's"}.get(n, "")))
for n, why in ((32, "two monomials, p times q"), (80, "one monomial short"), (95, "one byte short"),
               (97, "one byte more"), (112, "one monomial more")):
    S("r3-rect-field3-%d" % n, R1 + R2 + field(3, b"\0" * n), "refused 3 at 25\n",
      "coefficients of length %d at degrees (2, 1): %s" % (n, why))
for n in (35, 37):
    S("r3-rect-field3-5-5-%d" % n, f1(3, 5, 5) + R2 + field(3, b"\0" * 16 * n), "refused 3 at 25\n",
      "%d monomials at degrees (5, 5)" % n)
S("r3-rect-field4-264", R + field(4, b"\0" * 264), "refused 3 at 124\n", "33 moves")
for n in (4, 6, 7, 9, 10):
    S("r3-rect-field5-%d" % n, R + field(5, b"\0" * n), "refused 3 at 124\n",
      "point of length %d%s" % (n, {4: ", a curve's", 6: ", a patch's"}.get(n, "")))

# ------------------------------------------------------------------------------
group("refusals of the record, 4 to 6")
S("r4-rect-two-bytes", f1(3, 2) + R2 + R3, "refused 4 at 0\n", "kind 3 in two bytes, a rectangular patch's fields after it")
for p, q in ((0, 1), (2, 0), (6, 1), (2, 6), (0, 0), (8, 1), (2, 10), (255, 1), (2, 255)):
    S("r4-rect-%d-%d" % (p, q), f1(3, p, q) + R2 + R3, "refused 4 at 0\n", "degrees (%d, %d)" % (p, q))
S("r4-kind-4", f1(4, 2) + R2 + R3, "refused 4 at 0\n", "kind 4 in two bytes")
S("r4-kind-4-three-bytes", f1(4, 2, 1) + R2 + R3, "refused 4 at 0\n", "kind 4 in three bytes")
S("r4-kind-0-three-bytes", f1(0, 2, 1) + R2 + R3, "refused 4 at 0\n", "kind 0 in three bytes")


def frame(name, numbers, comment):
    S(name, R1 + f2(*numbers) + R3, "refused 5 at 6\n", comment)


frame("r5-rect-number-first", (0, 5, 1, 1, 0, 1, 1, 1), "a number 5 in the first pair")
frame("r5-rect-number-third", (0, 1, 1, 1, -5, 1, 1, 1), "a number -5 where the second pair begins")
frame("r5-rect-number-last", (0, 1, 1, 1, 0, 1, 1, 5), "a number 5 in the last place")
frame("r5-rect-first", (1, 2, -2, -4, 0, 1, 1, 1), "the first determinant is 0: s1 = -2 r1")
frame("r5-rect-second", (0, 1, 1, 1, 1, 1, 1, 1), "the second determinant is 0: r2 = s2")
frame("r5-rect-zero-vertex", (0, 1, 1, 1, 1, 1, 0, 0), "s2 = (0, 0)")
frame("r5-rect-across", (0, 1, 0, 2, 1, 0, 3, 0), "both are 0, though r1 and r2 are independent, and s1 and s2")
S("r5-rect-before-6", R1 + f2(0, 1, 1, 1, 1, 1, 1, 1) + f3((M + 1, 0, 0, 0), *[(0, 0, 0, 0)] * 5),
  "refused 5 at 6\n", "second determinant 0 and a coefficient outside: front to back")
S("r6-rect-first", R1 + R2 + f3((M + 1, 0, 0, 0), *[(0, 0, 0, 0)] * 5), "refused 6 at 25\n", "1048577 in the first place")
S("r6-rect-last", R1 + R2 + f3(*[(0, 0, 0, 0)] * 5, (0, 0, 0, -M - 1)), "refused 6 at 25\n", "-1048577 in the last place")

# ------------------------------------------------------------------------------
group("refusal 7, which only degrees (5, 5), (5, 4) and (4, 5) can reach")


def share(m, h, n):
    """The number that a curve's coefficient h has in the entry of n copies of (4, 4) and
    m - n of (0, 1): L divided by its binomial, times sigma, which is 4^n times n over h."""
    return CURVE[m - 1] * math.comb(n, h) * 4 ** n // math.comb(m, h)


def large(p, q, total, component, last=False):
    """Coefficients of one sign that add up to the total, from the first monomial on as
    large as can be, in one component.  The first entry is L 4^(p+q) times the total:
    r1 = r2 = (4, 4), s1 = s2 = (0, 1).  With `last` the vertices are exchanged."""
    sign = 1 if total > 0 else -1
    rows, left = [], abs(total)
    for _ in range((p + 1) * (q + 1)):
        rows.append(tuple(sign * min(left, M) if c == component else 0 for c in range(4)))
        left -= min(left, M)
    assert left == 0
    record = f1(3, p, q) + f2(*((0, 1, 4, 4) if last else (4, 4, 0, 1)) * 2) + f3(*rows)
    monomials = [(h, l) for h in range(p + 1) for l in range(q + 1)]
    net = {}
    for i in range(p + 1):
        for j in range(q + 1):
            n, k = (i, j) if last else (p - i, q - j)
            net[i, j] = tuple(sum(r[c] * share(p, h, n) * share(q, l, k)
                                  for (h, l), r in zip(monomials, rows)) for c in range(4))
    return record, "rect %d %d %d\n" % (p, q, CURVE[p - 1] * CURVE[q - 1]) + lines(net)


def seven(name, p, q, component, sign, last, words):
    """The first total that is refused, and the one before it."""
    most = 2 ** 48 // (CURVE[p - 1] * CURVE[q - 1] * 4 ** (p + q))
    S(name, large(p, q, sign * (most + 1), component, last)[0], "refused 7 at 25\n",
      "degrees (%d, %d), %s is L times 4^%d times %d" % (p, q, words, p + q, sign * (most + 1)))
    S(name + "-less", *large(p, q, sign * most, component, last), "the same times %d passes" % (sign * most))


seven("r7-rect-5-5", 5, 5, 0, 1, False, "x of entry 0 0")
seven("r7-rect-5-4", 5, 4, 2, -1, False, "z of entry 0 0")
seven("r7-rect-4-5", 4, 5, 3, 1, True, "w of entry 4 5")
S("r7-rect-with-moves", large(5, 5, 3000000, 1)[0] + f4((FLP, 1, 0, 0, 0)) + f5(1, 1, 1, 1), "refused 7 at 25\n",
  "out of range with moves and a point: no net, no line for them")
S("r7-rect-4-4", *large(4, 4, 25 * M, 1), "degrees (4, 4), every coefficient of y 1048576, r1 and r2 (4, 4): passes")
# Over (4, 4), (-4, 4) the coefficients 1 1 0 0 -1 -1 of a curve of degree 5 have the entries
# 0, 2^15, 0, 2^14, 0, 0.  Entry 1 has (Z + T)^4 (Z - T): 1 3 2 -2 -3 -1, times 10 over the
# binomials 10 6 2 -2 -6 -10, so 32 times 4^5; entry 3 has 1 -1 -2 2 1 -1, 10 -2 -2 2 2 -10, so 16
# times 4^5.  Both pairs have these, times 2^18: x of entry 1 1 is 2^48.
EDGE5 = (1, 1, 0, 0, -1, -1)
HALF5 = (0, 2 ** 15, 0, 2 ** 14, 0, 0)


def edge(more):
    """With `more` added to the coefficient of T1^2 Z1^3 T2^2 Z2^3: entry 1 1 has 2^22 times it more."""
    return f1(3, 5, 5) + f2(4, 4, -4, 4, 4, 4, -4, 4) + f3(*(
        (2 ** 18 * EDGE5[h] * EDGE5[l] + (more if h == l == 2 else 0), 0, 0, 0)
        for h in range(6) for l in range(6)))


S("r7-rect-edge-passes", edge(0), "rect 5 5 100\n" + "".join(
    "%d %d %d 0 0 0\n" % (i, j, 2 ** 18 * HALF5[i] * HALF5[j]) for i in range(6) for j in range(6)),
  "degrees (5, 5), x of entry 1 1 is 2 to the 48th exactly")
S("r7-rect-edge-beyond", edge(1), "refused 7 at 25\n", "the same with 2^48 + 2^22 there")

# ------------------------------------------------------------------------------
group("moves that are taken")


def taken(name, moves, comment, base=R, head=RHEAD, net=RNET):
    S(name, base + f4(*moves), head + lines(moved(net, moves)), comment)


def pencil(name, moves, text, comment):
    """The same on the cylinder, with the text written out."""
    assert lines(moved(RNET, moves)) == text, name
    taken(name, moves, comment)


pencil("m-rect-replace-s1", [(REPL, 2, 1, 1, 0)],
       "0 0 2 0 0 2\n0 1 2 0 2 2\n1 0 4 2 0 4\n1 1 4 2 4 4\n2 0 6 8 0 10\n2 1 6 8 10 10\n",
       "replace s1 at (1, 1): the circle's B3 in both rows")
pencil("m-rect-replace-r1", [(REPL, 1, 1, 1, 0)],
       "0 0 6 8 0 10\n0 1 6 8 10 10\n1 0 2 6 0 6\n1 1 2 6 6 6\n2 0 0 4 0 4\n2 1 0 4 4 4\n",
       "replace r1 at (1, 1)")
pencil("m-rect-replace-s2", [(REPL, 4, 1, 1, 0)],
       "0 0 2 0 0 2\n0 1 4 0 2 4\n1 0 2 2 0 2\n1 1 4 4 2 4\n2 0 0 4 0 4\n2 1 0 8 4 8\n",
       "replace s2 at (1, 1): its pair's weights are the first two")
pencil("m-rect-replace-r2", [(REPL, 3, 1, 1, 0)],
       "0 0 4 0 2 4\n0 1 2 0 2 2\n1 0 4 4 2 4\n1 1 2 2 2 2\n2 0 0 8 4 8\n2 1 0 4 4 4\n",
       "replace r2 at (1, 1)")
for k, vertex in enumerate(("r1", "s1", "r2", "s2"), 1):
    taken("m-rect-replace-%s-folium" % vertex, [(REPL, k, 3, -2, 0)],
          "bidegree (1, 3), replace %s at (3, -2)" % vertex, K, KHEAD, KNET)
    taken("m-rect-flip-" + vertex, [(FLP, k, 0, 0, 0)],
          "bidegree (1, 3), flip %s: the sign is (-1)^%s" % (vertex, ("(1-i)", "i", "(3-j)", "j")[k - 1]),
          K, KHEAD, KNET)
taken("m-rect-flip-r1r2", [(FLP, 1, 0, 0, 0), (FLP, 3, 0, 0, 0)],
      "bidegree (1, 3), flips of r1 and r2: Lemma 24.2.2's third net, (-1)^(p+q-i-j)", K, KHEAD, KNET)
taken("m-rect-flip-even", [(FLP, 1, 0, 0, 0)], "bidegree (2, 1), flip r1: entries with one copy of r1")
taken("m-rect-flip-all", [(FLP, k, 0, 0, 0) for k in (1, 2, 3, 4)],
      "all four flipped: p + q = 4 copies, every sign restored", K, KHEAD, KNET)
taken("m-rect-other-zero", [(REPL, 2, 0, 3, 0), (REPL, 3, -2, 0, 0)], "the other vertex of the pair has weight 0")
taken("m-rect-4096", [(REPL, 3, 4096, -4096, 0), (REPL, 2, -4096, 4096, 0)], "weights 4096 and -4096 in both pairs")
taken("m-rect-both-pairs", [(REPL, 2, 1, 1, 0), (REPL, 4, 1, 1, 0), (REPL, 1, 2, 1, 0), (REPL, 3, 1, -1, 0)],
      "a replace of each vertex, one after the other", K, KHEAD, KNET)
EIGHT = [(REPL, 2, 1, 1, 0), (FLP, 3, 0, 0, 0), (REPL, 3, 2, -1, 0), (FLP, 2, 0, 0, 0),
         (REPL, 1, 1, -1, 0), (REPL, 4, -1, 2, 0), (FLP, 1, 0, 0, 0), (FLP, 4, 0, 0, 0)]
taken("m-rect-32", EIGHT * 4, "32 moves on both pairs, all taken", K, KHEAD, KNET)

# ------------------------------------------------------------------------------
group("moves that are refused")


def refused(name, move, number, comment):
    S(name, R + f4(move), RHEAD + "move 1 refused %d\n" % number + lines(RNET), comment)


refused("m8-rect-operation-3", (3, 3, 1, 1, 0), 8, "operation 3")
for op, word in ((REPL, "vertex"), (FLP, "flip-vertex")):
    for vertex in (0, 5, 255):
        refused("m8-rect-%s-%d" % (word, vertex), (op, vertex) + ((1, 1, 0) if op == REPL else (0, 0, 0)), 8,
                ("flip of vertex %d" if op == FLP else "vertex %d") % vertex)
refused("m8-rect-third-weight-first", (REPL, 1, 1, 1, 1), 8, "third weight not 0 in the first pair")
refused("m8-rect-third-weight-r2", (REPL, 3, 1, 1, 1), 8, "third weight not 0 in the second pair, r2")
refused("m8-rect-third-weight-s2", (REPL, 4, 0, 1, -1), 8, "third weight not 0 in the second pair, s2")
refused("m8-rect-third-weight-alone", (REPL, 3, 0, 0, 1), 8, "the third weight is not that of vertex 3")
refused("m8-rect-weight-4097", (REPL, 3, 4097, 1, 0), 8, "weight 4097 in the second pair")
refused("m8-rect-weight-minus-4097", (REPL, 4, -4097, 1, 0), 8, "weight -4097 of the other vertex in the second pair")
refused("m8-rect-flip-weight", (FLP, 4, 0, 1, 0), 8, "flip of s2 with a weight")
refused("m8-rect-before-9", (REPL, 4, 1, 0, 1), 8, "s2 has weight 0 and the third is not 0: 8 before 9")
refused("m8-rect-before-9-outside", (REPL, 3, 0, 4097, 0), 8, "r2 has weight 0 and the other 4097: 8 before 9")
refused("m9-rect-r1", (REPL, 1, 0, 1, 0), 9, "replace r1 at (0, 1)")
refused("m9-rect-s1", (REPL, 2, 1, 0, 0), 9, "replace s1 at (1, 0)")
refused("m9-rect-r2", (REPL, 3, 0, 1, 0), 9, "replace r2 at (0, 1): its weight is the first")
refused("m9-rect-s2", (REPL, 4, 1, 0, 0), 9, "replace s2 at (1, 0): its weight is the second")
refused("m9-rect-all-zero", (REPL, 3, 0, 0, 0), 9, "replace r2 at (0, 0)")
S("m-rect-several", R + f4((FLP, 3, 0, 0, 0), (REPL, 5, 1, 1, 0), (REPL, 4, 7, 0, 0), (FLP, 3, 0, 0, 0),
                           (0, 0, 0, 0, 0), (REPL, 2, 1, 1, 0), (REPL, 3, 2, 1, 0)),
  RHEAD + "move 2 refused 8\nmove 3 refused 9\nmove 5 refused 8\n"
  + lines(moved(RNET, [(REPL, 2, 1, 1, 0), (REPL, 3, 2, 1, 0)])),
  "seven moves on both pairs, three passed over; K counts refused ones too")

# x = 2^20 Z1 Z2 and w is the sum of the monomials, over (0, 1), (1, 0) twice.  Two replaces by
# 4096 r1 make x of entry 0 0 2^44.
CORNERS = f1(3, 1, 1) + f2(*(0, 1, 1, 0) * 2)


def big(x01=0, x10=0):
    return CORNERS + f3((M, 0, 0, 1), (x01, 0, 0, 1), (x10, 0, 0, 1), (0, 0, 0, 1))


def bignet(x01=0, x10=0):
    return {(0, 0): (M, 0, 0, 1), (0, 1): (x01, 0, 0, 1), (1, 0): (x10, 0, 0, 1), (1, 1): (0, 0, 0, 1)}


def size(name, record, head, net, before, move, number, comment):
    """Some moves that are taken, then one that is or is not."""
    k = len(before) + 1
    text = "move %d refused %d\n" % (k, number) if number else ""
    S(name, record + f4(*before, move),
      head + text + lines(moved(net, list(before) + ([] if number else [move]))), comment)


def twice(vertex):
    return [(REPL, vertex, 4096, 0, 0)] * 2


size("m9-rect-before-10", big(), "rect 1 1 1\n", bignet(), twice(1), (REPL, 2, 4096, 0, 0), 9,
     "s1 has weight 0 and q is out of range (4096 x 2^44): 9 before 10")
size("m10-rect-first-taken", big(), "rect 1 1 1\n", bignet(), twice(1), (REPL, 2, 16, 1, 0), 0,
     "replace in the first pair, x of the new s1 with r2 is 2 to the 48th exactly")
size("m10-rect-first-refused", big(x10=1), "rect 1 1 1\n", bignet(x10=1), twice(1), (REPL, 2, 16, 1, 0), 10,
     "the same with 2^48 + 1 there")
size("m10-rect-second-taken", big(), "rect 1 1 1\n", bignet(), twice(3), (REPL, 4, 16, 1, 0), 0,
     "replace in the second pair, x of r1 with the new s2 is 2 to the 48th exactly")
size("m10-rect-second-refused", big(x01=1), "rect 1 1 1\n", bignet(x01=1), twice(3), (REPL, 4, 16, 1, 0), 10,
     "the same with 2^48 + 1 there")
size("m10-rect-negative-taken", big(), "rect 1 1 1\n", bignet(), twice(3), (REPL, 3, -16, 0, 0), 0,
     "x of entry 0 0 is minus 2 to the 48th")
size("m10-rect-negative-refused", big(), "rect 1 1 1\n", bignet(), twice(3), (REPL, 3, -17, 0, 0), 10,
     "minus 17 times 2 to the 44th")
S("m10-rect-then-next", big() + f4(*twice(1), (REPL, 3, 17, 0, 0), (FLP, 4, 0, 0, 0), (REPL, 4, 1, 1, 0)),
  "rect 1 1 1\nmove 3 refused 10\n"
  + lines(moved(bignet(), twice(1) + [(FLP, 4, 0, 0, 0), (REPL, 4, 1, 1, 0)])),
  "refused 10 in the second pair, passed over, the two after it are taken")
S("m10-rect-flip-never", big() + f4(*twice(1), (REPL, 3, 16, 0, 0), *((FLP, k, 0, 0, 0) for k in (1, 2, 3, 4)),
                                    (FLP, 3, 0, 0, 0)),
  "rect 1 1 1\n" + lines(moved(bignet(), twice(1) + [(REPL, 3, 16, 0, 0), (FLP, 3, 0, 0, 0)])),
  "flips at the very edge are never refused for size")


# A pair of degree 2 whose x are -6 k, 4 k, 8 k, times T, Z or T Z of the other pair; w is Z^2 of the pair
# times the other's first two monomials.  With r and s of the pair 2^14 times as large, g = k 2^28 is in the
# place of k.  q = 2 r + s: x of r and q is -8 g, of q and q 0, of s and q 16 g, which is 2^48 at k = 65536.
# `turned` has r and s of the pair exchanged, and q = r + 2 s.

def mixed(pair, k, other="T", turned=False):
    """(record, first line, net).  Only one entry of the other pair has x, number `place`."""
    place, m = {"T": (1, 1), "Z": (0, 1), "TZ": (1, 2)}[other]
    rows = {(h, l): (0, 0, 0, 0) for h in range(3) for l in range(m + 1)}
    net = dict(rows)
    for l, quotient in enumerate((1, 1) if m == 1 else (2, 1)):
        rows[0, l], net[0, l] = (0, 0, 0, 1), (0, 0, 0, 2 * quotient)
    for h, (coefficient, entry) in enumerate(((-3, -6), (4, 4), (4, 8))):
        rows[h, place] = (coefficient * k,) + rows[h, place][1:]
        net[h, place] = (entry * k,) + net[h, place][1:]
    degrees, frames = (2, m), [(0, 1, 1, 0), (0, 1, 1, 0)]
    if turned:
        net = {(2 - i, j): net[i, j] for i, j in net}
        frames[0] = (1, 0, 0, 1)
    if pair == 2:
        rows, net = ({(l, h): t[h, l] for h, l in t} for t in (rows, net))
        degrees, frames = degrees[::-1], frames[::-1]
    return (f1(3, *degrees) + f2(*frames[0], *frames[1]) + f3(*(rows[e] for e in sorted(rows))),
            "rect %d %d %d\n" % (degrees + (2 * CURVE[m - 1],)), net)


def grown(pair):
    """The pair's vertices 2^14 times as large."""
    r = 2 * pair - 1
    return [(REPL, r, 4096, 0, 0), (REPL, r + 1, 0, 4096, 0), (REPL, r, 4, 0, 0), (REPL, r + 1, 0, 4, 0)]


for pair, word in ((1, "first"), (2, "second")):
    r, s = 2 * pair - 1, 2 * pair
    for name, move, others, how in (
            ("", (REPL, s, 2, 1, 0), ("T",), "the value of the old s%d and q, with the other pair's s" % pair),
            ("-inner", (REPL, s, 2, 1, 0), ("TZ",), "the value of the old s%d and q, with r and s of the other pair" % pair),
            ("-turned", (REPL, r, 1, 2, 0), ("Z", True), "the value of the old r%d and q, with the other pair's r" % pair)):
        size("m10-rect-mixed-%s%s-taken" % (word, name), *mixed(pair, 65536, *others), grown(pair), move, 0,
             "%s pair of degree 2: %s, is 2 to the 48th" % (word, how))
        size("m10-rect-mixed-%s%s-refused" % (word, name), *mixed(pair, 65537, *others), grown(pair), move, 10,
             "that value is beyond, though no entry of the new net would be")

# ------------------------------------------------------------------------------
group("points")


def point(name, weights, line, comment, base=(R, RHEAD, RNET), moves=()):
    """`line` is None where the point is finite and not refused."""
    record, head, net = base
    reached = moved(net, moves)
    S(name, record + (f4(*moves) if moves else b"") + f5(*weights),
      head + lines(reached) + (at(*found(reached, weights)) if line is None else line), comment)


def pencilled(name, weights, value, line, comment, base=(R, RHEAD, RNET), moves=()):
    """The same, with the point's four numbers written out."""
    assert found(moved(base[2], moves), weights) == value, name
    point(name, weights, line, comment, base, moves)


TEN = "point refused 10\n"
for k in range(4):
    for n in (4097, -4097):
        point("q8-rect-%d-%s%d" % (k + 1, "minus-" if n < 0 else "", abs(n)),
              tuple(n if i == k else 1 for i in range(4)), "point refused 8\n", "weight %d is %d" % (k + 1, n))
point("q8-rect-before-9-second", (0, 0, 4097, 1), "point refused 8\n", "the first pair all zero and a weight outside: 8 before 9")
point("q8-rect-before-9-first", (-32768, 1, 0, 0), "point refused 8\n", "the second pair all zero and a weight outside: 8 before 9")
point("q9-rect-first", (0, 0, 1, 1), "point refused 9\n", "the first pair all zero")
point("q9-rect-second", (1, 1, 0, 0), "point refused 9\n", "the second pair all zero")
point("q9-rect-both", (0, 0, 0, 0), "point refused 9\n", "both pairs all zero")
BIG = (big(), "rect 1 1 1\n", bignet())
point("q9-rect-before-10", (4096, 0, 0, 0), "point refused 9\n",
      "the second pair all zero and q1 out of range (4096 x 2^44): 9 before 10", BIG, twice(1))
pencilled("q-rect-one-zero", (0, 1, 1, 0), (0, 4, 0, 4), None, "one weight 0 in each pair: the entry of s1, s1, r2")
pencilled("q-rect-corner", (1, 0, 0, 1), (2, 0, 2, 2), None, "the other weight 0 in each pair: the entry of r1, r1, s2")
pencilled("q-rect-pairs", (2, -1, 1, 2), (0, -12, 8, 12), None,
          "q1 = (-1, 1), q2 = (2, 3): each pair has its own weights; 0 prints as +0")
pencilled("q-rect-4096", (4096, -4096, -4096, 4096), (0, 0, 2 ** 37, 0), "far 0 0 1 137438953472\n",
          "weights 4096 and -4096 pass: q1 and q2 are (-4096, 0) and (4096, 0), and z is 2 x 4096^3")
pencilled("q-rect-negative-w", (1, 0, -1, 0), (-2, 0, 0, -2), None, "w negative and two numerators 0")
pencilled("q-rect-far", (1, 1, -1, 1), (0, 0, 10, 0), "far 0 0 1 10\n", "a direction: q2 = (1, 0), along the cylinder")
pencilled("q-rect-far-negative", (1, 1, 1, -1), (0, 0, -10, 0), "far 0 0 1 10\n", "q2 = (-1, 0): sign made positive, length the same")
pencilled("q-rect-far-folium", (1, 2, 2, -1), (-27, 27, 0, 0), "far 1 -1 0 27\n",
          "B7's direction on the folium, times 3 by q1 = (2, 3)", (K, KHEAD, KNET))
# x = 7 T1 T2, w = Z1 T2: all vanish where T2 is 0
LINE = (CORNERS + f3((0, 0, 0, 0), (0, 0, 0, 1), (0, 0, 0, 0), (7, 0, 0, 0)), "rect 1 1 1\n",
        {(0, 0): (0, 0, 0, 0), (0, 1): (0, 0, 0, 1), (1, 0): (0, 0, 0, 0), (1, 1): (7, 0, 0, 0)})
pencilled("q-rect-nowhere", (3, 5, 2, 0), (0, 0, 0, 0), "nowhere\n", "all four polynomials vanish where q2 is on r2", LINE)
pencilled("q-rect-after-moves", (1, 1, 1, 1), (64, 48, 40, 80), None,
          "point after moves: over the frame reached, q1 = (1, 3) and q2 = (2, 4)",
          moves=[(REPL, 2, 1, 1, 0), (REPL, 3, 2, 1, 0), (FLP, 2, 0, 0, 0), (FLP, 2, 0, 0, 0)])
S("q-rect-after-refused-move", R + f4((REPL, 4, 1, 0, 0)) + f5(1, 1, 1, 1),
  RHEAD + "move 1 refused 9\n" + lines(RNET) + at(12, 16, 10, 20), "point after a refused move: frame as it was")

# ------------------------------------------------------------------------------
group("the two stages of a point's size test")
point("q10-rect-first", (17, 0, 1, 0), TEN, "q1 with r2 is 17 times 2 to the 44th", BIG, twice(1))
point("q10-rect-first-edge", (16, 0, 1, 0), None, "16 times: 2 to the 48th exactly", BIG, twice(1))
point("q10-rect-second", (1, 0, 17, 0), TEN,
      "refused by the second stage alone: q1 with q2 is 17 times 2 to the 44th, with r2 and s2 in range", BIG, twice(1))
point("q10-rect-second-edge", (1, 0, 16, 0), None, "16 times: 2 to the 48th exactly", BIG, twice(1))
point("q10-rect-negative", (-1, 0, 17, 0), TEN, "minus 17 times 2 to the 44th", BIG, twice(3))
point("q10-rect-negative-edge", (-1, 0, 16, 0), None, "minus 2 to the 48th exactly", BIG, twice(3))
for k, line, end, words in ((65536, None, "-edge", "2 to the 48th"), (65537, TEN, "", "beyond 2 to the 48th")):
    for name, weights, others, how in (
            ("first", (2, 1, 0, 1), (1, k), "first stage alone: s1 and q1, with s2"),
            ("first-r2", (2, 1, 1, 0), (1, k, "Z"), "first stage alone: s1 and q1, with r2"),
            ("first-inner", (2, 1, 1, 1), (1, k, "TZ"), "first stage alone: s1 and q1, with r2 and s2"),
            ("first-turned", (1, 2, 0, 1), (1, k, "T", True), "first stage alone: r1 and q1, with s2"),
            ("second", (0, 1, 2, 1), (2, k), "second stage alone: q1 = s1, with s2 and q2"),
            ("second-turned", (1, 0, 1, 2), (2, k, "Z", True), "second stage alone: q1 = r1, with r2 and q2")):
        point("q10-rect-mixed-" + name + end, weights, line, "%s, has 16 g, %s; the point's x is 0" % (how, words),
              mixed(*others), grown(others[0]))
# Not named: a value with q2 and not all of the first pair's points q1
point("q-rect-not-symmetric", (0, 1, 17, 0), None,
      "r1 with q2 would be 17 times 2 to the 44th, but q1 = s1, and only q1 meets q2: found", BIG, twice(1))
point("q10-rect-exchanged", (17, 0, 0, 1), TEN,
      "the pairs' weights exchanged: q1 with r2 is named, refused, though the point's x is 0", BIG, twice(1))
point("q10-rect-exchanged-edge", (16, 0, 0, 1), None, "16 for 17: found", BIG, twice(1))
point("q-rect-not-symmetric-mixed", (2, 1, 0, 17), None,
      "degree 2: s1 and q1 with q2 would be 17 times 2 to the 44th, q1 twice with q2 is not: found",
      mixed(1, 4096), grown(1))
# x = 2^20 Z1^2 Z2 or 2^20 Z1 Z2^2, L = 2; the pair of degree 1 grown until entry 0 0 is 2^44
STEEP = f2(*(0, 1, 1, 0) * 2) + f3((M, 0, 0, 1), *[(0, 0, 0, 0)] * 5)
STEEP1 = (f1(3, 2, 1) + STEEP, RHEAD,
          {(i, j): (2 * M, 0, 0, 2) if i == j == 0 else (0, 0, 0, 0) for i in range(3) for j in range(2)})
STEEP2 = (f1(3, 1, 2) + STEEP, "rect 1 2 2\n",
          {(i, j): (2 * M, 0, 0, 2) if i == j == 0 else (0, 0, 0, 0) for i in range(2) for j in range(3)})
point("q10-rect-all-q1", (2, 0, 5, 0), TEN, "q1 = 2 r1 twice with q2 = 5 r2: 20 times 2 to the 44th; once it is 10 times",
      STEEP1, [(REPL, 3, 4096, 0, 0), (REPL, 3, 2048, 0, 0)])
point("q10-rect-all-q1-edge", (2, 0, 4, 0), None, "q2 = 4 r2: 2 to the 48th exactly",
      STEEP1, [(REPL, 3, 4096, 0, 0), (REPL, 3, 2048, 0, 0)])
point("q10-rect-all-q2", (5, 0, 2, 0), TEN, "the same with degree 2 in the second pair: q1 = 5 r1 with q2 = 2 r2 twice",
      STEEP2, [(REPL, 1, 4096, 0, 0), (REPL, 1, 2048, 0, 0)])
point("q10-rect-all-q2-edge", (4, 0, 2, 0), None, "q1 = 4 r1: 2 to the 48th exactly",
      STEEP2, [(REPL, 1, 4096, 0, 0), (REPL, 1, 2048, 0, 0)])

# ------------------------------------------------------------------------------
group("records at the limits that pass")
# x = T1 Z1^(p-1) Z2^q, y = Z1^p T2 Z2^(q-1), w = Z1^p Z2^q, every Z being 1: entry i j has
# x = i L/p, y = j L/q, w = L
for p, q in ((1, 1), (5, 5), (1, 5), (5, 1)):
    L = CURVE[p - 1] * CURVE[q - 1]
    rows = [(0, 0, 0, 0)] * ((p + 1) * (q + 1))
    rows[0], rows[1], rows[q + 1] = (0, 0, 0, 1), (0, 1, 0, 0), (1, 0, 0, 0)
    S("ok-rect-%d-%d" % (p, q), f1(3, p, q) + R2 + f3(*rows), "rect %d %d %d\n" % (p, q, L) + "".join(
        "%d %d %d %d 0 %d\n" % (i, j, i * L // p, j * L // q, L) for i in range(p + 1) for j in range(q + 1)),
      "degrees (%d, %d): scale %d" % (p, q, L))
S("ok-rect-frame-4", f1(3, 1, 1) + f2(4, -4, -4, -4, -4, 4, 4, 4) + PRODUCTS,
  "rect 1 1 1\n0 0 -16 16 16 -16\n0 1 16 16 -16 -16\n1 0 16 -16 16 -16\n1 1 -16 -16 -16 -16\n",
  "frame numbers 4 and -4 in both pairs")
S("ok-rect-coefficients", CORNERS + f3((M, -M, 0, M), (0, 0, 0, -M), (-M, 0, 0, 0), (M, M, M, M)),
  "rect 1 1 1\n0 0 1048576 -1048576 0 1048576\n0 1 0 0 0 -1048576\n1 0 -1048576 0 0 0\n"
  "1 1 1048576 1048576 1048576 1048576\n", "coefficients 1048576 and -1048576")
S("ok-rect-zero", R1 + R2 + f3(*[(0, 0, 0, 0)] * 6) + f5(1, 0, 0, 1),
  RHEAD + "".join("%d %d 0 0 0 0\n" % (i, j) for i in range(3) for j in range(2)) + "nowhere\n", "all coefficients 0")
S("ok-rect-no-moves", R + f4() + f5(1, 1, 1, 1), RHEAD + lines(RNET) + at(12, 16, 10, 20), "field 4 of length 0")
S("ok-rect-32-refused", R + f4(*[(REPL, 5, 1, 1, 0)] * 32),
  RHEAD + "".join("move %d refused 8\n" % k for k in range(1, 33)) + lines(RNET), "32 moves, all refused 8")
# w = Z1^5 Z2^5 only: every entry is L = 100, and the point (1, 1, 1, 1) has w = 100 x 2^10
LONG = f1(3, 5, 5) + R2 + f3((0, 0, 0, 1), *[(0, 0, 0, 0)] * 35) + f4(*[(FLP, 3, 0, 0, 0)] * 32) + f5(1, 1, 1, 1)
assert len(LONG) == 874
S("ok-rect-874", LONG, "rect 5 5 100\n" + "".join("%d %d 0 0 0 100\n" % (i, j) for i in range(6) for j in range(6))
  + at(0, 0, 0, 1), "the longest record of a rectangular patch, 874 bytes: degrees (5, 5), 32 moves, a point")
# x = y = z = w = -2^20 T1^5 T2^5 and every T is 4: each number is -2^20 x 100 x 4^10
LONGEST = ("rect 5 5 100\n" + "".join("move %d refused 10\n" % k for k in range(1, 33))
           + "".join("%d %d%s\n" % (i, j, " -109951162777600" * 4) for i in range(6) for j in range(6))
           + at(1, 1, 1, 1))
S("ok-rect-longest-text", f1(3, 5, 5) + f2(*(4, 4, 4, 3) * 2) + f3(*[(0, 0, 0, 0)] * 35, (-M, -M, -M, -M))
  + f4(*[(REPL, 4, 0, 4096, 0)] * 32) + f5(1, 0, 1, 0), LONGEST,
  "32 moves refused 10, 144 numbers of 16 characters, a point: a text of %d bytes"
  % (len(LONGEST) + len("frame 4 4 4 3 4 4 4 3\n")))

# ------------------------------------------------------------------------------
group("the 25 scales; x is L in every entry, w is L divided by the product of the binomials")
# Over the frame of the coordinates an entry is the coefficient of its own monomial times L divided by
# the product of its two binomials.
for p in range(1, 6):
    for q in range(1, 6):
        L = CURVE[p - 1] * CURVE[q - 1]
        products = {(i, j): math.comb(p, i) * math.comb(q, j) for i in range(p + 1) for j in range(q + 1)}
        assert all(L % n == 0 for n in products.values())
        assert math.gcd(*(L // n for n in products.values())) == 1
        S("scale-rect-%d-%d" % (p, q), f1(3, p, q) + f2(*(0, 1, 1, 0) * 2)
          + f3(*((products[e], 0, 0, 1) for e in sorted(products))),
          "rect %d %d %d\n" % (p, q, L)
          + "".join("%d %d %d 0 0 %d\n" % (e + (L, L // products[e])) for e in sorted(products)),
          "degrees (%d, %d): scale %d x %d = %d" % (p, q, CURVE[p - 1], CURVE[q - 1], L))


def samples():
    return OUT
