#!/usr/bin/env python3
"""An independent calculator for document 01 (01-scope.md) with requests E2 (length of a
direction), E3 (rectangular patches), E5 (the net knows its frame) and E7 (curves through a
common zero), exact integers and fractions only.

    python3 calculator.py netprint  < record.bin     the text of netprint
    python3 calculator.py netprint -x < record.hex   the same, record in hex
    python3 calculator.py selftest                   samples B1 to B10 and more

Only polynomials and a frame are kept; every value is worked out anew from the
sigma recurrence, and no net is ever moved.  `selftest` also moves nets, by
trading each q for the weighted vertices until only entries are left, and
compares the two ways.  At a common zero of a curve the polynomials are divided;
`selftest` compares that with polar values, which are not used for it elsewhere, and
holds the bits of coordinates to the bound of request E13.
"""
import struct
import sys
from fractions import Fraction
from itertools import combinations_with_replacement, product
from math import factorial, gcd

RANGE = 281474976710656          # 2 ** 48
COEFF = 1048576                  # 2 ** 20; either sign
WEIGHT = 4096                    # either sign
READ_AT_MOST = 2048              # what follows does not count
WORD = {1: "curve", 2: "patch", 3: "rect"}
TOP = {1: (10,), 2: (8,), 3: (5, 5)}       # the largest degrees


# ---------------------------------------------------------------- definitions

def lcm(a, b):
    return a // gcd(a, b) * b


def groups(kind, degrees):
    """Groups of vertices, each as (vertices, degree).  A curve or a patch is one
    group; a rectangular patch is two, the pairs r1, s1 and r2, s2."""
    if kind == 3:
        return [(2, m) for m in degrees]
    return [(kind + 1, degrees[0])]


def parts(kind, listed):
    """What belongs to the vertices, one after the other, cut into groups."""
    return [listed[:2], listed[2:]] if kind == 3 else [listed]


def group_monomials(n, m):
    """Exponents of one group: of T, or of U and V.  The last one runs fastest."""
    if n == 2:
        return [(k,) for k in range(m + 1)]
    return [(h, l) for h in range(m + 1) for l in range(m - h + 1)]


def monomials(kind, degrees):
    """Exponents in the order field 3 has them, a tuple for each group: the last
    one runs fastest."""
    return list(product(*(group_monomials(n, m) for n, m in groups(kind, degrees))))


def group_nomial(m, exponents):
    """Binomial or trinomial coefficient of one group's exponents."""
    d = factorial(m - sum(exponents))
    for e in exponents:
        d *= factorial(e)
    return factorial(m) // d


def nomial(degrees, mono):
    """The product of the groups' coefficients."""
    out = 1
    for m, exponents in zip(degrees, mono):
        out *= group_nomial(m, exponents)
    return out


def scale(kind, degrees):
    """L.  In one group it is the least number that all nomials of the degree
    divide; a rectangular patch has the product of its two curve scales."""
    out = 1
    for n, m in groups(kind, degrees):
        least = 1
        for exponents in group_monomials(n, m):
            least = lcm(least, group_nomial(m, exponents))
        out *= least
    return out


def sigma(n, points):
    """All sigma of a list of one group's points, as a table index -> number.

    Each point multiplies the product so far by Z + T x (or Z + U x + V y), and
    sigma is the coefficient at the index; what is not in the table is 0.
    """
    count = len(points)
    if n == 2:
        s = {(0,): 1}
        for (T, Z) in points:
            s = {(k,): Z * s.get((k,), 0) + T * s.get((k - 1,), 0)
                 for k in range(count + 1)}
        return s
    s = {(0, 0): 1}
    for (U, V, Z) in points:
        s = {(h, l): Z * s.get((h, l), 0) + U * s.get((h - 1, l), 0)
             + V * s.get((h, l - 1), 0)
             for h in range(count + 1) for l in range(count + 1 - h)}
    return s


def polar(kind, degrees, coeffs, points):
    """The scaled polar value, x, y, z and w alike.

    coeffs: list of (x, y, z, w) in the record's order of monomials.
    points: a list for each group."""
    assert [len(ps) for ps in points] == list(degrees)
    L = scale(kind, degrees)
    tables = [sigma(n, ps) for (n, _), ps in zip(groups(kind, degrees), points)]
    out = [0, 0, 0, 0]
    for mono, a in zip(monomials(kind, degrees), coeffs):
        f = L // nomial(degrees, mono)
        for table, exponents in zip(tables, mono):
            f *= table[exponents]
        for c in range(4):
            out[c] += a[c] * f
    return tuple(out)


def entries(kind, degrees):
    """Indices in the net's order, the entry of copies of r (r1 and r2) first."""
    if kind == 2:
        m = degrees[0]
        return [(i, j, m - i - j)
                for i in range(m, -1, -1) for j in range(m - i, -1, -1)]
    return list(product(*(range(m + 1) for m in degrees)))


def copies(kind, degrees, index):
    """How many times each vertex is taken.  A patch's index is the counts; others
    count s (s1 and s2) only, the rest being r (r1 and r2)."""
    if kind == 2:
        return index
    return tuple(n for m, j in zip(degrees, index) for n in (m - j, j))


def net(kind, degrees, coeffs, frame):
    out = []
    for e in entries(kind, degrees):
        points = [[v for v, n in zip(vertices, counts) for _ in range(n)]
                  for vertices, counts in zip(parts(kind, frame),
                                              parts(kind, copies(kind, degrees, e)))]
        out.append(polar(kind, degrees, coeffs, points))
    return out


def in_range(p):
    """Of a point's four components, or of a vertex's numbers."""
    return all(abs(c) <= RANGE for c in p)


def determinant(vertices):
    """Of one group."""
    if len(vertices) == 2:
        (a, b), (c, d) = vertices
        return a * d - b * c
    (a, b, c), (d, e, f), (g, h, i) = vertices
    return a * (e * i - f * h) - b * (d * i - f * g) + c * (d * h - e * g)


def flat(kind, frame):
    """Whether a determinant is 0: of the frame, or of one of two pairs."""
    return any(determinant(vertices) == 0 for vertices in parts(kind, frame))


def combine(vertices, weights):
    """The point q that the weights of one group name."""
    return tuple(sum(w * v[n] for w, v in zip(weights, vertices))
                 for n in range(len(vertices[0])))


def some_out_of_range(kind, degrees, coeffs, choices):
    """Whether any mixture of each group's choices, as many as its degree, has too
    large a value."""
    mixtures = [list(combinations_with_replacement(c, m)) for c, m in zip(choices, degrees)]
    return any(not in_range(polar(kind, degrees, coeffs, points))
               for points in product(*mixtures))


def replace_too_large(kind, degrees, coeffs, frame, own, q):
    """The replace's size rule: the own group's points are taken from its vertices
    and q, the other's from its vertices.  Also mixtures count that the new net
    does not contain."""
    choices = [list(vertices) for vertices in parts(kind, frame)]
    choices[own].append(q)
    return some_out_of_range(kind, degrees, coeffs, choices)


def point_too_large(kind, degrees, coeffs, frame, qs):
    """The point's size rule, one group after the other: the groups before have
    only their own point, the groups after only their vertices."""
    vertices = parts(kind, frame)
    for g, q in enumerate(qs):
        choices = [[before] for before in qs[:g]] + [list(vertices[g]) + [q]]
        choices += [list(after) for after in vertices[g + 1:]]
        if some_out_of_range(kind, degrees, coeffs, choices):
            return True
    return False


# ------------------------------------------------------------- moves and point

def judge_move(kind, degrees, coeffs, frame, op, vertex, weights):
    """(number, new frame).  Order 8, 9, 12, 10.  weights: the three of the record.
    The frame itself needs no test: it is a record's, or was reached by moves that were taken."""
    if op not in (1, 2) or not 1 <= vertex <= len(frame):
        return 8, frame
    if any(abs(w) > WEIGHT for w in weights):
        return 8, frame
    new = list(frame)
    if op == 2:
        if any(weights):
            return 8, frame
        new[vertex - 1] = tuple(-c for c in frame[vertex - 1])
        return 0, tuple(new)
    own, place = (1, vertex - 3) if kind == 3 and vertex > 2 else (0, vertex - 1)
    vertices = parts(kind, frame)[own]
    if any(weights[len(vertices):]):
        return 8, frame
    if weights[place] == 0:
        return 9, frame
    q = combine(vertices, weights)
    if not in_range(q):
        return 12, frame
    if replace_too_large(kind, degrees, coeffs, frame, own, q):
        return 10, frame
    new[vertex - 1] = q
    return 0, tuple(new)


def judge_point(kind, degrees, coeffs, frame, weights):
    """(number, point).  The q of a point may be of any size; only its values are tested."""
    if any(abs(w) > WEIGHT for w in weights):
        return 8, None
    if not all(any(ws) for ws in parts(kind, weights)):
        return 9, None
    qs = [combine(vertices, ws) for vertices, ws in zip(parts(kind, frame), parts(kind, weights))]
    if point_too_large(kind, degrees, coeffs, frame, qs):
        return 10, None
    return 0, polar(kind, degrees, coeffs, [[q] * m for q, m in zip(qs, degrees)])


def project(p):
    """("at", three f64), ("far", a direction's three whole numbers and its length) or ("nowhere",)."""
    if not in_range(p):
        return ("refused", 10)
    x, y, z, w = p
    if w != 0:
        return ("at",) + tuple(0.0 if c == 0 else float(c) / float(w)
                               for c in (x, y, z))
    if (x, y, z) == (0, 0, 0):
        return ("nowhere",)
    return ("far",) + reduced(x, y, z)


def bits(f):
    """An f64 as the line `at` has it."""
    return struct.pack(">d", f).hex()


def reduced(x, y, z):
    """Three whole numbers, not all 0, as a direction, and their greatest common divisor."""
    g = gcd(gcd(abs(x), abs(y)), abs(z))
    d = [x // g, y // g, z // g]
    if next(c for c in d if c != 0) < 0:
        d = [-c for c in d]
    return tuple(d) + (g,)


# ------------------------------------------------------- common zeros of a curve

def value_of(f, q):
    """A polynomial in T and Z, its coefficients at T^k Z^(n-k) with k rising, at q."""
    T, Z = q
    n = len(f) - 1
    return sum(a * T ** k * Z ** (n - k) for k, a in enumerate(f))


def divided(f, q):
    """The quotient of f and the linear form t Z - z T, which vanishes at q = (t, z); None if it does
    not divide f.  With the quotient g, the coefficient of f at T^k is t g_k - z g_(k-1)."""
    t, z = q
    n = len(f) - 1
    g = [Fraction(0)] * (n + 2)              # g[k + 1] is g_k, so that g_(-1) and g_n are there, 0
    if t != 0:
        for k in range(n):
            g[k + 1] = (f[k] + z * g[k]) / t
        return g[1:n + 1] if -z * g[n] == f[n] else None
    for k in range(n, 0, -1):
        g[k] = -f[k] / z
    return g[1:n + 1] if f[0] == 0 else None


def left_at(coeffs, q):
    """What is left at q of the four polynomials of a curve, once the linear form that vanishes there
    has been taken out as long as it divides all four.  Of the zero curve four zeros are left."""
    four = [[Fraction(a[c]) for a in coeffs] for c in range(4)]
    while len(four[0]) > 1:
        quotients = [divided(f, q) for f in four]
        if None in quotients:
            break
        four = quotients
    return [value_of(f, q) for f in four]


def project_left(left):
    """The projection of four fractions.  Any multiple of them reads alike, so a direction has no length
    of its own: it is 1."""
    x, y, z, w = left
    if w != 0:
        return ("at",) + tuple(float(c / w) for c in (x, y, z))
    if (x, y, z) == (0, 0, 0):
        return ("nowhere",)
    common = 1
    for c in (x, y, z):
        common = lcm(common, c.denominator)
    return ("far",) + reduced(*(int(c * common) for c in (x, y, z)))[:3] + (1,)


def project_found(kind, degrees, coeffs, frame, weights, p):
    """The projection of the point p, found at these weights."""
    if kind != 1 or any(p):
        return project(p)
    return project_left(left_at(coeffs, combine(frame, weights)))


# ------------------------------------------------------------------ the record

class Refused(Exception):
    def __init__(self, number, offset):
        Exception.__init__(self, number, offset)
        self.number, self.offset = number, offset


def head_at(b, p):
    """Tag and length of the field that begins at p."""
    return struct.unpack(">BH", b[p:p + 3])


def length_ok(tag, length, kind, degrees):
    """Whether the table allows this length; kind and degrees are those of field 1."""
    if tag == 1:
        return length in (2, 3)
    if tag == 2:
        return length == 2 * sum(n * n for n, _ in groups(kind, degrees))
    if tag == 3:
        return length == 16 * len(monomials(kind, degrees))
    if tag == 4:
        return length % 8 == 0 and length // 8 <= 32
    return length == 2 * sum(n for n, _ in groups(kind, degrees))


def known(kind, degrees):
    """A kind with as many degrees as it has, each from 1 to its limit."""
    top = TOP.get(kind, ())
    return len(degrees) == len(top) and all(1 <= m <= t for m, t in zip(degrees, top))


def read_record(b):
    """The record's fields, or Refused.  The tests are written in the order that
    decides the number, so the first to fail gives it."""
    seen = {}
    last = 0
    p = 0
    kind = degrees = None
    frame = coeffs = None
    while p < len(b):
        if len(b) - p < 3:                                   # three bytes present
            raise Refused(1, p)
        tag, length = head_at(b, p)
        if tag not in (1, 2, 3, 4, 5) or tag <= last:        # unknown, repeated, lower
            raise Refused(2, p)
        if any(t < tag and t not in seen for t in (1, 2, 3)):   # before a required one
            raise Refused(2, p)
        if not length_ok(tag, length, kind, degrees):        # length
            raise Refused(3, p)
        if p + 3 + length > len(b):                          # value present
            raise Refused(1, p)
        v = b[p + 3:p + 3 + length]
        if tag == 1:                                         # values
            kind, degrees = v[0], tuple(v[1:])
            if not known(kind, degrees):
                raise Refused(4, p)
        elif tag == 2:
            n = struct.unpack(">%dh" % (length // 2), v)
            d = groups(kind, degrees)[0][0]                  # numbers of a vertex
            frame = tuple(n[i:i + d] for i in range(0, len(n), d))
            if any(abs(c) > 4 for c in n) or flat(kind, frame):
                raise Refused(5, p)
        elif tag == 3:
            n = struct.unpack(">%di" % (length // 4), v)
            if any(abs(c) > COEFF for c in n):
                raise Refused(6, p)
            coeffs = [tuple(n[4 * i:4 * i + 4]) for i in range(len(n) // 4)]
        seen[tag] = p
        last = tag
        if tag == 4:
            moves = [struct.unpack(">BBhhh", v[8 * i:8 * i + 8])
                     for i in range(length // 8)]
        if tag == 5:
            point = struct.unpack(">%dh" % (length // 2), v)
        p += 3 + length
    if any(t not in seen for t in (1, 2, 3)):
        raise Refused(2, len(b))
    first = net(kind, degrees, coeffs, frame)
    if not all(in_range(e) for e in first):
        raise Refused(7, seen[3])
    return {"kind": kind, "degrees": degrees, "frame": frame, "coeffs": coeffs,
            "moves": moves if 4 in seen else [],
            "point": point if 5 in seen else None}


def first_line(kind, degrees):
    """Kind word, degree or both degrees, scale."""
    return " ".join([WORD[kind]] + [str(m) for m in degrees] + [str(scale(kind, degrees))])


def frame_line(frame):
    """The numbers of the frame reached, vertex by vertex."""
    return " ".join(["frame"] + [str(c) for v in frame for c in v])


def run(r):
    """The list a record asks for: refusals of moves, frame and net reached,
    and the point's line."""
    kind, degrees, coeffs = r["kind"], r["degrees"], r["coeffs"]
    frame = r["frame"]
    lines = [first_line(kind, degrees)]
    for k, (op, vertex, a, b, c) in enumerate(r["moves"], 1):
        number, frame = judge_move(kind, degrees, coeffs, frame, op, vertex, (a, b, c))
        if number:
            lines.append("move %d refused %d" % (k, number))
    lines.append(frame_line(frame))
    for e, p in zip(entries(kind, degrees), net(kind, degrees, coeffs, frame)):
        lines.append(" ".join(str(n) for n in tuple(e) + p))
    if r["point"] is not None:
        number, p = judge_point(kind, degrees, coeffs, frame, r["point"])
        if number:
            lines.append("point refused %d" % number)
        else:
            pr = project_found(kind, degrees, coeffs, frame, r["point"], p)
            if pr[0] == "at":
                lines.append("at " + " ".join(bits(f) for f in pr[1:]))
            else:
                lines.append(" ".join(str(n) for n in pr))
    return lines, frame


def netprint(b):
    b = b[:READ_AT_MOST]
    try:
        r = read_record(b)
    except Refused as e:
        return "refused %d at %d\n" % (e.number, e.offset)
    return "".join(l + "\n" for l in run(r)[0])


# -------------------------------------------------------------- record writing

def record(kind, degrees, frame, coeffs, moves=None, point=None):
    """Bytes of a record.  Nothing is tested, so broken ones can be made too.
    moves: list of (op, vertex, a, b, c); None leaves field 4 out."""
    def field(tag, value):
        return struct.pack(">BH", tag, len(value)) + value
    out = field(1, bytes((kind,) + tuple(degrees)))
    out += field(2, b"".join(struct.pack(">h", c) for v in frame for c in v))
    out += field(3, b"".join(struct.pack(">i", c) for q in coeffs for c in q))
    if moves is not None:
        out += field(4, b"".join(struct.pack(">BBhhh", *mv) for mv in moves))
    if point is not None:
        out += field(5, b"".join(struct.pack(">h", c) for c in point))
    return out


def hexlines(b):
    """One field per paragraph line, value wrapped at 32 bytes."""
    out, p = [], 0
    while p < len(b):
        if len(b) - p < 3:
            out.append(b[p:].hex())
            break
        ln = int.from_bytes(b[p + 1:p + 3], "big")
        out.append(b[p:p + 3].hex())
        v = b[p + 3:p + 3 + ln]
        out += [v[i:i + 32].hex() for i in range(0, len(v), 32)]
        p += 3 + ln
    return "".join(l + "\n" for l in out if l)


# -------------------------------------------------------------------- selftest

def net_move(table, own, vertex, weights):
    """Replace by the handed-net rule only; table maps copies -> value, own are the
    places of the vertices that the weights belong to."""
    def value(counts):           # counts: copies of each vertex, then of q
        if counts[-1] == 0:
            return table[counts[:-1]]
        out = [0, 0, 0, 0]
        for i, weight in zip(own, weights):
            c = list(counts)
            c[-1] -= 1
            c[i] += 1
            v = value(tuple(c))
            for n in range(4):
                out[n] += weight * v[n]
        return tuple(out)
    new = {}
    for c in table:
        d = list(c) + [c[vertex]]
        d[vertex] = 0
        new[c] = value(tuple(d))
    return new


def value_at(kind, degrees, coeffs, qs):
    """F at one point for each group, by powers."""
    out = [0] * 4
    for mono, a in zip(monomials(kind, degrees), coeffs):
        t = 1
        for q, m, exponents in zip(qs, degrees, mono):
            t *= q[-1] ** (m - sum(exponents))
            for e, x in zip(exponents, q):
                t *= x ** e
        for c in range(4):
            out[c] += a[c] * t
    return out


def first_polar(degrees, coeffs, frame, weights):
    """The second way to what is projected at a common zero of a curve: the first that is not four zeros of
    the polar values of m - d copies of q and d of r, d from 1 to m; of s where q's weight of s is 0."""
    m, q, other = degrees[0], combine(frame, weights), frame[0 if weights[1] else 1]
    values = (polar(1, degrees, coeffs, [[q] * (m - d) + [other] * d]) for d in range(1, m + 1))
    return next((v for v in values if any(v)), (0, 0, 0, 0))


def times_form(f, form):
    """A polynomial in T and Z times the linear form form[0] T + form[1] Z."""
    a, b = form
    return [b * x + a * y for x, y in zip(f + [0], [0] + f)]


def curve_through(rnd, m, order, q):
    """Four polynomials of degree m that vanish at q to at least this order, some to a higher one; some
    are 0, and beyond m all are."""
    four = []
    for _ in range(4):
        own = min(m, order + rnd.choice((0, 0, 0, 1, 2)))
        f = [rnd.randint(-3, 3) for _ in range(m - own + 1)]
        if rnd.random() < 0.2 or order > m:
            f = [0] * len(f)
        for _ in range(own):
            f = times_form(f, (q[1], -q[0]))
        four.append(f)
    return list(zip(*four))


def share(text, x, w):
    """How far the f64 of these hex digits is from x / w, exactly, with |x / w| / 2^53 as the unit: the bound
    of request E13 is 1.  0 is +0 or not within it."""
    if x == 0:
        return 0 if text == "0" * 16 else 2
    f = Fraction(struct.unpack(">d", bytes.fromhex(text))[0])
    return abs(f * w / x - 1) * 2 ** 53


def check_shares(check):
    """Both sides of the bound, at quotients that are known."""
    near = (28059810762434, 28059810762433)            # nearest to a tie
    for text, (x, w), want in (
            ("3fd5555555555554", (1, 3), 2), ("3fd5555555555555", (1, 3), Fraction(1, 2)),
            ("3fd5555555555556", (1, 3), 1), ("3fd5555555555557", (1, 3), Fraction(5, 2)),
            ("3fe3333333333333", (6, 10), Fraction(1, 3)), ("3fe999999999999a", (8, 10), Fraction(1, 2)),
            ("3ff00000000000a0", near, 1 - Fraction(1, 14029905381217)), ("3ff00000000000a1", near, 1),
            ("0" * 16, (0, -5), 0), ("8" + "0" * 15, (0, -5), 2), ("0" * 15 + "1", (0, 5), 2)):
        check("share " + text, share(text, x, w), want)


def check_common_zeros(check, rnd, count):
    """The two ways to the projection at a common zero, on random curves and weights."""
    came = set()
    for _ in range(count):
        m = rnd.randint(1, 10)
        frame = ((0, 1), (0, 1))
        while flat(1, frame):
            frame = tuple((rnd.randint(-4, 4), rnd.randint(-4, 4)) for _ in range(2))
        weights = rnd.choice(((rnd.choice((1, -2)), 0), (0, rnd.choice((1, -3))),
                              (rnd.randint(1, 4), rnd.choice((-1, 1)) * rnd.randint(1, 4))))
        order, q = rnd.randint(1, m + 1), combine(frame, weights)
        coeffs = curve_through(rnd, m, order, q)
        check("common zero", value_at(1, (m,), coeffs, [q]), [0] * 4)
        numbers = first_polar((m,), coeffs, frame, weights)
        left, pr = left_at(coeffs, q), project_found(1, (m,), coeffs, frame, weights, (0,) * 4)
        check("multiples", [numbers[i] * left[j] for i in range(4) for j in range(4)],
              [numbers[j] * left[i] for i in range(4) for j in range(4)])
        check("some is left", any(numbers), any(any(a) for a in coeffs))
        if numbers[3]:
            want = ("at",) + tuple(c / numbers[3] if c else 0.0 for c in numbers[:3])
        else:
            want = ("far",) + reduced(*numbers[:3])[:3] + (1,) if any(numbers) else ("nowhere",)
        check("projection", pr, want)
        if pr[0] == "at":
            check("bound", all(share(bits(f), c, numbers[3]) <= 1 for f, c in zip(pr[1:], numbers)), True)
        came.add(pr[0])
    check("all three came", came, {"at", "far", "nowhere"})


def selftest():
    import random
    ok = []

    def check(name, got, want):
        ok.append(got == want)
        if got != want:
            print("FAIL", name, "got", got, "want", want)

    # the rows of document 02, E4; among them are the scales that document 01 names
    rows = ((1, (1, 2, 3, 12, 10, 60, 105, 280, 252, 2520)),
            (2, (1, 2, 6, 12, 60, 180, 420, 1680)))
    scales = [(kind, (m,), L) for kind, row in rows for m, L in enumerate(row, 1)]
    curves = (1, 2, 3, 12, 10)
    scales += [(3, (p, q), curves[p - 1] * curves[q - 1])
               for p in range(1, 6) for q in range(1, 6)]
    for kind, degrees, L in scales:
        check("scale", scale(kind, degrees), L)
        all_of_degree = [nomial(degrees, mono) for mono in monomials(kind, degrees)]
        divided = [k for k in range(1, L + 1) if all(k % n == 0 for n in all_of_degree)]
        check("least number divided by all", divided, [L])
    circle = [(1, 0, 0, 1), (0, 2, 0, 0), (-1, 0, 0, 1)]
    cf = ((0, 1), (1, 1))
    check("B1", net(1, (2,), circle, cf), [(2, 0, 0, 2), (2, 2, 0, 2), (0, 4, 0, 4)])
    check("B2", judge_point(1, (2,), circle, cf, (1, 1)), (0, (6, 8, 0, 10)))
    n, f3 = judge_move(1, (2,), circle, cf, 1, 2, (1, 1, 0))
    check("B3", (n, net(1, (2,), circle, f3)),
          (0, [(2, 0, 0, 2), (4, 2, 0, 4), (6, 8, 0, 10)]))
    n, f4 = judge_move(1, (2,), circle, cf, 2, 1, (0, 0, 0))
    check("B4", (n, net(1, (2,), circle, f4)),
          (0, [(2, 0, 0, 2), (-2, -2, 0, -2), (0, 4, 0, 4)]))
    check("B5", judge_point(1, (2,), circle, f4, (1, 1)), (0, (-2, 0, 0, 2)))
    folium = [(0, 0, 0, 1), (3, 0, 0, 0), (0, 3, 0, 0), (0, 0, 0, 1)]
    check("B6", net(1, (3,), folium, cf),
          [(0, 0, 0, 3), (3, 0, 0, 3), (6, 3, 0, 3), (9, 9, 0, 6)])
    n, p = judge_point(1, (3,), folium, cf, (2, -1))
    check("B7", (n, p, project(p)), (0, (-9, 9, 0, 0), ("far", 1, -1, 0, 9)))
    # h, l: (0,0) (0,1) (0,2) (1,0) (1,1) (2,0)
    b8 = [(0, 0, 0, 1), (0, 1, 0, 0), (0, 0, 0, 0),
          (1, 0, 0, 0), (0, 0, 1, 0), (0, 0, 0, 0)]
    pf = ((1, 0, 1), (0, 1, 1), (0, 0, 1))
    check("B8", net(2, (2,), b8, pf),
          [(2, 0, 0, 2), (1, 1, 1, 2), (1, 0, 0, 2),
           (0, 2, 0, 2), (0, 1, 0, 2), (0, 0, 0, 2)])
    check("B9", judge_point(2, (2,), b8, pf, (1, 1, 1)), (0, (6, 6, 2, 18)))
    b10 = [(1048576, 0, 0, 1), (0, 0, 0, 1)]
    f = ((0, 1), (1, 0))
    for w in ((4096, 1, 0), (4096, 1, 0), (16, 1, 0)):
        n, f = judge_move(1, (1,), b10, f, 1, 1, w)
        check("B10 taken", n, 0)
    check("B10", net(1, (1,), b10, f)[0][0], 2 ** 48)
    f = ((0, 1), (1, 0))
    for w in ((4096, 1, 0), (4096, 1, 0)):
        n, f = judge_move(1, (1,), b10, f, 1, 1, w)
    check("B10 refused", judge_move(1, (1,), b10, f, 1, 1, (17, 1, 0)), (10, f))
    check("4096", judge_move(1, (2,), circle, cf, 1, 1, (4096, 4096, 0))[0], 0)
    check("4097", judge_move(1, (2,), circle, cf, 1, 1, (4097, 1, 0))[0], 8)
    check("empty", netprint(b""), "refused 2 at 0\n")
    check("circle record", netprint(record(1, (2,), cf, circle, None, (1, 1))),
          "curve 2 2\nframe 0 1 1 1\n0 2 0 0 2\n1 2 2 0 2\n2 0 4 0 4\n"
          "at 3fe3333333333333 3fe999999999999a 0000000000000000\n")
    # x = T1 Z2, y = Z1 T2, z = T1 T2, w = Z1 Z2 over (0, 1), (1, 1) twice: entry i j is the
    # point at u = i, v = j; q = (1, 2) in both pairs is the point at 1/2, 1/2, times 4
    saddle = [(0, 0, 0, 1), (0, 1, 0, 0), (1, 0, 0, 0), (0, 0, 1, 0)]
    check("rect", net(3, (1, 1), saddle, cf + cf),
          [(0, 0, 0, 1), (0, 1, 0, 1), (1, 0, 0, 1), (1, 1, 1, 1)])
    check("rect point", judge_point(3, (1, 1), saddle, cf + cf, (1, 1, 1, 1)), (0, (2, 2, 1, 4)))
    check("rect pair", judge_point(3, (1, 1), saddle, cf + cf, (1, 1, 0, 0))[0], 9)
    check("rect record", netprint(record(3, (1, 1), cf + cf, saddle, [(1, 4, 1, 1, 0)])),
          "rect 1 1 1\nframe 0 1 1 1 0 1 1 2\n0 0 0 0 0 1\n0 1 0 1 0 2\n1 0 1 0 0 1\n1 1 2 1 1 2\n")
    # x = T over r = (0, 1): replaces of r by multiples of r leave every entry as it is
    still, f = [(0, 0, 0, 0), (1, 0, 0, 0)], cf
    for n in range(4):
        k, f = judge_move(1, (1,), still, f, 1, 1, (4096, 0, 0))
        check("frame grows", (k, f[0]), (0, (0, 4096 ** (n + 1))))
    check("2^48", f[0][1], RANGE)
    check("2^48 + 1", judge_move(1, (1,), still, f, 1, 2, (1, 1, 0)), (12, f))
    check("2^48 - 1", judge_move(1, (1,), still, f, 1, 2, (-1, 1, 0)), (0, (f[0], (1, 1 - RANGE))))
    check("9 before 12", judge_move(1, (1,), still, f, 1, 2, (2, 0, 0))[0], 9)
    check("8 before 12", judge_move(1, (1,), still, f, 1, 2, (2, 1, 1))[0], 8)
    # x of s is 2^44, so 17 s has too large a value; with r in it q is too large besides
    steep, g = [(0, 0, 0, 0), (COEFF, 0, 0, 0)], ((0, RANGE), (2 ** 24, 1))
    check("10 alone", judge_move(1, (1,), steep, g, 1, 2, (0, 17, 0))[0], 10)
    check("12 before 10", judge_move(1, (1,), steep, g, 1, 2, (1, 17, 0))[0], 12)
    check("a flip at 2^48", judge_move(1, (1,), still, f, 2, 1, (0, 0, 0)), (0, ((0, -RANGE), (1, 1))))
    check("a point's q", judge_point(1, (1,), still, f, (4096, 1)), (0, (1, 0, 0, 0)))
    # the circle times (2T - Z)(3T - 2Z): at its roots 1/2 and 2/3 it goes on
    circle_4 = list(zip(*(times_form(times_form(list(f), (2, -1)), (3, -2)) for f in zip(*circle))))
    for w, u in (((1, 1), Fraction(1, 2)), ((1, 2), Fraction(2, 3))):
        check("found four", judge_point(1, (4,), circle_4, cf, w), (0, (0, 0, 0, 0)))
        check("circle of degree 4", project_found(1, (4,), circle_4, cf, w, (0,) * 4),
              ("at", float((1 - u * u) / (1 + u * u)), float(2 * u / (1 + u * u)), 0.0))
    check("bare zeros", project((0, 0, 0, 0)), ("nowhere",))
    check_common_zeros(check, random.Random(7), 600)
    check_shares(check)
    # frame-based moves against net-based moves, and L x F(q), on random records
    rnd, shares = random.Random(1), []
    for _ in range(300):
        kind = rnd.choice((1, 2, 3))
        degrees = tuple(rnd.randint(1, top) for top in {1: (6,), 2: (4,), 3: (3, 2)}[kind])
        sizes = [n for n, _ in groups(kind, degrees)]
        while True:
            frame = tuple(tuple(rnd.randint(-2, 2) for _ in range(n)) for n in sizes for _ in range(n))
            if not flat(kind, frame):
                break
        coeffs = [tuple(rnd.randint(-9, 9) for _ in range(4)) for _ in monomials(kind, degrees)]
        counts = [copies(kind, degrees, e) for e in entries(kind, degrees)]
        tab = dict(zip(counts, net(kind, degrees, coeffs, frame)))
        for _ in range(3):
            v = rnd.randrange(len(frame))
            if rnd.random() < 0.4:
                n, frame = judge_move(kind, degrees, coeffs, frame, 2, v + 1, (0, 0, 0))
                tab = {c: tuple(-x for x in p) if c[v] % 2 else p for c, p in tab.items()}
            else:
                own = next(part for part in parts(kind, range(len(frame))) if v in part)
                w = [rnd.randint(-3, 3) for _ in own]
                n, fr = judge_move(kind, degrees, coeffs, frame, 1, v + 1,
                                   tuple(w + [0] * (3 - len(own))))
                if n == 9:
                    check("nine", w[v - own[0]], 0)
                    continue
                check("no size", n, 0)
                frame = fr
                tab = net_move(tab, own, v, w)
        check("nets", tab, dict(zip(counts, net(kind, degrees, coeffs, frame))))
        w = tuple(rnd.randint(-3, 3) for _ in frame)
        n, p = judge_point(kind, degrees, coeffs, frame, w)
        if all(any(part) for part in parts(kind, w)):
            qs = [combine(vs, ws) for vs, ws in zip(parts(kind, frame), parts(kind, w))]
            want = value_at(kind, degrees, coeffs, qs)
            check("L F(q)", p, tuple(scale(kind, degrees) * c for c in want))
            if p[3] != 0:
                shares += [share(bits(f), c, p[3]) for f, c in zip(project(p)[1:], p)]
    check("bound, more than half of it", Fraction(1, 2) < max(shares) <= 1, True)
    print("%d checks, %d failed" % (len(ok), ok.count(False)))
    return 0 if all(ok) else 1


def main(argv):
    if argv[:1] == ["selftest"]:
        return selftest()
    if argv[:1] == ["netprint"]:
        b = sys.stdin.buffer.read()
        if "-x" in argv[1:]:
            b = bytes.fromhex("".join(b.decode("ascii").split()))
        sys.stdout.write(netprint(b))
        return 0
    sys.stderr.write(__doc__)
    return 2


if __name__ == "__main__":
    sys.exit(main(sys.argv[1:]))
