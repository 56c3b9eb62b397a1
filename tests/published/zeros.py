"""Common zeros: records of curves whose point is one, and wrong rules for the projection there.  Used by
fuzz.py."""
import calculator as calc

SMALL = ((0, 1), (1, 0), (1, 1), (-1, 1), (1, 2), (2, 1), (-1, 2), (2, -1), (3, 1), (1, -3))


# --------------------------------------------------------------------------------- records

def weights_of(frame, q):
    """Least whole weights that name a multiple of q over this frame of a curve."""
    (a, b), (c, d), (t, z) = *frame, q
    alpha, beta = t * d - z * c, a * z - b * t
    g = calc.gcd(alpha, beta)
    return alpha // g, beta // g


def product(rnd, m, order, q):
    """Four polynomials with the form that vanishes at q in them, at least so many times."""
    four = []
    for c in range(4):
        own = min(m, order + (rnd.random() < (0.4 if c == 3 else 0.1)))
        f = [rnd.randint(-4, 4) for _ in range(m - own + 1)]
        if rnd.random() < 0.15:
            f = [0] * len(f)
        for _ in range(own):
            f = calc.times_form(f, (q[1], -q[0]))
        four.append(f)
    return list(zip(*four))


def some_move(rnd):
    if rnd.random() < 0.3:
        return (2, rnd.randint(1, 2), rnd.choice((0, 0, 0, 0, 1)), 0, 0)
    top = rnd.choice((1, 2, 3, 4096, 4097))
    return (1, rnd.randint(1, 2), rnd.randint(-top, top), rnd.randint(-3, 3), 0)


def curve_through(rnd):
    """A curve, at times moved, and a point that is mostly at a common zero of any order up to the degree;
    now and then at a weight's limit, or on the zero curve."""
    m, q = rnd.randint(1, 10), rnd.choice(SMALL)
    order = rnd.choice((1, m, rnd.randint(1, m), rnd.randint(1, m)))
    frame = ((0, 1), (0, 1))
    while calc.flat(1, frame):
        one, other = rnd.choice(SMALL), rnd.choice(SMALL)
        frame = rnd.choice(((q, other), (one, q), (one, other)))
    coeffs = product(rnd, m, order, q) if rnd.random() < 0.95 else [(0, 0, 0, 0)] * (m + 1)
    moves = [some_move(rnd) for _ in range(rnd.choice((0, 0, 1, 2, 3)))]
    reached = frame
    for op, vertex, *weights in moves:
        reached = calc.judge_move(1, (m,), coeffs, reached, op, vertex, tuple(weights))[1]
    alpha, beta = weights_of(reached, q)
    times = rnd.choice((1, 1, -1, 2, 3, max(1, 4096 // max(abs(alpha), abs(beta)))))
    point = (times * alpha, times * beta)
    if max(map(abs, point)) > 4097 or rnd.random() < 0.08:
        point = (rnd.randint(-3, 3), rnd.randint(-3, 3))
    return calc.record(1, (m,), frame, coeffs, moves or None, point)


def patch_through(rnd):
    """A patch of either kind of which one monomial is there, at a point on a vertex or a side: mostly all
    four polynomials vanish."""
    kind = rnd.choice((2, 3))
    degrees = tuple(rnd.randint(1, 3) for _ in calc.TOP[kind])
    coeffs = [(0, 0, 0, 0) for _ in calc.monomials(kind, degrees)]
    coeffs[rnd.randrange(len(coeffs))] = tuple(rnd.randint(-3, 3) for _ in range(4))
    units = ((0, 0, 1), (1, 0, 0), (0, 1, 0)) if kind == 2 else ((0, 1), (1, 0)) * 2
    point = tuple(rnd.choice((0, 0, 1, -2)) for _ in units)
    return calc.record(kind, degrees, units, coeffs, None, point)


def through_zero(rnd):
    return patch_through(rnd) if rnd.random() < 0.2 else curve_through(rnd)


# ------------------------------------------------------------------------------ wrong rules

# Each takes what calc.project_found takes.  Those for curves are asked at common zeros alone, but for the
# ones that say so.

def polars(degrees, coeffs, frame, weights, other):
    """The polar values of m - d copies of q and d of the other vertex, d from 0 to m."""
    m, q = degrees[0], calc.combine(frame, weights)
    return [calc.polar(1, degrees, coeffs, [[q] * (m - d) + [other] * d]) for d in range(m + 1)]


def right_polars(kind, degrees, coeffs, frame, weights, p):
    return polars(degrees, coeffs, frame, weights, frame[0 if weights[1] else 1])


def first_of(values):
    return next((v for v in values if any(v)), (0, 0, 0, 0))


def with_length_1(projection):
    return projection[:4] + (1,) if projection[0] == "far" else projection


def still_nowhere(*call):
    return calc.project((0, 0, 0, 0))


def length_kept(*call):
    return calc.project(first_of(right_polars(*call)))


def not_order_m(*call):
    return with_length_1(calc.project(first_of(right_polars(*call)[:-1])))


def first_left_out(*call):
    return with_length_1(calc.project(first_of(right_polars(*call)[2:])))


def the_next_one(*call):
    values = right_polars(*call)
    d = next((d for d, v in enumerate(values) if any(v)), 0)
    return with_length_1(calc.project(values[min(d + 1, len(values) - 1)]))


def always_r(kind, degrees, coeffs, frame, weights, p):
    return with_length_1(calc.project(first_of(polars(degrees, coeffs, frame, weights, frame[0]))))


def always_s(kind, degrees, coeffs, frame, weights, p):
    return with_length_1(calc.project(first_of(polars(degrees, coeffs, frame, weights, frame[1]))))


def by_one(component):
    """The first of the polar values in which this component is not 0."""
    def rule(*call):
        found = next((v for v in right_polars(*call) if v[component]), (0, 0, 0, 0))
        return with_length_1(calc.project(found))
    return rule


def one_power(kind, degrees, coeffs, frame, weights, p):
    q = calc.combine(frame, weights)
    four = [calc.divided([calc.Fraction(a[c]) for a in coeffs], q) for c in range(4)]
    return calc.project_left([calc.value_of(f, q) for f in four])


def own_powers(kind, degrees, coeffs, frame, weights, p):
    q = calc.combine(frame, weights)
    return calc.project_left([calc.left_at([(a[c],) * 4 for a in coeffs], q)[0] for c in range(4)])


def left_elsewhere(place):
    """What is left is looked at in another place: at this vertex."""
    def rule(kind, degrees, coeffs, frame, weights, p):
        q, four = calc.combine(frame, weights), [[calc.Fraction(a[c]) for a in coeffs] for c in range(4)]
        while len(four[0]) > 1 and not any(calc.value_of(f, q) for f in four):
            four = [calc.divided(f, q) for f in four]
        return calc.project_left([calc.value_of(f, frame[place]) for f in four])
    return rule


def at_vertices_alone(kind, degrees, coeffs, frame, weights, p):
    if all(weights):
        return calc.project(p)
    return calc.project_left(calc.left_at(coeffs, calc.combine(frame, weights)))


def between_alone(kind, degrees, coeffs, frame, weights, p):
    if not all(weights):
        return calc.project(p)
    return calc.project_left(calc.left_at(coeffs, calc.combine(frame, weights)))


def length_1_everywhere(kind, degrees, coeffs, frame, weights, p):
    """At every point of a curve."""
    return with_length_1(calc.project_left(calc.left_at(coeffs, calc.combine(frame, weights))))


def where_w_is_0(kind, degrees, coeffs, frame, weights, p):
    """At every point of a curve: w alone tells a zero, and its power is taken out."""
    if p[3]:
        return calc.project(p)
    return by_one(3)(kind, degrees, coeffs, frame, weights, p)


def patches_too(kind, degrees, coeffs, frame, weights, p):
    """At a zero of a patch: the first value that is not 0 of those with q in fewer places of each group, and
    the first vertex in the others."""
    if any(p):
        return calc.project(p)
    frames, own = calc.parts(kind, frame), calc.parts(kind, weights)
    qs = [calc.combine(vs, ws) for vs, ws in zip(frames, own)]
    others = [vs[0 if any(ws[1:]) else 1] for vs, ws in zip(frames, own)]

    def value(d):
        lists = [[q] * max(0, m - d) + [v] * min(d, m) for q, v, m in zip(qs, others, degrees)]
        return calc.polar(kind, degrees, coeffs, lists)
    return with_length_1(calc.project(first_of(value(d) for d in range(1, max(degrees) + 1))))


CURVE, ZERO, PATCH = "a curve", "a common zero of a curve", "a zero of a patch"
RULES = (
    (ZERO, "nowhere", still_nowhere), (ZERO, "the length kept", length_kept),
    (ZERO, "order m is nowhere", not_order_m),
    (ZERO, "the first polar value left out", first_left_out),
    (ZERO, "the polar value after it", the_next_one),
    (ZERO, "r also where q's weight of s is 0", always_r), (ZERO, "s in all cases", always_s),
    (ZERO, "x alone must not be 0", by_one(0)), (ZERO, "w alone must not be 0", by_one(3)),
    (ZERO, "one power taken out", one_power), (ZERO, "each polynomial's own power taken out", own_powers),
    (ZERO, "what is left, at r", left_elsewhere(0)), (ZERO, "what is left, at s", left_elsewhere(1)),
    (ZERO, "seen at vertices alone", at_vertices_alone), (ZERO, "seen between vertices alone", between_alone),
    (CURVE, "every length 1", length_1_everywhere), (CURVE, "w alone tells a zero", where_w_is_0),
    (PATCH, "as on a curve", patches_too),
)


class Projecting:
    """The calculator with another rule for the projection of what is found, while it is open."""

    def __init__(self, where, rule):
        self.where, self.rule = where, rule

    def project_found(self, kind, degrees, coeffs, frame, weights, p):
        asked = {ZERO: kind == 1 and not any(p), CURVE: kind == 1, PATCH: kind != 1}[self.where]
        rule = self.rule if asked else self.right
        return rule(kind, degrees, coeffs, frame, weights, p)

    def __enter__(self):
        self.right, calc.project_found = calc.project_found, self.project_found

    def __exit__(self, *_):
        calc.project_found = self.right
