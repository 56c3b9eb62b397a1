"""The polar values that a call's size rule names: records in which a chosen one is beyond 2 to the
48th and no other is, and size rules that are wrong.  Used by fuzz.py.

A name is, for each group of vertices, how often q is taken and then how often each vertex.  On a
curve of degree 3, ((1, 1, 1),) is the value of q, r and s, and ((3, 0, 0),) that of q three times.
"""
import functools
from itertools import product
from math import factorial

import calculator as calc

# ------------------------------------------------------------------- names


def counts(n, m):
    """All ways to take m of n points, any number of each."""
    if n == 1:
        return [(m,)]
    return [(k,) + rest for k in range(m, -1, -1) for rest in counts(n - 1, m - k)]


def from_frame(n, m):
    return [(0,) + c for c in counts(n, m)]


@functools.lru_cache(None)
def of_replace(kind, degrees, own):
    """The own group's points are taken from its vertices and q, the other's from its vertices."""
    return tuple(product(*(counts(n + 1, m) if g == own else from_frame(n, m)
                           for g, (n, m) in enumerate(calc.groups(kind, degrees)))))


@functools.lru_cache(None)
def of_point(kind, degrees):
    """Group after group: the groups before have only their q, the groups after only their vertices."""
    groups, out = calc.groups(kind, degrees), []
    for g, (n, m) in enumerate(groups):
        before = [[(k,) + (0,) * v] for v, k in groups[:g]]
        out += product(*before, counts(n + 1, m), *(from_frame(*after) for after in groups[g + 1:]))
    return tuple(dict.fromkeys(out))


def is_mixed(own):
    """q and a vertex."""
    return own[0] > 0 and any(own[1:])


# --------------------------------------- a record with one named value beyond

def of_copies(a, weights):
    """a copies of q: vertices' counts -> the number that stands before them."""
    out = {}
    for c in counts(len(weights), a):
        number = factorial(a)
        for k, w in zip(c, weights):
            number = number // factorial(k) * w ** k
        out[c] = number
    return out


def in_entries(name, weights):
    """A named value by the entries of the net: entry's counts, one after the other -> number."""
    terms = {(): 1}
    for own, ws in zip(name, weights):
        shares = of_copies(own[0], ws)
        terms = {before + tuple(map(sum, zip(own[1:], c))): f * share
                 for before, f in terms.items() for c, share in shares.items()}
    return {entry: f for entry, f in terms.items() if f}


INSIDE, OUTSIDE = 0.99, 1.01         # of the limit; what lies between is for rounding
NEAR = 1e-6
STEPS = 200


def entries_for(rnd, rows, chosen):
    """Entries, in units of the limit, with the chosen row's sum outside and every other one's inside;
    None if none were found.  A sum that is wrong is put right, the worst first, by the smallest
    change of the entries that does it, and so on."""
    entries = {entry: rnd.uniform(-0.3, 0.3) for row in rows.values() for entry in row}
    squares = {name: sum(f * f for f in row.values()) for name, row in rows.items()}
    for _ in range(STEPS):
        worst, name, change = NEAR, None, 0.0
        for n, row in rows.items():
            value = sum(f * entries[entry] for entry, f in row.items())
            if n == chosen:
                wanted = max(value, OUTSIDE)
            else:
                wanted = min(max(value, -INSIDE), INSIDE)
            far = abs(wanted - value) / squares[n] ** 0.5
            if far > worst:
                worst, name, change = far, n, (wanted - value) / squares[n]
        if name is None:
            return entries
        for entry, f in rows[name].items():
            entries[entry] += 1.5 * change * f
    return None


UNITS = {1: ((0, 1), (1, 0)), 2: ((0, 0, 1), (1, 0, 0), (0, 1, 0)), 3: ((0, 1), (1, 0)) * 2}


def exponents_of(kind, entry):
    """The monomial that an entry over UNITS takes its value from: how often T, or U and V."""
    return tuple(tuple(c[1:]) for c in calc.parts(kind, entry))


def bits_of(degrees):
    """Each vertex becomes 2 to so many times itself: then coefficients of 2^20 can come to 2^48."""
    return -(-28 // sum(degrees))


def grown(kind, degrees):
    """The moves that do it.  A weight has at most 12 bits."""
    bits, moves = bits_of(degrees), []
    for v in range(len(UNITS[kind])):
        for part in (min(bits, 12), bits - min(bits, 12)):
            if part:
                weights = [0, 0, 0]
                weights[v % 2 if kind == 3 else v] = 2 ** part
                moves.append((1, v + 1) + tuple(weights))
    return moves


# where a wrong rule may be wrong: kind and group, and degrees at which values of q and vertices are found
PLACES = {"curves": (1, 0), "triangular patches": (2, 0), "the first pair": (3, 0), "the second pair": (3, 1)}
DEGREES = {(1, 0): ((2,), (3,), (4,), (5,)), (2, 0): ((2,), (3,), (4,)),
           (3, 0): ((2, 1), (3, 1), (2, 2), (3, 2)), (3, 1): ((1, 2), (1, 3), (2, 2), (2, 3))}


def small_weights(rnd, n):
    """Alike but for their signs, which is what most nets of this sort need, or any small ones."""
    one = rnd.randint(1, 3)
    return tuple(rnd.choice((1, -1)) * (one if rnd.random() < 0.7 else rnd.randint(1, 3)) for _ in range(n))


def coefficients_for(rnd, kind, degrees, entries):
    """The record's numbers for these entries, in one component and of either sign; None if one is outside."""
    factor = calc.scale(kind, degrees) * 2 ** (bits_of(degrees) * sum(degrees))
    component, sign = rnd.randrange(4), rnd.choice((1, -1))
    of = {exponents_of(kind, entry): sign * value * calc.RANGE / factor for entry, value in entries.items()}
    numbers = [round(of[mono] * calc.nomial(degrees, mono)) for mono in calc.monomials(kind, degrees)]
    if any(abs(number) > calc.COEFF for number in numbers):
        return None
    return tuple(tuple(number if c == component else 0 for c in range(4)) for number in numbers)


def one_beyond(rnd):
    """A record whose last call, a replace or the point, has exactly one named value beyond, and that one is
    taken of q and of vertices of one group; every second time of q and every vertex of it."""
    kind, group = rnd.choice(list(PLACES.values()))
    replaced, which = rnd.random() < 0.5, rnd.choice((fewer_than_m, every_vertex))
    while True:
        degrees = rnd.choice(DEGREES[kind, group])
        names = of_replace(kind, degrees, group) if replaced else of_point(kind, degrees)
        chosen = [name for name in names if which(name[group], 0)]
        if not chosen:
            continue
        chosen = rnd.choice(chosen)
        weights = [small_weights(rnd, n) for n, _ in calc.groups(kind, degrees)]
        entries = entries_for(rnd, {name: in_entries(name, weights) for name in names}, chosen)
        coeffs = entries and coefficients_for(rnd, kind, degrees, entries)
        frame = tuple(tuple(c << bits_of(degrees) for c in v) for v in UNITS[kind])
        if coeffs and beyond(kind, degrees, coeffs, frame, qs_of(kind, frame, weights), names) == {chosen}:
            moves, own = grown(kind, degrees), weights[group]
            if not replaced:
                return calc.record(kind, degrees, UNITS[kind], coeffs, moves, sum(weights, ()))
            moves.append((1, 2 * group + rnd.randint(1, len(own))) + own + (0,) * (3 - len(own)))
            return calc.record(kind, degrees, UNITS[kind], coeffs, moves)


# ------------------------------------------------------------- wrong size rules

def qs_of(kind, frame, weights):
    return tuple(calc.combine(vertices, ws) for vertices, ws in zip(calc.parts(kind, frame), weights))


@functools.lru_cache(256)
def beyond(kind, degrees, coeffs, frame, qs, names):
    """The names of the values that are out of range; a group without q has None."""
    out = set()
    for name in names:
        points = [[point for point, n in zip((q,) + tuple(vertices), own) for _ in range(n)]
                  for q, vertices, own in zip(qs, calc.parts(kind, frame), name)]
        if not calc.in_range(calc.polar(kind, degrees, coeffs, points)):
            out.add(name)
    return out


def every_vertex(own, place):
    return own[0] > 0 and all(own[1:])


def two_vertices(own, place):
    return own[0] > 0 and sum(n > 0 for n in own[1:]) > 1


def fewer_than_m(own, place):
    return is_mixed(own)


def replaced_vertex(own, place):
    return own[0] > 0 and own[1 + place] > 0


LEFT_OUT = {"q and every vertex": every_vertex, "q and two vertices": two_vertices,
            "fewer than m copies of q": fewer_than_m, "q and the replaced vertex": replaced_vertex}


def rules():
    """(what it does, a replace's or a point's, kind, group, what is left out).  Of a replace `fewer than m
    copies of q` leaves the value of m copies as the only one with q that is judged; the values with q and the
    replaced vertex are those that the new net does not have.  Two vertices are every vertex but on a
    triangular patch."""
    for call in ("replace", "point"):
        for where, (kind, group) in PLACES.items():
            for what, left_out in LEFT_OUT.items():
                if call == "point" and left_out is replaced_vertex or kind != 2 and left_out is two_vertices:
                    continue
                yield "%s on %s: %s" % (call, where, what), call, kind, group, left_out


class Judging:
    """The calculator with another size rule, while it is open."""

    def __init__(self, call, kind, group, left_out):
        self.call, self.kind, self.group, self.left_out = call, kind, group, left_out

    def leaves_out(self, call, kind, name, place):
        return (call, kind) == (self.call, self.kind) and self.left_out(name[self.group], place)

    def refused(self, call, place, kind, degrees, coeffs, frame, qs, names):
        found = beyond(kind, degrees, tuple(coeffs), frame, qs, names)
        return any(not self.leaves_out(call, kind, name, place) for name in found)

    def judge_move(self, kind, degrees, coeffs, frame, op, vertex, weights):
        self.vertex = vertex
        return self.right["judge_move"](kind, degrees, coeffs, frame, op, vertex, weights)

    def replace_too_large(self, kind, degrees, coeffs, frame, own, q):
        qs = tuple(q if g == own else None for g in range(len(degrees)))
        place, names = self.vertex - 1 - 2 * own, of_replace(kind, degrees, own)
        return self.refused("replace", place, kind, degrees, coeffs, frame, qs, names)

    def point_too_large(self, kind, degrees, coeffs, frame, qs):
        return self.refused("point", 0, kind, degrees, coeffs, frame, tuple(qs), of_point(kind, degrees))

    def __enter__(self):
        names = ("judge_move", "replace_too_large", "point_too_large")
        self.right = {name: getattr(calc, name) for name in names}
        for name in names:
            setattr(calc, name, getattr(self, name))

    def __exit__(self, *_):
        for name, function in self.right.items():
            setattr(calc, name, function)
