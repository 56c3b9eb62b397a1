#!/usr/bin/env python3
"""Writes published.txt, records/, expected/, expected-misprints/.

The printed nets are cut out of the chapter texts by line number, so that no
number is typed twice; the polynomials are typed here as the chapters print
them.  The expected texts are made from the printed numbers times one factor,
never from the calculator; the calculator only finds the factor and judges.
"""
import os
import re
import sys
from fractions import Fraction as Fr
from math import gcd

sys.path.insert(0, os.path.dirname(os.path.abspath(__file__)))
import calculator as calc
import frames

HERE = os.path.dirname(os.path.abspath(__file__))
SHARED = os.environ.get("SHARED", "/work/shared")
FILES = {"000": "000_9ec82f656af9e73e.txt", "001": "001_e353928380987121.txt",
         "002": "002_552700639c9b7b6e.txt", "004": "004_a96416c0cd5304be.txt"}
TEXT = {k: open(os.path.join(SHARED, v), encoding="utf-8").read().split("\n")
        for k, v in FILES.items()}


# ------------------------------------------------------------- reading the print

def lines(ch, a, b):
    s = "\n".join(TEXT[ch][a - 1:b])
    s = re.sub(r"\\frac\{(-?\d+)\}\{(\d+)\}", r"\1/\2", s)
    return s.replace("\\left", "").replace("\\right", "").replace("\\", "")


def num(s):
    return Fr(s.strip())


def braces(ch, a, b):
    """{x, y, w} {x, y, w} ...: affine coordinates and a weight."""
    return [tuple(num(x) for x in g.split(","))
            for g in re.findall(r"\{([-0-9/, \n]+)\}", lines(ch, a, b))]


def in_letters(ch, a, b, values):
    """{x, y, z, w} {x, y, z, w} ... in letters, at the values of the letters."""
    s = re.sub(r"(\d)\s*([a-z(])", r"\1*\2", lines(ch, a, b).partition("=")[2])
    return [tuple(Fr(eval(x, {}, values)) for x in g.split(","))
            for g in re.findall(r"\{([-+*0-9a-z(), \n]+)\}", s)]


def thetas(ch, a, b, name="theta"):
    """theta_k = (x, y, w): coordinates in the hat space, already multiplied."""
    out = {}
    for k, g in re.findall(name + r"_(\d+) *&?= *\(([-0-9/, ]+)\)", lines(ch, a, b)):
        out[int(k)] = tuple(num(x) for x in g.split(","))
    return [out[k] for k in sorted(out)]


def pairs(ch, a, b, name):
    """name_k = ((x, y), w): affine coordinates and a weight."""
    out = {}
    for k, g, w in re.findall(
            name + r"_(\d+) *= *\(\(([-0-9/, ]+)\), *(-?\d+)\)", lines(ch, a, b)):
        out[int(k)] = tuple(num(x) for x in g.split(",")) + (num(w),)
    return [out[k] for k in sorted(out)]


def albrecht(a, b):
    """b_ijk = (x, y, z) and w_ijk; corner weights are 1 by that paper's
    standard form.  Given back in the chapters' order (i rising, j rising)."""
    s = lines("004", a, b).replace("mathbf{b}", "b")
    pts = {k: tuple(num(x) for x in g.split(","))
           for k, g in re.findall(r"b_\{(\d\d\d)\} *&?= *\(([-0-9/., ]+)\)", s)}
    wts = {k: num(x) for k, x in re.findall(r"w_\{(\d\d\d)\} *= *(-?[0-9/.]*[0-9])", s)}
    for k in ("002", "020", "200"):
        wts[k] = Fr(1)
    order = ["002", "011", "020", "101", "110", "200"]
    assert sorted(pts) == sorted(order) and sorted(wts) == sorted(order), (pts, wts)
    return [pts[k] + (wts[k],) for k in order]


def homogeneous(p):
    """A weighted point (a, w) is (w a, w); a control vector (u, 0) is itself."""
    w = p[-1]
    return tuple(w * c for c in p[:-1]) + (w,) if w else tuple(p)


def spread(p):
    """Missing z (and y) of a plane net are 0: document 01 has four components."""
    return tuple(p[:-1]) + (Fr(0),) * (4 - len(p)) + (p[-1],)


# ------------------------------------------------------------------ polynomials

class Poly:
    """Polynomial in three letters, exponent triple -> whole number."""

    def __init__(self, d):
        self.d = {k: v for k, v in d.items() if v}

    @staticmethod
    def of(o):
        return o if isinstance(o, Poly) else Poly({(0, 0, 0): o})

    def __add__(self, o):
        r = dict(self.d)
        for k, v in Poly.of(o).d.items():
            r[k] = r.get(k, 0) + v
        return Poly(r)
    __radd__ = __add__

    def __neg__(self):
        return Poly({k: -v for k, v in self.d.items()})

    def __sub__(self, o):
        return self + (-Poly.of(o))

    def __rsub__(self, o):
        return (-self) + o

    def __mul__(self, o):
        r = {}
        for a, v in self.d.items():
            for b, w in Poly.of(o).d.items():
                e = tuple(i + j for i, j in zip(a, b))
                r[e] = r.get(e, 0) + v * w
        return Poly(r)
    __rmul__ = __mul__

    def __pow__(self, n):
        r = Poly({(0, 0, 0): 1})
        for _ in range(n):
            r = r * self
        return r


t = u = Poly({(1, 0, 0): 1})
v = Poly({(0, 1, 0): 1})
w3 = Poly({(0, 0, 1): 1})         # third barycentric letter, document 004 only
O = Poly({})
ONE = Poly({(0, 0, 0): 1})


def fits(kind, degrees, e):
    """Whether a monomial is within the degrees: each letter's own, or all together."""
    if kind == 3:
        return e[0] <= degrees[0] and e[1] <= degrees[1] and e[2] == 0
    return sum(e) <= degrees[0] and (e[2] == 0 or sum(e) == degrees[0])


def coefficients(kind, degrees, polys):
    """Four affine polynomials (or homogeneous in three letters) to the record's
    list.  Degrees above those of the record are an error."""
    out = []
    for p in polys:
        for e in p.d:
            assert fits(kind, degrees, e), (e, degrees)
    for mono in calc.monomials(kind, degrees):
        h, l = (sum(mono, ()) + (0,))[:2]
        row = []
        for p in polys:
            a = p.d.get((h, l, 0), 0)
            rest = degrees[0] - h - l
            if kind == 2 and rest:
                a += p.d.get((h, l, rest), 0)
            row.append(a)
        assert all(int(c) == c for c in row)
        out.append(tuple(int(c) for c in row))
    return out


# -------------------------------------------------------------------- the nets

UNIT = ((0, 1), (1, 1))                       # affine frame (0, 1)
SYMM = ((-1, 1), (1, 1))                      # affine frame (-1, 1)
TRI = ((1, 0, 1), (0, 1, 1), (0, 0, 1))       # corners (1,0), (0,1), (0,0)
AXES = ((1, 0, 0), (0, 1, 0), (0, 0, 1))      # r and s at infinity; or barycentric
FLIP = {"r": (2, 1, 0, 0, 0), "s": (2, 2, 0, 0, 0), "t": (2, 3, 0, 0, 0),
        "r1": (2, 1, 0, 0, 0), "s1": (2, 2, 0, 0, 0), "r2": (2, 3, 0, 0, 0), "s2": (2, 4, 0, 0, 0)}

NETS = []


def add(label, ch, place, kind, degree, frame, polys, printed, style, evidence,
        moves=(), note="", pick=None, sign=None, vscale=None, point=None,
        atprinted=None, source="printed", factor=None):
    """printed: list in the chapter's order.  style: 'hat' (already multiplied)
    or 'affine' (coordinates and weight).  pick: which of five components.
    degree: one number, or two of a rectangular patch.  factor: only where it
    cannot be found, since hardly a number agrees."""
    degrees = degree if kind == 3 else (degree,)
    rows = list(printed)
    if pick:
        rows = [tuple(p[i] for i in pick) for p in rows]
    rows = [homogeneous(p) if style == "affine" else tuple(p) for p in rows]
    rows = [spread(p) for p in rows]
    if kind == 2:
        rows.reverse()     # chapters: i rising, j rising; document 01: both falling
    NETS.append(dict(label=label, ch=ch, place=place, kind=kind, degrees=degrees,
                     frame=frame, coeffs=coefficients(kind, degrees, polys), factor=factor,
                     rows=rows, evidence=evidence, moves=list(moves), note=note,
                     vscale=vscale, source=source, point=point,
                     atprinted=atprinted, sign=sign))


# ---- document 001 (Chapter 22, Rational Curves)

add("001-circle", "001", "section 22.1, Example 1, lines 183-193", 1, 2, UNIT,
    (1 - t**2, 2*t, O, 1 + t**2), thetas("001", 193, 193), "hat", "printed",
    note="sample B1")
add("001-half-circle", "001", "section 22.1, Example 2, lines 202-212", 1, 2, UNIT,
    (1 - 2*t, 2*t - 2*t**2, O, 2*t**2 - 2*t + 1), thetas("001", 212, 212), "hat",
    "printed")
add("001-hyperbola", "001", "section 22.1, Example 3, lines 221-243", 1, 2, UNIT,
    (t**2, ONE, O, t), thetas("001", 239, 243), "hat", "printed")
add("001-ellipse", "001", "section 22.1, Example 4, lines 250-264", 1, 2, UNIT,
    (2 - 2*t**2, 2*t, O, 1 + t**2), thetas("001", 264, 264), "hat", "printed")
add("001-cuspidal-cubic", "001", "section 22.1, Example 5, lines 271-281", 1, 3, UNIT,
    (t**2 - t**3, t**3, O, (1 - t)**3), thetas("001", 281, 281), "hat", "printed")
add("001-folium", "001", "section 22.1, Example 6, lines 288-298", 1, 3, UNIT,
    (3*t, 3*t**2, O, 1 + t**3), thetas("001", 298, 298), "hat", "printed",
    note="sample B6")

_c = (1 - t**2, 2*t, O, 1 + t**2)
_fig = {k: tuple(num(x) for x in g.split(",")) for k, g in
        re.findall(r"[cC]\(([01/2, ]+)\) = \(([-0-9/, ]+)\)", lines("001", 567, 569))}
_th = thetas("001", 193, 193)
add("001-circle-left", "001", "section 22.3, Figure 22.7, lines 561-569, with line 193",
    1, 2, UNIT, _c, [_th[0], _fig["0, 1/2"], _fig["1/2"]], "hat", "printed",
    moves=[(1, 2, 1, 1, 0)], vscale=(1, 2), point=(0, 1), atprinted=(Fr(3, 5), Fr(4, 5), Fr(0)),
    note="half nets of the circle at 1/2; the point is C(1/2) = (3/5, 4/5), line 569; sample B3")
add("001-circle-right", "001", "section 22.3, Figure 22.7, lines 561-569, with line 193",
    1, 2, UNIT, _c, [_fig["1/2"], _fig["1/2, 1"], _th[2]], "hat", "printed",
    moves=[(1, 1, 1, 1, 0)], vscale=(2, 1), point=(1, 0), atprinted=(Fr(3, 5), Fr(4, 5), Fr(0)),
    note="half nets of the circle at 1/2; the point is C(1/2) = (3/5, 4/5), line 569")

_e = (4*t, t**2 - 3*t + 2, O, 1 + t**2)
add("001-closed-ellipse", "001", "section 22.4, after Lemma 22.4.2, lines 913-921",
    1, 2, SYMM, _e, pairs("001", 921, 921, "beta"), "affine", "printed")
add("001-closed-ellipse-second", "001", "section 22.4, after Lemma 22.4.2, line 925",
    1, 2, SYMM, _e, pairs("001", 925, 925, "theta"), "affine", "printed",
    moves=[FLIP["r"]], note="the one second net of a curve printed as numbers")

add("001-lemniscate", "001", "section 22.5, Example 1, lines 1182-1192", 1, 4, UNIT,
    (t + t**3, t - t**3, O, 1 + t**4), thetas("001", 1192, 1192), "hat", "printed")
add("001-rose3", "001", "section 22.5, Example 2, lines 1203-1222", 1, 4, UNIT,
    (t*(3 - t**2), t**2*(3 - t**2), O, (1 + t**2)**2),
    braces("001", 1222, 1222), "affine", "printed")
add("001-rose4", "001", "section 22.5, Example 3, lines 1226-1241", 1, 6, UNIT,
    (4*t*(1 - t**2)**2, 8*t**2*(1 - t**2), O, (1 + t**2)**3),
    braces("001", 1241, 1241), "affine", "printed")
add("001-rose5", "001", "section 22.5, Example 4, lines 1243-1256", 1, 6, UNIT,
    (t*(5 - 10*t**2 + t**4), t**2*(5 - 10*t**2 + t**4), O, (t**2 + 1)**3),
    braces("001", 1255, 1256), "affine", "printed")
add("001-rose7", "001", "section 22.5, Example 5, lines 1265-1281", 1, 8, UNIT,
    (t*(7 - 35*t**2 + 21*t**4 - t**6), t**2*(7 - 35*t**2 + 21*t**4 - t**6), O,
     (t**2 + 1)**4), braces("001", 1279, 1281), "affine", "printed")
add("001-lissajous", "001", "section 22.5, Example 6, lines 1292-1298", 1, 6, UNIT,
    ((1 - t**2)*(1 - 14*t**2 + t**4), 4*t*(1 - t**2)*(1 + t**2), O, (1 + t**2)**3),
    braces("001", 1298, 1298), "affine", "printed")
add("001-viviani", "001", "section 22.5, Example 7, lines 1317-1335", 1, 4, UNIT,
    (2*t - 2*t**3, 4*t**2, 1 - t**4, (1 + t**2)**2),
    braces("001", 1335, 1335), "affine", "printed")

# ---- document 002 (Fast and Simple Methods For Computing Control Points)

add("002-rose10", "002", "section 6, rcpoly, lines 277-288", 1, 10, UNIT,
    (4*t*(1 - t**2)**2*(1 - 14*t**2 + t**4),
     8*t**2*(1 - t**2)*(3 - 10*t**2 + 3*t**4), O, (1 + t**2)**5),
    braces("002", 286, 288), "affine", "printed")

_px = 16*u*v**2*(1 - u**2)
_py = 8*u*v*(u**2 + 1)*(v**2 - 1)
_pz = 4*v*(1 - u**4)*(v**2 - 1)
_pt = 4*v**2*(u**4 - 6*u**2 + 1)
_pw = (u**2 + 1)**2*(v**2 + 1)**2
_p8 = braces("002", 315, 340)
add("002-projective-xyz", "002", "section 6, proj8net, lines 302-340", 2, 8, TRI,
    (_px, _py, _pz, _pw), _p8, "affine", "printed", pick=(0, 1, 2, 4),
    note="the printed net has five components x y z t w; this record holds x y z w")
add("002-projective-xyt", "002", "section 6, proj8net, lines 302-340", 2, 8, TRI,
    (_px, _py, _pt, _pw), _p8, "affine", "printed", pick=(0, 1, 3, 4),
    note="the printed net has five components x y z t w; this record holds x y t w")
add("002-cross-cap", "002", "section 6, projnet4, lines 343-365", 2, 8, TRI,
    (_px, _py, _pt, _pw), braces("002", 346, 365), "affine", "printed",
    note="same polynomials as 002-projective-xyt, printed as a net of its own")

# ---- document 000 (Chapter 24, Approximating Closed Rational Surfaces)

_st = (2*v, 2*u, 2*u*v, 1 + u**2 + v**2)
add("000-steiner1", "000", "section 24.4, stein1, lines 555-559", 2, 2, TRI, _st,
    braces("000", 557, 559), "affine", "named",
    note="polynomials not printed; read off the net stein2 (line 1186), which shows them plainly")
add("000-steiner2", "000", "section 24.6, Problem 14, stein2, lines 1174-1186", 2, 2, AXES, _st,
    braces("000", 1186, 1186), "affine", "named",
    note="polynomials not printed; they are those of stein1 (line 557); r and s at infinity")
add("000-sphere", "000", "section 24.6, Problem 14, sphnet, lines 1174-1182; polynomials section 24.3, lines 113-115",
    2, 2, AXES, (2*u, 2*v, u**2 + v**2 - 1, u**2 + v**2 + 1),
    braces("000", 1182, 1182), "affine", "printed", note="r and s at infinity")

# Klein bottle, r = 1 and a = 2
_k = 3*v**4 + 2*(2 - 3)*v**2 + 3
_kx = (u**4 - 6*u**2 + 1)*_k
_ky = 4*u*(1 - u**2)*_k
_kz = 4*v*(1 - u**4)*(1 - v**2)
_kt = 8*u*v*(1 + u**2)*(1 - v**2)
_kw = (u**2 + 1)**2*(v**2 + 1)**2
_k8 = braces("000", 1265, 1289)
add("000-klein-xyz", "000", "section 24.6, Problem 21, kleinet4, lines 1258-1289", 2, 8, TRI,
    (_kx, _ky, _kz, _kw), _k8, "affine", "printed", pick=(0, 1, 2, 4),
    note="frame not named there, the corners show it; five components, this record holds x y z w")
add("000-klein-xyt", "000", "section 24.6, Problem 21, kleinet4, lines 1258-1289", 2, 8, TRI,
    (_kx, _ky, _kt, _kw), _k8, "affine", "printed", pick=(0, 1, 3, 4),
    note="frame not named there, the corners show it; five components, this record holds x y t w")

# Rectangular nets.  The chapter lists them as document 02 does: i rising, then j rising.


def torus(a, b, c):
    """Section 24.5, line 611."""
    tube = a*(1 + v**2) - 2*b*v
    return ((1 - u**2)*tube, 2*u*tube, c*(1 + u**2)*(1 - v**2), (1 + u**2)*(1 + v**2))


assert TEXT["000"][611 - 1].startswith("$$x(u, v) = (1 - u^2)(a(1 + v^2) - 2bv)")
add("000-torus", "000", "section 24.2, tornet4, lines 62-64; polynomials section 24.5, line 611",
    3, (2, 2), SYMM + SYMM, torus(2, 1, 1), braces("000", 62, 64), "affine", "printed",
    note="a = 2, b = c = 1")
add("000-torus-letters", "000", "section 24.2, tornet4 in letters, lines 54-56; polynomials section 24.5, line 611",
    3, (2, 2), SYMM + SYMM, torus(7, 3, 5), in_letters("000", 54, 56, dict(a=7, b=3, c=5)), "affine", "printed",
    note="the net is printed in the letters a, b, c; here a = 7, b = 3, c = 5")
_sq = braces("000", 80, 82)
assert _sq == braces("000", 1196, 1196)        # printed twice
add("000-steiner-rect", "000", "section 24.2, sqstein3, lines 80-82, again Problem 16, line 1196",
    3, (2, 2), SYMM + SYMM, _st, _sq, "affine", "named",
    note="polynomials not printed; they are those of stein2 (line 1186)")
_rt = braces("000", 1064, 1072)
add("000-torus4", "000", "section 24.6, Problem 9, rtornet, lines 1061-1072; polynomials section 24.5, line 611",
    3, (4, 4), SYMM + SYMM, torus(2, 1, 1), _rt, "affine", "printed", factor=Fr(4),
    note="over the frame that the text says; a = 2, b = c = 1; the factor is that of 000-torus4-unit")
add("000-torus4-unit", "000", "section 24.6, Problem 9, rtornet, lines 1061-1072; polynomials section 24.5, line 611",
    3, (4, 4), UNIT + UNIT, torus(2, 1, 1), _rt, "affine", "printed",
    note="the same net over the frame that it belongs to; a = 2, b = c = 1")


def revolution(name, x, z, w):
    """A surface of revolution by Problem 22 (i): x, z, w of the generating curve over
    [0, 1], whose printed net has x and y; y is taken for z."""
    b = next(n for n in NETS if n["label"] == "001-" + name)
    assert b["frame"] == UNIT and all(p[3] for p in b["rows"])         # points, no control vectors
    points = [(p[0], p[1], p[3]) for p in b["rows"]]                   # times the weight
    rows = [(x_, Fr(0), z_, w_) for x_, z_, w_ in points]
    rows += [(x_, x_, z_, w_) for x_, z_, w_ in points]
    rows += [(Fr(0), 2*x_, 2*z_, 2*w_) for x_, z_, w_ in points]
    add("000-revolution-" + name, "000", "section 24.6, Problem 22 (i), lines 1302-1312, of document 001's "
        + b["place"], 3, (2,) + b["degrees"], UNIT + UNIT,
        (x*(1 - u**2), x*2*u, z*(1 + u**2), w*(1 + u**2)), rows, "hat", "printed", source="rule",
        note="the net of " + b["label"] + " by the problem's rule; the curve's y is the surface's z")


revolution("circle", 1 - v**2, 2*v, 1 + v**2)
revolution("ellipse", 2 - 2*v**2, 2*v, 1 + v**2)
revolution("folium", 3*v, 3*v**2, 1 + v**3)
revolution("lemniscate", v + v**3, v - v**3, 1 + v**4)
revolution("rose3", v*(3 - v**2), v**2*(3 - v**2), (1 + v**2)**2)

# ---- document 004 (Geometric invariants of parametric triangular quadric patches)
# Example 2.  The paper says: patch of degree 2 on a quadric in canonical position,
# case 5, elliptic paraboloid, weights all 1.  The corners (1,0), (0,1), (1,1) then
# give x = u + w, y = v + w, and 1/4, 1, 5/4 give z = x^2/4 + y^2.  Times 4.
_one = u + v + w3
_qx, _qy = u + w3, v + w3
_q = (4*_qx*_one, 4*_qy*_one, _qx**2 + 4*_qy**2, 4*_one**2)
add("004-paraboloid", "004", "section 5, Example 2, first input, lines 369-380", 2, 2, AXES, _q,
    albrecht(371, 380), "affine", "deduced",
    note="polynomials follow from the stated type and the three corners; the inner three entries are the check")
# Remark 3.1: the harmonic complement keeps the plane of the corners, z = x/4 + y,
# and negates p, the meet of the corner tangent planes, here (1/2, 1/2, 0).  With
# l(X) = z - x/4 - y, l(p) = -5/8, the map is X + 16/5 l(X) p.  Times 5 once more.
_l4 = 4*_q[2] - _q[0] - 4*_q[1]            # 4 l(X)
# 5 X + 16 l(X) p = 5 X + (2, 2, 0, 4) * 4 l(X)
_h = (5*_q[0] + 2*_l4, 5*_q[1] + 2*_l4, 5*_q[2], 5*_q[3] + 4*_l4)
add("004-paraboloid-complement", "004", "section 5, Example 2, second input, lines 386-395; rule Remark 3.1",
    2, 2, AXES, _h, albrecht(386, 395), "affine", "deduced",
    note="polynomials of 004-paraboloid taken through the paper's Remark 3.1")

# ---- second nets by the chapters' sign rules (numbers of the printed first net)


def second(base, label, flips, sign, rule):
    b = next(n for n in NETS if n["label"] == base)
    rows = [tuple(sign(e) * c for c in p)
            for e, p in zip(calc.entries(b["kind"], b["degrees"]), b["rows"])]
    NETS.append(dict(b, label=label, rows=rows, moves=[FLIP[f] for f in flips],
                     place=b["place"] + "; signs by " + rule, note="", source="rule"))


for n in [n for n in NETS if n["ch"] in ("001", "002") and n["kind"] == 1]:
    if n["label"] in ("001-rose5", "001-closed-ellipse") or n["moves"]:
        continue
    second(n["label"], n["label"] + "-second", "r", lambda e: (-1) ** e[0],
           "Lemma 22.4.2 of document 001")
for name in ("000-steiner1", "000-steiner2", "000-sphere"):
    for f, i in (("r", 0), ("s", 1), ("t", 2)):
        second(name, name + "-flip-" + f, f, lambda e, i=i: (-1) ** e[i],
               "section 24.4 of document 000, lines 549-551")
    second(name, name + "-flip-rs", "rs", lambda e: (-1) ** (e[0] + e[1]),
           "section 24.4 of document 000, two vertices")
# Lemma 24.2.2 has the signs (-1)^(p-i), (-1)^(q-j) and both: flips of r1 and r2.
for name in ("000-torus", "000-torus-letters", "000-steiner-rect", "000-revolution-folium"):
    p, q = next(n["degrees"] for n in NETS if n["label"] == name)
    for flips, sign in (
            (("r1",), lambda e, p=p: (-1) ** (p - e[0])),
            (("r2",), lambda e, q=q: (-1) ** (q - e[1])),
            (("r1", "r2"), lambda e, m=p + q: (-1) ** (m - e[0] - e[1]))):
        second(name, name + "-flip-" + "".join(flips), flips, sign,
               "Lemma 24.2.2 of document 000, lines 43-45")
# Problem 9 has the signs (-1)^i, (-1)^j and both: flips of s1 and s2.
for flips, sign in ((("s1",), lambda e: (-1) ** e[0]), (("s2",), lambda e: (-1) ** e[1]),
                    (("s1", "s2"), lambda e: (-1) ** (e[0] + e[1]))):
    second("000-torus4-unit", "000-torus4-unit-flip-" + "".join(flips), flips, sign,
           "Problem 9 of document 000, line 1074")


# ------------------------------------------------------------------ comparison

def ours(n):
    frame = n["frame"]
    for mv in n["moves"]:
        k, frame = calc.judge_move(n["kind"], n["degrees"], n["coeffs"], frame,
                                   mv[0], mv[1], mv[2:])
        assert k == 0
    return calc.net(n["kind"], n["degrees"], n["coeffs"], frame)


def cleared(rows):
    d = 1
    for p in rows:
        for c in p:
            d = calc.lcm(d, c.denominator)
    return d, [tuple(int(c * d) for c in p) for p in rows]


def judge(n):
    mine = ours(n)
    assert len(mine) == len(n["rows"]), (n["label"], len(mine), len(n["rows"]))
    d, ints = cleared(n["rows"])
    vs = n["vscale"] or (1,) * len(n["frame"])
    mult = []
    for e in calc.entries(n["kind"], n["degrees"]):
        x = 1
        for c, s in zip(calc.copies(n["kind"], n["degrees"], e), vs):
            x *= s ** c
        mult.append(x)
    votes = {}
    for a, b, x in zip(mine, ints, mult):
        for p, q in zip(a, b):
            if q:
                f = Fr(p, q * x)
                if f:
                    votes[f] = votes.get(f, 0) + 1
    factor = n["factor"] or max(votes, key=votes.get)
    bad = []
    for i, (a, b, x) in enumerate(zip(mine, ints, mult)):
        for c in range(4):
            if a[c] != factor * b[c] * x:
                bad.append((i, c, b[c], a[c] / factor / x))
    n.update(ints=ints, cleared=d, factor=factor, bad=bad, mult=mult, mine=mine,
             votes=votes)


def text(n, rows, atbits):
    """netprint's text from printed rows times the factor, with the frame that the flips and
    replaces reach; all of them are taken."""
    ls = [calc.first_line(n["kind"], n["degrees"]), frames.line(n["kind"], n["frame"], n["moves"]).rstrip("\n")]
    for e, p, x in zip(calc.entries(n["kind"], n["degrees"]), rows, n["mult"]):
        vals = [n["factor"] * c * x for c in p]
        assert all(Fr(y).denominator == 1 for y in vals), n["label"]
        ls.append(" ".join(str(int(y)) for y in tuple(e) + tuple(vals)))
    if atbits:
        import struct
        ls.append("at " + " ".join(
            struct.pack(">d", float(f.numerator) / float(f.denominator)).hex()
            for f in atbits))
    return "".join(l + "\n" for l in ls)


HEADER = """\
# published.txt - control nets printed in documents 000, 001, 002 and 004, for
# checking document 01's program by running.  Made by make_published.py.
#
# Lines starting with '#' are comments.  One block per net, from `net` to `end`.
# Each line is a keyword and its values, separated by single blanks:
#
#   net LABEL            records/LABEL.hex is the record, expected/LABEL.txt or
#                        expected-misprints/LABEL.txt what netprint prints for it
#   chapter NAME         file of the chapter in shared/
#   place TEXT           where in it; line numbers are those of that file
#   source printed|rule  the net's numbers are printed, or are a printed net with
#                        the chapter's sign rule for second nets applied, or its
#                        rule for surfaces of revolution
#   polynomials printed|named|deduced
#                        printed in that document; or only the surface is named
#                        and another printed net shows them; or they follow from
#                        what the document states (see `note`)
#   kind curve|patch|rect
#   degree M             or P Q
#   frame N...           r, s (, t) or r1, s1, r2, s2, each as T Z or U V Z
#   moves OP V A B C ... five numbers for each move of field 4 (operation,
#                        vertex, three weights), in order; `moves none` if none
#   point A B (C)        weights of field 5; only where the chapter prints a point
#   at X Y Z             with `point`: the point the chapter prints, as fractions
#   vertex-scale A B     only where the frame reached is not the chapter's own:
#                        its r is A times, its s B times the chapter's vertex
#   note TEXT            one line, only where something is to be said
#   monomials N          then N lines `c X Y Z W`: coefficients in the record's
#                        order (k rising; h rising then l rising)
#   cleared D            the printed homogeneous numbers (w x, w y, w z, w; a
#                        control vector as it stands) were multiplied by D, the
#                        least whole number that makes all of them whole
#   entries N            then N lines `e X Y Z W`: the PRINTED net times D, in
#                        document 01's order (curve: j rising, as printed; patch:
#                        i falling then j falling, the printed list from its end;
#                        rect: i rising then j rising, as printed)
#   factor P/Q           with ours = document 01's scaled polar values:
#                        Q x ours = P x printed, every entry and component; with
#                        a vertex-scale line Q x ours = P x printed x A^a x B^b,
#                        a and b being the copies of r and s in the entry
#   differs I C N S      only under `verdict misprint`: entry number I (0 first,
#                        document 01's order), component C (x y z w), printed
#                        number N, number it should be S (both times D; S may be
#                        a fraction)
#   verdict equal|misprint
#   end
#
"""


def main():
    for d in ("records", "expected", "expected-misprints"):
        os.makedirs(os.path.join(HERE, d), exist_ok=True)
        for f in os.listdir(os.path.join(HERE, d)):
            os.remove(os.path.join(HERE, d, f))
    out = [HEADER]
    for n in NETS:
        judge(n)
        rec = calc.record(n["kind"], n["degrees"], n["frame"], n["coeffs"],
                          n["moves"] or None, n["point"])
        with open(os.path.join(HERE, "records", n["label"] + ".hex"), "w") as f:
            f.write(calc.hexlines(rec))
        verdict = "misprint" if n["bad"] else "equal"
        rows = [list(p) for p in n["ints"]]
        for i, c, _, should in n["bad"]:
            rows[i][c] = should
        txt = text(n, rows, n["atprinted"])
        got = calc.netprint(rec)
        assert got == txt, (n["label"], got, txt)
        folder = "expected-misprints" if n["bad"] else "expected"
        with open(os.path.join(HERE, folder, n["label"] + ".txt"), "w") as f:
            f.write(txt)
        b = ["net " + n["label"], "chapter " + FILES[n["ch"]], "place " + n["place"],
             "source " + n["source"], "polynomials " + n["evidence"],
             "kind " + calc.WORD[n["kind"]],
             "degree " + " ".join(str(m) for m in n["degrees"]),
             "frame " + " ".join(str(c) for p in n["frame"] for c in p),
             "moves " + (" ".join(str(c) for mv in n["moves"] for c in mv)
                         if n["moves"] else "none")]
        if n["point"]:
            b.append("point " + " ".join(str(c) for c in n["point"]))
            b.append("at " + " ".join(str(c) for c in n["atprinted"]))
        if n["vscale"]:
            b.append("vertex-scale " + " ".join(str(c) for c in n["vscale"]))
        if n["note"]:
            b.append("note " + n["note"])
        b.append("monomials %d" % len(n["coeffs"]))
        b += ["c " + " ".join(str(c) for c in p) for p in n["coeffs"]]
        b.append("cleared %d" % n["cleared"])
        b.append("entries %d" % len(n["ints"]))
        b += ["e " + " ".join(str(c) for c in p) for p in n["ints"]]
        b.append("factor %d/%d" % (n["factor"].numerator, n["factor"].denominator))
        for i, c, pr, should in n["bad"]:
            b.append("differs %d %s %s %s" % (i, "xyzw"[c], pr, should))
        b.append("verdict " + verdict)
        b.append("end")
        out.append("".join(l + "\n" for l in b) + "\n")
    with open(os.path.join(HERE, "published.txt"), "w") as f:
        f.write("".join(out))
    for n in NETS:
        print("%-28s %-7s %-8s %-6s cleared %-6d factor %-8s %s" % (
            n["label"], n["source"], n["evidence"],
            "equal" if not n["bad"] else "DIFFER", n["cleared"], n["factor"],
            " ".join("[%d %s printed %s should %s]" % (i, "xyzw"[c], p, s)
                     for i, c, p, s in n["bad"])))
        if len(n["votes"]) > 1:
            print("      votes", {str(k): v for k, v in n["votes"].items()})


if __name__ == "__main__":
    main()
