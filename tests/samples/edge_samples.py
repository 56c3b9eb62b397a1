"""Four records at the exact edge of test 7, used by make_samples.py.

An entry of a first net is a multiple of L divided by its binomial or trinomial
(the frame's numbers are whole), so only few places can hold 2 to the 48th
itself; entry 4 2 2 of a patch of degree 8 is one (1680 / 420 = 4).  The coefficients of z below were searched for; over
r = (4, 4, 3), s = (4, 3, 4), t = (3, 4, 4) they put 2^48 there, and 2^48 + 4 in
the second list.  All other entries are smaller.  The 45 numbers of the expected
text come from the calculator; only the 2^48 is known beforehand.  The other two
have every coefficient with the other sign, and so every number of the net.
"""
import calculator as calc

FRAME = ((4, 4, 3), (4, 3, 4), (3, 4, 4))
EDGE = [
    -381, 348, 10006, 30119, 42539, 31323, 10997, 864, -295, 348, 22897, 110218, 219808,
    222817, 115635, 25906, 950, 9794, 110218, 354960, 511836, 363565, 117441, 11599,
    30119, 219808, 511836, 517854, 228835, 33128, 42539, 222817, 363565, 228835, 45548,
    31323, 115635, 116949, 33128, 10997, 25906, 11599, 864, 950, -295
]
BEYOND = [
    -381, 348, 10006, 30119, 42539, 31323, 10997, 864, -295, 348, 22591, 110218, 219808,
    222817, 115635, 25906, 950, 9794, 110218, 355697, 511836, 363565, 117441, 11599,
    30119, 219808, 511836, 517854, 228835, 33128, 42539, 222817, 363565, 228835, 45548,
    31323, 115635, 116557, 33128, 10997, 25906, 11599, 864, 950, -295
]


def samples():
    out = []
    rec = calc.record(2, (8,), FRAME, [(0, 0, a, 0) for a in EDGE])
    text = "patch 8 1680\n"
    for e, p in zip(calc.entries(2, (8,)), calc.net(2, (8,), [(0, 0, a, 0) for a in EDGE], FRAME)):
        text += " ".join(str(n) for n in e + p) + "\n"
    assert "4 2 2 0 0 281474976710656 0\n" in text
    out.append((None, "The exact edge of refusal 7 (see edge_samples.py)", None, None))
    out.append(("r7-edge-passes", "patch of degree 8, z of entry 4 2 2 is 2 to the 48th exactly: passes",
                rec, text))
    rec = calc.record(2, (8,), FRAME, [(0, 0, a, 0) for a in BEYOND])
    out.append(("r7-edge-beyond", "the same with 2^48 + 4 there, the next value it can take: refused",
                rec, "refused 7 at 26\n"))
    less = "patch 8 1680\n"
    for line in text.split("\n")[1:-1]:
        i, j, k, x, y, z, w = line.split()
        less += " ".join((i, j, k, x, y, str(-int(z)), w)) + "\n"
    rec = calc.record(2, (8,), FRAME, [(0, 0, -a, 0) for a in EDGE])
    out.append(("r7-edge-negative-passes", "z of entry 4 2 2 is minus 2 to the 48th exactly: passes",
                rec, less))
    rec = calc.record(2, (8,), FRAME, [(0, 0, -a, 0) for a in BEYOND])
    out.append(("r7-edge-negative-beyond", "the same with minus 2^48 - 4 there: refused",
                rec, "refused 7 at 26\n"))
    return out
