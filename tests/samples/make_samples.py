#!/usr/bin/env python3
"""Writes this folder: NAME.hex (the record), NAME.txt (netprint's text), INDEX.

The expected texts are written out here by hand from document 01, and from request
E2 for the length of a direction; those of rectangular patches (request E3) are in
rect_samples.py.  They stand here without the line `frame` (request E5), which
published/frames.py puts in: the record's frame after the moves that the text does not
call refused.  The samples of that request itself are in frame_samples.py, those of
request E10 in order_samples.py, those of the size rule's names in size_samples.py; all three
have the line from the start.  reading_samples.py holds every bit of a tag and of a length.  The
calculator is only asked afterwards whether it agrees, and a disagreement stops the run.
"""
import math
import os
import struct
import sys

OUT = os.path.dirname(os.path.abspath(__file__))
sys.path.insert(0, os.path.join(OUT, "..", "published"))
import calculator as calc
import edge_samples
import frame_samples
import frames
import order_samples
import reading_samples
import rect_samples
import size_samples
import zero_samples
from fields import FLP, REPL, f1, f2, f3, f4, f5, field

ALL = []


def group(title):
    ALL.append((None, title, None, None))


def S(name, rec, text, comment):
    assert all(a[0] != name for a in ALL), name
    ALL.append((name, comment, rec, text))


# the circle of document 01: fields of 5, 11 and 51 bytes, at 0, 5 and 16; end at 67
C1 = f1(1, 2)
C2 = f2(0, 1, 1, 1)
C3 = f3((1, 0, 0, 1), (0, 2, 0, 0), (-1, 0, 0, 1))
C = C1 + C2 + C3
assert (len(C1), len(C2), len(C3)) == (5, 11, 51)
NET = "0 2 0 0 2\n1 2 2 0 2\n2 0 4 0 4\n"
HEAD = "curve 2 2\n"
FLIPR = "0 2 0 0 2\n1 -2 -2 0 -2\n2 0 4 0 4\n"
AT = "at 3fe3333333333333 3fe999999999999a 0000000000000000\n"      # 3/5, 4/5, 0

# the patch of B8: fields of 5, 21 and 99 bytes, at 0, 5 and 26; end at 125
P1 = f1(2, 2)
P2 = f2(1, 0, 1, 0, 1, 1, 0, 0, 1)
P3 = f3((0, 0, 0, 1), (0, 1, 0, 0), (0, 0, 0, 0), (1, 0, 0, 0), (0, 0, 1, 0), (0, 0, 0, 0))
P = P1 + P2 + P3
assert (len(P1), len(P2), len(P3)) == (5, 21, 99)
PNET = ("2 0 0 2 0 0 2\n1 1 0 1 1 1 2\n1 0 1 1 0 0 2\n"
        "0 2 0 0 2 0 2\n0 1 1 0 1 0 2\n0 0 2 0 0 0 2\n")
PHEAD = "patch 2 2\n"

# ------------------------------------------------------------------------------
group("Document 01's own samples")
S("circle", C + f5(1, 1), HEAD + NET + AT,
  "the circle record of the section `The program netprint`, five lines")
S("b01", C, HEAD + NET, "B1: circle net, no point")
S("b02", C + f5(1, 1), HEAD + NET + AT, "B2: point (1, 1) is 6 8 0 10, printed as 3/5 4/5 0")
S("b03", C + f4((REPL, 2, 1, 1, 0)), HEAD + "0 2 0 0 2\n1 4 2 0 4\n2 6 8 0 10\n",
  "B3: replace s at (1, 1)")
S("b04", C + f4((FLP, 1, 0, 0, 0)), HEAD + FLIPR, "B4: flip r")
S("b05", C + f4((FLP, 1, 0, 0, 0)) + f5(1, 1),
  HEAD + FLIPR + "at bff0000000000000 0000000000000000 0000000000000000\n",
  "B5: flip r, then point (1, 1) is -2 0 0 2, printed as -1 0 0")
FOL = (f1(1, 3) + f2(0, 1, 1, 1)
       + f3((0, 0, 0, 1), (3, 0, 0, 0), (0, 3, 0, 0), (0, 0, 0, 1)))
FNET = "curve 3 3\n0 0 0 0 3\n1 3 0 0 3\n2 6 3 0 3\n3 9 9 0 6\n"
S("b06", FOL, FNET, "B6: folium")
S("b07", FOL + f5(2, -1), FNET + "far 1 -1 0 9\n",
  "B7: folium's point (2, -1) is -9 9 0 0, direction 1 -1 0 (sign of the first made positive), length 9")
S("b08", P, PHEAD + PNET, "B8: patch")
S("b09", P + f5(1, 1, 1),
  PHEAD + PNET + "at 3fd5555555555555 3fd5555555555555 3fbc71c71c71c71c\n",
  "B9: its point (1, 1, 1) is 6 6 2 18, printed as 1/3 1/3 1/9")
B10 = f1(1, 1) + f2(0, 1, 1, 0) + f3((1048576, 0, 0, 1), (0, 0, 0, 1))
# r = (0,1), s = (1,0).  q1 = (1, 4096): w 4097.  q2 = (4097, 2^24): x 2^44, w 16781313.
# q3 = (65553, 2^28): x 2^48, w 268501009.
S("b10-taken", B10 + f4((REPL, 1, 4096, 1, 0), (REPL, 1, 4096, 1, 0), (REPL, 1, 16, 1, 0)),
  "curve 1 1\n0 281474976710656 0 0 268501009\n1 0 0 0 1\n",
  "B10: three replaces of r, x of entry 0 is 2 to the 48th exactly")
S("b10-refused", B10 + f4((REPL, 1, 4096, 1, 0), (REPL, 1, 4096, 1, 0), (REPL, 1, 17, 1, 0)),
  "curve 1 1\nmove 3 refused 10\n0 17592186044416 0 0 16781313\n1 0 0 0 1\n",
  "B10 with weight 17: refusal 10, and the net after two moves is printed")
S("also-4096", C + f4((REPL, 1, 4096, 0, 0)),
  HEAD + "0 33554432 0 0 33554432\n1 8192 8192 0 8192\n2 0 4 0 4\n",
  "Also: weight 4096 passes (r becomes 4096 r; entries times 4096 per copy)")
S("also-4097", C + f4((REPL, 1, 4097, 0, 0)), HEAD + "move 1 refused 8\n" + NET,
  "Also: weight 4097 is 8")
S("also-empty", b"", "refused 2 at 0\n", "Also: no bytes at all, refusal 2 at 0")

# ------------------------------------------------------------------------------
group("Refusal 1: the input stops inside a field's head or value")
S("r1-one-byte", C[:1], "refused 1 at 0\n", "one byte in all")
S("r1-two-bytes", C[:2], "refused 1 at 0\n", "two bytes in all")
S("r1-one-byte-bad-tag", b"\x09", "refused 1 at 0\n",
  "one byte, an unknown tag: three bytes present is tested before the tag")
S("r1-two-bytes-bad-tag", C1 + b"\x01\x00", "refused 1 at 5\n",
  "two bytes left, a repeated tag: still 1")
S("r1-header-field2", C1 + C2[:1], "refused 1 at 5\n", "one byte left where field 2 begins")
S("r1-header-field3", C1 + C2 + C3[:2], "refused 1 at 16\n", "two bytes left where field 3 begins")
S("r1-one-byte-after-whole", C + b"\x04", "refused 1 at 67\n", "one byte left after a whole record")
S("r1-two-bytes-after-whole", C + f5(1, 1) + b"\x00\x00", "refused 1 at 74\n",
  "two bytes left after a whole record with a point")
S("r1-no-value", C1[:3], "refused 1 at 0\n", "field 1's three bytes and nothing of its value")
S("r1-value-field1", C1[:4], "refused 1 at 0\n", "value of field 1 one byte short")
S("r1-value-field1-bad", field(1, b"\x07", 2), "refused 1 at 0\n",
  "value of field 1 short and its kind outside: value present is tested before values")
S("r1-value-field2", C1 + C2[:-1], "refused 1 at 5\n", "value of field 2 one byte short")
S("r1-value-field2-bad", C1 + field(2, struct.pack(">hhh", 9, 0, 0), 8), "refused 1 at 5\n",
  "value of field 2 short with a frame number outside in what is there")
S("r1-value-field3", C1 + C2 + C3[:-1], "refused 1 at 16\n", "value of field 3 one byte short")
S("r1-value-field3-bad", C1 + C2 + field(3, struct.pack(">i", 2000000), 48), "refused 1 at 16\n",
  "value of field 3 short with a coefficient outside in what is there")
S("r1-value-field4", C + f4((FLP, 1, 0, 0, 0))[:-1], "refused 1 at 67\n", "value of field 4 one byte short")
S("r1-value-field5", C + f5(1, 1)[:-1], "refused 1 at 67\n", "value of field 5 one byte short")
S("r1-value-field5-after-4", C + f4((FLP, 1, 0, 0, 0)) + f5(1, 1)[:-1], "refused 1 at 78\n",
  "the same after one move: a cut point refuses the whole record")
S("r1-patch-field5", P + f5(1, 1, 1)[:-2], "refused 1 at 125\n", "patch, value of field 5 two bytes short")

# ------------------------------------------------------------------------------
group("Refusal 2: a tag out of turn, not known, or missing at the end")
S("r2-unknown-0", field(0, b"\x01\x02"), "refused 2 at 0\n", "tag 0")
S("r2-unknown-6", C + field(6, b""), "refused 2 at 67\n", "tag 6 after a whole record")
S("r2-unknown-255", C1 + b"\xff\xff\xff", "refused 2 at 5\n",
  "tag 255 with a length of 65535: the tag is tested before length and value")
S("r2-repeated-1", C1 + C1 + C2 + C3, "refused 2 at 5\n", "field 1 twice")
S("r2-repeated-2", C1 + C2 + C2 + C3, "refused 2 at 16\n", "field 2 twice")
S("r2-repeated-3", C + C3, "refused 2 at 67\n", "field 3 twice")
S("r2-repeated-4", C + f4() + f4(), "refused 2 at 70\n", "field 4 twice, both empty")
S("r2-repeated-5", C + f5(1, 1) + f5(1, 1), "refused 2 at 74\n", "field 5 twice")
S("r2-lower-1", C1 + C2 + C1, "refused 2 at 16\n", "field 1 after field 2")
S("r2-lower-4", C + f5(1, 1) + f4(), "refused 2 at 74\n", "field 4 after field 5")
S("r2-lower-2-wrong-length", C + field(2, b""), "refused 2 at 67\n",
  "field 2 after field 3 with a wrong length: 2 comes before 3")
S("r2-before-1", C2 + C1 + C3, "refused 2 at 0\n", "field 2 before field 1")
S("r2-before-1-short", b"\x02\x00\x08", "refused 2 at 0\n",
  "field 2 first and its value absent: 2 comes before 1 for the value")
S("r2-before-2", C1 + C3 + C2, "refused 2 at 5\n", "field 3 before field 2")
S("r2-before-3-by-4", C1 + C2 + f4(), "refused 2 at 16\n", "field 4 before field 3")
S("r2-before-3-by-5", C1 + C2 + f5(1, 1), "refused 2 at 16\n", "field 5 before field 3")
S("r2-before-2-by-5", C1 + f5(1, 1), "refused 2 at 5\n", "field 5 before fields 2 and 3")
S("r2-only-5", f5(1, 1), "refused 2 at 0\n", "field 5 alone")
S("r2-absent-2", C1, "refused 2 at 5\n", "ends after field 1: offset is the record's length")
S("r2-absent-3", C1 + C2, "refused 2 at 16\n", "ends after field 2: offset is the record's length")
S("r2-absent-3-patch", P1 + P2, "refused 2 at 26\n", "patch, ends after field 2")
S("r2-after-1017", None, "refused 2 at 1017\n",
  "the longest record followed by zero bytes, 3000 bytes in all; only 2048 are read")

# ------------------------------------------------------------------------------
group("Refusal 3: a wrong length for the tag")
S("r3-field1-0", field(1, b"") + C2 + C3, "refused 3 at 0\n", "field 1 of length 0")
S("r3-field1-1", field(1, b"\x01") + C2 + C3, "refused 3 at 0\n", "field 1 of length 1")
S("r3-field1-4", field(1, b"\x01\x02\x00\x00") + C2 + C3, "refused 3 at 0\n", "field 1 of length 4")
S("r3-field1-short", b"\x01\x00\x05\x01", "refused 3 at 0\n",
  "field 1 of length 5 and cut short: length is tested before value present")
S("r3-field1-big-endian", b"\x01\x02\x00\x01\x02" + C2 + C3, "refused 3 at 0\n",
  "length bytes 02 00 are 512, not 2")
S("r3-field2-patch-length", C1 + P2 + C3, "refused 3 at 5\n", "curve with a patch's frame, 18")
S("r3-field2-curve-length", P1 + C2 + P3, "refused 3 at 5\n", "patch with a curve's frame, 8")
S("r3-field2-curve-16", C1 + field(2, b"\0" * 16) + C3, "refused 3 at 5\n",
  "curve with a rectangular patch's frame, 16")
S("r3-field2-patch-16", P1 + field(2, b"\0" * 16) + P3, "refused 3 at 5\n",
  "patch with a rectangular patch's frame, 16")
S("r3-field2-7", C1 + field(2, b"\0" * 7) + C3, "refused 3 at 5\n", "frame of length 7")
S("r3-field2-9", C1 + field(2, b"\0" * 9) + C3, "refused 3 at 5\n", "frame of length 9")
S("r3-field2-patch-17", P1 + field(2, b"\0" * 17) + P3, "refused 3 at 5\n", "patch, frame of length 17")
S("r3-field2-patch-19", P1 + field(2, b"\0" * 19) + P3, "refused 3 at 5\n", "patch, frame of length 19")
S("r3-field3-less", C1 + C2 + field(3, b"\0" * 32), "refused 3 at 16\n",
  "two monomials for degree 2")
S("r3-field3-more", C1 + C2 + field(3, b"\0" * 64), "refused 3 at 16\n",
  "four monomials for degree 2")
S("r3-field3-0", C1 + C2 + field(3, b""), "refused 3 at 16\n", "no monomials")
S("r3-field3-47", C1 + C2 + field(3, b"\0" * 47), "refused 3 at 16\n",
  "one byte less than three monomials")
S("r3-field3-49", C1 + C2 + field(3, b"\0" * 49), "refused 3 at 16\n",
  "one byte more than three monomials")
S("r3-field3-patch-less", P1 + P2 + field(3, b"\0" * 80), "refused 3 at 26\n",
  "patch of degree 2 with five monomials")
S("r3-field3-patch-more", P1 + P2 + field(3, b"\0" * 112), "refused 3 at 26\n",
  "patch of degree 2 with seven monomials")
S("r3-field3-patch-as-curve", P1 + P2 + C3, "refused 3 at 26\n",
  "patch of degree 2 with three monomials")
S("r3-field4-7", C + field(4, b"\0" * 7), "refused 3 at 67\n", "moves of length 7")
S("r3-field4-1", C + field(4, b"\0"), "refused 3 at 67\n", "moves of length 1")
S("r3-field4-9", C + field(4, b"\0" * 9), "refused 3 at 67\n", "moves of length 9")
S("r3-field4-257", C + field(4, b"\0" * 257), "refused 3 at 67\n", "one byte more than 32 moves")
S("r3-field4-65528", C + field(4, b"", 65528), "refused 3 at 67\n",
  "8191 moves claimed: a multiple of 8, and beyond 32")
S("r3-field4-12", C + field(4, b"\0" * 12), "refused 3 at 67\n", "moves of length 12")
S("r3-field4-264", C + field(4, b"\0" * 264), "refused 3 at 67\n", "33 moves")
S("r3-field4-264-short", C + field(4, b"", 264), "refused 3 at 67\n",
  "33 moves claimed, none there: 3 before 1")
S("r3-field5-6", C + f5(1, 1, 0), "refused 3 at 67\n", "curve with a patch's point")
S("r3-field5-4", P + f5(1, 1), "refused 3 at 125\n", "patch with a curve's point")
S("r3-field5-8", C + f5(1, 1, 0, 0), "refused 3 at 67\n", "curve with a rectangular patch's point")
S("r3-field5-patch-8", P + f5(1, 1, 1, 0), "refused 3 at 125\n", "patch with a rectangular patch's point")
S("r3-field5-0", C + field(5, b""), "refused 3 at 67\n", "point of length 0")
S("r3-field5-3", C + field(5, b"\0" * 3), "refused 3 at 67\n", "point of length 3")
S("r3-field5-5", C + field(5, b"\0" * 5), "refused 3 at 67\n", "point of length 5")
S("r3-field5-patch-5", P + field(5, b"\0" * 5), "refused 3 at 125\n", "patch, point of length 5")
S("r3-field5-patch-7", P + field(5, b"\0" * 7), "refused 3 at 125\n", "patch, point of length 7")

# ------------------------------------------------------------------------------
group("Refusal 4: kind or degree outside")
S("r4-kind-0", f1(0, 2) + C2 + C3, "refused 4 at 0\n", "kind 0")
S("r4-kind-3", f1(3, 2) + C2 + C3, "refused 4 at 0\n", "kind 3 with length 2: it has two degrees")
S("r4-field1-3", f1(1, 2, 2) + C2 + C3, "refused 4 at 0\n", "curve in three bytes, a second degree")
S("r4-field1-3-zero", f1(1, 2, 0) + C2 + C3, "refused 4 at 0\n", "curve in three bytes, the third 0")
S("r4-field1-3-patch", f1(2, 2, 2) + P2 + P3, "refused 4 at 0\n", "patch in three bytes, a second degree")
S("r4-field1-3-patch-zero", f1(2, 2, 0) + P2 + P3, "refused 4 at 0\n", "patch in three bytes, the third 0")
S("r4-kind-255", f1(255, 2) + C2 + C3, "refused 4 at 0\n", "kind 255")
S("r4-curve-0", f1(1, 0) + C2 + C3, "refused 4 at 0\n", "curve of degree 0")
S("r4-curve-11", f1(1, 11) + C2 + C3, "refused 4 at 0\n", "curve of degree 11")
S("r4-curve-255", f1(1, 255), "refused 4 at 0\n",
  "curve of degree 255 and nothing after it: values before end of input")
S("r4-patch-0", f1(2, 0) + P2 + P3, "refused 4 at 0\n", "patch of degree 0")
S("r4-patch-9", f1(2, 9) + P2 + P3, "refused 4 at 0\n", "patch of degree 9")
S("r4-before-later", f1(1, 11) + b"\x09", "refused 4 at 0\n",
  "degree outside and a broken field after it: front to back")

# ------------------------------------------------------------------------------
group("Refusal 5: a frame with a large number, or a flat one")
S("r5-number-5", C1 + f2(0, 1, 1, 5) + C3, "refused 5 at 5\n", "frame number 5 in the last place")
S("r5-number-minus-5", C1 + f2(-5, 1, 1, 1) + C3, "refused 5 at 5\n",
  "frame number -5 in the first place")
S("r5-number-32767", C1 + f2(0, 32767, 1, 1) + C3, "refused 5 at 5\n", "frame number 32767")
S("r5-number-minus-32768", C1 + f2(0, 1, -32768, 1) + C3, "refused 5 at 5\n", "frame number -32768")
S("r5-number-256", C1 + f2(0, 256, 1, 1) + C3, "refused 5 at 5\n",
  "frame number 256: bytes 01 00 are not 1")
S("r5-same", C1 + f2(1, 1, 1, 1) + C3, "refused 5 at 5\n", "r = s")
S("r5-multiple", C1 + f2(1, 2, -2, -4) + C3, "refused 5 at 5\n", "s = -2 r")
S("r5-zero-vertex", C1 + f2(0, 0, 1, 1) + C3, "refused 5 at 5\n", "r = (0, 0)")
S("r5-patch-number", P1 + f2(1, 0, 1, 0, 1, 1, 0, 0, -5) + P3, "refused 5 at 5\n",
  "patch, last frame number -5")
S("r5-patch-number-5", P1 + f2(1, 0, 1, 0, 5, 1, 0, 0, 1) + P3, "refused 5 at 5\n",
  "patch, frame number 5 in the middle")
S("r5-patch-line", P1 + f2(1, 0, 1, 0, 1, 1, 1, 1, 2) + P3, "refused 5 at 5\n",
  "patch, t = r + s")
S("r5-patch-zero", P1 + f2(0, 0, 0, 0, 0, 0, 0, 0, 0) + P3, "refused 5 at 5\n", "patch, all zero")
S("r5-before-6", C1 + f2(1, 1, 1, 1) + f3((1048577, 0, 0, 1), (0, 2, 0, 0), (-1, 0, 0, 1)),
  "refused 5 at 5\n", "determinant 0 and a coefficient outside: front to back")

# ------------------------------------------------------------------------------
group("Refusal 6: coefficient outside")
S("r6-first", C1 + C2 + f3((1048577, 0, 0, 1), (0, 2, 0, 0), (-1, 0, 0, 1)),
  "refused 6 at 16\n", "1048577 in the first place")
S("r6-last", C1 + C2 + f3((1, 0, 0, 1), (0, 2, 0, 0), (-1, 0, 0, -1048577)),
  "refused 6 at 16\n", "-1048577 in the last place")
S("r6-largest", C1 + C2 + f3((1, 0, 0, 1), (0, 2147483647, 0, 0), (-1, 0, 0, 1)),
  "refused 6 at 16\n", "2147483647")
S("r6-smallest", C1 + C2 + f3((1, 0, 0, 1), (0, 2, -2147483648, 0), (-1, 0, 0, 1)),
  "refused 6 at 16\n", "-2147483648, whose absolute value has no 32-bit form")
S("r6-patch", P1 + P2 + f3((0, 0, 0, 1), (0, 1, 0, 0), (0, 0, 0, 0), (1, 0, 0, 0),
                           (0, 0, 1, 0), (0, 0, 0, 1048577)),
  "refused 6 at 26\n", "patch, last coefficient 1048577; field 3 begins at 26")
S("r6-before-tag", C1 + C2 + f3((1048577, 0, 0, 1), (0, 2, 0, 0), (-1, 0, 0, 1)) + b"\x09\0\0",
  "refused 6 at 16\n", "coefficient outside and an unknown tag after it: front to back")

# ------------------------------------------------------------------------------
group("Refusal 7: first net out of range, at the offset of field 3")
# degree 10, r = (4, 0), s = (0, 4): entry 0 is a_10 x 2520 x 4^10.
# 106522 x 2520 = 268435440, times 2^20 is 2^48 - 2^24; 106523 x 2520 = 268437960.
Z10 = [(0, 0, 0, 0)] * 10
T1 = f1(1, 10) + f2(4, 0, 0, 4)


def ten(x):
    return T1 + f3(*(Z10 + [(x, 0, 0, 0)]))


S("r7-curve", ten(106523), "refused 7 at 16\n",
  "degree 10, entry 0 is 106523 x 2520 x 4^10, beyond 2 to the 48th")
S("r7-curve-negative", ten(-106523), "refused 7 at 16\n", "the same, negative")
S("r7-curve-last-but-one", ten(106522),
  "curve 10 2520\n0 281474959933440 0 0 0\n"
  + "".join("%d 0 0 0 0\n" % j for j in range(1, 11)),
  "one less passes: 2^48 - 2^24")
S("r7-weight", T1 + f3(*([(0, 0, 0, -106523)] + [(0, 0, 0, 0)] * 10)), "refused 7 at 16\n",
  "the same in w of the last entry")
S("r7-after-end", ten(106523) + b"\x09\0\0", "refused 2 at 195\n",
  "out of range and an unknown tag after field 3: end of input comes before 7")
S("r7-after-cut", ten(106523) + b"\x05\0\4\0", "refused 1 at 195\n",
  "out of range and a point cut short: 1 before 7")
S("r7-with-moves", ten(106523) + f4((FLP, 1, 0, 0, 0)) + f5(1, 1), "refused 7 at 16\n",
  "out of range with moves and a point: no net, no line for them")
# patch degree 8, r = (4,4,4): entry (8,0,0) is 1680 x (sum of coefficients) x 4^8,
# 1680 x 2^16 = 110100480; 2^48 / 110100480 = 2556528.4: three coefficients of 2^20 exceed it
PZ = [(0, 0, 0, 0)] * 45


def eight(c0, c1, c2):
    rows = list(PZ)
    rows[0], rows[1], rows[2] = (0, c0, 0, 0), (0, c1, 0, 0), (0, c2, 0, 0)
    return f1(2, 8) + f2(4, 4, 4, 0, 0, 1, 0, 1, 0) + f3(*rows)


S("r7-patch", eight(1048576, 1048576, 459377), "refused 7 at 26\n",
  "patch of degree 8, entry 8 0 0 is 1680 x 2556529 x 4^8; field 3 begins at 26")

# ------------------------------------------------------------------------------
group("Moves refused 8, passed over, next tried")


def moves(name, mv, number, comment, base=C, head=HEAD, netlines=NET):
    S(name, base + f4(mv), head + ("move 1 refused %d\n" % number) + netlines, comment)


moves("m8-operation-0", (0, 1, 1, 1, 0), 8, "operation 0")
moves("m8-operation-3", (3, 1, 1, 1, 0), 8, "operation 3")
moves("m8-operation-255", (255, 1, 0, 0, 0), 8, "operation 255")
moves("m8-vertex-0", (REPL, 0, 1, 1, 0), 8, "vertex 0")
moves("m8-vertex-3-curve", (REPL, 3, 1, 1, 1), 8, "vertex 3 of a curve")
moves("m8-flip-vertex-3-curve", (FLP, 3, 0, 0, 0), 8, "flip of vertex 3 of a curve")
moves("m8-vertex-4-curve", (REPL, 4, 1, 1, 0), 8, "vertex 4 of a curve")
moves("m8-flip-vertex-4-curve", (FLP, 4, 0, 0, 0), 8, "flip of vertex 4 of a curve")
moves("m8-flip-vertex-0", (FLP, 0, 0, 0, 0), 8, "flip of vertex 0")
moves("m8-vertex-4-patch", (REPL, 4, 1, 1, 1), 8, "vertex 4 of a patch", P, PHEAD, PNET)
moves("m8-flip-vertex-4-patch", (FLP, 4, 0, 0, 0), 8, "flip of vertex 4 of a patch", P, PHEAD, PNET)
moves("m8-vertex-255", (REPL, 255, 1, 1, 0), 8, "vertex 255")
moves("m8-weight-4097", (REPL, 1, 1, 4097, 0), 8, "weight of the other vertex 4097")
moves("m8-weight-minus-4097", (REPL, 2, -4097, 1, 0), 8, "weight -4097")
moves("m8-weight-minus-32768", (REPL, 1, -32768, 1, 0), 8, "weight -32768")
moves("m8-third-weight-curve", (REPL, 1, 1, 1, 1), 8, "a curve's third weight not 0")
moves("m8-third-weight-4097-curve", (REPL, 1, 1, 1, 4097), 8, "a curve's third weight outside")
moves("m8-third-weight-4097-patch", (REPL, 3, 0, 0, 4097), 8, "patch, third weight 4097", P, PHEAD, PNET)
moves("m8-third-weight-minus-4097-patch", (REPL, 3, 0, 0, -4097), 8, "patch, third weight -4097",
      P, PHEAD, PNET)
moves("m8-flip-first-weight", (FLP, 1, 1, 0, 0), 8, "flip with first weight 1")
moves("m8-flip-second-weight", (FLP, 1, 0, -1, 0), 8, "flip with second weight -1")
moves("m8-flip-third-weight", (FLP, 2, 0, 0, 1), 8, "flip with third weight 1")
moves("m8-flip-third-weight-patch", (FLP, 3, 0, 0, 1), 8, "patch, flip with third weight 1", P, PHEAD, PNET)
moves("m8-before-9", (REPL, 1, 0, 1, 1), 8, "replaced vertex has weight 0 and third weight not 0: 8 before 9")
moves("m8-before-9-outside", (REPL, 1, 0, 4097, 0), 8, "replaced vertex has weight 0 and the other 4097: 8 before 9")
S("m8-passed-over", C + f4((9, 9, 9, 9, 9), (FLP, 1, 0, 0, 0)),
  HEAD + "move 1 refused 8\n" + FLIPR, "refused move passed over, the next taken")
S("m8-before-10", B10 + f4((REPL, 1, 4096, 0, 0), (REPL, 1, 4096, 0, 0), (REPL, 1, 4097, 0, 0)),
  "curve 1 1\nmove 3 refused 8\n0 17592186044416 0 0 16777216\n1 0 0 0 1\n",
  "weight 4097 and the value beyond range (4097 x 2^44): 8 before 10")

group("Moves refused 9")
moves("m9-r", (REPL, 1, 0, 1, 0), 9, "replace r at (0, 1)")
moves("m9-s", (REPL, 2, 1, 0, 0), 9, "replace s at (1, 0)")
moves("m9-all-zero", (REPL, 1, 0, 0, 0), 9, "replace r at (0, 0)")
moves("m9-t-patch", (REPL, 3, 1, 1, 0), 9, "patch, replace t at (1, 1, 0)", P, PHEAD, PNET)
S("m9-before-10", B10 + f4((REPL, 1, 4096, 0, 0), (REPL, 1, 4096, 0, 0), (REPL, 2, 4096, 0, 0)),
  "curve 1 1\nmove 3 refused 9\n0 17592186044416 0 0 16777216\n1 0 0 0 1\n",
  "replaced vertex has weight 0 and q out of range (4096 x 2^44): 9 before 10")

group("Moves refused 10")
S("m10-negative-taken", B10 + f4((REPL, 1, 4096, 0, 0), (REPL, 1, 4096, 0, 0), (REPL, 1, -16, 0, 0)),
  "curve 1 1\n0 -281474976710656 0 0 -268435456\n1 0 0 0 1\n",
  "x of entry 0 is minus 2 to the 48th: in range")
S("m10-negative-refused", B10 + f4((REPL, 1, 4096, 0, 0), (REPL, 1, 4096, 0, 0), (REPL, 1, -17, 0, 0)),
  "curve 1 1\nmove 3 refused 10\n0 17592186044416 0 0 16777216\n1 0 0 0 1\n",
  "minus 17 times 2 to the 44th is refused")
# The tested polar values are those of frame AND q: degree 2, r = (0,1), s = (1,0),
# x entries (-6, 4, 8) k, vertices scaled by 4096 and by 4 each: g = k 2^28 in their
# place.  Replace s at (2, 1): f(r,q) = -8 g, f(q,q) = 0, but f(s,q) = 16 g.


def mixed(k):
    return (f1(1, 2) + f2(0, 1, 1, 0)
            + f3((-3 * k, 0, 0, 1), (4 * k, 0, 0, 0), (4 * k, 0, 0, 0)))


SCALE4 = ((REPL, 1, 4096, 0, 0), (REPL, 2, 0, 4096, 0), (REPL, 1, 4, 0, 0), (REPL, 2, 0, 4, 0))
# w is Z^2: entry 0 is 2 x 16384^2 = 536870912, the others 0; with q = 2r + s:
# f(r,q) has 2 x 2 x 16384^2, f(q,q) 2 x 4 x 16384^2
S("m10-mixed-taken", mixed(65536) + f4(*(SCALE4 + ((REPL, 2, 2, 1, 0),))),
  "curve 2 2\n0 -105553116266496 0 0 536870912\n1 -140737488355328 0 0 1073741824\n"
  "2 0 0 0 2147483648\n",
  "polar value of the old s and q is 2 to the 48th exactly: taken")
S("m10-mixed-refused", mixed(65537) + f4(*(SCALE4 + ((REPL, 2, 2, 1, 0),))),
  "curve 2 2\nmove 5 refused 10\n0 -105554726879232 0 0 536870912\n"
  "1 70369817919488 0 0 0\n2 140739635838976 0 0 0\n",
  "that polar value is beyond, though no entry of the new net would be: refused, net stays")
S("m10-then-next", B10 + f4((REPL, 1, 4096, 0, 0), (REPL, 1, 4096, 0, 0), (REPL, 1, 4096, 0, 0),
                            (FLP, 1, 0, 0, 0)),
  "curve 1 1\nmove 3 refused 10\n0 -17592186044416 0 0 -16777216\n1 0 0 0 1\n",
  "refused 10, passed over, the flip after it is taken")
S("m10-flip-never", B10 + f4((REPL, 1, 4096, 0, 0), (REPL, 1, 4096, 0, 0), (REPL, 1, 16, 0, 0),
                             (FLP, 1, 0, 0, 0), (FLP, 2, 0, 0, 0)),
  "curve 1 1\n0 -281474976710656 0 0 -268435456\n1 0 0 0 -1\n",
  "flips at the very edge are never refused for size")
S("m-several", C + f4((FLP, 1, 0, 0, 0), (0, 0, 0, 0, 0), (REPL, 1, 0, 5, 0), (FLP, 1, 0, 0, 0),
                      (REPL, 2, 1, 1, 0)),
  HEAD + "move 2 refused 8\nmove 3 refused 9\n0 2 0 0 2\n1 4 2 0 4\n2 6 8 0 10\n",
  "five moves, K counts refused ones too; flip r twice restores, then B3")
S("m-patch-flips", P + f4((FLP, 1, 0, 0, 0), (FLP, 2, 0, 0, 0), (FLP, 3, 0, 0, 0)),
  PHEAD + PNET, "patch of degree 2, all three vertices flipped: signs meet in pairs")
S("m-patch-flip-t", P + f4((FLP, 3, 0, 0, 0)),
  PHEAD + "2 0 0 2 0 0 2\n1 1 0 1 1 1 2\n1 0 1 -1 0 0 -2\n"
          "0 2 0 0 2 0 2\n0 1 1 0 -1 0 -2\n0 0 2 0 0 0 2\n",
  "patch, flip t: entries with one copy of t change sign")
# t becomes r + s + t = (1, 1, 3): with the polars 2xy.. of B8's polynomials
#   x: U1 Z2 + U2 Z1, y: V1 Z2 + V2 Z1, z: U1 V2 + U2 V1, w: 2 Z1 Z2
S("m-patch-replace-t", P + f4((REPL, 3, 1, 1, 1)),
  PHEAD + "2 0 0 2 0 0 2\n1 1 0 1 1 1 2\n1 0 1 4 1 1 6\n"
          "0 2 0 0 2 0 2\n0 1 1 1 4 1 6\n0 0 2 6 6 2 18\n",
  "patch, replace t at (1, 1, 1); entry 0 0 2 is B9's point")
# the same q = (1, 1, 3): with r it has 4 1 1 6, with s 1 4 1 6, with t 1 1 0 6
S("m-patch-replace-r", P + f4((REPL, 1, 1, 1, 1)),
  PHEAD + "2 0 0 6 6 2 18\n1 1 0 1 4 1 6\n1 0 1 1 1 0 6\n"
          "0 2 0 0 2 0 2\n0 1 1 0 1 0 2\n0 0 2 0 0 0 2\n",
  "patch, replace r at (1, 1, 1); entry 2 0 0 is B9's point")
S("m-patch-replace-s", P + f4((REPL, 2, 1, 1, 1)),
  PHEAD + "2 0 0 2 0 0 2\n1 1 0 4 1 1 6\n1 0 1 1 0 0 2\n"
          "0 2 0 6 6 2 18\n0 1 1 1 1 0 6\n0 0 2 0 0 0 2\n",
  "patch, replace s at (1, 1, 1); entry 0 2 0 is B9's point")
# B10 as a patch: x = 1048576 Z, w = Z + V + U over r = (0,0,1), s = (1,0,0), t = (0,1,0).
# Two replaces of r by 4096 r: x 2^44, w 2^24; then t becomes 16 r + t: x 2^48, w 2^28 + 1.
PB10 = (f1(2, 1) + f2(0, 0, 1, 1, 0, 0, 0, 1, 0)
        + f3((1048576, 0, 0, 1), (0, 0, 0, 1), (0, 0, 0, 1)))
PB10MOVES = ((REPL, 1, 4096, 0, 0), (REPL, 1, 4096, 0, 0))
PB10HEAD = "1 0 0 17592186044416 0 0 16777216\n0 1 0 0 0 0 1\n"
S("m10-patch-taken", PB10 + f4(*(PB10MOVES + ((REPL, 3, 16, 0, 1),))),
  "patch 1 1\n" + PB10HEAD + "0 0 1 281474976710656 0 0 268435457\n",
  "patch, x of the new t is 2 to the 48th exactly: taken")
S("m10-patch-refused", PB10 + f4(*(PB10MOVES + ((REPL, 3, 17, 0, 1),))),
  "patch 1 1\nmove 3 refused 10\n" + PB10HEAD + "0 0 1 0 0 0 1\n",
  "patch, 17 times 2 to the 44th: refused, net stays")

group("Points")


def pt(name, w, line, comment, base=C, head=HEAD, netlines=NET, mv=b""):
    S(name, base + mv + f5(*w), head + netlines + line, comment)


pt("q8-4097", (4097, 1), "point refused 8\n", "point weight 4097")
pt("q8-minus-4097", (1, -4097), "point refused 8\n", "point weight -4097")
pt("q8-patch", (1, 1, -32768), "point refused 8\n", "patch, point weight -32768", P, PHEAD, PNET)
pt("q8-patch-4097", (1, 1, 4097), "point refused 8\n", "patch, third point weight 4097", P, PHEAD, PNET)
pt("q8-patch-minus-4097", (1, 1, -4097), "point refused 8\n", "patch, third point weight -4097",
   P, PHEAD, PNET)
pt("q9", (0, 0), "point refused 9\n", "all weights 0")
pt("q9-patch", (0, 0, 0), "point refused 9\n", "patch, all weights 0", P, PHEAD, PNET)
S("q10", B10 + f4((REPL, 1, 4096, 0, 0), (REPL, 1, 4096, 0, 0)) + f5(17, 0),
  "curve 1 1\n0 17592186044416 0 0 16777216\n1 0 0 0 1\npoint refused 10\n",
  "point beyond 2 to the 48th")
S("q10-edge", B10 + f4((REPL, 1, 4096, 0, 0), (REPL, 1, 4096, 0, 0)) + f5(16, 0),
  "curve 1 1\n0 17592186044416 0 0 16777216\n1 0 0 0 1\n"
  "at 4130000000000000 0000000000000000 0000000000000000\n",
  "point at 2 to the 48th exactly: x / w is 2 to the 20th")
S("q10-negative", B10 + f4((REPL, 1, 4096, 0, 0), (REPL, 1, 4096, 0, 0)) + f5(-17, 0),
  "curve 1 1\n0 17592186044416 0 0 16777216\n1 0 0 0 1\npoint refused 10\n",
  "point beyond minus 2 to the 48th")
S("q10-negative-edge", B10 + f4((REPL, 1, 4096, 0, 0), (REPL, 1, 4096, 0, 0)) + f5(-16, 0),
  "curve 1 1\n0 17592186044416 0 0 16777216\n1 0 0 0 1\n"
  "at 4130000000000000 0000000000000000 0000000000000000\n",
  "point at minus 2 to the 48th exactly: both signs cancel, and 0 / w is +0")
S("q10-patch", PB10 + f4(*PB10MOVES) + f5(17, 0, 0),
  "patch 1 1\n" + PB10HEAD + "0 0 1 0 0 0 1\npoint refused 10\n",
  "patch, point beyond 2 to the 48th")
S("q10-patch-edge", PB10 + f4(*PB10MOVES) + f5(16, 0, 0),
  "patch 1 1\n" + PB10HEAD + "0 0 1 0 0 0 1\n"
  "at 4130000000000000 0000000000000000 0000000000000000\n",
  "patch, point at 2 to the 48th exactly")
S("q10-mixed", mixed(65537) + f4(*SCALE4) + f5(2, 1),
  "curve 2 2\n0 -105554726879232 0 0 536870912\n1 70369817919488 0 0 0\n"
  "2 140739635838976 0 0 0\npoint refused 10\n",
  "the point itself is in range (x is 0), a polar value of s and q is not")
S("q10-mixed-edge", mixed(65536) + f4(*SCALE4) + f5(2, 1),
  "curve 2 2\n0 -105553116266496 0 0 536870912\n1 70368744177664 0 0 0\n"
  "2 140737488355328 0 0 0\nat 0000000000000000 0000000000000000 0000000000000000\n",
  "the same at the edge: accepted")
pt("q-4096", (4096, -4096), "at bff0000000000000 0000000000000000 0000000000000000\n",
   "weights 4096 and -4096 pass: q = (-4096, 0), point -2^25 0 0 2^25")
pt("q-one-zero", (0, 1), "at 0000000000000000 3ff0000000000000 0000000000000000\n",
   "one weight 0 passes: the point s, 0 4 0 4")
S("q-after-refused-move", C + f4((REPL, 2, 1, 0, 0)) + f5(1, 1),
  HEAD + "move 1 refused 9\n" + NET + AT, "point after a refused move: frame as it was")
# far: x = 2T, y = -4T, z = 6T, w = Z with r = (1,0): first net entry 0 is 2 -4 6 0
LIN = f1(1, 1) + f2(1, 0, 0, 1) + f3((0, 0, 0, 1), (2, -4, 6, 0))
LNET = "0 2 -4 6 0\n1 0 0 0 1\n"
pt("q-far", (3, 0), "far 1 -2 3 6\n", "direction: 6 -12 18 divided by 6", LIN, "curve 1 1\n", LNET)
pt("q-far-negative", (-3, 0), "far 1 -2 3 6\n", "direction of -6 12 -18: first made positive",
   LIN, "curve 1 1\n", LNET)
LIN2 = f1(1, 1) + f2(1, 0, 0, 1) + f3((0, 0, 0, 1), (0, -5, 0, 0))
pt("q-far-axis", (1, 0), "far 0 1 0 5\n", "direction 0 -5 0: first nonzero made positive",
   LIN2, "curve 1 1\n", "0 0 -5 0 0\n1 0 0 0 1\n")
LIN6 = f1(1, 1) + f2(1, 0, 0, 1) + f3((0, 0, 0, 1), (0, 0, -7, 0))
pt("q-far-last", (1, 0), "far 0 0 1 7\n", "direction 0 0 -7: z is the first nonzero",
   LIN6, "curve 1 1\n", "0 0 0 -7 0\n1 0 0 0 1\n")
# patch x = 2U, y = 3V, w = Z over the axes
PLIN = f1(2, 1) + f2(1, 0, 0, 0, 1, 0, 0, 0, 1) + f3((0, 0, 0, 1), (0, 3, 0, 0), (2, 0, 0, 0))
pt("q-patch-far", (3, -4, 0), "far 1 -2 0 6\n", "patch, direction of 6 -12 0",
   PLIN, "patch 1 1\n", "1 0 0 2 0 0 0\n0 1 0 0 3 0 0\n0 0 1 0 0 0 1\n")
PLIN2 = f1(2, 1) + f2(1, 0, 0, 0, 1, 0, 0, 0, 1) + f3((0, 0, 0, 1), (0, 0, 0, 0), (2, 0, 0, 0))
pt("q-patch-nowhere", (0, 1, 0), "nowhere\n", "patch, all four polynomials vanish at s",
   PLIN2, "patch 1 1\n", "1 0 0 2 0 0 0\n0 1 0 0 0 0 0\n0 0 1 0 0 0 1\n")
# q = (4096, 0, 4096) + (0, 0, -4096) = (4096, 0, 0): B8's point there is 0 0 0 0
pt("q-patch-4096", (4096, 0, -4096), "nowhere\n", "patch, weights 4096 and -4096 pass",
   P, PHEAD, PNET)
LIN3 = f1(1, 1) + f2(1, 0, 0, 1) + f3((0, 0, 0, 0), (7, 7, 7, 7))
pt("q-nowhere", (0, 1), "at 3ff0000000000000 3ff0000000000000 3ff0000000000000\n",
   "all four polynomials are 7T and vanish at s: 7 7 7 7 is left there (E7), where a patch is nowhere",
   LIN3, "curve 1 1\n", "0 7 7 7 7\n1 0 0 0 0\n")
# w negative and a zero numerator: x = 0, y = T, z = Z, w = -T - Z over (1,0), (0,1)
LIN4 = f1(1, 1) + f2(1, 0, 0, 1) + f3((0, 0, 1, -1), (0, 1, 0, -1))
pt("q-zero-over-negative", (1, 1),
   "at 0000000000000000 bfe0000000000000 bfe0000000000000\n",
   "0 1 1 -2: a component 0 prints as +0, not as 8000000000000000",
   LIN4, "curve 1 1\n", "0 0 1 0 -1\n1 0 0 1 -1\n")
# 1/3 and 2/3 and 1/10 to the last bit: x = T, y = 2T, z = T - ... kept plain
LIN5 = f1(1, 1) + f2(1, 0, 0, 1) + f3((0, 0, 0, 30), (10, 20, 3, 0))
pt("q-rounding", (1, 1), "at 3fd5555555555555 3fe5555555555555 3fb999999999999a\n",
   "10 20 3 30: 1/3, 2/3, 1/10", LIN5, "curve 1 1\n", "0 10 20 3 0\n1 0 0 0 30\n")

# ------------------------------------------------------------------------------
group("Records at the limits that pass")
S("ok-no-moves", C + f4() + f5(1, 1), HEAD + NET + AT, "field 4 of length 0")
S("ok-32-moves", C + f4(*([(FLP, 1, 0, 0, 0)] * 32)) + f5(1, 1), HEAD + NET + AT,
  "32 moves, all flips of r")
S("ok-31-moves", C + f4(*([(FLP, 1, 0, 0, 0)] * 31)), HEAD + FLIPR, "31 flips of r")
S("ok-32-refused", C + f4(*([(0, 0, 0, 0, 0)] * 32)),
  HEAD + "".join("move %d refused 8\n" % k for k in range(1, 33)) + NET, "32 moves, all refused 8")
S("ok-frame-4", f1(1, 1) + f2(4, -4, 4, 4) + f3((0, 0, 0, 1), (1, 0, 0, 0)),
  "curve 1 1\n0 4 0 0 -4\n1 4 0 0 4\n", "frame numbers 4 and -4")
S("ok-frame-4-patch", f1(2, 1) + f2(4, -4, 4, -4, -4, 4, 4, 4, 4)
  + f3((0, 0, 0, 1), (0, 1, 0, 0), (1, 0, 0, 0)),
  "patch 1 1\n1 0 0 4 -4 0 4\n0 1 0 -4 -4 0 4\n0 0 1 4 4 0 4\n", "patch, frame numbers 4 and -4")
S("ok-weight-minus-4096", C + f4((REPL, 1, -4096, 0, 0)),
  HEAD + "0 33554432 0 0 33554432\n1 -8192 -8192 0 -8192\n2 0 4 0 4\n",
  "replace r at (-4096, 0): weight -4096 passes")
# q = 4096 r + s: with r 4096 (2 0 0 2) + (2 2 0 2), with itself
# 2^24 (2 0 0 2) + 8192 (2 2 0 2) + (0 4 0 4); the other sign of 4096 likewise
S("ok-weight-other-4096", C + f4((REPL, 2, 4096, 1, 0)),
  HEAD + "0 2 0 0 2\n1 8194 2 0 8194\n2 33570816 16388 0 33570820\n",
  "replace s at (4096, 1): the other vertex has weight 4096")
S("ok-weight-other-minus-4096", C + f4((REPL, 2, -4096, 1, 0)),
  HEAD + "0 2 0 0 2\n1 -8190 2 0 -8190\n2 33538048 -16380 0 33538052\n",
  "replace s at (-4096, 1): the other vertex has weight -4096")
S("ok-third-weight-4096-patch", P + f4((REPL, 3, 0, 0, 4096)),
  PHEAD + "2 0 0 2 0 0 2\n1 1 0 1 1 1 2\n1 0 1 4096 0 0 8192\n"
          "0 2 0 0 2 0 2\n0 1 1 0 4096 0 8192\n0 0 2 0 0 0 33554432\n",
  "patch, replace t at (0, 0, 4096)")
S("ok-third-weight-minus-4096-patch", P + f4((REPL, 3, 0, 0, -4096)),
  PHEAD + "2 0 0 2 0 0 2\n1 1 0 1 1 1 2\n1 0 1 -4096 0 0 -8192\n"
          "0 2 0 0 2 0 2\n0 1 1 0 -4096 0 -8192\n0 0 2 0 0 0 33554432\n",
  "patch, replace t at (0, 0, -4096)")
S("ok-coefficients", f1(1, 1) + f2(0, 1, 1, 0)
  + f3((1048576, -1048576, 1048576, -1048576), (-1048576, 1048576, 0, 1048576)),
  "curve 1 1\n0 1048576 -1048576 1048576 -1048576\n1 -1048576 1048576 0 1048576\n",
  "coefficients 1048576 and -1048576")
S("ok-zero", C1 + C2 + f3(*[(0, 0, 0, 0)] * 3) + f5(1, 0),
  HEAD + "0 0 0 0 0\n1 0 0 0 0\n2 0 0 0 0\nnowhere\n", "all coefficients 0")
# x = T Z^9, w = Z^10: entry j has sigma_1 = j, 2520/10 = 252
S("ok-curve-10", f1(1, 10) + C2 + f3(*([(0, 0, 0, 1), (1, 0, 0, 0)] + [(0, 0, 0, 0)] * 9)),
  "curve 10 2520\n" + "".join("%d %d 0 0 2520\n" % (j, 252 * j) for j in range(11)),
  "curve of degree 10")
# w = Z^8 only: every entry is L = 1680 where all Z are 1; point q has Z = 3, 3^8 = 6561
MAXREC = (f1(2, 8) + P2 + f3(*([(0, 0, 0, 1)] + [(0, 0, 0, 0)] * 44))
          + f4(*([(FLP, 1, 0, 0, 0)] * 32)) + f5(1, 1, 1))
assert len(MAXREC) == 1017
E8 = ["%d %d %d" % (i, j, 8 - i - j) for i in range(8, -1, -1) for j in range(8 - i, -1, -1)]
S("ok-1017", MAXREC,
  "patch 8 1680\n" + "".join("%s 0 0 0 1680\n" % e for e in E8)
  + "at 0000000000000000 0000000000000000 0000000000000000\n",
  "the longest record, 1017 bytes: patch of degree 8, 32 moves, a point")
S("ok-patch-1", f1(2, 1) + f2(1, 0, 0, 0, 1, 0, 0, 0, 1)
  + f3((0, 0, 1, 2), (0, 3, 0, 4), (5, 0, 0, 6)) + f5(1, 0, 0),
  "patch 1 1\n1 0 0 5 0 0 6\n0 1 0 0 3 0 4\n0 0 1 0 0 1 2\n"
  "at 3feaaaaaaaaaaaab 0000000000000000 0000000000000000\n",
  "patch of degree 1: monomials Z, V, U in the record, entries r, s, t; point 5/6 0 0")
# scale of a patch of degree 3 is 6, not 3: w = Z^3, x = U V Z (6/6 = 1)
# x of entry (i,j,k) over B8's frame: number of ways to pick U from r and V from s: i x j
S("ok-patch-3", f1(2, 3) + P2
  + f3((0, 0, 0, 1), *([(0, 0, 0, 0)] * 4), (1, 0, 0, 0), *([(0, 0, 0, 0)] * 4)),
  None, "patch of degree 3: scale 6; x = U V Z gives i x j")
# the degrees that no other record has: x = T Z^(m-1) or U Z^(m-1), w = Z^m, every Z being 1.
# Entry j has x = j L/m, entry (i, j, k) x = i L/m, and w = L.
for m, L in ((5, 10), (7, 105), (9, 252)):
    S("ok-curve-%d" % m, f1(1, m) + C2 + f3(*([(0, 0, 0, 1), (1, 0, 0, 0)] + [(0, 0, 0, 0)] * (m - 1))),
      "curve %d %d\n" % (m, L) + "".join("%d %d 0 0 %d\n" % (j, j * (L // m), L) for j in range(m + 1)),
      "curve of degree %d: scale %d" % (m, L))
for m, L in ((4, 12), (5, 60), (6, 180), (7, 420)):
    rows = [(0, 0, 0, 0)] * ((m + 1) * (m + 2) // 2)
    rows[0], rows[m + 1] = (0, 0, 0, 1), (1, 0, 0, 0)          # h = 0 has m + 1 monomials
    S("ok-patch-%d" % m, f1(2, m) + P2 + f3(*rows),
      "patch %d %d\n" % (m, L) + "".join(
          "%d %d %d %d 0 0 %d\n" % (i, j, m - i - j, i * (L // m), L)
          for i in range(m, -1, -1) for j in range(m - i, -1, -1)),
      "patch of degree %d: scale %d" % (m, L))
# x = y = z = w = -2^20 U^8 and every U is 4: each number is -2^20 x 1680 x 4^8, 16 characters.
# 4096 r is beyond range, so each of 32 replaces is refused 10; the point r is 1 1 1.
LONGEST = ("patch 8 1680\n" + "".join("move %d refused 10\n" % k for k in range(1, 33))
           + "".join("%s%s\n" % (e, " -115448720916480" * 4) for e in E8)
           + "at 3ff0000000000000 3ff0000000000000 3ff0000000000000\n")
assert len(LONGEST) + len("frame 4 4 4 4 4 3 4 3 4\n") == 4020
S("ok-longest-text", f1(2, 8) + f2(4, 4, 4, 4, 4, 3, 4, 3, 4)
  + f3(*(PZ[:44] + [(-1048576, -1048576, -1048576, -1048576)]))
  + f4(*([(REPL, 1, 4096, 0, 0)] * 32)) + f5(1, 0, 0),
  LONGEST, "a text of 4020 bytes: 32 moves refused 10, 180 numbers of 16 characters, a point")

# ------------------------------------------------------------------------------
group("Scales, to be checked with a pencil: each multinomial divides L, and the quotients have no common divisor")
# Over the frame of the coordinates an entry is the coefficient of its own monomial times L divided by its
# multinomial. The coefficients of x are the multinomials, so each x is L; those of w are 1, so each w is the
# quotient. The quotients have no common divisor exactly where no smaller number than L would do.
SCALES = ((1, (1, 2, 3, 12, 10, 60, 105, 280, 252, 2520)), (2, (1, 2, 6, 12, 60, 180, 420, 1680)))


def quotient(L, nomial):
    assert L % nomial == 0, (L, nomial)
    return L // nomial


def trinomial(m, h, l):
    return math.comb(m, h) * math.comb(m - h, l)


for kind, row in SCALES:
    for m, L in enumerate(row, 1):
        if kind == 1:
            name, frame = "curve", f2(0, 1, 1, 0)
            coefficients = [math.comb(m, k) for k in range(m + 1)]
            entries = [("%d" % j, math.comb(m, j)) for j in range(m + 1)]
        else:
            name, frame = "patch", f2(1, 0, 0, 0, 1, 0, 0, 0, 1)
            coefficients = [trinomial(m, h, l) for h in range(m + 1) for l in range(m - h + 1)]
            entries = [("%d %d %d" % (i, j, m - i - j), trinomial(m, i, j))
                       for i in range(m, -1, -1) for j in range(m - i, -1, -1)]
        assert math.gcd(*(quotient(L, n) for _, n in entries)) == 1
        S("scale-%s-%d" % (name, m), f1(kind, m) + frame + f3(*((n, 0, 0, 1) for n in coefficients)),
          "%s %d %d\n" % (name, m, L) + "".join("%s %d 0 0 %d\n" % (e, L, quotient(L, n)) for e, n in entries),
          "%s of degree %d: x is L = %d in every entry, w is L divided by the entry's multinomial" % (name, m, L))

# the record r2-after-1017
ALL = [(n, c, MAXREC + b"\0" * (3000 - 1017) if n == "r2-after-1017" else r, x)
       for n, c, r, x in ALL]
# expected of ok-patch-3, spelled out by the rule in its comment
E3 = [(i, j, 3 - i - j) for i in range(3, -1, -1) for j in range(3 - i, -1, -1)]
ALL = [(n, c, r, "patch 3 6\n" + "".join("%d %d %d %d 0 0 6\n" % (i, j, k, i * j) for i, j, k in E3)
        if n == "ok-patch-3" else x) for n, c, r, x in ALL]

# ------------------------------------------------------------------------------
group("Lengths of directions: the divisor taken out, with which the direction is the point found, up to the sign")


def along(x, y, z):
    """x T, y T, z T and w = Z over the coordinates: the point (a, 0) is a x, a y, a z, 0."""
    return f1(1, 1) + f2(1, 0, 0, 1) + f3((0, 0, 0, 1), (x, y, z, 0))


def length(name, vector, line, comment, a=1, mv=(), entry=None):
    """A point (a, 0) on such a line; `entry` is the first entry after the moves."""
    pt(name, (a, 0), line, comment, along(*vector), "curve 1 1\n",
       "0 %d %d %d 0\n1 0 0 0 1\n" % (entry or vector), f4(*mv) if mv else b"")


length("len-one", (2, 3, 5), "far 2 3 5 1\n", "no common divisor but 1")
length("len-each-two", (10, -6, 15), "far 10 -6 15 1\n", "each two of 10 -6 15 have a divisor, all three have none")
length("len-not-x-y", (6, 12, 15), "far 2 4 5 3\n", "x and y have 6, all three have 3")
length("len-not-x-z", (12, 8, 6), "far 6 4 3 2\n", "x and z have 6, x and y have 4, all three have 2")
length("len-not-y-z", (-15, 12, 18), "far 5 -4 -6 3\n", "y and z have 6, all three have 3; x negative, the length is not")
length("len-y-first", (0, -6, 4), "far 0 3 -2 2\n", "x is 0, so y is made positive")
length("len-two-zeros", (0, 0, -9), "far 0 0 1 9\n", "z alone: its absolute value")
length("len-grows", (2, -4, 6), "far 1 -2 3 6\n", "3 r in r's place: three times the length",
       mv=[(REPL, 1, 3, 0, 0)], entry=(6, -12, 18))
length("len-flip", (2, -4, 6), "far 1 -2 3 2\n", "r flipped: the same direction and length",
       mv=[(FLP, 1, 0, 0, 0)], entry=(-2, 4, -6))
# L is 2, U = 3, V = 5, Z = 0: z is 2 x 15
pt("len-scaled", (3, 5, -8), "far 0 0 1 30\n", "B8's point (3, 5, -8) is 0 0 30 0: the length has the scale in it",
   P, PHEAD, PNET)
# twice 4096 r, then 16 times that: 2^20 x 2^24 x 2^4
TO44 = [(REPL, 1, 4096, 0, 0)] * 2
length("len-largest", (1048576, 0, 0), "far 1 0 0 281474976710656\n", "2 to the 48th, the largest length",
       16, TO44, (17592186044416, 0, 0))
length("len-largest-negative", (-1048576, 1048576, -1048576), "far 1 -1 1 281474976710656\n",
       "the same, of components of both signs", 16, TO44, (-17592186044416, 17592186044416, -17592186044416))
length("len-past-largest", (0, 1048576, 0), "point refused 10\n", "17 for 16: the length would be 17 x 2^44",
       17, TO44, (0, 17592186044416, 0))
# w = 0, and at s the three are -1, 1, 2, so that the point (16, 1) is 2^48 - 1, 1 - 2^48, 2 - 2^48
S("len-widest", f1(1, 1) + f2(1, 0, 0, 1) + f3((-1, 1, 2, 0), (1048576, -1048576, -1048576, 0)) + f4(*TO44)
  + f5(16, 1), "curve 1 1\n0 17592186044416 -17592186044416 -17592186044416 0\n1 -1 1 2 0\n"
  "far 281474976710655 -281474976710655 -281474976710654 1\n", "the longest line of a direction, 56 bytes")


def main():
    old = ALL + edge_samples.samples() + reading_samples.samples() + rect_samples.samples()
    every = [(name, comment, rec, name and frames.with_frame(rec, text)) for name, comment, rec, text in old]
    every += frame_samples.samples() + order_samples.samples() + size_samples.samples()
    every += zero_samples.samples()
    names = [s[0] for s in every if s[0]]
    assert len(names) == len(set(names)), [name for name in names if names.count(name) > 1]
    for f in os.listdir(OUT):
        if f.endswith((".hex", ".txt")):
            os.remove(os.path.join(OUT, f))
    index = ["# NAME.hex is a record in hex (white space does not count; an empty",
             "# file is an empty record), NAME.txt what netprint prints for it, whole.",
             "# One line each: NAME, bytes of the record, its first refusal or else its first",
             "# line of text, comment.  Texts were written by hand from document 01, those of a",
             "# direction from request E2 too and those of rectangular patches from E3, the longer ones",
             "# by a rule that stands beside them in make_samples.py or rect_samples.py (scale-*: L",
             "# divided by the multinomial) or order_samples.py (powers of linear forms) or size_samples.py",
             "# (a value with q in a place is the sum of those with a vertex there, times its weight) or",
             "# zero_samples.py (what is left at a common zero is known: the curve is written as a product),",
             "# the line `frame` of request E5 by hand in frame_samples.py and order_samples.py and by the",
             "# rule in size_samples.py or published/frames.py elsewhere, and then compared with",
             "# calculator.py (r7-edge-passes: 44 numbers from calculator.py).",
             "# Which refusal wins where several hold: the earlier field's; within a field a cut",
             "# header (1), then tag (2), length (3), a cut value (1), what the value says (4, 5,",
             "# 6); only then a missing field (2, at the length) and 7.  Calls: 8, 9, 12, 10."]
    bad = 0
    count = 0
    for name, comment, rec, text in every:
        if name is None:
            index += ["", "# " + comment]
            continue
        count += 1
        got = calc.netprint(rec)
        if got != text:
            bad += 1
            print("DISAGREE", name, "\n by hand:\n" + text + " calculator:\n" + got)
        with open(os.path.join(OUT, name + ".hex"), "w") as f:
            f.write(calc.hexlines(rec))
        with open(os.path.join(OUT, name + ".txt"), "w") as f:
            f.write(text)
        first = next((l for l in text.split("\n") if "refused" in l), text.split("\n")[0])
        index.append("%-28s %5d  %-22s %s" % (name, len(rec), first, comment))
    with open(os.path.join(OUT, "INDEX"), "w") as f:
        f.write("".join(l + "\n" for l in index))
    print("%d samples, %d disagreements" % (count, bad))
    return 1 if bad else 0


if __name__ == "__main__":
    sys.exit(main())
