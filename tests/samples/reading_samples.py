"""Samples of the reader that hold every bit of a tag and of a length, used by make_samples.py.

The texts are by hand from document 01: 'In one field: three bytes present, tag, length, value present,
values', fields being taken front to back.  The circle with a flip of r and a point has its fields at 0, 5,
16, 67 and 78, and ends at 85.  The records r2-fieldK-tag-* and r3-fieldK-length-* have other high bits in one
tag or one length of it, and nothing else is touched: whoever reads it without those bits sees a whole record.
"""
import struct

from fields import FLP, f1, f2, f3, f4, f5, field

OUT = []


def group(title):
    OUT.append((None, title, None, None))


def S(name, record, text, comment):
    OUT.append((name, comment, record, text))


CIRCLE = {1: f1(1, 2), 2: f2(0, 1, 1, 1), 3: f3((1, 0, 0, 1), (0, 2, 0, 0), (-1, 0, 0, 1)),
          4: f4((FLP, 1, 0, 0, 0)), 5: f5(1, 1)}
AT = {1: 0, 2: 5, 3: 16, 4: 67, 5: 78}
LENGTH = {1: 2, 2: 8, 3: 48, 4: 8, 5: 4}
WHOLE = b"".join(CIRCLE.values())
assert len(WHOLE) == 85 and all(WHOLE[AT[k]:][:3] == struct.pack(">BH", k, LENGTH[k]) for k in CIRCLE)


def with_head(k, tag, length):
    """The circle with another tag and length of field k, its value as it was."""
    at = AT[k]
    return WHOLE[:at] + struct.pack(">BH", tag, length) + WHOLE[at + 3:]


# ------------------------------------------------------------------------------
group("Every bit of a tag: unknown ones that differ from a field's tag in high bits alone")
for k in CIRCLE:
    for more in (0x08, 0x10, 0x20, 0x40, 0x80, 0xf0):
        tag = k + more
        S("r2-field%d-tag-%02x" % (k, tag), with_head(k, tag, LENGTH[k]), "refused 2 at %d\n" % AT[k],
          "tag %02x in the place of tag %d" % (tag, k))
for tag in (7, 8, 0x16):
    S("r2-unknown-%02x-first" % tag, field(tag, b"\x01\x02") + WHOLE, "refused 2 at 0\n",
      "a field with the tag %02x before a whole record" % tag)
    S("r2-unknown-%02x-last" % tag, WHOLE + field(tag, b""), "refused 2 at 85\n",
      "a field with the tag %02x after a whole record" % tag)

group("Every bit of a length: ones that differ from the right length in high bits alone")
for k in CIRCLE:
    for more in (0x0100, 0x0200, 0x0400, 0x0800, 0x1000, 0x2000, 0x4000, 0x8000, 0xff00):
        length = LENGTH[k] + more
        S("r3-field%d-length-%04x" % (k, length), with_head(k, k, length), "refused 3 at %d\n" % AT[k],
          "field %d of length %04x in the place of %d" % (k, length, LENGTH[k]))
# a rectangular patch of degrees 1 and 1: fields of 6, 19 and 67 bytes
RECT = f1(3, 1, 1) + f2(0, 1, 1, 0, 0, 1, 1, 0) + f3(*[(1, 2, 3, 4)] * 4)
for more in (0x0400, 0x8000, 0xff00):
    S("r3-field1-length-%04x" % (3 + more), struct.pack(">BH", 1, 3 + more) + RECT[3:], "refused 3 at 0\n",
      "a rectangular patch's field 1 of length %04x in the place of 3" % (3 + more))
    S("r3-field4-length-%04x" % more, WHOLE[:67] + struct.pack(">BH", 4, more) + CIRCLE[5],
      "refused 3 at 67\n", "field 4 without a move, of length %04x in the place of 0" % more)

group("One and two bytes left where a field begins, behind field 4")
MOVES, NONE = WHOLE[:78], WHOLE[:67] + f4()
for name, record, offset in (("", MOVES, 78), ("-empty", NONE, 70)):
    S("r1-one-byte-after-field4" + name, record + b"\x05", "refused 1 at %d\n" % offset, "tag 5 alone")
    S("r1-two-bytes-after-field4" + name, record + b"\x05\x00", "refused 1 at %d\n" % offset,
      "tag 5 and half a length")
S("r1-one-byte-after-field4-bad-tag", MOVES + b"\x04", "refused 1 at 78\n",
  "a repeated tag alone: three bytes present is tested before the tag")
S("r1-two-bytes-after-field4-bad-tag", MOVES + b"\xff\xff", "refused 1 at 78\n",
  "an unknown tag and half a length")

group("Values and lengths: front to back, and in one field the length first")
S("r4-before-length", f1(1, 11) + field(2, b"\0" * 7), "refused 4 at 0\n",
  "degree outside, then a frame of length 7: the value of an earlier field goes before")
S("r5-before-length", CIRCLE[1] + f2(0, 1, 1, 5) + field(3, b"\0" * 47), "refused 5 at 5\n",
  "frame number outside, then coefficients of length 47")
S("r6-before-length", WHOLE[:16] + f3((1048577, 0, 0, 1), (0, 2, 0, 0), (-1, 0, 0, 1)) + field(4, b"\0" * 7),
  "refused 6 at 16\n", "coefficient outside, then moves of length 7")
S("r6-before-length-of-point",
  WHOLE[:16] + f3((1, 0, 0, 1), (0, 2, 0, 0), (-1, 0, 0, -1048577)) + field(5, b"\0" * 5),
  "refused 6 at 16\n", "coefficient outside, then a point of length 5")
S("r3-field1-bad", field(1, b"\x09\x63\x63\x63"), "refused 3 at 0\n",
  "field 1 of length 4 and kind and degree outside: length is tested before values")
S("r3-field2-bad", CIRCLE[1] + field(2, struct.pack(">5h", 9, 9, 9, 9, 9)), "refused 3 at 5\n",
  "frame of length 10, its numbers outside")
S("r3-field3-bad", WHOLE[:16] + field(3, struct.pack(">11i", *[2000000] * 11)), "refused 3 at 16\n",
  "coefficients of length 44, all outside")
S("r3-field5-after-field4", MOVES + field(5, b"\0\1\0"), "refused 3 at 78\n",
  "fields 1 to 4 whole and right, then a point of length 3")
S("r3-field5-after-bad-move", WHOLE[:67] + f4((9, 9, 9, 9, 9)) + field(5, b"\0" * 6), "refused 3 at 78\n",
  "a move of no known operation is not judged when read; then a point of length 6")
# degree 10, entry 0 is 106523 x 2520 x 4^10 (r7-curve): field 3 at 16 has 179 bytes
LARGE = f1(1, 10) + f2(4, 0, 0, 4) + f3(*[(0, 0, 0, 0)] * 10, (106523, 0, 0, 0))
S("r3-before-7", LARGE + field(4, b"\0" * 9), "refused 3 at 195\n",
  "first net out of range, then moves of length 9: 7 comes after every field")
S("r3-before-7-high-length", LARGE + struct.pack(">BH", 5, 0x8004) + b"\0\1\0\1", "refused 3 at 195\n",
  "first net out of range, then a point of length 8004")


def samples():
    return OUT
