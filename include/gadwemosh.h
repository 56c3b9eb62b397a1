/* Exact control nets of rational curves, triangular patches and rectangular patches: the functions of
 * libgadwemosh.a.
 *
 * TO BUILD, in the repository (Linux, x86-64):
 *
 *     tools/build gadwemosh
 *     gcc -std=c11 -O2 -Iinclude your.c target/staticlib/libgadwemosh.a -o your
 *
 * tests/callers/circle.c is a program to begin with. The library needs nothing but memcpy and memset of the
 * C library. It allocates nothing and keeps nothing between calls, so threads may call it at the same time,
 * each with buffers of its own.
 *
 * ANSWERS. Every function takes any numbers and any bytes, and answers with a number: 0 where nothing is
 * refused, or the cause (GADWEMOSH_REFUSED_..., below). A refused call changes no net and writes no point,
 * no projection and no text. The single numbers that go with an answer, `offset`, `start`, `length` and
 * `outcome`, are written with every answer, a refusal too. What each function answers and writes is proved
 * for all inputs; the definitions are in crates/machine/specs/Lent.antt, for records in
 * crates/opening/specs/Opening.antt, for projections in crates/gadwemosh/specs/Projections.antt and for the
 * text in crates/text/specs/Text.antt. crates/gadwemosh/specs/Samples.antt has instances of each function.
 *
 * BUFFERS. A buffer is a pointer with the number of its elements; the other pointers lead to one number
 * each. What the proof takes for granted, the caller sees to: no pointer is null (a buffer of length 0 needs
 * a pointer that is not null too), a pointer leads to as many elements as are named, and a place that is
 * written is in no other buffer of the same call. Places past what a call writes keep their values.
 *
 * STACK. A call takes at most GADWEMOSH_STACK bytes of stack. Seen were 15 KB for a text, 11 KB for a field,
 * 9 KB for opening, 7 KB for a first net, 2.7 KB for a move, 2 KB for a point, also at a common zero, and
 * 0.2 KB for a projection (tests/callers/stack.c). At the first call the dynamic linker may take 3 KB more,
 * when it looks up memcpy and memset.
 *
 * FLOATING POINT. Three functions divide floats: gadwemosh_project, gadwemosh_project_found and
 * gadwemosh_text. The other five use none. Each coordinate of a finite point is the double nearest to the
 * quotient of the numbers projected, x / w, y / w or z / w, and at most that quotient's absolute value /
 * 2^53 away from it. Zero is exact and positive; no coordinate is a NaN, infinite or subnormal. One that is
 * not 0 is n 2^e with two whole numbers, read off its bits:
 *
 *   n = 2^52 + bits 51 to 0, negated where bit 63 is 1     e = bits 62 to 52, less 1075
 *
 * The bound is |n 2^e w - x| 2^53 <= |x|. As e is from -100 to -4, both sides are whole when multiplied by
 * 2^-e; n w and x 2^-e are below 2^102 then. Zero is all bits 0. crates/projection/specs/Accuracy.antt
 * states the bound, and docs/ACCURACY.md says what it means for a gauge.
 *
 * It is proved for round to nearest, in which every program starts. In another rounding mode the answer is
 * what that mode gives: 6 / 10 upward is 3fe3333333333334, which is off by 4/3 of the bound. With a trap on
 * inexact a quotient that is not exact ends the program by SIGFPE. A caller who has set either of them sees
 * to it, in the thread that calls, with <fenv.h>:
 *
 *   fenv_t own;
 *   feholdexcept(&own), fesetround(FE_TONEAREST);     no traps, and round to nearest
 *   gadwemosh_project(...);                           one call of the three, or more
 *   fesetenv(&own);                                   modes, traps and flags as they were before
 *
 * Other traps do nothing, nor do flush-to-zero and denormals-are-zero, which gcc -ffast-math brings. The
 * library leaves the environment as it is, but for the inexact flag: a call of the three may raise it, and
 * raises no other. tests/callers/floats.c tries all of this.
 *
 * A NET is a run of GADWEMOSH_NET numbers or more that the caller lends:
 *
 *   place      number
 *   0          kind: 1 curve, 2 triangular patch, 3 rectangular patch
 *   1          degree: m, 1 to 10 for a curve, 1 to 8 for a triangular patch; p, 1 to 5, of a rectangular one
 *   2          second degree: q, 1 to 5, of a rectangular patch; 0 of the others
 *   3 to 11    the frame that the net has reached: 4, 9 or 8 numbers by the kind, as below
 *   12 on      x, y, z, w of each entry, in order
 *   192        the largest absolute component of the entries, as below
 *   193 on     the caller's, where the run is longer
 *
 *   kind           the frame's places   what stands there
 *   1 curve        3 to 6               T, Z of r, then of s
 *   2 triangular   3 to 11              U, V, Z of r, then of s, then of t
 *   3 rectangular  3 to 10              T1, Z1 of r1, then of s1; T2, Z2 of r2, then of s2
 *
 *   kind           entries              the entry's first place
 *   1 curve        m + 1                12 + 4 j, with j copies of s and m - j of r
 *   2 triangular   (m + 1)(m + 2) / 2   12 + 4 ((j + k)(j + k + 1) / 2 + k), with j copies of s, k of t and
 *                                       m - j - k of r
 *   3 rectangular  (p + 1)(q + 1)       12 + 4 (i (q + 1) + j), with i copies of s1, j of s2, p - i of r1 and
 *                                       q - j of r2
 *
 *   m                              1   2   3   4   5   6   7   8   9  10
 *   entries of a curve             2   3   4   5   6   7   8   9  10  11
 *   entries of a triangular patch  3   6  10  15  21  28  36  45
 *
 * So the copies of s rise in a curve's net. In a triangular patch's the copies of r fall, and for each of
 * them those of s fall: (2, 0, 0), (1, 1, 0), (1, 0, 1), (0, 2, 0), (0, 1, 1), (0, 0, 2) of r, s, t in degree 2.
 * In a rectangular patch's the copies of s1 rise, and for each of them those of s2 rise: (0, 0), (0, 1), (1, 0),
 * (1, 1), (2, 0), (2, 1) of s1, s2 in degrees 2 and 1.
 *
 * Kind, degrees, the numbers of the frame, those of the entries and the largest component are in use. All other
 * places, those between the frame's last number and 12 and those between the last entry and 192 too, hold anything
 * and keep their values.
 *
 * THE FRAME of a first net is that of the record, or the one handed to gadwemosh_first. A replace that is taken
 * puts the point at its weights in the vertex's place, a flip that is taken puts -v in the place of v. A point
 * and a refused call leave the frame as it was. So the frame says which stretch of the curve, or which part of
 * the patch, a net covers, and whoever passes on all places of a net passes on its frame. The frame of a net
 * that is handed over is taken as it is: the size of its numbers is tested, and nothing else. A determinant 0 is
 * no refusal there, and entries alone do not say what their frame is.
 *
 * THE LARGEST COMPONENT is the greatest of the entries' numbers, each without its sign. So it says how much room the
 * net has up to GADWEMOSH_LARGEST, and nobody has to walk through the entries for it. gadwemosh_open, gadwemosh_first
 * and a replace that is taken work it out of the entries that they write. A flip that is taken hands on the number
 * that it was given: a flip changes only signs, so what was right stays right. A point and a refused call leave it as
 * it was. So it is right after any calls on a net that was opened or made here. In a net that is handed over any
 * number may stand in its place: none is refused, no answer depends on it, and a replace that is taken puts the right
 * one there, whatever it was.
 *
 * LIMITS. Numbers of a net, of its frame and of a point are at most GADWEMOSH_LARGEST, weights at most 4096,
 * numbers of a first frame at most 4, coefficients at most 1048576, all of either sign. docs/RECORDS.md says more
 * of all this, and what the bytes of a record mean. */
#ifndef GADWEMOSH_H
#define GADWEMOSH_H

#include <stddef.h>
#include <stdint.h>

#ifdef __cplusplus
extern "C" {
#endif

/* How many places a net has at least, where the numbers of its frame begin, where its entries do, and where the
 * largest absolute component of these stands. */
#define GADWEMOSH_NET 193
#define GADWEMOSH_FRAME_PLACE 3
#define GADWEMOSH_ENTRIES 12
#define GADWEMOSH_LARGEST_PLACE 192

/* How many numbers the frame of a net of this kind has: 4, 9 or 8. */
#define GADWEMOSH_FRAME_NUMBERS(kind) ((kind) == GADWEMOSH_CURVE ? 4 : (kind) == GADWEMOSH_PATCH ? 9 : 8)

/* How many entries a net of degree m, or of degrees p and q, has; this is also the number of monomials. PATCH
 * is a triangular patch, RECT a rectangular one. */
#define GADWEMOSH_CURVE_ENTRIES(m) ((m) + 1)
#define GADWEMOSH_PATCH_ENTRIES(m) (((m) + 1) * ((m) + 2) / 2)
#define GADWEMOSH_RECT_ENTRIES(p, q) (((p) + 1) * ((q) + 1))

/* The first of an entry's four places: with j copies of s, and k copies of t for a triangular patch; for a
 * rectangular one of second degree q with i copies of s1 and j of s2. */
#define GADWEMOSH_CURVE_PLACE(j) (GADWEMOSH_ENTRIES + 4 * (j))
#define GADWEMOSH_PATCH_PLACE(j, k) (GADWEMOSH_ENTRIES + 4 * (((j) + (k)) * ((j) + (k) + 1) / 2 + (k)))
#define GADWEMOSH_RECT_PLACE(q, i, j) (GADWEMOSH_ENTRIES + 4 * ((i) * ((q) + 1) + (j)))

/* How many numbers of a frame and how many coefficients gadwemosh_first wants at least. */
#define GADWEMOSH_FRAME 9
#define GADWEMOSH_COEFFICIENTS 180

/* How many places gadwemosh_point wants at least for what it finds: the point's four numbers, and the four
 * numbers projected. */
#define GADWEMOSH_FOUND 8

/* The largest number of a net, of its frame or of a point, 2 to the 48th. */
#define GADWEMOSH_LARGEST INT64_C(281474976710656)

/* No accepted record and no text has more bytes, and no call takes more bytes of stack. */
#define GADWEMOSH_LONGEST_RECORD 1017
#define GADWEMOSH_LONGEST_TEXT 4183
#define GADWEMOSH_STACK 16384

/* Kinds. */
#define GADWEMOSH_CURVE 1
#define GADWEMOSH_PATCH 2
#define GADWEMOSH_RECT 3

/* Operations of a move. */
#define GADWEMOSH_REPLACE 1
#define GADWEMOSH_FLIP 2

/* Vertices: r, s of a curve, r, s, t of a triangular patch, the pairs r1, s1 and r2, s2 of a rectangular one. */
#define GADWEMOSH_R 1
#define GADWEMOSH_S 2
#define GADWEMOSH_T 3
#define GADWEMOSH_R1 1
#define GADWEMOSH_S1 2
#define GADWEMOSH_R2 3
#define GADWEMOSH_S2 4

/* Tags of the fields of a record. */
#define GADWEMOSH_FIELD_KIND 1
#define GADWEMOSH_FIELD_FRAME 2
#define GADWEMOSH_FIELD_COEFFICIENTS 3
#define GADWEMOSH_FIELD_MOVES 4
#define GADWEMOSH_FIELD_POINT 5

/* Refusals: 1 to 7 of a record, 4 to 7 of a first net, 4, 8 to 10 and 12 of a call on a net, 10 of a projection,
 * 11 of every function but gadwemosh_field. Where several causes hold, 11 goes first; a record is judged from
 * front to back, a first net in the order 4, 5, 6, 7, a call in the order 4, 10 of the net's entries, 8, 9, 12,
 * 10 of its polar values. */
#define GADWEMOSH_REFUSED_CUT_SHORT 1    /* the bytes end within a field */
#define GADWEMOSH_REFUSED_TAG 2          /* a field that must not stand there, or a missing one */
#define GADWEMOSH_REFUSED_LENGTH 3       /* a length that the field cannot have */
#define GADWEMOSH_REFUSED_KIND 4         /* kind or a degree outside, or field 1 not of its kind's length */
#define GADWEMOSH_REFUSED_FRAME 5        /* a number of the frame beyond 4, or a determinant 0 */
#define GADWEMOSH_REFUSED_COEFFICIENT 6  /* a coefficient beyond 1048576 */
#define GADWEMOSH_REFUSED_FIRST_NET 7    /* a first net with a number beyond GADWEMOSH_LARGEST */
#define GADWEMOSH_REFUSED_ARGUMENT 8     /* operation, vertex or weight outside, or an unused weight not 0 */
#define GADWEMOSH_REFUSED_NO_WEIGHT 9    /* weight 0 for the replaced vertex, or all weights of a point or pair 0 */
#define GADWEMOSH_REFUSED_RANGE 10       /* a handed entry or component, or a polar value, beyond GADWEMOSH_LARGEST */
#define GADWEMOSH_REFUSED_SHORT 11       /* a buffer with too few places */
#define GADWEMOSH_REFUSED_FRAME_RANGE 12 /* a number of the net's frame or of a new vertex beyond GADWEMOSH_LARGEST */

/* Outcomes of a projection. */
#define GADWEMOSH_FINITE 1
#define GADWEMOSH_DIRECTION 2
#define GADWEMOSH_NOWHERE 3

/* Opens a record. The first net, over the record's frame and with its largest component, is written where the
 * answer is 0. A refused record writes no net, and `offset` says where in the record the cause stands; it is 0
 * where the answer is 0 or 11. */
uint8_t gadwemosh_open(const uint8_t *record, size_t record_length, int64_t *net, size_t net_length,
                       uint64_t *offset);

/* Finds a field of a record. The answer is the record's refusal, as that of gadwemosh_open to a net of
 * enough places: each lookup judges the whole record. The field's value has `length` bytes and begins at the
 * byte `start` of the record. Where the record is refused or has no field of this tag, `start` is the record's
 * length and `length` is 0.
 *
 *   tag            value, numbers with the high byte first, in two's complement
 *   1 kind         a byte for the kind and a byte for the degree, or for each degree of a rectangular patch
 *   2 frame        4, 9 or 8 numbers by the kind, as gadwemosh_first takes them, of two bytes each: the frame of
 *                  the first net
 *   3 coefficients x, y, z, w of each monomial, as gadwemosh_first takes them, of four bytes each
 *   4 moves        for each of up to 32 moves a byte for the operation, a byte for the vertex, and the first
 *                  three weights that gadwemosh_move takes, of two bytes each; the fourth is 0
 *   5 point        2, 3 or 4 weights by the kind, as gadwemosh_point takes them, of two bytes each
 *
 * The moves and the point of a record were not judged when it was opened: they are refused, or not, when
 * they are made. Fields 4 and 5 may be absent. */
uint8_t gadwemosh_field(const uint8_t *record, size_t record_length, uint8_t tag, uint64_t *start,
                        uint64_t *length);

/* Makes the first net of polynomials over a frame, without a record. `degree` is m, or p of a rectangular
 * patch, whose q is `second`; for the others `second` is 0.
 *
 *   kind           frame                  monomials, in order
 *   1 curve        r, s as T, Z:          T^k Z^(m-k), k rising; in degree 2 Z^2, TZ, T^2
 *                  4 numbers
 *   2 triangular   r, s, t as U, V, Z:    U^h V^l Z^(m-h-l), h rising, then l; in degree 2 Z^2, VZ, V^2, UZ, UV,
 *                  9 numbers              U^2
 *   3 rectangular  r1, s1 as T1, Z1 and   T1^h Z1^(p-h) T2^l Z2^(q-l), h rising, then l; in degrees 1 and 1
 *                  r2, s2 as T2, Z2:      Z1 Z2, Z1 T2, T1 Z2, T1 T2
 *                  8 numbers
 *
 * The determinant of the frame, for a rectangular patch that of each pair, must not be 0. The coefficients are
 * x, y, z, w of each monomial. The buffers have GADWEMOSH_FRAME and GADWEMOSH_COEFFICIENTS numbers or more; what
 * kind and degrees do not use holds anything. The frame's numbers are written into the net, before its entries, and
 * the largest component of these behind them. A refusal is 4, 5, 6 or 7, or 11 where one of the three buffers is
 * too short, and writes nothing. */
uint8_t gadwemosh_first(uint8_t kind, uint8_t degree, uint8_t second, const int64_t *frame,
                        size_t frame_length, const int64_t *coefficients, size_t coefficients_length,
                        int64_t *net, size_t net_length);

/* Replaces (1) a vertex by the point at the weights, or flips (2) it. The weights are those of r, s and t; for
 * a rectangular patch the first two are those of the vertex's own pair, r1 and s1 or r2 and s2. Unused ones are
 * 0: the third of all but a triangular patch, the fourth, all of a flip.
 *
 * A move that is taken writes the entries and the vertex's own numbers in the frame, a replace also the largest
 * component. It is refused 12 where a
 * number of the net's frame, or for a replace a number of the point at the weights, is beyond GADWEMOSH_LARGEST,
 * and then it does not matter how large the polar values are. A refused move leaves the net as it was.
 *
 * Two flips of one vertex restore every place. A flip and then a replace of another vertex leave what the replace
 * and then the flip leave, with the flipped vertex's weight negated if the two are in one pair
 * (docs/SPECIFICATION.md, 'Order of flips and splits'). */
uint8_t gadwemosh_move(int64_t *net, size_t net_length, uint8_t operation, uint8_t vertex, int64_t r,
                       int64_t s, int64_t t, int64_t u);

/* Finds the point at the weights. Eight numbers are written to `found`: x, y, z, w of the point, and behind
 * them the four numbers projected, which say where it lies. Hand all eight to gadwemosh_project_found. The
 * weights are those of r, s and t, or of r1, s1, r2 and s2; unused ones are 0: the third of a curve, the
 * fourth of all but a rectangular patch. It is refused 11 where `found` has fewer than GADWEMOSH_FOUND
 * places, and 12 where a number of the net's frame is beyond GADWEMOSH_LARGEST; those of the parameter point
 * at the weights may be. A refusal writes nothing.
 *
 * THE NUMBERS PROJECTED are x, y, z, w once more, wherever these are not all 0, and on patches always. A
 * curve may come through a common zero, where its four polynomials vanish together and x, y, z, w are all 0:
 * a circle entered at degree 4, its polynomials times (2 T - Z)(3 T - Z), has two of them, at T / Z = 1/2 and
 * at 1/3, though the circle has no gap there. At such a point the factor that vanishes, 2 T - Z at 1/2, is
 * taken out of all four polynomials, as often as all four have it. What is left does not vanish there, and
 * the numbers projected are its values, all four times one number that is not 0: they lie where the circle
 * goes on.
 *
 * To be exact, on a curve of degree m the numbers projected at a common zero are the first of b_1, ...,
 * b_m that is not four zeros. b_d is the polar value, on the scale of the net's entries, of m - d copies
 * of the parameter point at the weights and d copies of r, or of s where the weight of s in the call is 0.
 * All are four zeros only for the zero curve, and then the numbers projected are four zeros too. */
uint8_t gadwemosh_point(const int64_t *net, size_t net_length, int64_t r, int64_t s, int64_t t, int64_t u,
                        int64_t *found, size_t found_length);

/* Projects four numbers, as those of an entry; for a point of gadwemosh_point there is
 * gadwemosh_project_found. `outcome` says where they lie: a finite point (1) is written to `bits`, as the
 * bit patterns of three doubles (FLOATING POINT says how near these are, and what a rounding mode does to
 * them); a direction (2) is written to `direction`, as three whole numbers and its length; nowhere (3),
 * which four zeros are, writes nothing else. The length is positive: it is the greatest common divisor of
 * x, y and z, and its products with the three numbers are x, y and z, all three negated where the first of
 * them that is not 0 is negative. `bits` has three places or more, `direction` four. Beside a refusal,
 * which is 10 or 11, `outcome` is 0 and nothing else is written. */
uint8_t gadwemosh_project(int64_t x, int64_t y, int64_t z, int64_t w, uint8_t *outcome, uint64_t *bits,
                          size_t bits_length, int64_t *direction, size_t direction_length);

/* Projects what gadwemosh_point found, by its eight numbers: the second four, the numbers projected, as
 * gadwemosh_project does, with the same outcomes and the same bound, but a direction has length 1 where the
 * first four are all 0. The numbers projected at a common zero are known up to a factor, so they have no
 * length of their own. Use it for every point: gadwemosh_project, which sees no curve, would say nowhere to
 * the four zeros of a common zero.
 *
 * It is refused 11 where `found` has fewer than GADWEMOSH_FOUND numbers, `bits` fewer than three places or
 * `direction` fewer than four, and 10 where one of the second four numbers is beyond GADWEMOSH_LARGEST,
 * which no number that gadwemosh_point writes is. The first four may be any numbers. Beside a refusal
 * `outcome` is 0 and nothing else is written. */
uint8_t gadwemosh_project_found(const int64_t *found, size_t found_length, uint8_t *outcome, uint64_t *bits,
                                size_t bits_length, int64_t *direction, size_t direction_length);

/* Writes the text that the program netprint prints for a record, accepted or refused. `length` is how many
 * bytes it has, at most GADWEMOSH_LONGEST_TEXT; there is no 0 byte at its end. Where the answer is 11 `out` has
 * fewer bytes than the text, none of it is written, and `length` is 0. The line `at` has the bits of a finite
 * point, so FLOATING POINT goes for it too. */
uint8_t gadwemosh_text(const uint8_t *record, size_t record_length, uint8_t *out, size_t out_length,
                       uint64_t *length);

#ifdef __cplusplus
}
#endif

#endif
