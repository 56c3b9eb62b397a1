/* Calls each function at the edges of what it takes: short and long buffers, refused calls, places that
 * must stay. Prints how many answers were right, and each wrong one. Standard input is the circle's record. */
#include "gadwemosh.h"

#include <stdio.h>
#include <string.h>

static int right, wrong;

static void expect(int line, int ok) {
    if (ok) {
        right++;
    } else {
        wrong++;
        printf("line %d: wrong\n", line);
    }
}
#define EXPECT(ok) expect(__LINE__, (ok))

/* A run with two places more than a net has. */
enum { MORE = GADWEMOSH_NET + 2 };

static uint8_t record[2048];
static size_t length;

/* The circle of the record, the triangular patch of document 01's sample B8, and the rectangular patch
 * x = T1^2 Z2, y = T1 Z1 T2, z = Z1^2 T2, w = Z1^2 Z2 of degrees 2 and 1. */
static const int64_t circle_frame[9] = {0, 1, 1, 1};
static const int64_t circle[180] = {1, 0, 0, 1, 0, 2, 0, 0, -1, 0, 0, 1};
static const int64_t circle_net[12] = {2, 0, 0, 2, 2, 2, 0, 2, 0, 4, 0, 4};
static const int64_t patch_frame[9] = {1, 0, 1, 0, 1, 1, 0, 0, 1};
static const int64_t patch[180] = {0, 0, 0, 1, 0, 1, 0, 0, 0, 0, 0, 0, 1, 0, 0, 0, 0, 0, 1, 0};
static const int64_t patch_net[24] = {2, 0, 0, 2, 1, 1, 1, 2, 1, 0, 0, 2, 0, 2, 0, 2, 0, 1, 0, 2, 0, 0, 0, 2};
static const int64_t rect_frame[9] = {0, 1, 1, 1, 1, 1, -1, 2, INT64_MIN};
static const int64_t rect[180] = {0, 0, 0, 1, 0, 0, 1, 0, 0, 0, 0, 0, 0, 1, 0, 0, 1, 0, 0, 0};
static const int64_t rect_net[24] = {0, 0, 2, 2, 0, 0, -2, 4, 0, 1, 2, 2, 0, -1, -2, 4, 2, 2, 2, 2, 4, -2, -2, 4};

/* A run in which no two places hold the same; every number is out of range as an entry. */
static void fill(int64_t *net) {
    for (int i = 0; i < MORE; i++)
        net[i] = INT64_MIN + i;
}

static int same(const int64_t *a, const int64_t *b) {
    return memcmp(a, b, MORE * sizeof *a) == 0;
}

/* Eight places for what a point finds and one more, in which no two hold the same. */
enum { FOUND_MORE = GADWEMOSH_FOUND + 1 };

static void blank(int64_t *found) {
    for (int i = 0; i < FOUND_MORE; i++)
        found[i] = -1 - i;
}

/* All of them hold that yet. */
static int kept(const int64_t *found) {
    int64_t wanted[FOUND_MORE];
    blank(wanted);
    return memcmp(found, wanted, sizeof wanted) == 0;
}

/* The eight places hold the point and the numbers projected, and the one behind them holds what it held. */
static int holds_eight(const int64_t *found, const int64_t *point, const int64_t *projected) {
    return memcmp(found, point, 4 * sizeof *found) == 0 && memcmp(found + 4, projected, 4 * sizeof *found) == 0 &&
           found[8] == -9;
}
#define FOUR(x, y, z, w) ((const int64_t[]){x, y, z, w})

/* A point that is projected itself. */
static int finds(const int64_t *found, int64_t x, int64_t y, int64_t z, int64_t w) {
    return holds_eight(found, FOUR(x, y, z, w), FOUR(x, y, z, w));
}

/* A common zero, with the numbers projected. */
static int leaves(const int64_t *found, int64_t x, int64_t y, int64_t z, int64_t w) {
    return holds_eight(found, FOUR(0, 0, 0, 0), FOUR(x, y, z, w));
}

/* The largest of so many numbers, each without its sign. */
static int64_t largest_of(const int64_t *numbers, int count) {
    int64_t largest = 0;
    for (int i = 0; i < count; i++) {
        int64_t size = numbers[i] < 0 ? -numbers[i] : numbers[i];
        largest = size > largest ? size : largest;
    }
    return largest;
}

/* The net of the numbers stands in the places, with its largest component, and every place that is not in use holds
 * what it held: of the places for a frame those past the numbers that the kind has. */
static int holds(const int64_t *net, const int64_t *old, int kind, int degree, int second, const int64_t *frame,
                 const int64_t *entries, int count) {
    int64_t wanted[MORE];
    memcpy(wanted, old, sizeof wanted);
    wanted[0] = kind;
    wanted[1] = degree;
    wanted[2] = second;
    memcpy(wanted + GADWEMOSH_FRAME_PLACE, frame, (size_t)GADWEMOSH_FRAME_NUMBERS(kind) * sizeof *frame);
    memcpy(wanted + GADWEMOSH_ENTRIES, entries, (size_t)count * sizeof *entries);
    wanted[GADWEMOSH_LARGEST_PLACE] = largest_of(entries, count);
    return same(net, wanted);
}

/* Puts a number of so many bytes, the high one first; the next one goes to the place returned. */
static uint8_t *put(uint8_t *at, int bytes, int64_t number) {
    while (bytes-- > 0)
        *at++ = (uint8_t)(number >> (8 * bytes));
    return at;
}

/* The record of the rectangular patch, with a move of s2 and a point: 146 bytes. */
static void make_rect_record(uint8_t *bytes) {
    uint8_t *at = bytes;
    memcpy(at, "\1\0\3\3\2\1\2\0\20", 9), at += 9;
    for (int i = 0; i < 8; i++)
        at = put(at, 2, rect_frame[i]);
    memcpy(at, "\3\0\140", 3), at += 3;
    for (int i = 0; i < 24; i++)
        at = put(at, 4, rect[i]);
    memcpy(at, "\4\0\10\1\4\0\1\0\1\0\0\5\0\10\0\1\377\377\0\2\0\1", 22);
}

static void test_open(void) {
    int64_t net[MORE], old[MORE];
    uint64_t offset = 5;
    fill(net);
    fill(old);
    EXPECT(gadwemosh_open(record, length, net, GADWEMOSH_NET - 1, &offset) == 11);
    EXPECT(offset == 0 && same(net, old));
    EXPECT(gadwemosh_open(record, length, net, 0, &offset) == 11);
    EXPECT(offset == 0 && same(net, old));
    EXPECT(gadwemosh_open(record, 0, net, MORE, &offset) == 2);
    EXPECT(offset == 0 && same(net, old));
    /* the coefficients are cut short: field 3 begins at byte 16 */
    EXPECT(gadwemosh_open(record, 30, net, MORE, &offset) == 1);
    EXPECT(offset == 16 && same(net, old));
    EXPECT(gadwemosh_open(record, length, net, MORE, &offset) == 0);
    EXPECT(offset == 0 && holds(net, old, 1, 2, 0, circle_frame, circle_net, 12));
    fill(net);
    EXPECT(gadwemosh_open(record, length, net, GADWEMOSH_NET, &offset) == 0);
    EXPECT(offset == 0 && holds(net, old, 1, 2, 0, circle_frame, circle_net, 12));
}

static void test_open_rect(void) {
    uint8_t bytes[146];
    int64_t net[MORE], old[MORE];
    uint64_t offset = 5;
    fill(net);
    fill(old);
    make_rect_record(bytes);
    EXPECT(gadwemosh_open(bytes, 146, net, 192, &offset) == 11 && offset == 0 && same(net, old));
    /* the coefficients are cut short: field 3 begins at byte 25 */
    EXPECT(gadwemosh_open(bytes, 30, net, MORE, &offset) == 1 && offset == 25 && same(net, old));
    EXPECT(gadwemosh_open(bytes, 146, net, MORE, &offset) == 0 && offset == 0);
    EXPECT(holds(net, old, 3, 2, 1, rect_frame, rect_net, 24));
    memcpy(old, net, sizeof net);
    /* s2 is -2 times r2 */
    memcpy(bytes + 21, "\377\376\377\376", 4);
    EXPECT(gadwemosh_open(bytes, 146, net, MORE, &offset) == 5 && offset == 6 && same(net, old));
    /* a second degree outside, and kinds that have none */
    bytes[5] = 6;
    EXPECT(gadwemosh_open(bytes, 146, net, MORE, &offset) == 4 && offset == 0 && same(net, old));
    bytes[5] = 0, bytes[3] = 1;
    EXPECT(gadwemosh_open(bytes, 146, net, MORE, &offset) == 4 && offset == 0 && same(net, old));
    bytes[3] = 2;
    EXPECT(gadwemosh_open(bytes, 146, net, MORE, &offset) == 4 && offset == 0 && same(net, old));
}

static void test_first(void) {
    const int64_t line[9] = {1, 1, 1, 1}, far[9] = {4, 3, 4, 4};
    int64_t frame[9], coefficients[182], net[MORE], old[MORE];
    fill(net);
    fill(old);
    EXPECT(gadwemosh_first(1, 2, 0, circle_frame, 8, circle, 180, net, MORE) == 11 && same(net, old));
    EXPECT(gadwemosh_first(1, 2, 0, circle_frame, 9, circle, 179, net, MORE) == 11 && same(net, old));
    EXPECT(gadwemosh_first(1, 2, 0, circle_frame, 9, circle, 180, net, 192) == 11 && same(net, old));
    /* a short run comes before what is refused of the polynomials */
    EXPECT(gadwemosh_first(4, 2, 0, line, 9, circle, 180, net, 192) == 11 && same(net, old));
    EXPECT(gadwemosh_first(4, 2, 0, line, 9, circle, 180, net, MORE) == 4 && same(net, old));
    EXPECT(gadwemosh_first(1, 11, 0, circle_frame, 9, circle, 180, net, MORE) == 4 && same(net, old));
    EXPECT(gadwemosh_first(2, 9, 0, patch_frame, 9, patch, 180, net, MORE) == 4 && same(net, old));
    EXPECT(gadwemosh_first(1, 2, 0, line, 9, circle, 180, net, MORE) == 5 && same(net, old));
    memcpy(coefficients, circle, sizeof circle);
    coefficients[11] = 1048577;
    EXPECT(gadwemosh_first(1, 2, 0, circle_frame, 9, coefficients, 180, net, MORE) == 6 && same(net, old));
    for (int i = 0; i < 182; i++)
        coefficients[i] = 1048576;
    EXPECT(gadwemosh_first(1, 10, 0, far, 9, coefficients, 180, net, MORE) == 7 && same(net, old));
    EXPECT(gadwemosh_first(1, 2, 0, circle_frame, 9, circle, 180, net, MORE) == 0);
    EXPECT(holds(net, old, 1, 2, 0, circle_frame, circle_net, 12));
    fill(net);
    EXPECT(gadwemosh_first(2, 2, 0, patch_frame, 9, patch, 180, net, GADWEMOSH_NET) == 0);
    EXPECT(holds(net, old, 2, 2, 0, patch_frame, patch_net, 24));
    /* of frame and coefficients only what the kind and degree take is looked at, and more is taken */
    for (int i = 0; i < 9; i++)
        frame[i] = i < 4 ? circle_frame[i] : INT64_MAX - i;
    for (int i = 0; i < 182; i++)
        coefficients[i] = i < 12 ? circle[i] : INT64_MIN + i;
    fill(net);
    EXPECT(gadwemosh_first(1, 2, 0, frame, 9, coefficients, 182, net, MORE) == 0);
    EXPECT(holds(net, old, 1, 2, 0, circle_frame, circle_net, 12));
}

static void test_first_rect(void) {
    const int64_t flat_first[9] = {1, 2, 2, 4, 0, 1, 1, 1}, flat_second[9] = {0, 1, 1, 1, 1, 2, 2, 4};
    const int64_t far[9] = {4, 3, 4, 4, 4, 3, 4, 4}, outside[9] = {0, 1, 1, 1, 0, 1, 1, 5}, none[180] = {0};
    int64_t coefficients[180], net[MORE], old[MORE];
    fill(net);
    fill(old);
    /* nine places are wanted of a frame of eight numbers */
    EXPECT(gadwemosh_first(3, 2, 1, rect_frame, 8, rect, 180, net, MORE) == 11 && same(net, old));
    EXPECT(gadwemosh_first(3, 2, 1, rect_frame, 9, rect, 179, net, MORE) == 11 && same(net, old));
    EXPECT(gadwemosh_first(3, 2, 1, rect_frame, 9, rect, 180, net, 192) == 11 && same(net, old));
    EXPECT(gadwemosh_first(3, 2, 0, rect_frame, 9, rect, 180, net, MORE) == 4 && same(net, old));
    EXPECT(gadwemosh_first(3, 2, 6, rect_frame, 9, rect, 180, net, MORE) == 4 && same(net, old));
    EXPECT(gadwemosh_first(3, 0, 1, rect_frame, 9, rect, 180, net, MORE) == 4 && same(net, old));
    EXPECT(gadwemosh_first(3, 6, 1, rect_frame, 9, rect, 180, net, MORE) == 4 && same(net, old));
    EXPECT(gadwemosh_first(1, 2, 1, circle_frame, 9, circle, 180, net, MORE) == 4 && same(net, old));
    EXPECT(gadwemosh_first(2, 2, 1, patch_frame, 9, patch, 180, net, MORE) == 4 && same(net, old));
    EXPECT(gadwemosh_first(3, 2, 1, flat_first, 9, rect, 180, net, MORE) == 5 && same(net, old));
    EXPECT(gadwemosh_first(3, 2, 1, flat_second, 9, rect, 180, net, MORE) == 5 && same(net, old));
    EXPECT(gadwemosh_first(3, 2, 1, outside, 9, rect, 180, net, MORE) == 5 && same(net, old));
    for (int i = 0; i < 180; i++)
        coefficients[i] = 1048576;
    EXPECT(gadwemosh_first(3, 5, 5, far, 9, coefficients, 180, net, MORE) == 7 && same(net, old));
    /* the last coefficient that is taken, and the one after it */
    memcpy(coefficients, rect, sizeof rect);
    coefficients[23] = 1048577;
    EXPECT(gadwemosh_first(3, 2, 1, rect_frame, 9, coefficients, 180, net, MORE) == 6 && same(net, old));
    coefficients[23] = 0, coefficients[24] = INT64_MIN;
    EXPECT(gadwemosh_first(3, 2, 1, rect_frame, 9, coefficients, 180, net, MORE) == 0);
    EXPECT(holds(net, old, 3, 2, 1, rect_frame, rect_net, 24));
    /* the places past the last entry, for all degrees */
    for (int p = 1; p <= 5; p++)
        for (int q = 1; q <= 5; q++) {
            fill(net);
            EXPECT(gadwemosh_first(3, (uint8_t)p, (uint8_t)q, rect_frame, 9, none, 180, net, GADWEMOSH_NET) == 0);
            EXPECT(holds(net, old, 3, p, q, rect_frame, none, 4 * GADWEMOSH_RECT_ENTRIES(p, q)));
        }
}

/* What stands in one place of the head makes a move and a point of a net refused 4. */
static void test_head(const int64_t *good, int place, int64_t number) {
    int64_t net[MORE], old[MORE], found[FOUND_MORE];
    memcpy(net, good, sizeof net);
    net[place] = number;
    memcpy(old, net, sizeof net);
    blank(found);
    EXPECT(gadwemosh_move(net, MORE, GADWEMOSH_FLIP, 1, 0, 0, 0, 0) == 4 && same(net, old));
    EXPECT(gadwemosh_move(net, MORE, 3, 9, 4097, 0, 0, 0) == 4 && same(net, old));
    EXPECT(gadwemosh_point(net, MORE, 1, 1, 0, 0, found, FOUND_MORE) == 4 && same(net, old) && kept(found));
}

static void test_heads(void) {
    /* 257 and -255 have the low byte 1, 258 has 2, 256 has 0: none is read as a byte */
    const int64_t kinds[] = {0, 3, 4, 255, 256, 257, 258, -1, -255, INT64_MAX, INT64_MIN};
    const int64_t degrees[] = {0, 11, 255, 256, 257, 258, -1, -254, INT64_MAX, INT64_MIN};
    const int64_t seconds[] = {1, 2, 10, 255, 256, -1, -256, INT64_MAX, INT64_MIN};
    int64_t curve[MORE], triangle[MORE];
    fill(curve);
    fill(triangle);
    gadwemosh_first(1, 2, 0, circle_frame, 9, circle, 180, curve, MORE);
    gadwemosh_first(2, 2, 0, patch_frame, 9, patch, 180, triangle, MORE);
    for (size_t i = 0; i < sizeof kinds / sizeof *kinds; i++)
        test_head(curve, 0, kinds[i]);
    for (size_t i = 0; i < sizeof degrees / sizeof *degrees; i++) {
        test_head(curve, 1, degrees[i]);
        test_head(triangle, 1, degrees[i]);
    }
    test_head(triangle, 1, 9);
    for (size_t i = 0; i < sizeof seconds / sizeof *seconds; i++) {
        test_head(curve, 2, seconds[i]);
        test_head(triangle, 2, seconds[i]);
    }
}

static void test_heads_rect(void) {
    /* -253 has the low byte 3, 257 and -255 have 1 */
    const int64_t kinds[] = {0, 1, 2, 4, 255, 256, 259, -1, -253, INT64_MAX, INT64_MIN};
    const int64_t degrees[] = {0, 6, 255, 256, 257, -1, -255, INT64_MAX, INT64_MIN};
    int64_t net[MORE];
    fill(net);
    gadwemosh_first(3, 2, 1, rect_frame, 9, rect, 180, net, MORE);
    for (size_t i = 0; i < sizeof kinds / sizeof *kinds; i++)
        test_head(net, 0, kinds[i]);
    for (size_t i = 0; i < sizeof degrees / sizeof *degrees; i++) {
        test_head(net, 1, degrees[i]);
        test_head(net, 2, degrees[i]);
    }
}

static void test_move(void) {
    const int64_t flipped_frame[4] = {0, -1, 1, 1}, halved_frame[4] = {0, 1, 1, 2};
    const int64_t patch_flipped_frame[9] = {1, 0, 1, 0, 1, 1, 0, 0, -1};
    const int64_t flipped[12] = {2, 0, 0, 2, -2, -2, 0, -2, 0, 4, 0, 4};
    const int64_t halved[12] = {2, 0, 0, 2, 4, 2, 0, 4, 6, 8, 0, 10};
    const int64_t patch_flipped[24] = {2, 0, 0, 2, 1, 1, 1, 2, -1, 0, 0, -2, 0, 2, 0, 2, 0, -1, 0, -2, 0, 0, 0, 2};
    int64_t net[MORE], old[MORE];
    fill(net);
    gadwemosh_first(1, 2, 0, circle_frame, 9, circle, 180, net, MORE);
    memcpy(old, net, sizeof net);
    EXPECT(gadwemosh_move(net, 192, 1, 2, 1, 1, 0, 0) == 11 && same(net, old));
    EXPECT(gadwemosh_move(net, 0, 3, 2, 1, 1, 0, 0) == 11 && same(net, old));
    EXPECT(gadwemosh_move(net, MORE, 3, 2, 1, 1, 0, 0) == 8 && same(net, old));
    EXPECT(gadwemosh_move(net, MORE, 1, 3, 1, 1, 0, 0) == 8 && same(net, old));
    EXPECT(gadwemosh_move(net, MORE, 1, 2, 4097, 1, 0, 0) == 8 && same(net, old));
    EXPECT(gadwemosh_move(net, MORE, 1, 2, 1, 1, 1, 0) == 8 && same(net, old));
    EXPECT(gadwemosh_move(net, MORE, 1, 2, 1, 1, 0, 1) == 8 && same(net, old));
    EXPECT(gadwemosh_move(net, MORE, 2, 2, 0, 1, 0, 0) == 8 && same(net, old));
    EXPECT(gadwemosh_move(net, MORE, 1, 2, 1, 0, 0, 0) == 9 && same(net, old));
    /* B4: flip r. The places that are not in use hold numbers out of range, which nobody looks at */
    EXPECT(gadwemosh_move(net, MORE, 2, 1, 0, 0, 0, 0) == 0);
    EXPECT(holds(net, old, 1, 2, 0, flipped_frame, flipped, 12));
    EXPECT(gadwemosh_move(net, GADWEMOSH_NET, 2, 1, 0, 0, 0, 0) == 0 && same(net, old));
    /* B3: replace s */
    EXPECT(gadwemosh_move(net, GADWEMOSH_NET, 1, 2, 1, 1, 0, 0) == 0);
    EXPECT(holds(net, old, 1, 2, 0, halved_frame, halved, 12));
    /* the last number in use is looked at */
    net[23] = INT64_C(281474976710657);
    memcpy(old, net, sizeof net);
    EXPECT(gadwemosh_move(net, MORE, 2, 1, 0, 0, 0, 0) == 10 && same(net, old));
    EXPECT(gadwemosh_move(net, MORE, 3, 1, 0, 0, 0, 0) == 10 && same(net, old));
    /* the largest number in range leads beyond it */
    net[23] = INT64_C(-281474976710656);
    memcpy(old, net, sizeof net);
    EXPECT(gadwemosh_move(net, MORE, 1, 1, 1, 2, 0, 0) == 10 && same(net, old));
    EXPECT(gadwemosh_move(net, MORE, 2, 2, 0, 0, 0, 0) == 0 && net[23] == old[23]);
    fill(net);
    gadwemosh_first(2, 2, 0, patch_frame, 9, patch, 180, net, MORE);
    memcpy(old, net, sizeof net);
    EXPECT(gadwemosh_move(net, MORE, 1, 4, 1, 1, 1, 0) == 8 && same(net, old));
    EXPECT(gadwemosh_move(net, MORE, 1, 3, 1, 1, 1, 1) == 8 && same(net, old));
    EXPECT(gadwemosh_move(net, MORE, 2, 3, 0, 0, 0, 0) == 0);
    EXPECT(holds(net, old, 2, 2, 0, patch_flipped_frame, patch_flipped, 24));
}

/* A move of the rectangular patch that is taken: the net that it leaves, with the vertex (T, Z) in its place. */
static void test_rect_moved(uint8_t operation, uint8_t vertex, int64_t r, int64_t s, int64_t T, int64_t Z,
                            const int64_t *entries) {
    int64_t frame[8], net[MORE], old[MORE];
    memcpy(frame, rect_frame, sizeof frame);
    frame[2 * vertex - 2] = T, frame[2 * vertex - 1] = Z;
    fill(net);
    gadwemosh_first(3, 2, 1, rect_frame, 9, rect, 180, net, MORE);
    memcpy(old, net, sizeof net);
    EXPECT(gadwemosh_move(net, GADWEMOSH_NET, operation, vertex, r, s, 0, 0) == 0);
    EXPECT(holds(net, old, 3, 2, 1, frame, entries, 24));
}

static void test_move_rect(void) {
    /* with degree 2 in the first pair, r1 and s1 flip the same entries */
    const int64_t r1_flipped[24] = {0, 0, 2, 2, 0, 0, -2, 4, 0, -1, -2, -2, 0, 1, 2, -4, 2, 2, 2, 2, 4, -2, -2, 4};
    const int64_t r2_flipped[24] = {0, 0,  -2, -2, 0,  0,  -2, 4,  0, -1, -2, -2,
                                    0, -1, -2, 4,  -2, -2, -2, -2, 4, -2, -2, 4};
    const int64_t s2_flipped[24] = {0, 0, 2, 2, 0, 0, 2, -4, 0, 1, 2, 2, 0, 1, 2, -4, 2, 2, 2, 2, -4, 2, 2, -4};
    const int64_t s1_replaced[24] = {0, 0, 2, 2, 0, 0, -2, 4, 0, 1, 4, 4, 0, -1, -4, 8, 2, 4, 8, 8, 4, -4, -8, 16};
    const int64_t r2_replaced[24] = {0, 0, 6, 0, 0, 0, -2, 4, 0, 3, 6, 0, 0, -1, -2, 4, 0, 6, 6, 0, 4, -2, -2, 4};
    const int64_t s2_replaced[24] = {0, 0, 2, 2, 0, 0, 0, 6, 0, 1, 2, 2, 0, 0, 0, 6, 2, 2, 2, 2, 6, 0, 0, 6};
    int64_t net[MORE], old[MORE];
    fill(net);
    gadwemosh_first(3, 2, 1, rect_frame, 9, rect, 180, net, MORE);
    memcpy(old, net, sizeof net);
    EXPECT(gadwemosh_move(net, 192, 1, 4, 1, 1, 0, 0) == 11 && same(net, old));
    EXPECT(gadwemosh_move(net, MORE, 1, 0, 1, 1, 0, 0) == 8 && same(net, old));
    EXPECT(gadwemosh_move(net, MORE, 1, 5, 1, 1, 0, 0) == 8 && same(net, old));
    EXPECT(gadwemosh_move(net, MORE, 2, 5, 0, 0, 0, 0) == 8 && same(net, old));
    for (uint8_t vertex = 1; vertex <= 4; vertex++) {
        EXPECT(gadwemosh_move(net, MORE, 1, vertex, 1, 1, 1, 0) == 8 && same(net, old));
        EXPECT(gadwemosh_move(net, MORE, 1, vertex, 1, 1, 0, 1) == 8 && same(net, old));
        EXPECT(gadwemosh_move(net, MORE, 1, vertex, 1, -4097, 0, 0) == 8 && same(net, old));
        EXPECT(gadwemosh_move(net, MORE, 2, vertex, 0, 0, 0, 1) == 8 && same(net, old));
        EXPECT(gadwemosh_move(net, MORE, 1, vertex, vertex % 2 == 0, vertex % 2, 0, 0) == 9 && same(net, old));
    }
    test_rect_moved(GADWEMOSH_FLIP, GADWEMOSH_R1, 0, 0, 0, -1, r1_flipped);
    test_rect_moved(GADWEMOSH_FLIP, GADWEMOSH_S1, 0, 0, -1, -1, r1_flipped);
    test_rect_moved(GADWEMOSH_FLIP, GADWEMOSH_R2, 0, 0, -1, -1, r2_flipped);
    test_rect_moved(GADWEMOSH_FLIP, GADWEMOSH_S2, 0, 0, 1, -2, s2_flipped);
    /* (0, 1) + (1, 1), 2 (1, 1) - (-1, 2) and (1, 1) + (-1, 2) */
    test_rect_moved(GADWEMOSH_REPLACE, GADWEMOSH_S1, 1, 1, 1, 2, s1_replaced);
    test_rect_moved(GADWEMOSH_REPLACE, GADWEMOSH_R2, 2, -1, 3, 0, r2_replaced);
    test_rect_moved(GADWEMOSH_REPLACE, GADWEMOSH_S2, 1, 1, 0, 3, s2_replaced);
    /* the last number in use, out of range and in range */
    net[35] = GADWEMOSH_LARGEST + 1;
    memcpy(old, net, sizeof net);
    EXPECT(gadwemosh_move(net, MORE, 2, 1, 0, 0, 0, 0) == 10 && same(net, old));
    net[35] = GADWEMOSH_LARGEST;
    memcpy(old, net, sizeof net);
    EXPECT(gadwemosh_move(net, MORE, 1, 4, 0, 2, 0, 0) == 10 && same(net, old));
    EXPECT(gadwemosh_move(net, MORE, 1, 4, 0, -1, 0, 0) == 0 && net[35] == -GADWEMOSH_LARGEST);
    EXPECT(net[GADWEMOSH_LARGEST_PLACE] == GADWEMOSH_LARGEST);
}

static void test_point(void) {
    int64_t net[MORE], old[MORE], found[FOUND_MORE];
    fill(net);
    blank(found);
    gadwemosh_first(1, 2, 0, circle_frame, 9, circle, 180, net, MORE);
    memcpy(old, net, sizeof net);
    for (size_t places = 0; places < GADWEMOSH_FOUND; places++)
        EXPECT(gadwemosh_point(net, MORE, 1, 1, 0, 0, found, places) == 11 && kept(found));
    EXPECT(gadwemosh_point(net, 192, 1, 1, 0, 0, found, FOUND_MORE) == 11 && kept(found));
    EXPECT(gadwemosh_point(net, MORE, 1, 1, 1, 0, found, FOUND_MORE) == 8 && kept(found));
    EXPECT(gadwemosh_point(net, MORE, 0, 0, 0, 0, found, FOUND_MORE) == 9 && kept(found));
    EXPECT(gadwemosh_point(net, MORE, 1, 1, 0, 0, found, FOUND_MORE) == 0 && same(net, old));
    EXPECT(finds(found, 6, 8, 0, 10));
    blank(found);
    EXPECT(gadwemosh_point(net, GADWEMOSH_NET, 1, 1, 0, 0, found, GADWEMOSH_FOUND) == 0 && finds(found, 6, 8, 0, 10));
    gadwemosh_first(2, 2, 0, patch_frame, 9, patch, 180, net, MORE);
    EXPECT(gadwemosh_point(net, GADWEMOSH_NET, 1, 1, 1, 0, found, GADWEMOSH_FOUND) == 0 && finds(found, 6, 6, 2, 18));
    EXPECT(gadwemosh_point(net, GADWEMOSH_NET, 1, 1, 1, 1, found, GADWEMOSH_FOUND) == 8 && finds(found, 6, 6, 2, 18));
}

static void test_point_rect(void) {
    /* degrees 1 and 1, entries (0, 0), (0, 1), (1, 0), (1, 1) */
    const int64_t signs[2][4] = {{1, 1, -1, -1}, {1, -1, 1, -1}};
    int64_t net[MORE], old[MORE], found[FOUND_MORE];
    fill(net);
    blank(found);
    gadwemosh_first(3, 2, 1, rect_frame, 9, rect, 180, net, MORE);
    memcpy(old, net, sizeof net);
    for (size_t places = 0; places < GADWEMOSH_FOUND; places++)
        EXPECT(gadwemosh_point(net, MORE, 1, 1, 1, 1, found, places) == 11 && kept(found));
    EXPECT(gadwemosh_point(net, MORE, 1, 1, 1, 4097, found, FOUND_MORE) == 8 && kept(found));
    EXPECT(gadwemosh_point(net, MORE, 1, 1, -4097, 1, found, FOUND_MORE) == 8 && kept(found));
    /* a pair without weight, and a weight outside before it */
    EXPECT(gadwemosh_point(net, MORE, 0, 0, 1, 1, found, FOUND_MORE) == 9 && kept(found));
    EXPECT(gadwemosh_point(net, MORE, 1, 1, 0, 0, found, FOUND_MORE) == 9 && kept(found));
    EXPECT(gadwemosh_point(net, MORE, 0, 0, 0, 0, found, FOUND_MORE) == 9 && kept(found));
    EXPECT(gadwemosh_point(net, MORE, 0, 0, 1, 4097, found, FOUND_MORE) == 8 && kept(found));
    EXPECT(gadwemosh_point(net, MORE, 1, 2, 3, -1, found, FOUND_MORE) == 0 && same(net, old));
    EXPECT(finds(found, 8, 48, 72, 18));
    /* at the vertices the point is an entry */
    EXPECT(gadwemosh_point(net, MORE, 0, 1, 1, 0, found, FOUND_MORE) == 0);
    EXPECT(memcmp(found, net + GADWEMOSH_RECT_PLACE(1, 2, 0), 4 * sizeof *found) == 0);
    /* the first pair's point is named with the second pair's vertices, and not the other way round; the
     * point is four zeros, which a patch has for the numbers projected too */
    net[1] = 1, net[2] = 1;
    for (int way = 0; way < 2; way++) {
        for (int i = 0; i < 16; i++)
            net[GADWEMOSH_ENTRIES + i] = signs[way][i / 4] * GADWEMOSH_LARGEST;
        blank(found);
        EXPECT(gadwemosh_point(net, MORE, 1, 1, 1, 1, found, FOUND_MORE) == (way == 0 ? 0 : 10));
        EXPECT(way == 0 ? finds(found, 0, 0, 0, 0) : kept(found));
    }
}

/* The nets of the circle, of the triangular and of the rectangular patch, all other places filled. */
static void make_nets(int64_t nets[3][MORE]) {
    for (int i = 0; i < 3; i++)
        fill(nets[i]);
    gadwemosh_first(1, 2, 0, circle_frame, 9, circle, 180, nets[0], MORE);
    gadwemosh_first(2, 2, 0, patch_frame, 9, patch, 180, nets[1], MORE);
    gadwemosh_first(3, 2, 1, rect_frame, 9, rect, 180, nets[2], MORE);
}

static int vertices_of(const int64_t *net) {
    return GADWEMOSH_FRAME_NUMBERS(net[0]) / (net[0] == GADWEMOSH_PATCH ? 3 : 2);
}

/* Replaces a vertex by itself: its own weight is 1. */
static uint8_t replace_by_itself(int64_t *net, int vertex) {
    int place = net[0] == GADWEMOSH_RECT ? (vertex - 1) % 2 : vertex - 1;
    return gadwemosh_move(net, MORE, GADWEMOSH_REPLACE, (uint8_t)vertex, place == 0, place == 1, place == 2, 0);
}

static uint8_t point_of_ones(const int64_t *net, int64_t *found) {
    return gadwemosh_point(net, MORE, 1, 1, net[0] != GADWEMOSH_CURVE, net[0] == GADWEMOSH_RECT, found,
                           GADWEMOSH_FOUND);
}

/* A number in one place of a handed net, for every call on it: `answer` is 12 where it is a number of the frame
 * that is beyond the limit, and else 0. A point and a vertex replaced by itself leave the net as it was. */
static void test_frame_number(const int64_t *good, int place, int64_t number, int answer) {
    int64_t net[MORE], old[MORE], found[FOUND_MORE];
    memcpy(old, good, sizeof old);
    old[place] = number;
    memcpy(net, old, sizeof net);
    blank(found);
    EXPECT(point_of_ones(net, found) == answer && same(net, old) && kept(found) == (answer != 0));
    for (int vertex = 1; vertex <= vertices_of(net); vertex++) {
        EXPECT(replace_by_itself(net, vertex) == answer && same(net, old));
        EXPECT(gadwemosh_move(net, MORE, GADWEMOSH_FLIP, (uint8_t)vertex, 0, 0, 0, 0) == answer);
        EXPECT(same(net, old) == (answer != 0));
        if (answer == 0)
            EXPECT(gadwemosh_move(net, MORE, GADWEMOSH_FLIP, (uint8_t)vertex, 0, 0, 0, 0) == 0 && same(net, old));
    }
}

/* Each number of a handed frame at the limit and beyond it, and the places behind the frame, which hold
 * anything. */
static void test_handed_frames(void) {
    const int64_t inside[] = {GADWEMOSH_LARGEST, -GADWEMOSH_LARGEST};
    const int64_t outside[] = {GADWEMOSH_LARGEST + 1, -GADWEMOSH_LARGEST - 1, INT64_MAX, INT64_MIN};
    int64_t nets[3][MORE];
    make_nets(nets);
    for (int kind = 1; kind <= 3; kind++)
        for (int place = GADWEMOSH_FRAME_PLACE; place < GADWEMOSH_ENTRIES; place++) {
            int used = place < GADWEMOSH_FRAME_PLACE + GADWEMOSH_FRAME_NUMBERS(kind);
            for (int i = 0; i < 2; i++)
                test_frame_number(nets[kind - 1], place, inside[i], 0);
            for (int i = 0; i < 4; i++)
                test_frame_number(nets[kind - 1], place, outside[i], used ? 12 : 0);
        }
}

/* With every cause at once, and one taken away after the other: 11, 4, 10 of the entries, 8, 9, 12, 10 of the
 * size. */
static void test_frame_order(void) {
    int64_t nets[3][MORE], net[MORE], old[MORE], found[FOUND_MORE];
    make_nets(nets);
    blank(found);
    memcpy(net, nets[0], sizeof net);
    net[1] = 0, net[3] = INT64_MIN, net[12] = GADWEMOSH_LARGEST + 1;
    memcpy(old, net, sizeof net);
    EXPECT(gadwemosh_move(net, 192, 1, 3, 0, 4096, 0, 0) == 11 && same(net, old));
    EXPECT(gadwemosh_point(net, MORE, 0, 0, 1, 0, found, 7) == 11 && kept(found));
    EXPECT(gadwemosh_move(net, MORE, 1, 3, 0, 4096, 0, 0) == 4 && same(net, old));
    EXPECT(gadwemosh_point(net, MORE, 0, 0, 1, 0, found, FOUND_MORE) == 4 && kept(found));
    net[1] = 2;
    memcpy(old, net, sizeof net);
    EXPECT(gadwemosh_move(net, MORE, 1, 3, 0, 4096, 0, 0) == 10 && same(net, old));
    EXPECT(gadwemosh_point(net, MORE, 0, 0, 1, 0, found, FOUND_MORE) == 10 && kept(found));
    net[12] = GADWEMOSH_LARGEST;
    memcpy(old, net, sizeof net);
    EXPECT(gadwemosh_move(net, MORE, 1, 3, 0, 4096, 0, 0) == 8 && same(net, old));
    EXPECT(gadwemosh_point(net, MORE, 0, 0, 1, 0, found, FOUND_MORE) == 8 && kept(found));
    EXPECT(gadwemosh_move(net, MORE, 1, 1, 0, 4096, 0, 0) == 9 && same(net, old));
    EXPECT(gadwemosh_point(net, MORE, 0, 0, 0, 0, found, FOUND_MORE) == 9 && kept(found));
    EXPECT(gadwemosh_move(net, MORE, 1, 1, 2, 0, 0, 0) == 12 && same(net, old));
    EXPECT(gadwemosh_point(net, MORE, 2, 0, 0, 0, found, FOUND_MORE) == 12 && kept(found));
    /* 2 r is beyond the limit: a replace is refused for that, and a point for its size */
    net[3] = GADWEMOSH_LARGEST;
    memcpy(old, net, sizeof net);
    EXPECT(gadwemosh_move(net, MORE, 1, 1, 2, 0, 0, 0) == 12 && same(net, old));
    EXPECT(gadwemosh_point(net, MORE, 2, 0, 0, 0, found, FOUND_MORE) == 10 && kept(found));
    net[3] = GADWEMOSH_LARGEST / 2;
    memcpy(old, net, sizeof net);
    EXPECT(gadwemosh_move(net, MORE, 1, 1, 2, 0, 0, 0) == 10 && same(net, old));
}

/* A replace on a net whose entries are all 0, so that no size refuses it: 0 and the new vertex's numbers in the
 * frame, or 12 and the net as it was. */
static void test_replace(const int64_t *zero, uint8_t vertex, const int64_t *w, int answer, const int64_t *numbers) {
    int64_t net[MORE], wanted[MORE];
    int coordinates = zero[0] == GADWEMOSH_PATCH ? 3 : 2;
    int64_t *place = wanted + GADWEMOSH_FRAME_PLACE + coordinates * (vertex - 1);
    memcpy(net, zero, sizeof net);
    memcpy(wanted, zero, sizeof wanted);
    if (answer == 0)
        memcpy(place, numbers, (size_t)coordinates * sizeof *numbers);
    EXPECT(gadwemosh_move(net, MORE, GADWEMOSH_REPLACE, vertex, w[0], w[1], w[2], 0) == answer);
    EXPECT(same(net, wanted));
}
#define WEIGHTS(r, s, t) ((const int64_t[]){r, s, t})
#define VERTEX(...) ((const int64_t[]){__VA_ARGS__})

/* A net of the kind with entries 0 over a frame of any numbers. */
static void make_zero(int64_t *net, uint8_t kind, const int64_t *frame) {
    const int64_t none[180] = {0}, *first = kind == 1 ? circle_frame : kind == 2 ? patch_frame : rect_frame;
    fill(net);
    gadwemosh_first(kind, 1, kind == GADWEMOSH_RECT, first, 9, none, 180, net, MORE);
    memcpy(net + GADWEMOSH_FRAME_PLACE, frame, (size_t)GADWEMOSH_FRAME_NUMBERS(kind) * sizeof *frame);
}

static void test_new_vertices(void) {
    const int64_t L = GADWEMOSH_LARGEST;
    const int64_t line[4] = {0, 1, L, -L}, triangle[9] = {1, 0, 1, 0, 1, 1, 0, 0, L};
    const int64_t even[9] = {L, L, L, L, L, L, L, L, L}, pairs[8] = {L, L, L, L - 1, L, L, -1, -2};
    int64_t net[MORE], found[FOUND_MORE];
    make_zero(net, 1, line);
    blank(found);
    test_replace(net, 2, WEIGHTS(1, 1, 0), 0, VERTEX(L, 1 - L));
    test_replace(net, 2, WEIGHTS(-1, -1, 0), 0, VERTEX(-L, L - 1));
    test_replace(net, 2, WEIGHTS(0, -1, 0), 0, VERTEX(-L, L));
    test_replace(net, 2, WEIGHTS(-1, 1, 0), 12, NULL);
    test_replace(net, 2, WEIGHTS(1, -1, 0), 12, NULL);
    test_replace(net, 2, WEIGHTS(0, 2, 0), 12, NULL);
    test_replace(net, 2, WEIGHTS(0, -4096, 0), 12, NULL);
    test_replace(net, 1, WEIGHTS(4096, -1, 0), 12, NULL);
    test_replace(net, 1, WEIGHTS(4096, 1, 0), 0, VERTEX(L, 4096 - L));
    /* the parameter point of a point is not judged */
    EXPECT(gadwemosh_point(net, MORE, 4096, 4096, 0, 0, found, FOUND_MORE) == 0 && leaves(found, 0, 0, 0, 0));
    make_zero(net, 2, triangle);
    test_replace(net, 3, WEIGHTS(1, -1, 1), 0, VERTEX(1, -1, L));
    test_replace(net, 3, WEIGHTS(-1, 0, 1), 0, VERTEX(-1, 0, L - 1));
    test_replace(net, 3, WEIGHTS(1, 0, 1), 12, NULL);
    test_replace(net, 3, WEIGHTS(0, 1, 1), 12, NULL);
    test_replace(net, 1, WEIGHTS(1, 0, 1), 12, NULL);
    test_replace(net, 1, WEIGHTS(1, 1, -1), 0, VERTEX(1, 1, 2 - L));
    /* the largest sums: only the whole of one is judged, and it does not wrap. The new frame is no frame any more,
     * which nobody asks of a handed one */
    make_zero(net, 2, even);
    test_replace(net, 1, WEIGHTS(4096, 4096, 4096), 12, NULL);
    test_replace(net, 2, WEIGHTS(-4096, -4096, -4096), 12, NULL);
    test_replace(net, 3, WEIGHTS(4096, -4096, 1), 0, VERTEX(L, L, L));
    test_replace(net, 3, WEIGHTS(-4096, 4096, -1), 0, VERTEX(-L, -L, -L));
    test_replace(net, 3, WEIGHTS(4096, -4096, 2), 12, NULL);
    test_replace(net, 2, WEIGHTS(4096, -4095, -1), 0, VERTEX(0, 0, 0));
    /* the vertex's own pair is taken */
    make_zero(net, 3, pairs);
    test_replace(net, 1, WEIGHTS(1, 1, 0), 12, NULL);
    test_replace(net, 1, WEIGHTS(1, -1, 0), 0, VERTEX(0, 1));
    test_replace(net, 2, WEIGHTS(-4096, 4096, 0), 0, VERTEX(0, -4096));
    test_replace(net, 3, WEIGHTS(1, 1, 0), 0, VERTEX(L - 1, L - 2));
    test_replace(net, 3, WEIGHTS(1, -1, 0), 12, NULL);
    test_replace(net, 4, WEIGHTS(-1, 1, 0), 12, NULL);
    test_replace(net, 4, WEIGHTS(-1, -1, 0), 0, VERTEX(1 - L, 2 - L));
    test_replace(net, 4, WEIGHTS(0, 4096, 0), 0, VERTEX(-4096, -8192));
}

/* Calls on a net whose largest component is `right` and that has any number in its place: a replace puts the right
 * one there, a flip hands on what it was given, and a point and refused calls leave it. */
static void test_claim(const int64_t *good, int64_t right, int64_t claim) {
    int64_t net[MORE], old[MORE], found[FOUND_MORE];
    memcpy(old, good, sizeof old);
    old[GADWEMOSH_LARGEST_PLACE] = claim;
    memcpy(net, old, sizeof net);
    blank(found);
    EXPECT(gadwemosh_move(net, 192, GADWEMOSH_REPLACE, 1, 1, 0, 0, 0) == 11 && same(net, old));
    EXPECT(gadwemosh_move(net, MORE, 3, 1, 1, 0, 0, 0) == 8 && same(net, old));
    EXPECT(gadwemosh_move(net, MORE, GADWEMOSH_FLIP, 1, 1, 0, 0, 0) == 8 && same(net, old));
    EXPECT(gadwemosh_move(net, MORE, GADWEMOSH_REPLACE, 1, 0, 1, 0, 0) == 9 && same(net, old));
    EXPECT(point_of_ones(net, found) == 0 && same(net, old) && !kept(found));
    for (int vertex = 1; vertex <= vertices_of(net); vertex++) {
        EXPECT(gadwemosh_move(net, MORE, GADWEMOSH_FLIP, (uint8_t)vertex, 0, 0, 0, 0) == 0 && !same(net, old));
        EXPECT(net[GADWEMOSH_LARGEST_PLACE] == claim);
        EXPECT(gadwemosh_move(net, MORE, GADWEMOSH_FLIP, (uint8_t)vertex, 0, 0, 0, 0) == 0 && same(net, old));
        EXPECT(replace_by_itself(net, vertex) == 0 && net[GADWEMOSH_LARGEST_PLACE] == right);
        net[GADWEMOSH_LARGEST_PLACE] = claim;
        EXPECT(same(net, old));
    }
    /* refused 4, 10 of the entries, 10 of the size and 12 */
    net[1] = 11, old[1] = 11;
    EXPECT(replace_by_itself(net, 1) == 4 && same(net, old));
    net[1] = good[1], old[1] = good[1];
    net[GADWEMOSH_ENTRIES + 4] = old[GADWEMOSH_ENTRIES + 4] = GADWEMOSH_LARGEST + 1;
    EXPECT(replace_by_itself(net, 1) == 10 && same(net, old));
    EXPECT(gadwemosh_move(net, MORE, GADWEMOSH_FLIP, 1, 0, 0, 0, 0) == 10 && same(net, old));
    net[GADWEMOSH_ENTRIES + 4] = old[GADWEMOSH_ENTRIES + 4] = GADWEMOSH_LARGEST;
    EXPECT(gadwemosh_move(net, MORE, GADWEMOSH_REPLACE, 1, 4096, 4096, 0, 0) == 10 && same(net, old));
    net[GADWEMOSH_FRAME_PLACE] = old[GADWEMOSH_FRAME_PLACE] = GADWEMOSH_LARGEST + 1;
    EXPECT(replace_by_itself(net, 1) == 12 && same(net, old));
    EXPECT(gadwemosh_move(net, MORE, GADWEMOSH_FLIP, 1, 0, 0, 0, 0) == 12 && same(net, old));
}

static void test_claims(void) {
    const int64_t L = GADWEMOSH_LARGEST, right[3] = {4, 2, 4};
    const int64_t claims[] = {0, 1, 2, 3, 4, 5, -1, -2, -4, L, -L, L + 1, -L - 1, INT64_MAX, INT64_MIN, INT64_MIN + 1};
    int64_t nets[3][MORE];
    make_nets(nets);
    for (int kind = 1; kind <= 3; kind++) {
        EXPECT(nets[kind - 1][GADWEMOSH_LARGEST_PLACE] == right[kind - 1]);
        for (size_t i = 0; i < sizeof claims / sizeof *claims; i++)
            test_claim(nets[kind - 1], right[kind - 1], claims[i]);
    }
}

/* The largest component stands in one number of the entries, of either sign, and the others are 1; every number that
 * is not in use is beyond it. A replace by itself works it out. */
static void test_reached(uint8_t kind, uint8_t degree, uint8_t second) {
    const int64_t none[180] = {0}, *frame = kind == 1 ? circle_frame : kind == 2 ? patch_frame : rect_frame;
    int count = 4 * (kind == 1   ? GADWEMOSH_CURVE_ENTRIES(degree)
                     : kind == 2 ? GADWEMOSH_PATCH_ENTRIES(degree)
                                 : GADWEMOSH_RECT_ENTRIES(degree, second));
    int64_t net[MORE], old[MORE];
    fill(old);
    EXPECT(gadwemosh_first(kind, degree, second, frame, 9, none, 180, old, MORE) == 0);
    EXPECT(old[GADWEMOSH_LARGEST_PLACE] == 0 && old[GADWEMOSH_NET] == INT64_MIN + GADWEMOSH_NET);
    for (int i = 0; i < count; i++)
        old[GADWEMOSH_ENTRIES + i] = 1;
    for (int i = 0; i < count; i++)
        for (int64_t number = -1000; number <= 1000; number += 2000) {
            old[GADWEMOSH_ENTRIES + i] = number;
            memcpy(net, old, sizeof net);
            old[GADWEMOSH_LARGEST_PLACE] = 1000;
            EXPECT(replace_by_itself(net, 1 + i % vertices_of(net)) == 0 && same(net, old));
            old[GADWEMOSH_ENTRIES + i] = 1;
            old[GADWEMOSH_LARGEST_PLACE] = -i;
        }
}

/* A first net of 3 or -3 times the monomial without T, U and V in one component: every vertex has the last number 1,
 * but for s2 of the rectangular patch, which has 2, so the entries have 3 times the scale, and q copies of s2 double it
 * q times. */
static void test_first_largest(uint8_t kind, uint8_t degree, uint8_t second, int64_t scale) {
    const int64_t *frame = kind == 1 ? circle_frame : kind == 2 ? patch_frame : rect_frame;
    for (int c = 0; c < 8; c++) {
        int64_t coefficients[180] = {0}, net[MORE];
        coefficients[c / 2] = c % 2 == 0 ? 3 : -3;
        fill(net);
        EXPECT(gadwemosh_first(kind, degree, second, frame, 9, coefficients, 180, net, MORE) == 0);
        EXPECT(net[GADWEMOSH_LARGEST_PLACE] == 3 * scale << second);
    }
}

/* Every shape, with its scale: made, and with its largest component in each place. */
static void test_largest_of_all(void) {
    const int64_t curves[10] = {1, 2, 3, 12, 10, 60, 105, 280, 252, 2520};
    const int64_t patches[8] = {1, 2, 6, 12, 60, 180, 420, 1680};
    for (int m = 1; m <= 10; m++) {
        test_first_largest(1, (uint8_t)m, 0, curves[m - 1]);
        test_reached(1, (uint8_t)m, 0);
    }
    for (int m = 1; m <= 8; m++) {
        test_first_largest(2, (uint8_t)m, 0, patches[m - 1]);
        test_reached(2, (uint8_t)m, 0);
    }
    for (int p = 1; p <= 5; p++)
        for (int q = 1; q <= 5; q++) {
            test_first_largest(3, (uint8_t)p, (uint8_t)q, curves[p - 1] * curves[q - 1]);
            test_reached(3, (uint8_t)p, (uint8_t)q);
        }
}

/* Along a list of moves the largest component rises and falls with the entries. */
static void test_largest_along(void) {
    const int64_t L = GADWEMOSH_LARGEST, line[8] = {-L, 0, 0, 0, L - 1, 0, 0, 0};
    int64_t nets[3][MORE], *net = nets[0];
    make_nets(nets);
    EXPECT(gadwemosh_move(net, MORE, 1, 2, 1, 1, 0, 0) == 0 && net[GADWEMOSH_LARGEST_PLACE] == 10);
    EXPECT(gadwemosh_move(net, MORE, 2, 1, 0, 0, 0, 0) == 0 && net[GADWEMOSH_LARGEST_PLACE] == 10);
    EXPECT(gadwemosh_move(net, MORE, 1, 2, 1, 1, 0, 0) == 0 && net[GADWEMOSH_LARGEST_PLACE] == 4);
    make_zero(net, 1, circle_frame);
    memcpy(net + GADWEMOSH_ENTRIES, line, sizeof line);
    /* r + s has -1 in the place of -L; from there s - 2 r is one too large, s - r is not, and s + 4096 r is smaller */
    EXPECT(gadwemosh_move(net, MORE, 1, 1, 1, 0, 0, 0) == 0 && net[GADWEMOSH_LARGEST_PLACE] == L);
    EXPECT(gadwemosh_move(net, MORE, 1, 1, 1, 1, 0, 0) == 0 && net[GADWEMOSH_LARGEST_PLACE] == L - 1);
    EXPECT(gadwemosh_move(net, MORE, 1, 2, -2, 1, 0, 0) == 10 && net[GADWEMOSH_LARGEST_PLACE] == L - 1);
    EXPECT(gadwemosh_move(net, MORE, 1, 2, -1, 1, 0, 0) == 0 && net[GADWEMOSH_LARGEST_PLACE] == L);
    EXPECT(gadwemosh_move(net, MORE, 1, 2, 4096, 1, 0, 0) == 0 && net[GADWEMOSH_LARGEST_PLACE] == L - 4096);
    EXPECT(gadwemosh_move(net, MORE, 2, 2, 0, 0, 0, 0) == 0 && net[GADWEMOSH_LARGEST_PLACE] == L - 4096);
    EXPECT(net[GADWEMOSH_ENTRIES + 4] == 4096 - L && net[GADWEMOSH_ENTRIES] == -1);
}

/* A refused projection: the number, outcome 0, and every other place as it was. */
static void test_no_projection(int number, int64_t w, size_t bits_length, size_t direction_length) {
    uint8_t outcome = 77;
    uint64_t bits[4] = {1, 2, 3, 4};
    int64_t direction[5] = {5, 6, 7, 8, 9};
    EXPECT(gadwemosh_project(6, 8, 0, w, &outcome, bits, bits_length, direction, direction_length) == number);
    EXPECT(outcome == 0);
    EXPECT(bits[0] == 1 && bits[1] == 2 && bits[2] == 3 && bits[3] == 4);
    EXPECT(direction[0] == 5 && direction[1] == 6 && direction[2] == 7 && direction[3] == 8 && direction[4] == 9);
}

static void test_project(void) {
    uint8_t outcome = 77;
    uint64_t bits[4] = {1, 2, 3, 4};
    int64_t direction[5] = {5, 6, 7, 8, 9};
    test_no_projection(11, 10, 2, 5);
    test_no_projection(11, 10, 0, 5);
    test_no_projection(11, 10, 4, 3);
    test_no_projection(11, 0, 4, 3);
    test_no_projection(11, 0, 4, 0);
    test_no_projection(10, INT64_MIN, 4, 5);
    test_no_projection(10, GADWEMOSH_LARGEST + 1, 3, 4);
    test_no_projection(10, -GADWEMOSH_LARGEST - 1, 3, 4);
    /* a short buffer comes before a number out of range */
    test_no_projection(11, INT64_MIN, 2, 4);
    test_no_projection(11, INT64_MIN, 3, 3);
    EXPECT(gadwemosh_project(0, 0, 0, 0, &outcome, bits, 4, direction, 5) == 0 && outcome == GADWEMOSH_NOWHERE);
    EXPECT(bits[0] == 1 && bits[1] == 2 && bits[2] == 3 && bits[3] == 4);
    EXPECT(direction[0] == 5 && direction[1] == 6 && direction[2] == 7 && direction[3] == 8 && direction[4] == 9);
    EXPECT(gadwemosh_project(6, 8, 0, 10, &outcome, bits, 3, direction, 4) == 0 && outcome == GADWEMOSH_FINITE);
    EXPECT(bits[0] == UINT64_C(0x3fe3333333333333) && bits[1] == UINT64_C(0x3fe999999999999a));
    EXPECT(bits[2] == 0 && bits[3] == 4);
    EXPECT(direction[0] == 5 && direction[1] == 6 && direction[2] == 7 && direction[3] == 8 && direction[4] == 9);
    /* 0 over a negative w is positive zero */
    EXPECT(gadwemosh_project(0, 0, GADWEMOSH_LARGEST, -GADWEMOSH_LARGEST, &outcome, bits, 4, direction, 5) == 0);
    EXPECT(outcome == GADWEMOSH_FINITE && bits[0] == 0 && bits[1] == 0 && bits[2] == UINT64_C(0xbff0000000000000));
    bits[0] = 1;
    EXPECT(gadwemosh_project(-9, 9, 0, 0, &outcome, bits, 4, direction, 5) == 0 && outcome == GADWEMOSH_DIRECTION);
    EXPECT(direction[0] == 1 && direction[1] == -1 && direction[2] == 0 && direction[3] == 9 && direction[4] == 9);
    EXPECT(bits[0] == 1 && bits[1] == 0 && bits[3] == 4);
    /* the largest length, and four places for it */
    EXPECT(gadwemosh_project(0, -GADWEMOSH_LARGEST, GADWEMOSH_LARGEST, 0, &outcome, bits, 3, direction, 4) == 0);
    EXPECT(outcome == GADWEMOSH_DIRECTION && direction[0] == 0 && direction[1] == 1 && direction[2] == -1);
    EXPECT(direction[3] == GADWEMOSH_LARGEST && direction[4] == 9);
}

/* What projecting eight numbers must answer and tell, into buffers of exactly the places that it wants: a
 * refusal and the other outcomes leave the places that are not theirs. */
static void test_found(const int64_t *found, int number, int outcome, const uint64_t *bits, const int64_t *direction) {
    const uint64_t no_bits[4] = {1, 2, 3, 4};
    const int64_t no_direction[5] = {5, 6, 7, 8, 9};
    uint64_t told_bits[4];
    int64_t told[5];
    uint8_t told_outcome = 77;
    memcpy(told_bits, no_bits, sizeof told_bits);
    memcpy(told, no_direction, sizeof told);
    EXPECT(gadwemosh_project_found(found, GADWEMOSH_FOUND, &told_outcome, told_bits, 3, told, 4) == number);
    EXPECT(told_outcome == outcome && told_bits[3] == 4 && told[4] == 9);
    EXPECT(memcmp(told_bits, outcome == GADWEMOSH_FINITE ? bits : no_bits, 3 * sizeof *bits) == 0);
    EXPECT(memcmp(told, outcome == GADWEMOSH_DIRECTION ? direction : no_direction, 4 * sizeof *direction) == 0);
}
#define BITS(x, y, z) ((const uint64_t[]){UINT64_C(x), UINT64_C(y), UINT64_C(z)})

/* Buffers of these lengths, of which one is too short: 11, outcome 0, and nothing is written. The numbers
 * projected are out of range, which is not told. */
static void test_found_short(size_t found_length, size_t bits_length, size_t direction_length) {
    const int64_t found[FOUND_MORE] = {0, 0, 0, 0, INT64_MIN, 8, 0, 10, 7};
    uint8_t outcome = 77;
    uint64_t bits[4] = {1, 2, 3, 4};
    int64_t direction[5] = {5, 6, 7, 8, 9};
    EXPECT(gadwemosh_project_found(found, found_length, &outcome, bits, bits_length, direction,
                                   direction_length) == 11);
    EXPECT(outcome == 0);
    EXPECT(bits[0] == 1 && bits[1] == 2 && bits[2] == 3 && bits[3] == 4);
    EXPECT(direction[0] == 5 && direction[1] == 6 && direction[2] == 7 && direction[3] == 8 && direction[4] == 9);
}

static void test_project_found(void) {
    const int64_t L = GADWEMOSH_LARGEST, outside[] = {L + 1, -L - 1, INT64_MAX, INT64_MIN};
    const int64_t any[] = {1, -1, L + 1, INT64_MAX, INT64_MIN};
    for (size_t places = 0; places < GADWEMOSH_FOUND; places++)
        test_found_short(places, 4, 5);
    for (size_t places = 0; places < 3; places++)
        test_found_short(FOUND_MORE, places, 5);
    for (size_t places = 0; places < 4; places++)
        test_found_short(FOUND_MORE, 4, places);
    test_found_short(0, 0, 0);
    /* each of the second four beyond the limit, and at it; the first four are not judged */
    for (int place = 4; place < 8; place++)
        for (int i = 0; i < 4; i++) {
            int64_t found[8] = {outside[i], 0, 0, 0, 6, 4, 2, 2};
            found[place] = outside[i];
            test_found(found, 10, 0, NULL, NULL);
            found[place] = i % 2 == 0 ? L : -L;
            EXPECT(gadwemosh_project_found(found, 8, &(uint8_t){0}, (uint64_t[3]){0}, 3, (int64_t[4]){0}, 4) == 0);
        }
    /* a direction has length 1 exactly where the first four are zeros, whichever of them is not and
     * whatever it is */
    for (int zeros = 0; zeros < 16; zeros++)
        for (int i = 0; i < 5; i++) {
            int64_t found[8] = {0, 0, 0, 0, -6, 4, 0, 0};
            for (int place = 0; place < 4; place++)
                found[place] = zeros >> place & 1 ? any[i] : 0;
            test_found(found, 0, GADWEMOSH_DIRECTION, NULL, FOUR(3, -2, 0, zeros == 0 ? 1 : 2));
            /* a finite point and nowhere do not depend on them: 6 / 10, 8 / 10 and 0 */
            memcpy(found + 4, FOUR(6, 8, 0, 10), 4 * sizeof *found);
            test_found(found, 0, GADWEMOSH_FINITE, BITS(0x3fe3333333333333, 0x3fe999999999999a, 0), NULL);
            memcpy(found + 4, FOUR(0, 0, 0, 0), 4 * sizeof *found);
            test_found(found, 0, GADWEMOSH_NOWHERE, NULL, NULL);
        }
    /* the largest divisor is no length either */
    test_found((const int64_t[]){0, 0, 0, 0, 0, -L, L, 0}, 0, GADWEMOSH_DIRECTION, NULL, FOUR(0, 1, -1, 1));
    test_found((const int64_t[]){0, 0, 0, 1, 0, -L, L, 0}, 0, GADWEMOSH_DIRECTION, NULL, FOUR(0, 1, -1, L));
}

/* Common zeros with numbers worked out by hand: what is left at q, times the other vertex's value of the
 * linear form to the order, times the scale over the binomial. */
static void test_zeros_by_hand(void) {
    /* the circle at degree 4, times (2 T - Z)(3 T - Z); 12 / 4 = 3
     * q = (1, 2): the circle is (3, 4, 0, 5), 3 T - Z is 1, and 2 T - Z is -1 at r
     * q = (1, 3): the circle is (8, 6, 0, 10), 2 T - Z is -1, and 3 T - Z is -1 at r */
    const int64_t quartic[180] = {1, 0, 0, 1, -5, 2, 0, -5, 5, -10, 0, 7, 5, 12, 0, -5, -6, 0, 0, 6};
    /* (6, 4, 0, 0) times (2 T - Z)^3 = 8 T^3 - 12 T^2 Z + 6 T Z^2 - Z^3, which is -1 at r, and the scale 3 */
    const int64_t cube[180] = {-6, -4, 0, 0, 36, 24, 0, 0, -72, -48, 0, 0, 48, 32, 0, 0};
    /* x = T^2 and w = T Z: T vanishes at r and is 1 at s; (T, Z) = (0, 3) is left at 3 r, and 2 / 2 = 1 */
    const int64_t at_r[180] = {0, 0, 0, 0, 0, 0, 0, 1, 1};
    /* x = (T - Z) T, w = (T - Z) Z: T - Z vanishes at s and is -1 at r; (2, 2) is left at 2 s; 2 / 2 = 1 */
    const int64_t at_s[180] = {0, 0, 0, -1, -1, 0, 0, 1, 1};
    const int64_t none[180] = {0};
    int64_t net[MORE], old[MORE], found[FOUND_MORE];
    fill(net);
    blank(found);
    EXPECT(gadwemosh_first(1, 4, 0, circle_frame, 9, quartic, 180, net, MORE) == 0);
    memcpy(old, net, sizeof net);
    EXPECT(gadwemosh_point(net, MORE, 1, 1, 0, 0, found, 7) == 11 && kept(found));
    EXPECT(gadwemosh_point(net, MORE, 1, 1, 0, 1, found, FOUND_MORE) == 8 && kept(found));
    EXPECT(gadwemosh_point(net, MORE, 1, 1, 0, 0, found, FOUND_MORE) == 0 && same(net, old));
    EXPECT(leaves(found, -9, -12, 0, -15));
    test_found(found, 0, GADWEMOSH_FINITE, BITS(0x3fe3333333333333, 0x3fe999999999999a, 0), NULL);
    EXPECT(gadwemosh_point(net, MORE, 2, 1, 0, 0, found, GADWEMOSH_FOUND) == 0 && leaves(found, 24, 18, 0, 30));
    test_found(found, 0, GADWEMOSH_FINITE, BITS(0x3fe999999999999a, 0x3fe3333333333333, 0), NULL);
    /* the same factor at -2 q: three copies of q are in it */
    EXPECT(gadwemosh_point(net, MORE, -2, -2, 0, 0, found, GADWEMOSH_FOUND) == 0 && leaves(found, 72, 96, 0, 120));
    EXPECT(gadwemosh_first(1, 3, 0, circle_frame, 9, cube, 180, net, MORE) == 0);
    EXPECT(gadwemosh_point(net, MORE, 1, 1, 0, 0, found, GADWEMOSH_FOUND) == 0 && leaves(found, -18, -12, 0, 0));
    test_found(found, 0, GADWEMOSH_DIRECTION, NULL, FOUR(3, 2, 0, 1));
    EXPECT(gadwemosh_point(net, MORE, 1, 0, 0, 0, found, GADWEMOSH_FOUND) == 0 && finds(found, -18, -12, 0, 0));
    test_found(found, 0, GADWEMOSH_DIRECTION, NULL, FOUR(3, 2, 0, 6));
    EXPECT(gadwemosh_first(1, 2, 0, circle_frame, 9, at_r, 180, net, MORE) == 0);
    EXPECT(gadwemosh_point(net, MORE, 3, 0, 0, 0, found, GADWEMOSH_FOUND) == 0 && leaves(found, 0, 0, 0, 3));
    test_found(found, 0, GADWEMOSH_FINITE, BITS(0, 0, 0), NULL);
    EXPECT(gadwemosh_first(1, 2, 0, circle_frame, 9, at_s, 180, net, MORE) == 0);
    EXPECT(gadwemosh_point(net, MORE, 0, 2, 0, 0, found, GADWEMOSH_FOUND) == 0 && leaves(found, -2, 0, 0, -2));
    test_found(found, 0, GADWEMOSH_FINITE, BITS(0x3ff0000000000000, 0, 0), NULL);
    for (uint8_t m = 1; m <= 10; m++) {
        EXPECT(gadwemosh_first(1, m, 0, circle_frame, 9, none, 180, net, MORE) == 0);
        EXPECT(gadwemosh_point(net, MORE, 1, 1, 0, 0, found, GADWEMOSH_FOUND) == 0 && leaves(found, 0, 0, 0, 0));
        EXPECT(gadwemosh_point(net, MORE, 1, 0, 0, 0, found, GADWEMOSH_FOUND) == 0 && leaves(found, 0, 0, 0, 0));
        test_found(found, 0, GADWEMOSH_NOWHERE, NULL, NULL);
    }
}

/* The values of four polynomials at (t, z). */
static void values_at(const int64_t *coefficients, int degree, int64_t t, int64_t z, int64_t *values) {
    for (int c = 0; c < 4; c++) {
        values[c] = 0;
        for (int k = 0; k <= degree; k++) {
            int64_t term = coefficients[4 * k + c];
            for (int i = 0; i < degree; i++)
                term *= i < k ? t : z;
            values[c] += term;
        }
    }
}

/* Multiplies four polynomials by the linear form z T - t Z, which vanishes at (t, z), up to the degree. */
static void times_form(int64_t *coefficients, int degree, int64_t t, int64_t z) {
    for (int i = 4 * degree + 3; i >= 0; i--)
        coefficients[i] = z * (i < 4 ? 0 : coefficients[i - 4]) - t * coefficients[i];
}

/* What was found at a common zero lies where what is left there does, but for the length. */
static void test_lies_there(const int64_t *found, const int64_t *left) {
    uint8_t outcome, bare;
    uint64_t bits[3] = {1, 2, 3}, bare_bits[3] = {1, 2, 3};
    int64_t direction[4] = {1, 2, 3, 4}, bare_direction[4] = {1, 2, 3, 4};
    EXPECT(gadwemosh_project(left[0], left[1], left[2], left[3], &bare, bare_bits, 3, bare_direction, 4) == 0);
    EXPECT(gadwemosh_project_found(found, GADWEMOSH_FOUND, &outcome, bits, 3, direction, 4) == 0 && outcome == bare);
    EXPECT(memcmp(bits, bare_bits, sizeof bits) == 0 && memcmp(direction, bare_direction, 3 * sizeof *direction) == 0);
    EXPECT(direction[3] == (outcome == GADWEMOSH_DIRECTION ? 1 : 4));
}

/* Four polynomials of degree m - order, times the linear form that vanishes at q = (s, r + s) to the order.
 * The form is -s at r = (0, 1) and r at s = (1, 1). */
static void test_zero(int m, int order, int64_t r, int64_t s) {
    static const int64_t scales[10] = {1, 2, 3, 12, 10, 60, 105, 280, 252, 2520};
    int64_t coefficients[180] = {0}, left[4], net[MORE], found[FOUND_MORE];
    int64_t form = s != 0 ? -s : r, binomial = 1, factor = scales[m - 1];
    int rest = m - order;
    /* x = Z^rest and y = T^rest, so something is left wherever q is; z has all monomials, w too or none */
    coefficients[0] = 1, coefficients[4 * rest + 1] = 1;
    for (int k = 0; k <= rest; k++)
        coefficients[4 * k + 2] = k - 2, coefficients[4 * k + 3] = (m + order) % 3 == 0 ? 0 : 3 - k;
    values_at(coefficients, rest, s, r + s, left);
    for (int i = 0; i < order; i++) {
        times_form(coefficients, m, s, r + s);
        binomial = binomial * (m - i) / (i + 1), factor *= form;
    }
    factor /= binomial;
    fill(net);
    blank(found);
    EXPECT(gadwemosh_first(1, (uint8_t)m, 0, circle_frame, 9, coefficients, 180, net, MORE) == 0);
    EXPECT(gadwemosh_point(net, MORE, r, s, 0, 0, found, FOUND_MORE) == 0);
    EXPECT(leaves(found, factor * left[0], factor * left[1], factor * left[2], factor * left[3]));
    test_lies_there(found, left);
}

/* Every order at every degree, at points between the vertices, beyond them and at each of them. */
static void test_zeros(void) {
    const int64_t weights[][2] = {{1, 1}, {1, 0}, {0, 1}, {2, -1}, {-1, 2}, {-1, -1}, {-2, 0}, {0, -2}, {1, -1}};
    for (int m = 1; m <= 10; m++)
        for (int order = 1; order <= m; order++)
            for (size_t i = 0; i < sizeof weights / sizeof *weights; i++)
                test_zero(m, order, weights[i][0], weights[i][1]);
}

/* A handed net that comes from no record: its frame has determinant 0, or is four zeros. In the weights of
 * its vertices, a and b, it is x = (a - b)(a + 3 b), y = -2 (a - b) a and w = 2 (a - b)(a + b). At (1, 1)
 * what is left is (4, -2, 0, 4); a - b is 1 at r, and the binomial is 2. */
static void test_handed_zero(void) {
    const int64_t entries[12] = {1, -2, 0, 2, 1, 1, 0, 0, -3, 0, 0, -2}, frames[2][4] = {{1, 2, 2, 4}, {0, 0, 0, 0}};
    int64_t net[MORE], found[FOUND_MORE];
    for (int i = 0; i < 2; i++) {
        fill(net);
        blank(found);
        gadwemosh_first(1, 2, 0, circle_frame, 9, circle, 180, net, MORE);
        memcpy(net + GADWEMOSH_FRAME_PLACE, frames[i], sizeof frames[i]);
        memcpy(net + GADWEMOSH_ENTRIES, entries, sizeof entries);
        EXPECT(gadwemosh_point(net, MORE, 1, 1, 0, 0, found, FOUND_MORE) == 0 && leaves(found, 2, -1, 0, 2));
        test_found(found, 0, GADWEMOSH_FINITE, BITS(0x3ff0000000000000, 0xbfe0000000000000, 0), NULL);
        /* a number of the frame, and an entry, beyond the limit */
        blank(found);
        net[GADWEMOSH_FRAME_PLACE] = GADWEMOSH_LARGEST + 1;
        EXPECT(gadwemosh_point(net, MORE, 1, 1, 0, 0, found, FOUND_MORE) == 12 && kept(found));
        net[GADWEMOSH_ENTRIES] = -GADWEMOSH_LARGEST - 1;
        EXPECT(gadwemosh_point(net, MORE, 1, 1, 0, 0, found, FOUND_MORE) == 10 && kept(found));
    }
}

/* On a patch the numbers projected at a common zero are the four zeros: x = U^2 and w = U V at t = (0, 0, 1),
 * and T1 T2 in all four components at r1 = (0, 1). */
static void test_patch_zeros(void) {
    const int64_t triangle[180] = {[19] = 1, [20] = 1}, rectangle[180] = {[12] = 1, 1, 1, 1};
    int64_t net[MORE], found[FOUND_MORE];
    fill(net);
    blank(found);
    EXPECT(gadwemosh_first(2, 2, 0, patch_frame, 9, triangle, 180, net, MORE) == 0);
    EXPECT(gadwemosh_point(net, MORE, 0, 0, 1, 0, found, FOUND_MORE) == 0 && finds(found, 0, 0, 0, 0));
    test_found(found, 0, GADWEMOSH_NOWHERE, NULL, NULL);
    fill(net);
    blank(found);
    EXPECT(gadwemosh_first(3, 1, 1, rect_frame, 9, rectangle, 180, net, MORE) == 0);
    EXPECT(gadwemosh_point(net, MORE, 1, 0, 1, 1, found, FOUND_MORE) == 0 && finds(found, 0, 0, 0, 0));
    test_found(found, 0, GADWEMOSH_NOWHERE, NULL, NULL);
}

/* What a lookup must answer and tell. */
static void test_field(const uint8_t *bytes, size_t size, int tag, int number, uint64_t at, uint64_t long_is) {
    uint64_t start = 7777, value = 7777;
    EXPECT(gadwemosh_field(bytes, size, (uint8_t)tag, &start, &value) == number && start == at && value == long_is);
}

/* No field, whatever the tag. */
static void test_no_fields(const uint8_t *bytes, size_t size, int number) {
    for (int tag = 0; tag < 256; tag++)
        test_field(bytes, size, tag, number, size, 0);
}

static void test_fields(void) {
    uint8_t bytes[2048];
    size_t size = 0;
    /* the circle's record: fields 1, 2, 3 and 5 */
    test_field(record, length, GADWEMOSH_FIELD_KIND, 0, 3, 2);
    test_field(record, length, GADWEMOSH_FIELD_FRAME, 0, 8, 8);
    test_field(record, length, GADWEMOSH_FIELD_COEFFICIENTS, 0, 19, 48);
    test_field(record, length, GADWEMOSH_FIELD_MOVES, 0, length, 0);
    test_field(record, length, GADWEMOSH_FIELD_POINT, 0, 70, 4);
    test_field(record, length, 0, 0, length, 0);
    for (int tag = 6; tag < 256; tag++)
        test_field(record, length, tag, 0, length, 0);
    /* without the point, with moves of no bytes, and with two moves */
    test_field(record, 67, GADWEMOSH_FIELD_POINT, 0, 67, 0);
    memcpy(bytes, record, 67);
    memcpy(bytes + 67, "\4\0\0\5\0\4\0\1\0\1", 10);
    test_field(bytes, 70, GADWEMOSH_FIELD_MOVES, 0, 70, 0);
    test_field(bytes, 77, GADWEMOSH_FIELD_MOVES, 0, 70, 0);
    test_field(bytes, 77, GADWEMOSH_FIELD_POINT, 0, 73, 4);
    bytes[69] = 16;
    memset(bytes + 70, 255, 16);
    test_field(bytes, 86, GADWEMOSH_FIELD_MOVES, 0, 70, 16);
    test_field(bytes, 86, GADWEMOSH_FIELD_POINT, 0, 86, 0);
    /* 32 moves: a length of two bytes */
    bytes[68] = 1, bytes[69] = 0;
    memset(bytes + 70, 255, 256);
    memcpy(bytes + 326, "\5\0\4\0\1\0\1", 7);
    test_field(bytes, 333, GADWEMOSH_FIELD_MOVES, 0, 70, 256);
    test_field(bytes, 333, GADWEMOSH_FIELD_POINT, 0, 329, 4);
    /* refused records: empty, cut, a tag too many, a length, a kind, a frame, a coefficient */
    test_no_fields(record, 0, 2);
    test_no_fields(record, 30, 1);
    test_no_fields(record, 16, 2);
    memcpy(bytes, record, length);
    bytes[67] = 6;
    test_no_fields(bytes, length, 2);
    bytes[67] = 5, bytes[69] = 6;
    test_no_fields(bytes, length, 3);
    bytes[69] = 4, bytes[3] = 3;
    test_no_fields(bytes, length, 4);
    bytes[3] = 1, bytes[9] = 5;
    test_no_fields(bytes, length, 5);
    bytes[9] = 0, bytes[19] = 1;
    test_no_fields(bytes, length, 6);
    /* refused 7: degree 10, all coefficients 1048576 over (4, 3), (4, 4), with a move and a point */
    memcpy(bytes, "\1\0\2\1\12\2\0\10\0\4\0\3\0\4\0\4\3\0\260", 19);
    for (size = 19; size < 19 + 176; size += 4)
        memcpy(bytes + size, "\0\20\0\0", 4);
    memcpy(bytes + size, "\4\0\10\2\1\0\0\0\0\0\0\5\0\4\0\1\0\1", 18);
    test_no_fields(bytes, size, 7);
    test_no_fields(bytes, size + 11, 7);
    test_no_fields(bytes, size + 18, 7);
    /* the same with small coefficients has all five */
    for (size = 19; size < 19 + 176; size += 4)
        bytes[size + 1] = 0;
    test_field(bytes, size + 18, GADWEMOSH_FIELD_COEFFICIENTS, 0, 19, 176);
    test_field(bytes, size + 18, GADWEMOSH_FIELD_MOVES, 0, size + 3, 8);
    test_field(bytes, size + 18, GADWEMOSH_FIELD_POINT, 0, size + 14, 4);
}

/* The fields of a record of these fields 1 to 3, with so many flips of r, or without field 4, and with a
 * point of so many weights, or without: moves and point each have their own place and length, and what is
 * absent is the empty part at the end. */
static void test_optional(const uint8_t *head, size_t size, int moves, int weights) {
    uint8_t bytes[512];
    uint8_t *at = bytes + size;
    memcpy(bytes, head, size);
    if (moves >= 0) {
        at = put(put(at, 1, 4), 2, 8 * moves);
        for (int i = 0; i < moves; i++)
            at = put(at, 8, INT64_C(0x0201000000000000));
    }
    size_t moves_end = (size_t)(at - bytes);
    if (weights > 0) {
        at = put(put(at, 1, 5), 2, 2 * weights);
        for (int i = 0; i < weights; i++)
            at = put(at, 2, 1);
    }
    size_t end = (size_t)(at - bytes);
    uint64_t moves_length = moves > 0 ? 8 * (uint64_t)moves : 0, point_length = 2 * (uint64_t)weights;
    test_field(bytes, end, GADWEMOSH_FIELD_MOVES, 0, moves >= 0 ? size + 3 : end, moves_length);
    test_field(bytes, end, GADWEMOSH_FIELD_POINT, 0, weights > 0 ? moves_end + 3 : end, point_length);
}

/* Neither of fields 4 and 5, each alone and both, for every kind; no move, one, two and 32. With one move of
 * a rectangular patch both have eight bytes, elsewhere their lengths differ. */
static void test_optional_fields(void) {
    const int counts[] = {-1, 0, 1, 2, 32};
    uint8_t triangle[125], rectangle[146], *at = triangle;
    at = put(put(at, 5, INT64_C(0x0100020202)), 3, 0x020012);
    for (int i = 0; i < 9; i++)
        at = put(at, 2, patch_frame[i]);
    at = put(at, 3, 0x030060);
    for (int i = 0; i < 24; i++)
        at = put(at, 4, patch[i]);
    make_rect_record(rectangle);
    EXPECT(at == triangle + 125);
    for (size_t i = 0; i < sizeof counts / sizeof *counts; i++)
        for (int point = 0; point <= 1; point++) {
            test_optional(record, 67, counts[i], 2 * point);
            test_optional(triangle, 125, counts[i], 3 * point);
            test_optional(rectangle, 124, counts[i], 4 * point);
        }
}

static void test_fields_rect(void) {
    uint8_t bytes[146];
    make_rect_record(bytes);
    test_field(bytes, 146, GADWEMOSH_FIELD_KIND, 0, 3, 3);
    test_field(bytes, 146, GADWEMOSH_FIELD_FRAME, 0, 9, 16);
    test_field(bytes, 146, GADWEMOSH_FIELD_COEFFICIENTS, 0, 28, 96);
    test_field(bytes, 146, GADWEMOSH_FIELD_MOVES, 0, 127, 8);
    test_field(bytes, 146, GADWEMOSH_FIELD_POINT, 0, 138, 8);
    test_field(bytes, 135, GADWEMOSH_FIELD_POINT, 0, 135, 0);
    test_field(bytes, 124, GADWEMOSH_FIELD_MOVES, 0, 124, 0);
    /* a point of three weights, a frame of nine numbers, and kinds that field 1 is too long or too short for */
    bytes[137] = 6;
    test_no_fields(bytes, 144, 3);
    bytes[137] = 8, bytes[8] = 18;
    test_no_fields(bytes, 146, 3);
    bytes[8] = 16, bytes[3] = 2;
    test_no_fields(bytes, 146, 4);
    bytes[3] = 3, bytes[2] = 2;
    test_no_fields(bytes, 146, 4);
    bytes[2] = 4;
    test_no_fields(bytes, 146, 3);
    bytes[2] = 1;
    test_no_fields(bytes, 146, 3);
}

/* The text into a buffer of every length up to a few bytes more than it has: shorter ones are refused 11 and
 * left as they were, one of exactly its length is filled, and behind it every byte stays. */
static void test_lengths(const uint8_t *bytes, size_t size, const char *text) {
    size_t wanted = strlen(text);
    for (size_t room = 0; room <= wanted + 3; room++) {
        uint8_t out[300], old[300];
        uint64_t told = 7777;
        memset(old, '-', sizeof old);
        memcpy(out, old, sizeof out);
        if (room >= wanted)
            memcpy(old, text, wanted);
        EXPECT(gadwemosh_text(bytes, size, out, room, &told) == (room >= wanted ? 0 : 11));
        EXPECT(told == (room >= wanted ? wanted : 0) && memcmp(out, old, sizeof out) == 0);
    }
}

static void test_text(void) {
    const char *text = "curve 2 2\nframe 0 1 1 1\n0 2 0 0 2\n1 2 2 0 2\n2 0 4 0 4\n"
                       "at 3fe3333333333333 3fe999999999999a 0000000000000000\n";
    uint8_t out[200];
    uint64_t size = 7;
    memset(out, '-', sizeof out);
    EXPECT(gadwemosh_text(record, length, out, strlen(text) - 1, &size) == 11);
    EXPECT(size == 0 && out[0] == '-');
    EXPECT(gadwemosh_text(record, length, out, sizeof out, &size) == 0);
    EXPECT(size == strlen(text) && memcmp(out, text, size) == 0 && out[size] == '-');
    memset(out, '-', sizeof out);
    EXPECT(gadwemosh_text(record, length, out, strlen(text), &size) == 0);
    EXPECT(size == strlen(text) && memcmp(out, text, size) == 0 && out[size] == '-');
    test_lengths(record, length, text);
    test_lengths(record, 0, "refused 2 at 0\n");
    /* a refused record has a text too */
    memset(out, '-', sizeof out);
    EXPECT(gadwemosh_text(record, 0, out, 0, &size) == 11 && size == 0 && out[0] == '-');
    EXPECT(gadwemosh_text(record, 0, out, 14, &size) == 11 && size == 0 && out[0] == '-');
    EXPECT(gadwemosh_text(record, 0, out, 15, &size) == 0 && size == 15);
    EXPECT(memcmp(out, "refused 2 at 0\n-", 16) == 0);
}

static void test_text_rect(void) {
    const char *text = "rect 2 1 2\nframe 0 1 1 1 1 1 0 3\n"
                       "0 0 0 0 2 2\n0 1 0 0 0 6\n1 0 0 1 2 2\n1 1 0 0 0 6\n2 0 2 2 2 2\n2 1 6 0 0 6\n"
                       "far 1 0 0 10\n";
    uint8_t bytes[146], out[200];
    uint64_t size = 7;
    make_rect_record(bytes);
    memset(out, '-', sizeof out);
    EXPECT(gadwemosh_text(bytes, 146, out, strlen(text) - 1, &size) == 11 && size == 0 && out[0] == '-');
    EXPECT(gadwemosh_text(bytes, 146, out, strlen(text), &size) == 0);
    EXPECT(size == strlen(text) && memcmp(out, text, size) == 0 && out[size] == '-');
    test_lengths(bytes, 146, text);
}

/* The zero curve of degree 1 with five moves: 4096 s four times, which is 2 to the 48th, and then 2 s. */
static void test_text_frame(void) {
    const char *text = "curve 1 1\nmove 5 refused 12\nframe 0 1 281474976710656 281474976710656\n"
                       "0 0 0 0 0\n1 0 0 0 0\nnowhere\n";
    uint8_t bytes[101], out[200], *at = bytes;
    uint64_t size = 7;
    memcpy(at, "\1\0\2\1\1\2\0\10\0\0\0\1\0\1\0\1\3\0\40", 19), at += 19;
    memset(at, 0, 32), at += 32;
    memcpy(at, "\4\0\50", 3), at += 3;
    for (int i = 0; i < 5; i++)
        at = put(put(put(put(at, 2, 0x0102), 2, 0), 2, i < 4 ? 4096 : 2), 2, 0);
    memcpy(at, "\5\0\4\0\1\0\1", 7);
    memset(out, '-', sizeof out);
    EXPECT(gadwemosh_text(bytes, sizeof bytes, out, sizeof out, &size) == 0);
    EXPECT(size == strlen(text) && memcmp(out, text, size) == 0 && out[size] == '-');
    test_lengths(bytes, sizeof bytes, text);
}

/* The record of x = 6 (2 T - Z), y = 4 (2 T - Z), whose point at (1, 1) is a common zero. A direction found
 * there has length 1. */
static void test_text_zero(void) {
    const char *text = "curve 1 1\nframe 0 1 1 1\n0 -6 -4 0 0\n1 6 4 0 0\nfar 3 2 0 1\n";
    const int64_t line[8] = {-6, -4, 0, 0, 12, 8, 0, 0};
    uint8_t bytes[58], *at = bytes;
    memcpy(at, "\1\0\2\1\1\2\0\10\0\0\0\1\0\1\0\1\3\0\40", 19), at += 19;
    for (int i = 0; i < 8; i++)
        at = put(at, 4, line[i]);
    memcpy(at, "\5\0\4\0\1\0\1", 7);
    test_lengths(bytes, sizeof bytes, text);
}

/* The header's own arithmetic: the frame's numbers and the entries follow each other in order, four places for an
 * entry. */
static void test_places(void) {
    EXPECT(GADWEMOSH_FRAME_NUMBERS(GADWEMOSH_CURVE) == 4);
    EXPECT(GADWEMOSH_FRAME_NUMBERS(GADWEMOSH_PATCH) == GADWEMOSH_FRAME);
    EXPECT(GADWEMOSH_FRAME_NUMBERS(GADWEMOSH_RECT) == 8);
    EXPECT(GADWEMOSH_FRAME_PLACE + GADWEMOSH_FRAME == GADWEMOSH_ENTRIES);
    for (int m = 1; m <= 10; m++) {
        EXPECT(GADWEMOSH_CURVE_PLACE(m) == GADWEMOSH_ENTRIES + 4 * (GADWEMOSH_CURVE_ENTRIES(m) - 1));
        int place = GADWEMOSH_ENTRIES;
        for (int i = m; i >= 0; i--)
            for (int j = m - i; j >= 0; j--, place += 4)
                EXPECT(GADWEMOSH_PATCH_PLACE(j, m - i - j) == place);
        EXPECT(place == GADWEMOSH_ENTRIES + 4 * GADWEMOSH_PATCH_ENTRIES(m));
    }
    EXPECT(GADWEMOSH_PATCH_PLACE(0, 8) + 4 == GADWEMOSH_LARGEST_PLACE && GADWEMOSH_LARGEST_PLACE + 1 == GADWEMOSH_NET);
    for (int p = 1; p <= 5; p++)
        for (int q = 1; q <= 5; q++) {
            int place = GADWEMOSH_ENTRIES;
            for (int i = 0; i <= p; i++)
                for (int j = 0; j <= q; j++, place += 4)
                    EXPECT(GADWEMOSH_RECT_PLACE(q, i, j) == place);
            EXPECT(place == GADWEMOSH_ENTRIES + 4 * GADWEMOSH_RECT_ENTRIES(p, q));
        }
}

int main(void) {
    length = fread(record, 1, sizeof record, stdin);
    test_open();
    test_open_rect();
    test_first();
    test_first_rect();
    test_heads();
    test_heads_rect();
    test_move();
    test_move_rect();
    test_point();
    test_point_rect();
    test_handed_frames();
    test_frame_order();
    test_new_vertices();
    test_claims();
    test_largest_of_all();
    test_largest_along();
    test_project();
    test_project_found();
    test_zeros_by_hand();
    test_zeros();
    test_handed_zero();
    test_patch_zeros();
    test_fields();
    test_optional_fields();
    test_fields_rect();
    test_text();
    test_text_rect();
    test_text_frame();
    test_text_zero();
    test_places();
    printf("%d right, %d wrong\n", right, wrong);
    return wrong != 0;
}
