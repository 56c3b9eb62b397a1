/* The floating-point environment of a caller: rounding modes, traps, flags and flush-to-zero. Shows what each
 * of them does to the functions that divide floats, gadwemosh_project, gadwemosh_project_found and
 * gadwemosh_text, and that the other five have no part in it; include/gadwemosh.h, FLOATING POINT, says the
 * same in words. Quotients are checked in whole numbers of 128 bits, not in doubles. Prints for each mode
 * how many coordinates are outside the bound, then how many answers were right, and each wrong one. Standard
 * input is the circle's record. */
#define _GNU_SOURCE
#include "gadwemosh.h"

#include <fenv.h>
#include <inttypes.h>
#include <pmmintrin.h>
#include <signal.h>
#include <stdio.h>
#include <stdlib.h>
#include <string.h>
#include <sys/resource.h>
#include <sys/wait.h>
#include <unistd.h>

static int right, wrong;

static void expect(int line, int ok) {
    if (ok) {
        right++;
    } else {
        wrong++;
        printf("line %d: wrong\n", line);
    }
}
#define EXPECT(ok) expect(__LINE__, (ok))

static uint8_t record[GADWEMOSH_LONGEST_RECORD + 1];
static size_t record_length;

enum { MODES = 4 };
static const struct {
    const char *name;
    int mode;
} modes[MODES] = {
    {"nearest", FE_TONEAREST},
    {"upward", FE_UPWARD},
    {"downward", FE_DOWNWARD},
    {"toward zero", FE_TOWARDZERO},
};

/* ---- the environment */

/* The environment that the program started with. */
static fenv_t at_start;

static void usual(void) {
    fesetenv(&at_start);
}

/* Flush-to-zero and denormals-are-zero, both. */
static void flush(unsigned on) {
    _MM_SET_FLUSH_ZERO_MODE(on ? _MM_FLUSH_ZERO_ON : _MM_FLUSH_ZERO_OFF);
    _MM_SET_DENORMALS_ZERO_MODE(on ? _MM_DENORMALS_ZERO_ON : _MM_DENORMALS_ZERO_OFF);
}

/* Both are in force: the half of the smallest normal number is 0, and so is the smallest subnormal one. */
static int flushes(void) {
    volatile double smallest = 0x1p-1022, subnormal = 0x1p-1074, one = 1, half = 0.5;
    return smallest * half == 0 && subnormal * one == 0;
}

/* All flags of both units, also the one that <fenv.h> has no name for, which a subnormal operand raises. */
enum { FLAGS = 0x3f };

static unsigned flags(void) {
    uint16_t status;
    __asm__ volatile("fnstsw %0" : "=m"(status));
    return (_mm_getcsr() | status) & FLAGS;
}

static void clear_flags(void) {
    __asm__ volatile("fnclex");
    _mm_setcsr(_mm_getcsr() & ~(uint32_t)FLAGS);
}

/* Modes, masks and flush-to-zero: all of the environment but the flags. */
static uint32_t control(void) {
    uint16_t word;
    __asm__ volatile("fnstcw %0" : "=m"(word));
    return (_mm_getcsr() & ~(uint32_t)FLAGS) | (uint32_t)word << 16;
}

/* Makes a call in a child, which ends by _exit(call()), and hands back how it ended. */
static int ended(int (*call)(void)) {
    int status = -1;
    pid_t child = fork();
    if (child == 0) {
        setrlimit(RLIMIT_CORE, &(struct rlimit){0, 0});
        _exit(call());
    }
    if (child < 0 || waitpid(child, &status, 0) != child) {
        printf("no child\n");
        exit(1);
    }
    return status;
}

/* The call came back with 0. */
static int passes(int (*call)(void)) {
    int status = ended(call);
    return WIFEXITED(status) && WEXITSTATUS(status) == 0;
}

/* A trap ended the program. */
static int is_trapped(int (*call)(void)) {
    int status = ended(call);
    return WIFSIGNALED(status) && WTERMSIG(status) == SIGFPE;
}

/* ---- quotients in whole numbers */

typedef unsigned __int128 wide;

static uint64_t size_of(int64_t v) {
    return v < 0 ? -(uint64_t)v : (uint64_t)v;
}

/* The number n 2^e that a double is, without its sign. */
struct parts {
    uint64_t n;
    int e;
};

static struct parts parts_of(uint64_t bits) {
    const uint64_t one = UINT64_C(1) << 52;
    return (struct parts){one + bits % one, (int)(bits >> 52 & 2047) - 1075};
}

/* Two whole numbers that are as the double to the quotient x / w: n |w| and |x| 2^-e. `known` is 0 where the
 * double is far off: where its sign is not the quotient's, its exponent is one that no quotient in range has,
 * or the second number is 2^103 or more, above any n |w|. */
struct sides {
    int known;
    wide told, exact;
};

static struct sides sides_of(uint64_t bits, int64_t x, int64_t w) {
    struct parts p = parts_of(bits);
    int negative = (x < 0) != (w < 0);
    if (negative != (int)(bits >> 63) || p.e < -100 || p.e > -4 || (wide)size_of(x) >> (103 + p.e) != 0)
        return (struct sides){0, 0, 0};
    return (struct sides){1, (wide)p.n * size_of(w), (wide)size_of(x) << -p.e};
}

static wide difference(wide a, wide b) {
    return a < b ? b - a : a - b;
}

/* |n 2^e w - x| 2^53 <= |x|, both sides times 2^-e; zero is all bits 0. A difference of 2^70 or more is
 * outside, as the right side is below 2^103. */
static int is_within_bound(uint64_t bits, int64_t x, int64_t w) {
    if (x == 0)
        return bits == 0;
    struct sides s = sides_of(bits, x, w);
    wide off = difference(s.told, s.exact);
    return s.known && off >> 70 == 0 && off << 53 <= s.exact;
}

/* The double is what the mode gives. Toward zero n is the greatest with n |w| <= |x| 2^-e, away from it the
 * least with n |w| >= |x| 2^-e, and to nearest the two differ by less than |w| / 2, as no quotient in range
 * lies halfway. A step down from n = 2^52 is shorter, but no quotient in range lies so near below a power of
 * two. */
static int is_rounded(int mode, uint64_t bits, int64_t x, int64_t w) {
    if (x == 0)
        return bits == 0;
    struct sides s = sides_of(bits, x, w);
    int negative = (x < 0) != (w < 0), away = mode == (negative ? FE_DOWNWARD : FE_UPWARD);
    wide off = difference(s.told, s.exact);
    if (!s.known)
        return 0;
    if (mode == FE_TONEAREST)
        return 2 * off < size_of(w);
    return off < size_of(w) && (off == 0 || (s.told > s.exact) == away);
}

/* ---- projections */

/* What a projection answers and writes, padding included: compared by its bytes. */
struct told {
    uint64_t bits[3];
    int64_t direction[4];
    uint8_t answer, outcome;
};

static int same(const struct told *a, const struct told *b) {
    return memcmp(a, b, sizeof *a) == 0;
}

static void project(const int64_t *four, struct told *told) {
    memset(told, 0, sizeof *told);
    told->answer = gadwemosh_project(four[0], four[1], four[2], four[3], &told->outcome, told->bits, 3,
                                     told->direction, 4);
}

/* The four as the numbers projected at a common zero. */
static void project_found(const int64_t *four, struct told *told) {
    int64_t found[GADWEMOSH_FOUND] = {0, 0, 0, 0, four[0], four[1], four[2], four[3]};
    memset(told, 0, sizeof *told);
    told->answer = gadwemosh_project_found(found, GADWEMOSH_FOUND, &told->outcome, told->bits, 3,
                                           told->direction, 4);
}

static int is_finite_point(const struct told *told) {
    return told->answer == 0 && told->outcome == GADWEMOSH_FINITE;
}

/* x / w as both functions give it, in each of the three places; all bits 1 where they do not agree. */
static uint64_t quotient(int64_t x, int64_t w) {
    const int64_t four[4] = {x, x, x, w};
    struct told a, b;
    project(four, &a);
    project_found(four, &b);
    if (!is_finite_point(&a) || !same(&a, &b) || a.bits[1] != a.bits[0] || a.bits[2] != a.bits[0])
        return UINT64_MAX;
    return a.bits[0];
}

/* ---- many numbers */

enum { COUNT = 4096 };
static int64_t fours[COUNT][4];
static const int64_t chosen[][4] = {
    {1, -1, 0, GADWEMOSH_LARGEST},           /* the smallest quotients */
    {1, -1, 0, GADWEMOSH_LARGEST - 1},       /* the smallest that are rounded */
    {GADWEMOSH_LARGEST, -GADWEMOSH_LARGEST, GADWEMOSH_LARGEST - 1, 1},
    {GADWEMOSH_LARGEST, -GADWEMOSH_LARGEST, GADWEMOSH_LARGEST - 1, -3},
    {28059810762434, -28059810762434, 0, 28059810762433}, /* next to halfway */
    {GADWEMOSH_LARGEST - 1, GADWEMOSH_LARGEST - 2, 0, GADWEMOSH_LARGEST},
    {0, 0, 0, -1},
    {0, 0, 0, 0},
    {3, -6, 0, 0},
    {GADWEMOSH_LARGEST, -GADWEMOSH_LARGEST, 0, 0},
    {GADWEMOSH_LARGEST + 1, 0, 0, 1},
    {1, INT64_MAX, 0, 3},
    {1, 0, INT64_MIN, 0},
    {1, 1, 1, INT64_MIN},
};

static uint64_t any(void) {
    static uint64_t state = 88172645463325252;
    state ^= state << 13;
    state ^= state >> 7;
    return state ^= state << 17;
}

/* A number of any size in range; one of 32 is 0, one of 128 out of range. */
static int64_t any_number(void) {
    uint64_t kind = any() % 128, digits = 1 + any() % 48;
    int64_t size = (int64_t)(any() >> (64 - digits));
    if (kind < 4)
        return 0;
    if (kind == 4)
        return GADWEMOSH_LARGEST + 1 + size;
    return kind % 2 ? size : -size;
}

static void make_numbers(void) {
    for (int i = 0; i < COUNT; i++)
        for (int k = 0; k < 4; k++)
            fours[i][k] = any_number();
    memcpy(fours, chosen, sizeof chosen);
}

/* What both functions tell of all the numbers. */
struct sweep {
    struct told by_four[COUNT], by_found[COUNT];
};

static void project_all(struct sweep *sweep) {
    for (int i = 0; i < COUNT; i++) {
        project(fours[i], &sweep->by_four[i]);
        project_found(fours[i], &sweep->by_found[i]);
    }
}

static struct sweep nearest, other;

/* ---- modes */

/* A program starts in round to nearest, with no trap set, no flag raised and without flush-to-zero. */
static void test_start(void) {
    EXPECT(fegetround() == FE_TONEAREST && fegetexcept() == 0);
    EXPECT(_mm_getcsr() == 0x1f80);
}

/* Quotients by hand. 1 / 3 upward is off by the whole bound, which is within it; 6 / 10, a coordinate of the
 * circle's point, upward by 4/3 of the bound, and 5 / 9 toward zero by 7/5 of it. */
static const struct {
    int mode;
    int64_t x, w;
    uint64_t bits;
    int within;
} quotients[] = {
    {FE_TONEAREST, 1, 3, 0x3fd5555555555555, 1},
    {FE_TONEAREST, 6, 10, 0x3fe3333333333333, 1},
    {FE_TONEAREST, 8, 10, 0x3fe999999999999a, 1},
    {FE_TONEAREST, 5, 9, 0x3fe1c71c71c71c72, 1},
    {FE_TONEAREST, 28059810762434, 28059810762433, 0x3ff00000000000a0, 1},
    {FE_TONEAREST, 1, GADWEMOSH_LARGEST - 1, 0x3cf0000000000010, 1},
    {FE_TONEAREST, GADWEMOSH_LARGEST - 2, -3, 0xc2d555555555552b, 1},
    {FE_UPWARD, 1, 3, 0x3fd5555555555556, 1},
    {FE_UPWARD, -1, 3, 0xbfd5555555555555, 1},
    {FE_UPWARD, 6, 10, 0x3fe3333333333334, 0},
    {FE_DOWNWARD, 1, 3, 0x3fd5555555555555, 1},
    {FE_DOWNWARD, -1, 3, 0xbfd5555555555556, 1},
    {FE_DOWNWARD, -6, 10, 0xbfe3333333333334, 0},
    {FE_DOWNWARD, 5, 9, 0x3fe1c71c71c71c71, 0},
    {FE_TOWARDZERO, 1, 3, 0x3fd5555555555555, 1},
    {FE_TOWARDZERO, 5, 9, 0x3fe1c71c71c71c71, 0},
    {FE_TOWARDZERO, -5, 9, 0xbfe1c71c71c71c71, 0},
};

static void test_by_hand(void) {
    for (size_t i = 0; i < sizeof quotients / sizeof *quotients; i++) {
        fesetround(quotients[i].mode);
        uint64_t bits = quotient(quotients[i].x, quotients[i].w);
        usual();
        EXPECT(bits == quotients[i].bits);
        EXPECT(is_within_bound(bits, quotients[i].x, quotients[i].w) == quotients[i].within);
        EXPECT(is_rounded(quotients[i].mode, bits, quotients[i].x, quotients[i].w));
    }
}

/* Quotients that a double has exactly, and zeros, are the same in every mode. */
static void test_exact(void) {
    for (int m = 0; m < MODES; m++) {
        fesetround(modes[m].mode);
        EXPECT(quotient(0, 7) == 0 && quotient(0, -7) == 0);
        EXPECT(quotient(0, GADWEMOSH_LARGEST) == 0 && quotient(0, -GADWEMOSH_LARGEST) == 0);
        EXPECT(quotient(1, 2) == 0x3fe0000000000000 && quotient(-3, 4) == 0xbfe8000000000000);
        EXPECT(quotient(15, -3) == 0xc014000000000000 && quotient(-7, -7) == 0x3ff0000000000000);
        EXPECT(quotient(1, GADWEMOSH_LARGEST) == 0x3cf0000000000000);
        EXPECT(quotient(-GADWEMOSH_LARGEST, 1) == 0xc2f0000000000000);
        usual();
    }
}

/* Whether a coordinate is what the mode gives; one that is not is printed. */
static int is_coordinate(int mode, uint64_t bits, int64_t x, int64_t w) {
    int ok = is_rounded(mode, bits, x, w);
    if (!ok)
        printf("%" PRId64 " / %" PRId64 " is told as %016" PRIx64 "\n", x, w, bits);
    return ok;
}

/* How many coordinates of a finite point are outside the bound. */
static int count_outside(const int64_t *four, const struct told *told) {
    int outside = 0;
    for (int k = 0; k < 3; k++)
        outside += !is_within_bound(told->bits[k], four[k], four[3]);
    return outside;
}

/* All numbers in one mode. Each coordinate is what the mode gives, and all are within the bound in round to
 * nearest only. A direction, nowhere and a refusal are the same in every mode. */
static void test_mode(const char *name, int mode) {
    int coordinates = 0, outside = 0;
    fesetround(mode);
    project_all(&other);
    usual();
    for (int i = 0; i < COUNT; i++) {
        const struct told *told = &other.by_four[i], *by_found = &other.by_found[i];
        if (!is_finite_point(&nearest.by_four[i])) {
            EXPECT(same(told, &nearest.by_four[i]) && same(by_found, &nearest.by_found[i]));
            continue;
        }
        coordinates += 3;
        EXPECT(is_finite_point(told) && same(told, by_found));
        outside += count_outside(fours[i], told);
        for (int k = 0; k < 3; k++)
            EXPECT(is_coordinate(mode, told->bits[k], fours[i][k], fours[i][3]));
    }
    EXPECT((outside == 0) == (mode == FE_TONEAREST));
    printf("%s: %d of %d coordinates outside the bound\n", name, outside, coordinates);
}

static void test_modes(void) {
    for (int m = 0; m < MODES; m++)
        test_mode(modes[m].name, modes[m].mode);
}

/* ---- the five functions that have no floats */

enum { KINDS = 3 };
static const struct shape {
    uint8_t kind, degree, second, vertex;
    int64_t frame[GADWEMOSH_FRAME], weights[4];
} shapes[KINDS] = {
    {GADWEMOSH_CURVE, 10, 0, GADWEMOSH_S, {0, 1, 1, 1}, {3, 7, 0, 0}},
    {GADWEMOSH_PATCH, 8, 0, GADWEMOSH_T, {1, 0, 1, 0, 1, 1, 0, 0, 1}, {3, -2, 5, 0}},
    {GADWEMOSH_RECT, 5, 5, GADWEMOSH_R2, {0, 1, 1, 1, 1, 1, -1, 2}, {3, -2, 5, 1}},
};

/* All that the five write and answer. */
struct whole {
    int64_t opened[GADWEMOSH_NET], nets[KINDS][GADWEMOSH_NET], found[KINDS][GADWEMOSH_FOUND];
    uint64_t offset, start, length;
    uint8_t opens, finds, answers[KINDS][4];
};

/* A first net, two moves and a point of one kind. */
static void call_four(const struct shape *shape, int64_t *net, int64_t *found, uint8_t *answers) {
    const int64_t *weights = shape->weights;
    int64_t coefficients[GADWEMOSH_COEFFICIENTS], third = shape->kind == GADWEMOSH_PATCH;
    for (int i = 0; i < GADWEMOSH_COEFFICIENTS; i++)
        coefficients[i] = i % 7 - 3;
    answers[0] = gadwemosh_first(shape->kind, shape->degree, shape->second, shape->frame, GADWEMOSH_FRAME,
                                 coefficients, GADWEMOSH_COEFFICIENTS, net, GADWEMOSH_NET);
    answers[1] = gadwemosh_move(net, GADWEMOSH_NET, GADWEMOSH_REPLACE, shape->vertex, 1, 1, third, 0);
    answers[2] = gadwemosh_move(net, GADWEMOSH_NET, GADWEMOSH_FLIP, shape->vertex, 0, 0, 0, 0);
    answers[3] = gadwemosh_point(net, GADWEMOSH_NET, weights[0], weights[1], weights[2], weights[3], found,
                                 GADWEMOSH_FOUND);
}

static void call_five(struct whole *all) {
    memset(all, 0, sizeof *all);
    all->opens = gadwemosh_open(record, record_length, all->opened, GADWEMOSH_NET, &all->offset);
    all->finds = gadwemosh_field(record, record_length, GADWEMOSH_FIELD_POINT, &all->start, &all->length);
    for (int k = 0; k < KINDS; k++)
        call_four(&shapes[k], all->nets[k], all->found[k], all->answers[k]);
}

static struct whole usual_five;

/* The five answer and write what they did in the usual environment, and change and raise nothing. */
static int same_five(void) {
    struct whole all;
    clear_flags();
    uint32_t before = control();
    call_five(&all);
    return control() == before && flags() == 0 && memcmp(&all, &usual_five, sizeof all) == 0;
}

static int same_five_trapped(void) {
    clear_flags();
    feenableexcept(FE_ALL_EXCEPT);
    return !same_five();
}

static void test_five(void) {
    static const int64_t entries[12] = {2, 0, 0, 2, 2, 2, 0, 2, 0, 4, 0, 4};
    call_five(&usual_five);
    EXPECT(memcmp(usual_five.opened + GADWEMOSH_ENTRIES, entries, sizeof entries) == 0);
    EXPECT(usual_five.start == 70 && usual_five.length == 4);
    EXPECT(usual_five.opens == 0 && usual_five.finds == 0);
    for (int k = 0; k < KINDS; k++)
        EXPECT(memcmp(usual_five.answers[k], "\0\0\0\0", 4) == 0 && usual_five.found[k][3] != 0);
    for (int m = 0; m < MODES; m++)
        for (unsigned on = 0; on < 2; on++) {
            fesetround(modes[m].mode);
            flush(on);
            EXPECT(same_five());
            EXPECT(passes(same_five_trapped));
            usual();
        }
}

/* ---- the text */

/* The circle's text ends with the line of these coordinates. */
static int text_is(const uint8_t *bytes, const char *coordinates) {
    uint8_t out[GADWEMOSH_LONGEST_TEXT];
    uint64_t length;
    char wanted[200] = "curve 2 2\nframe 0 1 1 1\n0 2 0 0 2\n1 2 2 0 2\n2 0 4 0 4\nat ";
    strcat(strcat(wanted, coordinates), "\n");
    return gadwemosh_text(bytes, record_length, out, sizeof out, &length) == 0 && length == strlen(wanted) &&
           memcmp(out, wanted, length) == 0;
}

/* The circle with another point, the end s of its arc, at (0, 1, 0): its weights are the last four bytes. */
static uint8_t record_of_end[sizeof record];

static void make_record_of_end(void) {
    memcpy(record_of_end, record, sizeof record);
    record_of_end[record_length - 3] = 0;
}

static void test_text(void) {
    static const char *const middle[MODES] = {
        "3fe3333333333333 3fe999999999999a 0000000000000000",
        "3fe3333333333334 3fe999999999999a 0000000000000000",
        "3fe3333333333333 3fe9999999999999 0000000000000000",
        "3fe3333333333333 3fe9999999999999 0000000000000000",
    };
    for (int m = 0; m < MODES; m++) {
        fesetround(modes[m].mode);
        EXPECT(text_is(record, middle[m]));
        EXPECT(text_is(record_of_end, "0000000000000000 3ff0000000000000 0000000000000000"));
        usual();
    }
}

/* ---- traps */

static int trap_third(void) {
    feenableexcept(FE_INEXACT);
    struct told told;
    project((const int64_t[]){1, 0, 0, 3}, &told);
    return 0;
}

static int trap_third_found(void) {
    feenableexcept(FE_INEXACT);
    struct told told;
    project_found((const int64_t[]){0, 0, 1, 3}, &told);
    return 0;
}

static int trap_text(void) {
    feenableexcept(FE_INEXACT);
    text_is(record, "");
    return 0;
}

/* With all traps set exact quotients, directions, nowhere and refusals for size are answered. */
static int trap_nothing(void) {
    static const int64_t exact[][4] = {
        {1, -3, 0, 4}, {15, 0, 6, -3}, {1, -1, 0, GADWEMOSH_LARGEST},      {GADWEMOSH_LARGEST, 0, 0, 1},
        {3, -6, 0, 0}, {0, 0, 0, 0},   {1, 1, 1, GADWEMOSH_LARGEST + 1},
    };
    feenableexcept(FE_ALL_EXCEPT);
    struct told told;
    for (size_t i = 0; i < sizeof exact / sizeof *exact; i++) {
        project(exact[i], &told);
        project_found(exact[i], &told);
    }
    return !text_is(record_of_end, "0000000000000000 3ff0000000000000 0000000000000000");
}

/* The traps but the one on inexact end nothing, whatever the numbers are. */
static int trap_all_but_inexact(void) {
    feenableexcept(FE_ALL_EXCEPT & ~FE_INEXACT);
    project_all(&other);
    return memcmp(&nearest, &other, sizeof nearest) != 0;
}

static void test_traps(void) {
    EXPECT(is_trapped(trap_third));
    EXPECT(is_trapped(trap_third_found));
    EXPECT(is_trapped(trap_text));
    EXPECT(passes(trap_nothing));
    EXPECT(passes(trap_all_but_inexact));
}

/* ---- flush-to-zero */

static void test_flush(void) {
    static struct sweep flushed;
    EXPECT(!flushes());
    for (int m = 0; m < MODES; m++) {
        fesetround(modes[m].mode);
        project_all(&other);
        flush(1);
        EXPECT(flushes());
        project_all(&flushed);
        EXPECT(quotient(1, GADWEMOSH_LARGEST) == 0x3cf0000000000000);
        usual();
        EXPECT(memcmp(&other, &flushed, sizeof flushed) == 0);
    }
}

/* ---- the recipe of the header */

static void project_by_recipe(const int64_t *four, struct told *told) {
    fenv_t own;
    feholdexcept(&own);
    fesetround(FE_TONEAREST);
    project(four, told);
    fesetenv(&own);
}

/* With it all numbers are projected as to nearest, and modes, traps and flags are what they were. */
static int recipe_holds(void) {
    uint32_t before = control();
    unsigned raised = flags();
    struct told told;
    for (int i = 0; i < COUNT; i++) {
        project_by_recipe(fours[i], &told);
        if (!same(&told, &nearest.by_four[i]) || control() != before || flags() != raised)
            return 0;
    }
    return 1;
}

static int recipe_upward_trapped(void) {
    fesetround(FE_UPWARD);
    feenableexcept(FE_INEXACT);
    return !recipe_holds() || fegetround() != FE_UPWARD || fegetexcept() != FE_INEXACT;
}

/* Every mode with every trap set, with flush-to-zero too. */
static int recipe_everywhere(void) {
    for (int m = 0; m < MODES; m++)
        for (unsigned on = 0; on < 2; on++) {
            usual();
            fesetround(modes[m].mode);
            flush(on);
            feenableexcept(FE_ALL_EXCEPT);
            if (!recipe_holds())
                return 1;
        }
    return 0;
}

/* A flag that the program had raised stays raised. */
static int recipe_keeps_flags(void) {
    feraiseexcept(FE_DIVBYZERO | FE_INEXACT);
    return !recipe_holds() || fetestexcept(FE_ALL_EXCEPT) != (FE_DIVBYZERO | FE_INEXACT);
}

/* A program that sets the mode of SSE alone, as <xmmintrin.h> does. */
static int recipe_sse_mode(void) {
    _MM_SET_ROUNDING_MODE(_MM_ROUND_UP);
    return quotient(6, 10) != 0x3fe3333333333334 || !recipe_holds();
}

/* Without feholdexcept the trap is still set. */
static int mode_alone(void) {
    fesetround(FE_UPWARD);
    feenableexcept(FE_INEXACT);
    fesetround(FE_TONEAREST);
    quotient(6, 10);
    return 0;
}

/* Without fesetround the mode is still upward. */
static int hold_alone(void) {
    fenv_t own;
    fesetround(FE_UPWARD);
    feenableexcept(FE_INEXACT);
    feholdexcept(&own);
    return quotient(6, 10) != 0x3fe3333333333334;
}

static void test_recipe(void) {
    EXPECT(passes(recipe_upward_trapped));
    EXPECT(passes(recipe_everywhere));
    EXPECT(passes(recipe_keeps_flags));
    EXPECT(passes(recipe_sse_mode));
    EXPECT(is_trapped(mode_alone));
    EXPECT(passes(hold_alone));
}

/* ---- flags */

/* After a call no flag is raised but inexact, and the rest of the environment is as it was before. */
static int raises_at_most_inexact(void (*call)(const int64_t *, struct told *), const int64_t *four) {
    struct told told;
    clear_flags();
    uint32_t before = control();
    call(four, &told);
    return (flags() & ~(unsigned)FE_INEXACT) == 0 && control() == before;
}

/* Flags that were raised before a call are raised after it. */
static int lowers_nothing(void (*call)(const int64_t *, struct told *), const int64_t *four) {
    struct told told;
    _mm_setcsr(_mm_getcsr() | FLAGS);
    call(four, &told);
    return (_mm_getcsr() & FLAGS) == FLAGS;
}

static void test_flags(void) {
    for (int m = 0; m < MODES; m++) {
        fesetround(modes[m].mode);
        for (int i = 0; i < COUNT; i++) {
            EXPECT(raises_at_most_inexact(project, fours[i]));
            EXPECT(raises_at_most_inexact(project_found, fours[i]));
            EXPECT(lowers_nothing(project, fours[i]) && lowers_nothing(project_found, fours[i]));
        }
        usual();
    }
    clear_flags();
    quotient(1, 3);
    EXPECT(flags() == FE_INEXACT);
    clear_flags();
    EXPECT(text_is(record, "3fe3333333333333 3fe999999999999a 0000000000000000"));
    EXPECT(flags() == FE_INEXACT);
    usual();
}

int main(void) {
    test_start();
    fegetenv(&at_start);
    record_length = fread(record, 1, sizeof record, stdin);
    make_record_of_end();
    make_numbers();
    project_all(&nearest);
    test_by_hand();
    test_exact();
    test_modes();
    test_five();
    test_text();
    test_traps();
    test_flush();
    test_recipe();
    test_flags();
    printf("%d right, %d wrong\n", right, wrong);
    return wrong != 0;
}
