/* The library beside SISL, the spline library that a shop would use instead (Debian: libsisl-dev), and
 * beside plain doubles. It prints the two tables of docs/PERFORMANCE.md, 'Beside SISL'. The run fails if one of
 * our own answers is not the exact one, or if the two libraries do not compute the same thing.
 *
 * The curves. A random curve of degree m has whole coefficients: x, y and z from -1000 to 1000, the weight w
 * from 1 to 1000, so that no weight of its net is 0 or negative, which SISL could not take. Its first net over
 * r = (0, 1), s = (1, 1), the stretch from 0 to 1, is whole numbers below 2 to the 53rd. Both libraries get
 * these same numbers, SISL as a rational Bezier curve of order m + 1 with its knots at 0 and 1.
 *
 * Two ways. The stretch from 1/2 to 2/3 is cut out in two ways: first at 1/2 and then the right part at 2/3, or
 * first at 2/3 and then the left part at 1/2. Its end point, the point of the curve at 2/3, is a corner of the
 * net that is left. For SISL that is the last vertex of the curve, divided by its weight, and the other vertices
 * come by two ways too. For us a cut puts another vector in the place of a vertex:
 *
 *     first at 1/2: r becomes r + s = (1, 2), then s becomes r + s = (2, 3)
 *     first at 2/3: s becomes r + 2s = (2, 3)
 *
 * The end point is the polynomials at (2, 3) in both, so its numbers and its projection must be the same. To have
 * the same net as well, both lists must reach the same frame, vectors and not only parameters. From 2/3 the vector
 * (1, 2) is no whole combination of r and s, but (2, 4) = r + s is; so the first list has a third move that makes
 * r to 2r, and both reach (2, 4), (2, 3).
 *
 * The walk. k times the curve is cut at a half, or at a third, of its length and the part at its start kept, and
 * then k times the part is made twice, or three times, as long again, by continuing its polynomials: out and back,
 * `laps` times. At the end stands the net from which the walk began, if nothing is lost. SISL continues only curves
 * that are not rational (s1233), so it is given the four numbers of each vertex as a polynomial curve in four
 * dimensions; its arithmetic is the same. For us a third of the stretch over (0, 1), (1, n) is (1, 3n): s becomes
 * 2n r + s, and on the way back s - 2n r. Such a move may be refused with 10, where a number would be beyond 2 to the
 * 48th; then the net stays as it was, the walk turns there, and the count of such walks is printed. Nothing is lost
 * in any case.
 *
 * Times. Each row calls the two in turn, 2000 calls each, 60 rounds, and the best round counts. A split gives both
 * halves and keeps the curve: s1710 and the two calls that free the halves, beside two copies of the net and a
 * replace in each. The far mark is one replace beside the same steps in doubles, in place, with nothing tested. */
#define _POSIX_C_SOURCE 199309L
#include "gadwemosh.h"
#include <math.h>
#include <sisl.h>
#include <stdio.h>
#include <stdlib.h>
#include <string.h>
#include <time.h>

#define SEED 20261116
#define CURVES 10000
#define WALKED 1000
#define MOST 10
#define NUMBERS (4 * (MOST + 1))

static const int degrees[] = {1, 3, 10};

/* Something did not come out as it must. */
static void fail(const char *what)
{
    printf("FAILED: %s\n", what);
    exit(1);
}

/* ---- random curves */

static uint64_t state = SEED;

static int64_t between(int64_t low, int64_t high)
{
    state ^= state >> 12;
    state ^= state << 25;
    state ^= state >> 27;
    return low + (int64_t)(state * 2685821657736338717u >> 33) % (high - low + 1);
}

struct curve {
    int degree;
    int64_t net[GADWEMOSH_NET];
    double numbers[NUMBERS]; /* those of the net */
};

static struct curve random_curve(int degree)
{
    static const int64_t frame[9] = {0, 1, 1, 1};
    struct curve c = {.degree = degree};
    int64_t coefficients[180] = {0};
    for (int k = 0; k <= degree; k++) {
        for (int i = 0; i < 3; i++)
            coefficients[4 * k + i] = between(-1000, 1000);
        coefficients[4 * k + 3] = between(1, 1000);
    }
    if (gadwemosh_first(GADWEMOSH_CURVE, (uint8_t)degree, 0, frame, 9, coefficients, 180, c.net, GADWEMOSH_NET))
        fail("a first net is refused");
    for (int i = 0; i < 4 * (degree + 1); i++)
        c.numbers[i] = (double)c.net[GADWEMOSH_ENTRIES + i];
    return c;
}

/* ---- ours: a net, its moves and its last entry */

static uint8_t replace(int64_t *net, uint8_t vertex, int64_t r, int64_t s)
{
    return gadwemosh_move(net, GADWEMOSH_NET, GADWEMOSH_REPLACE, vertex, r, s, 0, 0);
}

static void must(uint8_t number)
{
    if (number)
        fail("a replace is refused where none should be");
}

static const int64_t *last_entry(const int64_t *net)
{
    return net + GADWEMOSH_ENTRIES + 4 * net[1];
}

static int same_net(const int64_t *a, const int64_t *b)
{
    return memcmp(a + GADWEMOSH_ENTRIES, b + GADWEMOSH_ENTRIES, 4 * (size_t)(a[1] + 1) * sizeof *a) == 0;
}

static void projected(const int64_t *entry, uint64_t *bits)
{
    int64_t direction[4];
    uint8_t outcome;
    if (gadwemosh_project(entry[0], entry[1], entry[2], entry[3], &outcome, bits, 3, direction, 4) != 0 ||
        outcome != GADWEMOSH_FINITE)
        fail("an end point is not finite");
}

/* ---- SISL's: a curve, its parts, the parts made longer. A rational curve has three dimensions and keeps its
 * numbers in rcoef; a polynomial one has four and keeps them in ecoef. */

static SISLCurve *curve_of(const struct curve *c, int rational)
{
    double knots[2 * (MOST + 1)];
    double numbers[NUMBERS];
    int order = c->degree + 1;
    for (int i = 0; i < 2 * order; i++)
        knots[i] = i < order ? 0.0 : 1.0;
    memcpy(numbers, c->numbers, sizeof numbers);
    SISLCurve *made = newCurve(order, order, knots, numbers, rational ? 4 : 3, rational ? 3 : 4, 1);
    if (!made)
        fail("SISL makes no curve");
    return made;
}

static void split(SISLCurve *c, double at, SISLCurve **left, SISLCurve **right)
{
    int status = 0;
    s1710(c, at, left, right, &status);
    if (status < 0 || !*left || !*right || (*left)->in != c->in || (*right)->in != c->in)
        fail("SISL does not split");
}

/* The part to the left of `at`, or to the right; the curve is freed. */
static SISLCurve *part(SISLCurve *c, double at, int right)
{
    SISLCurve *halves[2] = {NULL, NULL};
    split(c, at, &halves[0], &halves[1]);
    freeCurve(c);
    freeCurve(halves[!right]);
    return halves[right];
}

/* The curve made `times` as long; the old one is freed. */
static SISLCurve *longer(SISLCurve *c, int times)
{
    SISLCurve *made = NULL;
    int status = 0;
    s1233(c, 0.0, times - 1.0, &made, &status);
    if (status < 0 || !made || made->in != c->in)
        fail("SISL does not continue a curve");
    freeCurve(c);
    return made;
}

/* Whether a number of one list is not that of the other. */
static int differ(const double *a, const double *b, int n)
{
    for (int i = 0; i < n; i++)
        if (a[i] != b[i])
            return 1;
    return 0;
}

/* The greatest difference of two lists, as a part of the greatest number. */
static double apart(const double *a, const double *b, int n)
{
    double difference = 0, size = 0;
    for (int i = 0; i < n; i++) {
        difference = fmax(difference, fabs(a[i] - b[i]));
        size = fmax(size, fmax(fabs(a[i]), fabs(b[i])));
    }
    return difference / size;
}

/* ---- do the two libraries compute the same thing? The halves at 1/2, ours brought to SISL's scale: an entry with j
 * copies of (1, 2) is 2 to the j times the one at 1/2. */

static void agree(const struct curve *c)
{
    SISLCurve *whole = curve_of(c, 1), *halves[2] = {NULL, NULL};
    split(whole, 0.5, &halves[0], &halves[1]);
    for (int right = 0; right < 2; right++) {
        int64_t net[GADWEMOSH_NET];
        double numbers[NUMBERS];
        memcpy(net, c->net, sizeof net);
        must(replace(net, right ? 1 : 2, 1, 1));
        for (int i = 0; i < 4 * (c->degree + 1); i++) {
            int j = right ? c->degree - i / 4 : i / 4;
            numbers[i] = ldexp((double)net[GADWEMOSH_ENTRIES + i], -j);
        }
        if (!(apart(numbers, halves[right]->rcoef, 4 * (c->degree + 1)) < 1e-13))
            fail("a half by SISL is not ours");
        freeCurve(halves[right]);
    }
    freeCurve(whole);
}

/* ---- two ways */

static void two_ways(int degree)
{
    int points = 0, stretches = 0, our_points = 0, our_nets = 0;
    double worst = 0;
    for (int i = 0; i < CURVES; i++) {
        struct curve c = random_curve(degree);
        agree(&c);

        double at = 2.0 / 3.0;
        SISLCurve *one = part(part(curve_of(&c, 1), 0.5, 1), at, 0);
        SISLCurve *other = part(part(curve_of(&c, 1), at, 0), 0.5, 1);
        const double *p = one->ecoef + 3 * degree, *q = other->ecoef + 3 * degree;
        points += differ(p, q, 3);
        stretches += differ(one->rcoef, other->rcoef, 4 * (degree + 1));
        worst = fmax(worst, apart(p, q, 3));
        freeCurve(one);
        freeCurve(other);

        int64_t a[GADWEMOSH_NET], b[GADWEMOSH_NET];
        uint64_t x[3], y[3];
        memcpy(a, c.net, sizeof a);
        memcpy(b, c.net, sizeof b);
        must(replace(a, 1, 1, 1));
        must(replace(a, 2, 1, 1));
        must(replace(b, 2, 1, 2));
        projected(last_entry(a), x);
        projected(last_entry(b), y);
        our_points += memcmp(last_entry(a), last_entry(b), 4 * sizeof *a) != 0 || memcmp(x, y, sizeof x) != 0;
        must(replace(a, 1, 2, 0));
        must(replace(b, 1, 1, 1));
        our_nets += !same_net(a, b);
    }
    printf("| end point by two ways | %d | %d of %d differ, by up to %.0e | %d differ |\n", degree, points, CURVES, worst, our_points);
    printf("| whole stretch by two ways | %d | %d of %d differ | %d differ |\n", degree, stretches, CURVES, our_nets);
    if (our_points || our_nets)
        fail("two lists to one frame leave different nets");
}

/* ---- the walk */

struct walk {
    int times; /* a cut leaves one part in so many */
    int degree;
    int splits;
    int laps;
};

/* Ours. Answers whether a move was refused. */
static int our_walk(int64_t *net, struct walk w)
{
    int refused = 0;
    for (int lap = 0; lap < w.laps; lap++) {
        int64_t n = 1; /* s is (1, n) */
        for (int out = 0; out < w.splits; out++) {
            uint8_t number = replace(net, 2, (w.times - 1) * n, 1);
            if (number == GADWEMOSH_REFUSED_RANGE) {
                refused = 1;
                break;
            }
            must(number);
            n *= w.times;
        }
        while (n > 1) {
            n /= w.times;
            must(replace(net, 2, -(w.times - 1) * n, 1));
        }
    }
    return refused;
}

static int by_size(const void *a, const void *b)
{
    double x = *(const double *)a, y = *(const double *)b;
    return (x > y) - (x < y);
}

static SISLCurve *their_walk(SISLCurve *c, struct walk w)
{
    for (int lap = 0; lap < w.laps; lap++) {
        for (int out = 0; out < w.splits; out++)
            c = part(c, c->et[c->in] / w.times, 0); /* the stretch begins at 0 and ends at its last knot */
        for (int out = 0; out < w.splits; out++)
            c = longer(c, w.times);
    }
    return c;
}

static void walk(struct walk w)
{
    static double lost[WALKED];
    int numbers = 4 * (w.degree + 1);
    int theirs = 0, ours = 0, refused = 0;
    for (int i = 0; i < WALKED; i++) {
        struct curve c = random_curve(w.degree);
        SISLCurve *walked = their_walk(curve_of(&c, 0), w);
        theirs += differ(walked->ecoef, c.numbers, numbers);
        lost[i] = apart(walked->ecoef, c.numbers, numbers);
        freeCurve(walked);

        int64_t net[GADWEMOSH_NET];
        memcpy(net, c.net, sizeof net);
        refused += our_walk(net, w);
        ours += !same_net(net, c.net);
    }
    qsort(lost, WALKED, sizeof *lost, by_size);
    printf("| out and back, %d split%s at 1/%d", w.splits, w.splits == 1 ? "" : "s", w.times);
    if (w.laps > 1)
        printf(", %d laps", w.laps);
    printf(" | %d | %d of %d changed", w.degree, theirs, WALKED);
    if (theirs)
        printf(", median loss %.0e, worst %.0e", lost[WALKED / 2], lost[WALKED - 1]);
    printf(" | %d changed", ours);
    if (refused)
        printf(", %d turned at a refusal 10", refused);
    printf(" |\n");
    if (ours)
        fail("a walk out and back does not leave the net from which it began");
}

/* ---- times */

/* The work of one call, on what stands below. */
static struct curve timed;
static SISLCurve *timed_curve;
static int64_t first_half[GADWEMOSH_NET], second_half[GADWEMOSH_NET];
static int64_t moved[GADWEMOSH_NET];
static double doubles[NUMBERS];

static void our_split(void)
{
    memcpy(first_half, timed.net, sizeof first_half);
    memcpy(second_half, timed.net, sizeof second_half);
    must(replace(first_half, 2, 1, 1));
    must(replace(second_half, 1, 1, 1));
}

static void their_split(void)
{
    SISLCurve *left = NULL, *right = NULL;
    split(timed_curve, 0.5, &left, &right);
    freeCurve(left);
    freeCurve(right);
}

/* A replace that leaves the net as it is, so that it can be called again and again; no weight is treated apart. */
static int64_t weight_r = 1, weight_s = 0;

static void our_replace(void)
{
    must(replace(moved, 1, weight_r, weight_s));
}

/* The same levels in doubles: the first vertex is replaced, in place. Of a few ways to write it none was faster. */
__attribute__((noinline)) static void blend(double *numbers, int degree, double r, double s)
{
    for (int level = degree; level > 0; level--) {
        double *point = numbers;
        for (int j = 0; j < level; j++, point += 4)
            for (int i = 0; i < 4; i++)
                point[i] = r * point[i] + s * point[i + 4];
    }
}

static void doubles_replace(void)
{
    blend(doubles, timed.degree, (double)weight_r, (double)weight_s);
}

static double best_of(void (*work)(void), double best)
{
    struct timespec start, end;
    clock_gettime(CLOCK_MONOTONIC, &start);
    for (int i = 0; i < 2000; i++) {
        work();
        __asm__ volatile("" ::: "memory");
    }
    clock_gettime(CLOCK_MONOTONIC, &end);
    double each = ((double)(end.tv_sec - start.tv_sec) * 1e9 + (double)(end.tv_nsec - start.tv_nsec)) / 2000;
    return fmin(best, each);
}

/* A time, with three digits. */
static void print_time(double ns)
{
    if (ns < 100)
        printf(" %.1f ns |", ns);
    else if (ns < 1000)
        printf(" %.0f ns |", ns);
    else
        printf(" %.2f µs |", ns / 1000);
}

static void row(const char *name, void (*ours)(void), void (*theirs)(void))
{
    double a = INFINITY, b = INFINITY;
    for (int i = 0; i < 60; i++) {
        a = best_of(ours, a);
        b = best_of(theirs, b);
    }
    printf("| %s | %d |", name, timed.degree);
    print_time(b);
    print_time(a);
    printf(" %.2f |\n", a / b);
}

int main(void)
{
    static const struct walk walks[] = {{2, 3, 8, 1}, {3, 1, 7, 1},  {3, 3, 4, 1},    {3, 3, 7, 1},  {2, 10, 1, 1},
                                        {2, 10, 2, 1}, {2, 10, 3, 1}, {2, 10, 1, 100}, {3, 10, 1, 1}, {3, 10, 2, 1}};
    size_t n = sizeof degrees / sizeof *degrees;

    printf("Random curves, seed %d; %d for each row by two ways, %d for each row out and back.\n\n", SEED, CURVES, WALKED);
    printf("| What | Degree | SISL | Library |\n|---|---|---|---|\n");
    for (size_t i = 0; i < n; i++)
        two_ways(degrees[i]);
    for (size_t i = 0; i < sizeof walks / sizeof *walks; i++)
        walk(walks[i]);

    printf("\nBest times of 60 rounds of 2000 calls; the ratio is the library's time by the other's.\n\n");
    printf("| What | Degree | Other | Library | Ratio |\n|---|---|---|---|---|\n");
    for (size_t i = 0; i < n; i++) {
        timed = random_curve(degrees[i]);
        timed_curve = curve_of(&timed, 1);
        row("one split into both halves, beside SISL", our_split, their_split);
        freeCurve(timed_curve);
    }
    for (size_t i = 0; i < n; i++) {
        timed = random_curve(degrees[i]);
        memcpy(moved, timed.net, sizeof moved);
        memcpy(doubles, timed.numbers, sizeof doubles);
        row("one replace, beside unchecked doubles", our_replace, doubles_replace);
    }
    return 0;
}
