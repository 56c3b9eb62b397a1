/* How far a coordinate may be off: the bound of request E13, asked of the library's answers in whole numbers.
 *
 *   accuracy [--wrong] SEED RECORD...
 *
 * A coordinate of a finite point is n * 2^e with whole n and e, which are read off its 64 bits here. It
 * stands for the quotient x / w of two of the numbers projected. The bound is |n 2^e w - x| * 2^53 <= |x|.
 * Both sides are made whole by 2^-e; then they are products of whole numbers of at most 128 binary digits,
 * and no float takes part. A quotient 0 must be +0. No coordinate may be subnormal, infinite or no number.
 *
 * The quotients come in classes, see `classes`. Each goes through gadwemosh_project and twice through
 * gadwemosh_project_found. The RECORDs are files of hex digits; of the nets of all accepted ones points are
 * found at several weights, and the numbers projected are held to the bits in the same way.
 *
 * How near to the bound the worst quotient comes is told by a whole number k: its distance is at most
 * |x / w| divided by 2^53 + k, and not by one more. The run fails where the bound is broken; where k is above
 * 8192, so that nothing was tried that comes within a part in 2^40 of the bound; where half the bound was
 * never broken; and where something that is counted never occurred.
 *
 * With --wrong, wrong divisions stand in the place of the library's, one at a time. Each must be found. */
#include "gadwemosh.h"

#include <inttypes.h>
#include <stdio.h>
#include <stdlib.h>
#include <string.h>

__extension__ typedef __int128 wide;
__extension__ typedef unsigned __int128 size;

#define LIMIT GADWEMOSH_LARGEST
#define TWO_TO(k) (UINT64_C(1) << (k))

/* The bound's own number of parts, and the largest k up to which the worst quotient must come. */
#define PARTS TWO_TO(53)
#define NEAR_ENOUGH TWO_TO(13)

/* ---- the bound */

/* Both sides of the bound before the factor 2^53: |n w - x 2^-e| and |x| 2^-e. */
struct sides {
    size distance, quotient;
};

/* Whether the distance is at most the quotient divided by so many parts, 2^53 or some more. The quotient is
 * below 2^102, so a distance from 2^70 on is too large; below it the product has room. */
static int within(struct sides s, uint64_t parts) {
    return s.distance >> 70 == 0 && s.distance * parts <= s.quotient;
}

/* Binary digits of a number that is not 0. */
static int digits(uint64_t number) {
    return 64 - __builtin_clzll(number);
}

static uint64_t absolute(int64_t number) {
    return number < 0 ? (uint64_t)-number : (uint64_t)number;
}

/* A coordinate is normal if it is neither 0 nor subnormal, infinite or no number. */
static int is_normal(uint64_t bits) {
    uint64_t field = bits >> 52 & 2047;
    return field != 0 && field != 2047;
}

/* The whole number n of a normal coordinate n * 2^e; its absolute value is from 2^52 to 2^53 - 1. */
static int64_t whole(uint64_t bits) {
    int64_t n = (int64_t)((bits & (TWO_TO(52) - 1)) | TWO_TO(52));
    return bits >> 63 ? -n : n;
}

/* The whole number -e of it. */
static int minus_e(uint64_t bits) {
    return 1075 - (int)(bits >> 52 & 2047);
}

/* The two sides for a normal coordinate and a quotient x / w that is not 0. Nothing (0) if the coordinate is
 * so far from the quotient that the sides would not fit; then the bound is broken. For |n w| is from 2^52 to
 * below 2^101. With e > 0, |n 2^e w| is at least 2^53, and |x| at most 2^48. With |x| 2^-e at least 2^102,
 * the distance is above half of that. */
static int measure(int64_t x, int64_t w, uint64_t bits, struct sides *s) {
    int up = minus_e(bits);
    if (up < 0 || up + digits(absolute(x)) > 102)
        return 0;
    s->quotient = (size)absolute(x) << up;
    wide apart = (wide)whole(bits) * w - (x < 0 ? -(wide)s->quotient : (wide)s->quotient);
    s->distance = apart < 0 ? -(size)apart : (size)apart;
    return 1;
}

/* ---- what was tried */

/* The quotients of one class. */
struct tally {
    const char *name;
    int exact; /* whether no quotient of the class is rounded */
    uint64_t quotients, zeros[2] /* over w > 0, over w < 0 */, rounded, near_tie, half_broken;
    uint64_t parts; /* of the worst quotient, 2^53 + k, at most 2^54 */
    int64_t x, w;   /* that quotient */
};

/* What the library, or a wrong division, answers. */
struct answer {
    uint8_t refused, outcome;
    uint64_t bits[3];
};

typedef void way(const int64_t *four, struct answer *answer);
typedef void point_way(int64_t kind, const int64_t *found, struct answer *answer);

struct run {
    way *const *ways; /* each of them answers each quotient */
    point_way *of_point;
    uint64_t state, amount;
    struct tally *tally;
    uint64_t broken; /* answers that are wrong */
    int quiet;
};

/* Prints the first wrong answers. */
static void complain(struct run *run, const char *why, int64_t x, int64_t w, uint64_t bits) {
    if (run->broken++ < 10 && !run->quiet)
        printf("  WRONG, %s: %" PRId64 " / %" PRId64 " is answered %016" PRIx64 "\n", why, x, w, bits);
}

/* One coordinate; `s` are its sides where it is right and x is not 0. What is wrong, or nothing. */
static const char *judge(const struct tally *tally, int64_t x, int64_t w, uint64_t bits, struct sides *s) {
    if (x == 0)
        return bits == 0 ? NULL : "not +0";
    if (!is_normal(bits))
        return "no normal number";
    if (!measure(x, w, bits, s) || !within(*s, PARTS))
        return "the bound is broken";
    return tally->exact && s->distance != 0 ? "an exact quotient is rounded" : NULL;
}

static void count_quotient(struct tally *tally, int64_t x, int64_t w, struct sides s) {
    tally->quotients++;
    if (x == 0) {
        tally->zeros[w < 0]++;
        return;
    }
    if (s.distance == 0)
        return;
    tally->rounded++;
    tally->half_broken += !within(s, 2 * PARTS);
    /* a tie is off by |w| / 2; this one differs from it by at most one part in 2^40 */
    wide from_tie = (wide)absolute(w) - 2 * (wide)s.distance;
    tally->near_tie += (size)(from_tie < 0 ? -from_tie : from_tie) << 40 <= absolute(w);
    if (!within(s, tally->parts)) {
        tally->parts = (uint64_t)(s.quotient / s.distance);
        tally->x = x, tally->w = w;
    }
}

/* All three coordinates of a point that is finite. They are counted where `counted` says so. */
static void check_answer(struct run *run, const int64_t *four, const struct answer *answer, int counted) {
    if (answer->refused != 0 || answer->outcome != GADWEMOSH_FINITE) {
        complain(run, "not a finite point", four[0], four[3], answer->outcome);
        return;
    }
    for (int c = 0; c < 3; c++) {
        struct sides s = {0, 0};
        const char *why = judge(run->tally, four[c], four[3], answer->bits[c], &s);
        if (why != NULL)
            complain(run, why, four[c], four[3], answer->bits[c]);
        else if (counted)
            count_quotient(run->tally, four[c], four[3], s);
    }
}

/* Three quotients over one weight, by all ways, which must say the same. */
static void check(struct run *run, const int64_t *four) {
    struct answer first = {0}, answer = {0};
    for (int i = 0; run->ways[i] != NULL; i++) {
        memset(&answer, 0xa5, sizeof answer);
        run->ways[i](four, &answer);
        if (i == 0)
            first = answer;
        else if (answer.outcome != first.outcome || memcmp(answer.bits, first.bits, sizeof first.bits) != 0)
            complain(run, "not as gadwemosh_project", four[0], four[3], answer.bits[0]);
        check_answer(run, four, &answer, i == 0);
    }
}

/* ---- numbers */

static uint64_t next(struct run *run) {
    uint64_t mixed = run->state += UINT64_C(0x9e3779b97f4a7c15);
    mixed = (mixed ^ mixed >> 30) * UINT64_C(0xbf58476d1ce4e5b9);
    mixed = (mixed ^ mixed >> 27) * UINT64_C(0x94d049bb133111eb);
    return mixed ^ mixed >> 31;
}

static int64_t below(struct run *run, uint64_t bound) {
    return (int64_t)(next(run) % bound);
}

static int64_t either_sign(struct run *run, int64_t number) {
    return next(run) >> 63 ? -number : number;
}

/* From 1 to 2^k; each count of binary digits comes as often as the others. */
static int64_t any_up_to(struct run *run, int k) {
    int own = (int)below(run, (uint64_t)k + 1);
    return own == k ? (int64_t)TWO_TO(k) : (int64_t)TWO_TO(own) + below(run, TWO_TO(own));
}

/* How often a number from 1 to 2^48 may be doubled. */
static int room_of(int64_t number) {
    return 49 - digits((uint64_t)number) - ((number & (number - 1)) != 0);
}

/* The number, of either sign, doubled as often as it may be or less. */
static int64_t scaled(struct run *run, int64_t number) {
    return either_sign(run, number << below(run, (uint64_t)room_of(number) + 1));
}

/* The ends of the range, and each power of two with its neighbours on both sides, of either sign. */
static int64_t edges[2 * 3 * 49];
static int edge_count;

static void make_edges(void) {
    for (int k = 0; k <= 48; k++)
        for (int64_t off = -1; off <= 1; off++) {
            int64_t number = (int64_t)TWO_TO(k) + off;
            int again = (k == 0 && off != 0) || (k == 1 && off == -1) || (k == 2 && off == -1);
            if (number > LIMIT || again)
                continue;
            edges[edge_count++] = number;
            edges[edge_count++] = -number;
        }
}

/* ---- the classes */

static void random_quotients(struct run *run) {
    for (uint64_t i = 0; i < 15 * run->amount; i++) {
        int64_t four[4];
        for (int c = 0; c < 4; c++)
            four[c] = either_sign(run, any_up_to(run, 48));
        check(run, four);
    }
}

/* Every edge over every edge, and at each of the three places. */
static void edge_quotients(struct run *run) {
    for (int w = 0; w < edge_count; w++)
        for (int i = 0; i < edge_count; i++) {
            const int64_t *y = &edges[(i + 1) % edge_count], *z = &edges[(i + 8) % edge_count];
            check(run, (const int64_t[]){edges[i], *y, *z, edges[w]});
        }
}

/* The quotient p / q times powers of two, which move no tie. */
static void check_scaled(struct run *run, int64_t p, int64_t q) {
    check(run, (const int64_t[]){scaled(run, p), scaled(run, p), scaled(run, p), scaled(run, q)});
}

/* The convergents of m / 2^53 in range, and of a denominator so large that they come near it. With m odd and
 * between 2^53 and 2^54 that fraction is a tie: it lies in the middle of two floats. `around` also takes
 * quotients beside a convergent. */
static void convergents(struct run *run, uint64_t m, int around) {
    size p = 1, q = 0, last_p = 0, last_q = 1;
    for (uint64_t a = m, b = PARTS; b != 0;) {
        uint64_t whole_part = a / b, rest = a % b;
        size new_p = whole_part * p + last_p, new_q = whole_part * q + last_q;
        if (new_p + (size)around > (size)LIMIT || new_q + (size)around > (size)LIMIT)
            return;
        last_p = p, last_q = q, p = new_p, q = new_q;
        a = b, b = rest;
        if (q < TWO_TO(24))
            continue;
        for (int64_t off = -around; off <= around; off++)
            check_scaled(run, (int64_t)p + off, (int64_t)q + off);
    }
}

static void tie_quotients(struct run *run) {
    for (uint64_t i = 0; i < run->amount; i++)
        convergents(run, PARTS + 1 + 2 * (uint64_t)below(run, TWO_TO(52)), 0);
}

/* Of ties just above 1, and so of those just above any power of two, the bound has least to spare. */
static void low_tie_quotients(struct run *run) {
    for (uint64_t m = 1; m < 4096; m += 2)
        convergents(run, PARTS + m, 2);
    for (uint64_t i = 0; i < run->amount; i++)
        convergents(run, PARTS + (uint64_t)(any_up_to(run, 42) | 1), 2);
}

/* c / 2^a, both times g: whole numbers, powers of two, and whole numbers over them. */
static void exact_quotients(struct run *run) {
    for (uint64_t i = 0; i < 2 * run->amount; i++) {
        int64_t g = any_up_to(run, 48);
        int room = room_of(g);
        int64_t four[4] = {0, 0, 0, scaled(run, g)};
        for (int c = 0; c < 3; c++)
            four[c] = i % 3 == 0 ? scaled(run, g) : either_sign(run, any_up_to(run, room) * g);
        check(run, four);
    }
}

/* One, two or three numerators 0, over every edge and over others. */
static void zero_quotients(struct run *run) {
    for (uint64_t i = 0; i < run->amount; i++) {
        int64_t four[4] = {0, 0, 0, edges[i % (uint64_t)edge_count]};
        for (int c = 0; c < 3; c++)
            if (i % 7 >> c & 1)
                four[c] = either_sign(run, any_up_to(run, 48));
        check(run, four);
        four[3] = either_sign(run, any_up_to(run, 48));
        check(run, four);
    }
}

enum { RANDOM, EDGES, TIES, LOW_TIES, EXACT, ZEROS, CLASSES };

static const struct {
    const char *name;
    void (*make)(struct run *run);
    int exact;
} classes[CLASSES] = {
    [RANDOM] = {"random", random_quotients, 0},
    [EDGES] = {"edges of the range, powers of two and beside them", edge_quotients, 0},
    [TIES] = {"nearest to a tie", tie_quotients, 0},
    [LOW_TIES] = {"nearest to a tie just above a power of two", low_tie_quotients, 0},
    [EXACT] = {"exact", exact_quotients, 1},
    [ZEROS] = {"0 and others", zero_quotients, 0},
};

/* ---- points of nets */

enum { CURVE_POINTS = 81, PATCH_POINTS = 60, RECORD_ROOM = 8192 };

static const char *const kinds[4] = {"", "curves", "triangular patches", "rectangular patches"};

struct points {
    uint64_t nets[4], finite[4], at_zero;
    struct tally tally[4], zero_tally;
};

/* The bytes of a file of hex digits and white space. */
static size_t read_hex(const char *path, uint8_t *record) {
    FILE *file = fopen(path, "r");
    size_t length = 0;
    unsigned byte;
    if (file == NULL) {
        perror(path);
        exit(2);
    }
    while (length < RECORD_ROOM && fscanf(file, " %2x", &byte) == 1)
        record[length++] = (uint8_t)byte;
    if (!feof(file) || length == RECORD_ROOM) {
        fprintf(stderr, "%s: not hex, or too long\n", path);
        exit(2);
    }
    fclose(file);
    return length;
}

/* The weights of a curve's points are all those from -4 to 4, in which its common zeros are; those of a patch
 * are small, every fourth point's of any size. */
static void make_weights(struct run *run, int64_t kind, int number, int64_t *weights) {
    memset(weights, 0, 4 * sizeof *weights);
    if (kind == GADWEMOSH_CURVE) {
        weights[0] = number / 9 - 4, weights[1] = number % 9 - 4;
        return;
    }
    for (int v = 0; v < (kind == GADWEMOSH_PATCH ? 3 : 4); v++)
        weights[v] = number % 4 == 0 ? either_sign(run, any_up_to(run, 12)) : below(run, 11) - 5;
}

/* A point that was found, if it is finite. */
static void check_point(struct run *run, struct points *points, int64_t kind, const int64_t *found) {
    const int64_t zeros[4] = {0};
    int at_zero = memcmp(found, zeros, sizeof zeros) == 0;
    struct answer answer;
    if (found[7] == 0)
        return;
    memset(&answer, 0xa5, sizeof answer);
    run->of_point(kind, found, &answer);
    points->finite[kind]++;
    points->at_zero += (uint64_t)at_zero;
    run->tally = at_zero ? &points->zero_tally : &points->tally[kind];
    check_answer(run, found + 4, &answer, 0);
    check(run, found + 4);
}

static void check_net(struct run *run, struct points *points, const int64_t *net) {
    int64_t weights[4], found[GADWEMOSH_FOUND];
    points->nets[net[0]]++;
    for (int i = 0; i < (net[0] == GADWEMOSH_CURVE ? CURVE_POINTS : PATCH_POINTS); i++) {
        make_weights(run, net[0], i, weights);
        uint8_t refused = gadwemosh_point(net, GADWEMOSH_NET, weights[0], weights[1], weights[2], weights[3],
                                          found, GADWEMOSH_FOUND);
        if (refused == 0)
            check_point(run, points, net[0], found);
    }
}

static void check_records(struct run *run, struct points *points, char **paths) {
    for (; *paths != NULL; paths++) {
        uint8_t record[RECORD_ROOM];
        int64_t net[GADWEMOSH_NET];
        uint64_t offset;
        if (gadwemosh_open(record, read_hex(*paths, record), net, GADWEMOSH_NET, &offset) == 0)
            check_net(run, points, net);
    }
}

/* ---- the library */

static void by_project(const int64_t *four, struct answer *a) {
    int64_t direction[4];
    a->refused = gadwemosh_project(four[0], four[1], four[2], four[3], &a->outcome, a->bits, 3, direction, 4);
}

static void of_found(int64_t kind, const int64_t *found, struct answer *a) {
    int64_t direction[4];
    (void)kind;
    a->refused = gadwemosh_project_found(found, GADWEMOSH_FOUND, &a->outcome, a->bits, 3, direction, 4);
}

static void by_found(const int64_t *four, struct answer *a) {
    of_found(0, (const int64_t[]){four[0], four[1], four[2], four[3], four[0], four[1], four[2], four[3]}, a);
}

static void by_found_at_zero(const int64_t *four, struct answer *a) {
    of_found(0, (const int64_t[]){0, 0, 0, 0, four[0], four[1], four[2], four[3]}, a);
}

static way *const library[] = {by_project, by_found, by_found_at_zero, NULL};

/* ---- a run over the library */

static void begin_tally(struct tally *tally, const char *name, int exact) {
    *tally = (struct tally){.name = name, .exact = exact, .parts = 2 * PARTS};
}

static void begin_points(struct points *points) {
    memset(points, 0, sizeof *points);
    for (int kind = 1; kind < 4; kind++)
        begin_tally(&points->tally[kind], kinds[kind], 0);
    begin_tally(&points->zero_tally, "common zeros of curves", 0);
}

static void print_tally(const struct tally *t) {
    printf("%s: %" PRIu64 " quotients, %" PRIu64 " rounded", t->name, t->quotients, t->rounded);
    if (t->zeros[0] + t->zeros[1] > 0)
        printf(", 0 over w > 0 %" PRIu64 ", over w < 0 %" PRIu64, t->zeros[0], t->zeros[1]);
    if (t->near_tie > 0)
        printf(", %" PRIu64 " within a part in 2^40 of a tie", t->near_tie);
    if (t->half_broken > 0)
        printf(", %" PRIu64 " beyond half the bound, the worst %" PRId64 " / %" PRId64 " in 2^53 + %" PRIu64
               " parts", t->half_broken, t->x, t->w, t->parts - PARTS);
    printf("\n");
}

static int failures;

static void demand(int ok, const char *what, const char *of) {
    if (ok)
        return;
    printf("FAILED, %s: %s\n", of, what);
    failures++;
}

/* What a class must have had. */
static void demand_class(const struct tally *t) {
    demand(t->quotients != 0, "no quotient", t->name);
    demand(t->exact == (t->rounded == 0), t->exact ? "one was rounded" : "none was rounded", t->name);
    demand(t->exact || t->half_broken != 0, "half the bound was never broken", t->name);
}

static void run_classes(struct run *run, struct tally *tallies) {
    for (int i = 0; i < CLASSES; i++) {
        begin_tally(&tallies[i], classes[i].name, classes[i].exact);
        run->tally = &tallies[i];
        classes[i].make(run);
    }
}

/* Tells of the classes, with what must have occurred. Returned are the parts of the worst quotient. */
static uint64_t tell_classes(const struct tally *tallies) {
    uint64_t quotients = 0, half_broken = 0, parts = 2 * PARTS;
    for (int i = 0; i < CLASSES; i++) {
        print_tally(&tallies[i]);
        demand_class(&tallies[i]);
        quotients += tallies[i].quotients, half_broken += tallies[i].half_broken;
        parts = tallies[i].parts < parts ? tallies[i].parts : parts;
    }
    printf("in all classes %" PRIu64 " quotients, each by three calls; %" PRIu64
           " beyond half the bound; the worst in 2^53 + %" PRIu64 " parts\n",
           quotients, half_broken, parts - PARTS);
    return parts;
}

static void tell_points(const struct points *points) {
    printf("points of nets, %" PRIu64 " finite ones at common zeros among them:\n", points->at_zero);
    for (int kind = 1; kind < 4; kind++) {
        printf("%" PRIu64 " nets, %" PRIu64 " finite points; ", points->nets[kind], points->finite[kind]);
        print_tally(&points->tally[kind]);
        demand(points->nets[kind] != 0, "no net", kinds[kind]);
        demand(points->finite[kind] != 0, "no finite point", kinds[kind]);
        demand_class(&points->tally[kind]);
    }
    print_tally(&points->zero_tally);
    demand(points->at_zero != 0, "no finite point", points->zero_tally.name);
    demand_class(&points->zero_tally);
}

static int test_library(uint64_t seed, char **paths) {
    struct run run = {library, of_found, seed, 200000, NULL, 0, 0};
    struct tally tallies[CLASSES];
    struct points points;
    begin_points(&points);
    run_classes(&run, tallies);
    uint64_t parts = tell_classes(tallies);
    demand(tallies[TIES].near_tie != 0, "none near a tie", tallies[TIES].name);
    demand(tallies[LOW_TIES].near_tie != 0, "none near a tie", tallies[LOW_TIES].name);
    demand(tallies[ZEROS].zeros[0] != 0, "no 0 over a positive weight", tallies[ZEROS].name);
    demand(tallies[ZEROS].zeros[1] != 0, "no 0 over a negative weight", tallies[ZEROS].name);
    check_records(&run, &points, paths);
    tell_points(&points);
    printf("wrong answers %" PRIu64 "\n", run.broken);
    demand(run.broken == 0, "wrong answers", "the library");
    demand(parts - PARTS <= NEAR_ENOUGH, "no quotient within a part in 2^40 of the bound", "all classes");
    return failures != 0;
}

/* ---- wrong divisions */

static uint64_t bits_of(double number) {
    uint64_t bits;
    memcpy(&bits, &number, sizeof bits);
    return bits;
}

/* The right quotient, whose numerator is not 0. */
static uint64_t nearest(int64_t x, int64_t w) {
    return bits_of((double)x / (double)w);
}

/* Whether the nearest one is below the quotient in absolute value (-1), equal (0) or above (1). */
static int side(int64_t x, int64_t w) {
    uint64_t bits = nearest(x, w);
    wide own = (wide)absolute(whole(bits)) * (wide)absolute(w), exact = (wide)absolute(x) << minus_e(bits);
    return (own > exact) - (own < exact);
}

/* The bits of the next number toward 0 or away from it are the next bits. */
static uint64_t toward_zero(int64_t x, int64_t w) {
    return nearest(x, w) - (side(x, w) > 0);
}
static uint64_t away_from_zero(int64_t x, int64_t w) {
    return nearest(x, w) + (side(x, w) < 0);
}
static uint64_t upward(int64_t x, int64_t w) {
    return (x < 0) == (w < 0) ? away_from_zero(x, w) : toward_zero(x, w);
}
static uint64_t downward(int64_t x, int64_t w) {
    return (x < 0) == (w < 0) ? toward_zero(x, w) : away_from_zero(x, w);
}
static uint64_t next_up(int64_t x, int64_t w) {
    return nearest(x, w) + 1;
}
static uint64_t next_down(int64_t x, int64_t w) {
    return nearest(x, w) - 1;
}
/* below a power of two floats are twice as dense: this one keeps to the bound, and is off by all of it */
static uint64_t below_powers_of_two(int64_t x, int64_t w) {
    uint64_t bits = nearest(x, w);
    return side(x, w) == 0 && bits << 12 == 0 ? bits - 1 : bits;
}
static uint64_t by_reciprocal(int64_t x, int64_t w) {
    return bits_of((double)x * (1 / (double)w));
}
static uint64_t in_32_bits(int64_t x, int64_t w) {
    return bits_of((double)((float)x / (float)w));
}
static uint64_t numbers_in_32_bits(int64_t x, int64_t w) {
    return bits_of((double)(float)x / (double)(float)w);
}
/* rounded to 64 digits first: a quotient near a tie becomes one, and may then go the other way */
static uint64_t rounded_twice(int64_t x, int64_t w) {
    return bits_of((double)((long double)x / (long double)w));
}
static uint64_t in_52_digits(int64_t x, int64_t w) {
    return (nearest(x, w) + 1) & ~UINT64_C(1);
}
static uint64_t doubled(int64_t x, int64_t w) {
    return nearest(x, w) + TWO_TO(52);
}
static uint64_t inverted(int64_t x, int64_t w) {
    return nearest(w, x);
}
static uint64_t without_sign(int64_t x, int64_t w) {
    return nearest(x, w) & ~TWO_TO(63);
}
static uint64_t sign_of_numerator(int64_t x, int64_t w) {
    return nearest(x, (int64_t)absolute(w));
}
static uint64_t whole_part(int64_t x, int64_t w) {
    return bits_of((double)(x / w));
}
static uint64_t infinite_at_the_largest(int64_t x, int64_t w) {
    return absolute(x) == LIMIT && absolute(w) == 1 ? bits_of(__builtin_inf()) : nearest(x, w);
}
static uint64_t no_number_at_the_end(int64_t x, int64_t w) {
    return x == -LIMIT && w == LIMIT ? bits_of(__builtin_nan("")) : nearest(x, w);
}
static uint64_t zero_at_the_smallest(int64_t x, int64_t w) {
    return absolute(x) == 1 && absolute(w) == LIMIT ? 0 : nearest(x, w);
}
static uint64_t subnormal_at_the_smallest(int64_t x, int64_t w) {
    return absolute(x) == 1 && absolute(w) == LIMIT ? 1 : nearest(x, w);
}

/* What is answered to a numerator 0. */
static uint64_t zero(int64_t w) {
    (void)w;
    return 0;
}
static uint64_t negative_zero(int64_t w) {
    return w < 0 ? TWO_TO(63) : 0;
}
static uint64_t smallest_subnormal(int64_t w) {
    (void)w;
    return 1;
}
static uint64_t smallest_normal(int64_t w) {
    (void)w;
    return TWO_TO(52);
}

static const struct wrong {
    const char *name;
    uint64_t (*divide)(int64_t x, int64_t w);
    uint64_t (*of_zero)(int64_t w);
    int places; /* the coordinates that are wrong, as a sum of 1, 2 and 4 */
    int turn;   /* by how many places the numerators are exchanged */
} wrongs[] = {
    {"the next float away from 0", next_up, zero, 7, 0},
    {"the next float toward 0", next_down, zero, 7, 0},
    {"the next float away from 0, x alone", next_up, zero, 1, 0},
    {"the next float away from 0, y alone", next_up, zero, 2, 0},
    {"the next float away from 0, z alone", next_up, zero, 4, 0},
    {"truncated toward 0", toward_zero, zero, 7, 0},
    {"rounded away from 0", away_from_zero, zero, 7, 0},
    {"rounded upward", upward, zero, 7, 0},
    {"rounded downward", downward, zero, 7, 0},
    {"the next float toward 0 for a power of two", below_powers_of_two, zero, 7, 0},
    {"times the reciprocal", by_reciprocal, zero, 7, 0},
    {"divided in 32 bits", in_32_bits, zero, 7, 0},
    {"numbers taken to 32 bits, divided in 64", numbers_in_32_bits, zero, 7, 0},
    {"rounded twice, to 64 digits and then to 53", rounded_twice, zero, 7, 0},
    {"rounded to 52 digits", in_52_digits, zero, 7, 0},
    {"twice the quotient", doubled, zero, 7, 0},
    {"w / x", inverted, zero, 7, 0},
    {"without its sign", without_sign, zero, 7, 0},
    {"with the sign of the numerator", sign_of_numerator, zero, 7, 0},
    {"the whole part", whole_part, zero, 7, 0},
    {"the next coordinate's numerator", nearest, zero, 7, 1},
    {"the last coordinate's numerator", nearest, zero, 7, 2},
    {"infinite for 2^48 / 1", infinite_at_the_largest, zero, 7, 0},
    {"no number for -2^48 / 2^48", no_number_at_the_end, zero, 7, 0},
    {"0 for 1 / 2^48", zero_at_the_smallest, zero, 7, 0},
    {"subnormal for 1 / 2^48", subnormal_at_the_smallest, zero, 7, 0},
    {"-0 over a negative weight", nearest, negative_zero, 7, 0},
    {"the smallest subnormal for 0", nearest, smallest_subnormal, 7, 0},
    {"the smallest normal number for 0", nearest, smallest_normal, 7, 0},
};

enum { WRONGS = sizeof wrongs / sizeof *wrongs };

static const struct wrong *wrong;

static void by_wrong(const int64_t *four, struct answer *a) {
    a->refused = 0, a->outcome = GADWEMOSH_FINITE;
    for (int c = 0; c < 3; c++) {
        int64_t x = four[(c + wrong->turn) % 3], w = four[3];
        int spoiled = wrong->places >> c & 1;
        if (x == 0)
            a->bits[c] = spoiled ? wrong->of_zero(w) : 0;
        else
            a->bits[c] = spoiled ? wrong->divide(x, w) : nearest(x, w);
    }
}

static way *const by_wrong_alone[] = {by_wrong, NULL};

/* Right but in one of the functions: gadwemosh_project_found at a common zero rounds away from 0. */
static void by_found_wrong_at_zero(const int64_t *four, struct answer *a) {
    by_found_at_zero(four, a);
    a->bits[2] = four[2] == 0 ? 0 : away_from_zero(four[2], four[3]);
}

static way *const wrong_at_zero[] = {by_project, by_found, by_found_wrong_at_zero, NULL};

/* Points that are right but on one kind of net, or at common zeros; and those of the point's own numbers. */
static int64_t wrong_kind;

static void of_wrong_kind(int64_t kind, const int64_t *found, struct answer *a) {
    of_found(kind, found, a);
    if (kind == wrong_kind)
        a->bits[0] = found[4] == 0 ? 0 : away_from_zero(found[4], found[7]);
}

static void of_found_wrong_at_zero(int64_t kind, const int64_t *found, struct answer *a) {
    const int64_t zeros[4] = {0};
    of_found(kind, found, a);
    if (memcmp(found, zeros, sizeof zeros) == 0)
        a->bits[1] = found[5] == 0 ? 0 : away_from_zero(found[5], found[7]);
}

static void of_own_numbers(int64_t kind, const int64_t *found, struct answer *a) {
    (void)kind;
    by_project(found, a);
}

/* Says whether a wrong variant was found: how many answers were called wrong. */
static int told(const char *name, const struct run *run) {
    printf("%s %s: %" PRIu64 " answers\n", run->broken == 0 ? "NOT FOUND" : "found", name, run->broken);
    return run->broken != 0;
}

static int find_division(uint64_t seed, const char *name, way *const *ways) {
    struct run run = {ways, of_found, seed, 3000, NULL, 0, 1};
    struct tally tallies[CLASSES];
    run_classes(&run, tallies);
    return told(name, &run);
}

static int find_point(uint64_t seed, const char *name, point_way *of_point, char **paths) {
    struct run run = {library, of_point, seed, 0, NULL, 0, 1};
    struct points points;
    begin_points(&points);
    check_records(&run, &points, paths);
    return told(name, &run);
}

static int test_wrong(uint64_t seed, char **paths) {
    int found = 0, all = WRONGS + 1 + 3 + 2;
    for (int i = 0; i < WRONGS; i++) {
        wrong = &wrongs[i];
        found += find_division(seed, wrong->name, by_wrong_alone);
    }
    found += find_division(seed, "rounded away from 0 after four zeros, z alone", wrong_at_zero);
    for (wrong_kind = 1; wrong_kind < 4; wrong_kind++) {
        printf("%s: ", kinds[wrong_kind]);
        found += find_point(seed, "points rounded away from 0, x alone", of_wrong_kind, paths);
    }
    found += find_point(seed, "common zeros rounded away from 0, y alone", of_found_wrong_at_zero, paths);
    found += find_point(seed, "the point's own four numbers divided", of_own_numbers, paths);
    printf("%d of %d wrong divisions found\n", found, all);
    return found != all;
}

/* ---- the judge itself, by quotients with known answers */

static const struct {
    int64_t x, w;
    uint64_t bits;
    int holds;
} known[] = {
    /* 1 / 3: the nearest is off by half the bound, the next one above by the bound exactly */
    {1, 3, UINT64_C(0x3fd5555555555554), 0},
    {1, 3, UINT64_C(0x3fd5555555555555), 1},
    {1, 3, UINT64_C(0x3fd5555555555556), 1},
    {1, 3, UINT64_C(0x3fd5555555555557), 0},
    {-1, 3, UINT64_C(0xbfd5555555555555), 1},
    {-1, 3, UINT64_C(0x3fd5555555555555), 0},
    {1, -3, UINT64_C(0xbfd5555555555557), 0},
    /* 6 / 10 and 8 / 10, the circle's point */
    {6, 10, UINT64_C(0x3fe3333333333333), 1},
    {6, 10, UINT64_C(0x3fe3333333333334), 0},
    {6, 10, UINT64_C(0x3fe3333333333332), 0},
    {8, 10, UINT64_C(0x3fe999999999999a), 1},
    {8, 10, UINT64_C(0x3fe999999999999b), 0},
    {8, 10, UINT64_C(0x3fe9999999999998), 0},
    /* nearest to a tie: the one above is off by the bound exactly */
    {INT64_C(28059810762434), INT64_C(28059810762433), UINT64_C(0x3ff000000000009f), 0},
    {INT64_C(28059810762434), INT64_C(28059810762433), UINT64_C(0x3ff00000000000a0), 1},
    {INT64_C(28059810762434), INT64_C(28059810762433), UINT64_C(0x3ff00000000000a1), 1},
    {INT64_C(28059810762434), INT64_C(28059810762433), UINT64_C(0x3ff00000000000a2), 0},
    /* nearer to the bound than that: 2^53 + 97 parts */
    {INT64_C(277144592453571), INT64_C(277144592453569), UINT64_C(0x3ff000000000001f), 0},
    {INT64_C(277144592453571), INT64_C(277144592453569), UINT64_C(0x3ff0000000000020), 1},
    {INT64_C(277144592453571), INT64_C(277144592453569), UINT64_C(0x3ff0000000000021), 1},
    {INT64_C(277144592453571), INT64_C(277144592453569), UINT64_C(0x3ff0000000000022), 0},
    /* the ends, with their neighbours */
    {INT64_C(281474976710656), 1, UINT64_C(0x42f0000000000000), 1},
    {INT64_C(281474976710656), 1, UINT64_C(0x42f0000000000001), 0},
    {INT64_C(281474976710656), 1, UINT64_C(0x42efffffffffffff), 1},
    {INT64_C(281474976710656), 1, UINT64_C(0x42effffffffffffe), 0},
    {1, INT64_C(-281474976710656), UINT64_C(0xbcf0000000000000), 1},
    {1, INT64_C(-281474976710656), UINT64_C(0xbcf0000000000001), 0},
    /* far away, and no numbers */
    {1, 3, UINT64_C(0), 0},
    {1, 3, UINT64_C(1), 0},
    {1, 3, UINT64_C(0x000fffffffffffff), 0},
    {1, 3, UINT64_C(0x0010000000000000), 0},
    {1, 3, UINT64_C(0x7fefffffffffffff), 0},
    {1, 3, UINT64_C(0x7ff0000000000000), 0},
    {1, 3, UINT64_C(0x7ff8000000000000), 0},
    {INT64_C(-281474976710656), INT64_C(281474976710656), UINT64_C(0xbff0000000000000), 1},
    {INT64_C(-281474976710656), INT64_C(281474976710656), UINT64_C(0xb000000000000000), 0},
    {0, 5, UINT64_C(0), 1},
    {0, -5, UINT64_C(0), 1},
    {0, -5, UINT64_C(0x8000000000000000), 0},
    {0, 5, UINT64_C(1), 0},
    {0, 5, UINT64_C(0x3ff0000000000000), 0},
};

static void test_judge(void) {
    struct tally tally;
    struct sides s;
    begin_tally(&tally, "", 0);
    for (size_t i = 0; i < sizeof known / sizeof *known; i++) {
        int holds = judge(&tally, known[i].x, known[i].w, known[i].bits, &s) == NULL;
        if (holds == known[i].holds)
            continue;
        printf("%" PRId64 " / %" PRId64 ", %016" PRIx64 "\n", known[i].x, known[i].w, known[i].bits);
        demand(0, holds ? "the bound should be broken" : "the bound should hold", "the judge");
    }
    measure(INT64_C(28059810762434), INT64_C(28059810762433), UINT64_C(0x3ff00000000000a0), &s);
    demand(within(s, PARTS + 642) && !within(s, PARTS + 643), "not 2^53 + 642 parts", "the judge");
    measure(INT64_C(277144592453571), INT64_C(277144592453569), UINT64_C(0x3ff0000000000020), &s);
    demand(within(s, PARTS + 97) && !within(s, PARTS + 98), "not 2^53 + 97 parts", "the judge");
    measure(1, 3, UINT64_C(0x3fd5555555555555), &s);
    demand(within(s, 2 * PARTS) && !within(s, 2 * PARTS + 1), "1 / 3 not in 2^54 parts", "the judge");
}

int main(int count, char **words) {
    int spoil = count > 1 && strcmp(words[1], "--wrong") == 0;
    char **rest = words + 1 + spoil;
    if (*rest == NULL || rest[1] == NULL) {
        fprintf(stderr, "accuracy [--wrong] SEED RECORD...\n");
        return 2;
    }
    uint64_t seed = strtoull(*rest, NULL, 10);
    make_edges();
    test_judge();
    if (failures != 0)
        return 1;
    return spoil ? test_wrong(seed, rest + 1) : test_library(seed, rest + 1);
}
