/* Times of two static libraries in one process: each row alternates the two and takes the best of many rounds.
 * The script `beside` gives the names of the one library the prefix before_, those of the other after_, and
 * links both. A row: call, kind, degree, second degree, nanoseconds of the one and of the other. */
#include <stdint.h>
#include <stdio.h>
#include <string.h>
#include <time.h>

#define LIBRARY(at)                                                                                          \
    uint8_t at##gadwemosh_open(const uint8_t *, size_t, int64_t *, size_t, uint64_t *);                      \
    uint8_t at##gadwemosh_first(uint8_t, uint8_t, uint8_t, const int64_t *, size_t, const int64_t *, size_t, \
                                int64_t *, size_t);                                                          \
    uint8_t at##gadwemosh_move(int64_t *, size_t, uint8_t, uint8_t, int64_t, int64_t, int64_t, int64_t);     \
    uint8_t at##gadwemosh_point(const int64_t *, size_t, int64_t, int64_t, int64_t, int64_t, int64_t *,      \
                                size_t);                                                                     \
    uint8_t at##gadwemosh_text(const uint8_t *, size_t, uint8_t *, size_t, uint64_t *);
LIBRARY(before_)
LIBRARY(after_)

enum { NET = 193, FOUND = 8, PLACES = 180, ROWS = 200, PASSES = 6, ROUNDS = 25, CALLS = 400 };

static uint8_t record[4096], text[8192];
static size_t length;
static int64_t frame[9], coefficients[PLACES];

static void field(uint8_t tag, const uint8_t *value, size_t bytes) {
    record[length++] = tag;
    record[length++] = bytes >> 8;
    record[length++] = bytes & 255;
    memcpy(record + length, value, bytes);
    length += bytes;
}

static void shorts(uint8_t tag, const int64_t *numbers, size_t count) {
    uint8_t bytes[32];
    for (size_t i = 0; i < count; i++) {
        bytes[2 * i] = (uint64_t)numbers[i] >> 8;
        bytes[2 * i + 1] = numbers[i];
    }
    field(tag, bytes, 2 * count);
}

/* A record with small coefficients over the usual frame, and a point, as those of records.rs. */
static void make_record(uint8_t kind, uint8_t degree, uint8_t second) {
    static const int64_t frames[3][9] = {{0, 1, 1, 1}, {1, 0, 1, 0, 1, 1, 0, 0, 1}, {0, 1, 1, 1, 0, 1, 1, 1}};
    static const size_t sizes[3] = {4, 9, 8};
    static const int64_t ones[4] = {1, 1, 1, 1};
    static uint8_t bytes[4 * PLACES];
    uint8_t head[3] = {kind, degree, second};
    size_t p = degree, q = second;
    size_t count = kind == 1 ? 4 * (p + 1) : kind == 2 ? 2 * (p + 1) * (p + 2) : 4 * (p + 1) * (q + 1);
    uint32_t seed = 12345;
    length = 0;
    field(1, head, kind == 3 ? 3 : 2);
    memcpy(frame, frames[kind - 1], sizeof frame);
    shorts(2, frame, sizes[kind - 1]);
    memset(coefficients, 0, sizeof coefficients);
    for (size_t i = 0; i < count; i++) {
        seed = seed * 1664525u + 1013904223u;
        coefficients[i] = (int32_t)(seed >> 16) % 1000 - 500;
        for (int k = 0; k < 4; k++)
            bytes[4 * i + k] = (uint64_t)coefficients[i] >> (24 - 8 * k);
    }
    field(3, bytes, 4 * count);
    shorts(5, ones, kind + 1);
}

static double now(void) {
    struct timespec t;
    clock_gettime(CLOCK_MONOTONIC, &t);
    return t.tv_sec * 1e9 + t.tv_nsec;
}

static struct {
    char name[32];
    double best[2];
} rows[ROWS];
static int row;

static void keep(double *best, double taken) {
    if (*best == 0 || taken < *best)
        *best = taken;
}

#define ROW(before, after, ...)                                     \
    do {                                                            \
        snprintf(rows[row].name, sizeof rows[row].name, __VA_ARGS__); \
        for (int round = 0; round < ROUNDS; round++) {              \
            double start = now();                                   \
            for (int k = 0; k < CALLS; k++)                         \
                before;                                             \
            keep(&rows[row].best[0], (now() - start) / CALLS);      \
            start = now();                                          \
            for (int k = 0; k < CALLS; k++)                         \
                after;                                              \
            keep(&rows[row].best[1], (now() - start) / CALLS);      \
        }                                                           \
        row++;                                                      \
    } while (0)

static void shape(uint8_t kind, uint8_t p, uint8_t q) {
    static int64_t a[NET], b[NET], found[FOUND];
    uint64_t told;
    make_record(kind, p, q);
    if (before_gadwemosh_open(record, length, a, NET, &told) || after_gadwemosh_open(record, length, b, NET, &told))
        return; /* a kind that one of them does not have */
    ROW(before_gadwemosh_open(record, length, a, NET, &told), after_gadwemosh_open(record, length, b, NET, &told),
        "open %d %d %d", kind, p, q);
    ROW(before_gadwemosh_first(kind, p, q, frame, 9, coefficients, PLACES, a, NET),
        after_gadwemosh_first(kind, p, q, frame, 9, coefficients, PLACES, b, NET), "first %d %d %d", kind, p, q);
    for (int v = 0; v <= kind; v++) {
        int64_t w[4] = {0};
        w[kind == 3 ? v % 2 : v] = 1;
        ROW(before_gadwemosh_move(a, NET, 1, v + 1, w[0], w[1], w[2], w[3]),
            after_gadwemosh_move(b, NET, 1, v + 1, w[0], w[1], w[2], w[3]), "replace-%d %d %d %d", v + 1, kind, p, q);
    }
    ROW(before_gadwemosh_move(a, NET, 2, 1, 0, 0, 0, 0), after_gadwemosh_move(b, NET, 2, 1, 0, 0, 0, 0),
        "flip %d %d %d", kind, p, q);
    int64_t t = kind > 1, u = kind > 2;
    ROW(before_gadwemosh_point(a, NET, 1, 1, t, u, found, FOUND),
        after_gadwemosh_point(b, NET, 1, 1, t, u, found, FOUND), "point %d %d %d", kind, p, q);
    ROW(before_gadwemosh_text(record, length, text, sizeof text, &told),
        after_gadwemosh_text(record, length, text, sizeof text, &told), "text %d %d %d", kind, p, q);
}

int main(void) {
    static const uint8_t shapes[][3] = {{1, 1, 0}, {1, 2, 0}, {1, 3, 0}, {1, 5, 0}, {1, 10, 0}, {2, 1, 0},
                                        {2, 2, 0}, {2, 3, 0}, {2, 8, 0}, {3, 1, 1}, {3, 3, 3},  {3, 5, 5}};
    for (int pass = 0; pass < PASSES; pass++) {
        row = 0;
        for (size_t k = 0; k < sizeof shapes / sizeof shapes[0]; k++)
            shape(shapes[k][0], shapes[k][1], shapes[k][2]);
    }
    for (int k = 0; k < row; k++)
        printf("%s %.2f %.2f\n", rows[k].name, rows[k].best[0], rows[k].best[1]);
    return 0;
}
