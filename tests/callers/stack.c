/* Measures how much stack each function takes, and fails where one takes more than GADWEMOSH_STACK.
 *
 * Each call is made on a stack of its own, every byte of which was set to one value before. The lowest
 * byte that has another value afterwards says how deep the call went. What is counted begins at the frame
 * of the function that makes the call, so it has the call's arguments in it. The inputs are the largest: a
 * curve of degree 10, whose point is a common zero, a triangular patch of degree 8 and a rectangular one
 * of degrees 5 and 5, each with 32 moves and a point. Each call is made twice and the second time is
 * counted: at its first call of memcpy or memset a program may have them looked up by the dynamic linker,
 * which takes stack too. */
#define _XOPEN_SOURCE 700
#include "gadwemosh.h"

#include <stdio.h>
#include <string.h>
#include <ucontext.h>

enum { SIZE = 1 << 18, PAINT = 0xa5 };

static uint8_t stack[SIZE];
static uint8_t *begin;
static ucontext_t here, there;

/* A kind with its largest degrees: how many monomials and vertices it has, a frame, and the weights that replace
 * the last vertex by itself. */
struct shape {
    const char *name;
    uint8_t kind, degree, second;
    int monomials, vertices;
    int64_t frame[GADWEMOSH_FRAME];
    int64_t last[3];
};

static const struct shape shapes[] = {
    {"curve, common zero", GADWEMOSH_CURVE, 10, 0, GADWEMOSH_CURVE_ENTRIES(10), 2, {0, 1, 1, 1}, {0, 1, 0}},
    {"triangular", GADWEMOSH_PATCH, 8, 0, GADWEMOSH_PATCH_ENTRIES(8), 3, {1, 0, 1, 0, 1, 1, 0, 0, 1}, {0, 0, 1}},
    {"rectangular", GADWEMOSH_RECT, 5, 5, GADWEMOSH_RECT_ENTRIES(5, 5), 4, {0, 1, 1, 1, 1, 1, -1, 2}, {0, 1, 0}},
};

static const struct shape *shape;
static uint8_t record[GADWEMOSH_LONGEST_RECORD];
static size_t record_length;
static int64_t net[GADWEMOSH_NET], coefficients[GADWEMOSH_COEFFICIENTS], found[GADWEMOSH_FOUND], direction[4];
static uint64_t bits[3], offset, start, length;
static uint8_t out[GADWEMOSH_LONGEST_TEXT], outcome, answer;

/* Puts a number of one, two or four bytes behind the record. */
static void put(int bytes, int64_t number) {
    while (bytes-- > 0)
        record[record_length++] = (uint8_t)(number >> (8 * bytes));
}

/* A move that replaces a vertex by itself: its weight stands in the place of its own pair, or of the three. */
static void put_move(int vertex) {
    int place = shape->kind == GADWEMOSH_RECT ? vertex % 2 : vertex;
    put(1, GADWEMOSH_REPLACE), put(1, vertex + 1);
    for (int v = 0; v < 3; v++)
        put(2, v == place ? 1 : 0);
}

/* Some coefficients; those of a curve are others times 2 T - Z, which vanishes at r + s = (1, 2). */
static void make_coefficients(void) {
    int64_t old[GADWEMOSH_COEFFICIENTS] = {0};
    for (int i = 0; i < GADWEMOSH_COEFFICIENTS; i++)
        coefficients[i] = i % 7 - 3;
    if (shape->kind != GADWEMOSH_CURVE)
        return;
    memcpy(old, coefficients, 4 * shape->degree * sizeof *old);
    for (int i = 0; i < GADWEMOSH_COEFFICIENTS; i++)
        coefficients[i] = (i < 4 ? 0 : 2 * old[i - 4]) - old[i];
}

static void make_record(void) {
    record_length = 0;
    make_coefficients();
    put(1, GADWEMOSH_FIELD_KIND), put(2, shape->second == 0 ? 2 : 3);
    put(1, shape->kind), put(1, shape->degree);
    if (shape->second != 0)
        put(1, shape->second);
    put(1, GADWEMOSH_FIELD_FRAME), put(2, 2 * GADWEMOSH_FRAME_NUMBERS(shape->kind));
    for (int i = 0; i < GADWEMOSH_FRAME_NUMBERS(shape->kind); i++)
        put(2, shape->frame[i]);
    put(1, GADWEMOSH_FIELD_COEFFICIENTS), put(2, 16 * shape->monomials);
    for (int i = 0; i < 4 * shape->monomials; i++)
        put(4, coefficients[i]);
    put(1, GADWEMOSH_FIELD_MOVES), put(2, 256);
    for (int i = 0; i < 32; i++)
        put_move(i % shape->vertices);
    put(1, GADWEMOSH_FIELD_POINT), put(2, 2 * shape->vertices);
    for (int v = 0; v < shape->vertices; v++)
        put(2, 1);
}

static void call_open(void) {
    answer = gadwemosh_open(record, record_length, net, GADWEMOSH_NET, &offset);
}

static void call_field(void) {
    answer = gadwemosh_field(record, record_length, GADWEMOSH_FIELD_POINT, &start, &length);
}

static void call_first(void) {
    answer = gadwemosh_first(shape->kind, shape->degree, shape->second, shape->frame, GADWEMOSH_FRAME, coefficients,
                             GADWEMOSH_COEFFICIENTS, net, GADWEMOSH_NET);
}

static void call_move_first(void) {
    answer = gadwemosh_move(net, GADWEMOSH_NET, GADWEMOSH_REPLACE, 1, 1, 0, 0, 0);
}

static void call_move_last(void) {
    const int64_t *last = shape->last;
    uint8_t vertex = (uint8_t)shape->vertices;
    answer = gadwemosh_move(net, GADWEMOSH_NET, GADWEMOSH_REPLACE, vertex, last[0], last[1], last[2], 0);
}

static void call_point(void) {
    int64_t t = shape->vertices > 2, u = shape->vertices > 3;
    answer = gadwemosh_point(net, GADWEMOSH_NET, 1, 1, t, u, found, GADWEMOSH_FOUND);
}

static void call_project(void) {
    answer = gadwemosh_project(3, 4, 6, 0, &outcome, bits, 3, direction, 4);
}

/* A direction at a common zero. */
static void call_project_found(void) {
    const int64_t numbers[GADWEMOSH_FOUND] = {0, 0, 0, 0, 3, 4, 6, 0};
    answer = gadwemosh_project_found(numbers, GADWEMOSH_FOUND, &outcome, bits, 3, direction, 4);
}

static void call_text(void) {
    answer = gadwemosh_text(record, record_length, out, sizeof out, &length);
}

/* With fewer bytes than the longest text has, the text is made elsewhere first. */
static void call_text_made_elsewhere(void) {
    answer = gadwemosh_text(record, record_length, out, sizeof out - 1, &length);
}

static const struct {
    const char *name;
    void (*call)(void);
} calls[] = {
    {"open", call_open},
    {"field", call_field},
    {"first", call_first},
    {"move, first vertex", call_move_first},
    {"move, last vertex", call_move_last},
    {"point", call_point},
    {"project", call_project},
    {"project found", call_project_found},
    {"text", call_text},
    {"text, made elsewhere", call_text_made_elsewhere},
};

static void make_call(int which) {
    begin = __builtin_frame_address(0);
    calls[which].call();
}

static long stack_of(int which) {
    memset(stack, PAINT, SIZE);
    getcontext(&there);
    there.uc_stack.ss_sp = stack;
    there.uc_stack.ss_size = SIZE;
    there.uc_link = &here;
    makecontext(&there, (void (*)(void))make_call, 1, which);
    swapcontext(&here, &there);
    long low = 0;
    while (stack[low] == PAINT)
        low++;
    return (long)(begin - (stack + low));
}

/* The point that was found is a common zero with something left, or no common zero. */
static int point_meant(void) {
    const int64_t zeros[4] = {0};
    int at_zero = memcmp(found, zeros, sizeof zeros) == 0, left = memcmp(found + 4, zeros, sizeof zeros) != 0;
    return at_zero == (shape->kind == GADWEMOSH_CURVE) && left;
}

/* Measures all functions on one input, and says how many were refused or took too much. */
static int measure(void) {
    int wrong = 0;
    make_record();
    printf("%s\n", shape->name);
    for (int i = 0; i < (int)(sizeof calls / sizeof *calls); i++) {
        answer = 255;
        stack_of(i);
        long taken = stack_of(i);
        printf("  %-20s %6ld bytes of stack\n", calls[i].name, taken);
        if (answer != 0) {
            wrong++;
            printf("    refused %u: not the call that was meant\n", answer);
        }
        if (taken > GADWEMOSH_STACK) {
            wrong++;
            printf("    more than the %d that gadwemosh.h states\n", GADWEMOSH_STACK);
        }
    }
    if (!point_meant()) {
        wrong++;
        printf("  not the point that was meant\n");
    }
    return wrong;
}

int main(void) {
    int wrong = 0;
    for (size_t i = 0; i < sizeof shapes / sizeof *shapes; i++) {
        shape = &shapes[i];
        wrong += measure();
    }
    return wrong != 0;
}
