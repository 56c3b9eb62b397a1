/* Splits a curve: reads its record from standard input, opens it, and makes its two halves at the weights
 * (1, 1), by replacing s in one copy of the net and r in another; each half has a line with the frame that it
 * has reached and one with its largest component. Then takes the record's own moves and finds its own point.
 * rust/examples/circle.rs does the same in Rust. */
#include "gadwemosh.h"

#include <inttypes.h>
#include <stdio.h>
#include <string.h>

static void print_four(const int64_t *four) {
    printf("%" PRId64 " %" PRId64 " %" PRId64 " %" PRId64 "\n", four[0], four[1], four[2], four[3]);
}

static void print_net(const char *name, const int64_t *net) {
    printf("%s\nframe", name);
    for (int i = 0; i < GADWEMOSH_FRAME_NUMBERS(net[0]); i++)
        printf(" %" PRId64, net[GADWEMOSH_FRAME_PLACE + i]);
    printf("\n");
    for (int64_t j = 0; j <= net[1]; j++)
        print_four(net + GADWEMOSH_CURVE_PLACE(j));
    printf("largest %" PRId64 "\n", net[GADWEMOSH_LARGEST_PLACE]);
}

/* A copy of the net with one vertex replaced by the point at (1, 1). */
static int half(const int64_t *net, uint8_t vertex, int64_t *copy) {
    memcpy(copy, net, GADWEMOSH_NET * sizeof *net);
    uint8_t refused = gadwemosh_move(copy, GADWEMOSH_NET, GADWEMOSH_REPLACE, vertex, 1, 1, 0, 0);
    if (refused != 0)
        fprintf(stderr, "move refused: %u\n", refused);
    return refused == 0;
}

/* A weight in a record: two bytes, the high one first. */
static int64_t weight(const uint8_t *two) {
    int number = two[0] * 256 + two[1];
    return number < 32768 ? number : number - 65536;
}

/* The moves of an accepted record, in turn; one that is refused is passed over. */
static void take_own_moves(const uint8_t *record, size_t record_length, int64_t *net) {
    uint64_t start, length;
    gadwemosh_field(record, record_length, GADWEMOSH_FIELD_MOVES, &start, &length);
    for (uint64_t n = 0; n < length / 8; n++) {
        const uint8_t *own = record + start + 8 * n;
        uint8_t refused = gadwemosh_move(net, GADWEMOSH_NET, own[0], own[1], weight(own + 2), weight(own + 4),
                                         weight(own + 6), 0);
        if (refused != 0)
            printf("move %" PRIu64 ": refused %u\n", n + 1, refused);
    }
}

/* The point of an accepted record, on the net that its moves lead to. Its four numbers are printed, and
 * where it lies: at a common zero the four are zeros, and it lies where the curve goes on. */
static int print_own_point(const uint8_t *record, size_t record_length, const int64_t *net) {
    uint64_t start, length, bits[3];
    int64_t found[GADWEMOSH_FOUND], direction[4];
    double finite[3];
    uint8_t outcome, refused;
    gadwemosh_field(record, record_length, GADWEMOSH_FIELD_POINT, &start, &length);
    if (length == 0)
        return 1;
    refused = gadwemosh_point(net, GADWEMOSH_NET, weight(record + start), weight(record + start + 2), 0, 0, found,
                              GADWEMOSH_FOUND);
    if (refused == 0)
        refused = gadwemosh_project_found(found, GADWEMOSH_FOUND, &outcome, bits, 3, direction, 4);
    if (refused != 0) {
        fprintf(stderr, "point refused: %u\n", refused);
        return 0;
    }
    printf("the record's own point\n");
    print_four(found);
    memcpy(finite, bits, sizeof finite);
    if (outcome == GADWEMOSH_FINITE)
        printf("at %.15g %.15g %.15g\n", finite[0], finite[1], finite[2]);
    else if (outcome == GADWEMOSH_DIRECTION)
        printf("far %" PRId64 " %" PRId64 " %" PRId64 " %" PRId64 "\n", direction[0], direction[1], direction[2],
               direction[3]);
    else
        printf("nowhere\n");
    return 1;
}

int main(void) {
    uint8_t record[GADWEMOSH_LONGEST_RECORD + 1];
    size_t length = fread(record, 1, sizeof record, stdin);
    int64_t net[GADWEMOSH_NET] = {0}, first[GADWEMOSH_NET], second[GADWEMOSH_NET];
    uint64_t offset;
    uint8_t refused = gadwemosh_open(record, length, net, GADWEMOSH_NET, &offset);
    if (refused != 0) {
        fprintf(stderr, "refused %u at byte %" PRIu64 "\n", refused, offset);
        return 1;
    }
    if (net[0] != GADWEMOSH_CURVE) {
        fprintf(stderr, "not a curve\n");
        return 1;
    }
    if (!half(net, GADWEMOSH_S, first) || !half(net, GADWEMOSH_R, second))
        return 1;
    print_net("first half", first);
    print_net("second half", second);
    if (memcmp(first + GADWEMOSH_CURVE_PLACE(first[1]), second + GADWEMOSH_CURVE_PLACE(0), 4 * sizeof *first) != 0) {
        fprintf(stderr, "the halves do not meet\n");
        return 1;
    }
    printf("the shared end entry is equal\n");
    take_own_moves(record, length, net);
    return print_own_point(record, length, net) ? 0 : 1;
}
