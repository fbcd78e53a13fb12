/* Carries out one round on plate A and prints what it changes. */
#include "hjerringsel.h"

#include <stdio.h>
#include <string.h>

/* Plate A: 3 nodes, destination 0, step 64. */
static const uint8_t plate_a[] = {
    1, 3, 0, 0, 0, 0, 64,
    2, 0, 0, 0, 0, 5,
    2, 1, 0, 0, 0, 2,
    2, 2, 0, 0, 0, 5,
    3, 0, 1, 0, 0, 0, 0, 0,
    3, 0, 2, 0, 0, 0, 0, 0,
    3, 1, 0, 192, 0, 1, 0, 0,
    3, 1, 2, 0, 0, 0, 0, 0,
    3, 2, 0, 0, 0, 1, 0, 0,
    3, 2, 1, 0, 0, 0, 0, 0,
    9,
};

/* Where the first link stands: after the head and three nodes. */
enum { FIRST_LINK = 7 + 3 * 6, LINK_BYTES = 8 };

static unsigned long fraction_at(const uint8_t *link) {
    return (unsigned long)link[4] << 24 | (unsigned long)link[5] << 16 |
           (unsigned long)link[6] << 8 | (unsigned long)link[7];
}

static int print_refusal(uint64_t answer) {
    printf("refused %lu at %lu\n", (unsigned long)hjerringsel_number_of(answer),
           (unsigned long)hjerringsel_value_of(answer));
    return 1;
}

static void print_rows(const uint8_t *before, const uint8_t *after, uint32_t links) {
    uint32_t link;
    printf("from to before after\n");
    for (link = 0; link < links; link++) {
        const uint8_t *old = before + FIRST_LINK + LINK_BYTES * link;
        const uint8_t *new = after + FIRST_LINK + LINK_BYTES * link;
        printf("%d %d %lu %lu\n", old[1], old[2], fraction_at(old), fraction_at(new));
    }
}

static void print_order(const uint16_t *order, uint32_t links) {
    uint32_t place;
    printf("house order");
    for (place = 0; place < links; place++) {
        printf(" %d", order[place]);
    }
    printf("\n");
}

int main(void) {
    uint8_t next[HJERRINGSEL_LONGEST_SHEET];
    uint8_t played[HJERRINGSEL_LONGEST_SHEET];
    uint8_t frame[HJERRINGSEL_LONGEST_FRAME];
    uint16_t order[HJERRINGSEL_MOST_LINKS];
    uint32_t links;
    uint64_t answer;

    answer = hjerringsel_check(plate_a, sizeof plate_a);
    if (!hjerringsel_accepted(answer)) {
        return print_refusal(answer);
    }
    links = hjerringsel_value_of(answer);

    answer = hjerringsel_next(plate_a, sizeof plate_a, next, sizeof next);
    if (!hjerringsel_accepted(answer)) {
        return print_refusal(answer);
    }
    print_rows(plate_a, next, links);

    answer = hjerringsel_house(plate_a, sizeof plate_a, order, HJERRINGSEL_MOST_LINKS);
    if (!hjerringsel_accepted(answer)) {
        return print_refusal(answer);
    }
    print_order(order, links);

    /* The same round as messages. */
    answer = hjerringsel_play(plate_a, sizeof plate_a, order, links, played, sizeof played);
    if (!hjerringsel_accepted(answer) || memcmp(next, played, sizeof plate_a) != 0) {
        return print_refusal(answer);
    }

    /* Before any delivery only the destination knows its delay. */
    answer = hjerringsel_frame(plate_a, sizeof plate_a, order, 0, frame, sizeof frame);
    if (!hjerringsel_accepted(answer) || frame[0] != 1 || frame[6] != 0) {
        return print_refusal(answer);
    }

    /* A sheet that lacks its last byte is refused, with the place where it is missed. */
    answer = hjerringsel_check(plate_a, sizeof plate_a - 1);
    if (hjerringsel_number_of(answer) != HJERRINGSEL_CUT_SHORT) {
        return 1;
    }
    print_refusal(answer);
    return 0;
}
