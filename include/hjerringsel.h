/* Hjerringsel: one round of minimum-delay routing, by a proved library.
 *
 * Link with libhjerringsel.a. The calls keep no state, allocate nothing, and may be made from
 * any number of threads at once. The machine is x86-64.
 *
 * A sheet is a row of records (all numbers have the high byte first):
 *
 *     1 head   nodes (1 byte), destination (1), step (4)
 *     2 node   node (1), traffic (4)
 *     3 link   from (1), to (1), load step (1), fraction (4)
 *     9 end
 *
 * Links are numbered from 0 in the order of the sheet.
 *
 * What may not overlap: the output of a call may not share a byte with its sheet or its list.
 * Sheet and list are only read, so they may overlap each other. Pointers may not be null, not
 * even where the length is 0. Lists and the output of House order are uint16_t of the machine
 * and must be aligned as such.
 *
 * On a refusal every output buffer keeps its former content. On acceptance the bytes beyond
 * the answered length stay as they stood.
 */
#ifndef HJERRINGSEL_H
#define HJERRINGSEL_H

#include <stddef.h>
#include <stdint.h>

#ifdef __cplusplus
extern "C" {
#endif

/* Sizes. A buffer of the first is enough for Next and Play whatever the sheet, one of
 * HJERRINGSEL_MOST_LINKS numbers for House order, and one of HJERRINGSEL_LONGEST_FRAME bytes
 * for Frame. */
#define HJERRINGSEL_LONGEST_SHEET 4488 /* bytes */
#define HJERRINGSEL_MOST_LINKS 512
#define HJERRINGSEL_MOST_NODES 64
#define HJERRINGSEL_FRAME_BYTES 6 /* for each node: status, blocked, delay (4) */
#define HJERRINGSEL_LONGEST_FRAME (HJERRINGSEL_FRAME_BYTES * HJERRINGSEL_MOST_NODES)

/* Refusal numbers, and what the place is that comes with each. */
enum hjerringsel_number {
    HJERRINGSEL_ACCEPTED = 0,
    HJERRINGSEL_CUT_SHORT = 1,    /* no byte left where a record is due, or its body is cut
                                     short; offset of the record */
    HJERRINGSEL_KIND = 2,         /* a kind that may not stand there; offset of the record */
    HJERRINGSEL_FIELD = 3,        /* a field out of range, from = to, or a node record out of
                                     turn; offset of the record */
    HJERRINGSEL_LINK_ORDER = 4,   /* links not strictly rising, or a 513th; offset of the
                                     record */
    HJERRINGSEL_AFTER_END = 5,    /* bytes after the end record; offset of the first of them */
    HJERRINGSEL_NO_OPPOSITE = 6,  /* a link without its opposite; first such link */
    HJERRINGSEL_ROW_SUM = 7,      /* a row with a wrong sum; lowest such node */
    HJERRINGSEL_LOOP = 8,         /* a loop; lowest node on one */
    HJERRINGSEL_OUTPUT_SHORT = 9, /* output too short; length needed (bytes; for House order,
                                     numbers) */
    HJERRINGSEL_NOT_WAITING = 10, /* the message named doesn't wait; index in the list */
    HJERRINGSEL_LIST_ENDS = 11,   /* Play: the list ends before all links are delivered; length
                                     of the list */
    HJERRINGSEL_NO_SUCH_LINK = 12 /* a link number not below the number of links; index in the
                                     list */
};

/* An answer has two halves. The high one is the number: 0 for acceptance, else the refusal's.
 * The low one is what the call answers, or the refusal's place, which always fits: no place is
 * above HJERRINGSEL_LONGEST_SHEET, however long the input is. */
static inline uint32_t hjerringsel_number_of(uint64_t answer) {
    return (uint32_t)(answer >> 32);
}

/* What the call answers; for a refusal, its place. */
static inline uint32_t hjerringsel_value_of(uint64_t answer) {
    return (uint32_t)(answer & UINT32_C(0xffffffff));
}

static inline int hjerringsel_accepted(uint64_t answer) {
    return hjerringsel_number_of(answer) == HJERRINGSEL_ACCEPTED;
}

/* Check: answers the sheet's number of links. */
uint64_t hjerringsel_check(const uint8_t *sheet, size_t length);

/* Next: writes the sheet with its new fractions and nothing else changed; answers the bytes
 * written, which is the sheet's own length. What it writes passes Check. */
uint64_t hjerringsel_next(const uint8_t *sheet, size_t length, uint8_t *out, size_t room);

/* Play: delivers the messages on the links of the list in that order; writes the same as
 * Next. */
uint64_t hjerringsel_play(const uint8_t *sheet, size_t length, const uint16_t *order,
                          size_t count, uint8_t *out, size_t room);

/* Frame: a list as in Play, which may stop early; writes 6 bytes a node, from node 0 up:
 * status, blocked (0 or 1), delay (4 bytes); the last five are 0 while the status is 0.
 * Answers 6 times the number of nodes. */
uint64_t hjerringsel_frame(const uint8_t *sheet, size_t length, const uint16_t *order,
                           size_t count, uint8_t *out, size_t room);

/* House order: writes the numbers of all links, each time the lowest that waits; answers how
 * many. The room counts numbers, not bytes. */
uint64_t hjerringsel_house(const uint8_t *sheet, size_t length, uint16_t *out, size_t room);

#ifdef __cplusplus
}
#endif

#endif
