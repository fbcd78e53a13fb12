/* Fuzzes the C interface: what the calls promise that can be seen from outside.
 *
 * An input of the fuzzer is: one byte, two bits of which say how much room each call gets; one
 * byte with the number of list entries to take; those entries, two bytes each, high byte first;
 * and the sheet, all the rest. The library itself is not instrumented, so the fuzzer is told
 * what happened by counters of its own: one for each call and number, and some for places.
 */
#include "hjerringsel.h"

#include <stdio.h>
#include <stdlib.h>
#include <string.h>

enum { CHECK, NEXT, PLAY, FRAME, HOUSE, CALLS };
enum { NUMBERS = 13, PLACES = 64, EDGE = 64, LIST_MOST = 255, FILLING = 0xa7 };

/* The fuzzer takes a change in these as it takes a new branch. Nobody here reads them, so they
 * are volatile, or the compiler would leave them out. */
__attribute__((section("__libfuzzer_extra_counters"))) static volatile uint8_t
    seen[CALLS][NUMBERS][PLACES];

static const char *const names[CALLS] = {"Check", "Next", "Play", "Frame", "House order"};

static void broken(int call, const char *promise) {
    fprintf(stderr, "%s broke a promise: %s\n", names[call], promise);
    abort();
}

static void demand(int holds, int call, const char *promise) {
    if (!holds) {
        broken(call, promise);
    }
}

/* An output buffer with an edge on both sides, all filled with one byte. */
struct output {
    uint8_t *bytes;
    size_t room; /* bytes */
};

static struct output new_output(size_t room) {
    struct output output;
    output.room = room;
    output.bytes = malloc(room + 2 * EDGE);
    if (output.bytes == NULL) {
        abort();
    }
    memset(output.bytes, FILLING, room + 2 * EDGE);
    return output;
}

static uint8_t *start_of(struct output output) { return output.bytes + EDGE; }

/* Every byte but the first so many of the output is as it was. */
static int untouched_beyond(struct output output, size_t written) {
    size_t place;
    for (place = 0; place < EDGE; place++) {
        if (output.bytes[place] != FILLING) {
            return 0;
        }
    }
    for (place = EDGE + written; place < output.room + 2 * EDGE; place++) {
        if (output.bytes[place] != FILLING) {
            return 0;
        }
    }
    return 1;
}

/* What holds of every answer; `unit` is the bytes of one unit the call counts in. */
static void judge(int call, uint64_t answer, struct output output, size_t unit, size_t needed) {
    uint32_t number = hjerringsel_number_of(answer);
    uint32_t value = hjerringsel_value_of(answer);
    demand(number < NUMBERS, call, "the number is in the table");
    seen[call][number][value % PLACES] = 1;
    if (number == HJERRINGSEL_ACCEPTED) {
        demand(value == needed, call, "the answer is the length that document 01 names");
        demand(value * unit <= output.room, call, "what is written has room");
        demand(untouched_beyond(output, value * unit), call, "bytes beyond the answer stay");
    } else {
        demand(value <= HJERRINGSEL_LONGEST_SHEET, call, "no place is above the longest sheet");
        demand(untouched_beyond(output, 0), call, "a refusal leaves the output as it was");
        if (number == HJERRINGSEL_OUTPUT_SHORT) {
            demand(value == needed && value * unit > output.room, call, "9 tells the need");
        }
    }
}

/* The room for a call: what is needed, or one less, or none, or some more. */
static size_t room_for(size_t needed, unsigned choice) {
    switch (choice & 3) {
    case 0: return needed;
    case 1: return needed == 0 ? 0 : needed - 1;
    case 2: return 0;
    default: return needed + 37;
    }
}

struct input {
    const uint8_t *sheet;
    size_t length;
    uint16_t order[LIST_MOST];
    size_t count;
    uint8_t rooms;
};

static struct input read_input(const uint8_t *data, size_t size) {
    struct input input;
    size_t entry;
    memset(&input, 0, sizeof input);
    if (size >= 2) {
        input.rooms = data[0];
        input.count = data[1];
        data += 2;
        size -= 2;
    }
    if (input.count > size / 2) {
        input.count = size / 2;
    }
    for (entry = 0; entry < input.count; entry++) {
        input.order[entry] = (uint16_t)(data[2 * entry] << 8 | data[2 * entry + 1]);
    }
    input.sheet = data + 2 * input.count;
    input.length = size - 2 * input.count;
    return input;
}

/* Every call on a sheet that Check refuses must refuse it alike. */
static void refused_alike(const struct input *input, uint64_t due) {
    struct output output = new_output(input->length);
    uint8_t *out = start_of(output);
    uint64_t next = hjerringsel_next(input->sheet, input->length, out, output.room);
    uint64_t play = hjerringsel_play(input->sheet, input->length, input->order, input->count,
                                     out, output.room);
    uint64_t frame = hjerringsel_frame(input->sheet, input->length, input->order, input->count,
                                       out, output.room);
    uint64_t house = hjerringsel_house(input->sheet, input->length, (uint16_t *)(void *)out,
                                       output.room / 2);
    demand(next == due, NEXT, "a wrong sheet is refused as Check does");
    demand(play == due, PLAY, "a wrong sheet is refused as Check does");
    demand(frame == due, FRAME, "a wrong sheet is refused as Check does");
    demand(house == due, HOUSE, "a wrong sheet is refused as Check does");
    demand(untouched_beyond(output, 0), NEXT, "a refusal leaves the output as it was");
    free(output.bytes);
}

/* The calls with the rooms and the list the fuzzer chose. */
static void chosen_calls(const struct input *input, uint32_t links, uint32_t nodes) {
    const uint8_t *sheet = input->sheet;
    size_t length = input->length, frame_bytes = (size_t)HJERRINGSEL_FRAME_BYTES * nodes;
    struct output output;

    output = new_output(room_for(length, input->rooms));
    judge(NEXT, hjerringsel_next(sheet, length, start_of(output), output.room), output, 1, length);
    free(output.bytes);

    output = new_output(room_for(length, (unsigned)input->rooms >> 2));
    judge(PLAY, hjerringsel_play(sheet, length, input->order, input->count, start_of(output),
                                 output.room),
          output, 1, length);
    free(output.bytes);

    output = new_output(room_for(frame_bytes, (unsigned)input->rooms >> 4));
    judge(FRAME, hjerringsel_frame(sheet, length, input->order, input->count, start_of(output),
                                   output.room),
          output, 1, frame_bytes);
    free(output.bytes);

    output = new_output(2 * room_for(links, (unsigned)input->rooms >> 6));
    judge(HOUSE, hjerringsel_house(sheet, length, (uint16_t *)(void *)start_of(output),
                                   output.room / 2),
          output, 2, links);
    free(output.bytes);
}

/* With room and a right list: what Next writes passes Check and has the sheet's other bytes,
 * Play in house order writes the same, and Frame then shows every node finished. */
static void whole_round(const struct input *input, uint32_t links, uint32_t nodes) {
    const uint8_t *sheet = input->sheet;
    size_t length = input->length, first = 7 + 6 * (size_t)nodes, place;
    uint8_t next[HJERRINGSEL_LONGEST_SHEET], played[HJERRINGSEL_LONGEST_SHEET];
    uint8_t frame[HJERRINGSEL_LONGEST_FRAME];
    uint16_t order[HJERRINGSEL_MOST_LINKS];
    uint32_t node;

    demand(length <= sizeof next, CHECK, "no sheet is longer than the longest");
    demand(hjerringsel_next(sheet, length, next, length) == length, NEXT, "accepts");
    demand(hjerringsel_check(next, length) == links, NEXT, "what it writes passes Check");
    for (place = 0; place < length; place++) {
        int in_fraction = place >= first && place + 1 < length && (place - first) % 8 >= 4;
        demand(in_fraction || next[place] == sheet[place], NEXT, "only fractions change");
    }
    demand(hjerringsel_house(sheet, length, order, links) == links, HOUSE, "accepts");
    demand(hjerringsel_play(sheet, length, order, links, played, length) == length, PLAY,
           "accepts the house order");
    demand(memcmp(next, played, length) == 0, PLAY, "writes the same as Next");
    demand(hjerringsel_frame(sheet, length, order, links, frame, sizeof frame) == 6 * nodes,
           FRAME, "accepts the house order");
    for (node = 0; node < nodes; node++) {
        demand(frame[6 * node] == 2 && frame[6 * node + 1] <= 1, FRAME, "all are finished");
    }
}

int LLVMFuzzerTestOneInput(const uint8_t *data, size_t size) {
    struct input input = read_input(data, size);
    uint64_t answer = hjerringsel_check(input.sheet, input.length);
    struct output none = new_output(0);
    demand(hjerringsel_number_of(answer) < HJERRINGSEL_OUTPUT_SHORT, CHECK,
           "Check refuses by 1 to 8");
    judge(CHECK, answer, none, 0, hjerringsel_value_of(answer));
    free(none.bytes);
    if (hjerringsel_accepted(answer)) {
        uint32_t links = hjerringsel_value_of(answer), nodes = input.sheet[1];
        demand(input.length == 7 + 6 * (size_t)nodes + 8 * (size_t)links + 1, CHECK,
               "the links are counted");
        chosen_calls(&input, links, nodes);
        whole_round(&input, links, nodes);
    } else {
        refused_alike(&input, answer);
    }
    return 0;
}

/* Blind changes seldom leave a sheet right. So half the time the fractions of one row of a
 * right sheet are changed so that their sum stays, or a load step, a traffic, the step or a
 * list entry is; the other half is the fuzzer's own. */
size_t LLVMFuzzerMutate(uint8_t *data, size_t size, size_t most);

static uint32_t fraction_at(const uint8_t *link) {
    return (uint32_t)link[4] << 24 | (uint32_t)link[5] << 16 | (uint32_t)link[6] << 8 | link[7];
}

static void set_fraction(uint8_t *link, uint32_t fraction) {
    link[4] = (uint8_t)(fraction >> 24);
    link[5] = (uint8_t)(fraction >> 16);
    link[6] = (uint8_t)(fraction >> 8);
    link[7] = (uint8_t)fraction;
}

static unsigned draw(unsigned *seed, unsigned bound) {
    *seed = *seed * 1103515245u + 12345u;
    return (*seed >> 8) % bound;
}

/* Moves some of one link's fraction to another link of the same node, or all of it. */
static void move_fraction(uint8_t *links, uint32_t count, unsigned *seed) {
    uint8_t *one = links + 8 * draw(seed, count), *other = links + 8 * draw(seed, count);
    if (one[1] == other[1] && one != other) {
        uint32_t all = fraction_at(one);
        uint32_t moved = draw(seed, 2) ? all : draw(seed, all + 1);
        set_fraction(one, all - moved);
        set_fraction(other, fraction_at(other) + moved);
    }
}

static void change_kindly(uint8_t *sheet, uint32_t links, uint32_t nodes, unsigned *seed) {
    uint8_t *first = sheet + 7 + 6 * nodes;
    unsigned byte = draw(seed, 256);
    switch (draw(seed, 8)) {
    case 0: sheet[5 + draw(seed, 2)] = (uint8_t)byte; break;
    case 1: sheet[7 + 6 * draw(seed, nodes) + 2 + draw(seed, 4)] = (uint8_t)byte; break;
    case 2: first[8 * draw(seed, links) + 3] = (uint8_t)byte; break;
    default: move_fraction(first, links, seed); break;
    }
}

size_t LLVMFuzzerCustomMutator(uint8_t *data, size_t size, size_t most, unsigned seed) {
    struct input input = read_input(data, size);
    uint64_t answer = hjerringsel_check(input.sheet, input.length);
    if (!hjerringsel_accepted(answer) || draw(&seed, 2) == 0) {
        return LLVMFuzzerMutate(data, size, most);
    }
    data[0] = (uint8_t)draw(&seed, 256);
    if (input.count > 0 && draw(&seed, 2) == 0) {
        data[3 + 2 * draw(&seed, (unsigned)input.count)] =
            (uint8_t)draw(&seed, hjerringsel_value_of(answer) + 1);
    } else {
        change_kindly(data + (input.sheet - data), hjerringsel_value_of(answer), input.sheet[1],
                      &seed);
    }
    return size;
}
