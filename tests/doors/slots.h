/* Slots that are set in a frame and in a record alike, and what is then answered. */
#ifndef SLOTS_H
#define SLOTS_H

#include "frame_calls.h"
#include "samples.h"

/*
 * A report, and the slots that its frame has: how many, where the first starts, and
 * how many bits each part of a slot has, 0 where there is no such part.
 */
struct slotted {
    const char *line;
    sample_record record;
    unsigned count, first;
    struct {
        unsigned day, hour, minute, strength, place;
    } width;
};

/* The first bit of a slot, counted from 0. */
unsigned slot_bit(const struct slotted *sample, unsigned i);

/* Puts a slot whose parts fit their bits into both forms of a report. */
void set_slot(struct report *report, const struct slotted *sample, unsigned i, struct slot slot);

/* One slot of the sample is another, and what is then answered. */
struct slot_case {
    unsigned i;
    struct slot slot;
    unsigned number, place;
    uint64_t value;
};

void check_slot_cases(const struct slotted *sample, const struct slot_case *cases, size_t count);

/* Behind an empty slot of the sample, each bit alone of this one makes it used, and so a gap. */
void check_each_bit_makes_a_gap(const struct slotted *sample, unsigned i);

/* In the record alone, which has room for more than the bits of a frame. */
#define SLOT_WRITING_IS(expected, sample, i, ...) \
    slot_writing_is(__FILE__, __LINE__, (expected), (sample), (i), (struct slot){__VA_ARGS__})

void slot_writing_is(const char *file, int line, struct answer expected,
                     const struct slotted *sample, unsigned i, struct slot slot);

#endif
