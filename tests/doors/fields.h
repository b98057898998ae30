/* Every field that can be out of range, with where it stands and what passes there. */
#ifndef FIELDS_H
#define FIELDS_H

#include "frame_calls.h"
#include "spare_samples.h"

struct range {
    uint64_t low, high;
};

struct field {
    unsigned category;      /* that has it, or EVERY */
    unsigned first, width;  /* in a frame */
    unsigned at, bytes;     /* in a record */
    unsigned slot_bits;     /* of its slot, of which the first is meant; 0 of any other field */
    unsigned range_count;
    struct range ranges[3];
};

#define EVERY CATEGORIES

/* Those that every category has, then category after category. */
extern const struct field fields[];
extern const size_t field_count;

/* The field that starts there. The category has one. */
const struct field *field_at(unsigned category, unsigned first);

/* How many slots a category has. */
unsigned slots_of(unsigned category);

/* How often a category has a field: once, not at all, or in each of its slots. */
unsigned times_of(unsigned category, const struct field *field);

int in_range(const struct field *field, uint64_t value);

/*
 * Values beside each range, those at the ends of what the field's bits hold, and
 * more, up to what its bytes hold. How many they are.
 */
#define MOST_TRIED 11
unsigned values_to_try(const struct field *field, uint64_t *values);

/* A report with something in it, and what is then answered. */
struct trial {
    struct report report;
    struct answer expected;
    int in_frame; /* whether the bits of the frame hold it */
};

/*
 * A sample in which nothing is out of range, all slots are used, and page number
 * and total are such that each passes with more values than its own.
 */
void good_trial(struct trial *trial, unsigned category);

/* Puts a value into a field, of this slot if it has one, of both forms. */
void put_value(struct trial *trial, const struct field *field, unsigned slot, uint64_t value);

#endif
