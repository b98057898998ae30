/* The spare fields of each category, and reports of document 004 with something in them. */
#ifndef SPARE_SAMPLES_H
#define SPARE_SAMPLES_H

#include "frame_calls.h"
#include "samples.h"

struct spare {
    unsigned first, width; /* in a frame */
    unsigned at, bytes;    /* in a record */
};

/* A report, whose spares are zero, and which those are. */
struct spared {
    const char *line;
    sample_record record;
    unsigned count;
    struct spare spares[2];
};

enum { HYPOCENTER, INTENSITY, NANKAI, TSUNAMI, VOLCANO, ASH_FALL, FLOOD, CATEGORIES };

extern const struct spared spared[CATEGORIES];

/* The highest value that fits, which has every bit set. */
uint64_t highest_of(const struct spare *spare);

/* Puts a value that fits into a spare of both forms. */
void put_spare(struct report *report, const struct spare *spare, uint64_t value);

/* The report with every bit of its spares set, and its parity. */
void report_with_spares(struct report *report, const struct spared *sample);

#endif
