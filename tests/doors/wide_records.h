/* Records with more than their frame has bits for, which are never cut to what it has. */
#ifndef WIDE_RECORDS_H
#define WIDE_RECORDS_H

#include "samples.h"

/*
 * A byte of a record with more bits than its field has, the place of the field, and
 * the value of all the bytes which the field has.
 */
struct wide {
    unsigned at;
    uint8_t byte;
    unsigned place;
    uint64_t value;
};

/* Each of them alone, in a record in which nothing else is out of range. */
void check_wide_bytes(sample_record sample, const struct wide *wide, size_t count);

#endif
