/*
 * Reading a frame or a line and writing a record: what is answered, the value
 * that is told of it, and every byte that was lent.
 */
#ifndef FRAME_CALLS_H
#define FRAME_CALLS_H

#include "calls.h"
#include "lavendelzug.h"
#include "samples.h"

/*
 * A refusal: whatever was lent, for the answer too, is as it was. Where the frame
 * has a line, that is refused alike.
 */
#define READING_IS(expected, frame, length) \
    reading_is(__FILE__, __LINE__, (expected), (frame), (length))
#define WRITING_IS(expected, record, room) \
    writing_is(__FILE__, __LINE__, (expected), (record), (room))

/* Reading the frame gives the record, and writing the record gives the frame. */
#define EACH_FROM_THE_OTHER(frame, record) \
    each_from_the_other(__FILE__, __LINE__, (frame), (record))

/* One report in both forms: whoever changes the one changes the other alike. */
struct report {
    uint8_t frame[LZ_FRAME_BYTES];
    uint8_t record[LZ_RECORD_BYTES];
};

void report_of(struct report *report, const char *line, sample_record record);

/*
 * The frame gets its parity. Then both forms are refused with this answer; where
 * it is LZ_FINE, each is had from the other.
 */
#define REPORT_IS(expected, report) report_is(__FILE__, __LINE__, (expected), (report))

/*
 * The call gets a buffer here. What is given stands in front of it; the rest of
 * it, and what is read, stay.
 */
void gives(const char *file, int line, struct answer expected, struct call call,
           struct bytes given);

void reading_is(const char *file, int line, struct answer expected, const uint8_t *frame,
                size_t length);
void line_reading_is(const char *file, int line, struct answer expected, const uint8_t *digits,
                     size_t length);
void writing_is(const char *file, int line, struct answer expected, const uint8_t *record,
                size_t room);
void each_from_the_other(const char *file, int line, const uint8_t *frame, const uint8_t *record);
void report_is(const char *file, int line, struct answer expected, struct report *report);

#endif
