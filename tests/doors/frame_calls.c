#include "frame_calls.h"

#include "check.h"

#include <string.h>

static struct call reading_of(const uint8_t *frame, size_t length)
{
    return (struct call){&reading, {frame, length}, NULL, LZ_RECORD_BYTES};
}

static struct call line_reading_of(const uint8_t *digits, size_t length)
{
    return (struct call){&line_reading, {digits, length}, NULL, LZ_RECORD_BYTES};
}

static struct call writing_of(const uint8_t *record, size_t room)
{
    return (struct call){&writing, {record, LZ_RECORD_BYTES}, NULL, room};
}

void gives(const char *file, int line, struct answer expected, struct call call,
                  struct bytes given)
{
    uint8_t lent[LZ_RECORD_BYTES], buffer[LZ_RECORD_BYTES + BEHIND];
    struct bytes from = call.from;
    memcpy(lent, from.first, from.length);
    fill(buffer, sizeof buffer);
    call.from.first = lent;
    call.to = buffer;
    call_is(file, line, expected, call);
    same_bytes(file, line, "what is read", from.first, lent, from.length);
    same_bytes(file, line, "what is given", given.first, buffer, given.length);
    untouched(file, line, "buffer", buffer, given.length, sizeof buffer);
}

void line_reading_is(const char *file, int line, struct answer expected, const uint8_t *digits,
                     size_t length)
{
    gives(file, line, expected, line_reading_of(digits, length), nothing);
}

/* A frame of another length has no line, and neither has one with padding. */
void reading_is(const char *file, int line, struct answer expected, const uint8_t *frame,
                size_t length)
{
    uint8_t digits[LZ_LINE_DIGITS] = {0};
    gives(file, line, expected, reading_of(frame, length), nothing);
    if (lz_write_line(frame, length, digits, sizeof digits) == LZ_FINE) {
        line_reading_is(file, line, expected, digits, sizeof digits);
    }
}

void writing_is(const char *file, int line, struct answer expected, const uint8_t *record,
                size_t room)
{
    gives(file, line, expected, writing_of(record, room), nothing);
}

void each_from_the_other(const char *file, int line, const uint8_t *frame, const uint8_t *record)
{
    gives(file, line, answered(LZ_FINE), reading_of(frame, LZ_FRAME_BYTES),
          BYTES(record, LZ_RECORD_BYTES));
    gives(file, line, answered(LZ_FINE), writing_of(record, LZ_FRAME_BYTES),
          BYTES(frame, LZ_FRAME_BYTES));
}

void report_of(struct report *report, const char *line, sample_record record)
{
    frame_of(line, report->frame);
    record(report->record);
}

void report_is(const char *file, int line, struct answer expected, struct report *report)
{
    put_parity(report->frame);
    if (expected.word == LZ_FINE) {
        each_from_the_other(file, line, report->frame, report->record);
    } else {
        reading_is(file, line, expected, report->frame, LZ_FRAME_BYTES);
        writing_is(file, line, expected, report->record, LZ_FRAME_BYTES);
    }
}
