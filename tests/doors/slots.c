#include "slots.h"

static unsigned slot_bits(const struct slotted *sample)
{
    return sample->width.day + sample->width.hour + sample->width.minute +
           sample->width.strength + sample->width.place;
}

unsigned slot_bit(const struct slotted *sample, unsigned i)
{
    return sample->first + slot_bits(sample) * i;
}

/* Puts one part of a slot, and answers where the next one starts. */
static unsigned put_part(uint8_t *frame, unsigned first, unsigned width, uint64_t value)
{
    put(frame, first, width, value);
    return first + width;
}

void set_slot(struct report *report, const struct slotted *sample, unsigned i, struct slot slot)
{
    unsigned first = slot_bit(sample, i);
    first = put_part(report->frame, first, sample->width.day, slot.day);
    first = put_part(report->frame, first, sample->width.hour, slot.hour);
    first = put_part(report->frame, first, sample->width.minute, slot.minute);
    first = put_part(report->frame, first, sample->width.strength, slot.strength);
    put_part(report->frame, first, sample->width.place, slot.place);
    put_slot(report->record, i, slot);
}

void check_slot_cases(const struct slotted *sample, const struct slot_case *cases, size_t count)
{
    for (size_t k = 0; k < count; k++) {
        const struct slot_case *one = &cases[k];
        struct report report;
        report_of(&report, sample->line, sample->record);
        set_slot(&report, sample, one->i, one->slot);
        REPORT_IS(refused_with(one->number, one->place, one->value), &report);
    }
}

void check_each_bit_makes_a_gap(const struct slotted *sample, unsigned i)
{
    for (unsigned bit = slot_bit(sample, i); bit < slot_bit(sample, i + 1); bit++) {
        uint8_t frame[LZ_FRAME_BYTES];
        frame_of(sample->line, frame);
        put(frame, bit, 1, 1);
        put_parity(frame);
        READING_IS(refused_at(LZ_REFUSED_GAP, slot_bit(sample, i)), frame, LZ_FRAME_BYTES);
    }
}

void slot_writing_is(const char *file, int line, struct answer expected,
                     const struct slotted *sample, unsigned i, struct slot slot)
{
    uint8_t record[LZ_RECORD_BYTES];
    sample->record(record);
    put_slot(record, i, slot);
    writing_is(file, line, expected, record, LZ_FRAME_BYTES);
}
