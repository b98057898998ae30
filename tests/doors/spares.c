/* Spare fields: whatever their bits hold is kept, and what does not fit them is refused. */
#include "groups.h"

#include "check.h"
#include "frame_calls.h"
#include "lavendelzug.h"
#include "spare_samples.h"

/* What is checked of one spare of a report. */
typedef void (*spare_check)(const struct spared *sample, const struct spare *spare);

static void for_each_spare(spare_check check)
{
    for (unsigned i = 0; i < CATEGORIES; i++) {
        for (unsigned k = 0; k < spared[i].count; k++) {
            check(&spared[i], &spared[i].spares[k]);
        }
    }
}

/* Each bit alone, and all of the report's spare bits but that one. */
static void check_bits(const struct spared *sample, const struct spare *spare)
{
    for (unsigned i = 0; i < spare->width; i++) {
        uint64_t bit = UINT64_C(1) << (spare->width - 1 - i);
        struct report report;
        report_of(&report, sample->line, sample->record);
        put(report.frame, spare->first + i, 1, 1);
        put_bytes(report.record + spare->at, spare->bytes, bit);
        REPORT_IS(answered(LZ_FINE), &report);
        report_with_spares(&report, sample);
        put(report.frame, spare->first + i, 1, 0);
        put_bytes(report.record + spare->at, spare->bytes, highest_of(spare) - bit);
        REPORT_IS(answered(LZ_FINE), &report);
    }
}

/* The highest value in one spare, and nothing in the other. */
static void check_highest(const struct spared *sample, const struct spare *spare)
{
    struct report report;
    report_of(&report, sample->line, sample->record);
    put_spare(&report, spare, highest_of(spare));
    REPORT_IS(answered(LZ_FINE), &report);
}

/* A line is read and written as its frame is. */
static void check_line(const struct report *report)
{
    uint8_t line[LZ_LINE_DIGITS] = {0}, record[LZ_RECORD_BYTES] = {0};
    SAME_WORD(LZ_FINE, lz_write_line(report->frame, LZ_FRAME_BYTES, line, sizeof line));
    CALL_IS(answered(LZ_FINE), line_reading, line, sizeof line, record, sizeof record);
    SAME_BYTES(report->record, record, LZ_RECORD_BYTES);
}

void check_spares_kept(void)
{
    for (unsigned i = 0; i < CATEGORIES; i++) {
        struct report report;
        report_with_spares(&report, &spared[i]);
        REPORT_IS(answered(LZ_FINE), &report);
        check_line(&report);
    }
    for_each_spare(check_highest);
    for_each_spare(check_bits);
}

/* Fields beside a spare, with the bit set that touches it where some value in range has it set. */
struct beside {
    unsigned category, first, width, times;
    uint64_t value;
};

/* A slot touches the spare behind it only where all are used. */
static const struct beside beside[] = {
    {HYPOCENTER, 53, 9, 1, 500},
    {HYPOCENTER, 157, 6, 1, 59},
    {INTENSITY, 53, 5, 1, 31},
    {INTENSITY, 69, 9, 16, (7 << 6) + 47},
    {NANKAI, 53, 4, 1, 15},
    {NANKAI, 207, 6, 1, 63},
    {TSUNAMI, 53, 9, 1, 500},
    {TSUNAMI, 84, 26, 5, (31 << 20) + (63 << 14) + (15 << 10) + 999},
    {VOLCANO, 41, 2, 1, 1},
    {VOLCANO, 50, 3, 1, 4},
    {VOLCANO, 88, 23, 5, 4799999},
    {ASH_FALL, 41, 2, 1, 1},
    {ASH_FALL, 53, 5, 1, 31},
    {ASH_FALL, 83, 29, 4, (6 << 26) + (7 << 23) + 4799999},
    {FLOOD, 41, 2, 1, 1},
    {FLOOD, 53, 44, 3, (UINT64_C(15) << 40) + 899999999999},
};

static void put_beside(uint8_t *frame, unsigned category)
{
    for (size_t k = 0; k < COUNT(beside); k++) {
        for (unsigned i = 0; beside[k].category == category && i < beside[k].times; i++) {
            put(frame, beside[k].first + beside[k].width * i, beside[k].width, beside[k].value);
        }
    }
}

/* Its spares are those of the other record, and it is written back. */
static void same_spares(const uint8_t *frame, const struct spared *sample, const uint8_t *expected)
{
    uint8_t record[LZ_RECORD_BYTES] = {0}, back[LZ_FRAME_BYTES] = {0};
    CALL_IS(answered(LZ_FINE), reading, frame, LZ_FRAME_BYTES, record, sizeof record);
    for (unsigned k = 0; k < sample->count; k++) {
        const struct spare *spare = &sample->spares[k];
        SAME_BYTES(expected + spare->at, record + spare->at, spare->bytes);
    }
    CALL_IS(answered(LZ_FINE), writing, record, sizeof record, back, sizeof back);
    SAME_BYTES(frame, back, LZ_FRAME_BYTES);
}

/* Neither takes a bit of the other: with no spare bit set, and with all. */
void check_beside_spares(void)
{
    for (unsigned i = 0; i < CATEGORIES; i++) {
        struct report report;
        report_of(&report, spared[i].line, spared[i].record);
        put_beside(report.frame, i);
        put_parity(report.frame);
        same_spares(report.frame, &spared[i], report.record);
        report_with_spares(&report, &spared[i]);
        put_beside(report.frame, i);
        put_parity(report.frame);
        same_spares(report.frame, &spared[i], report.record);
    }
}

/* Beside spares that are zero, and beside others that are full. */
static void spare_refused(const struct spared *sample, const struct spare *spare, uint64_t value)
{
    struct answer expected = out_of_range(spare->first, value);
    struct report report;
    report_of(&report, sample->line, sample->record);
    put_bytes(report.record + spare->at, spare->bytes, value);
    WRITING_IS(expected, report.record, LZ_FRAME_BYTES);
    report_with_spares(&report, sample);
    put_bytes(report.record + spare->at, spare->bytes, value);
    WRITING_IS(expected, report.record, LZ_FRAME_BYTES);
}

/* Each bit more than the field has, of which the lowest is one above the highest value. */
static void check_wide(const struct spared *sample, const struct spare *spare)
{
    for (unsigned bit = spare->width; bit < 8 * spare->bytes; bit++) {
        spare_refused(sample, spare, UINT64_C(1) << bit);
        spare_refused(sample, spare, (UINT64_C(1) << bit) + highest_of(spare));
    }
    spare_refused(sample, spare, greatest(8 * spare->bytes));
}

void check_wide_spares(void)
{
    for_each_spare(check_wide);
}
