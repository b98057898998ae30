/* Category, Rc and It, which every report has: each of their values, read and written. */
#include "groups.h"

#include "check.h"
#include "frame_calls.h"
#include "lavendelzug.h"
#include "samples.h"

#include <string.h>

static int is_category(unsigned code)
{
    switch (code) {
    case 2:
    case 3:
    case 4:
    case 5:
    case 8:
    case 9:
    case 11:
        return 1;
    default:
        return 0;
    }
}

/* A frame has room for 16 codes, a record for 256. */
void check_other_categories(void)
{
    for (unsigned code = 0; code <= UINT8_MAX; code++) {
        struct report report;
        if (is_category(code)) {
            continue;
        }
        report_of(&report, hypocenter_line, hypocenter_record);
        report.record[LZ_RECORD_CATEGORY] = (uint8_t)code;
        WRITING_IS(refused(LZ_REFUSED_CATEGORY), report.record, LZ_FRAME_BYTES);
        if (code < 16) {
            put(report.frame, 17, 4, code);
            put_parity(report.frame);
            READING_IS(refused(LZ_REFUSED_CATEGORY), report.frame, LZ_FRAME_BYTES);
        }
    }
}

/* A report of a category, and the values of Rc and It that it may have, as digits. */
struct sample {
    const char *line;
    sample_record record;
    const char *rcs, *its;
};

static const struct sample samples[] = {
    {hypocenter_line, hypocenter_record, "27", "02"},
    {intensity_line, intensity_record, "27", "02"},
    {nankai_line, nankai_record, "27", "02"},
    {tsunami_line, tsunami_record, "137", "02"},
    {volcano_line, volcano_record, "237", "012"},
    {ash_fall_line, ash_fall_record, "27", "012"},
    {flood_line, flood_record, "237", "012"},
};

/* Every value that the field has bits for. `at` is its byte in a record. */
static void check_values(const struct sample *sample, unsigned first, unsigned width, unsigned at,
                         const char *allowed)
{
    for (unsigned value = 0; value < 1u << width; value++) {
        int passes = strchr(allowed, (int)('0' + value)) != NULL;
        struct report report;
        report_of(&report, sample->line, sample->record);
        put(report.frame, first, width, value);
        report.record[at] = (uint8_t)value;
        REPORT_IS(passes ? answered(LZ_FINE) : out_of_range(first, value), &report);
    }
}

void check_rc_and_it(void)
{
    for (size_t i = 0; i < sizeof samples / sizeof samples[0]; i++) {
        check_values(&samples[i], 14, 3, LZ_RECORD_RC, samples[i].rcs);
        check_values(&samples[i], 41, 2, LZ_RECORD_IT, samples[i].its);
    }
}
