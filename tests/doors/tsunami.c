/* Category 5, read and written: its areas, its notifications and its warning code. */
#include "groups.h"

#include "check.h"
#include "frame_calls.h"
#include "lavendelzug.h"
#include "samples.h"
#include "slots.h"
#include "wide_records.h"

/* Areas with day, hour, minute, height and region, of which the sample uses three. */
static const struct slotted areas = {tsunami_line, tsunami_record, 5, 84, {1, 5, 6, 4, 10}};

/* Which field of an area is refused: its bit, counted from the area's first. */
enum { NONE = 0, HOUR = 1, MINUTE = 6 };

struct arrival {
    uint8_t hour, minute;
    unsigned refused;
};

/* Only 31 with 63 says that the wave has arrived; of others the first one out of range is told. */
static const struct arrival arrivals[] = {
    {0, 0, NONE},    {23, 59, NONE},  {31, 63, NONE},   {31, 0, HOUR},    {31, 59, HOUR},
    {31, 60, HOUR},  {31, 62, HOUR},  {24, 63, HOUR},   {30, 63, HOUR},   {24, 59, HOUR},
    {5, 63, MINUTE}, {0, 63, MINUTE}, {23, 62, MINUTE}, {23, 60, MINUTE},
};

/* All five areas are used; what the other four say plays no part. */
static void check_arrival(struct arrival arrival, unsigned i, uint8_t day, struct slot others)
{
    struct report report;
    struct answer expected = answered(LZ_FINE);
    report_of(&report, tsunami_line, tsunami_record);
    for (unsigned other = 0; other < areas.count; other++) {
        set_slot(&report, &areas, other, others);
    }
    set_slot(&report, &areas, i, (struct slot){day, arrival.hour, arrival.minute, 3, 600});
    if (arrival.refused != NONE) {
        expected = out_of_range(slot_bit(&areas, i) + arrival.refused,
                                arrival.refused == HOUR ? arrival.hour : arrival.minute);
    }
    REPORT_IS(expected, &report);
}

void check_arrivals_in_areas(void)
{
    static const struct slot at_a_time = {1, 4, 5, 6, 100}, arrived = {0, 31, 63, 14, 1000};
    for (size_t k = 0; k < COUNT(arrivals); k++) {
        for (unsigned i = 0; i < areas.count; i++) {
            for (uint8_t day = 0; day <= 1; day++) {
                check_arrival(arrivals[k], i, day, at_a_time);
                check_arrival(arrivals[k], i, day, arrived);
            }
        }
    }
}

static const struct slot_case area_cases[] = {
    {0, {1, 23, 59, 1, 100}, LZ_FINE, 0, 0},
    {0, {0, 31, 63, 15, 1000}, LZ_FINE, 0, 0},
    {0, {0, 4, 5, 14, 600}, LZ_FINE, 0, 0},
    {0, {0, 4, 5, 0, 600}, LZ_REFUSED_RANGE, 96, 0},
    {0, {0, 4, 5, 3, 0}, LZ_REFUSED_RANGE, 100, 0},
    {0, {0, 4, 5, 3, 99}, LZ_REFUSED_RANGE, 100, 99},
    {0, {0, 4, 5, 3, 1001}, LZ_REFUSED_RANGE, 100, 1001},
    /* the first is used, even of zeros, and a later one of zeros is empty */
    {0, {0, 0, 0, 0, 0}, LZ_REFUSED_RANGE, 96, 0},
    {1, {0, 0, 0, 0, 0}, LZ_REFUSED_GAP, 136, 0},
    {2, {0, 0, 0, 0, 0}, LZ_FINE, 0, 0},
    /* behind a used one: half filled, from the day on, or whole */
    {3, {1, 0, 0, 0, 0}, LZ_REFUSED_RANGE, 174, 0},
    {3, {0, 31, 63, 0, 0}, LZ_REFUSED_RANGE, 174, 0},
    {3, {0, 0, 0, 3, 0}, LZ_REFUSED_RANGE, 178, 0},
    {3, {0, 0, 0, 0, 600}, LZ_REFUSED_RANGE, 174, 0},
    {3, {0, 0, 0, 3, 600}, LZ_FINE, 0, 0},
    /* behind an empty one: the same, and the gap comes before the fields */
    {4, {1, 0, 0, 0, 0}, LZ_REFUSED_GAP, 188, 0},
    {4, {0, 31, 63, 0, 0}, LZ_REFUSED_GAP, 188, 0},
    {4, {0, 0, 0, 3, 600}, LZ_REFUSED_GAP, 188, 0},
};

/* The last bit in front of the version is one of the fifth area's, and no spare. */
void check_areas(void)
{
    check_slot_cases(&areas, area_cases, COUNT(area_cases));
    check_each_bit_makes_a_gap(&areas, 4);
}

/* None, or 101 to 500, in each of the three. */
static void check_notifications(void)
{
    static const uint16_t passing[] = {0, 101, 500}, wrong[] = {1, 100, 501};
    for (unsigned i = 0; i < 3; i++) {
        for (unsigned k = 0; k < 3; k++) {
            unsigned first = 53 + 9 * i, at = LZ_TSUNAMI_NOTIFICATIONS + 2 * i;
            struct report report;
            report_of(&report, tsunami_line, tsunami_record);
            put(report.frame, first, 9, passing[k]);
            put_bytes(report.record + at, 2, passing[k]);
            REPORT_IS(answered(LZ_FINE), &report);
            put(report.frame, first, 9, wrong[k]);
            put_bytes(report.record + at, 2, wrong[k]);
            REPORT_IS(out_of_range(first, wrong[k]), &report);
        }
    }
}

/* Codes without a name in the standard's table pass too; 0 is none. */
void check_warnings(void)
{
    struct report report;
    report_of(&report, tsunami_line, tsunami_record);
    for (uint8_t code = 0; code <= 15; code++) {
        put(report.frame, 80, 4, code);
        report.record[LZ_TSUNAMI_WARNING] = code;
        REPORT_IS(code == 0 ? out_of_range(80, 0) : answered(LZ_FINE), &report);
    }
    check_notifications();
}

/* The lower bits are as they were. */
static const struct wide wide[] = {
    {LZ_RECORD_RC, 8 + 7, 14, 8 + 7},
    {LZ_RECORD_IT, 4 + 0, 41, 4 + 0},
    {LZ_TSUNAMI_NOTIFICATIONS, 2, 53, 512 + 122},
    {LZ_TSUNAMI_NOTIFICATIONS + 2, 2, 62, 512 + 123},
    {LZ_TSUNAMI_NOTIFICATIONS + 4, 2, 71, 512 + 124},
    {LZ_TSUNAMI_WARNING, 16 + 3, 80, 16 + 3},
    {LZ_RECORD_SLOT(0) + LZ_SLOT_DAY, 2 + 0, 84, 2 + 0},
    {LZ_RECORD_SLOT(0) + LZ_SLOT_HOUR, 32 + 4, 85, 32 + 4},
    {LZ_RECORD_SLOT(0) + LZ_SLOT_MINUTE, 64 + 5, 90, 64 + 5},
    {LZ_RECORD_SLOT(0) + LZ_SLOT_STRENGTH, 16 + 3, 96, 16 + 3},
    {LZ_RECORD_SLOT(0) + LZ_SLOT_PLACE + 6, 4 + 2, 100, 1024 + 600},
    {LZ_RECORD_SLOT(0) + LZ_SLOT_PLACE, 1, 100, (UINT64_C(1) << 56) + 600},
};

void check_wide_tsunami_records(void)
{
    check_wide_bytes(tsunami_record, wide, COUNT(wide));
    /* the bits of an arrival, and those of an empty area */
    SLOT_WRITING_IS(out_of_range(137, 32 + 31), &areas, 2, 0, 32 + 31, 63, 3, 760);
    SLOT_WRITING_IS(out_of_range(137, 31), &areas, 2, 0, 31, 64 + 63, 3, 760);
    SLOT_WRITING_IS(out_of_range(162, 2), &areas, 3, 2, 32, 64, 16, 1024);
    SLOT_WRITING_IS(refused_at(LZ_REFUSED_GAP, 188), &areas, 4, 2, 32, 64, 16, 1024);
}
