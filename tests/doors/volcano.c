/* Category 8, read and written: the time of its activity, its codes and its places. */
#include "groups.h"

#include "check.h"
#include "frame_calls.h"
#include "lavendelzug.h"
#include "samples.h"
#include "slots.h"
#include "wide_records.h"

/* Places and nothing else, of which the sample uses three. */
static const struct slotted places = {volcano_line, volcano_record, 5, 88, {.place = 23}};

struct activity {
    uint8_t day, hour, minute;
};

static void set_activity(struct report *report, struct activity time)
{
    put(report->frame, 53, 5, time.day);
    put(report->frame, 58, 5, time.hour);
    put(report->frame, 63, 6, time.minute);
    report->record[LZ_VOLCANO_DAY] = time.day;
    report->record[LZ_VOLCANO_HOUR] = time.hour;
    report->record[LZ_VOLCANO_MINUTE] = time.minute;
}

static void set_ambiguity(struct report *report, uint8_t code)
{
    put(report->frame, 50, 3, code);
    report->record[LZ_VOLCANO_AMBIGUITY] = code;
}

/* Whatever the ambiguity says of it. */
static void activity_is(int line, struct answer expected, struct activity time)
{
    for (uint8_t ambiguity = 0; ambiguity <= 7; ambiguity++) {
        struct report report;
        report_of(&report, volcano_line, volcano_record);
        set_ambiguity(&report, ambiguity);
        set_activity(&report, time);
        report_is(__FILE__, line, expected, &report);
    }
}

#define ACTIVITY_IS(expected, ...) \
    activity_is(__LINE__, (expected), (struct activity){__VA_ARGS__})

/* The first field out of its range is told; only all three codes together have another one. */
static struct answer answer_of(struct activity time)
{
    if (time.day == 0 && time.hour == 31 && time.minute == 63) {
        return answered(LZ_FINE);
    }
    if (time.day == 0) {
        return out_of_range(53, time.day);
    }
    if (time.hour > 23) {
        return out_of_range(58, time.hour);
    }
    return time.minute > 59 ? out_of_range(63, time.minute) : answered(LZ_FINE);
}

/* Values at the bounds of the three fields, and the codes. */
static const uint8_t days[] = {0, 1, 30, 31};
static const uint8_t hours[] = {0, 1, 22, 23, 24, 30, 31};
static const uint8_t minutes[] = {0, 1, 58, 59, 60, 62, 63};

static void check_mixtures(void)
{
    for (size_t d = 0; d < COUNT(days); d++) {
        for (size_t h = 0; h < COUNT(hours); h++) {
            for (size_t m = 0; m < COUNT(minutes); m++) {
                struct activity time = {days[d], hours[h], minutes[m]};
                activity_is(__LINE__, answer_of(time), time);
            }
        }
    }
}

/* The time and what is told of it, one by one; then every mixture. */
void check_activity_times(void)
{
    ACTIVITY_IS(answered(LZ_FINE), 11, 5, 10);
    ACTIVITY_IS(answered(LZ_FINE), 31, 23, 59);
    ACTIVITY_IS(answered(LZ_FINE), 1, 0, 0);
    ACTIVITY_IS(answered(LZ_FINE), 0, 31, 63);
    ACTIVITY_IS(out_of_range(53, 0), 0, 31, 10);
    ACTIVITY_IS(out_of_range(53, 0), 0, 5, 63);
    ACTIVITY_IS(out_of_range(53, 0), 0, 5, 10);
    ACTIVITY_IS(out_of_range(53, 0), 0, 0, 0);
    ACTIVITY_IS(out_of_range(58, 31), 11, 31, 63);
    ACTIVITY_IS(out_of_range(58, 31), 11, 31, 10);
    ACTIVITY_IS(out_of_range(63, 63), 11, 5, 63);
    check_mixtures();
}

static const struct slot_case place_cases[] = {
    {0, {.place = 110000}, LZ_FINE, 0, 0},
    {0, {.place = 4799999}, LZ_FINE, 0, 0},
    {0, {.place = 109999}, LZ_REFUSED_RANGE, 88, 109999},
    {0, {.place = 4800000}, LZ_REFUSED_RANGE, 88, 4800000},
    {0, {.place = 8388607}, LZ_REFUSED_RANGE, 88, 8388607},
    /* the same may stand twice */
    {1, {.place = 4321400}, LZ_FINE, 0, 0},
    /* the first is used, even of zeros, and a later one of zeros is empty */
    {0, {.place = 0}, LZ_REFUSED_RANGE, 88, 0},
    {1, {.place = 0}, LZ_REFUSED_GAP, 134, 0},
    {2, {.place = 0}, LZ_FINE, 0, 0},
    /* behind a used one */
    {3, {.place = 1}, LZ_REFUSED_RANGE, 157, 1},
    {3, {.place = 109999}, LZ_REFUSED_RANGE, 157, 109999},
    {3, {.place = 110000}, LZ_FINE, 0, 0},
    /* behind an empty one: the gap comes before the range */
    {4, {.place = 1}, LZ_REFUSED_GAP, 180, 0},
    {4, {.place = 110000}, LZ_REFUSED_GAP, 180, 0},
    {4, {.place = 8388607}, LZ_REFUSED_GAP, 180, 0},
};

/* All five are used, and one of them is this. */
static void check_place_among_five(unsigned i, uint64_t place, int passes)
{
    struct report report;
    report_of(&report, volcano_line, volcano_record);
    for (unsigned other = 0; other < places.count; other++) {
        set_slot(&report, &places, other, (struct slot){.place = 4343300 - other});
    }
    set_slot(&report, &places, i, (struct slot){.place = place});
    REPORT_IS(passes ? answered(LZ_FINE) : out_of_range(slot_bit(&places, i), place), &report);
}

/* So many are used, from none on: where the first is empty, it is out of range. */
static void check_so_many_places(unsigned used)
{
    struct report report;
    report_of(&report, volcano_line, volcano_record);
    for (unsigned i = 0; i < places.count; i++) {
        set_slot(&report, &places, i, (struct slot){.place = i < used ? 110000 + i : 0});
    }
    REPORT_IS(used == 0 ? out_of_range(88, 0) : answered(LZ_FINE), &report);
}

/* Each bit alone makes the fourth place used, and the higher ones of them are places. */
static void check_each_bit_uses_a_place(void)
{
    for (unsigned bit = 0; bit < places.width.place; bit++) {
        uint64_t place = UINT64_C(1) << bit;
        struct report report;
        report_of(&report, volcano_line, volcano_record);
        set_slot(&report, &places, 3, (struct slot){.place = place});
        REPORT_IS(place < 110000 ? out_of_range(157, place) : answered(LZ_FINE), &report);
    }
}

void check_places(void)
{
    check_slot_cases(&places, place_cases, COUNT(place_cases));
    check_each_bit_makes_a_gap(&places, 4);
    check_each_bit_uses_a_place();
    for (unsigned i = 0; i < places.count; i++) {
        check_place_among_five(i, 109999, 0);
        check_place_among_five(i, 110000, 1);
        check_place_among_five(i, 4799999, 1);
        check_place_among_five(i, 4800000, 0);
    }
    for (unsigned used = 0; used <= places.count; used++) {
        check_so_many_places(used);
    }
}

static void check_volcano(uint16_t code, int passes)
{
    struct report report;
    report_of(&report, volcano_line, volcano_record);
    put(report.frame, 76, 12, code);
    put_bytes(report.record + LZ_VOLCANO_VOLCANO, 2, code);
    REPORT_IS(passes ? answered(LZ_FINE) : out_of_range(76, code), &report);
}

/* Codes without a name in the standard's tables pass too. Ambiguity 0 is one, warning 0 is none. */
void check_volcano_codes(void)
{
    struct report report;
    report_of(&report, volcano_line, volcano_record);
    for (uint8_t code = 0; code <= 7; code++) {
        set_ambiguity(&report, code);
        REPORT_IS(answered(LZ_FINE), &report);
    }
    for (uint8_t code = 0; code <= 127; code++) {
        put(report.frame, 69, 7, code);
        report.record[LZ_VOLCANO_WARNING] = code;
        REPORT_IS(code == 0 ? out_of_range(69, 0) : answered(LZ_FINE), &report);
    }
    for (uint16_t code = 0; code <= 4095; code++) {
        check_volcano(code, code >= 101 && code <= 4000);
    }
}

/* The lower bits are as they were. */
static const struct wide wide[] = {
    {LZ_RECORD_RC, 8 + 7, 14, 8 + 7},
    {LZ_RECORD_IT, 4 + 0, 41, 4 + 0},
    {LZ_VOLCANO_SPARE1, 128 + 0, 43, 128 + 0},
    {LZ_VOLCANO_AMBIGUITY, 8 + 0, 50, 8 + 0},
    {LZ_VOLCANO_DAY, 32 + 11, 53, 32 + 11},
    {LZ_VOLCANO_HOUR, 32 + 5, 58, 32 + 5},
    {LZ_VOLCANO_MINUTE, 64 + 10, 63, 64 + 10},
    {LZ_VOLCANO_WARNING, 128 + 52, 69, 128 + 52},
    {LZ_VOLCANO_VOLCANO, 16 + 1, 76, 4096 + 503},
    {LZ_RECORD_SLOT(0) + LZ_SLOT_PLACE + 5, 128 + 65, 88, (1 << 23) + 4321400},
    {LZ_RECORD_SLOT(0) + LZ_SLOT_PLACE + 3, 1, 88, (UINT64_C(1) << 32) + 4321400},
    {LZ_RECORD_SLOT(0) + LZ_SLOT_PLACE, 1, 88, (UINT64_C(1) << 56) + 4321400},
    {LZ_VOLCANO_SPARE2, 8 + 0, 203, 2048 + 0},
};

static void wide_activity_is(int line, struct answer expected, struct activity time)
{
    struct report report;
    report_of(&report, volcano_line, volcano_record);
    set_activity(&report, time);
    writing_is(__FILE__, line, expected, report.record, LZ_FRAME_BYTES);
}

#define WIDE_ACTIVITY_IS(expected, ...) \
    wide_activity_is(__LINE__, (expected), (struct activity){__VA_ARGS__})

void check_wide_volcano_records(void)
{
    check_wide_bytes(volcano_record, wide, COUNT(wide));
    /* the bits of an unknown time */
    WIDE_ACTIVITY_IS(out_of_range(53, 32), 32 + 0, 31, 63);
    WIDE_ACTIVITY_IS(out_of_range(53, 0), 0, 32 + 31, 63);
    WIDE_ACTIVITY_IS(out_of_range(53, 0), 0, 31, 64 + 63);
    WIDE_ACTIVITY_IS(out_of_range(58, 32 + 31), 11, 32 + 31, 63);
    WIDE_ACTIVITY_IS(out_of_range(63, 64 + 63), 11, 5, 64 + 63);
    /* the bits of an empty place */
    SLOT_WRITING_IS(out_of_range(157, 1 << 23), &places, 3, .place = 1 << 23);
    SLOT_WRITING_IS(out_of_range(157, UINT64_C(1) << 32), &places, 3, .place = UINT64_C(1) << 32);
    SLOT_WRITING_IS(out_of_range(157, UINT64_C(1) << 63), &places, 3, .place = UINT64_C(1) << 63);
    SLOT_WRITING_IS(refused_at(LZ_REFUSED_GAP, 180), &places, 4, .place = UINT64_C(1) << 63);
}
