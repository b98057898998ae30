/* Category 11, read and written: its areas, and regions of more than 32 bits. */
#include "groups.h"

#include "check.h"
#include "frame_calls.h"
#include "lavendelzug.h"
#include "samples.h"
#include "slots.h"
#include "wide_records.h"

/* Areas with level and region, of which the sample uses the first. */
static const struct slotted areas = {flood_line, flood_record, 3, 53,
                                     {.strength = 4, .place = 40}};

/* Regions at the bounds, and that of the sample. */
#define LOWEST 10175000100
#define HIGHEST 899999999999
#define KINU 830303020300

static const struct slot_case area_cases[] = {
    {0, {.strength = 1, .place = LOWEST}, LZ_FINE, 0, 0},
    {0, {.strength = 15, .place = HIGHEST}, LZ_FINE, 0, 0},
    {0, {.strength = 2, .place = LOWEST - 1}, LZ_REFUSED_RANGE, 57, LOWEST - 1},
    {0, {.strength = 2, .place = HIGHEST + 1}, LZ_REFUSED_RANGE, 57, HIGHEST + 1},
    {0, {.strength = 2, .place = 1099511627775}, LZ_REFUSED_RANGE, 57, 1099511627775},
    {0, {.strength = 2, .place = 0}, LZ_REFUSED_RANGE, 57, 0},
    {0, {.strength = 0, .place = KINU}, LZ_REFUSED_RANGE, 53, 0},
    /* the first is used, even of zeros */
    {0, {.strength = 0, .place = 0}, LZ_REFUSED_RANGE, 53, 0},
    /* behind a used one: half filled, whole, and the same once more */
    {1, {.strength = 1, .place = 0}, LZ_REFUSED_RANGE, 101, 0},
    {1, {.strength = 0, .place = KINU}, LZ_REFUSED_RANGE, 97, 0},
    {1, {.strength = 1, .place = LOWEST}, LZ_FINE, 0, 0},
    {1, {.strength = 2, .place = KINU}, LZ_FINE, 0, 0},
    /* behind an empty one: the gap comes before the fields */
    {2, {.strength = 1, .place = 0}, LZ_REFUSED_GAP, 141, 0},
    {2, {.strength = 0, .place = KINU}, LZ_REFUSED_GAP, 141, 0},
    {2, {.strength = 2, .place = KINU}, LZ_REFUSED_GAP, 141, 0},
};

/* Each bit alone makes the second area used, and so a half-filled one. */
static void check_each_bit_half_fills(void)
{
    for (unsigned bit = 97; bit < 141; bit++) {
        uint8_t frame[LZ_FRAME_BYTES];
        frame_of(flood_line, frame);
        put(frame, bit, 1, 1);
        put_parity(frame);
        READING_IS(out_of_range(bit < 101 ? 101 : 97, 0), frame, LZ_FRAME_BYTES);
    }
}

/* So many are used, from none on: where the first is empty, its level is out of range. */
static void check_so_many_areas(unsigned used)
{
    struct report report;
    report_of(&report, flood_line, flood_record);
    for (unsigned i = 0; i < areas.count; i++) {
        struct slot area = {.strength = (uint8_t)(15 - i), .place = HIGHEST - i};
        set_slot(&report, &areas, i, i < used ? area : (struct slot){.place = 0});
    }
    REPORT_IS(used == 0 ? out_of_range(53, 0) : answered(LZ_FINE), &report);
}

/* Codes of a level without a name in the standard's table pass too; 0 is none. */
static void check_levels(void)
{
    for (unsigned i = 0; i < areas.count; i++) {
        for (uint8_t level = 0; level <= 15; level++) {
            struct report report;
            report_of(&report, flood_line, flood_record);
            set_slot(&report, &areas, 1, (struct slot){.strength = 1, .place = LOWEST});
            set_slot(&report, &areas, 2, (struct slot){.strength = 1, .place = HIGHEST});
            set_slot(&report, &areas, i, (struct slot){.strength = level, .place = KINU});
            REPORT_IS(level == 0 ? out_of_range(slot_bit(&areas, i), 0) : answered(LZ_FINE),
                      &report);
        }
    }
}

void check_flood_areas(void)
{
    check_slot_cases(&areas, area_cases, COUNT(area_cases));
    check_each_bit_makes_a_gap(&areas, 2);
    check_each_bit_half_fills();
    for (unsigned used = 0; used <= areas.count; used++) {
        check_so_many_areas(used);
    }
    check_levels();
}

/* All three areas are used; in one of them the region is this. */
static void check_region(unsigned i, uint64_t region)
{
    int passes = region >= LOWEST && region <= HIGHEST;
    struct report report;
    report_of(&report, flood_line, flood_record);
    for (unsigned other = 0; other < areas.count; other++) {
        set_slot(&report, &areas, other, (struct slot){.strength = 3, .place = LOWEST + other});
    }
    set_slot(&report, &areas, i, (struct slot){.strength = 4, .place = region});
    REPORT_IS(passes ? answered(LZ_FINE) : out_of_range(slot_bit(&areas, i) + 4, region), &report);
}

/*
 * Every bit counts: alone, and turned in a region that passes. Some of these pass,
 * and of some the lower 32 bits are zero.
 */
void check_flood_regions(void)
{
    for (unsigned i = 0; i < areas.count; i++) {
        check_region(i, 0);
        check_region(i, LOWEST - 1);
        check_region(i, LOWEST);
        check_region(i, HIGHEST);
        check_region(i, HIGHEST + 1);
        check_region(i, greatest(40));
        for (unsigned bit = 0; bit < 40; bit++) {
            check_region(i, UINT64_C(1) << bit);
            check_region(i, KINU ^ UINT64_C(1) << bit);
        }
    }
}

/* The lower bits are as they were. */
static const struct wide wide[] = {
    {LZ_RECORD_RC, 8 + 7, 14, 8 + 7},
    {LZ_RECORD_IT, 4 + 0, 41, 4 + 0},
    {LZ_FLOOD_SPARE1, 4 + 0, 43, 1024 + 0},
    {LZ_RECORD_SLOT(0) + LZ_SLOT_STRENGTH, 16 + 2, 53, 16 + 2},
    {LZ_RECORD_SLOT(0) + LZ_SLOT_PLACE + 2, 1, 57, (UINT64_C(1) << 40) + KINU},
    {LZ_RECORD_SLOT(0) + LZ_SLOT_PLACE, 128, 57, (UINT64_C(1) << 63) + KINU},
    {LZ_FLOOD_SPARE2, 32 + 0, 185, (1 << 29) + 0},
};

void check_wide_flood_records(void)
{
    check_wide_bytes(flood_record, wide, COUNT(wide));
    /* the bits of an empty area */
    SLOT_WRITING_IS(out_of_range(97, 16), &areas, 1, .strength = 16);
    SLOT_WRITING_IS(out_of_range(97, 0), &areas, 1, .place = UINT64_C(1) << 40);
    SLOT_WRITING_IS(out_of_range(97, 0), &areas, 1, .place = UINT64_C(1) << 63);
    SLOT_WRITING_IS(out_of_range(101, UINT64_C(1) << 40), &areas, 1, .strength = 1,
                    .place = UINT64_C(1) << 40);
    SLOT_WRITING_IS(refused_at(LZ_REFUSED_GAP, 141), &areas, 2, .strength = 16);
    SLOT_WRITING_IS(refused_at(LZ_REFUSED_GAP, 141), &areas, 2, .place = UINT64_C(1) << 63);
}
