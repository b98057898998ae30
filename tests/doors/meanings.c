/* What numbers say: each depth, magnitude, time, height and ambiguity, places at bounds, slots. */
#include "groups.h"

#include "check.h"
#include "fields.h"
#include "lavendelzug.h"
#include "samples.h"
#include "spare_samples.h"

#include <string.h>

/* Where no code is beyond those that are known. */
#define NONE_BEYOND UINT32_MAX

/*
 * One code is beyond those that are known, one is unknown, even among them. All
 * others from low to high are known, and none besides says anything.
 */
static uint32_t told(uint32_t code, uint32_t low, uint32_t high, uint32_t beyond, uint32_t unknown)
{
    if (code == beyond) {
        return said(LZ_BEYOND, 0);
    }
    if (code == unknown) {
        return said(LZ_UNKNOWN, 0);
    }
    return code >= low && code <= high ? said(LZ_KNOWN, code) : said(LZ_NO_CODE, 0);
}

void check_depths(void)
{
    for (uint32_t code = 0; code <= UINT16_MAX; code++) {
        SAME_WORD(told(code, 0, 500, 501, 511), lz_depth((uint16_t)code));
    }
}

void check_magnitudes(void)
{
    for (uint32_t code = 0; code <= UINT8_MAX; code++) {
        SAME_WORD(told(code, 1, 101, 126, 127), lz_magnitude((uint8_t)code));
    }
}

static uint32_t arrival_told(uint32_t hour, uint32_t minute)
{
    if (hour == 31 && minute == 63) {
        return said(LZ_ARRIVED, 0);
    }
    return hour <= 23 && minute <= 59 ? said(LZ_KNOWN, 256 * hour + minute) : said(LZ_NO_CODE, 0);
}

/* One of the two codes without the other says nothing. */
void check_arrivals(void)
{
    for (uint32_t hour = 0; hour <= UINT8_MAX; hour++) {
        for (uint32_t minute = 0; minute <= UINT8_MAX; minute++) {
            SAME_WORD(arrival_told(hour, minute), lz_arrival((uint8_t)hour, (uint8_t)minute));
        }
    }
    SAME_WORD(21, LZ_ARRIVAL_HOUR(lz_arrival(21, 42)));
    SAME_WORD(42, LZ_ARRIVAL_MINUTE(lz_arrival(21, 42)));
}

void check_heights(void)
{
    for (uint32_t code = 0; code <= UINT8_MAX; code++) {
        SAME_WORD(told(code, 1, 15, NONE_BEYOND, 14), lz_height((uint8_t)code));
    }
}

static uint32_t activity_told(uint32_t day, uint32_t hour, uint32_t minute)
{
    if (day == 0 && hour == 31 && minute == 63) {
        return said(LZ_UNKNOWN, 0);
    }
    return day >= 1 && day <= 31 && hour <= 23 && minute <= 59
               ? said(LZ_KNOWN, 2048 * day + 64 * hour + minute)
               : said(LZ_NO_CODE, 0);
}

/* Every day with every hour and minute: one or two of the three codes alone say nothing. */
void check_activities(void)
{
    for (uint32_t day = 0; day <= UINT8_MAX; day++) {
        for (uint32_t hour = 0; hour <= UINT8_MAX; hour++) {
            for (uint32_t minute = 0; minute <= UINT8_MAX; minute++) {
                SAME_WORD(activity_told(day, hour, minute),
                          lz_activity((uint8_t)day, (uint8_t)hour, (uint8_t)minute));
            }
        }
    }
    SAME_WORD(30, LZ_ACTIVITY_DAY(lz_activity(30, 21, 42)));
    SAME_WORD(21, LZ_ACTIVITY_HOUR(lz_activity(30, 21, 42)));
    SAME_WORD(42, LZ_ACTIVITY_MINUTE(lz_activity(30, 21, 42)));
}

/* Codes of an ambiguity, in the order of table 4.1.2-30. */
void check_validities(void)
{
    static const uint32_t valid[] = {
        LZ_VALID_DAY_HOUR_MINUTE, LZ_VALID_DAY_HOUR_MINUTE, LZ_VALID_DAY_HOUR_MINUTE,
        LZ_VALID_DAY_HOUR_MINUTE, LZ_VALID_DAY_HOUR,        LZ_VALID_DAY,
        LZ_VALID_NOTHING,         LZ_VALID_NOTHING,
    };
    for (uint32_t code = 0; code <= UINT8_MAX; code++) {
        SAME_WORD(code < COUNT(valid) ? said(LZ_KNOWN, valid[code]) : said(LZ_NO_CODE, 0),
                  lz_validity((uint8_t)code));
    }
    SAME_WORD(0x10000, lz_validity(7));
    SAME_WORD(0x10001, lz_validity(5));
    SAME_WORD(0x10002, lz_validity(4));
    SAME_WORD(0x10003, lz_validity(0));
}

/* A place of more bits is nowhere, whatever its low bits say. */
void check_prefectures(void)
{
    static const uint64_t nowhere[] = {0, 1, 47, 99999, 4800000, UINT32_MAX,
                                       (UINT64_C(1) << 32) + 4321400, UINT64_MAX};
    for (uint32_t prefecture = 1; prefecture <= 47; prefecture++) {
        SAME_WORD(prefecture, lz_prefecture(UINT64_C(100000) * prefecture));
        SAME_WORD(prefecture, lz_prefecture(UINT64_C(100000) * prefecture + 99999));
    }
    SAME_WORD(43, lz_prefecture(4321400));
    for (size_t i = 0; i < sizeof nowhere / sizeof nowhere[0]; i++) {
        SAME_WORD(0, lz_prefecture(nowhere[i]));
    }
}

/*
 * The first and the last code of table 4.1.2-33, one of its first and one of its
 * last part, the two islands whose codes do not end in 00, and what document 004
 * names; and numbers beside these that are not listed.
 */
void check_standings(void)
{
    static const uint64_t listed[] = {110000,  120200,  169001,  169002,  4321400,
                                      4342800, 4343300, 4735500, 4799999};
    static const uint64_t unlisted[] = {100000, 109999, 110001, 169000, 169003, 4321399, 4799998};
    static const uint64_t outside[] = {0, 1, 47, 99999, 4800000, UINT32_MAX,
                                       (UINT64_C(1) << 32) + 110000, UINT64_MAX};
    for (size_t i = 0; i < COUNT(listed); i++) {
        SAME_WORD(LZ_LISTED, lz_standing(listed[i]));
    }
    for (size_t i = 0; i < COUNT(unlisted); i++) {
        SAME_WORD(LZ_UNLISTED, lz_standing(unlisted[i]));
    }
    for (size_t i = 0; i < COUNT(outside); i++) {
        SAME_WORD(LZ_OUTSIDE, lz_standing(outside[i]));
    }
    for (uint32_t prefecture = 1; prefecture <= 47; prefecture++) {
        SAME_WORD(LZ_UNLISTED, lz_standing(UINT64_C(100000) * prefecture));
        SAME_WORD(LZ_LISTED, lz_standing(UINT64_C(100000) * prefecture + 99999));
    }
}

static void slots_used_are(int line, uint32_t expected, const uint8_t *record, size_t length)
{
    uint8_t lent[LZ_RECORD_BYTES + 1];
    memcpy(lent, record, length);
    same_word(__FILE__, line, "lz_slots_used", expected, lz_slots_used(lent, length));
    same_bytes(__FILE__, line, "record", record, lent, length);
}

#define SLOTS_USED_ARE(expected, record, length) \
    slots_used_are(__LINE__, (expected), (record), (length))

/* The first slot of zeros ends them, be it the very first; one byte makes a slot used. */
static void check_slots_up_to_a_gap(void)
{
    uint8_t record[LZ_RECORD_BYTES];
    intensity_record(record);
    for (unsigned i = 9; i < LZ_SLOTS; i++) {
        SLOTS_USED_ARE(i, record, LZ_RECORD_BYTES);
        record[LZ_RECORD_SLOT(i) + i % LZ_SLOT_BYTES] = 1;
    }
    SLOTS_USED_ARE(16, record, LZ_RECORD_BYTES);
    memset(record + LZ_RECORD_SLOT(15), 0, LZ_SLOT_BYTES);
    SLOTS_USED_ARE(15, record, LZ_RECORD_BYTES);
    record[LZ_INTENSITY_SPARE2 + 1] = 1;
    SLOTS_USED_ARE(16, record, LZ_RECORD_BYTES);
    memset(record + LZ_RECORD_SLOT(2), 0, LZ_SLOT_BYTES);
    SLOTS_USED_ARE(2, record, LZ_RECORD_BYTES);
    memset(record + LZ_RECORD_SLOT(0), 0, LZ_SLOT_BYTES);
    SLOTS_USED_ARE(0, record, LZ_RECORD_BYTES);
}

/* A record of the category with every slot used but the last, whatever it may have. */
static void all_slots_but_one(uint8_t *record, unsigned category)
{
    spared[category].record(record);
    for (unsigned slot = 0; slot < LZ_SLOTS - 1; slot++) {
        record[LZ_RECORD_SLOT(slot)] = 1;
    }
}

/* Whatever the spares hold, only a slot uses a slot: here up to the fifteenth, of any category. */
static void check_spares_use_no_slot(void)
{
    uint8_t record[LZ_RECORD_BYTES];
    for (unsigned i = 0; i < CATEGORIES; i++) {
        all_slots_but_one(record, i);
        SLOTS_USED_ARE(15, record, LZ_RECORD_BYTES);
        for (unsigned k = 0; k < spared[i].count; k++) {
            const struct spare *spare = &spared[i].spares[k];
            put_bytes(record + spare->at, spare->bytes, highest_of(spare));
            SLOTS_USED_ARE(15, record, LZ_RECORD_BYTES);
            put_bytes(record + spare->at, spare->bytes, UINT64_MAX);
            SLOTS_USED_ARE(15, record, LZ_RECORD_BYTES);
        }
    }
}

/* The byte behind the last field of each category: from there on it has nothing up to its slots. */
static const unsigned fields_end[CATEGORIES] = {
    [HYPOCENTER] = LZ_QUAKE_SPARE2 + 8,   [INTENSITY] = LZ_INTENSITY_SPARE2 + 1,
    [NANKAI] = LZ_NANKAI_SPARE2 + 1,      [TSUNAMI] = LZ_TSUNAMI_WARNING + 1,
    [VOLCANO] = LZ_VOLCANO_SPARE2 + 2,    [ASH_FALL] = LZ_ASH_SPARE2 + 2,
    [FLOOD] = LZ_FLOOD_SPARE2 + 4,
};

/* What stands where the category has nothing is a part of the last slot, and no field is. */
static void check_fields_use_no_slot(void)
{
    uint8_t record[LZ_RECORD_BYTES];
    for (unsigned i = 0; i < CATEGORIES; i++) {
        for (unsigned at = LZ_RECORD_IT + 1; at < LZ_RECORD_SLOT(0); at++) {
            all_slots_but_one(record, i);
            record[at] = UINT8_MAX;
            SLOTS_USED_ARE(at < fields_end[i] ? 15 : 16, record, LZ_RECORD_BYTES);
        }
    }
}

/* How many slots a sample uses, and a part that alone makes a slot used. */
struct part {
    unsigned category;
    uint32_t used;
    struct slot slot;
};

/* One region has nothing in its lower 32 bits. */
static const struct part parts[] = {
    {TSUNAMI, 3, {.day = 1}},
    {VOLCANO, 3, {.place = 1}},
    {FLOOD, 1, {.strength = 1}},
    {FLOOD, 1, {.place = UINT64_C(1) << 39}},
};

/* One slot after another, as many as the category has; then the second is emptied. */
static void check_parts_use_a_slot(void)
{
    uint8_t record[LZ_RECORD_BYTES];
    for (size_t i = 0; i < COUNT(parts); i++) {
        spared[parts[i].category].record(record);
        for (uint32_t used = parts[i].used; used < slots_of(parts[i].category); used++) {
            SLOTS_USED_ARE(used, record, LZ_RECORD_BYTES);
            put_slot(record, used, parts[i].slot);
            SLOTS_USED_ARE(used + 1, record, LZ_RECORD_BYTES);
        }
        put_slot(record, 1, (struct slot){.place = 0});
        SLOTS_USED_ARE(1, record, LZ_RECORD_BYTES);
    }
}

void check_slots_used(void)
{
    static const uint32_t used[CATEGORIES] = {
        [INTENSITY] = 9, [TSUNAMI] = 3, [VOLCANO] = 3, [ASH_FALL] = 3, [FLOOD] = 1};
    uint8_t record[LZ_RECORD_BYTES + 1] = {0};
    SLOTS_USED_ARE(0, record, LZ_RECORD_BYTES);
    for (unsigned i = 0; i < CATEGORIES; i++) {
        spared[i].record(record);
        SLOTS_USED_ARE(used[i], record, LZ_RECORD_BYTES);
        for (unsigned k = 0; k < 3; k++) {
            SLOTS_USED_ARE(0, record, other_record_lengths[k]);
        }
    }
    check_slots_up_to_a_gap();
    check_spares_use_no_slot();
    check_fields_use_no_slot();
    check_parts_use_a_slot();
}
