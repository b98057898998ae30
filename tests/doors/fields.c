#include "fields.h"

#include <stdlib.h>
#include <string.h>

/* The page number of a good trial, which the total must reach. */
#define PAGE 30

/* Fields that several categories have, where each has them. Rc 3 is regular, It 1 a correction. */
#define RC(category) {(category), 14, 3, LZ_RECORD_RC, 1, 0, 2, {{2, 2}, {7, 7}}}
#define RC_OR_REGULAR(category) {(category), 14, 3, LZ_RECORD_RC, 1, 0, 2, {{2, 3}, {7, 7}}}
#define IT(category) {(category), 41, 2, LZ_RECORD_IT, 1, 0, 2, {{0, 0}, {2, 2}}}
#define IT_OR_CORRECTION(category) {(category), 41, 2, LZ_RECORD_IT, 1, 0, 1, {{0, 2}}}
#define NOTIFICATION(category, first, at) \
    {(category), (first), 9, (at), 2, 0, 2, {{0, 0}, {101, 500}}}
#define NOTIFICATIONS(category, at) \
    NOTIFICATION(category, 53, at), NOTIFICATION(category, 62, (at) + 2), \
        NOTIFICATION(category, 71, (at) + 4)
#define TIME(category, first, at) \
    {(category), (first), 5, (at), 1, 0, 1, {{1, 31}}}, \
        {(category), (first) + 5, 5, (at) + 1, 1, 0, 1, {{0, 23}}}, \
        {(category), (first) + 10, 6, (at) + 2, 1, 0, 1, {{0, 59}}}
#define ANGLE(category, first, width, at, degrees) \
    {(category), (first), 1, (at), 1, 0, 1, {{0, 1}}}, \
        {(category), (first) + 1, (width), (at) + 1, 1, 0, 1, {{0, (degrees)}}}, \
        {(category), (first) + 1 + (width), 6, (at) + 2, 1, 0, 1, {{0, 59}}}, \
        {(category), (first) + 7 + (width), 6, (at) + 3, 1, 0, 1, {{0, 59}}}
#define SPARE(category, first, width, at, bytes) \
    {(category), (first), (width), (at), (bytes), 0, 1, {{0, (UINT64_C(1) << (width)) - 1}}}
#define IN_SLOT(at) (LZ_RECORD_SLOT(0) + (at))

const struct field fields[] = {
    {EVERY, 21, 4, LZ_RECORD_MONTH, 1, 0, 1, {{1, 12}}},
    TIME(EVERY, 25, LZ_RECORD_DAY),
    {EVERY, 220, 6, LZ_RECORD_RESERVED, 1, 0, 1, {{0, 63}}},

    RC(HYPOCENTER),
    IT(HYPOCENTER),
    SPARE(HYPOCENTER, 43, 10, LZ_QUAKE_SPARE1, 2),
    NOTIFICATIONS(HYPOCENTER, LZ_QUAKE_NOTIFICATIONS),
    TIME(HYPOCENTER, 80, LZ_QUAKE_DAY),
    {HYPOCENTER, 96, 9, LZ_QUAKE_DEPTH, 2, 0, 2, {{0, 501}, {511, 511}}},
    {HYPOCENTER, 105, 7, LZ_QUAKE_MAGNITUDE, 1, 0, 2, {{1, 101}, {126, 127}}},
    {HYPOCENTER, 112, 10, LZ_QUAKE_EPICENTER, 2, 0, 1, {{11, 1000}}},
    ANGLE(HYPOCENTER, 122, 7, LZ_QUAKE_LATITUDE, 89),
    ANGLE(HYPOCENTER, 142, 8, LZ_QUAKE_LONGITUDE, 179),
    SPARE(HYPOCENTER, 163, 51, LZ_QUAKE_SPARE2, 8),

    RC(INTENSITY),
    IT(INTENSITY),
    SPARE(INTENSITY, 43, 10, LZ_INTENSITY_SPARE1, 2),
    TIME(INTENSITY, 53, LZ_INTENSITY_DAY),
    {INTENSITY, 69, 3, IN_SLOT(LZ_SLOT_STRENGTH), 1, 9, 1, {{1, 7}}},
    {INTENSITY, 72, 6, IN_SLOT(LZ_SLOT_PLACE), 8, 9, 1, {{1, 47}}},
    SPARE(INTENSITY, 213, 1, LZ_INTENSITY_SPARE2, 1),

    RC(NANKAI),
    IT(NANKAI),
    SPARE(NANKAI, 43, 10, LZ_NANKAI_SPARE1, 2),
    {NANKAI, 53, 4, LZ_NANKAI_IS, 1, 0, 1, {{1, 15}}},
    {NANKAI, 201, 6, LZ_NANKAI_PAGE, 1, 0, 1, {{1, 63}}},
    {NANKAI, 207, 6, LZ_NANKAI_TOTAL, 1, 0, 1, {{PAGE, 63}}},
    SPARE(NANKAI, 213, 1, LZ_NANKAI_SPARE2, 1),

    {TSUNAMI, 14, 3, LZ_RECORD_RC, 1, 0, 3, {{1, 1}, {3, 3}, {7, 7}}},
    IT(TSUNAMI),
    SPARE(TSUNAMI, 43, 10, LZ_TSUNAMI_SPARE1, 2),
    NOTIFICATIONS(TSUNAMI, LZ_TSUNAMI_NOTIFICATIONS),
    {TSUNAMI, 80, 4, LZ_TSUNAMI_WARNING, 1, 0, 1, {{1, 15}}},
    {TSUNAMI, 84, 1, IN_SLOT(LZ_SLOT_DAY), 1, 26, 1, {{0, 1}}},
    {TSUNAMI, 85, 5, IN_SLOT(LZ_SLOT_HOUR), 1, 26, 1, {{0, 23}}},
    {TSUNAMI, 90, 6, IN_SLOT(LZ_SLOT_MINUTE), 1, 26, 1, {{0, 59}}},
    {TSUNAMI, 96, 4, IN_SLOT(LZ_SLOT_STRENGTH), 1, 26, 1, {{1, 15}}},
    {TSUNAMI, 100, 10, IN_SLOT(LZ_SLOT_PLACE), 8, 26, 1, {{100, 1000}}},

    RC_OR_REGULAR(VOLCANO),
    IT_OR_CORRECTION(VOLCANO),
    SPARE(VOLCANO, 43, 7, LZ_VOLCANO_SPARE1, 1),
    {VOLCANO, 50, 3, LZ_VOLCANO_AMBIGUITY, 1, 0, 1, {{0, 7}}},
    TIME(VOLCANO, 53, LZ_VOLCANO_DAY),
    {VOLCANO, 69, 7, LZ_VOLCANO_WARNING, 1, 0, 1, {{1, 127}}},
    {VOLCANO, 76, 12, LZ_VOLCANO_VOLCANO, 2, 0, 1, {{101, 4000}}},
    {VOLCANO, 88, 23, IN_SLOT(LZ_SLOT_PLACE), 8, 23, 1, {{110000, 4799999}}},
    SPARE(VOLCANO, 203, 11, LZ_VOLCANO_SPARE2, 2),

    RC(ASH_FALL),
    IT_OR_CORRECTION(ASH_FALL),
    SPARE(ASH_FALL, 43, 10, LZ_ASH_SPARE1, 2),
    TIME(ASH_FALL, 53, LZ_ASH_DAY),
    {ASH_FALL, 69, 2, LZ_ASH_WARNING, 1, 0, 1, {{1, 2}}},
    {ASH_FALL, 71, 12, LZ_ASH_VOLCANO, 2, 0, 1, {{101, 4000}}},
    {ASH_FALL, 83, 3, IN_SLOT(LZ_SLOT_HOUR), 1, 29, 1, {{1, 6}}},
    {ASH_FALL, 86, 3, IN_SLOT(LZ_SLOT_STRENGTH), 1, 29, 1, {{1, 7}}},
    {ASH_FALL, 89, 23, IN_SLOT(LZ_SLOT_PLACE), 8, 29, 1, {{110000, 4799999}}},
    SPARE(ASH_FALL, 199, 15, LZ_ASH_SPARE2, 2),

    RC_OR_REGULAR(FLOOD),
    IT_OR_CORRECTION(FLOOD),
    SPARE(FLOOD, 43, 10, LZ_FLOOD_SPARE1, 2),
    {FLOOD, 53, 4, IN_SLOT(LZ_SLOT_STRENGTH), 1, 44, 1, {{1, 15}}},
    {FLOOD, 57, 40, IN_SLOT(LZ_SLOT_PLACE), 8, 44, 1, {{10175000100, 899999999999}}},
    SPARE(FLOOD, 185, 29, LZ_FLOOD_SPARE2, 4),
};

const size_t field_count = COUNT(fields);

unsigned slots_of(unsigned category)
{
    static const unsigned slots[CATEGORIES] = {
        [INTENSITY] = LZ_SLOTS, [TSUNAMI] = 5, [VOLCANO] = 5, [ASH_FALL] = 4, [FLOOD] = 3};
    return slots[category];
}

unsigned times_of(unsigned category, const struct field *field)
{
    if (field->category != category && field->category != EVERY) {
        return 0;
    }
    return field->slot_bits == 0 ? 1 : slots_of(category);
}

const struct field *field_at(unsigned category, unsigned first)
{
    for (size_t i = 0; i < field_count; i++) {
        if (fields[i].first == first && times_of(category, &fields[i]) != 0) {
            return &fields[i];
        }
    }
    abort();
}

int in_range(const struct field *field, uint64_t value)
{
    for (unsigned i = 0; i < field->range_count; i++) {
        if (value >= field->ranges[i].low && value <= field->ranges[i].high) {
            return 1;
        }
    }
    return 0;
}

/*
 * One below 0 is the greatest number of 64 bits, which goes with all else that the
 * bytes do not hold. One that the bits do not hold has in its lower ones what passes.
 */
unsigned values_to_try(const struct field *field, uint64_t *values)
{
    uint64_t tried[MOST_TRIED], beyond = greatest(field->width) + 1;
    unsigned count = 0, kept = 0;
    for (unsigned i = 0; i < field->range_count; i++) {
        tried[count++] = field->ranges[i].high + 1;
        tried[count++] = field->ranges[i].low - 1;
    }
    tried[count++] = 0;
    tried[count++] = greatest(field->width);
    tried[count++] = beyond;
    tried[count++] = beyond + field->ranges[0].low;
    tried[count++] = greatest(8 * field->bytes);
    for (unsigned i = 0; i < count; i++) {
        if (tried[i] <= greatest(8 * field->bytes)) {
            values[kept++] = tried[i];
        }
    }
    return kept;
}

void good_trial(struct trial *trial, unsigned category)
{
    uint8_t *record = trial->report.record;
    trial->expected = answered(LZ_FINE);
    trial->in_frame = 1;
    spared[category].record(record);
    for (unsigned i = 1; i < slots_of(category); i++) {
        memcpy(record + LZ_RECORD_SLOT(i), record + LZ_RECORD_SLOT(0), LZ_SLOT_BYTES);
    }
    if (category == NANKAI) {
        record[LZ_NANKAI_PAGE] = PAGE;
        record[LZ_NANKAI_TOTAL] = 63;
    }
    CALL_IS(answered(LZ_FINE), writing, record, LZ_RECORD_BYTES, trial->report.frame,
            LZ_FRAME_BYTES);
}

void put_value(struct trial *trial, const struct field *field, unsigned slot, uint64_t value)
{
    if (value <= greatest(field->width)) {
        put(trial->report.frame, field->first + field->slot_bits * slot, field->width, value);
    } else {
        trial->in_frame = 0;
    }
    put_bytes(trial->report.record + field->at + LZ_SLOT_BYTES * slot, field->bytes, value);
}
