/* Refused records: each number in its turn, and the frame as it was. */
#include "groups.h"

#include "check.h"
#include "frame_calls.h"
#include "lavendelzug.h"
#include "samples.h"
#include "spare_samples.h"

#include <string.h>

/*
 * A byte of a sample's record: a value that is refused, and its own; and what is
 * told of it, the value being that of all the bytes which the field has.
 */
struct fault {
    unsigned at;
    uint8_t wrong, right;
    unsigned number, place;
    uint64_t value;
};

/* What every record may have, in front of the fields and at the end. */
#define FIRST_FAULTS(category) \
    {LZ_RECORD_PREAMBLE, 0x54, 0x53, LZ_REFUSED_PREAMBLE, 0, 0}, \
        {LZ_RECORD_CATEGORY, 6, (category), LZ_REFUSED_CATEGORY, 0, 0}
#define LAST_FAULT {LZ_RECORD_RESERVED, 64, 0, LZ_REFUSED_RANGE, 220, 64}

/* In the order in which they are refused. A spare's byte has the lowest bit that does not fit. */
static const struct fault hypocenter_faults[] = {
    FIRST_FAULTS(2),
    {LZ_RECORD_TEXT + 17, 1, 0, LZ_REFUSED_UNUSED, 0, 0},
    {LZ_RECORD_SLOT(15) + LZ_SLOT_PLACE, 1, 0, LZ_REFUSED_UNUSED, 0, 0},
    {LZ_RECORD_SLOT(0) + LZ_SLOT_DAY, 1, 0, LZ_REFUSED_UNUSED, 0, 0},
    {LZ_RECORD_RC, 1, 7, LZ_REFUSED_RANGE, 14, 1},
    {LZ_RECORD_IT, 1, 0, LZ_REFUSED_RANGE, 41, 1},
    {LZ_QUAKE_SPARE1, 4, 0, LZ_REFUSED_RANGE, 43, 1024},
    {LZ_QUAKE_NOTIFICATIONS, 2, 0, LZ_REFUSED_RANGE, 53, 512 + 226},
    {LZ_QUAKE_MAGNITUDE, 102, 64, LZ_REFUSED_RANGE, 105, 102},
    {LZ_QUAKE_LONGITUDE + 1, 180, 132, LZ_REFUSED_RANGE, 143, 180},
    {LZ_QUAKE_LONGITUDE + 3, 60, 0, LZ_REFUSED_RANGE, 157, 60},
    {LZ_QUAKE_SPARE2 + 1, 8, 0, LZ_REFUSED_RANGE, 163, UINT64_C(1) << 51},
    LAST_FAULT,
};

static const struct fault intensity_faults[] = {
    FIRST_FAULTS(3),
    {LZ_RECORD_TEXT, 1, 0, LZ_REFUSED_UNUSED, 0, 0},
    {LZ_RECORD_SLOT(15) + LZ_SLOT_MINUTE, 1, 0, LZ_REFUSED_UNUSED, 0, 0},
    {LZ_RECORD_SLOT(0) - 1, 1, 0, LZ_REFUSED_UNUSED, 0, 0},
    {LZ_INTENSITY_SPARE2 + 1, 1, 0, LZ_REFUSED_UNUSED, 0, 0},
    {LZ_RECORD_RC, 1, 7, LZ_REFUSED_RANGE, 14, 1},
    {LZ_RECORD_IT, 1, 0, LZ_REFUSED_RANGE, 41, 1},
    {LZ_INTENSITY_SPARE1, 4, 0, LZ_REFUSED_RANGE, 43, 1024},
    {LZ_INTENSITY_DAY, 0, 11, LZ_REFUSED_RANGE, 53, 0},
    {LZ_RECORD_SLOT(0) + LZ_SLOT_STRENGTH, 8, 4, LZ_REFUSED_RANGE, 69, 8},
    {LZ_RECORD_SLOT(8) + LZ_SLOT_PLACE + 7, 48, 46, LZ_REFUSED_RANGE, 144, 48},
    {LZ_RECORD_SLOT(15) + LZ_SLOT_STRENGTH, 1, 0, LZ_REFUSED_GAP, 204, 0},
    {LZ_INTENSITY_SPARE2, 2, 0, LZ_REFUSED_RANGE, 213, 2},
    LAST_FAULT,
};

static const struct fault nankai_faults[] = {
    FIRST_FAULTS(4),
    {LZ_RECORD_SLOT(0) + LZ_SLOT_HOUR, 1, 0, LZ_REFUSED_UNUSED, 0, 0},
    {LZ_RECORD_SLOT(0) - 1, 1, 0, LZ_REFUSED_UNUSED, 0, 0},
    {LZ_NANKAI_SPARE2 + 1, 1, 0, LZ_REFUSED_UNUSED, 0, 0},
    {LZ_RECORD_RC, 1, 7, LZ_REFUSED_RANGE, 14, 1},
    {LZ_RECORD_IT, 1, 0, LZ_REFUSED_RANGE, 41, 1},
    {LZ_NANKAI_SPARE1, 4, 0, LZ_REFUSED_RANGE, 43, 1024},
    {LZ_NANKAI_IS, 0, 5, LZ_REFUSED_RANGE, 53, 0},
    {LZ_NANKAI_PAGE, 0, 1, LZ_REFUSED_RANGE, 201, 0},
    {LZ_NANKAI_TOTAL, 64, 27, LZ_REFUSED_RANGE, 207, 64},
    {LZ_NANKAI_SPARE2, 2, 0, LZ_REFUSED_RANGE, 213, 2},
    LAST_FAULT,
};

static const struct fault tsunami_faults[] = {
    FIRST_FAULTS(5),
    {LZ_RECORD_TEXT, 1, 0, LZ_REFUSED_UNUSED, 0, 0},
    {LZ_RECORD_SLOT(15) + LZ_SLOT_HOUR, 1, 0, LZ_REFUSED_UNUSED, 0, 0},
    {LZ_RECORD_SLOT(5) + LZ_SLOT_DAY, 1, 0, LZ_REFUSED_UNUSED, 0, 0},
    {LZ_TSUNAMI_WARNING + 1, 1, 0, LZ_REFUSED_UNUSED, 0, 0},
    {LZ_RECORD_RC, 2, 7, LZ_REFUSED_RANGE, 14, 2},
    {LZ_RECORD_IT, 1, 0, LZ_REFUSED_RANGE, 41, 1},
    {LZ_TSUNAMI_SPARE1, 4, 0, LZ_REFUSED_RANGE, 43, 1024},
    {LZ_TSUNAMI_NOTIFICATIONS, 2, 0, LZ_REFUSED_RANGE, 53, 512 + 122},
    {LZ_TSUNAMI_WARNING, 16, 3, LZ_REFUSED_RANGE, 80, 16},
    {LZ_RECORD_SLOT(0) + LZ_SLOT_DAY, 2, 0, LZ_REFUSED_RANGE, 84, 2},
    {LZ_RECORD_SLOT(0) + LZ_SLOT_HOUR, 24, 4, LZ_REFUSED_RANGE, 85, 24},
    {LZ_RECORD_SLOT(0) + LZ_SLOT_MINUTE, 63, 5, LZ_REFUSED_RANGE, 90, 63},
    {LZ_RECORD_SLOT(0) + LZ_SLOT_STRENGTH, 0, 3, LZ_REFUSED_RANGE, 96, 0},
    {LZ_RECORD_SLOT(2) + LZ_SLOT_HOUR, 31, 4, LZ_REFUSED_RANGE, 137, 31},
    {LZ_RECORD_SLOT(4) + LZ_SLOT_DAY, 1, 0, LZ_REFUSED_GAP, 188, 0},
    LAST_FAULT,
};

static const struct fault volcano_faults[] = {
    FIRST_FAULTS(8),
    {LZ_RECORD_TEXT + 17, 1, 0, LZ_REFUSED_UNUSED, 0, 0},
    {LZ_RECORD_SLOT(5) + LZ_SLOT_PLACE + 7, 1, 0, LZ_REFUSED_UNUSED, 0, 0},
    {LZ_RECORD_SLOT(4) + LZ_SLOT_STRENGTH, 1, 0, LZ_REFUSED_UNUSED, 0, 0},
    {LZ_RECORD_SLOT(0) - 1, 1, 0, LZ_REFUSED_UNUSED, 0, 0},
    {LZ_VOLCANO_SPARE2 + 2, 1, 0, LZ_REFUSED_UNUSED, 0, 0},
    {LZ_RECORD_RC, 1, 7, LZ_REFUSED_RANGE, 14, 1},
    {LZ_RECORD_IT, 3, 0, LZ_REFUSED_RANGE, 41, 3},
    {LZ_VOLCANO_SPARE1, 128, 0, LZ_REFUSED_RANGE, 43, 128},
    {LZ_VOLCANO_AMBIGUITY, 8, 0, LZ_REFUSED_RANGE, 50, 8},
    {LZ_VOLCANO_DAY, 0, 11, LZ_REFUSED_RANGE, 53, 0},
    {LZ_VOLCANO_HOUR, 30, 5, LZ_REFUSED_RANGE, 58, 30},
    {LZ_VOLCANO_MINUTE, 63, 10, LZ_REFUSED_RANGE, 63, 63},
    {LZ_VOLCANO_WARNING, 128, 52, LZ_REFUSED_RANGE, 69, 128},
    {LZ_VOLCANO_VOLCANO, 16, 1, LZ_REFUSED_RANGE, 76, 4096 + 247},
    {LZ_RECORD_SLOT(0) + LZ_SLOT_PLACE, 1, 0, LZ_REFUSED_RANGE, 88, (UINT64_C(1) << 56) + 4321400},
    {LZ_RECORD_SLOT(4) + LZ_SLOT_PLACE + 7, 1, 0, LZ_REFUSED_GAP, 180, 0},
    {LZ_VOLCANO_SPARE2, 8, 0, LZ_REFUSED_RANGE, 203, 2048},
    LAST_FAULT,
};

static const struct fault flood_faults[] = {
    FIRST_FAULTS(11),
    {LZ_RECORD_TEXT, 1, 0, LZ_REFUSED_UNUSED, 0, 0},
    {LZ_RECORD_SLOT(3) + LZ_SLOT_PLACE, 1, 0, LZ_REFUSED_UNUSED, 0, 0},
    {LZ_RECORD_SLOT(2) + LZ_SLOT_HOUR, 1, 0, LZ_REFUSED_UNUSED, 0, 0},
    {LZ_RECORD_SLOT(0) - 1, 1, 0, LZ_REFUSED_UNUSED, 0, 0},
    {LZ_FLOOD_SPARE2 + 4, 1, 0, LZ_REFUSED_UNUSED, 0, 0},
    {LZ_RECORD_RC, 1, 7, LZ_REFUSED_RANGE, 14, 1},
    {LZ_RECORD_IT, 3, 0, LZ_REFUSED_RANGE, 41, 3},
    {LZ_FLOOD_SPARE1, 4, 0, LZ_REFUSED_RANGE, 43, 1024},
    {LZ_RECORD_SLOT(0) + LZ_SLOT_STRENGTH, 16, 2, LZ_REFUSED_RANGE, 53, 16},
    {LZ_RECORD_SLOT(0) + LZ_SLOT_PLACE + 2, 1, 0, LZ_REFUSED_RANGE, 57,
     (UINT64_C(1) << 40) + 830303020300},
    {LZ_RECORD_SLOT(1) + LZ_SLOT_STRENGTH, 1, 0, LZ_REFUSED_RANGE, 101, 0},
    {LZ_RECORD_SLOT(2) + LZ_SLOT_PLACE + 3, 1, 0, LZ_REFUSED_GAP, 141, 0},
    {LZ_FLOOD_SPARE2, 32, 0, LZ_REFUSED_RANGE, 185, UINT64_C(1) << 29},
    LAST_FAULT,
};

/* The sample with its first place alone, so that a later one can stand behind a gap. */
static void one_place_record(uint8_t *record)
{
    ash_fall_record(record);
    memset(record + LZ_RECORD_SLOT(1), 0, 2 * LZ_SLOT_BYTES);
}

static const struct fault one_place_faults[] = {
    FIRST_FAULTS(9),
    {LZ_RECORD_TEXT, 1, 0, LZ_REFUSED_UNUSED, 0, 0},
    {LZ_RECORD_SLOT(4) + LZ_SLOT_STRENGTH, 1, 0, LZ_REFUSED_UNUSED, 0, 0},
    {LZ_RECORD_SLOT(0) - 1, 1, 0, LZ_REFUSED_UNUSED, 0, 0},
    {LZ_ASH_SPARE2 + 2, 1, 0, LZ_REFUSED_UNUSED, 0, 0},
    {LZ_RECORD_RC, 1, 7, LZ_REFUSED_RANGE, 14, 1},
    {LZ_RECORD_IT, 3, 0, LZ_REFUSED_RANGE, 41, 3},
    {LZ_ASH_SPARE1, 4, 0, LZ_REFUSED_RANGE, 43, 1024},
    {LZ_ASH_DAY, 0, 11, LZ_REFUSED_RANGE, 53, 0},
    {LZ_ASH_VOLCANO, 16, 1, LZ_REFUSED_RANGE, 71, 4096 + 247},
    {LZ_RECORD_SLOT(0) + LZ_SLOT_HOUR, 7, 1, LZ_REFUSED_RANGE, 83, 7},
    {LZ_RECORD_SLOT(1) + LZ_SLOT_STRENGTH, 1, 0, LZ_REFUSED_RANGE, 112, 0},
    {LZ_RECORD_SLOT(3) + LZ_SLOT_HOUR, 1, 0, LZ_REFUSED_GAP, 170, 0},
    {LZ_ASH_SPARE2, 128, 0, LZ_REFUSED_RANGE, 199, 32768},
    LAST_FAULT,
};

struct order {
    sample_record sample;
    const struct fault *faults;
    size_t count;
};

static const struct order orders[] = {
    {hypocenter_record, hypocenter_faults, COUNT(hypocenter_faults)},
    {intensity_record, intensity_faults, COUNT(intensity_faults)},
    {nankai_record, nankai_faults, COUNT(nankai_faults)},
    {tsunami_record, tsunami_faults, COUNT(tsunami_faults)},
    {volcano_record, volcano_faults, COUNT(volcano_faults)},
    {one_place_record, one_place_faults, COUNT(one_place_faults)},
    {flood_record, flood_faults, COUNT(flood_faults)},
};

/* A record with every fault, of which the first is mended after it was refused. */
static void check_order_of_writing(const struct order *order)
{
    uint8_t record[LZ_RECORD_BYTES];
    uint8_t frame[LZ_FRAME_BYTES] = {0};
    order->sample(record);
    for (size_t i = 0; i < order->count; i++) {
        record[order->faults[i].at] = order->faults[i].wrong;
    }
    WRITING_IS(refused(LZ_REFUSED_LENGTH), record, 0);
    WRITING_IS(refused(LZ_REFUSED_LENGTH), record, LZ_FRAME_BYTES - 1);
    WRITING_IS(refused(LZ_REFUSED_LENGTH), record, LZ_FRAME_BYTES + 1);
    for (size_t i = 0; i < order->count; i++) {
        const struct fault *fault = &order->faults[i];
        WRITING_IS(refused_with(fault->number, fault->place, fault->value), record,
                   LZ_FRAME_BYTES);
        record[fault->at] = fault->right;
    }
    CALL_IS(answered(LZ_FINE), writing, record, sizeof record, frame, sizeof frame);
}

void check_writing_refused(void)
{
    uint8_t record[LZ_RECORD_BYTES];
    for (size_t i = 0; i < COUNT(orders); i++) {
        check_order_of_writing(&orders[i]);
    }
    intensity_record(record);
    memcpy(record + LZ_RECORD_SLOT(10), record + LZ_RECORD_SLOT(0), LZ_SLOT_BYTES);
    WRITING_IS(refused_at(LZ_REFUSED_GAP, 159), record, LZ_FRAME_BYTES);
    record[LZ_INTENSITY_SPARE2] = 1;
    WRITING_IS(refused_at(LZ_REFUSED_GAP, 159), record, LZ_FRAME_BYTES);
    record[LZ_INTENSITY_SPARE2 + 1] = 1;
    WRITING_IS(refused(LZ_REFUSED_UNUSED), record, LZ_FRAME_BYTES);
}

/* A good record but for its length, which ends in zeros, is written as one of zeros is. */
void check_records_lent_for_writing(void)
{
    uint8_t record[LZ_RECORD_BYTES + 1] = {0}, before[LZ_RECORD_BYTES + 1];
    uint8_t lent[LZ_FRAME_BYTES + 1];
    hypocenter_record(record);
    memcpy(before, record, sizeof before);
    fill(lent, sizeof lent);
    for (unsigned i = 0; i < 3; i++) {
        size_t length = other_record_lengths[i];
        CALL_IS(refused(LZ_REFUSED_PREAMBLE), writing, record, length, lent, LZ_FRAME_BYTES);
        CALL_IS(refused(LZ_REFUSED_LENGTH), writing, record, length, lent, LZ_FRAME_BYTES - 1);
        CALL_IS(refused(LZ_REFUSED_LENGTH), writing, record, length, lent, LZ_FRAME_BYTES + 1);
        CALL_IS(refused(LZ_REFUSED_LENGTH), writing, record, length, lent, 0);
    }
    UNTOUCHED(lent, 0, sizeof lent);
    SAME_BYTES(before, record, sizeof before);
}
