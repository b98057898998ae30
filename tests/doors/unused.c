/* Bytes of a record for which its category has nothing: whatever stands there is refused. */
#include "groups.h"

#include "check.h"
#include "fields.h"
#include "frame_calls.h"
#include "lavendelzug.h"
#include "samples.h"
#include "spare_samples.h"

/* Bytes in which nothing of a category stands. */
struct unused {
    unsigned category, from, to;
};

/* What lies behind the last field, the slots that a category has not, and the text. */
static const struct unused unused[] = {
    {HYPOCENTER, LZ_RECORD_SLOT(0), LZ_RECORD_BYTES},
    {INTENSITY, LZ_INTENSITY_SPARE2 + 1, LZ_RECORD_SLOT(0)},
    {INTENSITY, LZ_RECORD_TEXT, LZ_RECORD_BYTES},
    {NANKAI, LZ_NANKAI_SPARE2 + 1, LZ_RECORD_TEXT},
    {TSUNAMI, LZ_TSUNAMI_WARNING + 1, LZ_RECORD_SLOT(0)},
    {TSUNAMI, LZ_RECORD_SLOT(5), LZ_RECORD_BYTES},
    {VOLCANO, LZ_VOLCANO_SPARE2 + 2, LZ_RECORD_SLOT(0)},
    {VOLCANO, LZ_RECORD_SLOT(5), LZ_RECORD_BYTES},
    {ASH_FALL, LZ_ASH_SPARE2 + 2, LZ_RECORD_SLOT(0)},
    {ASH_FALL, LZ_RECORD_SLOT(4), LZ_RECORD_BYTES},
    {FLOOD, LZ_FLOOD_SPARE2 + 4, LZ_RECORD_SLOT(0)},
    {FLOOD, LZ_RECORD_SLOT(3), LZ_RECORD_BYTES},
};

/* The same of each slot that the category has, counted from the slot's first byte. */
static const struct unused unused_in_slots[] = {
    {INTENSITY, LZ_SLOT_DAY, LZ_SLOT_STRENGTH},
    {VOLCANO, LZ_SLOT_DAY, LZ_SLOT_PLACE},
    {ASH_FALL, LZ_SLOT_DAY, LZ_SLOT_HOUR},
    {ASH_FALL, LZ_SLOT_MINUTE, LZ_SLOT_STRENGTH},
    {FLOOD, LZ_SLOT_DAY, LZ_SLOT_STRENGTH},
};

/* Beside spares that are zero, and beside others that are full. */
static void check_unused_bytes(unsigned category, unsigned from, unsigned to)
{
    const struct spared *sample = &spared[category];
    struct report report;
    for (unsigned at = from; at < to; at++) {
        report_of(&report, sample->line, sample->record);
        report.record[at] = 1;
        WRITING_IS(refused(LZ_REFUSED_UNUSED), report.record, LZ_FRAME_BYTES);
        report_with_spares(&report, sample);
        report.record[at] = 1;
        WRITING_IS(refused(LZ_REFUSED_UNUSED), report.record, LZ_FRAME_BYTES);
    }
}

/* All of a place counts, and what its slot has beyond the category comes before it. */
static void check_slot_refused(void)
{
    uint8_t record[LZ_RECORD_BYTES];
    ash_fall_record(record);
    record[LZ_RECORD_SLOT(0) + LZ_SLOT_PLACE] = 1;
    WRITING_IS(out_of_range(89, (UINT64_C(1) << 56) + 4321400), record, LZ_FRAME_BYTES);
    record[LZ_RECORD_SLOT(2) + LZ_SLOT_MINUTE] = 1;
    WRITING_IS(refused(LZ_REFUSED_UNUSED), record, LZ_FRAME_BYTES);
}

/* Each of them alone is 11, in a slot that is used and in one that would else be empty. */
void check_unused_refused(void)
{
    for (size_t i = 0; i < COUNT(unused); i++) {
        check_unused_bytes(unused[i].category, unused[i].from, unused[i].to);
    }
    for (size_t i = 0; i < COUNT(unused_in_slots); i++) {
        const struct unused *bytes = &unused_in_slots[i];
        for (unsigned slot = 0; slot < slots_of(bytes->category); slot++) {
            unsigned first = LZ_RECORD_SLOT(slot);
            check_unused_bytes(bytes->category, first + bytes->from, first + bytes->to);
        }
    }
    check_slot_refused();
}
