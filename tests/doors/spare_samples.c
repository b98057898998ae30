#include "spare_samples.h"

const struct spared spared[CATEGORIES] = {
    [HYPOCENTER] = {hypocenter_line, hypocenter_record, 2,
                    {{43, 10, LZ_QUAKE_SPARE1, 2}, {163, 51, LZ_QUAKE_SPARE2, 8}}},
    [INTENSITY] = {intensity_line, intensity_record, 2,
                   {{43, 10, LZ_INTENSITY_SPARE1, 2}, {213, 1, LZ_INTENSITY_SPARE2, 1}}},
    [NANKAI] = {nankai_line, nankai_record, 2,
                {{43, 10, LZ_NANKAI_SPARE1, 2}, {213, 1, LZ_NANKAI_SPARE2, 1}}},
    [TSUNAMI] = {tsunami_line, tsunami_record, 1, {{43, 10, LZ_TSUNAMI_SPARE1, 2}}},
    [VOLCANO] = {volcano_line, volcano_record, 2,
                 {{43, 7, LZ_VOLCANO_SPARE1, 1}, {203, 11, LZ_VOLCANO_SPARE2, 2}}},
    [ASH_FALL] = {ash_fall_line, ash_fall_record, 2,
                  {{43, 10, LZ_ASH_SPARE1, 2}, {199, 15, LZ_ASH_SPARE2, 2}}},
    [FLOOD] = {flood_line, flood_record, 2,
               {{43, 10, LZ_FLOOD_SPARE1, 2}, {185, 29, LZ_FLOOD_SPARE2, 4}}},
};

uint64_t highest_of(const struct spare *spare)
{
    return greatest(spare->width);
}

void put_spare(struct report *report, const struct spare *spare, uint64_t value)
{
    put(report->frame, spare->first, spare->width, value);
    put_bytes(report->record + spare->at, spare->bytes, value);
}

void report_with_spares(struct report *report, const struct spared *sample)
{
    report_of(report, sample->line, sample->record);
    for (unsigned i = 0; i < sample->count; i++) {
        put_spare(report, &sample->spares[i], highest_of(&sample->spares[i]));
    }
    put_parity(report->frame);
}
