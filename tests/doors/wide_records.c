#include "wide_records.h"

#include "frame_calls.h"

void check_wide_bytes(sample_record sample, const struct wide *wide, size_t count)
{
    for (size_t i = 0; i < count; i++) {
        uint8_t record[LZ_RECORD_BYTES];
        sample(record);
        record[wide[i].at] = wide[i].byte;
        WRITING_IS(out_of_range(wide[i].place, wide[i].value), record, LZ_FRAME_BYTES);
    }
}
