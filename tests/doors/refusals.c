/* Refused frames and lines: each number in its turn, and the buffer as it was. */
#include "groups.h"

#include "check.h"
#include "frame_calls.h"
#include "lavendelzug.h"
#include "samples.h"
#include "spare_samples.h"

#include <string.h>

/* A field of a sample's frame: a value that is refused, and its own; and what is told of it. */
struct fault {
    unsigned first, width;
    uint64_t wrong, right;
    unsigned number, place;
    uint64_t value;
};

/* What comes before the fields of a category, and an Rc that it may not have. */
#define FIRST_FAULTS(category, rc) \
    {8, 6, 44, 43, LZ_REFUSED_MESSAGE, 0, 0}, {214, 6, 2, 1, LZ_REFUSED_VERSION, 0, 0}, \
        {17, 4, 6, (category), LZ_REFUSED_CATEGORY, 0, 0}, \
        {14, 3, (rc), 7, LZ_REFUSED_RANGE, 14, (rc)}

/* In the order in which they are refused. */
static const struct fault hypocenter_faults[] = {
    FIRST_FAULTS(2, 1),
    {41, 2, 1, 0, LZ_REFUSED_RANGE, 41, 1},
    {53, 9, 100, 226, LZ_REFUSED_RANGE, 53, 100},
    {96, 9, 502, 40, LZ_REFUSED_RANGE, 96, 502},
    {105, 7, 0, 64, LZ_REFUSED_RANGE, 105, 0},
    {157, 6, 60, 0, LZ_REFUSED_RANGE, 157, 60},
};

/* Nine slots of sixteen are used. */
static const struct fault intensity_faults[] = {
    FIRST_FAULTS(3, 1),
    {41, 2, 1, 0, LZ_REFUSED_RANGE, 41, 1},
    {53, 5, 0, 11, LZ_REFUSED_RANGE, 53, 0},
    {69, 3, 0, 4, LZ_REFUSED_RANGE, 69, 0},
    {72, 6, 48, 44, LZ_REFUSED_RANGE, 72, 48},
    {204, 9, 300, 0, LZ_REFUSED_GAP, 204, 0},
};

static const struct fault nankai_faults[] = {
    FIRST_FAULTS(4, 1),
    {41, 2, 1, 0, LZ_REFUSED_RANGE, 41, 1},
    {53, 4, 0, 5, LZ_REFUSED_RANGE, 53, 0},
    {201, 6, 0, 1, LZ_REFUSED_RANGE, 201, 0},
    {207, 6, 0, 27, LZ_REFUSED_RANGE, 207, 0},
};

/* Hour 24 stands with minute 63, since 31 would pass there. An empty second area makes a gap. */
static const struct fault tsunami_faults[] = {
    FIRST_FAULTS(5, 2),
    {41, 2, 1, 0, LZ_REFUSED_RANGE, 41, 1},
    {53, 9, 100, 122, LZ_REFUSED_RANGE, 53, 100},
    {71, 9, 501, 124, LZ_REFUSED_RANGE, 71, 501},
    {80, 4, 0, 3, LZ_REFUSED_RANGE, 80, 0},
    {85, 5, 24, 4, LZ_REFUSED_RANGE, 85, 24},
    {90, 6, 63, 5, LZ_REFUSED_RANGE, 90, 63},
    {96, 4, 0, 3, LZ_REFUSED_RANGE, 96, 0},
    {100, 10, 99, 600, LZ_REFUSED_RANGE, 100, 99},
    {110, 26, 0, 0x414E62, LZ_REFUSED_GAP, 136, 0},
    {152, 10, 1001, 760, LZ_REFUSED_RANGE, 152, 1001},
    {188, 1, 1, 0, LZ_REFUSED_GAP, 188, 0},
};

/*
 * Minute 60 stands with day 0 and hour 31, since 63 would pass there. An empty
 * second place makes a gap, behind which the third is out of range.
 */
static const struct fault volcano_faults[] = {
    FIRST_FAULTS(8, 1),
    {41, 2, 3, 0, LZ_REFUSED_RANGE, 41, 3},
    {53, 5, 0, 11, LZ_REFUSED_RANGE, 53, 0},
    {58, 5, 31, 5, LZ_REFUSED_RANGE, 58, 31},
    {63, 6, 60, 10, LZ_REFUSED_RANGE, 63, 60},
    {69, 7, 0, 52, LZ_REFUSED_RANGE, 69, 0},
    {76, 12, 100, 503, LZ_REFUSED_RANGE, 76, 100},
    {88, 23, 0, 4321400, LZ_REFUSED_RANGE, 88, 0},
    {111, 23, 0, 4342800, LZ_REFUSED_GAP, 134, 0},
    {134, 23, 4800000, 4343300, LZ_REFUSED_RANGE, 134, 4800000},
    {180, 23, 110000, 0, LZ_REFUSED_GAP, 180, 0},
};

/* An empty third place makes a gap, behind which the fourth is half filled. */
static const struct fault ash_fall_faults[] = {
    FIRST_FAULTS(9, 1),
    {41, 2, 3, 0, LZ_REFUSED_RANGE, 41, 3},
    {53, 5, 0, 11, LZ_REFUSED_RANGE, 53, 0},
    {71, 12, 100, 503, LZ_REFUSED_RANGE, 71, 100},
    {83, 3, 0, 1, LZ_REFUSED_RANGE, 83, 0},
    {141, 29, 0, 0x4C24604, LZ_REFUSED_GAP, 170, 0},
    {173, 3, 1, 0, LZ_REFUSED_RANGE, 170, 0},
};

/* The second area, which is empty, is half filled. Where it is mended, the third makes a gap. */
static const struct fault flood_faults[] = {
    FIRST_FAULTS(11, 1),
    {41, 2, 3, 0, LZ_REFUSED_RANGE, 41, 3},
    {53, 4, 0, 2, LZ_REFUSED_RANGE, 53, 0},
    {57, 40, 900000000000, 830303020300, LZ_REFUSED_RANGE, 57, 900000000000},
    {101, 40, 10175000099, 0, LZ_REFUSED_RANGE, 97, 0},
    {145, 40, 10175000100, 0, LZ_REFUSED_GAP, 141, 0},
};

struct order {
    const struct fault *faults;
    size_t count;
};

#define ORDER(faults) {(faults), COUNT(faults)}

static const struct order orders[CATEGORIES] = {
    [HYPOCENTER] = ORDER(hypocenter_faults),
    [INTENSITY] = ORDER(intensity_faults),
    [NANKAI] = ORDER(nankai_faults),
    [TSUNAMI] = ORDER(tsunami_faults),
    [VOLCANO] = ORDER(volcano_faults),
    [ASH_FALL] = ORDER(ash_fall_faults),
    [FLOOD] = ORDER(flood_faults),
};

/* A frame with every fault, of which the first is mended after it was refused. */
static void check_order_of_reading(const struct report *good, const struct order *order)
{
    uint8_t frame[LZ_FRAME_BYTES + 1] = {0};
    memcpy(frame, good->frame, LZ_FRAME_BYTES);
    for (size_t i = 0; i < order->count; i++) {
        put(frame, order->faults[i].first, order->faults[i].width, order->faults[i].wrong);
    }
    put(frame, 0, 8, 0x54);
    put(frame, 250, 6, 1);
    READING_IS(refused(LZ_REFUSED_LENGTH), frame, 0);
    READING_IS(refused(LZ_REFUSED_LENGTH), frame, LZ_FRAME_BYTES - 1);
    READING_IS(refused(LZ_REFUSED_LENGTH), frame, LZ_FRAME_BYTES + 1);
    READING_IS(refused(LZ_REFUSED_PADDING), frame, LZ_FRAME_BYTES);
    put(frame, 250, 6, 0);
    READING_IS(refused(LZ_REFUSED_PREAMBLE), frame, LZ_FRAME_BYTES);
    put(frame, 0, 8, 0x53);
    READING_IS(refused(LZ_REFUSED_PARITY), frame, LZ_FRAME_BYTES);
    for (size_t i = 0; i < order->count; i++) {
        const struct fault *fault = &order->faults[i];
        put_parity(frame);
        READING_IS(refused_with(fault->number, fault->place, fault->value), frame, LZ_FRAME_BYTES);
        put(frame, fault->first, fault->width, fault->right);
    }
    put_parity(frame);
    EACH_FROM_THE_OTHER(frame, good->record);
}

/* With spares that are zero, and with all their bits set. Then the tenth slot and the eleventh. */
void check_reading_refused(void)
{
    uint8_t frame[LZ_FRAME_BYTES];
    for (unsigned i = 0; i < CATEGORIES; i++) {
        struct report report;
        report_of(&report, spared[i].line, spared[i].record);
        check_order_of_reading(&report, &orders[i]);
        report_with_spares(&report, &spared[i]);
        check_order_of_reading(&report, &orders[i]);
    }
    frame_of(intensity_line, frame);
    put(frame, 69 + 9 * 10, 9, 300);
    put_parity(frame);
    READING_IS(refused_at(LZ_REFUSED_GAP, 159), frame, LZ_FRAME_BYTES);
    put(frame, 69 + 9 * 9, 3, 3);
    put_parity(frame);
    READING_IS(out_of_range(153, 0), frame, LZ_FRAME_BYTES);
}

#define LINE_READING_IS(expected, digits) \
    line_reading_is(__FILE__, __LINE__, (expected), (const uint8_t *)(digits), strlen(digits))

/* Document 01's four lines, and more of other lengths or with other digits. */
static void check_line_readings(void)
{
    char line[LZ_LINE_DIGITS + 2] = {0};
    memset(line, '0', LZ_LINE_DIGITS);
    LINE_READING_IS(refused(LZ_REFUSED_PREAMBLE), line);
    memcpy(line, "53", 2);
    LINE_READING_IS(refused(LZ_REFUSED_PARITY), line);
    LINE_READING_IS(refused(LZ_REFUSED_LINE), "");
    LINE_READING_IS(refused(LZ_REFUSED_LINE), "53");
    line[LZ_LINE_DIGITS] = '0';
    LINE_READING_IS(refused(LZ_REFUSED_LINE), line);
    line[LZ_LINE_DIGITS] = 0;
    line[LZ_LINE_DIGITS - 1] = 'G';
    LINE_READING_IS(refused(LZ_REFUSED_LINE), line);
    line[LZ_LINE_DIGITS - 1] = '1';
    LINE_READING_IS(refused(LZ_REFUSED_PADDING), line);
}

static void line_writing_is(int line, struct answer expected, const uint8_t *frame, size_t length,
                            size_t room)
{
    uint8_t lent[LZ_LINE_DIGITS];
    fill(lent, sizeof lent);
    same_answer(__FILE__, line, "lz_write_line", expected,
                lz_write_line(frame, length, lent, room));
    untouched(__FILE__, line, "line", lent, 0, sizeof lent);
}

#define LINE_WRITING_IS(expected, frame, length, room) \
    line_writing_is(__LINE__, (expected), (frame), (length), (room))

void check_lines_refused(void)
{
    uint8_t frame[LZ_FRAME_BYTES + 1] = {0};
    check_line_readings();
    frame_of(hypocenter_line, frame);
    put(frame, 255, 1, 1);
    LINE_WRITING_IS(refused(LZ_REFUSED_LENGTH), frame, LZ_FRAME_BYTES - 1, LZ_LINE_DIGITS - 1);
    LINE_WRITING_IS(refused(LZ_REFUSED_LENGTH), frame, LZ_FRAME_BYTES + 1, LZ_LINE_DIGITS - 1);
    LINE_WRITING_IS(refused(LZ_REFUSED_PADDING), frame, LZ_FRAME_BYTES, LZ_LINE_DIGITS - 1);
    put(frame, 255, 1, 0);
    LINE_WRITING_IS(refused(LZ_REFUSED_SHORT), frame, LZ_FRAME_BYTES, LZ_LINE_DIGITS - 1);
    LINE_WRITING_IS(refused(LZ_REFUSED_SHORT), frame, LZ_FRAME_BYTES, 0);
}

/* A buffer for a record: 255 comes before everything else. */
void check_records_lent_for_reading(void)
{
    const uint8_t *line = (const uint8_t *)hypocenter_line;
    uint8_t frame[LZ_FRAME_BYTES];
    uint8_t lent[LZ_RECORD_BYTES + 1];
    frame_of(hypocenter_line, frame);
    fill(lent, sizeof lent);
    for (unsigned i = 0; i < 3; i++) {
        size_t length = other_record_lengths[i];
        CALL_IS(refused(LZ_WRONG_CALL), reading, frame, LZ_FRAME_BYTES, lent, length);
        CALL_IS(refused(LZ_WRONG_CALL), reading, frame, 0, lent, length);
        CALL_IS(refused(LZ_WRONG_CALL), line_reading, line, LZ_LINE_DIGITS, lent, length);
        CALL_IS(refused(LZ_WRONG_CALL), line_reading, line, 2, lent, length);
    }
    UNTOUCHED(lent, 0, sizeof lent);
}
