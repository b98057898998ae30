/* Parity, frames and lines through the header. */
#include "groups.h"

#include "check.h"
#include "frame_calls.h"
#include "lavendelzug.h"
#include "samples.h"
#include "spare_samples.h"

#include <ctype.h>
#include <stdio.h>

/* A word taken apart. */
static void check_answers(void)
{
    SAME_WORD(0xFE, LZ_NUMBER(0xFEDCBA98u));
    SAME_WORD(0xDC, LZ_PLACE(0xFEDCBA98u));
    SAME_WORD(0xBA, LZ_PAGE(0xFEDCBA98u));
    SAME_WORD(0x98, LZ_MARK(0xFEDCBA98u));
    SAME_WORD(0x98, LZ_SATELLITE(0xFEDCBA98u));
    SAME_WORD(0xDC, LZ_HELD(0xFEDCBA98u));
    SAME_WORD(0xBA, LZ_DISPUTED(0xFEDCBA98u));
    SAME_WORD(0x98, LZ_LOWEST(0xFEDCBA98u));
    SAME_WORD(0xDC, LZ_KIND(0xFEDCBA98u));
    SAME_WORD(0xBA98, LZ_VALUE(0xFEDCBA98u));
    SAME_WORD(0xBA, LZ_ARRIVAL_HOUR(0xFEDCBA98u));
    SAME_WORD(0x98, LZ_ARRIVAL_MINUTE(0xFEDCBA98u));
    SAME_WORD(23, LZ_ACTIVITY_DAY(0xFEDCBA98u));
    SAME_WORD(10, LZ_ACTIVITY_HOUR(0xFEDCBA98u));
    SAME_WORD(24, LZ_ACTIVITY_MINUTE(0xFEDCBA98u));
}

/* The tables of the header: each ends where it should. */
static void check_tables(void)
{
    SAME_WORD(LZ_SLOT_BYTES, LZ_SLOT_PLACE + 8);
    SAME_WORD(LZ_QUAKE_NOTIFICATIONS, LZ_QUAKE_SPARE1 + 2);
    SAME_WORD(LZ_QUAKE_SPARE2, LZ_QUAKE_LONGITUDE + 4);
    SAME_WORD(LZ_RECORD_SLOT(0), LZ_QUAKE_SPARE2 + 8);
    SAME_WORD(LZ_INTENSITY_DAY, LZ_INTENSITY_SPARE1 + 2);
    SAME_WORD(LZ_INTENSITY_SPARE2, LZ_INTENSITY_MINUTE + 1);
    SAME_WORD(LZ_NANKAI_IS, LZ_NANKAI_SPARE1 + 2);
    SAME_WORD(LZ_NANKAI_SPARE2, LZ_NANKAI_TOTAL + 1);
    SAME_WORD(LZ_TSUNAMI_NOTIFICATIONS, LZ_TSUNAMI_SPARE1 + 2);
    SAME_WORD(LZ_TSUNAMI_WARNING, LZ_TSUNAMI_NOTIFICATIONS + 3 * 2);
    SAME_WORD(LZ_VOLCANO_AMBIGUITY, LZ_VOLCANO_SPARE1 + 1);
    SAME_WORD(LZ_VOLCANO_WARNING, LZ_VOLCANO_AMBIGUITY + 4);
    SAME_WORD(LZ_VOLCANO_SPARE2, LZ_VOLCANO_VOLCANO + 2);
    SAME_WORD(LZ_ASH_DAY, LZ_ASH_SPARE1 + 2);
    SAME_WORD(LZ_ASH_SPARE2, LZ_ASH_VOLCANO + 2);
    SAME_WORD(LZ_FLOOD_SPARE2, LZ_FLOOD_SPARE1 + 2);
    SAME_WORD(LZ_RECORD_TEXT, LZ_RECORD_SLOT(LZ_SLOTS));
    SAME_WORD(LZ_RECORD_BYTES, LZ_RECORD_TEXT + LZ_PAGE_TEXT_BYTES);
    SAME_WORD(LZ_STORE_BYTES, LZ_STORE_PAGE(64));
}

void check_header(void)
{
    check_answers();
    check_tables();
}

/* Values known from elsewhere: CRC-24Q's own check value, and document 004's frames. */
void check_parity(void)
{
    uint8_t frame[LZ_FRAME_BYTES + 1] = {0};
    for (unsigned i = 0; i < 9; i++) {
        put(frame, 154 + 8 * i, 8, '1' + i);
    }
    SAME_WORD(0xCDE703, lz_parity(frame, LZ_FRAME_BYTES));
    frame_of(intensity_line, frame);
    SAME_WORD(0x104B78, lz_parity(frame, LZ_FRAME_BYTES));
    frame_of(hypocenter_line, frame);
    SAME_WORD(0xC24C39, lz_parity(frame, LZ_FRAME_BYTES));
    put(frame, 226, 30, 0x3FFFFFFF);
    SAME_WORD(0xC24C39, lz_parity(frame, LZ_FRAME_BYTES));
    put(frame, 100, 1, 1);
    SAME_WORD(0x8B80B1, lz_parity(frame, LZ_FRAME_BYTES));
    SAME_ANSWER(refused(LZ_REFUSED_LENGTH), lz_parity(frame, 0));
    SAME_ANSWER(refused(LZ_REFUSED_LENGTH), lz_parity(frame, LZ_FRAME_BYTES - 1));
    SAME_ANSWER(refused(LZ_REFUSED_LENGTH), lz_parity(frame, LZ_FRAME_BYTES + 1));
}

/* A line, its frame and its record: each is had from another one. */
static void check_sample(const char *digits, const uint8_t *record)
{
    const uint8_t *line = (const uint8_t *)digits;
    uint8_t frame[LZ_FRAME_BYTES];
    uint8_t lent[LZ_RECORD_BYTES + BEHIND];
    frame_of(digits, frame);
    EACH_FROM_THE_OTHER(frame, record);

    fill(lent, sizeof lent);
    CALL_IS(answered(LZ_FINE), line_reading, line, LZ_LINE_DIGITS, lent, LZ_RECORD_BYTES);
    SAME_BYTES(record, lent, LZ_RECORD_BYTES);
    UNTOUCHED(lent, LZ_RECORD_BYTES, sizeof lent);

    fill(lent, sizeof lent);
    SAME_WORD(LZ_FINE, lz_write_line(frame, LZ_FRAME_BYTES, lent, sizeof lent));
    SAME_BYTES(line, lent, LZ_LINE_DIGITS);
    UNTOUCHED(lent, LZ_LINE_DIGITS, sizeof lent);
}

void check_samples(void)
{
    for (unsigned i = 0; i < CATEGORIES; i++) {
        uint8_t record[LZ_RECORD_BYTES];
        spared[i].record(record);
        check_sample(spared[i].line, record);
    }
}

/* Lines of standard input, read in small letters and written back. */
void check_all_samples(void)
{
    char line[LZ_LINE_DIGITS + 2];
    uint8_t small[LZ_LINE_DIGITS];
    uint8_t record[LZ_RECORD_BYTES] = {0};
    uint8_t frame[LZ_FRAME_BYTES] = {0};
    uint8_t back[LZ_LINE_DIGITS] = {0};
    uint32_t count = 0;
    while (fgets(line, sizeof line, stdin) != NULL) {
        for (unsigned i = 0; i < LZ_LINE_DIGITS; i++) {
            small[i] = (uint8_t)tolower((unsigned char)line[i]);
        }
        CALL_IS(answered(LZ_FINE), line_reading, small, sizeof small, record, sizeof record);
        CALL_IS(answered(LZ_FINE), writing, record, sizeof record, frame, sizeof frame);
        SAME_WORD(LZ_FINE, lz_write_line(frame, sizeof frame, back, sizeof back));
        SAME_BYTES((const uint8_t *)line, back, LZ_LINE_DIGITS);
        count++;
    }
    SAME_WORD(82, count);
}
