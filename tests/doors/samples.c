#include "samples.h"

#include "lavendelzug.h"

#include <string.h>

const char hypocenter_line[] =
    "53AF91AC82800388000059051440C5C82A010830000000000000001030930E4";
const char intensity_line[] =
    "53AF99AC828002C82CB25AE775A8D4CA854AB80000000000000000100412DE0";
const char nankai_line[] =
    "53AFA1AC918002F2C6CBF35ADBF1C1C471C1D4F1C1CAF3595F82D81019545BC";
const char tsunami_line[] =
    "53AFA9AC828001E8F67C31053960414E621053BE00000000000000100D3FFCC";
const char volcano_line[] =
    "53AFC1ACA50002CA5341F783E0F109104212302000000000000000103520468";
const char ash_fall_line[] =
    "53AFC9ACA50002CA523EE4C1F078261220813091810000000000001024FECDC";
const char flood_line[] =
    "53AFD9ACB1800160A8F5528600000000000000000000000000000010146C46C";

const size_t other_record_lengths[3] = {0, LZ_RECORD_BYTES - 1, LZ_RECORD_BYTES + 1};

/* A training report of 11 March. */
static void issued(uint8_t *record, uint8_t category, uint8_t hour,
                   uint8_t minute)
{
    memset(record, 0, LZ_RECORD_BYTES);
    record[LZ_RECORD_CATEGORY] = category;
    record[LZ_RECORD_PREAMBLE] = 0x53;
    record[LZ_RECORD_RC] = 7;
    record[LZ_RECORD_MONTH] = 3;
    record[LZ_RECORD_DAY] = 11;
    record[LZ_RECORD_HOUR] = hour;
    record[LZ_RECORD_MINUTE] = minute;
}

void put_slot(uint8_t *record, unsigned i, struct slot slot)
{
    uint8_t *bytes = record + LZ_RECORD_SLOT(i);
    bytes[LZ_SLOT_DAY] = slot.day;
    bytes[LZ_SLOT_HOUR] = slot.hour;
    bytes[LZ_SLOT_MINUTE] = slot.minute;
    bytes[LZ_SLOT_STRENGTH] = slot.strength;
    put_bytes(bytes + LZ_SLOT_PLACE, 8, slot.place);
}

/* Off Hyuganada, 40 km deep, 6.4, at 32 degrees 42 north and 132 degrees 6 east. */
void hypocenter_record(uint8_t *record)
{
    static const uint8_t latitude[4] = {0, 32, 42, 0};
    static const uint8_t longitude[4] = {0, 132, 6, 0};
    issued(record, 2, 4, 5);
    put_bytes(record + LZ_QUAKE_NOTIFICATIONS, 2, 226);
    record[LZ_QUAKE_DAY] = 11;
    record[LZ_QUAKE_HOUR] = 4;
    record[LZ_QUAKE_MINUTE] = 5;
    put_bytes(record + LZ_QUAKE_DEPTH, 2, 40);
    record[LZ_QUAKE_MAGNITUDE] = 64;
    put_bytes(record + LZ_QUAKE_EPICENTER, 2, 791);
    memcpy(record + LZ_QUAKE_LATITUDE, latitude, sizeof latitude);
    memcpy(record + LZ_QUAKE_LONGITUDE, longitude, sizeof longitude);
}

void intensity_record(uint8_t *record)
{
    static const uint8_t strengths[9] = {4, 4, 3, 3, 2, 2, 2, 2, 2};
    static const uint8_t prefectures[9] = {44, 45, 39, 43, 35, 38, 40, 41, 46};
    issued(record, 3, 4, 5);
    record[LZ_INTENSITY_DAY] = 11;
    record[LZ_INTENSITY_HOUR] = 4;
    record[LZ_INTENSITY_MINUTE] = 5;
    for (unsigned i = 0; i < 9; i++) {
        put_slot(record, i, (struct slot){.strength = strengths[i], .place = prefectures[i]});
    }
}

/* The first of 27 pages, in UTF-8. */
void nankai_record(uint8_t *record)
{
    issued(record, 4, 4, 35);
    record[LZ_NANKAI_IS] = 5;
    record[LZ_NANKAI_PAGE] = 1;
    record[LZ_NANKAI_TOTAL] = 27;
    memcpy(record + LZ_RECORD_TEXT,
           "\xE5\x8D\x97\xE6\xB5\xB7\xE3\x83\x88\xE3\x83\xA9\xE3\x83\x95\xE6\xB2\xBF",
           LZ_PAGE_TEXT_BYTES);
}

/* Three metres at the time of issue: Ehime on the Uwa Sea, Kochi, Miyazaki. */
void tsunami_record(uint8_t *record)
{
    static const uint16_t notifications[3] = {122, 123, 124};
    static const uint16_t regions[3] = {600, 610, 760};
    issued(record, 5, 4, 5);
    record[LZ_TSUNAMI_WARNING] = 3;
    for (unsigned i = 0; i < 3; i++) {
        put_bytes(record + LZ_TSUNAMI_NOTIFICATIONS + 2 * i, 2, notifications[i]);
        put_slot(record, i, (struct slot){0, 4, 5, 3, regions[i]});
    }
}

/* Aso city, Takamori town and Minamiaso village, around Mount Aso. */
static const uint32_t aso_places[3] = {4321400, 4342800, 4343300};
#define MOUNT_ASO 503

/* An eruption at the time of issue, without ambiguity. */
void volcano_record(uint8_t *record)
{
    issued(record, 8, 5, 10);
    record[LZ_VOLCANO_DAY] = 11;
    record[LZ_VOLCANO_HOUR] = 5;
    record[LZ_VOLCANO_MINUTE] = 10;
    record[LZ_VOLCANO_WARNING] = 52;
    put_bytes(record + LZ_VOLCANO_VOLCANO, 2, MOUNT_ASO);
    for (unsigned i = 0; i < 3; i++) {
        put_slot(record, i, (struct slot){.place = aso_places[i]});
    }
}

/* A little ash within the hour. */
void ash_fall_record(uint8_t *record)
{
    issued(record, 9, 5, 10);
    record[LZ_ASH_DAY] = 11;
    record[LZ_ASH_HOUR] = 5;
    record[LZ_ASH_MINUTE] = 10;
    record[LZ_ASH_WARNING] = 1;
    put_bytes(record + LZ_ASH_VOLCANO, 2, MOUNT_ASO);
    for (unsigned i = 0; i < 3; i++) {
        put_slot(record, i, (struct slot){.hour = 1, .strength = 1, .place = aso_places[i]});
    }
}

/* A flood warning for the Kinu. */
void flood_record(uint8_t *record)
{
    issued(record, 11, 5, 35);
    put_slot(record, 0, (struct slot){.strength = 2, .place = 830303020300});
}

void frame_of(const char *line, uint8_t *frame)
{
    static const char digits[] = "0123456789ABCDEF";
    memset(frame, 0, LZ_FRAME_BYTES);
    for (unsigned i = 0; i < LZ_LINE_DIGITS; i++) {
        put(frame, 4 * i, 4, (uint32_t)(strchr(digits, line[i]) - digits));
    }
}

void put(uint8_t *frame, unsigned first, unsigned width, uint64_t value)
{
    for (unsigned i = 0; i < width; i++) {
        unsigned at = first + i;
        uint8_t bit = (uint8_t)(0x80u >> at % 8);
        if (value >> (width - 1 - i) & 1) {
            frame[at / 8] |= bit;
        } else {
            frame[at / 8] &= (uint8_t)~bit;
        }
    }
}

void put_parity(uint8_t *frame)
{
    put(frame, 226, 24, lz_parity(frame, LZ_FRAME_BYTES));
}

uint64_t greatest(unsigned bits)
{
    return UINT64_MAX >> (64 - bits);
}

void put_bytes(uint8_t *bytes, unsigned count, uint64_t value)
{
    for (unsigned i = 0; i < count; i++) {
        bytes[i] = (uint8_t)(value >> 8 * (count - 1 - i));
    }
}
