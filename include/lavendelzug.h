/*
 * Lavendelzug for C and C++: reading and writing DC Report frames, as bytes, as
 * lines of digits and as a receiver's sentences, of message
 * type 43 in categories 2 (hypocenter), 3 (seismic intensity), 4 (Nankai
 * Trough), 5 (tsunami), 8 (volcano), 9 (ash fall) and 11 (flood), and gathering
 * the pages of a Nankai bulletin.
 *
 * Link target/staticlib/libinserter.a, which `./static-library inserter` writes
 * for x86-64; it needs memcpy and memset. The functions work on buffers lent as
 * a pointer and a length, never write to a const one, keep nothing between
 * calls and take no other memory than the stack. Of that lz_read was measured
 * to take 1,329 bytes, lz_read_line 1,761, lz_write 1,913, and none
 * more than 3,817; no promise speaks of it, but the tests keep it from
 * growing.
 *
 * What the caller guarantees. Whatever bytes are lent, and however many, each
 * function answers as said below. But nobody proves what a program in another
 * language passes: the promises hold where, during the call,
 *
 *   - a pointer is not null, even where its length is 0, and as many bytes as
 *     the length says can be read there, and also written where it is not const;
 *   - those bytes have been given values, in a buffer for the answer too;
 *   - two buffers of one call share no byte, so a store is not merged with
 *     itself: lend a copy;
 *   - no one else, be it a thread, a signal handler or a device, writes any of
 *     the bytes, or reads those that are not const; where they are of a mapped
 *     file, nothing shortens the file either.
 *
 * Calls on different buffers may run at the same time.
 */
#ifndef LAVENDELZUG_H
#define LAVENDELZUG_H

#include <stddef.h>
#include <stdint.h>

#ifdef __cplusplus
extern "C" {
#endif

/* ---- Lengths in bytes ---- */
#define LZ_FRAME_BYTES 32    /* 250 bits, most significant first, then six zeros */
#define LZ_LINE_DIGITS 63    /* a frame as text, without an end of line */
#define LZ_SENTENCE_BYTES 78 /* a frame as a receiver's sentence, with its end of line */
#define LZ_RECORD_BYTES 251  /* what a frame says */
#define LZ_NAME_BYTES 8      /* which bulletin */
#define LZ_STORE_BYTES 1205  /* a bulletin's pages */
#define LZ_TEXT_MOST 1134    /* no text of a bulletin is longer */

/*
 * ---- An answer ----
 *
 * One word: the number of the refusal in the high byte, 0 where nothing is
 * refused, then place, page and mark, each 0 unless the refusal names it. Where
 * something is refused, every buffer stays as it was. Where nothing is, some
 * functions answer a value, which never reaches the high byte.
 *
 * With 8 there is also the value that was found at the place, which may be 0. It may
 * need 64 bits, and a refused call writes to no buffer, so it is asked for: beside
 * each function that refuses with 8 stands one with the same name and _value behind
 * it, which refuses nothing and answers 0 where there is no 8. (LZ_VALUE, further
 * down, is something else.)
 */
#define LZ_NUMBER(answer) ((uint8_t)((uint32_t)(answer) >> 24))
#define LZ_PLACE(answer) ((uint8_t)((uint32_t)(answer) >> 16))
#define LZ_PAGE(answer) ((uint8_t)((uint32_t)(answer) >> 8))
#define LZ_MARK(answer) ((uint8_t)(uint32_t)(answer))

#define LZ_FINE 0                     /* nothing is refused */
#define LZ_REFUSED_LENGTH 1           /* a frame is not 32 bytes long */
#define LZ_REFUSED_PADDING 2          /* the six bits behind the frame are not all zero */
#define LZ_REFUSED_PREAMBLE 3         /* the preamble is not 53, 9A or C6 hexadecimal */
#define LZ_REFUSED_PARITY 4           /* the parity in the frame is not that of its bits */
#define LZ_REFUSED_MESSAGE 5          /* the message type is not 43 */
#define LZ_REFUSED_VERSION 6          /* the version is not 1 */
#define LZ_REFUSED_CATEGORY 7         /* the category is not 2, 3, 4, 5, 8, 9 or 11 */
#define LZ_REFUSED_RANGE 8            /* a field is out of its range, or a spare too wide; place: its first bit; a value */
/* 9 was given for a spare that is not zero. It does not occur any more, and is not used again. */
#define LZ_REFUSED_GAP 10             /* a slot is used behind an empty one; place: its first bit */
#define LZ_REFUSED_UNUSED 11          /* a record has something where its category has nothing */
#define LZ_REFUSED_NO_PAGE 12         /* a record is not of category 4 */
#define LZ_REFUSED_OTHER_BULLETIN 13  /* a page or a store is of another bulletin */
#define LZ_REFUSED_UNSOUND 14         /* a store is not 1205 bytes that pages taken can give */
#define LZ_REFUSED_NOT_HELD 15        /* a page is not held; page: the lowest such, mark: why */
#define LZ_REFUSED_SHORT 16           /* a buffer is shorter than what would go into it */
#define LZ_REFUSED_LINE 17            /* a line is not 63 hexadecimal digits, of either case */
#define LZ_REFUSED_SENTENCE 18        /* a sentence has another length, head, comma, star or end, or no checksum */
#define LZ_REFUSED_CHECKSUM 19        /* the checksum in a sentence is not that of its characters */
#define LZ_REFUSED_SATELLITE 20       /* the satellite is not 55, 56, 57, 58 or 61 */
#define LZ_WRONG_CALL 255             /* wrong lengths in lz_read, lz_read_line, lz_read_sentence or lz_open */

#define LZ_MARK_ABSENT 1    /* with 15: no text of the page was taken */
#define LZ_MARK_DISPUTED 2  /* with 15: more than one was */

/*
 * ---- A record: 251 bytes ----
 *
 * Each number stands at a fixed place, in one byte unless more are named, the most
 * significant byte first. The ranges are those that are read and written. Bytes of
 * another length are taken for a record of zeros.
 *
 *   at   what                      range
 *    0   category                  2, 3, 4, 5, 8, 9, 11
 *    1   preamble                  53, 9A, C6 hexadecimal
 *    2   Reserved                  0-63
 *    3   Rc                        1, 3, 7 in category 5; 2, 3, 7 in 8 and 11; else 2, 7
 *    4   month, day, hour, minute  1-12, 1-31, 0-23, 0-59: when it was issued
 *    8   It                        0, 2; in categories 8, 9 and 11 also 1
 *    9   32 bytes by category, zero where the category uses fewer
 *   41   16 slots of 12 bytes
 *  233   18 bytes of text: any in category 4, else zero
 *
 * What a category has beside slots and text stands in the order of the frame. A
 * field of at most 8 bits has 1 byte, of at most 16 bits 2, of at most 32 bits 4,
 * a longer one 8. Spare fields have their bytes too: nobody knows yet what they
 * say, so whatever their bits hold is read and written as it is. A spare that does
 * not fit its bits is 8 at its first bit. What stands behind the last field is 11.
 */
#define LZ_RECORD_CATEGORY 0
#define LZ_RECORD_PREAMBLE 1
#define LZ_RECORD_RESERVED 2
#define LZ_RECORD_RC 3
#define LZ_RECORD_MONTH 4
#define LZ_RECORD_DAY 5
#define LZ_RECORD_HOUR 6
#define LZ_RECORD_MINUTE 7
#define LZ_RECORD_IT 8
#define LZ_RECORD_TEXT 233

/*
 * Category 2. Depth 501 is deeper than 500 km, 511 unknown. Magnitude 126 is
 * above 8.0 without a moment magnitude, 127 unknown. Side 0 is north or east.
 *
 *    9   first spare, at bit 43    2 bytes: 0-1023
 *   11   three notifications       2 bytes each: 0 (none), 101-500
 *   17   day, hour, minute         1-31, 0-23, 0-59: when the earthquake was
 *   20   depth in km               2 bytes: 0-501, 511
 *   22   magnitude in tenths       1-101, 126, 127
 *   23   epicenter                 2 bytes: 11-1000
 *   25   latitude: side, degrees, minutes, seconds   0-1, 0-89, 0-59, 0-59
 *   29   longitude: the same                         0-1, 0-179, 0-59, 0-59
 *   33   second spare, at bit 163  8 bytes: 51 bits
 */
#define LZ_QUAKE_SPARE1 9
#define LZ_QUAKE_NOTIFICATIONS 11
#define LZ_QUAKE_DAY 17
#define LZ_QUAKE_HOUR 18
#define LZ_QUAKE_MINUTE 19
#define LZ_QUAKE_DEPTH 20
#define LZ_QUAKE_MAGNITUDE 22
#define LZ_QUAKE_EPICENTER 23
#define LZ_QUAKE_LATITUDE 25
#define LZ_QUAKE_LONGITUDE 29
#define LZ_QUAKE_SPARE2 33

/*
 * Category 3.
 *
 *    9   first spare, at bit 43    2 bytes: 0-1023
 *   11   day, hour, minute         as above: when the earthquake was
 *   14   second spare, at bit 213  0-1
 */
#define LZ_INTENSITY_SPARE1 9
#define LZ_INTENSITY_DAY 11
#define LZ_INTENSITY_HOUR 12
#define LZ_INTENSITY_MINUTE 13
#define LZ_INTENSITY_SPARE2 14

/*
 * Category 4.
 *
 *    9   first spare, at bit 43    2 bytes: 0-1023
 *   11   Is                        1-15
 *   12   page number               1-63
 *   13   page total                from the number to 63
 *   14   second spare, at bit 213  0-1
 */
#define LZ_NANKAI_SPARE1 9
#define LZ_NANKAI_IS 11
#define LZ_NANKAI_PAGE 12
#define LZ_NANKAI_TOTAL 13
#define LZ_NANKAI_SPARE2 14

/*
 * Category 5. It has no second spare.
 *
 *    9   first spare, at bit 43    2 bytes: 0-1023
 *   11   three notifications       2 bytes each: 0 (none), 101-500
 *   17   warning code              1-15
 */
#define LZ_TSUNAMI_SPARE1 9
#define LZ_TSUNAMI_NOTIFICATIONS 11
#define LZ_TSUNAMI_WARNING 17

/*
 * Category 8. Day 0, hour 31 and minute 63 stand together where nobody knows when
 * the volcanic activity was. One or two of them without the others are 8, at the
 * first of the three that is out of its range here. The ambiguity says how much of
 * day, hour and minute is valid (lz_validity), and is not tied to them.
 *
 *    9   first spare, at bit 43    0-127
 *   10   ambiguity                 0-7
 *   11   day, hour, minute         1-31, 0-23, 0-59, or 0, 31, 63
 *   14   warning code              1-127
 *   15   volcano                   2 bytes: 101-4000
 *   17   second spare, at bit 203  2 bytes: 0-2047
 */
#define LZ_VOLCANO_SPARE1 9
#define LZ_VOLCANO_AMBIGUITY 10
#define LZ_VOLCANO_DAY 11
#define LZ_VOLCANO_HOUR 12
#define LZ_VOLCANO_MINUTE 13
#define LZ_VOLCANO_WARNING 14
#define LZ_VOLCANO_VOLCANO 15
#define LZ_VOLCANO_SPARE2 17

/*
 * Category 9.
 *
 *    9   first spare, at bit 43    2 bytes: 0-1023
 *   11   day, hour, minute         as above: of the volcanic activity
 *   14   warning type              1-2
 *   15   volcano                   2 bytes: 101-4000
 *   17   second spare, at bit 199  2 bytes: 0-32767
 */
#define LZ_ASH_SPARE1 9
#define LZ_ASH_DAY 11
#define LZ_ASH_HOUR 12
#define LZ_ASH_MINUTE 13
#define LZ_ASH_WARNING 14
#define LZ_ASH_VOLCANO 15
#define LZ_ASH_SPARE2 17

/*
 * Category 11. All that it says stands in its slots.
 *
 *    9   first spare, at bit 43    2 bytes: 0-1023
 *   11   second spare, at bit 185  4 bytes: 29 bits
 */
#define LZ_FLOOD_SPARE1 9
#define LZ_FLOOD_SPARE2 11

/*
 * Slot number i, counted from 0, starts at LZ_RECORD_SLOT(i). Of the slots that a
 * category has, the first is used; a later one is empty where all of it is zero,
 * and then so are those behind it. An empty slot has no name in any table.
 *
 * Categories 2 and 4 have no slots, and not every other one has all of them, or
 * all that a slot can hold. What a category does not have is zero, and anything
 * else there is 11.
 *
 *   category  slots  day  hour  minute  strength       place (8 bytes)
 *      3         16    0     0       0  intensity 1-7  prefecture 1-47
 *      5          5  0-1  0-23    0-59  height 1-15    region 100-1000
 *      8          5    0     0       0  0              place 110000-4799999
 *      9          4    0   1-6       0  1-7            place 110000-4799999
 *     11          3    0     0       0  level 1-15     region 10175000100-899999999999
 *
 * In category 5 a slot is an area, and day, hour and minute say when the wave is
 * expected there, in UTC, day 0 being that of the issue and day 1 the next. Where
 * it has arrived, hour 31 and minute 63 stand together, with either day. One of
 * the two without the other is 8, at the first of them that is out of its range in
 * the table.
 */
#define LZ_RECORD_SLOT(i) (41 + LZ_SLOT_BYTES * (i))
#define LZ_SLOTS 16
#define LZ_SLOT_BYTES 12
#define LZ_SLOT_DAY 0
#define LZ_SLOT_HOUR 1
#define LZ_SLOT_MINUTE 2
#define LZ_SLOT_STRENGTH 3
#define LZ_SLOT_PLACE 4

/*
 * ---- A name: 8 bytes, and a store: 1205 ----
 *
 *    0   Rc                        2, 7
 *    1   month, day, hour, minute  as in a record
 *    5   It                        0, 2
 *    6   Is                        1-15
 *    7   page total                1-63
 *
 * So far a name. In a store follow 63 pages of 19 bytes, of which page k,
 * counted from 1, starts at LZ_STORE_PAGE(k): its state, then 18 bytes of text.
 *
 * A store is sound where its name is in range, each state is one of the three,
 * pages that are absent or disputed have zeros for a text, and pages past the
 * total are absent. Bytes of another length are no sound store. A store may be
 * kept and copied as bytes.
 */
#define LZ_NAME_RC 0
#define LZ_NAME_MONTH 1
#define LZ_NAME_DAY 2
#define LZ_NAME_HOUR 3
#define LZ_NAME_MINUTE 4
#define LZ_NAME_IT 5
#define LZ_NAME_IS 6
#define LZ_NAME_TOTAL 7
#define LZ_STORE_PAGE(k) (LZ_NAME_BYTES + 19 * ((k) - 1))
#define LZ_PAGE_STATE 0
#define LZ_PAGE_TEXT 1
#define LZ_PAGE_TEXT_BYTES 18

/* States. The mark of an answer counts otherwise, since there 0 is no mark. */
#define LZ_STATE_ABSENT 0
#define LZ_STATE_HELD 1
#define LZ_STATE_DISPUTED 2

/* ---- Frames ---- */

/*
 * Answers the parity of bits 0 to 225 of a frame, which has 24 bits. The parity
 * and the padding that stand in the frame are not looked at. Refuses: 1.
 */
uint32_t lz_parity(const uint8_t *frame, size_t frame_length);

/*
 * Reads a frame into a record, whose writing gives the same frame, and answers 0.
 * Refuses: 255 where record_length is not 251; 1, 2, 3, 4, 5, 6, 7; then 8 and
 * 10 by the lowest place.
 */
uint32_t lz_read(const uint8_t *frame, size_t frame_length,
                 uint8_t *record_bytes, size_t record_length);

/*
 * Answers the value that reading the frame refuses with 8: what stands in the field
 * at the place. It is asked of the frame alone, whatever record was lent to lz_read.
 */
uint64_t lz_read_value(const uint8_t *frame, size_t frame_length);

/*
 * Writes a record to a frame, whose reading gives the same record, and answers 0.
 * Refuses: 1, 3, 7, 11; then 8 and 10 by the lowest place.
 */
uint32_t lz_write(const uint8_t *record_bytes, size_t record_length,
                  uint8_t *frame, size_t frame_length);

/*
 * Answers the value that writing the record to a frame of so many bytes refuses
 * with 8: what stands in the record for the field at the place.
 */
uint64_t lz_write_value(const uint8_t *record_bytes, size_t record_length,
                        size_t frame_length);

/*
 * Reads a line, which is lent without its end of line, into a record as lz_read
 * reads a frame. Refuses: 255 where record_length is not 251; 17; 2 to 8, 10.
 */
uint32_t lz_read_line(const uint8_t *line, size_t line_length,
                      uint8_t *record_bytes, size_t record_length);

/* Answers of a line what lz_read_value answers of a frame. */
uint64_t lz_read_line_value(const uint8_t *line, size_t line_length);

/*
 * Writes a frame as 63 digits with capital letters to the front of a buffer, and
 * answers 0. No zero and no end of line is put behind them: the other bytes stay
 * as they were. The frame need not be one that can be read. Refuses: 1, 2, 16.
 */
uint32_t lz_write_line(const uint8_t *frame, size_t frame_length,
                       uint8_t *line, size_t line_length);

/*
 * Reads a sentence of 78 characters, its carriage return and line feed among them,
 * into a record as lz_read_line reads a line, and answers the satellite: 55, 56,
 * 57, 58 or 61, where other functions answer 0. A refusal has no satellite, 0.
 * The digits and the checksum are read in either case. Refuses: 255 where
 * record_length is not 251; 18, 19, 20, 17; 2 to 8, 10.
 */
#define LZ_SATELLITE(answer) LZ_MARK(answer)
uint32_t lz_read_sentence(const uint8_t *sentence, size_t sentence_length,
                          uint8_t *record_bytes, size_t record_length);

/* Answers of a sentence what lz_read_value answers of a frame. */
uint64_t lz_read_sentence_value(const uint8_t *sentence, size_t sentence_length);

/*
 * Writes a frame as the sentence of a satellite, with capital letters, to the first
 * 78 bytes of a buffer, and answers 0. No zero is put behind it: the other bytes stay
 * as they were. Refuses: 20; what lz_read refuses of the frame, 1 to 8 and 10; 16.
 */
uint32_t lz_write_sentence(uint32_t satellite, const uint8_t *frame, size_t frame_length,
                           uint8_t *sentence, size_t sentence_length);

/*
 * Answers the value that writing the frame as a sentence refuses with 8. It is asked
 * of the satellite and the frame alone, since 16 comes last and has no value.
 */
uint64_t lz_write_sentence_value(uint32_t satellite, const uint8_t *frame, size_t frame_length);

/*
 * ---- What numbers say ----
 *
 * These refuse nothing. A depth, a magnitude, an arrival, a height, an activity
 * time and what is valid of it are told as a kind and a value, the latter 0 unless
 * the kind is LZ_KNOWN.
 */
#define LZ_KIND(answer) ((uint8_t)((uint32_t)(answer) >> 16))
#define LZ_VALUE(answer) ((uint16_t)(uint32_t)(answer))

#define LZ_NO_CODE 0  /* no depth, magnitude, arrival, height, time or ambiguity has this code */
#define LZ_KNOWN 1    /* value: kilometres, tenths, a time, the code of a height, or what is valid */
#define LZ_BEYOND 2   /* deeper than 500 km, or above 8.0 where no moment magnitude is known */
#define LZ_UNKNOWN 3
#define LZ_ARRIVED 4  /* the wave has arrived, and no time is given */

/* What the depth of category 2 says: 0 to 500 are kilometres, 0 among them. */
uint32_t lz_depth(uint16_t code);

/* What the magnitude of category 2 says: 1 to 101 are tenths, and 101 is more than 10.0. */
uint32_t lz_magnitude(uint8_t code);

/*
 * What hour and minute of an area of category 5 say: LZ_KNOWN for an hour of 0 to
 * 23 with a minute of 0 to 59, LZ_ARRIVED for 31 with 63, LZ_NO_CODE for all else.
 * The value of a time is 256 * hour + minute. The zeros of an empty slot would be
 * told as 0:00, so ask lz_slots_used first.
 */
#define LZ_ARRIVAL_HOUR(answer) LZ_PAGE(answer)
#define LZ_ARRIVAL_MINUTE(answer) LZ_MARK(answer)
uint32_t lz_arrival(uint8_t hour, uint8_t minute);

/*
 * What the height of category 5 says: 14 is unknown, and 1 to 13 and 15 are told
 * as they are. Such a code is no length; table 4.1.2-23 of IS-QZSS-DCR-010 says
 * what it stands for, and leaves 7 to 13 open.
 */
uint32_t lz_height(uint8_t code);

/*
 * What day, hour and minute of category 8 say: LZ_KNOWN for a day of 1 to 31 with
 * an hour of 0 to 23 and a minute of 0 to 59, LZ_UNKNOWN for 0 with 31 and 63,
 * LZ_NO_CODE for all else. The value of a time is 2048 * day + 64 * hour + minute.
 * How much of it is valid is for the ambiguity to say: ask lz_validity too.
 */
#define LZ_ACTIVITY_DAY(answer) ((uint8_t)(LZ_VALUE(answer) >> 11))
#define LZ_ACTIVITY_HOUR(answer) ((uint8_t)((LZ_VALUE(answer) >> 6) & 31))
#define LZ_ACTIVITY_MINUTE(answer) ((uint8_t)(LZ_VALUE(answer) & 63))
uint32_t lz_activity(uint8_t day, uint8_t hour, uint8_t minute);

/*
 * How much of an activity time is valid by its ambiguity: LZ_KNOWN with one of the
 * four values below for 0 to 7, LZ_NO_CODE for all else. The higher the value, the
 * more of day, hour and minute, in this order, is valid.
 */
#define LZ_VALID_NOTHING 0          /* 6, 7: the time is about a month or a year */
#define LZ_VALID_DAY 1              /* 5: hour and minute are not valid */
#define LZ_VALID_DAY_HOUR 2         /* 4: the minute is not valid */
#define LZ_VALID_DAY_HOUR_MINUTE 3  /* 0 to 3 */
uint32_t lz_validity(uint8_t ambiguity);

/*
 * Answers the prefecture, 1 to 47, that a place of category 8 or 9 lies in, or 0
 * where it lies in none: below 100000 and above 4799999.
 */
uint32_t lz_prefecture(uint64_t place);

/*
 * Answers how a place of category 8 or 9 stands to the list of places, the 1,792
 * codes of table 4.1.2-33 of IS-QZSS-DCR-010: one of the three below. A report may
 * name a place that is not in the list, so reading does not ask for it, and an
 * unlisted place is no fault. LZ_OUTSIDE is answered exactly where lz_prefecture
 * answers 0; a report that is read has no such place, but an empty slot does.
 */
#define LZ_OUTSIDE 0   /* it lies in no prefecture */
#define LZ_LISTED 1    /* the list has it */
#define LZ_UNLISTED 2  /* the list does not have it, but it lies in a prefecture */
uint32_t lz_standing(uint64_t place);

/*
 * Answers how many slots of a record are used, 0 to 16: those in front of the
 * first that is zero in all of its bytes. In a record that was read, so are those
 * behind it. In any other, what stands in bytes 9 to 40 where the category has
 * nothing counts as a part of the last slot.
 */
uint32_t lz_slots_used(const uint8_t *record_bytes, size_t record_length);

/* ---- The pages of a Nankai bulletin ---- */

/*
 * Opens a store for the bulletin of a name, with every page absent, and answers
 * 0. What the buffer held before plays no part. Refuses: 255 where name_length is
 * not 8 or store_length not 1205; 8 with the place in a frame of the first value
 * of the name out of range: 14, 21, 25, 30, 35, 41, 53 or 207.
 */
uint32_t lz_open(const uint8_t *name, size_t name_length,
                 uint8_t *store, size_t store_length);

/*
 * Answers the value that opening a store for the name refuses with 8, and 0 where
 * name_length is not 8. It is asked of the name alone, whatever store is lent.
 */
uint64_t lz_open_value(const uint8_t *name, size_t name_length);

/*
 * Takes the page of a record into a store, and answers what became of it. Two
 * texts for a page make it disputed, and it stays so. Preamble, Reserved and
 * spares play no part. Refuses: 14; what writing that record to 32 bytes refuses;
 * 12, 13.
 */
#define LZ_TAKEN_NEW 1       /* it was absent and is held now */
#define LZ_TAKEN_SAME 2      /* it was held with this text */
#define LZ_TAKEN_DISPUTED 3  /* it is disputed, from now on or already before */
uint32_t lz_take(uint8_t *store, size_t store_length,
                 const uint8_t *record_bytes, size_t record_length);

/*
 * Answers the value that taking the record into the store refuses with 8. Nothing
 * is taken.
 */
uint64_t lz_take_value(const uint8_t *store, size_t store_length,
                       const uint8_t *record_bytes, size_t record_length);

/*
 * Merges another store of the same bulletin into a store, which then is as if it
 * had taken the pages of both, and answers 0. Refuses: 14 where either store is
 * not sound; 13.
 */
uint32_t lz_merge(uint8_t *store, size_t store_length,
                  const uint8_t *other, size_t other_length);

/*
 * Answers how many pages are held, how many are disputed, and the lowest page
 * that is not held, 0 where all are. A bulletin is complete where all are held,
 * however many frames came. Refuses: 14.
 */
#define LZ_HELD(answer) LZ_PLACE(answer)
#define LZ_DISPUTED(answer) LZ_PAGE(answer)
#define LZ_LOWEST(answer) LZ_MARK(answer)
uint32_t lz_count(const uint8_t *store, size_t store_length);

/*
 * Puts the texts of the pages in their order, less all zero bytes at the end, to
 * the front of a buffer of any length, and answers how many bytes that are: 0 to
 * LZ_TEXT_MOST. The bytes behind them stay as they were. A character may cross
 * from one page into the next. Refuses: 14, 15, 16.
 */
uint32_t lz_text(const uint8_t *store, size_t store_length,
                 uint8_t *text, size_t text_length);

#ifdef __cplusplus
}
#endif

#endif
