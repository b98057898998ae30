/* Refused sentences: each number in its turn, and the buffer as it was. */
#include "groups.h"

#include "check.h"
#include "lavendelzug.h"
#include "samples.h"
#include "sentence_calls.h"

#include <string.h>

/* A character of the example that is wrong, and what the sentence is refused with. */
struct fault {
    unsigned at;
    char wrong;
    unsigned number;
};

/* In the order in which they are refused, but for those of one number. */
static const struct fault faults[] = {
    {0, '!', LZ_REFUSED_SENTENCE},
    {5, 'm', LZ_REFUSED_SENTENCE},
    {6, ';', LZ_REFUSED_SENTENCE},
    {9, ' ', LZ_REFUSED_SENTENCE},
    {STAR, ',', LZ_REFUSED_SENTENCE},
    {CHECKSUM, 'G', LZ_REFUSED_SENTENCE},
    {CHECKSUM + 1, ' ', LZ_REFUSED_SENTENCE},
    {END, '\n', LZ_REFUSED_SENTENCE},
    {END + 1, '\r', LZ_REFUSED_SENTENCE},
    {SATELLITE + 1, '9', LZ_REFUSED_SATELLITE},
    {DIGITS, ',', LZ_REFUSED_LINE},
    {DIGITS + 20, '*', LZ_REFUSED_LINE},
    {STAR - 1, '5', LZ_REFUSED_PADDING},
    {DIGITS + 1, '4', LZ_REFUSED_PREAMBLE},
    {DIGITS + 2, 'B', LZ_REFUSED_PARITY},
};

/* Each of them alone; the checksum is that of what the sentence is, unless that is the fault. */
static void check_faults_alone(const uint8_t *good)
{
    for (size_t i = 0; i < COUNT(faults); i++) {
        uint8_t sentence[LZ_SENTENCE_BYTES];
        memcpy(sentence, good, sizeof sentence);
        sentence[faults[i].at] = (uint8_t)faults[i].wrong;
        if (faults[i].at < STAR) {
            put_checksum(sentence);
        }
        SENTENCE_IS_REFUSED(faults[i].number, sentence);
    }
}

/*
 * A sentence with every fault, of which the first is mended after it was refused. From
 * the satellite on the checksum comes first, and is mended for each.
 */
void check_sentences_refused(void)
{
    uint8_t good[LZ_SENTENCE_BYTES], sentence[LZ_SENTENCE_BYTES], record[LZ_RECORD_BYTES];
    sentence_of(good, 55, hypocenter_line);
    hypocenter_record(record);
    check_faults_alone(good);
    memcpy(sentence, good, sizeof good);
    for (size_t i = 0; i < COUNT(faults); i++) {
        sentence[faults[i].at] = (uint8_t)faults[i].wrong;
    }
    for (size_t i = 0; i < COUNT(faults); i++) {
        if (faults[i].number != LZ_REFUSED_SENTENCE) {
            SENTENCE_IS_REFUSED(LZ_REFUSED_CHECKSUM, sentence);
            put_checksum(sentence);
        }
        SENTENCE_IS_REFUSED(faults[i].number, sentence);
        sentence[faults[i].at] = good[faults[i].at];
    }
    SENTENCE_IS_REFUSED(LZ_REFUSED_CHECKSUM, sentence);
    put_checksum(sentence);
    SENTENCE_READING_GIVES(answered(55), sentence, LZ_SENTENCE_BYTES,
                           BYTES(record, LZ_RECORD_BYTES));
}

/* Numbers that are no listed satellite, some of which look like one. */
static const uint32_t unlisted[] = {
    0,      1,          5,          54,     59,         60,         62,         128 + 55, 256 + 55,
    55 << 8, 0x37373737, 0x80000037, 0x3535, 0x7FFFFFFF, 0x80000000, 0xFFFFFFFF,
};

/* 20, what reading the frame refuses, 16: with all at once, and the first mended. */
void check_sentence_writings_refused(void)
{
    uint8_t frame[LZ_FRAME_BYTES + 1] = {0};
    size_t room = LZ_SENTENCE_BYTES - 1;
    frame_of(hypocenter_line, frame);
    put(frame, 105, 7, 102);
    put_parity(frame);
    put(frame, 0, 8, 0x54);
    put(frame, 250, 6, 1);
    for (size_t i = 0; i < COUNT(unlisted); i++) {
        SENTENCE_WRITING_GIVES(refused(LZ_REFUSED_SATELLITE), unlisted[i], frame, 0, 0, nothing);
        SENTENCE_WRITING_GIVES(refused(LZ_REFUSED_SATELLITE), unlisted[i], frame, LZ_FRAME_BYTES,
                               LZ_SENTENCE_BYTES, nothing);
    }
    for (size_t i = 0; i < SATELLITES; i++) {
        uint8_t mended[LZ_FRAME_BYTES + 1];
        uint32_t number = satellites[i];
        memcpy(mended, frame, sizeof mended);
        SENTENCE_WRITING_GIVES(refused(LZ_REFUSED_LENGTH), number, mended, 31, room, nothing);
        SENTENCE_WRITING_GIVES(refused(LZ_REFUSED_LENGTH), number, mended, 33, room, nothing);
        SENTENCE_WRITING_GIVES(refused(LZ_REFUSED_PADDING), number, mended, 32, room, nothing);
        put(mended, 250, 6, 0);
        SENTENCE_WRITING_GIVES(refused(LZ_REFUSED_PREAMBLE), number, mended, 32, room, nothing);
        put(mended, 0, 8, 0x9A);
        SENTENCE_WRITING_GIVES(refused(LZ_REFUSED_PARITY), number, mended, 32, room, nothing);
        put_parity(mended);
        SENTENCE_WRITING_GIVES(out_of_range(105, 102), number, mended, 32, room, nothing);
        put(mended, 105, 7, 64);
        put_parity(mended);
        SENTENCE_WRITING_GIVES(refused(LZ_REFUSED_SHORT), number, mended, 32, room, nothing);
        SENTENCE_WRITING_GIVES(refused(LZ_REFUSED_SHORT), number, mended, 32, 0, nothing);
    }
}
