/* Sentences of a receiver, read and written, of all lengths and of rubbish. */
#include "groups.h"

#include "check.h"
#include "lavendelzug.h"
#include "samples.h"
#include "sentence_calls.h"
#include "spare_samples.h"

#include <ctype.h>
#include <string.h>

/*
 * What comes twice goes: of the head Z, S and M are left, 5A 53 4D, which make 44; of
 * the digits 3, 4, 9, A, C, E and F, 33 34 39 41 43 45 46, which make 3F. That is 7B.
 */
void check_example_sentence(void)
{
    static const char text[] =
        "$QZQSM,55,53AF91AC82800388000059051440C5C82A010830000000000000001030930E4*7B\r\n";
    struct report report;
    report_of(&report, hypocenter_line, hypocenter_record);
    SAME_WORD(LZ_SENTENCE_BYTES, sizeof text - 1);
    SENTENCE_READING_GIVES(answered(55), (const uint8_t *)text, LZ_SENTENCE_BYTES,
                           BYTES(report.record, LZ_RECORD_BYTES));
    SENTENCE_WRITING_GIVES(answered(LZ_FINE), 55, report.frame, LZ_FRAME_BYTES, LZ_RECORD_BYTES,
                           BYTES((const uint8_t *)text, LZ_SENTENCE_BYTES));
}

/* With digits and checksum in capitals, and with both in small letters, which are only read. */
static void check_sentence(const struct report *report, uint32_t number, const char *line)
{
    uint8_t sentence[LZ_SENTENCE_BYTES];
    struct bytes record = BYTES(report->record, LZ_RECORD_BYTES);
    sentence_of(sentence, number, line);
    SENTENCE_READING_GIVES(answered(number), sentence, LZ_SENTENCE_BYTES, record);
    SENTENCE_WRITING_GIVES(answered(LZ_FINE), number, report->frame, LZ_FRAME_BYTES,
                           LZ_SENTENCE_BYTES, BYTES(sentence, LZ_SENTENCE_BYTES));
    for (unsigned i = DIGITS; i < STAR; i++) {
        sentence[i] = (uint8_t)tolower(sentence[i]);
    }
    put_checksum(sentence);
    SENTENCE_READING_GIVES(answered(number), sentence, LZ_SENTENCE_BYTES, record);
    for (unsigned i = CHECKSUM; i < END; i++) {
        sentence[i] = (uint8_t)tolower(sentence[i]);
    }
    SENTENCE_READING_GIVES(answered(number), sentence, LZ_SENTENCE_BYTES, record);
}

void check_sentences(void)
{
    for (unsigned i = 0; i < CATEGORIES; i++) {
        struct report report;
        report_of(&report, spared[i].line, spared[i].record);
        for (size_t k = 0; k < SATELLITES; k++) {
            check_sentence(&report, satellites[k], spared[i].line);
        }
    }
}

/* Sentences of up to as many bytes as a record has, buffers of up to 90, and of other lengths for the record. */
void check_sentence_lengths(void)
{
    uint8_t sentence[LZ_RECORD_BYTES], frame[LZ_FRAME_BYTES], lent[LZ_RECORD_BYTES + 1];
    memset(sentence, '\n', sizeof sentence);
    sentence_of(sentence, 61, flood_line);
    frame_of(flood_line, frame);
    for (size_t length = 0; length <= sizeof sentence; length++) {
        if (length != LZ_SENTENCE_BYTES) {
            SENTENCE_READING_GIVES(refused(LZ_REFUSED_SENTENCE), sentence, length, nothing);
        }
    }
    for (size_t room = 0; room < LZ_SENTENCE_BYTES; room++) {
        SENTENCE_WRITING_GIVES(refused(LZ_REFUSED_SHORT), 61, frame, sizeof frame, room, nothing);
    }
    for (size_t room = LZ_SENTENCE_BYTES; room <= 90; room++) {
        SENTENCE_WRITING_GIVES(answered(LZ_FINE), 61, frame, sizeof frame, room,
                               BYTES(sentence, LZ_SENTENCE_BYTES));
    }
    fill(lent, sizeof lent);
    for (unsigned i = 0; i < 3; i++) {
        size_t length = other_record_lengths[i];
        CALL_IS(refused(LZ_WRONG_CALL), sentence_reading, sentence, LZ_SENTENCE_BYTES, lent,
                length);
        CALL_IS(refused(LZ_WRONG_CALL), sentence_reading, sentence, 2, lent, length);
    }
    UNTOUCHED(lent, 0, sizeof lent);
}

/* A magnitude of 102, which is told where nothing is refused before it. */
void check_sentence_values(void)
{
    uint8_t frame[LZ_FRAME_BYTES], sentence[LZ_SENTENCE_BYTES], lent[LZ_RECORD_BYTES + 1];
    char line[LZ_LINE_DIGITS + 1] = {0};
    frame_of(hypocenter_line, frame);
    put(frame, 105, 7, 102);
    put_parity(frame);
    SAME_WORD(LZ_FINE, lz_write_line(frame, sizeof frame, (uint8_t *)line, LZ_LINE_DIGITS));
    sentence_of(sentence, 57, line);
    SENTENCE_READING_GIVES(out_of_range(105, 102), sentence, sizeof sentence, nothing);
    SENTENCE_READING_GIVES(refused(LZ_REFUSED_SENTENCE), sentence, sizeof sentence - 1, nothing);
    fill(lent, sizeof lent);
    for (unsigned i = 0; i < 3; i++) {
        CALL_IS(refused_with(LZ_WRONG_CALL, 0, 102), sentence_reading, sentence, sizeof sentence,
                lent, other_record_lengths[i]);
    }
    UNTOUCHED(lent, 0, sizeof lent);
    sentence[CHECKSUM] = '0';
    sentence[CHECKSUM + 1] = '0';
    SENTENCE_IS_REFUSED(LZ_REFUSED_CHECKSUM, sentence);
    sentence_of(sentence, 60, line);
    SENTENCE_IS_REFUSED(LZ_REFUSED_SATELLITE, sentence);
    SENTENCE_WRITING_GIVES(out_of_range(105, 102), 57, frame, sizeof frame, 0, nothing);
    SENTENCE_WRITING_GIVES(refused(LZ_REFUSED_SATELLITE), 60, frame, sizeof frame, 0, nothing);
    SENTENCE_WRITING_GIVES(refused(LZ_REFUSED_LENGTH), 57, frame, sizeof frame - 1, 0, nothing);
}

/*
 * Bytes as they come, of every length up to that of a record, for a sentence, a frame
 * and a satellite. The same with what 18 looks at as it should be: that leaves 19, 20
 * where the checksum is right too, and 17 where the satellite is as well.
 */
void check_sentence_rubbish(void)
{
    uint8_t bytes[LZ_RECORD_BYTES], sentence[LZ_SENTENCE_BYTES];
    fill(bytes, sizeof bytes);
    for (size_t length = 0; length <= sizeof bytes; length++) {
        unsigned of_frame = length == LZ_FRAME_BYTES ? LZ_REFUSED_PADDING : LZ_REFUSED_LENGTH;
        SENTENCE_READING_GIVES(refused(LZ_REFUSED_SENTENCE), bytes, length, nothing);
        SENTENCE_WRITING_GIVES(refused(of_frame), 58, bytes, length, length, nothing);
        SENTENCE_WRITING_GIVES(refused(LZ_REFUSED_SATELLITE), (uint32_t)(0xA5A5A5A5u + 37 * length),
                               bytes, length, length, nothing);
    }
    sentence_of(sentence, 0, hypocenter_line);
    fill(sentence + SATELLITE, 2);
    fill(sentence + DIGITS, LZ_LINE_DIGITS);
    SENTENCE_IS_REFUSED(LZ_REFUSED_CHECKSUM, sentence);
    put_checksum(sentence);
    SENTENCE_IS_REFUSED(LZ_REFUSED_SATELLITE, sentence);
    memcpy(sentence + SATELLITE, "56", 2);
    put_checksum(sentence);
    SENTENCE_IS_REFUSED(LZ_REFUSED_LINE, sentence);
}
