#include "sentence_calls.h"

#include <stdio.h>
#include <string.h>

const uint32_t satellites[SATELLITES] = {55, 56, 57, 58, 61};

/* The satellite of the next writing: the other calls are handed no number beside the bytes. */
static uint32_t next_satellite;

static uint32_t write_sentence(const uint8_t *frame, size_t length, uint8_t *sentence, size_t room)
{
    return lz_write_sentence(next_satellite, frame, length, sentence, room);
}

static uint64_t value_of_sentence_writing(struct bytes frame, struct bytes other, size_t room)
{
    (void)other, (void)room;
    return lz_write_sentence_value(next_satellite, frame.first, frame.length);
}

static const struct function sentence_writing = {"lz_write_sentence", write_sentence,
                                                 value_of_sentence_writing};

void sentence_writing_gives(const char *file, int line, struct answer expected,
                            uint32_t satellite, struct bytes frame, size_t room,
                            struct bytes given)
{
    next_satellite = satellite;
    gives(file, line, expected, (struct call){&sentence_writing, frame, NULL, room}, given);
}

void put_checksum(uint8_t *sentence)
{
    char digits[3];
    unsigned sum = 0;
    for (unsigned i = 1; i < STAR; i++) {
        sum ^= sentence[i];
    }
    snprintf(digits, sizeof digits, "%02X", sum);
    memcpy(sentence + CHECKSUM, digits, 2);
}

void sentence_of(uint8_t *sentence, uint32_t satellite, const char *line)
{
    char text[LZ_SENTENCE_BYTES + 1];
    snprintf(text, sizeof text, "$QZQSM,%02u,%s*00\r\n", (unsigned)satellite % 100, line);
    memcpy(sentence, text, LZ_SENTENCE_BYTES);
    put_checksum(sentence);
}
