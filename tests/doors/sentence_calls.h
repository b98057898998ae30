/*
 * Reading a sentence and writing a frame as one: what is answered, the value that is
 * told of it, and every byte that was lent.
 */
#ifndef SENTENCE_CALLS_H
#define SENTENCE_CALLS_H

#include "frame_calls.h"

/* Where the parts of a sentence stand. */
#define SATELLITE 7
#define DIGITS 10
#define STAR 73
#define CHECKSUM 74
#define END 76

/* The satellites of table 4.3.1-1. */
#define SATELLITES 5
extern const uint32_t satellites[SATELLITES];

/* Reading gives these bytes, none where it is refused, and leaves all others. */
#define SENTENCE_READING_GIVES(expected, sentence, length, given) \
    gives(__FILE__, __LINE__, (expected), \
          (struct call){&sentence_reading, {(sentence), (length)}, NULL, LZ_RECORD_BYTES}, (given))

#define SENTENCE_WRITING_GIVES(expected, satellite, frame, length, room, given) \
    sentence_writing_gives(__FILE__, __LINE__, (expected), (satellite), \
                           BYTES((frame), (length)), (room), (given))

void sentence_writing_gives(const char *file, int line, struct answer expected,
                            uint32_t satellite, struct bytes frame, size_t room,
                            struct bytes given);

#define SENTENCE_IS_REFUSED(number, sentence) \
    SENTENCE_READING_GIVES(refused(number), (sentence), LZ_SENTENCE_BYTES, nothing)

/* Puts the checksum of its characters into a sentence, put together here and not by the library. */
void put_checksum(uint8_t *sentence);

/* The sentence of a satellite with two digits around a line. */
void sentence_of(uint8_t *sentence, uint32_t satellite, const char *line);

#endif
