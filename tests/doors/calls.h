/* The calls that may refuse with 8. Beside each of them its value is asked for. */
#ifndef CALLS_H
#define CALLS_H

#include "check.h"

/* Room behind a buffer, in which a call must not write. */
#define BEHIND 9

/* Bytes that are lent to be read. */
struct bytes {
    const uint8_t *first;
    size_t length;
};

#define BYTES(first, length) ((struct bytes){(first), (length)})

/* No bytes, which have an address all the same. */
extern const struct bytes nothing;

/* Asks for a value. Not every question looks at the second bytes, or at the room. */
typedef uint64_t (*value_question)(struct bytes one, struct bytes other, size_t room);

/* A function that reads bytes and gives others, and the question for its value. */
struct function {
    const char *name;
    uint32_t (*call)(const uint8_t *from, size_t length, uint8_t *to, size_t room);
    value_question value;
};

/* lz_read, lz_read_line, lz_read_sentence, lz_write, lz_open. */
extern const struct function reading, line_reading, sentence_reading, writing, opening;

struct call {
    const struct function *function;
    struct bytes from;
    uint8_t *to;
    size_t room;
};

/*
 * The value is asked for twice, of copies of what is read, and no byte of them or
 * around them changes. Then the call is made.
 */
#define CALL_IS(expected, function, from, length, to, room) \
    call_is(__FILE__, __LINE__, (expected), \
            (struct call){&(function), {(from), (length)}, (to), (room)})

void call_is(const char *file, int line, struct answer expected, struct call call);

/* The same question for lz_take, which alone gives something to what it reads from. */
void taking_value_is(const char *file, int line, uint64_t expected, struct bytes store,
                     struct bytes record);

#endif
