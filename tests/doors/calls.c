#include "calls.h"

#include "lavendelzug.h"

#include <string.h>

static const uint8_t no_bytes[1];
const struct bytes nothing = {no_bytes, 0};

static uint64_t value_of_reading(struct bytes frame, struct bytes other, size_t room)
{
    (void)other, (void)room;
    return lz_read_value(frame.first, frame.length);
}

static uint64_t value_of_line_reading(struct bytes line, struct bytes other, size_t room)
{
    (void)other, (void)room;
    return lz_read_line_value(line.first, line.length);
}

static uint64_t value_of_sentence_reading(struct bytes sentence, struct bytes other, size_t room)
{
    (void)other, (void)room;
    return lz_read_sentence_value(sentence.first, sentence.length);
}

static uint64_t value_of_writing(struct bytes record, struct bytes other, size_t room)
{
    (void)other;
    return lz_write_value(record.first, record.length, room);
}

static uint64_t value_of_opening(struct bytes name, struct bytes other, size_t room)
{
    (void)other, (void)room;
    return lz_open_value(name.first, name.length);
}

static uint64_t value_of_taking(struct bytes store, struct bytes record, size_t room)
{
    (void)room;
    return lz_take_value(store.first, store.length, record.first, record.length);
}

const struct function reading = {"lz_read", lz_read, value_of_reading};
const struct function line_reading = {"lz_read_line", lz_read_line, value_of_line_reading};
const struct function sentence_reading = {"lz_read_sentence", lz_read_sentence,
                                          value_of_sentence_reading};
const struct function writing = {"lz_write", lz_write, value_of_writing};
const struct function opening = {"lz_open", lz_open, value_of_opening};

/* What is asked, and of what. */
struct question {
    const char *name;
    value_question ask;
    struct bytes one, other;
    size_t room;
};

/* The longest that is lent is a store with a byte more. */
#define COPY_BYTES (1 + LZ_STORE_BYTES + 1 + BEHIND)

/* Puts a copy of the bytes behind so many others. */
static struct bytes copy(uint8_t *buffer, size_t front, struct bytes bytes)
{
    fill(buffer, COPY_BYTES);
    memcpy(buffer + front, bytes.first, bytes.length);
    return BYTES(buffer + front, bytes.length);
}

static void same_copy(const char *file, int line, const uint8_t *buffer, size_t front,
                      struct bytes bytes)
{
    untouched(file, line, "in front of what is asked of", buffer, 0, front);
    same_bytes(file, line, "what is asked of", bytes.first, buffer + front, bytes.length);
    untouched(file, line, "behind what is asked of", buffer, front + bytes.length, COPY_BYTES);
}

/* The second time the copies stand a byte further on, with other bytes behind them. */
static void value_is(const char *file, int line, uint64_t expected, struct question question)
{
    uint8_t one[COPY_BYTES], other[COPY_BYTES];
    for (size_t front = 0; front < 2; front++) {
        struct bytes first = copy(one, front, question.one);
        struct bytes second = copy(other, front, question.other);
        same_value(file, line, question.name, expected,
                   question.ask(first, second, question.room));
        same_copy(file, line, one, front, question.one);
        same_copy(file, line, other, front, question.other);
    }
}

void call_is(const char *file, int line, struct answer expected, struct call call)
{
    const struct function *function = call.function;
    value_is(file, line, expected.value,
             (struct question){function->name, function->value, call.from, nothing, call.room});
    same_word(file, line, function->name, expected.word,
              function->call(call.from.first, call.from.length, call.to, call.room));
}

void taking_value_is(const char *file, int line, uint64_t expected, struct bytes store,
                     struct bytes record)
{
    value_is(file, line, expected,
             (struct question){"lz_take", value_of_taking, store, record, 0});
}
