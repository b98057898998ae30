/*
 * What a call answered and left, against what is expected. The first difference
 * ends the program.
 */
#ifndef CHECK_H
#define CHECK_H

#include <stddef.h>
#include <stdint.h>

/* How many rows a table has. */
#define COUNT(table) (sizeof(table) / sizeof(table)[0])

#define SAME_WORD(expected, got) \
    same_word(__FILE__, __LINE__, #got, (expected), (got))

/* The answer of a call beside which no value is asked for. */
#define SAME_ANSWER(expected, got) \
    same_answer(__FILE__, __LINE__, #got, (expected), (got))

#define SAME_BYTES(expected, got, length) \
    same_bytes(__FILE__, __LINE__, #got, (expected), (got), (length))

/* A buffer that `fill` filled is as it was then, from one byte on up to another. */
#define UNTOUCHED(buffer, from, to) \
    untouched(__FILE__, __LINE__, #buffer, (buffer), (from), (to))

/*
 * What a call answers, and the value that is told when it is asked for: what is
 * refused with 8, and 0 where nothing is.
 */
struct answer {
    uint32_t word;
    uint64_t value;
};

void same_word(const char *file, int line, const char *what, uint32_t expected,
               uint32_t got);
void same_value(const char *file, int line, const char *what, uint64_t expected,
                uint64_t got);
void same_answer(const char *file, int line, const char *what,
                 struct answer expected, uint32_t got);
void same_bytes(const char *file, int line, const char *what,
                const uint8_t *expected, const uint8_t *got, size_t length);
void untouched(const char *file, int line, const char *what,
               const uint8_t *buffer, size_t from, size_t to);

void fill(uint8_t *buffer, size_t length);

/*
 * Answers, whose words are put together here and not by the header. A field out of
 * range, which is 8, has a value. Where a table says the number it says the value
 * too, and where a buffer for the answer has a wrong length, which is 255, what is
 * read may have one all the same.
 */
struct answer answered(uint32_t answer);
struct answer refused(unsigned number);
struct answer refused_at(unsigned number, unsigned place);
struct answer refused_page(unsigned number, unsigned page, unsigned mark);
struct answer refused_with(unsigned number, unsigned place, uint64_t value);
struct answer out_of_range(unsigned place, uint64_t value);
uint32_t counted(unsigned held, unsigned disputed, unsigned lowest);
uint32_t said(unsigned kind, uint32_t value);

#endif
