#include "check.h"

#include <inttypes.h>
#include <stdio.h>
#include <stdlib.h>

void same_word(const char *file, int line, const char *what, uint32_t expected,
               uint32_t got)
{
    if (expected != got) {
        fprintf(stderr, "%s:%d: %s: expected %08" PRIX32 ", got %08" PRIX32 "\n",
                file, line, what, expected, got);
        exit(1);
    }
}

void same_value(const char *file, int line, const char *what, uint64_t expected,
                uint64_t got)
{
    if (expected != got) {
        fprintf(stderr, "%s:%d: value of %s: expected %" PRIu64 ", got %" PRIu64 "\n",
                file, line, what, expected, got);
        exit(1);
    }
}

void same_answer(const char *file, int line, const char *what,
                 struct answer expected, uint32_t got)
{
    same_word(file, line, what, expected.word, got);
}

static void same_byte(const char *file, int line, const char *what, size_t at,
                      uint8_t expected, uint8_t got)
{
    if (expected != got) {
        fprintf(stderr, "%s:%d: %s, byte %zu: expected %02X, got %02X\n", file,
                line, what, at, (unsigned)expected, (unsigned)got);
        exit(1);
    }
}

void same_bytes(const char *file, int line, const char *what,
                const uint8_t *expected, const uint8_t *got, size_t length)
{
    for (size_t i = 0; i < length; i++) {
        same_byte(file, line, what, i, expected[i], got[i]);
    }
}

/* No run of zeros, and no byte like its neighbours. */
static uint8_t pattern(size_t i)
{
    return (uint8_t)(0xA5 + 37 * i);
}

void fill(uint8_t *buffer, size_t length)
{
    for (size_t i = 0; i < length; i++) {
        buffer[i] = pattern(i);
    }
}

void untouched(const char *file, int line, const char *what,
               const uint8_t *buffer, size_t from, size_t to)
{
    for (size_t i = from; i < to; i++) {
        same_byte(file, line, what, i, pattern(i), buffer[i]);
    }
}

static uint32_t word(uint32_t first, uint32_t second, uint32_t third, uint32_t last)
{
    return first * 0x1000000u + second * 0x10000u + third * 0x100u + last;
}

struct answer answered(uint32_t answer)
{
    return (struct answer){answer, 0};
}

struct answer refused_page(unsigned number, unsigned page, unsigned mark)
{
    return answered(word(number, 0, page, mark));
}

struct answer refused_with(unsigned number, unsigned place, uint64_t value)
{
    return (struct answer){word(number, place, 0, 0), value};
}

struct answer refused_at(unsigned number, unsigned place)
{
    return refused_with(number, place, 0);
}

struct answer refused(unsigned number)
{
    return refused_at(number, 0);
}

struct answer out_of_range(unsigned place, uint64_t value)
{
    return refused_with(8, place, value);
}

uint32_t counted(unsigned held, unsigned disputed, unsigned lowest)
{
    return word(0, held, disputed, lowest);
}

uint32_t said(unsigned kind, uint32_t value)
{
    return word(0, kind, 0, value);
}
