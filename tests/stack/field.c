#define _GNU_SOURCE /* for MAP_ANONYMOUS */
#include "field.h"

#include <signal.h>
#include <stdio.h>
#include <stdlib.h>
#include <string.h>
#include <sys/mman.h>
#include <sys/wait.h>
#include <unistd.h>

#define FRAME 32
#define WIDEST 57

/* Any bytes of which no two neighbours are alike. */
static void make_frame(uint8_t *frame)
{
    for (size_t i = 0; i < FRAME; i++) {
        frame[i] = (uint8_t)(0x5A + 73 * i);
    }
}

/* Bit after bit, the most significant first. */
static uint64_t expected(const uint8_t *frame, size_t first, size_t width)
{
    uint64_t value = 0;
    for (size_t bit = first; bit < first + width; bit++) {
        value = 2 * value + (frame[bit / 8] >> (7 - bit % 8)) % 2;
    }
    return value;
}

/* A page that may be read, between two that may not. */
static uint8_t *page;
static size_t page_size;

static void make_page(void)
{
    page_size = (size_t)sysconf(_SC_PAGESIZE);
    uint8_t *three = mmap(NULL, 3 * page_size, PROT_NONE, MAP_PRIVATE | MAP_ANONYMOUS, -1, 0);
    if (three == MAP_FAILED || mprotect(three + page_size, page_size, PROT_READ | PROT_WRITE) != 0) {
        perror("a page of memory");
        exit(1);
    }
    page = three + page_size;
}

static void touched(int signal)
{
    static const char text[] = "reading a field touched a byte that does not hold it\n";
    (void)signal;
    if (write(2, text, sizeof text - 1) < 0) {
        _exit(2);
    }
    _exit(1);
}

/*
 * The field from a frame whose bytes below `from` cannot be read, and from one
 * whose bytes from `to` on cannot.
 */
static void from_cut_frames(const uint8_t *frame, size_t first, size_t width, size_t from,
                            size_t to)
{
    uint64_t wanted = expected(frame, first, width);
    memcpy(page, frame + from, FRAME - from);
    uint64_t above = one_field(page - from, FRAME, first, width);
    memcpy(page + page_size - to, frame, to);
    uint64_t below = one_field(page + page_size - to, FRAME, first, width);
    if (above != wanted || below != wanted) {
        fprintf(stderr, "%zu bits at %zu differ in a frame that is cut\n", width, first);
        exit(1);
    }
}

/*
 * Were a byte touched that cannot be read, it would be seen: here one is. Bytes 0
 * to 2 hold ten bits from 7 on, and one of them is out of reach.
 */
static void check_cut_is_seen(const uint8_t *frame, size_t from, size_t to)
{
    pid_t child = fork();
    if (child == 0) {
        close(2); /* what is said there is expected */
        from_cut_frames(frame, 7, 10, from, to);
        _exit(0);
    }
    int status = 0;
    if (child < 0 || waitpid(child, &status, 0) != child || status == 0) {
        fprintf(stderr, "a byte that cannot be read was read\n");
        exit(1);
    }
}

void check_bytes_touched(void)
{
    uint8_t frame[FRAME];
    make_frame(frame);
    make_page();
    signal(SIGSEGV, touched);
    signal(SIGBUS, touched);
    check_cut_is_seen(frame, 1, 3);
    check_cut_is_seen(frame, 0, 2);
    for (size_t first = 0; first <= 8 * FRAME; first++) {
        for (size_t width = 1; width <= WIDEST && first + width <= 8 * FRAME; width++) {
            from_cut_frames(frame, first, width, first / 8, (first + width + 7) / 8);
        }
    }
    signal(SIGSEGV, SIG_DFL);
    signal(SIGBUS, SIG_DFL);
}
