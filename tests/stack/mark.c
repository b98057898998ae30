#define _GNU_SOURCE /* for makecontext */
#include "mark.h"

#include <stdio.h>
#include <stdlib.h>
#include <string.h>
#include <ucontext.h>

static unsigned char painted[128 * 1024];
static ucontext_t here, there;

static size_t mark_of(void (*call)(void), unsigned char paint)
{
    memset(painted, paint, sizeof painted);
    if (getcontext(&there) != 0) {
        perror("getcontext");
        exit(1);
    }
    there.uc_stack.ss_sp = painted;
    there.uc_stack.ss_size = sizeof painted;
    there.uc_link = &here;
    makecontext(&there, call, 0);
    swapcontext(&here, &there);
    size_t lowest = 0;
    while (lowest < sizeof painted && painted[lowest] == paint) {
        lowest++;
    }
    if (lowest == 0) {
        fprintf(stderr, "a call went down to the end of its stack\n");
        exit(1);
    }
    return sizeof painted - lowest;
}

static void nothing(void)
{
}

static size_t beyond_nothing(void (*call)(void), unsigned char paint)
{
    return mark_of(call, paint) - mark_of(nothing, paint);
}

/* Two paints: a byte that happens to be written as one of them is not the other. */
size_t stack_of(void (*call)(void))
{
    size_t one = beyond_nothing(call, 0xA5);
    size_t other = beyond_nothing(call, 0x5A);
    return one > other ? one : other;
}

static void takes_1000(void)
{
    volatile unsigned char bytes[1000];
    for (size_t i = 0; i < sizeof bytes; i++) {
        bytes[i] = (unsigned char)i;
    }
}

void check_marks(void)
{
    size_t seen = stack_of(takes_1000);
    if (seen < 1000 || seen > 1100) {
        fprintf(stderr, "1,000 bytes of stack were measured as %zu\n", seen);
        exit(1);
    }
}
