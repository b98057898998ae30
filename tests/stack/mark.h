/*
 * How much stack a call takes. It runs on a stack of its own that was painted
 * before; where the paint is gone, the call, or what it called, has written.
 */
#ifndef MARK_H
#define MARK_H

#include <stddef.h>

/* The bytes from the top of the stack down to the lowest that the call wrote. */
size_t stack_of(void (*call)(void));

/* A call that takes 1,000 bytes is seen to take them, and not many more. */
void check_marks(void);

#endif
