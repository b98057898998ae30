/* The stack that each function of include/lavendelzug.h takes. */
#ifndef DOORS_H
#define DOORS_H

/* Each takes what it did, over every report on standard input. */
void check_doors(void);

#endif
