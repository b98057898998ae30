/* Taking and merging where nothing changes: what is answered, and every byte that was lent. */
#ifndef BULLETIN_CALLS_H
#define BULLETIN_CALLS_H

#include "calls.h"
#include "lavendelzug.h"

#define TAKING_IS(expected, store, record) \
    taking_is(__FILE__, __LINE__, (expected), BYTES(store, LZ_STORE_BYTES), \
              BYTES(record, LZ_RECORD_BYTES))

#define MERGING_IS(expected, store, other) \
    merging_is(__FILE__, __LINE__, (expected), BYTES(store, LZ_STORE_BYTES), \
               BYTES(other, LZ_STORE_BYTES))

/* Of a taking the value is asked for too. */
void taking_is(const char *file, int line, struct answer expected, struct bytes store,
               struct bytes record);
void merging_is(const char *file, int line, struct answer expected, struct bytes store,
                struct bytes other);

#endif
