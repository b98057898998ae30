#include "bulletin_calls.h"

#include <string.h>

/* lz_take and lz_merge: a store, and what goes into it. */
struct into_store {
    const char *name;
    uint32_t (*call)(uint8_t *, size_t, const uint8_t *, size_t);
};

/* A copy of the bytes is lent, so that they can be compared with it afterwards. */
static void nothing_changes(const char *file, int line, struct answer expected,
                            struct into_store into, struct bytes store, struct bytes other)
{
    uint8_t lent[LZ_STORE_BYTES + 1], lent_beside[LZ_STORE_BYTES + 1];
    memcpy(lent, store.first, store.length);
    memcpy(lent_beside, other.first, other.length);
    same_answer(file, line, into.name, expected,
                into.call(lent, store.length, lent_beside, other.length));
    same_bytes(file, line, "store", store.first, lent, store.length);
    same_bytes(file, line, "lent beside it", other.first, lent_beside, other.length);
}

void taking_is(const char *file, int line, struct answer expected, struct bytes store,
               struct bytes record)
{
    taking_value_is(file, line, expected.value, store, record);
    nothing_changes(file, line, expected, (struct into_store){"lz_take", lz_take}, store, record);
}

void merging_is(const char *file, int line, struct answer expected, struct bytes store,
                struct bytes other)
{
    nothing_changes(file, line, expected, (struct into_store){"lz_merge", lz_merge}, store, other);
}
