/* What has a value in its right length has none in another, and rubbish has none. */
#include "groups.h"

#include "bulletin_calls.h"
#include "bulletin_samples.h"
#include "check.h"
#include "lavendelzug.h"
#include "samples.h"

#include <string.h>

static const size_t other_lengths[] = {0, 1, 31, 33, 250, 252, 1204, 1206};

#define LONGEST 1206

/* Bytes to be lent, of any length. */
struct lent {
    uint8_t frame[LONGEST], line[LONGEST], record[LONGEST], name[LONGEST], store[LONGEST];
};

static void rubbish(struct lent *lent)
{
    fill(lent->frame, LONGEST);
    fill(lent->line, LONGEST);
    fill(lent->record, LONGEST);
    fill(lent->name, LONGEST);
    fill(lent->store, LONGEST);
}

/* In front of rubbish: a magnitude of 102, and a page total of 64; and a sound store. */
static void refused_by_their_values(struct lent *lent)
{
    rubbish(lent);
    frame_of(hypocenter_line, lent->frame);
    put(lent->frame, 105, 7, 102);
    put_parity(lent->frame);
    SAME_WORD(LZ_FINE, lz_write_line(lent->frame, LZ_FRAME_BYTES, lent->line, LONGEST));
    hypocenter_record(lent->record);
    lent->record[LZ_QUAKE_MAGNITUDE] = 102;
    memcpy(lent->name, bulletin_name, LZ_NAME_BYTES);
    lent->name[LZ_NAME_TOTAL] = 64;
    open_full_store(lent->store);
}

/* With the right lengths they have values. A buffer for a record plays no part in these. */
static void check_right_lengths(const struct lent *lent)
{
    uint8_t given[LONGEST];
    fill(given, sizeof given);
    CALL_IS(out_of_range(105, 102), reading, lent->frame, LZ_FRAME_BYTES, given, LZ_RECORD_BYTES);
    CALL_IS(out_of_range(105, 102), line_reading, lent->line, LZ_LINE_DIGITS, given,
            LZ_RECORD_BYTES);
    CALL_IS(out_of_range(105, 102), writing, lent->record, LZ_RECORD_BYTES, given, LZ_FRAME_BYTES);
    CALL_IS(out_of_range(207, 64), opening, lent->name, LZ_NAME_BYTES, given, LZ_STORE_BYTES);
    TAKING_IS(out_of_range(105, 102), lent->store, lent->record);
    for (size_t i = 0; i < COUNT(other_lengths); i++) {
        size_t length = other_lengths[i];
        CALL_IS(refused_with(LZ_WRONG_CALL, 0, 102), reading, lent->frame, LZ_FRAME_BYTES, given,
                length);
        CALL_IS(refused_with(LZ_WRONG_CALL, 0, 102), line_reading, lent->line, LZ_LINE_DIGITS,
                given, length);
    }
    UNTOUCHED(given, 0, sizeof given);
}

/* With another length there is no value, whatever the bytes are. */
static void check_wrong_length(const struct lent *lent, size_t length)
{
    uint8_t given[LONGEST], store[LZ_STORE_BYTES];
    fill(given, sizeof given);
    CALL_IS(refused(LZ_REFUSED_LENGTH), reading, lent->frame, length, given, LZ_RECORD_BYTES);
    CALL_IS(refused(LZ_REFUSED_LINE), line_reading, lent->line, length, given, LZ_RECORD_BYTES);
    CALL_IS(refused(LZ_REFUSED_PREAMBLE), writing, lent->record, length, given, LZ_FRAME_BYTES);
    CALL_IS(refused(LZ_REFUSED_LENGTH), writing, lent->record, LZ_RECORD_BYTES, given, length);
    CALL_IS(refused(LZ_WRONG_CALL), opening, lent->name, length, given, LZ_STORE_BYTES);
    UNTOUCHED(given, 0, sizeof given);
    taking_is(__FILE__, __LINE__, refused(LZ_REFUSED_UNSOUND), BYTES(lent->store, length),
              BYTES(lent->record, LZ_RECORD_BYTES));
    open_full_store(store);
    taking_is(__FILE__, __LINE__, refused(LZ_REFUSED_PREAMBLE), BYTES(store, sizeof store),
              BYTES(lent->record, length));
}

void check_values_of_other_lengths(void)
{
    struct lent lent;
    refused_by_their_values(&lent);
    check_right_lengths(&lent);
    for (size_t i = 0; i < COUNT(other_lengths); i++) {
        refused_by_their_values(&lent);
        check_wrong_length(&lent, other_lengths[i]);
        rubbish(&lent);
        check_wrong_length(&lent, other_lengths[i]);
    }
}
