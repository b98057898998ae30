/* Refused calls on stores: each number in its turn, and every buffer as it was. */
#include "groups.h"

#include "bulletin_calls.h"
#include "bulletin_samples.h"
#include "check.h"
#include "lavendelzug.h"
#include "samples.h"
#include "spare_samples.h"
#include "wide_records.h"

#include <string.h>

/* A spare of another category than 4 plays a part only where it is too wide. */
static void check_no_page_with_spares(const uint8_t *store, const struct spared *sample)
{
    struct report report;
    for (unsigned k = 0; k < sample->count; k++) {
        const struct spare *spare = &sample->spares[k];
        report_with_spares(&report, sample);
        TAKING_IS(refused(LZ_REFUSED_NO_PAGE), store, report.record);
        put_bytes(report.record + spare->at, spare->bytes, highest_of(spare) + 1);
        TAKING_IS(out_of_range(spare->first, highest_of(spare) + 1), store, report.record);
    }
}

/* An Rc or It that another report may have and no bulletin has. */
struct foreign {
    unsigned category, at;
    uint8_t value;
};

static const struct foreign foreign[] = {
    {TSUNAMI, LZ_RECORD_RC, 1}, {TSUNAMI, LZ_RECORD_RC, 3},  {VOLCANO, LZ_RECORD_RC, 3},
    {VOLCANO, LZ_RECORD_IT, 1}, {ASH_FALL, LZ_RECORD_IT, 1}, {FLOOD, LZ_RECORD_RC, 3},
    {FLOOD, LZ_RECORD_IT, 1},
};

/* Every category but 4 is 12, behind what writing refuses of its record. */
static void check_no_page_taken(const uint8_t *store)
{
    uint8_t record[LZ_RECORD_BYTES];
    for (unsigned i = 0; i < CATEGORIES; i++) {
        if (i == NANKAI) {
            continue;
        }
        check_no_page_with_spares(store, &spared[i]);
        spared[i].record(record);
        TAKING_IS(refused(LZ_REFUSED_NO_PAGE), store, record);
        record[LZ_RECORD_RC] = 0;
        TAKING_IS(out_of_range(14, 0), store, record);
        record[LZ_RECORD_TEXT] = 1;
        TAKING_IS(refused(LZ_REFUSED_UNUSED), store, record);
    }
    for (size_t i = 0; i < COUNT(foreign); i++) {
        spared[foreign[i].category].record(record);
        record[foreign[i].at] = foreign[i].value;
        TAKING_IS(refused(LZ_REFUSED_NO_PAGE), store, record);
    }
}

/* Of a page, whose spare then is too wide. */
static const struct wide wide[] = {
    {LZ_NANKAI_SPARE1, 4, 43, 0x400},
    {LZ_NANKAI_SPARE1, 0xFF, 43, 0xFF00},
    {LZ_NANKAI_SPARE2, 2, 213, 2},
    {LZ_NANKAI_SPARE2, 0xFF, 213, 0xFF},
};

/* Of this bulletin, with either text, or of another one: 8. With a byte behind the fields: 11. */
static void check_wide_page_taken(const uint8_t *store)
{
    uint8_t record[LZ_RECORD_BYTES];
    for (size_t i = 0; i < COUNT(wide); i++) {
        struct answer expected = out_of_range(wide[i].place, wide[i].value);
        page_record(record, 2, page_texts[1]);
        record[wide[i].at] = wide[i].byte;
        TAKING_IS(expected, store, record);
        memcpy(record + LZ_RECORD_TEXT, other_text, LZ_PAGE_TEXT_BYTES);
        TAKING_IS(expected, store, record);
        record[LZ_RECORD_MINUTE] = 44;
        TAKING_IS(expected, store, record);
        record[LZ_NANKAI_SPARE2 + 1] = 1;
        TAKING_IS(refused(LZ_REFUSED_UNUSED), store, record);
    }
}

/* 14, what writing refuses, 12, 13. */
void check_taking_refused(void)
{
    const uint8_t zeros[LZ_STORE_BYTES] = {0};
    uint8_t store[LZ_STORE_BYTES];
    uint8_t record[LZ_RECORD_BYTES] = {0};
    open_store(store);
    check_wide_page_taken(store);
    open_full_store(store);
    check_wide_page_taken(store);
    TAKING_IS(refused(LZ_REFUSED_UNSOUND), zeros, record);
    TAKING_IS(refused(LZ_REFUSED_PREAMBLE), store, record);
    record[LZ_RECORD_PREAMBLE] = 0x53;
    TAKING_IS(refused(LZ_REFUSED_CATEGORY), store, record);
    check_no_page_taken(store);
    for (unsigned i = 0; i < 2; i++) {
        /* the first and the last byte behind the fields */
        static const unsigned unused[2] = {LZ_NANKAI_SPARE2 + 1, LZ_RECORD_SLOT(0) - 1};
        page_record(record, 1, page_texts[0]);
        record[unused[i]] = 1;
        TAKING_IS(refused(LZ_REFUSED_UNUSED), store, record);
    }
    page_record(record, 4, page_texts[0]);
    TAKING_IS(out_of_range(207, 3), store, record);
    record[LZ_NANKAI_TOTAL] = 4;
    TAKING_IS(refused(LZ_REFUSED_OTHER_BULLETIN), store, record);
    page_record(record, 1, page_texts[0]);
    record[LZ_RECORD_MINUTE] = 44;
    TAKING_IS(refused(LZ_REFUSED_OTHER_BULLETIN), store, record);
    nankai_record(record);
    TAKING_IS(refused(LZ_REFUSED_OTHER_BULLETIN), store, record);
    page_record(record, 1, page_texts[0]);
    TAKING_IS(answered(LZ_TAKEN_SAME), store, record);
}

/* 14 for either store, then 13. */
void check_merging_refused(void)
{
    const uint8_t zeros[LZ_STORE_BYTES] = {0};
    uint8_t name[LZ_NAME_BYTES];
    uint8_t store[LZ_STORE_BYTES];
    uint8_t other[LZ_STORE_BYTES] = {0};
    open_full_store(store);
    MERGING_IS(refused(LZ_REFUSED_UNSOUND), store, zeros);
    MERGING_IS(refused(LZ_REFUSED_UNSOUND), zeros, store);
    for (unsigned i = 0; i < LZ_NAME_BYTES; i++) {
        static const uint8_t others[LZ_NAME_BYTES] = {7, 9, 9, 17, 44, 0, 5, 4};
        memcpy(name, bulletin_name, sizeof name);
        name[i] = others[i];
        CALL_IS(answered(LZ_FINE), opening, name, sizeof name, other, sizeof other);
        MERGING_IS(refused(LZ_REFUSED_OTHER_BULLETIN), store, other);
    }
}

static void telling_is_unsound(int line, struct bytes store)
{
    struct answer unsound = refused(LZ_REFUSED_UNSOUND);
    uint8_t lent[LZ_STORE_BYTES + 1], text[LZ_TEXT_MOST];
    memcpy(lent, store.first, store.length);
    fill(text, sizeof text);
    same_answer(__FILE__, line, "lz_text", unsound,
                lz_text(lent, store.length, text, sizeof text));
    same_answer(__FILE__, line, "lz_text", unsound, lz_text(lent, store.length, text, 0));
    untouched(__FILE__, line, "text", text, 0, sizeof text);
    same_answer(__FILE__, line, "lz_count", unsound, lz_count(lent, store.length));
    same_bytes(__FILE__, line, "store", store.first, lent, store.length);
}

/* Whatever is lent beside the store, even what would be refused by itself. */
static void unsound_in_each_call(int line, struct bytes store)
{
    struct answer unsound = refused(LZ_REFUSED_UNSOUND);
    uint8_t full[LZ_STORE_BYTES], page[LZ_RECORD_BYTES], zeros[LZ_RECORD_BYTES] = {0};
    struct bytes sound = {full, sizeof full};
    open_full_store(full);
    page_record(page, 1, page_texts[0]);
    taking_is(__FILE__, line, unsound, store, BYTES(page, sizeof page));
    taking_is(__FILE__, line, unsound, store, BYTES(page, sizeof page - 1));
    taking_is(__FILE__, line, unsound, store, BYTES(zeros, sizeof zeros));
    page[LZ_NANKAI_SPARE2] = 2;
    taking_is(__FILE__, line, unsound, store, BYTES(page, sizeof page));
    merging_is(__FILE__, line, unsound, store, sound);
    merging_is(__FILE__, line, unsound, sound, store);
    full[LZ_NAME_MINUTE]++;
    merging_is(__FILE__, line, unsound, store, sound);
    merging_is(__FILE__, line, unsound, sound, store);
    merging_is(__FILE__, line, unsound, store, store);
    telling_is_unsound(line, store);
}

/* One byte of a full store makes it unsound. */
static void unsound_with(int line, size_t at, uint8_t value)
{
    uint8_t store[LZ_STORE_BYTES];
    open_full_store(store);
    store[at] = value;
    unsound_in_each_call(line, BYTES(store, sizeof store));
}

#define UNSOUND_WITH(at, value) unsound_with(__LINE__, (at), (value))

/* A name out of range, no state, bytes of a page that is not held, a page past the total. */
void check_unsound(void)
{
    UNSOUND_WITH(LZ_NAME_RC, 1);
    UNSOUND_WITH(LZ_NAME_IS, 0);
    UNSOUND_WITH(LZ_NAME_TOTAL, 64);
    UNSOUND_WITH(LZ_STORE_PAGE(1) + LZ_PAGE_STATE, 3);
    UNSOUND_WITH(LZ_STORE_PAGE(2) + LZ_PAGE_STATE, LZ_STATE_ABSENT);
    UNSOUND_WITH(LZ_STORE_PAGE(3) + LZ_PAGE_STATE, LZ_STATE_DISPUTED);
    UNSOUND_WITH(LZ_STORE_PAGE(4) + LZ_PAGE_STATE, LZ_STATE_HELD);
    UNSOUND_WITH(LZ_STORE_PAGE(63) + LZ_PAGE_STATE, LZ_STATE_DISPUTED);
    UNSOUND_WITH(LZ_STORE_BYTES - 1, 1);
}

static const size_t other_lengths[] = {0, LZ_STORE_BYTES - 1, LZ_STORE_BYTES + 1};

/* Full stores but for their length: pages past the total are zeros, and so is a byte more. */
void check_stores_of_other_lengths(void)
{
    uint8_t store[LZ_STORE_BYTES + 1] = {0};
    open_full_store(store);
    for (unsigned i = 0; i < 3; i++) {
        unsound_in_each_call(__LINE__, BYTES(store, other_lengths[i]));
    }
}

/* Pages but for their length are taken as a record of zeros is. */
void check_takings_of_other_lengths(void)
{
    uint8_t full[LZ_STORE_BYTES], record[LZ_RECORD_BYTES + 1] = {0};
    struct bytes store = {full, sizeof full};
    open_full_store(full);
    page_record(record, 3, page_texts[2]);
    for (unsigned i = 0; i < 3; i++) {
        taking_is(__FILE__, __LINE__, refused(LZ_REFUSED_PREAMBLE), store,
                  BYTES(record, other_record_lengths[i]));
    }
    TAKING_IS(answered(LZ_TAKEN_SAME), full, record);
}

/*
 * Neither a good name nor one with a page total out of range is looked at. Asked
 * for the value, the latter is, since that question has no store.
 */
static void opening_is_wrong(size_t name_length, size_t store_length)
{
    uint64_t value = name_length == LZ_NAME_BYTES ? 64 : 0;
    uint8_t name[LZ_NAME_BYTES + 1] = {0}, store[LZ_STORE_BYTES + 1];
    memcpy(name, bulletin_name, LZ_NAME_BYTES);
    fill(store, sizeof store);
    CALL_IS(refused(LZ_WRONG_CALL), opening, name, name_length, store, store_length);
    name[LZ_NAME_TOTAL] = 64;
    CALL_IS(refused_with(LZ_WRONG_CALL, 0, value), opening, name, name_length, store, store_length);
    UNTOUCHED(store, 0, sizeof store);
}

void check_openings_of_other_lengths(void)
{
    static const size_t names[] = {0, LZ_NAME_BYTES - 1, LZ_NAME_BYTES + 1};
    for (unsigned i = 0; i < 3; i++) {
        opening_is_wrong(names[i], LZ_STORE_BYTES);
        opening_is_wrong(LZ_NAME_BYTES, other_lengths[i]);
        for (unsigned j = 0; j < 3; j++) {
            opening_is_wrong(names[i], other_lengths[j]);
        }
    }
}
