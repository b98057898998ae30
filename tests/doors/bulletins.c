/* A bulletin of three pages, gathered through the header. */
#include "groups.h"

#include "bulletin_samples.h"
#include "calls.h"
#include "check.h"
#include "lavendelzug.h"

#include <string.h>

#define SAME_COUNTS(store, held, disputed, lowest) \
    SAME_WORD(counted((held), (disputed), (lowest)), lz_count((store), LZ_STORE_BYTES))

static void text_refused(int line, struct answer expected, const uint8_t *store, size_t room)
{
    uint8_t lent[LZ_TEXT_MOST];
    fill(lent, sizeof lent);
    same_answer(__FILE__, line, "lz_text", expected, lz_text(store, LZ_STORE_BYTES, lent, room));
    untouched(__FILE__, line, "text", lent, 0, sizeof lent);
}

#define TEXT_REFUSED(expected, store, room) text_refused(__LINE__, (expected), (store), (room))

static void opening_refused(int line, unsigned at, uint8_t value, unsigned place)
{
    uint8_t name[LZ_NAME_BYTES];
    uint8_t store[LZ_STORE_BYTES];
    memcpy(name, bulletin_name, sizeof name);
    name[LZ_NAME_TOTAL] = 0;
    name[at] = value;
    fill(store, sizeof store);
    call_is(__FILE__, line, out_of_range(place, value),
            (struct call){&opening, {name, sizeof name}, store, sizeof store});
    untouched(__FILE__, line, "store", store, 0, sizeof store);
}

#define OPENING_REFUSED(at, value, place) opening_refused(__LINE__, (at), (value), (place))

/* Every name that is refused here has a page total of 0 besides. */
void check_opening(void)
{
    uint8_t expected[LZ_STORE_BYTES] = {0};
    uint8_t store[LZ_STORE_BYTES];
    memcpy(expected, bulletin_name, LZ_NAME_BYTES);
    open_store(store);
    SAME_BYTES(expected, store, LZ_STORE_BYTES);
    SAME_COUNTS(store, 0, 0, 1);
    TEXT_REFUSED(refused_page(LZ_REFUSED_NOT_HELD, 1, LZ_MARK_ABSENT), store, LZ_TEXT_MOST);

    OPENING_REFUSED(LZ_NAME_RC, 1, 14);
    OPENING_REFUSED(LZ_NAME_RC, 3, 14);
    OPENING_REFUSED(LZ_NAME_MONTH, 13, 21);
    OPENING_REFUSED(LZ_NAME_DAY, 0, 25);
    OPENING_REFUSED(LZ_NAME_HOUR, 24, 30);
    OPENING_REFUSED(LZ_NAME_MINUTE, 60, 35);
    OPENING_REFUSED(LZ_NAME_IT, 1, 41);
    OPENING_REFUSED(LZ_NAME_IS, 16, 53);
    OPENING_REFUSED(LZ_NAME_TOTAL, 0, 207);
    OPENING_REFUSED(LZ_NAME_TOTAL, 64, 207);
}

/* Page 1 is held and page 2 is disputed; then page 1 too. */
void check_taking(void)
{
    uint8_t expected[LZ_STORE_BYTES] = {0};
    uint8_t store[LZ_STORE_BYTES];
    memcpy(expected, bulletin_name, LZ_NAME_BYTES);
    open_store(store);

    SAME_WORD(LZ_TAKEN_NEW, take_page(store, 1, page_texts[0]));
    expected[LZ_STORE_PAGE(1) + LZ_PAGE_STATE] = LZ_STATE_HELD;
    memcpy(expected + LZ_STORE_PAGE(1) + LZ_PAGE_TEXT, page_texts[0], LZ_PAGE_TEXT_BYTES);
    SAME_BYTES(expected, store, LZ_STORE_BYTES);
    SAME_WORD(LZ_TAKEN_SAME, take_page(store, 1, page_texts[0]));
    SAME_BYTES(expected, store, LZ_STORE_BYTES);

    SAME_WORD(LZ_TAKEN_NEW, take_page(store, 2, page_texts[1]));
    SAME_WORD(LZ_TAKEN_DISPUTED, take_page(store, 2, other_text));
    SAME_WORD(LZ_TAKEN_DISPUTED, take_page(store, 2, page_texts[1]));
    SAME_WORD(LZ_TAKEN_DISPUTED, take_page(store, 2, other_text));
    expected[LZ_STORE_PAGE(2) + LZ_PAGE_STATE] = LZ_STATE_DISPUTED;
    SAME_BYTES(expected, store, LZ_STORE_BYTES);
    SAME_COUNTS(store, 1, 1, 2);
    TEXT_REFUSED(refused_page(LZ_REFUSED_NOT_HELD, 2, LZ_MARK_DISPUTED), store, LZ_TEXT_MOST);

    SAME_WORD(LZ_TAKEN_DISPUTED, take_page(store, 1, other_text));
    SAME_COUNTS(store, 0, 2, 1);
    TEXT_REFUSED(refused_page(LZ_REFUSED_NOT_HELD, 1, LZ_MARK_DISPUTED), store, LZ_TEXT_MOST);
}

/* A byte of a record that plays no part in a page, and another value for it. */
struct difference {
    unsigned at;
    uint8_t value;
};

/* From another satellite, or with spare bits set, up to all of them. */
static const struct difference differences[] = {
    {LZ_RECORD_PREAMBLE, 0xC6},
    {LZ_RECORD_RESERVED, 63},
    {LZ_NANKAI_SPARE1, 3},
    {LZ_NANKAI_SPARE1 + 1, 0xFF},
    {LZ_NANKAI_SPARE2, 1},
};

/* Page 1 with no difference, with each alone, and with all at once. */
#define VARIANTS (COUNT(differences) + 2)

static uint32_t take_variant(uint8_t *store, size_t variant, const uint8_t *text)
{
    uint8_t record[LZ_RECORD_BYTES];
    page_record(record, 1, text);
    for (size_t i = 0; i < COUNT(differences); i++) {
        if (variant == i + 1 || variant == VARIANTS - 1) {
            record[differences[i].at] = differences[i].value;
        }
    }
    return take_record(store, record);
}

/* The store is as if plain pages had come, whether the text is the same or another. */
static void check_variants(size_t one, size_t other)
{
    uint8_t plain[LZ_STORE_BYTES], store[LZ_STORE_BYTES];
    open_store(plain);
    SAME_WORD(LZ_TAKEN_NEW, take_page(plain, 1, page_texts[0]));
    open_store(store);
    SAME_WORD(LZ_TAKEN_NEW, take_variant(store, one, page_texts[0]));
    SAME_BYTES(plain, store, LZ_STORE_BYTES);
    SAME_WORD(LZ_TAKEN_SAME, take_variant(store, other, page_texts[0]));
    SAME_BYTES(plain, store, LZ_STORE_BYTES);

    SAME_WORD(LZ_TAKEN_DISPUTED, take_page(plain, 1, other_text));
    SAME_WORD(LZ_TAKEN_DISPUTED, take_variant(store, other, other_text));
    SAME_BYTES(plain, store, LZ_STORE_BYTES);
    SAME_WORD(LZ_TAKEN_DISPUTED, take_variant(store, one, page_texts[0]));
    SAME_BYTES(plain, store, LZ_STORE_BYTES);
}

void check_same_page(void)
{
    for (size_t one = 0; one < VARIANTS; one++) {
        for (size_t other = 0; other < VARIANTS; other++) {
            check_variants(one, other);
        }
    }
}

/* Document 01 warns of "a bulletin called complete because as many frames came as it has pages". */
void check_as_many_frames_as_pages(void)
{
    uint8_t store[LZ_STORE_BYTES];
    open_store(store);
    SAME_WORD(LZ_TAKEN_NEW, take_page(store, 3, page_texts[2]));
    SAME_COUNTS(store, 1, 0, 1);
    SAME_WORD(LZ_TAKEN_NEW, take_page(store, 1, page_texts[0]));
    SAME_WORD(LZ_TAKEN_SAME, take_page(store, 3, page_texts[2]));
    SAME_COUNTS(store, 2, 0, 2);
    TEXT_REFUSED(refused_page(LZ_REFUSED_NOT_HELD, 2, LZ_MARK_ABSENT), store, LZ_TEXT_MOST);
    TEXT_REFUSED(refused_page(LZ_REFUSED_NOT_HELD, 2, LZ_MARK_ABSENT), store, 0);
    SAME_WORD(LZ_TAKEN_NEW, take_page(store, 2, page_texts[1]));
    SAME_COUNTS(store, 3, 0, 0);
}

static void text_is(int line, const uint8_t *expected, uint32_t length, const uint8_t *store,
                    size_t room)
{
    uint8_t lent[LZ_TEXT_MOST + 1];
    fill(lent, sizeof lent);
    same_word(__FILE__, line, "lz_text", length, lz_text(store, LZ_STORE_BYTES, lent, room));
    same_bytes(__FILE__, line, "text", expected, lent, length);
    untouched(__FILE__, line, "text", lent, length, sizeof lent);
}

#define TEXT_IS(expected, length, store, room) \
    text_is(__LINE__, (expected), (length), (store), (room))

/* The longest text: 63 pages, of which the last does not end in a zero. */
static void check_longest_text(void)
{
    uint8_t name[LZ_NAME_BYTES], store[LZ_STORE_BYTES] = {0}, record[LZ_RECORD_BYTES];
    uint8_t expected[LZ_TEXT_MOST];
    memcpy(name, bulletin_name, sizeof name);
    name[LZ_NAME_TOTAL] = 63;
    fill(expected, sizeof expected);
    CALL_IS(answered(LZ_FINE), opening, name, sizeof name, store, sizeof store);
    for (uint8_t page = 63; page >= 1; page--) {
        page_record(record, page, expected + LZ_PAGE_TEXT_BYTES * (page - 1));
        record[LZ_NANKAI_TOTAL] = 63;
        SAME_WORD(LZ_TAKEN_NEW, take_record(store, record));
    }
    SAME_COUNTS(store, 63, 0, 0);
    TEXT_IS(expected, 1134, store, LZ_TEXT_MOST);
    TEXT_REFUSED(refused(LZ_REFUSED_SHORT), store, LZ_TEXT_MOST - 1);
}

/* Zeros within the text stay; those at its end go, over whole pages. */
void check_text(void)
{
    static const uint8_t zeros[LZ_PAGE_TEXT_BYTES] = {0};
    uint8_t store[LZ_STORE_BYTES];
    open_full_store(store);
    TEXT_IS(page_texts[0], BULLETIN_TEXT_BYTES, store, LZ_TEXT_MOST);
    TEXT_IS(page_texts[0], BULLETIN_TEXT_BYTES, store, BULLETIN_TEXT_BYTES);
    TEXT_REFUSED(refused(LZ_REFUSED_SHORT), store, BULLETIN_TEXT_BYTES - 1);
    TEXT_REFUSED(refused(LZ_REFUSED_SHORT), store, 0);

    open_store(store);
    take_page(store, 1, page_texts[0]);
    take_page(store, 2, zeros);
    take_page(store, 3, zeros);
    TEXT_IS(page_texts[0], LZ_PAGE_TEXT_BYTES, store, LZ_PAGE_TEXT_BYTES);

    open_store(store);
    for (uint8_t page = 1; page <= 3; page++) {
        SAME_WORD(LZ_TAKEN_NEW, take_page(store, page, zeros));
    }
    SAME_COUNTS(store, 3, 0, 0);
    TEXT_IS(zeros, 0, store, 0);
    check_longest_text();
}

/* The live bulletin is lent to open another, whose name is refused: its pages are still there. */
void check_live_store_kept(void)
{
    uint8_t name[LZ_NAME_BYTES], store[LZ_STORE_BYTES], before[LZ_STORE_BYTES];
    memcpy(name, bulletin_name, sizeof name);
    name[LZ_NAME_TOTAL] = 64;
    open_full_store(store);
    memcpy(before, store, sizeof before);
    CALL_IS(out_of_range(207, 64), opening, name, sizeof name, store, sizeof store);
    SAME_BYTES(before, store, LZ_STORE_BYTES);
    CALL_IS(refused(LZ_WRONG_CALL), opening, name, sizeof name - 1, store, sizeof store);
    SAME_BYTES(before, store, LZ_STORE_BYTES);
    SAME_COUNTS(store, 3, 0, 0);
    TEXT_IS(page_texts[0], BULLETIN_TEXT_BYTES, store, LZ_TEXT_MOST);
    SAME_WORD(LZ_TAKEN_SAME, take_page(store, 1, page_texts[0]));
}

/* Merges b into a copy of a. */
static void merged(const uint8_t *a, const uint8_t *b, uint8_t *both)
{
    uint8_t before[LZ_STORE_BYTES];
    memcpy(before, b, LZ_STORE_BYTES);
    memcpy(both, a, LZ_STORE_BYTES);
    SAME_WORD(LZ_FINE, lz_merge(both, LZ_STORE_BYTES, b, LZ_STORE_BYTES));
    SAME_BYTES(before, b, LZ_STORE_BYTES);
}

/* One receiver has pages 1 and 2, the other 1, another text for 2, and 3. */
void check_merging(void)
{
    uint8_t none[LZ_STORE_BYTES], one[LZ_STORE_BYTES], other[LZ_STORE_BYTES];
    uint8_t expected[LZ_STORE_BYTES], both[LZ_STORE_BYTES];
    open_store(none);
    open_store(one);
    take_page(one, 1, page_texts[0]);
    take_page(one, 2, page_texts[1]);
    open_store(other);
    take_page(other, 1, page_texts[0]);
    take_page(other, 2, other_text);
    take_page(other, 3, page_texts[2]);

    merged(none, other, both);
    SAME_BYTES(other, both, LZ_STORE_BYTES);
    merged(other, none, both);
    SAME_BYTES(other, both, LZ_STORE_BYTES);

    open_full_store(expected);
    memset(expected + LZ_STORE_PAGE(2), 0, 1 + LZ_PAGE_TEXT_BYTES);
    expected[LZ_STORE_PAGE(2) + LZ_PAGE_STATE] = LZ_STATE_DISPUTED;
    merged(one, other, both);
    SAME_BYTES(expected, both, LZ_STORE_BYTES);
    merged(other, one, both);
    SAME_BYTES(expected, both, LZ_STORE_BYTES);
    SAME_COUNTS(both, 2, 1, 2);
    merged(both, one, none);
    SAME_BYTES(expected, none, LZ_STORE_BYTES);
    TEXT_REFUSED(refused_page(LZ_REFUSED_NOT_HELD, 2, LZ_MARK_DISPUTED), both, LZ_TEXT_MOST);
}
