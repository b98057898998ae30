#include "bulletin_samples.h"

#include "calls.h"
#include "check.h"

#include <string.h>

/* Rc, 8 August 16:43, It, Is, page total. */
const uint8_t bulletin_name[LZ_NAME_BYTES] = {2, 8, 8, 16, 43, 2, 4, 3};

const uint8_t page_texts[3][LZ_PAGE_TEXT_BYTES] = {
    {'T', 'h', 'e', ' ', 'f', 'i', 'r', 's', 't', 0, 'p', 'a', 'g', 'e', ',', ' ', 't', 'h'},
    {'e', ' ', 's', 'e', 'c', 'o', 'n', 'd', ' ', 'a', 'n', 'd', ' ', 't', 'h', 'e', ' ', 'l'},
    {'a', 's', 't', '.'},
};

const uint8_t other_text[LZ_PAGE_TEXT_BYTES] = {'e', ' ', 's', 'e', 'c', 'o', 'n', 'd'};

void page_record(uint8_t *record, uint8_t page, const uint8_t *text)
{
    memset(record, 0, LZ_RECORD_BYTES);
    record[LZ_RECORD_CATEGORY] = 4;
    record[LZ_RECORD_PREAMBLE] = 0x9A;
    record[LZ_RECORD_RC] = bulletin_name[LZ_NAME_RC];
    record[LZ_RECORD_MONTH] = bulletin_name[LZ_NAME_MONTH];
    record[LZ_RECORD_DAY] = bulletin_name[LZ_NAME_DAY];
    record[LZ_RECORD_HOUR] = bulletin_name[LZ_NAME_HOUR];
    record[LZ_RECORD_MINUTE] = bulletin_name[LZ_NAME_MINUTE];
    record[LZ_RECORD_IT] = bulletin_name[LZ_NAME_IT];
    record[LZ_NANKAI_IS] = bulletin_name[LZ_NAME_IS];
    record[LZ_NANKAI_PAGE] = page;
    record[LZ_NANKAI_TOTAL] = bulletin_name[LZ_NAME_TOTAL];
    memcpy(record + LZ_RECORD_TEXT, text, LZ_PAGE_TEXT_BYTES);
}

void open_store(uint8_t *store)
{
    fill(store, LZ_STORE_BYTES);
    CALL_IS(answered(LZ_FINE), opening, bulletin_name, LZ_NAME_BYTES, store, LZ_STORE_BYTES);
}

void open_full_store(uint8_t *store)
{
    open_store(store);
    for (uint8_t page = 1; page <= 3; page++) {
        SAME_WORD(LZ_TAKEN_NEW, take_page(store, page, page_texts[page - 1]));
    }
}

uint32_t take_record(uint8_t *store, const uint8_t *record)
{
    taking_value_is(__FILE__, __LINE__, 0, BYTES(store, LZ_STORE_BYTES),
                    BYTES(record, LZ_RECORD_BYTES));
    return lz_take(store, LZ_STORE_BYTES, record, LZ_RECORD_BYTES);
}

uint32_t take_page(uint8_t *store, uint8_t page, const uint8_t *text)
{
    uint8_t record[LZ_RECORD_BYTES];
    page_record(record, page, text);
    return take_record(store, record);
}
