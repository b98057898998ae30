/* A bulletin of three pages. */
#ifndef BULLETIN_SAMPLES_H
#define BULLETIN_SAMPLES_H

#include "lavendelzug.h"

/* 40 bytes of text: four on the last page, and a zero within the first. */
#define BULLETIN_TEXT_BYTES 40

extern const uint8_t bulletin_name[LZ_NAME_BYTES];
extern const uint8_t page_texts[3][LZ_PAGE_TEXT_BYTES];
extern const uint8_t other_text[LZ_PAGE_TEXT_BYTES];

void page_record(uint8_t *record, uint8_t page, const uint8_t *text);

void open_store(uint8_t *store);

/* With all three pages. */
void open_full_store(uint8_t *store);

/* What lz_take answers of a record with nothing out of range, so that it has no value. */
uint32_t take_record(uint8_t *store, const uint8_t *record);
uint32_t take_page(uint8_t *store, uint8_t page, const uint8_t *text);

#endif
