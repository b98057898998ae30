#include "doors.h"

#include "bulletin_samples.h"
#include "calls.h"
#include "check.h"
#include "field.h"
#include "lavendelzug.h"
#include "mark.h"
#include "samples.h"

#include <stdio.h>
#include <stdlib.h>
#include <string.h>

/* What the calls are given, and where they answer. */
static uint8_t line[LZ_LINE_DIGITS];
static uint8_t sentence[LZ_SENTENCE_BYTES];
static uint8_t frame[LZ_FRAME_BYTES];
static uint8_t refused_frame[LZ_FRAME_BYTES];
static uint8_t record[LZ_RECORD_BYTES];
static uint8_t page[LZ_RECORD_BYTES];
static uint8_t store[LZ_STORE_BYTES];
static uint8_t full_store[LZ_STORE_BYTES];
static uint8_t text[LZ_TEXT_MOST];
static volatile uint64_t answer;

static void call_field(void) { answer = one_field(frame, sizeof frame, 53, 51); }
static void call_parity(void) { answer = lz_parity(frame, sizeof frame); }
static void call_read(void) { answer = lz_read(frame, sizeof frame, record, sizeof record); }
static void call_refused(void)
{
    answer = lz_read(refused_frame, sizeof refused_frame, record, sizeof record);
}
static void call_read_line(void) { answer = lz_read_line(line, sizeof line, record, sizeof record); }
static void call_write(void) { answer = lz_write(record, sizeof record, frame, sizeof frame); }
static void call_write_line(void) { answer = lz_write_line(frame, sizeof frame, line, sizeof line); }
static void call_read_sentence(void)
{
    answer = lz_read_sentence(sentence, sizeof sentence, record, sizeof record);
}
static void call_write_sentence(void)
{
    answer = lz_write_sentence(55, frame, sizeof frame, sentence, sizeof sentence);
}
static void call_slots_used(void) { answer = lz_slots_used(record, sizeof record); }
static void call_open(void) { answer = lz_open(bulletin_name, LZ_NAME_BYTES, store, sizeof store); }
static void call_take(void) { answer = lz_take(store, sizeof store, page, sizeof page); }
static void call_merge(void) { answer = lz_merge(store, sizeof store, full_store, sizeof full_store); }
static void call_count(void) { answer = lz_count(full_store, sizeof full_store); }
static void call_text(void) { answer = lz_text(full_store, sizeof full_store, text, sizeof text); }
static void call_read_value(void) { answer = lz_read_value(frame, sizeof frame); }
static void call_refused_value(void) { answer = lz_read_value(refused_frame, sizeof refused_frame); }
static void call_read_line_value(void) { answer = lz_read_line_value(line, sizeof line); }
static void call_read_sentence_value(void)
{
    answer = lz_read_sentence_value(sentence, sizeof sentence);
}
static void call_write_sentence_value(void)
{
    answer = lz_write_sentence_value(55, frame, sizeof frame);
}
static void call_write_value(void) { answer = lz_write_value(record, sizeof record, sizeof frame); }
static void call_open_value(void) { answer = lz_open_value(bulletin_name, LZ_NAME_BYTES); }
static void call_take_value(void) { answer = lz_take_value(store, sizeof store, page, sizeof page); }
static void call_depth(void) { answer = lz_depth(500); }
static void call_magnitude(void) { answer = lz_magnitude(101); }
static void call_arrival(void) { answer = lz_arrival(23, 59); }
static void call_height(void) { answer = lz_height(4); }
static void call_activity(void) { answer = lz_activity(31, 23, 59); }
static void call_validity(void) { answer = lz_validity(5); }
static void call_prefecture(void) { answer = lz_prefecture(4600000); }
static void call_standing(void) { answer = lz_standing(4600000); }

/*
 * What each took with the kit of before, which is told and not asked any more:
 * today's compiler sets every local to zeros where a function begins, so that
 * fewer of them share a place. Then what each was measured to take when its row
 * was written, and the most that it takes now. Another compiler of this test
 * may push three words more on the way to the call; a frame that is copied once
 * more is past that. A call that takes as much less did not do its work, or its
 * row is to be written anew.
 */
#define ROOM 24

struct door {
    const char *name;
    void (*call)(void);
    size_t with_older_kit;
    size_t taken_then;
    size_t most;
};

static struct door doors[] = {
    {"one field", call_field, 8, 8, 0},
    {"lz_parity", call_parity, 88, 48, 0},
    {"lz_read, refused by a field", call_refused, 1487, 1329, 0},
    {"lz_read", call_read, 1487, 1329, 0},
    {"lz_read_line", call_read_line, 1615, 1761, 0},
    {"lz_write", call_write, 2271, 1913, 0},
    {"lz_write_line", call_write_line, 8, 8, 0},
    {"lz_read_sentence", call_read_sentence, 1695, 1793, 0},
    {"lz_write_sentence", call_write_sentence, 1503, 1361, 0},
    {"lz_slots_used", call_slots_used, 905, 1337, 0},
    {"lz_open", call_open, 1240, 1240, 0},
    {"lz_take", call_take, 5352, 3817, 0},
    {"lz_merge", call_merge, 6120, 3688, 0},
    {"lz_count", call_count, 3672, 1272, 0},
    {"lz_text", call_text, 3720, 2520, 0},
    {"lz_read_value, of a field", call_refused_value, 1455, 1297, 0},
    {"lz_read_value", call_read_value, 1455, 1297, 0},
    {"lz_read_line_value", call_read_line_value, 1551, 1377, 0},
    {"lz_read_sentence_value", call_read_sentence_value, 1583, 1425, 0},
    {"lz_write_sentence_value", call_write_sentence_value, 1455, 1297, 0},
    {"lz_write_value", call_write_value, 1407, 1273, 0},
    {"lz_open_value", call_open_value, 8, 8, 0},
    {"lz_take_value", call_take_value, 2856, 2505, 0},
    {"lz_depth", call_depth, 8, 8, 0},
    {"lz_magnitude", call_magnitude, 8, 8, 0},
    {"lz_arrival", call_arrival, 8, 8, 0},
    {"lz_height", call_height, 8, 8, 0},
    {"lz_activity", call_activity, 8, 8, 0},
    {"lz_validity", call_validity, 8, 8, 0},
    {"lz_prefecture", call_prefecture, 8, 8, 0},
    {"lz_standing", call_standing, 492, 488, 0},
};

/*
 * The report of the line, and the same with hour 31, where everything else is as
 * it should be; the report as a sentence; a store without pages, of which one is to
 * come, and a full one. Where nothing is out of range, asking for a value goes
 * through every field.
 */
static void prepare(void)
{
    frame_of((const char *)line, frame);
    memcpy(refused_frame, frame, sizeof frame);
    put(refused_frame, 30, 5, 31);
    put_parity(refused_frame);
    CALL_IS(answered(LZ_FINE), reading, frame, sizeof frame, record, sizeof record);
    CALL_IS(out_of_range(30, 31), reading, refused_frame, sizeof frame, record, sizeof record);
    SAME_WORD(LZ_FINE, lz_write_sentence(55, frame, sizeof frame, sentence, sizeof sentence));
    page_record(page, 2, page_texts[1]);
    open_full_store(full_store);
    open_store(store);
}

static void measure(struct door *door)
{
    door->call(); /* once before, so that nothing is left to be linked */
    prepare();
    size_t taken = stack_of(door->call);
    if (taken > door->most) {
        door->most = taken;
    }
}

void check_doors(void)
{
    char input[LZ_LINE_DIGITS + 2];
    int astray = 0, reports = 0;
    while (fgets(input, sizeof input, stdin) != NULL) {
        memcpy(line, input, sizeof line);
        for (size_t i = 0; i < COUNT(doors); i++) {
            measure(&doors[i]);
        }
        reports++;
    }
    for (size_t i = 0; i < COUNT(doors); i++) {
        size_t now = doors[i].most, then = doors[i].taken_then;
        printf("stack of %s: %zu bytes, at most %zu; %zu with the older kit\n", doors[i].name, now, then + ROOM,
               doors[i].with_older_kit);
        astray += now > then + ROOM || now + ROOM < then;
    }
    if (astray != 0 || reports == 0) {
        fprintf(stderr, "%d calls of %zu take more or less than they did, over %d reports\n",
                astray, COUNT(doors), reports);
        exit(1);
    }
}
