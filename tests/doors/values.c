/* The values that are told with 8: of each field, of two at once, of names; with others none. */
#include "groups.h"

#include "bulletin_calls.h"
#include "bulletin_samples.h"
#include "check.h"
#include "fields.h"
#include "frame_calls.h"
#include "lavendelzug.h"
#include "samples.h"

#include <string.h>

typedef void (*trial_check)(struct trial *trial);

/* In both forms where the bits hold what is tried, else in the record alone. */
static void check_read_and_written(struct trial *trial)
{
    if (trial->in_frame) {
        REPORT_IS(trial->expected, &trial->report);
    } else {
        WRITING_IS(trial->expected, trial->report.record, LZ_FRAME_BYTES);
    }
}

/* Into a sound store, and into one that has a value out of range itself: that is not told. */
static void check_taken(struct trial *trial)
{
    uint8_t store[LZ_STORE_BYTES];
    if (trial->expected.word == LZ_FINE) {
        return;
    }
    open_full_store(store);
    TAKING_IS(trial->expected, store, trial->report.record);
    store[LZ_NAME_TOTAL] = 64;
    TAKING_IS(refused(LZ_REFUSED_UNSOUND), store, trial->report.record);
}

/*
 * What is answered where a good trial has this value in a field. A later slot whose
 * only field is zero is an empty one, and a next one then stands behind a gap.
 */
static struct answer answer_with(const struct field *field, unsigned slot, uint64_t value)
{
    unsigned first = field->first + field->slot_bits * slot;
    if (in_range(field, value)) {
        return answered(LZ_FINE);
    }
    if (value != 0 || slot == 0 || field->slot_bits != field->width) {
        return out_of_range(first, value);
    }
    return slot + 1 == slots_of(field->category)
               ? answered(LZ_FINE)
               : refused_at(LZ_REFUSED_GAP, first + field->slot_bits);
}

static void try_values(const struct trial *good, const struct field *field, unsigned slot,
                       trial_check check)
{
    uint64_t values[MOST_TRIED];
    unsigned count = values_to_try(field, values);
    for (unsigned i = 0; i < count; i++) {
        struct trial trial = *good;
        put_value(&trial, field, slot, values[i]);
        trial.expected = answer_with(field, slot, values[i]);
        check(&trial);
    }
}

static void for_each_field(trial_check check)
{
    for (unsigned category = 0; category < CATEGORIES; category++) {
        struct trial good;
        good_trial(&good, category);
        for (size_t i = 0; i < field_count; i++) {
            for (unsigned slot = 0; slot < times_of(category, &fields[i]); slot++) {
                try_values(&good, &fields[i], slot, check);
            }
        }
    }
}

void check_values_of_fields(void)
{
    for_each_field(check_read_and_written);
}

void check_values_of_takings(void)
{
    for_each_field(check_taken);
}

/* Fields that pass or not by one another: what stands in them, and which of them is refused. */
struct together {
    unsigned category;
    unsigned places[3]; /* the last is 0 where they are two */
    uint64_t values[3];
    unsigned refused;
};

static const struct together together[] = {
    /* hour and minute of an area: 31 passes with 63 and nothing else */
    {TSUNAMI, {85, 90}, {31, 5}, 0},
    {TSUNAMI, {85, 90}, {31, 0}, 0},
    {TSUNAMI, {85, 90}, {31, 62}, 0},
    {TSUNAMI, {85, 90}, {30, 63}, 0},
    {TSUNAMI, {85, 90}, {5, 63}, 1},
    {TSUNAMI, {85, 90}, {0, 63}, 1},
    {TSUNAMI, {85, 90}, {31, 64 + 63}, 0},
    {TSUNAMI, {85, 90}, {32 + 31, 63}, 0},
    {TSUNAMI, {85, 90}, {5, 64 + 63}, 1},
    {TSUNAMI, {85, 90}, {255, 254}, 0},
    /* day, hour and minute of an activity: all three codes pass together, and no fewer of them */
    {VOLCANO, {53, 58, 63}, {0, 31, 10}, 0},
    {VOLCANO, {53, 58, 63}, {0, 31, 62}, 0},
    {VOLCANO, {53, 58, 63}, {0, 30, 63}, 0},
    {VOLCANO, {53, 58, 63}, {0, 5, 63}, 0},
    {VOLCANO, {53, 58, 63}, {0, 5, 10}, 0},
    {VOLCANO, {53, 58, 63}, {0, 0, 0}, 0},
    {VOLCANO, {53, 58, 63}, {11, 31, 63}, 1},
    {VOLCANO, {53, 58, 63}, {11, 31, 10}, 1},
    {VOLCANO, {53, 58, 63}, {11, 30, 63}, 1},
    {VOLCANO, {53, 58, 63}, {11, 5, 63}, 2},
    {VOLCANO, {53, 58, 63}, {11, 0, 62}, 2},
    {VOLCANO, {53, 58, 63}, {32 + 0, 31, 63}, 0},
    {VOLCANO, {53, 58, 63}, {0, 32 + 31, 63}, 0},
    {VOLCANO, {53, 58, 63}, {0, 31, 64 + 63}, 0},
    {VOLCANO, {53, 58, 63}, {11, 31, 64 + 63}, 1},
    {VOLCANO, {53, 58, 63}, {11, 5, 64 + 63}, 2},
    {VOLCANO, {53, 58, 63}, {255, 254, 253}, 0},
    /* page number and total: it is the total that does not reach the number */
    {NANKAI, {201, 207}, {1, 0}, 1},
    {NANKAI, {201, 207}, {5, 4}, 1},
    {NANKAI, {201, 207}, {63, 62}, 1},
    {NANKAI, {201, 207}, {63, 64}, 1},
    {NANKAI, {201, 207}, {1, 255}, 1},
    {NANKAI, {201, 207}, {0, 0}, 0},
    {NANKAI, {201, 207}, {0, 64}, 0},
    {NANKAI, {201, 207}, {64, 63}, 0},
    {NANKAI, {201, 207}, {64, 65}, 0},
};

void check_values_together(void)
{
    for (size_t i = 0; i < COUNT(together); i++) {
        const struct together *group = &together[i];
        struct trial trial;
        good_trial(&trial, group->category);
        for (unsigned k = 0; k < 3 && group->places[k] != 0; k++) {
            put_value(&trial, field_at(group->category, group->places[k]), 0, group->values[k]);
        }
        trial.expected =
            out_of_range(group->places[group->refused], group->values[group->refused]);
        check_read_and_written(&trial);
        check_taken(&trial);
    }
}

/* The first value that is out of range though the field's bits hold it, if there is one. */
static int wrong_in_bits(const struct field *field, uint64_t *wrong)
{
    uint64_t values[MOST_TRIED];
    unsigned count = values_to_try(field, values);
    for (unsigned i = 0; i < count; i++) {
        if (values[i] <= greatest(field->width) && !in_range(field, values[i])) {
            *wrong = values[i];
            return 1;
        }
    }
    return 0;
}

/* As much as the bytes hold, and as the bits do: told is what stands at the lower place. */
static void check_pair(const struct trial *good, const struct field *lower,
                       const struct field *higher)
{
    uint64_t most = greatest(8 * lower->bytes), low, high;
    struct trial trial = *good;
    put_value(&trial, lower, 0, most);
    put_value(&trial, higher, 0, greatest(8 * higher->bytes) - 1);
    WRITING_IS(out_of_range(lower->first, most), trial.report.record, LZ_FRAME_BYTES);
    if (wrong_in_bits(lower, &low) && wrong_in_bits(higher, &high)) {
        trial = *good;
        put_value(&trial, lower, 0, low);
        put_value(&trial, higher, 0, high);
        REPORT_IS(out_of_range(lower->first, low), &trial.report);
    }
}

void check_values_of_pairs(void)
{
    for (unsigned category = 0; category < CATEGORIES; category++) {
        struct trial good;
        good_trial(&good, category);
        for (size_t i = 0; i < field_count; i++) {
            for (size_t k = 0; k < field_count; k++) {
                const struct field *lower = &fields[i], *higher = &fields[k];
                if (lower->first < higher->first && times_of(category, lower) != 0 &&
                    times_of(category, higher) != 0) {
                    check_pair(&good, lower, higher);
                }
            }
        }
    }
}

/* Something of a frame that is refused before any field, whatever stands there. */
struct before {
    unsigned first, width;
    uint32_t wrong;
    unsigned number;
};

static const struct before before_reading[] = {
    {250, 6, 1, LZ_REFUSED_PADDING},
    {0, 8, 0x54, LZ_REFUSED_PREAMBLE},
    {226, 24, 0, LZ_REFUSED_PARITY},
    {8, 6, 44, LZ_REFUSED_MESSAGE},
    {214, 6, 2, LZ_REFUSED_VERSION},
    {17, 4, 6, LZ_REFUSED_CATEGORY},
};

/* The same of a record, whose bits are those of its bytes. */
static const struct before before_writing[] = {
    {8 * LZ_RECORD_PREAMBLE, 8, 0x54, LZ_REFUSED_PREAMBLE},
    {8 * LZ_RECORD_CATEGORY, 8, 6, LZ_REFUSED_CATEGORY},
    {8 * LZ_RECORD_TEXT, 8, 1, LZ_REFUSED_UNUSED},
};

/* Each of them alone, with a magnitude of 102. Where it is not the parity, that is right. */
void check_values_behind_others(void)
{
    uint8_t store[LZ_STORE_BYTES];
    struct trial good, trial;
    good_trial(&good, HYPOCENTER);
    put_value(&good, field_at(HYPOCENTER, 105), 0, 102);
    good.expected = out_of_range(105, 102);
    check_read_and_written(&good);
    for (size_t i = 0; i < COUNT(before_reading); i++) {
        const struct before *before = &before_reading[i];
        trial = good;
        put(trial.report.frame, before->first, before->width, before->wrong);
        if (before->number != LZ_REFUSED_PARITY) {
            put_parity(trial.report.frame);
        }
        READING_IS(refused(before->number), trial.report.frame, LZ_FRAME_BYTES);
    }
    open_full_store(store);
    for (size_t i = 0; i < COUNT(before_writing); i++) {
        const struct before *before = &before_writing[i];
        trial = good;
        put(trial.report.record, before->first, before->width, before->wrong);
        WRITING_IS(refused(before->number), trial.report.record, LZ_FRAME_BYTES);
        TAKING_IS(refused(before->number), store, trial.report.record);
    }
}

/* What the bytes of a name say, in their order. */
static const struct field name_fields[LZ_NAME_BYTES] = {
    {EVERY, 14, 3, LZ_NAME_RC, 1, 0, 2, {{2, 2}, {7, 7}}},
    {EVERY, 21, 4, LZ_NAME_MONTH, 1, 0, 1, {{1, 12}}},
    {EVERY, 25, 5, LZ_NAME_DAY, 1, 0, 1, {{1, 31}}},
    {EVERY, 30, 5, LZ_NAME_HOUR, 1, 0, 1, {{0, 23}}},
    {EVERY, 35, 6, LZ_NAME_MINUTE, 1, 0, 1, {{0, 59}}},
    {EVERY, 41, 2, LZ_NAME_IT, 1, 0, 2, {{0, 0}, {2, 2}}},
    {EVERY, 53, 4, LZ_NAME_IS, 1, 0, 1, {{1, 15}}},
    {EVERY, 207, 6, LZ_NAME_TOTAL, 1, 0, 1, {{1, 63}}},
};

static void check_name(const uint8_t *name, struct answer expected)
{
    uint8_t store[LZ_STORE_BYTES];
    fill(store, sizeof store);
    CALL_IS(expected, opening, name, LZ_NAME_BYTES, store, sizeof store);
    if (expected.word != LZ_FINE) {
        UNTOUCHED(store, 0, sizeof store);
    }
}

/* Each byte with whatever it can hold; with one that is out of range, each behind it is so too. */
void check_values_of_names(void)
{
    uint8_t name[LZ_NAME_BYTES];
    for (unsigned i = 0; i < LZ_NAME_BYTES; i++) {
        const struct field *field = &name_fields[i];
        for (unsigned value = 0; value <= UINT8_MAX; value++) {
            struct answer refusal = out_of_range(field->first, value);
            memcpy(name, bulletin_name, sizeof name);
            name[field->at] = (uint8_t)value;
            check_name(name, in_range(field, value) ? answered(LZ_FINE) : refusal);
        }
        for (unsigned k = i + 1; k < LZ_NAME_BYTES; k++) {
            memcpy(name, bulletin_name, sizeof name);
            name[field->at] = 255;
            name[name_fields[k].at] = 254;
            check_name(name, out_of_range(field->first, 255));
        }
    }
}
