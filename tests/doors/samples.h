/*
 * Reports of document 004, first delivery, as lines and as the bytes of their
 * records, and changes to a frame.
 */
#ifndef SAMPLES_H
#define SAMPLES_H

#include <stddef.h>
#include <stdint.h>

extern const char hypocenter_line[];
extern const char intensity_line[];
extern const char nankai_line[];
extern const char tsunami_line[];
extern const char volcano_line[];
extern const char ash_fall_line[];
extern const char flood_line[];

/* Fills the bytes of a record. */
typedef void (*sample_record)(uint8_t *record);

void hypocenter_record(uint8_t *record);
void intensity_record(uint8_t *record);
void nankai_record(uint8_t *record);
void tsunami_record(uint8_t *record);
void volcano_record(uint8_t *record);
void ash_fall_record(uint8_t *record);
void flood_record(uint8_t *record);

/* What a slot says, in the order of a frame. Not every category has all of it. */
struct slot {
    uint8_t day, hour, minute, strength;
    uint64_t place;
};

/* Puts a slot into a record, in the place of what stood there. */
void put_slot(uint8_t *record, unsigned i, struct slot slot);

/* Lengths that no record has, up to one byte more than it. */
extern const size_t other_record_lengths[3];

/* The frame of 63 digits with capital letters. */
void frame_of(const char *line, uint8_t *frame);

/* Puts a value into a field of a frame, and nothing else. */
void put(uint8_t *frame, unsigned first, unsigned width, uint64_t value);

/* Puts the parity of its other bits into a frame. */
void put_parity(uint8_t *frame);

/* The greatest number that so many bits hold, from 1 up to 64. */
uint64_t greatest(unsigned bits);

/* Puts a number into as many bytes, the most significant first. */
void put_bytes(uint8_t *bytes, unsigned count, uint64_t value);

#endif
