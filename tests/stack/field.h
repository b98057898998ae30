/* One field, read from lent bytes by crates/one_field. */
#ifndef FIELD_H
#define FIELD_H

#include <stddef.h>
#include <stdint.h>

uint64_t one_field(const uint8_t *frame, size_t frame_length, size_t first, size_t width);

/* Reading a field, wherever it stands, touches no byte but those that hold it. */
void check_bytes_touched(void);

#endif
