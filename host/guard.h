/* Memory between pages that fault, for inputs and buffers. */
#ifndef GUARD_H
#define GUARD_H

#include <stddef.h>
#include <stdint.h>

/* Bytes that can be used; the byte before them and the byte after them cannot. */
struct block {
  uint8_t *bytes;
  size_t size;
};

/* A block of at least this many bytes. */
struct block make_block(size_t size);

/* Makes the block read-only, or lets it be written again. */
void protect_block(struct block block, int is_read_only);

/* Copies an input to the block's end or front and makes the block read-only. */
const uint8_t *place_input(struct block block, const uint8_t *input, size_t length, int at_end);

#endif
