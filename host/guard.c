#define _DEFAULT_SOURCE
#include "guard.h"

#include <stdio.h>
#include <stdlib.h>
#include <string.h>
#include <sys/mman.h>
#include <unistd.h>

static void stop(const char *what) {
  perror(what);
  exit(2);
}

struct block make_block(size_t size) {
  size_t page = (size_t)sysconf(_SC_PAGESIZE);
  struct block block;
  block.size = (size + page - 1) / page * page;
  uint8_t *all = mmap(0, block.size + 2 * page, PROT_NONE, MAP_PRIVATE | MAP_ANONYMOUS, -1, 0);
  if (all == MAP_FAILED) stop("mmap");
  block.bytes = all + page;
  protect_block(block, 0);
  return block;
}

void protect_block(struct block block, int is_read_only) {
  int uses = is_read_only ? PROT_READ : PROT_READ | PROT_WRITE;
  if (mprotect(block.bytes, block.size, uses)) stop("mprotect");
}

const uint8_t *place_input(struct block block, const uint8_t *input, size_t length, int at_end) {
  uint8_t *at = at_end ? block.bytes + block.size - length : block.bytes;
  protect_block(block, 0);
  if (length) memcpy(at, input, length);
  protect_block(block, 1);
  return at;
}
