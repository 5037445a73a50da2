/* The allocations of the library: counted, and one of them refused. Linked by
 * -Wl,--wrap=malloc,--wrap=realloc,--wrap=free. */
#include "common.h"

#include <stdlib.h>

void *__real_malloc(size_t size);
void *__real_realloc(void *block, size_t size);
void __real_free(void *block);
void *__wrap_malloc(size_t size);
void *__wrap_realloc(void *block, size_t size);
void __wrap_free(void *block);

static bool in_library;
static uint64_t count, refused = UINT64_MAX;
static int64_t held;
static uint32_t code_of_last;

void refuse_allocation(uint64_t number) {
  count = 0;
  refused = number;
}

uint64_t allocations(void) { return count; }

int64_t blocks_held(void) { return held; }

void enter_library(void) { in_library = true; }

uint32_t leave_library(uint32_t code) {
  in_library = false;
  code_of_last = code;
  return code;
}

uint32_t last_code(void) { return code_of_last; }

static bool is_refused(void) { return in_library && count++ == refused; }

void *__wrap_malloc(size_t size) {
  void *block = is_refused() ? NULL : __real_malloc(size);
  if (in_library && block) held++;
  return block;
}

void *__wrap_realloc(void *block, size_t size) {
  void *new_block = is_refused() ? NULL : __real_realloc(block, size);
  if (in_library && new_block && !block) held++;
  return new_block;
}

void __wrap_free(void *block) {
  if (in_library && block) held--;
  __real_free(block);
}
