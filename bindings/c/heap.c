/* The memory of the library, from the C library's malloc, realloc and free, which have to be those
 * of one allocator and align blocks to 16 bytes. The proved code calls these three, and `build`
 * hides them in the archive. */
#include <stdint.h>
#include <stdlib.h>

/* Whether it succeeded, and a pointer that is never null. */
struct tried {
  uint64_t ok;
  void *block;
};

struct tried rattle_alloc(size_t size, size_t align);
struct tried rattle_realloc(void *block, size_t kept, size_t size, size_t align);
void rattle_dealloc(void *block);

static struct tried answer(void *block, size_t align) {
  struct tried it = {block != NULL, block ? block : (void *)align};
  return it;
}

struct tried rattle_alloc(size_t size, size_t align) {
  return answer(malloc(size ? size : align), align);
}

/* `kept` is how many bytes of the block have a meaning: realloc keeps them all. */
struct tried rattle_realloc(void *block, size_t kept, size_t size, size_t align) {
  (void)kept;
  return answer(realloc(block, size ? size : align), align);
}

void rattle_dealloc(void *block) { free(block); }
