/* Steps a world through the frames of a replay by the library, and reads its head and its actors after each.
 *
 * usage: speed REPLAY MAP RULES..
 *
 * It prints the frames and the hash of the world after all of them. At each mark the hash has to be the mark's. */
#include "../../bindings/c/lockstep.h"

#include <stdio.h>
#include <stdlib.h>

/* Bytes of an order behind its tag, by the tag. */
static const uint8_t FIELDS[9] = {0, 7, 9, 7, 4, 6, 4, 5, 1};

static lockstep_actor actors[2048];

static void must(bool holds, const char *what) {
  if (holds) return;
  fprintf(stderr, "speed: %s\n", what);
  exit(1);
}

static uint8_t *read_file(const char *name, size_t *len) {
  FILE *file = fopen(name, "rb");
  must(file != NULL, name);
  fseek(file, 0, SEEK_END);
  *len = (size_t)ftell(file);
  rewind(file);
  uint8_t *bytes = malloc(*len + 1);
  must(bytes && fread(bytes, 1, *len, file) == *len, name);
  fclose(file);
  return bytes;
}

static void add(lockstep_object *setup, uint32_t what, const char *name) {
  size_t len;
  uint8_t *bytes = read_file(name, &len);
  must(lockstep_setup_add(setup, what, bytes, len) == LOCKSTEP_OK, name);
  free(bytes);
}

/* Where the frame ends that begins there. */
static const uint8_t *frame_end(const uint8_t *at, uint32_t clients) {
  for (uint32_t c = 0; c < clients; c++) {
    if (!*at++) continue;
    for (uint8_t count = *at++; count; count--) at += 1 + FIELDS[*at];
  }
  return at;
}

static uint64_t number_at(const uint8_t *at, int bytes) {
  uint64_t number = 0;
  while (bytes--) number = number << 8 | at[bytes];
  return number;
}

int main(int count, char **words) {
  lockstep_object setup = LOCKSTEP_EMPTY, world = LOCKSTEP_EMPTY;
  lockstep_fault fault;
  lockstep_head head;
  size_t len, needed;
  must(count > 3, "usage: speed REPLAY MAP RULES..");
  const uint8_t *bytes = read_file(words[1], &len), *at = bytes + 19;
  must(lockstep_setup_create(&setup) == LOCKSTEP_OK, "no setup");
  for (int i = 3; i < count; i++) add(&setup, LOCKSTEP_RULES, words[i]);
  add(&setup, LOCKSTEP_MAP, words[2]);
  must(lockstep_setup_read(&setup, &fault) == LOCKSTEP_OK, "rules or map have a fault");
  uint32_t clients = bytes[18];
  must(lockstep_world_create(&world, &setup, (uint32_t)number_at(bytes + 14, 4), clients) == LOCKSTEP_OK, "no world");
  must(lockstep_read_head(&world, &head) == LOCKSTEP_OK, "no head");
  while (*at) {
    if (*at == 2) {
      must(number_at(at + 1, 8) == head.hash, "a mark differs");
      at += 9;
      continue;
    }
    const uint8_t *end = frame_end(at + 1, clients);
    must(lockstep_world_step(&world, at + 1, (size_t)(end - at - 1)) == LOCKSTEP_OK, "a frame is refused");
    must(lockstep_read_head(&world, &head) == LOCKSTEP_OK, "no head");
    must(lockstep_read_actors(&world, actors, 2048, &needed) == LOCKSTEP_OK, "no actors");
    at = end;
  }
  printf("frames %u hash %016llx\n", head.frames, (unsigned long long)head.hash);
  lockstep_free(&world);
  lockstep_free(&setup);
  return 0;
}
