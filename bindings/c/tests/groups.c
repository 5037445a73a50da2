/* Groups on threads: two threads, each with a group of its own, and a third group that goes from
 * one to the other under a lock.
 *
 * usage: groups FRAMES MAP RULES
 *
 * Each thread steps a world of two clients in its own group, and both step the third by turns. All
 * three worlds have one hash in the end, which is printed with their frames. Where it is built with
 * STACK, that many bytes are all that a thread has for its calls. */
#define _POSIX_C_SOURCE 200809L
#include "../lockstep.h"

#include <pthread.h>
#include <stdio.h>
#include <stdlib.h>

static void must(uint32_t code, const char *what) {
  if (code == LOCKSTEP_OK) return;
  fprintf(stderr, "%s: code %u\n", what, code);
  exit(1);
}

/* A setup and a world of its group, which both threads use, and their lock. */
typedef struct {
  pthread_mutex_t lock;
  lockstep_object setup, world;
  uint32_t left;
} shared;

typedef struct {
  pthread_t thread;
  lockstep_object setup;
  uint32_t frames;
  uint64_t hash;
  shared *third;
} group;

/* Steps a world by a frame in which each of two clients moves an actor. */
static void step(lockstep_object *world) {
  uint8_t bytes[2 * 164];
  size_t len = 0;
  lockstep_head head;
  must(lockstep_read_head(world, &head), "read_head");
  for (uint32_t client = 0; client < 2; client++) {
    lockstep_play play = LOCKSTEP_PLAY;
    uint32_t n = head.frames;
    lockstep_move(&play, 1 + (7 * n + client) % 16, (uint8_t)(3 * n % 16), (uint8_t)(5 * n % 16),
                  false);
    memcpy(bytes + len, play.bytes, play.len);
    len += play.len;
  }
  must(lockstep_world_step(world, bytes, len), "world_step");
}

static uint64_t hash_of(lockstep_object *world) {
  lockstep_head head;
  must(lockstep_read_head(world, &head), "read_head");
  return head.hash;
}

static void *play(void *argument) {
  group *it = argument;
  lockstep_object world = LOCKSTEP_EMPTY;
  pthread_mutex_lock(&it->third->lock);
  must(lockstep_setup_share(&it->setup, &it->third->setup), "setup_share");
  pthread_mutex_unlock(&it->third->lock);
  must(lockstep_world_create(&world, &it->setup, 7, 2), "world_create");
  for (uint32_t n = 0; n < it->frames; n++) {
    step(&world);
    pthread_mutex_lock(&it->third->lock);
    if (it->third->left > 0) {
      step(&it->third->world);
      it->third->left--;
    }
    pthread_mutex_unlock(&it->third->lock);
  }
  it->hash = hash_of(&world);
  lockstep_free(&world);
  lockstep_free(&it->setup);
  return NULL;
}

static void add_file(lockstep_object *setup, uint32_t what, const char *name) {
  static uint8_t bytes[1 << 20];
  FILE *file = fopen(name, "rb");
  size_t len = file ? fread(bytes, 1, sizeof bytes, file) : 0;
  if (!len) exit(1);
  fclose(file);
  must(lockstep_setup_add(setup, what, bytes, len), "setup_add");
}

int main(int argc, char **argv) {
  static shared third = {PTHREAD_MUTEX_INITIALIZER, LOCKSTEP_EMPTY, LOCKSTEP_EMPTY, 0};
  static group groups[2];
  pthread_attr_t with;
  lockstep_fault at;
  uint64_t hash;
  if (argc < 4) return 1;
  must(lockstep_setup_create(&third.setup), "setup_create");
  add_file(&third.setup, LOCKSTEP_MAP, argv[2]);
  for (int i = 3; i < argc; i++) add_file(&third.setup, LOCKSTEP_RULES, argv[i]);
  must(lockstep_setup_read(&third.setup, &at), "setup_read");
  must(lockstep_world_create(&third.world, &third.setup, 7, 2), "world_create");
  third.left = (uint32_t)atoi(argv[1]);
  pthread_attr_init(&with);
#ifdef STACK
  if (pthread_attr_setstacksize(&with, STACK)) return 1;
#endif
  for (int i = 0; i < 2; i++) {
    groups[i].frames = third.left;
    groups[i].third = &third;
  }
  for (int i = 0; i < 2; i++)
    if (pthread_create(&groups[i].thread, &with, play, &groups[i])) return 1;
  for (int i = 0; i < 2; i++) pthread_join(groups[i].thread, NULL);
  hash = hash_of(&third.world);
  lockstep_free(&third.world);
  lockstep_free(&third.setup);
  if (groups[0].hash != hash || groups[1].hash != hash) {
    fprintf(stderr, "three worlds are not one\n");
    return 1;
  }
  printf("frames %s hash %016llx\n", argv[1], (unsigned long long)hash);
  return 0;
}
