/* Random bytes as frames of a world, as packets to a peer and to a server, and as rules.
 *
 * usage: bytes CALLS SEED MAP RULES
 *
 * Each call's bytes end where a page begins that can't be read: a byte too many ends the program
 * by a signal. Checked of each step: it answers OK or BAD_BYTES, and at BAD_BYTES the world stays
 * as it was; of each packet: the call has such a code; of changed rules: they are read, or have a
 * fault within their lines. */
#define _DEFAULT_SOURCE
#include "common.h"

#include <stdlib.h>
#include <sys/mman.h>
#include <unistd.h>

static uint64_t state;

static uint32_t draw(uint32_t most) {
  state ^= state << 13;
  state ^= state >> 7;
  state ^= state << 17;
  return (uint32_t)(state >> 32) % most;
}

/* The end of some pages, after which a page can't be touched. */
static uint8_t *guarded(size_t len) {
  size_t page = (size_t)sysconf(_SC_PAGESIZE), pages = (len + page - 1) / page;
  uint8_t *begin = mmap(NULL, (pages + 1) * page, PROT_READ | PROT_WRITE,
                        MAP_PRIVATE | MAP_ANONYMOUS, -1, 0);
  if (begin == MAP_FAILED || mprotect(begin + pages * page, page, PROT_NONE)) die("mmap");
  return begin + pages * page;
}

enum { MOST_BYTES = 4096 };

typedef struct {
  lockstep_object setup, world, peer, server;
  uint8_t *end; /* of the bytes of a call */
  text rules;
  uint64_t taken, refused;
} trial;

/* Bytes of a frame's play with random orders; gives their length. */
static size_t random_play(uint8_t *to, uint32_t actors) {
  lockstep_play play = LOCKSTEP_PLAY;
  for (uint32_t left = draw(4); left > 0; left--) {
    uint32_t a = 1 + draw(actors);
    switch (draw(8)) {
      case 0: lockstep_move(&play, a, (uint8_t)draw(20), (uint8_t)draw(20), draw(2)); break;
      case 1: lockstep_attack(&play, a, 1 + draw(actors), draw(2)); break;
      case 2: lockstep_harvest(&play, a, (uint8_t)draw(20), (uint8_t)draw(20), draw(2)); break;
      case 3: lockstep_stop(&play, a); break;
      case 4: lockstep_produce(&play, a, (uint16_t)draw(6)); break;
      case 5: lockstep_cancel(&play, a); break;
      case 6: lockstep_donate(&play, (uint8_t)draw(3), draw(300)); break;
      default: lockstep_pace(&play, (uint8_t)draw(10)); break;
    }
  }
  memcpy(to, play.bytes, play.len);
  return play.len;
}

/* Changes bytes, cuts, or appends. */
static size_t spoiled(uint8_t *bytes, size_t len) {
  switch (draw(8)) {
    case 0: return len > 0 ? draw((uint32_t)len) : 0;
    case 1:
      for (uint32_t i = draw(4) + 1; i > 0; i--) bytes[len++] = (uint8_t)draw(256);
      return len;
    case 2:
    case 3:
      for (uint32_t i = draw(3) + 1; i > 0 && len > 0; i--)
        bytes[draw((uint32_t)len)] = (uint8_t)draw(256);
      return len;
    default: return len;
  }
}

/* Puts random bytes at the end of the page: a frame of two clients, or noise; gives where they
 * begin. */
static uint8_t *random_bytes(trial *it, size_t *len) {
  uint8_t bytes[MOST_BYTES];
  *len = 0;
  if (draw(4) == 0) {
    *len = draw(40);
    for (size_t i = 0; i < *len; i++) bytes[i] = (uint8_t)draw(draw(2) ? 256 : 4);
  } else {
    for (int client = 0; client < 2; client++) {
      if (draw(500)) *len += random_play(bytes + *len, 16);
      else bytes[(*len)++] = 0;
    }
  }
  *len = spoiled(bytes, *len);
  memcpy(it->end - *len, bytes, *len);
  return it->end - *len;
}

static uint64_t hash_of(lockstep_object *any) {
  lockstep_head head;
  MUST(lockstep_read_head(any, &head));
  return head.hash + head.frames;
}

static void step(trial *it) {
  size_t len;
  uint8_t *bytes = random_bytes(it, &len);
  uint64_t before = hash_of(&it->world);
  uint32_t code = ASK(lockstep_world_step(&it->world, bytes, len));
  if (code == LOCKSTEP_OK) {
    it->taken++;
    return;
  }
  if (code != LOCKSTEP_BAD_BYTES) die("world_step: code %u", code);
  it->refused++;
  if (hash_of(&it->world) != before) die("bad bytes, and the world has changed");
}

/* Puts a packet at the end of the page, of a client or of the server, spoiled or not. Gives where
 * it begins. */
static uint8_t *random_packet(trial *it, bool is_up, size_t *len) {
  static const uint8_t tags[2][4] = {{19, 19, 19, 20}, {2, 2, 2, 3}};
  uint8_t bytes[MOST_BYTES] = {0}, play[256];
  size_t at = 2;
  uint8_t tag = draw(200) ? tags[is_up][draw(4)] : (uint8_t)draw(24);
  bytes[at++] = tag;
  if (!is_up) bytes[at++] = (uint8_t)draw(draw(50) ? 2 : 4);
  lockstep_put_(bytes + at, draw(50) ? draw(30) : 262143 + draw(3));
  at += 4;
  if (tag == 3) {
    at += 8;
  } else if (tag != 20) {
    size_t size = random_play(play, 16) - 1;
    memcpy(bytes + at, play + 1, size);
    at += size;
  }
  bytes[0] = (uint8_t)(at - 2);
  *len = spoiled(bytes, at);
  memcpy(it->end - *len, bytes, *len);
  return it->end - *len;
}

/* Whether a call may answer this code. */
static bool is_among(uint32_t code, const uint32_t *codes, size_t count) {
  while (count > 0) {
    if (codes[--count] == code) return true;
  }
  return false;
}

static void deliver(trial *it) {
  static const uint32_t codes[7] = {LOCKSTEP_OK,     LOCKSTEP_REPEAT,  LOCKSTEP_CONFLICT,
                                    LOCKSTEP_PAST,   LOCKSTEP_NO_FRAME,  LOCKSTEP_IGNORED,
                                    LOCKSTEP_BAD_BYTES};
  size_t len;
  uint32_t told;
  uint8_t *bytes = random_packet(it, false, &len);
  if (!is_among(ASK(lockstep_peer_deliver(&it->peer, bytes, len, &told)), codes, 7))
    die("peer_deliver: code %u", last_code());
  it->taken += last_code() == LOCKSTEP_OK;
  it->refused += last_code() == LOCKSTEP_BAD_BYTES;
  while (ASK(lockstep_peer_tick(&it->peer, &told)) == LOCKSTEP_OK) {
  }
}

static void up(trial *it) {
  static const uint32_t codes[9] = {LOCKSTEP_OK,    LOCKSTEP_REPEAT,  LOCKSTEP_CONFLICT,
                                    LOCKSTEP_LEFT,  LOCKSTEP_AHEAD,   LOCKSTEP_FULL,
                                    LOCKSTEP_NO_FRAME, LOCKSTEP_IGNORED, LOCKSTEP_BAD_BYTES};
  size_t len;
  uint32_t told;
  uint8_t *bytes = random_packet(it, true, &len);
  if (!is_among(ASK(lockstep_server_up(&it->server, draw(2), bytes, len, &told)), codes, 9))
    die("server_up: code %u", last_code());
  it->taken += last_code() == LOCKSTEP_OK;
  it->refused += last_code() == LOCKSTEP_BAD_BYTES;
  while (ASK(lockstep_server_tick(&it->server, &told)) == LOCKSTEP_OK) {
  }
}

/* Makes the world, the peer and the server anew. */
static void begin(trial *it) {
  lockstep_terms terms = {1, 2, 4, 0};
  terms.seed = draw(1000);
  let_go(&it->world);
  let_go(&it->peer);
  let_go(&it->server);
  MUST(lockstep_world_create(&it->world, &it->setup, terms.seed, 2));
  MUST(lockstep_peer_create(&it->peer, &it->setup, &terms));
  MUST(lockstep_server_create(&it->server, &it->setup, 2, terms.seed));
}

/* A text of rules with bytes that are changed is read, or has a fault within its lines. */
static void read_spoiled(trial *it) {
  lockstep_object setup = LOCKSTEP_EMPTY;
  lockstep_fault at = {0, 7, 0};
  uint8_t *bytes = it->end - it->rules.len;
  memcpy(bytes, it->rules.bytes, it->rules.len);
  for (uint32_t i = draw(5); i > 0; i--)
    bytes[draw((uint32_t)it->rules.len)] = "\t\n :^-#,0a\xff"[draw(11)];
  MUST(lockstep_setup_create(&setup));
  MUST(lockstep_setup_add(&setup, LOCKSTEP_RULES, bytes, it->rules.len));
  memset(bytes, 0, it->rules.len);
  if (ASK(lockstep_setup_read(&setup, &at)) == LOCKSTEP_FAULT) {
    if (at.file != 0 || at.place > it->rules.len || !strcmp(lockstep_cause(at.cause), "?"))
      die("setup_read: cause %u, file %u", at.cause, at.file);
  } else {
    must(last_code(), "lockstep_setup_read");
  }
  let_go(&setup);
}

int main(int argc, char **argv) {
  trial it;
  uint64_t count = argc > 4 ? strtoull(argv[1], NULL, 10) : 0;
  if (argc < 5) die("bytes CALLS SEED MAP RULES");
  memset(&it, 0, sizeof it);
  state = strtoull(argv[2], NULL, 10) * 0x9e3779b97f4a7c15u + 1;
  if (!read_setup(&it.setup, argv[3], argv + 4, argc - 4, stdout)) return 3;
  it.rules = read_file(argv[4]);
  it.end = guarded(it.rules.len > MOST_BYTES ? it.rules.len : MOST_BYTES);
  for (uint64_t i = 0; i < count; i++) {
    if (i % 500 == 0) {
      begin(&it);
      read_spoiled(&it);
    }
    switch (draw(4)) {
      case 0: deliver(&it); break;
      case 1: up(&it); break;
      default: step(&it); break;
    }
  }
  if (count >= 1000 && (it.taken < count / 10 || it.refused < count / 10))
    die("%llu taken, %llu refused", (unsigned long long)it.taken, (unsigned long long)it.refused);
  let_go(&it.world);
  let_go(&it.peer);
  let_go(&it.server);
  let_go(&it.setup);
  free(it.rules.bytes);
  if (blocks_held() != 0) die("%lld blocks were not freed", (long long)blocks_held());
  printf("%llu calls\n", (unsigned long long)count);
  return 0;
}
