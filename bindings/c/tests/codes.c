/* Each code of each call, but for the FULL of the last frame of a world, a peer and a server; and
 * what a setup says of kinds.
 *
 * usage: codes MAP RULES
 *
 * MAP and RULES are the sample ones. */
#include "common.h"

#include <stdlib.h>

static int wrong;

/* That a call answers this code. */
#define WANT(code, call) want(code, ASK(call), #call, __LINE__)
static void want(uint32_t code, uint32_t got, const char *call, int line) {
  if (code == got) return;
  wrong++;
  fprintf(stderr, "line %d: %s: code %u in place of %u\n", line, call, got, code);
}

#define EQUAL(a, b) equal((uint64_t)(a), (uint64_t)(b), #a, __LINE__)
static void equal(uint64_t a, uint64_t b, const char *what, int line) {
  if (a == b) return;
  wrong++;
  fprintf(stderr, "line %d: %s: %llu in place of %llu\n", line, what, (unsigned long long)a,
          (unsigned long long)b);
}

static const char *map_name, *rules_name;

static lockstep_object sample(void) {
  lockstep_object setup = LOCKSTEP_EMPTY;
  char *rules[1];
  rules[0] = (char *)(uintptr_t)rules_name;
  if (!read_setup(&setup, map_name, rules, 1, stderr)) die("the sample has a fault");
  return setup;
}

static uint64_t hash_of(lockstep_object *any) {
  lockstep_head head;
  MUST(lockstep_read_head(any, &head));
  return head.hash;
}

/* ---- Setups ---- */

static void try_adding(void) {
  static const uint8_t none[1];
  lockstep_object setup = LOCKSTEP_EMPTY, other = LOCKSTEP_EMPTY;
  lockstep_fault at = {0, 0, 0};
  WANT(LOCKSTEP_WRONG_OBJECT, lockstep_setup_add(&setup, LOCKSTEP_RULES, none, 0));
  WANT(LOCKSTEP_WRONG_OBJECT, lockstep_setup_read(&setup, &at));
  WANT(LOCKSTEP_OK, lockstep_setup_create(&setup));
  WANT(LOCKSTEP_WRONG_OBJECT, lockstep_setup_create(&setup));
  WANT(LOCKSTEP_BAD_ARGUMENT, lockstep_setup_add(&setup, 2, none, 0));
  for (int i = 0; i < 64; i++)
    WANT(LOCKSTEP_OK, lockstep_setup_add(&setup, LOCKSTEP_RULES, LOCKSTEP_NIL(uint8_t), 0));
  WANT(LOCKSTEP_FULL, lockstep_setup_add(&setup, LOCKSTEP_RULES, none, 0));
  WANT(LOCKSTEP_OK, lockstep_setup_add(&setup, LOCKSTEP_MAP, (const uint8_t *)"Size: 3,2\n", 10));
  WANT(LOCKSTEP_FULL, lockstep_setup_add(&setup, LOCKSTEP_MAP, none, 0));
  WANT(LOCKSTEP_WRONG_OBJECT, lockstep_setup_share(&other, &setup));
  WANT(LOCKSTEP_WRONG_OBJECT, lockstep_world_create(&other, &setup, 1, 1));
  WANT(LOCKSTEP_OK, lockstep_setup_read(&setup, &at));
  WANT(LOCKSTEP_WRONG_OBJECT, lockstep_setup_read(&setup, &at));
  WANT(LOCKSTEP_WRONG_OBJECT, lockstep_setup_add(&setup, LOCKSTEP_RULES, none, 0));
  let_go(&setup);
  let_go(&setup);
  EQUAL(setup.at_ == NULL && setup.kind_ == 0, 1);
}

/* A fault leaves a setup as it was: it can be read again. */
static void try_fault(void) {
  lockstep_object setup = LOCKSTEP_EMPTY, world = LOCKSTEP_EMPTY;
  lockstep_fault at = {0, 9, 0};
  MUST(lockstep_setup_create(&setup));
  MUST(lockstep_setup_add(&setup, LOCKSTEP_RULES, (const uint8_t *)"a:\n", 3));
  MUST(lockstep_setup_add(&setup, LOCKSTEP_RULES, (const uint8_t *)"b:\n\t\t\tc:\n", 9));
  for (int i = 0; i < 2; i++) {
    WANT(LOCKSTEP_FAULT, lockstep_setup_read(&setup, &at));
    EQUAL(strcmp(lockstep_cause(at.cause), "BadIndent"), 0);
    EQUAL(at.file, 1);
    EQUAL(at.place, 2);
    WANT(LOCKSTEP_WRONG_OBJECT, lockstep_world_create(&world, &setup, 1, 1));
  }
  let_go(&setup);
  MUST(lockstep_setup_create(&setup));
  MUST(lockstep_setup_add(&setup, LOCKSTEP_MAP, (const uint8_t *)"Cash: 5\n", 8));
  WANT(LOCKSTEP_FAULT, lockstep_setup_read(&setup, &at));
  EQUAL(strcmp(lockstep_cause(at.cause), "BadField"), 0);
  EQUAL(at.file, 0);
  EQUAL(at.place, 0);
  let_go(&setup);
}

static void try_kinds(lockstep_object *setup) {
  lockstep_kind it;
  uint8_t name[8];
  size_t len = 0;
  MUST(lockstep_setup_kind(setup, 0, &it));
  EQUAL(it.traits, LOCKSTEP_HEALTH | LOCKSTEP_MOBILE | LOCKSTEP_BUILDABLE | LOCKSTEP_VALUED |
                       LOCKSTEP_ARMAMENT);
  EQUAL(it.hp, 100);
  EQUAL(it.cost, 300);
  EQUAL(it.speed, 128);
  EQUAL(it.turn, 64);
  EQUAL(it.costs[0], 2);
  EQUAL(it.costs[1], 1);
  EQUAL(it.costs[2], 4);
  EQUAL(it.costs[3], 0);
  EQUAL(it.range, 4096);
  EQUAL(it.damage, 10);
  EQUAL(it.spread, 4);
  EQUAL(it.reload, 10);
  EQUAL(it.capacity, 0);
  EQUAL(it.duration, 20);
  EQUAL(it.sight, 0);
  MUST(lockstep_setup_kind(setup, 1, &it));
  EQUAL(it.capacity, 10);
  EQUAL(it.load_delay, 4);
  EQUAL(it.unload_delay, 4);
  EQUAL(it.range, 0);
  MUST(lockstep_setup_kind(setup, 3, &it));
  EQUAL(it.traits, LOCKSTEP_HEALTH | LOCKSTEP_BUILDING | LOCKSTEP_REFINERY);
  EQUAL(it.value, 25);
  EQUAL(it.speed, 0);
  WANT(LOCKSTEP_NONE, lockstep_setup_kind(setup, 4, &it));
  WANT(LOCKSTEP_NO_ROOM, lockstep_setup_kind_name(setup, 0, LOCKSTEP_NIL(uint8_t), 0, &len));
  EQUAL(len, 4);
  WANT(LOCKSTEP_OK, lockstep_setup_kind_name(setup, 0, name, 4, &len));
  EQUAL(len == 4 && !memcmp(name, "jeep", 4), 1);
  WANT(LOCKSTEP_NONE, lockstep_setup_kind_name(setup, 4, name, 8, &len));
}

/* ---- Worlds ---- */

static void try_making(lockstep_object *setup) {
  lockstep_object world = LOCKSTEP_EMPTY, copy = LOCKSTEP_EMPTY, other = LOCKSTEP_EMPTY;
  WANT(LOCKSTEP_BAD_ARGUMENT, lockstep_world_create(&world, setup, 1, 0));
  WANT(LOCKSTEP_BAD_ARGUMENT, lockstep_world_create(&world, setup, 1, 17));
  WANT(LOCKSTEP_WRONG_OBJECT, lockstep_world_create(&world, &other, 1, 2));
  WANT(LOCKSTEP_OK, lockstep_world_create(&world, setup, 1, 2));
  WANT(LOCKSTEP_WRONG_OBJECT, lockstep_world_create(&world, setup, 1, 2));
  WANT(LOCKSTEP_WRONG_OBJECT, lockstep_world_create(&other, &world, 1, 2));
  WANT(LOCKSTEP_WRONG_OBJECT, lockstep_setup_share(&world, setup));
  WANT(LOCKSTEP_OK, lockstep_setup_share(&copy, setup));
  WANT(LOCKSTEP_OK, lockstep_world_create(&other, &copy, 1, 2));
  let_go(&copy);
  EQUAL(hash_of(&other), hash_of(&world));
  let_go(&other);
  WANT(LOCKSTEP_OK, lockstep_world_create(&other, setup, 2, 2));
  EQUAL(hash_of(&other) == hash_of(&world), 0);
  let_go(&other);
  let_go(&world);
}

static void try_steps(lockstep_object *setup) {
  static const uint8_t frame[4] = {1, 0, 1, 0}, left[3] = {1, 0, 0}, all_left[2] = {0, 0};
  lockstep_object world = LOCKSTEP_EMPTY;
  lockstep_head head;
  WANT(LOCKSTEP_WRONG_OBJECT, lockstep_world_step(&world, frame, 4));
  WANT(LOCKSTEP_WRONG_OBJECT, lockstep_world_step(setup, frame, 4));
  MUST(lockstep_world_create(&world, setup, 1, 2));
  WANT(LOCKSTEP_BAD_BYTES, lockstep_world_step(&world, LOCKSTEP_NIL(uint8_t), 0));
  WANT(LOCKSTEP_BAD_BYTES, lockstep_world_step(&world, frame, 3));
  WANT(LOCKSTEP_OK, lockstep_world_step(&world, frame, 4));
  WANT(LOCKSTEP_OK, lockstep_world_step(&world, left, 3));
  WANT(LOCKSTEP_BAD_BYTES, lockstep_world_step(&world, frame, 4));
  MUST(lockstep_read_head(&world, &head));
  EQUAL(head.frames, 2);
  EQUAL(head.turns, 2);
  EQUAL(head.gone[0], 0);
  EQUAL(head.gone[1], 1);
  EQUAL(head.cash[1], 2000);
  EQUAL(head.cash[2], 0);
  WANT(LOCKSTEP_OK, lockstep_world_step(&world, all_left, 2));
  MUST(lockstep_read_head(&world, &head));
  EQUAL(head.frames, 3);
  EQUAL(head.gone[0], 1);
  let_go(&world);
}

static void try_ground(lockstep_object *setup) {
  lockstep_object none = LOCKSTEP_EMPTY;
  uint8_t cells[257];
  uint32_t width = 9;
  size_t needed = 9;
  WANT(LOCKSTEP_WRONG_OBJECT, lockstep_setup_terrain(&none, &width, cells, 256, &needed));
  EQUAL(width, 9);
  memset(cells, 0x5a, sizeof cells);
  WANT(LOCKSTEP_NO_ROOM, lockstep_setup_terrain(setup, &width, cells, 255, &needed));
  EQUAL(width, 16);
  EQUAL(needed, 256);
  EQUAL(cells[0], 0x5a);
  WANT(LOCKSTEP_OK, lockstep_setup_terrain(setup, &width, cells, 257, &needed));
  EQUAL(cells[0], 0);
  EQUAL(cells[256], 0x5a);
}

/* What two clients see: one whose scout sees a cell far, and one without actors. */
static void try_seen(lockstep_object *setup) {
  static const char rules[] = "scout:\n\tRevealsShroud:\n\t\tRange: 1c0\n";
  static const char map[] = "Size: 4,3\nActors:\n\ta1: scout\n\t\tOwner: 0\n\t\tLocation: 1,0\n";
  static const uint8_t sight[12] = {1, 1, 1, 0, 0, 1, 0, 0, 0, 0, 0, 0};
  lockstep_object own = LOCKSTEP_EMPTY, world = LOCKSTEP_EMPTY;
  lockstep_fault at = {0, 0, 0};
  uint8_t cells[13];
  uint32_t width = 9;
  size_t needed = 9;
  uint64_t before;
  WANT(LOCKSTEP_WRONG_OBJECT, lockstep_seen(&world, 0, &width, cells, 12, &needed));
  WANT(LOCKSTEP_WRONG_OBJECT, lockstep_seen(setup, 0, &width, cells, 12, &needed));
  MUST(lockstep_setup_create(&own));
  MUST(lockstep_setup_add(&own, LOCKSTEP_RULES, (const uint8_t *)rules, sizeof rules - 1));
  MUST(lockstep_setup_add(&own, LOCKSTEP_MAP, (const uint8_t *)map, sizeof map - 1));
  MUST(lockstep_setup_read(&own, &at));
  MUST(lockstep_world_create(&world, &own, 1, 2));
  before = hash_of(&world);
  WANT(LOCKSTEP_BAD_ARGUMENT, lockstep_seen(&world, 2, &width, cells, 12, &needed));
  WANT(LOCKSTEP_BAD_ARGUMENT, lockstep_seen(&world, 256, &width, cells, 12, &needed));
  EQUAL(width, 9);
  EQUAL(needed, 9);
  memset(cells, 0x5a, sizeof cells);
  WANT(LOCKSTEP_NO_ROOM, lockstep_seen(&world, 0, &width, cells, 11, &needed));
  EQUAL(width, 4);
  EQUAL(needed, 12);
  EQUAL(cells[0], 0x5a);
  WANT(LOCKSTEP_OK, lockstep_seen(&world, 0, &width, cells, 13, &needed));
  EQUAL(memcmp(cells, sight, 12), 0);
  EQUAL(cells[12], 0x5a);
  WANT(LOCKSTEP_OK, lockstep_seen(&world, 1, &width, cells, 12, &needed));
  for (int i = 0; i < 12; i++) EQUAL(cells[i], 0);
  EQUAL(hash_of(&world), before);
  let_go(&world);
  let_go(&own);
}

/* What the actors of a world are to do after an order of each kind. */
static void try_items(lockstep_object *setup) {
  lockstep_object world = LOCKSTEP_EMPTY;
  lockstep_item items[LOCKSTEP_MAX_ITEMS];
  lockstep_play play = LOCKSTEP_PLAY;
  size_t needed = 9;
  WANT(LOCKSTEP_WRONG_OBJECT, lockstep_read_items(setup, 4, items, 1, &needed));
  MUST(lockstep_world_create(&world, setup, 1, 1));
  WANT(LOCKSTEP_NONE, lockstep_read_items(&world, 0, items, 1, &needed));
  WANT(LOCKSTEP_NONE, lockstep_read_items(&world, 17, items, 1, &needed));
  EQUAL(needed, 9);
  WANT(LOCKSTEP_OK, lockstep_read_items(&world, 4, LOCKSTEP_NIL(lockstep_item), 0, &needed));
  EQUAL(needed, 0);
  lockstep_move(&play, 4, 8, 5, false);
  lockstep_attack(&play, 4, 9, true);
  MUST(lockstep_world_step(&world, play.bytes, play.len));
  memset(items, 0x5a, sizeof items);
  WANT(LOCKSTEP_NO_ROOM, lockstep_read_items(&world, 4, items, 1, &needed));
  EQUAL(needed, 2);
  EQUAL(items[0].what, 0x5a5a5a5a);
  WANT(LOCKSTEP_OK, lockstep_read_items(&world, 4, items, 2, &needed));
  EQUAL(items[0].what, 1);
  EQUAL(items[0].x, 8);
  EQUAL(items[0].y, 5);
  EQUAL(items[1].what, 2);
  EQUAL(items[1].id, 9);
  EQUAL(items[2].what, 0x5a5a5a5a);
  let_go(&world);
}

/* Ways of the sample's jeep, kind 0, and of a building, kind 2. */
static void try_ways(lockstep_object *setup) {
  static lockstep_cell cells[256];
  lockstep_object world = LOCKSTEP_EMPTY;
  lockstep_route route = {9, 9};
  uint64_t before;
  WANT(LOCKSTEP_WRONG_OBJECT, lockstep_find_route(setup, 0, 1, 3, 8, 5, cells, 256, &route));
  MUST(lockstep_world_create(&world, setup, 1, 2));
  before = hash_of(&world);
  WANT(LOCKSTEP_BAD_ARGUMENT, lockstep_find_route(&world, 4, 1, 3, 8, 5, cells, 256, &route));
  WANT(LOCKSTEP_BAD_ARGUMENT, lockstep_find_route(&world, 65536, 1, 3, 8, 5, cells, 256, &route));
  WANT(LOCKSTEP_BAD_ARGUMENT, lockstep_find_route(&world, 0, 16, 3, 8, 5, cells, 256, &route));
  WANT(LOCKSTEP_BAD_ARGUMENT, lockstep_find_route(&world, 0, 1, 256, 8, 5, cells, 256, &route));
  WANT(LOCKSTEP_BAD_ARGUMENT, lockstep_find_route(&world, 0, 1, 3, 264, 5, cells, 256, &route));
  WANT(LOCKSTEP_BAD_ARGUMENT, lockstep_find_route(&world, 0, 1, 3, 8, 16, cells, 256, &route));
  WANT(LOCKSTEP_NONE, lockstep_find_route(&world, 0, 1, 3, 1, 3, cells, 256, &route));
  WANT(LOCKSTEP_NONE, lockstep_find_route(&world, 2, 1, 3, 8, 5, cells, 256, &route));
  WANT(LOCKSTEP_NONE, lockstep_find_route(&world, 0, 1, 3, 3, 7, cells, 256, &route));
  EQUAL(route.cost, 9);
  EQUAL(route.count, 9);
  /* Two steps aslant for 14 each, five straight ones for 10 each. */
  memset(cells, 0x5a, sizeof cells);
  WANT(LOCKSTEP_NO_ROOM, lockstep_find_route(&world, 0, 1, 3, 8, 5, cells, 7, &route));
  EQUAL(route.cost, 78);
  EQUAL(route.count, 8);
  EQUAL(cells[0].x, 0x5a);
  WANT(LOCKSTEP_OK, lockstep_find_route(&world, 0, 1, 3, 8, 5, cells, 256, &route));
  EQUAL(cells[0].x, 1);
  EQUAL(cells[0].y, 3);
  EQUAL(cells[7].x, 8);
  EQUAL(cells[7].y, 5);
  EQUAL(cells[8].x, 0x5a);
  EQUAL(hash_of(&world), before);
  let_go(&world);
}

/* What a bot plays: its factory produces, its harvester harvests, its jeep attacks. */
static void try_bot(lockstep_object *setup) {
  lockstep_object world = LOCKSTEP_EMPTY;
  lockstep_play play = LOCKSTEP_PLAY, orders = LOCKSTEP_PLAY;
  WANT(LOCKSTEP_WRONG_OBJECT, lockstep_bot(setup, 0, &play));
  MUST(lockstep_world_create(&world, setup, 1, 2));
  WANT(LOCKSTEP_BAD_ARGUMENT, lockstep_bot(&world, 2, &play));
  WANT(LOCKSTEP_BAD_ARGUMENT, lockstep_bot(&world, 256, &play));
  EQUAL(play.len, 2);
  WANT(LOCKSTEP_OK, lockstep_bot(&world, 0, &play));
  lockstep_produce(&orders, 1, 0);
  lockstep_harvest(&orders, 3, 5, 1, false);
  lockstep_attack(&orders, 4, 7, false);
  EQUAL(play.len, orders.len);
  EQUAL(memcmp(play.bytes, orders.bytes, orders.len), 0);
  let_go(&world);
}

static void try_reading(lockstep_object *setup) {
  static lockstep_actor actors[17];
  lockstep_object world = LOCKSTEP_EMPTY;
  lockstep_head head;
  uint8_t cells[256];
  size_t needed = 0;
  WANT(LOCKSTEP_WRONG_OBJECT, lockstep_read_head(setup, &head));
  WANT(LOCKSTEP_WRONG_OBJECT, lockstep_read_head(&world, &head));
  WANT(LOCKSTEP_WRONG_OBJECT, lockstep_read_actors(setup, actors, 17, &needed));
  WANT(LOCKSTEP_WRONG_OBJECT, lockstep_read_ore(setup, cells, 256, &needed));
  MUST(lockstep_world_create(&world, setup, 1, 2));
  memset(actors, 0x5a, sizeof actors);
  WANT(LOCKSTEP_NO_ROOM, lockstep_read_actors(&world, actors, 15, &needed));
  EQUAL(needed, 16);
  EQUAL(actors[0].id, 0x5a5a5a5a);
  WANT(LOCKSTEP_OK, lockstep_read_actors(&world, actors, 17, &needed));
  EQUAL(actors[16].id, 0x5a5a5a5a);
  EQUAL(actors[3].kind, 0);
  EQUAL(actors[3].owner, 0);
  EQUAL(actors[3].x, 1);
  EQUAL(actors[3].y, 3);
  EQUAL(actors[3].dir, 8);
  EQUAL(actors[8].owner, LOCKSTEP_NOBODY);
  WANT(LOCKSTEP_NO_ROOM, lockstep_read_ore(&world, cells, 255, &needed));
  EQUAL(needed, 256);
  WANT(LOCKSTEP_OK, lockstep_read_ore(&world, cells, 256, &needed));
  EQUAL(cells[3 * 16 + 5], 0);
  EQUAL(cells[3 * 16 + 6], 90);
  let_go(&world);
}

/* ---- The beginning of a link ---- */

static void try_greeting(lockstep_object *setup) {
  static const uint8_t other_version[13] = {11, 0, 1, 3, 0};
  lockstep_object none = LOCKSTEP_EMPTY;
  lockstep_packet packet = lockstep_bye();
  lockstep_terms terms = {2, 2, 3, 7}, read = {9, 9, 9, 9};
  uint32_t told = 99;
  WANT(LOCKSTEP_REFUSED, lockstep_greeted(setup, packet.bytes, packet.len, &told));
  EQUAL(told, 3);
  WANT(LOCKSTEP_BAD_BYTES, lockstep_greeted(setup, packet.bytes, 2, &told));
  WANT(LOCKSTEP_WRONG_OBJECT, lockstep_greeted(&none, packet.bytes, 2, &told));
  WANT(LOCKSTEP_WRONG_OBJECT, lockstep_hello(&none, &packet));
  WANT(LOCKSTEP_OK, lockstep_hello(setup, &packet));
  WANT(LOCKSTEP_OK, lockstep_greeted(setup, packet.bytes, packet.len, &told));
  WANT(LOCKSTEP_BAD_BYTES, lockstep_greeted(setup, packet.bytes, packet.len + 1, &told));
  EQUAL(told, 3);
  packet.bytes[5] ^= 1;
  WANT(LOCKSTEP_REFUSED, lockstep_greeted(setup, packet.bytes, packet.len, &told));
  EQUAL(told, 2);
  WANT(LOCKSTEP_REFUSED, lockstep_greeted(setup, other_version, 13, &told));
  EQUAL(told, 1);
  WANT(LOCKSTEP_BAD_ARGUMENT, lockstep_welcome(&terms, &packet));
  terms.me = 1;
  terms.lag = 65;
  WANT(LOCKSTEP_BAD_ARGUMENT, lockstep_welcome(&terms, &packet));
  terms.lag = 3;
  WANT(LOCKSTEP_OK, lockstep_welcome(&terms, &packet));
  WANT(LOCKSTEP_BAD_BYTES, lockstep_welcomed(packet.bytes, packet.len - 1, &read));
  WANT(LOCKSTEP_OK, lockstep_welcomed(packet.bytes, packet.len, &read));
  EQUAL(memcmp(&terms, &read, sizeof terms), 0);
  packet = lockstep_refuse(2);
  WANT(LOCKSTEP_REFUSED, lockstep_welcomed(packet.bytes, packet.len, &read));
  EQUAL(read.me, 2);
  EQUAL(read.clients, 2);
}

/* ---- Peers and servers ---- */

static const lockstep_play empty_play = LOCKSTEP_PLAY;

/* A packet of the server: the entry of a client at a frame, a play that orders this pace, or, at
 * 255, a departure. */
static lockstep_packet entry_of(uint8_t client, uint32_t frame, uint8_t pace) {
  lockstep_packet packet = {11, {9, 0, 19}};
  packet.bytes[3] = client;
  lockstep_put_(packet.bytes + 4, frame);
  if (pace == 255) {
    packet.len = 8;
    packet.bytes[0] = 6;
    packet.bytes[2] = 20;
    return packet;
  }
  packet.bytes[8] = 1;
  packet.bytes[9] = 8;
  packet.bytes[10] = pace;
  return packet;
}

#define DELIVER(code, peer, packet) \
  (it = (packet), WANT(code, lockstep_peer_deliver(peer, it.bytes, it.len, &told)))

static void try_delivering(lockstep_object *peer) {
  lockstep_packet it;
  uint32_t told = 99;
  DELIVER(LOCKSTEP_OK, peer, entry_of(0, 3, 2));
  DELIVER(LOCKSTEP_REPEAT, peer, entry_of(0, 3, 2));
  DELIVER(LOCKSTEP_CONFLICT, peer, entry_of(0, 3, 4));
  DELIVER(LOCKSTEP_NO_FRAME, peer, entry_of(0, 262144, 2));
  DELIVER(LOCKSTEP_BAD_BYTES, peer, entry_of(2, 0, 2));
  DELIVER(LOCKSTEP_IGNORED, peer, lockstep_refuse(1));
  WANT(LOCKSTEP_BAD_BYTES, lockstep_peer_deliver(peer, it.bytes, it.len - 1, &told));
  EQUAL(told, 99);
  DELIVER(LOCKSTEP_PAST, peer, entry_of(0, 2, 255));
  EQUAL(told, 3);
  DELIVER(LOCKSTEP_OK, peer, entry_of(0, 4, 255));
  DELIVER(LOCKSTEP_PAST, peer, entry_of(0, 5, 2));
  EQUAL(told, 4);
}

static void try_peer(lockstep_object *setup) {
  lockstep_object peer = LOCKSTEP_EMPTY, none = LOCKSTEP_EMPTY;
  lockstep_terms terms = {1, 2, 2, 7}, bad = {2, 2, 2, 7};
  lockstep_packet packet, it;
  uint32_t told = 99;
  WANT(LOCKSTEP_BAD_ARGUMENT, lockstep_peer_create(&peer, setup, &bad));
  WANT(LOCKSTEP_WRONG_OBJECT, lockstep_peer_create(&peer, &none, &terms));
  WANT(LOCKSTEP_OK, lockstep_peer_create(&peer, setup, &terms));
  WANT(LOCKSTEP_WRONG_OBJECT, lockstep_peer_create(&peer, setup, &terms));
  WANT(LOCKSTEP_WRONG_OBJECT, lockstep_world_step(&peer, empty_play.bytes, 2));
  WANT(LOCKSTEP_WRONG_OBJECT, lockstep_peer_tick(setup, &told));
  WANT(LOCKSTEP_WRONG_OBJECT, lockstep_peer_report(setup, &packet));
  WANT(LOCKSTEP_WRONG_OBJECT, lockstep_peer_seal(setup, empty_play.bytes, 2, &packet));
  WANT(LOCKSTEP_WRONG_OBJECT, lockstep_peer_deliver(setup, empty_play.bytes, 2, &told));
  WANT(LOCKSTEP_NONE, lockstep_peer_report(&peer, &packet));
  WANT(LOCKSTEP_NOT_YET, lockstep_peer_tick(&peer, &told));
  EQUAL(told, 0);
  try_delivering(&peer);
  for (uint32_t frame = 0; frame < 3; frame++) DELIVER(LOCKSTEP_OK, &peer, entry_of(0, frame, 1));
  WANT(LOCKSTEP_NOT_YET, lockstep_peer_tick(&peer, &told));
  EQUAL(told, 1);
  WANT(LOCKSTEP_BAD_BYTES, lockstep_peer_seal(&peer, empty_play.bytes, 1, &packet));
  WANT(LOCKSTEP_OK, lockstep_peer_seal(&peer, empty_play.bytes, 2, &packet));
  EQUAL(packet.len, 8);
  EQUAL(packet.bytes[3], 0);
  WANT(LOCKSTEP_OK, lockstep_peer_seal(&peer, empty_play.bytes, 2, &packet));
  EQUAL(packet.bytes[3], 1);
  WANT(LOCKSTEP_TOO_EARLY, lockstep_peer_seal(&peer, empty_play.bytes, 2, &packet));
  DELIVER(LOCKSTEP_OK, &peer, entry_of(1, 0, 1));
  WANT(LOCKSTEP_OK, lockstep_peer_tick(&peer, &told));
  EQUAL(told, 0);
  WANT(LOCKSTEP_OK, lockstep_peer_report(&peer, &packet));
  EQUAL(packet.len, 15);
  WANT(LOCKSTEP_OK, lockstep_peer_seal(&peer, empty_play.bytes, 2, &packet));
  DELIVER(LOCKSTEP_OK, &peer, entry_of(1, 1, 255));
  WANT(LOCKSTEP_LEFT, lockstep_peer_seal(&peer, empty_play.bytes, 2, &packet));
  for (uint32_t frame = 1; frame < 4; frame++) MUST(lockstep_peer_tick(&peer, &told));
  WANT(LOCKSTEP_OVER, lockstep_peer_tick(&peer, &told));
  EQUAL(told, 3);
  let_go(&peer);
}

/* A client's packet: its play for a frame, which orders this pace. */
static lockstep_packet play_of(uint32_t frame, uint8_t pace) {
  lockstep_packet packet = {10, {8, 0, 2}};
  lockstep_put_(packet.bytes + 3, frame);
  packet.bytes[7] = 1;
  packet.bytes[8] = 8;
  packet.bytes[9] = pace;
  return packet;
}

/* A report of a frame, with a hash that no world has. */
static lockstep_packet report_of(uint32_t frame) {
  lockstep_packet packet = {15, {13, 0, 3}};
  lockstep_put_(packet.bytes + 3, frame);
  return packet;
}

#define UP(code, server, client, packet) \
  (it = (packet), WANT(code, lockstep_server_up(server, client, it.bytes, it.len, &told)))

static void try_ups(lockstep_object *server, lockstep_object *setup) {
  lockstep_packet it;
  uint32_t told = 99;
  MUST(lockstep_hello(setup, &it));
  WANT(LOCKSTEP_IGNORED, lockstep_server_up(server, 0, it.bytes, it.len, &told));
  WANT(LOCKSTEP_BAD_BYTES, lockstep_server_up(server, 0, it.bytes, it.len - 1, &told));
  UP(LOCKSTEP_BAD_ARGUMENT, server, 2, play_of(0, 1));
  UP(LOCKSTEP_OK, server, 0, play_of(0, 1));
  UP(LOCKSTEP_REPEAT, server, 0, play_of(0, 1));
  UP(LOCKSTEP_CONFLICT, server, 0, play_of(0, 2));
  UP(LOCKSTEP_OK, server, 0, report_of(0));
  UP(LOCKSTEP_REPEAT, server, 0, report_of(0));
  UP(LOCKSTEP_NO_FRAME, server, 0, report_of(262144));
  EQUAL(told, 99);
  UP(LOCKSTEP_AHEAD, server, 0, play_of(2, 1));
  EQUAL(told, 1);
}

static void try_server(lockstep_object *setup) {
  lockstep_object server = LOCKSTEP_EMPTY, none = LOCKSTEP_EMPTY;
  lockstep_packet it;
  lockstep_alarm alarm = {9, 9, 9};
  uint32_t told = 99;
  WANT(LOCKSTEP_BAD_ARGUMENT, lockstep_server_create(&server, setup, 0, 7));
  WANT(LOCKSTEP_BAD_ARGUMENT, lockstep_server_create(&server, setup, 17, 7));
  WANT(LOCKSTEP_WRONG_OBJECT, lockstep_server_create(&server, &none, 2, 7));
  WANT(LOCKSTEP_OK, lockstep_server_create(&server, setup, 2, 7));
  WANT(LOCKSTEP_WRONG_OBJECT, lockstep_server_create(&server, setup, 2, 7));
  WANT(LOCKSTEP_WRONG_OBJECT, lockstep_peer_tick(&server, &told));
  WANT(LOCKSTEP_WRONG_OBJECT, lockstep_server_tick(&none, &told));
  WANT(LOCKSTEP_WRONG_OBJECT, lockstep_server_drop(setup, 0, &told));
  WANT(LOCKSTEP_WRONG_OBJECT, lockstep_server_entry(setup, 0, 0, &it));
  WANT(LOCKSTEP_WRONG_OBJECT, lockstep_server_alarm(setup, 0, &alarm));
  WANT(LOCKSTEP_WRONG_OBJECT, lockstep_server_up(setup, 0, it.bytes, 0, &told));
  try_ups(&server, setup);
  WANT(LOCKSTEP_NOT_YET, lockstep_server_tick(&server, &told));
  EQUAL(told, 1);
  WANT(LOCKSTEP_NONE, lockstep_server_alarm(&server, 0, &alarm));
  WANT(LOCKSTEP_BAD_ARGUMENT, lockstep_server_alarm(&server, 2, &alarm));
  WANT(LOCKSTEP_BAD_ARGUMENT, lockstep_server_drop(&server, 2, &told));
  WANT(LOCKSTEP_OK, lockstep_server_drop(&server, 1, &told));
  EQUAL(told, 0);
  WANT(LOCKSTEP_LEFT, lockstep_server_drop(&server, 1, &told));
  UP(LOCKSTEP_LEFT, &server, 1, play_of(1, 1));
  EQUAL(told, 0);
  WANT(LOCKSTEP_OK, lockstep_server_tick(&server, &told));
  EQUAL(told, 0);
  WANT(LOCKSTEP_OK, lockstep_server_alarm(&server, 0, &alarm));
  EQUAL(alarm.frame, 0);
  EQUAL(alarm.got, 0);
  EQUAL(alarm.want, hash_of(&server));
  WANT(LOCKSTEP_OK, lockstep_server_entry(&server, 0, 0, &it));
  EQUAL(it.len, 11);
  WANT(LOCKSTEP_OK, lockstep_server_entry(&server, 1, 0, &it));
  EQUAL(it.len, 8);
  WANT(LOCKSTEP_NONE, lockstep_server_entry(&server, 0, 1, &it));
  WANT(LOCKSTEP_BAD_ARGUMENT, lockstep_server_entry(&server, 2, 0, &it));
  UP(LOCKSTEP_OK, &server, 0, lockstep_bye());
  EQUAL(told, 1);
  UP(LOCKSTEP_LEFT, &server, 0, lockstep_bye());
  WANT(LOCKSTEP_OVER, lockstep_server_tick(&server, &told));
  let_go(&server);
}

int main(int argc, char **argv) {
  lockstep_object setup;
  if (argc != 3) die("codes MAP RULES");
  map_name = argv[1];
  rules_name = argv[2];
  EQUAL(lockstep_abi(), LOCKSTEP_ABI);
  try_adding();
  try_fault();
  setup = sample();
  try_kinds(&setup);
  try_ground(&setup);
  try_seen(&setup);
  try_items(&setup);
  try_ways(&setup);
  try_bot(&setup);
  try_making(&setup);
  try_steps(&setup);
  try_reading(&setup);
  try_greeting(&setup);
  try_peer(&setup);
  try_server(&setup);
  let_go(&setup);
  EQUAL(blocks_held(), 0);
  return wrong ? 1 : 0;
}
