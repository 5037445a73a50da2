/* The game of lockstep for engines: worlds in the caller's own process.
 *
 * docs/EMBEDDING.md says what each part is for. In short:
 *
 * Units. A cell is 1,024 units wide. A full turn is 1,024 angle units: 0 is north, and angles grow
 * counter-clockwise. Directions are 0 to 7 for N, NE, E, SE, S, SW, W, NW. Columns grow to the
 * east, rows to the south. Frames and clients are counted from 0. Owner 255 is nobody.
 *
 * Codes. A call returns one of the codes below. From LOCKSTEP_BAD_BYTES on nothing has changed but
 * `at`, `needed`, `width` and `route`. `told` is written only where a call says so. Of several
 * causes the first decides: WRONG_OBJECT, BAD_ARGUMENT, and then, in their order, those that the
 * call names.
 *
 * Ownership. The caller owns an object's 16 bytes and all arrays, the library what the object
 * holds, until lockstep_free. Objects are freed in any order, a setup before what was made from it
 * too. A call keeps no pointer. The pointers of one call must not overlap, and none is null: for no
 * places or bytes pass LOCKSTEP_NIL, or any other pointer, and 0.
 *
 * Threads. A setup and all that was made from it are a group. A group is used by one thread at a
 * time, also to read and to free; what moves it from thread to thread is the caller's lock. Groups
 * share nothing: lockstep_setup_share makes a group for another thread. No call blocks, prints,
 * or reads a clock, a file or a random number, and none may be made in a signal handler.
 *
 * Determinism. But for LOCKSTEP_NO_MEMORY, code, output and new state are functions of what the
 * objects held and of the call's arguments.
 *
 * Memory comes from the C library's malloc, realloc and free. A call takes up to 64 KB of stack.
 * The archive is made for Linux on x86-64. */
#ifndef LOCKSTEP_H
#define LOCKSTEP_H

#include <stdbool.h>
#include <stddef.h>
#include <stdint.h>
#include <string.h>

#ifdef __cplusplus
extern "C" {
#endif

/* Within one number calls are only added. Compare with lockstep_abi(). */
#define LOCKSTEP_ABI 1u

/* Numbers that are left out are for calls to come. What each means is said at its calls. */
enum {
  LOCKSTEP_OK = 0,
  LOCKSTEP_REPEAT = 1, /* the same is there already */
  LOCKSTEP_NONE = 2,   /* there is no such thing */
  LOCKSTEP_NOT_YET = 3,
  LOCKSTEP_OVER = 4,
  LOCKSTEP_TOO_EARLY = 5,
  LOCKSTEP_LEFT = 6,
  LOCKSTEP_NO_FRAME = 8, /* no match has such a frame */
  LOCKSTEP_AHEAD = 9,
  LOCKSTEP_CONFLICT = 10, /* another is there already */
  LOCKSTEP_PAST = 11,
  LOCKSTEP_FULL = 12, /* no more files, or frames, fit */
  LOCKSTEP_IGNORED = 13,
  LOCKSTEP_REFUSED = 14,
  LOCKSTEP_BAD_BYTES = 32,
  LOCKSTEP_FAULT = 33, /* a fault of a rule file or the map */
  LOCKSTEP_BAD_ARGUMENT = 34,
  LOCKSTEP_WRONG_OBJECT = 35, /* of another kind, or empty; where one is made, not empty */
  LOCKSTEP_NO_ROOM = 36,      /* `needed` places are needed; after OK so many were written */
  LOCKSTEP_NO_MEMORY = 37
};

#define LOCKSTEP_MAX_CLIENTS 16u
#define LOCKSTEP_MAX_ORDERS 16u     /* of one client in one frame */
#define LOCKSTEP_MAX_ACTORS 2048u
#define LOCKSTEP_MAX_ITEMS 24u      /* that one actor is to do */
#define LOCKSTEP_NOBODY 255u

/* A pointer for no places. */
#define LOCKSTEP_NIL(type) ((type *)64)

/* What a setup, a world, a peer or a server is held by. Begin with LOCKSTEP_EMPTY, write nothing.
 * To move it copy it, and set the old one to LOCKSTEP_EMPTY; two copies in use are an error. */
typedef struct {
  void *at_;
  uint32_t kind_;
} lockstep_object;
#define LOCKSTEP_EMPTY {0, 0}

/* The first fault of a setup's texts, as the command `check` finds it. */
typedef struct {
  uint32_t cause; /* lockstep_cause has its word */
  uint32_t file;  /* rule files from 0 in their order; the map comes after the last of them */
  uint64_t place; /* a line, from 1; 0: of a map that has no size */
} lockstep_fault;

/* The orders of one client for one frame, as bytes: 1, their number, the orders. Begin with
 * LOCKSTEP_PLAY, no orders; to empty it later write in C `play = (lockstep_play)LOCKSTEP_PLAY`, in
 * C++ `play = LOCKSTEP_PLAY`. */
typedef struct {
  uint32_t len;
  uint8_t bytes[164];
} lockstep_play;
#define LOCKSTEP_PLAY {2, {1, 0}}

/* A packet of docs/FORMATS.md, whole: the length of its payload in two bytes, then the payload, of
 * at most 256 bytes. So `len` is at most 258; the last two bytes are never used. */
typedef struct {
  uint32_t len;
  uint8_t bytes[260];
} lockstep_packet;

/* Under which a client plays. */
typedef struct {
  uint32_t me;      /* its number, below `clients` */
  uint32_t clients; /* 1 to 16 */
  uint32_t lag;     /* frames that it may seal ahead of its ticked ones, 1 to 64 */
  uint32_t seed;
} lockstep_terms;

/* A client's world differs after this frame from the server's. */
typedef struct {
  uint32_t frame;
  uint64_t got; /* the hash that the client reported */
  uint64_t want;
} lockstep_alarm;

typedef struct {
  uint64_t hash;   /* the checksum */
  uint64_t drawn;  /* random words that were drawn */
  uint32_t frames; /* steps that were made */
  uint32_t turns;
  uint32_t seed;
  uint32_t next_id;
  uint32_t pace; /* turns of the next frame, 1 to 8 */
  uint32_t clients;
  uint32_t actors;
  uint32_t width; /* columns, 1 to 128 */
  uint32_t height;
  uint32_t cash[16]; /* 0 from `clients` on */
  uint32_t gone[16]; /* 1: it has departed */
} lockstep_head;

typedef struct {
  uint32_t id;
  uint32_t kind;
  uint32_t owner; /* a client, or 255 */
  uint32_t x, y;  /* its cell; on a leg the one to which it leads */
  uint32_t facing;
  uint32_t dir;      /* of its leg, 0 to 7; 8: none */
  uint32_t progress; /* units of the leg that are gone, of 1,024 or, aslant, 1,448 */
  uint32_t health;
  uint32_t load;
  uint32_t reload; /* turns */
  uint32_t acts;   /* how many activities */
  uint32_t doing;  /* the first: 0 none, 1 move, 2 attack, 3 harvest, 4 deliver */
  uint32_t builds; /* how many */
} lockstep_actor;

/* One thing that an actor is to do; 0 for each number that it has not. */
typedef struct {
  uint32_t what;  /* 1 move, 2 attack, 3 harvest, 4 deliver, 5 build */
  uint32_t x, y;  /* the cell to go to */
  uint32_t id;    /* of the actor to attack; of a build the kind */
  uint32_t turns; /* of the unit of ore at work those so far, of a build those left */
  uint32_t waits; /* steps in a row at which the next cell was occupied */
} lockstep_item;

/* Traits, as bits. */
enum {
  LOCKSTEP_HEALTH = 1,
  LOCKSTEP_MOBILE = 2,
  LOCKSTEP_BUILDING = 4,
  LOCKSTEP_HARVESTER = 8,
  LOCKSTEP_REFINERY = 16,
  LOCKSTEP_PRODUCTION = 32,
  LOCKSTEP_BUILDABLE = 64,
  LOCKSTEP_VALUED = 128,
  LOCKSTEP_ARMAMENT = 256,
  LOCKSTEP_REVEALS_SHROUD = 512
};

/* What a kind is. Of a trait that it has not the fields are 0, but hp is 1. */
typedef struct {
  uint32_t traits; /* the bits of those that it has */
  uint32_t hp;
  uint32_t cost;     /* cash */
  uint32_t speed;    /* units a turn */
  uint32_t turn;     /* angle units a turn */
  uint32_t costs[4]; /* of a cell of clear ground, road, rough ground, water; 0: not entered */
  uint32_t range;    /* units */
  uint32_t damage;
  uint32_t spread;
  uint32_t reload; /* turns */
  uint32_t capacity;
  uint32_t load_delay; /* turns */
  uint32_t unload_delay;
  uint32_t value;    /* cash of a unit of ore */
  uint32_t duration; /* turns that building it takes */
  uint32_t sight;    /* units */
} lockstep_kind;

/* The LOCKSTEP_ABI of the library that is linked. */
uint32_t lockstep_abi(void);

/* Frees what the object holds; it is empty afterwards. An empty one stays so. */
void lockstep_free(lockstep_object *any);

/* ---- Setups: rules and a map ---- */

/* Makes an empty object a setup without texts. */
uint32_t lockstep_setup_create(lockstep_object *setup);

enum { LOCKSTEP_RULES = 0, LOCKSTEP_MAP = 1 };

/* Adds a text, which is copied: up to 64 rule files, the later over the earlier, and at most one
 * map. Without rules there are no kinds, without a map there is one clear cell.
 * FULL: the 65th rule file, a second map. BAD_ARGUMENT: another `what`. WRONG_OBJECT also once it
 * was read. */
uint32_t lockstep_setup_add(lockstep_object *setup, uint32_t what, const uint8_t *bytes,
                            size_t len);

/* Reads the texts, once; then worlds are made from it. FAULT: the first fault is in `at`, and the
 * setup is as it was. WRONG_OBJECT also once it was read. */
uint32_t lockstep_setup_read(lockstep_object *setup, lockstep_fault *at);

/* Makes an empty object a setup of the same texts, read again: a group of its own. WRONG_OBJECT
 * also where the setup is not read yet. */
uint32_t lockstep_setup_share(lockstep_object *copy, lockstep_object *setup);

/* What a kind is, numbered from 0 as they stand in the rules. NONE: there are fewer. */
uint32_t lockstep_setup_kind(lockstep_object *setup, uint32_t kind, lockstep_kind *out);

/* A kind's name in UTF-8, without an end byte. NONE: there are fewer kinds. */
uint32_t lockstep_setup_kind_name(lockstep_object *setup, uint32_t kind, uint8_t *out,
                                  size_t places, size_t *needed);

/* The ground of each cell, row by row: 0 clear, 1 road, 2 rough, 3 water, 4 rock. `width`, the
 * columns, is written as `needed` is. WRONG_OBJECT also before it was read. */
uint32_t lockstep_setup_terrain(lockstep_object *setup, uint32_t *width, uint8_t *out,
                                size_t places, size_t *needed);

/* ---- Worlds ---- */

/* Makes an empty object the opening world of a match of 1 to 16 clients, else BAD_ARGUMENT. */
uint32_t lockstep_world_create(lockstep_object *world, lockstep_object *setup, uint32_t seed,
                               uint32_t clients);

/* Makes one step by a frame: for each client, by rising number, the bytes of its play, or one byte
 * 0 where it has departed, in this frame or before. FULL: after 536,870,911 frames. BAD_BYTES:
 * other bytes, or a play of a client that has departed before. It never answers NO_MEMORY. */
uint32_t lockstep_world_step(lockstep_object *world, const uint8_t *bytes, size_t len);

/* ---- The beginning of a link ---- */

/* A client's first packet: the version of the packets, and the number of its setup's texts. */
uint32_t lockstep_hello(lockstep_object *setup, lockstep_packet *out);

/* Whether a link's first packet greets a match of this setup. REFUSED: `told` is the code to send
 * (lockstep_refuse): 1 another version, 2 other rules or another map, 3 no greeting. BAD_BYTES: not
 * one whole packet for a server. */
uint32_t lockstep_greeted(lockstep_object *setup, const uint8_t *bytes, size_t len,
                          uint32_t *told);

/* The server's first packet to a client. BAD_ARGUMENT: no match has these terms. */
uint32_t lockstep_welcome(const lockstep_terms *terms, lockstep_packet *out);

/* What a client reads of the server's first packet, which may come late: `serve` sends none before
 * its last link is there. REFUSED: `out->me` is the code, and nothing else is written. BAD_BYTES:
 * neither one whole welcome nor a refusal. */
uint32_t lockstep_welcomed(const uint8_t *bytes, size_t len, lockstep_terms *out);

/* ---- Peers: a client of a match ---- */

/* Makes an empty object the peer of a client, whose world is at the opening. BAD_ARGUMENT: no match
 * has these terms. */
uint32_t lockstep_peer_create(lockstep_object *peer, lockstep_object *setup,
                              const lockstep_terms *terms);

/* Takes an entry that the server sent, in whatever order. BAD_BYTES: not one whole packet for a
 * client, or an entry of a client that the match has not. IGNORED: a welcome or a refusal.
 * NO_FRAME. REPEAT: it is there. CONFLICT: another of that client and frame is there. PAST: it
 * contradicts what is there at the frame `told`: the client's departure before it, or, if it is a
 * departure, an entry after it. OK: it is new. Only OK changes the peer. */
uint32_t lockstep_peer_deliver(lockstep_object *peer, const uint8_t *bytes, size_t len,
                               uint32_t *told);

/* Steps the world by the next frame, where the entries of all clients are there. OK: that frame is
 * `told`. NOT_YET: `told` is the least client that is missing. OVER: all have departed. It never
 * answers NO_MEMORY. */
uint32_t lockstep_peer_tick(lockstep_object *peer, uint32_t *told);

/* Seals the client's next frame with a play, and gives the packet for the server. The peer does not
 * keep the play: it is ticked when the server sends it back as an entry, like everyone's.
 * BAD_BYTES: no play. LEFT: its own departure has come. FULL: 262,144 frames are sealed. TOO_EARLY:
 * as many are sealed ahead of the ticked ones as the lag allows, so never while
 * sealed < ticked + lag; keep the play. Only OK changes the peer. */
uint32_t lockstep_peer_seal(lockstep_object *peer, const uint8_t *bytes, size_t len,
                            lockstep_packet *out);

/* A packet for the server: the last ticked frame, and the hash after it. NONE: before a tick. */
uint32_t lockstep_peer_report(lockstep_object *peer, lockstep_packet *out);

/* ---- Servers ---- */

/* Makes an empty object the server of a match of 1 to 16 clients, else BAD_ARGUMENT. It has no lag,
 * and takes plays however far they are sealed ahead. */
uint32_t lockstep_server_create(lockstep_object *server, lockstep_object *setup, uint32_t clients,
                                uint32_t seed);

/* Takes a packet of a client: a play, a report, or a farewell, which is lockstep_server_drop.
 * BAD_ARGUMENT: no such client. BAD_BYTES: not one whole packet for a server. IGNORED: a greeting.
 * Of a play: REPEAT; CONFLICT, also where the departure stands at its frame; LEFT: the client
 * departed before it, at the frame `told`; AHEAD: the play for the frame `told` comes first, and
 * this one has to be sent again; FULL: 262,144 frames; OK. Of a report: NO_FRAME; REPEAT: the first
 * for a frame stays; OK. Of a farewell: LEFT, OK; `told` is the frame of the departure. Only OK
 * changes the server. After CONFLICT or BAD_BYTES drop the client; after AHEAD too where links are
 * streams, which lose nothing. */
uint32_t lockstep_server_up(lockstep_object *server, uint32_t client, const uint8_t *bytes,
                            size_t len, uint32_t *told);

/* The client departs after the plays that it has. OK; LEFT: it has before. `told`: at which frame.
 * BAD_ARGUMENT: no such client. It never answers NO_MEMORY. */
uint32_t lockstep_server_drop(lockstep_object *server, uint32_t client, uint32_t *told);

/* The packet with a client's entry at a frame, which is for all clients, this one too. NONE: it has
 * none yet, or departed before. BAD_ARGUMENT: no such client. */
uint32_t lockstep_server_entry(lockstep_object *server, uint32_t client, uint32_t frame,
                               lockstep_packet *out);

/* As lockstep_peer_tick, but it may answer NO_MEMORY. */
uint32_t lockstep_server_tick(lockstep_object *server, uint32_t *told);

/* The least frame after which a client reported another hash than the server's. NONE.
 * BAD_ARGUMENT: no such client. */
uint32_t lockstep_server_alarm(lockstep_object *server, uint32_t client, lockstep_alarm *out);

/* ---- Reading: of a world, a peer or a server ---- */

uint32_t lockstep_read_head(lockstep_object *any, lockstep_head *out);

/* The actors by rising id, at most 2,048. */
uint32_t lockstep_read_actors(lockstep_object *any, lockstep_actor *out, size_t places,
                              size_t *needed);

/* What the actor with an id is to do, at most 24: its activities, the one at work first, then its
 * builds. NONE: there is no such actor. */
uint32_t lockstep_read_items(lockstep_object *any, uint32_t id, lockstep_item *out, size_t places,
                             size_t *needed);

/* The ore of each cell, row by row, 0 to 90. */
uint32_t lockstep_read_ore(lockstep_object *any, uint8_t *out, size_t places, size_t *needed);

/* Which cells a client sees now, row by row: 1 seen, 0 not. It sees those within `sight` of its
 * living actors whose kinds have LOCKSTEP_REVEALS_SHROUD: those of examples/river have it, none of
 * the sample rules. `width`, the columns, is written as `needed` is. What it has explored is the
 * engine's to keep: what was seen after some frame, or in the opening world. BAD_ARGUMENT: no such
 * client. It holds up to 1.1 MB until it returns. */
uint32_t lockstep_seen(lockstep_object *any, uint32_t client, uint32_t *width, uint8_t *out,
                       size_t places, size_t *needed);

/* ---- Ways and bots: in a world, a peer or a server ---- */

typedef struct {
  uint8_t x, y;
} lockstep_cell;

typedef struct {
  uint32_t cost; /* 5 times what a step's cell costs, aslant 7 times, of all steps */
  size_t count;  /* cells, from the first to the last */
} lockstep_route;

/* The way of least cost that an actor of a kind would begin now: over ground and buildings, not
 * around other units. Where it has no place, at NO_ROOM, `route` is written. NONE: no way, or twice
 * the same cell. BAD_ARGUMENT: no such kind, or a cell off the map. The world stays as it is. */
uint32_t lockstep_find_route(lockstep_object *any, uint32_t kind, uint32_t x, uint32_t y,
                             uint32_t to_x, uint32_t to_y, lockstep_cell *out, size_t places,
                             lockstep_route *route);

/* The play for the next frame of a client that is a bot, by the world alone. Whoever has the same
 * world gets the same play. BAD_ARGUMENT: no such client. */
uint32_t lockstep_bot(lockstep_object *any, uint32_t client, lockstep_play *out);

/* ---- Beside the library: inline, in C ---- */

/* The length of the packet with which a stream begins, or 0 where it is not whole yet. Above 260 no
 * packet begins so, which two bytes show; to one of 259 or 260 bytes all calls answer BAD_BYTES. */
static inline size_t lockstep_packet_size(const uint8_t *bytes, size_t len) {
  size_t size = len < 2 ? 0 : 2 + (size_t)bytes[0] + ((size_t)bytes[1] << 8);
  return size > 260 || size <= len ? size : 0;
}

/* A client's farewell. After it send nothing more, but deliver and tick until OVER. */
static inline lockstep_packet lockstep_bye(void) {
  lockstep_packet packet = {3, {1, 0, 4}};
  return packet;
}

/* What a server sends in place of a welcome. */
static inline lockstep_packet lockstep_refuse(uint8_t code) {
  lockstep_packet packet = {4, {2, 0, 18}};
  packet.bytes[3] = code;
  return packet;
}

/* The word of a fault's cause, as `check` prints it. */
static inline const char *lockstep_cause(uint32_t cause) {
  static const char *const words[38] = {
      0, "NotUtf8", "BadIndent", "TooDeep", "LineTooLong", "TooManyLines", 0, 0, 0, 0, 0,
      "NoParent", "Cycle", "NothingToRemove", "TooLarge", "TooDeep", 0, 0, 0, 0, 0,
      "BadValue", "OutOfRange", "MissingField", "UnknownKindName", "TooManyKinds", 0, 0, 0, 0, 0,
      "BadField", "BadRow", "UnknownTerrain", "UnknownKind", "CellTaken", "BadOwner",
      "TooManyActors"};
  return cause < 38 && words[cause] ? words[cause] : "?";
}

/* Appends an order whose bytes are given; false: there are 16 orders, and nothing changed. */
static inline bool lockstep_append_(lockstep_play *play, const uint8_t *bytes, uint32_t len) {
  if (play->bytes[1] >= LOCKSTEP_MAX_ORDERS) return false;
  memcpy(play->bytes + play->len, bytes, len);
  play->len += len;
  play->bytes[1]++;
  return true;
}

static inline void lockstep_put_(uint8_t *to, uint32_t number) {
  to[0] = (uint8_t)number;
  to[1] = (uint8_t)(number >> 8);
  to[2] = (uint8_t)(number >> 16);
  to[3] = (uint8_t)(number >> 24);
}

static inline bool lockstep_to_cell_(lockstep_play *play, uint8_t tag, uint32_t actor, uint8_t x,
                                     uint8_t y, bool queued) {
  uint8_t bytes[8];
  bytes[0] = tag;
  lockstep_put_(bytes + 1, actor);
  bytes[5] = x;
  bytes[6] = y;
  bytes[7] = queued ? 1 : 0;
  return lockstep_append_(play, bytes, 8);
}

static inline bool lockstep_of_actor_(lockstep_play *play, uint8_t tag, uint32_t actor) {
  uint8_t bytes[5];
  bytes[0] = tag;
  lockstep_put_(bytes + 1, actor);
  return lockstep_append_(play, bytes, 5);
}

/* The orders of docs/TICK.md, each appended to a play; false: it has 16 already. A queued order
 * comes after what the actor has to do, another takes its place. */
static inline bool lockstep_move(lockstep_play *play, uint32_t actor, uint8_t x, uint8_t y,
                                 bool queued) {
  return lockstep_to_cell_(play, 1, actor, x, y, queued);
}

static inline bool lockstep_attack(lockstep_play *play, uint32_t actor, uint32_t target,
                                   bool queued) {
  uint8_t bytes[10];
  bytes[0] = 2;
  lockstep_put_(bytes + 1, actor);
  lockstep_put_(bytes + 5, target);
  bytes[9] = queued ? 1 : 0;
  return lockstep_append_(play, bytes, 10);
}

static inline bool lockstep_harvest(lockstep_play *play, uint32_t actor, uint8_t x, uint8_t y,
                                    bool queued) {
  return lockstep_to_cell_(play, 3, actor, x, y, queued);
}

static inline bool lockstep_stop(lockstep_play *play, uint32_t actor) {
  return lockstep_of_actor_(play, 4, actor);
}

static inline bool lockstep_produce(lockstep_play *play, uint32_t actor, uint16_t kind) {
  uint8_t bytes[7];
  bytes[0] = 5;
  lockstep_put_(bytes + 1, actor);
  bytes[5] = (uint8_t)kind;
  bytes[6] = (uint8_t)(kind >> 8);
  return lockstep_append_(play, bytes, 7);
}

static inline bool lockstep_cancel(lockstep_play *play, uint32_t actor) {
  return lockstep_of_actor_(play, 6, actor);
}

static inline bool lockstep_donate(lockstep_play *play, uint8_t client, uint32_t amount) {
  uint8_t bytes[6];
  bytes[0] = 7;
  bytes[1] = client;
  lockstep_put_(bytes + 2, amount);
  return lockstep_append_(play, bytes, 6);
}

static inline bool lockstep_pace(lockstep_play *play, uint8_t turns) {
  uint8_t bytes[2];
  bytes[0] = 8;
  bytes[1] = turns;
  return lockstep_append_(play, bytes, 2);
}

/* Where an actor is to be drawn, in units from the map's north-western corner: the middle of its
 * cell, or the place that it has reached on its leg. */
static inline void lockstep_position(const lockstep_actor *actor, int32_t *x, int32_t *y) {
  static const int8_t east[9] = {0, 1, 1, 1, 0, -1, -1, -1, 0};
  static const int8_t south[9] = {-1, -1, 0, 1, 1, 1, 0, -1, 0};
  uint32_t dir = actor->dir < 8 ? actor->dir : 8;
  int32_t length = dir % 2 == 1 ? 1448 : 1024;
  int32_t left = (length - (int32_t)actor->progress) * 1024 / length;
  *x = (int32_t)actor->x * 1024 + 512 - east[dir] * left;
  *y = (int32_t)actor->y * 1024 + 512 - south[dir] * left;
}

#ifdef __cplusplus
}
#endif

#endif
