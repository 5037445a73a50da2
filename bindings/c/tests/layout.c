/* What the header says of sizes and codes is what the library was made with; and a call of each
 * inline function. Compiled as C and as C++. */
#include "../lockstep.h"

#ifdef __cplusplus
#define SAME(a, b) static_assert((a) == (b), "")
#else
/* Before C11: an array that must not have a negative length. */
#define JOINED(a, b) a##b
#define NAMED(line) JOINED(same_, line)
#define SAME(a, b) typedef char NAMED(__LINE__)[(a) == (b) ? 1 : -1]
#endif

SAME(sizeof(lockstep_object), 16);
SAME(sizeof(lockstep_fault), 16);
SAME(sizeof(lockstep_play), 168);
SAME(sizeof(lockstep_kind), 76);
SAME(sizeof(lockstep_head), 184);
SAME(offsetof(lockstep_head, gone), 116);
SAME(sizeof(lockstep_actor), 56);
SAME(sizeof(lockstep_item), 24);
SAME(sizeof(lockstep_cell), 2);
SAME(sizeof(lockstep_route), 16);
SAME(offsetof(lockstep_route, count), 8);
SAME(sizeof(lockstep_packet), 264);
SAME(sizeof(lockstep_terms), 16);
SAME(sizeof(lockstep_alarm), 24);
SAME(offsetof(lockstep_alarm, got), 8);
SAME(LOCKSTEP_PAST, 11);
SAME(LOCKSTEP_FULL, 12);
SAME(LOCKSTEP_REFUSED, 14);
SAME(LOCKSTEP_NO_MEMORY, 37);

static bool bytes_are(const uint8_t *bytes, uint32_t len, const char *want, size_t want_len) {
  return len == want_len && !memcmp(bytes, want, want_len);
}

/* 0 where the orders have the bytes of docs/FORMATS.md. */
static int check_orders(void) {
  static const char want[] =
      "\1\10"
      "\1\4\3\2\1\5\6\0"
      "\2\1\0\0\0\2\0\0\0\1"
      "\3\1\0\0\0\7\10\1"
      "\4\377\377\377\377"
      "\5\1\0\0\0\2\1"
      "\6\1\0\0\0"
      "\7\1\62\0\0\0"
      "\10\3";
  lockstep_play play = LOCKSTEP_PLAY;
  bool all = lockstep_move(&play, 0x01020304, 5, 6, false) && lockstep_attack(&play, 1, 2, true) &&
             lockstep_harvest(&play, 1, 7, 8, true) && lockstep_stop(&play, 0xffffffff) &&
             lockstep_produce(&play, 1, 0x0102) && lockstep_cancel(&play, 1) &&
             lockstep_donate(&play, 1, 50) && lockstep_pace(&play, 3);
  uint32_t len = play.len;
  if (!all || !bytes_are(play.bytes, play.len, want, sizeof want - 1)) return 11;
  while (lockstep_attack(&play, 1, 2, false)) {
  }
  if (play.bytes[1] != 16 || play.len != len + 8 * 10) return 12;
  return 0;
}

static int check_positions(void) {
  lockstep_actor actor;
  int32_t x, y;
  memset(&actor, 0, sizeof actor);
  actor.x = 3;
  actor.y = 2;
  actor.dir = 8;
  lockstep_position(&actor, &x, &y);
  if (x != 3 * 1024 + 512 || y != 2 * 1024 + 512) return 21;
  actor.dir = 3; /* to the south-east, half of the way is gone */
  actor.progress = 724;
  lockstep_position(&actor, &x, &y);
  if (x != 3 * 1024 || y != 2 * 1024) return 22;
  actor.dir = 0; /* to the north, a quarter of the way is gone */
  actor.progress = 256;
  lockstep_position(&actor, &x, &y);
  return x == 3 * 1024 + 512 && y == 2 * 1024 + 512 + 768 ? 0 : 23;
}

/* 0 where packets have the bytes of docs/FORMATS.md. */
static int check_packets(void) {
  static const uint8_t two[5] = {1, 0, 4, 2, 0}, large[2] = {3, 1};
  lockstep_packet bye = lockstep_bye(), refuse = lockstep_refuse(2);
  if (!bytes_are(bye.bytes, bye.len, "\1\0\4", 3)) return 41;
  if (!bytes_are(refuse.bytes, refuse.len, "\2\0\22\2", 4)) return 42;
  if (lockstep_packet_size(two, 5) != 3 || lockstep_packet_size(two + 3, 2) != 0) return 43;
  return lockstep_packet_size(two, 1) == 0 && lockstep_packet_size(large, 2) > 260 ? 0 : 44;
}

int main(void) {
  int wrong = check_orders();
  if (!wrong) wrong = check_packets();
  if (!wrong) wrong = check_positions();
  if (!wrong && strcmp(lockstep_cause(35), "CellTaken") != 0) wrong = 31;
  if (!wrong && (strcmp(lockstep_cause(16), "?") != 0 || strcmp(lockstep_cause(99), "?") != 0))
    wrong = 32;
  return wrong;
}
