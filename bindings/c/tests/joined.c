/* A client of a running `serve`, over TCP: it plays some frames, leaves, and prints the frames and
 * the hash of its world.
 *
 * usage: joined PORT FRAMES MAP RULES
 *
 * The server listens on 127.0.0.1. */
#define _POSIX_C_SOURCE 200809L
#include "common.h"

#include <arpa/inet.h>
#include <errno.h>
#include <stdlib.h>
#include <sys/socket.h>
#include <time.h>
#include <unistd.h>

/* A link, and what came of it and is not read yet. */
typedef struct {
  int file;
  uint8_t bytes[4096];
  size_t len;
} wire;

/* Waits until the server listens. */
static void join(wire *it, uint16_t port) {
  const struct timespec pause = {0, 50 * 1000 * 1000};
  struct sockaddr_in at;
  memset(it, 0, sizeof *it);
  memset(&at, 0, sizeof at);
  at.sin_family = AF_INET;
  at.sin_port = htons(port);
  at.sin_addr.s_addr = htonl(INADDR_LOOPBACK);
  for (int tries = 0; tries < 1200; tries++) {
    it->file = socket(AF_INET, SOCK_STREAM, 0);
    if (it->file < 0) die("socket");
    if (connect(it->file, (struct sockaddr *)&at, sizeof at) == 0) return;
    close(it->file);
    nanosleep(&pause, NULL);
  }
  die("nobody listens");
}

static void put(wire *it, const uint8_t *bytes, size_t len) {
  for (size_t at = 0; at < len;) {
    ssize_t sent = send(it->file, bytes + at, len - at, MSG_NOSIGNAL);
    if (sent < 0) die("send: %s", strerror(errno));
    at += (size_t)sent;
  }
}

/* The next packet, which is waited for. */
static lockstep_packet get(wire *it) {
  lockstep_packet packet;
  size_t size;
  while ((size = lockstep_packet_size(it->bytes, it->len)) == 0) {
    ssize_t came = recv(it->file, it->bytes + it->len, sizeof it->bytes - it->len, 0);
    if (came <= 0) die("the link ended");
    it->len += (size_t)came;
  }
  if (size > sizeof packet.bytes) die("no packet");
  packet.len = (uint32_t)size;
  memcpy(packet.bytes, it->bytes, size);
  it->len -= size;
  memmove(it->bytes, it->bytes + size, it->len);
  return packet;
}

/* Greets, and makes the peer of the client that the server welcomes. */
static lockstep_terms greet(wire *it, lockstep_object *setup, lockstep_object *peer) {
  lockstep_packet packet;
  lockstep_terms terms;
  MUST(lockstep_hello(setup, &packet));
  put(it, packet.bytes, packet.len);
  packet = get(it);
  MUST(lockstep_welcomed(packet.bytes, packet.len, &terms));
  MUST(lockstep_peer_create(peer, setup, &terms));
  return terms;
}

/* Seals frames as long as it may. */
static void seal(wire *it, lockstep_object *peer, uint32_t me, uint32_t *sealed, uint32_t frames) {
  while (*sealed < frames) {
    lockstep_play play = LOCKSTEP_PLAY;
    lockstep_packet packet;
    lockstep_move(&play, 1 + (7 * *sealed + me) % 16, (uint8_t)(3 * *sealed % 16),
                  (uint8_t)(5 * *sealed % 16), false);
    if (ASK(lockstep_peer_seal(peer, play.bytes, play.len, &packet)) == LOCKSTEP_TOO_EARLY) return;
    must(last_code(), "lockstep_peer_seal");
    put(it, packet.bytes, packet.len);
    ++*sealed;
  }
}

/* Ticks what is ready, and reports it. */
static void tick(wire *it, lockstep_object *peer) {
  lockstep_packet packet;
  uint32_t told;
  while (ASK(lockstep_peer_tick(peer, &told)) == LOCKSTEP_OK) {
    MUST(lockstep_peer_report(peer, &packet));
    put(it, packet.bytes, packet.len);
  }
}

static lockstep_head head_of(lockstep_object *any) {
  lockstep_head head;
  MUST(lockstep_read_head(any, &head));
  return head;
}

int main(int argc, char **argv) {
  lockstep_object setup = LOCKSTEP_EMPTY, peer = LOCKSTEP_EMPTY;
  lockstep_terms terms;
  lockstep_packet packet;
  lockstep_head head;
  uint32_t frames, sealed = 0, told;
  wire it;
  if (argc != 5) die("joined PORT FRAMES MAP RULES");
  if (!read_setup(&setup, argv[3], argv + 4, 1, stderr)) return 3;
  frames = (uint32_t)strtoul(argv[2], NULL, 10);
  join(&it, (uint16_t)strtoul(argv[1], NULL, 10));
  terms = greet(&it, &setup, &peer);
  while (seal(&it, &peer, terms.me, &sealed, frames), head_of(&peer).frames < frames) {
    packet = get(&it);
    MUST(lockstep_peer_deliver(&peer, packet.bytes, packet.len, &told));
    tick(&it, &peer);
  }
  packet = lockstep_bye();
  put(&it, packet.bytes, packet.len);
  head = head_of(&peer);
  printf("frames %u hash %016llx\n", head.frames, (unsigned long long)head.hash);
  close(it.file);
  let_go(&peer);
  let_go(&setup);
  return 0;
}
