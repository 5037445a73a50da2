/* The command `drill` of `engine`: peers and a server of the library, and packets between them that
 * are lost, repeated and reordered. */
#include "engine.h"

#include <stdlib.h>

/* A packet that was sent up. */
typedef struct {
  uint32_t client;
  lockstep_packet packet;
} sent;

typedef struct {
  uint32_t clients;
  lockstep_object server, peers[LOCKSTEP_MAX_CLIENTS];
  uint32_t sealed[LOCKSTEP_MAX_CLIENTS];
  sent *sent;
  uint32_t count, room;
} match;

/* The tags of packets, and the frame that one names. */
enum { ORDERS = 2, REPORT = 3, FAREWELL = 4, PLAY = 19 };

static uint8_t tag_of(const lockstep_packet *packet) { return packet->bytes[2]; }

static uint32_t frame_of(const lockstep_packet *packet) { return number_at(packet->bytes + 3); }

/* ---- The beginning ---- */

/* A client greets, and is welcomed under these terms. */
static void greet(lockstep_object *setup, const lockstep_terms *terms, lockstep_terms *read) {
  lockstep_packet packet;
  uint32_t told;
  MUST(lockstep_hello(setup, &packet));
  MUST(lockstep_greeted(setup, packet.bytes, packet.len, &told));
  MUST(lockstep_welcome(terms, &packet));
  if (lockstep_packet_size(packet.bytes, packet.len) != packet.len) die("the welcome's length");
  MUST(lockstep_welcomed(packet.bytes, packet.len, read));
}

static void begin(match *it, lockstep_object *setup, words *line) {
  lockstep_terms terms, read;
  memset(it, 0, sizeof *it);
  next_word(line, &(const uint8_t *){NULL});
  terms.clients = it->clients = next_number(line);
  terms.lag = next_number(line);
  terms.seed = next_number(line);
  MUST(lockstep_server_create(&it->server, setup, terms.clients, terms.seed));
  for (terms.me = 0; terms.me < terms.clients; terms.me++) {
    greet(setup, &terms, &read);
    if (memcmp(&terms, &read, sizeof terms)) die("other terms");
    MUST(lockstep_peer_create(&it->peers[terms.me], setup, &read));
  }
}

/* ---- The events ---- */

static void send(match *it, uint32_t client, const lockstep_packet *packet) {
  if (it->count == it->room) {
    it->room = it->room ? 2 * it->room : 64;
    it->sent = realloc(it->sent, it->room * sizeof *it->sent);
    if (!it->sent) die("memory");
  }
  it->sent[it->count].client = client;
  it->sent[it->count++].packet = *packet;
}

static void seal(match *it, words *line, FILE *out) {
  uint32_t peer = next_number(line);
  lockstep_play play = read_orders(line);
  lockstep_packet packet;
  switch (ASK(lockstep_peer_seal(&it->peers[peer], play.bytes, play.len, &packet))) {
    case LOCKSTEP_OK:
      it->sealed[peer]++;
      send(it, peer, &packet);
      fprintf(out, "sealed %u", frame_of(&packet));
      return;
    case LOCKSTEP_TOO_EARLY: fprintf(out, "too early"); return;
    case LOCKSTEP_LEFT: fprintf(out, "left already"); return;
    case LOCKSTEP_FULL: fprintf(out, "match full"); return;
    default: die("peer_seal: code %u", last_code());
  }
}

static void print_leaving(uint32_t code, uint32_t client, uint32_t told, FILE *out) {
  if (code != LOCKSTEP_OK && code != LOCKSTEP_LEFT) die("a farewell: code %u", code);
  fprintf(out, "%s %u %u", code == LOCKSTEP_OK ? "leave" : "already", client, told);
}

static void print_orders(uint32_t code, uint32_t c, uint32_t frame, uint32_t told, FILE *out) {
  switch (code) {
    case LOCKSTEP_OK: fprintf(out, "entry %u %u", c, frame); return;
    case LOCKSTEP_REPEAT: fprintf(out, "repeat %u %u", c, frame); return;
    case LOCKSTEP_CONFLICT: fprintf(out, "conflict %u %u", c, frame); return;
    case LOCKSTEP_AHEAD: fprintf(out, "ahead %u %u %u", c, frame, told); return;
    case LOCKSTEP_LEFT: fprintf(out, "left %u %u", c, told); return;
    case LOCKSTEP_FULL: fprintf(out, "full %u", c); return;
    default: die("orders: code %u", code);
  }
}

static void print_report(uint32_t code, uint32_t client, uint32_t frame, FILE *out) {
  switch (code) {
    case LOCKSTEP_OK: fprintf(out, "report %u %u", client, frame); return;
    case LOCKSTEP_REPEAT: fprintf(out, "report repeated %u %u", client, frame); return;
    case LOCKSTEP_NO_FRAME: fprintf(out, "report beyond %u %u", client, frame); return;
    default: die("a report: code %u", code);
  }
}

static void up(match *it, words *line, FILE *out) {
  uint32_t number = next_number(line), told = 0, code;
  const sent *of = it->sent + number;
  if (number >= it->count) {
    fprintf(out, "no packet");
    return;
  }
  code = ASK(lockstep_server_up(&it->server, of->client, of->packet.bytes, of->packet.len, &told));
  if (tag_of(&of->packet) == ORDERS)
    print_orders(code, of->client, frame_of(&of->packet), told, out);
  else if (tag_of(&of->packet) == REPORT)
    print_report(code, of->client, frame_of(&of->packet), out);
  else
    print_leaving(code, of->client, told, out);
}

static void down(match *it, words *line, FILE *out) {
  uint32_t peer = next_number(line), client = next_number(line), frame = next_number(line), told;
  lockstep_packet packet;
  if (ASK(lockstep_server_entry(&it->server, client, frame, &packet)) == LOCKSTEP_NONE) {
    fprintf(out, "no entry");
    return;
  }
  must(last_code(), "lockstep_server_entry");
  if (ASK(lockstep_peer_deliver(&it->peers[peer], packet.bytes, packet.len, &told)) ==
      LOCKSTEP_REPEAT) {
    fprintf(out, "repeat %u %u", client, frame);
    return;
  }
  must(last_code(), "lockstep_peer_deliver");
  fprintf(out, "kept %u %u", client, frame);
}

static void tick(match *it, words *line, FILE *out) {
  const uint8_t *word;
  uint32_t told = 0;
  size_t len = next_word(line, &word);
  if (is_word(word, len, "server"))
    ASK(lockstep_server_tick(&it->server, &told));
  else
    ASK(lockstep_peer_tick(&it->peers[digits(word, len, 10)], &told));
  switch (last_code()) {
    case LOCKSTEP_OK: fprintf(out, "ticked %u", told); return;
    case LOCKSTEP_NOT_YET: fprintf(out, "not yet %u", told); return;
    case LOCKSTEP_OVER: fprintf(out, "over"); return;
    default: die("a tick: code %u", last_code());
  }
}

static void drop(match *it, words *line, FILE *out) {
  uint32_t client = next_number(line), told = 0;
  ASK(lockstep_server_drop(&it->server, client, &told));
  print_leaving(last_code(), client, told, out);
}

static void report(match *it, words *line, FILE *out) {
  uint32_t peer = next_number(line);
  lockstep_packet packet;
  if (ASK(lockstep_peer_report(&it->peers[peer], &packet)) == LOCKSTEP_NONE) {
    fprintf(out, "no frame");
    return;
  }
  must(last_code(), "lockstep_peer_report");
  send(it, peer, &packet);
  fprintf(out, "sent %u", frame_of(&packet));
}

/* A report that the peer has not made. */
static void forge(match *it, words *line, FILE *out) {
  lockstep_packet packet = {15, {13, 0, REPORT}};
  const uint8_t *word;
  uint32_t client = next_number(line), frame = next_number(line);
  size_t len = next_word(line, &word);
  uint64_t hash = digits(word, len, 16);
  lockstep_put_(packet.bytes + 3, frame);
  lockstep_put_(packet.bytes + 7, (uint32_t)hash);
  lockstep_put_(packet.bytes + 11, (uint32_t)(hash >> 32));
  send(it, client, &packet);
  fprintf(out, "sent %u", frame);
}

static void bye(match *it, words *line, FILE *out) {
  lockstep_packet packet = lockstep_bye();
  if (tag_of(&packet) != FAREWELL) die("no farewell");
  send(it, next_number(line), &packet);
  fprintf(out, "bye");
}

typedef void event(match *it, words *line, FILE *out);

static const struct {
  const char *name;
  event *run;
} events[] = {{"seal", seal}, {"up", up},         {"down", down},   {"tick", tick}, {"drop", drop},
              {"bye", bye},   {"report", report}, {"forge", forge}};

static void run_event(match *it, words *line, FILE *out) {
  const uint8_t *word;
  size_t len = next_word(line, &word);
  for (size_t i = 0; i < sizeof events / sizeof *events; i++) {
    if (!is_word(word, len, events[i].name)) continue;
    events[i].run(it, line, out);
    return;
  }
  die("no event: %.*s", (int)len, (const char *)word);
}

/* ---- The end ---- */

static void print_column(match *it, uint32_t client, FILE *out) {
  lockstep_packet packet;
  uint32_t plays = 0;
  bool left = false;
  while (!left) {
    if (ASK(lockstep_server_entry(&it->server, client, plays, &packet)) == LOCKSTEP_NONE) break;
    must(last_code(), "lockstep_server_entry");
    left = tag_of(&packet) != PLAY;
    plays += !left;
  }
  fprintf(out, "column %u %u %s\n", client, plays, left ? "left" : "playing");
}

static void print_alarm(match *it, uint32_t client, FILE *out) {
  lockstep_alarm alarm;
  if (ASK(lockstep_server_alarm(&it->server, client, &alarm)) == LOCKSTEP_NONE) return;
  must(last_code(), "lockstep_server_alarm");
  fprintf(out, "alarm %u frame %u got %016llx want %016llx\n", client, alarm.frame,
          (unsigned long long)alarm.got, (unsigned long long)alarm.want);
}

static void end(match *it, FILE *out) {
  for (uint32_t c = 0; c < it->clients; c++) print_column(it, c, out);
  for (uint32_t c = 0; c < it->clients; c++) {
    fprintf(out, "peer %u frames %u sealed %u", c, head_of(&it->peers[c]).frames, it->sealed[c]);
    print_summary(&it->peers[c], out);
  }
  fprintf(out, "server frames %u", head_of(&it->server).frames);
  print_summary(&it->server, out);
  for (uint32_t c = 0; c < it->clients; c++) print_alarm(it, c, out);
  fprintf(out, "end\n");
  for (uint32_t c = 0; c < it->clients; c++) let_go(&it->peers[c]);
  let_go(&it->server);
  free(it->sent);
}

int answer_drill(request *it, lockstep_object *setup, FILE *out) {
  text script = read_file(it->script);
  words whole = {script.bytes, script.bytes + script.len}, line;
  match of;
  if (!next_line(&whole, &line)) die("%s is empty", it->script);
  begin(&of, setup, &line);
  for (uint32_t n = 0; next_line(&whole, &line); n++) {
    fprintf(out, "%u ", n);
    run_event(&of, &line, out);
    fputc('\n', out);
  }
  end(&of, out);
  free(script.bytes);
  return 0;
}
