/* Answers commands of the program through the library: what it prints is what the program prints.
 *
 * usage: engine [--refuse] COMMAND ..
 *
 *   drill --script FILE [--record FILE] [--map FILE] [RULES]
 *   local --script FILE [--bots N] [--map FILE] [RULES]
 *   replay --file FILE [--map FILE] [RULES]
 *   worlds --file FILE [--from N] [--to N] [--every N] [--map FILE] [RULES]
 *   view --file FILE --client N [--map FILE] [RULES]
 *   check [--map FILE] RULES
 *   route --map FILE --kind NAME --from X,Y --to X,Y RULES
 *
 * Files other than rules and map have to be ones that the program accepts, replays of its version.
 * `drill` records nothing, and `check` prints nothing of what is skipped.
 *
 * --refuse gives the command's answer once as it is, and then once for each allocation of the
 * library, which is refused: each time the call is made again, and the answer has to be the same.
 * The status is 99 where something is wrong. */
#define _POSIX_C_SOURCE 200809L
#include "engine.h"

#include <stdlib.h>

enum { MISMATCH = 99, REFUSED = 3, DIFFERENT = 7 };

/* ---- Replays ---- */

/* A replay that the program accepts, and how much of it is read. */
typedef struct {
  text file;
  size_t at;
  uint32_t seed, clients;
} replay;

static size_t order_length(uint8_t tag) {
  static const uint8_t lengths[9] = {0, 8, 10, 8, 5, 7, 5, 6, 2};
  if (tag < 1 || tag > 8) die("no order has the tag %u", tag);
  return lengths[tag];
}

static replay open_replay(const char *name) {
  replay it;
  it.file = read_file(name);
  if (it.file.len < 20 || memcmp(it.file.bytes, "LSRP\2\0", 6)) die("%s: no such replay", name);
  it.seed = number_at(it.file.bytes + 14);
  it.clients = it.file.bytes[18];
  it.at = 19;
  return it;
}

/* The length of the frame whose entries begin here. */
static size_t frame_length(const replay *it) {
  const uint8_t *bytes = it->file.bytes + it->at;
  size_t at = 0;
  for (uint32_t client = 0; client < it->clients; client++) {
    if (bytes[at++] == 0) continue;
    for (uint8_t left = bytes[at++]; left > 0; left--) at += order_length(bytes[at]);
  }
  return at;
}

/* Goes on behind the tag of the next part: 0 the end, 1 a frame, 2 a mark. */
static uint8_t next_part(replay *it) {
  if (it->at >= it->file.len) die("a replay without an end");
  return it->file.bytes[it->at++];
}

/* ---- What is printed of a world ---- */

lockstep_head head_of(lockstep_object *any) {
  lockstep_head head;
  MUST(lockstep_read_head(any, &head));
  return head;
}

void print_summary(lockstep_object *any, FILE *out) {
  lockstep_head head = head_of(any);
  fprintf(out, " hash %016llx actors %u cash", (unsigned long long)head.hash, head.actors);
  for (uint32_t c = 0; c < head.clients; c++) fprintf(out, " %u", head.cash[c]);
  fputc('\n', out);
}

/* What an actor is to do. */
static void print_items(lockstep_object *any, const lockstep_actor *of, FILE *out) {
  lockstep_item items[LOCKSTEP_MAX_ITEMS];
  size_t count = 0;
  if (of->acts + of->builds > 0 &&
      ASK(lockstep_read_items(any, of->id, items, of->acts + of->builds - 1, &count)) !=
          LOCKSTEP_NO_ROOM)
    die("read_items: code %u where there is no room", last_code());
  MUST(lockstep_read_items(any, of->id, items, LOCKSTEP_MAX_ITEMS, &count));
  if (count != of->acts + of->builds || of->doing != (of->acts ? items[0].what : 0))
    die("actor %u: other counts", of->id);
  for (size_t i = 0; i < count; i++) {
    const lockstep_item *it = &items[i];
    if (it->what == 1) fprintf(out, "act move %u,%u waits %u\n", it->x, it->y, it->waits);
    else if (it->what == 2) fprintf(out, "act attack %u waits %u\n", it->id, it->waits);
    else if (it->what == 5) fprintf(out, "build kind %u left %u\n", it->id, it->turns);
    else
      fprintf(out, "act %s %u,%u timer %u waits %u\n", it->what == 3 ? "harvest" : "deliver", it->x,
              it->y, it->turns, it->waits);
  }
}

static void print_actors(lockstep_object *any, uint32_t count, FILE *out) {
  static lockstep_actor actors[LOCKSTEP_MAX_ACTORS];
  size_t needed = 0;
  if (count > 0 && ASK(lockstep_read_actors(any, actors, count - 1, &needed)) != LOCKSTEP_NO_ROOM)
    die("read_actors: code %u where there is no room", last_code());
  MUST(lockstep_read_actors(any, actors, LOCKSTEP_MAX_ACTORS, &needed));
  if (needed != count) die("%zu actors in place of %u", needed, count);
  for (uint32_t i = 0; i < count; i++) {
    const lockstep_actor *a = &actors[i];
    fprintf(out, "actor %u kind %u owner %u cell %u,%u facing %u leg ", a->id, a->kind, a->owner,
            a->x, a->y, a->facing);
    if (a->dir == 8) fprintf(out, "none");
    else fprintf(out, "%u:%u", a->dir, a->progress);
    fprintf(out, " health %u load %u reload %u\n", a->health, a->load, a->reload);
    print_items(any, a, out);
  }
}

static void print_world(lockstep_object *any, FILE *out) {
  static uint8_t ore[128 * 128];
  lockstep_head head = head_of(any);
  size_t cells = 0;
  fprintf(out, "frames %u hash %016llx\n", head.frames, (unsigned long long)head.hash);
  fprintf(out, "world tick %u seed %u drawn %llu next %u pace %u\ncash", head.turns, head.seed,
          (unsigned long long)head.drawn, head.next_id, head.pace);
  for (uint32_t c = 0; c < head.clients; c++) fprintf(out, " %u", head.cash[c]);
  fprintf(out, "\ngone");
  for (uint32_t c = 0; c < head.clients; c++) fprintf(out, " %u", head.gone[c]);
  fputc('\n', out);
  print_actors(any, head.actors, out);
  MUST(lockstep_read_ore(any, ore, sizeof ore, &cells));
  if (cells != (size_t)head.width * head.height) die("%zu cells of ore", cells);
  for (uint32_t i = 0; i < cells; i++) {
    if (ore[i]) fprintf(out, "ore %u,%u %u\n", i % head.width, i / head.width, ore[i]);
  }
  fprintf(out, "end world\n");
}

/* ---- The arguments ---- */

static uint32_t number_in(const char *word) {
  return (uint32_t)digits((const uint8_t *)word, strlen(word), 10);
}

static request read_request(int count, char **list) {
  request it;
  bool only_files = false;
  memset(&it, 0, sizeof it);
  it.every = 1;
  for (int i = 0; i < count; i++) {
    char *option = list[i], *value = strchr(option, '=');
    if (only_files || option[0] != '-' || !option[1]) {
      if (it.count == MOST_RULES) die("too many rule files");
      it.rules[it.count++] = option;
      continue;
    }
    if (!strcmp(option, "--")) {
      only_files = true;
      continue;
    }
    if (value) *value++ = 0;
    else if (++i < count) value = list[i];
    else die("%s has no value", option);
    if (!strcmp(option, "--map")) it.map = value;
    else if (!strcmp(option, "--script")) it.script = value;
    else if (!strcmp(option, "--file")) it.file = value;
    else if (!strcmp(option, "--from")) it.from = value;
    else if (!strcmp(option, "--to")) it.to = value;
    else if (!strcmp(option, "--every")) it.every = number_in(value);
    else if (!strcmp(option, "--record")) it.record = value;
    else if (!strcmp(option, "--kind")) it.kind = value;
    else if (!strcmp(option, "--client")) it.client = value;
    else if (!strcmp(option, "--bots")) it.bots = number_in(value);
    else die("no option %s", option);
    if (value != list[i]) value[-1] = '=';
  }
  return it;
}

/* ---- local ---- */

/* What a client of a script plays, frame by frame. */
typedef struct {
  lockstep_play *plays;
  uint32_t count, room;
} column;

static void add_play(column *to, lockstep_play play) {
  if (to->count == to->room) {
    to->room = to->room ? 2 * to->room : 16;
    to->plays = realloc(to->plays, to->room * sizeof *to->plays);
    if (!to->plays) die("memory");
  }
  to->plays[to->count++] = play;
}

/* Steps a world by the next frame of the scripts, and then of as many bots. */
static void step_by(lockstep_object *world, column *columns, uint32_t clients, uint32_t bots,
                    uint32_t frame) {
  uint8_t bytes[16 * 164];
  size_t len = 0;
  for (uint32_t c = 0; c < clients + bots; c++) {
    lockstep_play play = {1, {0}};
    if (c >= clients) MUST(lockstep_bot(world, c, &play));
    else if (frame < columns[c].count) play = columns[c].plays[frame];
    memcpy(bytes + len, play.bytes, play.len);
    len += play.len;
  }
  MUST(lockstep_world_step(world, bytes, len));
}

static int answer_local(request *it, lockstep_object *setup, FILE *out) {
  text script = read_file(it->script);
  words whole = {script.bytes, script.bytes + script.len}, line;
  column columns[16];
  lockstep_object world = LOCKSTEP_EMPTY;
  uint32_t seed, clients, longest = 0;
  memset(columns, 0, sizeof columns);
  if (!next_line(&whole, &line)) die("%s is empty", it->script);
  next_word(&line, &(const uint8_t *){NULL});
  clients = next_number(&line);
  seed = next_number(&line);
  while (next_line(&whole, &line)) {
    column *of = &columns[next_number(&line)];
    add_play(of, read_orders(&line));
    if (of->count > longest) longest = of->count;
  }
  MUST(lockstep_world_create(&world, setup, seed, clients + it->bots));
  for (uint32_t n = 0; n < longest; n++) step_by(&world, columns, clients, it->bots, n);
  for (uint32_t c = 0; c < clients + it->bots; c++)
    fprintf(out, "column %u %u left\n", c, c < clients ? columns[c].count : longest);
  fprintf(out, "local frames %u", longest);
  print_summary(&world, out);
  fprintf(out, "end\n");
  for (uint32_t c = 0; c < 16; c++) free(columns[c].plays);
  free(script.bytes);
  let_go(&world);
  return 0;
}

/* ---- replay, worlds ---- */

/* The opening world of a replay. */
static lockstep_object open_world(replay *it, lockstep_object *setup) {
  lockstep_object world = LOCKSTEP_EMPTY;
  MUST(lockstep_world_create(&world, setup, it->seed, it->clients));
  return world;
}

/* Steps the world by the frame that is due. */
static void step_frame(replay *it, lockstep_object *world) {
  size_t len = frame_length(it);
  if (ASK(lockstep_world_step(world, it->file.bytes + it->at, len - 1)) != LOCKSTEP_BAD_BYTES)
    die("a frame without its last byte: code %u", last_code());
  MUST(lockstep_world_step(world, it->file.bytes + it->at, len));
  it->at += len;
}

static int answer_replay(request *it, lockstep_object *setup, FILE *out) {
  replay file = open_replay(it->file);
  lockstep_object world = open_world(&file, setup);
  bool differs = false;
  uint8_t tag;
  while ((tag = next_part(&file)) != 0) {
    if (tag == 1) {
      step_frame(&file, &world);
      continue;
    }
    uint64_t mark = long_at(file.file.bytes + file.at), hash = head_of(&world).hash;
    if (mark != hash && !differs) {
      fprintf(out, "mark %u file %016llx here %016llx\n", head_of(&world).frames,
              (unsigned long long)mark, (unsigned long long)hash);
      differs = true;
    }
    file.at += 8;
  }
  fprintf(out, "replay frames %u", head_of(&world).frames);
  print_summary(&world, out);
  fprintf(out, "end\n");
  let_go(&world);
  free(file.file.bytes);
  return differs ? DIFFERENT : 0;
}

/* The kinds of a setup, and its ground. */
static void print_setup(lockstep_object *setup, FILE *out) {
  static uint8_t cells[128 * 128];
  lockstep_kind kind;
  uint32_t width = 0;
  size_t count = 0;
  for (uint32_t k = 0; ASK(lockstep_setup_kind(setup, k, &kind)) == LOCKSTEP_OK; k++) {
    uint8_t name[4096];
    size_t len = 0;
    MUST(lockstep_setup_kind_name(setup, k, name, sizeof name, &len));
    fprintf(out, "kind %u health %u speed %u building %d name %.*s\n", k, kind.hp, kind.speed,
            (kind.traits & LOCKSTEP_BUILDING) != 0, (int)len, (const char *)name);
  }
  MUST(lockstep_setup_terrain(setup, &width, cells, sizeof cells, &count));
  fprintf(out, "map %u %zu\n", width, count / width);
  for (size_t at = 0; at < count; at++) {
    if (at % width == 0) fputs("row ", out);
    fputc(".=r~X"[cells[at]], out);
    if (at % width == width - 1) fputc('\n', out);
  }
}

static int answer_worlds(request *it, lockstep_object *setup, FILE *out) {
  replay file = open_replay(it->file);
  lockstep_object world = open_world(&file, setup);
  uint32_t from = it->from ? number_in(it->from) : 0, count = 0, frame = 0;
  uint32_t to = it->to ? number_in(it->to) : UINT32_MAX;
  uint8_t tag;
  print_setup(setup, out);
  do {
    frame = head_of(&world).frames;
    if (frame >= from && frame <= to && (frame - from) % it->every == 0) {
      print_world(&world, out);
      count++;
    }
    while ((tag = next_part(&file)) == 2) file.at += 8;
    if (tag == 1) step_frame(&file, &world);
  } while (tag != 0);
  fprintf(out, "worlds %u\nend\n", count);
  let_go(&world);
  free(file.file.bytes);
  return 0;
}

/* ---- view ---- */

/* Adds what a client sees of a world to what is shown of each cell: `o` where it sees it now, `.`
 * where it did before. */
static void look(lockstep_object *world, uint32_t client, uint8_t *shown) {
  static uint8_t seen[128 * 128];
  lockstep_head head = head_of(world);
  uint32_t width = 0, all = head.width * head.height;
  size_t cells = 0;
  if (ASK(lockstep_seen(world, client, &width, seen, all - 1, &cells)) != LOCKSTEP_NO_ROOM)
    die("seen: code %u where there is no room", last_code());
  MUST(lockstep_seen(world, client, &width, seen, sizeof seen, &cells));
  if (width != head.width || cells != all) die("seen: %zu cells in rows of %u", cells, width);
  for (uint32_t i = 0; i < all; i++) {
    if (seen[i]) shown[i] = 'o';
    else if (shown[i] == 'o') shown[i] = '.';
  }
  if (head_of(world).hash != head.hash) die("seen changes the world");
}

static int answer_view(request *it, lockstep_object *setup, FILE *out) {
  uint8_t shown[128 * 128], tag;
  replay file = open_replay(it->file);
  lockstep_object world = open_world(&file, setup);
  uint32_t client = number_in(it->client);
  lockstep_head head;
  memset(shown, '#', sizeof shown);
  look(&world, client, shown);
  while ((tag = next_part(&file)) != 0) {
    if (tag == 2) {
      file.at += 8;
      continue;
    }
    step_frame(&file, &world);
    look(&world, client, shown);
  }
  head = head_of(&world);
  fprintf(out, "view %u frames %u\n", client, head.frames);
  for (uint32_t y = 0; y < head.height; y++)
    fprintf(out, "%.*s\n", (int)head.width, (char *)shown + y * head.width);
  fprintf(out, "end\n");
  let_go(&world);
  free(file.file.bytes);
  return 0;
}

/* ---- check ---- */

static void print_traits(lockstep_object *setup, FILE *out) {
  static const char *const names[10] = {"Health",     "Mobile",    "Building", "Harvester",
                                        "Refinery",   "Production", "Buildable", "Valued",
                                        "Armament",   "RevealsShroud"};
  lockstep_kind kind;
  for (uint32_t k = 0; ASK(lockstep_setup_kind(setup, k, &kind)) == LOCKSTEP_OK; k++) {
    uint8_t name[4096];
    size_t len = 0;
    MUST(lockstep_setup_kind_name(setup, k, name, sizeof name, &len));
    fprintf(out, "kind %u %.*s", k, (int)len, (const char *)name);
    for (int i = 0; i < 10; i++) {
      if (kind.traits >> i & 1) fprintf(out, " %s", names[i]);
    }
    fputc('\n', out);
  }
}

static int answer_check(request *it, lockstep_object *setup, FILE *out) {
  lockstep_object world = LOCKSTEP_EMPTY;
  lockstep_head head;
  print_traits(setup, out);
  MUST(lockstep_world_create(&world, setup, 1, 1));
  head = head_of(&world);
  if (it->map) fprintf(out, "map %u %u actors %u\n", head.width, head.height, head.actors);
  fprintf(out, "end\n");
  let_go(&world);
  return 0;
}

/* ---- route ---- */

/* The number of the kind with this name. */
static uint32_t kind_named(lockstep_object *setup, const char *name) {
  uint8_t held[4096];
  size_t len = 0;
  for (uint32_t k = 0; ASK(lockstep_setup_kind_name(setup, k, held, sizeof held, &len)) == LOCKSTEP_OK;
       k++) {
    if (len == strlen(name) && !memcmp(held, name, len)) return k;
  }
  die("no kind %s", name);
}

static lockstep_cell cell_of(const char *word) {
  lockstep_cell cell;
  unsigned x, y;
  if (sscanf(word, " %u , %u", &x, &y) != 2) die("no cell: %s", word);
  cell.x = (uint8_t)x;
  cell.y = (uint8_t)y;
  return cell;
}

static int answer_route(request *it, lockstep_object *setup, FILE *out) {
  static lockstep_cell cells[128 * 128];
  lockstep_object world = LOCKSTEP_EMPTY;
  lockstep_cell from = cell_of(it->from), to = cell_of(it->to);
  lockstep_route route = {0, 0};
  uint32_t kind = kind_named(setup, it->kind), code;
  uint64_t before;
  MUST(lockstep_world_create(&world, setup, 1, 1));
  before = head_of(&world).hash;
  code = ASK(lockstep_find_route(&world, kind, from.x, from.y, to.x, to.y, cells, 1, &route));
  if (code != LOCKSTEP_NONE) {
    if (code != LOCKSTEP_NO_ROOM) die("find_route: code %u where there is no room", code);
    MUST(lockstep_find_route(&world, kind, from.x, from.y, to.x, to.y, cells, route.count, &route));
    fprintf(out, "route %u", route.cost);
    for (size_t i = 0; i < route.count; i++) fprintf(out, " %u,%u", cells[i].x, cells[i].y);
    fputc('\n', out);
  } else {
    fprintf(out, "route none\n");
  }
  if (head_of(&world).hash != before) die("find_route changes the world");
  let_go(&world);
  return 0;
}

/* ---- The commands ---- */

typedef int answers(request *it, lockstep_object *setup, FILE *out);

static const struct {
  const char *name;
  answers *answer;
} commands[] = {{"drill", answer_drill},
                {"local", answer_local},
                {"replay", answer_replay},
                {"worlds", answer_worlds},
                {"view", answer_view},
                {"check", answer_check},
                {"route", answer_route}};

static int answer(int count, char **list, FILE *out) {
  request it = read_request(count - 1, list + 1);
  lockstep_object setup = LOCKSTEP_EMPTY;
  int status = REFUSED;
  if (!read_setup(&setup, it.map, it.rules, it.count, out)) return status;
  for (size_t i = 0; i < sizeof commands / sizeof *commands; i++) {
    if (!strcmp(list[0], commands[i].name)) status = commands[i].answer(&it, &setup, out);
  }
  let_go(&setup);
  if (blocks_held() != 0) die("%lld blocks were not freed", (long long)blocks_held());
  return status;
}

/* The status of a command, and the text that it prints, which the caller frees. */
static int text_of(int count, char **list, char **printed, size_t *len) {
  FILE *out = open_memstream(printed, len);
  int status;
  if (!out) die("memory");
  status = answer(count, list, out);
  fclose(out);
  return status;
}

/* The command's answer, once more for each allocation, which is refused. */
static int answer_refused(int count, char **list) {
  char *want, *got;
  size_t want_len, got_len;
  uint64_t number;
  int status;
  refuse_allocation(UINT64_MAX);
  status = text_of(count, list, &want, &want_len);
  number = allocations();
  for (uint64_t i = 0; i < number; i++) {
    refuse_allocation(i);
    int other = text_of(count, list, &got, &got_len);
    if (other != status || got_len != want_len || memcmp(got, want, got_len)) {
      fprintf(stderr, "allocation %llu: another answer\n%s", (unsigned long long)i, got);
      return MISMATCH;
    }
    free(got);
  }
  fwrite(want, 1, want_len, stdout);
  fprintf(stderr, "refused %llu allocations\n", (unsigned long long)number);
  free(want);
  return status;
}

int main(int argc, char **argv) {
  if (lockstep_abi() != LOCKSTEP_ABI) die("another library");
  if (argc > 2 && !strcmp(argv[1], "--refuse")) return answer_refused(argc - 2, argv + 2);
  if (argc < 2) die("engine COMMAND ..");
  return answer(argc - 1, argv + 1, stdout);
}
