/* A small game over the library, drawn by SDL2.
 *
 * usage: demo [OPTION ..] MAP RULES..
 *
 *   --bots        all clients are bots; else client 0 is the mouse's
 *   --clients N   2 without it
 *   --frames N    ends after so many frames, and prints the world's hash
 *   --shot FILE   writes the last picture there, as a bitmap
 *   --pause MS    how long a frame lasts, 40 without it
 *
 * Click on an actor of yours to select it; right click moves it, attacks an enemy, or harvests
 * ore; with Shift after what it has to do. 1 to 9 produces that kind, S stops, C cancels. */
#include <lockstep.h>

#include <SDL.h>
#include <stdio.h>
#include <stdlib.h>

enum { CELL = 40, MOST_CELLS = 128 * 128, MOST_KINDS = 1024 };

/* What an actor was in the last frame. */
typedef struct {
  uint32_t id, health, reload;
} earlier;

typedef struct {
  lockstep_object setup, world;
  uint32_t me, clients, selected;
  bool has_mouse;
  lockstep_play play; /* what the player has ordered for the next frame */
  lockstep_head head;
  lockstep_actor actors[LOCKSTEP_MAX_ACTORS];
  earlier before[LOCKSTEP_MAX_ACTORS];
  size_t actor_count, before_count;
  lockstep_kind kinds[MOST_KINDS];
  uint32_t kind_count;
  uint8_t ore[MOST_CELLS];
} game;

static void die(const char *what, unsigned long code) {
  fprintf(stderr, "demo: %s (%lu)\n", what, code);
  exit(1);
}

static void must(uint32_t code, const char *what) {
  if (code != LOCKSTEP_OK) die(what, code);
}

/* ---- Rules and map ---- */

static void add_file(lockstep_object *setup, uint32_t what, const char *name) {
  static uint8_t bytes[4 << 20];
  FILE *file = fopen(name, "rb");
  size_t len;
  if (!file) die(name, 0);
  len = fread(bytes, 1, sizeof bytes, file);
  fclose(file);
  must(lockstep_setup_add(setup, what, bytes, len), "setup_add");
}

static void read_setup(game *g, char **names, int count) {
  lockstep_fault at;
  uint32_t code;
  must(lockstep_setup_create(&g->setup), "setup_create");
  add_file(&g->setup, LOCKSTEP_MAP, names[0]);
  for (int i = 1; i < count; i++) add_file(&g->setup, LOCKSTEP_RULES, names[i]);
  code = lockstep_setup_read(&g->setup, &at);
  if (code == LOCKSTEP_FAULT) {
    int name = at.file + 1 < (uint32_t)count ? (int)at.file + 1 : 0;
    fprintf(stderr, "%s:%llu: %s\n", names[name], (unsigned long long)at.place,
            lockstep_cause(at.cause));
  }
  must(code, "setup_read");
  while (g->kind_count < MOST_KINDS &&
         lockstep_setup_kind(&g->setup, g->kind_count, &g->kinds[g->kind_count]) == LOCKSTEP_OK)
    g->kind_count++;
}

/* Reads the world anew, and keeps what shows shots and hits. */
static void look(game *g) {
  size_t cells;
  for (size_t i = 0; i < g->actor_count; i++) {
    const lockstep_actor *a = &g->actors[i];
    g->before[i] = (earlier){a->id, a->health, a->reload};
  }
  g->before_count = g->actor_count;
  must(lockstep_read_head(&g->world, &g->head), "read_head");
  must(lockstep_read_actors(&g->world, g->actors, LOCKSTEP_MAX_ACTORS, &g->actor_count), "actors");
  must(lockstep_read_ore(&g->world, g->ore, MOST_CELLS, &cells), "read_ore");
}

static lockstep_actor *actor_of(game *g, uint32_t id) {
  for (size_t i = 0; i < g->actor_count; i++)
    if (g->actors[i].id == id) return &g->actors[i];
  return NULL;
}

static const lockstep_kind *kind_of(const game *g, const lockstep_actor *actor) {
  return &g->kinds[actor->kind];
}

static bool moves(const lockstep_kind *kind) {
  return (kind->traits & LOCKSTEP_MOBILE) && !(kind->traits & LOCKSTEP_BUILDING);
}

/* ---- Bots: a rule by which a client orders, from what it reads of the world ---- */

/* Produces the first kind that can be built and is paid; false: there is none. */
static bool order_product(const game *g, const lockstep_actor *actor, lockstep_play *play) {
  for (uint32_t k = 0; k < g->kind_count; k++) {
    const lockstep_kind *product = &g->kinds[k];
    if (product->traits & LOCKSTEP_BUILDABLE && moves(product) &&
        product->cost <= g->head.cash[actor->owner])
      return lockstep_produce(play, actor->id, (uint16_t)k);
  }
  return false;
}

/* The nearest actor of another client that has health, of several the one of the least id. */
static const lockstep_actor *nearest_enemy(const game *g, const lockstep_actor *actor) {
  const lockstep_actor *nearest = NULL;
  uint32_t least = UINT32_MAX;
  for (size_t i = 0; i < g->actor_count; i++) {
    const lockstep_actor *other = &g->actors[i];
    uint32_t x = other->x - actor->x, y = other->y - actor->y, far = x * x + y * y;
    if (other->owner == actor->owner || other->owner == LOCKSTEP_NOBODY || far >= least) continue;
    if (!(kind_of(g, other)->traits & LOCKSTEP_HEALTH)) continue;
    nearest = other;
    least = far;
  }
  return nearest;
}

/* What a bot orders: a product, a harvest, an attack for each actor of its own that has nothing to
 * do, the first 16 of them. */
static lockstep_play bot_play(const game *g, uint32_t client) {
  lockstep_play play = LOCKSTEP_PLAY;
  for (size_t i = 0; i < g->actor_count; i++) {
    const lockstep_actor *actor = &g->actors[i], *enemy;
    const lockstep_kind *kind = kind_of(g, actor);
    if (actor->owner != client) continue;
    if (kind->traits & LOCKSTEP_PRODUCTION && actor->builds == 0 && order_product(g, actor, &play))
      continue;
    if (actor->acts > 0) continue;
    if (moves(kind) && kind->traits & LOCKSTEP_HARVESTER)
      lockstep_harvest(&play, actor->id, (uint8_t)actor->x, (uint8_t)actor->y, false);
    else if (kind->traits & LOCKSTEP_ARMAMENT && (enemy = nearest_enemy(g, actor)) != NULL)
      lockstep_attack(&play, actor->id, enemy->id, false);
  }
  return play;
}

/* ---- A frame ---- */

/* Steps the world by what all clients order: the mouse's, then the bots. */
static void step_world(game *g) {
  uint8_t bytes[LOCKSTEP_MAX_CLIENTS * sizeof g->play.bytes];
  size_t len = 0;
  for (uint32_t client = 0; client < g->clients; client++) {
    lockstep_play play = client == g->me && g->has_mouse ? g->play : bot_play(g, client);
    memcpy(bytes + len, play.bytes, play.len);
    len += play.len;
  }
  must(lockstep_world_step(&g->world, bytes, len), "world_step");
  g->play = (lockstep_play)LOCKSTEP_PLAY;
}

/* ---- Drawing ---- */

static const SDL_Color colours[17] = {
    {86, 156, 255, 255},  {255, 99, 88, 255},   {98, 206, 112, 255},  {255, 202, 66, 255},
    {201, 122, 255, 255}, {80, 220, 220, 255},  {255, 153, 51, 255},  {240, 130, 190, 255},
    {150, 200, 60, 255},  {120, 120, 255, 255}, {220, 170, 120, 255}, {60, 170, 140, 255},
    {230, 80, 160, 255},  {170, 170, 80, 255},  {130, 90, 200, 255},  {200, 200, 255, 255},
    {170, 170, 170, 255}};

static void use(SDL_Renderer *to, SDL_Color c) { SDL_SetRenderDrawColor(to, c.r, c.g, c.b, c.a); }

static SDL_Color colour_of(uint32_t owner) { return colours[owner < 16 ? owner : 16]; }

static void box(SDL_Renderer *to, int x, int y, int half_width, int half_height) {
  SDL_Rect it = {x - half_width, y - half_height, 2 * half_width, 2 * half_height};
  SDL_RenderFillRect(to, &it);
}

static void draw_ground(game *g, SDL_Renderer *to) {
  for (uint32_t i = 0; i < g->head.width * g->head.height; i++) {
    int x = (int)(i % g->head.width) * CELL, y = (int)(i / g->head.width) * CELL;
    SDL_Rect cell = {x, y, CELL - 1, CELL - 1};
    use(to, (SDL_Color){58, 74, 52, 255});
    SDL_RenderFillRect(to, &cell);
    use(to, (SDL_Color){214, 168, 60, 255});
    for (int dot = 0; dot < (g->ore[i] + 9) / 10; dot++)
      box(to, x + 8 + dot % 3 * 12, y + 8 + dot / 3 * 12, 3, 3);
  }
}

/* A picture's place of an actor. */
static void place_of(const lockstep_actor *actor, int *x, int *y) {
  int32_t east, south;
  lockstep_position(actor, &east, &south);
  *x = east * CELL / 1024;
  *y = south * CELL / 1024;
}

/* A body that points where it faces: facings grow counter-clockwise from north. */
static void draw_unit(SDL_Renderer *to, int x, int y, uint32_t facing, SDL_Color colour, int size) {
  double turn = facing * 6.283185307 / 1024, east = -SDL_sin(turn), south = -SDL_cos(turn);
  SDL_Vertex corners[3];
  memset(corners, 0, sizeof corners);
  for (int i = 0; i < 3; i++) {
    double along = i == 0 ? size : -0.7 * size, aside = i == 0 ? 0 : (2 * i - 3) * 0.7 * size;
    corners[i].position.x = (float)(x + east * along - south * aside);
    corners[i].position.y = (float)(y + south * along + east * aside);
    corners[i].color = colour;
  }
  SDL_RenderGeometry(to, NULL, corners, 3, NULL, 0);
}

static void draw_actor(game *g, SDL_Renderer *to, const lockstep_actor *actor) {
  const lockstep_kind *kind = kind_of(g, actor);
  int x, y, width = CELL / 2 - 6;
  place_of(actor, &x, &y);
  if (actor->id == g->selected) {
    SDL_Rect ring = {x - CELL / 2, y - CELL / 2, CELL, CELL};
    use(to, (SDL_Color){255, 255, 255, 255});
    SDL_RenderDrawRect(to, &ring);
  }
  use(to, colour_of(actor->owner));
  if (kind->traits & LOCKSTEP_BUILDING) {
    box(to, x, y, CELL / 2 - 3, CELL / 2 - 3);
    use(to, (SDL_Color){24, 26, 24, 255});
    box(to, x, y, CELL / 4, kind->traits & LOCKSTEP_REFINERY ? CELL / 10 : CELL / 4);
  } else {
    draw_unit(to, x, y, actor->facing, colour_of(actor->owner),
              kind->traits & LOCKSTEP_HARVESTER ? CELL / 2 - 2 : CELL / 3);
  }
  if (actor->health < kind->hp) {
    use(to, (SDL_Color){20, 20, 20, 255});
    box(to, x, y - CELL / 2 + 2, width, 2);
    use(to, (SDL_Color){120, 230, 90, 255});
    width = (int)((uint64_t)width * actor->health / kind->hp);
    box(to, x - (CELL / 2 - 6) + width, y - CELL / 2 + 2, width, 2);
  }
}

/* A flash at each actor that shot in the last frame, as its reload has grown, and a frame round
 * each that was hit. */
static void draw_shots(game *g, SDL_Renderer *to) {
  size_t at = 0;
  for (size_t i = 0; i < g->actor_count; i++) {
    const lockstep_actor *a = &g->actors[i];
    int x, y;
    while (at < g->before_count && g->before[at].id < a->id) at++;
    if (at == g->before_count || g->before[at].id != a->id) continue;
    place_of(a, &x, &y);
    if (a->reload > g->before[at].reload) {
      use(to, (SDL_Color){255, 240, 160, 255});
      box(to, x, y, 5, 5);
    }
    if (a->health < g->before[at].health) {
      SDL_Rect ring = {x - CELL / 2 + 1, y - CELL / 2 + 1, CELL - 2, CELL - 2};
      use(to, (SDL_Color){255, 90, 60, 255});
      SDL_RenderDrawRect(to, &ring);
    }
  }
}

/* Below the map a bar for each client's cash, and how far its first builds are. */
static void draw_bars(game *g, SDL_Renderer *to) {
  int top = (int)g->head.height * CELL, wide = (int)(g->head.width * CELL / g->clients);
  for (uint32_t c = 0; c < g->clients; c++) {
    int x = (int)c * wide, full = wide - 12;
    int cash = (int)(g->head.cash[c] < 4000 ? g->head.cash[c] : 4000) * full / 4000;
    SDL_Rect whole = {x + 6, top + 6, full, 10}, part = {x + 6, top + 6, cash, 10};
    use(to, (SDL_Color){50, 50, 50, 255});
    SDL_RenderFillRect(to, &whole);
    use(to, colour_of(c));
    SDL_RenderFillRect(to, &part);
    for (size_t i = 0, at = 0; i < g->actor_count; i++)
      for (uint32_t b = 0; g->actors[i].owner == c && b < g->actors[i].builds; b++, at++)
        box(to, x + 12 + (int)at * 14, top + 25, 5, 4);
  }
}

static void draw(game *g, SDL_Renderer *to) {
  use(to, (SDL_Color){24, 26, 24, 255});
  SDL_RenderClear(to);
  draw_ground(g, to);
  for (size_t i = 0; i < g->actor_count; i++) draw_actor(g, to, &g->actors[i]);
  draw_shots(g, to);
  draw_bars(g, to);
}

/* ---- The mouse ---- */

/* The actor at a place of the picture. */
static lockstep_actor *actor_at(game *g, int x, int y) {
  for (size_t i = 0; i < g->actor_count; i++) {
    int at_x, at_y;
    place_of(&g->actors[i], &at_x, &at_y);
    if (abs(x - at_x) <= CELL / 2 && abs(y - at_y) <= CELL / 2) return &g->actors[i];
  }
  return NULL;
}

/* What a right click orders: an attack, a harvest, or a move. */
static void order_at(game *g, int x, int y, bool queued) {
  lockstep_actor *actor = actor_of(g, g->selected), *other = actor_at(g, x, y);
  uint32_t column = (uint32_t)(x / CELL), row = (uint32_t)(y / CELL);
  if (!actor || column >= g->head.width || row >= g->head.height) return;
  if (other && other->owner != g->me)
    lockstep_attack(&g->play, actor->id, other->id, queued);
  else if (kind_of(g, actor)->traits & LOCKSTEP_HARVESTER && g->ore[row * g->head.width + column])
    lockstep_harvest(&g->play, actor->id, (uint8_t)column, (uint8_t)row, queued);
  else
    lockstep_move(&g->play, actor->id, (uint8_t)column, (uint8_t)row, queued);
}

/* Takes an event of the window; false: it is to be closed. */
static bool take(game *g, const SDL_Event *event) {
  if (event->type == SDL_QUIT) return false;
  if (event->type == SDL_MOUSEBUTTONDOWN && event->button.button == SDL_BUTTON_LEFT) {
    lockstep_actor *actor = actor_at(g, event->button.x, event->button.y);
    g->selected = actor && actor->owner == g->me ? actor->id : 0;
  } else if (event->type == SDL_MOUSEBUTTONDOWN && event->button.button == SDL_BUTTON_RIGHT) {
    order_at(g, event->button.x, event->button.y, (SDL_GetModState() & KMOD_SHIFT) != 0);
  } else if (event->type == SDL_KEYDOWN && g->selected) {
    SDL_Keycode key = event->key.keysym.sym;
    if (key >= SDLK_1 && key <= SDLK_9)
      lockstep_produce(&g->play, g->selected, (uint16_t)(key - SDLK_1));
    if (key == SDLK_s) lockstep_stop(&g->play, g->selected);
    if (key == SDLK_c) lockstep_cancel(&g->play, g->selected);
  }
  return true;
}

/* ---- The whole ---- */

typedef struct {
  uint32_t frames, pause;
  const char *shot;
} options;

static options read_options(game *g, int argc, char **argv, int *first) {
  options it = {UINT32_MAX, 40, NULL};
  int at = 1;
  g->has_mouse = true;
  g->clients = 2;
  g->play = (lockstep_play)LOCKSTEP_PLAY;
  for (; at < argc && argv[at][0] == '-'; at++) {
    const char *value = at + 1 < argc ? argv[at + 1] : "";
    if (!strcmp(argv[at], "--bots")) {
      g->has_mouse = false;
      continue;
    }
    if (!strcmp(argv[at], "--clients")) g->clients = (uint32_t)atoi(value);
    else if (!strcmp(argv[at], "--frames")) it.frames = (uint32_t)atoi(value);
    else if (!strcmp(argv[at], "--pause")) it.pause = (uint32_t)atoi(value);
    else if (!strcmp(argv[at], "--shot")) it.shot = value;
    else die(argv[at], 0);
    at++;
  }
  *first = at;
  return it;
}

static void write_shot(const char *name, SDL_Renderer *to) {
  SDL_Surface *it;
  int width, height;
  SDL_GetRendererOutputSize(to, &width, &height);
  it = SDL_CreateRGBSurfaceWithFormat(0, width, height, 32, SDL_PIXELFORMAT_ARGB8888);
  if (!it || SDL_RenderReadPixels(to, NULL, SDL_PIXELFORMAT_ARGB8888, it->pixels, it->pitch) ||
      SDL_SaveBMP(it, name))
    die(SDL_GetError(), 0);
  SDL_FreeSurface(it);
}

static void play(game *g, const options *with, SDL_Window *window, SDL_Renderer *to) {
  bool is_open = true;
  while (is_open && g->head.frames < with->frames) {
    char title[64];
    SDL_Event event;
    while (SDL_PollEvent(&event)) is_open = is_open && take(g, &event);
    step_world(g);
    look(g);
    draw(g, to);
    snprintf(title, sizeof title, "client %u, frame %u, cash %u", g->me, g->head.frames,
             g->head.cash[g->me]);
    SDL_SetWindowTitle(window, title);
    if (with->shot && g->head.frames == with->frames) write_shot(with->shot, to);
    SDL_RenderPresent(to);
    SDL_Delay(with->pause);
  }
}

int main(int argc, char **argv) {
  static game g;
  int first;
  options with = read_options(&g, argc, argv, &first);
  SDL_Window *window;
  SDL_Renderer *renderer;
  if (argc - first < 2) die("demo [OPTION ..] MAP RULES..", 0);
  read_setup(&g, argv + first, argc - first);
  must(lockstep_world_create(&g.world, &g.setup, 1, g.clients), "world_create");
  look(&g);
  if (SDL_Init(SDL_INIT_VIDEO)) die(SDL_GetError(), 0);
  window = SDL_CreateWindow("lockstep", SDL_WINDOWPOS_CENTERED, SDL_WINDOWPOS_CENTERED,
                            (int)g.head.width * CELL, (int)g.head.height * CELL + 34, 0);
  renderer = window ? SDL_CreateRenderer(window, -1, SDL_RENDERER_SOFTWARE) : NULL;
  if (!renderer) die(SDL_GetError(), 0);
  play(&g, &with, window, renderer);
  printf("frames %u hash %016llx\n", g.head.frames, (unsigned long long)g.head.hash);
  lockstep_free(&g.world);
  lockstep_free(&g.setup);
  SDL_Quit();
  return 0;
}
