/* Best directions over a map, as the crate grid_routes finds them: a plain C program to measure against.
 *
 * usage: search cold|warm COUNT <TILES      TILES: a line of characters for each row of the map
 *
 * It asks COUNT questions from random cells, prints the sum of the answers (8 where there is none) and how many fields
 * were begun. `cold` asks each for another random goal, `warm` asks for 32 goals by turns, whose fields are kept.
 *
 * The search is Dial's, from the goal, with a bucket for each cost of a step. It stops as soon as the answer is sure and
 * is taken up again where it stopped. The ground is kept packed, and each question compares it with the one given. */
#include <stdint.h>
#include <stdio.h>
#include <stdlib.h>
#include <string.h>

enum { SIDE = 128, CELLS = SIDE * SIDE, BUCKETS = 71, FIELDS = 32 };
enum { CLEAR, ROAD, ROUGH, WATER, ROCK };
static const uint32_t NONE = UINT32_MAX;

typedef struct {
    uint8_t x, y;
} Cell;

/* The ground of a map: 16 terrains to a word, 64 buildings to a word. */
typedef struct {
    int width, height;
    uint64_t terrain[CELLS / 16], built[CELLS / 64];
} Ground;

typedef struct {
    int goal;
    uint8_t costs[5]; /* by terrain; rock costs 0 */
} Ask;

typedef struct {
    uint32_t level, labels[CELLS];
} Field;

typedef struct {
    Ground ground;
    uint8_t kinds[CELLS]; /* the terrain by which a cell counts: rock where a building stands */
    int count; /* of fields */
    Ask asks[FIELDS];
    uint64_t last[FIELDS]; /* when each was asked for */
    Field fields[FIELDS];
    int current; /* the field whose cells the buckets have */
    Cell *buckets[BUCKETS];
    int counts[BUCKETS];
    uint64_t now, computed;
} Router;

static int terrain_at(const Ground *g, int i) { return g->terrain[i / 16] >> 4 * (i % 16) & 15; }

static int built_at(const Ground *g, int i) { return g->built[i / 64] >> i % 64 & 1; }

static void take_ground(Router *r, const Ground *g) {
    r->ground = *g;
    for (int i = 0; i < g->width * g->height; i++)
        r->kinds[i] = built_at(g, i) ? ROCK : terrain_at(g, i);
    r->count = 0;
    r->current = -1;
}

static uint32_t entry_cost(const Router *r, const Ask *ask, int i) {
    return ask->costs[i == ask->goal ? terrain_at(&r->ground, i) : r->kinds[i]];
}

static void push(Router *r, uint32_t label, int x, int y) {
    int b = label % BUCKETS;
    r->buckets[b][r->counts[b]++] = (Cell){x, y};
}

static void offer(Router *r, Field *f, int x, int y, uint32_t label) {
    int i = y * r->ground.width + x;
    if (label < f->labels[i]) {
        f->labels[i] = label;
        push(r, label, x, y);
    }
}

/* Offers the neighbours of a cell the walk that enters it. */
static void expand(Router *r, const Ask *ask, Field *f, int x, int y) {
    int w = r->ground.width, i = y * w + x;
    uint32_t cost = entry_cost(r, ask, i), straight = f->labels[i] + 5 * cost, across = f->labels[i] + 7 * cost;
    if (cost == 0)
        return;
    int north = y > 0, south = y + 1 < r->ground.height, west = x > 0, east = x + 1 < w;
    int north_free = north && entry_cost(r, ask, i - w), south_free = south && entry_cost(r, ask, i + w);
    int west_free = west && entry_cost(r, ask, i - 1), east_free = east && entry_cost(r, ask, i + 1);
    if (north) offer(r, f, x, y - 1, straight);
    if (north_free && east_free) offer(r, f, x + 1, y - 1, across);
    if (east) offer(r, f, x + 1, y, straight);
    if (south_free && east_free) offer(r, f, x + 1, y + 1, across);
    if (south) offer(r, f, x, y + 1, straight);
    if (south_free && west_free) offer(r, f, x - 1, y + 1, across);
    if (west) offer(r, f, x - 1, y, straight);
    if (north_free && west_free) offer(r, f, x - 1, y - 1, across);
}

/* Fills the buckets from the labels. */
static void refill(Router *r, const Field *f) {
    memset(r->counts, 0, sizeof r->counts);
    for (int y = 0, i = 0; y < r->ground.height; y++)
        for (int x = 0; x < r->ground.width; x++, i++)
            if (f->level <= f->labels[i] && f->labels[i] < NONE)
                push(r, f->labels[i], x, y);
}

/* Expands the cells of the least label from the level on, and raises the level above it. */
static void advance(Router *r, const Ask *ask, Field *f) {
    for (uint32_t label = f->level; label < f->level + BUCKETS; label++) {
        int b = label % BUCKETS, found = 0;
        for (int k = 0; k < r->counts[b]; k++) {
            Cell c = r->buckets[b][k];
            if (f->labels[c.y * r->ground.width + c.x] == label) {
                found = 1;
                expand(r, ask, f, c.x, c.y);
            }
        }
        if (found) {
            r->counts[b] = 0;
            f->level = label + 1;
            return;
        }
    }
    f->level = NONE;
}

/* The place of the field for a question: of one that is kept, or of the one that was asked for longest ago, which is
 * begun anew. */
static int place_for(Router *r, const Ask *ask) {
    int place = 0;
    r->now++;
    for (int k = 0; k < r->count; k++) {
        if (r->asks[k].goal == ask->goal && !memcmp(r->asks[k].costs, ask->costs, sizeof ask->costs)) {
            r->last[k] = r->now;
            return k;
        }
        if (r->last[k] < r->last[place])
            place = k;
    }
    if (r->count < FIELDS)
        place = r->count++;
    Field *f = &r->fields[place];
    r->asks[place] = *ask;
    r->last[place] = r->now;
    f->level = 0;
    memset(f->labels, 255, r->ground.width * r->ground.height * sizeof *f->labels);
    f->labels[ask->goal] = 0;
    memset(r->counts, 0, sizeof r->counts);
    push(r, 0, ask->goal % r->ground.width, ask->goal / r->ground.width);
    r->current = place;
    r->computed++;
    return place;
}

static int best_dir(Router *r, const Ground *g, const Ask *ask, int from) {
    static const int DX[] = {0, 1, 1, 1, 0, -1, -1, -1}, DY[] = {-1, -1, 0, 1, 1, 1, 0, -1};
    if (memcmp(r->ground.terrain, g->terrain, sizeof g->terrain) || memcmp(r->ground.built, g->built, sizeof g->built))
        take_ground(r, g);
    int place = place_for(r, ask);
    Field *f = &r->fields[place];
    while (f->level < f->labels[from]) {
        if (r->current != place)
            refill(r, f);
        r->current = place;
        advance(r, ask, f);
    }
    int w = g->width, x = from % w, y = from / w;
    if (f->labels[from] == NONE)
        return 8;
    for (int d = 0; d < 8; d++) {
        int to_x = x + DX[d], to_y = y + DY[d], to = to_y * w + to_x;
        if (to_x < 0 || to_x >= w || to_y < 0 || to_y >= g->height || f->labels[to] >= f->labels[from])
            continue;
        uint32_t cost = entry_cost(r, ask, to);
        if (d % 2 == 0)
            cost *= 5;
        else
            cost *= entry_cost(r, ask, y * w + to_x) && entry_cost(r, ask, to_y * w + x) ? 7 : 0;
        if (cost > 0 && f->labels[to] + cost == f->labels[from])
            return d;
    }
    return 8;
}

static uint64_t seed = 1;

static int draw(const Ground *g) {
    int i;
    do {
        seed = seed * 6364136223846793005u + 1442695040888963407u;
        int x = seed >> 33 & 127, y = seed >> 40 & 127;
        i = y % g->height * g->width + x % g->width;
    } while (terrain_at(g, i) == ROCK);
    return i;
}

int main(int argc, char **argv) {
    static Ground g;
    static Router r;
    char line[SIDE + 2];
    if (argc != 3)
        return 1;
    for (; fgets(line, sizeof line, stdin); g.height++) {
        g.width = strcspn(line, "\n");
        for (int x = 0; x < g.width; x++) {
            int i = g.height * g.width + x;
            g.terrain[i / 16] |= (uint64_t)(strchr(".=r~X", line[x]) - ".=r~X") << 4 * (i % 16);
        }
    }
    for (int b = 0; b < BUCKETS; b++)
        r.buckets[b] = malloc(9 * CELLS * sizeof **r.buckets);
    take_ground(&r, &g);
    int warm = !strcmp(argv[1], "warm"), goals[32];
    for (int k = 0; k < 32; k++)
        goals[k] = draw(&g);
    long sum = 0;
    for (long n = 0; n < atol(argv[2]); n++) {
        Ask ask = {warm ? goals[n % 32] : draw(&g), {2, 1, 4, 0, 0}};
        sum += best_dir(&r, &g, &ask, draw(&g));
    }
    printf("%ld %llu\n", sum, (unsigned long long)r.computed);
    return 0;
}
