/* Updates counts of viewers by a crowd of 2,048 actors that see ten cells far, as program/main.rt.txt does. */
#include <stdint.h>
#include <stdio.h>
#include <stdlib.h>
#include <string.h>

enum { SIDE = 128, ACTORS = 2048, REACH = 10, MOST = 100 };

typedef struct { uint32_t id; uint16_t kind; uint8_t owner, alive, x, y; } Viewer;
/* an actor of a world is some 300 bytes long */
typedef struct { Viewer is; char rest[280]; } Actor;

static uint16_t counts[2][SIDE][SIDE];
static uint8_t explored[2][SIDE][SIDE];
static Viewer kept[ACTORS];
static uint64_t touched;

static void change(const Viewer *v, int by)
{
    int top = v->y < REACH ? 0 : v->y - REACH, bottom = v->y + REACH < SIDE ? v->y + REACH : SIDE - 1;
    int left = v->x < REACH ? 0 : v->x - REACH, right = v->x + REACH < SIDE ? v->x + REACH : SIDE - 1;
    for (int y = top; y <= bottom; y++)
        for (int x = left; x <= right; x++)
            if ((x - v->x) * (x - v->x) + (y - v->y) * (y - v->y) <= MOST) {
                counts[v->owner][y][x] += by;
                explored[v->owner][y][x] = 1;
            }
}

static void update(const Actor *actors)
{
    for (int i = 0; i < ACTORS; i++) {
        const Viewer *v = &actors[i].is;
        if (kept[i].id == v->id && kept[i].kind == v->kind && kept[i].owner == v->owner && kept[i].alive == v->alive
            && kept[i].x == v->x && kept[i].y == v->y)
            continue;
        if (kept[i].id)
            change(&kept[i], -1);
        change(v, 1);
        kept[i] = *v;
        touched++;
    }
}

static unsigned seen(void)
{
    unsigned sum = 0;
    for (int y = 0; y < SIDE; y++)
        for (int x = 0; x < SIDE; x++)
            sum += counts[0][y][x] > 0;
    return sum;
}

int main(int argc, char **argv)
{
    if (argc != 3)
        return 2;
    Actor *crowds[2];
    for (int c = 0; c < 2; c++) {
        crowds[c] = calloc(ACTORS, sizeof(Actor));
        for (int i = 0; i < ACTORS; i++)
            crowds[c][i].is = (Viewer){ i + 1, 0, i % 2, 1, i % 64 * 2 + (c && !strcmp(argv[1], "moving")), i / 64 * 4 };
    }
    unsigned long long count = strtoull(argv[2], 0, 10);
    for (unsigned long long n = 0; n < count; n++)
        update(crowds[n % 2]);
    unsigned sum = seen();
    update(crowds[0]);
    sum += seen();
    printf("%u %llu\n", sum, (unsigned long long)touched);
    return 0;
}
