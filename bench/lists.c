/* The measured part lists: a torus of triangles, simplices of dimension 6 with nothing in common, and lines that share most of their corners;
 * and the plain version held against the library on them and on damaged copies. */
#include "plain.h"
#include "tables.h"

#include <stdio.h>
#include <string.h>

static void put(struct list *l, const unsigned *numbers, unsigned count)
{
    for (unsigned i = 0; i < count; i++)
        l->length += (size_t)sprintf((char *)l->text + l->length, "%u%c", numbers[i], i + 1 == count ? '\n' : ' ');
}

static struct list *begin(struct list *l, const char *name, unsigned points)
{
    l->name = name;
    l->length = 0;
    put(l, &points, 1);
    return l;
}

/* Two triangles for each square of a grid whose opposite sides are one: 81 points, 243 edges, 162 triangles. */
static void torus(struct list *l)
{
    enum { SIDE = 9 };
    for (unsigned i = 0; i < SIDE; i++)
        for (unsigned k = 0; k < SIDE; k++) {
            unsigned right = (i + 1) % SIDE, up = (k + 1) % SIDE;
            unsigned a = SIDE * i + k, b = SIDE * right + k, c = SIDE * i + up, d = SIDE * right + up;
            put(l, (unsigned[]){a, b, d}, 3);
            put(l, (unsigned[]){d, c, a}, 3);
        }
}

static void simplices(struct list *l)
{
    for (unsigned s = 0; s < 4; s++) {
        unsigned corner[PL_FACES];
        for (unsigned k = 0; k < PL_FACES; k++)
            corner[k] = PL_FACES * s + PL_TOP - k;
        put(l, corner, PL_FACES);
    }
}

/* Each line has five corners, one further on than the line before; every line stands four times. */
static void chain(struct list *l)
{
    for (unsigned i = 0; i < 4 * 29; i++)
        put(l, (unsigned[]){i / 4, i / 4 + 4, i / 4 + 2, i / 4 + 1, i / 4 + 3}, 5);
}

void fill_lists(struct list lists[LISTS])
{
    torus(begin(&lists[0], "torus list, 486 cells", 81));
    simplices(begin(&lists[1], "simplices list, 508 cells", 28));
    chain(begin(&lists[2], "chain list, 497 cells", 33));
}

static void damage(struct list *l, uint64_t *state)
{
    static const char bytes[] = "0123456789 \n0\r";
    size_t at = draw(state, (uint32_t)l->length);
    if (draw(state, 8))
        l->text[at] = (uint8_t)bytes[draw(state, sizeof bytes)];
    else
        l->length = at;
}

int list_differences(const struct list lists[LISTS])
{
    static const size_t rooms[] = {1, 100, 486, 497, 508, PL_ROOM};
    static uint16_t left[PL_RECORD * PL_ROOM], right[PL_RECORD * PL_ROOM];
    unsigned long seen[19] = {0};
    uint64_t state = 88172645463325252u;
    int wrong = 0;
    for (int i = 0; i < LISTS; i++)
        for (int k = 0; k < 2000; k++) {
            struct list l = lists[i];
            for (uint32_t d = k ? draw(&state, 3) : 0; d; d--)
                damage(&l, &state);
            size_t words = PL_RECORD * (k ? rooms[draw(&state, 6)] : PL_ROOM);
            memset(left, 0x5A, sizeof left);
            memset(right, 0x5A, sizeof right);
            uint32_t ours = library.import(left, words, l.text, l.length), theirs = plain.import(right, words, l.text, l.length);
            seen[ours < 19 ? ours : 2]++;
            if (ours != theirs || memcmp(left, right, sizeof left)) {
                printf("differs: import of %s, library answers %08x, C answers %08x\n", l.name, ours, theirs);
                wrong++;
            }
        }
    printf("  import   ");
    for (int n = 0; n < 19; n++)
        if (seen[n])
            printf(" %d: %lu", n, seen[n]);
    printf("\n");
    return wrong;
}
