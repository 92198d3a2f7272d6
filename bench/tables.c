/* The measured tables: tori, cones, six-cells, random triangles, cells of dimension 5 and 6, the worst star, small ones, a torus under drawn
 * numbers, two simplices. */
#include "tables.h"
#include "bumbleturf.h"
#include "plain.h"

#include <string.h>

const struct calls library = {bt_audit,    bt_cone,   bt_merge, bt_weld,   bt_compact, bt_incidence,
                              bt_boundary, bt_corner, bt_sheet, bt_reduce, bt_check,   bt_write, bt_read, bt_import};
const struct calls plain = {pl_audit,    pl_cone,   pl_merge, pl_weld,   pl_compact, pl_incidence,
                            pl_boundary, pl_corner, pl_sheet, pl_reduce, pl_check,   pl_write, pl_read, pl_import};

uint32_t draw(uint64_t *state, uint32_t limit)
{
    *state ^= *state << 13;
    *state ^= *state >> 7;
    *state ^= *state << 17;
    return (uint32_t)((*state >> 32) * limit >> 32);
}

static struct piece *begin(struct piece *t, const char *name, size_t n, uint16_t dimension)
{
    memset(t, 0, sizeof *t);
    memset(t->words, 255, sizeof t->words);
    t->name = name;
    t->n = n;
    t->dimension = dimension;
    return t;
}

/* Writes cell c with the given faces. */
static void cell(struct piece *t, unsigned c, unsigned p, const unsigned *faces)
{
    t->words[PL_RECORD * c] = (uint16_t)p;
    for (unsigned j = 0; p && j <= p; j++)
        t->words[PL_RECORD * c + 1 + j] = (uint16_t)faces[j];
}

/* Cell c of dimension p, all its faces the same cell. */
static void repeated(struct piece *t, unsigned c, unsigned p, unsigned face)
{
    unsigned faces[PL_DIMENSIONS] = {face, face, face, face, face, face, face};
    cell(t, c, p, faces);
}

static void merging(struct piece *t, uint16_t a, uint16_t b)
{
    t->a = a;
    t->b = b;
}

/* Marks the cells below count for a cone. */
static void marking(struct piece *t, unsigned count)
{
    memset(t->marks, 0, sizeof t->marks);
    for (unsigned c = 0; c < count; c++)
        t->marks[c / 64] |= (uint64_t)1 << c % 64;
}

/* A torus of w times h points, each with an edge along, an edge up, a diagonal and two triangles. */
static void torus(struct piece *t, unsigned w, unsigned h)
{
    unsigned s = w * h;
    for (unsigned y = 0; y < h; y++)
        for (unsigned x = 0; x < w; x++) {
            unsigned here = y * w + x, right = y * w + (x + 1) % w;
            unsigned up = (y + 1) % h * w + x, across = (y + 1) % h * w + (x + 1) % w;
            cell(t, here, 0, NULL);
            cell(t, s + here, 1, (unsigned[]){right, here});
            cell(t, 2 * s + here, 1, (unsigned[]){up, here});
            cell(t, 3 * s + here, 1, (unsigned[]){across, here});
            cell(t, 4 * s + here, 2, (unsigned[]){2 * s + right, 3 * s + here, s + here});
            cell(t, 5 * s + here, 2, (unsigned[]){s + up, 3 * s + here, 2 * s + here});
        }
}

/* A simplex of dimension 5, 63 cells, made by coning from nothing; then the given number of cones over it, 64 cells each. */
static void cones(struct piece *t, unsigned count)
{
    uint16_t apex;
    unsigned made = 0;
    for (unsigned p = 0; p < 6; p++) {
        marking(t, made);
        pl_cone(t->words, PL_RECORD * t->n, t->marks, (t->n + 63) / 64, &apex);
        made = 2 * made + 1;
    }
    marking(t, made);
    for (unsigned i = 0; i < count; i++)
        pl_cone(t->words, PL_RECORD * t->n, t->marks, (t->n + 63) / 64, &apex);
}

/* A simplex of dimension 6, 127 cells, and beside it the same again: a weld of their two six-cells joins all of them. */
static void simplices(struct piece *t)
{
    cones(t, 1);
    for (unsigned c = 0; c < 127; c++) {
        const uint16_t *r = t->words + PL_RECORD * c;
        unsigned faces[PL_FACES];
        for (unsigned j = 0; j < PL_FACES; j++)
            faces[j] = r[1 + j] + 127u;
        cell(t, c + 127, r[0], faces);
    }
}

/* Points 0 to k; a star from point k, the highest, to k-1, k-2, .. 0; the rest of the table repeats the last edge. The i-th edge of
 * the star costs i-1 additions and each repeated edge k, which is the most at k = 170: 43,435. */
static void star(struct piece *t, unsigned k)
{
    for (unsigned c = 0; c <= k; c++)
        cell(t, c, 0, NULL);
    for (unsigned c = k + 1; c < t->n; c++)
        cell(t, c, 1, (unsigned[]){k, c <= 2 * k ? 2 * k - c : 0});
}

/* Cells 0 to p-2 of dimension 0 to p-2, then `low` cells of dimension p-1 over the last, then cells of dimension p with drawn faces. */
static void drawn(struct piece *t, unsigned p, unsigned low)
{
    uint64_t state = 88172645463325252u + p;
    for (unsigned c = 0; c + 1 < p; c++)
        repeated(t, c, c, c - 1);
    for (unsigned c = p - 1; c < p - 1 + low; c++)
        repeated(t, c, p - 1, p - 2);
    for (unsigned c = p - 1 + low; c < t->n; c++) {
        unsigned faces[PL_DIMENSIONS];
        for (unsigned j = 0; j <= p; j++)
            faces[j] = p - 1 + draw(&state, low);
        cell(t, c, p, faces);
    }
}

/* The same cells under drawn numbers, as after many merges. */
static void scatter(struct piece *t)
{
    uint64_t state = 362436069u;
    uint16_t number[PL_ROOM], old[PL_RECORD * PL_ROOM];
    for (size_t c = 0; c < t->n; c++)
        number[c] = (uint16_t)c;
    for (size_t c = t->n; c > 1; c--) {
        size_t k = draw(&state, (uint32_t)c);
        uint16_t kept = number[k];
        number[k] = number[c - 1];
        number[c - 1] = kept;
    }
    memcpy(old, t->words, sizeof old);
    for (size_t c = 0; c < t->n; c++) {
        uint16_t *r = t->words + PL_RECORD * number[c];
        memcpy(r, old + PL_RECORD * c, PL_RECORD * sizeof *r);
        for (unsigned j = 0; r[0] && r[0] != PL_FREE && j <= r[0]; j++)
            r[1 + j] = number[r[1 + j]];
    }
}

void fill_tables(struct piece pieces[TABLES])
{
    struct piece *t = begin(&pieces[0], "torus, 510 cells", PL_ROOM, 2);
    torus(t, 17, 5);
    merging(t, 0, 84);

    t = begin(&pieces[1], "cones, 512 cells", PL_ROOM, 3);
    cones(t, 7);
    cell(t, 511, 0, NULL);
    merging(t, 63, 127);
    marking(t, 0);

    t = begin(&pieces[2], "506 six-cells", PL_ROOM, 6);
    drawn(t, 6, 1);
    merging(t, 6, 511);

    t = begin(&pieces[3], "drawn triangles", PL_ROOM, 2);
    drawn(t, 2, 170);
    merging(t, 1, 170);

    t = begin(&pieces[4], "dimension 5 and 6", PL_ROOM, 6);
    drawn(t, 6, 170);
    merging(t, 5, 174);

    t = begin(&pieces[5], "worst star", PL_ROOM, 1);
    star(t, 170);
    merging(t, 400, 511);

    t = begin(&pieces[6], "torus, 252 cells", PL_ROOM, 2);
    torus(t, 7, 6);
    marking(t, 252);
    t->conable = 1;

    t = begin(&pieces[7], "cones, 447 cells", PL_ROOM, 6);
    cones(t, 6);
    t->conable = 1;

    t = begin(&pieces[8], "small torus, N 8", 8, 2);
    cell(t, 0, 0, NULL);
    for (unsigned c = 1; c < 4; c++)
        cell(t, c, 1, (unsigned[]){0, 0});
    cell(t, 4, 2, (unsigned[]){2, 3, 1});
    cell(t, 5, 2, (unsigned[]){1, 3, 2});
    merging(t, 1, 2);

    t = begin(&pieces[9], "small loop, N 8", 8, 1);
    cell(t, 0, 0, NULL);
    cell(t, 1, 1, (unsigned[]){0, 0});
    marking(t, 2);
    t->conable = 1;

    t = begin(&pieces[10], "scattered torus", PL_ROOM, 2);
    torus(t, 17, 4);
    scatter(t);
    t = begin(&pieces[11], "two simplices, 254", PL_ROOM, 6);
    simplices(t);
    merging(t, 0, 127);
    marking(t, 0);
}
