/* Measures the compiled library beside the plain version: first that both agree, then rounds that take turns (library, C, library,
 * C, ..). The figure of a run is the median of the ratios of one round; everything is run three times, and the table of ratios has
 * the smallest and the largest of the three. No timing decides anything.
 *     bench [CALL..]       all calls, or the named ones */
#define _POSIX_C_SOURCE 199309L
#include "plain.h"
#include "tables.h"

#include <stdio.h>
#include <stdlib.h>
#include <string.h>
#include <time.h>

enum { ROUNDS = 201, RUNS = 3, SLICE = 100000, COPIES = 128, CALLS = 13 };

static struct piece pieces[TABLES], listed;
static struct list lists[LISTS];

/* The buffers that the measured calls are lent; sink takes every answer, so that no call can be left out. */
static struct {
    const struct piece *piece;
    size_t words, row, length;
    uint16_t copies[COPIES][64], two[2][PL_RECORD * PL_ROOM], target[PL_RECORD * PL_ROOM];
    uint16_t cells[PL_DIMENSIONS], holes[PL_DIMENSIONS], cell, face, point, first, list[PL_ROOM];
    int64_t chain[PL_ROOM], boundary[PL_ROOM], sum;
    uint64_t evidence[PL_ROOM * PL_ROW], made[PL_ROOM * PL_ROW], additions[PL_DIMENSIONS];
    uint8_t file[PL_LONGEST], written[PL_LONGEST], yes;
    const struct list *partlist;
} lent;

static volatile uint32_t sink;

static double now(void)
{
    struct timespec t;
    clock_gettime(CLOCK_MONOTONIC, &t);
    return 1e9 * (double)t.tv_sec + (double)t.tv_nsec;
}

typedef double measure(const struct calls *s, size_t times);

#define READING(name, call)                                   \
    static double name(const struct calls *s, size_t times)   \
    {                                                         \
        const uint16_t *t = lent.piece->words;                \
        size_t words = lent.words, n = lent.piece->n, got = 0; \
        (void)t, (void)n, (void)got;                          \
        double start = now();                                 \
        for (size_t i = 0; i < times; i++)                    \
            sink = s->call;                                   \
        return (now() - start) / (double)times;               \
    }

READING(audit, audit(t, words))
READING(incidence, incidence(t, words, lent.cell, lent.face, &lent.sum))
READING(boundary, boundary(t, words, lent.chain, n, lent.piece->dimension, lent.boundary, n))
READING(corner, corner(t, words, lent.cell, lent.piece->dimension, &lent.point))
READING(sheet, sheet(t, words, &lent.yes))
READING(reduce, reduce(t, words, lent.made, n * lent.row, lent.additions))
READING(check, check(t, words, lent.evidence, n * lent.row, lent.cells, lent.holes))
READING(put, write(t, words, lent.written, PL_LONGEST, &got))
READING(get, read(lent.target, words, lent.file, lent.length))
READING(import, import(lent.target, words, lent.partlist->text, lent.partlist->length))

/* Cone, merge, weld and compaction change the table, so each call of a stretch has a fresh copy; copies are made outside the measured time and are few
 * enough to stay in the first cache. */
#define CHANGING(name, call)                                                         \
    static double name(const struct calls *s, size_t times)                          \
    {                                                                                \
        size_t words = lent.words, few = lent.piece->n == 8 ? COPIES : 2, done = 0;  \
        double sum = 0;                                                              \
        uint16_t given = 0;                                                          \
        (void)given;                                                                 \
        while (done < times) {                                                       \
            for (size_t k = 0; k < few; k++)                                         \
                memcpy(few == 2 ? lent.two[k] : lent.copies[k], lent.piece->words, 2 * words); \
            double start = now();                                                    \
            for (size_t k = 0; k < few; k++) {                                       \
                uint16_t *t = few == 2 ? lent.two[k] : lent.copies[k];               \
                sink = s->call;                                                      \
            }                                                                        \
            sum += now() - start;                                                    \
            done += few;                                                             \
        }                                                                            \
        return sum / (double)done;                                                   \
    }

CHANGING(cone, cone(t, words, lent.piece->marks, lent.row, &given))
CHANGING(merge, merge(t, words, lent.piece->a, lent.piece->b, &given))
CHANGING(weld, weld(t, words, lent.first, lent.cell, &given))
CHANGING(compact, compact(t, words, lent.list, lent.piece->n))

static int rising(const void *a, const void *b)
{
    double x = *(const double *)a, y = *(const double *)b;
    return (x > y) - (x < y);
}

static double median(double *list)
{
    qsort(list, ROUNDS, sizeof *list, rising);
    return list[ROUNDS / 2];
}

static size_t times_of(measure *m)
{
    double once = m(&library, 4);
    return once > SLICE ? 1 : (size_t)(SLICE / (once + 1)) + 1;
}

/* The median ratio of one run; the medians of both sides' nanoseconds go to the standard error output. */
static double ratio_of(const char *call, measure *m)
{
    static double ours[ROUNDS], theirs[ROUNDS], ratio[ROUNDS];
    size_t times = times_of(m);
    m(&plain, times);
    for (int i = 0; i < ROUNDS; i++) {
        ours[i] = m(&library, times);
        theirs[i] = m(&plain, times);
        ratio[i] = ours[i] / theirs[i];
    }
    double r = median(ratio);
    fprintf(stderr, "%-9s %-17s %10.0f ns, C %10.0f ns, ratio %5.2f\n", call, lent.piece->name, median(ours), median(theirs), r);
    return r;
}

/* Prepares chain, evidence, file and named cells of a table: the first and the last cell of its dimension, and the last one's last face. */
static void take(const struct piece *t)
{
    uint64_t state = 521288629u;
    lent.piece = t;
    lent.words = PL_RECORD * t->n;
    lent.row = (t->n + 63) / 64;
    for (size_t c = 0; c < t->n; c++)
        if (t->words[PL_RECORD * c] == t->dimension)
            lent.cell = (uint16_t)c;
    lent.first = lent.cell;
    for (size_t c = t->n; c-- > 0;)
        if (t->words[PL_RECORD * c] == t->dimension)
            lent.first = (uint16_t)c;
    lent.face = t->words[PL_RECORD * lent.cell + 1 + t->dimension];
    for (size_t c = 0; c < t->n; c++)
        lent.chain[c] = t->words[PL_RECORD * c] == t->dimension ? (int64_t)draw(&state, 2001) - 1000 : 0;
    pl_reduce(t->words, lent.words, lent.evidence, t->n * lent.row, lent.additions);
    pl_write(t->words, lent.words, lent.file, PL_LONGEST, &lent.length);
}

static const struct {
    const char *name;
    measure *measure;
} list[CALLS] = {{"audit", audit},         {"merge", merge},       {"weld", weld},     {"cone", cone},   {"compact", compact},
                 {"incidence", incidence}, {"boundary", boundary}, {"corner", corner}, {"sheet", sheet}, {"reduce", reduce},
                 {"check", check},         {"read", get},          {"write", put}};

/* Whether a call is measured on a table: audit and compaction on all, merge and weld where two cells are named, else on the tables with
 * room for a cone or on the others. */
static int asked(measure *m, const struct piece *t)
{
    return m == audit || m == compact || (m == merge || m == weld ? t->a != t->b : (m == cone) == t->conable);
}

static int wanted(const char *name, int count, char **names)
{
    for (int i = 1; i < count; i++)
        if (!strcmp(name, names[i]))
            return 1;
    return count < 2;
}

/* Part lists are taken into a table of 512 cells; they have a table of ratios of their own. */
static void measure_lists(void)
{
    double least[LISTS], most[LISTS];
    listed.n = PL_ROOM;
    lent.piece = &listed;
    lent.words = PL_RECORD * PL_ROOM;
    for (int run = 0; run < RUNS; run++)
        for (int i = 0; i < LISTS; i++) {
            lent.partlist = &lists[i];
            listed.name = lists[i].name;
            double r = ratio_of("import", import);
            least[i] = run && least[i] < r ? least[i] : r;
            most[i] = run && most[i] > r ? most[i] : r;
        }
    printf("\n| part list | import |\n|---|---|\n");
    for (int i = 0; i < LISTS; i++)
        printf("| %s | %.2f–%.2f |\n", lists[i].name, least[i], most[i]);
}

int main(int count, char **names)
{
    static double least[CALLS][TABLES], most[CALLS][TABLES];
    fill_tables(pieces);
    fill_lists(lists);
    if (differences(pieces) + list_differences(lists))
        return 1;
    for (int run = 0; run < RUNS; run++)
        for (int k = 0; k < CALLS; k++)
            for (int i = 0; i < TABLES; i++) {
                if (!asked(list[k].measure, &pieces[i]) || !wanted(list[k].name, count, names))
                    continue;
                take(&pieces[i]);
                double r = ratio_of(list[k].name, list[k].measure);
                least[k][i] = run && least[k][i] < r ? least[k][i] : r;
                most[k][i] = run && most[k][i] > r ? most[k][i] : r;
            }
    printf("\n| table |");
    for (int k = 0; k < CALLS; k++)
        printf(" %s |", list[k].name);
    printf("\n|---|");
    for (int k = 0; k < CALLS; k++)
        printf("---|");
    for (int i = 0; i < TABLES; i++) {
        printf("\n| %s |", pieces[i].name);
        for (int k = 0; k < CALLS; k++)
            if (most[k][i] > 0)
                printf(" %.2f–%.2f |", least[k][i], most[k][i]);
            else
                printf(" |");
    }
    printf("\n");
    if (wanted("import", count, names))
        measure_lists();
    return 0;
}
