/* The stack that each call uses, library and plain C: a thread runs on a painted stack of our own, makes the call, and looks how deep
 * the paint was touched. Arguments on the stack and the return address count. The deepest of all measured tables is printed; a part
 * of a frame that no table makes a call write is not seen. */
#define _GNU_SOURCE
#include "plain.h"
#include "tables.h"

#include <pthread.h>
#include <stdio.h>
#include <stdlib.h>
#include <string.h>

enum { STACK = 1 << 20, CALLS = 12 };

static const char *const names[CALLS] = {"audit", "merge", "cone", "boundary", "sheet", "reduce", "check", "read", "write", "compact", "weld", "import"};
static const size_t rooms[3] = {8, 64, PL_ROOM};

static struct piece pieces[TABLES];
static struct list lists[LISTS];
static uint8_t *stack;

static struct {
    const struct calls *side;
    int call;
    size_t n, row, length, deep;
    uint16_t words[PL_RECORD * PL_ROOM], a, b, dimension, number, list[PL_ROOM], cells[PL_DIMENSIONS], holes[PL_DIMENSIONS];
    uint64_t marks[PL_ROW], evidence[PL_ROOM * PL_ROW], made[PL_ROOM * PL_ROW], additions[PL_DIMENSIONS];
    int64_t chain[PL_ROOM], boundary[PL_ROOM];
    uint8_t file[PL_LONGEST], written[PL_LONGEST], yes;
    volatile uint32_t answer;
} work;

/* Where the stack of the caller ends: its return address and the kept frame pointer lie between. */
static __attribute__((noinline)) uint8_t *here(void)
{
    return (uint8_t *)__builtin_frame_address(0) + 16;
}

static __attribute__((noinline)) void call(void)
{
    const struct calls *s = work.side;
    uint16_t *t = work.words;
    size_t words = PL_RECORD * work.n;
    switch (work.call) {
    case 0: work.answer = s->audit(t, words); break;
    case 1: work.answer = s->merge(t, words, work.a, work.b, &work.number); break;
    case 2: work.answer = s->cone(t, words, work.marks, work.row, &work.number); break;
    case 3: work.answer = s->boundary(t, words, work.chain, work.n, work.dimension, work.boundary, work.n); break;
    case 4: work.answer = s->sheet(t, words, &work.yes); break;
    case 5: work.answer = s->reduce(t, words, work.made, work.n * work.row, work.additions); break;
    case 6: work.answer = s->check(t, words, work.evidence, work.n * work.row, work.cells, work.holes); break;
    case 7: work.answer = s->read(t, words, work.file, work.length); break;
    case 8: work.answer = s->write(t, words, work.written, PL_LONGEST, &work.length); break;
    case 9: work.answer = s->compact(t, words, work.list, work.n); break;
    case 10: work.answer = s->weld(t, words, work.a, work.b, &work.number); break;
    case 11: work.answer = s->import(t, words, lists[1].text, lists[1].length); break;
    default: work.answer = 0;
    }
}

static void *measure(void *unused)
{
    /* Far below everything that the start of a thread has touched. */
    volatile uint8_t apart[16384];
    apart[0] = 0;
    const uint8_t *top = here();
    const volatile uint8_t *at = stack;
    call();
    while (at < top && *at == 0xC5)
        at++;
    work.deep = (size_t)(top - (const uint8_t *)at) + apart[0];
    return unused;
}

/* Bytes that one call uses on one table; the frame of `call` itself is part of it until the caller takes it off. */
static size_t depth(const struct calls *side, int which, const struct piece *t)
{
    pthread_attr_t attr;
    pthread_t thread;
    work.side = side;
    work.call = which;
    work.n = t->n;
    work.row = (t->n + 63) / 64;
    work.a = t->a;
    work.b = t->b;
    work.dimension = t->dimension;
    memcpy(work.words, t->words, sizeof t->words);
    memcpy(work.marks, t->marks, sizeof t->marks);
    for (size_t c = 0; c < t->n; c++)
        work.chain[c] = t->words[PL_RECORD * c] == t->dimension;
    pl_reduce(work.words, PL_RECORD * t->n, work.evidence, t->n * work.row, work.additions);
    pl_write(work.words, PL_RECORD * t->n, work.file, PL_LONGEST, &work.length);
    memset(stack, 0xC5, STACK);
    pthread_attr_init(&attr);
    if (pthread_attr_setstack(&attr, stack, STACK) || pthread_create(&thread, &attr, measure, NULL))
        exit(1);
    pthread_join(thread, NULL);
    pthread_attr_destroy(&attr);
    return work.deep;
}

int main(void)
{
    stack = aligned_alloc(4096, STACK);
    fill_tables(pieces);
    fill_lists(lists);
    if (!stack)
        return 1;
    printf("| call     | library N 8 | N 64 | N 512 | C N 8 | N 64 | N 512 |\n|---|---|---|---|---|---|---|\n");
    size_t none = depth(&plain, CALLS, &pieces[8]);
    for (int which = 0; which < CALLS; which++) {
        printf("| %-8s ", names[which]);
        for (int side = 0; side < 2; side++)
            for (int k = 0; k < 3; k++) {
                size_t most = none;
                for (int i = 0; i < TABLES; i++) {
                    /* A room of 64 is filled from the small tables. */
                    struct piece piece = pieces[i];
                    if (k == 1 && piece.n == 8)
                        piece.n = 64;
                    if (piece.n != rooms[k])
                        continue;
                    size_t deep = depth(side ? &plain : &library, which, &piece);
                    most = deep > most ? deep : most;
                }
                printf("| %zu ", most - none);
            }
        printf("|\n");
    }
    free(stack);
    return 0;
}
