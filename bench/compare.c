/* Holds the plain version against the library before anything is measured: answers, values and every lent buffer, on the measured
 * tables and on damaged copies of them. */
#include "plain.h"
#include "tables.h"

#include <stdio.h>
#include <string.h>

static struct outcome left, right;

enum call { AUDIT, CONE, MERGE, WELD, COMPACT, INCIDENCE, BOUNDARY, CORNER, SHEET, REDUCE, CHECK, WRITE, READ, CALLS };

static const char *const names[CALLS] = {"audit",  "cone",  "merge",  "weld",  "compact", "incidence", "boundary",
                                         "corner", "sheet", "reduce", "check", "write",   "read"};

/* What one round of calls is given. */
struct input {
    uint16_t words[PL_RECORD * PL_ROOM], a, b, dimension;
    size_t n, length, room;
    uint64_t marks[PL_ROW], evidence[PL_ROOM * PL_ROW];
    int64_t chain[PL_ROOM];
    uint8_t file[PL_LONGEST];
};

static void one(const struct calls *s, enum call call, const struct input *in, struct outcome *out)
{
    size_t words = PL_RECORD * in->n, row = (in->n + 63) / 64;
    memset(out, 0x5A, sizeof *out);
    memcpy(out->words, in->words, sizeof in->words);
    switch (call) {
    case AUDIT: out->answer = s->audit(out->words, words); break;
    case CONE: out->answer = s->cone(out->words, words, in->marks, row, &out->apex); break;
    case MERGE: out->answer = s->merge(out->words, words, in->a, in->b, &out->kept); break;
    case WELD: out->answer = s->weld(out->words, words, in->a, in->b, &out->kept); break;
    case COMPACT: out->answer = s->compact(out->words, words, out->list, in->n); break;
    case INCIDENCE: out->answer = s->incidence(out->words, words, in->a, in->b, &out->incidence); break;
    case BOUNDARY: out->answer = s->boundary(out->words, words, in->chain, in->n, in->dimension, out->boundary, in->n); break;
    case CORNER: out->answer = s->corner(out->words, words, in->a, in->b % 8, &out->corner); break;
    case SHEET: out->answer = s->sheet(out->words, words, &out->yes); break;
    case REDUCE: out->answer = s->reduce(out->words, words, out->evidence, in->n * row, out->additions); break;
    case CHECK: out->answer = s->check(out->words, words, in->evidence, in->n * row, out->cells, out->holes); break;
    case WRITE: out->answer = s->write(out->words, words, out->file, in->room, &out->written); break;
    case READ: out->answer = s->read(out->words, words, in->file, in->length); break;
    case CALLS: break;
    }
}

static int all(const char *table, const struct input *in, unsigned long seen[CALLS][17])
{
    int wrong = 0;
    for (enum call call = AUDIT; call < CALLS; call++) {
        one(&library, call, in, &left);
        one(&plain, call, in, &right);
        seen[call][left.answer % 256]++;
        if (memcmp(&left, &right, sizeof left)) {
            printf("differs: %s on %s, library answers %08x, C answers %08x\n", names[call], table, left.answer, right.answer);
            wrong++;
        }
    }
    return wrong;
}

/* Fills in what the calls are asked on an undamaged table. */
static void ask(const struct piece *t, struct input *in)
{
    size_t row = (t->n + 63) / 64;
    uint64_t state = 2463534242u, counts[PL_DIMENSIONS];
    memset(in, 0, sizeof *in);
    memcpy(in->words, t->words, sizeof t->words);
    memcpy(in->marks, t->marks, sizeof t->marks);
    in->n = t->n;
    in->a = t->a;
    in->b = t->b;
    in->dimension = t->dimension;
    in->room = PL_LONGEST;
    for (size_t c = 0; c < t->n; c++)
        if (t->words[PL_RECORD * c] == t->dimension)
            in->chain[c] = (int64_t)draw(&state, 2001) - 1000;
    pl_reduce(t->words, PL_RECORD * t->n, in->evidence, t->n * row, counts);
    pl_write(t->words, PL_RECORD * t->n, in->file, PL_LONGEST, &in->length);
}

/* One random change of one of the inputs. */
static void damage(struct input *in, uint64_t *state)
{
    uint32_t n = (uint32_t)in->n, row = (n + 63) / 64, kind = draw(state, 10);
    uint16_t word = (uint16_t)(draw(state, 4) ? draw(state, n + 8) : PL_FREE);
    if (kind == 0)
        in->words[draw(state, PL_RECORD * n)] = word;
    else if (kind == 1)
        in->words[PL_RECORD * draw(state, n)] = (uint16_t)draw(state, 9);
    else if (kind == 2)
        memset(in->words + PL_RECORD * draw(state, n), 255, PL_RECORD * sizeof(uint16_t));
    else if (kind == 3 && draw(state, 2))
        for (uint32_t c = 0; c < n; c++)
            in->marks[c / 64] |= (uint64_t)(in->words[PL_RECORD * c] != PL_FREE) << c % 64;
    else if (kind == 3)
        in->marks[draw(state, row)] ^= (uint64_t)1 << draw(state, 64);
    else if (kind == 4)
        in->a = word;
    else if (kind == 5)
        in->b = (uint16_t)draw(state, n);
    else if (kind == 6)
        in->evidence[draw(state, n * row)] ^= (uint64_t)1 << draw(state, 64);
    else if (kind == 7)
        in->chain[draw(state, n)] = draw(state, 2) ? (int64_t)1 << (39 + draw(state, 4)) : INT64_MIN + draw(state, 9);
    else if (kind == 8)
        in->file[draw(state, (uint32_t)in->length)] ^= (uint8_t)(1 << draw(state, 8));
    else if (draw(state, 2))
        in->room = in->length = draw(state, PL_LONGEST + 1);
    else
        in->dimension = (uint16_t)draw(state, 9);
}

int differences(const struct piece pieces[TABLES])
{
    static struct input whole, hurt;
    static unsigned long seen[CALLS][17];
    uint64_t state = 362436069362436069u;
    int wrong = 0;
    for (int i = 0; i < TABLES; i++) {
        ask(&pieces[i], &whole);
        wrong += all(pieces[i].name, &whole, seen);
        if (plain.audit(whole.words, PL_RECORD * whole.n)) {
            printf("not valid: %s\n", pieces[i].name);
            wrong++;
        }
        for (int k = 0; k < 400; k++) {
            hurt = whole;
            for (uint32_t times = 1 + draw(&state, 3); times; times--)
                damage(&hurt, &state);
            wrong += all(pieces[i].name, &hurt, seen);
        }
    }
    printf("compared, answers by number:\n");
    for (enum call call = AUDIT; call < CALLS; call++) {
        printf("  %-9s", names[call]);
        for (int k = 0; k < 17; k++)
            if (seen[call][k])
                printf(" %d: %lu", k, seen[call][k]);
        printf("\n");
    }
    return wrong;
}
