/* The answer's one word, as C takes it apart: constants first, then what the library answers for tables and evidence broken by hand. */
#include <bumbleturf.h>
#include <stdio.h>
#include <string.h>

enum { CELLS = 8, RECORD = BT_RECORD_WORDS, WORDS = BT_TABLE_WORDS(CELLS), DIMENSIONS = BT_DIMENSIONS };

/* The last refusal. */
enum { LAST = BT_BAD_INDEX };

static unsigned wrong;

/* The answer must have exactly these parts. */
static void parts(const char *what, uint32_t answer, unsigned number, unsigned kind, unsigned place, unsigned second, unsigned cell)
{
    if (bt_number(answer) == number && bt_kind(answer) == kind && bt_place(answer) == place && bt_second(answer) == second &&
        bt_cell(answer) == cell)
        return;
    printf("answers: %s: 0x%08lx is %u, kind %u, place %u, second %u, cell %u\n", what, (unsigned long)answer, (unsigned)bt_number(answer),
           (unsigned)bt_kind(answer), (unsigned)bt_place(answer), (unsigned)bt_second(answer), (unsigned)bt_cell(answer));
    wrong++;
}

static void constants(void)
{
    parts("accepted", 0, 0, 0, 0, 0, 0);
    parts("one after another", UINT32_C(2) | 3 << 8 | 6 << 10 | 5 << 13 | UINT32_C(511) << 16, 2, BT_LAW, 6, 5, 511);
    parts("the largest number", 255, 255, 0, 0, 0, 0);
    parts("the largest row", UINT32_C(14) | UINT32_C(65535) << 16, 14, 0, 0, 0, BT_FREE);
}

/* Lengths, and a sentence of its own for every refusal. */
static void names(void)
{
    if (BT_MARK_WORDS(1) != 1 || BT_MARK_WORDS(64) != 1 || BT_MARK_WORDS(65) != 2 || BT_EVIDENCE_WORDS(BT_CAPACITY) != 4096 ||
        BT_TABLE_WORDS(BT_CAPACITY) != 4096 || LAST != 18) {
        printf("answers: a length or number of the header is wrong\n");
        wrong++;
    }
    for (uint32_t a = 0; a <= LAST + 1; a++)
        for (uint32_t b = 0; b < a; b++)
            if (strcmp(bt_sentence(a), bt_sentence(b)) == 0) {
                printf("answers: %u and %u have one sentence\n", (unsigned)b, (unsigned)a);
                wrong++;
            }
    if (strcmp(bt_sentence(UINT32_C(14) | UINT32_C(9) << 16), bt_sentence(BT_RULE_B)) != 0) {
        printf("answers: a whole answer has another sentence than its number\n");
        wrong++;
    }
}

static void record(uint16_t *table, int cell, int dimension, int f0, int f1, int f2)
{
    table[RECORD * cell] = (uint16_t)dimension;
    table[RECORD * cell + 1] = (uint16_t)f0;
    table[RECORD * cell + 2] = (uint16_t)f1;
    table[RECORD * cell + 3] = (uint16_t)f2;
}

/* Points 0 and 1, edges 2 (1,0), 3 (1,0) and 4 (0,0), triangle 5 (3,2,4). */
static void filled(uint16_t *table)
{
    parts("empty", bt_empty(table, WORDS), 0, 0, 0, 0, 0);
    record(table, 0, 0, BT_FREE, BT_FREE, BT_FREE);
    record(table, 1, 0, BT_FREE, BT_FREE, BT_FREE);
    record(table, 2, 1, 1, 0, BT_FREE);
    record(table, 3, 1, 1, 0, BT_FREE);
    record(table, 4, 1, 0, 0, BT_FREE);
    record(table, 5, 2, 3, 2, 4);
    parts("whole", bt_audit(table, WORDS), 0, 0, 0, 0, 0);
}

static void breaches(void)
{
    uint16_t table[WORDS], kept;
    filled(table);
    record(table, 5, 2, 3, 2, 3);
    parts("a law", bt_audit(table, WORDS), 2, BT_LAW, 2, 0, 5);
    record(table, 5, 2, 3, 1, 7);
    parts("the first of two faces", bt_audit(table, WORDS), 2, BT_FACE, 1, 0, 5);
    parts("any call", bt_merge(table, WORDS, 0, 0, &kept), 2, BT_FACE, 1, 0, 5);
    record(table, 5, 7, 3, 2, 4);
    parts("a dimension above 6", bt_audit(table, WORDS), 2, BT_RECORD, 0, 0, 5);
    record(table, 1, 0, BT_FREE, 9, BT_FREE);
    parts("a lower cell goes first", bt_audit(table, WORDS), 2, BT_RECORD, 0, 0, 1);
}

static void rows(void)
{
    uint16_t table[WORDS], cells[DIMENSIONS], holes[DIMENSIONS];
    uint64_t evidence[CELLS] = {1, 2, 4, 8, 16, 32, 0, 0};
    filled(table);
    parts("rule B", bt_check(table, WORDS, evidence, CELLS, cells, holes), 14, 0, 0, 0, 3);
    evidence[3] = 12;
    parts("evidence", bt_check(table, WORDS, evidence, CELLS, cells, holes), 0, 0, 0, 0, 0);
    evidence[7] = 1;
    parts("rule A", bt_check(table, WORDS, evidence, CELLS, cells, holes), 13, 0, 0, 0, 7);
}

int main(void)
{
    constants();
    names();
    breaches();
    rows();
    return wrong != 0;
}
