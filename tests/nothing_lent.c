/* Every buffer of every call as C callers pass one that is not there: a null pointer and length 0. Each call must answer its refusal, and
 * write nothing, but for the reader and the import, which empty the table. */
#include <bumbleturf.h>
#include <stdio.h>

enum { CELLS = 8, WORDS = BT_TABLE_WORDS(CELLS), DIMENSIONS = BT_DIMENSIONS };

static unsigned wrong;

static void refused(const char *call, uint32_t got, uint32_t expected)
{
    if (got == expected) return;
    printf("nothing lent: %s answers %u, not %u\n", call, (unsigned)got, (unsigned)expected);
    wrong++;
}

/* No table at all: refusal 1 from each call. */
static void no_table(void)
{
    uint64_t words[CELLS] = {0}, additions[DIMENSIONS];
    int64_t chain[CELLS] = {0}, boundary[CELLS], sum;
    uint16_t cells[DIMENSIONS], holes[DIMENSIONS], list[CELLS], number;
    uint8_t bytes[1] = {0}, yes;
    size_t written;
    refused("empty without a table", bt_empty(NULL, 0), BT_LENGTH);
    refused("audit without a table", bt_audit(NULL, 0), BT_LENGTH);
    refused("cone without a table", bt_cone(NULL, 0, words, 1, &number), BT_LENGTH);
    refused("cone without anything", bt_cone(NULL, 0, NULL, 0, &number), BT_LENGTH);
    refused("merge without a table", bt_merge(NULL, 0, 0, 1, &number), BT_LENGTH);
    refused("weld without a table", bt_weld(NULL, 0, 0, 1, &number), BT_LENGTH);
    refused("compact without a table", bt_compact(NULL, 0, list, CELLS), BT_LENGTH);
    refused("compact without anything", bt_compact(NULL, 0, NULL, 0), BT_LENGTH);
    refused("incidence without a table", bt_incidence(NULL, 0, 0, 1, &sum), BT_LENGTH);
    refused("boundary without a table", bt_boundary(NULL, 0, chain, CELLS, 0, boundary, CELLS), BT_LENGTH);
    refused("boundary without anything", bt_boundary(NULL, 0, NULL, 0, 0, NULL, 0), BT_LENGTH);
    refused("corner without a table", bt_corner(NULL, 0, 0, 0, &number), BT_LENGTH);
    refused("sheet without a table", bt_sheet(NULL, 0, &yes), BT_LENGTH);
    refused("reduce without a table", bt_reduce(NULL, 0, words, CELLS, additions), BT_LENGTH);
    refused("reduce without anything", bt_reduce(NULL, 0, NULL, 0, additions), BT_LENGTH);
    refused("check without a table", bt_check(NULL, 0, words, CELLS, cells, holes), BT_LENGTH);
    refused("check without anything", bt_check(NULL, 0, NULL, 0, cells, holes), BT_LENGTH);
    refused("write without a table", bt_write(NULL, 0, bytes, 1, &written), BT_LENGTH);
    refused("write without anything", bt_write(NULL, 0, NULL, 0, &written), BT_LENGTH);
    refused("read without a table", bt_read(NULL, 0, bytes, 1), BT_LENGTH);
    refused("read without anything", bt_read(NULL, 0, NULL, 0), BT_LENGTH);
    refused("import without a table", bt_import(NULL, 0, bytes, 1), BT_LENGTH);
    refused("import without anything", bt_import(NULL, 0, NULL, 0), BT_LENGTH);
}

/* The refusal of a call that fills the table must leave it empty. */
static void emptied(const char *call, uint16_t *table)
{
    for (int i = 0; i < WORDS; i++)
        if (table[i] != BT_FREE) {
            printf("nothing lent: the refused %s leaves %u in word %d\n", call, (unsigned)table[i], i);
            wrong++;
        }
    table[0] = 0;
}

/* A table with one point, and each other buffer missing by itself. */
static void no_other_buffer(void)
{
    uint16_t table[WORDS], cells[DIMENSIONS], holes[DIMENSIONS], number = 0;
    uint64_t marks[1] = {0}, additions[DIMENSIONS];
    int64_t chain[CELLS] = {0};
    size_t written;
    refused("empty", bt_empty(table, WORDS), 0);
    refused("cone over nothing", bt_cone(table, WORDS, marks, 1, &number), 0);
    refused("cone without marks", bt_cone(table, WORDS, NULL, 0, &number), BT_LENGTH);
    refused("compact without a list", bt_compact(table, WORDS, NULL, 0), BT_LENGTH);
    refused("boundary without a chain", bt_boundary(table, WORDS, NULL, 0, 0, chain, CELLS), BT_LENGTH);
    refused("boundary without a result", bt_boundary(table, WORDS, chain, CELLS, 0, NULL, 0), BT_LENGTH);
    refused("reduce without evidence", bt_reduce(table, WORDS, NULL, 0, additions), BT_LENGTH);
    refused("check without evidence", bt_check(table, WORDS, NULL, 0, cells, holes), BT_LENGTH);
    refused("write without a target", bt_write(table, WORDS, NULL, 0, &written), BT_NO_ROOM);
    if (table[0] != 0 || number != 0) {
        printf("nothing lent: a refusal has changed the table or a value\n");
        wrong++;
    }
    refused("read without a file", bt_read(table, WORDS, NULL, 0), BT_BAD_CONTENTS);
    emptied("reader", table);
    refused("import without a text", bt_import(table, WORDS, NULL, 0), BT_BAD_TEXT);
    emptied("import", table);
}

int main(void)
{
    no_table();
    no_other_buffer();
    return wrong != 0;
}
