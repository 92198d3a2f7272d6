/* A part built by cones, one call at a time, and its hole numbers after each: a segment, its ends merged, and two caps on the loop. Then
 * two calls that are refused, a table that was broken by hand, and one from a part list. */
#include <bumbleturf.h>
#include <stdio.h>

enum { N = 8, WORDS = BT_TABLE_WORDS(N), MARKS = BT_MARK_WORDS(N), EVIDENCE = BT_EVIDENCE_WORDS(N) };

static uint16_t table[WORDS];
static const uint8_t frame[] = "3\n0 1\n1 2\n2 0\n"; /* three points and three edges; the 0 byte at its end is not part of it */

/* Reduces, checks the evidence, and prints what it shows. */
static uint32_t show(const char *what)
{
    uint64_t evidence[EVIDENCE], additions[BT_DIMENSIONS];
    uint16_t cells[BT_DIMENSIONS], holes[BT_DIMENSIONS];
    uint32_t refused = bt_reduce(table, WORDS, evidence, EVIDENCE, additions);
    if (refused == 0)
        refused = bt_check(table, WORDS, evidence, EVIDENCE, cells, holes);
    if (refused == 0)
        printf("%s: pieces %u, tunnels %u, voids %u\n", what, holes[0], holes[1], holes[2]);
    return refused;
}

/* A new point and the cones from it over the cells whose bits are marked. */
static uint32_t cone(uint64_t cells, uint16_t *apex)
{
    uint64_t marks[MARKS] = {cells};
    return bt_cone(table, WORDS, marks, MARKS, apex);
}

/* What a refused call says: its number, its sentence, and with 2 where the table is broken. */
static void tell(uint32_t answer)
{
    const unsigned cell = bt_cell(answer), j = bt_place(answer), l = bt_second(answer);
    printf("refused %u, %s", (unsigned)bt_number(answer), bt_sentence(answer));
    switch (bt_kind(answer)) {
    case BT_RECORD: printf(": record of cell %u", cell); break;
    case BT_FACE: printf(": face %u of cell %u", j, cell); break;
    case BT_LAW: printf(": faces %u and %u of cell %u", j, l, cell); break;
    }
    printf("\n");
}

static uint32_t run(void)
{
    uint16_t a, b, apex, list[N];
    uint32_t refused;
    if ((refused = bt_empty(table, WORDS))) return refused;
    if ((refused = cone(0, &a))) return refused;                            /* point 0 */
    if ((refused = cone((uint64_t)1 << a, &b))) return refused;             /* point 1, edge 2 from 0 to 1 */
    if ((refused = show("segment"))) return refused;
    if ((refused = bt_merge(table, WORDS, a, b, &a))) return refused;       /* edge 2 is a loop at point 0 */
    if ((refused = show("ends merged"))) return refused;
    const uint64_t loop = (uint64_t)1 << a | (uint64_t)1 << 2;
    if ((refused = cone(loop, &apex))) return refused;                      /* a triangle closes the tunnel */
    if ((refused = show("one cap"))) return refused;
    if ((refused = cone(loop, &apex))) return refused;                      /* a second one shuts in a void */
    if ((refused = show("two caps"))) return refused;
    refused = cone(loop, &apex);                                            /* all 8 records are in use */
    printf("a third cap: refused %u\n", (unsigned)bt_number(refused));
    refused = bt_merge(table, WORDS, a, 2, &a);
    printf("point with edge: refused %u\n", (unsigned)bt_number(refused));
    if ((refused = bt_compact(table, WORDS, list, N))) return refused;      /* points first, then edges, then triangles */
    printf("compacted: edge 2 is now %u\n", (unsigned)list[2]);
    if ((refused = bt_weld(table, WORDS, list[4], list[7], &a))) return refused; /* one cap on the other, with edge and tip */
    if ((refused = show("caps welded"))) return refused;
    table[BT_RECORD_WORDS * list[2] + 1] = 700;                             /* face 0 of that edge */
    printf("broken by hand: ");
    tell(bt_audit(table, WORDS));
    if ((refused = bt_import(table, WORDS, frame, sizeof frame - 1))) return refused;
    return show("frame from a part list");
}

int main(void)
{
    uint32_t refused = run();
    if (refused)
        tell(refused);
    return refused != 0;
}
