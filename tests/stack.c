/* The stack that each call takes, against the numbers of the header: a thread runs on a painted stack, makes the call on a full table of
 * four 6-cells with all their faces, and looks how deep the paint was touched. */
#define _GNU_SOURCE
#include <bumbleturf.h>
#include <pthread.h>
#include <stdio.h>
#include <stdlib.h>
#include <string.h>

enum { N = BT_CAPACITY, WORDS = BT_TABLE_WORDS(N), STACK = 1 << 20, APART = 1 << 16, PAINT = 0xC5, FULL = 4 * 127 };

static uint16_t table[WORDS], keep[WORDS], list[N], cells[BT_DIMENSIONS], holes[BT_DIMENSIONS], number;
static uint64_t marks[BT_MARK_WORDS(N)], evidence[BT_EVIDENCE_WORDS(N)], additions[BT_DIMENSIONS];
static int64_t chain[N], boundary[N], sum;
static uint8_t file[BT_FILE_BYTES], yes, *stack;
static const uint8_t list_text[] = "14\n6 5 4 3 2 1 0\n7 8 9 10 11 12 13\n0 13\n";
static size_t written, deep;
static uint32_t answer;

static void empty(void) { answer = bt_empty(table, WORDS); }
static void audit(void) { answer = bt_audit(table, WORDS); }
static void cone(void) { answer = bt_cone(table, WORDS, marks, BT_MARK_WORDS(N), &number); }
static void merge(void) { answer = bt_merge(table, WORDS, 0, 127, &number); }
static void weld(void) { answer = bt_weld(table, WORDS, 126, 126 + 127, &number); }
static void compact(void) { answer = bt_compact(table, WORDS, list, N); }
static void incidence(void) { answer = bt_incidence(table, WORDS, 126, 125, &sum); }
static void edge(void) { answer = bt_boundary(table, WORDS, chain, N, 6, boundary, N); }
static void corner(void) { answer = bt_corner(table, WORDS, 126, 6, &number); }
static void sheet(void) { answer = bt_sheet(table, WORDS, &yes); }
static void reduce(void) { answer = bt_reduce(table, WORDS, evidence, BT_EVIDENCE_WORDS(N), additions); }
static void check(void) { answer = bt_check(table, WORDS, evidence, BT_EVIDENCE_WORDS(N), cells, holes); }
static void store(void) { answer = bt_write(table, WORDS, file, BT_FILE_BYTES, &written); }
static void load(void) { answer = bt_read(table, WORDS, file, written); }
static void import(void) { answer = bt_import(table, WORDS, list_text, sizeof list_text - 1); }

static const struct {
    const char *name;
    void (*call)(void);
    size_t most;
} calls[] = {{"audit", audit, 512},     {"incidence", incidence, 512}, {"boundary", edge, 512}, {"corner", corner, 512}, {"sheet", sheet, 1536},
             {"reduce", reduce, 36864}, {"check", check, 1024},        {"write", store, 512},   {"read", load, 512},     {"merge", merge, 512},
             {"weld", weld, 1536},      {"compact", compact, 1536},    {"cone", cone, 1536},    {"empty", empty, 512},   {"import", import, 1024}};

static size_t which;

static void *measure(void *unused)
{
    volatile uint8_t apart[APART]; /* far below what the start of a thread has touched */
    apart[0] = 0;
    const uint8_t *top = (const uint8_t *)__builtin_frame_address(0) - sizeof apart, *at = stack;
    calls[which].call();
    while (at < top && *at == PAINT) at++;
    deep = (size_t)(top - at) + apart[0];
    return unused;
}

/* Four times seven cones, each over the whole of its own part. */
static uint32_t fill(void)
{
    uint32_t refused = bt_empty(table, WORDS);
    for (int base = 0; base < FULL; base += 127)
        for (int size = 0; size < 127; size = 2 * size + 1) {
            memset(marks, 0, sizeof marks);
            for (int c = base; c < base + size; c++) marks[c / 64] |= UINT64_C(1) << c % 64;
            if (refused == 0) refused = bt_cone(table, WORDS, marks, BT_MARK_WORDS(N), &number);
        }
    for (int c = 0; c < N; c++) chain[c] = table[BT_RECORD_WORDS * c] == 6;
    memset(marks, 0, sizeof marks);
    marks[0] = 1; /* one point: an apex and one edge still go in */
    return refused;
}

int main(void)
{
    int wrong = 0;
    if (fill() != 0 || posix_memalign((void **)&stack, 4096, STACK) != 0) return 1;
    memcpy(keep, table, sizeof table);
    for (which = 0; which < sizeof calls / sizeof *calls; which++) {
        pthread_attr_t attr;
        pthread_t thread;
        memcpy(table, keep, sizeof table);
        memset(stack, PAINT, STACK);
        if (pthread_attr_init(&attr) || pthread_attr_setstack(&attr, stack, STACK) || pthread_create(&thread, &attr, measure, NULL) ||
            pthread_join(thread, NULL))
            return 1;
        if (answer == 0 && deep <= calls[which].most) continue;
        printf("stack: %s answers %s and takes %zu bytes, not %zu\n", calls[which].name, bt_sentence(answer), deep, calls[which].most);
        wrong++;
    }
    return wrong != 0;
}
