/* The measured tables, and both versions of the calls behind one list of names. */
#ifndef TABLES_H
#define TABLES_H

#include "plain.h"

#include <stddef.h>
#include <stdint.h>

#ifdef __cplusplus
extern "C" {
#endif

enum { TABLES = 12 };

/* A table of n records, and what the calls on it are asked: the chain's dimension, the two cells to merge (equal ones name no
 * merge) and the marks for a cone (conable says whether there is room for it). */
struct piece {
    const char *name;
    size_t n;
    uint16_t words[PL_RECORD * PL_ROOM];
    uint16_t dimension, a, b;
    int conable;
    uint64_t marks[PL_ROW];
};

/* A part list. */
enum { LISTS = 3, LIST_BYTES = 1 << 14 };

struct list {
    const char *name;
    uint8_t text[LIST_BYTES];
    size_t length;
};

/* Fills the part lists; the same at every run. */
void fill_lists(struct list lists[LISTS]);

/* Fills the list of tables; the same at every run. */
void fill_tables(struct piece pieces[TABLES]);

/* A number below limit from a fixed sequence. */
uint32_t draw(uint64_t *state, uint32_t limit);

struct calls {
    uint32_t (*audit)(const uint16_t *, size_t);
    uint32_t (*cone)(uint16_t *, size_t, const uint64_t *, size_t, uint16_t *);
    uint32_t (*merge)(uint16_t *, size_t, uint16_t, uint16_t, uint16_t *);
    uint32_t (*weld)(uint16_t *, size_t, uint16_t, uint16_t, uint16_t *);
    uint32_t (*compact)(uint16_t *, size_t, uint16_t *, size_t);
    uint32_t (*incidence)(const uint16_t *, size_t, uint16_t, uint16_t, int64_t *);
    uint32_t (*boundary)(const uint16_t *, size_t, const int64_t *, size_t, uint16_t, int64_t *, size_t);
    uint32_t (*corner)(const uint16_t *, size_t, uint16_t, uint16_t, uint16_t *);
    uint32_t (*sheet)(const uint16_t *, size_t, uint8_t *);
    uint32_t (*reduce)(const uint16_t *, size_t, uint64_t *, size_t, uint64_t *);
    uint32_t (*check)(const uint16_t *, size_t, const uint64_t *, size_t, uint16_t *, uint16_t *);
    uint32_t (*write)(const uint16_t *, size_t, uint8_t *, size_t, size_t *);
    uint32_t (*read)(uint16_t *, size_t, const uint8_t *, size_t);
    uint32_t (*import)(uint16_t *, size_t, const uint8_t *, size_t);
};

extern const struct calls library, plain;

/* Everything that a call may leave: answer, values, lent buffers. Filled with a fixed byte before the call. */
struct outcome {
    uint32_t answer;
    uint16_t words[PL_RECORD * PL_ROOM], kept, apex, corner, list[PL_ROOM], cells[PL_DIMENSIONS], holes[PL_DIMENSIONS];
    int64_t boundary[PL_ROOM], incidence;
    uint64_t evidence[PL_ROOM * PL_ROW], additions[PL_DIMENSIONS];
    uint8_t yes, file[PL_LONGEST + 8];
    size_t written;
};

/* Holds the plain version against the library on every table and on damaged ones; answers the number of differences. */
int differences(const struct piece pieces[TABLES]);

/* The same for part lists, whole and damaged. */
int list_differences(const struct list lists[LISTS]);

#ifdef __cplusplus
}
#endif

#endif
