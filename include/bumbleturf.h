/* Bumbleturf 0.2.0: a proved kernel for sketches of parts.
 *
 * Changed since 0.1.0: a refused call answers one word, which has the refusal's number in its lowest eight bits and above them the place
 * at which a table or evidence is broken. So `== 2`, `== 13` and `== 14` in older C no longer match: write `bt_number(answer) == 2`.
 * `== 0` still means accepted. bt_check has lost its pointer `row`: the row at fault is bt_cell(answer).
 *
 * A table is N records of 8 words of 16 bits, N from 1 to 512. Record c describes cell c: word 0 is its dimension p, 0 to 6; words 1 to
 * p + 1 are its faces 0 to p (a point has none), each a live cell of dimension p - 1; every word after them is BT_FREE. A free record is
 * eight words BT_FREE. The repository's docs/RULES.md has all rules with pictures. The caller lends the table and every other buffer.
 *
 * Every function answers 0 when the call is accepted. Otherwise bt_number(answer) is the number of its refusal, one of enum bt_refusal.
 * Refusal 2 of every call names the first breach of the table: the lowest cell, there the record before the faces and these before the
 * law, then the lowest face place j, then the lowest l. For this search a cell is live when its word 0 is 0 to 6. The reader names the
 * breach of the table that the file describes. Refusals 13 and 14 name the first row at fault. The bits of an answer, 0 where nothing
 * is said:
 *
 *    0 to 7    bt_number   the refusal's number
 *    8 to 9    bt_kind     with 2, one of enum bt_breach
 *   10 to 12   bt_place    with BT_FACE and BT_LAW: j
 *   13 to 15   bt_second   with BT_LAW: l
 *   16 to 31   bt_cell     with 2 the cell of the breach, with 13 and 14 the row at fault
 *
 * What a pointer for a value refers to is written on acceptance alone. A refusal changes nothing that was lent, but for bt_read
 * and bt_import, which refused with anything but 1 leave every word 65535.
 * Lengths are counted in elements. Buffers of one call must not overlap. Where a length is 0 the pointer may be null or point anywhere:
 * a buffer of length 0 is never looked into. A pointer for a value is never null.
 *
 * There is no allocation, no global state and no lock. Calls on different tables may run on different threads at the same time. So may
 * calls on one table, as long as all of them take it as const: each writes only to what it was lent to write to.
 *
 * Stack that one call takes, in bytes: bt_reduce at most 36,864; bt_cone, bt_weld, bt_compact and bt_sheet at most 1,536; bt_check and
 * bt_import at most 1,024; every other call at most 512.
 */
#ifndef BUMBLETURF_H
#define BUMBLETURF_H

#include <stddef.h>
#include <stdint.h>

#define BT_VERSION "0.2.0"

#define BT_CAPACITY 512     /* the largest N */
#define BT_TOP_DIMENSION 6  /* of a cell */
#define BT_DIMENSIONS 7     /* 0 to 6 */
#define BT_FACES 7          /* face words of a record */
#define BT_RECORD_WORDS 8   /* the dimension and the face words */
#define BT_FREE 65535       /* in every unused word */
#define BT_FILE_BYTES 8236  /* no sketch file is longer */

/* Lengths for a table of n cells: words of the table, words of a set of marks, words of evidence. */
#define BT_TABLE_WORDS(n) (BT_RECORD_WORDS * (n))
#define BT_MARK_WORDS(n) (((n) + 63) / 64)
#define BT_EVIDENCE_WORDS(n) ((n) * BT_MARK_WORDS(n))

#ifdef __cplusplus
extern "C" {
#endif

enum bt_refusal {
    BT_ACCEPTED = 0,
    BT_LENGTH = 1,            /* a length is not the stated one */
    BT_INVALID = 2,           /* the table is not valid */
    BT_NOT_LIVE = 3,          /* a named or marked number is no live cell */
    BT_SAME_CELL = 4,         /* merge or weld names one cell twice */
    BT_DIMENSIONS_DIFFER = 5, /* merge or weld of unequal dimensions; incidence where p and p - 1 do not fit */
    BT_FACES_DIFFER = 6,      /* merge: the face lists differ */
    BT_NOT_CLOSED = 7,        /* cone: a face of a marked cell is not marked */
    BT_TOP_MARKED = 8,        /* cone: a marked cell has dimension 6 */
    BT_NO_ROOM = 9,           /* cone: fewer free records than marks + 1; write: the target is shorter than the file; import: over N cells */
    BT_TOO_LARGE = 10,        /* boundary: a coefficient outside -2^40 to 2^40 */
    BT_MISPLACED = 11,        /* boundary: a coefficient other than 0 at a number that is no live p-cell */
    BT_NO_SUCH_PLACE = 12,    /* a dimension above 6, or a corner index above p */
    BT_RULE_A = 13,           /* rule A of the evidence is broken */
    BT_RULE_B = 14,           /* rule B of the evidence is broken */
    BT_BAD_CONTENTS = 15,     /* read: under 44 bytes, N not the table's, an offset or the length wrong */
    BT_BAD_NUMBER = 16,       /* read: a body number not below N, not rising in its body, or used in a lower body */
    BT_BAD_TEXT = 17,         /* import: the text is no part list */
    BT_BAD_INDEX = 18         /* import: an index is repeated in its line, or not below the count */
};

/* What bt_kind answers for refusal 2; 0 for every other answer. */
enum bt_breach {
    BT_RECORD = 1, /* word 0 is neither 0 to 6 nor 65535, or an unused word is not 65535 */
    BT_FACE = 2,   /* face j names no live cell of the dimension below */
    BT_LAW = 3     /* face l of face j is not face j - 1 of face l, l < j */
};

/* The parts of an answer, as listed above. */
static inline uint32_t bt_number(uint32_t answer) { return answer & 255; }
static inline uint32_t bt_kind(uint32_t answer) { return answer >> 8 & 3; }
static inline uint32_t bt_place(uint32_t answer) { return answer >> 10 & 7; }
static inline uint32_t bt_second(uint32_t answer) { return answer >> 13 & 7; }
static inline uint16_t bt_cell(uint32_t answer) { return (uint16_t)(answer >> 16); }

/* The refusal of a number, or of a whole answer, in words. */
static inline const char *bt_sentence(uint32_t number)
{
    switch (bt_number(number)) {
    case BT_ACCEPTED: return "accepted";
    case BT_LENGTH: return "a length is not the stated one";
    case BT_INVALID: return "the table is not valid";
    case BT_NOT_LIVE: return "a named or marked number is not a live cell";
    case BT_SAME_CELL: return "one cell is named twice";
    case BT_DIMENSIONS_DIFFER: return "the dimensions of the two cells do not fit";
    case BT_FACES_DIFFER: return "the face lists of the two cells differ";
    case BT_NOT_CLOSED: return "a face of a marked cell is not marked";
    case BT_TOP_MARKED: return "a marked cell has dimension 6";
    case BT_NO_ROOM: return "too few records for the cells, or the target is shorter than the file";
    case BT_TOO_LARGE: return "a coefficient lies outside -2^40 to 2^40";
    case BT_MISPLACED: return "a coefficient stands at a number that is no live cell of the dimension";
    case BT_NO_SUCH_PLACE: return "a dimension is above 6, or a corner index above the cell's dimension";
    case BT_RULE_A: return "the evidence breaks rule A";
    case BT_RULE_B: return "the evidence breaks rule B";
    case BT_BAD_CONTENTS: return "the file's table of contents or its length is wrong";
    case BT_BAD_NUMBER: return "a cell number of the file is not below N, not rising, or used twice";
    case BT_BAD_TEXT: return "the text is no part list";
    case BT_BAD_INDEX: return "an index of the part list is repeated in its line or not below the count";
    default: return "no refusal of this version";
    }
}

/* Sets every word to 65535, over any old contents. Refused: 1. */
uint32_t bt_empty(uint16_t *table, size_t words);

/* Whether the table is valid. Refused: 1, 2. */
uint32_t bt_audit(const uint16_t *table, size_t words);

/* Adds a point, the apex, and a cone over each marked cell; marks are BT_MARK_WORDS(N) words, bit b of word w marks cell 64*w + b.
 * Refused: 1, 2, 3, 7, 8, 9. */
uint32_t bt_cone(uint16_t *table, size_t words, const uint64_t *marks, size_t mark_words, uint16_t *apex);

/* Joins two different live cells of one dimension with equal face lists; the smaller number is kept. Refused: 1 to 6. */
uint32_t bt_merge(uint16_t *table, size_t words, uint16_t a, uint16_t b, uint16_t *kept);

/* Joins two different live cells of one dimension, their faces place by place, and so on down; each class of joined cells becomes its
 * smallest number, *kept is that of a and b. It is what the single merges from dimension 0 upward give. Refused: 1 to 5. */
uint32_t bt_weld(uint16_t *table, size_t words, uint16_t a, uint16_t b, uint16_t *kept);

/* Renumbers the live cells 0, 1, 2, .. by dimension, then by old number, and moves the free records to the end; list, N words, gets each
 * old number's new one, 65535 for a free number. Evidence made before is for the old numbers. Refused: 1, 2. */
uint32_t bt_compact(uint16_t *table, size_t words, uint16_t *list, size_t list_len);

/* The sum of (-1)^j over the places j at which face j of cell is face; from -3 to 4. Refused: 1, 2, 3, 5. */
uint32_t bt_incidence(const uint16_t *table, size_t words, uint16_t cell, uint16_t face, int64_t *sum);

/* The boundary of a chain of N coefficients in the named dimension, into a second buffer of N. Refused: 1, 2, 12, 10, 11. */
uint32_t bt_boundary(const uint16_t *table, size_t words, const int64_t *chain, size_t chain_len, uint16_t dimension,
                     int64_t *boundary, size_t boundary_len);

/* Corner k of a cell of dimension p, k from 0 to p. Refused: 1, 2, 3, 12. */
uint32_t bt_corner(const uint16_t *table, size_t words, uint16_t cell, uint16_t k, uint16_t *corner);

/* Writes 1 where the table is a sheet, 0 where it is none: every cell is reached from one of the largest dimension n, and at most two
 * (n-cell, face place) pairs name an (n-1)-cell, so that a face named twice by one cell counts twice. Refused: 1, 2. */
uint32_t bt_sheet(const uint16_t *table, size_t words, uint8_t *yes);

/* Fills the evidence, N rows of BT_MARK_WORDS(N) words, and counts the additions made in each dimension. Refused: 1, 2. */
uint32_t bt_reduce(const uint16_t *table, size_t words, uint64_t *evidence, size_t evidence_words, uint64_t additions[BT_DIMENSIONS]);

/* Tests evidence by rules A and B; for each dimension 0 to 6 the live cells and the hole number. Refused: 1, 2, then 13 or 14 with the
 * first row at fault. */
uint32_t bt_check(const uint16_t *table, size_t words, const uint64_t *evidence, size_t evidence_words,
                  uint16_t cells[BT_DIMENSIONS], uint16_t holes[BT_DIMENSIONS]);

/* Writes the table as a sketch file, at most BT_FILE_BYTES bytes; no byte after the written ones is touched. Refused: 1, 2, 9. */
uint32_t bt_write(const uint16_t *table, size_t words, uint8_t *target, size_t target_len, size_t *written);

/* Fills the table from a sketch file; its old contents are not looked at. Refused: 1, 15, 16, 2; with 1 the table stays, with any
 * other every word is 65535. */
uint32_t bt_read(uint16_t *table, size_t words, const uint8_t *file, size_t file_len);

/* Fills the table from a part list; its old contents are not looked at. The text has a point count on its first line, then on each line
 * 1 to 7 indices below it, one space between; a number has 1 to 5 digits and no leading zero, and every line ends with one newline byte.
 * The points and each non-empty subset of a line become one cell, once, with corners in rising index; they are numbered by dimension,
 * then by corners in dictionary order. The text may have any length. Refused: 1, 17, 18, 9; with 1 the table stays, with any other every
 * word is 65535. */
uint32_t bt_import(uint16_t *table, size_t words, const uint8_t *text, size_t text_len);

#ifdef __cplusplus
}
#endif

#endif
