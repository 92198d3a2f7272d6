/* The calls of Bumbleturf in plain C, with no proof: what the compiled library is measured against.
 * Names, answers and refusal words are those of include/bumbleturf.h, with pl_ in place of bt_. */
#ifndef PLAIN_H
#define PLAIN_H

#include <stddef.h>
#include <stdint.h>

#ifdef __cplusplus
extern "C" {
#endif

/* The free mark; the most cells; the largest dimension; how many dimensions there are, and face places; words of a record; words of
 * 64 bits in a row of 512 cells; bytes of a file's contents, and of the longest file. */
enum {
    PL_FREE = 65535,
    PL_ROOM = 512,
    PL_TOP = 6,
    PL_DIMENSIONS = PL_TOP + 1,
    PL_FACES = PL_TOP + 1,
    PL_RECORD = 1 + PL_FACES,
    PL_ROW = PL_ROOM / 64,
    PL_CONTENTS = 44,
    PL_LONGEST = 8236
};

uint32_t pl_audit(const uint16_t *table, size_t words);
uint32_t pl_cone(uint16_t *table, size_t words, const uint64_t *marks, size_t mark_words, uint16_t *apex);
uint32_t pl_merge(uint16_t *table, size_t words, uint16_t a, uint16_t b, uint16_t *kept);
uint32_t pl_weld(uint16_t *table, size_t words, uint16_t a, uint16_t b, uint16_t *kept);
uint32_t pl_compact(uint16_t *table, size_t words, uint16_t *list, size_t list_len);
uint32_t pl_incidence(const uint16_t *table, size_t words, uint16_t cell, uint16_t face, int64_t *incidence);
uint32_t pl_boundary(const uint16_t *table, size_t words, const int64_t *chain, size_t chain_len, uint16_t dimension,
                     int64_t *boundary, size_t boundary_len);
uint32_t pl_corner(const uint16_t *table, size_t words, uint16_t cell, uint16_t k, uint16_t *corner);
uint32_t pl_sheet(const uint16_t *table, size_t words, uint8_t *yes);
uint32_t pl_reduce(const uint16_t *table, size_t words, uint64_t *evidence, size_t evidence_words, uint64_t *additions);
uint32_t pl_check(const uint16_t *table, size_t words, const uint64_t *evidence, size_t evidence_words,
                  uint16_t *cells, uint16_t *holes);
uint32_t pl_write(const uint16_t *table, size_t words, uint8_t *target, size_t target_len, size_t *written);
uint32_t pl_read(uint16_t *table, size_t words, const uint8_t *file, size_t file_len);
uint32_t pl_import(uint16_t *table, size_t words, const uint8_t *text, size_t text_len);

/* Whether a table may have this length. */
static inline int pl_length(size_t words)
{
    return words >= PL_RECORD && words <= PL_RECORD * PL_ROOM && words % PL_RECORD == 0;
}

#ifdef __cplusplus
}
#endif

#endif
