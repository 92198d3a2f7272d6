/* The plain version, second part: reducer, checker, writer, reader. Written from the rules for speed, with no proof. */
#include "plain.h"

#include <string.h>

/* The largest cell of a set, searched from word w down; -1 for the empty set. */
static inline int largest(const uint64_t *set, int w)
{
    for (; w >= 0; w--)
        if (set[w])
            return 64 * w + 63 - __builtin_clzll(set[w]);
    return -1;
}

/* The reducer for rows of w words, a constant where it matters. Boundaries of finished rows are kept under their largest cell. */
static inline __attribute__((always_inline)) void reduce(const uint16_t *restrict t, size_t n, size_t w, uint64_t *restrict evidence, uint64_t *restrict additions)
{
    uint64_t kept[PL_ROOM][PL_ROW];
    uint16_t owner[PL_ROOM];
    memset(owner, 255, sizeof owner);
    memset(evidence, 0, n * w * sizeof *evidence);
    for (size_t c = 0; c < n; c++) {
        unsigned p = t[PL_RECORD * c];
        if (p == PL_FREE)
            continue;
        uint64_t *row = evidence + c * w;
        row[c / 64] = (uint64_t)1 << c % 64;
        if (p == 0)
            continue;
        uint64_t b[PL_ROW] = {0}, sum[PL_ROW] = {0}, made = 0;
        for (unsigned j = 0; j <= p; j++)
            b[t[PL_RECORD * c + 1 + j] / 64] ^= (uint64_t)1 << t[PL_RECORD * c + 1 + j] % 64;
        int top = largest(b, (int)w - 1);
        while (top >= 0 && owner[top] != PL_FREE) {
            const uint64_t *other = evidence + owner[top] * w;
            for (size_t k = 0; k < w; k++)
                b[k] ^= kept[top][k];
            for (size_t k = 0; k < w; k++)
                sum[k] ^= other[k];
            made++;
            top = largest(b, top / 64);
        }
        for (size_t k = 0; k < w; k++)
            row[k] ^= sum[k];
        additions[p] += made;
        if (top >= 0) {
            owner[top] = (uint16_t)c;
            memcpy(kept[top], b, sizeof b);
        }
    }
}

uint32_t pl_reduce(const uint16_t *restrict t, size_t words, uint64_t *restrict evidence, size_t evidence_words,
                   uint64_t *restrict additions)
{
    size_t n = words / PL_RECORD, w = (n + 63) / 64;
    if (!pl_length(words) || evidence_words != n * w)
        return 1;
    uint32_t broken = pl_audit(t, words);
    if (broken)
        return broken;
    memset(additions, 0, PL_DIMENSIONS * sizeof *additions);
    if (w == PL_ROW)
        reduce(t, n, PL_ROW, evidence, additions);
    else
        reduce(t, n, w, evidence, additions);
    return 0;
}

uint32_t pl_check(const uint16_t *restrict t, size_t words, const uint64_t *restrict evidence, size_t evidence_words,
                  uint16_t *restrict cells, uint16_t *restrict holes)
{
    size_t n = words / PL_RECORD, w = (n + 63) / 64;
    if (!pl_length(words) || evidence_words != n * w)
        return 1;
    uint32_t broken = pl_audit(t, words);
    if (broken)
        return broken;
    uint64_t live[PL_DIMENSIONS][PL_ROW] = {{0}}, used[PL_ROW] = {0};
    uint16_t count[PL_DIMENSIONS] = {0}, rank[PL_DIMENSIONS + 1] = {0};
    for (size_t c = 0; c < n; c++) {
        unsigned p = t[PL_RECORD * c];
        if (p != PL_FREE) {
            live[p][c / 64] |= (uint64_t)1 << c % 64;
            count[p]++;
        }
    }
    for (size_t c = 0; c < n; c++) {
        const uint64_t *set = evidence + c * w;
        unsigned p = t[PL_RECORD * c];
        uint64_t stray = 0;
        if (p == PL_FREE) {
            for (size_t k = 0; k < w; k++)
                stray |= set[k];
        } else {
            for (size_t k = 0; k < w; k++)
                stray |= set[k] & ~live[p][k];
            for (size_t k = c / 64 + 1; k < w; k++)
                stray |= set[k];
            stray |= set[c / 64] >> c % 64 ^ 1;
        }
        if (stray)
            return 13 | (uint32_t)c << 16;
        if (p == PL_FREE || p == 0)
            continue;
        uint64_t b[PL_ROW] = {0};
        for (size_t k = 0; k <= c / 64; k++)
            for (uint64_t bits = set[k]; bits; bits &= bits - 1) {
                const uint16_t *face = t + PL_RECORD * (64 * k + (size_t)__builtin_ctzll(bits)) + 1;
                for (unsigned j = 0; j <= p; j++)
                    b[face[j] / 64] ^= (uint64_t)1 << face[j] % 64;
            }
        int top = largest(b, (int)w - 1);
        if (top < 0)
            continue;
        if (used[top / 64] >> top % 64 & 1)
            return 14 | (uint32_t)c << 16;
        used[top / 64] |= (uint64_t)1 << top % 64;
        rank[p]++;
    }
    for (unsigned p = 0; p < PL_DIMENSIONS; p++) {
        cells[p] = count[p];
        holes[p] = (uint16_t)(count[p] - rank[p] - rank[p + 1]);
    }
    return 0;
}

static inline void put2(uint8_t *at, unsigned x)
{
    at[0] = (uint8_t)x;
    at[1] = (uint8_t)(x >> 8);
}

static inline unsigned get2(const uint8_t *at)
{
    return at[0] | (unsigned)at[1] << 8;
}

/* Bytes of one cell of dimension p in a body. */
static inline size_t entry(unsigned p)
{
    return p ? 2 * p + 4 : 2;
}

/* The faces of a cell of dimension p, a constant at every call so that the loop unrolls. */
static inline void faces(uint8_t *restrict out, const uint16_t *restrict r, unsigned p)
{
    for (unsigned j = 0; j <= p; j++)
        put2(out + 2 + 2 * j, r[1 + j]);
}

uint32_t pl_write(const uint16_t *restrict t, size_t words, uint8_t *restrict target, size_t target_len, size_t *restrict written)
{
    if (!pl_length(words))
        return 1;
    uint32_t broken = pl_audit(t, words);
    if (broken)
        return broken;
    size_t n = words / PL_RECORD, count[PL_DIMENSIONS] = {0}, at[PL_DIMENSIONS], end = PL_CONTENTS;
    for (size_t c = 0; c < n; c++)
        if (t[PL_RECORD * c] != PL_FREE)
            count[t[PL_RECORD * c]]++;
    for (unsigned p = 0; p < PL_DIMENSIONS; p++) {
        at[p] = end;
        end += count[p] * entry(p);
    }
    if (target_len < end)
        return 9;
    put2(target, (unsigned)n);
    for (unsigned p = 0; p < PL_DIMENSIONS; p++) {
        put2(target + 2 + 6 * p, (unsigned)count[p]);
        put2(target + 4 + 6 * p, (unsigned)at[p]);
        put2(target + 6 + 6 * p, 0);
    }
    for (size_t c = 0; c < n; c++) {
        const uint16_t *r = t + PL_RECORD * c;
        unsigned p = r[0];
        if (p == PL_FREE)
            continue;
        uint8_t *out = target + at[p];
        put2(out, (unsigned)c);
        switch (p) {
        case 0: break;
        case 1: faces(out, r, 1); break;
        case 2: faces(out, r, 2); break;
        case 3: faces(out, r, 3); break;
        case 4: faces(out, r, 4); break;
        case 5: faces(out, r, 5); break;
        default: faces(out, r, 6); break;
        }
        at[p] += entry(p);
    }
    *written = end;
    return 0;
}

/* The body of dimension p, a constant at every call so that the faces unroll: where the next body starts, or 0 for a cell out of order. */
static inline const uint8_t *body(uint16_t *restrict t, size_t n, const uint8_t *restrict in, size_t count, unsigned p)
{
    long before = -1;
    for (; count; count--, in += entry(p)) {
        unsigned c = get2(in);
        if (c >= n || (long)c <= before || t[PL_RECORD * c] != PL_FREE)
            return 0;
        before = (long)c;
        t[PL_RECORD * c] = (uint16_t)p;
        for (unsigned j = 0; p && j <= p; j++)
            t[PL_RECORD * c + 1 + j] = (uint16_t)get2(in + 2 + 2 * j);
    }
    return in;
}

uint32_t pl_read(uint16_t *restrict t, size_t words, const uint8_t *restrict file, size_t file_len)
{
    if (!pl_length(words))
        return 1;
    size_t n = words / PL_RECORD, end = PL_CONTENTS;
    memset(t, 255, words * sizeof *t);
    if (file_len < PL_CONTENTS || get2(file) != n)
        return 15;
    for (unsigned p = 0; p < PL_DIMENSIONS; p++) {
        const uint8_t *head = file + 2 + 6 * p;
        if ((get2(head + 2) | (size_t)get2(head + 4) << 16) != end)
            return 15;
        end += get2(head) * entry(p);
    }
    if (file_len != end)
        return 15;
    uint32_t refusal = 0;
    const uint8_t *in = file + PL_CONTENTS;
    for (unsigned p = 0; p < PL_DIMENSIONS && !refusal; p++) {
        size_t count = get2(file + 2 + 6 * p);
        switch (p) {
        case 0: in = body(t, n, in, count, 0); break;
        case 1: in = body(t, n, in, count, 1); break;
        case 2: in = body(t, n, in, count, 2); break;
        case 3: in = body(t, n, in, count, 3); break;
        case 4: in = body(t, n, in, count, 4); break;
        case 5: in = body(t, n, in, count, 5); break;
        default: in = body(t, n, in, count, 6); break;
        }
        if (!in)
            refusal = 16;
    }
    if (!refusal)
        refusal = pl_audit(t, words);
    if (refusal)
        memset(t, 255, words * sizeof *t);
    return refusal;
}
