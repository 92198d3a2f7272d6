// Other libraries that count the same hole numbers, on the same tables and in the same run: PARI (rank of matrices mod 2), PHAT
// (reduction of a boundary matrix mod 2) and GUDHI (cohomology of a simplicial complex). Each is used only where it is installed.
// Every one starts from the table and ends with seven hole numbers; the library's time is its reducer and its checker together. The
// reducer's time is given alone as well: it ends with evidence, which is what the other libraries' reductions end with inside.
#include "bumbleturf.h"
#include "tables.h"

#include <algorithm>
#include <chrono>
#include <cstdio>
#include <cstring>
#include <vector>

#if __has_include(<pari/pari.h>)
#include <pari/pari.h>
#define HAS_PARI 1
#endif
#if __has_include(<phat/boundary_matrix.h>)
#include <phat/algorithms/twist_reduction.h>
#include <phat/boundary_matrix.h>
#include <phat/compute_persistence_pairs.h>
#include <phat/representations/bit_tree_pivot_column.h>
#define HAS_PHAT 1
#endif
#if __has_include(<gudhi/Simplex_tree.h>)
#include <gudhi/Persistent_cohomology.h>
#include <gudhi/Simplex_tree.h>
#define HAS_GUDHI 1
#endif

namespace {

struct Holes {
    uint16_t of[PL_DIMENSIONS];
};

uint64_t evidence[PL_ROOM * PL_ROW];

size_t evidence_words(const piece &t)
{
    return t.n * ((t.n + 63) / 64);
}

// Evidence alone: no hole numbers are answered.
bool by_reducer(const piece &t, Holes &)
{
    uint64_t additions[PL_DIMENSIONS];
    return bt_reduce(t.words, PL_RECORD * t.n, evidence, evidence_words(t), additions) == 0;
}

bool by_library(const piece &t, Holes &out)
{
    uint16_t cells[PL_DIMENSIONS];
    return by_reducer(t, out) && bt_check(t.words, PL_RECORD * t.n, evidence, evidence_words(t), cells, out.of) == 0;
}

// Live cells of each dimension; where place is given, each cell's place among those of its dimension.
[[maybe_unused]] void count(const piece &t, uint16_t cells[PL_DIMENSIONS + 1], uint16_t *place)
{
    std::memset(cells, 0, (PL_DIMENSIONS + 1) * sizeof *cells);
    for (size_t c = 0; c < t.n; c++)
        if (t.words[PL_RECORD * c] != PL_FREE)
            place[c] = cells[t.words[PL_RECORD * c]]++;
}

[[maybe_unused]] void from_ranks(const uint16_t cells[PL_DIMENSIONS + 1], const long ranks[PL_DIMENSIONS + 1], Holes &out)
{
    for (int p = 0; p < PL_DIMENSIONS; p++)
        out.of[p] = (uint16_t)(cells[p] - ranks[p] - ranks[p + 1]);
}

#ifdef HAS_PARI
bool by_pari(const piece &t, Holes &out)
{
    pari_sp before = avma;
    uint16_t cells[PL_DIMENSIONS + 1], place[PL_ROOM];
    long ranks[PL_DIMENSIONS + 1] = {0};
    count(t, cells, place);
    for (int p = 1; p < PL_DIMENSIONS; p++) {
        if (!cells[p])
            continue;
        GEN m = zero_F2m_copy(cells[p - 1], cells[p]);
        for (size_t c = 0; c < t.n; c++)
            for (int j = 0; t.words[PL_RECORD * c] == p && j <= p; j++)
                F2v_flip(gel(m, place[c] + 1), place[t.words[PL_RECORD * c + 1 + j]] + 1);
        ranks[p] = F2m_rank(m);
    }
    from_ranks(cells, ranks, out);
    set_avma(before);
    return true;
}
#endif

#ifdef HAS_PHAT
bool by_phat(const piece &t, Holes &out)
{
    phat::boundary_matrix<phat::bit_tree_pivot_column> m;
    phat::persistence_pairs pairs;
    uint16_t cells[PL_DIMENSIONS + 1], place[PL_ROOM];
    long ranks[PL_DIMENSIONS + 1] = {0};
    std::vector<phat::index> column;
    count(t, cells, place);
    m.set_num_cols((phat::index)t.n);
    for (size_t c = 0; c < t.n; c++) {
        unsigned p = t.words[PL_RECORD * c];
        column.clear();
        for (unsigned j = 0; p && p != PL_FREE && j <= p; j++) {
            phat::index f = t.words[PL_RECORD * c + 1 + j];
            auto at = std::lower_bound(column.begin(), column.end(), f);
            if (at != column.end() && *at == f)
                column.erase(at);
            else
                column.insert(at, f);
        }
        m.set_dim((phat::index)c, p == PL_FREE ? 0 : (phat::dimension)p);
        m.set_col((phat::index)c, column);
    }
    phat::compute_persistence_pairs<phat::twist_reduction>(pairs, m);
    for (phat::index i = 0; i < pairs.get_num_pairs(); i++)
        ranks[t.words[PL_RECORD * pairs.get_pair(i).second]]++;
    from_ranks(cells, ranks, out);
    return true;
}
#endif

#ifdef HAS_GUDHI
// A simplicial complex alone: every cell has different corners, and no two cells have the same ones. Others are left out.
bool by_gudhi(const piece &t, Holes &out)
{
    using Tree = Gudhi::Simplex_tree<>;
    Tree tree;
    for (size_t c = 0; c < t.n; c++) {
        unsigned p = t.words[PL_RECORD * c];
        if (p == PL_FREE)
            continue;
        std::vector<int> corners;
        size_t at = c;
        for (unsigned k = p; k; k--) {
            size_t last = at; // corner k is reached through face 0 again and again; then face k drops it
            for (unsigned q = k; q; q--)
                last = t.words[PL_RECORD * last + 1];
            corners.push_back((int)last);
            at = t.words[PL_RECORD * at + 1 + k];
        }
        corners.push_back((int)at);
        std::sort(corners.begin(), corners.end());
        if (std::adjacent_find(corners.begin(), corners.end()) != corners.end() || !tree.insert_simplex(corners).second)
            return false;
    }
    Gudhi::persistent_cohomology::Persistent_cohomology<Tree, Gudhi::persistent_cohomology::Field_Zp> holes(tree, true);
    holes.init_coefficients(2);
    holes.compute_persistent_cohomology();
    for (int p = 0; p < PL_DIMENSIONS; p++)
        out.of[p] = (uint16_t)holes.betti_number(p);
    return true;
}
#endif

using Way = bool (*)(const piece &, Holes &);

double once(Way way, const piece &t, int times)
{
    Holes holes;
    auto start = std::chrono::steady_clock::now();
    for (int i = 0; i < times; i++)
        way(t, holes);
    return std::chrono::duration<double, std::micro>(std::chrono::steady_clock::now() - start).count() / times;
}

} // namespace

int main()
{
    static piece pieces[TABLES];
    struct {
        const char *name;
        Way way;
        bool counts;
    } ways[] = {
        {"library", by_library, true},
        {"reducer alone", by_reducer, false},
#ifdef HAS_PARI
        {"PARI", by_pari, true},
#endif
#ifdef HAS_PHAT
        {"PHAT", by_phat, true},
#endif
#ifdef HAS_GUDHI
        {"GUDHI", by_gudhi, true},
#endif
    };
    constexpr int rounds = 41;
    int wrong = 0;
    fill_tables(pieces);
#ifdef HAS_PARI
    pari_init(64000000, 2);
#endif
    std::printf("| table | by | microseconds | times the library |\n|---|---|---|---|\n");
    for (const piece &t : pieces) {
        Holes ours, theirs;
        by_library(t, ours);
        std::vector<std::vector<double>> taken(sizeof ways / sizeof *ways);
        for (int r = 0; r < rounds; r++)
            for (size_t k = 0; k < taken.size(); k++) {
                if (!ways[k].way(t, theirs))
                    continue;
                wrong += ways[k].counts && std::memcmp(&ours, &theirs, sizeof ours) != 0;
                taken[k].push_back(once(ways[k].way, t, t.n == 8 ? 20 : 2));
            }
        for (size_t k = taken.size(); k-- > 0;) {
            if (taken[k].empty()) {
                std::printf("| %s | %s | not its kind of table | |\n", t.name, ways[k].name);
                continue;
            }
            std::vector<double> ratio(rounds);
            for (int r = 0; r < rounds; r++)
                ratio[r] = taken[k][r] / taken[0][r];
            std::sort(ratio.begin(), ratio.end());
            std::sort(taken[k].begin(), taken[k].end());
            std::printf("| %s | %s | %.1f | %.2f |\n", t.name, ways[k].name, taken[k][rounds / 2], ratio[rounds / 2]);
        }
    }
    if (wrong)
        std::printf("%d counts differ\n", wrong);
    return wrong != 0;
}
