/*
 * The verified census: its plain layer for C. Link libcensus.a, which `rt lib` in crates/census writes to crates/census/out.
 *
 * A lattice has n letters and racks of r tiles, 1 <= n <= 64, 1 <= r <= 15, and its length C(n + r, n) is at most 4,294,967,294. A tally
 * has a count for each letter. A rank is the address of a multiset of at most r tiles in every table of the lattice's length: fewer tiles
 * first, then counts ascending, letter 0 first. A full rack has r tiles, a leave has fewer; the leaves' ranks come first, and their
 * number is where full racks start.
 *
 * A slice is lent as a pointer and the number of its entries. The pointer is never NULL, also where there are no entries, and a slice that
 * is written overlaps no other. Every call answers for every number and every contents of its slices. Nothing is kept after a call, and
 * nothing is allocated.
 *
 * Each answer has a number: 0 where the call is accepted, otherwise the lowest that applies. A refused call writes nothing.
 *   1  n, r or the length is outside the above
 *   2  a slice of wrong length
 *   3  a letter not below n; a blank among placed tiles; sparse letters that do not ascend
 *   4  too many tiles, a size, rank or number of rows out of range
 *   5  an entry or a score beyond +-536,870,911, or a drop beyond +-16,777,215
 *   6  a table of ranks that is not its lattice's
 *   7  scatter in force and: an entry of sheet negative, sheet[0] not 0, or leave_max not leave's subset maximum
 *   8  num, den or ways not +0.0
 *   9  the weight W * M above 2^53, so that the sums might not be exact
 */
#ifndef CENSUS_H
#define CENSUS_H

#include <stdbool.h>
#include <stddef.h>
#include <stdint.h>

/* the value where there is no best, no draw, or a refusal */
#define CENSUS_UNPLAYABLE (-1073741824)
/* the rank where there is none */
#define CENSUS_NONE 4294967295u

#ifdef __cplusplus
extern "C" {
#endif

/* a rank, a length or a start: CENSUS_NONE where refused */
struct census_rank {
    uint8_t number;
    uint32_t value;
};

/* a best or a mean: CENSUS_UNPLAYABLE where refused */
struct census_equity {
    uint8_t number;
    int32_t value;
};

/* the best leave's value and rank: CENSUS_UNPLAYABLE and CENSUS_NONE where refused, or where no leave is given */
struct census_leave {
    uint8_t number;
    int32_t value;
    uint32_t rank;
};

enum census_kind { CENSUS_NO_MOVE = 0, CENSUS_WORD = 1, CENSUS_EXCHANGE = 2 };

/* a best and the kind of its move: CENSUS_UNPLAYABLE and CENSUS_NO_MOVE where refused */
struct census_play {
    uint8_t number;
    uint8_t kind;
    int32_t value;
};

/* a part of a lent slice: where it starts and how many entries it has */
struct census_part {
    size_t start;
    size_t len;
};

/* ---- the lattice */

/* The length. Refuses: 1. */
struct census_rank census_len(size_t n, size_t r);

/* Where full racks start: the number of leaves. Refuses: 1. */
struct census_rank census_full_rack_start(size_t n, size_t r);

/* Where multisets of s tiles start, s up to r + 1. Refuses: 1, 4 (s above r + 1). */
struct census_rank census_size_start(size_t n, size_t r, size_t s);

/* The rank of a tally of n counts. Refuses: 1, 2, 4 (more than r tiles). */
struct census_rank census_rank(size_t n, size_t r, const uint8_t *tally, size_t tally_len);

/* The rank of tiles in any order, a letter each. Refuses: 1, 3, 4 (more than r tiles). */
struct census_rank census_rank_bytes(size_t n, size_t r, const uint8_t *tiles, size_t tiles_len);

/* The rank of s tiles by ascending letters and their counts. Refuses: 1, 2 (unequal lengths), 3, 4 (the counts sum to more than r, or not to s). */
struct census_rank census_rank_sparse(size_t n, size_t r, size_t s, const uint8_t *letters, size_t letters_len, const uint8_t *counts, size_t counts_len);

/* Writes the tally at a rank into out, n counts. Refuses: 1, 2, 4 (idx not below the length). */
uint8_t census_unrank_into(size_t n, size_t r, size_t idx, uint8_t *out, size_t out_len);

/* Writes the first rows of Pascal's triangle, one after the other, rows * (rows + 1) / 2 entries; entries above 2^64 - 1 are that.
 * Refuses: 2, 4 (rows 0 or above 81). */
uint8_t census_pascal_rows(size_t rows, uint64_t *out, size_t out_len);

/* ---- tables of ranks with one tile more */

/* Writes, for each leave and letter, the rank of the leave with that tile: add[rank * n + letter], leaves * n entries. Refuses: 1, 2. */
uint8_t census_fill_add(size_t n, size_t r, uint32_t *add, size_t add_len);

/* Writes the same letter by letter: by_letter[letter * leaves + rank]. Reads add. Refuses: 1, 2, 6. */
uint8_t census_fill_by_letter(size_t n, size_t r, const uint32_t *add, size_t add_len, uint32_t *by_letter, size_t by_letter_len);

/* The ranks of letter t as a part of by_letter. No entries where the table is empty or is refused, or where t is not below n. */
struct census_part census_letter(size_t n, size_t r, const uint32_t *by_letter, size_t by_letter_len, size_t t);

/* ---- best plays; sheet and leave have the lattice's length */

/* The greatest sheet[P] + leave[R - P] over all P within the rack R. Refuses: 1, 2, 4 (more than r tiles), 5 (an entry at a part of R). */
struct census_equity census_best_equity_of(size_t n, size_t r, const int32_t *sheet, size_t sheet_len, const int32_t *leave, size_t leave_len, const uint8_t *tally, size_t tally_len);

/* The same, with the kind of the move: a word where sheet[P] is above 0. Writes the kept tally into kept, n counts: that of the smallest
 * played tally among equals. Refuses: 1, 2, 4, 5. */
struct census_play census_naive_best_equity(size_t n, size_t r, const int32_t *sheet, size_t sheet_len, const int32_t *leave, size_t leave_len, const uint8_t *tally, size_t tally_len, uint8_t *kept, size_t kept_len);

/* Writes the best of every full rack into out, of the lattice's length; the entries of leaves stay. Refuses: 1, 2, 5. */
uint8_t census_best_equity_table(size_t n, size_t r, const int32_t *sheet, size_t sheet_len, const int32_t *leave, size_t leave_len, int32_t *out, size_t out_len);

/* The best leave of `keep` tiles of the rack, of equal values the smallest rank; values below CENSUS_UNPLAYABLE are passed over.
 * Refuses: 1, 2, 4. */
struct census_leave census_best_keep_of(size_t n, size_t r, const int32_t *leave, size_t leave_len, const uint8_t *tally, size_t tally_len, size_t keep);

/* ---- maxima */

/* Writes into dst, at each multiset, the greatest entry of src over its sub-multisets; both have the lattice's length. Reads add, and
 * by_letter where it is not empty. Refuses: 1, 2, 6. */
uint8_t census_subset_max_transform(size_t n, size_t r, const uint32_t *add, size_t add_len, const uint32_t *by_letter, size_t by_letter_len, const int32_t *src, size_t src_len, int32_t *dst, size_t dst_len);

/* ---- sums over the hands of r tiles of the pool `unseen`, n counts */

/* Writes into num and den, of the lattice's length and +0.0 before, at each multiset the sum of the bests of the hands that hold it, and
 * their number. Reads best at full racks, of the lattice's length. Refuses: 1, 2, 8, 9 (W is the number of hands, M the largest absolute
 * best at a drawable rack and at least 16). */
uint8_t census_apportion_table(size_t n, size_t r, const int32_t *best, size_t best_len, const uint8_t *unseen, size_t unseen_len, double *num, size_t num_len, double *den, size_t den_len);

/* Writes the same for the leaves into num and den, an entry each; the ways of each full rack into ways; and the bests into maxsheet, of the
 * lattice's length. num, den and ways are +0.0 before. zeta folds the sums letter by letter. zeta and null_leave: the best is the subset
 * maximum of sheet alone, which fills maxsheet. zeta and scatter without null_leave puts scatter in force: maxsheet is leave_max raised by
 * every word that the pool allows. Otherwise the best is the best split, written at drawable full racks only.
 * Reads add; by_letter where it is not empty; leave_max where scatter is in force. Refuses: 1, 2, 5 (any entry of sheet or leave), 6, 7, 8,
 * 9 (M is the largest absolute sheet plus the largest absolute leave, at least 16). */
uint8_t census_apportion_fused(size_t n, size_t r, const uint32_t *add, size_t add_len, const uint32_t *by_letter, size_t by_letter_len, const int32_t *sheet, size_t sheet_len, const int32_t *leave, size_t leave_len, const int32_t *leave_max, size_t leave_max_len, const uint8_t *unseen, size_t unseen_len, double *num, size_t num_len, double *den, size_t den_len, double *ways, size_t ways_len, int32_t *maxsheet, size_t maxsheet_len, bool zeta, bool null_leave, bool scatter);

/* ---- draws */

/* The mean of full_v over the racks that the leave at rank s_ridx makes with `draw` tiles of the pool (which excludes the leave), cut toward
 * zero; CENSUS_UNPLAYABLE with number 0 where there is no draw. Reads add, and full_v at full racks, of the lattice's length.
 * Refuses: 1, 2, 4 (no such rank, or its tiles and draw do not make r), 6, 9 (W is the number of draws). */
struct census_equity census_dynamic_leave_value(size_t n, size_t r, const uint32_t *add, size_t add_len, const int32_t *full_v, size_t full_v_len, const uint8_t *pool, size_t pool_len, size_t s_ridx, size_t draw);

/* ---- blank variants */

/* Raises the entries of sheet, of the lattice's length, for placed tiles: for each choice of at most `blanks` of them as blanks whose other
 * tiles unseen has, to score less the drops chosen. Sorts the placed tiles, letters and drops of one length, by letter, then drop. Writes
 * nothing where there are none, or more than r. Refuses: 1, 2, 3, 5. */
uint8_t census_record_blank_variants(size_t n, size_t r, int32_t *sheet, size_t sheet_len, int32_t score, uint8_t *letters, size_t letters_len, int32_t *drops, size_t drops_len, const uint8_t *unseen, size_t unseen_len, size_t blanks);

#ifdef __cplusplus
}
#endif

#endif
