/* The example board of docs/SCOPE.md, "The listing": a rank as an address, hands that hold a leave against draws after keeping it, and a refusal. */
#include "census.h"
#include <stdio.h>
#include <stdlib.h>

enum { N = 2, R = 2, LENGTH = 6, LEAVES = 3 };

static uint32_t add[LEAVES * N], by_letter[LEAVES * N];
static int32_t leave_max[LENGTH], maxsheet[LENGTH], best[LENGTH];
static double num[LEAVES], den[LEAVES], ways[LENGTH - LEAVES];

static void accepted(const char *call, uint8_t number) {
    if (number != 0) {
        fprintf(stderr, "%s: refused with %d\n", call, number);
        exit(1);
    }
}

/* the fused sums with scatter in force, over sums that are +0.0 again */
static uint8_t fused(const int32_t *sheet, const int32_t *leave, const uint8_t *pool) {
    for (int i = 0; i < LEAVES; i++)
        num[i] = den[i] = 0.0;
    for (int i = 0; i < LENGTH - LEAVES; i++)
        ways[i] = 0.0;
    return census_apportion_fused(N, R, add, LEAVES * N, by_letter, LEAVES * N, sheet, LENGTH, leave, LENGTH, leave_max, LENGTH, pool, N,
                                  num, LEAVES, den, LEAVES, ways, LENGTH - LEAVES, maxsheet, LENGTH, true, false, true);
}

int main(void) {
    const uint8_t pool[N] = {1, 2}, after_keeping[N] = {1, 1}, rack[N] = {1, 1}, kept[N] = {0, 1};
    const int32_t sheet[LENGTH] = {0, 2, 1, 10, 30, 5};
    int32_t leave[LENGTH] = {0, 4, 7, 1, 3, -2};

    struct census_rank length = census_len(N, R), leaves = census_full_rack_start(N, R);
    accepted("census_len", length.number);
    if (length.value != LENGTH || leaves.value != LEAVES)
        return 1;
    accepted("census_fill_add", census_fill_add(N, R, add, LEAVES * N));
    accepted("census_fill_by_letter", census_fill_by_letter(N, R, add, LEAVES * N, by_letter, LEAVES * N));

    /* a rank is an address: the same for every table of the lattice */
    struct census_rank at = census_rank(N, R, rack, N);
    accepted("census_rank", at.number);
    accepted("census_best_equity_table", census_best_equity_table(N, R, sheet, LENGTH, leave, LENGTH, best, LENGTH));
    printf("rack (1,1) has rank %u: sheet[%u] is %d, best[%u] is %d\n", at.value, at.value, sheet[at.value], at.value, best[at.value]);

    /* hands of the pool that hold (0,1), against draws of one tile after keeping it: the pool then lacks the kept tile */
    accepted("census_subset_max_transform", census_subset_max_transform(N, R, add, LEAVES * N, by_letter, LEAVES * N, leave, LENGTH, leave_max, LENGTH));
    accepted("census_apportion_fused", fused(sheet, leave, pool));
    struct census_rank keep = census_rank(N, R, kept, N);
    accepted("census_rank", keep.number);
    struct census_equity mean = census_dynamic_leave_value(N, R, add, LEAVES * N, best, LENGTH, after_keeping, N, keep.value, R - 1);
    accepted("census_dynamic_leave_value", mean.number);
    printf("hands that hold (0,1): %.0f over %.0f, so %d\n", num[keep.value], den[keep.value], (int)(num[keep.value] / den[keep.value]));
    printf("draws after keeping (0,1): %d\n", mean.value);

    /* leave changes, leave_max is still that of the older one */
    leave[1] = 5;
    printf("leave_max of an older leave: refused with %d\n", fused(sheet, leave, pool));
    return 0;
}
