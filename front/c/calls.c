/* Each call of bits.h once or more, with its answers. It ends with the status 0 where all are right. */
#undef NDEBUG
#include "bits.h"
#include <assert.h>
#include <stdlib.h>
#include <string.h>

static bits empty(size_t length) {
    bits set = BITS_OF((uint64_t *)calloc(bits_words(length) + 1, sizeof(uint64_t)), length);
    assert(set.words && set.count == bits_words(length));
    return set;
}

static bits of(size_t length, size_t count, const size_t *positions) {
    bits set = empty(length);
    for (size_t k = 0; k < count; k++)
        assert(bits_insert(&set, positions[k]));
    return set;
}

static void words(void) {
    assert(bits_words(0) == 0 && bits_words(1) == 4 && bits_words(257) == 8);
    assert(bits_blocks(0) == 0 && bits_blocks(64) == 1 && bits_blocks(65) == 2);
    uint64_t word = 12;
    assert(bits_take_lowest_bit(&word) == 2 && word == 8);
    assert(bits_take_lowest_bit(&word) == 3 && bits_take_lowest_bit(&word) == BITS_NONE);
    uint64_t any[4] = {7, 7, 7, 7};
    assert(!bits_settle(any, 3, 70, 70) && !bits_settle(any, 4, 70, 71) && any[1] == 7);
    assert(!bits_is_clean(any, 4, 66) && !bits_is_clean(any, 3, 66));
    assert(bits_settle(any, 4, 66, 65) && any[0] == 7 && any[1] == 1 && any[2] == 0 && any[3] == 0);
    assert(bits_is_clean(any, 4, 66) && bits_is_clean(any, 4, 65) && !bits_is_clean(any, 4, 64) && bits_is_clean(any, 0, 0));
    const uint64_t read[4] = {7, 1, 0, 0};
    const bits_view view = BITS_VIEW_OF(read, 66);
    assert(bits_maximum(bits_of_view(&view)) == 64 && bits_union_count(bits_of_view(&view), bits_of_view(&view)) == 4);
}

static void positions(void) {
    bits set = empty(70);
    assert(bits_is_clear(&set) && !bits_is_full(&set) && bits_minimum(&set) == BITS_NONE);
    assert(bits_insert(&set, 69) && !bits_insert(&set, 70) && bits_contains(&set, 69) && !bits_contains(&set, 70));
    assert(!bits_put(&set, 3) && bits_put(&set, 3) && !bits_put(&set, SIZE_MAX));
    assert(bits_take(&set, 3) && !bits_take(&set, 3) && !bits_take(&set, SIZE_MAX) && !bits_put(&set, 3));
    assert(bits_toggle(&set, 3) && !bits_contains(&set, 3) && !bits_toggle(&set, 70));
    assert(bits_set(&set, 5, true) && bits_set(&set, 6, false) && !bits_set(&set, 70, true));
    assert(bits_minimum(&set) == 5 && bits_maximum(&set) == 69);
    assert(bits_next_one(&set, 5) == 5 && bits_next_one(&set, 6) == 69 && bits_next_one(&set, 70) == BITS_NONE);
    assert(bits_next_zero(&set, 5) == 6 && bits_next_zero(&set, 69) == BITS_NONE);
    assert(bits_nth_one(&set, 0) == 5 && bits_nth_one(&set, 1) == 69 && bits_nth_one(&set, 2) == BITS_NONE);
    assert(bits_previous_one(&set, SIZE_MAX) == 69 && bits_previous_one(&set, 5) == BITS_NONE);
    assert(bits_previous_zero(&set, 70) == 68 && bits_previous_zero(&set, 0) == BITS_NONE);
    assert(bits_remove(&set, 69) && !bits_remove(&set, 70) && bits_maximum(&set) == 5);
    assert(bits_set_block(&set, 1, UINT64_MAX) && set.words[1] == 63 && !bits_set_block(&set, 2, 1));
    const size_t list[] = {69, 2, 69, 70};
    bool answers[] = {false, true, false, true};
    bits_clear(&set);
    assert(bits_insert_all(&set, list, 3) && bits_minimum(&set) == 2 && bits_count_ones(&set, 0, 70) == 2);
    assert(!bits_insert_all(&set, list, 4) && bits_insert_all(&set, list, 0) && bits_count_ones(&set, 0, 70) == 2);
    assert(!bits_contains_each(&set, list, 4, answers, 3) && !answers[0]);
    assert(bits_remove(&set, 2) && bits_contains_each(&set, list, 4, answers, 4));
    assert(answers[0] && !answers[1] && answers[2] && !answers[3]);
    assert(!bits_remove_all(&set, list, 4) && bits_contains(&set, 69) && bits_remove_all(&set, list, 3) && bits_is_clear(&set));
    bits_clear(&set);
    assert(bits_is_clear(&set) && set.length == 70);
    free(set.words);
}

static void ranges(void) {
    bits set = empty(70);
    assert(bits_range_is_valid(&set, 3, 70) && !bits_range_is_valid(&set, 4, 3) && !bits_range_is_valid(&set, 0, 71));
    assert(bits_insert_range(&set, 0, 70) && bits_is_full(&set) && !bits_insert_range(&set, 0, 71));
    assert(bits_remove_range(&set, 10, 20) && !bits_remove_range(&set, 2, 1));
    assert(bits_toggle_range(&set, 15, 30) && !bits_toggle_range(&set, 71, 71));
    assert(bits_count_ones(&set, 10, 30) == 5 && bits_count_zeroes(&set, 10, 30) == 15 && bits_count_ones(&set, 0, 71) == 0);
    assert(bits_contains_all_in_range(&set, 15, 20) && !bits_contains_all_in_range(&set, 14, 20));
    assert(bits_contains_any_in_range(&set, 14, 16) && !bits_contains_any_in_range(&set, 10, 15));
    free(set.words);
}

static void pairs(void) {
    const size_t few[] = {1, 3}, more[] = {2, 3, 69};
    bits a = of(10, 2, few), b = of(70, 3, more), c = of(70, 2, few);
    assert(bits_union_count(&a, &b) == 4 && bits_intersection_count(&a, &b) == 1);
    assert(bits_difference_count(&b, &a) == 2 && bits_symmetric_difference_count(&a, &b) == 3);
    assert(!bits_is_disjoint(&a, &b) && bits_is_subset(&a, &c) && !bits_is_subset(&b, &a));
    assert(!bits_equal(&a, &c) && bits_equal(&c, &c));
    assert(bits_compare(&a, &c) == -1 && bits_compare(&c, &c) == 0 && bits_compare(&b, &a) == 1);
    assert(!bits_union_with(&a, &b) && !bits_symmetric_difference_with(&a, &b) && bits_count_ones(&a, 0, 10) == 2);
    assert(bits_union_with(&c, &b) && bits_count_ones(&c, 0, 70) == 4);
    assert(bits_symmetric_difference_with(&c, &a) && bits_equal(&c, &c) && bits_count_ones(&c, 0, 70) == 2);
    bits_intersect_with(&c, &b);
    assert(bits_count_ones(&c, 0, 70) == 2 && bits_maximum(&c) == 69);
    bits_difference_with(&b, &c);
    assert(bits_count_ones(&b, 0, 70) == 1 && bits_minimum(&b) == 3);
    bool changed = true;
    assert(!bits_union_with_change(&a, &b, &changed) && changed && bits_count_ones(&a, 0, 10) == 2);
    assert(bits_union_with_change(&c, &b, &changed) && changed && bits_count_ones(&c, 0, 70) == 3);
    assert(bits_union_with_change(&c, &b, &changed) && !changed && bits_count_ones(&c, 0, 70) == 3);
    assert(!bits_symmetric_difference_with_change(&a, &b, &changed) && !changed && bits_count_ones(&a, 0, 10) == 2);
    assert(bits_symmetric_difference_with_change(&c, &b, &changed) && changed && bits_count_ones(&c, 0, 70) == 2);
    assert(bits_symmetric_difference_with_change(&c, &b, &changed) && changed && bits_count_ones(&c, 0, 70) == 3);
    assert(bits_intersect_with_change(&c, &b) && !bits_intersect_with_change(&c, &b) && bits_equal(&c, &b));
    assert(bits_difference_with_change(&c, &b) && !bits_difference_with_change(&c, &b) && bits_is_clear(&c));
    assert(bits_first_lacking(&a, &b) == BITS_NONE && bits_first_lacking(&b, &a) == 1 && bits_first_lacking(&c, &b) == 3);
    assert(bits_next_common(&a, &b, 0) == 3 && bits_next_common(&b, &a, 4) == BITS_NONE);
    changed = true;
    assert(!bits_union_with_difference(&a, &b, &c, &changed) && changed && bits_count_ones(&a, 0, 10) == 2);
    assert(bits_union_with_difference(&c, &a, &b, &changed) && changed && bits_count_ones(&c, 0, 70) == 1 && bits_minimum(&c) == 1);
    assert(bits_union_with_difference(&c, &a, &b, &changed) && !changed && bits_count_ones(&c, 0, 70) == 1);
    free(a.words);
    free(b.words);
    free(c.words);
}

/* A set has this length and these positions, one at least. */
#define IS(set, n, ...)                                                            \
    do {                                                                           \
        const size_t wanted[] = {__VA_ARGS__};                                     \
        bits other = of(n, sizeof wanted / sizeof *wanted, wanted);                \
        assert(bits_equal(&set, &other));                                          \
        free(other.words);                                                         \
    } while (0)

static void copies(void) {
    const size_t few[] = {1, 3}, more[] = {2, 3, 69};
    bits a = of(10, 2, few), b = of(70, 3, more);
    uint64_t any[4] = {UINT64_MAX, 7, UINT64_MAX, 7};
    bits shorter = {any, 4, 10}, longer = {any, 4, 70}, wrong = {any, 3, 70};
    assert(!bits_copy(&wrong, &b) && !bits_union_of(&wrong, &a, &b) && !bits_difference_of(&wrong, &b, &a));
    assert(!bits_union_of(&shorter, &a, &b) && !bits_symmetric_difference_of(&shorter, &a, &b));
    assert(!bits_intersection_of(&longer, &a, &b) && !bits_difference_of(&longer, &a, &b) && any[1] == 7);
    assert(bits_copy(&longer, &b) && bits_equal(&longer, &b));
    assert(bits_copy(&shorter, &b));
    IS(shorter, 10, 2, 3);
    assert(bits_copy(&longer, &a));
    IS(longer, 70, 1, 3);
    assert(bits_union_of(&longer, &a, &b));
    IS(longer, 70, 1, 2, 3, 69);
    assert(bits_symmetric_difference_of(&longer, &b, &a));
    IS(longer, 70, 1, 2, 69);
    assert(bits_difference_of(&longer, &b, &a));
    IS(longer, 70, 2, 69);
    assert(bits_intersection_of(&shorter, &b, &a));
    IS(shorter, 10, 3);
    assert(bits_union_of(&shorter, &a, &a) && bits_equal(&shorter, &a));
    free(a.words);
    free(b.words);
}

static void parts(void) {
    const size_t some[] = {0, 3, 69}, one[] = {5};
    bits a = of(70, 3, some), b = of(70, 3, some), part = of(68, 1, one);
    bits_shift_up(&a, 64);
    IS(a, 70, 64, 67);
    bits_shift_down(&a, 65);
    IS(a, 70, 2);
    bits_union_with_shifted(&b, &a, 64);
    bits_union_with_shifted(&b, &a, 68);
    bits_union_with_shifted(&b, &a, SIZE_MAX);
    IS(b, 70, 0, 3, 66, 69);
    bits_union_with_own_shift(&b, 1);
    bits_union_with_own_shift(&b, SIZE_MAX);
    IS(b, 70, 0, 1, 3, 4, 66, 67, 69);
    assert(!bits_slice(&part, &b, 2, 69) && !bits_slice(&part, &b, 3, 71) && !bits_slice(&part, &b, 71, 3));
    IS(part, 68, 5);
    assert(bits_slice(&part, &b, 1, 69));
    IS(part, 68, 0, 2, 3, 65, 66);
    assert(!bits_copy_range(&a, &b, 4, 3, 0) && !bits_copy_range(&a, &b, 0, 71, 0));
    assert(!bits_copy_range(&a, &b, 0, 6, 65) && !bits_copy_range(&a, &b, 0, 1, SIZE_MAX));
    IS(a, 70, 2);
    assert(bits_copy_range(&a, &b, 3, 68, 1) && bits_copy_range(&a, &b, 70, 70, 70));
    IS(a, 70, 1, 2, 64, 65);
    uint64_t number = 7;
    assert(!bits_load(&a, 6, 65, &number) && !bits_load(&a, 66, 5, &number) && !bits_load(&a, SIZE_MAX, 2, &number) && number == 7);
    assert(bits_load(&a, 62, 8, &number) && number == 12 && bits_load(&a, 1, 64, &number) && number == (UINT64_C(1) << 63 | 3));
    assert(!bits_store(&a, 6, 65, 0) && !bits_store(&a, 66, 5, 0) && bits_store(&a, 62, 4, 21) && bits_store(&a, 70, 0, 1));
    IS(a, 70, 1, 2, 62, 64);
    part.length = 3;
    assert(bits_settle(part.words, part.count, 3, 3));
    IS(part, 3, 0, 2);
    bits_shift_up(&a, SIZE_MAX);
    bits_shift_down(&b, 70);
    assert(bits_is_clear(&a) && bits_is_clear(&b) && b.length == 70);
    free(a.words);
    free(b.words);
    free(part.words);
}

static void bytes(void) {
    const size_t some[] = {2, 9};
    const uint8_t source[] = {76, 255, 255};
    uint8_t made[8] = {7, 7, 7, 7, 7, 7, 7, 7};
    bits set = of(10, 2, some);
    assert(bits_bytes(0) == 0 && bits_bytes(64) == 8 && bits_bytes(65) == 16);
    assert(!bits_to_bytes(&set, made, 7) && made[0] == 7);
    assert(bits_to_bytes(&set, made, 8) && made[0] == 4 && made[1] == 2 && made[7] == 0);
    bits_from_bytes(&set, source, 3);
    IS(set, 10, 2, 3, 6, 8, 9);
    bits_from_bytes(&set, source, 1);
    IS(set, 10, 2, 3, 6);
    bits_from_bytes(&set, source, 0);
    assert(bits_is_clear(&set));
    bits_reverse_each_byte(made, 1);
    assert(made[0] == 32 && made[1] == 2);
    bits_reverse_each_byte(made, 8);
    assert(made[0] == 4 && made[1] == 64 && made[7] == 0);
    free(set.words);
}

static void tables(void) {
    bits_rows table = BITS_ROWS_OF((uint64_t *)calloc(bits_rows_words(3, 70), sizeof(uint64_t)), 3, 70);
    bits_walk walk = BITS_WALK;
    bool changed = true;
    size_t p = 0;
    assert(table.words && table.count == 12 && bits_rows_words(SIZE_MAX, 1) == BITS_NONE);
    assert(bits_rows_words(0, 70) == 0 && bits_rows_words(5, 0) == 0 && bits_rows_words(2, 257) == 16);
    assert(bits_rows_set(&table, 0, 2, true) && bits_rows_set(&table, 2, 1, true) && bits_rows_set(&table, 2, 69, true));
    assert(!bits_rows_set(&table, 3, 0, true) && !bits_rows_set(&table, 0, 70, true));
    assert(bits_rows_get(&table, 2, 69) && !bits_rows_get(&table, 1, 69));
    assert(!bits_rows_get(&table, 3, 0) && !bits_rows_get(&table, 0, SIZE_MAX));
    bits_rows_close(&table);
    assert(bits_rows_get(&table, 0, 1) && bits_rows_get(&table, 0, 69) && !bits_rows_get(&table, 1, 1));
    assert(!bits_rows_union(&table, 0, 3, &changed) && changed);
    assert(bits_rows_union(&table, 2, 0, &changed) && !changed);
    assert(bits_rows_union(&table, 0, 1, &changed) && changed);
    assert(bits_rows_ones(&walk, &table, 1));
    assert(bits_ones_next(&walk, &p) && p == 1 && bits_ones_next_back(&walk, &p) && p == 69);
    assert(!bits_rows_ones(&walk, &table, 3) && !bits_ones_next(&walk, &p));
    assert(!bits_rows_clear(table.words, 11, 3, 70) && !bits_rows_clear(table.words, 12, 2, 70) && bits_rows_get(&table, 0, 2));
    assert(bits_rows_clear(table.words, 12, 3, 70) && !bits_rows_get(&table, 0, 2) && !bits_rows_get(&table, 2, 69));
    free(table.words);
}

static void ranks(void) {
    const size_t some[] = {3, 64, 70, 600};
    size_t directory[2] = {11, 13};
    bits set = of(601, 4, some), none = empty(0);
    bits_ranks ranks = BITS_RANKS;
    assert(bits_rank(&ranks, 9) == 0 && bits_select(&ranks, 0) == BITS_NONE);
    assert(bits_ranks_entries(0) == 0 && bits_ranks_entries(512) == 1 && bits_ranks_entries(601) == 2);
    assert(!bits_ranks_fill(&ranks, &set, directory, 1) && bits_rank(&ranks, 601) == 0);
    assert(!bits_ranks_fill(&ranks, &none, directory, 2) && directory[0] == 11 && directory[1] == 13);
    assert(bits_ranks_fill(&ranks, &set, directory, 2) && directory[0] == 0 && directory[1] == 3);
    assert(bits_rank(&ranks, 3) == 0 && bits_rank(&ranks, 65) == 2 && bits_rank(&ranks, SIZE_MAX) == 4);
    assert(bits_select(&ranks, 0) == 3 && bits_select(&ranks, 3) == 600 && bits_select(&ranks, 4) == BITS_NONE);
    assert(bits_ranks_fill(&ranks, &none, directory, 0) && bits_rank(&ranks, 1) == 0);
    free(set.words);
    free(none.words);
}

/* What a walk of one kind gives: the last, then the first and so on to its end. */
#define GIVES(walk, name, last, ...)                                      \
    do {                                                                  \
        const size_t wanted[] = {__VA_ARGS__};                            \
        size_t p = 0, k = 0;                                              \
        assert(name##_next_back(&walk, &p) && p == last);                 \
        while (name##_next(&walk, &p))                                    \
            assert(k < sizeof wanted / sizeof *wanted && p == wanted[k++]); \
        assert(k == sizeof wanted / sizeof *wanted);                      \
        assert(!name##_next_back(&walk, &p));                             \
    } while (0)

/* The same by the handful: the last one, then the first two and what is left, with a place behind it that stays. */
#define TAKES(walk, name, last, ...)                                                  \
    do {                                                                              \
        const size_t wanted[] = {__VA_ARGS__, SIZE_MAX};                              \
        const size_t all = sizeof wanted / sizeof *wanted - 1, first = all < 2 ? all : 2; \
        size_t taken[] = {__VA_ARGS__, SIZE_MAX}, p = 0;                              \
        memset(taken, 255, sizeof taken);                                             \
        assert(name##_batch_back(&walk, &p, 1) == 1 && p == last);                     \
        assert(name##_batch(&walk, taken, 2) == first);                                \
        assert(name##_batch(&walk, taken + first, all + 1 - first) == all - first);    \
        assert(!memcmp(taken, wanted, sizeof wanted));                                \
        assert(name##_batch(&walk, &p, 1) == 0 && name##_batch_back(&walk, &p, 1) == 0 && p == last); \
    } while (0)

static void walks(void) {
    const size_t few[] = {1, 3, 5}, more[] = {1, 3, 69, 70};
    bits a = of(6, 3, few), b = of(71, 4, more);
    bits_walk walk = BITS_WALK;
    size_t sum = 0, start = 0;
    bits_sieve sieve = BITS_SIEVE;
    bits_pair pair = BITS_PAIR;
    bits_ones(&walk, &b);
    GIVES(walk, bits_ones, 70, 1, 3, 69);
    bits_ones(&walk, &b);
    TAKES(walk, bits_ones, 70, 1, 3, 69);
    bits_zeroes(&walk, &a);
    GIVES(walk, bits_zeroes, 4, 0, 2);
    bits_zeroes(&walk, &a);
    TAKES(walk, bits_zeroes, 4, 0, 2);
    bits_run_walk runs = BITS_RUNS;
    size_t end = 0;
    bits_runs(&runs, &b);
    assert(bits_runs_next_back(&runs, &start, &end) && start == 69 && end == 71);
    assert(bits_runs_next(&runs, &start, &end) && start == 1 && end == 2);
    size_t total = 0;
    BITS_FOR_EACH_RUN(first, past, &b) total += past * 100 + first;
    assert(total == 201 + 403 + 7169);
    bits_zero_runs(&runs, &a);
    assert(bits_runs_next(&runs, &start, &end) && start == 0 && end == 1);
    assert(bits_runs_next(&runs, &start, &end) && bits_runs_next(&runs, &start, &end) && start == 4);
    assert(!bits_runs_next(&runs, &start, &end) && !bits_runs_next_back(&runs, &start, &end));
    assert(bits_first_gap(&b, 0, 71) == 71 && bits_first_gap(&b, 0, 72) == BITS_NONE && bits_first_gap(&b, 1, 71) == BITS_NONE);
    assert(bits_first_gap(&b, 0, SIZE_MAX) == BITS_NONE && bits_first_gap(&b, SIZE_MAX, 0) == BITS_NONE);
    assert(bits_first_gap(&b, 3, 0) == 4 && bits_first_gap(&b, 66, 0) == BITS_NONE);
    assert(bits_last_gap(&b, 0, SIZE_MAX) == 71 && bits_last_gap(&b, 3, 69) == 66 && bits_last_gap(&b, 66, 71) == BITS_NONE);
    assert(bits_first_aligned_gap(&b, 3, 8, 0, 71) == 8 && bits_first_aligned_gap(&b, 5, 8, 9, 24) == 16);
    assert(bits_first_aligned_gap(&b, 3, 8, 9, 18) == BITS_NONE && bits_first_aligned_gap(&b, 1, 8, 9, 72) == BITS_NONE);
    assert(bits_ones_in(&walk, &b, 3, 70));
    GIVES(walk, bits_ones, 69, 3);
    assert(bits_zeroes_in(&walk, &b, 64, 71));
    GIVES(walk, bits_zeroes, 68, 64, 65, 66, 67);
    assert(!bits_ones_in(&walk, &b, 3, 72) && !bits_ones_next(&walk, &start));
    assert(!bits_zeroes_in(&walk, &b, 4, 3) && !bits_zeroes_next_back(&walk, &start));
    bits_intersection_iter(&sieve, &a, &b);
    GIVES(sieve, bits_intersection, 3, 1);
    bits_intersection_iter(&sieve, &a, &b);
    TAKES(sieve, bits_intersection, 3, 1);
    bits_difference_iter(&sieve, &b, &a);
    GIVES(sieve, bits_difference, 70, 69);
    bits_difference_iter(&sieve, &b, &a);
    TAKES(sieve, bits_difference, 70, 69);
    bits_union_iter(&pair, &a, &b);
    GIVES(pair, bits_union, 70, 1, 3, 5, 69);
    bits_union_iter(&pair, &a, &b);
    TAKES(pair, bits_union, 70, 1, 3, 5, 69);
    bits_symmetric_difference_iter(&pair, &a, &b);
    GIVES(pair, bits_symmetric_difference, 70, 5, 69);
    bits_symmetric_difference_iter(&pair, &a, &b);
    TAKES(pair, bits_symmetric_difference, 70, 5, 69);
    BITS_FOR_EACH(p, &b) sum += p;
    assert(sum == 143);
    free(a.words);
    free(b.words);
}

/* Handfuls of a set with stretches of many and of few positions, at each room: the positions in order, and the places behind
 * them as they were. (Those behind the room are compared behind the last handful: what a call leaves there stays. Under
 * valgrind and emulators these comparisons took most of the time, where they were made for each handful.) */
static void handfuls(void) {
    enum { LENGTH = 3000 };
    uint64_t words[BITS_WORDS(LENGTH)] = {0};
    size_t wanted[2][LENGTH], many[2] = {0, 0}, taken[LENGTH + 8], untaken[LENGTH + 8];
    bits set = {words, BITS_WORDS(LENGTH), LENGTH};
    for (size_t p = 0; p < LENGTH; p++) {
        const bool is_set = p / 600 % 2 ? p % 97 == 0 : p * p % 11 < 4;
        assert(!is_set || bits_insert(&set, p));
        wanted[is_set][many[is_set]++] = p;
    }
    memset(taken, 255, sizeof taken);
    memset(untaken, 255, sizeof untaken);
    for (size_t room = 1; room <= LENGTH; room += room < 150 ? 1 : 149)
        for (int is_set = 0; is_set < 2; is_set++) {
            bits_walk walk = BITS_WALK;
            is_set ? bits_ones(&walk, &set) : bits_zeroes(&walk, &set);
            for (size_t done = 0; done <= many[is_set]; done += room) {
                const size_t left = many[is_set] - done, had = room < left ? room : left;
                assert((is_set ? bits_ones_batch(&walk, taken, room) : bits_zeroes_batch(&walk, taken, room)) == had);
                assert(!memcmp(taken, wanted[is_set] + done, had * sizeof *taken));
                assert(!memcmp(taken + had, untaken + had, (room - had) * sizeof *taken));
                memset(taken, 255, had * sizeof *taken);
            }
            assert(!memcmp(taken + room, untaken + room, sizeof taken - room * sizeof *taken));
        }
}

/* The same in numbers of 32 bits, beside a walk by bits_ones_batch and in any mix with its other calls: of sets of many lengths,
 * at rooms below and above what the call gives at once. */
static void handfuls_of_32_bits(void) {
    enum { MOST = 2600 };
    static size_t wide[MOST + 1];
    static uint32_t narrow[MOST + 1], untaken[MOST + 1];
    memset(narrow, 255, sizeof narrow);
    memset(untaken, 255, sizeof untaken);
    for (size_t length = 0; length <= MOST; length += length < 200 ? 1 : 150) {
        bits set = empty(length);
        for (size_t p = 0; p < length; p++)
            assert(!(p / 1300 % 2 ? p % 97 == 0 : p * p % 11 < 9) || bits_insert(&set, p));
        for (size_t room = 0; room <= MOST; room += room < 200 ? 1 + 2 * (length > 200) : 104) {
            bits_walk one = BITS_WALK, other = BITS_WALK;
            size_t first = 0, last = 0, same = 0;
            bits_ones(&one, &set);
            bits_ones(&other, &set);
            for (size_t turn = 0, had = 1; had > 0; turn++) {
                had = bits_ones_batch(&one, wide, room);
                assert(bits_ones_batch_u32(&other, narrow, room) == had);
                for (size_t k = 0; k < had; k++)
                    assert(narrow[k] == wide[k]);
                assert(had <= room && !memcmp(narrow + had, untaken + had, (room - had) * sizeof *narrow));
                memset(narrow, 255, had * sizeof *narrow);
                if (turn % 3 == 1)
                    assert(bits_ones_next(&one, &first) == bits_ones_next(&other, &same) && first == same);
                same = last;
                if (turn % 3 == 2)
                    assert(bits_ones_next_back(&one, &last) == bits_ones_next_back(&other, &same) && last == same);
                same = first;
            }
            assert(!memcmp(narrow + room, untaken + room, sizeof narrow - room * sizeof *narrow));
            assert(room == 0 || !bits_ones_next(&other, &same));
        }
        free(set.words);
    }
}

/* A call leaves its struct over the same words, also where it has none, and a table its rows. */
static void places(void) {
    uint64_t words[8] = {0};
    bits set = BITS_OF(words, 0), to = BITS_OF(words, 0);
    bits_clear(&set);
    bits_shift_down(&set, 1);
    assert(bits_copy(&to, &set));
    assert(set.words == words && to.words == words && set.count + set.length + to.count + to.length == 0);
    assert(!bits_settle(words, 8, 70, 70) && bits_settle(words, 4, 70, 70));
    bits_rows no_row = BITS_ROWS_OF(words, 0, 3), no_column = BITS_ROWS_OF(words, 5, 0);
    bits_rows_close(&no_row);
    bits_rows_close(&no_column);
    assert(no_row.words == words && no_row.rows == 0 && no_row.columns == 3);
    assert(no_column.words == words && no_column.rows == 5 && no_column.columns == 0);
}

int main(void) {
    words();
    places();
    positions();
    ranges();
    pairs();
    copies();
    parts();
    bytes();
    tables();
    ranks();
    walks();
    handfuls();
    handfuls_of_32_bits();
    return 0;
}
