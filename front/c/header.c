/* What bits.h has beside the calls: constants, initialisers, loops, structs and new sets, as C and as C++. It ends with the
 * status 0 where all are right. */
#undef NDEBUG
#include "bits.h"
#include <assert.h>
#include <string.h>

#ifdef __cplusplus
#define ALWAYS(holds) static_assert(holds, "")
#else
#define ALWAYS(holds) _Static_assert(holds, "")
#endif

/* BITS_WORDS is a constant, and counts whole lanes of four, where (n + 63) / 64 counts words. */
ALWAYS(BITS_WORDS(0) == 0 && BITS_WORDS(1) == 4 && BITS_WORDS(256) == 4 && BITS_WORDS(257) == 8);
ALWAYS(BITS_WORDS(SIZE_MAX) == ((size_t)1 << 58) && BITS_WORDS((unsigned char)255) == 4);
/* A view is read as a set. */
ALWAYS(offsetof(bits_view, words) == offsetof(bits, words) && offsetof(bits_view, count) == offsetof(bits, count));
ALWAYS(offsetof(bits_view, length) == offsetof(bits, length) && sizeof(bits_view) == sizeof(bits));

static uint64_t hundred[BITS_WORDS(100)];
static bits whole = BITS_INIT(hundred, 100);
static const uint64_t some[BITS_WORDS(70)] = {10, 32};
static const bits_view part = BITS_INIT(some, 70);

static void constants(void) {
    const size_t lengths[] = {0, 1, 63, 64, 65, 255, 256, 257, 511, 512, 513, SIZE_MAX - 256, SIZE_MAX - 255, SIZE_MAX};
    for (size_t k = 0; k < sizeof lengths / sizeof *lengths; k++)
        assert(BITS_WORDS(lengths[k]) == bits_words(lengths[k]));
    assert(sizeof hundred == 4 * sizeof(uint64_t));
    assert(bits_insert(&whole, 99) && !bits_insert(&whole, 100) && hundred[1] == (uint64_t)1 << 35);
    assert(bits_count_ones(bits_of_view(&part), 0, 70) == 3 && bits_maximum(bits_of_view(&part)) == 69);
}

/* A view is changed through one pointer and read as a set through another: neither is taken for memory of its own. */
__attribute__((__noinline__)) static size_t length_of_both(bits_view *view, const bits *set) {
    const size_t before = set->length;
    view->length = before + 1;
    return set->length;
}

static void views(void) {
    bits_view view = BITS_VIEW_OF(some, 70);
    assert(length_of_both(&view, bits_of_view(&view)) == 71);
}

/* The arguments of the macros that make structs: ints, each taken once. */
static void structs(void) {
    uint64_t words[8] = {0};
    int length = 69;
    bits set = BITS_OF(words, ++length);
    assert(length == 70 && set.words == words && set.count == 4 && set.length == 70);
    bits_view view = BITS_VIEW_OF(words, ++length);
    assert(length == 71 && view.words == words && view.count == 4 && view.length == 71);
    set = BITS_OVER(words, 4, ++length);
    assert(length == 72 && set.words == words && set.count == 4 && set.length == 72);
    assert(bits_over(words, 8, 72).count == 4 && !bits_over(NULL, 0, 0).length);
#ifndef BITS_CHECK
    set = BITS_OVER(words, 3, 72);
    assert(!set.words && !set.count && !set.length);
#endif
    int rows = 1;
    bits_rows table = BITS_ROWS_OF(words, ++rows, ++length);
    assert(rows == 2 && length == 73 && table.words == words && table.count == 8 && table.rows == 2 && table.columns == 73);
}

/* Walks before they are begun are over no words and give nothing; so do ranks. */
static void nothing(void) {
    bits_walk walk = BITS_WALK;
    bits_run_walk runs = BITS_RUNS;
    bits_sieve sieve = BITS_SIEVE;
    bits_pair pair = BITS_PAIR;
    bits_ranks ranks = BITS_RANKS;
    size_t start = 7, end = 7;
    assert(!walk.front && !walk.back && !walk.front_at && !walk.back_at && walk.words && !walk.count);
    assert(!runs.are_set && !runs.end && !runs.low && !runs.high && runs.words && !runs.count);
    assert(sieve.other && !sieve.other_count && pair.second.other && !pair.second.other_count);
    assert(ranks.words && !ranks.count && !ranks.length && ranks.directory && !ranks.entries);
    assert(!bits_ones_next(&walk, &start) && !bits_zeroes_next_back(&walk, &start));
    assert(!bits_runs_next(&runs, &start, &end) && !bits_runs_next_back(&runs, &start, &end));
    assert(!bits_intersection_next(&sieve, &start) && !bits_difference_next_back(&sieve, &start));
    assert(!bits_union_next(&pair, &start) && !bits_symmetric_difference_next_back(&pair, &start));
    assert(!bits_rank(&ranks, 9) && bits_select(&ranks, 0) == BITS_NONE && start == 7 && end == 7);
}

static void loops(void) {
    const size_t wanted[] = {1, 3, 64, 65, 69};
    uint64_t words[BITS_WORDS(70)] = {0};
    bits set = BITS_OF(words, 70);
    size_t k = 0, sum = 0;
    assert(bits_insert_all(&set, wanted, 5));
    BITS_FOR_EACH(p, &set) assert(p == wanted[k++]);
    assert(k == 5);
    /* A loop in a loop, left and gone on with. */
    BITS_FOR_EACH(p, &set) {
        if (p == 3)
            continue;
        BITS_FOR_EACH(q, &set) {
            if (q > p)
                break;
            sum += q;
        }
        if (p == 65)
            break;
    }
    assert(sum == 1 + (1 + 3 + 64) + (1 + 3 + 64 + 65));
    const size_t stretches[][2] = {{1, 2}, {3, 4}, {64, 66}, {69, 70}};
    k = 5;
    BITS_FOR_EACH_BACK(p, &set) assert(p == wanted[--k]);
    assert(k == 0);
    k = 2;
    BITS_FOR_EACH_FROM(p, &set, 64) assert(p == wanted[k++]);
    BITS_FOR_EACH_FROM(p, &set, SIZE_MAX) assert(p && false);
    assert(k == 5);
    k = 0;
    BITS_FOR_EACH_RUN(start, end, &set) {
        assert(start == stretches[k][0] && end == stretches[k][1]);
        k++;
    }
    assert(k == 4);
    sum = 0;
    BITS_FOR_EACH_RUN(start, end, &set) BITS_FOR_EACH_RUN(from, to, &set) sum += from == start && to == end;
    assert(sum == 4);
}

/* Loops over two sets of every two lengths up to some, beside a loop over all positions. */
#define IS_EACH(loop, is_given)                                  \
    do {                                                         \
        size_t at = 0;                                           \
        loop {                                                   \
            for (; at < p; at++)                                 \
                assert(!(is_given));                             \
            assert(at == p && (is_given));                       \
            at++;                                                \
        }                                                        \
        for (; at < 600; at++)                                   \
            assert(!(is_given));                                 \
    } while (0)
static void loops_over_two(void) {
    for (size_t length = 0; length < 520; length += length % 64 < 2 ? 1 : 31)
        for (size_t other_length = 0; other_length < 520; other_length += other_length % 64 < 2 ? 1 : 31) {
            bits set = bits_new(length), other = bits_new(other_length);
            for (size_t p = 0; p < 520; p++) {
                assert(bits_set(&set, p, p * p % 7 < 3) == (p < length));
                assert(bits_set(&other, p, p % 3 != 1) == (p < other_length));
            }
            IS_EACH(BITS_FOR_EACH(p, &set), bits_contains(&set, at));
            IS_EACH(BITS_FOR_EACH_ZERO(p, &set), at < length && !bits_contains(&set, at));
            IS_EACH(BITS_FOR_EACH_FROM(p, &set, other_length), at >= other_length && bits_contains(&set, at));
            IS_EACH(BITS_FOR_EACH_INTERSECTION(p, &set, &other), bits_contains(&set, at) && bits_contains(&other, at));
            IS_EACH(BITS_FOR_EACH_DIFFERENCE(p, &set, &other), bits_contains(&set, at) && !bits_contains(&other, at));
            IS_EACH(BITS_FOR_EACH_UNION(p, &set, &other), bits_contains(&set, at) || bits_contains(&other, at));
            IS_EACH(BITS_FOR_EACH_SYMMETRIC_DIFFERENCE(p, &set, &other), bits_contains(&set, at) != bits_contains(&other, at));
            size_t at = 520;
            BITS_FOR_EACH_BACK(p, &set) {
                while (--at > p)
                    assert(!bits_contains(&set, at));
                assert(at == p && bits_contains(&set, at));
            }
            assert(bits_count_ones(&set, 0, at < length ? at : length) == 0);
            bits_free(&set);
            bits_free(&other);
        }
}

static void tables(void) {
    bits_rows table = bits_rows_new(3, 300), none = bits_rows_new(0, 70), wide = bits_rows_new(5, 0);
    bits_rows refused = bits_rows_new(SIZE_MAX / 4, 70), more = bits_rows_new(SIZE_MAX, SIZE_MAX);
    assert(table.words && table.count == 24 && table.rows == 3 && table.columns == 300 && !bits_rows_get(&table, 2, 299));
    assert(none.words && !none.count && !none.rows && wide.words && !wide.count && wide.rows == 5);
    assert(!refused.words && !refused.rows && !refused.count && !more.words && !more.rows && !more.count);
    bits row = bits_rows_row(&table, 1), empty = bits_rows_row(&wide, 4);
    assert(row.words == table.words + 8 && row.count == 8 && row.length == 300 && !empty.count && !empty.length);
    assert(bits_insert(&row, 299) && bits_rows_get(&table, 1, 299) && !bits_rows_get(&table, 0, 299));
    BITS_FOR_EACH(p, &row) assert(p == 299);
#if BITS_CHECK + 0 < 2
    row = bits_rows_row(&table, 3);
    assert(!row.words && !row.count && !row.length);
#endif
    bits_rows_free(&table);
    bits_rows_free(&table);
    bits_rows_free(&none);
    bits_rows_free(&wide);
    bits_rows_free(&refused);
    bits_rows_free(&more);
    assert(!table.words && !table.count && !table.rows);
}

static void new_sets(void) {
    bits set = bits_new(70), none = bits_new(0), refused = bits_new(SIZE_MAX);
    assert(set.words && set.count == 4 && set.length == 70 && bits_is_clear(&set) && (uintptr_t)set.words % 8 == 0);
    assert(none.words && none.count == 0 && none.length == 0 && bits_is_clear(&none) && bits_is_full(&none));
    assert(!refused.words && !refused.count && !refused.length && !bits_insert(&refused, 0));
    bits_free(&set);
    bits_free(&set);
    bits_free(&none);
    bits_free(&refused);
    assert(!set.words && !set.count && !set.length);
}

/* NULL, where the number beside it is 0. */
static void nulls(void) {
    bits set = BITS_OF(NULL, 0), other = BITS_OF(NULL, 0), room = BITS_OF(NULL, 0);
    bits_rows table = BITS_ROWS_OF(NULL, 0, 70);
    bits_ranks ranks = BITS_RANKS;
    bits_walk walk = BITS_WALK;
    bool changed = true;
    size_t p = 7;
    assert(bits_settle(NULL, 0, 0, 0) && bits_is_clean(NULL, 0, 0) && !bits_is_clean(NULL, 0, 1));
    assert(bits_equal(&set, &other) && bits_union_with(&set, &other) && bits_copy(&room, &set));
    assert(bits_union_with_change(&set, &other, &changed) && !changed && bits_union_of(&room, &set, &other));
    assert(bits_insert_all(&set, NULL, 0) && bits_contains_each(&set, NULL, 0, NULL, 0) && bits_to_bytes(&set, NULL, 0));
    bits_from_bytes(&set, NULL, 0);
    bits_reverse_each_byte(NULL, 0);
    bits_shift_up(&set, 1);
    BITS_FOR_EACH(q, &set) assert(q && false);
    assert(bits_rows_clear(NULL, 0, 0, 70) && !bits_rows_get(&table, 0, 0) && !bits_rows_ones(&walk, &table, 0));
    bits_rows_close(&table);
    assert(bits_ranks_fill(&ranks, &set, NULL, 0) && bits_rank(&ranks, 1) == 0);
    bits_ones(&walk, &set);
    assert(!bits_ones_batch(&walk, NULL, 0) && !bits_ones_batch_u32(&walk, NULL, 0) && !bits_ones_next(&walk, &p) && p == 7);
}

int main(void) {
    constants();
    views();
    structs();
    nothing();
    loops();
    loops_over_two();
    tables();
    new_sets();
    nulls();
    return 0;
}
