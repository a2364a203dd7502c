/* Calls that are made wrongly, one at a time in a process of its own. Each has to end by abort(), with a line that says what
 * was wrong, from a level on: with BITS_CHECK, with BITS_CHECK=2 where the call is refused without it, and where
 * AddressSanitizer is on too; and the few that no level tells have to end as any call. It ends with the status 0 where all do,
 * and prints those that do not. No answer is read: compiled with -DWARNED, each call that may do nothing is warned of. */
#define _POSIX_C_SOURCE 200809L
#include <stdbool.h>
#include <stdlib.h>
#include <string.h>

/* Memory is refused where this is set, and where it is more than any test needs. All new words are these where they are set. */
static bool refuses;
static void *given;
#define MOST 100000
#define BITS_CALLOC(count, size) (refuses || (count) > MOST ? NULL : given ? given : calloc((count), (size)))
#define BITS_REALLOC(pointer, size) (refuses || (size) > MOST ? NULL : realloc((pointer), (size)))
#define BITS_FREE(pointer) ((void)(given || (free(pointer), false)))
#ifndef WARNED
#define BITS_NODISCARD
#endif
#include "bits_own.h"
#include <signal.h>
#include <stdio.h>
#include <sys/wait.h>
#include <unistd.h>

static uint64_t words[12], others[12];
static size_t list[4];
static bool answers[4];
static bool changed;
static uint8_t bytes[8];
static size_t fault;

/* A function of one line. */
#define CALL(name, ...) \
    static void name(void) { __VA_ARGS__; }

/* A pointer into the middle of a word. */
static uint64_t *crooked(void) {
    return (uint64_t *)(uintptr_t)((uintptr_t)words + 4);
}

/* The set of the length, with its words. */
static bits good(size_t length) {
    return BITS_OF(others, length);
}

/* The natural mistake: as many words as positions need, where a set has whole lanes. */
static void count_of_words(void) {
    const size_t n = 100;
    bits set = {words, (n + 63) / 64, n};
    bits_insert(&set, 7);
}

static void count_of_more(void) {
    bits set = {words, 8, 100};
    bits_count_ones(&set, 0, 100);
}

static void alignment(void) {
    bits set = {crooked(), 4, 100};
    bits_clear(&set);
}

static void null_words(void) {
    bits set = {NULL, 4, 100};
    bits_minimum(&set);
}

static void null_set(void) {
    bits_is_full((const bits *)words[11]);
}

static void set_alignment(void) {
    bits_is_clear((const bits *)crooked());
}

static void tail(void) {
    bits set = BITS_OF(words, 70);
    words[1] = 64;
    bits_toggle(&set, 7);
}

static void tail_of_a_whole_word(void) {
    bits set = BITS_OF(words, 64);
    words[3] = 1;
    bits_next_one(&set, 0);
}

static void other_set(void) {
    bits set = good(100), other = {words, 2, 100};
    bits_union_with(&set, &other);
}

static void second_of_two(void) {
    bits set = good(70);
    bits_view other = {words, 2, 70};
    bits_union_count(&set, bits_of_view(&other));
}

static void overlap(void) {
    bits set = BITS_OF(words, 300), other = BITS_OF(words + 4, 256);
    bits_difference_with(&set, &other);
}

static void overlap_of_a_copy(void) {
    bits to = BITS_OF(words, 70), set = BITS_OF(words, 70);
    bits_copy(&to, &set);
}

static void overlap_of_bytes(void) {
    bits set = BITS_OF(words, 70);
    bits_to_bytes(&set, (uint8_t *)words + 8, 16);
}

static void null_room(void) {
    bits to = {NULL, 4, 70}, set = good(70);
    bits_union_of(&to, &set, &set);
}

static void null_list(void) {
    bits set = good(70);
    bits_insert_all(&set, NULL, 3);
}

static void list_alignment(void) {
    bits set = good(70);
    bits_contains_each(&set, (const size_t *)crooked(), 1, answers, 1);
}

static void null_answers(void) {
    bits set = good(70);
    bits_contains_each(&set, list, 1, NULL, 1);
}

static void null_changed(void) {
    bits set = good(70), other = BITS_OF(words, 70);
    bits_union_with_change(&set, &other, NULL);
}

static void null_bytes(void) {
    bits set = good(70);
    bits_from_bytes(&set, NULL, 9);
}

static void words_to_settle(void) {
    bits_settle(NULL, 4, 70, 0);
}

static void null_position(void) {
    bits set = good(70);
    bits_walk walk = BITS_WALK;
    bits_ones(&walk, &set);
    bits_ones_next(&walk, NULL);
}

static void null_walk(void) {
    bits set = good(70);
    bits_runs(NULL, &set);
}

static void walk_of_null(void) {
    bits_pair pair = BITS_PAIR;
    pair.second.other = NULL;
    pair.second.other_count = 4;
    bits_union_next(&pair, list);
}

static void handful_of_null(void) {
    bits_sieve sieve = BITS_SIEVE;
    bits_difference_batch(&sieve, NULL, 1);
}

static void handful_of_half_numbers(void) {
    bits_walk walk = BITS_WALK;
    bits_ones_batch_u32(&walk, (uint32_t *)(uintptr_t)((uintptr_t)words + 2), 1);
}

static void loop(void) {
    bits set = {words, 1, 64};
    BITS_FOR_EACH(p, &set) changed = p;
}

CALL(loop_back, bits set = {words, 1, 64}; BITS_FOR_EACH_BACK(p, &set) changed = p)
CALL(loop_of_zeroes, bits set = {words, 1, 64}; BITS_FOR_EACH_ZERO(p, &set) changed = p)
CALL(loop_of_two, bits set = {words, 1, 64}, other = good(9); BITS_FOR_EACH_UNION(p, &other, &set) changed = p)
CALL(row_of_few_words, bits_rows table = {words, 6, 3, 70}; changed = bits_rows_row(&table, 0).length)
CALL(row_with_a_tail, bits_rows table = BITS_ROWS_OF(words, 3, 70); words[5] = 64; changed = bits_rows_row(&table, 1).length)
CALL(row_past, bits_rows table = BITS_ROWS_OF(words, 3, 70); changed = bits_rows_row(&table, 3).length)

static void loop_of_runs(void) {
    bits set = {words, 1, 64};
    BITS_FOR_EACH_RUN(start, end, &set) changed = start < end;
}

static void entries(void) {
    bits_ranks ranks = BITS_RANKS;
    ranks.entries = 1;
    bits_rank(&ranks, 9);
}

static void null_directory(void) {
    bits set = good(70);
    bits_ranks ranks = BITS_RANKS;
    bits_ranks_fill(&ranks, &set, NULL, 1);
}

static void table_words(void) {
    bits_rows table = {words, 6, 3, 70};
    bits_rows_get(&table, 0, 0);
}

static void table_of_too_many(void) {
    bits_rows table = {words, 12, SIZE_MAX, 70};
    bits_rows_set(&table, 0, 0, true);
}

static void row(void) {
    bits_rows table = BITS_ROWS_OF(words, 3, 70);
    words[5] = 64;
    bits_rows_union(&table, 0, 1, &changed);
}

static void row_of_all(void) {
    bits_rows table = BITS_ROWS_OF(words, 3, 70);
    words[11] = 1;
    bits_rows_close(&table);
}

static void position(void) {
    bits set = good(70);
    bits_insert(&set, 70);
}

static void position_of_a_list(void) {
    bits set = good(70);
    list[2] = 71;
    bits_insert_all(&set, list, 3);
}

static void position_of_a_removed_list(void) {
    bits set = good(70);
    list[2] = 71;
    bits_remove_all(&set, list, 3);
}

static void null_number(void) {
    bits set = good(70);
    bits_load(&set, 3, 7, NULL);
}

static void width(void) {
    bits set = good(70);
    bits_store(&set, 0, 65, 1);
}

static void number_past_the_length(void) {
    bits set = good(70);
    uint64_t number;
    bits_load(&set, 64, 7, &number);
}

static void range(void) {
    bits set = good(70);
    bits_insert_range(&set, 3, 71);
}

static void range_the_other_way(void) {
    bits set = good(70);
    bits_count_ones(&set, 4, 3);
}

static void range_of_a_gap(void) {
    bits set = good(70);
    bits_first_aligned_gap(&set, 1, 8, 3, 71);
}

static void block(void) {
    bits set = good(70);
    bits_set_block(&set, 2, 1);
}

static void column(void) {
    bits_rows table = BITS_ROWS_OF(words, 3, 70);
    bits_rows_set(&table, 2, 70, true);
}


/* ---- as they were made by someone who read no more than the names */

CALL(union_with_itself, bits set = good(200); bits_union_with(&set, &set))
CALL(overlap_of_kills, bits set = good(70), gens = BITS_OF(words, 70); bits_union_with_difference(&set, &gens, &set, &changed))
CALL(overlap_of_gens, bits set = good(70), kills = BITS_OF(words, 70); bits_union_with_difference(&set, &set, &kills, &changed))
CALL(slice_of_itself, bits set = good(200); bits_slice(&set, &set, 0, 200))
CALL(garbage, bits_walk walk; memset(&walk, 0xee, sizeof walk); bits_ones_next(&walk, list))
CALL(few_words, const size_t n = 100; bits_over(words, (n + 63) / 64, n))
CALL(few_words_in_a_struct, bits set = BITS_OVER(words, 2, 100); changed = set.length)
CALL(length_from_outside, bits_own own = BITS_OWN; bits_own_insert(&own, 5); own.set.length = 500; bits_insert(&own.set, 400))
CALL(own_of_no_room, bits_own own = BITS_OWN; own.set = good(70); bits_own_insert(&own, 1))
CALL(own_union_with_itself, bits_own own = BITS_OWN; bits_own_insert(&own, 5); bits_own_union(&own, &own.set))
CALL(own_copy_of_itself, bits_own own = BITS_OWN; bits_own_insert(&own, 5); bits_own_copy(&own, &own.set))

/* A set of length 9 with room for 600, and words of that room behind the set's own. */
static bits_own roomy(void) {
    bits_own own = BITS_OWN;
    if (!bits_own_reserve(&own, 600) || !bits_own_resize(&own, 9))
        abort();
    memset(own.set.words, 0, 8 * own.room);
    return own;
}

CALL(own_union_of_its_room, bits_own own = roomy(); bits set = BITS_OF(own.set.words + 4, 100); bits_own_union(&own, &set))
CALL(own_copy_of_its_room, bits_own own = roomy(); bits set = BITS_OF(own.set.words + 8, 200); bits_own_copy(&own, &set))
CALL(text_in_its_room, bits_own own = roomy(); bits_own_from_text(&own, (char *)(own.set.words + 11), 8, 9, &fault))
CALL(own_of_null, bits_own_resize(NULL, 9))
CALL(own_of_more_words, bits_own own = BITS_OWN; bits_own_insert(&own, 5); own.set.length = 300; bits_own_grow(&own, 400))
CALL(own_with_a_tail, bits_own own = BITS_OWN; bits_own_insert(&own, 5); own.set.words[3] = 1; bits_own_reserve(&own, 400))
CALL(freed_of_more_words, bits_own own = BITS_OWN; bits_own_insert(&own, 5); own.set.count = 2; bits_own_free(&own))
CALL(freed_of_few_words, bits set = bits_new(100); set.count = 2; bits_free(&set))
CALL(freed_null, bits_free(NULL))
CALL(freed_table_of_few_words, bits_rows table = bits_rows_new(3, 70); table.count = 4; bits_rows_free(&table))
CALL(text_of_null, bits set = good(70); bits_to_text(&set, NULL, 5))
CALL(text_over_the_set, bits set = good(70); bits_to_text(&set, (char *)others, 9))
CALL(read_text_of_null, bits set = good(70); bits_from_text(&set, NULL, 5, &fault))
CALL(null_fault, bits_own own = BITS_OWN; bits_own_from_text(&own, "1", 1, 9, NULL))

/* ---- refused */

CALL(settle_of_few_words, bits_settle(words, 2, 100, 0))
CALL(load_of_65, bits set = good(70); uint64_t number; bits_load(&set, 0, 65, &number))
CALL(settle_keeps_more, bits_settle(words, 4, 100, 101))
CALL(removed, bits set = good(70); bits_remove(&set, (size_t)-1))
CALL(toggled, bits set = good(70); bits_toggle(&set, 70))
CALL(put, bits set = good(70); bits_put(&set, 70))
CALL(taken, bits set = good(70); bits_take(&set, 70))
CALL(set_past, bits set = good(70); bits_set(&set, 70, true))
CALL(of_a_new_set, bits set = bits_new(SIZE_MAX / 2); bits_insert(&set, 5))
CALL(few_answers, bits set = good(70); bits_contains_each(&set, list, 2, answers, 1))
CALL(removed_range, bits set = good(70); bits_remove_range(&set, 9, 5))
CALL(toggled_range, bits set = good(70); bits_toggle_range(&set, 0, 71))
CALL(longer, bits set = good(70), other = BITS_OF(words, 71); bits_union_with(&set, &other))
CALL(longer_of_one, bits set = good(70), other = BITS_OF(words, 71); bits_symmetric_difference_with(&set, &other))
CALL(longer_change, bits set = good(70), other = BITS_OF(words, 71); bits_union_with_change(&set, &other, &changed))
CALL(longer_xor, bits set = good(70), other = BITS_OF(words, 71); bits_symmetric_difference_with_change(&set, &other, &changed))
CALL(longer_gens, bits set = good(70), other = BITS_OF(words, 71); bits_union_with_difference(&set, &other, &other, &changed))
CALL(copied_to_few, bits to = {words, 2, 70}, set = good(70); bits_copy(&to, &set))
CALL(union_of_another, bits to = BITS_OF(words, 70), set = good(70), other = BITS_OF(words + 4, 71);
     bits_union_of(&to, &set, &other))
CALL(one_of_another, bits to = BITS_OF(words, 70), set = good(70), other = BITS_OF(words + 4, 71);
     bits_symmetric_difference_of(&to, &other, &set))
CALL(both_of_another, bits to = BITS_OF(words, 71), set = good(70), other = BITS_OF(words + 4, 71);
     bits_intersection_of(&to, &set, &other))
CALL(first_of_another, bits to = BITS_OF(words, 71), set = good(70), other = BITS_OF(words + 4, 71);
     bits_difference_of(&to, &set, &other))
CALL(written_to_few, bits to = {words, 2, 70}, set = good(70); bits_union_of(&to, &set, &set))
CALL(slice_of_more, bits part = BITS_OF(words, 9), set = good(70); bits_slice(&part, &set, 0, 10))
CALL(copied_past, bits set = BITS_OF(words, 9), other = good(70); bits_copy_range(&set, &other, 0, 8, 2))
CALL(few_bytes, bits set = good(70); bits_to_bytes(&set, bytes, 8))
CALL(few_entries, bits set = good(70); bits_ranks ranks = BITS_RANKS; bits_ranks_fill(&ranks, &set, list, 0))
CALL(few_table_words, bits_rows_clear(words, 8, 3, 70))
CALL(no_row, bits_rows table = BITS_ROWS_OF(words, 3, 70); bits_rows_union(&table, 0, 3, &changed))
CALL(walk_of_no_row, bits_rows table = BITS_ROWS_OF(words, 3, 70); bits_walk walk = BITS_WALK; bits_rows_ones(&walk, &table, 3))
CALL(walk_past, bits set = good(70); bits_walk walk = BITS_WALK; bits_ones_in(&walk, &set, 0, 71))
CALL(walk_backwards, bits set = good(70); bits_walk walk = BITS_WALK; bits_zeroes_in(&walk, &set, 4, 3))
CALL(no_memory, bits_own own = BITS_OWN; bits_own_reserve(&own, SIZE_MAX / 8))
CALL(no_memory_to_resize, bits_own own = BITS_OWN; bits_own_resize(&own, SIZE_MAX / 8))
CALL(no_memory_to_grow, bits_own own = BITS_OWN; bits_own_grow(&own, SIZE_MAX / 8))
CALL(no_memory_for_a_position, bits_own own = BITS_OWN; bits_own_insert(&own, SIZE_MAX))

static void no_memory_for_a_copy(void) {
    bits_own own = BITS_OWN;
    bits set = good(300);
    refuses = true;
    bits_own_copy(&own, &set);
}

static void no_memory_for_a_union(void) {
    bits_own own = BITS_OWN;
    bits set = good(300);
    refuses = true;
    bits_own_union(&own, &set);
}

CALL(text_with_a_fault, bits set = good(70); bits_from_text(&set, "70", 2, &fault))
CALL(text_past_the_limit, bits_own own = BITS_OWN; bits_own_from_text(&own, "9", 1, 9, &fault))

/* ---- what AddressSanitizer knows */

/* Words that a caller counted by positions, in memory that ends there. */
static bits short_by_two(void) {
    const size_t n = 100;
    return BITS_OF((uint64_t *)calloc((n + 63) / 64, sizeof(uint64_t)), n);
}

CALL(few_on_the_heap, bits set = short_by_two(); bits_insert(&set, 5))
CALL(few_to_be_read, bits set = short_by_two(); bits_count_ones(&set, 0, 100))
CALL(few_on_the_stack, uint64_t two[2] = {0, 0}; bits set = BITS_OF(two, 100); bits_insert_range(&set, 0, 100))
CALL(few_to_write, bits to = short_by_two(), set = good(100); bits_copy(&to, &set))
CALL(few_items, bits set = good(70); size_t *one = (size_t *)calloc(1, 8); bits_insert_all(&set, one, 2))
CALL(more_than_memory_has, bits_walk walk = BITS_WALK; walk.words = words; walk.count = SIZE_MAX; bits_ones_next(&walk, list))

static void walk_over_freed_words(void) {
    bits set = bits_new(5000);
    bits_insert(&set, 4999);
    bits_walk walk = BITS_WALK;
    bits_ones(&walk, &set);
    bits_free(&set);
    bits_ones_next(&walk, list);
}

CALL(copy_of_a_freed_set, bits set = bits_new(5000), copy = set; bits_free(&set); bits_count_ones(&copy, 0, 9))
CALL(own_freed_twice, bits_own own = BITS_OWN; bits_own_insert(&own, 5); bits_own copy = own; bits_own_free(&own);
     bits_own_free(&copy))

static void own_of_freed_room(void) {
    bits_own own = BITS_OWN;
    bits_own_insert(&own, 5);
    bits_own_resize(&own, 0);
    bits_own copy = own;
    bits_own_free(&own);
    bits_own_insert(&copy, 5);
}

CALL(freed_twice, bits set = bits_new(100), copy = set; bits_free(&set); bits_free(&copy))
CALL(table_freed_twice, bits_rows table = bits_rows_new(3, 70), copy = table; bits_rows_free(&table); bits_rows_free(&copy))
CALL(freed_array, bits set = good(200); bits_free(&set))

/* ---- what is freed, and was not allocated: with BITS_CHECK_FREE */

CALL(freed_array_of_the_stack, uint64_t four[4] = {0}; bits set = BITS_OF(four, 200); bits_free(&set))
CALL(freed_view, bits set = bits_new(600); bits part = BITS_OF(set.words + 4, 100); bits_free(&part))
CALL(freed_row, bits_rows table = bits_rows_new(3, 70); bits first = bits_rows_row(&table, 0); bits_free(&first))
CALL(freed_own, bits_own own = BITS_OWN; bits_own_insert(&own, 5); bits_free(&own.set))
CALL(freed_table_of_an_array, bits_rows table = BITS_ROWS_OF(words, 3, 70); bits_rows_free(&table))
CALL(freed_set_as_a_table, bits set = bits_new(70); bits_rows table = BITS_ROWS_OF(set.words, 1, 70); bits_rows_free(&table))

/* A copy that is freed when a new set has its words: that set is then freed twice. */
CALL(freed_copy, given = words; bits set = bits_new(9), copy = set; bits_free(&set); bits next = bits_new(9); bits_free(&copy);
     changed = next.length)
CALL(freed_under_a_copy, given = words; bits set = bits_new(9), copy = set; bits_free(&set); bits next = bits_new(9);
     bits_free(&copy); bits_free(&next))

static void freed_once(void) {
    bits set = bits_new(100), none = bits_new(0), cut = bits_new(600), refused = bits_new(SIZE_MAX);
    bits_rows table = bits_rows_new(3, 70);
    cut = BITS_OF(cut.words, 9);
    for (int k = 0; k < 2; k++) {
        bits_free(&set);
        bits_free(&none);
        bits_free(&cut);
        bits_free(&refused);
        bits_rows_free(&table);
    }
}

/* ---- what no level tells: calls that do no harm, or answer of what the caller gave them */

CALL(load_of_a_word, bits set = good(70); uint64_t number; bits_load(&set, 6, 64, &number))
CALL(store_of_a_word, bits set = good(70); bits_store(&set, 0, 64, 1))
CALL(gap_of_none_past, bits set = good(70); if (bits_first_gap(&set, 0, 500) != BITS_NONE) abort())
CALL(of_no_set, bits_walk walk; memset(&walk, 0, sizeof walk); bits_ones_next(&walk, list))
CALL(zeroes_as_ones, bits set = good(70); bits_walk walk = BITS_WALK; bits_zeroes(&walk, &set); bits_ones_next(&walk, list))

static void ranks_of_a_changed_set(void) {
    bits set = good(200);
    bits_ranks ranks = BITS_RANKS;
    bits_ranks_fill(&ranks, &set, list, 1);
    bits_insert(&set, 3);
    changed = bits_rank(&ranks, 200) == 1;
}

static void set_that_grows_in_a_loop(void) {
    bits set = good(200);
    bits_insert(&set, 1);
    BITS_FOR_EACH(p, &set) bits_set(&set, p + 1 < 200 ? p + 1 : 0, true);
}

/* From where on a call is told: the levels of BITS_CHECK, where AddressSanitizer is on too, by that itself, where BITS_CHECK_FREE
 * is on too, and never. */
enum { BY_ASAN = 3, OF_ASAN, BY_FREE, NEVER };

/* Each call, what its line has to say, and from where on. */
static const struct {
    void (*call)(void);
    const char *wanted;
    int at;
} CALLS[] = {
    {count_of_words, "bits_insert: `set` has 2 words, and BITS_WORDS(100) is 4", 1},
    {count_of_more, "bits_count_ones: `set` has 8 words, and BITS_WORDS(100) is 4", 1},
    {alignment, "bits_clear: `set` has words that are not aligned to 8 bytes", 1},
    {null_words, "bits_minimum: `set` has NULL for words, and says that it has 4", 1},
    {null_set, "bits_is_full: `set` is NULL", 1},
    {set_alignment, "bits_is_clear: `set` is not aligned to 8 bytes", 1},
    {tail, "bits_toggle: `set` has a bit past its length of 70", 1},
    {tail_of_a_whole_word, "bits_next_one: `set` has a bit past its length of 64", 1},
    {other_set, "bits_union_with: `other` has 2 words, and BITS_WORDS(100) is 4", 1},
    {second_of_two, "bits_union_count: `other` has 2 words, and BITS_WORDS(70) is 4", 1},
    {overlap, "bits_difference_with: `other` overlaps what the call writes", 1},
    {overlap_of_a_copy, "bits_copy: `set` overlaps what the call writes", 1},
    {overlap_of_bytes, "bits_to_bytes: `bytes` overlaps what the call writes", 1},
    {null_room, "bits_union_of: `to` has NULL for words, and says that it has 4", 1},
    {null_list, "bits_insert_all: `positions` is NULL, and there are to be 3", 1},
    {list_alignment, "bits_contains_each: `positions` is not aligned to 8 bytes", 1},
    {null_answers, "bits_contains_each: `answers` is NULL, and there are to be 1", 1},
    {null_changed, "bits_union_with_change: `changed` is NULL", 1},
    {null_bytes, "bits_from_bytes: `bytes` is NULL, and there are to be 9", 1},
    {words_to_settle, "bits_settle: `words` is NULL, and there are to be 4", 1},
    {null_position, "bits_ones_next: `position` is NULL", 1},
    {null_number, "bits_load: `number` is NULL", 1},
    {null_walk, "bits_runs: `walk` is NULL", 1},
    {walk_of_null, "bits_union_next: `walk` has NULL for words, and says that it has 4", 1},
    {handful_of_null, "bits_difference_batch: `positions` is NULL, and there are to be 1", 1},
    {handful_of_half_numbers, "bits_ones_batch_u32: `positions` is not aligned to 4 bytes", 1},
    {loop, "bits_each: `set` has 1 words, and BITS_WORDS(64) is 4", 1},
    {loop_back, "bits_each_back: `set` has 1 words, and BITS_WORDS(64) is 4", 1},
    {loop_of_zeroes, "bits_each_zero: `set` has 1 words, and BITS_WORDS(64) is 4", 1},
    {loop_of_two, "bits_each_of_two: `other` has 1 words, and BITS_WORDS(64) is 4", 1},
    {row_of_few_words, "bits_rows_row: `rows` has 6 words, and bits_rows_words(3, 70) is 12", 1},
    {row_with_a_tail, "bits_rows_row: `rows[1]` has a bit past its 70 columns", 1},
    {row_past, "bits_rows_row: `row` is 3, which is not below 3", 2},
    {loop_of_runs, "bits_runs: `set` has 1 words, and BITS_WORDS(64) is 4", 1},
    {entries, "bits_rank: `ranks` has 1 entries, and bits_ranks_entries(0) is 0", 1},
    {null_directory, "bits_ranks_fill: `directory` is NULL, and there are to be 1", 1},
    {table_words, "bits_rows_get: `rows` has 6 words, and bits_rows_words(3, 70) is 12", 1},
    {table_of_too_many, "bits_rows_set: `rows` has 12 words, and bits_rows_words(18446744073709551615, 70) is 1844674407370955161", 1},
    {row, "bits_rows_union: `rows[1]` has a bit past its 70 columns", 1},
    {row_of_all, "bits_rows_close: `rows[2]` has a bit past its 70 columns", 1},
    {union_with_itself, "bits_union_with: `other` overlaps what the call writes", 1},
    {overlap_of_kills, "bits_union_with_difference: `kills` overlaps what the call writes", 1},
    {overlap_of_gens, "bits_union_with_difference: `gens` overlaps what the call writes", 1},
    {slice_of_itself, "bits_slice: `set` overlaps what the call writes", 1},
    {garbage, "bits_ones_next: `walk` has words that are not aligned to 8 bytes", 1},
    {few_words, "bits_over: `words` has 2 words, and BITS_WORDS(100) is 4", 1},
    {few_words_in_a_struct, "bits_over: `words` has 2 words, and BITS_WORDS(100) is 4", 1},
    {length_from_outside, "bits_insert: `set` has 4 words, and BITS_WORDS(500) is 8", 1},
    {own_of_no_room, "bits_own_insert: `own` has 4 words, and room for 0", 1},
    {own_union_with_itself, "bits_own_union: `set` overlaps what the call writes", 1},
    {own_copy_of_itself, "bits_own_copy: `set` overlaps what the call writes", 1},
    {own_union_of_its_room, "bits_own_union: `set` overlaps what the call writes", 1},
    {own_copy_of_its_room, "bits_own_copy: `set` overlaps what the call writes", 1},
    {text_in_its_room, "bits_own_from_text: `text` overlaps what the call writes", 1},
    {own_of_null, "bits_own_resize: `own` is NULL", 1},
    {own_of_more_words, "bits_own_grow: `own` has 4 words, and BITS_WORDS(300) is 8", 1},
    {own_with_a_tail, "bits_own_reserve: `own` has a bit past its length of 6", 1},
    {freed_of_more_words, "bits_own_free: `own` has 2 words, and BITS_WORDS(6) is 4", 1},
    {text_of_null, "bits_to_text: `text` is NULL, and there are to be 5", 1},
    {text_over_the_set, "bits_to_text: `text` overlaps what the call writes", 1},
    {read_text_of_null, "bits_from_text: `text` is NULL, and there are to be 5", 1},
    {null_fault, "bits_own_from_text: `fault` is NULL", 1},
    {position, "bits_insert: `bit` is 70, which is not below 70", 2},
    {position_of_a_list, "bits_insert_all: `positions` is 71, which is not below 70", 2},
    {position_of_a_removed_list, "bits_remove_all: `positions` is 71, which is not below 70", 2},
    {width, "bits_store: `width` is 65, which is not below 65", 2},
    {number_past_the_length, "bits_load: from 64 to 71 is not a range of a set of length 70", 2},
    {range, "bits_insert_range: from 3 to 71 is not a range of a set of length 70", 2},
    {range_the_other_way, "bits_count_ones: from 4 to 3 is not a range of a set of length 70", 2},
    {range_of_a_gap, "bits_first_aligned_gap: from 3 to 71 is not a range of a set of length 70", 2},
    {block, "bits_set_block: `index` is 2, which is not below 2", 2},
    {column, "bits_rows_set: `column` is 70, which is not below 70", 2},
    {settle_of_few_words, "bits_settle: `count` is 2, and has to be 4", 2},
    {load_of_65, "bits_load: `width` is 65, which is not below 65", 2},
    {settle_keeps_more, "bits_settle: `kept` is 101, which is more than 100", 2},
    {removed, "bits_remove: `bit` is 18446744073709551615, which is not below 70", 2},
    {toggled, "bits_toggle: `bit` is 70, which is not below 70", 2},
    {put, "bits_put: `bit` is 70, which is not below 70", 2},
    {taken, "bits_take: `bit` is 70, which is not below 70", 2},
    {set_past, "bits_set: `bit` is 70, which is not below 70", 2},
    {of_a_new_set, "bits_insert: `bit` is 5, which is not below 0", 2},
    {few_answers, "bits_contains_each: `places` is 1, and has to be 2", 2},
    {removed_range, "bits_remove_range: from 9 to 5 is not a range of a set of length 70", 2},
    {toggled_range, "bits_toggle_range: from 0 to 71 is not a range of a set of length 70", 2},
    {longer, "bits_union_with: `other->length` is 71, which is more than 70", 2},
    {longer_of_one, "bits_symmetric_difference_with: `other->length` is 71, which is more than 70", 2},
    {longer_change, "bits_union_with_change: `other->length` is 71, which is more than 70", 2},
    {longer_xor, "bits_symmetric_difference_with_change: `other->length` is 71, which is more than 70", 2},
    {longer_gens, "bits_union_with_difference: `gens->length` is 71, which is more than 70", 2},
    {copied_to_few, "bits_copy: `to->count` is 2, and has to be 4", 2},
    {union_of_another, "bits_union_of: `to->length` is 70, and has to be 71", 2},
    {one_of_another, "bits_symmetric_difference_of: `to->length` is 70, and has to be 71", 2},
    {both_of_another, "bits_intersection_of: `to->length` is 71, and has to be 70", 2},
    {first_of_another, "bits_difference_of: `to->length` is 71, and has to be 70", 2},
    {written_to_few, "bits_union_of: `to->count` is 2, and has to be 4", 2},
    {slice_of_more, "bits_slice: `part->length` is 9, and has to be 10", 2},
    {copied_past, "bits_copy_range: from 2 to 10 is not a range of a set of length 9", 2},
    {few_bytes, "bits_to_bytes: `count` is 8, and has to be 16", 2},
    {few_entries, "bits_ranks_fill: `entries` is 0, and has to be 1", 2},
    {few_table_words, "bits_rows_clear: `count` is 8, and has to be 12", 2},
    {no_row, "bits_rows_union: `into` is 3, which is not below 3", 2},
    {walk_of_no_row, "bits_rows_ones: `row` is 3, which is not below 3", 2},
    {walk_past, "bits_ones_in: from 0 to 71 is not a range of a set of length 70", 2},
    {walk_backwards, "bits_zeroes_in: from 4 to 3 is not a range of a set of length 70", 2},
    {no_memory, "bits_own_reserve: it is refused, and nothing is changed", 2},
    {no_memory_to_resize, "bits_own_resize: it is refused, and nothing is changed", 2},
    {no_memory_to_grow, "bits_own_grow: it is refused, and nothing is changed", 2},
    {no_memory_for_a_position, "bits_own_insert: it is refused, and nothing is changed", 2},
    {no_memory_for_a_copy, "bits_own_copy: it is refused, and nothing is changed", 2},
    {no_memory_for_a_union, "bits_own_union: it is refused, and nothing is changed", 2},
    {text_with_a_fault, "bits_from_text: it is refused, and nothing is changed", 2},
    {text_past_the_limit, "bits_own_from_text: it is refused, and nothing is changed", 2},
    {few_on_the_heap, "bits_insert: `set` has 4 values of 8 bytes in memory that is not the program's, or is freed", BY_ASAN},
    {few_to_be_read, "bits_count_ones: `set` has 4 values of 8 bytes in memory", BY_ASAN},
    {few_on_the_stack, "bits_insert_range: `set` has 4 values of 8 bytes in memory", BY_ASAN},
    {few_to_write, "bits_copy: `to` has 4 values of 8 bytes in memory", BY_ASAN},
    {few_items, "bits_insert_all: `positions` has 2 values of 8 bytes in memory", BY_ASAN},
    {more_than_memory_has, "bits_ones_next: `walk` has 18446744073709551615 values of 8 bytes in memory", BY_ASAN},
    {walk_over_freed_words, "bits_ones_next: `walk` has 77 values of 8 bytes in memory", BY_ASAN},
    {copy_of_a_freed_set, "bits_count_ones: `set` has 80 values of 8 bytes in memory", BY_ASAN},
    {own_freed_twice, "bits_own_free: `own` has 4 values of 8 bytes in memory", BY_ASAN},
    {own_of_freed_room, "bits_own_insert: `own` has 4 values of 8 bytes in memory", BY_ASAN},
    {freed_of_few_words, "bits_free: `set` has 2 words, and BITS_WORDS(100) is 4", 1},
    {freed_null, "bits_free: `set` is NULL", 1},
    {freed_table_of_few_words, "bits_rows_free: `rows` has 4 words, and bits_rows_words(3, 70) is 12", 1},
    {freed_twice, "bits_free: `set` has 4 values of 8 bytes in memory that is not the program's, or is freed", BY_ASAN},
    {table_freed_twice, "bits_rows_free: `rows` has 12 values of 8 bytes in memory", BY_ASAN},
    {freed_array, "attempting free on address which was not malloc()-ed", OF_ASAN},
    {freed_twice, "bits_free: `set` has words that bits_new did not allocate, or that are freed", BY_FREE},
    {table_freed_twice, "bits_rows_free: `rows` has words that bits_rows_new did not allocate, or that are freed", BY_FREE},
    {freed_array, "bits_free: `set` has words that bits_new did not allocate", BY_FREE},
    {freed_array_of_the_stack, "bits_free: `set` has words that bits_new did not allocate", BY_FREE},
    {freed_view, "bits_free: `set` has words that bits_new did not allocate", BY_FREE},
    {freed_row, "bits_free: `set` has words that bits_new did not allocate", BY_FREE},
    {freed_own, "bits_free: `set` has words that bits_new did not allocate", BY_FREE},
    {freed_table_of_an_array, "bits_rows_free: `rows` has words that bits_rows_new did not allocate", BY_FREE},
    {freed_set_as_a_table, "bits_rows_free: `rows` has words that bits_rows_new did not allocate", BY_FREE},
    {freed_under_a_copy, "bits_free: `set` has words that bits_new did not allocate, or that are freed", BY_FREE},
    {freed_copy, "nothing: its words are those of a new set", NEVER},
    {freed_once, "nothing: each set is freed once, and what is left of it may be", NEVER},
    {load_of_a_word, "nothing: a number may have 64 bits", NEVER},
    {store_of_a_word, "nothing: a number may have 64 bits", NEVER},
    {gap_of_none_past, "nothing: any number may be given", NEVER},
    {of_no_set, "nothing: zeros are an iterator over no words", NEVER},
    {zeroes_as_ones, "nothing: an iterator does not know of what it is", NEVER},
    {ranks_of_a_changed_set, "nothing: the directory is as it was", NEVER},
    {set_that_grows_in_a_loop, "nothing: the loop goes on", NEVER},
};

#ifdef BITS_CHECK
enum { LEVEL = BITS_CHECK + 0 };
#else
enum { LEVEL = 0 };
#endif
#ifdef BITS_ASK_MEMORY
enum { HAS_ASAN = 1 };
#else
enum { HAS_ASAN = 0 };
#endif
#ifdef BITS_CHECK_FREE
enum { HAS_FREE = 1 };
#else
enum { HAS_FREE = 0 };
#endif

/* Whether the call ends the program. */
static bool stops_at(int at) {
    return at <= LEVEL || (HAS_ASAN && (at == BY_ASAN || at == OF_ASAN)) || (HAS_FREE && at == BY_FREE);
}

/* Makes the call in a process of its own. Answers how that ended, and what it printed. */
static int ended(void (*call)(void), char *said, size_t room) {
    int ends[2], status = 0;
    if (pipe(ends))
        return -1;
    const pid_t child = fork();
    if (child == 0) {
        dup2(ends[1], 2);
        call();
        _exit(0);
    }
    close(ends[1]);
    size_t at = 0;
    for (ssize_t got; at < room - 1 && (got = read(ends[0], said + at, room - 1 - at)) > 0;)
        at += (size_t)got;
    said[at] = '\0';
    close(ends[0]);
    return child < 0 || waitpid(child, &status, 0) != child ? -1 : status;
}

/* Whether the call ended as it has to where it is told: with the line of this file, and by abort(). */
static bool is_told(size_t k, int status, const char *said) {
    if (!strstr(said, CALLS[k].wanted))
        return false;
    return CALLS[k].at == OF_ASAN || (strstr(said, "asked.c:") && WIFSIGNALED(status) && WTERMSIG(status) == SIGABRT);
}

int main(void) {
    int wrong = 0;
    static char said[20000];
    for (size_t k = 0; k < sizeof CALLS / sizeof *CALLS; k++) {
        const bool stops = stops_at(CALLS[k].at);
        /* (Otherwise nobody knows what these do.) */
        if (!stops && CALLS[k].at > 2 && CALLS[k].at != NEVER)
            continue;
        const int status = ended(CALLS[k].call, said, sizeof said);
        const bool passed = WIFEXITED(status) && WEXITSTATUS(status) == 0 && !said[0];
        if (!(stops ? is_told(k, status, said) : passed)) {
            printf("%s: wanted %s, and it ended as %d: %s\n", CALLS[k].wanted, stops ? "this" : "nothing", status, said);
            wrong++;
        }
    }
    printf("%zu calls, %d wrong\n", sizeof CALLS / sizeof *CALLS, wrong);
    return wrong != 0;
}
