/* Bit sets (bitmaps) with a length, formally verified: the calls of libbits_c.a, for Linux on x86-64 and aarch64. The library
 * can be built from source for other targets too; where size_t has 32 bits, nothing is proved about the library.
 *
 *     bits set = bits_new(100);
 *     if (!set.words || !bits_insert(&set, 7))
 *         return ENOMEM;
 *     BITS_FOR_EACH(p, &set) printf("%zu\n", p);
 *     bits_free(&set);
 *
 * A set is a struct that the caller owns: a pointer to words of 64 bits, the number of words, and the length in bits. Position
 * p is bit p % 64 of word p / 64. Each call has these preconditions:
 *   - Count: a set points to `count` words, and `count` is BITS_WORDS(length): whole lanes of four words, and so up to three
 *     more than (length + 63) / 64. No bit at or past the length is set. Words that are all zeros are the empty set;
 *     bits_settle turns any words into the words of a set. Each call preserves this invariant.
 *   - Pointers: a pointer to words, to positions or to a struct is aligned to 8 bytes, which malloc and the compiler ensure;
 *     a pointer to bytes or to bool needs no alignment. A pointer may be NULL only where the number of items that it points
 *     to is 0.
 *   - Overlap: what a call changes or writes does not overlap (alias) anything else that is passed to the call. A set that is
 *     only read may be passed twice.
 *   - Threads: during a call, nothing else reads or writes what the call changes. Calls on different sets may run concurrently
 *     in different threads, and so may calls that only read the same set.
 *
 * If a program defines BITS_CHECK before it includes this header, each call first checks the first three preconditions. Where
 * one of them is violated, the program ends with a line that says what was wrong, and where (bits_check.h).
 *
 * bits_free and bits_rows_free check the set or the table too, but not who allocated its words: files with and without
 * BITS_CHECK may be linked together. If each file of an executable or a shared object that allocates or frees sets defines
 * BITS_CHECK and BITS_CHECK_FREE, the program ends where the words are not those that bits_new or bits_rows_new allocated (but
 * those of an array, a row or a bits_own), and where they were freed before (by a copy of the struct). The latter is found late
 * if a new set has these words by then: where the new set is freed.
 *
 * Positions, ranges and other numbers have no precondition: if a position or a range is out of range, the return value says so
 * (for example false, 0 or BITS_NONE). No call allocates or frees memory, prints, blocks or ends the process; bits_new and
 * bits_free below are functions of this header, and not calls of the archive. Only the calls that initialize an iterator or
 * ranks keep a pointer.
 *
 * bits_own.h has a set that owns its words and grows, and converts sets to text and back. The symbols of the archive begin with
 * fixedbitset_, and are hidden: a shared object that is linked with the archive does not export them.
 *
 * If a program defines BITS_NO_SHORT_NAMES before it includes this header, `bits` and each name that begins with bits_ has the
 * prefix fixedbitset_, and no short name is defined: fixedbitset_bits_insert(&set, 7). All other names begin with BITS_ or with
 * fixedbitset_.
 */
#ifndef BITS_H
#define BITS_H

#include <stdbool.h>
#include <stddef.h>
#include <stdint.h>
#ifdef BITS_CHECK
#include <stdarg.h>
#include <stdio.h>
#include <stdlib.h>
#endif

/* The allocator of bits_new, bits_rows_new and bits_own.h. A program may define all three macros before it includes this
 * header. */
#ifndef BITS_CALLOC
#include <stdlib.h>
#define BITS_CALLOC(count, size) calloc((count), (size))
#define BITS_REALLOC(pointer, size) realloc((pointer), (size))
#define BITS_FREE(pointer) free(pointer)
#endif

/* The name of a type or a function of this header. */
#ifdef BITS_NO_SHORT_NAMES
#define BITS_NAME(name) fixedbitset_##name
#include "bits_names.h"
#else
#define BITS_NAME(name) name
#endif

/* On each call that returns false if it did nothing: the compiler warns where the result is ignored. (A cast to void is
 * enough in C++17 and C23; before these, write `if (!bits_insert(&set, 7)) abort();`.) A program may define BITS_NODISCARD
 * as nothing before it includes this header. */
#ifndef BITS_NODISCARD
#if (defined(__cplusplus) && __cplusplus >= 201703L) || (defined(__STDC_VERSION__) && __STDC_VERSION__ >= 202311L)
#define BITS_NODISCARD [[nodiscard]]
#else
#define BITS_NODISCARD __attribute__((__warn_unused_result__))
#endif
#endif

/* The symbol of a call in the archive. (Some systems put an underscore before each name of C.) */
#define BITS_TEXT_OF(text) #text
#define BITS_TEXT(text) BITS_TEXT_OF(text)
#define BITS_SYMBOL(name) __asm__(BITS_TEXT(__USER_LABEL_PREFIX__) "fixedbitset_" #name)

/* (The attribute exempts the type from strict aliasing, so that a bits_view can be read as a bits.) */
typedef struct bits {
    uint64_t *words;
    size_t count;
    size_t length;
} __attribute__((__may_alias__)) bits;

/* A view: a set over words that are only read, like a const slice. bits_of_view passes a view to each call that takes a
 * `const bits *`, so no caller has to cast away a `const`. */
typedef struct bits_view {
    const uint64_t *words;
    size_t count;
    size_t length;
} bits_view;

/* An iterator over the positions of a set. Set it to BITS_WALK, and initialize it by bits_ones, bits_zeroes, bits_ones_in,
 * bits_zeroes_in or bits_rows_ones. Until the last call on the iterator the set may not change. */
typedef struct bits_walk {
    uint64_t front;
    uint64_t back;
    size_t front_at;
    size_t back_at;
    const uint64_t *words;
    size_t count;
} bits_walk;

/* An iterator over runs: consecutive positions, without a gap. Set it to BITS_RUNS, and initialize it by bits_runs or
 * bits_zero_runs. Until the last call on the iterator the set may not change. */
typedef struct bits_run_walk {
    bool are_set;
    size_t end;
    size_t low;
    size_t high;
    const uint64_t *words;
    size_t count;
} bits_run_walk;

/* An iterator over the positions of a set that a second set has, or lacks. Set it to BITS_SIEVE, and initialize it by
 * bits_intersection_iter or bits_difference_iter. Until the last call on the iterator neither set may change. */
typedef struct bits_sieve {
    bits_walk walk;
    const uint64_t *other;
    size_t other_count;
} bits_sieve;

/* A pair of iterators, one after the other. Set the pair to BITS_PAIR, and initialize it by bits_union_iter or
 * bits_symmetric_difference_iter. Until the last call on the pair neither set may change. */
typedef struct bits_pair {
    bits_sieve first;
    bits_sieve second;
} bits_pair;

/* What the loops below iterate over. */
enum { BITS_ONES, BITS_ZEROES, BITS_INTERSECTION, BITS_DIFFERENCE, BITS_UNION, BITS_SYMMETRIC_DIFFERENCE };

/* The state of the loops below: the bits that are left of the current word, the first position of that word, and where the
 * loop ends. */
typedef struct bits_loop {
    uint64_t left;
    size_t first;
    size_t end;
    unsigned kind;
    const bits *set;
    const bits *other;
} bits_loop;

/* A table of bits (bit matrix): `rows` rows of `columns` columns. A table points to `count` words, and `count` is
 * bits_rows_words(rows, columns). Each row has the words of a set of `columns` positions, and the rows follow each other.
 * Words that are all zeros are the table with no bit set. The preconditions on the words of a set, changed or read, hold for
 * the words of a table too. */
typedef struct bits_rows {
    uint64_t *words;
    size_t count;
    size_t rows;
    size_t columns;
} bits_rows;

/* A borrowed set with a directory of its words, for rank and select. Set it to BITS_RANKS, and initialize it by
 * bits_ranks_fill. Until the last call on the ranks neither the set nor the directory may change. */
typedef struct bits_ranks {
    const uint64_t *words;
    size_t count;
    size_t length;
    const size_t *directory;
    size_t entries;
} bits_ranks;

#ifdef __cplusplus
#define BITS_VALUE(type, ...) (type{__VA_ARGS__})
#define BITS_CAST(type, value) static_cast<type>(value)
#define BITS_RECAST(type, value) reinterpret_cast<type>(value)
#else
#define BITS_VALUE(type, ...) ((type){__VA_ARGS__})
#define BITS_CAST(type, value) ((type)(value))
#define BITS_RECAST(type, value) ((type)(value))
#endif

/* How many words a set of length n has: bits_words(n), as a constant expression if n is a constant, for example for the size
 * of an array. */
#define BITS_WORDS(n) ((BITS_CAST(size_t, n) / 256 + (BITS_CAST(size_t, n) % 256 != 0)) * 4)

/* The initializer of a set of length n over these words, where n is a constant. There are BITS_WORDS(n) words:
 *     static uint64_t words[BITS_WORDS(1000)];
 *     static bits set = BITS_INIT(words, 1000); */
#define BITS_INIT(w, n) {(w), BITS_WORDS(n), (n)}

/* The set of length n over these BITS_WORDS(n) words. n is evaluated once. */
#define BITS_OF(w, n) BITS_NAME(bits_of)((w), (n))

/* The set of length n over the first BITS_WORDS(n) of these `count` words: bits_over. Each argument is evaluated once. */
#define BITS_OVER(w, count, n) BITS_NAME(bits_over)((w), (count), (n))

/* The view of length n over these BITS_WORDS(n) words, which are only read. n is evaluated once. */
#define BITS_VIEW_OF(w, n) BITS_NAME(bits_view_of)((w), (n))

/* The table of r rows and n columns over these bits_rows_words(r, n) words. */
#define BITS_ROWS_OF(w, r, n) BITS_NAME(bits_rows_of)((w), (r), (n))

/* Iterators over no words. */
#define BITS_WALK BITS_VALUE(BITS_NAME(bits_walk), 0, 0, 0, 0, BITS_RECAST(const uint64_t *, 8), 0)
#define BITS_RUNS BITS_VALUE(BITS_NAME(bits_run_walk), false, 0, 0, 0, BITS_RECAST(const uint64_t *, 8), 0)
#define BITS_SIEVE BITS_VALUE(BITS_NAME(bits_sieve), BITS_WALK, BITS_RECAST(const uint64_t *, 8), 0)
#define BITS_PAIR BITS_VALUE(BITS_NAME(bits_pair), BITS_SIEVE, BITS_SIEVE)

/* Ranks of no set. */
#define BITS_RANKS BITS_VALUE(BITS_NAME(bits_ranks), BITS_RECAST(const uint64_t *, 8), 0, 0, BITS_RECAST(const size_t *, 8), 0)

/* No position: what bits_minimum, bits_maximum and similar calls return if there is no such position. */
#define BITS_NONE SIZE_MAX

/* Loops over positions in ascending order: over the positions of the set; over the positions below the length that are not
 * set; and over the positions of the set at or past `from`. The last loop is over the positions of the set in descending
 * order. `break` and `continue` work as in any loop, and loops may be nested. Until the end of a loop the set may not
 * change. These loops read the words by code of this header, which is tested and not proved. The loops are faster than the
 * iterators below, which are proved. */
#define BITS_FOR_EACH(p, set) BITS_LOOP(p, BITS_NAME(bits_each)((set), 0), next)
#define BITS_FOR_EACH_ZERO(p, set) BITS_LOOP(p, BITS_NAME(bits_each_zero)((set), 0), next)
#define BITS_FOR_EACH_FROM(p, set, from) BITS_LOOP(p, BITS_NAME(bits_each)((set), (from)), next)
#define BITS_FOR_EACH_BACK(p, set) BITS_LOOP(p, BITS_NAME(bits_each_back)((set)), next_back)

/* Loops over two sets, of any two lengths, in ascending order: over the positions in both sets, in the first set but not in
 * the second, in either set, and in exactly one set. */
#define BITS_FOR_EACH_INTERSECTION(p, set, other) BITS_LOOP_OF_TWO(p, set, other, BITS_INTERSECTION)
#define BITS_FOR_EACH_DIFFERENCE(p, set, other) BITS_LOOP_OF_TWO(p, set, other, BITS_DIFFERENCE)
#define BITS_FOR_EACH_UNION(p, set, other) BITS_LOOP_OF_TWO(p, set, other, BITS_UNION)
#define BITS_FOR_EACH_SYMMETRIC_DIFFERENCE(p, set, other) BITS_LOOP_OF_TWO(p, set, other, BITS_SYMMETRIC_DIFFERENCE)

#define BITS_LOOP_OF_TWO(p, set, other, kind) BITS_LOOP(p, BITS_NAME(bits_each_of_two)((set), (other), (kind)), next)
#define BITS_LOOP(p, begin, step)                                                                                     \
    for (BITS_NAME(bits_loop) fixedbitset_loop_##p = begin, *fixedbitset_once_##p = &fixedbitset_loop_##p;            \
         fixedbitset_once_##p; fixedbitset_once_##p = NULL)                                                           \
        for (size_t p = 0; fixedbitset_loop_##step(&fixedbitset_loop_##p, &p);)

/* A loop over the runs of consecutive positions of the set, each from `start` up to but not including `end`, in ascending
 * order. */
#define BITS_FOR_EACH_RUN(start, end, set)                                                                            \
    for (BITS_NAME(bits_run_walk) fixedbitset_walk_##start = BITS_RUNS,                                               \
         *fixedbitset_once_##start = (BITS_NAME(bits_runs)(&fixedbitset_walk_##start, (set)), &fixedbitset_walk_##start); \
         fixedbitset_once_##start; fixedbitset_once_##start = NULL)                                                   \
        for (size_t start = 0, end = 0; BITS_NAME(bits_runs_next)(&fixedbitset_walk_##start, &start, &end);)

/* ---- making sets. The functions with a body are inline functions of this header; all other calls are in the archive. */

/* The set of this length over these BITS_WORDS(length) words. */
static inline bits bits_of(uint64_t *words, size_t length) {
    bits set;
    set.words = words;
    set.count = BITS_WORDS(length);
    set.length = length;
    return set;
}

/* The view of this length over these BITS_WORDS(length) words, which are only read. */
static inline bits_view bits_view_of(const uint64_t *words, size_t length) {
    bits_view view;
    view.words = words;
    view.count = BITS_WORDS(length);
    view.length = length;
    return view;
}

/* The view as an argument of the calls that take a `const bits *`: these calls write no word of the view. */
static inline const bits *bits_of_view(const bits_view *view) {
    return BITS_RECAST(const bits *, view);
}

/* What allocates the words of a set or of a table of bits. */
#if defined(BITS_CHECK) && defined(BITS_CHECK_FREE)
#include "bits_check_free.h"
#define BITS_NEW_WORDS(count, is_table) \
    fixedbitset_block_add(BITS_CAST(uint64_t *, BITS_CALLOC((count), sizeof(uint64_t))), (is_table))
#else
#define BITS_NEW_WORDS(count, is_table) BITS_CAST(uint64_t *, BITS_CALLOC((count), sizeof(uint64_t)))
#endif

/* A new, empty set of this length; bits_free frees its words. On allocation failure, or if no memory can hold a set of this
 * length, the words are NULL and the length is 0. A new set of length 0 has words that are not NULL, which no call reads. */
static inline bits bits_new(size_t length) {
    const size_t count = BITS_WORDS(length);
    uint64_t *words = BITS_NEW_WORDS(count ? count : 4, false);
    return bits_of(words, words ? length : 0);
}

/* ---- implementation of the loops */

/* The current word of a loop over one set or two. Past the words of the shorter set, its word is 0. */
static inline uint64_t fixedbitset_loop_word(const bits_loop *loop) {
    const size_t at = loop->first / 64;
    const uint64_t one = loop->kind < BITS_UNION || at < loop->set->count ? loop->set->words[at] : 0;
    const uint64_t other =
        loop->kind > BITS_ZEROES && (loop->kind == BITS_INTERSECTION || at < loop->other->count) ? loop->other->words[at] : 0;
    switch (loop->kind) {
    case BITS_ONES: return one;
    case BITS_ZEROES: return loop->end - loop->first < 64 ? ~one & ((UINT64_C(1) << loop->end % 64) - 1) : ~one;
    case BITS_INTERSECTION: return one & other;
    case BITS_DIFFERENCE: return one & ~other;
    case BITS_UNION: return one | other;
    default: return one ^ other;
    }
}

/* Writes the next position, or the previous position, and returns true; returns false if no position is left. */
static inline bool fixedbitset_loop_next(bits_loop *loop, size_t *position) {
    while (!loop->left) {
        if (loop->end - loop->first <= 64)
            return false;
        loop->first += 64;
        loop->left = fixedbitset_loop_word(loop);
    }
    *position = loop->first + BITS_CAST(unsigned, __builtin_ctzll(loop->left));
    loop->left &= loop->left - 1;
    return true;
}

static inline bool fixedbitset_loop_next_back(bits_loop *loop, size_t *position) {
    unsigned bit;
    while (!loop->left) {
        if (loop->first == 0)
            return false;
        loop->first -= 64;
        loop->left = fixedbitset_loop_word(loop);
    }
    bit = 63 ^ BITS_CAST(unsigned, __builtin_clzll(loop->left));
    *position = loop->first + bit;
    loop->left ^= UINT64_C(1) << bit;
    return true;
}

/* A loop over the positions at or past `from` and below `end`. */
static inline bits_loop fixedbitset_loop_of(const bits *set, const bits *other, unsigned kind, size_t end, size_t from) {
    bits_loop loop;
    loop.left = 0;
    loop.first = from - from % 64;
    loop.end = end;
    loop.kind = kind;
    loop.set = set;
    loop.other = other;
    if (from < end)
        loop.left = fixedbitset_loop_word(&loop) & UINT64_MAX << from % 64;
    else
        loop.first = end;
    return loop;
}

#ifdef __cplusplus
#ifdef BITS_CHECK
namespace fixedbitset_untested {
#endif
extern "C" {
#endif

/* Frees the words that bits_new allocated. The set then has length 0, and may be freed again. */
static inline void bits_free(bits *set) {
    BITS_FREE(set->words);
    *set = bits_of(NULL, 0);
}

/* Frees the words that bits_rows_new allocated. The table then has no rows, and may be freed again. */
static inline void bits_rows_free(bits_rows *rows) {
    BITS_FREE(rows->words);
    rows->words = NULL;
    rows->count = rows->rows = 0;
}

/* The initial states of the loops. */
static inline bits_loop bits_each(const bits *set, size_t from) {
    return fixedbitset_loop_of(set, set, BITS_ONES, set->length, from);
}
static inline bits_loop bits_each_zero(const bits *set, size_t from) {
    return fixedbitset_loop_of(set, set, BITS_ZEROES, set->length, from);
}
static inline bits_loop bits_each_back(const bits *set) {
    return fixedbitset_loop_of(set, set, BITS_ONES, set->length, set->length - set->length % 64);
}
static inline bits_loop bits_each_of_two(const bits *set, const bits *other, unsigned kind) {
    const bool ends_with_other = set->length < other->length ? kind > BITS_DIFFERENCE : kind == BITS_INTERSECTION;
    return fixedbitset_loop_of(set, other, kind, ends_with_other ? other->length : set->length, 0);
}

/* The set of this length over the first BITS_WORDS(length) of `count` words. If there are fewer words, the words of the set
 * are NULL and its length is 0; with BITS_CHECK the program ends. */
static inline bits bits_over(uint64_t *words, size_t count, size_t length) {
    return count < BITS_WORDS(length) ? bits_of(NULL, 0) : bits_of(words, length);
}

/* A row of the table as a set of its columns, without a copy: each call takes that set, and changing the set changes the
 * table. If there is no such row, the words of the set are NULL and its length is 0. */
static inline bits bits_rows_row(const bits_rows *rows, size_t row) {
    const size_t wide = BITS_WORDS(rows->columns);
    return row < rows->rows ? bits_of(wide ? rows->words + row * wide : rows->words, rows->columns) : bits_of(NULL, 0);
}

/* made by front/calls from crates/bits_c */
/* ---- words */

/* Returns how many words a set of this length has: whole lanes of four words. */
size_t bits_words(size_t length) BITS_SYMBOL(bits_words);
/* Returns how many words of a set of this length hold positions below the length. */
size_t bits_blocks(size_t length) BITS_SYMBOL(bits_blocks);
/* Turns any words into the words of a set of `length` positions: positions below `kept` stay, and all others are cleared.
 * Returns true if `count` is bits_words(length) and `kept` is at most the length; else returns false and changes nothing.
 * For example, a `kept` of 0 makes the set empty, a `kept` of the length takes over words from elsewhere, and a `kept` of
 * the old length makes a set longer in memory that has room. */
BITS_NODISCARD bool bits_settle(uint64_t *words, size_t count, size_t length, size_t kept) BITS_SYMBOL(bits_settle);
/* Returns whether the words, as they are, are the words of a set of `length` positions: `count` is bits_words(length), and
 * no bit at or past the length is set. With this call a program can reject words from elsewhere, where bits_settle would
 * drop the bits past the length. */
bool bits_is_clean(const uint64_t *words, size_t count, size_t length) BITS_SYMBOL(bits_is_clean);
/* Clears the lowest bit of the word that is set, and returns the index of that bit; returns BITS_NONE if the word is 0. */
size_t bits_take_lowest_bit(uint64_t *word) BITS_SYMBOL(bits_take_lowest_bit);

/* ---- positions. A position at or past the length is out of range. */

/* Returns whether the position is set; false if the position is out of range. */
bool bits_contains(const bits *set, size_t bit) BITS_SYMBOL(bits_contains);
/* Sets the position and returns true; returns false and changes nothing if the position is out of range. */
BITS_NODISCARD bool bits_insert(bits *set, size_t bit) BITS_SYMBOL(bits_insert);
/* Clears the position and returns true; returns false and changes nothing if the position is out of range. */
BITS_NODISCARD bool bits_remove(bits *set, size_t bit) BITS_SYMBOL(bits_remove);
/* Flips the position and returns true; returns false and changes nothing if the position is out of range. */
BITS_NODISCARD bool bits_toggle(bits *set, size_t bit) BITS_SYMBOL(bits_toggle);
/* Sets the position, and returns whether the position was set before; returns false and changes nothing if the position is
 * out of range. */
bool bits_put(bits *set, size_t bit) BITS_SYMBOL(bits_put);
/* Clears the position, and returns whether the position was set before; returns false and changes nothing if the position is
 * out of range. */
bool bits_take(bits *set, size_t bit) BITS_SYMBOL(bits_take);
/* Sets the position, or clears it if `enabled` is false, and returns true; returns false and changes nothing if the position
 * is out of range. */
BITS_NODISCARD bool bits_set(bits *set, size_t bit, bool enabled) BITS_SYMBOL(bits_set);
/* Writes the block to word `index`, without the bits of the block at or past the length, and returns true; returns false and
 * changes nothing if the length needs no such word. */
BITS_NODISCARD bool bits_set_block(bits *set, size_t index, uint64_t block) BITS_SYMBOL(bits_set_block);
/* Sets each of `count` positions and returns true; returns false and changes nothing if a position is out of range. */
BITS_NODISCARD bool bits_insert_all(bits *set, const size_t *positions, size_t count) BITS_SYMBOL(bits_insert_all);
/* Clears each of `count` positions and returns true; returns false and changes nothing if a position is out of range. */
BITS_NODISCARD bool bits_remove_all(bits *set, const size_t *positions, size_t count) BITS_SYMBOL(bits_remove_all);
/* Writes to `answers`, for each of `count` positions, whether the position is set (false if it is out of range), and returns
 * true; returns false and writes nothing if `places` is not `count`. */
BITS_NODISCARD bool bits_contains_each(const bits *set, const size_t *positions, size_t count, bool *answers, size_t places)
    BITS_SYMBOL(bits_contains_each);
/* Clears all positions. */
void bits_clear(bits *set) BITS_SYMBOL(bits_clear);
/* Returns the least position that is set, or BITS_NONE if no position is set. */
size_t bits_minimum(const bits *set) BITS_SYMBOL(bits_minimum);
/* Returns the greatest position that is set, or BITS_NONE if no position is set. */
size_t bits_maximum(const bits *set) BITS_SYMBOL(bits_maximum);
/* Returns the least position at or past `from` that is set, or BITS_NONE. Any number may be passed. */
size_t bits_next_one(const bits *set, size_t from) BITS_SYMBOL(bits_next_one);
/* Returns the least position at or past `from` and below the length that is not set, or BITS_NONE. */
size_t bits_next_zero(const bits *set, size_t from) BITS_SYMBOL(bits_next_zero);
/* Returns the position of the set that has exactly `index` positions of the set below it (select), or BITS_NONE; the first
 * position has index 0. The call counts word by word; bits_select has a directory. */
size_t bits_nth_one(const bits *set, size_t index) BITS_SYMBOL(bits_nth_one);
/* Returns the least number at or past `from` from which `count` consecutive positions are clear, all below the length, or
 * BITS_NONE; BITS_NONE too if `from` is past the length. */
size_t bits_first_gap(const bits *set, size_t count, size_t from) BITS_SYMBOL(bits_first_gap);
/* Returns the least multiple of `align` in the range from which `count` consecutive positions are clear, all in the range,
 * or BITS_NONE; BITS_NONE too if the range is not valid. The only multiple of 0 is 0. */
size_t bits_first_aligned_gap(const bits *set, size_t count, size_t align, size_t start, size_t end)
    BITS_SYMBOL(bits_first_aligned_gap);
/* Returns the greatest number from which `count` consecutive positions are clear, all below `below` and below the length, or
 * BITS_NONE. */
size_t bits_last_gap(const bits *set, size_t count, size_t below) BITS_SYMBOL(bits_last_gap);
/* Returns the greatest position below `below` that is set, or BITS_NONE. */
size_t bits_previous_one(const bits *set, size_t below) BITS_SYMBOL(bits_previous_one);
/* Returns the greatest position below `below` and below the length that is not set, or BITS_NONE. */
size_t bits_previous_zero(const bits *set, size_t below) BITS_SYMBOL(bits_previous_zero);
/* Returns whether no position is set. */
bool bits_is_clear(const bits *set) BITS_SYMBOL(bits_is_clear);
/* Returns whether each position below the length is set. */
bool bits_is_full(const bits *set) BITS_SYMBOL(bits_is_full);

/* ---- ranges, from `start` up to but not including `end` */

/* Returns whether the range is valid: start <= end, and end <= length. */
bool bits_range_is_valid(const bits *set, size_t start, size_t end) BITS_SYMBOL(bits_range_is_valid);
/* Sets each position of the range and returns true; returns false and changes nothing if the range is not valid. */
BITS_NODISCARD bool bits_insert_range(bits *set, size_t start, size_t end) BITS_SYMBOL(bits_insert_range);
/* Clears each position of the range and returns true; returns false and changes nothing if the range is not valid. */
BITS_NODISCARD bool bits_remove_range(bits *set, size_t start, size_t end) BITS_SYMBOL(bits_remove_range);
/* Flips each position of the range and returns true; returns false and changes nothing if the range is not valid. */
BITS_NODISCARD bool bits_toggle_range(bits *set, size_t start, size_t end) BITS_SYMBOL(bits_toggle_range);
/* Returns how many positions of the range are set (the population count, popcount); 0 if the range is not valid. */
size_t bits_count_ones(const bits *set, size_t start, size_t end) BITS_SYMBOL(bits_count_ones);
/* Returns how many positions of the range are not set; 0 if the range is not valid. */
size_t bits_count_zeroes(const bits *set, size_t start, size_t end) BITS_SYMBOL(bits_count_zeroes);
/* Returns whether each position of the range is set; false if the range is not valid. */
bool bits_contains_all_in_range(const bits *set, size_t start, size_t end) BITS_SYMBOL(bits_contains_all_in_range);
/* Returns whether some position of the range is set; false if the range is not valid. */
bool bits_contains_any_in_range(const bits *set, size_t start, size_t end) BITS_SYMBOL(bits_contains_any_in_range);

/* ---- two sets, of any two lengths */

/* Adds the positions of the second set (union) and returns true; returns false and changes nothing if the second set is
 * longer than the first. */
BITS_NODISCARD bool bits_union_with(bits *set, const bits *other) BITS_SYMBOL(bits_union_with);
/* Leaves the positions that are in exactly one of the sets (xor) and returns true; returns false and changes nothing if the
 * second set is longer than the first. */
BITS_NODISCARD bool bits_symmetric_difference_with(bits *set, const bits *other) BITS_SYMBOL(bits_symmetric_difference_with);
/* Leaves the positions that are in both sets (intersection). The length of the first set stays. */
void bits_intersect_with(bits *set, const bits *other) BITS_SYMBOL(bits_intersect_with);
/* Leaves the positions of the first set that the second lacks (difference). The length of the first set stays. */
void bits_difference_with(bits *set, const bits *other) BITS_SYMBOL(bits_difference_with);
/* Adds the positions of the second set (union), writes to `changed` whether the first set changed, and returns true. Returns
 * false, changes nothing, and writes nothing to `changed`, if the second set is longer than the first. */
BITS_NODISCARD bool bits_union_with_change(bits *set, const bits *other, bool *changed) BITS_SYMBOL(bits_union_with_change);
/* Leaves the positions that are in exactly one of the sets (xor), writes to `changed` whether the first set changed, and
 * returns true. Returns false, changes nothing, and writes nothing to `changed`, if the second set is longer than the
 * first. */
BITS_NODISCARD bool bits_symmetric_difference_with_change(bits *set, const bits *other, bool *changed)
    BITS_SYMBOL(bits_symmetric_difference_with_change);
/* Like bits_intersect_with, and returns whether a position was removed. */
bool bits_intersect_with_change(bits *set, const bits *other) BITS_SYMBOL(bits_intersect_with_change);
/* Like bits_difference_with, and returns whether a position was removed. */
bool bits_difference_with_change(bits *set, const bits *other) BITS_SYMBOL(bits_difference_with_change);
/* Adds the positions of `gens` that `kills` lacks, writes to `changed` whether the first set changed, and returns true.
 * Returns false, changes nothing, and writes nothing to `changed`, if `gens` is longer than the first set. */
BITS_NODISCARD bool bits_union_with_difference(bits *set, const bits *gens, const bits *kills, bool *changed)
    BITS_SYMBOL(bits_union_with_difference);
/* Returns how many positions are in either set. */
size_t bits_union_count(const bits *set, const bits *other) BITS_SYMBOL(bits_union_count);
/* Returns how many positions are in both sets. */
size_t bits_intersection_count(const bits *set, const bits *other) BITS_SYMBOL(bits_intersection_count);
/* Returns how many positions of the first set the second lacks. */
size_t bits_difference_count(const bits *set, const bits *other) BITS_SYMBOL(bits_difference_count);
/* Returns how many positions are in exactly one of the sets. */
size_t bits_symmetric_difference_count(const bits *set, const bits *other) BITS_SYMBOL(bits_symmetric_difference_count);
/* Returns whether no position is in both sets. */
bool bits_is_disjoint(const bits *set, const bits *other) BITS_SYMBOL(bits_is_disjoint);
/* Returns whether the first set is a subset of the second: the second has each position of the first. The lengths do not
 * matter. */
bool bits_is_subset(const bits *set, const bits *other) BITS_SYMBOL(bits_is_subset);
/* Returns the least position of the second set that the first lacks, or BITS_NONE. */
size_t bits_first_lacking(const bits *set, const bits *other) BITS_SYMBOL(bits_first_lacking);
/* Returns the least position at or past `from` that is in both sets, or BITS_NONE. Any number may be passed. */
size_t bits_next_common(const bits *set, const bits *other, size_t from) BITS_SYMBOL(bits_next_common);
/* Returns whether the lengths and the positions are equal. */
bool bits_equal(const bits *set, const bits *other) BITS_SYMBOL(bits_equal);
/* Returns -1 if the first set comes before the second, 0 if they are equal, and 1 if the first comes after the second. The
 * order is by length, and then by the words from the first word on. */
ptrdiff_t bits_compare(const bits *set, const bits *other) BITS_SYMBOL(bits_compare);

/* ---- sets written to `to`, whose words may hold anything. `to` has the length of the result, and bits_words(length) words.
 *      Each call writes each word once. */

/* Copies to `to` the positions of the set that are below the length of `to`, which may be any number, and returns true;
 * returns false and changes nothing if `to` does not have bits_words of its length. */
BITS_NODISCARD bool bits_copy(bits *to, const bits *set) BITS_SYMBOL(bits_copy);
/* Writes the positions in either set (union) to `to`, and returns true. Returns false and changes nothing if the length of
 * `to` is not the greater of the two lengths, or its words are not bits_words of that length. */
BITS_NODISCARD bool bits_union_of(bits *to, const bits *set, const bits *other) BITS_SYMBOL(bits_union_of);
/* Writes the positions in exactly one of the sets (xor) to `to`, and returns true. Returns false and changes nothing if the
 * length of `to` is not the greater of the two lengths, or its words are not bits_words of that length. */
BITS_NODISCARD bool bits_symmetric_difference_of(bits *to, const bits *set, const bits *other)
    BITS_SYMBOL(bits_symmetric_difference_of);
/* Writes the positions in both sets (intersection) to `to`, and returns true. Returns false and changes nothing if the
 * length of `to` is not the smaller of the two lengths, or its words are not bits_words of that length. */
BITS_NODISCARD bool bits_intersection_of(bits *to, const bits *set, const bits *other) BITS_SYMBOL(bits_intersection_of);
/* Writes the positions of the first set that the second lacks (difference) to `to`, and returns true. Returns false and
 * changes nothing if the length of `to` is not the length of the first, or its words are not bits_words of that length. */
BITS_NODISCARD bool bits_difference_of(bits *to, const bits *set, const bits *other) BITS_SYMBOL(bits_difference_of);

/* ---- shifts by any number, and slices. The length stays. To append one set to another, make the first longer by
 *      bits_settle, and add the second by bits_union_with_shifted, shifted up by the old length. To truncate a set, pass
 *      fewer of its words and a smaller length to bits_settle. */

/* Shifts each position up by `by`; positions that come to or past the length are dropped. */
void bits_shift_up(bits *set, size_t by) BITS_SYMBOL(bits_shift_up);
/* Shifts each position down by `by`; positions below `by` are dropped. */
void bits_shift_down(bits *set, size_t by) BITS_SYMBOL(bits_shift_down);
/* Adds the positions of the second set, shifted up by `by`; those that come to or past the length are dropped. */
void bits_union_with_shifted(bits *set, const bits *other, size_t by) BITS_SYMBOL(bits_union_with_shifted);
/* Adds the positions of the set itself, shifted up by `by`; those that come to or past the length are dropped. */
void bits_union_with_own_shift(bits *set, size_t by) BITS_SYMBOL(bits_union_with_own_shift);
/* Copies a slice: `part` gets the positions of the second set from `start` up to but not including `end`, each less `start`.
 * Returns true if the range is valid and the length of `part` is end - start; else returns false and changes nothing. */
BITS_NODISCARD bool bits_slice(bits *part, const bits *set, size_t start, size_t end) BITS_SYMBOL(bits_slice);
/* Copies the range from `start` up to but not including `end` of the second set over the positions of the first set from
 * `at` on; all other positions stay. Returns true if the range is valid in the second set, and its copy, from `at` on, ends
 * within the first; else returns false and changes nothing. */
BITS_NODISCARD bool bits_copy_range(bits *set, const bits *other, size_t start, size_t end, size_t at)
    BITS_SYMBOL(bits_copy_range);
/* Writes the `width` positions from `start` on to `number`: bit i of the number is position start + i. Returns true if
 * `width` is at most 64 and the positions are below the length; else returns false and writes nothing. */
BITS_NODISCARD bool bits_load(const bits *set, size_t start, size_t width, uint64_t *number) BITS_SYMBOL(bits_load);
/* Writes the lowest `width` bits of the number to the positions from `start` on: position start + i becomes bit i of the
 * number. Returns true if `width` is at most 64 and the positions are below the length; else returns false and changes
 * nothing. */
BITS_NODISCARD bool bits_store(bits *set, size_t start, size_t width, uint64_t number) BITS_SYMBOL(bits_store);

/* ---- a set as bytes, least significant bit first: position p is bit p % 8 of byte p / 8 */

/* Returns how many bytes a set of this length has: eight for each word that the length needs. */
size_t bits_bytes(size_t length) BITS_SYMBOL(bits_bytes);
/* Replaces the positions of the set by the positions in the bytes. Any number of bytes may be passed: missing bytes count as
 * 0, and bits past the length are dropped. */
void bits_from_bytes(bits *set, const uint8_t *bytes, size_t count) BITS_SYMBOL(bits_from_bytes);
/* Writes the bytes of the set and returns true; returns false and changes nothing if `count` is not bits_bytes(length). */
BITS_NODISCARD bool bits_to_bytes(const bits *set, uint8_t *bytes, size_t count) BITS_SYMBOL(bits_to_bytes);
/* Reverses the bits of each byte. bits_from_bytes and bits_to_bytes have the first of eight positions in the lowest bit of a
 * byte; this call turns bytes with that position in the highest bit (most significant bit first) into such bytes, and
 * back. */
void bits_reverse_each_byte(uint8_t *bytes, size_t count) BITS_SYMBOL(bits_reverse_each_byte);

/* ---- rank and select: how many positions that are set are below a position, and which position is the k-th that is set */

/* Returns how many entries the directory of a set of this length has: one for each eight words, rounded up. */
size_t bits_ranks_entries(size_t length) BITS_SYMBOL(bits_ranks_entries);
/* Writes the directory of the words of the set to `directory`, initializes the whole of `ranks`, and returns true. If
 * `entries` is not bits_ranks_entries of the length of the set, returns false: the ranks are then the ranks of no set, and
 * the directory is unchanged. */
BITS_NODISCARD bool bits_ranks_fill(bits_ranks *ranks, const bits *set, size_t *directory, size_t entries)
    BITS_SYMBOL(bits_ranks_fill);
/* Returns the rank: how many positions below this position are set. For a position past the length these are all positions
 * of the set. */
size_t bits_rank(const bits_ranks *ranks, size_t position) BITS_SYMBOL(bits_rank);
/* Returns the position that is set and has exactly `index` positions that are set below it, or BITS_NONE. The first position
 * has index 0. */
size_t bits_select(const bits_ranks *ranks, size_t index) BITS_SYMBOL(bits_select);

/* ---- tables */

/* Returns how many words a table of this many rows and columns has, or BITS_NONE if that number does not fit in a size_t. */
size_t bits_rows_words(size_t rows, size_t columns) BITS_SYMBOL(bits_rows_words);
/* Turns any words into the words of a table of this many rows and columns with no bit set, and returns true; returns false
 * and changes nothing if `count` is not bits_rows_words(rows, columns). Words that are all zeros are already the words of
 * such a table. */
BITS_NODISCARD bool bits_rows_clear(uint64_t *words, size_t count, size_t rows, size_t columns) BITS_SYMBOL(bits_rows_clear);
/* Returns whether the row has a bit at the column; false if the row or the column is out of range. */
bool bits_rows_get(const bits_rows *rows, size_t row, size_t column) BITS_SYMBOL(bits_rows_get);
/* Sets the bit of the row at the column, or clears it if `enabled` is false, and returns true; returns false and changes
 * nothing if the row or the column is out of range. */
BITS_NODISCARD bool bits_rows_set(bits_rows *rows, size_t row, size_t column, bool enabled) BITS_SYMBOL(bits_rows_set);
/* Adds the bits of row `from` to row `into`, writes to `changed` whether a bit was added, and returns true. Returns false,
 * changes nothing, and writes nothing to `changed`, if a row is out of range. */
BITS_NODISCARD bool bits_rows_union(bits_rows *rows, size_t from, size_t into, bool *changed) BITS_SYMBOL(bits_rows_union);
/* Initializes the iterator over the columns at which the row has a bit, in ascending order, and returns true; bits_ones_next
 * and bits_ones_next_back return the columns. Returns false if the row is out of range; the iterator is then empty. */
BITS_NODISCARD bool bits_rows_ones(bits_walk *walk, const bits_rows *rows, size_t row) BITS_SYMBOL(bits_rows_ones);
/* Replaces the table by the transitive closure of the graph with an edge from each row to each column at which the row has a
 * bit: afterwards row a has a bit at column b if and only if some path of one or more edges led from a to b. */
void bits_rows_close(bits_rows *rows) BITS_SYMBOL(bits_rows_close);

/* ---- iterators: each call writes a position and returns true. Once no position is left, this call and all later calls
 *      return false. `next` writes the first position that is left, `next_back` the last; the two may be mixed. `batch`
 *      writes the first positions that are left to `positions`, as many as there is `room` for or as are left, and returns
 *      how many; `batch_back` writes the last positions that are left, the last first. The other places of `positions` stay
 *      as they are. Both may be mixed with the calls for one position. */

/* Initializes the iterator over the positions that are set, in ascending order. */
void bits_ones(bits_walk *walk, const bits *set) BITS_SYMBOL(bits_ones);
bool bits_ones_next(bits_walk *walk, size_t *position) BITS_SYMBOL(bits_ones_next);
bool bits_ones_next_back(bits_walk *walk, size_t *position) BITS_SYMBOL(bits_ones_next_back);
size_t bits_ones_batch(bits_walk *walk, size_t *positions, size_t room) BITS_SYMBOL(bits_ones_take);
size_t bits_ones_batch_back(bits_walk *walk, size_t *positions, size_t room) BITS_SYMBOL(bits_ones_take_back);
/* Like bits_ones_batch, in half of the memory: each place holds the low 32 bits of its position, which are the position
 * itself in a set of at most 2^32 bits. */
size_t bits_ones_batch_u32(bits_walk *walk, uint32_t *positions, size_t room) BITS_SYMBOL(bits_ones_take_u32);
/* Initializes the iterator over the positions below the length that are not set, in ascending order. */
void bits_zeroes(bits_walk *walk, const bits *set) BITS_SYMBOL(bits_zeroes);
bool bits_zeroes_next(bits_walk *walk, size_t *position) BITS_SYMBOL(bits_zeroes_next);
bool bits_zeroes_next_back(bits_walk *walk, size_t *position) BITS_SYMBOL(bits_zeroes_next_back);
size_t bits_zeroes_batch(bits_walk *walk, size_t *positions, size_t room) BITS_SYMBOL(bits_zeroes_take);
size_t bits_zeroes_batch_back(bits_walk *walk, size_t *positions, size_t room) BITS_SYMBOL(bits_zeroes_take_back);
/* Initializes the iterator over the positions from `start` up to but not including `end` that are set, in ascending order,
 * and returns true. Returns false if the range is not valid; the iterator is then empty. */
BITS_NODISCARD bool bits_ones_in(bits_walk *walk, const bits *set, size_t start, size_t end) BITS_SYMBOL(bits_ones_in);
/* Initializes the iterator over the positions from `start` up to but not including `end` that are not set, in ascending
 * order, and returns true. Returns false if the range is not valid; the iterator is then empty. */
BITS_NODISCARD bool bits_zeroes_in(bits_walk *walk, const bits *set, size_t start, size_t end) BITS_SYMBOL(bits_zeroes_in);
/* Initializes the iterator over the runs of consecutive positions that are set, in ascending order. A run has the positions
 * from `start` up to but not including `end`; the cost of a run grows with the number of its words. */
void bits_runs(bits_run_walk *walk, const bits *set) BITS_SYMBOL(bits_runs);
/* Like bits_runs, over the positions below the length that are not set. */
void bits_zero_runs(bits_run_walk *walk, const bits *set) BITS_SYMBOL(bits_zero_runs);
bool bits_runs_next(bits_run_walk *walk, size_t *start, size_t *end) BITS_SYMBOL(bits_runs_next);
bool bits_runs_next_back(bits_run_walk *walk, size_t *start, size_t *end) BITS_SYMBOL(bits_runs_next_back);
/* Initializes the iterator over the positions that are in both sets, in ascending order. */
void bits_intersection_iter(bits_sieve *walk, const bits *set, const bits *other) BITS_SYMBOL(bits_intersection);
bool bits_intersection_next(bits_sieve *walk, size_t *position) BITS_SYMBOL(bits_intersection_next);
bool bits_intersection_next_back(bits_sieve *walk, size_t *position) BITS_SYMBOL(bits_intersection_next_back);
size_t bits_intersection_batch(bits_sieve *walk, size_t *positions, size_t room) BITS_SYMBOL(bits_intersection_take);
size_t bits_intersection_batch_back(bits_sieve *walk, size_t *positions, size_t room) BITS_SYMBOL(bits_intersection_take_back);
/* Initializes the iterator over the positions of the first set that the second lacks, in ascending order. */
void bits_difference_iter(bits_sieve *walk, const bits *set, const bits *other) BITS_SYMBOL(bits_difference);
bool bits_difference_next(bits_sieve *walk, size_t *position) BITS_SYMBOL(bits_difference_next);
bool bits_difference_next_back(bits_sieve *walk, size_t *position) BITS_SYMBOL(bits_difference_next_back);
size_t bits_difference_batch(bits_sieve *walk, size_t *positions, size_t room) BITS_SYMBOL(bits_difference_take);
size_t bits_difference_batch_back(bits_sieve *walk, size_t *positions, size_t room) BITS_SYMBOL(bits_difference_take_back);
/* Initializes the iterator over the positions of the first set, ascending, and then the positions that only the second set
 * has, ascending. */
void bits_union_iter(bits_pair *walk, const bits *set, const bits *other) BITS_SYMBOL(bits_union);
bool bits_union_next(bits_pair *walk, size_t *position) BITS_SYMBOL(bits_union_next);
bool bits_union_next_back(bits_pair *walk, size_t *position) BITS_SYMBOL(bits_union_next_back);
size_t bits_union_batch(bits_pair *walk, size_t *positions, size_t room) BITS_SYMBOL(bits_union_take);
size_t bits_union_batch_back(bits_pair *walk, size_t *positions, size_t room) BITS_SYMBOL(bits_union_take_back);
/* Initializes the iterator over the positions that only the first set has, ascending, and then the positions that only the
 * second set has, ascending. */
void bits_symmetric_difference_iter(bits_pair *walk, const bits *set, const bits *other) BITS_SYMBOL(bits_symmetric_difference);
bool bits_symmetric_difference_next(bits_pair *walk, size_t *position) BITS_SYMBOL(bits_symmetric_difference_next);
bool bits_symmetric_difference_next_back(bits_pair *walk, size_t *position) BITS_SYMBOL(bits_symmetric_difference_next_back);
size_t bits_symmetric_difference_batch(bits_pair *walk, size_t *positions, size_t room)
    BITS_SYMBOL(bits_symmetric_difference_take);
size_t bits_symmetric_difference_batch_back(bits_pair *walk, size_t *positions, size_t room)
    BITS_SYMBOL(bits_symmetric_difference_take_back);
/* end of what front/calls makes */

#ifdef __cplusplus
}
#ifdef BITS_CHECK
}
/* made by front/calls */
using fixedbitset_untested::bits_blocks;
using fixedbitset_untested::bits_bytes;
using fixedbitset_untested::bits_ranks_entries;
using fixedbitset_untested::bits_rows_words;
using fixedbitset_untested::bits_words;
/* end of what front/calls makes */
#endif
#endif

/* ---- making tables */

/* The table of this many rows and columns over these bits_rows_words(rows, columns) words. */
static inline bits_rows bits_rows_of(uint64_t *words, size_t rows, size_t columns) {
    bits_rows table;
    table.words = words;
    table.count = bits_rows_words(rows, columns);
    table.rows = rows;
    table.columns = columns;
    return table;
}

/* A new table of this many rows and columns with no bit set; bits_rows_free frees its words. On allocation failure, or if no
 * memory can hold the table, the words are NULL and the number of rows is 0. */
static inline bits_rows bits_rows_new(size_t rows, size_t columns) {
    const size_t count = bits_rows_words(rows, columns);
    uint64_t *words = count == BITS_NONE ? NULL : BITS_NEW_WORDS(count ? count : 4, true);
    return bits_rows_of(words, words ? rows : 0, columns);
}

#ifdef BITS_CHECK
#ifdef __cplusplus
extern "C++" {
#include "bits_check.h"
}
#else
#include "bits_check.h"
#endif
#endif

#ifdef BITS_NO_SHORT_NAMES
#include "bits_names.h"
#endif

#endif
