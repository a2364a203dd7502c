/* bits.h includes this file if BITS_CHECK is defined: each call of the archive, bits_free and bits_rows_free then check their
 * preconditions before they do anything else. Where a precondition is violated, the program prints a line and ends by abort():
 *
 *     program.c:12: bits_insert: `set` has 1 words, and BITS_WORDS(64) is 4
 *
 * The checks are: the pointer to each struct; the count of words for the length; that a pointer is aligned, and NULL only where
 * the number of its items is 0; that no bit at or past the length is set; and that sets and lists do not overlap (alias) what
 * the call writes. The checks take as long for a long set as for a short set, except that bits_rows_close checks each row. In a
 * program that is compiled with -fsanitize=address, the checks are also that each word and each item is in memory of the
 * program, and not freed; that takes longer for more words.
 *
 * If BITS_CHECK is 2 or more, a call also ends the program where it would return false because it did nothing, and where a
 * position, a row, a column or a range is out of range. That is for programs in which no call is expected to fail.
 *
 * Arguments are evaluated once, as without this header. In C each call is then also a function-like macro of its name, so a
 * struct's member of that name is called by (it.bits_set)(..), or with BITS_NO_SHORT_NAMES. In C++ no name is a macro, and each
 * call has two more parameters with default arguments: the file and the line of the caller. They need gcc, or clang 9 or
 * later. */
#ifndef BITS_CHECK_H
#define BITS_CHECK_H

/* Whether AddressSanitizer is on. */
#if defined(__SANITIZE_ADDRESS__)
#define BITS_ASK_MEMORY 1
#elif defined(__has_feature)
#if __has_feature(address_sanitizer)
#define BITS_ASK_MEMORY 1
#endif
#endif
#ifdef BITS_ASK_MEMORY
#ifdef __cplusplus
extern "C"
#endif
void *__asan_region_is_poisoned(void *begin, size_t size);
#endif

/* In C++ the checked call has the name, and the call of the archive is in a namespace. In C a macro has the name, below. */
#ifdef __cplusplus
#define BITS_UNTESTED(name) fixedbitset_untested::bits_##name
#define BITS_TESTED_NAME(name) bits_##name
#define BITS_TESTED_AT const char *file = __builtin_FILE(), int line = __builtin_LINE()
/* (A pointer to the call has the type of the archive's call, with no file and no line, and that call has no checks.) */
#define BITS_TESTED_ADDRESS(result, name, parameters, arguments) \
    template <int = 0> static inline result bits_##name parameters { return BITS_UNTESTED(name) arguments; }
#else
#define BITS_UNTESTED(name) bits_##name
#define BITS_TESTED_NAME(name) fixedbitset_tested_##name
#define BITS_TESTED_AT const char *file, int line
#define BITS_TESTED_ADDRESS(result, name, parameters, arguments)
#endif

/* ---- the checks. `here` is the call with its file and line, and `who` is the argument. */

typedef struct fixedbitset_place {
    const char *call;
    const char *file;
    int line;
} fixedbitset_place;

__attribute__((__noreturn__, __cold__, __format__(__printf__, 2, 3))) static inline void fixedbitset_stop(fixedbitset_place here,
                                                                                                          const char *form, ...) {
    va_list words;
    va_start(words, form);
    fprintf(stderr, "%s:%d: %s: ", here.file, here.line, here.call);
    vfprintf(stderr, form, words);
    fputc('\n', stderr);
    va_end(words);
    abort();
}

/* The least alignment of a value of `size` bytes: at most 8 bytes, and at most 4 where size_t has 32 bits. */
#define BITS_ASK_ALIGNMENT(size) ((size) < sizeof(size_t) ? (size) : sizeof(size_t))

/* Checks a pointer to one value of `size` bytes. */
static inline void fixedbitset_ask_place(fixedbitset_place here, const char *who, const void *place, size_t size) {
    if (!place)
        fixedbitset_stop(here, "`%s` is NULL", who);
    if (BITS_RECAST(uintptr_t, place) % BITS_ASK_ALIGNMENT(size))
        fixedbitset_stop(here, "`%s` is not aligned to %zu bytes", who, BITS_ASK_ALIGNMENT(size));
}

/* Checks that the memory of `count` values is the program's, and is not freed, where AddressSanitizer can say that. */
static inline void fixedbitset_ask_memory(fixedbitset_place here, const char *who, const void *values, size_t count,
                                          size_t size) {
#ifdef BITS_ASK_MEMORY
    void *const begin = BITS_RECAST(void *, BITS_RECAST(uintptr_t, values));
    if (count && (count > SIZE_MAX / size || __asan_region_is_poisoned(begin, count * size)))
        fixedbitset_stop(here, "`%s` has %zu values of %zu bytes in memory that is not the program's, or is freed", who, count,
                         size);
#else
    (void)here, (void)who, (void)values, (void)count, (void)size;
#endif
}

/* Checks a pointer to `count` values. */
static inline void fixedbitset_ask_array(fixedbitset_place here, const char *who, const void *values, size_t count, size_t size) {
    if (!values && count)
        fixedbitset_stop(here, "`%s` is NULL, and there are to be %zu", who, count);
    if (BITS_RECAST(uintptr_t, values) % BITS_ASK_ALIGNMENT(size))
        fixedbitset_stop(here, "`%s` is not aligned to %zu bytes", who, BITS_ASK_ALIGNMENT(size));
    fixedbitset_ask_memory(here, who, values, count, size);
}

/* Checks the words of a set, an iterator or ranks. */
static inline void fixedbitset_ask_words(fixedbitset_place here, const char *who, const uint64_t *words, size_t count) {
    if (!words && count)
        fixedbitset_stop(here, "`%s` has NULL for words, and says that it has %zu", who, count);
    if (BITS_RECAST(uintptr_t, words) % sizeof(size_t))
        fixedbitset_stop(here, "`%s` has words that are not aligned to %zu bytes", who, sizeof(size_t));
    fixedbitset_ask_memory(here, who, words, count, sizeof *words);
}

static inline void fixedbitset_ask_clean(fixedbitset_place here, const char *who, const uint64_t *words, size_t count,
                                         size_t length) {
    if (count != BITS_WORDS(length))
        fixedbitset_stop(here, "`%s` has %zu words, and BITS_WORDS(%zu) is %zu", who, count, length, BITS_WORDS(length));
    fixedbitset_ask_words(here, who, words, count);
    if (!BITS_UNTESTED(is_clean)(words, count, length))
        fixedbitset_stop(here, "`%s` has a bit past its length of %zu", who, length);
}

/* Checks that there are enough words. */
static inline void fixedbitset_ask_enough(fixedbitset_place here, const uint64_t *words, size_t count, size_t length) {
    if (count < BITS_WORDS(length))
        fixedbitset_stop(here, "`words` has %zu words, and BITS_WORDS(%zu) is %zu", count, length, BITS_WORDS(length));
    fixedbitset_ask_words(here, "words", words, count);
}

static inline void fixedbitset_ask_set(fixedbitset_place here, const char *who, const bits *set) {
    fixedbitset_ask_place(here, who, set, sizeof *set);
    fixedbitset_ask_clean(here, who, set->words, set->count, set->length);
}

static inline void fixedbitset_ask_room(fixedbitset_place here, const char *who, const bits *room) {
    fixedbitset_ask_place(here, who, room, sizeof *room);
    fixedbitset_ask_words(here, who, room->words, room->count);
}

/* Checks that what is written, `wide` bytes from `written` on, does not overlap what is read. */
static inline void fixedbitset_ask_apart(fixedbitset_place here, const char *who, const void *written, size_t wide,
                                         const void *read, size_t size) {
    const uintptr_t first = BITS_RECAST(uintptr_t, written), second = BITS_RECAST(uintptr_t, read);
    if (wide && size && first < second + size && second < first + wide)
        fixedbitset_stop(here, "`%s` overlaps what the call writes", who);
}

static inline void fixedbitset_ask_apart_sets(fixedbitset_place here, const char *who, const bits *changed, const bits *set) {
    fixedbitset_ask_apart(here, who, changed->words, 8 * changed->count, set->words, 8 * set->count);
}

static inline void fixedbitset_ask_ranks(fixedbitset_place here, const bits_ranks *ranks) {
    fixedbitset_ask_place(here, "ranks", ranks, sizeof *ranks);
    fixedbitset_ask_clean(here, "ranks", ranks->words, ranks->count, ranks->length);
    fixedbitset_ask_array(here, "ranks->directory", ranks->directory, ranks->entries, sizeof(size_t));
    if (ranks->entries != bits_ranks_entries(ranks->length))
        fixedbitset_stop(here, "`ranks` has %zu entries, and bits_ranks_entries(%zu) is %zu", ranks->entries, ranks->length,
                         bits_ranks_entries(ranks->length));
}

static inline void fixedbitset_ask_rows(fixedbitset_place here, const bits_rows *rows) {
    fixedbitset_ask_place(here, "rows", rows, sizeof *rows);
    if (rows->count != bits_rows_words(rows->rows, rows->columns))
        fixedbitset_stop(here, "`rows` has %zu words, and bits_rows_words(%zu, %zu) is %zu", rows->count, rows->rows,
                         rows->columns, bits_rows_words(rows->rows, rows->columns));
    fixedbitset_ask_words(here, "rows", rows->words, rows->count);
}

/* Checks that the row has no bit past its columns, if there is such a row. */
static inline void fixedbitset_ask_row(fixedbitset_place here, const bits_rows *rows, size_t row) {
    const size_t count = BITS_WORDS(rows->columns);
    if (row < rows->rows && !BITS_UNTESTED(is_clean)(rows->words + row * count, count, rows->columns))
        fixedbitset_stop(here, "`rows[%zu]` has a bit past its %zu columns", row, rows->columns);
}

static inline void fixedbitset_ask_each_row(fixedbitset_place here, const bits_rows *rows) {
    for (size_t row = 0; row < rows->rows; row++)
        fixedbitset_ask_row(here, rows, row);
}

/* Checks that bits_new or bits_rows_new allocated the words, and that they are not freed. */
static inline void fixedbitset_ask_new(fixedbitset_place here, const char *who, const uint64_t *words, bool is_table) {
#ifdef BITS_CHECK_FREE
    if (words && !fixedbitset_block_remove(words, is_table))
        fixedbitset_stop(here, "`%s` has words that %s did not allocate, or that are freed", who,
                         is_table ? "bits_rows_new" : "bits_new");
#else
    (void)here, (void)who, (void)words, (void)is_table;
#endif
}

static inline void fixedbitset_ask_walk(fixedbitset_place here, const bits_walk *walk) {
    fixedbitset_ask_place(here, "walk", walk, sizeof *walk);
    fixedbitset_ask_words(here, "walk", walk->words, walk->count);
}

static inline void fixedbitset_ask_run_walk(fixedbitset_place here, const bits_run_walk *walk) {
    fixedbitset_ask_place(here, "walk", walk, sizeof *walk);
    fixedbitset_ask_words(here, "walk", walk->words, walk->count);
}

static inline void fixedbitset_ask_sieve(fixedbitset_place here, const bits_sieve *walk) {
    fixedbitset_ask_walk(here, &walk->walk);
    fixedbitset_ask_words(here, "walk", walk->other, walk->other_count);
}

static inline void fixedbitset_ask_pair(fixedbitset_place here, const bits_pair *walk) {
    fixedbitset_ask_sieve(here, &walk->first);
    fixedbitset_ask_sieve(here, &walk->second);
}

/* ---- the checks if BITS_CHECK is 2 or more */

static inline void fixedbitset_ask_below(fixedbitset_place here, const char *who, size_t number, size_t end) {
    if (BITS_CHECK + 0 >= 2 && number >= end)
        fixedbitset_stop(here, "`%s` is %zu, which is not below %zu", who, number, end);
}

static inline void fixedbitset_ask_each_below(fixedbitset_place here, const size_t *positions, size_t count, size_t length) {
    for (size_t k = 0; BITS_CHECK + 0 >= 2 && k < count; k++)
        fixedbitset_ask_below(here, "positions", positions[k], length);
}

static inline void fixedbitset_ask_range(fixedbitset_place here, size_t start, size_t end, size_t length) {
    if (BITS_CHECK + 0 >= 2 && (start > end || end > length))
        fixedbitset_stop(here, "from %zu to %zu is not a range of a set of length %zu", start, end, length);
}

static inline void fixedbitset_ask_at_most(fixedbitset_place here, const char *who, size_t number, size_t greatest) {
    if (BITS_CHECK + 0 >= 2 && number > greatest)
        fixedbitset_stop(here, "`%s` is %zu, which is more than %zu", who, number, greatest);
}

static inline void fixedbitset_ask_equal(fixedbitset_place here, const char *who, size_t number, size_t wanted) {
    if (BITS_CHECK + 0 >= 2 && number != wanted)
        fixedbitset_stop(here, "`%s` is %zu, and has to be %zu", who, number, wanted);
}

/* Checks the result of a call that does its work or does nothing. */
static inline void fixedbitset_ask_done(fixedbitset_place here, bool is_done) {
    if (BITS_CHECK + 0 >= 2 && !is_done)
        fixedbitset_stop(here, "it is refused, and nothing is changed");
}

/* ---- the checked calls. Each row has the checks of a call, and makes the call after them. */

#define BITS_ASK_SET(set) fixedbitset_ask_set(here, #set, set);
#define BITS_ASK_ROOM(room) fixedbitset_ask_room(here, #room, room);
#define BITS_ASK_APART(changed, set) fixedbitset_ask_apart_sets(here, #set, changed, set);
#define BITS_ASK_PLACE(place) fixedbitset_ask_place(here, #place, place, sizeof *place);
#define BITS_ASK_LIST(values, count) fixedbitset_ask_array(here, #values, values, count, sizeof *values);
#define BITS_ASK_LIST_APART(values, count, words, words_count) \
    fixedbitset_ask_apart(here, #values, words, (words_count) * sizeof *words, values, (count) * sizeof *values);
#define BITS_ASK_BELOW(number, end) fixedbitset_ask_below(here, #number, number, end);
#define BITS_ASK_AT_MOST(number, greatest) fixedbitset_ask_at_most(here, #number, number, greatest);
#define BITS_ASK_EQUAL(number, wanted) fixedbitset_ask_equal(here, #number, number, wanted);
#define BITS_ASK_RANGE(start, end, length) fixedbitset_ask_range(here, start, end, length);
#define BITS_ASK_NO_LONGER(other, set) BITS_ASK_AT_MOST(other->length, set->length)

#define BITS_TESTED_THESE(...) __VA_ARGS__
#define BITS_TESTED_HERE(name) const fixedbitset_place here = {"bits_" #name, file, line};

/* A checked call with these parameters, which are passed on as these arguments; a call without a result; and a call that
 * returns false if it did nothing. */
#define BITS_TESTED(result, name, parameters, arguments, tests)                                         \
    BITS_TESTED_ADDRESS(result, name, parameters, arguments)                                            \
    static inline result BITS_TESTED_NAME(name)(BITS_TESTED_THESE parameters, BITS_TESTED_AT) {         \
        BITS_TESTED_HERE(name)                                                                          \
        tests return BITS_UNTESTED(name) arguments;                                                     \
    }
#define BITS_TESTED_VOID(name, parameters, arguments, tests)                                            \
    BITS_TESTED_ADDRESS(void, name, parameters, arguments)                                              \
    static inline void BITS_TESTED_NAME(name)(BITS_TESTED_THESE parameters, BITS_TESTED_AT) {           \
        BITS_TESTED_HERE(name)                                                                          \
        tests BITS_UNTESTED(name) arguments;                                                            \
    }
#define BITS_TESTED_DONE(name, parameters, arguments, tests) BITS_TESTED_DONE_BY(bool, true, name, parameters, arguments, tests)
#define BITS_TESTED_DONE_BY(result, done, name, parameters, arguments, tests)                           \
    BITS_TESTED_ADDRESS(result, name, parameters, arguments)                                            \
    BITS_NODISCARD static inline result BITS_TESTED_NAME(name)(BITS_TESTED_THESE parameters, BITS_TESTED_AT) { \
        result answer;                                                                                  \
        BITS_TESTED_HERE(name)                                                                          \
        tests answer = BITS_UNTESTED(name) arguments;                                                   \
        fixedbitset_ask_done(here, answer == done);                                                     \
        return answer;                                                                                  \
    }

BITS_TESTED_VOID(free, (bits *set), (set),
                 BITS_ASK_PLACE(set) fixedbitset_ask_new(here, "set", set->words, false); BITS_ASK_SET(set))
BITS_TESTED_VOID(rows_free, (bits_rows *rows), (rows),
                 BITS_ASK_PLACE(rows) fixedbitset_ask_new(here, "rows", rows->words, true); fixedbitset_ask_rows(here, rows);)
BITS_TESTED(bits, over, (uint64_t *words, size_t count, size_t length), (words, count, length),
            fixedbitset_ask_enough(here, words, count, length);)
BITS_TESTED(bits_loop, each, (const bits *set, size_t from), (set, from), BITS_ASK_SET(set))
BITS_TESTED(bits_loop, each_zero, (const bits *set, size_t from), (set, from), BITS_ASK_SET(set))
BITS_TESTED(bits_loop, each_back, (const bits *set), (set), BITS_ASK_SET(set))
BITS_TESTED(bits_loop, each_of_two, (const bits *set, const bits *other, unsigned kind), (set, other, kind),
            BITS_ASK_SET(set) BITS_ASK_SET(other))
BITS_TESTED(bits, rows_row, (const bits_rows *rows, size_t row), (rows, row),
            fixedbitset_ask_rows(here, rows); fixedbitset_ask_row(here, rows, row); BITS_ASK_BELOW(row, rows->rows))
/* made by front/calls */
BITS_TESTED_DONE(settle, (uint64_t *words, size_t count, size_t length, size_t kept), (words, count, length, kept),
    BITS_ASK_LIST(words, count) BITS_ASK_EQUAL(count, bits_words(length)) BITS_ASK_AT_MOST(kept, length))
BITS_TESTED(bool, is_clean, (const uint64_t *words, size_t count, size_t length), (words, count, length),
    BITS_ASK_LIST(words, count))
BITS_TESTED(size_t, take_lowest_bit, (uint64_t *word), (word), BITS_ASK_PLACE(word))
BITS_TESTED(bool, contains, (const bits *set, size_t bit), (set, bit), BITS_ASK_SET(set))
BITS_TESTED_DONE(insert, (bits *set, size_t bit), (set, bit), BITS_ASK_SET(set) BITS_ASK_BELOW(bit, set->length))
BITS_TESTED_DONE(remove, (bits *set, size_t bit), (set, bit), BITS_ASK_SET(set) BITS_ASK_BELOW(bit, set->length))
BITS_TESTED_DONE(toggle, (bits *set, size_t bit), (set, bit), BITS_ASK_SET(set) BITS_ASK_BELOW(bit, set->length))
BITS_TESTED(bool, put, (bits *set, size_t bit), (set, bit), BITS_ASK_SET(set) BITS_ASK_BELOW(bit, set->length))
BITS_TESTED(bool, take, (bits *set, size_t bit), (set, bit), BITS_ASK_SET(set) BITS_ASK_BELOW(bit, set->length))
BITS_TESTED_DONE(set, (bits *set, size_t bit, bool enabled), (set, bit, enabled), BITS_ASK_SET(set)
    BITS_ASK_BELOW(bit, set->length))
BITS_TESTED_DONE(set_block, (bits *set, size_t index, uint64_t block), (set, index, block), BITS_ASK_SET(set)
    BITS_ASK_BELOW(index, bits_blocks(set->length)))
BITS_TESTED_DONE(insert_all, (bits *set, const size_t *positions, size_t count), (set, positions, count), BITS_ASK_SET(set)
    BITS_ASK_LIST(positions, count) BITS_ASK_LIST_APART(positions, count, set->words, set->count)
    fixedbitset_ask_each_below(here, positions, count, set->length);)
BITS_TESTED_DONE(remove_all, (bits *set, const size_t *positions, size_t count), (set, positions, count), BITS_ASK_SET(set)
    BITS_ASK_LIST(positions, count) BITS_ASK_LIST_APART(positions, count, set->words, set->count)
    fixedbitset_ask_each_below(here, positions, count, set->length);)
BITS_TESTED_DONE(contains_each, (const bits *set, const size_t *positions, size_t count, bool *answers, size_t places),
    (set, positions, count, answers, places), BITS_ASK_SET(set) BITS_ASK_LIST(positions, count)
    BITS_ASK_LIST(answers, places) BITS_ASK_LIST_APART(answers, places, set->words, set->count)
    BITS_ASK_LIST_APART(answers, places, positions, count) BITS_ASK_EQUAL(places, count))
BITS_TESTED_VOID(clear, (bits *set), (set), BITS_ASK_SET(set))
BITS_TESTED(size_t, minimum, (const bits *set), (set), BITS_ASK_SET(set))
BITS_TESTED(size_t, maximum, (const bits *set), (set), BITS_ASK_SET(set))
BITS_TESTED(size_t, next_one, (const bits *set, size_t from), (set, from), BITS_ASK_SET(set))
BITS_TESTED(size_t, next_zero, (const bits *set, size_t from), (set, from), BITS_ASK_SET(set))
BITS_TESTED(size_t, nth_one, (const bits *set, size_t index), (set, index), BITS_ASK_SET(set))
BITS_TESTED(size_t, first_gap, (const bits *set, size_t count, size_t from), (set, count, from), BITS_ASK_SET(set))
BITS_TESTED(size_t, first_aligned_gap, (const bits *set, size_t count, size_t align, size_t start, size_t end),
    (set, count, align, start, end), BITS_ASK_SET(set) BITS_ASK_RANGE(start, end, set->length))
BITS_TESTED(size_t, last_gap, (const bits *set, size_t count, size_t below), (set, count, below), BITS_ASK_SET(set))
BITS_TESTED(size_t, previous_one, (const bits *set, size_t below), (set, below), BITS_ASK_SET(set))
BITS_TESTED(size_t, previous_zero, (const bits *set, size_t below), (set, below), BITS_ASK_SET(set))
BITS_TESTED(bool, is_clear, (const bits *set), (set), BITS_ASK_SET(set))
BITS_TESTED(bool, is_full, (const bits *set), (set), BITS_ASK_SET(set))
BITS_TESTED(bool, range_is_valid, (const bits *set, size_t start, size_t end), (set, start, end), BITS_ASK_SET(set))
BITS_TESTED_DONE(insert_range, (bits *set, size_t start, size_t end), (set, start, end), BITS_ASK_SET(set)
    BITS_ASK_RANGE(start, end, set->length))
BITS_TESTED_DONE(remove_range, (bits *set, size_t start, size_t end), (set, start, end), BITS_ASK_SET(set)
    BITS_ASK_RANGE(start, end, set->length))
BITS_TESTED_DONE(toggle_range, (bits *set, size_t start, size_t end), (set, start, end), BITS_ASK_SET(set)
    BITS_ASK_RANGE(start, end, set->length))
BITS_TESTED(size_t, count_ones, (const bits *set, size_t start, size_t end), (set, start, end), BITS_ASK_SET(set)
    BITS_ASK_RANGE(start, end, set->length))
BITS_TESTED(size_t, count_zeroes, (const bits *set, size_t start, size_t end), (set, start, end), BITS_ASK_SET(set)
    BITS_ASK_RANGE(start, end, set->length))
BITS_TESTED(bool, contains_all_in_range, (const bits *set, size_t start, size_t end), (set, start, end), BITS_ASK_SET(set)
    BITS_ASK_RANGE(start, end, set->length))
BITS_TESTED(bool, contains_any_in_range, (const bits *set, size_t start, size_t end), (set, start, end), BITS_ASK_SET(set)
    BITS_ASK_RANGE(start, end, set->length))
BITS_TESTED_DONE(union_with, (bits *set, const bits *other), (set, other), BITS_ASK_SET(set) BITS_ASK_SET(other)
    BITS_ASK_APART(set, other) BITS_ASK_NO_LONGER(other, set))
BITS_TESTED_DONE(symmetric_difference_with, (bits *set, const bits *other), (set, other), BITS_ASK_SET(set)
    BITS_ASK_SET(other) BITS_ASK_APART(set, other) BITS_ASK_NO_LONGER(other, set))
BITS_TESTED_VOID(intersect_with, (bits *set, const bits *other), (set, other), BITS_ASK_SET(set) BITS_ASK_SET(other)
    BITS_ASK_APART(set, other))
BITS_TESTED_VOID(difference_with, (bits *set, const bits *other), (set, other), BITS_ASK_SET(set) BITS_ASK_SET(other)
    BITS_ASK_APART(set, other))
BITS_TESTED_DONE(union_with_change, (bits *set, const bits *other, bool *changed), (set, other, changed), BITS_ASK_SET(set)
    BITS_ASK_SET(other) BITS_ASK_APART(set, other) BITS_ASK_PLACE(changed) BITS_ASK_NO_LONGER(other, set))
BITS_TESTED_DONE(symmetric_difference_with_change, (bits *set, const bits *other, bool *changed), (set, other, changed),
    BITS_ASK_SET(set) BITS_ASK_SET(other) BITS_ASK_APART(set, other) BITS_ASK_PLACE(changed) BITS_ASK_NO_LONGER(other, set))
BITS_TESTED(bool, intersect_with_change, (bits *set, const bits *other), (set, other), BITS_ASK_SET(set) BITS_ASK_SET(other)
    BITS_ASK_APART(set, other))
BITS_TESTED(bool, difference_with_change, (bits *set, const bits *other), (set, other), BITS_ASK_SET(set)
    BITS_ASK_SET(other) BITS_ASK_APART(set, other))
BITS_TESTED_DONE(union_with_difference, (bits *set, const bits *gens, const bits *kills, bool *changed),
    (set, gens, kills, changed), BITS_ASK_SET(set) BITS_ASK_SET(gens) BITS_ASK_SET(kills) BITS_ASK_APART(set, gens)
    BITS_ASK_APART(set, kills) BITS_ASK_PLACE(changed) BITS_ASK_NO_LONGER(gens, set))
BITS_TESTED(size_t, union_count, (const bits *set, const bits *other), (set, other), BITS_ASK_SET(set) BITS_ASK_SET(other))
BITS_TESTED(size_t, intersection_count, (const bits *set, const bits *other), (set, other), BITS_ASK_SET(set)
    BITS_ASK_SET(other))
BITS_TESTED(size_t, difference_count, (const bits *set, const bits *other), (set, other), BITS_ASK_SET(set)
    BITS_ASK_SET(other))
BITS_TESTED(size_t, symmetric_difference_count, (const bits *set, const bits *other), (set, other), BITS_ASK_SET(set)
    BITS_ASK_SET(other))
BITS_TESTED(bool, is_disjoint, (const bits *set, const bits *other), (set, other), BITS_ASK_SET(set) BITS_ASK_SET(other))
BITS_TESTED(bool, is_subset, (const bits *set, const bits *other), (set, other), BITS_ASK_SET(set) BITS_ASK_SET(other))
BITS_TESTED(size_t, first_lacking, (const bits *set, const bits *other), (set, other), BITS_ASK_SET(set) BITS_ASK_SET(other))
BITS_TESTED(size_t, next_common, (const bits *set, const bits *other, size_t from), (set, other, from), BITS_ASK_SET(set)
    BITS_ASK_SET(other))
BITS_TESTED(bool, equal, (const bits *set, const bits *other), (set, other), BITS_ASK_SET(set) BITS_ASK_SET(other))
BITS_TESTED(ptrdiff_t, compare, (const bits *set, const bits *other), (set, other), BITS_ASK_SET(set) BITS_ASK_SET(other))
BITS_TESTED_DONE(copy, (bits *to, const bits *set), (to, set), BITS_ASK_ROOM(to) BITS_ASK_SET(set) BITS_ASK_APART(to, set)
    BITS_ASK_EQUAL(to->count, bits_words(to->length)))
BITS_TESTED_DONE(union_of, (bits *to, const bits *set, const bits *other), (to, set, other), BITS_ASK_ROOM(to)
    BITS_ASK_SET(set) BITS_ASK_SET(other) BITS_ASK_APART(to, set) BITS_ASK_APART(to, other)
    BITS_ASK_EQUAL(to->length, set->length < other->length ? other->length : set->length)
    BITS_ASK_EQUAL(to->count, bits_words(to->length)))
BITS_TESTED_DONE(symmetric_difference_of, (bits *to, const bits *set, const bits *other), (to, set, other),
    BITS_ASK_ROOM(to) BITS_ASK_SET(set) BITS_ASK_SET(other) BITS_ASK_APART(to, set) BITS_ASK_APART(to, other)
    BITS_ASK_EQUAL(to->length, set->length < other->length ? other->length : set->length)
    BITS_ASK_EQUAL(to->count, bits_words(to->length)))
BITS_TESTED_DONE(intersection_of, (bits *to, const bits *set, const bits *other), (to, set, other), BITS_ASK_ROOM(to)
    BITS_ASK_SET(set) BITS_ASK_SET(other) BITS_ASK_APART(to, set) BITS_ASK_APART(to, other)
    BITS_ASK_EQUAL(to->length, set->length < other->length ? set->length : other->length)
    BITS_ASK_EQUAL(to->count, bits_words(to->length)))
BITS_TESTED_DONE(difference_of, (bits *to, const bits *set, const bits *other), (to, set, other), BITS_ASK_ROOM(to)
    BITS_ASK_SET(set) BITS_ASK_SET(other) BITS_ASK_APART(to, set) BITS_ASK_APART(to, other)
    BITS_ASK_EQUAL(to->length, set->length) BITS_ASK_EQUAL(to->count, bits_words(to->length)))
BITS_TESTED_VOID(shift_up, (bits *set, size_t by), (set, by), BITS_ASK_SET(set))
BITS_TESTED_VOID(shift_down, (bits *set, size_t by), (set, by), BITS_ASK_SET(set))
BITS_TESTED_VOID(union_with_shifted, (bits *set, const bits *other, size_t by), (set, other, by), BITS_ASK_SET(set)
    BITS_ASK_SET(other) BITS_ASK_APART(set, other))
BITS_TESTED_VOID(union_with_own_shift, (bits *set, size_t by), (set, by), BITS_ASK_SET(set))
BITS_TESTED_DONE(slice, (bits *part, const bits *set, size_t start, size_t end), (part, set, start, end), BITS_ASK_SET(part)
    BITS_ASK_SET(set) BITS_ASK_APART(part, set) BITS_ASK_RANGE(start, end, set->length)
    BITS_ASK_EQUAL(part->length, end - start))
BITS_TESTED_DONE(copy_range, (bits *set, const bits *other, size_t start, size_t end, size_t at),
    (set, other, start, end, at), BITS_ASK_SET(set) BITS_ASK_SET(other) BITS_ASK_APART(set, other)
    BITS_ASK_RANGE(start, end, other->length) BITS_ASK_RANGE(at, at + (end - start), set->length))
BITS_TESTED_DONE(load, (const bits *set, size_t start, size_t width, uint64_t *number), (set, start, width, number),
    BITS_ASK_SET(set) BITS_ASK_PLACE(number) BITS_ASK_BELOW(width, 65) BITS_ASK_RANGE(start, start + width, set->length))
BITS_TESTED_DONE(store, (bits *set, size_t start, size_t width, uint64_t number), (set, start, width, number),
    BITS_ASK_SET(set) BITS_ASK_BELOW(width, 65) BITS_ASK_RANGE(start, start + width, set->length))
BITS_TESTED_VOID(from_bytes, (bits *set, const uint8_t *bytes, size_t count), (set, bytes, count), BITS_ASK_SET(set)
    BITS_ASK_LIST(bytes, count) BITS_ASK_LIST_APART(bytes, count, set->words, set->count))
BITS_TESTED_DONE(to_bytes, (const bits *set, uint8_t *bytes, size_t count), (set, bytes, count), BITS_ASK_SET(set)
    BITS_ASK_LIST(bytes, count) BITS_ASK_LIST_APART(bytes, count, set->words, set->count)
    BITS_ASK_EQUAL(count, bits_bytes(set->length)))
BITS_TESTED_VOID(reverse_each_byte, (uint8_t *bytes, size_t count), (bytes, count), BITS_ASK_LIST(bytes, count))
BITS_TESTED_DONE(ranks_fill, (bits_ranks *ranks, const bits *set, size_t *directory, size_t entries),
    (ranks, set, directory, entries), BITS_ASK_PLACE(ranks) BITS_ASK_SET(set) BITS_ASK_LIST(directory, entries)
    BITS_ASK_LIST_APART(directory, entries, set->words, set->count) BITS_ASK_EQUAL(entries, bits_ranks_entries(set->length)))
BITS_TESTED(size_t, rank, (const bits_ranks *ranks, size_t position), (ranks, position), fixedbitset_ask_ranks(here, ranks);)
BITS_TESTED(size_t, select, (const bits_ranks *ranks, size_t index), (ranks, index), fixedbitset_ask_ranks(here, ranks);)
BITS_TESTED_DONE(rows_clear, (uint64_t *words, size_t count, size_t rows, size_t columns), (words, count, rows, columns),
    BITS_ASK_LIST(words, count) BITS_ASK_EQUAL(count, bits_rows_words(rows, columns)))
BITS_TESTED(bool, rows_get, (const bits_rows *rows, size_t row, size_t column), (rows, row, column),
    fixedbitset_ask_rows(here, rows); fixedbitset_ask_row(here, rows, row);)
BITS_TESTED_DONE(rows_set, (bits_rows *rows, size_t row, size_t column, bool enabled), (rows, row, column, enabled),
    fixedbitset_ask_rows(here, rows); fixedbitset_ask_row(here, rows, row); BITS_ASK_BELOW(row, rows->rows)
    BITS_ASK_BELOW(column, rows->columns))
BITS_TESTED_DONE(rows_union, (bits_rows *rows, size_t from, size_t into, bool *changed), (rows, from, into, changed),
    fixedbitset_ask_rows(here, rows); fixedbitset_ask_row(here, rows, from); fixedbitset_ask_row(here, rows, into);
    BITS_ASK_PLACE(changed) BITS_ASK_BELOW(from, rows->rows) BITS_ASK_BELOW(into, rows->rows))
BITS_TESTED_DONE(rows_ones, (bits_walk *walk, const bits_rows *rows, size_t row), (walk, rows, row), BITS_ASK_PLACE(walk)
    fixedbitset_ask_rows(here, rows); fixedbitset_ask_row(here, rows, row); BITS_ASK_BELOW(row, rows->rows))
BITS_TESTED_VOID(rows_close, (bits_rows *rows), (rows), fixedbitset_ask_rows(here, rows);
    fixedbitset_ask_each_row(here, rows);)
BITS_TESTED_VOID(ones, (bits_walk *walk, const bits *set), (walk, set), BITS_ASK_PLACE(walk) BITS_ASK_SET(set))
BITS_TESTED_VOID(zeroes, (bits_walk *walk, const bits *set), (walk, set), BITS_ASK_PLACE(walk) BITS_ASK_SET(set))
BITS_TESTED_DONE(ones_in, (bits_walk *walk, const bits *set, size_t start, size_t end), (walk, set, start, end),
    BITS_ASK_PLACE(walk) BITS_ASK_SET(set) BITS_ASK_RANGE(start, end, set->length))
BITS_TESTED_DONE(zeroes_in, (bits_walk *walk, const bits *set, size_t start, size_t end), (walk, set, start, end),
    BITS_ASK_PLACE(walk) BITS_ASK_SET(set) BITS_ASK_RANGE(start, end, set->length))
BITS_TESTED_VOID(runs, (bits_run_walk *walk, const bits *set), (walk, set), BITS_ASK_PLACE(walk) BITS_ASK_SET(set))
BITS_TESTED_VOID(zero_runs, (bits_run_walk *walk, const bits *set), (walk, set), BITS_ASK_PLACE(walk) BITS_ASK_SET(set))
BITS_TESTED_VOID(intersection_iter, (bits_sieve *walk, const bits *set, const bits *other), (walk, set, other),
    BITS_ASK_PLACE(walk) BITS_ASK_SET(set) BITS_ASK_SET(other))
BITS_TESTED_VOID(difference_iter, (bits_sieve *walk, const bits *set, const bits *other), (walk, set, other),
    BITS_ASK_PLACE(walk) BITS_ASK_SET(set) BITS_ASK_SET(other))
BITS_TESTED_VOID(union_iter, (bits_pair *walk, const bits *set, const bits *other), (walk, set, other), BITS_ASK_PLACE(walk)
    BITS_ASK_SET(set) BITS_ASK_SET(other))
BITS_TESTED_VOID(symmetric_difference_iter, (bits_pair *walk, const bits *set, const bits *other), (walk, set, other),
    BITS_ASK_PLACE(walk) BITS_ASK_SET(set) BITS_ASK_SET(other))
BITS_TESTED(bool, ones_next, (bits_walk *walk, size_t *position), (walk, position), fixedbitset_ask_walk(here, walk);
    BITS_ASK_PLACE(position))
BITS_TESTED(bool, ones_next_back, (bits_walk *walk, size_t *position), (walk, position), fixedbitset_ask_walk(here, walk);
    BITS_ASK_PLACE(position))
BITS_TESTED(size_t, ones_batch, (bits_walk *walk, size_t *positions, size_t room), (walk, positions, room),
    fixedbitset_ask_walk(here, walk); BITS_ASK_LIST(positions, room))
BITS_TESTED(size_t, ones_batch_back, (bits_walk *walk, size_t *positions, size_t room), (walk, positions, room),
    fixedbitset_ask_walk(here, walk); BITS_ASK_LIST(positions, room))
BITS_TESTED(size_t, ones_batch_u32, (bits_walk *walk, uint32_t *positions, size_t room), (walk, positions, room),
    fixedbitset_ask_walk(here, walk); BITS_ASK_LIST(positions, room))
BITS_TESTED(bool, zeroes_next, (bits_walk *walk, size_t *position), (walk, position), fixedbitset_ask_walk(here, walk);
    BITS_ASK_PLACE(position))
BITS_TESTED(bool, zeroes_next_back, (bits_walk *walk, size_t *position), (walk, position), fixedbitset_ask_walk(here, walk);
    BITS_ASK_PLACE(position))
BITS_TESTED(size_t, zeroes_batch, (bits_walk *walk, size_t *positions, size_t room), (walk, positions, room),
    fixedbitset_ask_walk(here, walk); BITS_ASK_LIST(positions, room))
BITS_TESTED(size_t, zeroes_batch_back, (bits_walk *walk, size_t *positions, size_t room), (walk, positions, room),
    fixedbitset_ask_walk(here, walk); BITS_ASK_LIST(positions, room))
BITS_TESTED(bool, intersection_next, (bits_sieve *walk, size_t *position), (walk, position),
    fixedbitset_ask_sieve(here, walk); BITS_ASK_PLACE(position))
BITS_TESTED(bool, intersection_next_back, (bits_sieve *walk, size_t *position), (walk, position),
    fixedbitset_ask_sieve(here, walk); BITS_ASK_PLACE(position))
BITS_TESTED(size_t, intersection_batch, (bits_sieve *walk, size_t *positions, size_t room), (walk, positions, room),
    fixedbitset_ask_sieve(here, walk); BITS_ASK_LIST(positions, room))
BITS_TESTED(size_t, intersection_batch_back, (bits_sieve *walk, size_t *positions, size_t room), (walk, positions, room),
    fixedbitset_ask_sieve(here, walk); BITS_ASK_LIST(positions, room))
BITS_TESTED(bool, difference_next, (bits_sieve *walk, size_t *position), (walk, position),
    fixedbitset_ask_sieve(here, walk); BITS_ASK_PLACE(position))
BITS_TESTED(bool, difference_next_back, (bits_sieve *walk, size_t *position), (walk, position),
    fixedbitset_ask_sieve(here, walk); BITS_ASK_PLACE(position))
BITS_TESTED(size_t, difference_batch, (bits_sieve *walk, size_t *positions, size_t room), (walk, positions, room),
    fixedbitset_ask_sieve(here, walk); BITS_ASK_LIST(positions, room))
BITS_TESTED(size_t, difference_batch_back, (bits_sieve *walk, size_t *positions, size_t room), (walk, positions, room),
    fixedbitset_ask_sieve(here, walk); BITS_ASK_LIST(positions, room))
BITS_TESTED(bool, union_next, (bits_pair *walk, size_t *position), (walk, position), fixedbitset_ask_pair(here, walk);
    BITS_ASK_PLACE(position))
BITS_TESTED(bool, union_next_back, (bits_pair *walk, size_t *position), (walk, position), fixedbitset_ask_pair(here, walk);
    BITS_ASK_PLACE(position))
BITS_TESTED(size_t, union_batch, (bits_pair *walk, size_t *positions, size_t room), (walk, positions, room),
    fixedbitset_ask_pair(here, walk); BITS_ASK_LIST(positions, room))
BITS_TESTED(size_t, union_batch_back, (bits_pair *walk, size_t *positions, size_t room), (walk, positions, room),
    fixedbitset_ask_pair(here, walk); BITS_ASK_LIST(positions, room))
BITS_TESTED(bool, symmetric_difference_next, (bits_pair *walk, size_t *position), (walk, position),
    fixedbitset_ask_pair(here, walk); BITS_ASK_PLACE(position))
BITS_TESTED(bool, symmetric_difference_next_back, (bits_pair *walk, size_t *position), (walk, position),
    fixedbitset_ask_pair(here, walk); BITS_ASK_PLACE(position))
BITS_TESTED(size_t, symmetric_difference_batch, (bits_pair *walk, size_t *positions, size_t room), (walk, positions, room),
    fixedbitset_ask_pair(here, walk); BITS_ASK_LIST(positions, room))
BITS_TESTED(size_t, symmetric_difference_batch_back, (bits_pair *walk, size_t *positions, size_t room),
    (walk, positions, room), fixedbitset_ask_pair(here, walk); BITS_ASK_LIST(positions, room))
BITS_TESTED(bool, runs_next, (bits_run_walk *walk, size_t *start, size_t *end), (walk, start, end),
    fixedbitset_ask_run_walk(here, walk); BITS_ASK_PLACE(start) BITS_ASK_PLACE(end))
BITS_TESTED(bool, runs_next_back, (bits_run_walk *walk, size_t *start, size_t *end), (walk, start, end),
    fixedbitset_ask_run_walk(here, walk); BITS_ASK_PLACE(start) BITS_ASK_PLACE(end))
/* end of what front/calls makes */

/* ---- from here on each call in a C program is the checked call */

#ifndef __cplusplus
#define BITS_CALL(name, ...) fixedbitset_tested_##name(__VA_ARGS__, __FILE__, __LINE__)

/* made by front/calls */
#ifdef BITS_NO_SHORT_NAMES
#define fixedbitset_bits_free(...) BITS_CALL(free, __VA_ARGS__)
#define fixedbitset_bits_rows_free(...) BITS_CALL(rows_free, __VA_ARGS__)
#define fixedbitset_bits_over(...) BITS_CALL(over, __VA_ARGS__)
#define fixedbitset_bits_each(...) BITS_CALL(each, __VA_ARGS__)
#define fixedbitset_bits_each_zero(...) BITS_CALL(each_zero, __VA_ARGS__)
#define fixedbitset_bits_each_back(...) BITS_CALL(each_back, __VA_ARGS__)
#define fixedbitset_bits_each_of_two(...) BITS_CALL(each_of_two, __VA_ARGS__)
#define fixedbitset_bits_rows_row(...) BITS_CALL(rows_row, __VA_ARGS__)
#define fixedbitset_bits_settle(...) BITS_CALL(settle, __VA_ARGS__)
#define fixedbitset_bits_is_clean(...) BITS_CALL(is_clean, __VA_ARGS__)
#define fixedbitset_bits_take_lowest_bit(...) BITS_CALL(take_lowest_bit, __VA_ARGS__)
#define fixedbitset_bits_contains(...) BITS_CALL(contains, __VA_ARGS__)
#define fixedbitset_bits_insert(...) BITS_CALL(insert, __VA_ARGS__)
#define fixedbitset_bits_remove(...) BITS_CALL(remove, __VA_ARGS__)
#define fixedbitset_bits_toggle(...) BITS_CALL(toggle, __VA_ARGS__)
#define fixedbitset_bits_put(...) BITS_CALL(put, __VA_ARGS__)
#define fixedbitset_bits_take(...) BITS_CALL(take, __VA_ARGS__)
#define fixedbitset_bits_set(...) BITS_CALL(set, __VA_ARGS__)
#define fixedbitset_bits_set_block(...) BITS_CALL(set_block, __VA_ARGS__)
#define fixedbitset_bits_insert_all(...) BITS_CALL(insert_all, __VA_ARGS__)
#define fixedbitset_bits_remove_all(...) BITS_CALL(remove_all, __VA_ARGS__)
#define fixedbitset_bits_contains_each(...) BITS_CALL(contains_each, __VA_ARGS__)
#define fixedbitset_bits_clear(...) BITS_CALL(clear, __VA_ARGS__)
#define fixedbitset_bits_minimum(...) BITS_CALL(minimum, __VA_ARGS__)
#define fixedbitset_bits_maximum(...) BITS_CALL(maximum, __VA_ARGS__)
#define fixedbitset_bits_next_one(...) BITS_CALL(next_one, __VA_ARGS__)
#define fixedbitset_bits_next_zero(...) BITS_CALL(next_zero, __VA_ARGS__)
#define fixedbitset_bits_nth_one(...) BITS_CALL(nth_one, __VA_ARGS__)
#define fixedbitset_bits_first_gap(...) BITS_CALL(first_gap, __VA_ARGS__)
#define fixedbitset_bits_first_aligned_gap(...) BITS_CALL(first_aligned_gap, __VA_ARGS__)
#define fixedbitset_bits_last_gap(...) BITS_CALL(last_gap, __VA_ARGS__)
#define fixedbitset_bits_previous_one(...) BITS_CALL(previous_one, __VA_ARGS__)
#define fixedbitset_bits_previous_zero(...) BITS_CALL(previous_zero, __VA_ARGS__)
#define fixedbitset_bits_is_clear(...) BITS_CALL(is_clear, __VA_ARGS__)
#define fixedbitset_bits_is_full(...) BITS_CALL(is_full, __VA_ARGS__)
#define fixedbitset_bits_range_is_valid(...) BITS_CALL(range_is_valid, __VA_ARGS__)
#define fixedbitset_bits_insert_range(...) BITS_CALL(insert_range, __VA_ARGS__)
#define fixedbitset_bits_remove_range(...) BITS_CALL(remove_range, __VA_ARGS__)
#define fixedbitset_bits_toggle_range(...) BITS_CALL(toggle_range, __VA_ARGS__)
#define fixedbitset_bits_count_ones(...) BITS_CALL(count_ones, __VA_ARGS__)
#define fixedbitset_bits_count_zeroes(...) BITS_CALL(count_zeroes, __VA_ARGS__)
#define fixedbitset_bits_contains_all_in_range(...) BITS_CALL(contains_all_in_range, __VA_ARGS__)
#define fixedbitset_bits_contains_any_in_range(...) BITS_CALL(contains_any_in_range, __VA_ARGS__)
#define fixedbitset_bits_union_with(...) BITS_CALL(union_with, __VA_ARGS__)
#define fixedbitset_bits_symmetric_difference_with(...) BITS_CALL(symmetric_difference_with, __VA_ARGS__)
#define fixedbitset_bits_intersect_with(...) BITS_CALL(intersect_with, __VA_ARGS__)
#define fixedbitset_bits_difference_with(...) BITS_CALL(difference_with, __VA_ARGS__)
#define fixedbitset_bits_union_with_change(...) BITS_CALL(union_with_change, __VA_ARGS__)
#define fixedbitset_bits_symmetric_difference_with_change(...) BITS_CALL(symmetric_difference_with_change, __VA_ARGS__)
#define fixedbitset_bits_intersect_with_change(...) BITS_CALL(intersect_with_change, __VA_ARGS__)
#define fixedbitset_bits_difference_with_change(...) BITS_CALL(difference_with_change, __VA_ARGS__)
#define fixedbitset_bits_union_with_difference(...) BITS_CALL(union_with_difference, __VA_ARGS__)
#define fixedbitset_bits_union_count(...) BITS_CALL(union_count, __VA_ARGS__)
#define fixedbitset_bits_intersection_count(...) BITS_CALL(intersection_count, __VA_ARGS__)
#define fixedbitset_bits_difference_count(...) BITS_CALL(difference_count, __VA_ARGS__)
#define fixedbitset_bits_symmetric_difference_count(...) BITS_CALL(symmetric_difference_count, __VA_ARGS__)
#define fixedbitset_bits_is_disjoint(...) BITS_CALL(is_disjoint, __VA_ARGS__)
#define fixedbitset_bits_is_subset(...) BITS_CALL(is_subset, __VA_ARGS__)
#define fixedbitset_bits_first_lacking(...) BITS_CALL(first_lacking, __VA_ARGS__)
#define fixedbitset_bits_next_common(...) BITS_CALL(next_common, __VA_ARGS__)
#define fixedbitset_bits_equal(...) BITS_CALL(equal, __VA_ARGS__)
#define fixedbitset_bits_compare(...) BITS_CALL(compare, __VA_ARGS__)
#define fixedbitset_bits_copy(...) BITS_CALL(copy, __VA_ARGS__)
#define fixedbitset_bits_union_of(...) BITS_CALL(union_of, __VA_ARGS__)
#define fixedbitset_bits_symmetric_difference_of(...) BITS_CALL(symmetric_difference_of, __VA_ARGS__)
#define fixedbitset_bits_intersection_of(...) BITS_CALL(intersection_of, __VA_ARGS__)
#define fixedbitset_bits_difference_of(...) BITS_CALL(difference_of, __VA_ARGS__)
#define fixedbitset_bits_shift_up(...) BITS_CALL(shift_up, __VA_ARGS__)
#define fixedbitset_bits_shift_down(...) BITS_CALL(shift_down, __VA_ARGS__)
#define fixedbitset_bits_union_with_shifted(...) BITS_CALL(union_with_shifted, __VA_ARGS__)
#define fixedbitset_bits_union_with_own_shift(...) BITS_CALL(union_with_own_shift, __VA_ARGS__)
#define fixedbitset_bits_slice(...) BITS_CALL(slice, __VA_ARGS__)
#define fixedbitset_bits_copy_range(...) BITS_CALL(copy_range, __VA_ARGS__)
#define fixedbitset_bits_load(...) BITS_CALL(load, __VA_ARGS__)
#define fixedbitset_bits_store(...) BITS_CALL(store, __VA_ARGS__)
#define fixedbitset_bits_from_bytes(...) BITS_CALL(from_bytes, __VA_ARGS__)
#define fixedbitset_bits_to_bytes(...) BITS_CALL(to_bytes, __VA_ARGS__)
#define fixedbitset_bits_reverse_each_byte(...) BITS_CALL(reverse_each_byte, __VA_ARGS__)
#define fixedbitset_bits_ranks_fill(...) BITS_CALL(ranks_fill, __VA_ARGS__)
#define fixedbitset_bits_rank(...) BITS_CALL(rank, __VA_ARGS__)
#define fixedbitset_bits_select(...) BITS_CALL(select, __VA_ARGS__)
#define fixedbitset_bits_rows_clear(...) BITS_CALL(rows_clear, __VA_ARGS__)
#define fixedbitset_bits_rows_get(...) BITS_CALL(rows_get, __VA_ARGS__)
#define fixedbitset_bits_rows_set(...) BITS_CALL(rows_set, __VA_ARGS__)
#define fixedbitset_bits_rows_union(...) BITS_CALL(rows_union, __VA_ARGS__)
#define fixedbitset_bits_rows_ones(...) BITS_CALL(rows_ones, __VA_ARGS__)
#define fixedbitset_bits_rows_close(...) BITS_CALL(rows_close, __VA_ARGS__)
#define fixedbitset_bits_ones(...) BITS_CALL(ones, __VA_ARGS__)
#define fixedbitset_bits_ones_next(...) BITS_CALL(ones_next, __VA_ARGS__)
#define fixedbitset_bits_ones_next_back(...) BITS_CALL(ones_next_back, __VA_ARGS__)
#define fixedbitset_bits_ones_batch(...) BITS_CALL(ones_batch, __VA_ARGS__)
#define fixedbitset_bits_ones_batch_back(...) BITS_CALL(ones_batch_back, __VA_ARGS__)
#define fixedbitset_bits_ones_batch_u32(...) BITS_CALL(ones_batch_u32, __VA_ARGS__)
#define fixedbitset_bits_zeroes(...) BITS_CALL(zeroes, __VA_ARGS__)
#define fixedbitset_bits_zeroes_next(...) BITS_CALL(zeroes_next, __VA_ARGS__)
#define fixedbitset_bits_zeroes_next_back(...) BITS_CALL(zeroes_next_back, __VA_ARGS__)
#define fixedbitset_bits_zeroes_batch(...) BITS_CALL(zeroes_batch, __VA_ARGS__)
#define fixedbitset_bits_zeroes_batch_back(...) BITS_CALL(zeroes_batch_back, __VA_ARGS__)
#define fixedbitset_bits_ones_in(...) BITS_CALL(ones_in, __VA_ARGS__)
#define fixedbitset_bits_zeroes_in(...) BITS_CALL(zeroes_in, __VA_ARGS__)
#define fixedbitset_bits_runs(...) BITS_CALL(runs, __VA_ARGS__)
#define fixedbitset_bits_zero_runs(...) BITS_CALL(zero_runs, __VA_ARGS__)
#define fixedbitset_bits_runs_next(...) BITS_CALL(runs_next, __VA_ARGS__)
#define fixedbitset_bits_runs_next_back(...) BITS_CALL(runs_next_back, __VA_ARGS__)
#define fixedbitset_bits_intersection_iter(...) BITS_CALL(intersection_iter, __VA_ARGS__)
#define fixedbitset_bits_intersection_next(...) BITS_CALL(intersection_next, __VA_ARGS__)
#define fixedbitset_bits_intersection_next_back(...) BITS_CALL(intersection_next_back, __VA_ARGS__)
#define fixedbitset_bits_intersection_batch(...) BITS_CALL(intersection_batch, __VA_ARGS__)
#define fixedbitset_bits_intersection_batch_back(...) BITS_CALL(intersection_batch_back, __VA_ARGS__)
#define fixedbitset_bits_difference_iter(...) BITS_CALL(difference_iter, __VA_ARGS__)
#define fixedbitset_bits_difference_next(...) BITS_CALL(difference_next, __VA_ARGS__)
#define fixedbitset_bits_difference_next_back(...) BITS_CALL(difference_next_back, __VA_ARGS__)
#define fixedbitset_bits_difference_batch(...) BITS_CALL(difference_batch, __VA_ARGS__)
#define fixedbitset_bits_difference_batch_back(...) BITS_CALL(difference_batch_back, __VA_ARGS__)
#define fixedbitset_bits_union_iter(...) BITS_CALL(union_iter, __VA_ARGS__)
#define fixedbitset_bits_union_next(...) BITS_CALL(union_next, __VA_ARGS__)
#define fixedbitset_bits_union_next_back(...) BITS_CALL(union_next_back, __VA_ARGS__)
#define fixedbitset_bits_union_batch(...) BITS_CALL(union_batch, __VA_ARGS__)
#define fixedbitset_bits_union_batch_back(...) BITS_CALL(union_batch_back, __VA_ARGS__)
#define fixedbitset_bits_symmetric_difference_iter(...) BITS_CALL(symmetric_difference_iter, __VA_ARGS__)
#define fixedbitset_bits_symmetric_difference_next(...) BITS_CALL(symmetric_difference_next, __VA_ARGS__)
#define fixedbitset_bits_symmetric_difference_next_back(...) BITS_CALL(symmetric_difference_next_back, __VA_ARGS__)
#define fixedbitset_bits_symmetric_difference_batch(...) BITS_CALL(symmetric_difference_batch, __VA_ARGS__)
#define fixedbitset_bits_symmetric_difference_batch_back(...) BITS_CALL(symmetric_difference_batch_back, __VA_ARGS__)
#else
#define bits_free(...) BITS_CALL(free, __VA_ARGS__)
#define bits_rows_free(...) BITS_CALL(rows_free, __VA_ARGS__)
#define bits_over(...) BITS_CALL(over, __VA_ARGS__)
#define bits_each(...) BITS_CALL(each, __VA_ARGS__)
#define bits_each_zero(...) BITS_CALL(each_zero, __VA_ARGS__)
#define bits_each_back(...) BITS_CALL(each_back, __VA_ARGS__)
#define bits_each_of_two(...) BITS_CALL(each_of_two, __VA_ARGS__)
#define bits_rows_row(...) BITS_CALL(rows_row, __VA_ARGS__)
#define bits_settle(...) BITS_CALL(settle, __VA_ARGS__)
#define bits_is_clean(...) BITS_CALL(is_clean, __VA_ARGS__)
#define bits_take_lowest_bit(...) BITS_CALL(take_lowest_bit, __VA_ARGS__)
#define bits_contains(...) BITS_CALL(contains, __VA_ARGS__)
#define bits_insert(...) BITS_CALL(insert, __VA_ARGS__)
#define bits_remove(...) BITS_CALL(remove, __VA_ARGS__)
#define bits_toggle(...) BITS_CALL(toggle, __VA_ARGS__)
#define bits_put(...) BITS_CALL(put, __VA_ARGS__)
#define bits_take(...) BITS_CALL(take, __VA_ARGS__)
#define bits_set(...) BITS_CALL(set, __VA_ARGS__)
#define bits_set_block(...) BITS_CALL(set_block, __VA_ARGS__)
#define bits_insert_all(...) BITS_CALL(insert_all, __VA_ARGS__)
#define bits_remove_all(...) BITS_CALL(remove_all, __VA_ARGS__)
#define bits_contains_each(...) BITS_CALL(contains_each, __VA_ARGS__)
#define bits_clear(...) BITS_CALL(clear, __VA_ARGS__)
#define bits_minimum(...) BITS_CALL(minimum, __VA_ARGS__)
#define bits_maximum(...) BITS_CALL(maximum, __VA_ARGS__)
#define bits_next_one(...) BITS_CALL(next_one, __VA_ARGS__)
#define bits_next_zero(...) BITS_CALL(next_zero, __VA_ARGS__)
#define bits_nth_one(...) BITS_CALL(nth_one, __VA_ARGS__)
#define bits_first_gap(...) BITS_CALL(first_gap, __VA_ARGS__)
#define bits_first_aligned_gap(...) BITS_CALL(first_aligned_gap, __VA_ARGS__)
#define bits_last_gap(...) BITS_CALL(last_gap, __VA_ARGS__)
#define bits_previous_one(...) BITS_CALL(previous_one, __VA_ARGS__)
#define bits_previous_zero(...) BITS_CALL(previous_zero, __VA_ARGS__)
#define bits_is_clear(...) BITS_CALL(is_clear, __VA_ARGS__)
#define bits_is_full(...) BITS_CALL(is_full, __VA_ARGS__)
#define bits_range_is_valid(...) BITS_CALL(range_is_valid, __VA_ARGS__)
#define bits_insert_range(...) BITS_CALL(insert_range, __VA_ARGS__)
#define bits_remove_range(...) BITS_CALL(remove_range, __VA_ARGS__)
#define bits_toggle_range(...) BITS_CALL(toggle_range, __VA_ARGS__)
#define bits_count_ones(...) BITS_CALL(count_ones, __VA_ARGS__)
#define bits_count_zeroes(...) BITS_CALL(count_zeroes, __VA_ARGS__)
#define bits_contains_all_in_range(...) BITS_CALL(contains_all_in_range, __VA_ARGS__)
#define bits_contains_any_in_range(...) BITS_CALL(contains_any_in_range, __VA_ARGS__)
#define bits_union_with(...) BITS_CALL(union_with, __VA_ARGS__)
#define bits_symmetric_difference_with(...) BITS_CALL(symmetric_difference_with, __VA_ARGS__)
#define bits_intersect_with(...) BITS_CALL(intersect_with, __VA_ARGS__)
#define bits_difference_with(...) BITS_CALL(difference_with, __VA_ARGS__)
#define bits_union_with_change(...) BITS_CALL(union_with_change, __VA_ARGS__)
#define bits_symmetric_difference_with_change(...) BITS_CALL(symmetric_difference_with_change, __VA_ARGS__)
#define bits_intersect_with_change(...) BITS_CALL(intersect_with_change, __VA_ARGS__)
#define bits_difference_with_change(...) BITS_CALL(difference_with_change, __VA_ARGS__)
#define bits_union_with_difference(...) BITS_CALL(union_with_difference, __VA_ARGS__)
#define bits_union_count(...) BITS_CALL(union_count, __VA_ARGS__)
#define bits_intersection_count(...) BITS_CALL(intersection_count, __VA_ARGS__)
#define bits_difference_count(...) BITS_CALL(difference_count, __VA_ARGS__)
#define bits_symmetric_difference_count(...) BITS_CALL(symmetric_difference_count, __VA_ARGS__)
#define bits_is_disjoint(...) BITS_CALL(is_disjoint, __VA_ARGS__)
#define bits_is_subset(...) BITS_CALL(is_subset, __VA_ARGS__)
#define bits_first_lacking(...) BITS_CALL(first_lacking, __VA_ARGS__)
#define bits_next_common(...) BITS_CALL(next_common, __VA_ARGS__)
#define bits_equal(...) BITS_CALL(equal, __VA_ARGS__)
#define bits_compare(...) BITS_CALL(compare, __VA_ARGS__)
#define bits_copy(...) BITS_CALL(copy, __VA_ARGS__)
#define bits_union_of(...) BITS_CALL(union_of, __VA_ARGS__)
#define bits_symmetric_difference_of(...) BITS_CALL(symmetric_difference_of, __VA_ARGS__)
#define bits_intersection_of(...) BITS_CALL(intersection_of, __VA_ARGS__)
#define bits_difference_of(...) BITS_CALL(difference_of, __VA_ARGS__)
#define bits_shift_up(...) BITS_CALL(shift_up, __VA_ARGS__)
#define bits_shift_down(...) BITS_CALL(shift_down, __VA_ARGS__)
#define bits_union_with_shifted(...) BITS_CALL(union_with_shifted, __VA_ARGS__)
#define bits_union_with_own_shift(...) BITS_CALL(union_with_own_shift, __VA_ARGS__)
#define bits_slice(...) BITS_CALL(slice, __VA_ARGS__)
#define bits_copy_range(...) BITS_CALL(copy_range, __VA_ARGS__)
#define bits_load(...) BITS_CALL(load, __VA_ARGS__)
#define bits_store(...) BITS_CALL(store, __VA_ARGS__)
#define bits_from_bytes(...) BITS_CALL(from_bytes, __VA_ARGS__)
#define bits_to_bytes(...) BITS_CALL(to_bytes, __VA_ARGS__)
#define bits_reverse_each_byte(...) BITS_CALL(reverse_each_byte, __VA_ARGS__)
#define bits_ranks_fill(...) BITS_CALL(ranks_fill, __VA_ARGS__)
#define bits_rank(...) BITS_CALL(rank, __VA_ARGS__)
#define bits_select(...) BITS_CALL(select, __VA_ARGS__)
#define bits_rows_clear(...) BITS_CALL(rows_clear, __VA_ARGS__)
#define bits_rows_get(...) BITS_CALL(rows_get, __VA_ARGS__)
#define bits_rows_set(...) BITS_CALL(rows_set, __VA_ARGS__)
#define bits_rows_union(...) BITS_CALL(rows_union, __VA_ARGS__)
#define bits_rows_ones(...) BITS_CALL(rows_ones, __VA_ARGS__)
#define bits_rows_close(...) BITS_CALL(rows_close, __VA_ARGS__)
#define bits_ones(...) BITS_CALL(ones, __VA_ARGS__)
#define bits_ones_next(...) BITS_CALL(ones_next, __VA_ARGS__)
#define bits_ones_next_back(...) BITS_CALL(ones_next_back, __VA_ARGS__)
#define bits_ones_batch(...) BITS_CALL(ones_batch, __VA_ARGS__)
#define bits_ones_batch_back(...) BITS_CALL(ones_batch_back, __VA_ARGS__)
#define bits_ones_batch_u32(...) BITS_CALL(ones_batch_u32, __VA_ARGS__)
#define bits_zeroes(...) BITS_CALL(zeroes, __VA_ARGS__)
#define bits_zeroes_next(...) BITS_CALL(zeroes_next, __VA_ARGS__)
#define bits_zeroes_next_back(...) BITS_CALL(zeroes_next_back, __VA_ARGS__)
#define bits_zeroes_batch(...) BITS_CALL(zeroes_batch, __VA_ARGS__)
#define bits_zeroes_batch_back(...) BITS_CALL(zeroes_batch_back, __VA_ARGS__)
#define bits_ones_in(...) BITS_CALL(ones_in, __VA_ARGS__)
#define bits_zeroes_in(...) BITS_CALL(zeroes_in, __VA_ARGS__)
#define bits_runs(...) BITS_CALL(runs, __VA_ARGS__)
#define bits_zero_runs(...) BITS_CALL(zero_runs, __VA_ARGS__)
#define bits_runs_next(...) BITS_CALL(runs_next, __VA_ARGS__)
#define bits_runs_next_back(...) BITS_CALL(runs_next_back, __VA_ARGS__)
#define bits_intersection_iter(...) BITS_CALL(intersection_iter, __VA_ARGS__)
#define bits_intersection_next(...) BITS_CALL(intersection_next, __VA_ARGS__)
#define bits_intersection_next_back(...) BITS_CALL(intersection_next_back, __VA_ARGS__)
#define bits_intersection_batch(...) BITS_CALL(intersection_batch, __VA_ARGS__)
#define bits_intersection_batch_back(...) BITS_CALL(intersection_batch_back, __VA_ARGS__)
#define bits_difference_iter(...) BITS_CALL(difference_iter, __VA_ARGS__)
#define bits_difference_next(...) BITS_CALL(difference_next, __VA_ARGS__)
#define bits_difference_next_back(...) BITS_CALL(difference_next_back, __VA_ARGS__)
#define bits_difference_batch(...) BITS_CALL(difference_batch, __VA_ARGS__)
#define bits_difference_batch_back(...) BITS_CALL(difference_batch_back, __VA_ARGS__)
#define bits_union_iter(...) BITS_CALL(union_iter, __VA_ARGS__)
#define bits_union_next(...) BITS_CALL(union_next, __VA_ARGS__)
#define bits_union_next_back(...) BITS_CALL(union_next_back, __VA_ARGS__)
#define bits_union_batch(...) BITS_CALL(union_batch, __VA_ARGS__)
#define bits_union_batch_back(...) BITS_CALL(union_batch_back, __VA_ARGS__)
#define bits_symmetric_difference_iter(...) BITS_CALL(symmetric_difference_iter, __VA_ARGS__)
#define bits_symmetric_difference_next(...) BITS_CALL(symmetric_difference_next, __VA_ARGS__)
#define bits_symmetric_difference_next_back(...) BITS_CALL(symmetric_difference_next_back, __VA_ARGS__)
#define bits_symmetric_difference_batch(...) BITS_CALL(symmetric_difference_batch, __VA_ARGS__)
#define bits_symmetric_difference_batch_back(...) BITS_CALL(symmetric_difference_batch_back, __VA_ARGS__)
#endif
/* end of what front/calls makes */
#endif

#endif
