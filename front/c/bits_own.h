/* Growable bit sets that own their words, and sets as text, over the calls of bits.h.
 *
 *     bits_own seen = BITS_OWN;
 *     if (!bits_own_insert(&seen, 1000))
 *         return ENOMEM;
 *     size_t count = bits_count_ones(&seen.set, 0, seen.set.length);
 *     bits_own_free(&seen);
 *
 * `seen.set` is an ordinary set: each call of bits.h takes it. Only the calls below may make it longer or shorter, or free its
 * words. On allocation failure a call returns false and leaves the set unchanged. Memory is allocated by BITS_REALLOC and freed
 * by BITS_FREE.
 *
 * The text of a set has its positions in decimal, and runs of consecutive positions with a dash: for example, `0-3,8` has the
 * positions 0, 1, 2, 3 and 8. The empty text is the empty set. A text that is parsed may have its parts in any order and more
 * than once; it has no blanks, no signs and no newline. */
#ifndef BITS_OWN_H
#define BITS_OWN_H

#include "bits.h"

#ifdef BITS_NO_SHORT_NAMES
#include "bits_names.h"
#endif

/* A set, and its capacity in words. Set it to BITS_OWN, which is the set of length 0 and does not allocate. */
typedef struct bits_own {
    bits set;
    size_t room;
} bits_own;

#ifdef __cplusplus
#define BITS_OWN (BITS_NAME(bits_own){{NULL, 0, 0}, 0})
#else
#define BITS_OWN ((BITS_NAME(bits_own)){{NULL, 0, 0}, 0})
#endif

/* The result of parsing a text. */
typedef enum bits_told {
    BITS_TOLD,     /* The text is parsed. */
    BITS_FAULT,    /* The text is not the text of a set, or has a position that is not below the length that the caller allows. */
    BITS_NO_MEMORY /* An allocation failed. */
} bits_told;

#if defined(__cplusplus) && defined(BITS_CHECK)
namespace fixedbitset_untested {
#endif

/* (A name in parentheses calls the function without its checks: BITS_CHECK checks the calls below.) */

/* Frees the words. The set then has length 0, and may grow again. */
static inline void bits_own_free(bits_own *own) {
    BITS_FREE(own->set.words);
    own->set = bits_of(NULL, 0);
    own->room = 0;
}

/* Reserves capacity for a set of this length, so that growing to this length does not allocate, and returns true; returns
 * false on allocation failure. The length stays. */
BITS_NODISCARD static inline bool bits_own_reserve(bits_own *own, size_t length) {
    const size_t count = BITS_WORDS(length);
    uint64_t *words;
    if (count <= own->room)
        return true;
    words = BITS_CAST(uint64_t *, BITS_REALLOC(own->set.words, count * sizeof(uint64_t)));
    if (!words)
        return false;
    own->set.words = words;
    own->room = count;
    return true;
}

/* Sets the length and returns true; returns false on allocation failure. Positions at or past the new length are dropped,
 * and new positions are not set. The call does not allocate if there is capacity. */
BITS_NODISCARD static inline bool bits_own_resize(bits_own *own, size_t length) {
    const size_t kept = length < own->set.length ? length : own->set.length;
    if (!bits_own_reserve(own, length))
        return false;
    own->set.count = BITS_WORDS(length);
    own->set.length = length;
    return (bits_settle)(own->set.words, own->set.count, length, kept);
}

/* Makes the set at least this long and returns true; returns false on allocation failure. A call that allocates makes room
 * for half as many words again, if that memory can be allocated. So a program that grows a set by one position many times
 * copies each word few times. */
BITS_NODISCARD static inline bool bits_own_grow(bits_own *own, size_t length) {
    const size_t half_more = own->set.length + own->set.length / 2;
    const bool has_room = BITS_WORDS(length) <= own->room;
    if (length <= own->set.length)
        return true;
    if (!has_room && !(length < half_more && bits_own_reserve(own, half_more)) && !bits_own_reserve(own, length))
        return false;
    return bits_own_resize(own, length);
}

/* Sets the position, makes the set long enough for it, and returns true; returns false on allocation failure, and for
 * SIZE_MAX, which no set has. */
BITS_NODISCARD static inline bool bits_own_insert(bits_own *own, size_t position) {
    return position != BITS_NONE && bits_own_grow(own, position + 1) && (bits_insert)(&own->set, position);
}

/* Makes `own` equal to `set`, whose words may not overlap the words of `own`, and returns true; returns false on allocation
 * failure. */
BITS_NODISCARD static inline bool bits_own_copy(bits_own *own, const bits *set) {
    if (!bits_own_reserve(own, set->length))
        return false;
    own->set = bits_of(own->set.words, set->length);
    return (bits_copy)(&own->set, set);
}

/* Adds the positions of `set`, whose words may not overlap the words of `own`, makes `own` as long if it is shorter, and
 * returns true; returns false on allocation failure. */
BITS_NODISCARD static inline bool bits_own_union(bits_own *own, const bits *set) {
    return bits_own_grow(own, set->length) && (bits_union_with)(&own->set, set);
}

/* ---- text */

/* Writes one character, if it fits, and counts it. */
static inline void fixedbitset_text_put(char *text, size_t room, size_t *at, char letter) {
    if (*at < room)
        text[*at] = letter;
    ++*at;
}

static inline void fixedbitset_text_put_number(char *text, size_t room, size_t *at, size_t number) {
    char digits[20];
    size_t count = 0;
    do
        digits[count++] = BITS_CAST(char, '0' + number % 10);
    while (number /= 10);
    while (count)
        fixedbitset_text_put(text, room, at, digits[--count]);
}

/* Writes the text of the set to `text`, which has room for `room` characters, and a NUL after it. Returns how many
 * characters the text has without the NUL, like snprintf: if that is not less than `room`, what was written is the first
 * part of the text, with the NUL as its last character. `text` may be NULL if `room` is 0. */
static inline size_t bits_to_text(const bits *set, char *text, size_t room) {
    size_t at = 0, start = 0, end = 0;
    bits_run_walk walk = BITS_RUNS;
    (bits_runs)(&walk, set);
    while ((bits_runs_next)(&walk, &start, &end)) {
        if (at)
            fixedbitset_text_put(text, room, &at, ',');
        fixedbitset_text_put_number(text, room, &at, start);
        if (end - start > 1) {
            fixedbitset_text_put(text, room, &at, '-');
            fixedbitset_text_put_number(text, room, &at, end - 1);
        }
    }
    if (room)
        text[at < room ? at : room - 1] = '\0';
    return at;
}

/* Parses a number at `*at`, and returns whether there is a number that is less than `end`. If so, `*at` is then the index
 * after the number; else `*at` is the index of the error: the first digit of a number that is not less than `end`. */
static inline bool fixedbitset_text_number(const char *text, size_t size, size_t *at, size_t end, size_t *number) {
    size_t behind = *at;
    *number = 0;
    for (; behind < size && text[behind] >= '0' && text[behind] <= '9'; behind++) {
        const size_t digit = BITS_CAST(size_t, text[behind] - '0');
        if (*number > (SIZE_MAX - digit) / 10)
            return false;
        *number = *number * 10 + digit;
    }
    if (behind == *at || *number >= end)
        return false;
    *at = behind;
    return true;
}

/* Parses one run at `*at` and the comma after it, if there is a comma, and returns whether they are valid. If so, `*at` is
 * then the index of the next run, or `size`; else `*at` is the index of the error. */
static inline bool fixedbitset_text_stretch(const char *text, size_t size, size_t *at, size_t length, size_t *start, size_t *end) {
    size_t last;
    if (!fixedbitset_text_number(text, size, at, length, start))
        return false;
    last = *start;
    if (*at < size && text[*at] == '-') {
        const size_t behind = *at + 1;
        size_t second = behind;
        if (!fixedbitset_text_number(text, size, &second, length, &last) || last < *start) {
            *at = behind;
            return false;
        }
        *at = second;
    }
    *end = last + 1;
    if (*at == size)
        return true;
    if (text[*at] != ',' || *at + 1 == size) {
        *at += text[*at] == ',';
        return false;
    }
    ++*at;
    return true;
}

/* Parses the whole text without a set: returns whether it is the text of a set of this length, and writes how long a set has
 * to be for the text, or the index of the error. */
static inline bool fixedbitset_text_is_valid(const char *text, size_t size, size_t length, size_t *needed, size_t *fault) {
    size_t at = 0;
    *needed = 0;
    while (at < size) {
        size_t start = 0, end = 0;
        if (!fixedbitset_text_stretch(text, size, &at, length, &start, &end)) {
            *fault = at;
            return false;
        }
        *needed = end > *needed ? end : *needed;
    }
    return true;
}

/* Adds the positions of a text that is valid for this set. */
static inline void fixedbitset_text_add(bits *set, const char *text, size_t size) {
    size_t at = 0, start = 0, end = 0;
    while (at < size && fixedbitset_text_stretch(text, size, &at, set->length, &start, &end) && (bits_insert_range)(set, start, end))
        continue;
}

/* Replaces the positions of the set by the positions in a text of `size` characters, and returns true. The length stays. If
 * the text is not valid, returns false, the set is unchanged, and `*fault` is the index of the first wrong character: `size`
 * if the text ends too early, and the first digit of a position that is not below the length, or that is less than the
 * position before its dash. */
BITS_NODISCARD static inline bool bits_from_text(bits *set, const char *text, size_t size, size_t *fault) {
    size_t needed = 0;
    if (!fixedbitset_text_is_valid(text, size, set->length, &needed, fault))
        return false;
    (bits_clear)(set);
    fixedbitset_text_add(set, text, size);
    return true;
}

/* Replaces the positions of the set by the positions in the text, and makes the set longer if they need it; a set that is
 * long enough keeps its length. A position that is not below `longest` is an error, so that no text makes the set longer
 * than `longest`; with SIZE_MAX, a few characters may allocate gigabytes. Unless the call returns BITS_TOLD, the set is
 * unchanged; `*fault` is written only for BITS_FAULT, with the index that bits_from_text writes. */
BITS_NODISCARD static inline bits_told bits_own_from_text(bits_own *own, const char *text, size_t size, size_t longest,
                                                          size_t *fault) {
    size_t needed = 0;
    if (!fixedbitset_text_is_valid(text, size, longest, &needed, fault))
        return BITS_FAULT;
    if (!bits_own_grow(own, needed))
        return BITS_NO_MEMORY;
    (bits_clear)(&own->set);
    fixedbitset_text_add(&own->set, text, size);
    return BITS_TOLD;
}

#if defined(__cplusplus) && defined(BITS_CHECK)
}
#endif

#ifdef BITS_CHECK
#ifdef __cplusplus
extern "C++" {
#endif

/* Checks that the set is valid, and that its words are the first words of the capacity. */
static inline void fixedbitset_ask_own(fixedbitset_place here, const bits_own *own) {
    fixedbitset_ask_place(here, "own", own, sizeof *own);
    if (own->set.count > own->room)
        fixedbitset_stop(here, "`own` has %zu words, and room for %zu", own->set.count, own->room);
    fixedbitset_ask_clean(here, "own", own->set.words, own->set.count, own->set.length);
    fixedbitset_ask_memory(here, "own", own->set.words, own->room, sizeof(uint64_t));
}

static inline void fixedbitset_ask_own_and(fixedbitset_place here, const bits_own *own, const bits *set) {
    fixedbitset_ask_own(here, own);
    fixedbitset_ask_set(here, "set", set);
    fixedbitset_ask_apart(here, "set", own->set.words, 8 * own->room, set->words, 8 * set->count);
}

#define BITS_TESTED_OWN_TO(name) \
    BITS_TESTED_DONE(name, (bits_own *own, size_t length), (own, length), fixedbitset_ask_own(here, own);)
#define BITS_TESTED_OWN_AND(name) \
    BITS_TESTED_DONE(name, (bits_own *own, const bits *set), (own, set), fixedbitset_ask_own_and(here, own, set);)

BITS_TESTED_VOID(own_free, (bits_own *own), (own), fixedbitset_ask_own(here, own);)
BITS_TESTED_OWN_TO(own_reserve)
BITS_TESTED_OWN_TO(own_resize)
BITS_TESTED_OWN_TO(own_grow)
BITS_TESTED_DONE(own_insert, (bits_own *own, size_t position), (own, position), fixedbitset_ask_own(here, own);)
BITS_TESTED_OWN_AND(own_copy)
BITS_TESTED_OWN_AND(own_union)
BITS_TESTED(size_t, to_text, (const bits *set, char *text, size_t room), (set, text, room),
            BITS_ASK_SET(set) BITS_ASK_LIST(text, room) BITS_ASK_LIST_APART(text, room, set->words, set->count))
BITS_TESTED_DONE(from_text, (bits *set, const char *text, size_t size, size_t *fault), (set, text, size, fault),
                 BITS_ASK_SET(set) BITS_ASK_LIST(text, size) BITS_ASK_LIST_APART(text, size, set->words, set->count)
                     BITS_ASK_PLACE(fault))
BITS_TESTED_DONE_BY(bits_told, BITS_TOLD, own_from_text,
                    (bits_own *own, const char *text, size_t size, size_t longest, size_t *fault),
                    (own, text, size, longest, fault),
                    fixedbitset_ask_own(here, own); BITS_ASK_LIST(text, size)
                    BITS_ASK_LIST_APART(text, size, own->set.words, own->room) BITS_ASK_PLACE(fault))

#ifdef __cplusplus
}
#else
#ifdef BITS_NO_SHORT_NAMES
#define fixedbitset_bits_own_free(...) BITS_CALL(own_free, __VA_ARGS__)
#define fixedbitset_bits_own_reserve(...) BITS_CALL(own_reserve, __VA_ARGS__)
#define fixedbitset_bits_own_resize(...) BITS_CALL(own_resize, __VA_ARGS__)
#define fixedbitset_bits_own_grow(...) BITS_CALL(own_grow, __VA_ARGS__)
#define fixedbitset_bits_own_insert(...) BITS_CALL(own_insert, __VA_ARGS__)
#define fixedbitset_bits_own_copy(...) BITS_CALL(own_copy, __VA_ARGS__)
#define fixedbitset_bits_own_union(...) BITS_CALL(own_union, __VA_ARGS__)
#define fixedbitset_bits_to_text(...) BITS_CALL(to_text, __VA_ARGS__)
#define fixedbitset_bits_from_text(...) BITS_CALL(from_text, __VA_ARGS__)
#define fixedbitset_bits_own_from_text(...) BITS_CALL(own_from_text, __VA_ARGS__)
#else
#define bits_own_free(...) BITS_CALL(own_free, __VA_ARGS__)
#define bits_own_reserve(...) BITS_CALL(own_reserve, __VA_ARGS__)
#define bits_own_resize(...) BITS_CALL(own_resize, __VA_ARGS__)
#define bits_own_grow(...) BITS_CALL(own_grow, __VA_ARGS__)
#define bits_own_insert(...) BITS_CALL(own_insert, __VA_ARGS__)
#define bits_own_copy(...) BITS_CALL(own_copy, __VA_ARGS__)
#define bits_own_union(...) BITS_CALL(own_union, __VA_ARGS__)
#define bits_to_text(...) BITS_CALL(to_text, __VA_ARGS__)
#define bits_from_text(...) BITS_CALL(from_text, __VA_ARGS__)
#define bits_own_from_text(...) BITS_CALL(own_from_text, __VA_ARGS__)
#endif
#endif

#endif

#ifdef BITS_NO_SHORT_NAMES
#include "bits_names.h"
#endif

#endif
