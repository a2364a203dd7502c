/* Random calls of bits.h and bits_own.h beside a model of one byte a bit. The words, and all else that a call is lent, stand
 * between pages that may not be touched, at the begin or at the end of the memory between them.
 *
 *     clang -g -O1 -fsanitize=fuzzer,address,undefined front/c/fuzz.c front/lib/x86-64-v2/libbits_c.a -o fuzz
 *     ./fuzz front/c/corpus                 (with libFuzzer: until something is found)
 *     cc -DFUZZ_MAIN .. && ./fuzz FILE..    (without it: these inputs)
 *
 * An input is a list of bytes: each takes the next call or one of its numbers. Behind its end follow bytes that the input alone
 * decides. It ends by abort() where a call answers or leaves anything but what the model says, or writes outside of its words. */
#define _GNU_SOURCE
#include "bits_own.h"
#include <stdio.h>
#include <string.h>
#include <sys/mman.h>

#define HOLDS(what) ((what) ? (void)0 : fail(__LINE__, #what))
/* No set is longer, and no memory that is lent wider: in most runs, and in those of long sets. */
#define SHORT 700
#define LONG 100000
#define PAGE 4096
#define PAGES_OF_LONG 160
#define SETS 3
/* How many calls an input makes at least, and how many of them where its sets are long. */
#define STEPS 100
#define LONG_STEPS 40
#define ROWS 6
#define COLUMNS 150
#define LONG_COLUMNS 20000
#define UNUSED 0xa5

/* A set and its model. */
typedef struct one {
    bits set;
    uint8_t has[LONG];
} one;

/* The areas of what is lent: the words of each set, and by their names what else there is. */
enum { TABLE = SETS, LIST, ANSWERS, BYTES, PAGES };

static one sets[SETS];
/* What stands between guard pages, and what of it is lent now: for sets that are short, and for long ones. */
typedef struct area {
    uint8_t *begin;
    size_t from;
    size_t size;
} area;
static area areas[2][PAGES], *lent;
/* The longest set of this run, and how many bytes an area of it has. */
static size_t most, space;
static const uint8_t *input;
static size_t left;
/* What the bytes behind the input's end are made of. */
static uint32_t behind;

static void fail(int line, const char *what) {
    fprintf(stderr, "fuzz.c:%d: does not hold: %s\n", line, what);
    abort();
}

/* ---- the input */

/* The next number that is made of the last one. */
static uint8_t scrambled(uint32_t *state) {
    *state = *state * 1103515245u + 12345u;
    return (uint8_t)(*state >> 16);
}

static uint8_t byte(void) {
    if (!left)
        return scrambled(&behind);
    left--;
    behind += 40503u * *input;
    return *input++;
}

static size_t below(size_t end) {
    size_t low = byte();
    if (end)
        low |= (size_t)byte() << 8;
    if (end > 65536)
        low |= (size_t)byte() << 16;
    return end ? low % end : 0;
}

/* Any number, often one at which a set of this length may go wrong. */
static size_t number(size_t length) {
    switch (byte() % 9) {
    case 0: return length;
    case 1: return length - 1;
    case 2: return SIZE_MAX - byte() % 70;
    case 3: return 64 * (most == SHORT ? (size_t)(byte() % 13) : below(most / 64));
    case 4: return 64 * (most == SHORT ? (size_t)(byte() % 13) : below(most / 64)) - 1;
    case 5: return length + byte();
    default: return below(length + 1);
    }
}

/* ---- memory between pages that may not be touched */

/* Lends so many bytes of the page, at its begin or at its end. All that is not lent has one value, and keeps it. */
static void *lend_at(int page, size_t size, bool is_at_begin) {
    if (!lent[page].begin) {
        uint8_t *place = (uint8_t *)mmap(NULL, space + 2 * PAGE, PROT_NONE, MAP_PRIVATE | MAP_ANONYMOUS, -1, 0);
        HOLDS(place != MAP_FAILED && mprotect(place + PAGE, space, PROT_READ | PROT_WRITE) == 0);
        lent[page].begin = place + PAGE;
    }
    HOLDS(size <= space);
    lent[page].from = is_at_begin ? 0 : space - size;
    lent[page].size = size;
    memset(lent[page].begin, UNUSED, space);
    return lent[page].begin + lent[page].from;
}

static void *lend(int page, size_t size) {
    return lend_at(page, size, byte() % 2);
}

static void nothing_else_is_written(void) {
    static uint8_t unused[PAGES_OF_LONG * PAGE];
    memset(unused, UNUSED, space);
    for (int page = 0; page < PAGES; page++) {
        const size_t from = lent[page].from, end = from + lent[page].size;
        const uint8_t *begin = lent[page].begin;
        HOLDS(!begin || (!memcmp(begin, unused, from) && !memcmp(begin + end, unused, space - end)));
    }
}

/* ---- sets and their models */

static bool bit_of(const uint64_t *words, size_t p) {
    return words[p / 64] >> p % 64 & 1;
}

/* The words are those that the model says, and past the length there is nothing. */
static void is_right(const one *it) {
    HOLDS(it->set.count == BITS_WORDS(it->set.length));
    for (size_t k = 0; k < it->set.count; k++) {
        uint64_t word = 0;
        for (size_t p = 64 * k; p < it->set.length && p / 64 == k; p++)
            word |= (uint64_t)it->has[p] << p % 64;
        HOLDS(it->set.words[k] == word);
    }
}

/* A set of any positions. */
static void begin(int k) {
    const size_t length = below(most + 1), count = BITS_WORDS(length);
    const unsigned kind = byte() % 4;
    one *it = &sets[k];
    it->set = BITS_OF((uint64_t *)lend(k, 8 * count), length);
    memset(it->set.words, 0, 8 * count);
    uint32_t state = byte() + 1u;
    for (size_t p = 0; p < length; p++) {
        const uint8_t any = scrambled(&state);
        it->has[p] = kind == 0 ? 0 : kind == 1 ? 1 : kind == 2 ? any % 2 : any % 50 == 0;
        it->set.words[p / 64] |= (uint64_t)it->has[p] << p % 64;
    }
}

static size_t counted(const one *it, size_t start, size_t end) {
    size_t count = 0;
    for (size_t p = start; p < end && p < it->set.length; p++)
        count += it->has[p];
    return count;
}

static bool has(const one *it, size_t p) {
    return p < it->set.length && it->has[p];
}

/* The least position at or past `from`, and the greatest below `end`, that is set or is not, or BITS_NONE. */
static size_t next(const one *it, size_t from, bool is_set) {
    for (size_t p = from; p < it->set.length; p++)
        if (it->has[p] == is_set)
            return p;
    return BITS_NONE;
}

static size_t previous(const one *it, size_t end, bool is_set) {
    for (size_t p = end < it->set.length ? end : it->set.length; p-- > 0;)
        if (it->has[p] == is_set)
            return p;
    return BITS_NONE;
}

/* ---- calls on one set */

static void numbers(one *it) {
    const size_t n = number(it->set.length), words = n / 64 + (n % 64 != 0);
    uint64_t word = (uint64_t)number(64) * byte();
    const uint64_t old = word;
    HOLDS(bits_words(n) == BITS_WORDS(n) && bits_words(n) >= words && bits_words(n) - words < 4 && bits_words(n) % 4 == 0);
    HOLDS(bits_blocks(n) == words && bits_bytes(n) == 8 * words && bits_ranks_entries(n) == words / 8 + (words % 8 != 0));
    HOLDS(bits_take_lowest_bit(&word) == (old ? (size_t)__builtin_ctzll(old) : BITS_NONE) && word == (old & (old - 1)));
}

/* The set gets another length in the same memory, or in other memory. */
static void settle(one *it) {
    const size_t length = below(most + 1), kept = number(length), had = it->set.length;
    static uint64_t old[BITS_WORDS(LONG)];
    memset(old, byte(), sizeof old);
    memcpy(old, it->set.words, 8 * it->set.count);
    uint64_t *words = (uint64_t *)lend((int)(it - sets), 8 * BITS_WORDS(length));
    memcpy(words, old, 8 * BITS_WORDS(length));
    HOLDS(!bits_settle(words, BITS_WORDS(length), length + 256, 0));
    if (!bits_settle(words, BITS_WORDS(length), length, kept)) {
        HOLDS(kept > length && !memcmp(words, old, 8 * BITS_WORDS(length)));
        HOLDS(bits_settle(words, BITS_WORDS(length), length, had < length ? had : length));
    }
    it->set = BITS_OF(words, length);
    for (size_t p = 0; p < length; p++)
        it->has[p] = p < (kept <= length ? kept : had) && bit_of(old, p);
    HOLDS(bits_is_clean(words, it->set.count, length) && !bits_is_clean(words, it->set.count, length + 256));
    const size_t end = previous(it, SIZE_MAX, true) + 1, shorter = below(length + 1);
    HOLDS(bits_is_clean(words, it->set.count, shorter) == (BITS_WORDS(shorter) == it->set.count && end <= shorter));
}

static void position(one *it) {
    const size_t p = number(it->set.length);
    const bool within = p < it->set.length, was = has(it, p);
    bool now = was;
    HOLDS(bits_contains(&it->set, p) == was);
    switch (byte() % 7) {
    case 0: HOLDS(bits_insert(&it->set, p) == within), now = true; break;
    case 1: HOLDS(bits_remove(&it->set, p) == within), now = false; break;
    case 2: HOLDS(bits_toggle(&it->set, p) == within), now = !was; break;
    case 3: HOLDS(bits_put(&it->set, p) == was), now = true; break;
    case 4: HOLDS(bits_set(&it->set, p, false) == within), now = false; break;
    case 5: HOLDS(bits_take(&it->set, p) == was), now = false; break;
    default: HOLDS(bits_set(&it->set, p, true) == within), now = true;
    }
    if (within)
        it->has[p] = now;
}

static void block(one *it) {
    const size_t index = number(it->set.length) / 64;
    const uint64_t word = UINT64_MAX / (byte() + 1u);
    HOLDS(bits_set_block(&it->set, index, word) == (index < bits_blocks(it->set.length)));
    for (size_t p = 64 * index; p < it->set.length && p / 64 == index; p++)
        it->has[p] = word >> p % 64 & 1;
}

static void list(one *it) {
    const size_t count = byte() % 20, places = byte() % 8 ? count : count + 1;
    size_t *positions = (size_t *)lend(LIST, 8 * count);
    bool *answers = (bool *)lend(ANSWERS, places), all = true;
    memset(answers, 0, places);
    for (size_t k = 0; k < count; k++) {
        positions[k] = number(it->set.length);
        all = all && positions[k] < it->set.length;
    }
    HOLDS(bits_contains_each(&it->set, positions, count, answers, places) == (places == count));
    for (size_t k = 0; k < places; k++)
        HOLDS(answers[k] == (places == count && has(it, positions[k])));
    HOLDS(bits_insert_all(&it->set, positions, count) == all);
    for (size_t k = 0; all && k < count; k++)
        it->has[positions[k]] = 1;
    for (size_t k = 0; k < count; k++)
        positions[k] = k % 2 ? positions[k] : number(it->set.length);
    all = true;
    for (size_t k = 0; k < count; k++)
        all = all && positions[k] < it->set.length;
    HOLDS(bits_remove_all(&it->set, positions, count) == all);
    for (size_t k = 0; all && k < count; k++)
        it->has[positions[k]] = 0;
}

static void load_and_store(one *it) {
    const size_t start = number(it->set.length), width = byte() % 70;
    const bool fits = width <= 64 && start <= it->set.length && width <= it->set.length - start;
    uint64_t loaded = 77777, wanted = fits ? 0 : 77777;
    for (size_t k = 0; fits && k < width; k++)
        wanted |= (uint64_t)it->has[start + k] << k;
    HOLDS(bits_load(&it->set, start, width, &loaded) == fits && loaded == wanted);
    const uint64_t stored = UINT64_MAX / (byte() + 1u);
    HOLDS(bits_store(&it->set, start, width, stored) == fits);
    for (size_t k = 0; fits && k < width; k++)
        it->has[start + k] = stored >> k & 1;
}

static void neighbours(one *it) {
    const size_t p = number(it->set.length);
    HOLDS(bits_minimum(&it->set) == next(it, 0, true) && bits_maximum(&it->set) == previous(it, SIZE_MAX, true));
    HOLDS(bits_next_one(&it->set, p) == next(it, p, true) && bits_next_zero(&it->set, p) == next(it, p, false));
    const size_t at = next(it, p, true), ones = counted(it, 0, it->set.length);
    HOLDS(at == BITS_NONE || bits_nth_one(&it->set, counted(it, 0, at)) == at);
    HOLDS(bits_nth_one(&it->set, ones) == BITS_NONE && (p < ones) == (bits_nth_one(&it->set, p) != BITS_NONE));
    HOLDS(bits_previous_one(&it->set, p) == previous(it, p, true));
    HOLDS(bits_previous_zero(&it->set, p) == previous(it, p, false));
    HOLDS(bits_is_clear(&it->set) == (next(it, 0, true) == BITS_NONE) && bits_is_full(&it->set) == (next(it, 0, false) == BITS_NONE));
    if (byte() % 16 == 0) {
        bits_clear(&it->set);
        memset(it->has, 0, sizeof it->has);
    }
}

/* How many clear positions there are from each one on. */
static const size_t *clear_from(const one *it) {
    static size_t clear[LONG + 1];
    clear[it->set.length] = 0;
    for (size_t p = it->set.length; p-- > 0;)
        clear[p] = it->has[p] ? 0 : clear[p + 1] + 1;
    return clear;
}

static void gap(one *it) {
    const size_t count = byte() % 4 ? below(130) : number(it->set.length), from = number(it->set.length);
    const size_t align = count % 67, start = from / 2, end = it->set.length - it->set.length / 5, *clear = clear_from(it);
    size_t at = from, aligned = start;
    while (at <= it->set.length && clear[at] < count)
        at++;
    HOLDS(bits_first_gap(&it->set, count, from) == (at <= it->set.length ? at : BITS_NONE));
    size_t last = (from < it->set.length ? from : it->set.length) + 1, stop = last - 1;
    while (last > 0 && (clear[last - 1] < count || count > stop - (last - 1)))
        last--;
    HOLDS(bits_last_gap(&it->set, count, from) == (last > 0 ? last - 1 : BITS_NONE));
    while (aligned <= end && (clear[aligned] < count || count > end - aligned || (align ? aligned % align : aligned)))
        aligned++;
    HOLDS(bits_first_aligned_gap(&it->set, count, align, start, end) == (aligned <= end ? aligned : BITS_NONE));
}

static void range(one *it) {
    const size_t start = number(it->set.length), end = number(it->set.length);
    const bool is_valid = start <= end && end <= it->set.length;
    const size_t ones = is_valid ? counted(it, start, end) : 0, wide = is_valid ? end - start : 0;
    HOLDS(bits_range_is_valid(&it->set, start, end) == is_valid && bits_count_ones(&it->set, start, end) == ones);
    HOLDS(bits_count_zeroes(&it->set, start, end) == wide - ones);
    HOLDS(bits_contains_all_in_range(&it->set, start, end) == (is_valid && ones == wide));
    HOLDS(bits_contains_any_in_range(&it->set, start, end) == (ones > 0));
    const unsigned kind = byte() % 3;
    bool (*const calls[])(bits *, size_t, size_t) = {bits_insert_range, bits_remove_range, bits_toggle_range};
    HOLDS(calls[kind](&it->set, start, end) == is_valid);
    for (size_t p = start; is_valid && p < end; p++)
        it->has[p] = kind == 0 || (kind == 2 && !it->has[p]);
}

static void shift(one *it) {
    const size_t by = number(it->set.length);
    const unsigned kind = byte() % 3;
    void (*const calls[])(bits *, size_t) = {bits_shift_up, bits_shift_down, bits_union_with_own_shift};
    const one old = *it;
    calls[kind](&it->set, by);
    for (size_t p = 0; p < it->set.length; p++)
        it->has[p] = kind == 1 ? by < old.set.length - p && old.has[p + by] : (kind == 2 && old.has[p]) || (p >= by && old.has[p - by]);
}

static void bytes(one *it) {
    const size_t wide = bits_bytes(it->set.length), count = byte() % 4 ? wide : below(wide + 9);
    uint8_t *lent_bytes = (uint8_t *)lend(BYTES, count);
    HOLDS(bits_to_bytes(&it->set, lent_bytes, count) == (count == wide));
    for (size_t p = 0; p < 8 * count; p++)
        HOLDS((lent_bytes[p / 8] >> p % 8 & 1) == (count == wide ? has(it, p) : UNUSED >> p % 8 & 1));
    bits_reverse_each_byte(lent_bytes, count);
    for (size_t p = 0; p < 8 * count; p++)
        HOLDS((lent_bytes[p / 8] >> (7 - p % 8) & 1) == (count == wide ? has(it, p) : UNUSED >> p % 8 & 1));
    for (size_t k = 0; k < count; k++)
        lent_bytes[k] ^= byte();
    bits_from_bytes(&it->set, lent_bytes, count);
    for (size_t p = 0; p < it->set.length; p++)
        it->has[p] = p / 8 < count && lent_bytes[p / 8] >> p % 8 & 1;
}

static void ranks(one *it) {
    const size_t wanted = bits_ranks_entries(it->set.length), entries = byte() % 8 ? wanted : wanted + 1, p = number(it->set.length);
    bits_ranks ranks = BITS_RANKS;
    HOLDS(bits_ranks_fill(&ranks, &it->set, (size_t *)lend(LIST, 8 * entries), entries) == (entries == wanted));
    HOLDS(bits_rank(&ranks, p) == (entries == wanted ? counted(it, 0, p) : 0));
    size_t index = number(counted(it, 0, most)), at = entries == wanted ? next(it, 0, true) : BITS_NONE;
    HOLDS(index == 0 || bits_select(&ranks, 0) == at);
    for (size_t k = 0; k < index && at != BITS_NONE; k++)
        at = next(it, at + 1, true);
    HOLDS(bits_select(&ranks, index) == at);
}

/* ---- two sets */

static void changes_by_other(one *it, const one *other) {
    const bool fits = other->set.length <= it->set.length;
    const unsigned kind = byte() % 8;
    bool changed = kind == 1 || kind == 7, answer = true;
    const one old = *it;
    switch (kind) {
    case 0: answer = bits_union_with(&it->set, &other->set) == fits; break;
    case 1: answer = bits_union_with_change(&it->set, &other->set, &changed) == fits; break;
    case 2: answer = bits_symmetric_difference_with(&it->set, &other->set) == fits; break;
    case 3: bits_intersect_with(&it->set, &other->set); break;
    case 4: changed = bits_intersect_with_change(&it->set, &other->set); break;
    case 5: bits_difference_with(&it->set, &other->set); break;
    case 6: changed = bits_difference_with_change(&it->set, &other->set); break;
    default: answer = bits_symmetric_difference_with_change(&it->set, &other->set, &changed) == fits;
    }
    HOLDS(answer);
    bool differs = false;
    for (size_t p = 0; p < it->set.length; p++) {
        const bool a = old.has[p], b = has(other, p);
        const bool joined[] = {a || b, a || b, a != b, a && b, a && b, a && !b, a && !b, a != b};
        const bool now = (kind < 3 || kind == 7) && !fits ? a : joined[kind];
        differs |= now != a;
        it->has[p] = now;
    }
    HOLDS(kind == 1 || kind == 7 ? changed == (differs || !fits) : kind == 4 || kind == 6 ? changed == differs : !changed);
}

static void shifted(one *it, const one *other) {
    const size_t by = number(it->set.length);
    bits_union_with_shifted(&it->set, &other->set, by);
    for (size_t p = by; p < it->set.length; p++)
        it->has[p] |= has(other, p - by);
}

static void three_sets(one *it, const one *gens, const one *kills) {
    const bool fits = gens->set.length <= it->set.length;
    bool changed = !fits, differs = !fits;
    HOLDS(bits_union_with_difference(&it->set, &gens->set, &kills->set, &changed) == fits);
    for (size_t p = 0; fits && p < it->set.length; p++)
        if (has(gens, p) && !has(kills, p) && !it->has[p])
            it->has[p] = 1, differs = true;
    HOLDS(changed == differs);
}

static void questions(const one *it, const one *other) {
    size_t both = 0, first = 0, second = 0, lacking = BITS_NONE, common = BITS_NONE;
    for (size_t p = most; p-- > 0;) {
        both += has(it, p) && has(other, p);
        first += has(it, p) && !has(other, p);
        second += !has(it, p) && has(other, p);
        lacking = !has(it, p) && has(other, p) ? p : lacking;
        common = has(it, p) && has(other, p) ? p : common;
        HOLDS((most == LONG && p % 97) || bits_next_common(&it->set, &other->set, p) == common);
    }
    HOLDS(bits_union_count(&it->set, &other->set) == both + first + second && bits_intersection_count(&it->set, &other->set) == both);
    HOLDS(bits_difference_count(&it->set, &other->set) == first);
    HOLDS(bits_symmetric_difference_count(&it->set, &other->set) == first + second);
    HOLDS(bits_is_disjoint(&it->set, &other->set) == !both && bits_is_subset(&it->set, &other->set) == !first);
    HOLDS(bits_first_lacking(&it->set, &other->set) == lacking);
    const bool are_equal = it->set.length == other->set.length && first + second == 0;
    HOLDS(bits_equal(&it->set, &other->set) == are_equal);
    ptrdiff_t order = it->set.length < other->set.length ? -1 : it->set.length > other->set.length;
    for (size_t k = 0; !order && k < it->set.count; k++)
        order = it->set.words[k] < other->set.words[k] ? -1 : it->set.words[k] > other->set.words[k];
    HOLDS(bits_compare(&it->set, &other->set) == order && bits_compare(&other->set, &it->set) == -order);
}

/* `it` becomes what a call writes over words that hold anything. */
static void copies(one *it, const one *set, const one *other) {
    const unsigned kind = byte() % 5;
    const size_t one_length = set->set.length, two_length = other->set.length;
    const size_t greater = one_length > two_length ? one_length : two_length, smaller = one_length < two_length ? one_length : two_length;
    const size_t lengths[] = {below(most + 1), greater, greater, smaller, one_length}, wanted = lengths[kind];
    const size_t length = byte() % 4 ? wanted : below(most + 1);
    bool (*const calls[])(bits *, const bits *, const bits *) = {
        NULL, bits_union_of, bits_symmetric_difference_of, bits_intersection_of, bits_difference_of};
    bits to = BITS_OF((uint64_t *)lend((int)(it - sets), 8 * BITS_WORDS(length)), length);
    const bool does = kind ? calls[kind](&to, &set->set, &other->set) : bits_copy(&to, &set->set);
    HOLDS(does == (kind == 0 || length == wanted));
    it->set = to;
    for (size_t p = 0; p < length; p++) {
        const bool a = has(set, p), b = has(other, p), now[] = {a, a || b, a != b, a && b, a && !b};
        it->has[p] = does && now[kind];
    }
    if (!does)
        HOLDS(length == 0 || *(uint8_t *)to.words == UNUSED), HOLDS(bits_settle(to.words, to.count, length, 0));
}

static void parts(one *it, const one *other) {
    const size_t start = number(other->set.length), end = number(other->set.length), at = number(it->set.length);
    const bool is_valid = start <= end && end <= other->set.length;
    const bool fits = is_valid && at <= it->set.length && end - start <= it->set.length - at;
    if (byte() % 2) {
        HOLDS(bits_copy_range(&it->set, &other->set, start, end, at) == fits);
        for (size_t p = start; fits && p < end; p++)
            it->has[at + p - start] = other->has[p];
        return;
    }
    const size_t length = is_valid && byte() % 8 ? end - start : it->set.length;
    it->set = BITS_OF((uint64_t *)lend((int)(it - sets), 8 * BITS_WORDS(length)), length);
    memset(it->set.words, 0, 8 * it->set.count);
    const bool does = is_valid && length == end - start;
    HOLDS(bits_slice(&it->set, &other->set, start, end) == does);
    for (size_t p = 0; p < length; p++)
        it->has[p] = does && other->has[start + p];
}

/* ---- walks */

/* Takes the first positions of a walk, and of a copy of it in numbers of 32 bits. The walk goes on from either. */
static size_t take_both(bits_walk *walk, size_t *taken, size_t room) {
    bits_walk other = *walk;
    uint32_t *narrow = (uint32_t *)lend_at(ANSWERS, 4 * room, room % 2);
    const size_t had = bits_ones_batch(walk, taken, room);
    HOLDS(bits_ones_batch_u32(&other, narrow, room) == had);
    for (size_t k = 0; k < room; k++)
        HOLDS(narrow[k] == (k < had ? taken[k] : UNUSED * 0x01010101u));
    if (had % 2)
        *walk = other;
    return had;
}

/* Takes the positions of a walk in any mix of its calls: `wanted` has them in order, and `first` takes the first. */
#define WALKS(walk, name, first)                                                             \
    do {                                                                                     \
        size_t low = 0, high = many;                                                         \
        for (int turns = 0; turns < 40 && (low < high || turns < 3); turns++) {              \
            const unsigned call = byte() % 4;                                                \
            const size_t room = call < 2 ? 1 : most == SHORT ? byte() % 40 : below(4000);    \
            size_t *taken = (size_t *)lend(LIST, 8 * room);                                  \
            const size_t had = room < high - low ? room : high - low;                        \
            HOLDS((call == 0   ? (size_t)name##_next(&walk, taken)                           \
                   : call == 1 ? (size_t)name##_next_back(&walk, taken)                      \
                   : call == 2 ? first(&walk, taken, room)                                   \
                               : name##_batch_back(&walk, taken, room)) == had);              \
            for (size_t k = 0; k < had; k++)                                                 \
                HOLDS(taken[k] == (call % 2 ? wanted[--high] : wanted[low++]));              \
            for (size_t k = 8 * had; k < 8 * room; k++)                                      \
                HOLDS(((uint8_t *)taken)[k] == UNUSED);                                      \
        }                                                                                    \
    } while (0)

static void walks(const one *it) {
    static size_t wanted[LONG];
    size_t many = 0;
    const size_t start = number(it->set.length), end = number(it->set.length);
    const unsigned kind = byte() % 4;
    const bool is_set = kind % 2, is_valid = start <= end && end <= it->set.length;
    bits_walk walk = BITS_WALK;
    if (kind < 2)
        (is_set ? bits_ones : bits_zeroes)(&walk, &it->set);
    else
        HOLDS((is_set ? bits_ones_in : bits_zeroes_in)(&walk, &it->set, start, end) == is_valid);
    for (size_t p = 0; p < it->set.length; p++)
        if (it->has[p] == is_set && (kind < 2 || (is_valid && start <= p && p < end)))
            wanted[many++] = p;
    if (is_set)
        WALKS(walk, bits_ones, take_both);
    else
        WALKS(walk, bits_zeroes, bits_zeroes_batch);
}

static void walks_of_two(const one *it, const one *other) {
    static size_t wanted[2 * LONG];
    size_t many = 0;
    const unsigned kind = byte() % 4;
    bits_sieve sieve = BITS_SIEVE;
    bits_pair pair = BITS_PAIR;
    for (size_t p = 0; p < most; p++)
        if (has(it, p) && (kind == 0 ? has(other, p) : kind == 2 || !has(other, p)))
            wanted[many++] = p;
    for (size_t p = 0; kind > 1 && p < most; p++)
        if (has(other, p) && !has(it, p))
            wanted[many++] = p;
    switch (kind) {
    case 0: bits_intersection_iter(&sieve, &it->set, &other->set); WALKS(sieve, bits_intersection, bits_intersection_batch); break;
    case 1: bits_difference_iter(&sieve, &it->set, &other->set); WALKS(sieve, bits_difference, bits_difference_batch); break;
    case 2: bits_union_iter(&pair, &it->set, &other->set); WALKS(pair, bits_union, bits_union_batch); break;
    default:
        bits_symmetric_difference_iter(&pair, &it->set, &other->set);
        WALKS(pair, bits_symmetric_difference, bits_symmetric_difference_batch);
    }
}

static void runs(const one *it) {
    const bool are_set = byte() % 2;
    size_t low = 0, high = it->set.length, start = 7, end = 7;
    bits_run_walk walk = BITS_RUNS;
    (are_set ? bits_runs : bits_zero_runs)(&walk, &it->set);
    for (int turns = 0; turns < 60; turns++) {
        const bool is_back = byte() % 2;
        while (low < high && it->has[low] != are_set)
            low++;
        while (low < high && it->has[high - 1] != are_set)
            high--;
        const bool is_left = low < high;
        HOLDS((is_back ? bits_runs_next_back : bits_runs_next)(&walk, &start, &end) == is_left);
        if (!is_left)
            return;
        HOLDS(start < end && (is_back ? end == high : start == low));
        while (low < high && it->has[is_back ? high - 1 : low] == are_set)
            is_back ? high-- : low++;
        HOLDS(is_back ? start == high : end == low);
    }
}

/* A loop of the header that ascends gives the positions below `most` of which this holds. */
#define LOOPS(loop, is_given)                  \
    do {                                       \
        size_t k = 0;                          \
        loop {                                 \
            for (; k < p; k++)                 \
                HOLDS(!(is_given));            \
            HOLDS(k == p && (is_given));       \
            k++;                               \
        }                                      \
        for (; k < most; k++)                  \
            HOLDS(!(is_given));                \
    } while (0)

static void loops(const one *it, const one *other) {
    size_t at = SIZE_MAX, low = 0, from = number(it->set.length);
    LOOPS(BITS_FOR_EACH(p, &it->set), has(it, k));
    LOOPS(BITS_FOR_EACH_ZERO(p, &it->set), k < it->set.length && !has(it, k));
    LOOPS(BITS_FOR_EACH_FROM(p, &it->set, from), k >= from && has(it, k));
    LOOPS(BITS_FOR_EACH_INTERSECTION(p, &it->set, &other->set), has(it, k) && has(other, k));
    LOOPS(BITS_FOR_EACH_DIFFERENCE(p, &it->set, &other->set), has(it, k) && !has(other, k));
    LOOPS(BITS_FOR_EACH_UNION(p, &it->set, &other->set), has(it, k) || has(other, k));
    LOOPS(BITS_FOR_EACH_SYMMETRIC_DIFFERENCE(p, &it->set, &other->set), has(it, k) != has(other, k));
    BITS_FOR_EACH_BACK(p, &it->set) {
        HOLDS(p == previous(it, at, true));
        at = p;
    }
    HOLDS(previous(it, at, true) == BITS_NONE);
    BITS_FOR_EACH_RUN(start, end, &it->set) {
        HOLDS(start == next(it, low, true) && start < end && counted(it, start, end) == end - start && !has(it, end));
        low = end;
    }
    HOLDS(next(it, low, true) == BITS_NONE);
}

/* ---- tables */

static void table_is(const bits_rows *table, bool has[ROWS][LONG_COLUMNS]) {
    for (size_t row = 0; row < table->rows; row++) {
        const uint64_t *words = table->words + row * BITS_WORDS(table->columns);
        for (size_t p = 0; p < 64 * BITS_WORDS(table->columns); p++)
            HOLDS(bit_of(words, p) == (p < table->columns && has[row][p]));
    }
}

static void table_step(bits_rows *table, bool has[ROWS][LONG_COLUMNS]) {
    const size_t row = number(table->rows), into = number(table->rows), column = number(table->columns);
    const bool within = row < table->rows && column < table->columns, both = row < table->rows && into < table->rows;
    const bool enabled = byte() % 8;
    bool changed = !both, differs = !both;
    HOLDS(bits_rows_get(table, row, column) == (within && has[row][column]));
    HOLDS(bits_rows_set(table, row, column, enabled) == within);
    if (within)
        has[row][column] = enabled;
    HOLDS(bits_rows_union(table, row, into, &changed) == both);
    for (size_t p = 0; both && p < table->columns; p++) {
        differs |= has[row][p] && !has[into][p];
        has[into][p] |= has[row][p];
    }
    HOLDS(changed == differs);
    static size_t wanted[LONG_COLUMNS];
    size_t many = 0;
    bits_walk walk = BITS_WALK;
    HOLDS(bits_rows_ones(&walk, table, row) == (row < table->rows));
    for (size_t p = 0; row < table->rows && p < table->columns; p++)
        if (has[row][p])
            wanted[many++] = p;
    WALKS(walk, bits_ones, take_both);
    bits part = bits_rows_row(table, row);
    HOLDS(part.length == (row < table->rows ? table->columns : 0) && bits_count_ones(&part, 0, part.length) == many);
}

static void tables(void) {
    static bool has[ROWS][LONG_COLUMNS];
    const size_t many_rows = byte() % (ROWS + 1), columns = byte() % 4 ? many_rows : below((most == SHORT ? COLUMNS : LONG_COLUMNS) + 1);
    const size_t count = bits_rows_words(many_rows, columns);
    HOLDS(count == many_rows * BITS_WORDS(columns) && bits_rows_words(SIZE_MAX, columns + 1) == BITS_NONE);
    bits_rows table = BITS_ROWS_OF((uint64_t *)lend(TABLE, 8 * count), many_rows, columns);
    memset(has, 0, sizeof has);
    HOLDS(!bits_rows_clear(table.words, count, many_rows + 1, columns + 1) && bits_rows_clear(table.words, count, many_rows, columns));
    for (unsigned steps = byte() % 16; steps; steps--)
        table_step(&table, has);
    table_is(&table, has);
    for (size_t through = 0; through < many_rows && through < columns; through++)
        for (size_t row = 0; row < many_rows; row++)
            for (size_t p = 0; has[row][through] && p < columns; p++)
                has[row][p] |= has[through][p];
    bits_rows_close(&table);
    table_is(&table, has);
}

/* ---- sets that grow, and text */

/* Makes the model what a text without a fault says. */
static void read_slowly(one *it, char *text) {
    memset(it->has, 0, sizeof it->has);
    for (char *part = strtok(text, ","); part; part = strtok(NULL, ",")) {
        const char *dash = strchr(part, '-');
        const size_t start = strtoull(part, NULL, 10), last = dash ? strtoull(dash + 1, NULL, 10) : start;
        HOLDS(start <= last && last < it->set.length);
        memset(it->has + start, 1, last - start + 1);
    }
}

static void texts(one *it) {
    const size_t wide = bits_to_text(&it->set, NULL, 0), room = byte() % 2 ? wide + 1 : below(wide + 9);
    HOLDS(wide < space - 9);
    char *text = (char *)lend(BYTES, room);
    size_t fault = 77777;
    HOLDS(bits_to_text(&it->set, text, room) == wide && (!room || strlen(text) == (room <= wide ? room - 1 : wide)));
    if (room > wide) {
        HOLDS(bits_from_text(&it->set, text, wide, &fault) && fault == 77777);
        return;
    }
    const size_t size = byte() % 14;
    char *other = (char *)lend(BYTES, size), copy[14] = "";
    for (size_t k = 0; k < size; k++)
        copy[k] = other[k] = "0123456789012345,,,,-x"[byte() % 22];
    if (bits_from_text(&it->set, other, size, &fault))
        read_slowly(it, copy);
    else
        HOLDS(fault <= size);
}

static void growth(const one *it) {
    bits_own own = BITS_OWN;
    size_t fault = 77777, length = 0;
    static uint8_t has[2 * LONG];
    memset(has, 0, sizeof has);
    for (unsigned steps = byte() % 16; steps; steps--) {
        const size_t p = below(2 * most);
        switch (byte() % 5) {
        case 0: HOLDS(bits_own_resize(&own, p)), length = p, memset(has + p, 0, sizeof has - p); break;
        case 1: HOLDS(bits_own_union(&own, &it->set)), length = length < it->set.length ? it->set.length : length;
            for (size_t k = 0; k < it->set.length; k++)
                has[k] |= it->has[k];
            break;
        case 2: HOLDS(bits_own_copy(&own, &it->set)), length = it->set.length, memset(has, 0, sizeof has), memcpy(has, it->has, length); break;
        case 3: HOLDS(bits_own_from_text(&own, "0-3,8", 5, 9, &fault) == BITS_TOLD), length = length < 9 ? 9 : length;
            memset(has, 0, sizeof has), memset(has, 1, 4), has[8] = 1; break;
        default: HOLDS(bits_own_insert(&own, p)), length = length < p + 1 ? p + 1 : length, has[p] = 1;
        }
        HOLDS(own.set.length == length && own.set.count == BITS_WORDS(length) && own.room >= own.set.count);
        for (size_t k = 0; k < 64 * own.set.count; k++)
            HOLDS(bit_of(own.set.words, k) == (k < length && has[k]));
    }
    bits_own_free(&own);
}

/* ---- */

static void step(void) {
    const unsigned which = byte() % 25, at = byte() % SETS;
    one *it = &sets[at];
    const one *other = &sets[(at + 1) % SETS], *third = &sets[(at + 2) % SETS];
    void (*const alone[])(one *) = {numbers, settle, position, block, list, neighbours, gap, range, shift, bytes, ranks, texts};
    switch (which) {
    case 12: changes_by_other(it, other); break;
    case 13: shifted(it, other); break;
    case 14: three_sets(it, other, third); break;
    case 15: questions(it, other); break;
    case 16: copies(it, other, third); break;
    case 17: parts(it, other); break;
    case 18: walks(it); break;
    case 19: walks_of_two(it, other); break;
    case 20: runs(it); break;
    case 21: loops(it, other); break;
    case 22: tables(); break;
    case 23: growth(it); break;
    case 24: load_and_store(it); break;
    default: alone[which](it);
    }
    nothing_else_is_written();
    is_right(it);
}

int LLVMFuzzerTestOneInput(const uint8_t *data, size_t size);
int LLVMFuzzerTestOneInput(const uint8_t *data, size_t size) {
    input = data;
    left = size;
    behind = 1;
    /* The inputs with this first byte have long sets. */
    most = size && data[0] == 'L' ? LONG : SHORT;
    space = most == LONG ? PAGES_OF_LONG * PAGE : PAGE;
    lent = areas[most == LONG];
    for (int k = 0; k < SETS; k++)
        begin(k);
    for (int steps = 0; left || steps < (most == LONG ? LONG_STEPS : STEPS); steps++) {
        if (steps % 32 == 31)
            begin(byte() % SETS);
        step();
    }
    for (int k = 0; k < SETS; k++)
        is_right(&sets[k]);
    return 0;
}

#ifdef FUZZ_MAIN
/* The inputs that are named on the command line, each once. */
int main(int argc, char **argv) {
    static uint8_t data[1 << 16];
    for (int k = 1; k < argc; k++) {
        FILE *file = fopen(argv[k], "rb");
        HOLDS(file);
        const size_t size = fread(data, 1, sizeof data, file);
        fclose(file);
        LLVMFuzzerTestOneInput(data, size);
    }
    printf("%d inputs\n", argc - 1);
    return 0;
}
#endif
