/* Each call of bits_own.h, where memory is there and where it is refused. It ends with the status 0 where all are right. */
#undef NDEBUG
#include <assert.h>
#include <stdbool.h>
#include <stddef.h>
#include <stdint.h>
#include <stdlib.h>
#include <string.h>

/* Whether memory is refused, the most bytes that are given at once, and how many pieces are out. As some allocators do, this one
 * returns NULL for no bytes. */
static bool refuses;
static size_t most = (size_t)1 << 40;
static int out;

static void *give(void *pointer, size_t size) {
    if (refuses || !size || size > most)
        return NULL;
    out += !pointer;
    return realloc(pointer, size);
}

static void *give_zeros(size_t count, size_t size) {
    void *pointer = give(NULL, count * size);
    return pointer ? memset(pointer, 0, count * size) : NULL;
}

static void take_back(void *pointer) {
    out -= pointer != NULL;
    free(pointer);
}

#define BITS_CALLOC(count, size) give_zeros((count), (size))
#define BITS_REALLOC(pointer, size) give((pointer), (size))
#define BITS_FREE(pointer) take_back(pointer)
#include "bits_own.h"

/* The text of the set, of less than 200 characters. */
#define IS(set, wanted) (assert(bits_to_text(&(set), room_for_text, 200) == strlen(wanted)), assert(!strcmp(room_for_text, wanted)))
static char room_for_text[200];

static void sets_that_grow(void) {
    bits_own own = BITS_OWN;
    assert(!own.set.words && !own.set.count && !own.set.length && !own.room && bits_is_clear(&own.set));
    assert(bits_own_insert(&own, 3) && own.set.length == 4 && own.set.count == 4);
    assert(bits_own_insert(&own, 300) && own.set.length == 301 && own.set.count == 8);
    assert(bits_own_insert(&own, 70) && own.set.length == 301);
    IS(own.set, "3,70,300");
    assert(bits_own_resize(&own, 71) && own.set.length == 71 && own.set.count == 4);
    IS(own.set, "3,70");
    assert(bits_own_resize(&own, 301));
    IS(own.set, "3,70");
    assert(bits_own_grow(&own, 300) && own.set.length == 301 && bits_own_grow(&own, 302) && own.set.length == 302);
    assert(bits_own_resize(&own, 0) && own.set.count == 0 && own.room >= 8 && bits_own_resize(&own, 302) && bits_is_clear(&own.set));
    bits_own_free(&own);
    bits_own_free(&own);
    assert(!own.set.words && !own.room && bits_own_insert(&own, 0));
    bits_own_free(&own);
    assert(out == 0);
}

/* To grow by one position a hundred thousand times takes memory few times, and needs none of what was reserved. */
static void growth(void) {
    bits_own own = BITS_OWN;
    size_t taken = 0;
    for (size_t p = 0; p < 100000; p++) {
        const size_t room = own.room;
        assert(bits_own_insert(&own, p));
        taken += own.room != room;
    }
    assert(bits_is_full(&own.set) && own.set.length == 100000 && taken < 25 && own.room < 2 * own.set.count);
    assert(bits_own_reserve(&own, 200000) && own.set.length == 100000);
    refuses = true;
    assert(bits_own_resize(&own, 200000) && bits_own_insert(&own, 199999));
    refuses = false;
    bits_own_free(&own);
    /* Half more is not to be had, and what is needed is. */
    assert(bits_own_resize(&own, 2560));
    most = 44 * sizeof(uint64_t);
    assert(bits_own_insert(&own, 2560) && own.set.length == 2561 && own.room == 44);
    most = (size_t)1 << 40;
    bits_own_free(&own);
}

static void two_sets(void) {
    bits_own own = BITS_OWN, other = BITS_OWN;
    assert(bits_own_insert(&own, 3) && bits_own_insert(&other, 300) && bits_own_insert(&other, 5));
    assert(bits_own_union(&own, &other.set) && own.set.length == 301);
    IS(own.set, "3,5,300");
    assert(bits_own_resize(&other, 6) && bits_own_union(&own, &other.set) && own.set.length == 301);
    assert(bits_own_copy(&own, &other.set) && bits_equal(&own.set, &other.set) && own.set.length == 6);
    assert(bits_own_resize(&other, 1000) && bits_own_copy(&own, &other.set) && bits_equal(&own.set, &other.set));
    bits_own_free(&own);
    assert(bits_own_copy(&other, &own.set) && other.set.length == 0);
    bits_own_free(&other);
    assert(out == 0);
}

/* A call that is refused memory leaves the set as it was. */
static void refused(void) {
    bits_own own = BITS_OWN, longer = BITS_OWN, none = BITS_OWN;
    size_t fault = 77;
    assert(bits_own_insert(&own, 9) && bits_own_insert(&longer, 1000));
    const bits_own kept = own;
    refuses = true;
    assert(!bits_own_insert(&own, 256) && !bits_own_resize(&own, 257) && !bits_own_reserve(&own, 257) && !bits_own_grow(&own, 257));
    assert(!bits_own_copy(&own, &longer.set) && !bits_own_union(&own, &longer.set));
    assert(bits_own_from_text(&own, "3,256", 5, SIZE_MAX, &fault) == BITS_NO_MEMORY && fault == 77);
    assert(!bits_own_insert(&none, 0) && !none.set.words && !none.room && !bits_new(9).words);
    refuses = false;
    assert(!bits_own_insert(&own, SIZE_MAX) && !bits_own_insert(&own, SIZE_MAX - 1) && !bits_own_resize(&own, SIZE_MAX));
    assert(!memcmp(&own, &kept, sizeof own));
    IS(own.set, "9");
    bits_own_free(&own);
    bits_own_free(&longer);
    assert(out == 0);
}

/* New sets and tables without a position have words too: NULL says that memory is refused. */
static void no_positions(void) {
    bits none = bits_new(0);
    bits_rows rowless = bits_rows_new(0, 70), narrow = bits_rows_new(5, 0);
    bits_own own = BITS_OWN;
    assert(none.words && rowless.words && narrow.words && narrow.rows == 5 && out == 3);
    assert(bits_own_reserve(&own, 0) && bits_own_resize(&own, 0) && bits_own_copy(&own, &none) && bits_own_union(&own, &none));
    bits_free(&none);
    bits_rows_free(&rowless);
    bits_rows_free(&narrow);
    bits_own_free(&own);
    assert(out == 0);
}

static void texts_written(void) {
    const size_t some[] = {0, 1, 2, 3, 8, 63, 64, 99};
    bits set = bits_new(100);
    char text[16];
    assert(bits_to_text(&set, text, 1) == 0 && !text[0] && bits_to_text(&set, NULL, 0) == 0);
    assert(bits_insert_all(&set, some, 8));
    IS(set, "0-3,8,63-64,99");
    assert(bits_to_text(&set, NULL, 0) == 14);
    for (size_t room = 1; room < 16; room++) {
        memset(text, '#', sizeof text);
        assert(bits_to_text(&set, text, room) == 14);
        const size_t written = room < 15 ? room - 1 : 14;
        assert(!memcmp(text, "0-3,8,63-64,99", written) && !text[written] && (written == 15 || text[15] == '#'));
    }
    bits_free(&set);
    uint64_t last[4] = {0, 0, 0, 0};
    set = bits_of(last, 256);
    assert(bits_insert_range(&set, 0, 256));
    IS(set, "0-255");
}

/* Texts with a fault, for a set of length 100, and the index of the first character that is wrong. */
static const struct {
    const char *text;
    size_t fault;
} FAULTS[] = {
    {",", 0},      {"a", 0},      {" 1", 0},      {"1 ", 1},       {"1,", 2},        {"1,,2", 2},     {"1-", 2},
    {"1-,", 2},    {"-1", 0},     {"1--2", 2},    {"1-2-3", 3},    {"5-4", 2},       {"7,5-4", 4},    {"100", 0},
    {"1,100", 2},  {"1-100", 2},  {"+1", 0},      {"1;2", 1},      {"1\n", 1},       {"0x1", 1},      {"99,1e1", 4},
    {"18446744073709551615", 0},  {"18446744073709551616", 0},     {"1,99999999999999999999999", 2}, {"1,2,3-2,x", 6},
};

static void texts_read(void) {
    bits set = bits_new(100);
    size_t fault = 77;
    assert(bits_from_text(&set, "64,0-3,8,2-5,99", 15, &fault) && fault == 77 && set.length == 100);
    IS(set, "0-5,8,64,99");
    for (size_t k = 0; k < sizeof FAULTS / sizeof *FAULTS; k++) {
        fault = 77;
        assert(!bits_from_text(&set, FAULTS[k].text, strlen(FAULTS[k].text), &fault) && fault == FAULTS[k].fault);
        IS(set, "0-5,8,64,99");
    }
    assert(bits_from_text(&set, "7-7,0012", 8, &fault));
    IS(set, "7,12");
    /* What stands past the size is not looked at: here the line's end. */
    assert(bits_from_text(&set, "0-99\n", 4, &fault) && bits_is_full(&set));
    assert(bits_from_text(&set, NULL, 0, &fault) && bits_is_clear(&set) && set.length == 100);
    bits_free(&set);
}

static void texts_that_grow(void) {
    bits_own own = BITS_OWN;
    size_t fault = 77;
    assert(bits_own_from_text(&own, "", 0, SIZE_MAX, &fault) == BITS_TOLD && own.set.length == 0);
    assert(bits_own_from_text(&own, "8,0-3", 5, SIZE_MAX, &fault) == BITS_TOLD && own.set.length == 9);
    IS(own.set, "0-3,8");
    assert(bits_own_from_text(&own, "300", 3, SIZE_MAX, &fault) == BITS_TOLD && own.set.length == 301);
    assert(bits_own_from_text(&own, "7", 1, SIZE_MAX, &fault) == BITS_TOLD && own.set.length == 301 && fault == 77);
    IS(own.set, "7");
    assert(bits_own_from_text(&own, "1,9-8", 5, SIZE_MAX, &fault) == BITS_FAULT && fault == 4);
    assert(bits_own_from_text(&own, "18446744073709551615", 20, SIZE_MAX, &fault) == BITS_FAULT && fault == 0);
    assert(bits_own_from_text(&own, "18446744073709551614", 20, SIZE_MAX, &fault) == BITS_NO_MEMORY);
    IS(own.set, "7");
    bits_own_free(&own);
    assert(out == 0);
}

/* A position past the limit is a fault before any memory is asked for. */
static void texts_within(void) {
    bits_own own = BITS_OWN;
    size_t fault = 77;
    refuses = true;
    assert(bits_own_from_text(&own, "4294967295", 10, 1000, &fault) == BITS_FAULT && fault == 0);
    assert(bits_own_from_text(&own, "8,3-1000", 8, 1000, &fault) == BITS_FAULT && fault == 4);
    assert(bits_own_from_text(&own, "0", 1, 0, &fault) == BITS_FAULT && fault == 0);
    assert(bits_own_from_text(&own, "", 0, 0, &fault) == BITS_TOLD && own.set.length == 0);
    refuses = false;
    most = BITS_WORDS(1000) * sizeof(uint64_t);
    assert(bits_own_from_text(&own, "8,999", 5, 1000, &fault) == BITS_TOLD && own.set.length == 1000);
    most = (size_t)1 << 40;
    assert(bits_own_from_text(&own, "99", 2, 99, &fault) == BITS_FAULT && fault == 0);
    IS(own.set, "8,999");
    assert(bits_own_from_text(&own, "98", 2, 99, &fault) == BITS_TOLD && own.set.length == 1000);
    IS(own.set, "98");
    bits_own_free(&own);
    assert(out == 0);
}

int main(void) {
    sets_that_grow();
    growth();
    two_sets();
    refused();
    no_positions();
    texts_written();
    texts_read();
    texts_that_grow();
    texts_within();
    return 0;
}
