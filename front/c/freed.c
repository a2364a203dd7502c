/* Sets and tables that one file allocates and another file frees, in several threads, which BITS_CHECK_FREE allows. test compiles
 * this file twice, once with -DOTHER, and links both. It ends with the status 0 where all is right. */
#undef NDEBUG
#include <assert.h>
#include <pthread.h>
#include <stdbool.h>
#include <stdint.h>
#include <stdlib.h>

/* What the allocator gives next, if it is not NULL. */
static uint64_t *next;

static inline void *give(size_t count, size_t size) {
    return next ? next : calloc(count, size);
}

#define BITS_CALLOC(count, size) give((count), (size))
#define BITS_REALLOC(pointer, size) realloc((pointer), (size))
#define BITS_FREE(pointer) ((void)(next || (free(pointer), false)))
#include "bits.h"

#ifdef __cplusplus
extern "C" {
#endif
bits new_there(size_t length);
bits_rows rows_there(size_t rows, size_t columns);
void free_there(bits *set);
void free_rows_there(bits_rows *rows);
void *__wrap_malloc(size_t size);
void *__real_malloc(size_t size);
#ifdef __cplusplus
}
#endif

#ifdef OTHER
bits new_there(size_t length) {
    return bits_new(length);
}
bits_rows rows_there(size_t rows, size_t columns) {
    return bits_rows_new(rows, columns);
}
void free_there(bits *set) {
    bits_free(set);
}
void free_rows_there(bits_rows *rows) {
    bits_rows_free(rows);
}
#else

/* Whether malloc, by which the registry allocates its entries, is refused. (A compiler takes it that malloc reads no variable.) */
static volatile bool refuses;

void *__wrap_malloc(size_t size) {
    return refuses ? NULL : __real_malloc(size);
}

enum { MANY = 1000, ROUNDS = 10, THREADS = 4 };

/* Many sets at once, by the one file and by the other, and freed by either. */
static void *exchanged(void *given) {
    bits *const sets = (bits *)calloc(MANY, sizeof *sets);
    for (size_t round = 0; round < ROUNDS; round++) {
        for (size_t k = 0; k < MANY; k++)
            sets[k] = k % 2 ? bits_new(k) : new_there(k);
        for (size_t k = 0; k < MANY; k++)
            (k + round) % 3 ? free_there(&sets[k]) : (bits_free)(&sets[k]);
    }
    free(sets);
    return given;
}

static void tables(void) {
    bits_rows here = bits_rows_new(3, 70), there = rows_there(3, 70);
    free_rows_there(&here);
    bits_rows_free(&there);
    bits_rows_free(&here);
}

/* Words that the program frees by other means, and that are given again: for a table, and then for a set. */
static void given_again(void) {
    static uint64_t words[4];
    next = words;
    bits set = bits_new(100);
    bits_rows table = bits_rows_new(1, 100);
    assert(set.words == words && table.words == words);
    bits_rows_free(&table);
    table = bits_rows_new(1, 100);
    set = bits_new(100);
    bits_free(&set);
    next = NULL;
}

/* Without memory for an entry there is no set. */
static void refused(void) {
    refuses = true;
    bits set = bits_new(100);
    refuses = false;
#if defined(BITS_CHECK) && defined(BITS_CHECK_FREE)
    assert(!set.words && !set.length);
#endif
    bits_free(&set);
}

int main(void) {
    pthread_t threads[THREADS];
    for (int k = 0; k < THREADS; k++)
        assert(!pthread_create(&threads[k], NULL, exchanged, NULL));
    for (int k = 0; k < THREADS; k++)
        assert(!pthread_join(threads[k], NULL));
    tables();
    given_again();
    refused();
    return 0;
}
#endif
