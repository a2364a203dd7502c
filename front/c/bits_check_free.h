/* bits.h includes this file if BITS_CHECK and BITS_CHECK_FREE are defined: a registry of the words that bits_new and
 * bits_rows_new allocated and that are not freed. The files of one executable or shared object share the registry. */
#ifndef BITS_CHECK_FREE_H
#define BITS_CHECK_FREE_H

/* An entry: the words of a set or, if `is_table`, of a bits_rows. */
typedef struct fixedbitset_block {
    const uint64_t *words;
    bool is_table;
    struct fixedbitset_block *next;
} fixedbitset_block;

/* The entries in lists by the hash of the pointer, and the lock that calls in different threads take. */
typedef struct fixedbitset_blocks {
    fixedbitset_block *lists[65536];
    bool lock;
} fixedbitset_blocks;

/* (A weak symbol is one variable in all files, and a hidden symbol is not exported.) */
extern fixedbitset_blocks fixedbitset_registry;
__attribute__((__weak__, __visibility__("hidden"))) fixedbitset_blocks fixedbitset_registry;

/* Takes the lock, and returns the pointer to the entry of the words, or the pointer at the end of their list. */
static inline fixedbitset_block **fixedbitset_block_lock(const uint64_t *words) {
    const uint64_t hash = BITS_RECAST(uintptr_t, words) * UINT64_C(0x9e3779b97f4a7c15);
    fixedbitset_block **link = &fixedbitset_registry.lists[hash >> 48];
    while (__atomic_test_and_set(&fixedbitset_registry.lock, __ATOMIC_ACQUIRE))
        continue;
    while (*link && (*link)->words != words)
        link = &(*link)->next;
    return link;
}

static inline void fixedbitset_block_unlock(void) {
    __atomic_clear(&fixedbitset_registry.lock, __ATOMIC_RELEASE);
}

/* Adds new words, which may be NULL, and returns them. If there is no memory for the entry, frees the words and returns NULL.
 * (The program may have freed earlier words at this address by other means: their entry becomes that of the new words.) */
static inline uint64_t *fixedbitset_block_add(uint64_t *words, bool is_table) {
    fixedbitset_block **const link = fixedbitset_block_lock(words);
    if (words && !*link) {
        *link = BITS_CAST(fixedbitset_block *, malloc(sizeof **link));
        if (*link)
            (*link)->next = NULL;
    }
    if (words && *link) {
        (*link)->words = words;
        (*link)->is_table = is_table;
    } else {
        BITS_FREE(words);
        words = NULL;
    }
    fixedbitset_block_unlock();
    return words;
}

/* Removes the entry of words that are to be freed, and returns whether there is such an entry. */
static inline bool fixedbitset_block_remove(const uint64_t *words, bool is_table) {
    fixedbitset_block **const link = fixedbitset_block_lock(words), *const block = *link;
    const bool is_there = block && block->is_table == is_table;
    if (is_there)
        *link = block->next;
    fixedbitset_block_unlock();
    if (is_there)
        free(block);
    return is_there;
}

#endif
