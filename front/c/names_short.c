/* A program with names of its own that the headers have too. Without BITS_NO_SHORT_NAMES these are the names of macros and, in
 * C++, of members; with it also those of functions, types and variables. It ends with the status 0 where each is called in its
 * own place. */
#ifdef BITS_NO_SHORT_NAMES
static int bits_set(int it) {
    return it + 1;
}
typedef struct bits {
    int bits_walk;
} bits;
enum { bits_own = 3, bits_told };
#endif
#define BITS_SET 7
#define BITS_RANGE(it) ((it) + 1)
#define BITS_READS 5
#ifdef __cplusplus
#include <cstdio>
#include <cstdlib>
extern "C" {
#include "bits_own.h"
}
#else
#include "bits_own.h"
#endif

#ifdef BITS_NO_SHORT_NAMES
#define OF_HEADER(name) fixedbitset_##name
static int bits_union(bits it) {
    return it.bits_walk;
}
static int others(void) {
    const bits mine = {4};
    return bits_set(1) + bits_union(mine) + bits_own + bits_told == 13 ? 0 : 1;
}
#elif defined(__cplusplus)
#define OF_HEADER(name) name
struct grid {
    int bits_set(int it) { return it + 1; }
    int bits_own_insert() { return 3; }
};
static int others(void) {
    grid mine;
    return mine.bits_set(1) + mine.bits_own_insert() == 5 ? 0 : 1;
}
#else
#define OF_HEADER(name) name
static int bits_union(int it) {
    return it + 1;
}
static int others(void) {
    return bits_union(1) == 2 ? 0 : 1;
}
#endif

int main(void) {
    uint64_t words[BITS_WORDS(300)] = {0};
    OF_HEADER(bits) set = BITS_OF(words, 300);
    OF_HEADER(bits_own) own = BITS_OWN;
    OF_HEADER(bits) made = OF_HEADER(bits_new)(9);
    size_t sum = 0;
    bool (*const insert)(OF_HEADER(bits) *, size_t) = OF_HEADER(bits_insert);
    if (!insert(&set, 1) || !OF_HEADER(bits_take)(&set, 1))
        return 4;
    if (BITS_SET + BITS_RANGE(2) + BITS_READS != 15 || others())
        return 1;
    if (!OF_HEADER(bits_set)(&set, 299, true) || !OF_HEADER(bits_own_insert)(&own, 3) || !OF_HEADER(bits_own_union)(&own, &set))
        return 2;
    BITS_FOR_EACH(p, &own.set) sum += p;
    BITS_FOR_EACH_RUN(start, end, &own.set) sum += end - start;
    OF_HEADER(bits_own_free)(&own);
    OF_HEADER(bits_free)(&made);
    return sum == 304 ? 0 : 3;
}
