/* Each loop of bits.h as a function of its own, whose instructions front/c/test counts, over sets in which it has a third of the
 * positions or more. It prints which loop it is and how many positions it gave. The status is 0 only where their sums are
 * right. */
#include "bits.h"
#include <stdio.h>

#define LENGTH 20000

/* A loop that adds, beside one that asks of each position whether it is to be given. */
#define LOOP(name, loop, is_given)                                                                                       \
    __attribute__((__noinline__)) static size_t counted_##name(const bits *set, const bits *other) {                     \
        size_t sum = 0;                                                                                                  \
        (void)other;                                                                                                     \
        loop sum += p;                                                                                                   \
        return sum;                                                                                                      \
    }                                                                                                                    \
    static bool name(const bits *set, const bits *other) {                                                               \
        size_t sum = 0, many = 0;                                                                                        \
        for (size_t p = 0; p < LENGTH; p++) {                                                                            \
            const bool one = bits_contains(set, p), two = bits_contains(other, p);                                       \
            if (is_given)                                                                                                \
                sum += p, many++;                                                                                        \
            (void)one, (void)two;                                                                                        \
        }                                                                                                                \
        printf("%s %zu\n", #name, many);                                                                                 \
        return counted_##name(set, other) == sum;                                                                        \
    }

LOOP(each, BITS_FOR_EACH(p, set), one)
LOOP(zero, BITS_FOR_EACH_ZERO(p, set), !one)
LOOP(from, BITS_FOR_EACH_FROM(p, set, 70), one && p >= 70)
LOOP(back, BITS_FOR_EACH_BACK(p, set), one)
LOOP(intersection, BITS_FOR_EACH_INTERSECTION(p, set, other), one && two)
LOOP(difference, BITS_FOR_EACH_DIFFERENCE(p, set, other), one && !two)
LOOP(union_of, BITS_FOR_EACH_UNION(p, set, other), one || two)
LOOP(symmetric_difference, BITS_FOR_EACH_SYMMETRIC_DIFFERENCE(p, set, other), one != two)

int main(void) {
    static uint64_t words[3][BITS_WORDS(LENGTH)];
    bits half = BITS_OF(words[0], LENGTH), most = BITS_OF(words[1], LENGTH), few = BITS_OF(words[2], LENGTH);
    uint32_t any = 1;
    for (size_t p = 0; p < LENGTH; p++) {
        any = any * 1103515245u + 12345u;
        if (!bits_set(&half, p, any >> 16 & 1) || !bits_set(&most, p, any >> 17 & 7) || !bits_set(&few, p, !(any >> 20 & 7)))
            return 1;
    }
    const bool are_right[] = {
        each(&half, &most),         zero(&half, &most),      from(&half, &most),     back(&half, &most),
        intersection(&half, &most), difference(&half, &few), union_of(&half, &most), symmetric_difference(&half, &most),
    };
    for (size_t k = 0; k < sizeof are_right / sizeof *are_right; k++)
        if (!are_right[k])
            return 2;
    return 0;
}
