/* Calls of bits.h beside a shared library with functions of the same names, names_other.c: neither is called in the other's
 * place. It ends with the status 0 where that holds. */
#include "bits.h"

bool other_is_right(void);

int main(void) {
    uint64_t words[BITS_WORDS(300)] = {0};
    bits set = BITS_OF(words, 300);
    if (!bits_set(&set, 299, true) || !bits_set(&set, 3, true) || !bits_contains(&set, 299) || bits_count_ones(&set, 0, 300) != 2)
        return 1;
    if (!other_is_right())
        return 2;
    bits_clear(&set);
    return bits_is_clear(&set) && other_is_right() ? 0 : 3;
}
