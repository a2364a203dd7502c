/* A shared library of someone else's, with names that bits.h has too: its set is one word. names.c runs beside it. */
#include <stdbool.h>

void bits_set(unsigned long *word, int bit) {
    *word |= 1ul << bit;
}

void bits_clear(unsigned long *word, int bit) {
    *word &= ~(1ul << bit);
}

bool bits_contains(unsigned long word, int bit) {
    return word >> bit & 1;
}

int bits_count_ones(unsigned long word) {
    return __builtin_popcountl(word);
}

/* Whether these do what they are to do, called by their names as the library's users call them. */
bool other_is_right(void) {
    unsigned long word = 0;
    bits_set(&word, 3);
    bits_set(&word, 40);
    bits_clear(&word, 3);
    return bits_contains(word, 40) && !bits_contains(word, 3) && bits_count_ones(word) == 1;
}
