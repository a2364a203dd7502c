/* Each macro of the headers, in a program that compilers may find no fault in: test has them warn of all that they can. */
#include "bits_own.h"

size_t uses(size_t sum);

size_t uses(size_t sum) {
    static uint64_t words[BITS_WORDS(300)];
    bits set = BITS_INIT(words, 300);
    const bits_view view = BITS_VIEW_OF(words, 300);
    bits_rows table = BITS_ROWS_OF(words, 2, 70);
    bits_own own = BITS_OWN;
    bits_walk walk = BITS_WALK;
    bits_run_walk runs = BITS_RUNS;
    bits_sieve sieve = BITS_SIEVE;
    bits_pair pair = BITS_PAIR;
    bits_ranks ranks = BITS_RANKS;
    set = BITS_OVER(words, 8, 300);
    set = BITS_OF(words, sum);
    BITS_FOR_EACH(p, &set) sum += p;
    BITS_FOR_EACH_ZERO(p, &set) sum += p;
    BITS_FOR_EACH_FROM(p, &set, 7) sum += p;
    BITS_FOR_EACH_BACK(p, &set) sum += p;
    BITS_FOR_EACH_INTERSECTION(p, &set, &own.set) sum += p;
    BITS_FOR_EACH_DIFFERENCE(p, &set, &own.set) sum += p;
    BITS_FOR_EACH_UNION(p, &set, &own.set) sum += p;
    BITS_FOR_EACH_SYMMETRIC_DIFFERENCE(p, &set, &own.set) sum += p;
    BITS_FOR_EACH_RUN(start, end, bits_of_view(&view)) sum += end - start;
    sum += table.count + walk.count + runs.count + sieve.other_count + pair.first.other_count;
    return sum + bits_rank(&ranks, BITS_NONE);
}
