/* What ANALYZE finds out of a column: in which share of the rows each position is set, and how many are in a row. PostgreSQL
 * keeps such shares of arrays as the most common elements of a column, and such counts as a histogram. Here positions are
 * elements. */
#include "fixedbitset.h"

#include "commands/vacuum.h"
#include "utils/typcache.h"

#if PG_VERSION_NUM < 180000
#define vacuum_delay_point(is_analyze) vacuum_delay_point()
#endif

/* As many positions are looked at of a sample of rows. */
enum { MOST_OF_ROWS = 1000000 };

/* A position, and in how many rows it is set. */
typedef struct Tally {
    int64 position;
    int rows;
} Tally;

static int by_position(const void *a, const void *b) {
    int64 first = ((const Tally *)a)->position, second = ((const Tally *)b)->position;
    return first < second ? -1 : first > second;
}

static int by_rows(const void *a, const void *b) {
    return ((const Tally *)b)->rows - ((const Tally *)a)->rows;
}

static int by_count(const void *a, const void *b) {
    return *(const int *)a - *(const int *)b;
}

/* Takes the next free slot of a column's statistics, for numbers about elements. */
static int take_slot(VacAttrStats *stats, int kind, float4 *numbers, int count) {
    int slot = 0;
    while (stats->stakind[slot] != 0)
        slot++;
    stats->stakind[slot] = kind;
    stats->staop[slot] = lookup_type_cache(INT8OID, TYPECACHE_EQ_OPR)->eq_opr;
    stats->stanumbers[slot] = numbers;
    stats->numnumbers[slot] = count;
    return slot;
}

/* Stores how many positions are in a row: bounds between which equally many rows are, as many as the column's statistics target,
 * and behind them the average. */
static void store_counts(VacAttrStats *stats, int *counts, int rows, double filled) {
    int last = Max(stats->minrows / 300, 2) - 1;
    float4 *bounds = MemoryContextAlloc(stats->anl_context, (last + 2) * sizeof(float4));
    qsort(counts, rows, sizeof(int), by_count);
    for (int k = 0; k <= last; k++)
        bounds[k] = counts[k * (int64)(rows - 1) / last];
    bounds[last + 1] = filled / rows;
    take_slot(stats, STATISTIC_KIND_DECHIST, bounds, last + 2);
}

/* Stores the most frequent positions, as many as of the elements of an array: one for 30 rows that were asked for. Behind
 * their shares stand the greatest share of the others, the greatest of all, and that of nulls among the elements. */
static void store(VacAttrStats *stats, Tally *tallies, int kinds, float4 rows) {
    int kept = Min(kinds, stats->minrows / 30), slot;
    float4 *shares = MemoryContextAllocZero(stats->anl_context, (kept + 3) * sizeof(float4));
    Datum *values = MemoryContextAlloc(stats->anl_context, kept * sizeof(Datum));
    qsort(tallies, kinds, sizeof(Tally), by_rows);
    shares[kept] = (kinds > kept ? tallies[kept].rows : 1) / rows;
    shares[kept + 1] = tallies[0].rows / rows;
    qsort(tallies, kept, sizeof(Tally), by_position);
    for (int k = 0; k < kept; k++) {
        shares[k] = tallies[k].rows / rows;
        values[k] = Int64GetDatum(tallies[k].position);
    }
    slot = take_slot(stats, STATISTIC_KIND_MCELEM, shares, kept + 3);
    stats->stavalues[slot] = values;
    stats->numvalues[slot] = kept;
    stats->statypid[slot] = INT8OID;
    stats->statyplen[slot] = sizeof(int64);
    stats->statypbyval[slot] = FLOAT8PASSBYVAL;
}

/* The server's own statistics, and then those of the positions. The sample has the rows in the order of the table; they are
 * looked at in a mixed one, as a prime is no divisor of their number. */
static void compute(VacAttrStats *stats, AnalyzeAttrFetchFunc fetch, int sampled, double total) {
    Tally *tallies = palloc(MOST_OF_ROWS * sizeof(Tally));
    int *counts = palloc(Max(sampled, 1) * sizeof(int)), filled = 0, kinds = 0, rows = 0;
    std_typanalyze(stats);
    stats->compute_stats(stats, fetch, sampled, total);
    for (int k = 0; k < sampled; k++) {
        bool is_null;
        Datum value = fetch(stats, k * INT64CONST(15485863) % sampled, &is_null);
        Reading reading;
        const bits *set = is_null ? NULL : read_set(&reading, value);
        vacuum_delay_point(true);
        if (set == NULL)
            continue;
        counts[rows] = Min(bits_count_ones(set, 0, set->length), MOST_OF_ROWS + 1);
        if (filled + counts[rows] > MOST_OF_ROWS)
            break;
        BITS_FOR_EACH(position, set) tallies[filled++] = (Tally){position, 1};
        done_reading(&reading);
        rows++;
    }
    if (rows > 0)
        store_counts(stats, counts, rows, filled);
    qsort(tallies, filled, sizeof(Tally), by_position);
    for (int k = 0; k < filled; k++)
        if (kinds > 0 && tallies[kinds - 1].position == tallies[k].position)
            tallies[kinds - 1].rows++;
        else
            tallies[kinds++] = tallies[k];
    if (kinds > 0)
        store(stats, tallies, kinds, rows);
}

FUNCTION(bitset_typanalyze) {
    VacAttrStats *stats = (VacAttrStats *)PG_GETARG_POINTER(0);
    std_typanalyze(stats);
    stats->compute_stats = compute;
    PG_RETURN_BOOL(true);
}
