/* The positions of a set, those that it lacks, and its runs, as rows. */
#include "fixedbitset.h"

#include "catalog/pg_type.h"
#include "funcapi.h"
#include "utils/rangetypes.h"
#include "utils/typcache.h"

#if PG_VERSION_NUM < 160000
#define range_serialize(type, lower, upper, empty, context) range_serialize(type, lower, upper, empty)
#endif

/* What is kept from one row to the next: a copy of the set, and a walk over its positions or over its runs. */
typedef struct Rows {
    bits set;
    bits_walk walk;
    bits_run_walk runs;
} Rows;

/* What the first call of several keeps for the others. */
static Rows *first_call(FunctionCallInfo fcinfo) {
    READ(set, 0);
    FuncCallContext *call = SRF_FIRSTCALL_INIT();
    MemoryContext old = MemoryContextSwitchTo(call->multi_call_memory_ctx);
    Rows *rows = call->user_fctx = palloc(sizeof(Rows));
    *rows = (Rows){copy_set(set, set->length), BITS_WALK, BITS_RUNS};
    MemoryContextSwitchTo(old);
    return rows;
}

/* A row for each position of a walk, over the whole set or over a range. */
static Datum rows_of_walk(FunctionCallInfo fcinfo, bool (*begin)(bits_walk *, const bits *, size_t, size_t),
                          bool (*next)(bits_walk *, size_t *)) {
    FuncCallContext *call;
    size_t position;
    if (SRF_IS_FIRSTCALL()) {
        Rows *rows = first_call(fcinfo);
        Span span = PG_NARGS() == 2 ? read_span(fcinfo, 1, &rows->set) : (Span){0, rows->set.length};
        sure(begin(&rows->walk, &rows->set, span.start, span.end));
    }
    call = SRF_PERCALL_SETUP();
    if (next(&((Rows *)call->user_fctx)->walk, &position))
        SRF_RETURN_NEXT(call, Int64GetDatum(position));
    SRF_RETURN_DONE(call);
}

BY(bitset_ones, rows_of_walk, bits_ones_in, bits_ones_next)
BY(bitset_zeroes, rows_of_walk, bits_zeroes_in, bits_zeroes_next)

/* A row for each run, as long as it goes: [start,end). */
static Datum rows_of_runs(FunctionCallInfo fcinfo, void (*begin)(bits_run_walk *, const bits *)) {
    FuncCallContext *call;
    size_t start, end;
    if (SRF_IS_FIRSTCALL()) {
        Rows *rows = first_call(fcinfo);
        begin(&rows->runs, &rows->set);
    }
    call = SRF_PERCALL_SETUP();
    if (bits_runs_next(&((Rows *)call->user_fctx)->runs, &start, &end)) {
        RangeBound lower = {.val = Int64GetDatum(start), .inclusive = true, .lower = true};
        RangeBound upper = {.val = Int64GetDatum(end)};
        TypeCacheEntry *type = lookup_type_cache(INT8RANGEOID, TYPECACHE_RANGE_INFO);
        SRF_RETURN_NEXT(call, RangeTypePGetDatum(range_serialize(type, &lower, &upper, false, NULL)));
    }
    SRF_RETURN_DONE(call);
}

BY(bitset_runs, rows_of_runs, bits_runs)
BY(bitset_zero_runs, rows_of_runs, bits_zero_runs)
