/* Aggregates: the state is a set in the aggregate's own memory, which each row changes in place.
 *
 * The state of bitset_union, bitset_symmetric_difference and bitset_agg is grown where a row's set is longer, that of
 * bitset_intersection cut where one is shorter. So any order of the rows, in any number of processes, gives the same set.
 */
#include "fixedbitset.h"

/* The state, or NULL where there was no row yet. */
static bits *get_state(FunctionCallInfo fcinfo, int argument) {
    return PG_ARGISNULL(argument) ? NULL : (bits *)PG_GETARG_POINTER(argument);
}

/* A state as a value, or null where there is none. */
static Datum state_or_null(FunctionCallInfo fcinfo, bits *state) {
    fcinfo->isnull = state == NULL;
    return PointerGetDatum(state);
}

/* Goes over to the memory of the aggregate, and gives the one of before. */
static MemoryContext enter_aggregate(FunctionCallInfo fcinfo) {
    MemoryContext context;
    if (!AggCheckCallContext(fcinfo, &context))
        elog(ERROR, "aggregate function called in non-aggregate context");
    return MemoryContextSwitchTo(context);
}

/* A state that is this set. */
static bits *hold(bits set) {
    bits *state = palloc(sizeof(bits));
    *state = set;
    return state;
}

/* Makes the state longer or shorter. */
static void set_length(bits *state, size_t length) {
    bits old = *state;
    if (length == old.length)
        return;
    *state = copy_set(&old, length);
    free_set(&old);
}

static void join_union(bits *state, const bits *set) {
    set_length(state, Max(state->length, set->length));
    sure(bits_union_with(state, set));
}

static void join_symmetric_difference(bits *state, const bits *set) {
    set_length(state, Max(state->length, set->length));
    sure(bits_symmetric_difference_with(state, set));
}

static void join_intersection(bits *state, const bits *set) {
    set_length(state, Min(state->length, set->length));
    bits_intersect_with(state, set);
}

typedef void (*Join)(bits *state, const bits *set);

/* The state after one more set, or after none. */
static Datum state_after(FunctionCallInfo fcinfo, Join join, const bits *set) {
    MemoryContext old = enter_aggregate(fcinfo);
    bits *state = get_state(fcinfo, 0);
    if (set && state)
        join(state, set);
    else if (set)
        state = hold(copy_set(set, set->length));
    MemoryContextSwitchTo(old);
    return state_or_null(fcinfo, state);
}

/* The state after one more row. A null adds none. */
static Datum step(FunctionCallInfo fcinfo, Join join) {
    Reading reading;
    const bits *set = PG_ARGISNULL(1) ? NULL : read_set(&reading, PG_GETARG_DATUM(1));
    Datum state = state_after(fcinfo, join, set);
    if (set)
        done_reading(&reading);
    return state;
}

BY(bitset_union_step, step, join_union)
BY(bitset_intersection_step, step, join_intersection)
BY(bitset_symmetric_difference_step, step, join_symmetric_difference)

/* The state of the rows of two processes. */
BY(bitset_union_combine, state_after, join_union, get_state(fcinfo, 1))
BY(bitset_intersection_combine, state_after, join_intersection, get_state(fcinfo, 1))
BY(bitset_symmetric_difference_combine, state_after, join_symmetric_difference, get_state(fcinfo, 1))

/* A row is a position and a length. A null position adds none; the greatest length is the set's. */
FUNCTION(bitset_agg_step) {
    MemoryContext old = enter_aggregate(fcinfo);
    bits *state = get_state(fcinfo, 0);
    if (PG_ARGISNULL(2))
        REFUSE(NULL_VALUE_NOT_ALLOWED, "length of a bitset must not be null");
    state = state ? state : hold(new_set(0));
    set_length(state, Max(state->length, checked_length(PG_GETARG_INT64(2))));
    if (!PG_ARGISNULL(1))
        change_at(state, bits_insert, PG_GETARG_INT64(1));
    MemoryContextSwitchTo(old);
    PG_RETURN_POINTER(state);
}

/* A row is a position, and a null adds none. The state is at least doubled where it is grown, so that ascending positions do
 * not copy it for each row; bitset_agg_final leaves out what is past the greatest. */
FUNCTION(bitset_agg_position_step) {
    MemoryContext old = enter_aggregate(fcinfo);
    bits *state = get_state(fcinfo, 0);
    if (!PG_ARGISNULL(1)) {
        size_t position = not_negative(PG_GETARG_INT64(1), "position of a bitset without a length");
        size_t needed = checked_length(Min(position, MAX_LENGTH) + 1);
        state = state ? state : hold(new_set(0));
        if (needed > state->length)
            set_length(state, Max(needed, Min(2 * state->length, MAX_LENGTH)));
        change_at(state, bits_insert, position);
    }
    MemoryContextSwitchTo(old);
    return state_or_null(fcinfo, state);
}

/* The state as a set of a length. */
static Datum finished(FunctionCallInfo fcinfo, size_t length) {
    bits copy;
    MemoryContextSwitchTo(enter_aggregate(fcinfo));
    copy = copy_set(get_state(fcinfo, 0), length);
    return stored_set(&copy);
}

/* The state stays as it is, for a window may go on with it. Between processes it travels as a stored set too, under the name
 * of bytea. */
BY(bitset_final, finished, get_state(fcinfo, 0)->length)

/* (A state without a length has a position, for the first one makes it.) */
BY(bitset_agg_final, finished, bits_maximum(get_state(fcinfo, 0)) + 1)

FUNCTION(bitset_count_final) {
    const bits *state = get_state(fcinfo, 0);
    MemoryContextSwitchTo(enter_aggregate(fcinfo));
    PG_RETURN_INT64(bits_count_ones(state, 0, state->length));
}

/* A bytea in a tuple is aligned for its length alone, and its copy for words. */
FUNCTION(bitset_deserial) {
    Reading reading;
    const bits *set = read_set(&reading, PointerGetDatum(PG_GETARG_BYTEA_P_COPY(0)));
    MemoryContextSwitchTo(enter_aggregate(fcinfo));
    PG_RETURN_POINTER(hold(copy_set(set, set->length)));
}
