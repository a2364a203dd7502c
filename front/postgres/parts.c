/* Sets with another length, parts of sets, and sets moved by any number. */
#include "fixedbitset.h"

/* The positions below another length. */
static Datum with_length(FunctionCallInfo fcinfo, bool may_grow, bool may_shrink) {
    READ(set, 0);
    size_t length = checked_length(PG_GETARG_INT64(1));
    bits copy = copy_set(set, (length > set->length ? may_grow : may_shrink) ? length : set->length);
    return stored_set(&copy);
}

BY(bitset_grow, with_length, true, false)
BY(bitset_truncate, with_length, false, true)
BY(bitset_resize, with_length, true, true)

FUNCTION(bitset_slice) {
    READ(set, 0);
    Span span = read_span(fcinfo, 1, set);
    bits part = new_set(span.end - span.start);
    sure(bits_slice(&part, set, span.start, span.end));
    return stored_set(&part);
}

/* Writes the positions of a range over those of another set from a position on. */
static void copy_in(bits *changed, const bits *other, Span span, int64 at) {
    if (!bits_copy_range(changed, other, span.start, span.end, at))
        REFUSE(ARRAY_SUBSCRIPT_ERROR, "%zu positions from %lld on are not within the length %zu", span.end - span.start,
               (long long)at, changed->length);
}

CHANGE(bitset_copy_range, READ(other, 1); copy_in(&changed, other, read_span(fcinfo, 2, other), PG_GETARG_INT64(3)))

/* Positions as a number: the last of 64 is the sign of a bigint. */
static void refuse_number(const bits *set, int64 start, int64 width) {
    REFUSE(ARRAY_SUBSCRIPT_ERROR, "%lld positions from %lld on are more than 64, or not within the length %zu", (long long)width,
           (long long)start, set->length);
}

FUNCTION(bitset_load) {
    READ(set, 0);
    uint64_t number = 0;
    if (!bits_load(set, PG_GETARG_INT64(1), PG_GETARG_INT64(2), &number))
        refuse_number(set, PG_GETARG_INT64(1), PG_GETARG_INT64(2));
    return Int64GetDatum(number);
}

static void store_in(bits *changed, int64 start, int64 width, int64 number) {
    if (!bits_store(changed, start, width, number))
        refuse_number(changed, start, width);
}

CHANGE(bitset_store, store_in(&changed, PG_GETARG_INT64(1), PG_GETARG_INT64(2), PG_GETARG_INT64(3)))

/* The second set behind the first. */
FUNCTION(bitset_append) {
    READ(a, 0);
    READ(b, 1);
    bits joined = copy_set(a, checked_length((int64)a->length + (int64)b->length));
    bits_union_with_shifted(&joined, b, a->length);
    return stored_set(&joined);
}

/* By how many positions a set is moved. Its length stays, and what does not fit falls away. */
#define SHIFT(n) not_negative(PG_GETARG_INT64(n), "shift of a bitset")

CHANGE(bitset_shift_up, bits_shift_up(&changed, SHIFT(1)))
CHANGE(bitset_shift_down, bits_shift_down(&changed, SHIFT(1)))
CHANGE(bitset_union_with_shifted, READ(other, 1); bits_union_with_shifted(&changed, other, SHIFT(2)))
