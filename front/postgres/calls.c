/* Functions and operators over sets: each is a call of the library between reading and making. */
#include "fixedbitset.h"

#include "common/hashfn.h"

FUNCTION(bitset_length) {
    PG_RETURN_INT64(length_of(PG_GETARG_DATUM(0)));
}

/* A position, or null where there is none. */
static Datum position_or_null(FunctionCallInfo fcinfo, size_t position) {
    fcinfo->isnull = position == BITS_NONE;
    return Int64GetDatum(position);
}

#define FOUND(position) position_or_null(fcinfo, position)

/* The number of an argument. A negative one is before all positions, as 0 is. */
#define FROM_ZERO(n) ((size_t)Max(PG_GETARG_INT64(n), 0))

/* A function that asks something of a set: its answer is made a datum by Int64GetDatum or its kin, or by FOUND. */
#define ASK(name, ...) ASK_OF(name, 0, __VA_ARGS__)
#define ASK_OF(name, n, datum_of, answer) FUNCTION(name) { READ(set, n); return datum_of(answer); }

/* The first gap at a multiple, which is looked for in one part of the range after the other. The next part begins where a gap
 * could be that this one cuts. A part is longer than two gaps, so no position is in many. */
static size_t first_gap(const bits *set, size_t count, size_t align, Span span) {
    size_t reach = 2 * Max(count, PART);
    while (span.start <= span.end && span.end - span.start > reach) {
        size_t end = span.start + reach;
        size_t found = bits_first_aligned_gap(set, count, align, span.start, end);
        if (found != BITS_NONE)
            return found;
        span.start = end - count + 1;
        CHECK_FOR_INTERRUPTS();
    }
    return bits_first_aligned_gap(set, count, align, span.start, span.end);
}

#define COUNT(n) not_negative(PG_GETARG_INT64(n), "count of positions")

ASK(bitset_contains, BoolGetDatum, bits_contains(set, PG_GETARG_INT64(1)))
ASK_OF(bitset_contained_position, 1, BoolGetDatum, bits_contains(set, PG_GETARG_INT64(0)))
ASK(bitset_is_clear, BoolGetDatum, bits_is_clear(set))
ASK(bitset_is_full, BoolGetDatum, bits_is_full(set))
ASK(bitset_count_ones, Int64GetDatum, bits_count_ones(set, 0, set->length))
/* (Past the length all that are set are below.) */
ASK(bitset_rank, Int64GetDatum, bits_count_ones(set, 0, Min(FROM_ZERO(1), set->length)))
/* (No set has as many positions as a negative number says.) */
ASK(bitset_select_one, FOUND, bits_nth_one(set, PG_GETARG_INT64(1)))
ASK(bitset_minimum, FOUND, bits_minimum(set))
ASK(bitset_maximum, FOUND, bits_maximum(set))
ASK(bitset_next_one, FOUND, bits_next_one(set, FROM_ZERO(1)))
ASK(bitset_next_zero, FOUND, bits_next_zero(set, FROM_ZERO(1)))
ASK(bitset_previous_one, FOUND, bits_previous_one(set, FROM_ZERO(1)))
ASK(bitset_previous_zero, FOUND, bits_previous_zero(set, FROM_ZERO(1)))
ASK(bitset_first_gap, FOUND, first_gap(set, COUNT(1), 1, (Span){FROM_ZERO(2), set->length}))
ASK(bitset_first_aligned_gap, FOUND,
    first_gap(set, COUNT(1), not_negative(PG_GETARG_INT64(2), "alignment"), read_span(fcinfo, 3, set)))

CHANGE(bitset_insert, change_at(&changed, bits_insert, PG_GETARG_INT64(1)))
CHANGE(bitset_remove, change_at(&changed, bits_remove, PG_GETARG_INT64(1)))
CHANGE(bitset_toggle, change_at(&changed, bits_toggle, PG_GETARG_INT64(1)))

/* Changes a range that was found valid, one part after the other. */
static void change_in(bits *set, bool (*call)(bits *, size_t, size_t), Span span) {
    FOR_PARTS(at, span.start, span.end)
        sure(call(set, at, Min(at + PART, span.end)));
}

CHANGE(bitset_insert_range, change_in(&changed, bits_insert_range, read_span(fcinfo, 1, set)))
CHANGE(bitset_remove_range, change_in(&changed, bits_remove_range, read_span(fcinfo, 1, set)))
CHANGE(bitset_toggle_range, change_in(&changed, bits_toggle_range, read_span(fcinfo, 1, set)))
CHANGE(bitset_not, change_in(&changed, bits_toggle_range, (Span){0, set->length}))

/* A function that asks about a range. */
#define ASK_RANGE(name, datum_of, call)                                                                                \
    FUNCTION(name) {                                                                                                   \
        READ(set, 0);                                                                                                  \
        Span span = read_span(fcinfo, 1, set);                                                                         \
        return datum_of(call(set, span.start, span.end));                                                              \
    }

ASK_RANGE(bitset_count_ones_range, Int64GetDatum, bits_count_ones)
ASK_RANGE(bitset_count_zeroes_range, Int64GetDatum, bits_count_zeroes)
ASK_RANGE(bitset_contains_all, BoolGetDatum, bits_contains_all_in_range)
ASK_RANGE(bitset_contains_any, BoolGetDatum, bits_contains_any_in_range)

/* Writes two sets joined over a room of the length that the call makes, one part after the other. */
static void join_in(const bits *room, bool (*call)(bits *, const bits *, const bits *), const bits *a, const bits *b) {
    FOR_PARTS(at, 0, room->length) {
        bits to = part_of(room, at), one = part_of(a, at), other = part_of(b, at);
        sure(call(&to, &one, &other));
    }
}

/* A function that joins two sets, with the length that its set has. */
#define JOIN(name, call, length_of_join)                                                                               \
    FUNCTION(name) {                                                                                                   \
        READ(a, 0);                                                                                                    \
        READ(b, 1);                                                                                                    \
        bits joined = room_for(length_of_join);                                                                        \
        join_in(&joined, call, a, b);                                                                                  \
        return stored_set(&joined);                                                                                    \
    }

JOIN(bitset_or, bits_union_of, Max(a->length, b->length))
JOIN(bitset_xor, bits_symmetric_difference_of, Max(a->length, b->length))
JOIN(bitset_and, bits_intersection_of, Min(a->length, b->length))
JOIN(bitset_minus, bits_difference_of, a->length)

/* A function that asks about two sets. */
#define ASK_PAIR(name, datum_of, answer)                                                                               \
    FUNCTION(name) {                                                                                                   \
        READ(a, 0);                                                                                                    \
        READ(b, 1);                                                                                                    \
        return datum_of(answer);                                                                                       \
    }

ASK_PAIR(bitset_union_count, Int64GetDatum, bits_union_count(a, b))
ASK_PAIR(bitset_intersection_count, Int64GetDatum, bits_intersection_count(a, b))
ASK_PAIR(bitset_difference_count, Int64GetDatum, bits_difference_count(a, b))
ASK_PAIR(bitset_symmetric_difference_count, Int64GetDatum, bits_symmetric_difference_count(a, b))
ASK_PAIR(bitset_first_lacking, FOUND, bits_first_lacking(a, b))
ASK_PAIR(bitset_next_common, FOUND, bits_next_common(a, b, FROM_ZERO(2)))
ASK_PAIR(bitset_superset, BoolGetDatum, bits_is_subset(b, a))
ASK_PAIR(bitset_subset, BoolGetDatum, bits_is_subset(a, b))
ASK_PAIR(bitset_overlap, BoolGetDatum, !bits_is_disjoint(a, b))
/* (Positions alone, at any two lengths.) */
ASK_PAIR(bitset_same, BoolGetDatum, bits_symmetric_difference_count(a, b) == 0)
ASK_PAIR(bitset_eq, BoolGetDatum, bits_equal(a, b))
ASK_PAIR(bitset_ne, BoolGetDatum, !bits_equal(a, b))
ASK_PAIR(bitset_cmp, Int32GetDatum, bits_compare(a, b))
ASK_PAIR(bitset_lt, BoolGetDatum, bits_compare(a, b) < 0)
ASK_PAIR(bitset_le, BoolGetDatum, bits_compare(a, b) <= 0)
ASK_PAIR(bitset_gt, BoolGetDatum, bits_compare(a, b) > 0)
ASK_PAIR(bitset_ge, BoolGetDatum, bits_compare(a, b) >= 0)

/* Equal sets have equal bytes, so the bytes are hashed as they are stored. With a second argument the hash is the extended
 * one, which begins at it. */
FUNCTION(bitset_hash) {
    struct varlena *stored = PG_GETARG_VARLENA_PP(0);
    unsigned char *data = (unsigned char *)VARDATA_ANY(stored);
    int size = VARSIZE_ANY_EXHDR(stored);
    Datum hash = PG_NARGS() == 2 ? hash_any_extended(data, size, PG_GETARG_INT64(1)) : hash_any(data, size);
    PG_FREE_IF_COPY(stored, 0);
    PG_RETURN_DATUM(hash);
}
