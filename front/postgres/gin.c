/* The index class for GIN. Its keys are the positions of a set. */
#include "fixedbitset.h"

#include "access/gin.h"
#include "access/stratnum.h"
#include "catalog/pg_type.h"
#include "utils/array.h"

/* For so many of the positions that a row has to have an index is asked. GIN looks up each key in each row that has the rarest
 * one, and the planner's cost of it does not count this: of more positions it is quicker to look at the rows that have these. */
enum { MOST_KEYS = 16 };

FUNCTION(bitset_gin_value) {
    READ(set, 0);
    PG_RETURN_POINTER(positions_of(set, (int32 *)PG_GETARG_POINTER(1), "an index"));
}

/* Which of so many positions is asked for as key k of those that a row has to have all: they are spread over the positions. */
static int64 spread(int64 k, int64 positions) {
    return positions <= MOST_KEYS ? k : k * (positions - 1) / (MOST_KEYS - 1);
}

/* The keys of a set that a row has to have all. */
static Datum *all_of(const bits *set, int32 *count) {
    size_t ones = bits_count_ones(set, 0, set->length);
    Datum *keys = palloc(MOST_KEYS * sizeof(Datum));
    *count = Min(ones, MOST_KEYS);
    for (int32 k = 0; k < *count; k++)
        keys[k] = Int64GetDatum(bits_nth_one(set, spread(k, ones)));
    return keys;
}

/* The same of an array. One with a null is in no row, so there is no key to ask for. */
static Datum *all_of_array(ArrayType *array, int32 *count, int32 *mode) {
    Datum *keys = NULL;
    int positions = 0;
    if (!array_contains_nulls(array)) {
        deconstruct_array(array, INT8OID, sizeof(int64), FLOAT8PASSBYVAL, TYPALIGN_DOUBLE, &keys, NULL, &positions);
        *mode = positions == 0 ? GIN_SEARCH_MODE_ALL : GIN_SEARCH_MODE_DEFAULT;
    }
    *count = Min(positions, MOST_KEYS);
    for (int32 k = 0; k < *count; k++)
        keys[k] = keys[spread(k, positions)];
    return keys;
}

/* The keys of a set. Each row has those of the set without positions, and a subset has one of the keys or none at all. */
static Datum *keys_of_set(FunctionCallInfo fcinfo, StrategyNumber operator, int32 *count, int32 *mode) {
    READ(set, 0);
    Datum *keys = operator == CONTAINS ? all_of(set, count) : positions_of(set, count, "an index");
    bool is_each = operator == CONTAINS && *count == 0;
    *mode = operator == SUBSET ? GIN_SEARCH_MODE_INCLUDE_EMPTY : is_each ? GIN_SEARCH_MODE_ALL : GIN_SEARCH_MODE_DEFAULT;
    return keys;
}

/* The right side of an operator: a position, positions or a set. */
FUNCTION(bitset_gin_query) {
    int32 *count = (int32 *)PG_GETARG_POINTER(1), *mode = (int32 *)PG_GETARG_POINTER(6);
    StrategyNumber operator = PG_GETARG_UINT16(2);
    Datum *keys = palloc(sizeof(Datum));
    keys[0] = PG_GETARG_DATUM(0);
    *count = 1;
    if (operator == CONTAINS_EACH)
        keys = all_of_array(PG_GETARG_ARRAYTYPE_P(0), count, mode);
    else if (operator != CONTAINS_POSITION)
        keys = keys_of_set(fcinfo, operator, count, mode);
    PG_RETURN_POINTER(keys);
}

/* Whether a row has one of the keys, or all of them, as far as is known. Of MOST_KEYS there may be more in the constant, and a
 * subset has no position beyond the keys. */
FUNCTION(bitset_gin_consistent) {
    GinTernaryValue *has = (GinTernaryValue *)PG_GETARG_POINTER(0);
    StrategyNumber operator = PG_GETARG_UINT16(1);
    int32 count = PG_GETARG_INT32(3);
    bool one = operator == OVERLAPS;
    GinTernaryValue decides = one ? GIN_TRUE : GIN_FALSE;
    GinTernaryValue answer = one ? GIN_FALSE : count < MOST_KEYS ? GIN_TRUE : GIN_MAYBE;
    if (operator == SUBSET)
        PG_RETURN_GIN_TERNARY_VALUE(GIN_MAYBE);
    for (int32 i = 0; i < count && answer != decides; i++)
        if (has[i] == decides || has[i] == GIN_MAYBE)
            answer = has[i];
    PG_RETURN_GIN_TERNARY_VALUE(answer);
}
