/* Constructors, and casts from and to other types. */
#include "fixedbitset.h"

#include "access/detoast.h"
#include "catalog/pg_type.h"
#include "utils/array.h"
#include "utils/builtins.h"
#include "utils/varbit.h"

FUNCTION(bitset_empty) {
    bits set = new_set(checked_length(PG_GETARG_INT64(0)));
    return stored_set(&set);
}

/* Changes each position of the array that is argument n. */
static void change_each(FunctionCallInfo fcinfo, int n, bits *set, bool (*call)(bits *, size_t)) {
    ArrayType *array = PG_GETARG_ARRAYTYPE_P(n);
    const int64 *positions = (const int64 *)ARR_DATA_PTR(array);
    int count = ArrayGetNItems(ARR_NDIM(array), ARR_DIMS(array));
    if (array_contains_nulls(array))
        REFUSE(NULL_VALUE_NOT_ALLOWED, "positions of a bitset must not be null");
    for (int i = 0; i < count; i++) {
        CHECK_FOR_INTERRUPTS();
        change_at(set, call, positions[i]);
    }
    PG_FREE_IF_COPY(array, n);
}

FUNCTION(bitset_from_positions) {
    bits set = new_set(checked_length(PG_GETARG_INT64(1)));
    change_each(fcinfo, 0, &set, bits_insert);
    return stored_set(&set);
}

CHANGE(bitset_insert_all, change_each(fcinfo, 1, &changed, bits_insert))
CHANGE(bitset_remove_all, change_each(fcinfo, 1, &changed, bits_remove))

/* Whether a set has each position of an array, and no null: the set is argument n, and the array the other one. */
static Datum contains_each(FunctionCallInfo fcinfo, int n) {
    READ(set, n);
    ArrayType *array = PG_GETARG_ARRAYTYPE_P(1 - n);
    const int64 *positions = (const int64 *)ARR_DATA_PTR(array);
    int left = ArrayGetNItems(ARR_NDIM(array), ARR_DIMS(array));
    bool answer = !array_contains_nulls(array);
    while (answer && left > 0)
        answer = bits_contains(set, positions[--left]);
    PG_FREE_IF_COPY(array, 1 - n);
    PG_RETURN_BOOL(answer);
}

BY(bitset_contains_each, contains_each, 0)
BY(bitset_contained_each, contains_each, 1)

/* Positions as an array. They are freed. */
static Datum array_of(Datum *positions, int32 count) {
    ArrayType *array = construct_array(positions, count, INT8OID, sizeof(int64), FLOAT8PASSBYVAL, TYPALIGN_DOUBLE);
    pfree(positions);
    PG_RETURN_ARRAYTYPE_P(array);
}

FUNCTION(bitset_to_positions) {
    READ(set, 0);
    int32 count;
    Datum *positions = positions_of(set, &count, "an array; ones(bitset) gives them as rows");
    return array_of(positions, count);
}

/* The positions from that with `offset` below it on, at most `limit`. */
FUNCTION(bitset_to_positions_part) {
    READ(set, 0);
    size_t ones = bits_count_ones(set, 0, set->length);
    size_t offset = Min(not_negative(PG_GETARG_INT64(1), "offset of positions"), ones);
    size_t count = Min(not_negative(PG_GETARG_INT64(2), "limit of positions"), ones - offset);
    bits_walk walk = BITS_WALK;
    sure(bits_ones_in(&walk, set, count == 0 ? 0 : bits_nth_one(set, offset), set->length));
    return array_of(take_positions(&walk, count, "an array"), count);
}

/* The positions that bytes say, eight a byte, least first, below a length where one is given. */
FUNCTION(bitset_from_bytes) {
    int64 count = toast_raw_datum_size(PG_GETARG_DATUM(0)) - VARHDRSZ;
    bits set = new_set(checked_length(PG_NARGS() == 2 ? PG_GETARG_INT64(1) : count * BITS_PER_BYTE));
    bytea *bytes = PG_GETARG_BYTEA_PP(0);
    bits_from_bytes(&set, (const uint8_t *)VARDATA_ANY(bytes), count);
    PG_FREE_IF_COPY(bytes, 0);
    return stored_set(&set);
}

FUNCTION(bitset_to_bytea) {
    READ(set, 0);
    PG_RETURN_BYTEA_P(cstring_to_text_with_len((char *)set->words, OCTETS(set->length)));
}

/* A bit string has its first bit uppermost in its byte, and a set has position 0 lowest. */
FUNCTION(bitset_from_varbit) {
    bits set = new_set(checked_length(length_of(PG_GETARG_DATUM(0))));
    VarBit *string = PG_GETARG_VARBIT_P_COPY(0);
    bits_reverse_each_byte(VARBITS(string), VARBITBYTES(string));
    bits_from_bytes(&set, VARBITS(string), VARBITBYTES(string));
    pfree(string);
    return stored_set(&set);
}

/* A cast to bit(n) has n as its second argument, or -1 where the type has none: the string is neither cut nor filled up. */
FUNCTION(bitset_to_varbit) {
    READ(set, 0);
    int32 wanted = PG_NARGS() == 3 ? PG_GETARG_INT32(1) : -1;
    VarBit *string;
    if (set->length > VARBITMAXLEN)
        REFUSE(PROGRAM_LIMIT_EXCEEDED, "length %zu is too great for a cast to bit varying", set->length);
    if (wanted >= 0 && set->length != (size_t)wanted)
        REFUSE(STRING_DATA_LENGTH_MISMATCH, "length %zu of a bitset does not match type bit(%d)", set->length, wanted);
    string = palloc(VARBITTOTALLEN(set->length));
    SET_VARSIZE(string, VARBITTOTALLEN(set->length));
    VARBITLEN(string) = set->length;
    memcpy(VARBITS(string), set->words, OCTETS(set->length));
    bits_reverse_each_byte(VARBITS(string), OCTETS(set->length));
    PG_RETURN_VARBIT_P(string);
}
