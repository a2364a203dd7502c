/* Reading and making stored sets. */
#include "fixedbitset.h"

#include "utils/array.h"
#include "utils/rangetypes.h"
#include "utils/typcache.h"

PG_MODULE_MAGIC;

#define NOT_A_SET "stored bytes are not those of a bitset"

double longest = MAX_LENGTH;

/* How many words a set is stored with: the blocks that it needs where these are few, and else all. */
static size_t stored_words(const bits *set) {
    return set->length <= SHORT_LENGTH ? bits_blocks(set->length) : set->count;
}

/* The length of a datum, a set or a bit string: the first four bytes. Only these are fetched, where it is stored out of line and
 * not compressed. */
uint32 length_of(Datum datum) {
    struct varlena *head = PG_DETOAST_DATUM_SLICE(datum, 0, sizeof(uint32));
    uint32 length = 0;
    memcpy(&length, VARDATA_ANY(head), Min(VARSIZE_ANY_EXHDR(head), sizeof(length)));
    pfree(head);
    return length;
}

/* The set of a datum. Its words are those of the datum itself, or a copy, which done_reading frees. What the library asks of
 * a set is looked at here: that its words are as many as its length needs, and have no position past it. So no damaged value
 * gets past. Each row of a query is read so: a long set costs one call of the library, and a short one two more. The refusal
 * says nothing of the value, for operators are LEAKPROOF: it may be one that the user is not to see. */
const bits *read_set(Reading *reading, Datum datum) {
    struct varlena *flat = PG_DETOAST_DATUM_PACKED(datum);
    size_t size = VARSIZE_ANY_EXHDR(flat), stored = size / WORD_SIZE;
    char *data = VARDATA_ANY(flat);
    bits *set = &reading->set;
    uint32 length;
    bool fits;
    CHECK_FOR_INTERRUPTS();
    if (size != sizeof(length) + stored * WORD_SIZE)
        REFUSE(DATA_CORRUPTED, NOT_A_SET);
    memcpy(&length, data, sizeof(length));
    fits = length > SHORT_LENGTH ? stored > SHORT_WORDS : stored == bits_blocks(length);

    reading->copy = PointerGetDatum(flat) == datum ? NULL : flat;
    *set = (bits){(uint64_t *)(data + sizeof(length)), stored, length};
    if (fits && length <= SHORT_LENGTH) {
        *set = BITS_OF(memcpy(reading->room, set->words, stored * WORD_SIZE), length);
        memset(reading->room + stored, 0, LANE_REST * WORD_SIZE);
    }
    Assert(!fits || PointerIsAligned(set->words, uint64_t));
    if (!fits || !IS_SET(set))
        REFUSE(DATA_CORRUPTED, NOT_A_SET);
    return set;
}

/* Frees what was detoasted. */
void done_reading(Reading *reading) {
    if (reading->copy)
        pfree(reading->copy);
}

/* Looks at the answer of a call that the library has no cause to refuse. */
void sure(bool done) {
    if (!done)
        elog(ERROR, "a set was not made");
}

/* Room for a set: its words may hold anything. */
bits room_for(size_t length) {
    Stored *stored = palloc(offsetof(Stored, words) + bits_words(length) * WORD_SIZE);
    return BITS_OF(stored->words, length);
}

/* The stored set that a made set's words are part of. */
static Stored *header_of(const bits *set) {
    return (Stored *)((char *)set->words - offsetof(Stored, words));
}

/* Where the part behind the one from `at` on begins. */
size_t next_part(size_t at, size_t end) {
    if (at + PART < end)
        CHECK_FOR_INTERRUPTS();
    return at + PART;
}

/* The positions from a multiple of PART on, as many as a part has, as a set. */
bits part_of(const bits *set, size_t at) {
    size_t length = at < set->length ? Min(set->length - at, PART) : 0;
    return BITS_OF(length == 0 ? set->words : set->words + bits_blocks(at), length);
}

/* The set with no position. A whole part that is zeros already is not written: the system gives new memory as zeros, and a page
 * takes memory once it is written. So a length that a text claims takes none by itself. */
bits new_set(size_t length) {
    bits set = room_for(length);
    FOR_PARTS(at, 0, length) {
        bits part = part_of(&set, at);
        if (part.length < PART || !bits_is_clear(&part))
            sure(bits_settle(part.words, part.count, part.length, 0));
    }
    return set;
}

/* The set's positions below a length. */
bits copy_set(const bits *set, size_t length) {
    bits copy = room_for(length);
    FOR_PARTS(at, 0, length) {
        bits to = part_of(&copy, at), from = part_of(set, at);
        sure(bits_copy(&to, &from));
    }
    return copy;
}

/* Gives the memory of a made set back. */
void free_set(bits *set) {
    pfree(header_of(set));
}

/* A made set as a value of the type. */
Datum stored_set(bits *set) {
    Stored *stored = header_of(set);
    SET_VARSIZE(stored, offsetof(Stored, words) + stored_words(set) * WORD_SIZE);
    stored->length = set->length;
    return PointerGetDatum(stored);
}

/* The number, which has a name. */
size_t not_negative(int64 number, const char *name) {
    if (number < 0)
        REFUSE(NUMERIC_VALUE_OUT_OF_RANGE, "%s must not be negative", name);
    return number;
}

/* A length that a user gives, which a set may have. */
size_t checked_length(int64 length) {
    if (length > longest)
        ereport(ERROR, (errcode(ERRCODE_PROGRAM_LIMIT_EXCEEDED),
                        errmsg("length %lld of a bitset is past the greatest, %lld", (long long)length, (long long)longest),
                        longest < MAX_LENGTH ? errhint("The setting fixedbitset.longest may be up to " CppAsString2(MAX_LENGTH) ".") : 0));
    return not_negative(length, "length of a bitset");
}

/* Changes one position, which has to be below the length. A negative one is past any length, as the library counts. */
void change_at(bits *set, bool (*call)(bits *, size_t), int64 position) {
    if (!call(set, position))
        REFUSE(ARRAY_SUBSCRIPT_ERROR, "position %lld is not below the length %zu", (long long)position, set->length);
}

/* A range of the positions below a length, where an unbounded one ends. A bounded int8range comes as [start,end). */
Span span_of(Datum datum, size_t length) {
    RangeType *range = DatumGetRangeTypeP(datum);
    RangeBound lower, upper;
    bool empty;
    range_deserialize(lookup_type_cache(RangeTypeGetOid(range), TYPECACHE_RANGE_INFO), range, &lower, &upper, &empty);
    return (Span){empty || lower.infinite ? 0 : (size_t)DatumGetInt64(lower.val),
                  empty ? 0 : upper.infinite ? length : (size_t)DatumGetInt64(upper.val)};
}

/* A range, which has to be valid. */
Span read_span(FunctionCallInfo fcinfo, int argument, const bits *set) {
    Span span = span_of(PG_GETARG_DATUM(argument), set->length);
    if (!bits_range_is_valid(set, span.start, span.end))
        REFUSE(ARRAY_SUBSCRIPT_ERROR, "range [%lld,%lld) is not within the length %zu", (long long)span.start,
               (long long)span.end, set->length);
    return span;
}

/* So many positions of a walk that has them, which are no more than an array can have. */
Datum *take_positions(bits_walk *walk, size_t ones, const char *where) {
    Datum *positions;
    if (ones > MaxArraySize)
        REFUSE(PROGRAM_LIMIT_EXCEEDED, "%zu positions are too many for %s", ones, where);
    positions = palloc(ones * sizeof(Datum));
    for (size_t taken = 0; taken < ones; taken += bits_ones_batch(walk, positions + taken, Min(ones - taken, PART)))
        CHECK_FOR_INTERRUPTS();
    return positions;
}

/* The positions of a set. */
Datum *positions_of(const bits *set, int32 *count, const char *where) {
    size_t ones = bits_count_ones(set, 0, set->length);
    bits_walk walk = BITS_WALK;
    bits_ones(&walk, set);
    *count = ones;
    return take_positions(&walk, ones, where);
}
