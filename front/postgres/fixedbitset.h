/* The stored form of a set, and how functions read and make sets.
 *
 * A stored set is a varlena: its length in bits, and its words as bits.h has them. The length alone says which of two
 * forms it has, so that equal sets have equal bytes:
 *   - Up to SHORT_WORDS blocks: the words that hold positions. PostgreSQL keeps such a value behind a header of one byte,
 *     unaligned, so that a reader has to copy it anyhow. The copy adds the rest of the lane.
 *   - Any longer one: whole lanes, which are read where they stand.
 * The length takes 32 bits, so that no set needs more than 512 MB.
 */
#ifndef FIXEDBITSET_H
#define FIXEDBITSET_H

#include "postgres.h"

#include "bits.h"
#include "fmgr.h"
#include "miscadmin.h"
#include "utils/memutils.h"
#if PG_VERSION_NUM >= 160000
#include "varatt.h"
#endif

#ifdef WORDS_BIGENDIAN
#error "the binary forms take the words' bytes least first, and this machine has them the other way round"
#endif

typedef struct Stored {
    int32 vl_len_; /* PostgreSQL's own: SET_VARSIZE writes it */
    uint32 length;
    uint64_t words[FLEXIBLE_ARRAY_MEMBER];
} Stored;

/* The greatest length of a set that is made. A row that is its text in digits is the longest that COPY writes and reads, and so
 * the longest that pg_dump does. */
#define MAX_LENGTH 4294967232
#define WORD_SIZE sizeof(uint64_t)

/* After about so many positions, or bytes of a text, a long call looks whether the query is cancelled. */
#define PART 16777216

/* As many blocks as fit behind a header of one byte, their positions, and how many words a lane can have behind its first. */
#define SHORT_WORDS 15
#define SHORT_LENGTH (SHORT_WORDS * 64)
#define LANE_REST 3

/* Goes over the positions from `start` up to and without `end`, one part after the other: `at` is where a part begins. Between
 * two parts it looks whether the query is cancelled. */
#define FOR_PARTS(at, start, end) for (size_t at = (start); at < (end); at = next_part(at, end))

/* How many positions a lane has. */
#define LANE_LENGTH 256

StaticAssertDecl(PART % LANE_LENGTH == 0, "a part of a set has whole lanes");

StaticAssertDecl(VARHDRSZ_SHORT + sizeof(uint32) + SHORT_WORDS * WORD_SIZE <= VARATT_SHORT_MAX,
                 "a short set fits behind the short header");

/* How many bytes of eight positions each a length takes. */
#define OCTETS(length) (((size_t)(length) + BITS_PER_BYTE - 1) / BITS_PER_BYTE)

StaticAssertDecl(2 * OCTETS(MAX_LENGTH) + sizeof("x:/" CppAsString2(MAX_LENGTH) "\n") <= MaxAllocSize,
                 "a row that is the text of the longest set fits into a StringInfo");

/* Whether the words are those of a set, as the library asks of each that is given to it. */
#define IS_SET(set) bits_is_clean((set)->words, (set)->count, (set)->length)

/* A set that is read: it, what has to be freed, and room for one that is stored short. */
typedef struct Reading {
    bits set;
    void *copy;
    uint64_t room[SHORT_WORDS + LANE_REST];
} Reading;

/* Ends the query by an error: the name of its code, and its message. */
#define REFUSE(code, ...) ereport(ERROR, (errcode(ERRCODE_##code), errmsg(__VA_ARGS__)))

/* A function that SQL calls. BY makes one that leaves all to another function. */
#define FUNCTION(name) PG_FUNCTION_INFO_V1(name); Datum name(PG_FUNCTION_ARGS)
#define BY(name, function, ...) FUNCTION(name) { return function(fcinfo, __VA_ARGS__); }

/* In such a function READ(set, n) declares `set` and reads it from argument n. What was detoasted for it is freed where the
 * scope of `set` ends, after a returned value is made. */
#define READ(set, n)                                                                                                   \
    __attribute__((cleanup(done_reading))) Reading set##_reading;                                                      \
    const bits *set = read_set(&set##_reading, PG_GETARG_DATUM(n))

/* A function that gives its first argument, the set `set`, after a call that changes the copy `changed`. */
#define CHANGE(name, call)                                                                                             \
    FUNCTION(name) {                                                                                                   \
        READ(set, 0);                                                                                                  \
        bits changed = copy_set(set, set->length);                                                                     \
        { call; }                                                                                                      \
        return stored_set(&changed);                                                                                   \
    }

/* The positions of a range, from `start` up to and without `end`. */
typedef struct Span {
    size_t start;
    size_t end;
} Span;

/* The operators of the index class for GIN, by their numbers in the SQL. */
enum { OVERLAPS = 1, CONTAINS = 2, CONTAINS_POSITION = 3, SUBSET = 4, CONTAINS_EACH = 5 };

/* What the module's files call of each other is not for other modules, so it is called directly. */
#pragma GCC visibility push(hidden)

/* The setting fixedbitset.longest: a double, for PostgreSQL has none in 64 bits. */
extern double longest;

extern uint32 length_of(Datum datum);
extern const bits *read_set(Reading *reading, Datum datum);
extern void done_reading(Reading *reading);

/* Sets that are made. Before their words is room for the header of a stored set, which stored_set fills in. After that the
 * set may not be used. */
extern size_t next_part(size_t at, size_t end);
extern bits part_of(const bits *set, size_t at);
extern bits room_for(size_t length);
extern bits new_set(size_t length);
extern bits copy_set(const bits *set, size_t length);
extern void free_set(bits *set);
extern Datum stored_set(bits *set);

extern void sure(bool done);
extern size_t not_negative(int64 number, const char *name);
extern size_t checked_length(int64 length);
extern void change_at(bits *set, bool (*call)(bits *, size_t), int64 position);
extern Span span_of(Datum range, size_t length);
extern Span read_span(FunctionCallInfo fcinfo, int argument, const bits *set);
extern Datum *take_positions(bits_walk *walk, size_t ones, const char *where);
extern Datum *positions_of(const bits *set, int32 *count, const char *where);

#pragma GCC visibility pop

#endif
