/* fixedbitset--1.1.sql */

-- complain if script is sourced in psql, rather than via CREATE EXTENSION
\echo Use "CREATE EXTENSION fixedbitset" to load this file. \quit

-- The type

CREATE TYPE bitset;

CREATE FUNCTION bitset_in(cstring) RETURNS bitset AS 'MODULE_PATHNAME' LANGUAGE C IMMUTABLE STRICT PARALLEL SAFE;
-- (its text depends on the setting fixedbitset.output)
CREATE FUNCTION bitset_out(bitset) RETURNS cstring AS 'MODULE_PATHNAME' LANGUAGE C STABLE STRICT PARALLEL SAFE;
CREATE FUNCTION bitset_recv(internal) RETURNS bitset AS 'MODULE_PATHNAME' LANGUAGE C IMMUTABLE STRICT PARALLEL SAFE;
CREATE FUNCTION bitset_send(bitset) RETURNS bytea AS 'MODULE_PATHNAME' LANGUAGE C IMMUTABLE STRICT PARALLEL SAFE;

CREATE FUNCTION bitset_typanalyze(internal) RETURNS boolean AS 'MODULE_PATHNAME' LANGUAGE C STRICT;

CREATE TYPE bitset (
    INPUT = bitset_in, OUTPUT = bitset_out, RECEIVE = bitset_recv, SEND = bitset_send, ANALYZE = bitset_typanalyze,
    INTERNALLENGTH = VARIABLE, ALIGNMENT = double, STORAGE = extended
);
COMMENT ON TYPE bitset IS 'set of positions below a length: {3,7,10-20}/64';

-- Constructors and casts

CREATE FUNCTION bitset(length bigint) RETURNS bitset
AS 'MODULE_PATHNAME', 'bitset_empty' LANGUAGE C IMMUTABLE STRICT PARALLEL SAFE;
CREATE FUNCTION bitset(positions bigint[], length bigint) RETURNS bitset
AS 'MODULE_PATHNAME', 'bitset_from_positions' LANGUAGE C IMMUTABLE STRICT PARALLEL SAFE;
CREATE FUNCTION bitset(bit varying) RETURNS bitset
AS 'MODULE_PATHNAME', 'bitset_from_varbit' LANGUAGE C IMMUTABLE STRICT PARALLEL SAFE;
CREATE FUNCTION bitset(bit) RETURNS bitset
AS 'MODULE_PATHNAME', 'bitset_from_varbit' LANGUAGE C IMMUTABLE STRICT PARALLEL SAFE;
CREATE FUNCTION bitset(bytea) RETURNS bitset
AS 'MODULE_PATHNAME', 'bitset_from_bytes' LANGUAGE C IMMUTABLE STRICT PARALLEL SAFE;
CREATE FUNCTION bitset_from_bytes(bytes bytea, length bigint) RETURNS bitset
AS 'MODULE_PATHNAME', 'bitset_from_bytes' LANGUAGE C IMMUTABLE STRICT PARALLEL SAFE;
CREATE FUNCTION bitset_to_varbit(bitset) RETURNS bit varying
AS 'MODULE_PATHNAME' LANGUAGE C IMMUTABLE STRICT PARALLEL SAFE COST 10;
CREATE FUNCTION bitset_to_bit(bitset, length integer, is_explicit boolean) RETURNS bit
AS 'MODULE_PATHNAME', 'bitset_to_varbit' LANGUAGE C IMMUTABLE STRICT PARALLEL SAFE COST 10;
CREATE FUNCTION bytes(bitset) RETURNS bytea
AS 'MODULE_PATHNAME', 'bitset_to_bytea' LANGUAGE C IMMUTABLE STRICT PARALLEL SAFE COST 10;
CREATE FUNCTION positions(bitset) RETURNS bigint[]
AS 'MODULE_PATHNAME', 'bitset_to_positions' LANGUAGE C IMMUTABLE STRICT PARALLEL SAFE COST 10;
CREATE FUNCTION positions(bitset, "offset" bigint, "limit" bigint) RETURNS bigint[]
AS 'MODULE_PATHNAME', 'bitset_to_positions_part' LANGUAGE C IMMUTABLE STRICT PARALLEL SAFE COST 10;

CREATE CAST (bit varying AS bitset) WITH FUNCTION bitset(bit varying);
CREATE CAST (bit AS bitset) WITH FUNCTION bitset(bit);
CREATE CAST (bytea AS bitset) WITH FUNCTION bitset(bytea);
CREATE CAST (bitset AS bit varying) WITH FUNCTION bitset_to_varbit(bitset);
CREATE CAST (bitset AS bit) WITH FUNCTION bitset_to_bit(bitset, integer, boolean);
CREATE CAST (bitset AS bytea) WITH FUNCTION bytes(bitset);
CREATE CAST (bitset AS bigint[]) WITH FUNCTION positions(bitset);

-- (how many rows the planner expects of `ones` and `runs`)
CREATE FUNCTION bitset_ones_support(internal) RETURNS internal AS 'MODULE_PATHNAME' LANGUAGE C STRICT;
CREATE FUNCTION ones(bitset) RETURNS SETOF bigint
AS 'MODULE_PATHNAME', 'bitset_ones' LANGUAGE C IMMUTABLE STRICT PARALLEL SAFE COST 10 SUPPORT bitset_ones_support;
CREATE FUNCTION zeroes(bitset) RETURNS SETOF bigint
AS 'MODULE_PATHNAME', 'bitset_zeroes' LANGUAGE C IMMUTABLE STRICT PARALLEL SAFE COST 10;
CREATE FUNCTION ones(bitset, int8range) RETURNS SETOF bigint
AS 'MODULE_PATHNAME', 'bitset_ones' LANGUAGE C IMMUTABLE STRICT PARALLEL SAFE COST 10 SUPPORT bitset_ones_support;
CREATE FUNCTION zeroes(bitset, int8range) RETURNS SETOF bigint
AS 'MODULE_PATHNAME', 'bitset_zeroes' LANGUAGE C IMMUTABLE STRICT PARALLEL SAFE COST 10;
CREATE FUNCTION runs(bitset) RETURNS SETOF int8range
AS 'MODULE_PATHNAME', 'bitset_runs' LANGUAGE C IMMUTABLE STRICT PARALLEL SAFE COST 10 SUPPORT bitset_ones_support;
CREATE FUNCTION zero_runs(bitset) RETURNS SETOF int8range
AS 'MODULE_PATHNAME', 'bitset_zero_runs' LANGUAGE C IMMUTABLE STRICT PARALLEL SAFE COST 10 SUPPORT bitset_ones_support;

-- One set

CREATE FUNCTION length(bitset) RETURNS bigint
AS 'MODULE_PATHNAME', 'bitset_length' LANGUAGE C IMMUTABLE STRICT PARALLEL SAFE;
CREATE FUNCTION grow(bitset, length bigint) RETURNS bitset
AS 'MODULE_PATHNAME', 'bitset_grow' LANGUAGE C IMMUTABLE STRICT PARALLEL SAFE COST 10;
CREATE FUNCTION truncate(bitset, length bigint) RETURNS bitset
AS 'MODULE_PATHNAME', 'bitset_truncate' LANGUAGE C IMMUTABLE STRICT PARALLEL SAFE COST 10;
CREATE FUNCTION resize(bitset, length bigint) RETURNS bitset
AS 'MODULE_PATHNAME', 'bitset_resize' LANGUAGE C IMMUTABLE STRICT PARALLEL SAFE COST 10;
CREATE FUNCTION is_clear(bitset) RETURNS boolean
AS 'MODULE_PATHNAME', 'bitset_is_clear' LANGUAGE C IMMUTABLE STRICT PARALLEL SAFE COST 10;
CREATE FUNCTION is_full(bitset) RETURNS boolean
AS 'MODULE_PATHNAME', 'bitset_is_full' LANGUAGE C IMMUTABLE STRICT PARALLEL SAFE COST 10;
CREATE FUNCTION minimum(bitset) RETURNS bigint
AS 'MODULE_PATHNAME', 'bitset_minimum' LANGUAGE C IMMUTABLE STRICT PARALLEL SAFE COST 10;
CREATE FUNCTION maximum(bitset) RETURNS bigint
AS 'MODULE_PATHNAME', 'bitset_maximum' LANGUAGE C IMMUTABLE STRICT PARALLEL SAFE COST 10;
CREATE FUNCTION next_one(bitset, "from" bigint) RETURNS bigint
AS 'MODULE_PATHNAME', 'bitset_next_one' LANGUAGE C IMMUTABLE STRICT PARALLEL SAFE COST 10;
CREATE FUNCTION next_zero(bitset, "from" bigint) RETURNS bigint
AS 'MODULE_PATHNAME', 'bitset_next_zero' LANGUAGE C IMMUTABLE STRICT PARALLEL SAFE COST 10;
CREATE FUNCTION previous_one(bitset, below bigint) RETURNS bigint
AS 'MODULE_PATHNAME', 'bitset_previous_one' LANGUAGE C IMMUTABLE STRICT PARALLEL SAFE COST 10;
CREATE FUNCTION previous_zero(bitset, below bigint) RETURNS bigint
AS 'MODULE_PATHNAME', 'bitset_previous_zero' LANGUAGE C IMMUTABLE STRICT PARALLEL SAFE COST 10;
CREATE FUNCTION first_gap(bitset, count bigint, "from" bigint DEFAULT 0) RETURNS bigint
AS 'MODULE_PATHNAME', 'bitset_first_gap' LANGUAGE C IMMUTABLE STRICT PARALLEL SAFE COST 10;
CREATE FUNCTION first_aligned_gap(bitset, count bigint, align bigint, int8range DEFAULT '(,)') RETURNS bigint
AS 'MODULE_PATHNAME', 'bitset_first_aligned_gap' LANGUAGE C IMMUTABLE STRICT PARALLEL SAFE COST 10;
CREATE FUNCTION rank(bitset, "position" bigint) RETURNS bigint
AS 'MODULE_PATHNAME', 'bitset_rank' LANGUAGE C IMMUTABLE STRICT PARALLEL SAFE COST 10;
CREATE FUNCTION select_one(bitset, index bigint) RETURNS bigint
AS 'MODULE_PATHNAME', 'bitset_select_one' LANGUAGE C IMMUTABLE STRICT PARALLEL SAFE COST 10;
CREATE FUNCTION count_ones(bitset) RETURNS bigint
AS 'MODULE_PATHNAME', 'bitset_count_ones' LANGUAGE C IMMUTABLE STRICT PARALLEL SAFE COST 10;
CREATE FUNCTION contains(bitset, "position" bigint) RETURNS boolean
AS 'MODULE_PATHNAME', 'bitset_contains' LANGUAGE C IMMUTABLE STRICT LEAKPROOF PARALLEL SAFE;
CREATE FUNCTION insert(bitset, "position" bigint) RETURNS bitset
AS 'MODULE_PATHNAME', 'bitset_insert' LANGUAGE C IMMUTABLE STRICT PARALLEL SAFE COST 10;
CREATE FUNCTION remove(bitset, "position" bigint) RETURNS bitset
AS 'MODULE_PATHNAME', 'bitset_remove' LANGUAGE C IMMUTABLE STRICT PARALLEL SAFE COST 10;
CREATE FUNCTION toggle(bitset, "position" bigint) RETURNS bitset
AS 'MODULE_PATHNAME', 'bitset_toggle' LANGUAGE C IMMUTABLE STRICT PARALLEL SAFE COST 10;
CREATE FUNCTION insert_all(bitset, positions bigint[]) RETURNS bitset
AS 'MODULE_PATHNAME', 'bitset_insert_all' LANGUAGE C IMMUTABLE STRICT PARALLEL SAFE COST 10;
CREATE FUNCTION remove_all(bitset, positions bigint[]) RETURNS bitset
AS 'MODULE_PATHNAME', 'bitset_remove_all' LANGUAGE C IMMUTABLE STRICT PARALLEL SAFE COST 10;
CREATE FUNCTION load(bitset, start bigint, width bigint) RETURNS bigint
AS 'MODULE_PATHNAME', 'bitset_load' LANGUAGE C IMMUTABLE STRICT PARALLEL SAFE COST 10;
CREATE FUNCTION store(bitset, start bigint, width bigint, number bigint) RETURNS bitset
AS 'MODULE_PATHNAME', 'bitset_store' LANGUAGE C IMMUTABLE STRICT PARALLEL SAFE COST 10;
CREATE FUNCTION shift_up(bitset, by bigint) RETURNS bitset
AS 'MODULE_PATHNAME', 'bitset_shift_up' LANGUAGE C IMMUTABLE STRICT PARALLEL SAFE COST 10;
CREATE FUNCTION shift_down(bitset, by bigint) RETURNS bitset
AS 'MODULE_PATHNAME', 'bitset_shift_down' LANGUAGE C IMMUTABLE STRICT PARALLEL SAFE COST 10;
CREATE FUNCTION bitset_not(bitset) RETURNS bitset AS 'MODULE_PATHNAME' LANGUAGE C IMMUTABLE STRICT PARALLEL SAFE COST 10;

-- One set and a range of positions

CREATE FUNCTION insert_range(bitset, int8range) RETURNS bitset
AS 'MODULE_PATHNAME', 'bitset_insert_range' LANGUAGE C IMMUTABLE STRICT PARALLEL SAFE COST 10;
CREATE FUNCTION remove_range(bitset, int8range) RETURNS bitset
AS 'MODULE_PATHNAME', 'bitset_remove_range' LANGUAGE C IMMUTABLE STRICT PARALLEL SAFE COST 10;
CREATE FUNCTION toggle_range(bitset, int8range) RETURNS bitset
AS 'MODULE_PATHNAME', 'bitset_toggle_range' LANGUAGE C IMMUTABLE STRICT PARALLEL SAFE COST 10;
CREATE FUNCTION count_ones(bitset, int8range) RETURNS bigint
AS 'MODULE_PATHNAME', 'bitset_count_ones_range' LANGUAGE C IMMUTABLE STRICT PARALLEL SAFE COST 10;
CREATE FUNCTION count_zeroes(bitset, int8range) RETURNS bigint
AS 'MODULE_PATHNAME', 'bitset_count_zeroes_range' LANGUAGE C IMMUTABLE STRICT PARALLEL SAFE COST 10;
CREATE FUNCTION contains_all(bitset, int8range) RETURNS boolean
AS 'MODULE_PATHNAME', 'bitset_contains_all' LANGUAGE C IMMUTABLE STRICT PARALLEL SAFE COST 10;
CREATE FUNCTION contains_any(bitset, int8range) RETURNS boolean
AS 'MODULE_PATHNAME', 'bitset_contains_any' LANGUAGE C IMMUTABLE STRICT PARALLEL SAFE COST 10;
CREATE FUNCTION slice(bitset, int8range) RETURNS bitset
AS 'MODULE_PATHNAME', 'bitset_slice' LANGUAGE C IMMUTABLE STRICT PARALLEL SAFE COST 10;

-- Two sets, of any two lengths

CREATE FUNCTION union_count(bitset, bitset) RETURNS bigint
AS 'MODULE_PATHNAME', 'bitset_union_count' LANGUAGE C IMMUTABLE STRICT PARALLEL SAFE COST 10;
CREATE FUNCTION intersection_count(bitset, bitset) RETURNS bigint
AS 'MODULE_PATHNAME', 'bitset_intersection_count' LANGUAGE C IMMUTABLE STRICT PARALLEL SAFE COST 10;
CREATE FUNCTION difference_count(bitset, bitset) RETURNS bigint
AS 'MODULE_PATHNAME', 'bitset_difference_count' LANGUAGE C IMMUTABLE STRICT PARALLEL SAFE COST 10;
CREATE FUNCTION symmetric_difference_count(bitset, bitset) RETURNS bigint
AS 'MODULE_PATHNAME', 'bitset_symmetric_difference_count' LANGUAGE C IMMUTABLE STRICT PARALLEL SAFE COST 10;
CREATE FUNCTION first_lacking(bitset, bitset) RETURNS bigint
AS 'MODULE_PATHNAME', 'bitset_first_lacking' LANGUAGE C IMMUTABLE STRICT PARALLEL SAFE COST 10;
CREATE FUNCTION next_common(bitset, bitset, "from" bigint) RETURNS bigint
AS 'MODULE_PATHNAME', 'bitset_next_common' LANGUAGE C IMMUTABLE STRICT PARALLEL SAFE COST 10;
CREATE FUNCTION append(bitset, bitset) RETURNS bitset
AS 'MODULE_PATHNAME', 'bitset_append' LANGUAGE C IMMUTABLE STRICT PARALLEL SAFE COST 10;
CREATE FUNCTION copy_range(bitset, bitset, int8range, at bigint) RETURNS bitset
AS 'MODULE_PATHNAME', 'bitset_copy_range' LANGUAGE C IMMUTABLE STRICT PARALLEL SAFE COST 10;
CREATE FUNCTION union_with_shifted(bitset, bitset, by bigint) RETURNS bitset
AS 'MODULE_PATHNAME', 'bitset_union_with_shifted' LANGUAGE C IMMUTABLE STRICT PARALLEL SAFE COST 10;

CREATE FUNCTION bitset_or(bitset, bitset) RETURNS bitset AS 'MODULE_PATHNAME' LANGUAGE C IMMUTABLE STRICT PARALLEL SAFE COST 10;
CREATE FUNCTION bitset_and(bitset, bitset) RETURNS bitset AS 'MODULE_PATHNAME' LANGUAGE C IMMUTABLE STRICT PARALLEL SAFE COST 10;
CREATE FUNCTION bitset_xor(bitset, bitset) RETURNS bitset AS 'MODULE_PATHNAME' LANGUAGE C IMMUTABLE STRICT PARALLEL SAFE COST 10;
CREATE FUNCTION bitset_minus(bitset, bitset) RETURNS bitset AS 'MODULE_PATHNAME' LANGUAGE C IMMUTABLE STRICT PARALLEL SAFE COST 10;
-- (what GIN is asked for `<@`, which it serves by another operator)
CREATE FUNCTION bitset_superset_support(internal) RETURNS internal AS 'MODULE_PATHNAME' LANGUAGE C STRICT;
CREATE FUNCTION bitset_subset_support(internal) RETURNS internal AS 'MODULE_PATHNAME' LANGUAGE C STRICT;
CREATE FUNCTION bitset_superset(bitset, bitset) RETURNS boolean AS 'MODULE_PATHNAME' LANGUAGE C IMMUTABLE STRICT LEAKPROOF PARALLEL SAFE COST 10
SUPPORT bitset_superset_support;
CREATE FUNCTION bitset_subset(bitset, bitset) RETURNS boolean AS 'MODULE_PATHNAME' LANGUAGE C IMMUTABLE STRICT LEAKPROOF PARALLEL SAFE COST 10
SUPPORT bitset_subset_support;
CREATE FUNCTION bitset_overlap(bitset, bitset) RETURNS boolean AS 'MODULE_PATHNAME' LANGUAGE C IMMUTABLE STRICT LEAKPROOF PARALLEL SAFE COST 10;
CREATE FUNCTION bitset_contained_position(bigint, bitset) RETURNS boolean AS 'MODULE_PATHNAME' LANGUAGE C IMMUTABLE STRICT LEAKPROOF PARALLEL SAFE;
CREATE FUNCTION bitset_contains_each(bitset, bigint[]) RETURNS boolean AS 'MODULE_PATHNAME' LANGUAGE C IMMUTABLE STRICT LEAKPROOF PARALLEL SAFE COST 10;
CREATE FUNCTION bitset_contained_each(bigint[], bitset) RETURNS boolean AS 'MODULE_PATHNAME' LANGUAGE C IMMUTABLE STRICT LEAKPROOF PARALLEL SAFE COST 10;
CREATE FUNCTION bitset_same(bitset, bitset) RETURNS boolean AS 'MODULE_PATHNAME' LANGUAGE C IMMUTABLE STRICT LEAKPROOF PARALLEL SAFE COST 10;

-- (the planner's estimates)
CREATE FUNCTION bitset_contains_share(internal, oid, internal, integer) RETURNS double precision
AS 'MODULE_PATHNAME' LANGUAGE C STABLE STRICT PARALLEL SAFE;
CREATE FUNCTION bitset_contained_share(internal, oid, internal, integer) RETURNS double precision
AS 'MODULE_PATHNAME' LANGUAGE C STABLE STRICT PARALLEL SAFE;
CREATE FUNCTION bitset_overlap_share(internal, oid, internal, integer) RETURNS double precision
AS 'MODULE_PATHNAME' LANGUAGE C STABLE STRICT PARALLEL SAFE;
CREATE FUNCTION bitset_found_share(internal, oid, internal, integer) RETURNS double precision
AS 'MODULE_PATHNAME' LANGUAGE C STABLE STRICT PARALLEL SAFE;

CREATE OPERATOR | (LEFTARG = bitset, RIGHTARG = bitset, FUNCTION = bitset_or, COMMUTATOR = |);
CREATE OPERATOR & (LEFTARG = bitset, RIGHTARG = bitset, FUNCTION = bitset_and, COMMUTATOR = &);
CREATE OPERATOR # (LEFTARG = bitset, RIGHTARG = bitset, FUNCTION = bitset_xor, COMMUTATOR = #);
CREATE OPERATOR - (LEFTARG = bitset, RIGHTARG = bitset, FUNCTION = bitset_minus);
CREATE OPERATOR ~ (RIGHTARG = bitset, FUNCTION = bitset_not);
CREATE OPERATOR | (LEFTARG = bitset, RIGHTARG = bigint, FUNCTION = insert);
CREATE OPERATOR - (LEFTARG = bitset, RIGHTARG = bigint, FUNCTION = remove);
CREATE OPERATOR @> (
    LEFTARG = bitset, RIGHTARG = bitset, FUNCTION = bitset_superset, COMMUTATOR = <@,
    RESTRICT = bitset_contains_share, JOIN = contjoinsel
);
CREATE OPERATOR <@ (
    LEFTARG = bitset, RIGHTARG = bitset, FUNCTION = bitset_subset, COMMUTATOR = @>,
    RESTRICT = bitset_contained_share, JOIN = contjoinsel
);
-- (that of `<@` for GIN: the planner expects as many rows as an index finds, before they are looked at)
CREATE OPERATOR <@? (LEFTARG = bitset, RIGHTARG = bitset, FUNCTION = bitset_subset, RESTRICT = bitset_found_share, JOIN = contjoinsel);
CREATE OPERATOR && (
    LEFTARG = bitset, RIGHTARG = bitset, FUNCTION = bitset_overlap, COMMUTATOR = &&,
    RESTRICT = bitset_overlap_share, JOIN = areajoinsel
);
CREATE OPERATOR @> (
    LEFTARG = bitset, RIGHTARG = bigint, FUNCTION = contains, COMMUTATOR = <@,
    RESTRICT = bitset_contains_share, JOIN = contjoinsel
);
CREATE OPERATOR <@ (
    LEFTARG = bigint, RIGHTARG = bitset, FUNCTION = bitset_contained_position, COMMUTATOR = @>,
    RESTRICT = bitset_contained_share, JOIN = contjoinsel
);
CREATE OPERATOR @> (
    LEFTARG = bitset, RIGHTARG = bigint[], FUNCTION = bitset_contains_each, COMMUTATOR = <@,
    RESTRICT = bitset_contains_share, JOIN = contjoinsel
);
CREATE OPERATOR <@ (
    LEFTARG = bigint[], RIGHTARG = bitset, FUNCTION = bitset_contained_each, COMMUTATOR = @>,
    RESTRICT = bitset_contained_share, JOIN = contjoinsel
);
CREATE OPERATOR ~= (
    LEFTARG = bitset, RIGHTARG = bitset, FUNCTION = bitset_same, COMMUTATOR = ~=,
    RESTRICT = eqsel, JOIN = eqjoinsel
);

-- Order and hashing

CREATE FUNCTION bitset_eq(bitset, bitset) RETURNS boolean AS 'MODULE_PATHNAME' LANGUAGE C IMMUTABLE STRICT LEAKPROOF PARALLEL SAFE;
CREATE FUNCTION bitset_ne(bitset, bitset) RETURNS boolean AS 'MODULE_PATHNAME' LANGUAGE C IMMUTABLE STRICT LEAKPROOF PARALLEL SAFE;
CREATE FUNCTION bitset_lt(bitset, bitset) RETURNS boolean AS 'MODULE_PATHNAME' LANGUAGE C IMMUTABLE STRICT LEAKPROOF PARALLEL SAFE;
CREATE FUNCTION bitset_le(bitset, bitset) RETURNS boolean AS 'MODULE_PATHNAME' LANGUAGE C IMMUTABLE STRICT LEAKPROOF PARALLEL SAFE;
CREATE FUNCTION bitset_gt(bitset, bitset) RETURNS boolean AS 'MODULE_PATHNAME' LANGUAGE C IMMUTABLE STRICT LEAKPROOF PARALLEL SAFE;
CREATE FUNCTION bitset_ge(bitset, bitset) RETURNS boolean AS 'MODULE_PATHNAME' LANGUAGE C IMMUTABLE STRICT LEAKPROOF PARALLEL SAFE;
CREATE FUNCTION bitset_cmp(bitset, bitset) RETURNS integer AS 'MODULE_PATHNAME' LANGUAGE C IMMUTABLE STRICT LEAKPROOF PARALLEL SAFE;
CREATE FUNCTION bitset_hash(bitset) RETURNS integer AS 'MODULE_PATHNAME' LANGUAGE C IMMUTABLE STRICT PARALLEL SAFE;
CREATE FUNCTION bitset_hash_extended(bitset, bigint) RETURNS bigint
AS 'MODULE_PATHNAME', 'bitset_hash' LANGUAGE C IMMUTABLE STRICT PARALLEL SAFE;

CREATE OPERATOR = (
    LEFTARG = bitset, RIGHTARG = bitset, FUNCTION = bitset_eq, COMMUTATOR = =, NEGATOR = <>,
    RESTRICT = eqsel, JOIN = eqjoinsel, HASHES, MERGES
);
CREATE OPERATOR <> (
    LEFTARG = bitset, RIGHTARG = bitset, FUNCTION = bitset_ne, COMMUTATOR = <>, NEGATOR = =,
    RESTRICT = neqsel, JOIN = neqjoinsel
);
CREATE OPERATOR < (
    LEFTARG = bitset, RIGHTARG = bitset, FUNCTION = bitset_lt, COMMUTATOR = >, NEGATOR = >=,
    RESTRICT = scalarltsel, JOIN = scalarltjoinsel
);
CREATE OPERATOR <= (
    LEFTARG = bitset, RIGHTARG = bitset, FUNCTION = bitset_le, COMMUTATOR = >=, NEGATOR = >,
    RESTRICT = scalarlesel, JOIN = scalarlejoinsel
);
CREATE OPERATOR > (
    LEFTARG = bitset, RIGHTARG = bitset, FUNCTION = bitset_gt, COMMUTATOR = <, NEGATOR = <=,
    RESTRICT = scalargtsel, JOIN = scalargtjoinsel
);
CREATE OPERATOR >= (
    LEFTARG = bitset, RIGHTARG = bitset, FUNCTION = bitset_ge, COMMUTATOR = <=, NEGATOR = <,
    RESTRICT = scalargesel, JOIN = scalargejoinsel
);

CREATE OPERATOR CLASS bitset_ops DEFAULT FOR TYPE bitset USING btree AS
    OPERATOR 1 <, OPERATOR 2 <=, OPERATOR 3 =, OPERATOR 4 >=, OPERATOR 5 >,
    FUNCTION 1 bitset_cmp(bitset, bitset), FUNCTION 4 btequalimage(oid);
CREATE OPERATOR CLASS bitset_ops DEFAULT FOR TYPE bitset USING hash AS
    OPERATOR 1 =, FUNCTION 1 bitset_hash(bitset), FUNCTION 2 bitset_hash_extended(bitset, bigint);

-- An index of the positions

CREATE FUNCTION bitset_gin_value(bitset, internal) RETURNS internal AS 'MODULE_PATHNAME' LANGUAGE C IMMUTABLE STRICT PARALLEL SAFE;
CREATE FUNCTION bitset_gin_query(bitset, internal, smallint, internal, internal, internal, internal) RETURNS internal
AS 'MODULE_PATHNAME' LANGUAGE C IMMUTABLE STRICT PARALLEL SAFE;
CREATE FUNCTION bitset_gin_consistent(internal, smallint, bitset, integer, internal, internal, internal) RETURNS "char"
AS 'MODULE_PATHNAME' LANGUAGE C IMMUTABLE STRICT PARALLEL SAFE;

CREATE OPERATOR CLASS bitset_ops DEFAULT FOR TYPE bitset USING gin AS
    OPERATOR 1 &&, OPERATOR 2 @>, OPERATOR 3 @> (bitset, bigint), OPERATOR 4 <@?, OPERATOR 5 @> (bitset, bigint[]),
    FUNCTION 1 btint8cmp(bigint, bigint), FUNCTION 2 bitset_gin_value(bitset, internal),
    FUNCTION 3 bitset_gin_query(bitset, internal, smallint, internal, internal, internal, internal),
    FUNCTION 6 bitset_gin_consistent(internal, smallint, bitset, integer, internal, internal, internal),
    STORAGE bigint;

-- Aggregates

CREATE FUNCTION bitset_union_step(internal, bitset) RETURNS internal AS 'MODULE_PATHNAME' LANGUAGE C IMMUTABLE PARALLEL SAFE;
CREATE FUNCTION bitset_union_combine(internal, internal) RETURNS internal AS 'MODULE_PATHNAME' LANGUAGE C IMMUTABLE PARALLEL SAFE;
CREATE FUNCTION bitset_intersection_step(internal, bitset) RETURNS internal AS 'MODULE_PATHNAME' LANGUAGE C IMMUTABLE PARALLEL SAFE;
CREATE FUNCTION bitset_intersection_combine(internal, internal) RETURNS internal AS 'MODULE_PATHNAME' LANGUAGE C IMMUTABLE PARALLEL SAFE;
CREATE FUNCTION bitset_symmetric_difference_step(internal, bitset) RETURNS internal AS 'MODULE_PATHNAME' LANGUAGE C IMMUTABLE PARALLEL SAFE;
CREATE FUNCTION bitset_symmetric_difference_combine(internal, internal) RETURNS internal AS 'MODULE_PATHNAME' LANGUAGE C IMMUTABLE PARALLEL SAFE;
CREATE FUNCTION bitset_agg_step(internal, bigint, bigint) RETURNS internal AS 'MODULE_PATHNAME' LANGUAGE C IMMUTABLE PARALLEL SAFE;
CREATE FUNCTION bitset_agg_position_step(internal, bigint) RETURNS internal AS 'MODULE_PATHNAME' LANGUAGE C IMMUTABLE PARALLEL SAFE;
CREATE FUNCTION bitset_agg_final(internal) RETURNS bitset AS 'MODULE_PATHNAME' LANGUAGE C IMMUTABLE STRICT PARALLEL SAFE;
CREATE FUNCTION bitset_count_final(internal) RETURNS bigint AS 'MODULE_PATHNAME' LANGUAGE C IMMUTABLE STRICT PARALLEL SAFE;
CREATE FUNCTION bitset_final(internal) RETURNS bitset AS 'MODULE_PATHNAME' LANGUAGE C IMMUTABLE STRICT PARALLEL SAFE;
CREATE FUNCTION bitset_serial(internal) RETURNS bytea AS 'MODULE_PATHNAME', 'bitset_final' LANGUAGE C IMMUTABLE STRICT PARALLEL SAFE;
CREATE FUNCTION bitset_deserial(bytea, internal) RETURNS internal AS 'MODULE_PATHNAME' LANGUAGE C IMMUTABLE STRICT PARALLEL SAFE;

CREATE AGGREGATE bitset_union(bitset) (
    SFUNC = bitset_union_step, STYPE = internal, FINALFUNC = bitset_final, COMBINEFUNC = bitset_union_combine,
    SERIALFUNC = bitset_serial, DESERIALFUNC = bitset_deserial, PARALLEL = SAFE
);
CREATE AGGREGATE bitset_intersection(bitset) (
    SFUNC = bitset_intersection_step, STYPE = internal, FINALFUNC = bitset_final, COMBINEFUNC = bitset_intersection_combine,
    SERIALFUNC = bitset_serial, DESERIALFUNC = bitset_deserial, PARALLEL = SAFE
);
CREATE AGGREGATE bitset_symmetric_difference(bitset) (
    SFUNC = bitset_symmetric_difference_step, STYPE = internal, FINALFUNC = bitset_final, COMBINEFUNC = bitset_symmetric_difference_combine,
    SERIALFUNC = bitset_serial, DESERIALFUNC = bitset_deserial, PARALLEL = SAFE
);
CREATE AGGREGATE bitset_union_count(bitset) (
    SFUNC = bitset_union_step, STYPE = internal, FINALFUNC = bitset_count_final, COMBINEFUNC = bitset_union_combine,
    SERIALFUNC = bitset_serial, DESERIALFUNC = bitset_deserial, PARALLEL = SAFE
);
CREATE AGGREGATE bitset_intersection_count(bitset) (
    SFUNC = bitset_intersection_step, STYPE = internal, FINALFUNC = bitset_count_final, COMBINEFUNC = bitset_intersection_combine,
    SERIALFUNC = bitset_serial, DESERIALFUNC = bitset_deserial, PARALLEL = SAFE
);
CREATE AGGREGATE bitset_symmetric_difference_count(bitset) (
    SFUNC = bitset_symmetric_difference_step, STYPE = internal, FINALFUNC = bitset_count_final, COMBINEFUNC = bitset_symmetric_difference_combine,
    SERIALFUNC = bitset_serial, DESERIALFUNC = bitset_deserial, PARALLEL = SAFE
);
CREATE AGGREGATE bitset_agg("position" bigint, length bigint) (
    SFUNC = bitset_agg_step, STYPE = internal, FINALFUNC = bitset_final, COMBINEFUNC = bitset_union_combine,
    SERIALFUNC = bitset_serial, DESERIALFUNC = bitset_deserial, PARALLEL = SAFE
);
CREATE AGGREGATE bitset_agg("position" bigint) (
    SFUNC = bitset_agg_position_step, STYPE = internal, FINALFUNC = bitset_agg_final, COMBINEFUNC = bitset_union_combine,
    SERIALFUNC = bitset_serial, DESERIALFUNC = bitset_deserial, PARALLEL = SAFE
);
