/* fixedbitset--1.0--1.1.sql */

-- complain if script is sourced in psql, rather than via ALTER EXTENSION
\echo Use "ALTER EXTENSION fixedbitset UPDATE TO '1.1'" to load this file. \quit

-- What functions that look at all of a set cost, and how many rows the planner expects of `ones` and `runs`

CREATE FUNCTION bitset_ones_support(internal) RETURNS internal AS 'MODULE_PATHNAME' LANGUAGE C STRICT;
ALTER FUNCTION bitset_to_varbit(bitset) COST 10;
ALTER FUNCTION bitset_to_bit(bitset, integer, boolean) COST 10;
ALTER FUNCTION bytes(bitset) COST 10;
ALTER FUNCTION positions(bitset) COST 10;
ALTER FUNCTION positions(bitset, bigint, bigint) COST 10;
ALTER FUNCTION ones(bitset) COST 10 SUPPORT bitset_ones_support;
ALTER FUNCTION zeroes(bitset) COST 10;
ALTER FUNCTION ones(bitset, int8range) COST 10 SUPPORT bitset_ones_support;
ALTER FUNCTION zeroes(bitset, int8range) COST 10;
ALTER FUNCTION runs(bitset) COST 10 SUPPORT bitset_ones_support;
ALTER FUNCTION zero_runs(bitset) COST 10 SUPPORT bitset_ones_support;
ALTER FUNCTION grow(bitset, bigint) COST 10;
ALTER FUNCTION truncate(bitset, bigint) COST 10;
ALTER FUNCTION resize(bitset, bigint) COST 10;
ALTER FUNCTION is_clear(bitset) COST 10;
ALTER FUNCTION is_full(bitset) COST 10;
ALTER FUNCTION minimum(bitset) COST 10;
ALTER FUNCTION maximum(bitset) COST 10;
ALTER FUNCTION next_one(bitset, bigint) COST 10;
ALTER FUNCTION next_zero(bitset, bigint) COST 10;
ALTER FUNCTION previous_one(bitset, bigint) COST 10;
ALTER FUNCTION previous_zero(bitset, bigint) COST 10;
ALTER FUNCTION first_gap(bitset, bigint, bigint) COST 10;
ALTER FUNCTION first_aligned_gap(bitset, bigint, bigint, int8range) COST 10;
ALTER FUNCTION rank(bitset, bigint) COST 10;
ALTER FUNCTION select_one(bitset, bigint) COST 10;
ALTER FUNCTION count_ones(bitset) COST 10;
ALTER FUNCTION insert(bitset, bigint) COST 10;
ALTER FUNCTION remove(bitset, bigint) COST 10;
ALTER FUNCTION toggle(bitset, bigint) COST 10;
ALTER FUNCTION insert_all(bitset, bigint[]) COST 10;
ALTER FUNCTION remove_all(bitset, bigint[]) COST 10;
ALTER FUNCTION load(bitset, bigint, bigint) COST 10;
ALTER FUNCTION store(bitset, bigint, bigint, bigint) COST 10;
ALTER FUNCTION shift_up(bitset, bigint) COST 10;
ALTER FUNCTION shift_down(bitset, bigint) COST 10;
ALTER FUNCTION bitset_not(bitset) COST 10;
ALTER FUNCTION insert_range(bitset, int8range) COST 10;
ALTER FUNCTION remove_range(bitset, int8range) COST 10;
ALTER FUNCTION toggle_range(bitset, int8range) COST 10;
ALTER FUNCTION count_ones(bitset, int8range) COST 10;
ALTER FUNCTION count_zeroes(bitset, int8range) COST 10;
ALTER FUNCTION contains_all(bitset, int8range) COST 10;
ALTER FUNCTION contains_any(bitset, int8range) COST 10;
ALTER FUNCTION slice(bitset, int8range) COST 10;
ALTER FUNCTION union_count(bitset, bitset) COST 10;
ALTER FUNCTION intersection_count(bitset, bitset) COST 10;
ALTER FUNCTION difference_count(bitset, bitset) COST 10;
ALTER FUNCTION symmetric_difference_count(bitset, bitset) COST 10;
ALTER FUNCTION first_lacking(bitset, bitset) COST 10;
ALTER FUNCTION next_common(bitset, bitset, bigint) COST 10;
ALTER FUNCTION append(bitset, bitset) COST 10;
ALTER FUNCTION copy_range(bitset, bitset, int8range, bigint) COST 10;
ALTER FUNCTION union_with_shifted(bitset, bitset, bigint) COST 10;
ALTER FUNCTION bitset_or(bitset, bitset) COST 10;
ALTER FUNCTION bitset_and(bitset, bitset) COST 10;
ALTER FUNCTION bitset_xor(bitset, bitset) COST 10;
ALTER FUNCTION bitset_minus(bitset, bitset) COST 10;
ALTER FUNCTION bitset_superset(bitset, bitset) COST 10;
ALTER FUNCTION bitset_overlap(bitset, bitset) COST 10;

-- What GIN is asked for `<@`, which it serves by another operator

CREATE FUNCTION bitset_subset_support(internal) RETURNS internal AS 'MODULE_PATHNAME' LANGUAGE C STRICT;
ALTER FUNCTION bitset_subset(bitset, bitset) COST 10 SUPPORT bitset_subset_support;
CREATE FUNCTION bitset_found_share(internal, oid, internal, integer) RETURNS double precision
AS 'MODULE_PATHNAME' LANGUAGE C STABLE STRICT PARALLEL SAFE;
CREATE OPERATOR <@? (LEFTARG = bitset, RIGHTARG = bitset, FUNCTION = bitset_subset, RESTRICT = bitset_found_share, JOIN = contjoinsel);

-- Operators of a set and positions, and of two sets with the same positions

CREATE FUNCTION bitset_contains_each(bitset, bigint[]) RETURNS boolean AS 'MODULE_PATHNAME' LANGUAGE C IMMUTABLE STRICT LEAKPROOF PARALLEL SAFE COST 10;
CREATE FUNCTION bitset_contained_each(bigint[], bitset) RETURNS boolean AS 'MODULE_PATHNAME' LANGUAGE C IMMUTABLE STRICT LEAKPROOF PARALLEL SAFE COST 10;
CREATE FUNCTION bitset_same(bitset, bitset) RETURNS boolean AS 'MODULE_PATHNAME' LANGUAGE C IMMUTABLE STRICT LEAKPROOF PARALLEL SAFE COST 10;

CREATE OPERATOR | (LEFTARG = bitset, RIGHTARG = bigint, FUNCTION = insert);
CREATE OPERATOR - (LEFTARG = bitset, RIGHTARG = bigint, FUNCTION = remove);
CREATE OPERATOR @> (
    LEFTARG = bitset, RIGHTARG = bigint[], FUNCTION = bitset_contains_each, COMMUTATOR = <@,
    RESTRICT = bitset_contains_share, JOIN = contjoinsel
);
CREATE OPERATOR <@ (
    LEFTARG = bigint[], RIGHTARG = bitset, FUNCTION = bitset_contained_each, COMMUTATOR = @>,
    RESTRICT = bitset_contained_share, JOIN = contjoinsel
);
CREATE OPERATOR ~= (
    LEFTARG = bitset, RIGHTARG = bitset, FUNCTION = bitset_same, COMMUTATOR = ~=,
    RESTRICT = eqsel, JOIN = eqjoinsel
);

ALTER OPERATOR FAMILY bitset_ops USING gin ADD OPERATOR 4 <@? (bitset, bitset), OPERATOR 5 @> (bitset, bigint[]);
