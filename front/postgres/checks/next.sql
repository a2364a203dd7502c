-- A next version of the extension, for checks/update: how it upgrades the present one. Each statement stands on one line.
CREATE FUNCTION cardinality(bitset) RETURNS bigint AS 'MODULE_PATHNAME', 'bitset_count_ones' LANGUAGE C IMMUTABLE STRICT;
CREATE OPERATOR !! (RIGHTARG = bitset, FUNCTION = count_ones);
ALTER FUNCTION length(bitset) LEAKPROOF;
ALTER OPERATOR && (bitset, bitset) SET (RESTRICT = contsel);
ALTER OPERATOR FAMILY bitset_ops USING gin DROP OPERATOR 5 (bitset, bigint[]);
COMMENT ON TYPE bitset IS 'set of positions below a length';
DROP FUNCTION zero_runs(bitset);
