--
-- operators, of sets of unlike length too
--
\set s '\'{3,7,10-20,63}/64\'::bitset'
\set t '\'{7,15-30,99}/100\'::bitset'

-- union and symmetric difference have the greater length, intersection the smaller, difference the first one's
SELECT :s | :t AS "or", :s & :t AS "and", :s # :t AS "xor", :s - :t AS "s-t", :t - :s AS "t-s";
SELECT :t | :s AS "or", :t & :s AS "and", :t # :s AS "xor", :s | :s = :s AS same, is_clear(:s # :s) AS none;

-- tests look at positions alone
SELECT '{1}/10'::bitset <@ '{1,2}/3', '{1,2}/3'::bitset @> '{1}/10', '{1}/10'::bitset @> '{1,2}/3',
	'{}/10'::bitset <@ '{}/0', '{9}/10'::bitset && '{9}/99', '{9}/10'::bitset && '{8}/99', '{}/9'::bitset && '{}/9';
SELECT :s @> 7 AS contains, :s @> 8 AS not, 63 <@ :s AS contained, 64::bigint <@ :s AS past;

-- equality looks at the length
SELECT '{1}/10'::bitset = '{1}/10', '{1}/10'::bitset = '{1}/11', '{1}/10'::bitset <> '{1}/11', '{1}/10'::bitset <> '{2}/10';

-- the order: by length, and then by words from the first on, each word a number
SELECT v::text AS "text" FROM unnest(ARRAY['{0}/2', '{}/3', '{2}/3', '{1}/3', '{1-2}/3', '{0}/3', '{0,2}/3', '{0-1}/3', '{0-2}/3', '{}/0', '{63}/65',
    '{64}/65', '{0,64}/65']::bitset[]) v
ORDER BY v;
SELECT bool_and((a < b) = (x < y) AND (a <= b) = (x <= y) AND (a > b) = (x > y) AND (a >= b) = (x >= y) AND bitset_cmp(a, b) = sign(x - y)
    AND (a <> b) = (x <> y) AND (a = b) = (x = y) AND (a <> b OR bitset_hash(a) = bitset_hash(b))) AS agrees
FROM (SELECT x, bitset(substr(int4send(x), 4)) FROM generate_series(0, 127) x) v(x, a),
    (SELECT y, bitset(substr(int4send(y), 4)) FROM generate_series(0, 127) y) w(y, b);

-- the complement, up to the length
SELECT ~:s AS "not", ~'{}/0'::bitset AS none, ~'{}/3'::bitset AS all_three, ~'{0-63}/64'::bitset AS full, ~(~:s) = :s AS same, length(~bitset(961));

-- an extended hash begins at its second argument; from 0 on it ends as the other one does
SELECT (bitset_hash_extended(:s, 0) & 4294967295) = (bitset_hash(:s) & 4294967295) AS same,
	bitset_hash_extended(:s, 1) = bitset_hash_extended(:s, 2) AS equal;

-- positions on the right: one more, one less, and each of an array
SELECT :s | 5 AS "or", :s - 7 AS minus, :s - 8 AS same, pg_typeof(:s | 5);
SELECT :s | 64;
SELECT :s - -1;
SELECT :s @> ARRAY[3, 63] AS each, :s @> ARRAY[3, 8] AS not, :s @> ARRAY[8, 3] AS first_not, :s @> ARRAY[3, 64] AS past, :s @> ARRAY[-1] AS negative, :s @> ARRAY[3, NULL] AS "null",
	:s @> '{}'::bigint[] AS none, ARRAY[3, 63] <@ :s AS contained, ARRAY[[3], [8]] <@ :s AS rows;

-- positions alone, whatever the lengths are
SELECT '{1}/2'::bitset = '{1}/3' AS equal, '{1}/2'::bitset ~= '{1}/3' AS same, '{1}/2'::bitset ~= '{0}/2' AS other, '{1}/2'::bitset ~= '{1,2}/3' AS more,
	'{}/0'::bitset ~= '{}/2000' AS none;

-- a position in quotes is read as a set
SELECT :s @> '1';
SELECT :s @> '-1';
SELECT :s @> '1/3';
