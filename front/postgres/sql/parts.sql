--
-- sets with another length, parts of sets, and sets moved by any number
--
\set s '\'{3,7,10-20,63}/64\'::bitset'
\set t '\'{7,15-30,99}/100\'::bitset'

-- another length
SELECT n, grow(:s, n), truncate(:s, n), resize(:s, n) FROM unnest('{0,8,63,64,65,1000}'::bigint[]) n;
SELECT resize('{0,960}/961', 960), resize('{0,959}/960', 961), truncate('{0-4999}/5000', 1025), resize('{}/0', 0);
SELECT truncate(:s, -1);
SELECT resize(:s, 4294967233);

-- a part, and a part written over another one
SELECT slice(:s, '[5,20)'), slice(:s, '[60,)'), slice(:s, '(,8]'), slice(:s, '(,)') = :s AS whole, slice(:s, 'empty'), slice('{}/0', '(,)');
SELECT slice(:s, '[60,65)');
SELECT slice(:s, '[-1,3)');
SELECT at, copy_range(:s, :t, '[14,18)', at) FROM unnest('{0,1,58,60}'::bigint[]) at;
SELECT copy_range(:s, :t, 'empty', 64) = :s AS same, copy_range(:t, :s, '(,)', 0), copy_range(:t, :s, '(,)', 36);
SELECT copy_range(:s, :t, '(,)', 0);
SELECT copy_range(:s, :t, '[14,18)', 61);
SELECT copy_range(:s, :t, '[14,18)', -1);
SELECT copy_range(:s, :t, '[14,101)', 0);
SELECT copy_range(:s, :t, 'empty', 65);

-- at most 64 positions as a number
SELECT p, load(:s, p, 4), load(:s, p, 0), store(:s, p, 4, 10), store(:s, p, 3, -1) FROM unnest('{0,7,58,60}'::bigint[]) p;
SELECT load(:s, 0, 64), load(:t, 36, 64), store(:s, 0, 64, load(:s, 0, 64)) = :s AS same, store(:t, 36, 64, -1), load('{}/0', 0, 0);
SELECT load(:s, 61, 4);
SELECT load(:t, 0, 65);
SELECT load(:s, -1, 4);
SELECT load(:s, 4, -1);
SELECT store(:s, 61, 4, 0);
SELECT store(:t, 0, 65, 0);
SELECT store(:s, 9223372036854775807, 9223372036854775807, 0);

-- many positions in one call
SELECT insert_all(:s, '{63,0,5,0}'), remove_all(:s, '{63,0,12,63}'), insert_all(:s, '{}') = :s AS same, remove_all(:s, '{}') = :s AS same_too;
SELECT insert_all(:s, '{0,64}');
SELECT remove_all(:s, '{3,-1}');
SELECT remove_all(:s, '{3,NULL}');

-- one set behind another
SELECT append(:s, :t), append(:t, :s), append(:s, '{}/0') = :s AS same, append('{}/0', :t) = :t AS same_too, append('{}/0', '{}/0');
SELECT append('{0}/960', '{0}/1'), append('{959}/960', '{}/1');

-- moved: the length stays
SELECT n, shift_up(:s, n), shift_down(:s, n) FROM unnest('{0,1,3,4,44,63,64,9223372036854775807}'::bigint[]) n;
SELECT shift_up('{0-2}/1000', 997), shift_up('{0-2}/1000', 999), shift_down('{0,999}/1000', 999), shift_up('{}/0', 1);
SELECT shift_up(:s, -1);
SELECT shift_down(:s, -1);
SELECT n, union_with_shifted(:s, :t, n), union_with_shifted(:t, :s, n) FROM unnest('{0,1,37,93,9223372036854775807}'::bigint[]) n;
SELECT union_with_shifted(:s, :t, -1);

-- how many stand below a position, which is the k-th, room for so many, and what is missing
SELECT p, rank(:s, p) FROM unnest('{-9223372036854775808,-1,0,3,4,12,63,64,9223372036854775807}'::bigint[]) p;
SELECT k, select_one(:s, k) FROM unnest('{-1,0,1,2,12,13,14,9223372036854775807}'::bigint[]) k;
SELECT rank('{}/0'::bitset, 0), select_one('{}/0', 0), select_one('{}/1000', 0), select_one('{1-999}/1000', 998), select_one('{1-999}/1000', 999);
SELECT bool_and(rank(s, select_one(s, k)) = k AND s @> select_one(s, k)) AS agrees
FROM (SELECT bitset_agg(p * p % 9973, 9973) FROM generate_series(1, 2000) p) v(s), generate_series(0, count_ones(s) - 1) k;
SELECT n, first_gap(:s, n), first_gap(:s, n, 5), first_gap(:s, n, 21) FROM unnest('{0,1,3,4,42,43,9223372036854775807}'::bigint[]) n;
SELECT first_gap(:s, 1, -1), first_gap(:s, 0, 64), first_gap(:s, 0, 65), first_gap('{0-63}/64', 1), first_gap('{}/0', 1), first_gap('{}/64', 64);
SELECT first_gap(:s, -1);
-- the same at a multiple, in a range: only 0 is one of 0
SELECT a, first_aligned_gap(:s, 3, a), first_aligned_gap(:s, 3, a, '[1,)'), first_aligned_gap(:s, 3, a, '[1,27)'),
    first_aligned_gap(:s, 0, a, '[21,32]'), first_aligned_gap(:s, 64, a) FROM unnest('{0,1,8,32,9223372036854775807}'::bigint[]) a;
SELECT first_aligned_gap(:s, 1, -1);
SELECT first_aligned_gap(:s, -1, 1);
SELECT first_aligned_gap(:s, 1, 1, '[60,65)');
-- a long set is looked at in parts: gaps within one, over the end of one, and longer than one
CREATE TABLE long AS SELECT start, stop, remove_range(insert_range(bitset(40000001), '(,)'), int8range(start, stop)) AS s
FROM (VALUES (5, 9), (33554430, 33554434), (33554431, 33554435), (33554432, 33554436), (39999997, 40000001)) v(start, stop);
SELECT start, first_gap(s, 4) = start AS four, first_gap(s, 5) AS five, first_gap(s, 1, start + 1) = start + 1 AS one,
    first_gap(s, 4, start + 1) AS past, first_gap(s, 0, 99) AS none, first_aligned_gap(s, 2, 2) - start AS even FROM long;
SELECT first_gap(remove_range(s, '[10000000,36000001)'), n), first_gap(remove_range(s, '[10000000,36000001)'), n, 10000001)
FROM (SELECT s FROM long LIMIT 1) v, unnest('{4,5,17000000,25999999,26000001,26000002,40000001,40000002}'::bigint[]) n;
-- so is it where it is copied, changed and joined: what is made agrees with counts, which go over the whole
SELECT count_ones(~s) = count_zeroes(s, '(,)') AS "not", count_ones(s | t) = union_count(s, t) AS "or",
    count_ones(s & t) = intersection_count(s, t) AS "and", count_ones(s # t) = symmetric_difference_count(s, t) AS "xor",
    count_ones(s - t) = difference_count(s, t) AS minus, count_ones(t - s) = difference_count(t, s) AS other, grow(s, 50000001) @> s AS grown,
    count_ones(remove_range(s, '[16777210,33554440)')) = count_ones(s) - count_ones(s, '[16777210,33554440)') AS removed
FROM (SELECT s, shift_up(truncate(s, 20000000), 3) AS t FROM long WHERE start < 33554432) v;
DROP TABLE long;
-- and where it is written, read, cast and listed: the parts of random positions differ, so each form has to give them all back
SELECT length(s), md5(bytes(s)), s::text = 'x:' || encode(bytes(s), 'hex') || '/' || length(s) AS digits, s::text::bitset = s AS text,
    s::bit varying::bitset = s AS bits, bitset(positions(truncate(s, 36000000)), length(s)) = remove_range(s, '[36000000,)') AS positions
FROM (SELECT bitset(string_agg(sha512(int8send(n)), '')) FROM generate_series(1, 273438) n) v(s);
SELECT first_lacking(:s, :t), first_lacking(:t, :s), first_lacking(:s, :s), first_lacking('{1}/5', '{1,99}/100'), first_lacking('{}/0', '{}/9');
-- the next that both have; a negative number is before all positions
SELECT p, next_common(:s, :t, p), next_common(:t, :s, p) FROM unnest('{-1,0,7,8,16,21,64,9223372036854775807}'::bigint[]) p;
SELECT next_common(:s, ~:s, 0), next_common('{}/0', '{}/9', 0), next_common('{4000}/5000', '{63,4000}/4001', 64), next_common('{4000}/5000', '{63}/4001', 0);

-- bytes of another length
SELECT n, bitset_from_bytes('\x88fc1f', n) FROM unnest('{0,4,8,20,24,1000}'::bigint[]) n;
SELECT bitset_from_bytes('', 0), bitset_from_bytes('', 10), bitset_from_bytes('\xff', 3);
SELECT bitset_from_bytes('\x01', -1);
SELECT bitset_from_bytes('\x01', 4294967233);

-- rows of a range, and gaps
SELECT p FROM ones(:s, '[7,12)') p;
SELECT p FROM zeroes(:s, '[19,22]') p;
SELECT count(*) FROM ones(:s, '(,)');
SELECT ones(:s, '[62,)'), zeroes(:s, '(,3)');
SELECT count(*) FROM ones(:s, 'empty');
SELECT ones(:s, '[62,65)');
SELECT r FROM zero_runs(:s) r;
SELECT zero_runs('{}/10'), zero_runs('{}/0'), zero_runs('{0-9}/10');
SELECT zero_runs('{0,3}/4'), runs('{0,3}/4'), ones('{0,3}/4', '[1,)'), zeroes('{0,3}/4', '[1,)');

\set VERBOSITY sqlstate
SELECT resize(:s, 4294967233);
SELECT slice(:s, '[60,65)');
SELECT copy_range(:s, :t, '[14,18)', 61);
SELECT shift_up(:s, -1);
SELECT first_gap(:s, -1);
SELECT bitset_from_bytes('\x01', 4294967233);
\set VERBOSITY default

-- a walk goes on over a large set from one row to the next
SELECT count(*), sum(p) FROM ones(bitset(ARRAY[0, 299999999], 300000000)) p;
