--
-- functions over one set and over two
--
\set s '\'{3,7,10-20,63}/64\'::bitset'
\set t '\'{7,15-30,99}/100\'::bitset'

SELECT length(:s), count_ones(:s), minimum(:s), maximum(:s), is_clear(:s), is_full(:s);
SELECT minimum('{}/64'), maximum('{}/64'), is_clear('{}/64'), is_full('{0-63}/64'), is_clear('{}/0'), is_full('{}/0');
SELECT p, contains(:s, p) FROM unnest('{-1,0,3,63,64,9223372036854775807}'::bigint[]) p;
SELECT insert(:s, 4), remove(:s, 15), toggle(:s, 3), toggle(:s, 4);
SELECT insert(:s, 64);
SELECT remove(:s, -1);
SELECT grow(:s, 100), grow(:s, 10), grow('{}/0', 1);
SELECT grow(:s, 4294967233);

-- the positions next to a number
SELECT p, next_one(:s, p), next_zero(:s, p), previous_one(:s, p), previous_zero(:s, p)
FROM unnest('{-9223372036854775808,-1,0,3,4,10,20,63,64,9223372036854775807}'::bigint[]) p;
SELECT next_one('{}/64', 0), next_zero('{0-63}/64', 0), previous_one('{}/64', 64), previous_zero('{0-63}/64', 64), next_zero('{}/0', 0);

-- ranges
SELECT insert_range(:s, '[0,5)'), remove_range(:s, '[12,18]'), toggle_range(:s, '(8,12)');
SELECT insert_range(:s, '[60,)'), remove_range(:s, '(,10)'), toggle_range(:s, '(,)'), insert_range(:s, 'empty');
SELECT count_ones(:s, '[10,20)'), count_zeroes(:s, '[0,10)'), count_ones(:s, '(,)'), count_ones(:s, 'empty');
SELECT contains_all(:s, '[10,20]'), contains_all(:s, '[10,21]'), contains_any(:s, '[21,63)'), contains_any(:s, '[21,63]');
SELECT contains_all(:s, 'empty'), contains_any(:s, 'empty'), count_ones(:s, '[64,64)');
SELECT count_ones(:s, '[64,)');
SELECT count_ones(:s, '[-1,3)');
SELECT insert_range(:s, '[60,66)');

-- counts without a set
SELECT union_count(:s, :t), intersection_count(:s, :t), difference_count(:s, :t), difference_count(:t, :s),
	symmetric_difference_count(:s, :t);
