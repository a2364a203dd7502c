--
-- aggregates whose states are joined, of two processes
--
-- the states of four parts are joined. Positions 0 to 4 are in each set, 5 to 8 in the sets of one part, 10 and above in eleven
CREATE TABLE parts (part int, p bigint, s bitset) PARTITION BY LIST (part);
CREATE TABLE parts0 PARTITION OF parts FOR VALUES IN (0);
CREATE TABLE parts1 PARTITION OF parts FOR VALUES IN (1);
CREATE TABLE parts2 PARTITION OF parts FOR VALUES IN (2);
CREATE TABLE parts3 PARTITION OF parts FOR VALUES IN (3);
INSERT INTO parts SELECT part, k * (10 * part + k), bitset(ARRAY[0, 1, 2, 3, 4, 5 + part, 10 + 10 * part + k], 100 + 10 * part)
FROM generate_series(0::bigint, 3) part, generate_series(0::bigint, 8) k, generate_series(1, 11);
ANALYZE parts;
CREATE VIEW joined AS SELECT bitset_union(s), bitset_intersection(s), bitset_symmetric_difference(s), bitset_union_count(s),
    bitset_intersection_count(s), bitset_symmetric_difference_count(s), bitset_agg(p, 400), bitset_agg(p) AS without_length FROM parts;
SELECT oid::regprocedure AS combined FROM pg_proc JOIN pg_aggregate ON aggfnoid = oid
WHERE aggcombinefn <> 0 AND oid::regprocedure::text ~ '^bitset' ORDER BY 1::text;
\x
SELECT * FROM joined;
SET enable_partitionwise_aggregate = on;
SET parallel_leader_participation = off;
SET parallel_setup_cost = 0;
SET parallel_tuple_cost = 0;
SET min_parallel_table_scan_size = 0;
SET max_parallel_workers_per_gather = 2;
SELECT * FROM joined;
\x
EXPLAIN (COSTS OFF) SELECT * FROM joined;
RESET ALL;
DROP TABLE parts CASCADE;
