--
-- bytes that are not those of a set
--
\set VERBOSITY sqlstate
-- functions for the server's own use cannot be called (42883 by PostgreSQL 15.20, and 0A000 by 15.18)
DO $$
DECLARE call text;
BEGIN
  FOREACH call IN ARRAY ARRAY[
    $c$bitset_recv(NULL)$c$, $c$bitset_union_step(NULL, '{}/1')$c$, $c$bitset_deserial('\x00', NULL)$c$, $c$bitset_final(NULL)$c$,
    $c$bitset_gin_value('{}/1', NULL)$c$, $c$bitset_typanalyze(NULL)$c$, $c$bitset_contains_share(NULL, 0, NULL, 0)$c$]
  LOOP
    BEGIN
      EXECUTE 'SELECT ' || call;
      RAISE WARNING '% can be called', call;
    EXCEPTION WHEN undefined_function OR feature_not_supported THEN NULL;
    END;
  END LOOP;
END $$;
-- numbers past every limit
SELECT bitset('{1}'::bigint[], 9223372036854775807);
SELECT insert('{}/10'::bitset, 9223372036854775807);
SELECT insert('{}/10'::bitset, -9223372036854775808);
SELECT toggle_range('{}/10'::bitset, '[-9223372036854775808,9223372036854775807)'::int8range);
SELECT grow('{}/10'::bitset, -1);
SELECT append(bitset(4294967232), '{}/1');
SELECT maximum(append(bitset(4294967231), '{0}/1'));
SELECT copy_range('{}/10', '{1}/10', '[0,10)', 9223372036854775807), copy_range('{}/10', '{1}/10', '[0,10)', -9223372036854775808);
SELECT select_one(insert_range(bitset(4294967232), '[4294967000,)'), 231);
SELECT bitset(4294967232)::bit varying;
SELECT bitset(2147483641)::bit varying;
SELECT maximum(insert(bitset(2147483640), 2147483639)::bit varying::bitset);
SELECT insert(bitset(4294967232), 4294967231) @> 4294967231;
SELECT bitset_agg(p) FROM unnest('{4294967231}'::bigint[]) p;
DROP EXTENSION fixedbitset;
