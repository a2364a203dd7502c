--
-- an index of the positions
--
CREATE TABLE tagged (id int, tags bitset);
INSERT INTO tagged SELECT id, bitset_agg((id * k * k) % 300, 300) FROM generate_series(1, 2000) id, generate_series(1, 6) k GROUP BY id;
INSERT INTO tagged VALUES (2001, '{}/0'), (2002, '{}/300'), (2003, NULL), (2004, '{7,99999}/100000'), (2005, '{0-299}/300');
CREATE INDEX tagged_tags ON tagged USING gin (tags);
SELECT amvalidate(oid) FROM pg_opclass WHERE opcname = 'bitset_ops' AND opcmethod = (SELECT oid FROM pg_am WHERE amname = 'gin');
ANALYZE tagged;

-- each question by the index and without it
CREATE FUNCTION compared(question text, OUT plan text, OUT rows bigint, OUT same boolean) LANGUAGE plpgsql AS $$
DECLARE
    line text;
    slow bigint;
    ids text;
    slow_ids text;
BEGIN
    PERFORM set_config('enable_seqscan', 'off', true);
    FOR line IN EXECUTE 'EXPLAIN (COSTS OFF) SELECT id FROM tagged WHERE ' || question LOOP
        IF line ~ 'Scan' THEN plan := concat_ws(', ', plan, btrim(line, ' >-')); END IF;
    END LOOP;
    EXECUTE 'SELECT count(*), string_agg(id::text, '','' ORDER BY id) FROM tagged WHERE ' || question INTO rows, ids;
    PERFORM set_config('enable_seqscan', 'on', true);
    PERFORM set_config('enable_bitmapscan', 'off', true);
    EXECUTE 'SELECT count(*), string_agg(id::text, '','' ORDER BY id) FROM tagged WHERE ' || question INTO slow, slow_ids;
    PERFORM set_config('enable_bitmapscan', 'on', true);
    same := rows = slow AND ids IS NOT DISTINCT FROM slow_ids;
END
$$;
SELECT (compared(question)).* FROM (VALUES ('tags @> 7'), ('tags @> 7::bigint'), ('7 <@ tags'), ('tags @> -1'), ('tags @> 99999'),
    ('tags @> ''{7,28}/300'''), ('tags @> ''{7,28,299}/1000'''), ('tags @> ''{}/0'''), ('tags @> ''{}/5000'''), ('tags @> ''{999}/1000'''),
    ('tags && ''{7,28}/300'''), ('tags && ''{}/300'''), ('tags && ''{0-299}/300'''), ('tags && ''{999}/1000'''), ('''{7}/8'' <@ tags'),
    ('''{7,28}/300'' && tags'), ('tags @> 7 AND tags && ''{28,63}/64'''), ('tags @> 7 OR tags @> 11'), ('tags @> NULL::bitset')) v(question);
-- (of `<@` the rows with one of the positions, or with none, are looked at)
SELECT (compared(question)).* FROM (VALUES ('tags <@ ''{7,28}/300'''), ('''{7,28}/300'' @> tags'), ('tags <@ (SELECT ''{7,28,99999}/100000''::bitset)'),
    ('tags <@ ''{}/0'''), ('tags <@ ''{999}/1000'''), ('tags <@? ''{7,28}/300'''), ('tags <@ ''{0-298}/300'''), ('tags <@ NULL'),
    ('tags <@ ''{7,28}/300'' AND tags @> 28')) v(question);
SELECT (compared(question)).* FROM (VALUES ('tags @> ''{7,28}''::bigint[]'), ('''{28,7}''::bigint[] <@ tags'), ('tags @> ''{}''::bigint[]'),
    ('tags @> ''{7,NULL}''::bigint[]'), ('tags @> positions(''{0-50}/300'')'), ('tags @> positions(bitset(5))')) v(question);

-- rows that come and go
DELETE FROM tagged WHERE id % 3 = 0;
UPDATE tagged SET tags = insert(tags, 299) WHERE id % 5 = 0 AND length(tags) = 300;
VACUUM tagged;
INSERT INTO tagged SELECT id, bitset(ARRAY[id % 300, 5]::bigint[], 300) FROM generate_series(3000, 3500) id;
SELECT (compared(question)).* FROM (VALUES ('tags @> 299'), ('tags @> ''{5,299}/300'''), ('tags && ''{5,299}/300'''), ('tags @> ''{}/0''')) v(question);
DROP FUNCTION compared;

-- of many positions the index is asked for 16 that are spread over the constant, and the rows that have these are looked at: of
-- 100 rows each lacks another one of 0 to 99, one row has them all, and many have the first 20
CREATE TABLE wide AS SELECT id, CASE WHEN id <= 100 THEN remove('{0-99}/300', id - 1) WHEN id = 101 THEN '{0-99}/300'
    WHEN id % 10 = 0 THEN insert_range(bitset(300), '[0,20)') ELSE bitset(ARRAY[id % 300, id * id % 300], 300) END AS tags
FROM generate_series(1::bigint, 3000) id;
CREATE INDEX ON wide USING gin (tags);
CREATE FUNCTION looked_at(query text, OUT scan text, OUT answered int, OUT removed int) LANGUAGE plpgsql AS $$
DECLARE
    plan json;
BEGIN
    EXECUTE 'EXPLAIN (ANALYZE, FORMAT json) ' || query INTO plan;
    plan := plan->0->'Plan';
    scan := plan->>'Node Type';
    answered := round((plan->>'Actual Rows')::numeric);
    removed := plan->>'Rows Removed by Index Recheck';
END
$$;
PREPARE asked(bitset) AS SELECT id FROM wide WHERE tags @> $1;
SET plan_cache_mode = force_generic_plan;
SET enable_seqscan = off;
ANALYZE wide;
SELECT query, (looked_at(query)).* FROM (VALUES ('SELECT id FROM wide WHERE tags @> ''{0-99}/300'''),
    ('SELECT id FROM wide WHERE ''{0-99}/300'' <@ tags'), ('EXECUTE asked(''{0-99}/300'')'),
    ('SELECT id FROM wide WHERE tags @> (SELECT ''{0-99}/300''::bitset)'), ('SELECT id FROM wide WHERE tags @> (SELECT positions(''{0-99}/300''))')) v(query);
SELECT query, (looked_at(query)).* FROM (VALUES ('EXECUTE asked(''{0-14}/15'')'), ('EXECUTE asked(''{0-15}/16'')'), ('EXECUTE asked(''{0-16}/17'')'),
    ('EXECUTE asked(''{0-99,299}/300'')'), ('EXECUTE asked(''{0-19,4000}/5000'')'), ('EXECUTE asked(insert_range(bitset(5000000), ''(,)''))')) v(query);
RESET enable_seqscan;
RESET plan_cache_mode;
DEALLOCATE asked;
DROP FUNCTION looked_at;

-- the condition stays as it was written, so that it is that of a partial index, after ANALYZE too
CREATE UNIQUE INDEX wide_partial ON wide (id) WHERE tags @> '{0-19}/300';
INSERT INTO wide VALUES (10, '{0-30}/300') ON CONFLICT (id) WHERE tags @> '{0-19}/300' DO NOTHING;
INSERT INTO wide VALUES (110, '{0-30}/300') ON CONFLICT (id) WHERE tags @> '{0-19}/300' DO UPDATE SET tags = EXCLUDED.tags RETURNING *;
EXPLAIN (COSTS OFF) SELECT id FROM wide WHERE tags @> '{0-19}/300' AND id = 110;
DROP TABLE wide;
DROP TABLE tagged;
