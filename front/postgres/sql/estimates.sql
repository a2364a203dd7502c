--
-- what the planner expects of `@>`, `<@` and `&&`
--
CREATE FUNCTION expected(name text, condition text, OUT expected bigint, OUT rows bigint) LANGUAGE plpgsql AS $$
DECLARE
    plan json;
BEGIN
    EXECUTE format('EXPLAIN (FORMAT json) SELECT FROM %I WHERE %s', name, condition) INTO plan;
    EXECUTE format('SELECT count(*) FROM %I WHERE %s', name, condition) INTO rows;
    expected := plan->0->'Plan'->>'Plan Rows';
END
$$;

-- position k is in each row whose number k + 1 divides; 63 is in one row
CREATE TABLE tagged AS SELECT id, bitset(ARRAY(SELECT k FROM generate_series(0::bigint, 39) k WHERE id % (k + 1) = 0), 64) AS tags
FROM generate_series(1, 20000) id;
UPDATE tagged SET tags = insert(tags, 63) WHERE id = 7;
ANALYZE tagged;
SELECT condition, (expected('tagged', condition)).* FROM (VALUES ('tags @> 0'), ('tags @> 1'), ('tags @> 9'), ('tags @> 39'), ('tags @> 63'),
    ('tags @> 50'), ('tags @> 99999'), ('tags @> -1'), ('9 <@ tags'), ('tags @> ''{1,2}/3'''), ('''{1,2}/3'' <@ tags'), ('tags @> ''{0,63}/64'''),
    ('tags @> ''{1,50}/64'''), ('tags @> ''{}/0'''), ('tags && ''{1,2}/3'''), ('tags && ''{39,63}/64'''), ('tags && ''{50-62}/64'''),
    ('tags && ''{}/0'''), ('tags @> NULL::bitset'), ('NOT tags @> 9'), ('tags @> 1 AND tags @> 2'), ('tags @> ''{1,2}''::bigint[]'),
    ('''{1,2}''::bigint[] <@ tags'), ('tags ~= ''{0}/1''')) v(condition);

-- a rare position is looked for in the index, and a common one is not
CREATE INDEX ON tagged USING gin (tags);
EXPLAIN (COSTS OFF) SELECT id FROM tagged WHERE tags @> 63;
EXPLAIN (COSTS OFF) SELECT id FROM tagged WHERE tags @> 0;

-- of `<@`: five positions of 1,024 at random, the same with the statistics of ten positions alone, and rows that all have position 0
CREATE TABLE five AS SELECT bitset(ARRAY(SELECT (hashint8(id * 10 + z) + 2147483648) % 1024 FROM generate_series(1, 5) z), 1024) AS tags
FROM generate_series(1::bigint, 20000) id;
CREATE TABLE rough AS SELECT tags FROM five;
ALTER TABLE rough ALTER tags SET STATISTICS 1;
ANALYZE five, rough;
SELECT condition, rows, expected BETWEEN rows / 2 - 10 AND rows * 2 + 10 AS near FROM (VALUES ('tags <@ ''{0-150}/1024'''), ('tags <@ ''{0-299}/1024'''),
    ('tags <@ ''{0-500}/1024'''), ('''{0-500}/1024'' @> tags'), ('tags <@ ''{0-800}/1024'''), ('tags <@ ''{0-999}/1024'''), ('tags <@ ''{0-1023}/1024'''),
    ('tags <@ ''{1-1023}/1024''')) v(condition), expected('five', condition);
SELECT rows, expected BETWEEN rows / 2 AND rows * 2 AS near FROM expected('rough', 'tags <@ ''{0-1023}/1024''');
SELECT condition, rows, expected BETWEEN rows / 12 AND rows * 12 + 1 AS near FROM (VALUES ('tags <@ ''{0-16}/64'''), ('tags <@ ''{0-30}/64'''),
    ('tags <@ ''{0-39,63}/64'''), ('tags <@ ''{1-63}/64'''), ('''{1-63}/64'' @> tags')) v(condition), expected('tagged', condition);

-- as many rows of a set as it has positions
CREATE FUNCTION rows_of(source text, OUT expected bigint) LANGUAGE plpgsql AS $$
DECLARE
    plan json;
BEGIN
    EXECUTE 'EXPLAIN (FORMAT json) SELECT FROM ' || source INTO plan;
    expected := plan->0->'Plan'->>'Plan Rows';
END
$$;
SELECT source, rows_of(source) FROM (VALUES ('five, ones(tags)'), ('five, runs(tags)'), ('five, zero_runs(tags)'), ('five, ones(tags, ''[7,9)'')'),
    ('five, ones(tags, ''(,)'')'), ('ones(''{3,7,10-20}/64''::bitset)'), ('ones(''{3,7,10-20}/64''::bitset, ''[0,5]'')'),
    ('ones(bitset(9))'), ('(SELECT ones(tags) FROM five OFFSET 0) v'), ('five, zeroes(tags)')) v(source);
DROP FUNCTION rows_of;

-- what looks at all of a set is asked last
EXPLAIN (COSTS OFF) SELECT FROM five WHERE tags @> '{0,1}/2' AND length(tags) = 1024;

-- the shares themselves: those of the rows that are not null, and as many as the statistics target asks for, ten for each
CREATE TABLE few AS SELECT CASE WHEN id % 3 > 0 THEN bitset(ARRAY(SELECT k FROM generate_series(0::bigint, 39) k WHERE id % (k + 1) = 0), 64) END AS tags
FROM generate_series(1, 300) id;
ALTER TABLE few ALTER tags SET STATISTICS 1;
ANALYZE few;
SELECT null_frac, most_common_elems, most_common_elem_freqs FROM pg_stats WHERE tablename = 'few';
SELECT condition, (expected('few', condition)).* FROM (VALUES ('tags @> 0'), ('tags @> 6'), ('tags @> 39'), ('tags <@ ''{0-63}/64''')) v(condition);

-- what an index finds for `<@`: the rows with one of the positions, and those without any, which are no more than all rows
CREATE TABLE sparse AS SELECT (ARRAY[NULL, '{}/64', bitset(ARRAY[id / 10 % 60], 64), '{1-8}/64'])[1 + (id % 10 + 2) / 3] AS tags
FROM generate_series(1::bigint, 6000) id;
ANALYZE sparse;
SELECT few, (expected('sparse', format('tags <@? %L', few))).expected, (SELECT count(*) FROM sparse WHERE tags && few OR is_clear(tags)) AS found
FROM unnest('{"{20}/64","{1-8}/64"}'::bitset[]) few;

-- columns without positions, without sets and without rows
CREATE TABLE none AS SELECT bitset(64) AS clear, NULL::bitset AS missing FROM generate_series(1, 300);
ANALYZE none;
SELECT attname, most_common_elems FROM pg_stats WHERE tablename = 'none' ORDER BY attname;
SELECT name, (expected('none', name || ' @> 1')).* FROM (VALUES ('clear'), ('missing')) v(name);
TRUNCATE none;
ANALYZE none;

-- a domain, an index of an expression, what is not known yet, a long constant, and sets too long for the sample
CREATE DOMAIN narrow AS bitset CHECK (length(VALUE) = 64);
CREATE TABLE narrowed AS SELECT tags::narrow FROM tagged;
CREATE INDEX ON tagged USING gin ((tags - '{0}/1'));
ANALYZE narrowed, tagged;
SELECT condition, (expected('narrowed', condition)).* FROM (VALUES ('tags @> 9'), ('tags && ''{1,2}/64''::narrow')) v(condition);
SELECT condition, (expected('tagged', condition)).* FROM (VALUES ('tags - ''{0}/1'' @> 9'), ('tags @> (SELECT 9)'), ('tags @> id'),
    ('tags @> ANY (''{1,9}''::bigint[])'), ('tags && ''{0-999999}/1000000'''), ('tags @> ''{0-999999}/1000000''')) v(condition);
CREATE TABLE long AS SELECT insert_range(bitset(2000000), '[0,1000001)') AS tags FROM generate_series(1, 3);
ANALYZE long;
SELECT most_common_elems FROM pg_stats WHERE tablename = 'long';

-- a sample has rows from the whole table, where the first ones have as many positions as are read: a third has position 0
CREATE TABLE unlike AS SELECT CASE WHEN id <= 2000 THEN insert_range(bitset(2000), '[0,1000)') ELSE '{1}/2000' END AS tags FROM generate_series(1, 6000) id;
ANALYZE unlike;
SELECT condition, rows, abs(expected - rows) < 100 AS near FROM unnest('{tags @> 0,tags @> 1}'::text[]) condition, expected('unlike', condition);
DROP TABLE tagged, five, rough, few, none, narrowed, long, unlike, sparse;
DROP DOMAIN narrow;
DROP FUNCTION expected;
