--
-- what may be asked under a policy, and what the planner may take of functions
--
-- each operator that answers yes or no is LEAKPROOF, and all but `<@?` have a commutator
SELECT o.oid::regoperator, p.proleakproof, o.oprcom::regoperator, o.oprnegate::regoperator FROM pg_operator o JOIN pg_proc p ON p.oid = o.oprcode
WHERE 'bitset'::regtype IN (o.oprleft, o.oprright) AND o.oprresult = 'boolean'::regtype ORDER BY o.oid::regoperator::text COLLATE "C";
-- and so are the functions of these, those that compare, and no others
SELECT oid::regprocedure FROM pg_proc WHERE proleakproof AND 'bitset'::regtype = ANY (proargtypes) ORDER BY oid::regprocedure::text COLLATE "C";
-- no cast is made unasked
SELECT castsource::regtype, casttarget::regtype, castcontext FROM pg_cast WHERE 'bitset'::regtype IN (castsource, casttarget)
ORDER BY castsource::regtype::text COLLATE "C", casttarget::regtype::text COLLATE "C";
-- an aggregate leaves its state as it is, for a window goes on with it
SELECT aggfnoid::regprocedure, aggfinalmodify, aggmfinalmodify, aggfinalfn FROM pg_aggregate WHERE aggfnoid::regprocedure::text LIKE 'bitset%'
ORDER BY aggfnoid::regprocedure::text COLLATE "C";
-- functions that do not look at all of a set
SELECT oid::regprocedure FROM pg_proc WHERE procost = 1 AND 'bitset'::regtype = ANY (proargtypes) AND prokind = 'f'
ORDER BY oid::regprocedure::text COLLATE "C";
-- functions are IMMUTABLE, STRICT and PARALLEL SAFE, but for these
SELECT oid::regprocedure, provolatile, proisstrict, proparallel FROM pg_proc
WHERE prolang = (SELECT oid FROM pg_language WHERE lanname = 'c') AND ('bitset'::regtype = ANY (proargtypes) OR prorettype = 'bitset'::regtype)
    AND NOT (provolatile = 'i' AND proisstrict AND proparallel = 's') ORDER BY oid::regprocedure::text COLLATE "C";
CREATE TABLE marked (s bitset, has_seven boolean GENERATED ALWAYS AS (contains(s, 7)) STORED);
INSERT INTO marked VALUES ('{7}/9'), ('{8}/9');
SELECT * FROM marked;
CREATE INDEX ON marked ((s::text));
DROP TABLE marked;

-- bytes that are not those of a set: the error says nothing of them
CREATE TYPE raw_bytes;
CREATE FUNCTION raw_in(cstring) RETURNS raw_bytes AS 'byteain' LANGUAGE internal IMMUTABLE STRICT;
CREATE FUNCTION raw_out(raw_bytes) RETURNS cstring AS 'byteaout' LANGUAGE internal IMMUTABLE STRICT;
CREATE TYPE raw_bytes (INPUT = raw_in, OUTPUT = raw_out, ALIGNMENT = double, STORAGE = extended);
CREATE CAST (raw_bytes AS bitset) WITHOUT FUNCTION;
SELECT '\x0700000001'::raw_bytes::bitset @> 3;
SELECT '\x070000001122334455667788'::raw_bytes::bitset @> 3;
DROP TYPE raw_bytes CASCADE;

-- under the page's policy an index is asked as it is without one
CREATE TABLE holders (role name PRIMARY KEY, rights bitset NOT NULL);
CREATE TABLE documents (id bigint, needed bitset NOT NULL);
CREATE FUNCTION current_rights() RETURNS bitset STABLE PARALLEL SAFE LANGUAGE sql AS
    'SELECT rights FROM holders WHERE role = current_user';
INSERT INTO documents SELECT n, bitset(ARRAY[n % 97, n * n % 89, n % 2 * 96], 97) FROM generate_series(1::bigint, 20000) n;
CREATE INDEX ON documents USING gin (needed);
CREATE INDEX ON documents (needed);
ANALYZE documents;
ALTER TABLE documents ENABLE ROW LEVEL SECURITY;
CREATE POLICY readers ON documents USING (needed <@ (SELECT current_rights()));
CREATE ROLE regress_ann;
GRANT SELECT ON holders, documents TO regress_ann;
INSERT INTO holders VALUES ('regress_ann', '{0-59,96}/97');
CREATE FUNCTION scanned(condition text, OUT scan text, OUT counted bigint, OUT by_rows bigint) LANGUAGE plpgsql AS $$
DECLARE
    line text;
BEGIN
    FOR line IN EXECUTE 'EXPLAIN (COSTS OFF) SELECT id FROM documents WHERE ' || condition LOOP
        IF line ~ 'Index Cond' THEN scan := line; END IF;
    END LOOP;
    EXECUTE 'SELECT count(*) FROM documents WHERE ' || condition INTO counted;
    PERFORM set_config('enable_bitmapscan', 'off', true), set_config('enable_indexscan', 'off', true), set_config('enable_indexonlyscan', 'off', true);
    EXECUTE 'SELECT count(*) FROM documents WHERE ' || condition INTO by_rows;
    PERFORM set_config('enable_bitmapscan', 'on', true), set_config('enable_indexscan', 'on', true), set_config('enable_indexonlyscan', 'on', true);
END
$$;
SET ROLE regress_ann;
SELECT btrim(scan) AS scan, counted, counted = by_rows AS same FROM (VALUES ('needed @> 20'), ('20 <@ needed'), ('needed @> ''{20,96}/97'''), ('''{20}/97'' <@ needed'),
    ('needed && ''{20,21}/97'''), ('needed = ''{1,96}/97'''), ('needed < ''{3}/97'''), ('needed <= ''{3}/97'''), ('needed > ''{63}/97'''),
    ('needed >= ''{63}/97''')) v(condition), scanned(condition);
EXPLAIN (COSTS OFF) SELECT id FROM documents WHERE needed @> 20;
RESET ROLE;

-- where the rights are few, it is asked for the policy itself
INSERT INTO documents VALUES (0, '{3}/97'), (0, '{5,60}/97'), (0, '{}/97'), (0, '{3,4}/97');
UPDATE holders SET rights = '{3,5,60}/97';
SET ROLE regress_ann;
SELECT btrim(scan) AS scan, counted, counted = by_rows AS same FROM scanned('true');
RESET ROLE;
DELETE FROM documents WHERE id = 0;
UPDATE holders SET rights = '{0-59,96}/97';

-- what `<@` is expected to answer, of a constant and under the policy: not less than a third, and not more than three times
CREATE FUNCTION expected(condition text, OUT expected bigint, OUT rows bigint) LANGUAGE plpgsql AS $$
DECLARE
    plan json;
BEGIN
    EXECUTE 'EXPLAIN (FORMAT json) SELECT FROM documents WHERE ' || condition INTO plan;
    EXECUTE 'SELECT count(*) FROM documents WHERE ' || condition INTO rows;
    expected := plan->0->'Plan'->>'Plan Rows';
END
$$;
SELECT condition, rows, expected BETWEEN rows / 3 AND rows * 3 AS near
FROM (VALUES ('needed <@ ''{0-59,96}/97'''), ('''{0-59,96}/97'' @> needed'), ('needed <@ ''{0-29,96}/97'''), ('needed <@ ''{0-96}/97'''),
    ('needed <@ ''{0-1000000}/2000000'''), ('needed <@ ''{40-70,96}/97''')) v(condition), expected(condition);
SET ROLE regress_ann;
SELECT rows, expected BETWEEN rows / 3 AND rows * 3 AS near FROM expected('true');
RESET ROLE;
INSERT INTO documents SELECT n, bitset(97) FROM generate_series(1, 20000) n;
ANALYZE documents;
SELECT condition, rows, expected BETWEEN rows / 3 AND rows * 3 AS near FROM (VALUES ('needed <@ ''{}/97'''), ('needed <@ ''{7}/97'''), ('needed <@ ''{0-59}/97'''), ('needed <@? ''{7}/97''')) v(condition), expected(condition);
DROP TABLE holders, documents CASCADE;
DROP ROLE regress_ann;
DROP FUNCTION current_rights, scanned, expected;
