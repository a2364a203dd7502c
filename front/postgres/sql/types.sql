--
-- text form, binary form, constructors and casts
--
CREATE EXTENSION fixedbitset;

-- canonical output
SELECT '{}/0'::bitset, '{}/64'::bitset, '{3,7,10-20}/64'::bitset;
SELECT '{20-10}/64'::bitset;
SELECT ' { 20 , 3,4,  5 , 3 - 4 } / 064 '::bitset;
SELECT '{0-63}/64'::bitset, '{0,2,4-5,63}/64'::bitset;
SELECT '{7,4294967231}/4294967232'::bitset;

-- every fault says where it is
SELECT ''::bitset;
SELECT '{3,7}'::bitset;
SELECT '3,7/64'::bitset;
SELECT '{3,7/64'::bitset;
SELECT '{3,,7}/64'::bitset;
SELECT '{3,}/64'::bitset;
SELECT '{-3}/64'::bitset;
SELECT '{3 7}/64'::bitset;
SELECT '{64}/64'::bitset;
SELECT '{60-64}/64'::bitset;
SELECT '{99999999999999999999999999}/64'::bitset;
SELECT '{0}/0'::bitset;
SELECT '{}/4294967233'::bitset;
SELECT '{}/'::bitset;
SELECT '{}/64 x'::bitset;
SELECT '{}/3/64'::bitset;
SELECT '{} x/64'::bitset;
SELECT '{}/-1'::bitset;
\set VERBOSITY sqlstate
SELECT '{3,7'::bitset;
SELECT '{64}/64'::bitset;
SELECT '{}/4294967233'::bitset;
SELECT bitset(4294967233);
SELECT bitset(-1);
SELECT bitset('{7}'::bigint[], 7);
\set VERBOSITY default

-- the form in hexadecimal digits
SELECT 'x:/0'::bitset, 'x:88/8'::bitset, 'x:88fc1F/24'::bitset, 'x:01/1'::bitset, 'x:01/0001'::bitset;
SET fixedbitset.output = hex;
SELECT '{}/0'::bitset, '{3,7,10-20}/24'::bitset, '{0,9,16}/17'::bitset;
SELECT '{0,9,16}/17'::bitset::text::bitset = '{0,9,16}/17';
SET fixedbitset.output = runs;
SELECT left(s, 20) AS text, length(s) FROM (SELECT bitset_agg(p, 399)::text FROM generate_series(99, 398, 2) p) v(s);
RESET fixedbitset.output;
-- runs are what is written up to 100 characters, and beyond that where digits are not fewer
SHOW fixedbitset.output;
SELECT length, ones, left(s, 20) AS text, length(s) - length('/400') AS characters
FROM (VALUES (200, 25), (200, 26), (400, 26), (407, 26), (399, 99)) v(length, ones),
    LATERAL (SELECT bitset_agg(98 + 2 * k, length)::text AS s FROM generate_series(0, ones - 1) k) w;
SELECT insert_range(bitset(4000000), '[1,)'), length(toggle_range(bitset(ARRAY(SELECT generate_series(0::bigint, 9999, 2)), 10000), '(,)')::text);
SET fixedbitset.output = octal;
SET fixedbitset.input = hex;
SELECT 'x:8/8'::bitset;
SELECT 'x:888/8'::bitset;
SELECT 'x:8888/8'::bitset;
SELECT 'x:/8'::bitset;
SELECT 'x:8g/8'::bitset;
SELECT 'x: 88/8'::bitset;
SELECT 'x:88 /8'::bitset;
SELECT 'x:88/ 8'::bitset;
SELECT 'x:88/8 '::bitset;
SELECT ' x:88/8'::bitset;
SELECT 'X:88/8'::bitset;
SELECT 'x:88'::bitset;
SELECT 'x:88/'::bitset;
SELECT 'x:88/-8'::bitset;
SELECT 'x:88/7'::bitset;
SELECT 'x:0002/9'::bitset;
SELECT 'x:88/4294967233'::bitset;
SELECT 'x:88/4294967232'::bitset;
\set VERBOSITY sqlstate
SELECT 'x:88/9'::bitset;
SELECT 'x:88/7'::bitset;
SELECT 'x:88/4294967233'::bitset;
\set VERBOSITY default

-- constructors
SELECT bitset(10), bitset('{3,1,3}'::bigint[], 10), bitset('{}'::bigint[], 10);
SELECT bitset('{{1,2},{3,4}}'::bigint[], 10);
SELECT bitset('{1,NULL}'::bigint[], 10);
SELECT bitset('{1,10}'::bigint[], 10);
SELECT bitset('{-1}'::bigint[], 10);
SELECT bitset(4294967233);

-- casts
SELECT B'0101'::bit varying::bitset, B''::bit varying::bitset, '{1,3}/4'::bitset::bit varying;
SELECT B'0101'::bitset, B'0101'::bit(6)::bitset, B''::bitset, '{1,3}/4'::bitset::bit(4), CAST('{1,3}/4'::bitset AS "bit"), '{0}/1'::bitset::bit;
SELECT '{1,3}/4'::bitset::bit(3);
SELECT '{1,3}/4'::bitset::bit(5);
SELECT '{1,3}/4'::bitset::bit;
CREATE TABLE strings (b bit(4), v bit varying(4));
INSERT INTO strings SELECT s::bit(4), s::bit varying FROM unnest('{"{1,3}/4","{}/4","{0}/4"}'::bitset[]) s;
SELECT b, b::bitset, b::bitset::bit(4) = b AS same, v::bitset FROM strings;
DROP TABLE strings;
SELECT '{0,9,16}/17'::bitset::bytea, '\x010201'::bytea::bitset, ''::bytea::bitset;
SELECT '{0,9,16}/17'::bitset::bigint[], '{}/17'::bitset::bigint[];
SELECT k, n, positions('{0,9,16,999}/1000', k, n) FROM unnest('{0,1,3,4,9223372036854775807}'::bigint[]) k, unnest('{0,2,9223372036854775807}'::bigint[]) n;
SELECT positions('{}/0', 0, 5), positions('{}/1000', 0, 5), positions(NULL, 0, 5), positions('{1}/2', NULL, 5), positions('{1}/2', 0, NULL);
SELECT positions('{1}/2', -1, 5);
SELECT positions('{1}/2', 0, -1);
SELECT positions(insert_range(bitset(134217728), '(,)'));
SELECT p FROM ones('{0,9,16}/17') p;
SELECT p FROM zeroes('{0,3-9}/10') p;
SELECT ones('{5,900}/1000'), zeroes('{0-998}/1000');
SELECT * FROM ones('{0-99}/100') LIMIT 2;
SELECT r FROM runs('{0-2,9,64-200}/201') r;
SELECT runs('{}/0'), runs('{}/10'), runs('{0-299}/300');
SELECT runs('{0,5-6}/7'), ones('{0,5-6}/7');
SELECT bytes('{0,9,16}/17');

-- a lower greatest length, which any role may set: it is for what is read, cast and made, and what is stored stays
CREATE TABLE stored AS SELECT '{0,2000}/2001'::bitset AS s;
SHOW fixedbitset.longest;
CREATE ROLE regress_ann;
SET ROLE regress_ann;
SET fixedbitset.longest = 1000;
RESET ROLE;
DROP ROLE regress_ann;
SELECT '{999}/1000'::bitset, length(('x:' || repeat('00', 125) || '/1000')::bitset), length(decode(repeat('00', 125), 'hex')::bitset),
    length(repeat('0', 1000)::bit varying::bitset), bitset(1000), bitset('{}'::bigint[], 1000), bitset_from_bytes('', 1000);
SELECT '{999}/1001'::bitset;
SELECT ('x:' || repeat('00', 126) || '/1001')::bitset;
SELECT decode(repeat('00', 126), 'hex')::bitset;
SELECT repeat('0', 1001)::bit varying::bitset;
SELECT B'0'::bit(1001)::bitset;
SELECT bitset(1001);
SELECT s, s | '{1}/2' AS joined, slice(s, '[1,)') AS part, count_ones(s), truncate(s, 3) FROM stored;
SELECT resize(s, 2001) FROM stored;
SELECT '{}/4294967233'::bitset;
\set VERBOSITY sqlstate
SELECT '{}/1001'::bitset;
SELECT ('x:' || repeat('00', 126) || '/1001')::bitset;
SELECT repeat('0', 1001)::bit varying::bitset;
SELECT bitset(-1);
SELECT '{'::bitset;
SET fixedbitset.longest = -1;
SET fixedbitset.longest = 4294967233;
SET fixedbitset.longest = '1MB';
\set VERBOSITY default
SHOW fixedbitset.longest;
SET fixedbitset.longest = 4294967232;
SELECT '{999}/1001'::bitset;
SET fixedbitset.longest = 0;
SELECT '{}/0'::bitset;
SELECT '{}/1'::bitset;
RESET fixedbitset.longest;
SHOW fixedbitset.longest;
SELECT '{4294967231}/4294967232'::bitset;
DROP TABLE stored;

-- binary form
SELECT bitset_send('{0,9,16}/17'), bitset_send('{}/0');

-- size: a short set has the blocks that it needs, a longer one whole lanes
SELECT n, pg_column_size(bitset(n)) AS made FROM unnest('{0,1,64,65,960,961,1024,1025}'::bigint[]) n;
CREATE TABLE sizes (n bigint, s bitset);
INSERT INTO sizes SELECT n, insert(bitset(n), n - 1) FROM unnest('{1,64,65,256,960,961,1024,1025}'::bigint[]) n;
SELECT n, pg_column_size(s) AS stored, s FROM sizes ORDER BY n;
DROP TABLE sizes;

-- a set that is compressed, and one that is stored out of line
CREATE TABLE toasted (a bitset, b bitset);
ALTER TABLE toasted ALTER b SET STORAGE EXTERNAL;
INSERT INTO toasted VALUES ('{5,99999}/100000', '{5,99999}/100000');
SELECT pg_column_size(a) < 1000, pg_column_size(b), length(a), length(b), a, b, a = b FROM toasted;
DROP TABLE toasted;
-- the same of values that are cast
CREATE TABLE toasted (a bytea, b bytea, c bit varying);
ALTER TABLE toasted ALTER b SET STORAGE EXTERNAL;
INSERT INTO toasted SELECT a, a, bitset(a)::bit varying FROM unnest(ARRAY['', '\x0180', decode(repeat('0180', 6250), 'hex')]) a;
SELECT pg_column_size(a) < 1000, pg_column_size(b), length(bitset(a)), bitset(a) = bitset(b) AS b, bitset(a) = bitset(c) AS c, count_ones(bitset(a)) FROM toasted;
DROP TABLE toasted;
