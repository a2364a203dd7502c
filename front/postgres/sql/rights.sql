CREATE TABLE holders (role name PRIMARY KEY, rights bitset NOT NULL);
CREATE TABLE documents (title text, needed bitset NOT NULL);
CREATE FUNCTION current_rights() RETURNS bitset STABLE PARALLEL SAFE LANGUAGE sql AS
    'SELECT rights FROM holders WHERE role = current_user';
ALTER TABLE documents ENABLE ROW LEVEL SECURITY;
CREATE POLICY readers ON documents USING (needed <@ (SELECT current_rights()));
CREATE ROLE regress_ann;
CREATE ROLE regress_bob;
GRANT SELECT ON holders, documents TO regress_ann, regress_bob;
INSERT INTO holders VALUES ('regress_ann', '{0-2}/8'), ('regress_bob', '{1}/8');
INSERT INTO documents VALUES ('budget', '{0,2}/8'), ('plan', '{1}/8'), ('notice', '{}/8');
SET ROLE regress_ann;
SELECT title FROM documents ORDER BY title;
SET ROLE regress_bob;
SELECT title FROM documents ORDER BY title;
RESET ROLE;
DROP TABLE holders, documents CASCADE;
DROP ROLE regress_ann, regress_bob;
DROP FUNCTION current_rights;
