-- What the server has that is asked about sets over 10^12 positions, whose pieces three others keep, each a range of them.
--
-- psql variables: first, second and third are the ports of the three on this machine.

CREATE EXTENSION fixedbitset;
CREATE EXTENSION postgres_fdw;

CREATE TABLE pieces (name text, piece int, part bitset) PARTITION BY RANGE (piece);
CREATE TABLE facts (name text, piece int, least bigint, greatest bigint) PARTITION BY RANGE (piece);
CREATE TABLE totals (server text, name text, ones bigint) PARTITION BY LIST (server);
CREATE TABLE pairs (server text, a text, b text, shared bigint) PARTITION BY LIST (server);
CREATE TABLE unions (server text, target text, a text, b text) PARTITION BY LIST (server);
CREATE TABLE kept (server text, least int, past int) PARTITION BY LIST (server);
CREATE TABLE keepers (server text PRIMARY KEY, port int, least int, past int);
-- (what a server says that it keeps is no secret, and each question asks it)
GRANT SELECT ON kept TO PUBLIC;

-- Registers a server that keeps the pieces from `least` up to and without `past`.
--
-- `extensions` says that the other server has this extension too, so that its functions and operators may be sent there.
-- `fdw_tuple_cost` says that a row is dear: the planner does not look at how wide a piece is. `connect_timeout` is in seconds:
-- a server that hangs while a session first connects to it is waited for so long, for statement_timeout does not end that.
-- The owner comes as `postgres`, and any other role, which has to have SELECT on the tables here, as `pieces_reader`.
CREATE FUNCTION pieces_register(server text, port int, "least" int, past int) RETURNS void LANGUAGE plpgsql AS $$
BEGIN
    EXECUTE format($f$
        CREATE SERVER %1$I FOREIGN DATA WRAPPER postgres_fdw OPTIONS (host '127.0.0.1', port '%2$s', dbname 'postgres',
            extensions 'fixedbitset', async_capable 'true', fetch_size '1000', fdw_tuple_cost '10', connect_timeout '3',
            options '-c fixedbitset.output=hex');
        CREATE USER MAPPING FOR CURRENT_USER SERVER %1$I OPTIONS (user 'postgres');
        CREATE USER MAPPING FOR PUBLIC SERVER %1$I OPTIONS (user 'pieces_reader', password_required 'false');
        CREATE FOREIGN TABLE %3$I PARTITION OF pieces FOR VALUES FROM (%8$s) TO (%9$s)
            SERVER %1$I OPTIONS (table_name 'pieces', batch_size '20');
        CREATE FOREIGN TABLE %4$I PARTITION OF facts FOR VALUES FROM (%8$s) TO (%9$s) SERVER %1$I OPTIONS (table_name 'facts');
        CREATE FOREIGN TABLE %5$I PARTITION OF totals FOR VALUES IN (%10$L) SERVER %1$I OPTIONS (table_name 'totals');
        CREATE FOREIGN TABLE %6$I PARTITION OF pairs FOR VALUES IN (%10$L) SERVER %1$I OPTIONS (table_name 'pairs');
        CREATE FOREIGN TABLE %7$I PARTITION OF unions FOR VALUES IN (%10$L) SERVER %1$I OPTIONS (table_name 'unions');
        CREATE FOREIGN TABLE %11$I PARTITION OF kept FOR VALUES IN (%10$L) SERVER %1$I OPTIONS (table_name 'kept');
        GRANT SELECT ON %11$I TO PUBLIC$f$,
        server, port, 'pieces_' || server, 'facts_' || server, 'totals_' || server, 'pairs_' || server, 'unions_' || server,
        least, past, server, 'kept_' || server);
    INSERT INTO keepers VALUES (server, port, least, past);
END
$$;
SELECT pieces_register('first', :first, 0, 333334), pieces_register('second', :second, 333334, 666667),
    pieces_register('third', :third, 666667, 1000000);

-- True, or an error: each server in keepers has its partition of each table, nobody else has one, no piece is without a server,
-- and each server says itself that it keeps these pieces. Each question asks it: a server that is left out would be missing in
-- the answer without a word, and one that comes back from an old backup would count pieces that another one has. A question
-- about one piece asks its server alone. (The column `server` is not asked for, as the servers have none.)
CREATE FUNCTION pieces_are_registered(asked bigint DEFAULT NULL) RETURNS boolean STABLE LANGUAGE plpgsql AS $$
DECLARE
    fault text;
    one text;
BEGIN
    SELECT string_agg(format('%s %s of server %s', of, bound, coalesce(server, 'none')), ', ' ORDER BY of, bound) INTO fault
    FROM (
        SELECT of, server, CASE WHEN of IN ('pieces', 'facts') THEN format('FOR VALUES FROM (%s) TO (%s)', least, past)
            ELSE format('FOR VALUES IN (%L)', server) END AS bound, true AS is_wanted
        FROM keepers, unnest('{pieces,facts,totals,pairs,unions,kept}'::text[]) of
    ) wanted FULL JOIN (
        SELECT parent.relname::text AS of, srvname::text AS server, pg_get_expr(part.relpartbound, part.oid) AS bound, true AS is_found
        FROM unnest('{pieces,facts,totals,pairs,unions,kept}'::regclass[]) of JOIN pg_class parent ON parent.oid = of
        JOIN pg_inherits ON inhparent = of JOIN pg_class part ON part.oid = inhrelid
        LEFT JOIN pg_foreign_table ON ftrelid = part.oid LEFT JOIN pg_foreign_server s ON s.oid = ftserver
    ) found USING (of, server, bound)
    WHERE is_wanted IS NULL OR is_found IS NULL;
    IF fault IS NULL AND (SELECT sum(past - least) FROM keepers) IS DISTINCT FROM 1000000 THEN
        fault := 'some pieces of 1000000 have no server in keepers';
    END IF;
    IF fault IS NOT NULL THEN
        RAISE object_not_in_prerequisite_state USING MESSAGE = 'keepers and partitions do not agree: ' || fault,
            HINT = 'Servers are added by pieces_register or pieces_add.';
    END IF;
    SELECT k.server INTO one FROM keepers k WHERE k.least <= asked AND asked < k.past;
    EXECUTE format($f$
        SELECT string_agg(format('%%s keeps %%s to %%s, not %%s to %%s', coalesce(k.server, told.of::text), told.least, told.past, k.least, k.past), ', ')
        FROM (SELECT tableoid::regclass AS of, least, past FROM %I) told
        FULL JOIN (SELECT * FROM keepers WHERE $1 IS NULL OR server = $1) k ON told.of = ('kept_' || k.server)::regclass
        WHERE (told.least, told.past) IS DISTINCT FROM (k.least, k.past)$f$, coalesce('kept_' || one, 'kept')) INTO fault USING one;
    IF fault IS NOT NULL THEN
        RAISE object_not_in_prerequisite_state USING MESSAGE = 'keepers and servers do not agree: ' || fault,
            HINT = 'A server that comes back from a backup has to be given what was moved since.';
    END IF;
    RETURN true;
END
$$;

-- Adds a server, which takes over the pieces from `least` on of the server that has them. It has to have the tables of
-- keeping.sql, with their range. Nobody asks or writes meanwhile. The pieces are moved by way of this server, and then the
-- CHECK of the other one is made anew.
CREATE FUNCTION pieces_add(server text, port int, "least" int) RETURNS bigint LANGUAGE plpgsql AS $$
DECLARE
    giver keepers;
    moved bigint;
    arrived bigint;
BEGIN
    LOCK TABLE pieces, facts, totals, pairs, unions, kept, keepers IN ACCESS EXCLUSIVE MODE;
    PERFORM pieces_are_registered();
    SELECT * INTO STRICT giver FROM keepers k WHERE k.least < pieces_add.least AND pieces_add.least < k.past;
    UPDATE keepers k SET past = pieces_add.least WHERE k.server = giver.server;
    EXECUTE format('ALTER TABLE pieces DETACH PARTITION %I', 'pieces_' || giver.server);
    EXECUTE format('ALTER TABLE facts DETACH PARTITION %I', 'facts_' || giver.server);
    PERFORM pieces_register(server, port, least, giver.past);
    EXECUTE format('INSERT INTO %I SELECT * FROM %I WHERE piece >= %s', 'pieces_' || server, 'pieces_' || giver.server, least);
    GET DIAGNOSTICS moved = ROW_COUNT;
    EXECUTE format('SELECT count(*) FROM %I', 'facts_' || server) INTO arrived;
    IF arrived <> moved THEN
        RAISE object_not_in_prerequisite_state USING MESSAGE = format('%s pieces were moved, and server %s has %s', moved, server, arrived);
    END IF;
    EXECUTE format('DELETE FROM %I WHERE piece >= %s', 'pieces_' || giver.server, least);
    EXECUTE format('UPDATE %I SET past = %s', 'kept_' || giver.server, least);
    EXECUTE format('ALTER TABLE pieces ATTACH PARTITION %I FOR VALUES FROM (%s) TO (%s)', 'pieces_' || giver.server, giver.least, least);
    EXECUTE format('ALTER TABLE facts ATTACH PARTITION %I FOR VALUES FROM (%s) TO (%s)', 'facts_' || giver.server, giver.least, least);
    PERFORM pieces_are_registered();
    RETURN moved;
END
$$;

-- Whether the set has the position. One server is asked.
CREATE FUNCTION pieces_contains(name text, "position" bigint) RETURNS boolean STABLE LANGUAGE sql
    SET enable_partitionwise_join = on AS $$
    SELECT EXISTS (SELECT FROM pieces s WHERE s.name = $1 AND s.piece = $2 / 1000000 AND s.part @> ($2 % 1000000))
    WHERE pieces_are_registered($2 / 1000000)
$$;

-- How many positions the set has: the sum over its pieces. Each server sends the sum over its own.
CREATE FUNCTION pieces_count(name text) RETURNS bigint STABLE LANGUAGE sql SET enable_partitionwise_join = on AS $$
    SELECT (SELECT coalesce(sum(s.ones), 0)::bigint FROM totals s WHERE s.name = $1) WHERE pieces_are_registered()
$$;

-- How many positions are in both sets: the sum over the pieces that both have, summed as above.
CREATE FUNCTION pieces_intersection_count(a text, b text) RETURNS bigint STABLE LANGUAGE sql
    SET enable_partitionwise_join = on AS $$
    SELECT (SELECT coalesce(sum(s.shared), 0)::bigint FROM pairs s WHERE s.a = $1 AND s.b = $2) WHERE pieces_are_registered()
$$;

-- Whether b has each position of a: whether no piece of a has a position that the piece of b lacks.
CREATE FUNCTION pieces_subset(a text, b text) RETURNS boolean STABLE LANGUAGE sql SET enable_partitionwise_join = on AS $$
    SELECT NOT EXISTS (
        SELECT FROM pieces s LEFT JOIN pieces t ON t.piece = s.piece AND t.name = $2
        WHERE s.name = $1 AND (t.piece IS NULL AND NOT is_clear(s.part) OR NOT s.part <@ t.part))
    WHERE pieces_are_registered()
$$;

-- The least position of the set: that of the first piece that has one.
CREATE FUNCTION pieces_minimum(name text) RETURNS bigint STABLE LANGUAGE sql SET enable_partitionwise_join = on AS $$
    SELECT (SELECT s.piece * 1000000::bigint + s.least FROM facts s WHERE s.name = $1 AND s.least IS NOT NULL ORDER BY s.piece LIMIT 1)
    WHERE pieces_are_registered()
$$;

-- Makes `target` the union of a and b. Each server makes its pieces for itself, and no piece is moved.
CREATE FUNCTION pieces_union_into(target text, a text, b text) RETURNS void LANGUAGE sql AS $$
    INSERT INTO unions SELECT k.server, $1, $2, $3 FROM keepers k WHERE pieces_are_registered()
$$;
