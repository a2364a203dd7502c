-- What a server has that keeps pieces: those from :least up to and without :past, and what may be asked of them here.

CREATE EXTENSION fixedbitset;

-- Piece k of a set has its positions from 1000000 k on. A piece that is not there has none.
CREATE TABLE pieces (
    name text,
    piece int,
    part bitset NOT NULL CHECK (length(part) = 1000000),
    PRIMARY KEY (name, piece)
);

-- Which pieces are kept here. A CHECK of the table says it, which a change of this row makes anew: it is refused where a piece
-- would be left outside.
CREATE TABLE kept (least int NOT NULL, past int NOT NULL);
CREATE FUNCTION make_check() RETURNS trigger LANGUAGE plpgsql SET client_min_messages = warning AS $$
BEGIN
    ALTER TABLE public.pieces DROP CONSTRAINT IF EXISTS kept_here;
    EXECUTE format('ALTER TABLE public.pieces ADD CONSTRAINT kept_here CHECK (piece >= %s AND piece < %s)', NEW.least, NEW.past);
    RETURN NULL;
END
$$;
CREATE TRIGGER make_check AFTER INSERT OR UPDATE ON kept FOR EACH ROW EXECUTE FUNCTION make_check();
INSERT INTO kept VALUES (:least, :past);

-- The ends of each piece, and sums over the pieces that are kept here: of a set, and of two sets.
CREATE VIEW facts AS SELECT name, piece, minimum(part) AS least, maximum(part) AS greatest FROM pieces;
CREATE VIEW totals AS
    SELECT NULL AS server, name, sum(count_ones(part)) AS ones FROM pieces JOIN kept ON piece >= least AND piece < past GROUP BY name;
CREATE VIEW pairs AS
    SELECT NULL AS server, a.name AS a, b.name AS b, sum(intersection_count(a.part, b.part)) AS shared
    FROM pieces a JOIN kept ON piece >= least AND piece < past JOIN pieces b USING (piece) GROUP BY a.name, b.name;

-- A row that is inserted here makes the union of two sets' pieces, of those that this server keeps.
CREATE VIEW unions AS SELECT name AS server, name AS target, name AS a, name AS b FROM pieces WHERE false;
CREATE FUNCTION make_union() RETURNS trigger LANGUAGE plpgsql AS $$
BEGIN
    DELETE FROM public.pieces WHERE name = NEW.target AND name NOT IN (NEW.a, NEW.b);
    INSERT INTO public.pieces
        SELECT NEW.target, piece, public.bitset_union(part) FROM public.pieces WHERE name IN (NEW.a, NEW.b) GROUP BY piece
        ON CONFLICT (name, piece) DO UPDATE SET part = EXCLUDED.part;
    RETURN NEW;
END
$$;
CREATE TRIGGER make_union INSTEAD OF INSERT ON unions FOR EACH ROW EXECUTE FUNCTION make_union();

-- As whom the server that is asked comes here for a role of its own that is not its owner. It may read, and not write.
CREATE ROLE pieces_reader LOGIN;
GRANT SELECT ON pieces, facts, totals, pairs, kept TO pieces_reader;
