"""Four servers with sets in pieces, as `check` and `measure` want them: 0 is the one that is asked, and 1 to 3 keep pieces. Of
a fifth one `check` makes another keeper."""
import pathlib
import random
import socket
import subprocess

import psycopg2

HERE = pathlib.Path(__file__).resolve().parent
RANGES = ((0, 333334), (333334, 666667), (666667, 1000000))


def free_port():
    """The first of five ports that nobody listens on."""
    while True:
        port = random.randrange(20000, 32000)
        try:
            for at in range(5):
                socket.create_server(("127.0.0.1", port + at)).close()
            return port
        except OSError:
            pass


def servers(action, folder, port, *more):
    subprocess.run([HERE / "servers", action, folder, str(port), *more], check=action == "start", stdin=subprocess.DEVNULL)


def connect(port, user="postgres"):
    connection = psycopg2.connect(host="127.0.0.1", port=port, user=user, dbname="postgres")
    connection.autocommit = True
    return connection


def load(port, file, **variables):
    settings = [item for name, value in variables.items() for item in ("-v", f"{name}={value}")]
    subprocess.run(["psql", "-qX", "-v", "ON_ERROR_STOP=1", "-h", "127.0.0.1", "-p", str(port), "-U", "postgres", "-d", "postgres",
                    *settings, "-f", HERE / file], check=True, stdin=subprocess.DEVNULL, stdout=subprocess.DEVNULL)


def load_all(port, ports):
    """Gives each server what it has. `ports` are those by which the three are reached from the one that is asked."""
    for at, (least, past) in enumerate(RANGES):
        load(port + 1 + at, "keeping.sql", least=least, past=past)
    load(port, "asking.sql", first=ports[0], second=ports[1], third=ports[2])


def fill(cursor, pieces, least, spread):
    """x and y have so many pieces each, half of them in common; z is a part of y. A piece has from `least` up to `spread` times
    as many positions. A copy stays where questions are asked."""
    cursor.execute("CREATE TABLE here (name text, piece int, part bitset, PRIMARY KEY (name, piece))")
    cursor.execute("SELECT setseed(0.5)")
    for name, first in (("x", 1), ("y", 1 + pieces // 2)):
        cursor.execute(
            "INSERT INTO here SELECT %s, piece, bitset_agg((random() * 999999)::bigint, 1000000) FROM"
            " (SELECT (k * 618033::bigint %% 1000000)::int AS piece, %s * (%s ^ random())::int AS n FROM generate_series(%s, %s) k) t,"
            " generate_series(1, n) GROUP BY piece", (name, least, spread, first, first + pieces - 1))
    cursor.execute("INSERT INTO here SELECT 'z', piece, remove_range(part, '[0,500000)') FROM here WHERE name = 'y'")
    cursor.execute("INSERT INTO here SELECT 'z', 999999, bitset(1000000)")
    cursor.execute("SET fixedbitset.output = hex")
    cursor.execute("INSERT INTO pieces SELECT * FROM here")
