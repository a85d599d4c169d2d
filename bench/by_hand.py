"""The large script of mode `make` in SQL: this program's own tables, and the same work by hand for SQLite and PostgreSQL.

By hand there is an index on each of a note's people, the view is a table that triggers keep, what is held about a person is two
SELECTs, and an erasure is four statements in a transaction.
"""
OWN = """CREATE DATA_SUBJECT TABLE users (id INT PRIMARY KEY, name TEXT);
CREATE TABLE notes (id INT PRIMARY KEY, a INT OWNED_BY users(id), b INT OWNED_BY users(id), n INT, ON GET b ANON (n), ON DEL a ANON (n));
CREATE VIEW held AS SELECT a, COUNT(*), SUM(n) FROM notes GROUP BY a;
"""
TABLES = """CREATE TABLE users (id INTEGER PRIMARY KEY, name TEXT);
CREATE TABLE notes (id INTEGER PRIMARY KEY, a INTEGER, b INTEGER, n INTEGER);
CREATE INDEX by_a ON notes (a);
CREATE INDEX by_b ON notes (b);
CREATE TABLE held (a INTEGER PRIMARY KEY, many INTEGER, total INTEGER);
"""
TAKEN_IN = """INSERT INTO held VALUES (COALESCE(new.a, -1), 1, new.n)
  ON CONFLICT (a) DO UPDATE SET many = held.many + 1, total = COALESCE(held.total, 0) + COALESCE(excluded.total, 0);"""
TAKEN_OUT = """UPDATE held SET many = many - 1, total = total - old.n WHERE a = COALESCE(old.a, -1);
  DELETE FROM held WHERE a = COALESCE(old.a, -1) AND many = 0;"""
IN_SQLITE = f"""CREATE TRIGGER held_in AFTER INSERT ON notes BEGIN {TAKEN_IN} END;
CREATE TRIGGER held_out AFTER DELETE ON notes BEGIN {TAKEN_OUT} END;
CREATE TRIGGER held_new AFTER UPDATE ON notes BEGIN {TAKEN_OUT} {TAKEN_IN} END;
"""
IN_POSTGRES = f"""CREATE FUNCTION held_in() RETURNS trigger AS $$ BEGIN {TAKEN_IN} RETURN NULL; END $$ LANGUAGE plpgsql;
CREATE FUNCTION held_out() RETURNS trigger AS $$ BEGIN {TAKEN_OUT} RETURN NULL; END $$ LANGUAGE plpgsql;
CREATE FUNCTION held_new() RETURNS trigger AS $$ BEGIN {TAKEN_OUT} {TAKEN_IN} RETURN NULL; END $$ LANGUAGE plpgsql;
CREATE TRIGGER held_in AFTER INSERT ON notes FOR EACH ROW EXECUTE FUNCTION held_in();
CREATE TRIGGER held_out AFTER DELETE ON notes FOR EACH ROW EXECUTE FUNCTION held_out();
CREATE TRIGGER held_new AFTER UPDATE ON notes FOR EACH ROW EXECUTE FUNCTION held_new();
"""


def rows(script):
    """The people, their notes and the transfers, in any SQL."""
    yield from (f"INSERT INTO users VALUES ({person}, 'u');\n" for person in script.people)
    yield from (f"INSERT INTO notes VALUES ({note}, {a}, {b}, {n});\n" for note, a, b, n in script.notes)
    for giver, taker, amount in script.transfers:
        yield f"BEGIN;\nUPDATE notes SET n = n - {amount} WHERE id = {giver};\nUPDATE notes SET n = n + {amount} WHERE id = {taker};\nCOMMIT;\n"


def erasures(script):
    """What is held about a person, and its erasure, by hand; and what the view shows."""
    for person in script.erased:
        yield f"""SELECT * FROM users WHERE id = {person};
SELECT id, a, b, CASE WHEN b = {person} THEN NULL ELSE n END FROM notes WHERE a = {person} OR b = {person};
BEGIN;
DELETE FROM notes WHERE a = {person} AND (b = {person} OR b IS NULL) OR b = {person} AND a IS NULL;
UPDATE notes SET a = NULL, n = NULL WHERE a = {person};
UPDATE notes SET b = NULL WHERE b = {person};
DELETE FROM users WHERE id = {person};
COMMIT;
"""
    yield "SELECT * FROM held;\n"
