"""The random scripts of tests/histories/try: which calls its sessions make, and in which order.

There are two sorts. The narrow one is a few rows over which all sessions meet, with three tables and a view. The wide
one has every kind of reference and rule, columns that are UNIQUE, and statements that are refused for many causes. Both
keep to few rows, so that sessions conflict and erasures find transactions to end.
"""
from collections import namedtuple

Sort = namedtuple("Sort", "setup statement alone")  # the calls before; what gives a statement, and a call that stands outside

USERS, POSTS, ACCOUNTS, CIRCLES = 4, 12, 3, 3
WIDE_USERS, WIDE_POSTS, WIDE_CIRCLES = [1, 2, 3, 4], [1, 2, 3, 4, 5, 6], [1, 2, 3]
FIRMS, MAILS = ["'red'", "'blue'"], ["NULL", "'m1'", "'m2'"]
GREATEST = 2 ** 63 - 1
REFUSED = [
    "SELECT nothing FROM nowhere;", "SELECT nothing FROM liked;", "SELECT * FROM posts WHERE body = 1;", "SELECT SUM(body) FROM posts;",
    "INSERT INTO users VALUES (1, NULL, NULL, NULL);", "INSERT INTO circles VALUES (1);", "INSERT INTO circles VALUES ('one', 1);",
    "UPDATE posts SET id = 1;", "UPDATE posts SET likes = NULL;", "UPDATE posts SET likes = body + 1;", "DELETE FROM liked;",
    "INSERT INTO circles VALUES (NULL, 1);", "INSERT INTO circles VALUES (NULL), (1, 1);", "UPDATE posts SET likes = NULL, id = 'one';",
    "UPDATE posts SET likes = 'no', likes = NULL WHERE nothing = 1;", "SELECT id FROM posts WHERE body = 1 ORDER BY nothing;",
]

NARROW_SCHEMA = [
    "CREATE DATA_SUBJECT TABLE users (id INT PRIMARY KEY, name TEXT);",
    "CREATE TABLE posts (id INT PRIMARY KEY, author INT OWNED_BY users(id), likes INT);",
    "CREATE TABLE account (id INT PRIMARY KEY, amount INT);",
    "CREATE VIEW liked AS SELECT author, COUNT(*) AS posts, SUM(likes) AS likes FROM posts GROUP BY author;",
]
WIDE_SCHEMA = [
    "CREATE DATA_SUBJECT TABLE firms (name TEXT PRIMARY KEY);",
    "CREATE DATA_SUBJECT TABLE users (id INT PRIMARY KEY, name TEXT NOT NULL, mail TEXT UNIQUE, firm TEXT ACCESSED_BY firms(name),"
    " ON GET firm ANON (mail), ON DEL firm ANON (firm, mail));",
    "CREATE TABLE circles (id INT PRIMARY KEY, title TEXT);",
    "CREATE TABLE members (id INT PRIMARY KEY, who INT OWNED_BY users(id), circle INT OWNS circles(id));",
    "CREATE TABLE posts (id INT PRIMARY KEY, author INT OWNED_BY users(id), editor INT OWNED_BY users(id),"
    " circle INT ACCESSED_BY circles(id), likes INT NOT NULL, body TEXT,"
    " ON GET circle ANON (likes), ON GET editor ANON (body, likes), ON DEL author ANON (body));",
    "CREATE TABLE notes (id INT PRIMARY KEY, post INT OWNED_BY posts(id), writer INT OWNED_BY users(id),"
    " about INT REFERENCES posts(id), ON DEL writer DELETE_ROW);",
    "CREATE TABLE reviews (id INT PRIMARY KEY, who INT OWNED_BY users(id), post INT ACCESSES posts(id),"
    " ON GET post ANON (likes), ON DEL post ANON (likes));",
    "CREATE VIEW liked AS SELECT author, COUNT(*) AS posts, SUM(likes) AS likes FROM posts GROUP BY author;",
]


def narrow_setup():
    """The calls before: few rows, and no two owners of one."""
    calls = list(NARROW_SCHEMA)
    calls += [f"INSERT INTO users VALUES ({n}, 'user {n}');" for n in range(1, USERS + 1)]
    calls += [f"INSERT INTO posts VALUES ({n}, {n % USERS + 1}, 0);" for n in range(1, POSTS // 2 + 1)]
    return calls + [f"INSERT INTO account VALUES ({n}, 100);" for n in range(1, ACCOUNTS + 1)]


def narrow_statement(rng):
    """One statement, over few rows."""
    user, post, account = rng.randint(1, USERS), rng.randint(1, POSTS), rng.randint(1, ACCOUNTS)
    return rng.choice([
        f"SELECT * FROM account WHERE id = {account};",
        f"SELECT * FROM posts WHERE author = {user} ORDER BY id;",
        "SELECT * FROM liked;",
        f"UPDATE account SET amount = amount + {rng.randint(1, 9)} WHERE id = {account};",
        f"UPDATE posts SET likes = likes + 1 WHERE id = {post};",
        f"INSERT INTO posts VALUES ({post}, {user}, 0);",
        f"DELETE FROM posts WHERE id = {post};",
        f"INSERT INTO users VALUES ({user}, 'again');",
    ])


def narrow_alone(rng):
    """A call that stands outside transactions."""
    user = rng.randint(1, USERS)
    return rng.choice([
        f"GDPR GET users {user};",
        f"GDPR FORGET users {user};",
        "EXPLAIN COMPLIANCE;",
        "CHECKPOINT;",
        "COMMIT;",
        "SELECT nothing FROM nowhere;",
        "SELECT * FROM users ORDER BY id;",
    ])


def wide_setup():
    """The calls before: rows of every class, with one owner and with two."""
    calls = list(WIDE_SCHEMA) + ["INSERT INTO firms VALUES ('red'), ('blue');"]
    calls += [f"INSERT INTO users VALUES ({n}, 'it''s {n}', 'm{n}', {'NULL' if n == 1 else FIRMS[n % 2]});" for n in range(1, USERS + 1)]
    for n in range(1, CIRCLES):
        calls += ["BEGIN;", f"INSERT INTO circles VALUES ({n}, 'circle {n}');",
                  f"INSERT INTO members VALUES ({n}, {n}, {n}), ({n + 6}, {n + 1}, {n});", "COMMIT;"]
    calls += [f"INSERT INTO posts VALUES ({n}, {n % USERS + 1}, {n // 2 + 1}, {n % 2 + 1}, {n}, 'body');" for n in range(1, 5)]
    return calls + ["INSERT INTO posts VALUES (5, 3, NULL, NULL, 0, NULL);", "INSERT INTO reviews VALUES (1, 1, 5), (2, 4, 1);",
                    "INSERT INTO notes VALUES (1, 1, 2, NULL), (2, 2, NULL, 3), (3, NULL, 4, 1);"]


def nullable(rng, values):
    """One of these, now and then NULL."""
    return "NULL" if rng.random() < 0.15 else rng.choice(values)


def wide_read(rng):
    """A SELECT over rows of every class."""
    user, post, circle = rng.choice(WIDE_USERS), rng.choice(WIDE_POSTS), rng.choice(WIDE_CIRCLES)
    return rng.choice([
        f"SELECT * FROM posts WHERE id = {post};",
        f"SELECT id, likes FROM posts WHERE author = {user} ORDER BY likes DESC;",
        f"SELECT * FROM posts WHERE editor = {user} AND id = {post};",
        f"SELECT COUNT(*), SUM(likes) AS likes FROM posts WHERE circle = {circle};",
        f"SELECT * FROM liked WHERE author = {user};",
        "SELECT posts, author FROM liked ORDER BY posts DESC;",
        f"SELECT who, COUNT(*) FROM members WHERE circle = {circle} GROUP BY who;",
        "SELECT * FROM notes ORDER BY about;",
        f"SELECT * FROM users WHERE id = {user};",
    ])


def wide_insert(rng):
    """An INSERT, of a row that may be there, refer to nothing or have no owner."""
    user, post, circle = [rng.choice(values) for values in (WIDE_USERS, WIDE_POSTS, WIDE_CIRCLES)]
    nobody, nothing, nowhere = [nullable(rng, values) for values in (WIDE_USERS, WIDE_POSTS, WIDE_CIRCLES)]
    return rng.choice([
        f"INSERT INTO posts VALUES ({post}, {nobody}, {nullable(rng, WIDE_USERS)}, {nowhere}, 0, 'new');",
        f"INSERT INTO members VALUES ({rng.randint(1, 8)}, {nobody}, {nowhere});",
        f"INSERT INTO reviews VALUES ({rng.randint(1, 4)}, {nobody}, {nothing});",
        f"INSERT INTO circles VALUES ({circle}, 'more');",
        f"INSERT INTO notes VALUES ({post + 1}, {nothing}, {nobody}, {nullable(rng, WIDE_POSTS)}), ({post}, {post}, {user}, NULL);",
        f"INSERT INTO users VALUES ({user}, 'again', {rng.choice(MAILS)}, {nullable(rng, FIRMS)});",
        f"INSERT INTO firms VALUES ({rng.choice(FIRMS)});",
    ])


def wide_change(rng):
    """An UPDATE or a DELETE; now and then one that is refused as it runs or when it commits."""
    user, post = rng.choice(WIDE_USERS), rng.choice(WIDE_POSTS)
    nobody, nowhere = nullable(rng, WIDE_USERS), nullable(rng, WIDE_CIRCLES)
    return rng.choice([
        f"UPDATE posts SET editor = likes + {GREATEST}, likes = editor + 1 WHERE author = {user};",
        f"UPDATE posts SET likes = likes + 1 WHERE id = {post};",
        f"UPDATE posts SET author = {nobody}, circle = {nowhere} WHERE id = {post};",
        f"UPDATE posts SET likes = likes + {rng.choice([1, GREATEST])} WHERE author = {user};",
        f"UPDATE posts SET likes = likes - {rng.choice([1, GREATEST])} WHERE id = {post};",
        f"UPDATE posts SET likes = editor + 1, body = NULL WHERE id = {post};",
        f"UPDATE users SET mail = {rng.choice(MAILS)} WHERE id = {user};",
        f"UPDATE users SET firm = {nullable(rng, FIRMS)} WHERE id = {user};",
        f"UPDATE users SET name = mail WHERE id = {user};",
        f"UPDATE members SET who = {nobody}, circle = {nowhere} WHERE id = {rng.randint(1, 8)};",
        f"UPDATE reviews SET post = {nullable(rng, WIDE_POSTS)} WHERE who = {user};",
        f"DELETE FROM {rng.choice(['posts', 'members', 'notes', 'reviews', 'circles'])} WHERE id = {post};",
        f"DELETE FROM users WHERE id = {user} AND name = 'again';",
    ])


def wide_statement(rng):
    """One statement over rows of every class."""
    return rng.choice([wide_read, wide_insert, wide_change])(rng)


def wide_alone(rng):
    """A call that stands outside transactions, or one that is refused for its names and kinds."""
    user = rng.choice(WIDE_USERS)
    return rng.choice([
        f"GDPR GET users {user};",
        f"GDPR GET users {user};",
        f"GDPR FORGET users {user};",
        f"GDPR {rng.choice(['GET', 'GET', 'FORGET'])} firms {rng.choice(FIRMS)};",
        rng.choice(["GDPR GET posts 1;", "GDPR GET liked 1;", "GDPR GET nowhere 1;", "GDPR FORGET users 'one';"]),
        rng.choice(["EXPLAIN COMPLIANCE;", "CHECKPOINT;", "ROLLBACK;"]),
        rng.choice(REFUSED),
    ])


SORTS = [Sort(narrow_setup(), narrow_statement, narrow_alone), Sort(wide_setup(), wide_statement, wide_alone)]


def session_calls(rng, sort, most):
    """The calls of one session."""
    calls = []
    while len(calls) < most:
        kind = rng.random()
        if kind < 0.35:
            calls.append(sort.statement(rng))
        elif kind < 0.55:
            calls.append(sort.alone(rng))
        else:
            calls.append("BEGIN;")
            calls += [sort.statement(rng) if rng.random() < 0.9 else sort.alone(rng) for _ in range(rng.randint(1, 4))]
            # now and then a session ends with its transaction open
            if len(calls) < most or rng.random() < 0.7:
                calls.append(rng.choice(["COMMIT;", "COMMIT;", "ROLLBACK;"]))
    return calls


def random_calls(rng, sort, count=None):
    """The calls of 2 to 16 sessions, or of so many."""
    sessions = sorted(rng.sample(range(1, 17), count or rng.randint(2, 16)))
    return {session: session_calls(rng, sort, rng.randint(3, 30)) for session in sessions}


def interleaved(rng, calls):
    """The calls of all sessions in one order that keeps that of each: one after another, in long turns, or at random."""
    stays = rng.choice([0, 0, 0.5, 0.8, 1])
    left = {session: list(calls[session]) for session in calls}
    order, session = [], None
    while any(left.values()):
        if not left.get(session) or rng.random() >= stays:
            session = rng.choice([session for session in sorted(left) if left[session]])
        order.append((session, left[session].pop(0)))
    return order


def script_of(calls):
    """The text of calls of sessions, in this order."""
    text, at = [], 1
    for session, call in calls:
        if session != at:
            text.append(f"-- session {session}\n")
            at = session
        text.append(call + "\n")
    return "".join(text)
