"""The two files of a store, byte for byte, for the cases of tests/rows that run over a folder.

It is written from docs/disk.md: each function gives the bytes of what it is named after. Rows are lists of None, numbers and
texts; the first value is the key, where no other is told. Creates are canonical texts, as 'CREATE TABLE t ( id INT PRIMARY KEY )'.
A case's script imports this module, and gives the bytes of a file by `write`.
"""
import sys

GREATEST = 4_611_686_018_427_387_904
CLOSED, OPEN = b"\0", b"\1"
RETIRED = CLOSED


def number(value, size=4):
    """A number of so many bytes, the highest first."""
    return value.to_bytes(size, "big", signed=value < 0)


def text(told):
    """Its length, and its bytes."""
    told = told if isinstance(told, bytes) else told.encode()
    return number(len(told)) + told


def value(told):
    if told is None:
        return b"\0"
    if isinstance(told, int):
        return b"\1" + number(told, 8)
    return b"\2" + text(told)


def many(parts):
    """A list: how many there are, and they."""
    parts = list(parts)
    return number(len(parts)) + b"".join(parts)


def row(values):
    return many(map(value, values))


def name(table, key):
    return number(table) + value(key)


def put(table, values, key=None):
    """A change that puts a row."""
    return name(table, values[0] if key is None else key) + b"\1" + row(values)


def gone(table, key):
    """A change that takes a row away."""
    return name(table, key) + b"\0"


def create(told):
    """The payload of a CREATE."""
    return (b"\2" if told.startswith("CREATE VIEW") else b"\1") + text(told)


def changes(*told):
    """The payload of rows that change."""
    return b"\3" + many(told)


def forget(table, key):
    """The payload of a data subject that is forgotten."""
    return b"\4" + name(table, key)


def image(commits, creates, tables):
    """The image of a state: how many commits made it, the texts of its creates, and for each table the list of its rows."""
    rows = b"".join(many(map(row, table)) for table in tables)
    return b"\1" + number(commits, 8) + many(map(create, creates)) + rows


EMPTY = image(0, [], [])


def begin(epoch, told, length=None):
    """An opened area up to the gate of its first record; the length of the image is another where it is told."""
    return OPEN + number(epoch, 8) + number(len(told) if length is None else length, 8) + told


def record(payload, length=None):
    """What stands behind the gate of a record; the length of its payload is another where it is told."""
    return number(len(payload) if length is None else length) + payload


def area(epoch, told, *payloads):
    """An opened area: an image, and records behind it."""
    return begin(epoch, told) + b"".join(OPEN + record(payload) for payload in payloads) + CLOSED


# A store with which several cases begin: people who own notes. Four commits made it.
USERS = "CREATE DATA_SUBJECT TABLE users ( id INT PRIMARY KEY , name TEXT NOT NULL , mail TEXT UNIQUE )"
NOTES = "CREATE TABLE notes ( id INT PRIMARY KEY , who INT OWNED_BY users ( id ) , body TEXT )"
PEOPLE = [[5, "Ann", "a@x"], [7, "Bob", None]]
WRITTEN = [[1, 5, "hi"], [2, 7, None]]
KEPT = image(4, [USERS, NOTES], [PEOPLE, WRITTEN])


def write(told):
    """To standard output."""
    sys.stdout.buffer.write(told)
