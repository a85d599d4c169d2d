"""A store that runs as a child process: one call goes in, one reply comes back.

    with Store(["./subjectdb", "shelf", "shell", "--json"]) as store:
        store.call("INSERT INTO users VALUES (?, ?)", 1, "Ann")
        for user in store.rows("SELECT * FROM users WHERE id = ?", 1): ..

A value goes where a question mark stands and nowhere else, and is quoted here, so that no value can go on as SQL. Names of tables and
columns are the program's own. Each call waits for its reply, and several threads may call: one waits for the other. Over a
folder a call that was answered is kept, also where this process or the store is killed at once after it.
"""
import json
import subprocess
import threading

SMALLEST, GREATEST = -(2 ** 63), 2 ** 63 - 1
HIDDEN = object()


class Refused(Exception):
    """A call was refused, and nothing was changed: `name` says why, `facts` has the table, the key and so on."""

    def __init__(self, facts):
        super().__init__(f"{facts['name']}: {facts['sentence']}")
        self.name, self.facts = facts["name"], facts


class Ended(Exception):
    """The store is gone. Whether the call that was under way was made, the next start tells."""


def quoted(value):
    """A value as SQL."""
    if value is None:
        return "NULL"
    if isinstance(value, bool) or not isinstance(value, (int, str)):
        raise TypeError(f"a store has no values like {value!r}")
    if isinstance(value, int):
        if not SMALLEST <= value <= GREATEST:
            raise ValueError(f"{value} needs more than 64 bits")
        return str(value)
    return "'" + value.replace("'", "''") + "'"


def filled(call, values):
    """A call with its values. It has no quotes and no semicolon of its own, so it stays one call."""
    parts = call.split("?")
    if any(mark in call for mark in ("'", ";", "--")) or len(parts) != len(values) + 1:
        raise ValueError(f"{call!r} is not one call with {len(values)} values, each a question mark")
    return parts[0] + "".join(quoted(value) + part for value, part in zip(values, parts[1:]))


def told(value):
    """A value as Python's: a sum is a number, and what a GDPR GET hides is HIDDEN."""
    if isinstance(value, dict):
        return int(value["sum"]) if "sum" in value else HIDDEN
    return value


class Store:
    def __init__(self, command):
        self.turn = threading.RLock()
        self.child = subprocess.Popen(command, stdin=subprocess.PIPE, stdout=subprocess.PIPE)

    def __enter__(self):
        return self

    def __exit__(self, *_):
        self.close()

    def close(self):
        """Ends the store, and gives its exit status."""
        with self.turn:
            self.child.stdin.close()
            self.child.stdout.close()
            return self.child.wait()

    def call(self, call, *values):
        """Makes a call and gives its reply, as docs/replies.md has it."""
        text = (filled(call, values) + ";\n").encode()
        with self.turn:
            try:
                self.child.stdin.write(text)
                self.child.stdin.flush()
                line = self.child.stdout.readline()
            except (OSError, ValueError) as error:
                raise Ended(str(error)) from error
        if not line.endswith(b"\n"):
            raise Ended(f"the store ended with status {self.child.wait()}")
        reply = json.loads(line)
        if reply["kind"] == "refused":
            raise Refused(reply["refused"])
        return reply

    def rows(self, call, *values):
        """The rows of a SELECT, each a dict by the names of its columns."""
        reply = self.call(call, *values)
        return [dict(zip(reply["columns"], map(told, row))) for row in reply["rows"]]

    def get(self, table, key):
        """All that is held about a person: of each row its table, and a dict by the names of its columns."""
        return [(row["table"], dict(zip(row["columns"], map(told, row["values"]))))
                for row in self.call(f"GDPR GET {table} ?", key)["rows"]]
