"""Commits a second of one client that waits for each: this program over a folder, and others on the same device.

Each makes a table and then so many INSERTs of one row, every one durable before the next is made:

    two syncs          in C, the least that a commit of this program can take: the bytes of its record are written at the same
                       places of a file and made durable, and then the one byte before them, which is made durable too
                       (pwrite, fdatasync). Nothing is read, judged or kept
    one sync           in C, the same bytes with one fdatasync for each record
    subjectdb          this program, mode step, the store in a folder
    sqlite3, WAL       SQLite's command, else Python's module, with journal_mode=WAL and synchronous=FULL: one sync a commit
    sqlite3, rollback  the same with journal_mode=DELETE and synchronous=FULL
    postgres           PostgreSQL with one psql over a local socket, where both are there: fsync and synchronous_commit are on,
                       as a new cluster has them

What is told is wall time, with that of the table alone taken off, and the time of the processor beside it: of postgres that
of the server's processes, and of psql. All of it is of the least round of several in turn. Where the system tells them, the
instructions of this program and of SQLite are those of one more run. The folders lie in that which TMPDIR names.
"""
import contextlib
import os
import shutil
import subprocess
import sys
import tempfile
import time

from processor import as_started, instructions, spent, tells_instructions

COMMITS, ROUNDS = 1_000, 20
CREATE = "CREATE TABLE items (id INT PRIMARY KEY, n INT, name TEXT);\n"
BY_MODULE = """
import sqlite3, sys
base = sqlite3.connect(sys.argv[1], isolation_level=None)
for line in sys.stdin:
    base.execute(line)
"""
SYNCS = r"""
#include <fcntl.h>
#include <stdlib.h>
#include <string.h>
#include <unistd.h>

/* Records of these lengths, at places one behind the other, each durable before the next: by so many syncs. */
int main(int count, char **words) {
    static char record[1 << 16];
    off_t end = 31;
    int syncs = atoi(words[2]), file = open(words[1], O_RDWR | O_CREAT | O_TRUNC, 0666);
    memset(record, 'x', sizeof record);
    if (file < 0 || pwrite(file, record, 31, 0) != 31 || fsync(file)) return 1;
    for (int i = 3; i < count; i++) {
        int length = atoi(words[i]);
        if (pwrite(file, record, length, end) != length || (syncs == 2 && fdatasync(file))) return 1;
        if (pwrite(file, "\1", 1, end - 1) != 1 || fdatasync(file)) return 1;
        end += length;
    }
    return 0;
}
"""


def inserts(count):
    return [f"INSERT INTO items VALUES ({number * 7_919 % 200_003}, {number}, 'name {number}');\n" for number in range(count)]


def record_bytes(number):
    """The bytes that the record of such an INSERT adds: its gate, its length, and a payload of one change."""
    return 1 + 4 + 1 + 4 + (4 + 9) + 1 + (4 + 9 + 9 + 5 + len(f"name {number}"))


class Taken:
    """The wall time and the time of the processor of what was done within."""

    def __init__(self, more=lambda: 0.0):
        self.more = more

    def __enter__(self):
        self.begin = time.monotonic(), spent() + self.more()
        return self

    def __exit__(self, *_):
        self.wall, self.processor = time.monotonic() - self.begin[0], spent() + self.more() - self.begin[1]


def fed(command, calls):
    """Runs a command with the calls as its input, and gives what it took and what it wrote: both from and to a file, so that
    nobody has to be woken for a reply."""
    with tempfile.TemporaryFile() as asked, tempfile.TemporaryFile() as told:
        asked.write("".join(calls).encode())
        asked.seek(0)
        with Taken() as taken:
            done = subprocess.run(command, stdin=asked, stdout=told, env=as_started(command))
        if done.returncode != 0:
            sys.exit(f"{command[0]} failed: status {done.returncode}")
        told.seek(0)
        return taken, told.read()


class Postgres:
    """A cluster of its own in a folder, which listens on a local socket alone; its processes belong to nobody where this one is root's."""

    def __init__(self, folder):
        self.home, self.data = folder, os.path.join(folder, "data")
        self.user = {"user": "nobody", "group": "nogroup", "extra_groups": []} if os.geteuid() == 0 else {}
        os.mkdir(folder)
        if self.user:
            os.chmod(os.path.dirname(folder), 0o755)
            shutil.chown(folder, "nobody", "nogroup")
        self.run("initdb", "-D", self.data, "-U", "bench", "-A", "trust", "--no-instructions")
        self.server = subprocess.Popen(
            [shutil.which("postgres"), "-D", self.data, "-k", self.home, "-c", "listen_addresses="],
            stdout=subprocess.DEVNULL, stderr=subprocess.DEVNULL, **self.user)
        for _ in range(200):
            if subprocess.run(self.client("-c", "SELECT 1"), stdout=subprocess.DEVNULL, stderr=subprocess.DEVNULL).returncode == 0:
                break
            time.sleep(0.05)

    def run(self, program, *words):
        subprocess.run([shutil.which(program), *words], stdout=subprocess.DEVNULL, check=True, cwd=self.home, **self.user)

    def client(self, *words):
        return [shutil.which("psql"), "-X", "-q", "-v", "ON_ERROR_STOP=1", "-h", self.home, "-U", "bench", "-d", "postgres", *words]

    def spent(self):
        """The seconds of the processor of the server and its processes, those that have ended too."""
        ticks = 0
        for pid in filter(str.isdigit, os.listdir("/proc")):
            with contextlib.suppress(OSError):
                with open(f"/proc/{pid}/stat") as file:
                    fields = file.read().rpartition(")")[2].split()
                if int(pid) == self.server.pid:
                    ticks += sum(map(int, fields[11:15]))
                elif int(fields[1]) == self.server.pid:
                    ticks += sum(map(int, fields[11:13]))
        return ticks / os.sysconf("SC_CLK_TCK")

    def take(self, calls):
        with Taken(self.spent) as taken:
            done = subprocess.run(self.client(), input="".join(["DROP TABLE IF EXISTS items;\n", *calls]).encode(), stderr=subprocess.DEVNULL)
        if done.returncode != 0:
            sys.exit("psql failed")
        return taken

    def stop(self):
        self.server.send_signal(2)
        self.server.wait()


class Commits:
    """Who commits, by the calls to make: of each what they took."""

    def __init__(self, program, folder):
        self.program, self.folder, self.number = program, folder, 0
        self.command = shutil.which("sqlite3")
        self.syncs = os.path.join(folder, "syncs")
        subprocess.run(["gcc", "-O2", "-x", "c", "-o", self.syncs, "-"], input=SYNCS.encode(), check=True)
        missing = [name for name in ("initdb", "postgres", "psql") if shutil.which(name) is None]
        self.postgres = None if missing else Postgres(os.path.join(folder, "postgres"))
        self.missing = missing

    def fresh(self):
        self.number += 1
        return os.path.join(self.folder, f"store{self.number}")

    def c(self, syncs):
        def take(calls):
            lengths = [str(record_bytes(number)) for number in range(len(calls) - 1)]
            with Taken() as taken:
                subprocess.run([self.syncs, self.fresh(), str(syncs), *lengths], check=True)
            return taken
        return take

    def own(self, calls):
        (program, store, mode), _ = self.run_of_own(calls)
        taken, told = fed([program, store, mode], calls)
        if told.count(b" ok") != len(calls) or told.count(b"\n") != len(calls) + 1:
            sys.exit("unexpected replies")
        records = 31 + 5 + 5 + len("CREATE TABLE items ( id INT PRIMARY KEY , n INT , name TEXT )") + sum(map(record_bytes, range(len(calls) - 1)))
        if os.path.getsize(os.path.join(store, "a")) != records:
            sys.exit(f"the store has {os.path.getsize(os.path.join(store, 'a'))} bytes, and not {records}")
        return taken

    def run_of_own(self, calls):
        """The command and the input of this program's run."""
        store = self.fresh()
        os.mkdir(store)
        return [self.program, store, "step"], calls

    def run_of_sqlite(self, mode):
        def run(calls):
            front = [f"PRAGMA journal_mode={mode};\n", "PRAGMA synchronous=FULL;\n"]
            command = [self.command] if self.command else [sys.executable, "-c", BY_MODULE]
            return [*command, self.fresh()], front + [call.replace("INT PRIMARY KEY", "INTEGER PRIMARY KEY") for call in calls]
        return run

    def sqlite(self, mode):
        return lambda calls: fed(*self.run_of_sqlite(mode)(calls))[0]

    def instructions(self, calls):
        """The instructions that the calls take behind the first, of those of whom the system tells them."""
        beside = "sqlite3" if self.command else "Python's sqlite3"
        runs = {"subjectdb": self.run_of_own, f"{beside}, WAL": self.run_of_sqlite("WAL"), f"{beside}, rollback": self.run_of_sqlite("DELETE")}
        told = {}
        for name, run in runs.items():
            counts = []
            for some in (calls[:1], calls):
                command, lines = run(some)
                with tempfile.NamedTemporaryFile("w") as script:
                    script.writelines(lines)
                    script.flush()
                    counts.append(instructions(command, script.name))
            if None not in counts:
                told[name] = counts[1] - counts[0]
        return told

    def who(self):
        beside = "sqlite3" if self.command else "Python's sqlite3"
        all_of = {"two syncs": self.c(2), "one sync": self.c(1), "subjectdb": self.own,
                  f"{beside}, WAL": self.sqlite("WAL"), f"{beside}, rollback": self.sqlite("DELETE")}
        return {**all_of, "postgres": self.postgres.take} if self.postgres else all_of


def time_commits(program, folder, commits=COMMITS, rounds=ROUNDS):
    """Prints what commits take."""
    calls, bench = [CREATE, *inserts(commits)], Commits(program, folder)
    try:
        who = bench.who()
        best = {}
        for _ in range(rounds):
            for name, take in who.items():
                base, all_of = take(calls[:1]), take(calls)
                one = all_of.wall - base.wall, all_of.processor - base.processor
                best[name] = min(best.get(name, one), one)
        told = bench.instructions(calls) if tells_instructions() else {}
    finally:
        if bench.postgres:
            bench.postgres.stop()
    print(f"{f'{commits:,} commits of one row':<28}{'commits a second':>18}{'a commit':>12}{'processor':>12}{'of two syncs':>14}")
    for name, (wall, processor) in best.items():
        print(f"  {name:<26}{commits / wall:>18,.0f}{wall / commits * 1e6:>9.0f} µs{processor / commits * 1e6:>9.0f} µs"
              f"{wall / best['two syncs'][0]:>14.2f}" + (f"  {told[name] / commits:,.0f} instructions each" if name in told else ""), flush=True)
    if bench.missing:
        print(f"  postgres: {', '.join(bench.missing)} isn't installed")
