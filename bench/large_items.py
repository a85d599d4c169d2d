"""What bench/large times: for each item the runs of both, how their replies are judged, and the figures that come of them."""
import dataclasses
import hashlib
import math
import os
import shutil
import sys
import tempfile

from by_hand import IN_SQLITE, OWN, TABLES, erasures, rows
from committing import SYNCS
from images import COPY, image_in, images, records
from made import Script, summary
from running import built, run

SEED, PEOPLE = 7, 5_000
MOST_CALLS, LONGEST_INPUT, MOST_ROWS, OWNERS = 200_000, 67_108_864, 1_000_000, 1_000
TOGETHER, PRINTS, LOOKS, SIZES = 500, 5, 150_000, (1_000, 10_000, 100_000, 900_000)


class Job:
    """A command, which is asked for at each run, with a file as its input; what it writes is judged."""

    def __init__(self, command, path=os.devnull, judge=None):
        self.command, self.path, self.judge = command, path, judge

    def take(self, settings=None):
        with tempfile.TemporaryFile() as told:
            taken = run(self.command(), self.path, told, settings)
            told.seek(0)
            if self.judge:
                self.judge(told)
            return taken


def ratio(one, other):
    """The first by the second; or no number, where a difference of two runs is less than these vary."""
    return one / other if one > 0 and other > 0 else math.nan


@dataclasses.dataclass
class Part:
    """A figure of this program and one of a peer, each worked out of the least runs by their names; a bar is of the first by the second.
    A profile is of the run `job`, behind what the run `off` does, and of the run `also`; `event` is what perf counts."""

    title: str
    own: object
    peer: object
    wanted: float | None = None
    at_least: bool = False
    unit: str = "s"
    job: str | None = None
    off: str | None = None
    also: str | None = None
    event: str = "cpu-clock"

    def figure(self, best):
        """The first by the second; or no number, which meets no bar."""
        return ratio(self.own(best), self.peer(best))

    def met(self, figure):
        return figure >= self.wanted if self.at_least else figure <= self.wanted

    def show(self, value):
        return {"s": f"{value:.3f} s", "us": f"{value * 1e6:.2f} us", "MiB": f"{value:.1f} MiB", "a second": f"{value:,.0f}/s", "": f"{value:.2f}"}[self.unit]


@dataclasses.dataclass
class Item:
    title: str
    jobs: dict
    parts: list
    notes: list = dataclasses.field(default_factory=list)


def seconds(name, off=None, count=1):
    """The seconds of the processor of one of so many calls that a run makes more than the run `off`."""
    return lambda best: (best[name].processor - (best[off].processor if off else 0)) / count


def memory(name):
    return lambda best: best[name].memory


def once(judge):
    """The same judge, which doesn't look a second time at what it has seen already."""
    seen = set()

    def look(told):
        digest = hashlib.file_digest(told, "sha256").digest()
        if digest not in seen:
            told.seek(0)
            judge(told)
            seen.add(digest)
    return look


def answers(calls):
    """Judges replies of mode step: so many calls, each answered `ok` or with rows, and the end."""
    def judge(told):
        count = 0
        for line in told:
            if not line.startswith(b"  "):
                if line.split()[2] not in (b"ok", b"rows", b"end"):
                    sys.exit(f"unexpected reply: {line.decode(errors='replace')}")
                count += 1
        if count != calls + 1:
            sys.exit(f"unexpected replies: {count} lines for {calls} calls")
    return once(judge)


def printed(wanted, calls=None):
    """Judges the rows that a program prints: of this one behind so many calls, whose other replies are left out, else of SQLite."""
    def judge(told):
        if calls is not None:
            answers(calls)(told)
            told.seek(0)
        lines = (line for line in told if calls is None or line.startswith(b"  "))
        for row in wanted():
            line = next(lines, b"").decode().strip().replace("'", "")
            if line != row:
                sys.exit(f"unexpected row: {line} in place of {row}")
        if next(lines, None) is not None:
            sys.exit("unexpected rows: more than there are")
    return once(judge)


class Bench:
    """The program, a folder for inputs and stores, and how much smaller everything is."""

    def __init__(self, program, folder, quick):
        self.program, self.folder, self.quick, self.number = program, folder, quick, 0
        self.store = None

    def some(self, full):
        """Of so many, all, or a twentieth."""
        return full // 20 if self.quick else full

    def fresh(self):
        self.number += 1
        return os.path.join(self.folder, f"file{self.number}")

    def file(self, lines):
        path = self.fresh()
        with open(path, "w") as file:
            file.writelines(lines)
        return path

    def own(self, path, judge):
        return Job(lambda: [self.program, "-", "step"], path, judge)

    def sqlite(self, path, judge=None):
        return Job(lambda: ["sqlite3", "-bail", ":memory:"], path, judge)

    def new_store(self):
        """A new folder for a store, in place of the one before."""
        if self.store:
            shutil.rmtree(self.store)
        self.store = self.fresh()
        os.mkdir(self.store)
        return self.store

    def area(self):
        """The file of the store that holds it."""
        return max((os.path.join(self.store, name) for name in "ab"), key=os.path.getsize)


def both(bench, create, indexes, calls, judges=(None, None)):
    """The runs of this program and of SQLite on CREATEs, which differ, and on the same calls, each on one line."""
    own = bench.file([*create, *calls()])
    with open(own) as file:
        count = sum(1 for _ in file)
    theirs = [text.replace("INT PRIMARY KEY", "INTEGER PRIMARY KEY").replace("DATA_SUBJECT ", "").replace("OWNED_BY", "REFERENCES") for text in create]
    other = bench.file(["PRAGMA foreign_keys=ON;\n", *theirs, *indexes, *calls()])
    return bench.own(own, judges[0] or answers(count)), bench.sqlite(other, judges[1])


def scattered(number, past):
    """A key for each number, out of order: a step through the numbers below a prime past them all."""
    return number * 7_919 % past


def many(table, tuples, together=TOGETHER):
    """INSERTs of so many tuples each."""
    some = []
    for one in tuples:
        some.append(one)
        if len(some) == together:
            yield f"INSERT INTO {table} VALUES {', '.join(some)};\n"
            some = []
    if some:
        yield f"INSERT INTO {table} VALUES {', '.join(some)};\n"


def judge_summary(people):
    wanted = summary(people, SEED).encode()

    def judge(told):
        if (summed := told.read()) != wanted:
            sys.exit(f"unexpected summary: {summed.decode(errors='replace')}")
    return judge


def judge_by_hand(people):
    """Judges what SQLite prints of the large script: as many rows as its summary says, and the sum of those of the view."""
    lines = dict(line.split(" ", 1) for line in summary(people, SEED).splitlines())

    def judge(told):
        found = told.read().decode().splitlines()
        got, held, total = (int(lines[name]) for name in ("got", "held", "sum"))
        if len(found) != got + held or sum(int(line.rpartition("|")[2] or 0) for line in found[got:]) != total:
            sys.exit("unexpected rows of SQLite")
    return judge


def made_jobs(bench, people):
    """The runs of the large script of so many people, by their names."""
    script, title = Script(people, SEED), f"{people:,} people"
    before = [*rows(script)]
    count = OWN.count("\n") + sum(text.count("\n") for text in before)
    by_hand = [TABLES, IN_SQLITE, *before]
    make = lambda: [bench.program, "-", "make", str(people), str(SEED)]
    return {
        f"subjectdb: {title}, before the erasures": bench.own(bench.file([OWN, *before]), answers(count)),
        f"sqlite3: {title}, before the erasures": bench.sqlite(bench.file(by_hand)),
        f"subjectdb: {title}, the whole": Job(make, judge=judge_summary(people)),
        f"sqlite3: {title}, the whole": bench.sqlite(bench.file([*by_hand, *erasures(script)]), judge_by_hand(people)),
    }


def image_bytes(bench, people):
    """The bytes of each image of the script; the last is looked at in a folder."""
    Job(lambda: [bench.program, bench.new_store(), "make", str(people), str(SEED)], judge=judge_summary(people)).take()
    last, creates = image_in(bench.area())
    lengths = images(Script(people, SEED), creates)
    if lengths[-1] != last or os.path.getsize(bench.area()) != last + 18:
        sys.exit(f"the last image has {last} bytes, and not {lengths[-1]}")
    return lengths


def exponent(names, sizes):
    """The exponent by which the seconds grow from the fewer people to the more."""
    return lambda best: math.log(best[names[1]].processor / best[names[0]].processor) / math.log(sizes[1] / sizes[0])


def made(bench):
    sizes = bench.some(PEOPLE) // 5, bench.some(PEOPLE)
    jobs = {name: job for people in sizes for name, job in made_jobs(bench, people).items()}
    lengths = image_bytes(bench, sizes[1])
    copy, copies = built(COPY, bench.fresh()), [f"{length}\n" for length in (max(lengths), *lengths)]
    jobs["C: nothing copied"] = Job(lambda: [copy], bench.file(copies[:1]))
    jobs["C: each image copied"] = Job(lambda: [copy], bench.file(copies))
    more, fewer = f"{sizes[1]:,} people", f"{sizes[0]:,} people"
    before, whole = f"subjectdb: {more}, before the erasures", f"subjectdb: {more}, the whole"
    peer_before, peer_whole = (f"sqlite3: {more}, {part}" for part in ("before the erasures", "the whole"))
    copied = seconds("C: each image copied", "C: nothing copied")
    parts = [
        Part("before the erasures, beside SQLite", seconds(before), seconds(peer_before), 1.0, job=before),
        Part("the whole, beside SQLite's and 1.3 copies of the images", seconds(whole),
             lambda best: best[peer_whole].processor + 1.3 * copied(best), 1.0, job=whole),
        Part("the whole, beside SQLite's before the erasures and 1.3 copies", seconds(whole),
             lambda best: best[peer_before].processor + 1.3 * copied(best)),
        Part("one copy of the images, beside the whole", copied, seconds(whole)),
        Part("memory of the whole, beside SQLite's", memory(whole), memory(peer_whole), 1.5, unit="MiB", job=whole, event="page-faults"),
    ]
    for title, large, bar in (("before the erasures", before, 1.1), ("the whole", whole, 1.1), ("SQLite, before", peer_before, None), ("SQLite, the whole", peer_whole, None)):
        small = large.replace(more, fewer)
        parts.append(Part(f"{title}: the exponent from {fewer} on", exponent((small, large), sizes), lambda _: 1.0, bar, unit="",
                          job=large if bar else None, also=small))
    return Item(f"the large script over `-`, {more}", jobs, parts, [f"{len(lengths):,} images of {sum(lengths):,} bytes together"])


def in_folder(bench):
    people = bench.some(PEOPLE) // (5 if bench.quick else 1)
    script = Script(people, SEED)
    lengths, before = records(script), [*rows(script)]
    count, empty = OWN.count("\n"), []

    def grown(judge, more):
        def look(told):
            judge(told)
            empty.append(os.path.getsize(bench.area())) if not empty else None
            if os.path.getsize(bench.area()) != empty[0] + more:
                sys.exit(f"the store has {os.path.getsize(bench.area())} bytes, and not {empty[0] + more}")
        return look

    def step(lines, more):
        calls = sum(text.count("\n") for text in lines)
        return Job(lambda: [bench.program, bench.new_store(), "step"], bench.file(lines), grown(answers(calls), more))
    syncs = built(SYNCS, bench.fresh())
    places = bench.fresh()
    jobs = {
        "subjectdb: the CREATEs alone": step([OWN], 0),
        "subjectdb: the calls before the erasures": step([OWN, *before], sum(lengths)),
        "C: no commit": Job(lambda: [syncs, places, "2"]),
        "C: two syncs a commit": Job(lambda: [syncs, places, "2", *map(str, lengths)]),
    }
    rate = lambda name, off: lambda best: ratio(len(lengths), best[name].wall - best[off].wall)
    all_of = "subjectdb: the calls before the erasures"
    part = Part("commits a second in a folder, of two syncs'", rate(all_of, "subjectdb: the CREATEs alone"), rate("C: two syncs a commit", "C: no commit"),
                0.9, at_least=True, unit="a second", job=all_of)
    return Item(f"a folder, {people:,} people, no erasure", jobs, [part], [f"{len(lengths):,} commits behind the {count} CREATEs"])


def inserts(bench):
    jobs, parts = {}, []
    people = [*many("users", [f"({person})" for person in range(OWNERS)], OWNERS)]
    kinds = (
        ("a plain table", ["CREATE TABLE items (id INT PRIMARY KEY, n INT, name TEXT);\n"], [], []),
        ("a table with an owner", ["CREATE DATA_SUBJECT TABLE users (id INT PRIMARY KEY);\n",
                                   "CREATE TABLE items (id INT PRIMARY KEY, n INT OWNED_BY users(id), name TEXT);\n"],
         ["CREATE INDEX by_n ON items (n);\n"], people),
    )
    for title, create, indexes, first in kinds:
        count = bench.some(MOST_CALLS) - len(create) - len(first)
        calls = lambda: [*first, *(f"INSERT INTO items VALUES ({scattered(number, 200_003)}, {number % OWNERS}, 'name {number}');\n" for number in range(count))]
        own, peer = (f"{who}: {count:,} INSERTs, {title}" for who in ("subjectdb", "sqlite3"))
        jobs[own], jobs[peer] = both(bench, create, indexes, calls)
        parts.append(Part(f"{count:,} scattered INSERTs into {title}", seconds(own), seconds(peer), 1.0, job=own))
    return Item("INSERTs of one row, scattered keys", jobs, parts)


def filled(most, key):
    """INSERTs of many tuples, as many as so many bytes hold."""
    left, number = most, 0
    while True:
        some = [f"({key(place)}, {place * 31 % 1_000_000}, 'note {place} of somebody who has much more to tell us')" for place in range(number, number + TOGETHER)]
        call = f"INSERT INTO items VALUES {', '.join(some)};\n"
        if len(call) > left:
            return
        yield call
        left, number = left - len(call), number + TOGETHER


def tuples(bench):
    jobs, parts, notes = {}, [], []
    create = ["CREATE TABLE items (id INT PRIMARY KEY, n INT, body TEXT);\n"]
    most = bench.some(LONGEST_INPUT) - len(create[0])
    for order, key in (("in order", lambda number: number), ("scattered", lambda number: scattered(number, 1_000_003))):
        own, peer = (f"{who}: INSERTs of {TOGETHER} rows, keys {order}" for who in ("subjectdb", "sqlite3"))
        jobs[own], jobs[peer] = both(bench, create, [], lambda: filled(most, key))
        parts.append(Part(f"INSERTs of {TOGETHER} rows, keys {order}", seconds(own), seconds(peer), 0.8, job=own))
        notes.append(f"keys {order}: {os.path.getsize(jobs[own].path):,} bytes, {sum(TOGETHER for _ in filled(most, key)):,} rows")
    return Item("an input of INSERTs of many rows", jobs, parts, notes)


def behind(bench, title, create, puts, looks, wanted, bar, count, unit="s"):
    """Calls that print rows behind those that put them, and the figure of one call."""
    jobs = {}
    (jobs[f"subjectdb: {title}, the rows alone"], jobs[f"sqlite3: {title}, the rows alone"]) = both(bench, create, [], puts)
    calls = len(create) + sum(1 for _ in puts()) + count
    judges = printed(wanted, calls), printed(wanted)
    own, peer = f"subjectdb: {title}", f"sqlite3: {title}"
    jobs[own], jobs[peer] = both(bench, create, [], lambda: [*puts(), *looks()], judges)
    own_off, peer_off = f"{own}, the rows alone", f"{peer}, the rows alone"
    return jobs, Part(title, seconds(own, own_off, count), seconds(peer, peer_off, count), bar, unit=unit, job=own, off=own_off)


def prints(bench):
    many_rows = bench.some(MOST_ROWS)
    puts = lambda: many("items", (f"({key}, {key * 31 % 1_000_003}, 'name {key}')" for key in range(many_rows)), 1_000)
    wanted = lambda: (f"{key}|{key * 31 % 1_000_003}|name {key}" for _ in range(PRINTS) for key in range(many_rows))
    jobs, part = behind(bench, f"SELECT of {many_rows:,} rows, printed", ["CREATE TABLE items (id INT PRIMARY KEY, n INT, name TEXT);\n"], puts,
                        lambda: ["SELECT * FROM items;\n"] * PRINTS, wanted, 1.0, PRINTS)
    return Item("rows printed to a file", jobs, [part], [f"one SELECT, by the {PRINTS} that stand behind the INSERTs"])


def keys(bench):
    jobs, parts = {}, []
    looked = bench.some(LOOKS)
    for size in SIZES[:3] if bench.quick else SIZES:
        at = lambda number, size=size: scattered(number, 1_000_003) % size
        puts = lambda size=size: many("items", (f"({key}, {key * 31 % 1_000_003})" for key in range(size)), 1_000)
        some, part = behind(bench, f"SELECT by key of {size:,} rows", ["CREATE TABLE items (id INT PRIMARY KEY, n INT);\n"], puts,
                            lambda at=at: [f"SELECT n FROM items WHERE id = {at(number)};\n" for number in range(looked)],
                            lambda at=at: (str(at(number) * 31 % 1_000_003) for number in range(looked)), 1.0, looked, "us")
        jobs |= some
        parts.append(part)
    return Item(f"{looked:,} SELECTs by key", jobs, parts)


def kept(bench):
    people = ["CREATE TABLE users (id INT PRIMARY KEY);\n", f"INSERT INTO users VALUES {', '.join(f'({person})' for person in range(OWNERS))};\n"]
    subjects = [people[0].replace("CREATE", "CREATE DATA_SUBJECT"), people[1]]
    index = ["CREATE INDEX by_n ON items (n);\n"]
    kinds = (
        ("a plain table", 1_000_000, [], "n INT", []),
        ("a UNIQUE column", 500_000, [], "n INT UNIQUE", []),
        ("a reference", 500_000, people, "n INT REFERENCES users(id)", index),
        ("an owner", 200_000, subjects, "n INT OWNED_BY users(id)", index),
    )
    shell = os.path.join(os.path.dirname(bench.program), "subjectdb-shell-linux-x86_64")
    jobs, parts, notes = {}, [], []
    for title, full, above, column, indexes in kinds:
        count = bench.some(full)
        value = (lambda key: key) if "UNIQUE" in column else lambda key: key % OWNERS
        create = [*above, f"CREATE TABLE items (id INT PRIMARY KEY, {column});\n"]
        own, peer, spoken = (f"{who}: {count:,} rows, {title}" for who in ("subjectdb", "sqlite3", "subjectdb's shell"))
        jobs[own], jobs[peer] = both(bench, create, indexes, lambda: many("items", (f"({key}, {value(key)})" for key in range(count)), 1_000))
        path = jobs[own].path
        notes.append(f"{title}: the input has {os.path.getsize(path) / 2**20:.1f} MiB")
        parts.append(Part(f"memory of {count:,} rows, {title}", memory(own), memory(peer), 1.5, unit="MiB", job=own, event="page-faults"))
        if os.path.exists(shell):
            jobs[spoken] = Job(lambda: [shell, "-"], path, jobs[own].judge)
            parts.append(Part(f"the same, in the shell, {title}", memory(spoken), memory(peer), unit="MiB"))
    return Item("the most memory, by rows", jobs, parts, notes)


ITEMS = {"made": made, "folder": in_folder, "inserts": inserts, "tuples": tuples, "print": prints, "keys": keys, "memory": kept}
TRIED = ("made", "inserts", "tuples", "print")
