"""What a history of calls means, as a slow program: one flat database, and nothing kept beside it.

It shares nothing with the store: no lock, index, copy, page or turn. Each function says what is true, as the pages
under docs have it (history.md first), and finds it anew from all rows each time. A transaction isn't kept as rows of its
own: whenever something is asked of it, all its statements are run once more on the database as others have left it.

    history = History()
    history.answer(1, "CREATE TABLE t (id INT PRIMARY KEY);")     gives ["ok"]
    history.answer(1, END)                                        gives ["end"]

An answer is the list of its lines, the first without the call's place and number. The calls have to come in the order
of their places. It knows the statements that tests/histories/try makes, and says of any other that it doesn't know it
(`Unknown`). What it doesn't judge: a CREATE is taken to be one that no rule of schemas refuses; the disk never fails and
has room, memory never runs out, and no limit is passed.
"""
from collections import namedtuple

from texts import Column, Control, Copy, CreateTable, CreateView, Delete, Forget, Get, Insert, Select, Sum, Update, Value, read

END = "the end of a session's calls"
LEAST, GREATEST = -2 ** 63, 2 ** 63 - 1


class Refused(Exception):
    """The call is refused; its text stands behind the word `refused`."""


class NotSerial(ValueError):
    """A transaction isn't, run whole at its COMMIT, what it was answered to be."""


# A database: its tables and views by name, in the order of their creation, the edges of its tables, and of each table
# its rows by their keys. A row is a tuple of values, and a value is None, a number or a text. A database is never
# altered: what a call leaves is another one.
Db = namedtuple("Db", "tables views edges rows")
EMPTY = Db({}, {}, [], {})

# An edge is held by a column of a table. It leads from its lower table to its upper one. Columns that it hides from a
# GET and blanks at a FORGET are positions in the lower table.
Edge = namedtuple("Edge", "word holder column lower upper owner hides blanks strikes")

WRITES = (Insert, Update, Delete)


# ---- rows, and how they are shown ----

def shown(value):
    """A value as a reply shows it: NULL, a number, or a text in quotes, with a bad byte as a backslash and its digits."""
    if value is None:
        return "NULL"
    if isinstance(value, int):
        return str(value)
    escaped = "".join(f"\\{ord(sign):02x}" if ord(sign) < 32 or sign in "\\\x7f" else sign for sign in value)
    return "'" + escaped.replace("'", "''") + "'"


def rank(value):
    """What values are ordered by: NULL before every value, numbers by value, texts by bytes."""
    if value is None:
        return (0, 0)
    return (1, value.encode() if isinstance(value, str) else value)


def position(columns, name):
    """Where a column stands among these, or None."""
    names = [column.name for column in columns]
    return names.index(name) if name in names else None


def rows_of(db, table):
    """A table's rows, by key."""
    return [db.rows[table][key] for key in sorted(db.rows[table], key=rank)]


def names_of(db):
    """The names of all rows, by table, then key. A name is a table and a key."""
    return [(table, key) for table in db.tables for key in sorted(db.rows[table], key=rank)]


def with_rows(db, table, rows):
    """The database with other rows in a table."""
    key = db.tables[table].key
    return db._replace(rows={**db.rows, table: {row[key]: row for row in rows}})


# ---- SELECT ----

def source_columns(db, source):
    """The columns of a table or a view."""
    if source in db.tables:
        return db.tables[source].columns
    select = db.views[source]
    under = source_columns(db, select.source)
    if select.items is None:
        return under
    kinds = [under[position(under, item.column)].kind if item.what == "column" else "INT" for item in select.items]
    return [Column(item.name, kind, False, False, None) for item, kind in zip(select.items, kinds)]


def is_true(columns, where, row):
    """Whether a condition is true of a row. Nothing equals NULL, not even NULL."""
    return all(value is not None and row[position(columns, name)] == value for name, value in where)


def is_grouped(select):
    """Whether a SELECT counts, sums or groups, so that a row stands for many."""
    return select.group is not None or any(item.what != "column" for item in select.items or [])


def query(db, select):
    """The rows of a SELECT. Those of a view are those of its own SELECT, on the rows as they are now."""
    columns = source_columns(db, select.source)
    source = rows_of(db, select.source) if select.source in db.tables else query(db, db.views[select.source])
    kept = [row for row in source if is_true(columns, select.where, row)]
    if is_grouped(select):
        names = [item.name for item in select.items]
        return in_order(select.order, names, grouped(columns, select, kept))
    ordered = in_order(select.order, [column.name for column in columns], kept)
    if select.items is None:
        return ordered
    return [tuple(row[position(columns, item.column)] for item in select.items) for row in ordered]


def in_order(order, names, rows):
    """The rows by one column, NULL first, or all the other way round; rows that are equal there stay as they stood."""
    if order is None:
        return rows
    name, down = order
    return sorted(rows, key=lambda row: rank(row[names.index(name)]), reverse=down)


def grouped(columns, select, kept):
    """A row for each value of the group's column, NULL first; one for all rows where no column is named."""
    if select.group is None:
        return [group_row(columns, select, None, kept)]
    at = position(columns, select.group)
    values = sorted({row[at] for row in kept}, key=rank)
    return [group_row(columns, select, value, [row for row in kept if row[at] == value]) for value in values]


def group_row(columns, select, value, rows):
    """The row of a group: its value, how many rows it has, and the sum of their values but NULL; NULL where none is left."""
    def cell(item):
        if item.what == "column":
            return value
        if item.what == "count":
            return len(rows)
        summed = [row[position(columns, item.column)] for row in rows]
        summed = [number for number in summed if number is not None]
        return sum(summed) if summed else None
    return tuple(cell(item) for item in select.items)


# ---- what a statement is refused for before it runs ----

def kind_of(value):
    """The kind of a value that isn't NULL."""
    return "TEXT" if isinstance(value, str) else "INT"


def fits(column, value):
    """Whether a value is of its column's kind; NULL is of every kind."""
    return value is None or kind_of(value) == column.kind


def binding_faults(db, statement):
    """The faults of a statement's names and kinds: each with its rank among the refusals, in the order of the text."""
    source = statement.source if isinstance(statement, Select) else statement.table
    readable = source in db.tables or isinstance(statement, Select) and source in db.views and not is_grouped(statement)
    if not readable:
        return [(2, f"table {source}")]
    columns = source_columns(db, source)
    if isinstance(statement, Select):
        return select_faults(columns, statement)
    if isinstance(statement, Insert):
        return [fault for row in statement.tuples for fault in tuple_faults(columns, row)]
    if isinstance(statement, Update):
        return update_faults(db.tables[source], statement) + where_faults(columns, statement.where)
    if isinstance(statement, Delete):
        return where_faults(columns, statement.where)
    table = db.tables[source]
    key = table.columns[table.key]
    faults = [] if fits(key, statement.key) else [(4, f"kind {key.name}")]
    return faults if table.subject else faults + [(11, f"subject {source}")]


def column_faults(columns, names):
    """The names that aren't those of columns."""
    return [(3, f"column {name}") for name in names if position(columns, name) is None]


def where_faults(columns, where):
    """The faults of a condition: a column that isn't there, or a value of the other kind."""
    found = []
    for name, value in where:
        found += column_faults(columns, [name])
        at = position(columns, name)
        if at is not None and not fits(columns[at], value):
            found.append((4, f"kind {name}"))
    return found


def select_faults(columns, select):
    """The faults of a SELECT: of its items, its condition, its group and its order. A grouped one is ordered by its items."""
    items = select.items or []
    faults = []
    for item in items:
        if item.what == "column" and is_grouped(select) and item.column != select.group:
            faults.append((3, f"column {item.column}"))
        elif item.column is not None:
            faults += column_faults(columns, [item.column])
            at = position(columns, item.column)
            if item.what == "sum" and at is not None and columns[at].kind == "TEXT":
                faults.append((4, f"kind {item.column}"))
    faults += where_faults(columns, select.where)
    faults += column_faults(columns, [select.group] if select.group else [])
    if select.order:
        outputs = [Column(item.name, None, False, False, None) for item in items]
        faults += column_faults(outputs if is_grouped(select) else columns, [select.order[0]])
    return faults


def tuple_faults(columns, row):
    """The faults of a tuple of an INSERT, whose values go to the columns one by one."""
    pairs = list(zip(columns, row))
    faults = [(4, f"kind {column.name}") for column, value in pairs if not fits(column, value)]
    if len(row) != len(columns):
        faults.append((5, f"count {len(row)} {len(columns)}"))
    return faults + [(12, f"null {column.name}") for column, value in pairs if value is None and column.not_null]


def update_faults(table, update):
    """The faults of what an UPDATE sets; a column is set once."""
    faults, named = [], []
    for name, expression in update.sets:
        faults += set_faults(table, name, expression)
        if name in named:
            faults.append((5, "count 2 1"))
        named.append(name)
    return faults


def set_faults(table, name, expression):
    """The faults of one column that is set. A sum is of numbers, and the primary key stays as it is."""
    columns = table.columns
    used = [name] if isinstance(expression, Value) else [name, expression.column]
    if column_faults(columns, used):
        return column_faults(columns, used)
    column, kinds = columns[position(columns, name)], [columns[position(columns, one)].kind for one in used]
    faults = []
    if isinstance(expression, Value) and not fits(column, expression.value) or isinstance(expression, Copy) and kinds[0] != kinds[1]:
        faults.append((4, f"kind {name}"))
    if isinstance(expression, Sum):
        faults += [(4, f"kind {one}") for one, kind in zip(used, kinds) if kind == "TEXT"]
    if column is columns[table.key]:
        faults.append((10, f"key {name}"))
    if expression == Value(None) and column.not_null:
        faults.append((12, f"null {name}"))
    return faults


def binding_refusal(db, statement):
    """The first fault by rank, then in the text; None where there is none."""
    if isinstance(statement, (Control, CreateTable, CreateView)):
        return None
    return min(binding_faults(db, statement), key=lambda fault: fault[0], default=(0, None))[1]


# ---- one statement on the database ----

def run(db, statement):
    """The database that a statement leaves, and the lines of its reply; Refused, where it leaves the database."""
    refusal = binding_refusal(db, statement)
    if refusal:
        raise Refused(refusal)
    return RUNS[type(statement)](db, statement)


def reply(db, statement):
    """The lines of a statement's reply, be it refused or not."""
    try:
        return run(db, statement)[1]
    except Refused as why:
        return [f"refused {why}"]


def left_by(db, statements):
    """The database after statements; one that is refused leaves nothing."""
    for statement in statements:
        try:
            db = run(db, statement)[0]
        except Refused:
            pass
    return db


def run_select(db, select):
    """The rows, a line each."""
    rows = query(db, select)
    return db, [f"rows {len(rows)}"] + ["  " + "|".join(map(shown, row)) for row in rows]


def run_insert(db, insert):
    """The table with the tuples; none of them may have the key of a row or of a tuple before it."""
    key = db.tables[insert.table].key
    rows = rows_of(db, insert.table)
    for row in map(tuple, insert.tuples):
        if row[key] in [other[key] for other in rows]:
            raise Refused(f"duplicate {insert.table} {shown(row[key])}")
        rows.append(row)
    return with_rows(db, insert.table, rows), [f"ok {len(insert.tuples)}"]


def run_delete(db, delete):
    """The table without the rows of which the condition is true."""
    columns = db.tables[delete.table].columns
    rows = rows_of(db, delete.table)
    left = [row for row in rows if not is_true(columns, delete.where, row)]
    return with_rows(db, delete.table, left), [f"ok {len(rows) - len(left)}"]


def run_update(db, update):
    """Each row of which the condition is true gets its new values, all worked out over the row as it was."""
    columns = db.tables[update.table].columns
    rows = rows_of(db, update.table)
    changing = [row for row in rows if is_true(columns, update.where, row)]
    values = [(columns[position(columns, name)], value_of(columns, expression, row))
              for row in changing for name, expression in update.sets]
    nulls = [column.name for column, value in values if value is None and column.not_null]
    past = [column.name for column, value in values if isinstance(value, int) and not LEAST <= value <= GREATEST]
    if nulls or past:
        raise Refused(f"null {nulls[0]}" if nulls else f"range {past[0]}")
    after = [updated(columns, update.sets, row) if row in changing else row for row in rows]
    return with_rows(db, update.table, after), [f"ok {len(changing)}"]


def value_of(columns, expression, row):
    """What a column is set to, over a row as it was. A sum with NULL is NULL."""
    if isinstance(expression, Value):
        return expression.value
    before = row[position(columns, expression.column)]
    return before if before is None or isinstance(expression, Copy) else before + expression.number


def updated(columns, sets, row):
    """A row with what its columns are set to."""
    given = {name: value_of(columns, expression, row) for name, expression in sets}
    return tuple(given.get(column.name, value) for column, value in zip(columns, row))


def run_get(db, get):
    """The rows that lead to the subject, each after the name of its table."""
    rows = got(db, (get.table, get.key))
    return db, [f"got {len(rows)}"] + ["  " + "|".join(cells) for cells in rows]


def run_forget(db, forget):
    """What is left without the subject, and how many rows it took with it or changed."""
    left, removed, changed = forgotten(db, (forget.table, forget.key))
    return left, [f"forgot {len(removed)} removed {len(changed)} changed"]


def run_table(db, create):
    """The table at the end, without rows, and its edges."""
    table = create.table
    if table.name in db.tables or table.name in db.views:
        raise Refused(f"taken {table.name}")
    tables = {**db.tables, table.name: table}
    edges = [edge_of(tables, table, column, create.rules) for column in table.columns
             if column.refers and column.refers[0] != "REFERENCES"]
    return Db(tables, db.views, db.edges + edges, {**db.rows, table.name: {}}), ["ok"]


def edge_of(tables, table, column, rules):
    """The edge that a column holds, with what the rules on it say of the lower table's columns."""
    word, other = column.refers
    lower, upper = (table.name, other) if word in ("OWNED_BY", "ACCESSED_BY") else (other, table.name)

    def ruled(kind):
        named = [names for rule, name, names in rules if (rule, name) == (kind, column.name) and names]
        return frozenset(position(tables[lower].columns, name) for names in named for name in names)

    strikes = ("DEL", column.name, None) in rules
    return Edge(word, table.name, column.name, lower, upper, word in ("OWNED_BY", "OWNS"), ruled("GET"), ruled("DEL"), strikes)


def run_view(db, create):
    """The view at the end."""
    if create.name in db.tables or create.name in db.views:
        raise Refused(f"taken {create.name}")
    return db._replace(views={**db.views, create.name: create.select}), ["ok"]


def run_control(db, control):
    """EXPLAIN COMPLIANCE tells who owns what; CHECKPOINT changes nothing that a call could tell."""
    lines = graph(db)
    return db, [f"graph {len(lines)}"] + lines if control.word == "EXPLAIN COMPLIANCE" else ["ok"]


RUNS = {Select: run_select, Insert: run_insert, Update: run_update, Delete: run_delete, Get: run_get, Forget: run_forget,
        CreateTable: run_table, CreateView: run_view, Control: run_control}


def graph(db):
    """Of each table what it is to subjects, and under it the edges that its columns hold."""
    lines = []
    for table in db.tables.values():
        kind = "subject" if table.subject else "private" if is_private(db, table.name) else "public"
        lines.append(f"  {table.name} {kind}")
        for column in table.columns:
            lines += [edge_line(db, edge) for edge in db.edges if (edge.holder, edge.column) == (table.name, column.name)]
    return lines


def edge_line(db, edge):
    """An edge, with the columns that it hides and those that it blanks, or that it deletes the row."""
    def names(ruled):
        return "(" + ", ".join(db.tables[edge.lower].columns[at].name for at in sorted(ruled)) + ")"
    other = edge.upper if edge.holder == edge.lower else edge.lower
    line = f"  {edge.holder}.{edge.column} {edge.word} {other}"
    line += f" GET {names(edge.hides)}" if edge.hides else ""
    line += f" DEL {names(edge.blanks)}" if edge.blanks else ""
    return line + (" DEL ROW" if edge.strikes else "")


# ---- whose a row is ----

def is_private(db, table):
    """Owner edges lead out of a private table."""
    return any(edge.owner and edge.lower == table for edge in db.edges)


def steps(db):
    """Each edge with each two rows that it joins, the lower one and the upper one."""
    found = []
    for edge in db.edges:
        other = edge.upper if edge.holder == edge.lower else edge.lower
        at = position(db.tables[edge.holder].columns, edge.column)
        for key, row in db.rows[edge.holder].items():
            holder, named = (edge.holder, key), (other, row[at])
            if row[at] in db.rows[other]:
                found.append((edge, holder, named) if edge.holder == edge.lower else (edge, named, holder))
    return found


def leading(db, among, ends):
    """The rows from which steps of these lead up to one of these subjects, and the subjects.

    Nothing leads on through a subject: where steps come to one, there they end.
    """
    found = set(ends)
    while True:
        more = {lower for _, lower, upper in among if upper in found and (upper in ends or not db.tables[upper[0]].subject)}
        if more <= found:
            return found
        found |= more


def owner_steps(db):
    """The steps on owner edges."""
    return [step for step in steps(db) if step[0].owner]


def subjects(db):
    """The rows of subject tables."""
    return {name for name in names_of(db) if db.tables[name[0]].subject}


def first_edges(db, subject, name):
    """The edges with which ways from a row to a subject begin."""
    reached = leading(db, steps(db), {subject})
    return {edge for edge, lower, upper in steps(db)
            if lower == name and (upper == subject or upper in reached and not db.tables[upper[0]].subject)}


def got(db, subject):
    """The rows that lead to a subject, by table, then key, with what is shown of them."""
    refuse_absent(db, subject)
    reached = leading(db, steps(db), {subject})
    return [got_row(db, subject, name) for name in names_of(db) if name in reached]


def got_row(db, subject, name):
    """The table of a row and what is shown of it: a value is hidden where all edges on which the row leads there hide it.

    Of the subject's own row nothing is hidden.
    """
    table, key = name
    edges = first_edges(db, subject, name)

    def is_hidden(at):
        return name != subject and all(at in edge.hides for edge in edges)

    return [table] + ["HIDDEN" if is_hidden(at) else shown(value) for at, value in enumerate(db.rows[table][key])]


def refuse_absent(db, subject):
    """Refused, where there is no such row."""
    if subject[1] not in db.rows[subject[0]]:
        raise Refused(f"absent {subject[0]} {shown(subject[1])}")


def struck(db, subject):
    """The rows that lead, on an edge which deletes rows, to a row that the subject owns."""
    owned = leading(db, owner_steps(db), {subject})
    return {lower for edge, lower, upper in steps(db) if edge.strikes and upper in owned}


def staying(db, subject):
    """The rows that an erasure leaves: not the subject's own, and of a private table those alone that another subject owns
    on a way on which no row is struck."""
    gone = struck(db, subject)
    ways = [step for step in owner_steps(db) if step[1] not in gone and step[2] not in gone]
    owned = leading(db, ways, subjects(db) - {subject})
    return {name for name in names_of(db) if name != subject and (not is_private(db, name[0]) or name in owned)}


def forgotten(db, subject):
    """What an erasure leaves, the names of the rows that it removes, and of those that it leaves with another value."""
    refuse_absent(db, subject)
    stays = staying(db, subject)
    rows = {table: {key: blanked(db, subject, stays, (table, key)) for key in db.rows[table] if (table, key) in stays}
            for table in db.tables}
    removed = {name for name in names_of(db) if name not in stays}
    changed = {(table, key) for table, key in stays if rows[table][key] != db.rows[table][key]}
    return db._replace(rows=rows), removed, changed


def blanked(db, subject, stays, name):
    """A row that stays: NULL stands where an edge on which it leads to the subject says so, and where it refers to a row
    that doesn't stay."""
    blanks = {at for edge in first_edges(db, subject, name) for at in edge.blanks}

    def lost(at, column, value):
        return at in blanks or column.refers and value in db.rows[column.refers[1]] and (column.refers[1], value) not in stays

    row = zip(db.tables[name[0]].columns, db.rows[name[0]][name[1]])
    return tuple(None if lost(at, column, value) else value for at, (column, value) in enumerate(row))


# ---- what a commit is refused for ----

def cells(db):
    """Each row's columns with their values, by table, key and column."""
    return [(table, key, column, value) for table, key in names_of(db)
            for column, value in zip(db.tables[table].columns, db.rows[table][key])]


def faults(db):
    """What is wrong with the rows as a whole: shared values, then references to nothing, then rows without an owner."""
    for table, key, column, value in cells(db):
        at = position(db.tables[table].columns, column.name)
        if column.unique and value is not None and [row[at] for row in rows_of(db, table)].count(value) > 1:
            yield f"unique {table} {shown(key)} {column.name}"
    for table, key, column, value in cells(db):
        if column.refers and value is not None and value not in db.rows[column.refers[1]]:
            yield f"reference {table} {shown(key)} {column.name}"
    owned = leading(db, owner_steps(db), subjects(db))
    for table, key in names_of(db):
        if is_private(db, table) and (table, key) not in owned:
            yield f"owner {table} {shown(key)}"


def settle(db):
    """Refused, by the first fault of a database that is to be committed."""
    for fault in faults(db):
        raise Refused(fault)


# ---- what a statement holds ----

Held = namedtuple("Held", "table key writes")  # key: None for the whole table


def base_table(db, source):
    """The table that a table is, or on which a view stands."""
    return source if source in db.tables else base_table(db, db.views[source].source)


def footprint(db, statement):
    """What a statement reads or writes, by table, whole tables before keys; nothing, where binding refuses it.

    It is the rows of the keys that an INSERT puts; the row of the first key that a condition on a table asks for; else the
    whole table, be there a row or not.
    """
    if binding_refusal(db, statement):
        return []
    if isinstance(statement, Insert):
        key = db.tables[statement.table].key
        return [Held(statement.table, value, True) for value in sorted({row[key] for row in statement.tuples}, key=rank)]
    source = statement.source if isinstance(statement, Select) else statement.table
    table = db.tables[base_table(db, source)]
    key = table.columns[table.key].name
    asked = [value for name, value in statement.where if source == table.name and name == key and value is not None]
    return [Held(table.name, asked[0] if asked else None, isinstance(statement, WRITES))]


def overlap(one, other):
    """Whether two items may be the same row, which one of them writes."""
    return one.table == other.table and (one.writes or other.writes) and (one.key is None or other.key is None or one.key == other.key)


def lies_on(name, held):
    """Whether a row is one of those that are held."""
    return name[0] == held.table and held.key in (None, name[1])


# ---- histories ----

Stated = namedtuple("Stated", "statement lines")
Open = namedtuple("Open", "block")  # what its statements were, and what they were answered
Doomed = namedtuple("Doomed", "place")


class History:
    """The calls of all sessions so far: the database that they left, how each session stands, and the next place.

    A session that isn't among the standing stands outside of any transaction.
    """

    def __init__(self, db=EMPTY):
        self.db = db
        self.standing = {}
        self.place = 0

    def answer(self, session, text):
        """The lines that a session's next call is answered, at the next place."""
        place, self.place = self.place, self.place + 1
        stands = self.standing.get(session)
        if isinstance(stands, Doomed):
            del self.standing[session]
            return [f"refused doomed {stands.place}"]
        if text is END:
            self.standing.pop(session, None)
            return ["end"]
        try:
            if stands:
                return self.inside(session, read(text))
            return self.outside(session, read(text), place)
        except Refused as why:
            return [f"refused {why}"]

    def inside(self, session, statement):
        """A call in a transaction."""
        if isinstance(statement, (Select, *WRITES)):
            return self.stated(session, statement)
        if statement not in (Control("COMMIT"), Control("ROLLBACK")):
            raise Refused("inside")
        block = self.standing.pop(session).block
        if statement == Control("COMMIT"):
            self.check_serial(session, block)
            left = left_by(self.db, [stated.statement for stated in block])
            settle(left)
            self.db = left
        return ["ok"]

    def stated(self, session, statement):
        """A statement in a transaction: it is answered as if all those before it were run now, and it after them.

        It is one of the transaction's from here on, also where it is refused, but not where another holds its rows.
        """
        self.refuse_held(session, statement)
        block = self.standing[session].block
        lines = reply(left_by(self.db, [before.statement for before in block]), statement)
        block.append(Stated(statement, lines))
        return lines

    def outside(self, session, statement, place):
        """A call outside of any transaction. One that writes is a transaction by itself."""
        if statement == Control("BEGIN"):
            self.standing[session] = Open([])
            return ["ok"]
        if statement in (Control("COMMIT"), Control("ROLLBACK")):
            raise Refused("outside")
        if isinstance(statement, (CreateTable, CreateView)):
            self.refuse_busy(session)
        if isinstance(statement, WRITES):
            self.refuse_held(session, statement)
        left, lines = run(self.db, statement)
        if isinstance(statement, Forget):
            self.doom((statement.table, statement.key), place)
        elif left is not self.db:
            settle(left)
        self.db = left
        return lines

    def held(self, session):
        """What a session holds: all that its transaction's statements read or write."""
        stands = self.standing.get(session)
        if not isinstance(stands, Open):
            return []
        return [item for stated in stands.block for item in footprint(self.db, stated.statement)]

    def refuse_held(self, session, statement):
        """Refused, where another session is in the way: the lowest such, by the statement's first item of which it is so."""
        for other in sorted(self.standing):
            for item in footprint(self.db, statement):
                if other != session and any(overlap(item, held) for held in self.held(other)):
                    raise Refused(f"conflict {other} {item.table} {'*' if item.key is None else shown(item.key)}")

    def refuse_busy(self, session):
        """Refused, where another session is in a transaction: the lowest such."""
        for other in sorted(self.standing):
            if other != session and isinstance(self.standing[other], Open):
                raise Refused(f"busy {other}")

    def doom(self, subject, place):
        """An erasure ends each transaction that holds a row which it removes or changes."""
        _, removed, changed = forgotten(self.db, subject)
        for session in list(self.standing):
            if any(lies_on(name, item) for name in removed | changed for item in self.held(session)):
                self.standing[session] = Doomed(place)

    def check_serial(self, session, block):
        """A transaction run whole, all at once, gives at its end what its statements were answered on their way."""
        db = self.db
        for stated in block:
            if reply(db, stated.statement) != stated.lines:
                raise NotSerial(f"session {session}: {stated.statement} was answered {stated.lines}, which isn't so at its COMMIT")
            db = left_by(db, [stated.statement])
