"""The statements of calls' texts, as tests/histories/model.py asks for them.

It reads what tests/histories/try writes and not much more: conditions are equations joined by AND, without brackets,
and a reference stands behind its column. Of any other text it says that it is `Unknown`.
"""
import re
from collections import namedtuple


class Unknown(ValueError):
    """The model doesn't know such a call."""


Column = namedtuple("Column", "name kind not_null unique refers")  # refers: None, or the word and the table
Table = namedtuple("Table", "name subject key columns")  # key: the position of the primary key

# Statements. Where: the columns and the values that they have to equal. Items: None for all columns, else what each
# is ("column", "count" or "sum"), of which column, and its name. Sets: a column, and a Value, a Copy or a Sum.
CreateTable = namedtuple("CreateTable", "table rules")
CreateView = namedtuple("CreateView", "name select")
Select = namedtuple("Select", "items source where group order")
Insert = namedtuple("Insert", "table tuples")
Update = namedtuple("Update", "table sets where")
Delete = namedtuple("Delete", "table where")
Get = namedtuple("Get", "table key")
Forget = namedtuple("Forget", "table key")
Control = namedtuple("Control", "word")
Value = namedtuple("Value", "value")
Copy = namedtuple("Copy", "column")
Sum = namedtuple("Sum", "column number")
Item = namedtuple("Item", "what column name")

CONTROLS = ("BEGIN", "COMMIT", "ROLLBACK", "CHECKPOINT", "EXPLAIN COMPLIANCE")
REFERENCES = ("REFERENCES", "OWNED_BY", "OWNS", "ACCESSED_BY", "ACCESSES")


class Reader:
    """The words, numbers, quoted texts and marks of a call, from first to last."""

    def __init__(self, text):
        self.text = text
        self.left = re.findall(r"'(?:[^']|'')*'|\w+|\S", text)

    def takes(self, *words):
        """Whether these words come next; then they are taken."""
        if [found.upper() for found in self.left[:len(words)]] != list(words):
            return False
        del self.left[:len(words)]
        return True

    def wants(self, *words):
        """These words come next, and are taken; else the text is Unknown."""
        if not self.takes(*words):
            raise Unknown(f"the model can't read {self.text!r}")

    def name(self):
        """The name that comes next, in lower case."""
        if not self.left or not re.fullmatch(r"[A-Za-z_]\w*", self.left[0]):
            raise Unknown(f"the model can't read {self.text!r}")
        return self.left.pop(0).lower()

    def number(self):
        """The number that comes next, with its sign."""
        sign = -1 if self.takes("-") else 1
        if not self.left or not self.left[0].isdigit():
            raise Unknown(f"the model can't read {self.text!r}")
        return sign * int(self.left.pop(0))

    def literal(self):
        """The value that comes next."""
        if self.takes("NULL"):
            return None
        if self.left and self.left[0].startswith("'"):
            return self.left.pop(0)[1:-1].replace("''", "'")
        return self.number()

    def listed(self, read):
        """What is read once, and once more after each comma."""
        found = [read()]
        while self.takes(","):
            found.append(read())
        return found

    def bracketed(self, read):
        """A list in brackets."""
        self.wants("(")
        found = self.listed(read)
        self.wants(")")
        return found


def read(text):
    """The statement of a call's text."""
    reader = Reader(text)
    statement = read_statement(reader)
    reader.wants(";")
    if reader.left:
        raise Unknown(f"the model can't read {text!r}")
    return statement


def read_statement(reader):
    """A statement, by its first words."""
    for word in CONTROLS:
        if reader.takes(*word.split()):
            return Control(word)
    if reader.takes("CREATE", "VIEW"):
        name = reader.name()
        reader.wants("AS", "SELECT")
        return CreateView(name, read_select(reader))
    if reader.takes("CREATE"):
        return read_table(reader)
    if reader.takes("SELECT"):
        return read_select(reader)
    if reader.takes("INSERT", "INTO"):
        table = reader.name()
        reader.wants("VALUES")
        return Insert(table, reader.listed(lambda: reader.bracketed(reader.literal)))
    if reader.takes("UPDATE"):
        table = reader.name()
        reader.wants("SET")
        return Update(table, reader.listed(lambda: read_set(reader)), read_where(reader))
    if reader.takes("DELETE", "FROM"):
        return Delete(reader.name(), read_where(reader))
    reader.wants("GDPR")
    kind = Get if reader.takes("GET") else Forget
    if kind is Forget:
        reader.wants("FORGET")
    return kind(reader.name(), reader.literal())


def read_select(reader):
    """What stands behind the word SELECT."""
    items = None if reader.takes("*") else reader.listed(lambda: read_item(reader))
    reader.wants("FROM")
    source = reader.name()
    where = read_where(reader)
    group = reader.name() if reader.takes("GROUP", "BY") else None
    order = (reader.name(), reader.takes("DESC")) if reader.takes("ORDER", "BY") else None
    return Select(items, source, where, group, order)


def read_item(reader):
    """An item of a SELECT, with its name."""
    if reader.takes("COUNT", "(", "*", ")"):
        what, column, name = "count", None, "count"
    elif reader.takes("SUM", "("):
        what, column, name = "sum", reader.name(), "sum"
        reader.wants(")")
    else:
        what, column = "column", reader.name()
        name = column
    return Item(what, column, reader.name() if reader.takes("AS") else name)


def read_where(reader):
    """The columns and values of a condition of equations that are joined by AND; none without one."""
    def equation():
        column = reader.name()
        reader.wants("=")
        return column, reader.literal()
    equations = []
    if reader.takes("WHERE"):
        equations.append(equation())
        while reader.takes("AND"):
            equations.append(equation())
    return equations


def read_set(reader):
    """A column, and what it is set to: a value, another column's, or that with a number added."""
    column = reader.name()
    reader.wants("=")
    if reader.takes("NULL"):
        return column, Value(None)
    if not reader.left or not re.match(r"[A-Za-z_]", reader.left[0]):
        return column, Value(reader.literal())
    other = reader.name()
    if reader.takes("+"):
        return column, Sum(other, reader.number())
    return column, Sum(other, -reader.number()) if reader.takes("-") else Copy(other)


def read_table(reader):
    """A CREATE TABLE, with its rules: the word GET or DEL, the column, and the names, or None for the row."""
    subject = reader.takes("DATA_SUBJECT")
    reader.wants("TABLE")
    name, keys, columns, rules = reader.name(), [], [], []

    def part():
        if reader.takes("ON"):
            rules.append(read_rule(reader))
        else:
            columns.append(read_column(reader, keys))

    reader.bracketed(part)
    if len(keys) != 1:
        raise Unknown(f"the model knows no table without one primary key: {reader.text!r}")
    position = [column.name for column in columns].index(keys[0])
    return CreateTable(Table(name, subject, position, columns), rules)


def read_reference(reader):
    """A reference of a column: its word and its table. The column that is named there is that table's primary key."""
    for word in REFERENCES:
        if reader.takes(word):
            table = reader.name()
            reader.bracketed(reader.name)
            return word, table
    raise Unknown(f"the model can't read {reader.text!r}")


def read_rule(reader):
    """A rule of a CREATE TABLE, behind the word ON."""
    word = "GET" if reader.takes("GET") else "DEL"
    if word == "DEL":
        reader.wants("DEL")
    column = reader.name()
    if reader.takes("DELETE_ROW"):
        return word, column, None
    reader.wants("ANON")
    return word, column, reader.bracketed(reader.name)


def read_column(reader, keys):
    """A column of a CREATE TABLE; where it is the primary key its name is put to the keys."""
    name = reader.name()
    kind = "INT" if reader.takes("INT") else "TEXT"
    if kind == "TEXT":
        reader.wants("TEXT")
    not_null = unique = False
    refers = None
    while reader.left[0] not in (",", ")"):
        if reader.takes("PRIMARY", "KEY"):
            keys.append(name)
            not_null = True
        elif reader.takes("NOT", "NULL"):
            not_null = True
        elif reader.takes("UNIQUE"):
            unique = True
        else:
            refers = read_reference(reader)
    return Column(name, kind, not_null, unique, refers)


def calls_of(script):
    """The calls of a script, each with its session."""
    calls, session, piece = [], 1, ""
    for found in re.finditer(r"'(?:[^']|'')*'|--[^\n]*|;|[^';-]+|.", script):
        part, begins = found.group(), found.start() == 0 or script[found.start() - 1] == "\n"
        if begins and part.startswith("-- session ") and not piece.strip():
            session = int(part.split()[2])
        elif part.startswith("--"):
            piece += " "
        elif part == ";" and piece.strip():
            calls.append((session, piece.strip() + ";"))
            piece = ""
        elif part != ";":
            piece += part
    if piece.strip():
        raise Unknown("the model knows no call that isn't closed")
    return calls
