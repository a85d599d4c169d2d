"""The examples that stand in the pages, for the cases of tests/rows that run them.

A page shows an example in one of two forms:

- calls in blocks fenced as ```sql, and the lines of their replies in indented blocks, each from the
  first line on that begins as a reply does (a place, and a session with a call);
- calls in indented blocks, one a line, each with what it is answered beside it, two spaces or more
  away, and without the place and the call. A session line stands by itself. Only the first line of
  a reply is shown so, so this form is for replies of one line.

All paths are those of the repository's top. A heading names the part of a page that is meant, up to
the next heading of its level; without one all of the page is.
"""
import pathlib
import re
import sys

TOP = pathlib.Path(__file__).resolve().parents[1]
FIRST = re.compile(r"(?:[0-9]+|-) [0-9]+\.[0-9]+ ")
BESIDE = re.compile(r"(\S.*?;) {2,}(\S.*)")
SESSION = re.compile(r"-- session ([0-9]+)")


def lines_of(page, heading):
    """The lines of the page, or of its part under the heading."""
    lines = (TOP / page).read_text(encoding="utf-8").split("\n")
    if heading is None:
        return lines
    first = [number for number, line in enumerate(lines) if re.fullmatch("#+ " + re.escape(heading), line)]
    if len(first) != 1:
        sys.exit(f"{page} has {len(first)} headings '{heading}'")
    level = lines[first[0]].split(" ")[0]
    part, fenced = [], False
    for line in lines[first[0] + 1:]:
        fenced = fenced != line.startswith("```")
        if not fenced and re.match(r"#+ ", line) and len(line.split(" ")[0]) <= len(level):
            break
        part.append(line)
    return part


def blocks(page, heading):
    """The blocks of code: of each its word (None where it is indented) and its lines."""
    found, word, block = [], None, None
    for line in lines_of(page, heading):
        if word is not None:
            if line == "```":
                word = None
            else:
                found[-1][1].append(line)
        elif line.startswith("```"):
            word, block = line[3:], None
            found.append((word, []))
        elif line.startswith("    "):
            if block is None:
                block = []
                found.append((None, block))
            block.append(line[4:])
        else:
            block = None
    return found


def script(page, heading=None):
    """The calls of the ```sql blocks."""
    return "".join(line + "\n" for word, block in blocks(page, heading) if word == "sql" for line in block)


def replies(page, heading=None):
    """The lines of the replies in the indented blocks."""
    told = ""
    for word, block in blocks(page, heading):
        begun = False
        for line in block if word is None else []:
            begun = begun or FIRST.match(line) is not None
            told += line + "\n" if begun else ""
    return told


def beside(page, heading=None):
    """The script of the second form, and the lines of its replies, the Ends' among them."""
    calls, told, session, made, place = "", "", 1, {}, 0
    for word, block in blocks(page, heading):
        for line in block if word is None else []:
            found, line_of = BESIDE.fullmatch(line), SESSION.fullmatch(line)
            if line_of:
                session = int(line_of[1])
                calls += line + "\n"
            elif found:
                made[session] = made.get(session, 0) + 1
                calls += found[1] + "\n"
                told += f"{place} {session}.{made[session]} {found[2]}\n"
                place += 1
    for session in sorted(made):
        told += f"{place} {session}.{made[session] + 1} end\n"
        place += 1
    return calls, told


def by_place(page, heading):
    """Of sessions that are served side by side, by the last script and the last replies: the calls in the order of their places,
    and the replies in that order. The Ends have to have the last places, by session."""
    calls, session, told = {}, 1, []
    for line in [block for word, block in blocks(page, heading) if word == "sql"][-1]:
        if SESSION.fullmatch(line):
            session = int(SESSION.fullmatch(line)[1])
        else:
            calls.setdefault(session, []).append(line)
    for line in [block for word, block in blocks(page, heading) if word is None and FIRST.match(block[0])][-1]:
        if FIRST.match(line):
            told.append((line, []))
        else:
            told[-1][1].append(line)
    told.sort(key=lambda reply: int(reply[0].split(" ")[0]))
    script = ""
    for first, _ in told:
        session, number = map(int, first.split(" ")[1].split("."))
        if number <= len(calls[session]):
            script += f"-- session {session}\n{calls[session][number - 1]}\n"
    return script, "".join("\n".join([first, *rows]) + "\n" for first, rows in told)


def write(text):
    """To standard output, as UTF-8."""
    sys.stdout.buffer.write(text.encode())
