"""One history of the sessions of tests/histories/try, and what would be told of it by a program that does wrong.

The history begins on the narrow sort's rows. Two sessions write one account, one of them in a transaction; a third then
erases user 2, whose posts 1 and 5 a fourth has read and not yet committed. Each wrong answer alters the replies of one
or two calls; a call is named by its session and its number there. A judge has to refuse each.
"""
SETUP = 16  # the session that makes the calls before

HISTORY = [
    (1, "BEGIN;"),
    (1, "UPDATE account SET amount = amount + 5 WHERE id = 1;"),
    (2, "SELECT * FROM account WHERE id = 1;"),
    (2, "UPDATE account SET amount = amount + 3 WHERE id = 1;"),
    (1, "COMMIT;"),
    (2, "UPDATE account SET amount = amount + 3 WHERE id = 1;"),
    (3, "SELECT * FROM account WHERE id = 1;"),
    (4, "BEGIN;"),
    (4, "SELECT * FROM posts WHERE author = 2 ORDER BY id;"),
    (3, "GDPR FORGET users 2;"),
    (3, "SELECT * FROM posts WHERE author = 2 ORDER BY id;"),
    (3, "SELECT * FROM liked;"),
    (3, "GDPR GET users 3;"),
    (4, "COMMIT;"),
    (4, "INSERT INTO posts VALUES (7, 2, 0);"),
]


def answered(call, reply, *rows):
    """The replies, but for one call, which is answered so."""
    def alter(told):
        return [one._replace(reply=reply, rows=list(rows)) if one.call == call else one for one in told]
    return alter


def exchanged(call, other):
    """The replies with the places of two calls exchanged."""
    def alter(told):
        places = {one.call: one.place for one in told}
        places[call], places[other] = places[other], places[call]
        return [one._replace(place=places[one.call]) for one in told]
    return alter


def left_out(call):
    """The replies without that of a call, with the places behind it one lower."""
    def alter(told):
        gone = next(one.place for one in told if one.call == call)
        return [one._replace(place=one.place - (one.place > gone)) for one in told if one.call != call]
    return alter


def told_twice(told):
    """The replies with the last place told of the call before it too."""
    last = max(one.place for one in told)
    return [one._replace(place=last) if one.place == last - 1 else one for one in told]


WRONG = {
    "an update that is lost": answered((3, 1), "rows 1", "  1|103"),
    "an update that is made twice": answered((3, 1), "rows 1", "  1|111"),
    "a look at what isn't committed": answered((2, 1), "rows 1", "  1|105"),
    "two who write one row at once": answered((2, 2), "ok 1"),
    "a conflict with nobody": answered((2, 3), "refused conflict 1 account 1"),
    "a write before the commit that it came after": exchanged((1, 3), (2, 3)),
    "a look before the write that it shows": exchanged((2, 3), (3, 1)),
    "a session's calls out of their order": exchanged((3, 3), (3, 4)),
    "an erased row shown again": answered((3, 3), "rows 1", "  1|2|0"),
    "an erased row counted in a view": answered((3, 4), "rows 4", "  1|1|0", "  2|2|0", "  3|2|0", "  4|1|0"),
    "an erasure that leaves a row": answered((3, 2), "forgot 2 removed 1 changed"),
    "an erasure that ends no transaction": answered((4, 3), "ok"),
    "a transaction ended at a wrong place": answered((4, 3), "refused doomed 1"),
    "a row that refers to an erased one": answered((4, 4), "ok 1"),
    "a GET that leaves out a row": answered((3, 5), "got 2", "  users|3|'user 3'", "  posts|2|3|0"),
    "a call that isn't told": left_out((3, 1)),
    "a place of two calls": told_twice,
}
