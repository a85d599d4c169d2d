"""The cases of tests/rows that the model of tests/histories can be held against.

Their replies are worked out by hand. They are those of one run of mode step over a store in memory, of which the model
can read all calls, no CREATE is refused for what it says, and none is refused for its text or a limit: of these the
model doesn't judge.
"""
import pathlib

import texts

FOLDER = pathlib.Path(__file__).parent.parent / "rows"
NOT_JUDGED = ("refused syntax", "refused limit", "refused big", "disk", "down", "memory")
OF_ANY_CREATE = ("ok", "refused inside", "refused doomed", "refused busy")


def cases():
    """The names of the cases of one plain run, with their inputs and outputs."""
    for case in sorted(FOLDER.iterdir()):
        files = {path.name for path in case.iterdir()}
        if files <= {"words", "input", "output"} and (case / "words").read_text() == "-\nstep\n":
            yield case.name, (case / "input").read_bytes() if "input" in files else b"", (case / "output").read_text() if "output" in files else ""


def calls_by_session(script):
    calls = {}
    for session, text in texts.calls_of(script.decode()):
        calls.setdefault(session, []).append(text)
    return calls


def refuse_unjudged(text, reply):
    """Unknown, where a call's reply is one of those that the model doesn't judge."""
    if reply.startswith(NOT_JUDGED) or text.upper().startswith("CREATE") and not reply.startswith(OF_ANY_CREATE):
        raise texts.Unknown(f"the model doesn't judge {reply!r}")
