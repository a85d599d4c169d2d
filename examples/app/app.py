#!/usr/bin/env python3
"""A small web application over a store: people sign up, post, write to each other, see what is held about them, and leave.

    examples/app/app.py FOLDER [PORT [COMMAND ..]]

The store lies in FOLDER, which has to be there. It is started by ./subjectdb FOLDER shell --json, or by COMMAND FOLDER --json where a
command is given: that of the shell's own program. PORT is that of 127.0.0.1, and 0 takes a free one; the first line of the output tells the address. It shows how an
application uses a store, and is no model of how people are to be signed in.
"""
import hashlib
import html
import http.cookies
import http.server
import json
import os
import secrets
import sys
import time
import urllib.parse

sys.dont_write_bytecode = True
sys.path.insert(0, os.path.dirname(os.path.realpath(__file__)))
from store import HIDDEN, Ended, Refused, Store

TOP = os.path.dirname(os.path.dirname(os.path.dirname(os.path.realpath(__file__))))
SCHEMA = (
    "CREATE DATA_SUBJECT TABLE users (id INT PRIMARY KEY, name TEXT NOT NULL UNIQUE, token TEXT UNIQUE)",
    "CREATE TABLE posts (id INT PRIMARY KEY, author INT OWNED_BY users(id), body TEXT NOT NULL)",
    "CREATE TABLE messages (id INT PRIMARY KEY, sender INT OWNED_BY users(id), receiver INT OWNED_BY users(id), body TEXT NOT NULL)",
)
PAGE = """<!doctype html><meta charset="utf-8"><title>subjectdb: an example</title>
<body style="max-width: 40em; margin: 2em auto; font-family: sans-serif">{}</body>"""
SIGN_UP = """<h1>Sign up</h1><form method="post" action="/signup"><input name="name" required> <button>Sign up</button></form>"""
HOME = """<h1>{name}</h1>
<form method="post" action="/post"><input name="body" required> <button>Post</button></form>
<form method="post" action="/message">to <input name="to" required> <input name="body" required> <button>Send</button></form>
<h2>Posts</h2><ul>{posts}</ul><h2>Messages</h2><ul>{messages}</ul>
<form method="post" action="/forget"><a href="/me">Show me my data</a> <button>Delete me</button></form>"""


def new_id():
    return secrets.randbits(62)


def digest(token):
    return hashlib.sha256(token.encode()).hexdigest()


def opened(command):
    """The store, with its tables. A store that another process still has open is tried again for some seconds."""
    for _ in range(100):
        store = Store(command)
        try:
            for create in SCHEMA:
                try:
                    store.call(create)
                except Refused as refused:
                    if refused.name != "taken":
                        raise
            return store
        except Ended:
            store.close()
            time.sleep(0.1)
    sys.exit("the store can't be opened")


def home(store, user):
    item = "<li><b>{}</b>: {}</li>".format
    posts = store.rows("SELECT name, body FROM posts JOIN users ON author = users.id ORDER BY body")
    messages = store.rows("SELECT name, body FROM messages JOIN users ON sender = users.id WHERE receiver = ?", user["id"])
    shown = [[item(html.escape(row["name"]), html.escape(row["body"])) for row in rows] for rows in (posts, messages)]
    return PAGE.format(HOME.format(name=html.escape(user["name"]), posts="".join(shown[0]), messages="".join(shown[1])))


class Handler(http.server.BaseHTTPRequestHandler):
    store = None

    def log_message(self, *_):
        pass

    def user(self):
        """Who asks: the user whose token the cookie is, or None."""
        token = http.cookies.SimpleCookie(self.headers.get("Cookie", "")).get("token")
        found = token and self.store.rows("SELECT id, name FROM users WHERE token = ?", digest(token.value))
        return found[0] if found else None

    def form(self):
        size = min(int(self.headers.get("Content-Length") or 0), 65536)
        return {name: values[0] for name, values in urllib.parse.parse_qs(self.rfile.read(size).decode("utf-8", "replace")).items()}

    def answer(self, status, text, kind="text/html", **headers):
        body = text.encode()
        self.send_response(status)
        for name, value in {"Content-Type": f"{kind}; charset=utf-8", "Content-Length": str(len(body)), **headers}.items():
            self.send_header(name.replace("_", "-"), value)
        self.end_headers()
        self.wfile.write(body)

    def guarded(self, done):
        """A refusal is an answer too."""
        try:
            done()
        except Refused as refused:
            self.answer(409, PAGE.format(html.escape(str(refused))))
        except Ended as ended:
            self.answer(503, PAGE.format(html.escape(str(ended))))

    def do_GET(self):
        self.guarded(self.show)

    def do_POST(self):
        self.guarded(self.change)

    def show(self):
        user = self.user()
        if self.path == "/me" and user:
            held = [{"table": table, "row": {name: "hidden" if value is HIDDEN else value for name, value in row.items()}}
                    for table, row in self.store.get("users", user["id"])]
            self.answer(200, json.dumps(held, ensure_ascii=False, indent=1), "application/json")
        elif self.path == "/":
            self.answer(200, home(self.store, user) if user else PAGE.format(SIGN_UP))
        else:
            self.answer(404, PAGE.format("There is no such page."))

    def change(self):
        user, form = self.user(), self.form()
        if self.path == "/signup":
            token = secrets.token_urlsafe(24)
            self.store.call("INSERT INTO users VALUES (?, ?, ?)", new_id(), form.get("name", ""), digest(token))
            self.answer(303, "", Location="/", Set_Cookie=f"token={token}; HttpOnly; SameSite=Strict; Path=/")
            return
        if not user:
            self.answer(403, PAGE.format("Sign up first."))
            return
        if self.path == "/post":
            self.store.call("INSERT INTO posts VALUES (?, ?, ?)", new_id(), user["id"], form.get("body", ""))
        elif self.path == "/message":
            to = self.store.rows("SELECT id FROM users WHERE name = ?", form.get("to", ""))
            if not to:
                self.answer(404, PAGE.format("There is nobody of this name."))
                return
            self.store.call("INSERT INTO messages VALUES (?, ?, ?, ?)", new_id(), user["id"], to[0]["id"], form.get("body", ""))
        elif self.path == "/forget":
            self.store.call("GDPR FORGET users ?", user["id"])
        else:
            self.answer(404, PAGE.format("There is no such page."))
            return
        self.answer(303, "", Location="/")


def main(words):
    if not 1 <= len(words) or words[0] == "--help":
        sys.exit(__doc__)
    folder, port, *command = [*words, "8000"][:2] + words[2:]
    Handler.store = opened([*(command or [f"{TOP}/subjectdb"]), folder, *([] if command else ["shell"]), "--json"])
    server = http.server.ThreadingHTTPServer(("127.0.0.1", int(port)), Handler)
    print(f"http://127.0.0.1:{server.server_address[1]}/", flush=True)
    try:
        server.serve_forever()
    finally:
        Handler.store.close()


if __name__ == "__main__":
    main(sys.argv[1:])
