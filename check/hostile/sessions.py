"""A client that opens all upload sessions that it can."""
import sqlite3
import subprocess

from check.hostile.said import say
from check.hostile.server import Server, answer
from check.hostile.writes import AT, ORDERS, WRITES, order, request
from tools.shared import digest

TOO_MANY = 429, b'{"errors":[{"code":"TOOMANYREQUESTS","message":"too many uploads"}]}'


def open_sessions(room):
    db = f"{room}/open.db"
    for words in (ORDERS[0], WRITES[2][1], ORDERS[2], WRITES[4][1]):
        subprocess.run(words(db), check=True)
    open_at = lambda name: request("POST", f"/v2/{name}/blobs/uploads/")
    server = Server(db)
    with server.connect() as connection:

        def ask(text):
            status, fields, body = answer(connection, text)
            return (status, fields["location"]) if "location" in fields else (status, body)

        opened = [ask(open_at("team/app")) for _ in range(1000)]
        say(opened == [(202, f"{AT}/blobs/uploads/{n}") for n in range(1, 1001)], "1,000 sessions are opened")
        say(ask(open_at("team/app")) == TOO_MANY, "the next is refused")
        say(ask(open_at("team/lib")) == (202, "/v2/team/lib/blobs/uploads/1"), "one of another repository is opened")
        closed = request("PUT", f"{AT}/blobs/uploads/7?digest={digest(b'')}")
        say(ask(closed) == (201, f"{AT}/blobs/{digest(b'')}"), "one of them is closed")
        say(ask(open_at("team/app")) == (202, f"{AT}/blobs/uploads/1001"), "in its place another is opened")
        say(ask(open_at("team/app")) == TOO_MANY, "and no further one")
    server.kill()
    # the log of a server that was killed is read by the next opening alone
    subprocess.run(order("usage")(db), check=True, stdout=subprocess.DEVNULL)
    con = sqlite3.connect(db)
    con.execute("UPDATE registry_repos SET last_session = 9223372036854775807 WHERE name = 'team/lib'")
    con.commit()
    con.close()
    server = Server(db)
    with server.connect() as connection:
        status, _, body = answer(connection, open_at("team/lib"))
        say((status, body) == TOO_MANY, "where the numbers are used up no session is opened")
    server.kill()
