"""Older copies of a database beside a newer file of contents, in each order of push, delete, clear and
restart between the copy and the opening."""
import itertools
import os
import random
import shutil
import sqlite3
import subprocess
import tempfile

from tools.shared import REGISTRY, digest
from check.hostile.said import SECONDS, say
from check.hostile.server import Server, answer
from check.hostile.worlds import copied, world
from check.hostile.writes import LAYOUTS, order, request

KINDS = "push", "delete", "clear", "restart"
# all orders of up to three of these, each as often as may be, and of all four
ORDERS = [it for length in (1, 2, 3) for it in itertools.product(KINDS, repeat=length)]
ORDERS += itertools.permutations(KINDS)
TEAMS = {"t1": "team/app", "t2": "team/lib"}
SIZES = 100, 5_000, 5_000, 70_000
NEWER = "its file of contents is newer than the database, an older copy"


def asked(method, token, path, body=b""):
    text = request(method, f"/v2/{TEAMS[token]}/blobs/{path}", body)
    return text.replace(b"Bearer t1\r\n", b"Bearer %s\r\n" % token.encode())


class Registry:
    """A registry beside, the server over it, and what each team has pushed and not deleted."""

    def __init__(self, db, held):
        self.db, self.held, self.bad = db, {token: dict(blobs) for token, blobs in held.items()}, []
        self.drawn = random.Random(db)
        self.start()

    def start(self):
        self.server = Server(self.db, "--orders", f"{self.db}.orders", stderr=subprocess.DEVNULL)

    def ask(self, wanted, *words):
        with self.server.connect() as connection:
            reply = answer(connection, asked(*words))
        if reply is None or reply[0] != wanted:
            self.bad.append(f"{words[0]} {words[2][:30]}: {reply and reply[0]}")
        return reply

    def push(self):
        """Of each team as many as it may have deleted, of the same lengths."""
        for token, blobs in self.held.items():
            for size in SIZES:
                body = self.drawn.randbytes(size)
                self.ask(201, "POST", token, f"uploads/?digest={digest(body)}", body)
                blobs[digest(body)] = body

    def delete(self):
        """Half of what each team has, of which the other one holds none."""
        for token, blobs in self.held.items():
            for name in sorted(blobs)[::2]:
                self.ask(202, "DELETE", token, name)
                del blobs[name]

    def clear(self):
        words = [REGISTRY, "clear", "--orders", f"{self.db}.orders"]
        ran = subprocess.run(words, capture_output=True, timeout=SECONDS)
        if ran.returncode:
            self.bad.append(f"clear: {ran}")

    def restart(self):
        self.server.kill()
        self.start()

    def end(self):
        """Stops the server; what was wrong, and whether the files hold what was pushed."""
        self.server.kill()
        found = {name: repo["blobs"] for name, repo in world(self.db)[0].items()}
        if found != {TEAMS[token]: blobs for token, blobs in self.held.items()}:
            self.bad.append("the files hold something else")
        return self.bad

    def shows(self, others):
        """What is wrong with what each team is answered: its own bytes, and nothing of what is not there."""
        for token, blobs in self.held.items():
            for name, body in blobs.items():
                if self.ask(200, "GET", token, name)[2] != body:
                    self.bad.append(f"{token} {name[:20]}: other bytes")
            for name in others[token].keys() - blobs.keys():
                self.ask(404, "GET", token, name)


def rows_of(db, to):
    """The database with its log, without the file of contents."""
    for end in ("", "-wal"):
        if os.path.exists(to + end):
            os.remove(to + end)
        if os.path.exists(db + end):
            shutil.copyfile(db + end, to + end)
    return to


def dumped(db):
    """All rows of a database."""
    with tempfile.TemporaryDirectory() as room:
        con = sqlite3.connect(rows_of(db, f"{room}/read.db"))
        found = list(con.iterdump())
        con.close()
    return found


def is_refused(db):
    """Whether the registry is refused as one whose file of contents is newer; None where it is neither
    refused so nor opened."""
    ran = subprocess.run([REGISTRY, "usage", "--db", db], capture_output=True, text=True, timeout=SECONDS)
    said = f"registry: storage failure\nregistry: {db}: {NEWER}\n"
    if (ran.returncode, ran.stdout, ran.stderr) == (3, "", said):
        return True
    return False if ran.returncode == 0 else None


def begun(db):
    """A registry of two teams that hold something, and from which something was deleted."""
    for token, name in TEAMS.items():
        for words in (
            order("repo", *LAYOUTS["beside"], "--name", name, "--quota", "1000000000"),
            order("grant", "--token", token, "--name", name, "--level", "3"),
        ):
            subprocess.run(words(db), check=True)
    registry = Registry(db, {token: {} for token in TEAMS})
    for act in (registry.push, registry.push, registry.delete):
        act()
    return registry.end(), registry.held


def done(db, held, kinds):
    """What the teams hold after these acts, and what was wrong."""
    registry = Registry(db, held)
    for it in kinds:
        getattr(registry, it)()
    return registry.end(), registry.held


def opened(db, held, others, kinds):
    """The older copy where it is opened: what is served is what was there when it was taken. The newer rows
    are refused in turn once it has cleared; else they are as they were, whatever was pushed to the older."""
    newer, bad = rows_of(db, f"{db}-newer"), []
    rows_of(f"{db}-older", db)
    registry = Registry(db, held)
    registry.shows(others)
    for it in kinds:
        getattr(registry, it)()
    registry.shows(others)
    bad += registry.end()
    rows_of(newer, db)
    if is_refused(db) != ("clear" in kinds):
        bad.append(f"the newer rows, after {kinds} over the older: refused is {is_refused(db)}")
    elif "clear" not in kinds:
        back = Registry(db, others)
        back.shows(registry.held)
        bad += back.end()
    return bad


def after(room, base, held, number, kinds):
    """What is wrong where a database is put back that was copied before these acts; whether it is refused."""
    db = copied(base, f"{room}/copy-{number}.db")
    rows_of(db, f"{db}-older")
    bad, newest = done(db, held, kinds)
    rows_of(db, f"{db}-newest")
    rows_of(f"{db}-older", db)
    refused = is_refused(db)
    if refused is None or refused != ("clear" in kinds):
        return [*bad, f"refused is {refused}"], refused
    if refused:
        # nothing of either file has changed: with its own rows the newest is as it was
        if dumped(db) != dumped(base) or not is_refused(db):
            bad.append("the older copy has changed")
        rows_of(f"{db}-newest", db)
        back = Registry(db, newest)
        back.shows(held)
        bad += back.end()
    else:
        rows_of(f"{db}-newest", db)
        bad += opened(db, held, newest, ORDERS[number % len(ORDERS)])
    return bad, refused


def put_back_older(room):
    os.mkdir(f"{room}/older")
    base = f"{room}/older/base.db"
    bad, held = begun(base)
    say(not bad, "two teams push to a registry beside, and delete", bad)
    counts, wrong = {True: 0, False: 0, None: 0}, []
    for number, kinds in enumerate(ORDERS):
        bad, refused = after(f"{room}/older", base, held, number, kinds)
        counts[refused] += 1
        wrong += [f"{' '.join(kinds)}: {it}" for it in bad]
        for it in os.listdir(f"{room}/older"):
            if it.startswith("copy-"):
                os.remove(f"{room}/older/{it}")
    told = f"an older database beside a newer file, after {len(ORDERS)} orders of {', '.join(KINDS)}"
    what = f"the {counts[True]} after a clear are refused, the {counts[False]} others serve their own bytes"
    say(not wrong and counts[True] and counts[False], f"{told}: {what}", wrong)
