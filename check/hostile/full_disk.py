"""A disk without room for more, under a registry whose contents are beside its database: a file of contents
that may not grow past a limit, and a small file system that is full."""
import contextlib
import json
import os
import random
import resource
import subprocess

from tools.shared import REGISTRY, digest
from check.hostile.crowd import prepared
from check.hostile.said import SECONDS, say
from check.hostile.server import Server, answer
from check.hostile.worlds import world
from check.hostile.writes import AT, CONFIG, MANIFEST, push, request

MIB = 1 << 20
LIMIT = 4 * MIB
SMALL, LARGE = random.Random(1).randbytes(5_000), random.Random(2).randbytes(6 * MIB)
HALF = random.Random(3).randbytes(2 * MIB)
ELSEWHERE = "/v2/team/lib"
NO_ROOM = 503, b""


def bounded():
    """How a program is started whose files may not grow past the limit: a write past it is an error."""
    limit = lambda: resource.setrlimit(resource.RLIMIT_FSIZE, (LIMIT, LIMIT))
    return {"restore_signals": False, "preexec_fn": limit}


class Asking:
    """A server, and what its replies have wrong, each request on a connection of its own."""

    def __init__(self, db, **how):
        self.at, self.bad = f"{db}.orders", []
        self.server = Server(db, "--orders", self.at, stderr=subprocess.DEVNULL, **how)

    def ask(self, what, text, status, body=None):
        with self.server.connect() as connection:
            reply = answer(connection, text)
        if reply is None or reply[0] != status or body not in (None, reply[2]):
            self.bad.append(f"{what}: {reply and (reply[0], reply[2][:60])}")
        return reply

    def order(self, *words):
        words = [REGISTRY, words[0], "--orders", self.at, *words[1:]]
        ran = subprocess.run(words, capture_output=True, timeout=SECONDS)
        if ran.returncode:
            self.bad.append(f"{words[1]}: {ran.returncode} {ran.stderr}")

    def end(self):
        self.server.kill()
        return self.bad


def fill(it):
    """A blob, an image of nothing and a session, before the disk is full."""
    for what, text, status in (
        ("a push", push(SMALL), 201),
        ("a config", push(CONFIG), 201),
        ("a manifest", request("PUT", f"{AT}/manifests/v1", MANIFEST), 201),
        ("2 MiB", push(HALF), 201),
        ("a session", request("POST", f"{AT}/blobs/uploads/"), 202),
    ):
        it.ask(what, text, status)


def refuse(it):
    """What wants room has none, and says so."""
    session = f"{AT}/blobs/uploads/1"
    it.ask("a push that finds no room", push(LARGE), *NO_ROOM)
    it.ask("a chunk that finds no room", request("PATCH", session, LARGE), *NO_ROOM)
    last = request("PUT", f"{session}?digest={digest(LARGE)}", LARGE)
    it.ask("a last chunk that finds no room", last, *NO_ROOM)


def serve_all_else(it):
    """What wants none is answered as ever: pulls, lists, mounts, sessions, tags, deletions and orders."""
    named = json.dumps({"name": "team/app", "tags": ["v1"]}, separators=(",", ":")).encode()
    mount = f"{ELSEWHERE}/blobs/uploads/?mount={digest(SMALL)}&from=team/app"
    for what, text, status, body in (
        ("a pull", request("GET", f"{AT}/blobs/{digest(SMALL)}"), 200, SMALL),
        ("a large pull", request("GET", f"{AT}/blobs/{digest(HALF)}"), 200, HALF),
        ("a manifest", request("GET", f"{AT}/manifests/v1"), 200, MANIFEST),
        ("the tags", request("GET", f"{AT}/tags/list"), 200, named),
        ("what found no room", request("GET", f"{AT}/blobs/{digest(LARGE)}"), 404, None),
        ("a push of what is there", push(SMALL), 201, None),
        ("a session", request("POST", f"{AT}/blobs/uploads/"), 202, None),
        ("its state", request("GET", f"{AT}/blobs/uploads/2"), 204, None),
        ("a mount", request("POST", mount), 201, None),
        ("a deletion", request("DELETE", f"{ELSEWHERE}/blobs/{digest(SMALL)}"), 202, None),
    ):
        it.ask(what, text, status, body)
    it.order("quota", "--name", "team/lib", "--quota", "2000")
    it.order("usage")


def room_comes_back(it):
    """Behind a deletion and a `clear` as much can be pushed again as went."""
    it.ask("a deletion", request("DELETE", f"{AT}/blobs/{digest(HALF)}"), 202)
    it.order("clear")
    other = random.Random(4).randbytes(len(HALF))
    it.ask("a push into the room that is free again", push(other), 201)
    it.ask("its pull", request("GET", f"{AT}/blobs/{digest(other)}"), 200, other)
    it.ask("a pull of what was there", request("GET", f"{AT}/blobs/{digest(SMALL)}"), 200, SMALL)


def begun(db):
    for words in (
        ["repo", "--db", db, "--name", "team/lib", "--quota", "1000000"],
        ["grant", "--db", db, "--token", "t1", "--name", "team/lib", "--level", "3"],
    ):
        subprocess.run([REGISTRY, *words], check=True)
    return db


def meet_a_limit(room):
    """A file that may have 4 MiB."""
    db = begun(prepared(room, "limit", layout="beside"))
    it = Asking(db, **bounded())
    fill(it)
    before = world(db)
    refuse(it)
    after = world(db)
    told = "beside, a file of 4 MiB: what finds no room is 503, and rows are as before"
    say(not it.bad and before == after, told, it.bad)
    it.bad = []
    serve_all_else(it)
    say(not it.bad, "and all else is answered as ever", it.bad)
    it.bad = []
    room_comes_back(it)
    say(not it.end(), "and what a clear frees is room again", it.bad)
    ran = subprocess.run([REGISTRY, "check", "--db", db], capture_output=True)
    say(ran.returncode == 0, "each blob is its digest's", [ran] * (ran.returncode != 0))


@contextlib.contextmanager
def small_disk(at):
    """A file system of 6 MiB in memory; None where it may not be made."""
    os.mkdir(at)
    words = ["mount", "-t", "tmpfs", "-o", f"size={6 * MIB}", "tmpfs", at]
    is_there = os.geteuid() == 0 and subprocess.run(words, capture_output=True).returncode == 0
    try:
        yield at if is_there else None
    finally:
        if is_there:
            subprocess.run(["umount", at], check=True)


def meet_a_full_disk(room):
    """A file system of 6 MiB that has both files."""
    with small_disk(f"{room}/small") as at:
        if at is None:
            print("--    beside, a full disk: left out, since no file system may be made here")
            return
        db = begun(prepared(at, "full", layout="beside"))
        it = Asking(db)
        fill(it)
        before = world(db)
        it.ask("a push that finds no room", push(LARGE), *NO_ROOM)
        held = not it.bad and world(db) == before
        say(held, "beside, a full disk: the push is 503, and rows are as before", it.bad)
        it.bad = []
        serve_all_else(it)
        room_comes_back(it)
        say(not it.end(), "all else is answered as ever, and what a clear frees is room again", it.bad)


def fill_disks(room):
    meet_a_limit(room)
    meet_a_full_disk(room)
