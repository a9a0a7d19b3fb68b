"""Servers and commands killed amid a `clear` of a registry whose contents are beside its database."""
import hashlib
import random
import sqlite3
import subprocess
import tempfile
import threading
import time

from tools.shared import REGISTRY, digest
from check.hostile.crowd import prepared
from check.hostile.said import SECONDS, say
from check.hostile.server import Server, answer
from check.hostile.worlds import copied, world
from check.hostile.writes import AT, push, request

# so many blobs are pushed in a round, and all but some are deleted again: that many contents go by a `clear`
PUSHED, KEPT = 120, 12
# (there are no manifests here)
UNNAMED = "SELECT count(*) FROM registry_contents WHERE id NOT IN (SELECT content FROM registry_blob_links)"


class Team:
    """What was acknowledged, and the one push that may have been done or not."""

    def __init__(self, seed):
        self.drawn, self.blobs, self.last = random.Random(seed), {}, None

    def body(self):
        return self.drawn.randbytes(self.drawn.choice([100, 4_000, 4_097, 9_000, 30_000]))

    def push(self, connection):
        """Whether it was acknowledged."""
        body = self.body()
        self.last = digest(body), body
        reply = answer(connection, push(body))
        if reply is None or reply[0] != 201:
            return False
        self.blobs[digest(body)] = body
        self.last = None
        return True

    def fill(self, server):
        """Pushes some and deletes most; what is wrong with the replies, and with what a pull gives."""
        with server.connect() as connection:
            pushed = [self.push(connection) for _ in range(PUSHED)]
            names = self.drawn.sample(sorted(self.blobs), len(self.blobs) - KEPT)
            deleted = [answer(connection, request("DELETE", f"{AT}/blobs/{it}"))[0] == 202 for it in names]
            for it in names:
                del self.blobs[it]
            pull = lambda name: answer(connection, request("GET", f"{AT}/blobs/{name}"))[2]
            pulled = [pull(name) == body for name, body in self.blobs.items()]
        return "" if all(pushed + deleted + pulled) else "a request is answered otherwise than it should be"

    def is_held(self, db):
        """What is wrong with a file that is to hold what was acknowledged, and perhaps the last push."""
        found = world(db)
        if found == "unsound":
            return "sqlite3 finds the file unsound"
        there = found[0]["team/app"]["blobs"]
        if self.last and there.get(self.last[0]) == self.last[1]:
            self.blobs[self.last[0]] = self.last[1]
        self.last = None
        return "" if there == self.blobs else "the blobs are others"


def how_far(db):
    """How far a `clear` has come, by the rows and the head beside them: whether something is there that
    nothing names, and whether the ages are the same."""
    with tempfile.TemporaryDirectory() as room:
        con = sqlite3.connect(copied(db, f"{room}/read.db"))
        left = con.execute(UNNAMED).fetchone()[0]
        age = con.execute("SELECT age FROM registry_pack").fetchone()[0]
        con.close()
    with open(f"{db}-contents", "rb") as it:
        head = it.read(8192)
    copies = [head[at : at + 75] for at in (0, 4096)]
    said = {int.from_bytes(it[35:43], "big") for it in copies if hashlib.sha256(it[:43]).digest() == it[43:]}
    if left >= PUSHED - KEPT:
        return "begun"
    return "rows gone" if left else "done" if said == {age} else "between ages"


def seconds_of(words):
    begun = time.monotonic()
    subprocess.run(words, check=True)
    return time.monotonic() - begun


def end_after(process, seconds):
    time.sleep(seconds)
    process.kill()
    process.wait()


def kill_commands(room, kills):
    """`registry clear --db`, killed at a moment of it."""
    db, team, bad, were = prepared(room, "clears", layout="beside"), Team(1), [], {}
    clear, longest, chance = [REGISTRY, "clear", "--db"], None, random.Random(3)
    for number in range(kills):
        server = Server(db, stderr=subprocess.DEVNULL)
        bad += [f"kill {number}: {why}" for why in [team.fill(server)] if why]
        server.kill()
        longest = longest or seconds_of([*clear, copied(db, f"{room}/cleared.db")])
        end_after(subprocess.Popen([*clear, db]), chance.random() * longest)
        bad += found_after(number, db, team, were)
    told = f"beside: {kills} kills of `registry clear` ({shown(were)}): all that was acknowledged is there"
    say(not bad and len(were) > 1, f"{told}, and the next clear is done", bad)


def found_after(number, db, team, were):
    """What is wrong after a kill, and after a `clear` that is not killed; notes how far the one had come."""
    why, far = team.is_held(db), how_far(db)
    were[far] = were.get(far, 0) + 1
    if why:
        yield f"kill {number}, {far}: {why}"
    subprocess.run([REGISTRY, "clear", "--db", db], check=True)
    why = team.is_held(db)
    if why or how_far(db) != "done":
        yield f"kill {number}, {far}, and a clear: {how_far(db)} {why}"


def shown(were):
    return ", ".join(f"{far}: {count}" for far, count in sorted(were.items()))


def push_on(server, team):
    """Pushes until the server has gone."""
    with server.connect() as connection:
        while team.push(connection):
            pass


def kill_servers_that_clear(room, kills):
    """A server that carries out `clear` as an order, beside pushes, killed at a moment of it."""
    db, team, bad, were = prepared(room, "ordered", layout="beside"), Team(2), [], {}
    at, longest, unfinished, chance = f"{room}/ordered.orders", None, 0, random.Random(4)
    clear = [REGISTRY, "clear", "--orders", at]
    for number in range(kills):
        server = Server(db, "--orders", at, stderr=subprocess.DEVNULL)
        if longest is None:
            team.fill(server)
            longest = seconds_of(clear)
        bad += [f"kill {number}: {why}" for why in [team.fill(server)] if why]
        pusher = threading.Thread(target=push_on, args=(server, team))
        pusher.start()
        order = subprocess.Popen(clear, stderr=subprocess.DEVNULL)
        end_after(server.process, chance.random() * longest)
        unfinished += order.wait(SECONDS) != 0
        pusher.join(SECONDS)
        server.kill()
        bad += found_after(number, db, team, were)
    told = f"beside: {kills} kills amid an order to clear ({unfinished} not answered; {shown(were)})"
    say(not bad and unfinished, f"{told}: all that was acknowledged is there", bad)


def kill_amid_clear(room, kills):
    kill_commands(room, kills)
    kill_servers_that_clear(room, kills)
