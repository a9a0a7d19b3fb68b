"""A server that is killed at random moments of what it is asked."""
import random
import subprocess
import time

from check.hostile.said import say
from check.hostile.server import Server, answer
from check.hostile.worlds import world
from check.hostile.writes import AT, CONFIG, LAYOUTS, MANIFEST, ORDERS, order, push, request
from tools.shared import digest


class Believed:
    """What was acknowledged, and what was asked for last, which may have happened or not."""

    def __init__(self):
        self.blobs, self.tags, self.session, self.open, self.count = {}, {}, None, None, 0


def act(chance, connection, it):
    """Asks for one write and notes what is acknowledged; whether the connection still stands. `it.open` is what
    the write that was not acknowledged would make."""
    body = bytes(chance.randrange(256) for _ in range(chance.choice([1, 100, 5000, 70000])))
    kind = chance.choice(["push", "push", "chunk", "chunk", "manifest", "delete"])
    it.open = None
    if kind == "delete" and it.blobs:
        name = chance.choice(sorted(it.blobs))
        it.open = ("delete", name)
        reply = answer(connection, request("DELETE", f"{AT}/blobs/{name}"))
        if reply and reply[0] == 202:
            del it.blobs[name]
    elif kind == "manifest":
        text = MANIFEST[:-1] + b', "annotations": {"n": "%d"}}' % chance.randrange(1 << 40)
        tag = f"t{chance.randrange(5)}"
        it.open = ("tag", tag, text)
        reply = answer(connection, request("PUT", f"{AT}/manifests/{tag}", text))
        if reply and reply[0] == 201:
            it.tags[tag] = text
    elif kind == "chunk" and it.session:
        number, had = it.session
        it.open = ("chunk", number, had + body)
        reply = answer(connection, request("PATCH", f"{AT}/blobs/uploads/{number}", body))
        if reply and reply[0] == 202:
            it.session = number, had + body
    elif kind == "chunk":
        reply = answer(connection, request("POST", f"{AT}/blobs/uploads/"))
        if reply and reply[0] == 202:
            it.session = int(reply[1]["location"].rsplit("/", 1)[1]), b""
    else:
        it.open = ("push", digest(body), body)
        reply = answer(connection, push(body))
        if reply and reply[0] == 201:
            it.blobs[digest(body)] = body
    if reply is None:
        return False
    if reply[0] >= 300:
        say(False, f"{kind} is answered {reply[0]} {reply[2][:100]}")
    it.count += 1
    it.open = None
    return True


def is_kept(it, db):
    """Whether the file holds what was acknowledged, and nothing else but what was asked for last."""
    found = world(db)
    if found == "unsound":
        return "sqlite3 finds the file unsound"
    repo = found[0]["team/app"]
    blobs, tags, session = dict(it.blobs), dict(it.tags), it.session
    open_ = it.open or ("none",)
    got = {name: bytes_ for name, bytes_ in repo["blobs"].items() if name != digest(CONFIG)}
    if got != blobs:
        if open_[0] == "push":
            blobs[open_[1]] = open_[2]
        if open_[0] == "delete":
            blobs.pop(open_[1], None)
        if got != blobs:
            return "blobs differ"
    # what happened is believed from here on
    it.blobs = blobs
    told = {tag: digest(text) for tag, text in tags.items()}
    if repo["tags"] != told:
        if open_[0] == "tag":
            tags[open_[1]] = open_[2]
        if repo["tags"] != {tag: digest(text) for tag, text in tags.items()}:
            return "tags differ"
    it.tags = tags
    if any(repo["manifests"].get(digest(text)) != text for text in tags.values()):
        return "manifests differ"
    if session:
        there = repo["sessions"].get(session[0])
        if there != session[1]:
            if open_[0] != "chunk" or there != open_[2]:
                return "the session differs"
            it.session = session[0], there
    return ""


def kill_servers(room, kills):
    """Over a registry in tables, and over one whose contents are beside them."""
    for layout in LAYOUTS:
        kill_servers_over(f"{room}/kills-{layout}.db", layout, kills)


def kill_servers_over(db, layout, kills):
    chance, it = random.Random(20_261_124), Believed()
    for words in (order("repo", *LAYOUTS[layout], "--name", "team/app", "--quota", "1000000000"), ORDERS[2]):
        subprocess.run(words(db), check=True)
    server = Server(db)
    with server.connect() as connection:
        say(answer(connection, push(CONFIG))[0] == 201, f"{layout}: the config is pushed")
    bad = []
    for round_ in range(kills):
        end = time.monotonic() + chance.random() * 0.4
        with server.connect() as connection:
            # a process of its own ends the server in the middle of whatever it does
            killer = subprocess.Popen(["sh", "-c", f"sleep {max(end - time.monotonic(), 0):.3f}; kill -9 {server.process.pid}"])
            while act(chance, connection, it):
                pass
        killer.wait()
        server.kill()
        why = is_kept(it, db)
        if why:
            bad.append(f"kill {round_ + 1}: {why}")
            break
        server = Server(db)
    server.kill()
    told = f"{layout}: {kills} kills, {it.count} writes acknowledged, all of them there"
    say(not bad, told, bad)
