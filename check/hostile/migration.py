"""A file of schema 1 that is taken over while memory is refused, the disk stops, or the system; and what is seen of
it afterwards, beside a file that was never of schema 1."""
import json
import random
import sqlite3
import subprocess

from tools.shared import REGISTRY, digest
from check.hostile.crashes import crash_in_write
from check.hostile.disk import stop_in_write
from check.hostile.memory import refuse_in_order
from check.hostile.said import say
from check.hostile.worlds import copied, world
from check.hostile.writes import ABC, AT, HELLO, order, push, request
from check.old_file import TABLES

MIGRATE = order("migrate")
# a blob of many pages, one of many chunks of a connection's input, and one that stands in two repositories
LAYERS = [bytes(i * 7 % 251 for i in range(20_000)), bytes(i * 11 % 241 for i in range(5_000)), ABC]
OWNERS = {"team/app": "t1", "team/lib": "t1", "other": "t2"}
QUOTA = 1_000_000


def manifest(name, subject=None):
    """A manifest by which a repository names its layers."""
    media = "application/vnd.oci.image.{}"
    described = lambda kind, body: {"mediaType": media.format(kind), "digest": digest(body), "size": len(body)}
    text = {
        "schemaVersion": 2,
        "mediaType": media.format("manifest.v1+json"),
        "config": described("config.v1+json", ABC),
        "layers": [described("layer.v1.tar", it) for it in LAYERS],
        "annotations": {"name": name},
    }
    if subject:
        text["subject"] = described("manifest.v1+json", subject)
    return json.dumps(text).encode()


def of_token(text, token):
    return text.replace(b"Bearer t1", f"Bearer {token}".encode())


def at(text, name):
    return text.replace(AT.encode(), f"/v2/{name}".encode())


def fill_old(db):
    """A file of schema 1, with three repositories: each holds the layers, a manifest under a tag and one whose
    subject it is, an upload session with bytes and an empty one."""
    con = sqlite3.connect(db)
    con.executescript(TABLES)
    for name, token in OWNERS.items():
        image = manifest(name)
        about = manifest(name, image)
        con.execute("INSERT INTO registry_repos VALUES (?, ?, 2)", (name, QUOTA))
        con.execute("INSERT INTO registry_grants VALUES (?, ?, 3)", (token, name))
        for body in LAYERS:
            con.execute("INSERT INTO registry_blobs VALUES (?, ?, ?, ?)", (name, digest(body), len(body), body))
        for body, subject in ((image, None), (about, digest(image))):
            row = (name, digest(body), len(body), 1, subject, body)
            con.execute("INSERT INTO registry_manifests VALUES (?, ?, ?, ?, ?, ?)", row)
        con.execute("INSERT INTO registry_tags VALUES (?, 'v1', ?)", (name, digest(image)))
        con.execute("INSERT INTO registry_sessions VALUES (?, 1, 3, ?), (?, 2, 0, X'')", (name, HELLO[:3], name))
    con.commit()
    con.close()


def played(db, text):
    """What one connection is answered."""
    ran = subprocess.run([REGISTRY, "stdio", "--db", db], input=text, capture_output=True, check=True)
    return ran.stdout


def fill_new(db):
    """The same registry by orders and requests."""
    for name, token in OWNERS.items():
        subprocess.run(order("repo", "--name", name, "--quota", str(QUOTA))(db), check=True)
        subprocess.run(order("grant", "--token", token, "--name", name, "--level", "3")(db), check=True)
        image = manifest(name)
        about = manifest(name, image)
        asked = [push(body) for body in LAYERS]
        asked += [request("PUT", f"{AT}/manifests/{to}", body) for to, body in (("v1", image), (digest(about), about))]
        asked += [request("POST", f"{AT}/blobs/uploads/")] * 2 + [request("PATCH", f"{AT}/blobs/uploads/1", HELLO[:3])]
        played(db, b"".join(at(of_token(it, token), name) for it in asked))


# ---- what is seen


def drawn(chance, name):
    """A request about a repository."""
    body = chance.choice([*LAYERS, HELLO, b"", b"of a later day"])
    image = chance.choice([manifest(name), manifest(name, manifest(name)), manifest(f"{name} anew")])
    number = chance.choice([1, 2, 3, 4])
    tag = chance.choice(["v1", "v2"])
    to = chance.choice([tag, digest(image)])
    text = chance.choice(
        [
            lambda: request(chance.choice(["GET", "HEAD", "DELETE"]), f"{AT}/blobs/{digest(body)}"),
            lambda: request(chance.choice(["GET", "HEAD", "GET", "DELETE"]), f"{AT}/manifests/{to}"),
            lambda: request("PUT", f"{AT}/manifests/{tag}", image),
            lambda: request("GET", f"{AT}/referrers/{digest(manifest(name))}"),
            lambda: request("GET", f"{AT}/tags/list"),
            lambda: push(body),
            lambda: request("POST", f"{AT}/blobs/uploads/?mount={digest(body)}&from=team/app"),
            lambda: request("POST", f"{AT}/blobs/uploads/"),
            lambda: request("GET", f"{AT}/blobs/uploads/{number}"),
            lambda: request("PATCH", f"{AT}/blobs/uploads/{number}", b"lo"),
            lambda: request("PUT", f"{AT}/blobs/uploads/{number}?digest={digest(HELLO)}"),
            lambda: request("DELETE", f"{AT}/blobs/uploads/{number}"),
        ]
    )()
    return at(text, name)


def parted(output, asked):
    """The replies to these requests."""
    replies = []
    for text in asked:
        head, rest = output.split(b"\r\n\r\n", 1)
        lengths = [line for line in head.split(b"\r\n") if line.startswith(b"Content-Length: ")]
        size = int(lengths[0].split(b" ")[1]) if lengths and not text.startswith(b"HEAD ") else 0
        replies.append((head, rest[:size]))
        output = rest[size:]
    return replies if not output else [*replies, output]


def look_beside_a_new_file(room, rounds=40, length=60):
    """A file that was taken over answers as one that was never of schema 1; and in both a team is answered as if
    it were alone."""
    old, new = f"{room}/old.db", f"{room}/new.db"
    fill_old(old)
    fill_new(new)
    subprocess.run(MIGRATE(old), check=True)
    say(world(old) == world(new), "the file that was taken over holds what one holds that was never of schema 1")
    chance, bad, count, statuses = random.Random(20_261_125), [], 0, set()
    for number in range(rounds):
        teams = [chance.choice(["t1", "t1", "t2"]) for _ in range(length)]
        names = [chance.choice([name for name, token in OWNERS.items() if token == team]) for team in teams]
        asked = [of_token(drawn(chance, name), team) for name, team in zip(names, teams)]
        both = [parted(played(copied(db, f"{room}/asked.db"), b"".join(asked)), asked) for db in (old, new)]
        if both[0] != both[1] or len(both[0]) != len(asked):
            bad.append(f"connection {number + 1}: the two files answer differently")
        for team in ("t1", "t2"):
            own = [text for text, whose in zip(asked, teams) if whose == team]
            told = [reply for reply, whose in zip(both[1], teams) if whose == team]
            if parted(played(copied(old, f"{room}/alone.db"), b"".join(own)), own) != told:
                bad.append(f"connection {number + 1}: {team} alone is answered otherwise")
        count += len(asked)
        statuses |= {int(head.split(b" ")[1]) for head, _ in both[0]}
    say({200, 201, 202, 204, 404} <= statuses, f"the answers are of {len(statuses)} kinds: {sorted(statuses)}")
    say(not bad, f"{count} requests of two teams are answered as by a new file, and as to each team alone", bad)


# ---- while it is taken over


def is_taken_over(db, was):
    found = world(db)
    say(found == (*was[:2], 2), "the world is the one that was there, by schema 2")


def refuse_in_migration(refusing, room, pool):
    db = f"{room}/taken.db"
    fill_old(db)
    was = world(db)
    refuse_in_order(refusing, room, pool, db, MIGRATE)
    is_taken_over(db, was)


def stop_in_migration(refusing, room):
    for how in (stop_in_write, lambda *it: crash_in_write(*it, random.Random(20_261_125))):
        db = f"{room}/taken.db"
        copied("", db)
        fill_old(db)
        was = world(db)
        how(refusing, room, db, "take over a file of schema 1", MIGRATE)
        is_taken_over(db, was)
