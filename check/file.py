"""Looks at a registry's database with another program.

A server is started on loopback over a new file, images are pushed with curl, the server is ended, and
sqlite3 reads the file: it is sound, its tables, keys and indexes are those of docs/STORE.md, and the
bytes that it keeps are the bytes that were pushed; so are those of a registry whose contents are beside it, at the
places that its rows name. Then a server whose files may not grow past a limit
is pushed a blob that is larger: the write that the system refuses is answered 500, and on the next
connection the database is opened again, with everything that was there and nothing of that blob. Over
standard input, and where an order is refused so, the program ends with status 3. Then a file of schema 1
that sqlite3 made is taken over. What is wrong with a path or an address is told, a new database is its
owner's alone, a server says on which port it listens, and tokens are read from a file and from standard input.
Needs curl and sqlite3 (3.37 or newer, for STRICT); installs nothing.
"""
import hashlib
import json
import os
import pty
import resource
import shutil
import socket
import subprocess
import sys
import tempfile

from check.file_tables import INDEXES, INDEXES_BESIDE, TABLES, TABLES_BESIDE, WITHOUT_REPO
from check.old_file import TABLES as TABLES_OF_SCHEMA_1
from tools.shared import REGISTRY, digest, free_port

REPO = "team/app"
# 1,000,000,000 bytes
QUOTA = "1000000000"


def say(held, what):
    print(("ok    " if held else "WRONG ") + what)
    if not held:
        say.wrong += 1


say.wrong = 0


def registry(*words):
    ran = subprocess.run([REGISTRY, *words], capture_output=True, check=False)
    say(ran.returncode == 0, "registry " + " ".join(words[:1]) + ran.stderr.decode())


def bounded(limit):
    """How a program is started whose files may not grow past so many bytes; as it is, where no limit is given."""
    if limit is None:
        return {}

    # Python ignores SIGXFSZ, and so does what it starts unless told otherwise: a write past the limit is then
    # an error (EFBIG) and not the end of the process
    def bound():
        resource.setrlimit(resource.RLIMIT_FSIZE, (limit, limit))

    return {"restore_signals": False, "preexec_fn": bound}


class Server:
    def __init__(self, db, limit=None):
        self.at = f"127.0.0.1:{free_port()}"
        words = [REGISTRY, "serve", "--db", db, "--listen", self.at]
        self.process = subprocess.Popen(words, stdout=subprocess.PIPE, **bounded(limit))
        line = self.process.stdout.readline()
        say(line == b"registry: listening\n", "the server says that it listens")

    def curl(self, method, path, body=None, fields=()):
        words = ["curl", "-sS", "-o", "-", "-w", "%{http_code}", "-X", method, "-H", "Authorization: Bearer t1"]
        for field in fields:
            words += ["-H", field]
        if body is not None:
            words += ["--data-binary", "@-"]
        ran = subprocess.run([*words, f"http://{self.at}{path}"], input=body or b"", capture_output=True, check=False)
        return ran.stdout[-3:].decode(), ran.stdout[:-3]

    def push_blob(self, body, wanted="201"):
        path = f"/v2/{REPO}/blobs/uploads/?digest={digest(body)}"
        status, _ = self.curl("POST", path, body, ["Content-Type: application/octet-stream"])
        say(status == wanted, f"the push of a blob of {len(body)} bytes is answered {wanted}: {status}")

    def push_image(self, tag, layer):
        config = json.dumps({"architecture": "amd64", "os": "linux", "tag": tag}).encode()
        for body in (config, layer):
            self.push_blob(body)
        media = "application/vnd.oci.image.{}"
        manifest = json.dumps(
            {
                "schemaVersion": 2,
                "mediaType": media.format("manifest.v1+json"),
                "config": {"mediaType": media.format("config.v1+json"), "digest": digest(config), "size": len(config)},
                "layers": [{"mediaType": media.format("layer.v1.tar"), "digest": digest(layer), "size": len(layer)}],
            }
        ).encode()
        field = "Content-Type: " + media.format("manifest.v1+json")
        status, _ = self.curl("PUT", f"/v2/{REPO}/manifests/{tag}", manifest, [field])
        say(status == "201", f"the image {tag} is pushed: {status}")
        status, back = self.curl("GET", f"/v2/{REPO}/manifests/{tag}")
        say((status, back) == ("200", manifest), f"the image {tag} is pulled as it was pushed")
        return {config, layer, manifest}

    def end(self):
        self.process.kill()
        self.process.wait()


def query(db, text):
    ran = subprocess.run(["sqlite3", "-json", db, text], capture_output=True, check=False)
    if ran.returncode:
        say(False, f"sqlite3: {ran.stderr.decode().strip()}")
        return []
    return json.loads(ran.stdout or b"[]")


def look_at_tables(db, tables=TABLES, wanted_indexes=INDEXES, version=2):
    listed = {row["name"]: row for row in query(db, "PRAGMA table_list") if row["name"].startswith("registry_")}
    say(set(listed) == set(tables), "the tables are those of the schema")
    for name, columns in tables.items():
        found = [(row["name"], row["type"], row["notnull"], row["pk"]) for row in query(db, f"PRAGMA table_info({name})")]
        say(found == columns, f"{name}: its columns and its key{'' if found == columns else f': {found}'}")
        say(listed.get(name, {}).get("strict") == 1, f"{name}: STRICT")
        keys = [(row["table"], row["from"], row["to"], row["on_delete"]) for row in query(db, f"PRAGMA foreign_key_list({name})")]
        wanted = [] if name in WITHOUT_REPO else [("registry_repos", "repo", "name", "CASCADE")]
        say(keys == wanted, f"{name}: what goes with a repository")
    indexes = {row["name"] for row in query(db, "SELECT name FROM sqlite_schema WHERE type = 'index' AND sql IS NOT NULL")}
    say(indexes == wanted_indexes, f"the indexes: {', '.join(sorted(indexes))}")
    say(query(db, "SELECT version FROM registry_schema") == [{"version": version}], f"the version is {version}")


def look_at_bytes(db, pushed):
    rows = query(db, "SELECT sha256, size, hex(bytes) AS bytes FROM registry_contents")
    kept = sorted(bytes.fromhex(row["bytes"]) for row in rows)
    say(kept == sorted(pushed), f"the bytes that are kept are the {len(pushed)} that were pushed, each once")
    say(
        all(row["sha256"] == hashlib.sha256(bytes.fromhex(row["bytes"])).hexdigest() for row in rows)
        and all(row["size"] * 2 == len(row["bytes"]) for row in rows),
        "each has its own digest and size beside it",
    )


def bytes_beside(db):
    """The bytes of each content of a registry, by its id, as the rows and the file beside them say (docs/STORE.md,
    "Contents in a pack"): both are read as they are, by nothing of the registry's."""
    with open(f"{db}-contents", "rb") as it:
        file = it.read()
    (pack,) = query(db, "SELECT hex(mark) AS mark, age FROM registry_pack")
    for at in (0, 4096):
        copy = file[at : at + 75]
        age = int.from_bytes(copy[35:43], "big")
        is_one = copy[:19] == b"firkhen contents 1\n" and copy[43:] == hashlib.sha256(copy[:43]).digest()
        say(is_one and copy[19:35].hex().upper() == pack["mark"] and age == pack["age"], f"the head's copy at {at} is of these rows")
    found = {row["id"]: b"" for row in query(db, "SELECT id FROM registry_contents")}
    for row in query(db, "SELECT content, start, size, at FROM registry_places ORDER BY content, start"):
        say(row["at"] % 4096 == 0 and row["at"] >= 8192, f"a content is at a multiple of 4,096 behind the head: {row['at']}")
        say(row["start"] == len(found[row["content"]]), "and its places follow one another")
        found[row["content"]] += file[row["at"] : row["at"] + row["size"]]
    return found


def look_at_bytes_beside(db, pushed):
    kept = bytes_beside(db)
    say(set(kept.values()) == set(pushed), f"the bytes that are kept are the {len(pushed)} that were pushed")
    rows = query(db, "SELECT id, sha256, size FROM registry_contents")
    say(
        all((row["sha256"], row["size"]) == (hashlib.sha256(kept[row["id"]]).hexdigest(), len(kept[row["id"]])) for row in rows),
        "each has its own digest and size beside it",
    )
    links = query(db, "SELECT digest, content FROM registry_blob_links UNION SELECT digest, content FROM registry_manifest_links")
    say(all(row["digest"] == digest(kept[row["content"]]) for row in links), "each blob and each manifest is found under its digest")


def is_sound(db):
    say(query(db, "PRAGMA integrity_check") == [{"integrity_check": "ok"}], "PRAGMA integrity_check says ok")
    say(query(db, "PRAGMA foreign_key_check") == [], "PRAGMA foreign_key_check finds nothing")


def administer(db, *layout):
    registry("repo", "--db", db, *layout, "--name", REPO, "--quota", QUOTA)
    registry("grant", "--db", db, "--token", "t1", "--name", REPO, "--level", "3")


def pushed_to(db):
    """The bytes of three images that are pushed to a server, of which the first and the last have the same layer."""
    server = Server(db)
    try:
        layer = bytes(i * 7 % 251 for i in range(300_000))
        return server.push_image("v1", layer) | server.push_image("v2", b"a second layer") | server.push_image("v3", layer)
    finally:
        server.end()


def look_at_a_file_beside(db):
    administer(db, "--layout", "beside")
    pushed = pushed_to(db)
    say(oct(os.stat(f"{db}-contents").st_mode & 0o777) == "0o600", "the file of contents is its owner's alone")
    look_at_tables(db, TABLES_BESIDE, INDEXES_BESIDE, 3)
    look_at_bytes_beside(db, pushed)
    is_sound(db)


def look_at_a_new_file(db):
    administer(db)
    # the same layer twice is kept once
    pushed = pushed_to(db)
    look_at_tables(db)
    look_at_bytes(db, pushed)
    is_sound(db)


def refuse_a_write(db):
    """A file may have 4 MiB; the second blob has 6."""
    administer(db)
    server = Server(db, limit=4 << 20)
    before, after = b"before the fault", b"after the fault"
    try:
        server.push_blob(before)
        # each curl is a connection of its own
        server.push_blob(bytes(i * 11 % 241 for i in range(6 << 20)), wanted="500")
        say(server.process.poll() is None, "the server goes on")
        for body, wanted in ((before, "200"), (after, "404")):
            status, _ = server.curl("GET", f"/v2/{REPO}/blobs/{digest(body)}")
            say(status == wanted, f"on the next connection a blob of {len(body)} bytes is answered {wanted}: {status}")
        server.push_blob(after)
    finally:
        server.end()
    look_at_bytes(db, {before, after})
    is_sound(db)


def refuse_a_write_beside(db):
    """The same, where it is the file of contents that may not grow: the push has no room, and the storage has not failed."""
    administer(db, "--layout", "beside")
    server = Server(db, limit=4 << 20)
    before, after = b"before the fault", b"after the fault"
    try:
        server.push_blob(before)
        server.push_blob(bytes(i * 11 % 241 for i in range(6 << 20)), wanted="503")
        say(server.process.poll() is None, "the server goes on")
        for body, wanted in ((before, "200"), (after, "404")):
            status, _ = server.curl("GET", f"/v2/{REPO}/blobs/{digest(body)}")
            say(status == wanted, f"on the next connection a blob of {len(body)} bytes is answered {wanted}: {status}")
        server.push_blob(after)
    finally:
        server.end()
    look_at_bytes_beside(db, {before, after})
    is_sound(db)


def refuse_in_one_connection(db):
    """A service whose storage has failed answers nothing else, and the program says so at its end."""
    administer(db)
    body = bytes(i * 11 % 241 for i in range(6 << 20))
    fields = "Host: r\r\nAuthorization: Bearer t1\r\n"
    push = f"POST /v2/{REPO}/blobs/uploads/?digest={digest(body)} HTTP/1.1\r\n{fields}Content-Length: {len(body)}\r\n\r\n"
    base = b"GET /v2/ HTTP/1.1\r\nHost: r\r\n\r\n"
    failed = b"HTTP/1.1 500 Internal Server Error\r\nContent-Length: 0\r\n\r\n"
    stopped = (3, b"registry: storage failure\n")
    ran = subprocess.run([REGISTRY, "stdio", "--db", db], input=push.encode() + body + base, capture_output=True, **bounded(4 << 20))
    say(ran.stdout == failed * 2, "a push that cannot be written is answered 500, and so is what follows it")
    say((ran.returncode, ran.stderr) == stopped, "stdio ends with status 3 and says why")
    words = [REGISTRY, "repo", "--db", db, "--name", "late", "--quota", "5"]
    ran = subprocess.run(words, capture_output=True, **bounded(4096))
    say((ran.returncode, ran.stderr) == stopped, "so does an order that cannot be written")
    ran = subprocess.run([REGISTRY, "usage", "--db", db], capture_output=True)
    rows = [line.split() for line in ran.stdout.decode().splitlines()[1:]]
    say(rows == [["0", QUOTA, "0", "0", "0", "0", REPO]], "nothing came of either")


OLD = TABLES_OF_SCHEMA_1 + """\
INSERT INTO registry_repos VALUES ('team/app', 1000, 2), ('other', 1000, 0);
INSERT INTO registry_grants VALUES ('t1', 'team/app', 3);
INSERT INTO registry_blobs VALUES ('team/app', '{abc}', 3, X'616263'), ('other', '{abc}', 3, X'616263');
INSERT INTO registry_sessions VALUES ('team/app', 1, 3, X'68656c'), ('team/app', 2, 0, X'');
""".format(abc=digest(b"abc"))


def used(db):
    ran = subprocess.run([REGISTRY, "usage", "--db", db], capture_output=True)
    return {row[-1]: row[0] for row in (line.split() for line in ran.stdout.decode().splitlines()[1:])}


def take_over_an_old_file(db):
    """A file of schema 1 that sqlite3 made: two repositories with the blob `abc`, two upload sessions."""
    subprocess.run(["sqlite3", db], input=OLD.encode(), check=True)
    ran = subprocess.run([REGISTRY, "usage", "--db", db], capture_output=True)
    say((ran.returncode, ran.stderr) == (3, b"registry: schema 1 is not supported\n"), "a file of schema 1 is refused")
    for time_ in ("once", "a second time"):
        ran = subprocess.run([REGISTRY, "migrate", "--db", db], capture_output=True)
        say((ran.returncode, ran.stdout, ran.stderr) == (0, b"", b""), f"it is taken over {time_}, and nothing is printed")
        counts = {
            it: query(db, f"SELECT count(*) AS n FROM registry_{it}")[0]["n"]
            for it in ("contents", "blob_links", "uploads", "pieces", "blobs", "manifests", "sessions")
        }
        wanted = {"contents": 2, "blob_links": 2, "uploads": 2, "pieces": 1, "blobs": 0, "manifests": 0, "sessions": 0}
        say(counts == wanted, f"two contents, two links, two uploads, one piece, and no old row: {counts}")
        say(query(db, "SELECT version FROM registry_schema") == [{"version": 2}], "the version is 2")
        say(used(db) == {"team/app": "6", "other": "3"}, "team/app uses 6 bytes and other 3")
    server = Server(db)
    try:
        at = f"/v2/{REPO}/blobs/uploads/"
        status, _ = server.curl("PATCH", f"{at}1", b"lo", ["Content-Type: application/octet-stream"])
        say(status == "202", f"upload session 1 goes on: {status}")
        status, _ = server.curl("PUT", f"{at}1?digest={digest(b'hello')}", b"")
        say(status == "201", f"and is the blob hello: {status}")
        status, _ = server.curl("POST", at, b"")
        say(status == "202", f"a session is opened: {status}")
    finally:
        server.end()
    numbers = [row["number"] for row in query(db, "SELECT number FROM registry_uploads ORDER BY number")]
    say(numbers == [2, 3], f"it is the third: {numbers}")
    is_sound(db)


def refuse_to_take_over(db):
    """A database without registry_schema."""
    subprocess.run(["sqlite3", db, "CREATE TABLE notes (text)"], check=True)
    ran = subprocess.run([REGISTRY, "migrate", "--db", db], capture_output=True)
    told = f"registry: not a registry\nregistry: {db}: a database, but no registry's\n".encode()
    say((ran.returncode, ran.stderr) == (3, told), "another program's database is not taken over")
    say([row["name"] for row in query(db, "SELECT name FROM sqlite_schema")] == ["notes"], "and stays as it was")


def is_told(words, status, lines, what, **how):
    """The program ends so, with these lines on standard error and nothing on standard output."""
    ran = subprocess.run([REGISTRY, *words], capture_output=True, **how)
    found = (ran.returncode, ran.stdout, ran.stderr)
    say(found == (status, b"", lines.encode()), what if found[2] == lines.encode() else f"{what}: {found}")


IN_USE = "in use by another process; a server that holds it takes orders by --orders"


def failed(at, why):
    return f"registry: storage failure\nregistry: {at}: {why}\n"


def tell_what_is_wrong(room):
    """Behind a failure stands its cause and the path or the address."""
    db = f"{room}/held.db"
    server = Server(db)
    try:
        is_told(["usage", "--db", db], 3, failed(db, IN_USE), "a database that a server has")
        why = f"registry: connection failure\nregistry: {server.at}: port in use\n"
        is_told(["serve", "--db", f"{room}/other.db", "--listen", server.at], 4, why, "a port that a server has")
    finally:
        server.end()
    is_told(["usage", "--db", f"{room}/no/file.db"], 3, failed(f"{room}/no/file.db", "no such folder"), "no folder")
    is_told(["usage", "--db", room], 3, failed(room, "is a folder"), "a folder")
    with open(f"{room}/text", "w", encoding="utf-8") as it:
        it.write("This is no database.\n" * 300)
    why = failed(f"{room}/text", "no database, but a file of another kind")
    is_told(["usage", "--db", f"{room}/text"], 3, why, "a text")
    why = "registry: connection failure\nregistry: nowhere: not an address\n"
    is_told(["serve", "--db", f"{room}/other.db", "--listen", "nowhere"], 4, why, "no address")
    why = f"registry: connection failure\nregistry: {room}/none: no server takes orders here\n"
    is_told(["usage", "--orders", f"{room}/none"], 4, why, "no server that takes orders")
    why = f"registry: connection failure\nregistry: {room}/text: is no socket\n"
    words = ["serve", "--db", f"{room}/other.db", "--listen", "127.0.0.1:0", "--orders", f"{room}/text"]
    is_told(words, 4, why, "a file in the place of a socket")


def tell_who_may_not(room):
    """The same of rights, where this is root, which has them all, and can be nobody."""
    if os.geteuid():
        print("      (rights are looked at where root runs this)")
        return
    os.chmod(room, 0o711)
    nobody, db = {"user": 65534, "group": 65534, "extra_groups": []}, f"{room}/held.db"
    why = failed(f"{room}/mine.db", "no right to write")
    is_told(["usage", "--db", f"{room}/mine.db"], 3, why, "a folder of another user", **nobody)
    is_told(["usage", "--db", db], 3, failed(db, "no right to read"), "a database of another user", **nobody)
    os.chmod(db, 0o644)
    is_told(["usage", "--db", db], 3, failed(db, "no right to write"), "one that may be read alone", **nobody)


def keep_to_itself(room):
    """The files of a new database are their owner's alone, whatever the umask; a terminal is told of it."""
    db = f"{room}/private.db"
    ours, theirs = pty.openpty()
    ran = subprocess.run([REGISTRY, "repo", "--db", db, "--name", REPO, "--quota", "1"], stderr=theirs, umask=0)
    os.close(theirs)
    with open(ours, "rb", buffering=0) as it:
        told = it.read(1000).decode().replace("\r\n", "\n")
    say(told == f"registry: {db} was not there: a new database is made\n", f"a new database is told: {told}")
    modes = {it: os.stat(it).st_mode & 0o777 for it in (db, f"{db}-wal")}
    say(ran.returncode == 0 and set(modes.values()) == {0o600}, f"and is private: {modes}")


def take_tokens(room):
    """Tokens from a file and from standard input, of which the first line alone is taken."""
    db = f"{room}/private.db"
    with open(f"{room}/token", "w", encoding="utf-8") as it:
        it.write("t2\nt3\n")
    grant = ["grant", "--db", db, "--name", REPO, "--level", "1"]
    is_told([*grant, "--token-file", f"{room}/token"], 0, "", "a token in a file")
    is_told([*grant, "--token", "-"], 0, "", "one on standard input", input=b"t4\nt5\n")
    is_told([*grant, "--token=-"], 0, "", "and one without a line's end", input=b"t6")
    tokens = [row["token"] for row in query(db, "SELECT token FROM registry_grants ORDER BY token")]
    say(tokens == ["t2", "t4", "t6"], f"are granted their level: {tokens}")
    why = f"registry: invalid options\nregistry: {room}/none: no such file\n"
    is_told([*grant, "--token-file", f"{room}/none"], 2, why, "a file that is not there")
    why = "registry: invalid token\nregistry: standard input: the first line is no token\n"
    is_told([*grant, "--token", "-"], 2, why, "a line that is no token", input=b"a token\n")


def serve_where_told(room):
    """A server tells on standard error which port it took."""
    words = [REGISTRY, "serve", "--db", f"{room}/private.db", "--listen", "127.0.0.1:0"]
    process = subprocess.Popen(words, stdout=subprocess.PIPE, stderr=subprocess.PIPE)
    try:
        line = process.stderr.readline().decode()
        before = f"registry: serving {room}/private.db (1 repository) on 127.0.0.1:"
        say(line.startswith(before), f"a server says what it serves: {line}")
        with socket.create_connection(("127.0.0.1", int(line[len(before) :]))) as it:
            it.sendall(b"GET /v2/ HTTP/1.1\r\nHost: r\r\nConnection: close\r\n\r\n")
            say(it.recv(12) == b"HTTP/1.1 401", "and the port answers")
    finally:
        process.kill()
        process.wait()


def main():
    lacking = [it for it in ("curl", "sqlite3") if shutil.which(it) is None]
    if lacking or not os.path.exists(REGISTRY):
        print(f"check-file needs {' and '.join(lacking) or 'build/registry'}", file=sys.stderr)
        return 2
    with tempfile.TemporaryDirectory() as room:
        look_at_a_new_file(os.path.join(room, "new.db"))
        look_at_a_file_beside(os.path.join(room, "beside.db"))
        refuse_a_write(os.path.join(room, "full.db"))
        refuse_a_write_beside(os.path.join(room, "full_beside.db"))
        refuse_in_one_connection(os.path.join(room, "one.db"))
        take_over_an_old_file(os.path.join(room, "old.db"))
        refuse_to_take_over(os.path.join(room, "notes.db"))
        tell_what_is_wrong(room)
        tell_who_may_not(room)
        keep_to_itself(room)
        serve_where_told(room)
        take_tokens(room)
    print(f"{say.wrong} wrong" if say.wrong else "the file is as it should be")
    return 1 if say.wrong else 0


if __name__ == "__main__":
    sys.exit(main())
