"""Large uploads, whose bodies are put aside as they come: cut and interleaved, amid refused growths, failing
writes and kills; over both layouts."""
import random
import socket
import subprocess
import threading
import time

from check.hostile.crowd import prepared
from check.hostile.said import SECONDS, say
from check.hostile.server import Server, answer, answered_alone, asked_on_sockets, collected, refuse_in_pushes, status_of
from check.hostile.worlds import copied, world
from check.hostile.writes import ABC, AT, LAYOUTS, push, request
from tools.shared import digest

# three times what a connection keeps of a request, and more than a piece of it more
LARGE = 200_000
# one more than a manifest may have
TOO_LARGE = (4 << 20) + 1


def drawn_bytes(seed, count):
    return random.Random(seed).randbytes(count)


def in_chunks(text, drawn):
    """The same request with its body in chunks."""
    head, body = text.split(b"\r\n\r\n", 1)
    fields = [line for line in head.split(b"\r\n") if not line.startswith(b"Content-Length")]
    parts = [b"\r\n".join([*fields, b"Transfer-Encoding: chunked", b"", b""])]
    while body:
        count = drawn.randrange(1, 30_000)
        parts.append(b"%x\r\n%s\r\n" % (len(body[:count]), body[:count]))
        body = body[count:]
    return b"".join([*parts, b"0\r\n\r\n"])


def without_token(text):
    return text.replace(b"Authorization: Bearer t1\r\n", b"")


def subjects():
    """What each of eight connections says."""
    drawn, texts = random.Random(8), []
    for at in range(8):
        first, second = drawn_bytes(at, LARGE), drawn_bytes(100 + at, 3 * LARGE)
        wrong = request("POST", f"{AT}/blobs/uploads/?digest={digest(ABC)}", second)
        elsewhere = request("POST", f"/v2/team/no/blobs/uploads/?digest={digest(first)}", first)
        others = [
            [wrong],
            [in_chunks(wrong, drawn)],
            [without_token(push(second)), in_chunks(without_token(push(first)), drawn)],
            [request("GET", f"{AT}/blobs/{digest(first)}", second)],
            [request("PUT", f"{AT}/manifests/v1", drawn_bytes(200, TOO_LARGE))],
            [in_chunks(request("PUT", f"{AT}/manifests/v1", drawn_bytes(200, TOO_LARGE)), drawn)],
            [elsewhere, in_chunks(elsewhere, drawn)],
            [request("PUT", f"{AT}/manifests/v1", second), request("POST", f"{AT}/tags/list", first)],
        ][at]
        texts.append([push(first), *others, in_chunks(push(second), drawn), request("GET", f"{AT}/blobs/{digest(first)}")])
    return texts


def say_in_pieces(server, text, drawn, replies, at):
    with server.connect() as connection:
        while text:
            count = drawn.choice([drawn.randrange(1, 100), drawn.randrange(1, 60_000)])
            connection.sendall(text[:count])
            text = text[count:]
            time.sleep(drawn.choice([0, 0, 0.001]))
        connection.shutdown(socket.SHUT_WR)
        replies[at] = collected(connection)


def together(calls):
    threads = [threading.Thread(target=it, args=words) for it, *words in calls]
    for it in threads:
        it.start()
    for it in threads:
        it.join(10 * SECONDS)


def interleave_large(room, layout):
    """Eight connections with large bodies, cut as drawn; each gets what it gets alone, also where there is room for one
    body in chunks at a time."""
    said = subjects()
    texts = [b"".join(it) for it in said]
    for words in ((), ("--staged", str(64 << 20))):
        db = prepared(room, f"large-{layout}-{len(words)}", layout=layout)
        server = Server(db, *words, stderr=subprocess.DEVNULL)
        alone = answered_alone(server, texts)
        bad = [f"connection {at}" for at, it in enumerate(alone) if it.count(b"HTTP/1.1 ") != len(said[at])]
        bad += [f"connection {at}: {status}" for at, it in enumerate(alone) for status in (500, 503) if b"HTTP/1.1 %d" % status in it]
        for seed in range(10):
            replies = [None] * len(texts)
            together([(say_in_pieces, server, it, random.Random(8 * seed + at), replies, at) for at, it in enumerate(texts)])
            bad += [f"seed {seed}, connection {at}" for at, it in enumerate(replies) if it != alone[at]]
        told = f"cut in 10 ways ({' '.join(words) or 'by default'}), are answered as alone"
        say(not bad, f"{layout}: large bodies of eight connections, {told}", bad)
        server.kill()


def chunk(connection):
    """The statuses of a session that is opened, and of a large chunk to it."""
    opened = status_of(request("POST", f"{AT}/blobs/uploads/"))(connection)
    return opened, status_of(request("PATCH", f"{AT}/blobs/uploads/1", drawn_bytes(1, LARGE)))(connection)


def refuse_growths(refusing, room, layout):
    """Each third growth of memory in pushes of a large body."""
    asks, db = [status_of(push(drawn_bytes(1, LARGE)))] * 2, prepared(room, f"grows-{layout}", layout=layout)
    refuse_in_pushes(refusing, db, f"{room}/growth.db", asks, f"two pushes of {LARGE} bytes", layout)


# What may be found of a session by the statuses of its opening and of a large chunk.
WHOLE, NONE = {1: drawn_bytes(1, LARGE)}, {1: b""}
FOUND = {(202, 202): [WHOLE], (202, 500): [NONE, WHOLE], (202, None): [NONE, WHOLE], (202, 503): [NONE]}


def fail_writes(refusing, room, layout):
    """Each write of the disk amid a large chunk. Where the file of contents takes no bytes there is no room
    for them (503), and the storage has not failed."""
    db, at = prepared(room, f"writes-{layout}", layout=layout), f"{room}/write.db"
    asks = [chunk, status_of(push(ABC))]
    found, _, writes = asked_on_sockets(refusing, copied(db, at), asks)
    bad, seen = [] if found == [(202, 202), 201] else [found], {}
    for n in range(1, writes + 1):
        try:
            (statuses, after), _, _ = asked_on_sockets(refusing, copied(db, at), asks, write=n)
        except OSError:
            # the file is not opened
            continue
        seen[statuses] = seen.get(statuses, 0) + 1
        sessions, wanted = world(at)[0]["team/app"]["sessions"], FOUND.get(statuses, [{}, NONE])
        is_right = after in (201, 500) or (after, layout) == (503, "beside")
        if sessions not in wanted or not is_right or (statuses == (202, 503) and layout == "tables"):
            bad.append(f"write {n}: {statuses}, then {after}")
    answers = ", ".join(f"{k}: {v}" for k, v in seen.items())
    told = f"{layout}: {writes} writes that fail once amid a chunk of {LARGE} bytes, answered {answers}"
    held = (202, 500) in seen and ((202, 503) in seen or layout == "tables")
    say(not bad and held, f"{told}: all of it is there, or nothing", bad)


def kill_amid(room, kills, layout):
    """Servers that are killed amid eight uploads."""
    db, chance, acknowledged, bad = prepared(room, f"amid-{layout}", layout=layout), random.Random(53), {}, []

    def upload(server, drawn):
        try:
            with server.connect() as connection:
                while True:
                    body = drawn.randbytes(drawn.randrange(1, 10 * LARGE))
                    text = push(body) if drawn.random() < 0.5 else in_chunks(push(body), drawn)
                    reply = answer(connection, text)
                    if reply is None:
                        return
                    acknowledged[digest(body)] = body
                    if reply[0] != 201:
                        bad.append(f"{reply[0]}")
        except OSError:
            return

    for round_ in range(kills):
        server = Server(db, stderr=subprocess.DEVNULL)
        killer = subprocess.Popen(["sh", "-c", f"sleep {0.1 + chance.random() * 0.5:.3f}; kill -9 {server.process.pid}"])
        together([(upload, server, random.Random(8 * round_ + at)) for at in range(8)])
        killer.wait()
        server.kill()
    found = world(db)
    held = {} if found == "unsound" else found[0]["team/app"]["blobs"]
    bad += [name for name, body in acknowledged.items() if held.get(name) != body]
    bad += [name for name, body in held.items() if digest(body) != name]
    told = f"all {len(acknowledged)} that were acknowledged are there"
    say(not bad and acknowledged, f"{layout}: {kills} kills amid eight uploads: {told}", bad)


def upload_large(refusing, room, kills):
    for layout in LAYOUTS:
        interleave_large(room, layout)
        refuse_growths(refusing, room, layout)
        fail_writes(refusing, room, layout)
        kill_amid(room, max(5, kills // 5), layout)
