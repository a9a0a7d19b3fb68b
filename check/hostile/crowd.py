"""Many clients of one server, some of which hold up what they can."""
import random
import socket
import subprocess
import threading
import time

from check.hostile.said import SECONDS, say
from check.hostile.server import Server, answer, answered_alone, collected
from check.hostile.writes import ABC, AT, LAYOUTS, ORDERS, order, push, request
from tools.shared import digest

LARGE = 64 << 20
GET_ABC = request("GET", f"{AT}/blobs/{digest(ABC)}")


def prepared(room, name, quota=1 << 40, layout="tables"):
    db = f"{room}/{name}.db"
    for words in (order("repo", *LAYOUTS[layout], "--name", "team/app", "--quota", str(quota)), ORDERS[2]):
        subprocess.run(words(db), check=True)
    return db


def works(server):
    """A push and a pull on a connection of its own."""
    with server.connect() as connection:
        pushed = answer(connection, push(ABC))
        pulled = answer(connection, GET_ABC)
    return bool(pushed and pulled) and pushed[0] == 201 and (pulled[0], pulled[2]) == (200, ABC)


def most_memory(server):
    """The most MiB that the server's process had at once."""
    with open(f"/proc/{server.process.pid}/status", encoding="ascii") as it:
        return next(int(line.split()[1]) for line in it if line.startswith("VmHWM:")) >> 10


def closed(connection, seconds):
    """The server closes the connection within so many seconds, without a word."""
    connection.settimeout(seconds)
    try:
        return connection.recv(1) == b""
    except ConnectionError:
        return True
    except OSError:
        return False


def drips(connection):
    """The server closes the connection, on which a byte of a head comes ten times a second."""
    ends = time.monotonic() + SECONDS
    connection.settimeout(0.1)
    try:
        connection.sendall(b"GET /v2/ HTTP/1.1\r\nX: ")
        while time.monotonic() < ends:
            connection.sendall(b"x")
            try:
                return connection.recv(1) == b""
            except TimeoutError:
                pass
    except ConnectionError:
        return True
    return False


def hold_up(room):
    """Idle, stalled and deaf clients, and one that works beside them."""
    server = Server(prepared(room, "crowd"), "--idle", "600")
    say(works(server), "one client alone is served")
    idle = [server.connect() for _ in range(200)]
    say(works(server), "beside 200 idle clients another is served")
    stalled = server.connect()
    stalled.sendall(b"GET /v2/ HTTP/1.1\r\nHo")
    half = server.connect()
    half.sendall(push(b"x" * 1000)[:-500])
    say(works(server), "beside half a head and half a body")
    body = random.Random(1).randbytes(LARGE)
    with server.connect() as connection:
        pushed = answer(connection, push(body))
    deaf = server.connect()
    deaf.sendall(request("GET", f"{AT}/blobs/{digest(body)}"))
    time.sleep(1)
    say(pushed is not None and pushed[0] == 201 and works(server), "beside one that asks for 64 MiB and reads nothing")
    had = b""
    deaf.settimeout(SECONDS)
    while len(had) < LARGE or not had.endswith(body[-64:]):
        more = deaf.recv(1 << 20)
        if not more:
            break
        had += more
    say(had.endswith(body) and had.startswith(b"HTTP/1.1 200 OK\r\n"), "which gets it whole when it reads")
    half.sendall(push(b"x" * 1000)[-500:])
    half.settimeout(SECONDS)
    say(half.recv(100).startswith(b"HTTP/1.1 201 "), "the half body is answered when the rest comes")
    for it in (*idle, stalled, half, deaf):
        it.close()
    say(works(server), "when all have gone another is served")
    server.kill()


def interleave(room):
    """Requests of eight connections, cut and interleaved as drawn; each gets what it gets alone."""
    server = Server(prepared(room, "interleaved"))
    subjects = []
    for at in range(8):
        body = b"blob %d" % at
        texts = [push(body), request("GET", f"{AT}/blobs/{digest(body)}"), request("HEAD", f"{AT}/blobs/{digest(body)}")]
        texts += [request("GET", "/v2/"), request("GET", f"{AT}/blobs/{digest(b'none')}"), b"GET / HTTP/1.0\r\n\r\n"]
        subjects.append(b"".join(texts))

    alone = answered_alone(server, subjects)
    bad = []
    for seed in range(40):
        drawn = random.Random(seed)
        connections = [server.connect() for _ in subjects]
        left = list(subjects)
        while any(left):
            at = drawn.choice([at for at, text in enumerate(left) if text])
            count = drawn.randrange(1, 200)
            connections[at].sendall(left[at][:count])
            left[at] = left[at][count:]
        for at, connection in enumerate(connections):
            connection.shutdown(socket.SHUT_WR)
            if collected(connection) != alone[at]:
                bad.append(f"seed {seed}, connection {at}")
            connection.close()
    is_whole = all(text.count(b"HTTP/1.1 ") == 6 for text in alone)
    say(not bad and is_whole, "requests of eight connections, interleaved in 40 ways, are answered as alone", bad)
    server.kill()


def crowd_out(room):
    """As many connections as may be, silence, and a server that ends."""
    server = Server(prepared(room, "few"), "--at-once", "4")
    idle = [server.connect() for _ in range(4)]
    began = time.monotonic()
    say(works(server), "where four idle clients are all that may be, one makes room for another")
    say(time.monotonic() - began > 2, "but not at once")
    for it in idle:
        it.close()
    server.kill()
    server = Server(prepared(room, "silent"), "--idle", "2")
    silent, slow = server.connect(), server.connect()
    slow.sendall(b"GET /v2/ HTTP/1.1\r\n")
    say(closed(silent, SECONDS) and closed(slow, SECONDS), "a silent client and half a head are closed in the end")
    say(works(server), "others are served then")
    say(drips(server.connect()), "and so is a client that sends its head a byte at a time, for ever")
    server.kill()
    server = Server(prepared(room, "ends"), "--connections", "3")
    first, second = server.connect(), server.connect()
    say(works(server), "with three connections to come the third is served")
    first.close()
    second.close()
    say(server.process.wait(SECONDS) == 0, "and when all have gone the server ends with status 0")
    server.process.stdout.close()


def push_together(room):
    """32 pushes of 64 MiB at once, where there is room for two."""
    server = Server(prepared(room, "large"), "--buffer", str(2 * LARGE))
    before = most_memory(server)
    body = random.Random(2).randbytes(LARGE)
    text, statuses = push(body), []

    def one():
        with server.connect() as connection:
            connection.settimeout(10 * SECONDS)
            reply = answer(connection, text)
            statuses.append(reply and reply[0])

    threads = [threading.Thread(target=one) for _ in range(32)]
    for it in threads:
        it.start()
    small = works(server)
    for it in threads:
        it.join()
    took = most_memory(server) - before
    bad = [str(it) for it in statuses if it != 201]
    say(len(statuses) == 32 and not bad, "32 pushes of 64 MiB at once are all answered 201", bad)
    say(small, "a small request beside them is answered")
    say(took < 450, f"with a buffer of 128 MiB the server took {took} MiB for them")
    server.kill()


def serve_many(room):
    hold_up(room)
    interleave(room)
    crowd_out(room)
    push_together(room)
