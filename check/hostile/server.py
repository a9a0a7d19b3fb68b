"""A server over a file on loopback, and a client that asks one thing at a time."""
import os
import re
import socket
import subprocess

from tools.shared import REGISTRY
from check.hostile.said import SECONDS, say
from check.hostile.worlds import copied
from check.hostile.writes import ABC, push


class Server:
    def __init__(self, db, *words, **how):
        with socket.socket() as it:
            it.bind(("127.0.0.1", 0))
            self.port = it.getsockname()[1]
        words = [REGISTRY, "serve", "--db", db, "--listen", f"127.0.0.1:{self.port}", *words]
        self.process = subprocess.Popen(words, stdout=subprocess.PIPE, **how)
        if self.process.stdout.readline() != b"registry: listening\n":
            raise OSError("the server does not listen")

    def connect(self):
        return socket.create_connection(("127.0.0.1", self.port), timeout=SECONDS)

    def kill(self):
        self.process.kill()
        self.process.wait()
        self.process.stdout.close()


def answer(connection, text):
    """The status, the fields and the body of the reply; None where the connection ends before it is whole."""
    try:
        connection.sendall(text)
        had = b""
        while b"\r\n\r\n" not in had:
            more = connection.recv(65536)
            if not more:
                return None
            had += more
        head, body = had.split(b"\r\n\r\n", 1)
        fields = {name.lower(): value for name, _, value in (line.partition(": ") for line in head.decode().split("\r\n")[1:])}
        while len(body) < int(fields.get("content-length", 0)):
            more = connection.recv(65536)
            if not more:
                return None
            body += more
        return int(head.split(b" ")[1]), fields, body
    except OSError:
        return None


def asked_on_sockets(refusing, db, asks, growth=0, write=0, said=subprocess.DEVNULL):
    """What each of these calls finds on a connection of its own, with this growth refused or this write failing, and
    the numbers of growths and of writes. What the server says of it goes to `said`."""
    told, tell = os.pipe()
    numbers = {"REFUSE_GROWTH": str(growth), "FAIL_WRITE": str(write), "TELL_COUNTS": str(tell)}
    env = {"LD_PRELOAD": refusing.library, **numbers}
    try:
        server, found = Server(db, "--connections", str(len(asks)), env=env, pass_fds=[tell], stderr=said), []
    except OSError:
        os.close(told)
        raise
    finally:
        os.close(tell)
    for ask in asks:
        with server.connect() as connection:
            found.append(ask(connection))
    server.process.wait(SECONDS)
    server.kill()
    with os.fdopen(told, "rb") as it:
        counts = re.match(rb"growths=(\d+) writes=(\d+)", it.read())
    return found, int(counts[1]), int(counts[2])


def status_of(text):
    """A call that asks this on a connection, and gives the status."""

    def ask(connection):
        reply = answer(connection, text)
        return reply and reply[0]

    return ask


status_of_push = status_of(push(ABC))


def pushes_on_sockets(refusing, db, **how):
    """The statuses of two pushes on connections of their own, likewise."""
    return asked_on_sockets(refusing, db, [status_of_push] * 2, **how)


def collected(connection):
    """All that comes on a connection until it ends."""
    parts = []
    while more := connection.recv(65536):
        parts.append(more)
    return b"".join(parts)


def answered_alone(server, texts):
    """What each of these is answered on a connection of its own, one after the other."""
    alone = []
    for text in texts:
        with server.connect() as connection:
            connection.sendall(text)
            connection.shutdown(socket.SHUT_WR)
            alone.append(collected(connection))
    return alone


def refuse_in_pushes(refusing, db, at, asks, what, layout):
    """Two pushes to a server with each third of their growths of memory refused, one a run: who lacks memory is
    answered 503, or not at all, and the next is served."""
    statuses, growths, _ = asked_on_sockets(refusing, copied(db, at), asks)
    say(statuses == [201, 201], f"{layout}: a server over a socket answers {what} 201")
    seen, bad = {}, []
    # both pushes lie in the last growths; the opening of the file takes those before
    for n in range(growths, growths - 600, -3):
        try:
            statuses, _, _ = asked_on_sockets(refusing, copied(db, at), asks, growth=n)
        except OSError:
            break
        seen[tuple(statuses)] = seen.get(tuple(statuses), 0) + 1
        # a reply that there is no memory for is none, and its connection is closed
        if statuses not in ([201, 201], [503, 201], [201, 503], [None, 201], [201, None]):
            bad.append(f"growth {n}: {statuses}")
    told = f"{sum(seen.values())} growths refused in {what}, answered {', '.join(f'{k}: {v}' for k, v in seen.items())}"
    say(not bad and (503, 201) in seen, f"{layout}: {told}", bad)
