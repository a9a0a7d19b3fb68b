"""Replies that go out over links that stall."""
import hashlib
import os
import socket
import subprocess
import time

from check.hostile.crowd import closed, prepared
from check.hostile.said import SECONDS, look_side_by_side, say
from check.hostile.server import Server, answer
from check.hostile.worlds import copied
from check.hostile.writes import AT, push, request
from tools.shared import digest

MIB = 1 << 20
# Half of the least buffer is for replies. So many replies of this length fill it, also where the system takes some
# MiB of each; fewer do not, even where it takes none.
BUFFER = "--buffer", str(128 * MIB)
BODY, PULLS = hashlib.shake_256(b"large").digest(27 * MIB), 3
# (who pulls a blob that another pulls has its bytes at once: one that nobody else pulls)
ALONE = hashlib.shake_256(b"alone").digest(27 * MIB)
SMALL = request("GET", "/v2/")
# so long one who takes nothing is borne where replies fill their room, and so much later others are answered
BORNE, LATER = 15, 4
CUT = "cut off"


def filled(room):
    """A file that has the two blobs."""
    db = prepared(room, "links")
    server = Server(db, stderr=subprocess.DEVNULL)
    for body in (BODY, ALONE):
        with server.connect() as connection:
            reply = answer(connection, push(body))
        say(reply is not None and reply[0] == 201, f"a blob of {len(body) // MIB} MiB is pushed")
    server.kill()
    return db


class Slow:
    """A server over a copy of a file, and what it says on standard error."""

    def __init__(self, db, name, *words, **how):
        self.path = f"{os.path.dirname(db)}/{name}.said"
        with open(self.path, "wb") as said:
            self.server = Server(copied(db, f"{os.path.dirname(db)}/{name}.db"), *words, stderr=said, **how)

    def cuts(self):
        """The lines that say of a reply that it was cut off."""
        with open(self.path, encoding="utf-8", errors="replace") as it:
            return [line for line in it if CUT in line]

    def pulls(self, count, body=BODY):
        """So many connections that take little at once, on which a blob is asked for."""
        connections = []
        for _ in range(count):
            it = socket.socket()
            it.setsockopt(socket.SOL_SOCKET, socket.SO_RCVBUF, 65_536)
            it.settimeout(SECONDS)
            it.connect(("127.0.0.1", self.server.port))
            it.sendall(request("GET", f"{AT}/blobs/{digest(body)}"))
            connections.append(it)
        return connections

    def asks(self):
        """A further connection, on which less is asked for."""
        connection = self.server.connect()
        connection.sendall(SMALL)
        return connection


def begin(pulls):
    """Waits until each has had the first byte of its reply, and gives those."""
    return [it.recv(1) for it in pulls]


def rest_of(connection, body=BODY):
    """What comes until the reply is whole or the connection ends."""
    had = bytearray()
    try:
        while not had.endswith(body[-64:]) and (more := connection.recv(MIB)):
            had += more
    except OSError:
        pass
    return bytes(had)


def is_whole(reply, body=BODY):
    return reply.startswith(b"HTTP/1.1 200 ") and reply.endswith(b"\r\n\r\n" + body)


def is_answered(connection):
    reply = answer(connection, b"")
    return reply is not None and reply[0] == 200


def sizes_of(replies):
    return ["".join(f"{len(it):,} bytes of {len(BODY):,}; " for it in replies)]


def stall(db):
    """links that take nothing for some seconds"""
    slow, seconds = Slow(db, "stalls", *BUFFER), 8
    deaf = slow.pulls(PULLS)
    firsts = begin(deaf)
    other = slow.asks()
    time.sleep(seconds)
    replies = [first + rest_of(it) for first, it in zip(firsts, deaf)]
    what = f"{PULLS} pulls of {len(BODY) // MIB} MiB over links that take nothing for {seconds} s"
    yield all(map(is_whole, replies)), f"{what}, while they fill the room for replies, are whole", sizes_of(replies)
    yield is_answered(other), "another who asks meanwhile has its reply"
    yield not slow.cuts(), "and nothing is said of them", slow.cuts()
    slow.server.kill()


def cut_off(db):
    """links that take nothing for long"""
    slow = Slow(db, "deaf", *BUFFER)
    deaf = slow.pulls(PULLS)
    firsts, start = begin(deaf), time.monotonic()
    answered, seconds = is_answered(slow.asks()), time.monotonic() - start
    held = answered and BORNE - 2 <= seconds <= BORNE + LATER
    yield held, f"who takes nothing gives way in the end to another who asks: after {seconds:.1f} s", [answered]
    cut = [not is_whole(first + rest_of(it)) for first, it in zip(firsts, deaf)]
    yield any(cut), "a reply is cut off then", [cut]
    yield len(slow.cuts()) == sum(cut), f"and there is a line for each of those that are ({sum(cut)})", slow.cuts()
    slow.server.kill()


def cut_off_by_idle(db):
    """a link that takes nothing for as long as may be"""
    slow = Slow(db, "idle", "--idle", "2")
    (deaf,) = slow.pulls(1)
    first = begin([deaf])[0]
    time.sleep(5)
    reply = first + rest_of(deaf)
    yield not is_whole(reply) and closed(deaf, 1), "so is one that nobody takes for as long as --idle says", sizes_of([reply])
    yield len(slow.cuts()) == 1, "and there is a line", slow.cuts()
    slow.server.kill()


def make_slowly(db, refusing):
    """a reply that takes long to make"""
    seconds = BORNE + 2
    waits, say_wait = os.pipe2(os.O_NONBLOCK)
    env = {"LD_PRELOAD": refusing.library, "SLOW_GROWTH": str(waits)}
    slow = Slow(db, "slow", *BUFFER, env=env, pass_fds=[waits])
    deaf = slow.pulls(PULLS - 1)
    begin(deaf)
    os.write(say_wait, bytes([seconds]))
    (pull,), other, start = slow.pulls(1, ALONE), slow.asks(), time.monotonic()
    (first,) = begin([pull])
    took = time.monotonic() - start
    time.sleep(3)
    reply = first + rest_of(pull, ALONE)
    what = f"a reply that took {took:.0f} s to make, beside {len(deaf)} that nobody takes, is whole"
    whole = is_whole(reply, ALONE) and took >= seconds
    yield whole, f"{what}, though it is taken only some seconds later", sizes_of([reply])
    yield is_answered(other), "another who asks has its reply"
    slow.server.kill()
    for it in (waits, say_wait):
        os.close(it)


def look_at_slow_links(refusing, room):
    db = filled(room)
    looks = [(it, db) for it in (stall, cut_off, cut_off_by_idle)]
    look_side_by_side([*looks, (make_slowly, db, refusing)])
