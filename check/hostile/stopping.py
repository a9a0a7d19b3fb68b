"""Servers that are asked to stop, by an order or by the end of standard input."""
import os
import shutil
import subprocess
import time

from tools.shared import REGISTRY, digest
from check.hostile.crowd import closed, works
from check.hostile.ordering import is_told, ordered, prepared, rows_of, told
from check.hostile.said import SECONDS, say
from check.hostile.server import Server, answer
from check.hostile.writes import ABC, AT, HELLO, push, request

# for so many seconds a server that is to stop waits for who has something in hand
PATIENCE = 10
# a page of the database has so many bytes
PAGE = 4096
QUIET = {"stderr": subprocess.DEVNULL}


def alone(db):
    """How many blobs the file has where its log is not beside it, and how long its log is."""
    copy, log = f"{db}-alone", f"{db}-wal"
    shutil.copy(db, copy)
    row = rows_of(told("usage", "--db", copy)[1]).get("team/app", "")
    return row.split()[2:3], os.path.getsize(log) if os.path.exists(log) else 0


def opened(server):
    """Where a new upload session is."""
    with server.connect() as connection:
        reply = answer(connection, request("POST", f"{AT}/blobs/uploads/"))
    return reply and reply[1]["location"]


def began(server, text, count):
    """A connection on which so many bytes of a request were sent."""
    connection = server.connect()
    connection.sendall(text[:count])
    return connection


def rest_of(connection):
    """What comes on a connection up to its end."""
    connection.settimeout(SECONDS)
    had = b""
    try:
        while more := connection.recv(65536):
            had += more
    except OSError:
        pass
    return had


def processor_time(server):
    with open(f"/proc/{server.process.pid}/stat", encoding="ascii") as it:
        fields = it.read().rsplit(")", 1)[1].split()
    return (int(fields[11]) + int(fields[12])) / os.sysconf("SC_CLK_TCK")


def stop_amid_work(server, db, stop, by, waits=lambda: True):
    """One who rests between two requests, one who never spoke, one amid the body of a PUT, and one who comes late."""
    say(works(server), f"by {by}: a server is at work")
    put = request("PUT", f"{opened(server)}?digest={digest(HELLO)}", HELLO)
    resting, quiet = server.connect(), server.connect()
    say((answer(resting, push(ABC)) or [None])[0] == 201, "one client has its reply, and rests")
    half = began(server, put, len(put) - 2)
    time.sleep(0.2)
    stop()
    began_at = time.monotonic()
    both = closed(resting, 2), closed(quiet, 2)
    is_told(both, (True, True), "who rests, and who never spoke, is let go")
    say(time.monotonic() - began_at < PATIENCE / 2, "and not only in the end")
    say(server.process.poll() is None, "the server waits for the one that is amid a body")
    say(waits(), "and who stops it waits for the server")
    late = began(server, push(ABC), 1 << 20)
    time.sleep(0.5)
    half.sendall(put[-2:])
    is_told(rest_of(half)[:13], b"HTTP/1.1 201 ", "which has its reply when the rest comes")
    say(server.process.wait(SECONDS) == 0, "then the server ends with status 0")
    say(time.monotonic() - began_at < PATIENCE, "before its patience is at its end")
    say(b"201" not in rest_of(late), "who came when it was to stop is not answered")
    blobs, log = alone(db)
    is_told(blobs, ["2"], "the file alone has all that was pushed")
    say(log < PAGE, f"and no page of it is in the log, which has {log} bytes")
    for it in (resting, quiet, half, late):
        it.close()
    server.process.stdout.close()


def asking(at):
    """Somebody who asks a server to stop, and waits until it has."""
    return subprocess.Popen([REGISTRY, "stop", "--orders", at], stdout=subprocess.PIPE, stderr=subprocess.PIPE)


def is_told_so(asked, what):
    try:
        said = asked.communicate(timeout=SECONDS)
    except subprocess.TimeoutExpired:
        asked.kill()
        said = asked.communicate()
    is_told((asked.returncode, *said), (0, b"", b""), what)


def stop_by_order(room):
    db, at = prepared(room, "stopped")
    server = Server(db, "--orders", at, **QUIET)
    asked = []
    stop_amid_work(server, db, lambda: asked.append(asking(at)), "an order", lambda: asked[0].poll() is None)
    is_told_so(asked[0], "who asked it to stop is told when it has")
    say(not os.path.exists(at), "its socket is gone")
    failed = f"registry: connection failure\nregistry: {at}: no server takes orders here\n".encode()
    is_told(ordered(at, "stop"), (4, b"", failed), "and who asks again is told that no server is there")


def stop_in_the_end(room):
    """One who never sends the rest of a head holds up the end for some time, and no longer."""
    db, at = prepared(room, "held")
    server = Server(db, "--orders", at, **QUIET)
    stalled = began(server, push(ABC), 20)
    time.sleep(0.2)
    began_at = time.monotonic()
    both = asking(at), asking(at)
    say(server.process.wait(SECONDS) == 0, "a server that is asked to stop amid half a head ends")
    took = time.monotonic() - began_at
    for asked in both:
        is_told_so(asked, "and each who asked is told")
    say(PATIENCE - 1 < took < 6 * PATIENCE, f"after {took:.1f} s")
    say(rest_of(stalled) == b"", "without a word to who stopped there")
    stalled.close()
    server.process.stdout.close()


def stop_by_input(room):
    db, _ = prepared(room, "piped")
    server = Server(db, "--stop-at-eof", stdin=subprocess.PIPE, **QUIET)
    server.process.stdin.write(b"nobody reads this\n" * 100)
    server.process.stdin.flush()
    before = processor_time(server)
    time.sleep(2)
    took = processor_time(server) - before
    say(took < 0.2, f"what waits on standard input costs nothing ({took:.2f} s of a processor in two)")
    stop_amid_work(server, db, server.process.stdin.close, "the end of standard input")


def watch_what_has_no_end(room):
    db, _ = prepared(room, "endless")
    words = [REGISTRY, "serve", "--db", db, "--listen", "127.0.0.1:0", "--stop-at-eof"]
    with open(__file__, "rb") as file:
        for name, given in (("the null device", subprocess.DEVNULL), ("a file", file)):
            ran = subprocess.run(words, stdin=given, capture_output=True, timeout=SECONDS)
            found = ran.returncode, ran.stdout, ran.stderr.splitlines()[-1:]
            wanted = 4, b"", [b"registry: connection failure"]
            is_told(found, wanted, f"where standard input is {name}, a server that is to end with it fails at once")
    server = Server(db, stdin=subprocess.PIPE, **QUIET)
    server.process.stdin.close()
    time.sleep(0.5)
    say(works(server), "without the option the end of standard input is nothing to a server")
    server.kill()


def stop_servers(room):
    stop_by_order(room)
    stop_in_the_end(room)
    stop_by_input(room)
    watch_what_has_no_end(room)
