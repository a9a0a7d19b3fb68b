"""A log that nobody reads, and requests that would fill it."""
import contextlib
import fcntl
import os
import re
import time

from check.hostile.crowd import prepared, works
from check.hostile.said import look_side_by_side
from check.hostile.server import Server, answer
from check.hostile.telling import LINE
from check.hostile.writes import NO_TOKEN

# the most bytes of a line, with --log and without it, and how many a second are said without it
MOST, MOST_WITHOUT, A_SECOND = 4_096, 300, 10
COUNT = 100
# a time, which stands before what is said; a line of a request; and what is said of those that have none
TIME = re.compile(r"\d{4}-\S+ ")
REQUEST = re.compile(r"\S+ (?:\d+|-) (?:[A-Z]+|-) ")
LEFT_OUT = re.compile(r"left out:? (\d+)"), re.compile(r"(\d+)\D*left out")


def too_large(length):
    """What a stranger is answered 413, which is said also without --log; its path has some so many bytes."""
    path = f"/v2/{'x' * length}/blobs/uploads/"
    return f"POST {path} HTTP/1.1\r\nHost: r\r\nContent-Length: 99999999999\r\n\r\n".encode()


def statuses_of(server, text, count):
    """What so many are answered one after the other, each on a connection of its own, up to one who is not answered
    within some seconds."""
    statuses = []
    while len(statuses) < count and None not in statuses:
        with server.connect() as connection:
            connection.settimeout(3)
            reply = answer(connection, text)
        statuses.append(reply and reply[0])
    return statuses


def left_out(line):
    """How many lines this one says were left out."""
    said = TIME.sub("", line, count=1)
    found = next(filter(None, (it.search(said) for it in LEFT_OUT)), None)
    return int(found[1]) if found else 0


def counts_of(lines):
    """How many requests have a line, and how many are said to have none."""
    return sum(bool(REQUEST.match(it)) for it in lines), sum(map(left_out, lines))


class Clogged:
    """A server whose standard error is a full pipe."""

    def __init__(self, db, *words):
        self.out, into = os.pipe()
        fcntl.fcntl(into, fcntl.F_SETPIPE_SZ, 16_384)
        self.server = Server(db, *words, stderr=into)
        # of the same pipe, without a change of how the server has it
        again = os.open(f"/proc/self/fd/{into}", os.O_WRONLY | os.O_NONBLOCK)
        for size in (4_096, 1):
            with contextlib.suppress(BlockingIOError):
                while os.write(again, b"\n" * size):
                    pass
        os.close(again)
        os.close(into)

    def lines(self):
        """What is there to be read."""
        os.set_blocking(self.out, False)
        had = b""
        with contextlib.suppress(BlockingIOError):
            while more := os.read(self.out, 65_536):
                had += more
        return had.decode().splitlines(keepends=True)

    def end(self):
        self.server.kill()
        os.close(self.out)


def clog(room, name, text, status, *words):
    """a server whose standard error is a full pipe"""
    clogged = Clogged(prepared(room, name), *words)
    said = f"beside a log that nobody reads, {' '.join(words) or 'without --log'}:"
    found = statuses_of(clogged.server, text, COUNT)
    yield found == [status] * COUNT, f"{said} {COUNT} requests are answered", [f"{len(found)}, the last of them {found[-1]}"]
    if None not in found:
        yield works(clogged.server), f"{said} a push and a pull"
        clogged.lines()
        time.sleep(1.2)
        found += statuses_of(clogged.server, text, 1)
        time.sleep(1.2)
        lines = clogged.lines()
        counts, wanted = counts_of(lines), (1, COUNT + (2 if words else 0))
        yield counts == wanted, f"{said} when it is read, {wanted[1]} requests are said to be left out", [f"{counts}: {lines[:3]}"]
    clogged.end()


def lose_reader(room):
    """a server whose standard error has no reader any more"""
    out, into = os.pipe()
    server = Server(prepared(room, "reader-gone"), "--log", stderr=into)
    os.close(into)
    os.close(out)
    found = statuses_of(server, NO_TOKEN, 20)
    yield found == [401] * 20 and works(server), "where the reader of standard error has gone, requests go on", [found]
    server.kill()


def flood(room):
    """strangers who make lines without --log"""
    path = f"{room}/flooded.said"
    with open(path, "wb") as said:
        server = Server(prepared(room, "flooded"), stderr=said)
    start = time.monotonic()
    statuses = statuses_of(server, too_large(2_000), COUNT)
    seconds = time.monotonic() - start
    time.sleep(1.2)
    statuses += statuses_of(server, too_large(2_000), 1)
    time.sleep(1.2)
    with open(path, encoding="ascii") as it:
        lines = it.readlines()[1:]
    yield statuses == [413] * (COUNT + 1), f"{COUNT} requests of strangers in {seconds:.1f} s are answered 413", [statuses[-1]]
    most = A_SECOND * (int(seconds) + 2) + 1
    said, others = counts_of(lines)
    yield 0 < said <= most, f"without --log {said} of them have a line, and {most} at most", [said]
    yield said + others == COUNT + 1 and others > 0, f"{others} are said to be left out", [f"{said} and {others} of {COUNT + 1}"]
    long = [f"{len(it)} bytes" for it in lines if len(it) > MOST_WITHOUT]
    yield not long, f"and no line has more than {MOST_WITHOUT} bytes", long
    server.kill()


def write_long_lines(room):
    """requests with long paths"""
    path = f"{room}/long.said"
    with open(path, "wb") as said:
        server = Server(prepared(room, "long"), "--log", stderr=said)
    # (of which some bytes take three in a line, where they are no request that cannot be read)
    paths = [byte * (8_000 // len(byte)) for byte in (b"x", b"%41", b'"', b"\\", b"\xc3\xa9", b"\x01", b"\x7f")]
    statuses = [statuses_of(server, NO_TOKEN.replace(b"/v2/", b"/v2/" + it), 1)[0] for it in paths]
    statuses += statuses_of(server, NO_TOKEN, 1)
    time.sleep(0.5)
    with open(path, "rb") as it:
        lines = it.readlines()[1:]
    sizes = [len(it) for it in lines]
    held = len(lines) == len(statuses) and max(sizes) <= MOST and all(it.isascii() for it in lines)
    yield held, f"with --log no line of a long path has more than {MOST:,} bytes", [f"{statuses}: lines of {sizes} bytes"]
    last = lines[-1].decode(errors="replace") if lines else ""
    yield LINE.fullmatch(last), "and the next one is as always", [last]
    server.kill()


def look_at_logs(room):
    clogs = [(clog, room, "clogged", too_large(2_000), 413), (clog, room, "clogged-log", NO_TOKEN, 401, "--log")]
    look_side_by_side([*clogs, *((it, room) for it in (lose_reader, flood, write_long_lines))])
