"""Replies for which memory is refused."""
import hashlib
import socket
import subprocess

from check.hostile.crowd import prepared
from check.hostile.said import say
from check.hostile.server import Server, answer, asked_on_sockets
from check.hostile.worlds import copied
from check.hostile.writes import AT, CONFIG, LAYOUTS, MANIFEST, push, request
from tools.shared import digest

BODY = hashlib.shake_256(b"a reply").digest(300_000)
BLOB, WHOLE, REFUSED, NOTHING = f"{AT}/blobs/{digest(BODY)}", "200", "503", "nothing"
# so many growths are the last of a request
LAST = 60
# what is asked for, and the body of the reply
ASKED = [
    (BLOB, BODY),
    (f"{AT}/manifests/v1", MANIFEST),
    (f"{AT}/tags/list", b'{"name":"team/app","tags":["v1"]}'),
]


def filled(room, layout):
    db = prepared(room, f"replies-{layout}", layout=layout)
    server = Server(db, stderr=subprocess.DEVNULL)
    texts = [push(BODY), push(CONFIG), request("PUT", f"{AT}/manifests/v1", MANIFEST)]
    with server.connect() as connection:
        statuses = [reply and reply[0] for reply in (answer(connection, it) for it in texts)]
    server.kill()
    held = statuses == [201] * 3
    say(held, f"{layout}: a blob and a manifest are pushed", [] if held else [statuses])
    return db


def asking_for(target, body):
    """One who asks, and ends its output: it finds what came, to the last byte."""

    def ask(connection):
        had = b""
        try:
            connection.sendall(request("GET", target))
            connection.shutdown(socket.SHUT_WR)
            while more := connection.recv(65_536):
                had += more
        except OSError:
            pass
        head, parted, found = had.partition(b"\r\n\r\n")
        if head.startswith(b"HTTP/1.1 200 ") and parted and found == body:
            return WHOLE
        if head.startswith(b"HTTP/1.1 503 ") and parted and not found:
            return REFUSED
        return f"{had[:15]} .. with {len(found)} bytes of {len(body)}" if had else NOTHING

    return ask


def says_nothing(connection):
    connection.shutdown(socket.SHUT_WR)
    return connection.recv(1)


def refuse_in_reply(refusing, db, at, least, target, body, layout):
    """A growth is refused that the connection makes, or the request: at first each fifth, and in the end, where the
    reply is made, each."""
    ask, seen, bad = asking_for(target, body), {}, []
    (found,), most, _ = asked_on_sockets(refusing, copied(db, at), [ask])
    told = f"{layout}: GET {target[:24]} is answered, in {most - least} growths"
    say(found == WHOLE, told, [] if found == WHOLE else [found])
    for growth in (*range(least, most - LAST, 5), *range(max(least, most - LAST), most + 1)):
        (found,), _, _ = asked_on_sockets(refusing, copied(db, at), [ask], growth=growth)
        seen[found] = seen.get(found, 0) + 1
        # (a connection for which there is no memory may have no reply)
        if found not in ((WHOLE, REFUSED, NOTHING) if growth <= least else (WHOLE, REFUSED)):
            bad.append(f"growth {growth - least}: {found}")
    told = ", ".join(f"{what}: {count}" for what, count in seen.items())
    say(not bad and REFUSED in seen, f"{layout}: growths refused to it in turn: {told}", bad)


def refuse_in_replies(refusing, room):
    for layout in LAYOUTS:
        db, at = filled(room, layout), f"{room}/reply.db"
        _, least, _ = asked_on_sockets(refusing, copied(db, at), [says_nothing])
        for target, body in ASKED:
            refuse_in_reply(refusing, db, at, least, target, body, layout)
