"""Strangers without a token who hold room or places and say nothing more, and clients who ask beside them."""
import contextlib
import os
import subprocess
import time

from check.hostile.crowd import closed, prepared
from check.hostile.ordering import ordered
from check.hostile.said import look_side_by_side
from check.hostile.server import Server, answer
from check.hostile.writes import request
from tools.shared import digest

# a piece of what each holds is still to come
PIECE = 128 << 10
# the largest manifest: more of a request no connection holds
MANIFEST = 4 << 20
# so many hold most of one, under the least buffer: half of it, without the shares of all places and one largest
# request, they fill together (registry_server/specs/Room.antt)
PLACES, HOLDERS = 24, 16
LEAST = "--at-once", str(PLACES), "--buffer", str(128 << 20)
# who holds room or a place, and is silent, goes after so many seconds where another waits; where it was answered as
# one whose token is known
PATIENCE, PATIENCE_WITH_TOKEN = 5, 15
# so many seconds later somebody who waits is answered, other work on the machine included
LATER = 4


def collected(body):
    """A request whose body is collected whole, and what is answered where it is no manifest. (The body of an upload is
    staged, and takes no room of requests.)"""
    return request("PUT", "/v2/team/app/manifests/v1", body)


def pushed(body):
    """A push of a blob of these bytes, which is staged."""
    return request("POST", f"/v2/team/app/blobs/uploads/?digest={digest(body)}", body)


REFUSED = 400
# more than a connection may always hold
LARGE = collected(os.urandom(97 << 10))
SMALL = request("GET", "/v2/")
HALF_HEAD = b"GET /v2/ HTTP/1.1\r\nHost: r\r\n"
WITHOUT_BODY = b"POST /v2/team/app/blobs/uploads/ HTTP/1.1\r\nHost: r\r\nContent-Length: 10\r\n\r\n"
WITH_TOKEN = request("POST", "/v2/team/app/blobs/uploads/", bytes(10))


def quiet(room, name, *words):
    return Server(prepared(room, name), *words, stderr=subprocess.DEVNULL)


def without_token(text):
    return text.replace(b"Authorization: Bearer t1\r\n", b"")


def began(server, text):
    """A connection on which a part of a request was sent."""
    connection = server.connect()
    connection.sendall(text)
    return connection


def known(server, text):
    """The same on a connection on which a known token was answered before."""
    connection = server.connect()
    answer(connection, SMALL)
    connection.sendall(text)
    return connection


def waited(server, text, count=1, seconds=2 * PATIENCE + PATIENCE_WITH_TOKEN):
    """What so many clients are answered who come at once, and after how many seconds the last of them is."""
    start = time.monotonic()
    clients = [began(server, text) for _ in range(count)]
    statuses = []
    for it in clients:
        with it:
            it.settimeout(max(0.1, start + seconds - time.monotonic()))
            reply = answer(it, b"")
            statuses.append(reply and reply[0])
    return statuses, time.monotonic() - start


def in_time(found, wanted, least, most, what):
    """What is said of clients who waited so many seconds at least and at most."""
    statuses, seconds = found
    held = statuses == wanted and least <= seconds <= most
    return held, f"{what}: after {seconds:.1f} s", [f"{set(statuses)}, and not {set(wanted)} in {least} to {most} s"]


def all_read(server):
    """Waits until the server has read all that came, as the system tells it (/proc/net/tcp)."""
    at = f":{server.port:04X}"
    for _ in range(100):
        with open("/proc/net/tcp", encoding="ascii") as it:
            rows = [line.split() for line in it]
        if not any(row[1].endswith(at) and not row[4].endswith(":00000000") for row in rows):
            return
        time.sleep(0.05)


# ---- the room for requests


def fill_room(room):
    """strangers with most of a body each"""
    server = quiet(room, "filled", *LEAST)
    largest = without_token(pushed(bytes(64 << 20)))
    strangers = [began(server, without_token(collected(bytes(MANIFEST)))[:-PIECE]) for _ in range(HOLDERS)]
    strangers += [began(server, largest[: -4 << 20]) for _ in range(4)]
    all_read(server)
    for text, status, what in ((LARGE, REFUSED, "a manifest"), (pushed(os.urandom(97 << 10)), 201, "a blob")):
        what = f"strangers send most of large bodies and are silent: {what} of 97 KiB is answered at once"
        yield in_time(waited(server, text), [status], 0, LATER, what)
    gone = [closed(it, 0.1) for it in strangers]
    yield not any(gone), "none of them goes for that", [gone]
    replies = [answer(it, bytes(PIECE)) for it in strangers[:HOLDERS]]
    replies += [answer(it, bytes(4 << 20)) for it in strangers[HOLDERS:]]
    yield all(it and it[0] == 401 for it in replies), "each is refused once its body is whole", [replies]
    server.kill()


def drip_into_room(room):
    """clients with a known token who send more now and then"""
    idle, often, more = 4, 2.5, 70_000
    server = quiet(room, "dripped", *LEAST, "--idle", str(idle))
    text = collected(bytes(MANIFEST))[: MANIFEST - 4 * more]
    holders = [known(server, text) for _ in range(HOLDERS)]
    all_read(server)
    client, start = began(server, LARGE), time.monotonic()
    while time.monotonic() - start < 2 * idle:
        for it in holders:
            # (one who is let go sends no more)
            with contextlib.suppress(ConnectionError):
                it.sendall(bytes(more))
        time.sleep(often)
    for it in holders:
        it.close()
    reply = answer(client, b"")
    what = f"a manifest that the server does not read for {2 * idle} s, since others fill the room, is not closed for a silence of {idle} s"
    yield reply is not None and reply[0] == REFUSED, what, [reply]
    client.close()
    server.kill()


def hold_room(room, goes_on):
    """clients with a known token and most of a body each"""
    server = quiet(room, f"held-{goes_on}", *LEAST)
    text = collected(bytes(MANIFEST))
    sizes = [MANIFEST - (1 if at == 3 else 2) * PIECE for at in range(HOLDERS)]
    clients = [known(server, text[:size]) for size in sizes]
    all_read(server)
    if not goes_on:
        what = f"{HOLDERS} with a known token do so: another is answered, and not before"
        yield in_time(waited(server, LARGE), [REFUSED], PATIENCE_WITH_TOKEN - 2, PATIENCE_WITH_TOKEN + LATER, what)
        gone = [closed(it, 0.1) for it in clients]
        yield gone == [at == 3 for at in range(HOLDERS)], "the one goes that holds most, and nobody else", [gone]
    else:
        other = began(server, LARGE)
        time.sleep(PATIENCE + 3)
        replies = [answer(it, text[size:]) for it, size in zip(clients, sizes)] + [answer(other, b"")]
        statuses = [it and it[0] for it in replies]
        what = f"{HOLDERS} with a known token go on after {PATIENCE + 3} s: they are answered, and so is another"
        yield statuses == [REFUSED] * (HOLDERS + 1), what, [statuses]
    server.kill()


# ---- the room for bodies that are staged


def hold_stages(room, goes_on):
    """a client with a known token whose body takes all the room"""
    server = quiet(room, f"staged-{goes_on}", "--staged", str(64 << 20))
    text = pushed(bytes(64 << 20))
    client = known(server, text[: -4 << 20])
    all_read(server)
    small = pushed(os.urandom(97 << 10))
    if not goes_on:
        what = "a client with a known token whose body takes all the room for stages is silent: three wait, and are pushed"
        yield in_time(waited(server, small, 3), [201] * 3, PATIENCE_WITH_TOKEN - 2, PATIENCE_WITH_TOKEN + LATER, what)
        yield closed(client, 0.1), "it goes", []
    else:
        others = [began(server, small) for _ in range(3)]
        time.sleep(PATIENCE + 3)
        statuses = [it and it[0] for it in (answer(client, text[-4 << 20 :]), *(answer(it, b"") for it in others))]
        yield statuses == [201] * 4, f"it goes on after {PATIENCE + 3} s: it is pushed, and so are three who waited", [statuses]
    server.kill()


# ---- the places


def fill_places(room, places, text, what, seconds=PATIENCE, words=()):
    """places that are held"""
    server = quiet(room, f"places-{places}-{len(text)}-{len(words)}", "--at-once", str(places), *words)
    hold = known if text.startswith(WITH_TOKEN[:-10]) else began
    holders = [hold(server, text) for _ in range(places)]
    count = min(places, 4)
    found = waited(server, SMALL, count)
    most = seconds + LATER - 1
    what = f"{places} of {places} places are held by {what}: {count} who come are answered"
    yield in_time(found, [200] * count, 0 if words else seconds - 1, most, what)
    for it in holders:
        it.close()
    server.kill()


def hold_places(room):
    """places that are held by those with a known token, who go on"""
    server = quiet(room, "going-on", "--at-once", "8")
    holders = [known(server, WITH_TOKEN[:-10]) for _ in range(8)]
    others = [began(server, SMALL) for _ in range(4)]
    time.sleep(PATIENCE + 3)
    statuses = [it and it[0] for it in [*(answer(it, bytes(10)) for it in holders), *(answer(it, b"") for it in others)]]
    what = f"where they go on after {PATIENCE + 3} s, they are answered, and so are four who wait"
    yield statuses == [202] * 8 + [200] * 4, what, [statuses]
    server.kill()


def order_beside_one(room):
    """an order to a server of one place"""
    os.mkdir(f"{room}/one")
    server = quiet(room, "one/place", "--at-once", "1", "--orders", f"{room}/one/orders")
    with server.connect():
        start = time.monotonic()
        found = ordered(f"{room}/one/orders", "usage")
    held = found[0] == 0 and time.monotonic() - start < 3
    yield held, "of one place, which a silent client has, orders are taken at once", [found]
    server.kill()


PLACES_HELD = [
    (8, HALF_HEAD, "half heads"),
    (256, HALF_HEAD, "half heads"),
    (8, WITHOUT_BODY, "heads without their bodies"),
    (256, WITHOUT_BODY, "heads without their bodies"),
    (8, WITH_TOKEN[:-10], "heads of a known token without their bodies", PATIENCE_WITH_TOKEN),
    (1, b"", "one who is silent"),
    (1, HALF_HEAD, "half a head"),
    (1, b"", "one who is silent, which it may be for two seconds", PATIENCE, ("--idle", "2")),
]


def look_at_strangers(room):
    looks = [(it, room) for it in (fill_room, drip_into_room, hold_places, order_beside_one)]
    looks += [(it, room, goes_on) for it in (hold_room, hold_stages) for goes_on in (True, False)]
    looks += [(fill_places, room, *held) for held in PLACES_HELD]
    look_side_by_side(looks)
