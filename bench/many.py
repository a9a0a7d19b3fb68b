"""What is asked over many connections at once: small requests, small ones beside large ones, and nothing."""
import copy
import time
from contextlib import ExitStack

from bench.cases import MEDIA, manifest_of
from bench.crowding import crowd
from bench.driver import (
    FORKED,
    SECONDS,
    against_a_trivial_server,
    ask_when_due,
    burst,
    connect,
    replies_a_second,
    reply_size,
    take,
)
from bench.servers import IMAGES, KIB, MIB

AT_ONCE = (1, 8, 64, 256)
IDLE = 256
BURST = 250
# more clients than there are places, and how long it is waited for the replies
CROWD, PLACES, LONGEST = 600, 256, 12
# a round of one connection is in so many parts
PARTS = 4
# so many clients push so many blobs each, and beside them a GET is due each few seconds
CLIENTS, PUSHES, SIZE, EACH = 2, 3, 64 * MIB, 0.02
# and so many of them may wait at once
WAITING = 200
# an older server says nothing to a second client while it has a first
PATIENCE = 5


def row(count):
    return f"manifest GET, {count} at once"


def small_get(cases):
    """A GET of a manifest of some 500 bytes."""
    peer, blob = cases.peer, cases.fresh(KIB)
    peer.push(blob, IMAGES)
    path = f"/v2/{IMAGES}/manifests/v1"
    peer.request("PUT", path, manifest_of(blob, "small"), {"Content-Type": MEDIA})
    return peer.head("GET", path, fields={"Accept": MEDIA})


def serves_a_second(port, text, size):
    with connect(port), connect(port) as second:
        second.settimeout(PATIENCE)
        second.sendall(text)
        try:
            take(second, size)
        except TimeoutError:
            return False
        return True


def weigh(cases, text, size):
    """The server's memory before and with connections that have each had a reply and rest."""
    cases.weigh("no connection")
    with ExitStack() as stack:
        for _ in range(IDLE):
            sock = stack.enter_context(connect(cases.peer.port))
            sock.sendall(text)
            take(sock, size)
        cases.weigh(f"{IDLE} idle connections")


def push_some(peer, blobs, begin, told):
    try:
        peer.connect()
        begin.wait(SECONDS)
        for it in blobs:
            peer.push(it)
        told.send("")
    except (OSError, RuntimeError) as error:
        told.send(str(error))


def beside_pushes(cases, text, size):
    """A GET is due at each of many times, whether those before it have been answered or not."""
    begin, told, ran = FORKED.Event(), [], []
    for _ in range(CLIENTS):
        hear, tell = FORKED.Pipe(duplex=False)
        blobs = [cases.fresh(SIZE) for _ in range(PUSHES)]
        ran.append(FORKED.Process(target=push_some, args=(copy.copy(cases.peer), blobs, begin, tell)))
        ran[-1].start()
        told.append(hear)
    begin.set()
    began = time.perf_counter()
    took = ask_when_due(cases.peer.port, text, size, EACH, WAITING, lambda: any(it.is_alive() for it in ran))
    seconds = time.perf_counter() - began
    said = [it.recv() if it.poll(0) else "a client that pushes failed" for it in told]
    if any(said):
        raise RuntimeError("; ".join(filter(None, said)))
    took.sort()
    cases.keep("GET beside pushes, median", took[len(took) // 2])
    cases.keep("GET beside pushes, 99th percentile", took[len(took) * 99 // 100])
    cases.keep("GET beside pushes, the longest", took[-1])
    cases.keep("a push of 64 MiB beside them", seconds / (CLIENTS * PUSHES))


def crowd_in(cases, text, size):
    """600 clients on 256 places; where some have no reply at all, the time is how long they waited."""
    name = f"{CROWD} clients on {PLACES} places"
    took, none = crowd(cases.peer.port, text, size, CROWD, LONGEST)
    cases.keep(name, took)
    cases.plan.notes.append(f"{cases.peer.name}: {name}: {none} had no reply in {took:.1f} s")


def many(cases):
    peer, plan = cases.peer, cases.plan
    text = small_get(cases)
    # (one that serves a connection after the other has this one until it ends)
    peer.sock.close()
    peer.replies.close()
    size = reply_size(peer.port, text)
    together = serves_a_second(peer.port, text, size)
    if together:
        weigh(cases, text, size)
    else:
        plan.notes.append(f"{peer.name} serves one connection after the other: its rows of several are left out")
    for count in AT_ONCE if together else AT_ONCE[:1]:
        # (a single one is compared closely: more rounds, each short)
        parts = PARTS if count == 1 else 1
        rates = [
            replies_a_second(peer.port, text, size, count, plan.seconds / parts) for _ in range(plan.rounds * parts)
        ]
        cases.keep(row(count), 1 / max(rates), peer.peak())
    if together:
        took = min(burst(peer.port, text, size, BURST) for _ in range(plan.rounds))
        cases.keep(f"{BURST} connections that come at once", took)
        crowd_in(cases, text, size)
        beside_pushes(cases, text, size)


def driven(plan):
    """The same against a server that looks at nothing, which shows how fast the driver is at least."""
    found = {}
    for count in AT_ONCE:
        most = max(against_a_trivial_server(bytes(300), 700, count, plan.seconds / 2) for _ in range(2))
        found[f"{row(count)}, of a trivial server"] = 1 / most
    return found
