"""A disk that stops at a write, and one of whose writes fails."""
import os
import subprocess

from tools.shared import REGISTRY
from check.hostile.said import say
from check.hostile.server import pushes_on_sockets
from check.hostile.worlds import copied, world
from check.hostile.writes import ABC, FAILED, NO_ROOM, NO_TOKEN, ORDERS, UNAUTHORIZED, WRITES, WRITES_BESIDE, push

STOPPED = (3, b"registry: storage failure\n")


def do(refusing, db, what, stop=0):
    """Does a write; returns whether it was acknowledged, how many writes to the file that took, and why the
    answer is none that it may get."""
    if callable(what):
        ran, _, writes = refusing.run(what(db), stop=stop)
        done = ran.returncode == 0
        bad = "" if done or (ran.returncode, ran.stderr) == STOPPED else f"status {ran.returncode}: {ran.stderr}"
        return done, writes, bad
    text, status = what
    # a request with no token follows: a service whose storage has failed answers nothing else
    ran, _, writes = refusing.run([REGISTRY, "stdio", "--db", db], stop=stop, given=text + NO_TOKEN)
    done = ran.stdout.startswith(f"HTTP/1.1 {status} ".encode())
    if done:
        # the storage may still fail at the end, when the log is put back
        bad = "" if UNAUTHORIZED in ran.stdout and ran.returncode in (0, 3) else f"{ran.returncode} {ran.stdout} {ran.stderr}"
    elif ran.stdout.startswith(NO_ROOM + UNAUTHORIZED) and os.path.exists(f"{db}-contents"):
        # the file of contents did not take the bytes: there is no room for them, and the storage has not failed
        bad = "" if ran.returncode in (0, 3) else f"{ran.returncode} {ran.stderr}"
    elif ran.stdout:
        bad = "" if ran.stdout == FAILED * 2 and (ran.returncode, ran.stderr) == STOPPED else f"{ran.returncode} {ran.stdout} {ran.stderr}"
    else:
        # the database is not opened
        bad = "" if (ran.returncode, ran.stderr) == STOPPED else f"{ran.returncode} {ran.stderr}"
    return done, writes, bad


def is_opened(refusing, db):
    """Whether the registry opens the file and reads its log; one of the older schema it refuses, as it should."""
    ran, _, _ = refusing.run([REGISTRY, "usage", "--db", db])
    found = world(db)
    wanted = (3, b"registry: schema 1 is not supported\n") if found[2] == 1 else (0, b"")
    return found, (ran.returncode, ran.stderr) == wanted


def stop_in_write(refusing, room, db, name, what):
    """Stops the disk at each write to a file, which is as the whole of them leaves it afterwards; returns how many
    stops there were."""
    before, whole = world(db), copied(db, f"{room}/whole.db")
    done, writes, bad = do(refusing, whole, what)
    after = world(whole)
    say(done and not bad, f"{name}: it is done where the disk goes on{bad and ': '}{bad}")
    wrong_ones, were = [], [0, 0]
    for n in range(1, writes + 1):
        other = copied(db, f"{room}/stopped.db")
        done, _, bad = do(refusing, other, what, stop=n)
        # opened again by the registry itself, which reads the log, and looked at by another program
        found, opened = is_opened(refusing, other)
        if bad or not opened or found not in (before, after) or done and found != after:
            why = bad or ("acknowledged, and lost" if done else "another world") if opened else "it is not opened"
            wrong_ones.append(f"stop {n}: {why}")
        were[found == after] += 1
    told = f"{name}: {writes} stops, {were[0]} with the world before and {were[1]} with the one after"
    say(not wrong_ones, told, wrong_ones)
    copied(whole, db)
    return writes


def stop_in_writes(refusing, room):
    for db, writes in (("stops.db", WRITES), ("stops_beside.db", WRITES_BESIDE)):
        total = sum(stop_in_write(refusing, room, f"{room}/{db}", name, what) for name, what in writes)
        print(f"      {total} stops")
    write_nowhere(refusing, room)


def write_nowhere(refusing, room):
    """Where the storage fails, and the reply that says so cannot be written, the status is that of the connection."""
    db, n = f"{room}/nowhere.db", 0
    for words in (ORDERS[0], ORDERS[2]):
        subprocess.run(words(db), check=True)
    stdio = lambda: [REGISTRY, "stdio", "--db", copied(db, f"{room}/stopped.db")]
    for n in range(1, 100):
        if refusing.run(stdio(), stop=n, given=push(ABC))[0].stdout == FAILED:
            break
    with open("/dev/full", "wb") as out:
        ran, _, _ = refusing.run(stdio(), stop=n, given=push(ABC), out=out)
    say(
        (ran.returncode, ran.stderr) == (4, b"registry: connection failure\n"),
        f"a storage failure whose reply cannot be written ends with status 4: {ran.returncode} {ran.stderr}",
    )


def fail_once_on_sockets(refusing, room):
    """A server one of whose writes fails answers 500, opens the file again, and serves the next connection."""
    db, at = f"{room}/once.db", f"{room}/failed.db"
    for words in (ORDERS[0], ORDERS[2]):
        subprocess.run(words(db), check=True)
    _, _, writes = pushes_on_sockets(refusing, copied(db, at))
    wanted, seen, bad = world(at), {}, []
    for n in range(1, writes + 1):
        try:
            statuses, _, _ = pushes_on_sockets(refusing, copied(db, at), write=n)
        except OSError:
            # the file is not opened
            continue
        seen[tuple(statuses)] = seen.get(tuple(statuses), 0) + 1
        if statuses not in ([201, 201], [500, 201], [201, 500]) or world(at) != wanted:
            bad.append(f"write {n}: {statuses}")
    told = f"{writes} writes that fail once under a server, answered {', '.join(f'{k}: {v}' for k, v in seen.items())}"
    say(not bad and (500, 201) in seen, told, bad)
