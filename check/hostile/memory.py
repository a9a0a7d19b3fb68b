"""Memory that is refused, one growth after the other."""
import os
import re
import subprocess

from tools.shared import EXAMPLES, REGISTRY, TOP, digest
from check.hostile.crowd import prepared
from check.hostile.said import say
from check.hostile.server import refuse_in_pushes, status_of_push
from check.hostile.worlds import EMPTY, copied, rows
from check.hostile.writes import ABC, AT, LAYOUTS, MADE_BESIDE, MANIFEST, NO_ROOM, ORDERS, WRITES
from check.hostile.writes import order, request

DATA = f"{TOP}/crates/registry_examples/data"

# Rows of the worked examples, by their files.
ROWS = [
    ("blobs", "push_then_get_of_a_blob"),
    ("uploads", "mount_between_own_repositories"),
    ("uploads", "session_ranges"),
    ("quota", "quota_of_pushes"),
    ("administrator", "clear_keeps_what_is_named"),
    ("administrator", "administrator_drops"),
    ("administrator", "revoke_takes_every_level"),
    ("administrator", "refused_commands"),
    ("manifests", "manifest_kept_to_the_byte"),
    ("referrers", "referrers_and_their_filter"),
    ("pages", "tag_pages"),
    ("contents", "pieces"),
]


def sections(file):
    """The sections of a file of examples, by their kinds and names, and what stands before the first."""
    with open(f"{DATA}/{file}.talk", encoding="utf-8") as it:
        parts = re.split(r"(?m)^(?=(?:example|setting|reply) )", it.read())
    return parts[0], {tuple(part.split("\n", 1)[0].split(" ")[:2]): part for part in parts[1:]}


def row_alone(file, name):
    """The row with the settings that it begins with, and what is shared by all files."""
    head, here = sections(file)
    with open(f"{DATA}/words.talk", encoding="utf-8") as it:
        shared = it.read()
    texts, after = [], ("example", name)
    while after in here:
        texts.insert(0, here[after])
        begins = here[after].split("\n", 1)[0].split(" after ")
        after = ("setting", begins[1]) if len(begins) > 1 else None
    return "\n".join([shared, head, *texts])


def refuse_in_row(refusing, room, file, name):
    """Refuses each growth in turn while a row is played, and returns how many of them there were, how many
    of these were the player's own, and what went wrong."""
    at = f"{room}/{name}"
    os.mkdir(at)
    text = row_alone(file, name)
    for to, talk in (("row", text), ("read", text.replace(f"example {name}", f"setting {name}"))):
        with open(f"{at}/{to}.talk", "w", encoding="utf-8") as it:
            it.write(talk)
    words = [EXAMPLES, "--patient"]
    # the same text with nothing to play: from where on growths are those of playing
    read = refusing.run([*words, "read.talk"], at=at)[1]
    played, own, n, bad = 0, 0, read, []
    while len(bad) < 3:
        n += 1
        try:
            ran, growths, _ = refusing.run([*words, "row.talk"], growth=n, at=at)
        except subprocess.TimeoutExpired:
            bad.append(f"growth {n}: the program hangs")
            continue
        if (ran.returncode, ran.stdout) != (0, f"row.talk: {name} ok\n".encode()):
            # the player ends so for want of memory of its own, and with status 0 whatever the registry answers
            if ran.returncode == 1 and not ran.stdout and ran.stderr.startswith(b"Error: "):
                own += 1
            else:
                bad.append(f"growth {n}: status {ran.returncode}: {(ran.stdout + ran.stderr)[-300:].decode(errors='replace')}")
        if n > growths:
            break
        played += 1
    return name, played, own, bad


def refuse_in_rows(refusing, room, pool):
    for name, played, own, bad in pool.map(refuse_in_row, [refusing] * len(ROWS), [room] * len(ROWS), *zip(*ROWS)):
        told = f"{name}: {played} growths refused in turn over maps and tables, {own} of them the player's own"
        say(not bad and played > own, told, bad)


LACKING = 3, b"", b"registry: out of memory\n"


def is_lacking(ran, given):
    """Whether a program says that memory was wanting: it ends so, or so answers a request."""
    if (ran.returncode, ran.stdout, ran.stderr) == LACKING:
        return True
    return given and (ran.returncode, ran.stdout) == (0, NO_ROOM)


def refuse_in_part(refusing, db, at, what, done, worlds, numbers):
    """Gives an order, or asks a request, with each of these growths refused in turn, on a copy of the file at
    a place of its own, and returns what went wrong. `what` is its words and what standard input has, `done`
    its status and its output where memory is ample, `worlds` what the file holds before it and after it."""
    bad, (words, given) = [], what
    for n in numbers:
        other = copied(db, at)
        ran, _, _ = refusing.run(words(other), growth=n, given=given)
        if (ran.returncode, ran.stdout) != done:
            if not is_lacking(ran, given):
                bad.append(f"growth {n}: status {ran.returncode}: {(ran.stdout + ran.stderr)[-200:]}")
            if rows(other) != worlds[0]:
                bad.append(f"growth {n}: something is changed")
            again, _, _ = refusing.run(words(other), given=given)
            if (again.returncode, again.stdout) != done:
                bad.append(f"growth {n}, and again: status {again.returncode}: {again.stderr[-200:]}")
        if rows(other) != worlds[1]:
            bad.append(f"growth {n}: another world")
        if len(bad) > 2:
            break
    return bad


def refuse_in_call(refusing, room, pool, db, name, what, numbers=slice(None), wanted=(b"", b"")):
    """Refuses these growths, else each, of an order over a file, or of a request, whose reply begins and ends
    as it is wanted; the file is as it is left afterwards. Returns how many growths there were."""
    (words, given), whole, share = what, f"{room}/whole.db", os.cpu_count()
    before = rows(copied(db, whole)) if os.path.exists(db) else EMPTY
    ran, growths, _ = refusing.run(words(whole), given=given)
    is_done = ran.returncode == 0 and ran.stdout.startswith(wanted[0]) and ran.stdout.endswith(wanted[1])
    say(is_done, f"{name} is done where memory is ample", [] if is_done else [ran])
    how = what, (ran.returncode, ran.stdout), (before, rows(whole))
    numbers = range(1, growths + 1)[numbers]
    each = [numbers[i::share] for i in range(share)]
    call = lambda it: pool.submit(refuse_in_part, refusing, db, f"{room}/part{it[0]}.db", *how, it)
    parts = [call(it) for it in each if it]
    bad = [it for part in parts for it in part.result()]
    say(not bad, f"{name}: {len(numbers)} growths refused in turn", bad)
    copied(whole, db)
    return len(numbers)


def refuse_in_order(refusing, room, pool, db, words):
    return refuse_in_call(refusing, room, pool, db, words(db)[1], (words, b""))


def refuse_in_orders(refusing, room, pool):
    total = sum(refuse_in_order(refusing, room, pool, f"{room}/orders.db", words) for words in ORDERS)
    print(f"      {total} growths of orders")


def stdio(db):
    return [REGISTRY, "stdio", "--db", db]


NO_REFERRERS = b'{"manifests":[],"mediaType":"application/vnd.oci.image.index.v1+json","schemaVersion":2}'
# Reads among the writes, with the status and the end of the reply.
READS = [
    ("pull a blob", (request("GET", f"{AT}/blobs/{digest(ABC)}"), 200, ABC)),
    ("pull a manifest", (request("GET", f"{AT}/manifests/v1"), 200, MANIFEST)),
    ("list the tags", (request("GET", f"{AT}/tags/list"), 200, b'"tags":["v1","v2"]}')),
    ("list the referrers", (request("GET", f"{AT}/referrers/{digest(MANIFEST)}"), 200, NO_REFERRERS)),
]
# Over a file whose contents are beside it: the making of one, and every order and request of a keeper's.
BESIDE = [("add a repository", MADE_BESIDE), *WRITES[1:11], *READS, *WRITES[11:]]


def refuse_beside(refusing, room, pool):
    """Each third growth of the making of a registry, and of an order with its opening; in what follows each
    that is behind the opening. A command that is refused counts those before: its last ones are its own."""
    db, total, own = f"{room}/beside.db", 0, 30
    for number, (name, what) in enumerate(BESIDE):
        call, wanted, numbers = (what, b""), (b"", b""), slice(None, None, 3)
        if not callable(what):
            call, wanted = (stdio, what[0]), (b"HTTP/1.1 %d " % what[1], what[2] if what[2:] else b"")
        if number > 1:
            _, opening, _ = refusing.run(order("drop", "--name", "no/such")(copied(db, f"{room}/opened.db")))
            numbers = slice(opening - own, None)
        total += refuse_in_call(refusing, room, pool, db, f"beside: {name}", call, numbers, wanted)
    print(f"      {total} growths over a file whose contents are beside it")


def refuse_on_sockets(refusing, room):
    """A server that lacks memory for a connection answers 503, or cannot read the request, and serves the next."""
    for layout in LAYOUTS:
        db = prepared(room, f"sockets-{layout}", 1000, layout)
        refuse_in_pushes(refusing, db, f"{room}/socket.db", [status_of_push] * 2, "two pushes", layout)
