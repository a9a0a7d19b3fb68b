"""Memory that is refused, a disk that stops, a server that is killed, a client that opens all it can, many at
once, orders beside them, strangers who hold what they can, and links, logs and descriptors that are short.

    python3 -m check.hostile [PART ..] [--kills N]

These parts, or all where none is named: memory, disk, full, kill, older, uploads, isolation, open, many,
orders, strangers, door, links, log, descriptors. Where a part looks at both layouts, its lines begin with the
one that they speak of.

The executables are the proved ones that `make build` and `make test` leave. refusing.rs, a library that is
loaded before a program, lets one growth of memory fail, or the disk stop at one write; `rustc` compiles it.
Nothing is installed. The status is 1 where something is wrong, and 3 where this cannot be run.

*memory*: rows of the worked examples are played over maps and tables with the Nth growth refused, for every N
up to a run that meets no refusal: each answer is the row's, or says that memory was wanting and is then the
row's when it is asked for again. Then each order of the administrator's over a file, and a file of schema 1
that is taken over: it is done, or says `registry: out of memory`, changes nothing, and is done when it is
given again. The same of a file whose contents are beside it: its making, an order with its opening, and
behind the opening every order and request that writes, and pulls and lists. A server over a socket answers
503 and goes on; a reply that it has no memory for is 503, and never a 200 without its body; over both
layouts.
*disk*: each kind of write, over a file in tables and then over one whose contents are beside it, whose disk
stops at the Nth write or sync, for every N up to a run without a stop. What is found afterwards is the world
before the write or the one after it, and the one after it where the write was answered so. Then a service
answers 500 and the program ends with status 3. A server one of whose writes fails answers 500, opens the file
again and serves the next connection. Then the same writes with a system that stops at any place in them: of
what was not synced nothing is left, or all, or a part, as it is drawn. A file of schema 1 that is taken over
is such a write.
*full*: a file of contents that may not grow, and a small disk that is full: what wants room is 503 and
changes no row, all else is answered as ever, and what a `clear` frees is room again.
*kill*: a server over either is killed at random moments of pushes, chunks, manifests, tags and deletions; all
that was acknowledged is there, byte for byte, and sqlite3 finds the file sound. Over contents beside it, so
is `registry clear`, and a server amid an order to clear and pushes.
*older*: an older copy of the database is put back beside a newer file of contents, in each order of push,
delete, clear and restart in between: it is refused where something was cleared, and else serves what it had;
then the newer one is put back in turn.
*isolation*: a team's recorded requests are answered equally, byte for byte, over tables and beside, used by
others and not.
*uploads*: over both, large bodies of eight connections, cut as drawn, are answered as alone, also where they
wait for room to be put aside; with a growth of memory refused they are 503; where a write fails amid a chunk
all of it is there, or nothing; and of servers that are killed amid eight uploads all that was acknowledged is
there.
*open*: a client opens 1,000 upload sessions over a file; the next is refused, in this repository alone, until
one ends; and where the numbers of sessions are used up none opens. A file that was taken over from schema 1
is asked the same as one that never was, by two teams together and by each alone.
*many*: clients that are idle, that stop in the middle of a head or a body, or that read nothing hold up
nobody; requests of many connections, interleaved as drawn, are answered as alone; who is silent is closed in
the end; and many large pushes at once take no more memory than they may. A listener that was handed over is
served.
*orders*: forty orders to a server that is pushed to are told what they would be told over a file, and are in
force for the next request; lines that are no orders, and callers that say nothing, change nothing and hold up
no request; of a server that is killed amid orders all that were done are there, and the next one takes its
socket over; who cannot take orders, or give them, is told why. `--log` says each request on a line, without
its token and its query; without it what fails is said alone, and why. A server that is asked to stop, by an
order or by the end of standard input, lets go who has nothing in hand, answers who has, and ends with status
0 and one file that holds all.
*strangers*: some without a token who fill the room for requests, or every place, and say nothing more: who
asks beside them waits some seconds. Who has a known token is borne longer; nobody goes for a silence that was
the server's.
*door*: 600 clients on 256 places, each of which asks again and again on a connection that it keeps: none is
left without a reply, and no push among them is lost.
*links*: replies over a link that stalls are whole when it goes on in time, and else cut off, which is said.
*log*: where nobody reads standard error requests go on; lines are short and few, and those left out are
counted.
*descriptors*: where the system gives fewer than there are places, who rests gives way, and a line says so.
"""
import concurrent.futures
import os
import subprocess
import sys
import tempfile
import time

from tools.shared import EXAMPLES, REGISTRY
from check.hostile.clear_kills import kill_amid_clear
from check.hostile.crashes import crash_in_writes
from check.hostile.crowd import serve_many
from check.hostile.descriptors import run_short
from check.hostile.disk import fail_once_on_sockets, stop_in_writes
from check.hostile.door import knock
from check.hostile.full_disk import fill_disks
from check.hostile.handing import hand_over
from check.hostile.isolation import keep_apart
from check.hostile.kills import kill_servers
from check.hostile.memory import refuse_beside, refuse_in_orders, refuse_in_rows, refuse_on_sockets
from check.hostile.migration import look_beside_a_new_file, refuse_in_migration, stop_in_migration
from check.hostile.older_copies import put_back_older
from check.hostile.ordering import give_orders
from check.hostile.refusing import Refusing
from check.hostile.replies import refuse_in_replies
from check.hostile.said import wrong
from check.hostile.sessions import open_sessions
from check.hostile.slow_links import look_at_slow_links
from check.hostile.stopping import stop_servers
from check.hostile.strangers import look_at_strangers
from check.hostile.unread_log import look_at_logs
from check.hostile.uploads import upload_large

# the status where a machine lacks what this needs
CANNOT_RUN = 3

def look_at_memory(refusing, room, _):
    with concurrent.futures.ProcessPoolExecutor(os.cpu_count()) as pool:
        refuse_in_rows(refusing, room, pool)
        refuse_in_orders(refusing, room, pool)
        refuse_beside(refusing, room, pool)
        refuse_in_migration(refusing, room, pool)
    refuse_on_sockets(refusing, room)
    refuse_in_replies(refusing, room)


def look_at_disk(refusing, room, _):
    for look in (stop_in_writes, fail_once_on_sockets, crash_in_writes, stop_in_migration):
        look(refusing, room)


def look_at_kills(_, room, kills):
    kill_servers(room, kills)
    kill_amid_clear(room, max(5, kills * 2 // 5))


def in_room(*looks):
    """Looks that want no more than a folder."""

    def look(_, room, __):
        for it in looks:
            it(room)

    return look


def look_at_orders(refusing, room, _):
    give_orders(refusing, room)
    stop_servers(room)


PARTS = {
    "memory": look_at_memory,
    "disk": look_at_disk,
    "full": in_room(fill_disks),
    "kill": look_at_kills,
    "older": in_room(put_back_older),
    "isolation": in_room(keep_apart),
    "uploads": upload_large,
    "open": in_room(open_sessions, look_beside_a_new_file),
    "many": in_room(serve_many, hand_over),
    "orders": look_at_orders,
    "strangers": in_room(look_at_strangers),
    "door": in_room(knock),
    "links": lambda refusing, room, _: look_at_slow_links(refusing, room),
    "log": in_room(look_at_logs),
    "descriptors": in_room(run_short),
}


def main():
    words = [it for it in PARTS if it in sys.argv[1:]] or PARTS
    kills = int(sys.argv[sys.argv.index("--kills") + 1]) if "--kills" in sys.argv else 20
    needed = [REGISTRY] + [EXAMPLES] * ("memory" in words)
    lacking = [it for it in needed if not os.path.exists(it)]
    if lacking:
        print(f"check-hostile needs {', '.join(lacking)}", file=sys.stderr)
        return 2
    # in memory, where there is such a place: nothing here is about what a power failure leaves
    with tempfile.TemporaryDirectory(dir="/dev/shm" if os.access("/dev/shm", os.W_OK) else None) as room:
        try:
            refusing = Refusing(room)
        except (OSError, subprocess.CalledProcessError) as error:
            print(f"check-hostile needs rustc, and a system that loads a library before a program: {error}", file=sys.stderr)
            return CANNOT_RUN
        for name in words:
            begun = time.monotonic()
            PARTS[name](refusing, room, kills)
            print(f"      {name}: {time.monotonic() - begun:.0f} s", flush=True)
    print(f"{len(wrong)} wrong" if wrong else "nothing was lost, and nothing answered wrongly")
    return 1 if wrong else 0


if __name__ == "__main__":
    sys.exit(main())
