"""Measures whether time tells that another team holds bytes, over both layouts in one run.

    python3 -m bench.senses [--tries N] [--large N] [--size BYTES ..] [--layout LAYOUT] [--part warm|cold]

One team holds bytes. Another one, with a token and a repository of its own, pushes the same bytes (held) or
others of the same length (free), in random order: by a POST with all bytes, and by the PUT that closes a
session of one PATCH, and of sixteen. Before each of these the same client makes a small write and takes it
back, so that what an earlier try left to be done is done. The time is taken from the first byte sent to the
end of the reply; for a POST also from the last byte sent, and for a session also of all its requests. *warm*:
one server, which has answered before. *cold*: a server that was opened for each try over the same files,
which the system holds in no cache.

What is told of each case is the chance that a held one is the quicker, of two that are drawn: 0.5 is blind,
and where nothing is to be seen 400 tries of each give 0.5 with a deviation of 0.02. It is a measurement of
this machine, this program and these requests. Servers, clients and files are this machine's, over loopback.
Prints a table, and writes build/senses.json. Needs build/registry, and room for a GiB in build/. With 400
tries it takes some four hours, three of them for 32 MiB; with `--tries 150 --large 16` a quarter of an hour.
"""
import argparse
import bisect
import hashlib
import json
import math
import os
import random
import statistics
import subprocess
import sys
import tempfile
import time

from bench.layouts import LAYOUTS
from bench.servers import KIB, MIB, OCTETS, Firkhen, copy_database
from tools.shared import REGISTRY, digest

HELD, TRIED = "team/holds", "team/tries"
QUOTA = "9223372036854775807"
SIZES = (KIB, MIB, 8 * MIB, 32 * MIB)
# sizes from here on are tried `--large` times
LARGE = 8 * MIB
# the bytes that may be pushed to a warm server before what nothing names is cleared
CLEARED = 256 * MIB
# how many contents of the one team the other one may find
CONTENTS = 4
# of a case over `beside` the chance is to be within
LEAST, MOST = 0.40, 0.60
SMALL = digest(b"small")


class Bytes:
    """Bytes of a length that differ in their end, by number, and their digests, which a client has before it
    pushes them."""

    def __init__(self, size):
        self.size, self.first = size, random.Random(size).randbytes(size - 32)
        self.sum = hashlib.sha256(self.first)
        self.count = 0

    def numbered(self, number):
        """(put together anew, also those that were sent before: a client's own caches are to tell nothing)"""
        end, known = hashlib.sha256(b"%d of %d" % (number, self.size)).digest(), self.sum.copy()
        known.update(end)
        return self.first + end, "sha256:" + known.hexdigest()

    def new(self):
        """A number that was not used."""
        self.count += 1
        return self.count


class Team:
    """A team's token, its repository, and what it asks on a server's kept connection."""

    def __init__(self, token, repo):
        self.fields, self.at = {"Authorization": f"Bearer {token}"}, f"/v2/{repo}/blobs"

    def ask(self, peer, method, path, body=b""):
        """Where the reply leads, and the seconds from the first byte sent and from the last to its end."""
        head = peer.head(method, path, body, {**self.fields, **OCTETS})
        begun = time.perf_counter()
        peer.sock.sendall(head)
        peer.sock.sendall(body)
        sent = time.perf_counter()
        status, found = peer.read_head()
        if status != 204:
            peer.read_body(found)
        ended = time.perf_counter()
        if status not in (201, 202, 204):
            raise RuntimeError(f"{peer.name}: {method} {path}: {status}")
        return found.get("location"), ended - begun, ended - sent

    def push(self, peer, body, name):
        self.rest(peer)
        return self.ask(peer, "POST", f"{self.at}/uploads/?digest={name}", body)[1:]

    def close(self, peer, body, name, pieces):
        """A session of so many PATCHes: the seconds of the PUT that closes it, and of the whole."""
        self.rest(peer)
        (at, whole, _), step = self.ask(peer, "POST", f"{self.at}/uploads/"), len(body) // pieces
        for first in range(0, len(body), step):
            at, seconds, _ = self.ask(peer, "PATCH", at, body[first : first + step])
            whole += seconds
        seconds = self.ask(peer, "PUT", f"{at}?digest={name}")[1]
        return seconds, whole + seconds

    def rest(self, peer):
        """A small write that is taken back."""
        self.ask(peer, "POST", f"{self.at}/uploads/?digest={SMALL}", b"small")
        self.delete(peer, SMALL)

    def delete(self, peer, name):
        self.ask(peer, "DELETE", f"{self.at}/{name}")


HOLDER, OTHER = Team("t1", HELD), Team("t2", TRIED)

# what is tried: the names of its times, and how it is done
WAYS = (
    (("POST", "POST, behind its last byte"), OTHER.push),
    (("PUT behind one PATCH", "POST, PATCH and PUT"), lambda *it: OTHER.close(*it, 1)),
    (("PUT behind sixteen", "POST, 16 PATCHes and PUT"), lambda *it: OTHER.close(*it, 16)),
)


def registry(db, layout):
    """A new registry of two teams, of which neither has a level where the other has."""
    for token, repo in (("t1", HELD), ("t2", TRIED)):
        made = ["repo", "--db", db, *LAYOUTS[layout], "--name", repo, "--quota", QUOTA]
        granted = ["grant", "--db", db, "--token", token, "--name", repo, "--level", "3"]
        for words in (made, granted):
            subprocess.run([REGISTRY, *words], check=True)
    return db


class Quiet(Firkhen):
    """A server that is started too often for its line to be shown."""

    said = subprocess.DEVNULL


def drawn(tries, chance):
    """Whether each try is of held bytes: half of them are."""
    order = [True, False] * tries
    chance.shuffle(order)
    return order


def warm(peer, body, tries, chance):
    """The times of each way, by whether the bytes were held: one server."""
    contents, found, pushed = [body.new() for _ in range(CONTENTS)], [], 0
    for it in contents:
        HOLDER.push(peer, *body.numbered(it))
    for _, way in WAYS:
        times = {True: [], False: []}
        # (what comes first is not counted)
        for is_held in [None, *drawn(tries, chance)]:
            bytes_, name = body.numbered(chance.choice(contents) if is_held else body.new())
            seconds = way(peer, bytes_, name)
            OTHER.delete(peer, name)
            times.get(is_held, []).append(seconds)
            pushed += body.size
            if pushed > CLEARED:
                peer.order("clear")
                pushed = 0
        found.append(times)
    return found


def forget(db):
    """The system writes the files out and keeps none of their bytes."""
    for end in ("", "-wal", "-contents"):
        if os.path.exists(db + end):
            with open(db + end, "rb+") as it:
                os.fsync(it.fileno())
                os.posix_fadvise(it.fileno(), 0, 0, os.POSIX_FADV_DONTNEED)


def cold(peer, body, tries, chance):
    """The same of a server that is opened for each try, over files that are the same each time."""
    base, held = f"{peer.store}-base", body.new()
    HOLDER.push(peer, *body.numbered(held))
    HOLDER.rest(peer)
    peer.end()
    copy_database(peer.store, base)
    found = [{True: [], False: []} for _ in WAYS]
    for is_held in drawn(tries, chance):
        for at in chance.sample(range(len(WAYS)), len(WAYS)):
            bytes_, name = body.numbered(held if is_held else body.new())
            peer.end()
            copy_database(base, peer.store)
            forget(peer.store)
            peer.serve()
            found[at][is_held].append(WAYS[at][1](peer, bytes_, name))
    return found


PARTS = {"warm": warm, "cold": cold}


def taken(part, layout, size, tries, chance):
    """The times of a part over a new registry, whose server is ended."""
    with tempfile.TemporaryDirectory(dir="build") as folder:
        room = os.path.abspath(folder)
        new = registry(f"{room}/new.db", layout)
        peer = Quiet(layout, REGISTRY, new, room, takes_orders=True)
        try:
            return PARTS[part](peer, Bytes(size), tries, chance)
        finally:
            peer.end()


def quicker(held, free):
    """The chance that of a held one and a free one that are drawn the held one is the quicker."""
    free = sorted(free)
    pairs = sum(2 * len(free) - bisect.bisect_left(free, it) - bisect.bisect_right(free, it) for it in held)
    return pairs / (2 * len(held) * len(free))


def deviation(tries):
    """Of that chance, where nothing tells the two apart."""
    return math.sqrt((2 * tries + 1) / (12 * tries * tries))


def told_of(layout, part, size, found):
    """A row for each time of a way."""
    for (names, _), times in zip(WAYS, found):
        for at, what in enumerate(names):
            held, free = ([it[at] for it in times[is_held]] for is_held in (True, False))
            row = {"layout": layout, "part": part, "size": size, "what": what, "tries": len(held)}
            row |= {"held": statistics.median(held), "free": statistics.median(free)}
            yield {**row, "quicker": quicker(held, free)}


def in_words(size):
    return f"{size // MIB} MiB" if size >= MIB else f"{size // KIB} KiB"


def show(row):
    held, free = (f"{row[it] * 1e3:.2f}" for it in ("held", "free"))
    words = [row["layout"], row["part"], in_words(row["size"]), row["what"], row["tries"], held, free]
    print(f"| {' | '.join(map(str, words))} | {row['quicker']:.2f} |", flush=True)


def verdicts(rows):
    """Whether the cases over `beside` are within the aim, and by how much those that are not miss 0.5."""
    over = [it for it in rows if it["layout"] == "beside"]
    out = [it for it in over if not LEAST <= it["quicker"] <= MOST]
    if over:
        told = f"{len(over) - len(out)} of {len(over)} cases over beside are within {LEAST:.2f} to {MOST:.2f}"
        yield f"{'MISSED ' if out else 'reached'}  {told}"
    for it in out:
        sigmas = abs(it["quicker"] - 0.5) / deviation(it["tries"])
        case = f"{it['part']}, {in_words(it['size'])}, {it['what']}"
        yield f"  {case}: {it['quicker']:.2f}, {sigmas:.1f} deviations from 0.5"


def options():
    asked = argparse.ArgumentParser(description="Measures whether time tells that another team holds bytes.")
    asked.add_argument("--tries", type=int, default=400, help="of held bytes and of others, in each case")
    asked.add_argument("--large", type=int, help="the same of 8 MiB and more")
    asked.add_argument("--size", type=int, action="append", help="this length alone; may be said again")
    asked.add_argument("--layout", choices=LAYOUTS, help="this layout alone")
    asked.add_argument("--part", choices=PARTS, help="this part alone")
    asked.add_argument("--seed", type=int, default=1, help="of what is drawn")
    return asked.parse_args()


def run(asked, chance):
    """The rows of all cases, each said when it is taken."""
    for size in asked.size or SIZES:
        tries = asked.large or asked.tries if size >= LARGE else asked.tries
        for part in [asked.part] if asked.part else PARTS:
            for layout in [asked.layout] if asked.layout else LAYOUTS:
                begun = time.monotonic()
                found = taken(part, layout, size, tries, chance)
                for row in told_of(layout, part, size, found):
                    show(row)
                    yield row
                seconds = time.monotonic() - begun
                print(f"{layout}, {part}, {in_words(size)}: {seconds:.0f} s", file=sys.stderr)


def main():
    asked, begun = options(), time.monotonic()
    if not os.path.exists(REGISTRY):
        print("bench-senses needs build/registry", file=sys.stderr)
        return 2
    print("| layout | | size | time of | tries | held, ms | free, ms | held is quicker |")
    print("|---|---|---|---|---|---|---|---|")
    rows = list(run(asked, random.Random(asked.seed)))
    print("", *verdicts(rows), f"{time.monotonic() - begun:.0f} s", sep="\n")
    with open("build/senses.json", "w", encoding="utf-8") as it:
        json.dump(rows, it, indent=1)
    return 0


if __name__ == "__main__":
    sys.exit(main())
