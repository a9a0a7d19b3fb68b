"""Measures both layouts of contents in one run: openings, pushes and pulls over a kept connection.

    python3 -m bench.layouts [--quick]

What a registry holds before an opening is put there by sqlite3 (the bytes are zeros, and no opening reads them over a
pack). Each time is the least of its rounds, that of a small push the median of 200; the most memory is told beside an
opening and beside the rounds of a row. Needs build/registry and, without `--quick`, 3 GiB of room.
"""
import os
import sqlite3
import statistics
import sys
import tempfile
import time
from contextlib import closing

from bench.migration import run
from bench.servers import KIB, MANY, MIB, Blob, Firkhen, new_database
from tools.shared import REGISTRY

LAYOUTS = {"tables": (), "beside": ("--layout", "beside")}
BLOCK, HEAD = 4096, 8192


def fill(db, layout, count, size):
    """So many blobs, of zeros, under digests that are not theirs."""
    new_database(REGISTRY, db, LAYOUTS[layout])
    step = (size + BLOCK - 1) // BLOCK * BLOCK
    names = [f"{number:064x}" for number in range(1, count + 1)]
    with closing(sqlite3.connect(db)) as con, con:
        con.execute("PRAGMA synchronous = OFF")
        if layout == "tables":
            rows = ((name, size, size) for name in names)
            con.executemany("INSERT INTO registry_contents (sha256, size, bytes) VALUES (?, ?, zeroblob(?))", rows)
        else:
            con.executemany("INSERT INTO registry_contents (sha256, size) VALUES (?, ?)", ((name, size) for name in names))
            places = ((number + 1, size, HEAD + number * step) for number in range(count))
            con.executemany("INSERT INTO registry_places (content, start, size, at) VALUES (?, 0, ?, ?)", places)
            os.truncate(f"{db}-contents", HEAD + count * step)
        links = ((MANY, f"sha256:{name}", size, number) for number, name in enumerate(names, 1))
        con.executemany("INSERT INTO registry_blob_links (repo, digest, size, content) VALUES (?, ?, ?, ?)", links)


def opened(layout, count, size):
    """The seconds and the most memory of an opening."""
    with tempfile.TemporaryDirectory(dir="build") as room:
        fill(f"{room}/r.db", layout, count, size)
        rounds = [run(REGISTRY, "usage", "--db", f"{room}/r.db") for _ in range(3)]
        if any(status for status, _, _ in rounds):
            raise RuntimeError(f"an opening over {layout} ended with {rounds}")
        return min(seconds for _, seconds, _ in rounds), max(memory for _, _, memory in rounds)


def took(call):
    begun = time.perf_counter()
    call()
    return time.perf_counter() - begun


class Server:
    """A server over a new registry of a layout."""

    def __init__(self, room, layout):
        new = os.path.join(room, f"{layout}.db")
        new_database(REGISTRY, new, LAYOUTS[layout])
        os.mkdir(os.path.join(room, layout))
        self.peer, self.seed = Firkhen(layout, REGISTRY, new, os.path.join(room, layout)), 0

    def blob(self, size):
        self.seed += 1
        return Blob(size, f"{self.peer.name} {self.seed}")

    def push_small(self):
        times = [took(lambda: self.peer.push(self.blob(KIB))) for _ in range(200)]
        return statistics.median(times)

    def push(self, size):
        blobs = [self.blob(size) for _ in range(3)]
        return min(took(lambda it=it: self.peer.push(it)) for it in blobs)

    def push_in(self, pieces, size):
        def upload(blob):
            at, step = self.peer.begin(), size // pieces
            for first in range(0, size, step):
                at = self.peer.append(at, blob.bytes[first : first + step])
            self.peer.close(at, blob)

        blobs = [self.blob(size) for _ in range(3)]
        return min(took(lambda it=it: upload(it)) for it in blobs)

    def pull(self, size):
        """Of blobs that were not pulled before, so that none is kept in memory."""
        blobs = [self.blob(size) for _ in range(3)]
        for it in blobs:
            self.peer.push(it)
        return min(took(lambda it=it: self.peer.request("GET", f"/v2/team/app/blobs/{it.digest}")) for it in blobs)


def told(what, tables, beside):
    """A row: seconds (or milliseconds) and MiB of both, and the one as a part of the other."""
    show = lambda it: f"{it[0]:.2f} s | {it[1]:.0f}" if it[0] >= 1 else f"{it[0] * 1000:.1f} ms | {it[1]:.0f}"
    ratio = f"{beside[0] / tables[0]:.2f}" if tables else ""
    print(f"| {what} | {show(tables) if tables else ' | '} | {show(beside)} | {ratio} |", flush=True)


def main():
    is_quick = "--quick" in sys.argv
    print("| what | tables | MiB | beside | MiB | ratio |\n|---|---|---|---|---|---|")
    many = 10_000 if is_quick else 100_000
    told(f"opening {many:,} blobs of 1 KiB", opened("tables", many, KIB), opened("beside", many, KIB))
    large = 16 if is_quick else 100
    told(f"opening {large} blobs of 10 MiB", opened("tables", large, 10 * MIB), opened("beside", large, 10 * MIB))
    told("opening 1,000 blobs of 10 MiB", None, opened("beside", 1_000, 10 * MIB))
    size = (4 if is_quick else 64) * MIB
    rows = [
        ("push of 1 KiB", lambda it: it.push_small()),
        (f"push of {size // MIB} MiB", lambda it: it.push(size)),
        ("the same by one PATCH", lambda it: it.push_in(1, size)),
        ("the same by 16", lambda it: it.push_in(16, size)),
        ("its first pull", lambda it: it.pull(size)),
    ]
    with tempfile.TemporaryDirectory(dir="build") as room:
        servers = [Server(room, layout) for layout in LAYOUTS]
        for what, measure in rows:
            found = []
            for it in servers:
                it.peer.forget_peak()
                found.append((measure(it), it.peer.peak()))
            told(what, *found)
        for it in servers:
            it.peer.end()


if __name__ == "__main__":
    main()
