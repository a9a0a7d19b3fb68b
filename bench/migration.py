"""Measures `registry migrate` over files of schema 1 that sqlite3 makes: blobs of half a MiB each, as many as make
up the sizes that are given in MiB (else 64 and 1024). Every third has the bytes of the one before it, and is in a
repository of its own.

Prints for each file its size, the time and the most memory of an opening alone (an order that refuses the file for
its schema), of the migration, and of an order over what it leaves. Needs build/registry and twice the file's room.
"""
import os
import random
import sqlite3
import subprocess
import sys
import tempfile
import time

from check.old_file import TABLES
from tools.shared import digest

REGISTRY = os.path.abspath("build/registry")
BLOB = 1 << 19


def make(db, size):
    chance, con = random.Random(size), sqlite3.connect(db)
    con.executescript(TABLES)
    con.execute("PRAGMA synchronous = OFF")
    con.executemany("INSERT INTO registry_repos VALUES (?, 1099511627776, 0)", [("team/app",), ("team/lib",)])
    for number in range((size << 20) // BLOB):
        # two of three are in one repository alone, and the third is the one before it, in the other one
        if number % 3 < 2:
            body = chance.randbytes(BLOB)
        row = ("team/lib" if number % 3 == 2 else "team/app", digest(body), BLOB, body)
        con.execute("INSERT INTO registry_blobs VALUES (?, ?, ?, ?)", row)
    con.commit()
    con.close()


def run(*words):
    """The status of a program, its seconds and its most memory in MiB."""
    begun = time.monotonic()
    process = subprocess.Popen(words, stdout=subprocess.DEVNULL, stderr=subprocess.DEVNULL)
    _, status, used = os.wait4(process.pid, 0)
    return os.waitstatus_to_exitcode(status), time.monotonic() - begun, used.ru_maxrss / 1024


def main():
    sizes = [int(it) for it in sys.argv[1:]] or [64, 1024]
    print("| file | what | seconds | MiB |\n|---|---|---|---|")
    for size in sizes:
        with tempfile.TemporaryDirectory(dir="build") as room:
            db = f"{room}/old.db"
            make(db, size)
            made = os.path.getsize(db)
            for what, wanted, words in (
                ("opening", 3, ("usage", "--db", db)),
                ("migrate", 0, ("migrate", "--db", db)),
                ("usage afterwards", 0, ("usage", "--db", db)),
            ):
                status, seconds, memory = run(REGISTRY, *words)
                note = "" if status == wanted else f" (status {status})"
                print(f"| {made / (1 << 20):,.0f} MiB | {what}{note} | {seconds:.1f} | {memory:,.0f} |", flush=True)
            print(f"(the file has {os.path.getsize(db) / (1 << 20):,.0f} MiB then)")
    return 0


if __name__ == "__main__":
    sys.exit(main())
