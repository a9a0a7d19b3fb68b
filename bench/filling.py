"""Thousands of rows put into a store whose server is ended, as orders and pushes would have put them.

100,000 pushes would take most of an hour. So rows are inserted by sqlite3 into the closed file, and for
docker-registry files are written; both are first compared with what pushes of the same blobs leave, and rows of
other tables with what orders and pushes leave.
"""
import os
from contextlib import closing, contextmanager

try:
    import sqlite3
except ImportError:
    sqlite3 = None

REPO = "INSERT INTO registry_repos (name, quota, last_session) VALUES (?, ?, 0)"
GRANT = "INSERT INTO registry_grants (token, repo, level) VALUES (?, ?, 3)"
TAG = "INSERT INTO registry_tags (repo, tag, digest) VALUES (?, ?, ?)"
CONTENT = "INSERT INTO registry_contents (id, sha256, size, bytes) VALUES (?, ?, ?, ?)"
LINK = "INSERT INTO registry_blob_links (repo, digest, size, content) VALUES (?, ?, ?, ?)"
MANIFEST = (
    "INSERT INTO registry_manifest_links (repo, digest, size, kind, subject, content) VALUES (?, ?, ?, 1, ?, ?)"
)
NEXT = "SELECT coalesce(max(id), 0) + 1 FROM registry_contents"
TABLES = "SELECT name FROM sqlite_schema WHERE type = 'table' AND name NOT LIKE 'sqlite%'"
QUOTA = 9_223_372_036_854_775_807


def lacking():
    """What rows cannot be inserted for want of, or nothing. STRICT tables are read since 3.37."""
    if sqlite3 is None:
        return "Python's sqlite3"
    return "" if sqlite3.sqlite_version_info >= (3, 37) else f"SQLite 3.37, not {sqlite3.sqlite_version}"


class Rows:
    """What is put into one file, in one transaction. No bytes may be there already."""

    def __init__(self, db):
        self.db = db

    def add_repos(self, names):
        self.db.executemany(REPO, ((name, QUOTA) for name in names))

    def grant(self, token, repos):
        self.db.executemany(GRANT, ((token, repo) for repo in repos))

    def add_tags(self, repo, tags, digest):
        self.db.executemany(TAG, ((repo, tag, digest) for tag in tags))

    def add_contents(self, contents):
        """The id of the first; the others follow it."""
        first = self.db.execute(NEXT).fetchone()[0]
        rows = ((first + i, it.digest[7:], len(it.bytes), it.bytes) for i, it in enumerate(contents))
        self.db.executemany(CONTENT, rows)
        return first

    def add_blobs(self, repo, blobs):
        first = self.add_contents(blobs)
        self.db.executemany(LINK, ((repo, it.digest, len(it.bytes), first + i) for i, it in enumerate(blobs)))

    def add_manifests(self, repo, manifests, subject=None):
        """Image manifests, which have this subject."""
        first, refers = self.add_contents(manifests), subject and subject.digest
        rows = ((repo, it.digest, len(it.bytes), refers, first + i) for i, it in enumerate(manifests))
        self.db.executemany(MANIFEST, rows)


@contextmanager
def filling(path):
    """The log is brought into the file and goes as the connection is closed."""
    with closing(sqlite3.connect(path)) as db:
        db.execute("PRAGMA cache_size = -400000")
        with db:
            yield Rows(db)


def fill_rows(path, repo, blobs):
    with filling(path) as rows_of_file:
        rows_of_file.add_blobs(repo, blobs)


def rows(path):
    """All rows of all tables."""
    with closing(sqlite3.connect(path)) as db:
        names = [name for (name,) in db.execute(TABLES)]
        return {name: sorted(db.execute(f"SELECT * FROM {name}").fetchall(), key=repr) for name in names}


def write(path, data):
    os.makedirs(os.path.dirname(path), exist_ok=True)
    with open(path, "wb") as file:
        file.write(data)


def fill_files(root, repo, blobs):
    """The bytes, once for all repositories, and the link of the repository to them."""
    top = os.path.join(root, "docker/registry/v2")
    for it in blobs:
        write(f"{top}/blobs/sha256/{it.hex[:2]}/{it.hex}/data", it.bytes)
        write(f"{top}/repositories/{repo}/_layers/sha256/{it.hex}/link", it.digest.encode())


def files(root):
    """All files below a folder, by their paths from it."""
    found = {}
    for folder, _, names in os.walk(root):
        for name in names:
            path = os.path.join(folder, name)
            with open(path, "rb") as file:
                found[os.path.relpath(path, root)] = file.read()
    return found
