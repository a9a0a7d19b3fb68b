"""What a database file holds, read by sqlite3, with the file of contents beside it if there is one."""
import os
import shutil
import sqlite3
import tempfile

EMPTY = {}, [], 2

# By schema: what is kept as bytes, by repository and key; the bytes of an upload session in the order of its pieces.
BYTES = {
    1: {
        "blobs": "SELECT repo, digest, bytes FROM registry_blobs",
        "manifests": "SELECT repo, digest, bytes FROM registry_manifests",
        "sessions": "SELECT repo, number, bytes FROM registry_sessions",
    },
    2: {
        "blobs": "SELECT repo, digest, bytes FROM registry_blob_links LEFT JOIN registry_contents ON content = id",
        "manifests": "SELECT repo, digest, bytes FROM registry_manifest_links LEFT JOIN registry_contents ON content = id",
        "sessions": """SELECT repo, number, CASE WHEN content IS NULL THEN X'' ELSE bytes END FROM registry_uploads
            LEFT JOIN registry_pieces USING (repo, number) LEFT JOIN registry_contents ON content = id
            ORDER BY repo, number, start""",
    },
    3: {
        "blobs": "SELECT repo, digest, bytes_in(content) FROM registry_blob_links",
        "manifests": "SELECT repo, digest, bytes_in(content) FROM registry_manifest_links",
        "sessions": """SELECT repo, number, CASE WHEN content IS NULL THEN X'' ELSE bytes_in(content) END
            FROM registry_uploads LEFT JOIN registry_pieces USING (repo, number) ORDER BY repo, number, start""",
    },
}


def parts_of(db):
    return [it for it in (db, db + "-wal", db + "-shm", db + "-journal", db + "-contents") if os.path.exists(it)]


def copied(db, to):
    """Copies a database with what is beside it, or takes the copy away where there is none; returns its path."""
    for it in parts_of(to):
        os.remove(it)
    for it in parts_of(db):
        shutil.copyfile(it, to + it[len(db):])
    return to


def world(db):
    """What a database says, by another program: repositories with their blobs, manifests, tags and sessions
    as whole bytes, grants, and the number of its schema. A file that is not there, or has no tables yet, is the
    empty world of schema 2."""
    if not os.path.exists(db):
        return EMPTY
    with tempfile.TemporaryDirectory() as room:
        return rows(copied(db, f"{room}/read.db"), is_checked=True)


def contents_beside(db, ask):
    """The bytes of each content by its id, at the places of the file of contents that the rows name."""
    with open(f"{db}-contents", "rb") as it:
        file = it.read()
    found = {}
    for content, at, size in ask("SELECT content, at, size FROM registry_places ORDER BY content, start"):
        found[content] = found.get(content, b"") + file[at : at + size]
    return found


def rows(db, is_checked=False):
    """The same of a file that nobody reads afterwards, and whether it is sound, where that is asked."""
    con = sqlite3.connect(db)
    ask = lambda text: con.execute(text).fetchall()
    try:
        if is_checked and (ask("PRAGMA integrity_check") != [("ok",)] or ask("PRAGMA foreign_key_check")):
            return "unsound"
        if not ask("SELECT 1 FROM sqlite_schema WHERE name = 'registry_schema'"):
            return EMPTY
        ((version,),) = ask("SELECT version FROM registry_schema")
        if version == 3:
            beside = contents_beside(db, ask)
            con.create_function("bytes_in", 1, lambda content: beside.get(content, b""))
        repos = {
            name: {"quota": quota, "last": last, "blobs": {}, "manifests": {}, "tags": {}, "sessions": {}}
            for name, quota, last in ask("SELECT name, quota, last_session FROM registry_repos")
        }
        for part, text in BYTES[version].items():
            for repo, key, kept in ask(text):
                repos[repo][part][key] = repos[repo][part].get(key, b"") + kept
        for repo, tag, name in ask("SELECT repo, tag, digest FROM registry_tags"):
            repos[repo]["tags"][tag] = name
        grants = sorted(ask("SELECT token, repo, level FROM registry_grants"))
        # (the tables of a registry beside are made before its first repository, which may be lacking)
        return (repos, grants, version) if repos or grants or version < 3 else EMPTY
    finally:
        con.close()
