"""The tables and indexes of a registry's file, as docs/STORE.md has them."""

# name: (columns as PRAGMA table_info has them: name, type, NOT NULL, place in the primary key), foreign keys
TEXT, NUMBER, BLOB = "TEXT", "INTEGER", "BLOB"
TABLES = {
    "registry_schema": [("version", NUMBER, 1, 0)],
    "registry_repos": [("name", TEXT, 1, 1), ("quota", NUMBER, 1, 0), ("last_session", NUMBER, 1, 0)],
    "registry_grants": [("token", TEXT, 1, 1), ("repo", TEXT, 1, 2), ("level", NUMBER, 1, 0)],
    "registry_tags": [("repo", TEXT, 1, 1), ("tag", TEXT, 1, 2), ("digest", TEXT, 1, 0)],
    "registry_contents": [("id", NUMBER, 0, 1), ("sha256", TEXT, 1, 0), ("size", NUMBER, 1, 0), ("bytes", BLOB, 1, 0)],
    "registry_blob_links": [("repo", TEXT, 1, 1), ("digest", TEXT, 1, 2), ("size", NUMBER, 1, 0), ("content", NUMBER, 1, 0)],
    "registry_manifest_links": [
        ("repo", TEXT, 1, 1),
        ("digest", TEXT, 1, 2),
        ("size", NUMBER, 1, 0),
        ("kind", NUMBER, 1, 0),
        ("subject", TEXT, 0, 0),
        ("content", NUMBER, 1, 0),
    ],
    "registry_uploads": [("repo", TEXT, 1, 1), ("number", NUMBER, 1, 2), ("size", NUMBER, 1, 0)],
    "registry_pieces": [
        ("repo", TEXT, 1, 1),
        ("number", NUMBER, 1, 2),
        ("start", NUMBER, 1, 3),
        ("size", NUMBER, 1, 0),
        ("content", NUMBER, 1, 0),
    ],
}
WITHOUT_REPO = {"registry_schema", "registry_repos", "registry_contents"}
INDEXES = {"registry_manifest_links_subject", "registry_contents_sha256"}

# those of a registry whose contents are beside it
TABLES_BESIDE = {
    **TABLES,
    "registry_pack": [("mark", BLOB, 1, 0), ("age", NUMBER, 1, 0)],
    "registry_contents": [("id", NUMBER, 0, 1), ("sha256", TEXT, 1, 0), ("size", NUMBER, 1, 0)],
    "registry_places": [("content", NUMBER, 1, 1), ("start", NUMBER, 1, 2), ("size", NUMBER, 1, 0), ("at", NUMBER, 1, 0)],
}
WITHOUT_REPO |= {"registry_pack", "registry_places"}
INDEXES_BESIDE = INDEXES | {"registry_blob_links_content", "registry_manifest_links_content", "registry_pieces_content"}
