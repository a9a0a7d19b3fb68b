"""The tables of schema 1, as sqlite3 makes them: `registry migrate` takes over a file that has them."""

TABLES = """
CREATE TABLE registry_schema (version INTEGER NOT NULL) STRICT;
CREATE TABLE registry_repos (name TEXT NOT NULL PRIMARY KEY, quota INTEGER NOT NULL, last_session INTEGER NOT NULL) STRICT;
CREATE TABLE registry_grants (token TEXT NOT NULL, repo TEXT NOT NULL REFERENCES registry_repos (name) ON DELETE CASCADE,
  level INTEGER NOT NULL, PRIMARY KEY (token, repo)) STRICT;
CREATE TABLE registry_tags (repo TEXT NOT NULL REFERENCES registry_repos (name) ON DELETE CASCADE, tag TEXT NOT NULL,
  digest TEXT NOT NULL, PRIMARY KEY (repo, tag)) STRICT;
CREATE TABLE registry_blobs (repo TEXT NOT NULL REFERENCES registry_repos (name) ON DELETE CASCADE, digest TEXT NOT NULL,
  size INTEGER NOT NULL, bytes BLOB NOT NULL, PRIMARY KEY (repo, digest)) STRICT;
CREATE TABLE registry_manifests (repo TEXT NOT NULL REFERENCES registry_repos (name) ON DELETE CASCADE, digest TEXT NOT NULL,
  size INTEGER NOT NULL, kind INTEGER NOT NULL, subject TEXT, bytes BLOB NOT NULL, PRIMARY KEY (repo, digest)) STRICT;
CREATE TABLE registry_sessions (repo TEXT NOT NULL REFERENCES registry_repos (name) ON DELETE CASCADE,
  number INTEGER NOT NULL, size INTEGER NOT NULL, bytes BLOB NOT NULL, PRIMARY KEY (repo, number)) STRICT;
CREATE INDEX registry_manifests_subject ON registry_manifests (repo, subject);
INSERT INTO registry_schema VALUES (1);
"""
