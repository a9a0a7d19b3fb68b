"""Everything that writes: orders of the administrator's, and requests of a client's."""
import functools
import json

from tools.shared import REGISTRY, digest


def order_of(words, db):
    return [REGISTRY, words[0], "--db", db, *words[1:]]


def order(*words):
    """The words of an order over a database."""
    return functools.partial(order_of, words)


# What a new registry is told of where its contents are.
LAYOUTS = {"tables": (), "beside": ("--layout", "beside")}

GRANT = order("grant", "--token", "t1", "--name", "team/app", "--level", "3")

# Orders one after the other, each on what those before it left.
ORDERS = [
    order("repo", "--name", "team/app", "--quota", "1000"),
    order("quota", "--name", "team/app", "--quota", "1000000"),
    GRANT,
    order("usage"),
    order("sessions", "--name", "team/app"),
    order("prune", "--name", "team/app"),
    order("clear"),
    order("revoke", "--token", "t1", "--name", "team/app"),
    GRANT,
    order("grants"),
    order("revoke", "--token", "t1"),
    order("drop", "--name", "team/app"),
]


def request(method, target, body=b"", *fields):
    head = [f"{method} {target} HTTP/1.1", "Host: r", "Authorization: Bearer t1", *fields, f"Content-Length: {len(body)}"]
    return "\r\n".join([*head, "", ""]).encode() + body


ABC, HELLO, CONFIG = b"abc", b"hello", b"{}"
MANIFEST = json.dumps(
    {
        "schemaVersion": 2,
        "config": {"mediaType": "application/vnd.oci.empty.v1+json", "digest": digest(CONFIG), "size": len(CONFIG)},
        "layers": [],
    }
).encode()
AT = "/v2/team/app"
NO_TOKEN = b"GET /v2/ HTTP/1.1\r\nHost: r\r\n\r\n"
FAILED = b"HTTP/1.1 500 Internal Server Error\r\nContent-Length: 0\r\n\r\n"
NO_ROOM = b"HTTP/1.1 503 Service Unavailable\r\nContent-Length: 0\r\n\r\n"
UNAUTHORIZED = b"HTTP/1.1 401 "


def push(body):
    return request("POST", f"{AT}/blobs/uploads/?digest={digest(body)}", body)


# The writes of a keeper, one after the other: orders, and requests with the status that they are answered.
WRITES = [
    ("add a repository", ORDERS[0]),
    ("set its quota", ORDERS[1]),
    ("add another", order("repo", "--name", "team/lib", "--quota", "1000")),
    ("grant a level", GRANT),
    ("grant another", order("grant", "--token", "t1", "--name", "team/lib", "--level", "3")),
    ("push a blob", (push(ABC), 201)),
    ("push a config", (push(CONFIG), 201)),
    ("push a blob of many pages", (push(bytes(i * 7 % 251 for i in range(300_000))), 201)),
    ("mount a blob", (request("POST", f"/v2/team/lib/blobs/uploads/?mount={digest(ABC)}&from=team/app"), 201)),
    ("push a manifest", (request("PUT", f"{AT}/manifests/v1", MANIFEST), 201)),
    ("push it under another tag", (request("PUT", f"{AT}/manifests/v2", MANIFEST), 201)),
    ("delete a tag", (request("DELETE", f"{AT}/manifests/v1"), 202)),
    ("open a session", (request("POST", f"{AT}/blobs/uploads/"), 202)),
    ("append to it", (request("PATCH", f"{AT}/blobs/uploads/1", b"hel", "Content-Range: 0-2"), 202)),
    ("append again", (request("PATCH", f"{AT}/blobs/uploads/1", b"lo", "Content-Range: 3-4"), 202)),
    ("close it", (request("PUT", f"{AT}/blobs/uploads/1?digest={digest(HELLO)}"), 201)),
    ("open one more", (request("POST", f"{AT}/blobs/uploads/"), 202)),
    ("end the sessions", ORDERS[4]),
    # of one chunk, and closed without bytes: nothing of it is read
    ("open a session for one chunk", (request("POST", f"{AT}/blobs/uploads/"), 202)),
    ("append that chunk", (request("PATCH", f"{AT}/blobs/uploads/3", b"hel"), 202)),
    ("close it unread", (request("PUT", f"{AT}/blobs/uploads/3?digest={digest(b'hel')}"), 201)),
    ("delete a blob", (request("DELETE", f"{AT}/blobs/{digest(ABC)}"), 202)),
    ("delete a manifest", (request("DELETE", f"{AT}/manifests/{digest(MANIFEST)}"), 202)),
    ("prune the blobs that no manifest names", ORDERS[5]),
    ("clear", ORDERS[6]),
    ("revoke a level", ORDERS[7]),
    ("grant it again", GRANT),
    ("revoke every level", ORDERS[10]),
    ("drop a repository", ORDERS[11]),
]

# The same over a registry whose contents are beside its database.
MADE_BESIDE = order("repo", *LAYOUTS["beside"], "--name", "team/app", "--quota", "1000")
WRITES_BESIDE = [("add a repository beside", MADE_BESIDE), *WRITES[1:]]
