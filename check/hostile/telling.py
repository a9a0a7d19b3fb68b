"""What a server says of its requests on standard error."""
import datetime
import re
import subprocess
import time

from check.hostile.said import SECONDS, say
from check.hostile.server import Server, pushes_on_sockets
from check.hostile.worlds import copied
from check.hostile.writes import ABC, AT, CONFIG, HELLO, MANIFEST, ORDERS, order
from tools.shared import digest

# a token and a query that nothing else is like
TOKEN, UNKNOWN, QUERY = "token-of-nobody-else", "no-token-of-anybody", "last=nothing-else-is-like-this"
LINE = re.compile(r"(\S+) (\S+) (\S+) (\S+) (\d+) (\d+) (\d+) (\d+)( [a-z ]+)?\n")


def asked(method, target, body=b"", *fields, token=TOKEN):
    head = [f"{method} {target} HTTP/1.1", "Host: r", *fields]
    head += [f"Authorization: Bearer {token}"] if token else []
    head += [] if "Transfer-Encoding: chunked" in fields else [f"Content-Length: {len(body)}"]
    return "\r\n".join([*head, "", ""]).encode() + body


def chunked(body):
    return b"".join(b"1\r\n%c\r\n" % byte for byte in body) + b"0\r\n\r\n"


UPLOADS = f"{AT}/blobs/uploads/"
# By connection: a request, and what is said of it: method, path, status, and the bytes of its body.
REQUESTS = [
    (0, asked("GET", "/v2/"), ("GET", "/v2/", "200", 0)),
    (0, asked("POST", f"{UPLOADS}?digest={digest(ABC)}", ABC), ("POST", UPLOADS, "201", 3)),
    (0, asked("POST", f"{UPLOADS}?digest={digest(CONFIG)}", CONFIG), ("POST", UPLOADS, "201", 2)),
    (1, asked("GET", f"{AT}/blobs/{digest(ABC)}"), ("GET", f"{AT}/blobs/{digest(ABC)}", "200", 0)),
    (0, asked("PUT", f"{AT}/manifests/v1", MANIFEST), ("PUT", f"{AT}/manifests/v1", "201", len(MANIFEST))),
    (1, asked("GET", f"{AT}/tags/list?{QUERY}"), ("GET", f"{AT}/tags/list", "200", 0)),
    (1, asked("HEAD", f"{AT}/blobs/{digest(HELLO)}"), ("HEAD", f"{AT}/blobs/{digest(HELLO)}", "404", 0)),
    (2, asked("GET", "/v2/team/lib/tags/list", token=UNKNOWN), ("GET", "/v2/team/lib/tags/list", "401", 0)),
    (
        2,
        asked("POST", f"{UPLOADS}?digest={digest(HELLO)}", chunked(HELLO), "Transfer-Encoding: chunked"),
        ("POST", UPLOADS, "201", len(HELLO)),
    ),
    (3, b"no request at all\r\n\r\n", ("-", "-", "400", 0)),
]


def size_of_reply(connection, text, is_head):
    """How many bytes come as the reply."""
    connection.sendall(text)
    had = b""
    while b"\r\n\r\n" not in had:
        had += connection.recv(65536)
    head, body = had.split(b"\r\n\r\n", 1)
    length = re.search(rb"(?i)\ncontent-length: *(\d+)", head)
    while not is_head and length and len(body) < int(length[1]):
        body += connection.recv(65536)
    return len(head) + 4 + len(body)


def lines_of(path, count):
    """The lines that a server has said, when there are so many, or after a while."""
    for _ in range(100):
        with open(path, encoding="ascii") as it:
            lines = it.readlines()
        if len(lines) >= count:
            break
        time.sleep(0.05)
    return lines


def is_of_now(time_):
    """Whether a time is one of the last minute, as RFC 3339 has it."""
    if not re.fullmatch(r"\d{4}-\d\d-\d\dT\d\d:\d\d:\d\d(\.\d+)?(Z|[+-]\d\d:\d\d)", time_):
        return False
    then = datetime.datetime.fromisoformat(time_.replace("Z", "+00:00"))
    age = datetime.datetime.now(datetime.timezone.utc) - then
    return abs(age.total_seconds()) < SECONDS


def said_of(room, db, *words):
    """What a server says of the requests, each when the one before it is answered; and the sizes of their replies."""
    path = f"{room}/said"
    with open(path, "wb") as said:
        server = Server(db, *words, stderr=said)
    connections = [server.connect() for _ in range(4)]
    sizes = [size_of_reply(connections[at], text, text.startswith(b"HEAD ")) for at, text, _ in REQUESTS]
    for it in connections:
        it.close()
    lines = lines_of(path, len(REQUESTS) + 1) if "--log" in words else []
    server.kill()
    return lines or lines_of(path, 0), sizes


def tell_requests(room):
    db = f"{room}/told.db"
    for words in (ORDERS[0], ORDERS[1], order("grant", "--token", TOKEN, "--name", "team/app", "--level", "3")):
        subprocess.run(words(db), check=True)
    lines, sizes = said_of(room, db, "--log")
    bad = []
    for line, size, (at, _, (method, path, status, body)) in zip(lines[1:], sizes, REQUESTS):
        found, wanted = LINE.fullmatch(line), (str(at), method, path, status, str(body), str(size))
        if not found or (*found.groups()[1:7], found[9]) != (*wanted, None) or not is_of_now(found[1]):
            bad.append(f"{line!r}, and not {wanted}")
    whole = len(lines) == len(REQUESTS) + 1 and lines[0].startswith("registry: serving ")
    say(whole and not bad, f"--log says each of {len(REQUESTS)} requests on a line", bad if bad or whole else lines)
    secret = [line for line in lines if any(word in line for word in (TOKEN, UNKNOWN, QUERY, "digest="))]
    say(not secret, "and no token and no query", secret)
    lines, _ = said_of(room, db)
    say(len(lines) == 1, "without it none is said", lines[1:])


def tell_failures(refusing, room):
    """Without --log: of two pushes the one that fails is said, and why."""
    db, at, path = f"{room}/fails.db", f"{room}/failing.db", f"{room}/failed"
    for words in (ORDERS[0], ORDERS[2]):
        subprocess.run(words(db), check=True)
    _, growths, writes = pushes_on_sockets(refusing, copied(db, at))
    for kind, count, status, why in (("write", writes, 500, "storage failure"), ("growth", growths, 503, "out of memory")):
        # the pushes are behind the opening of the file, so the last ones are looked at
        for number in range(count, 0, -1):
            with open(path, "wb") as said:
                statuses, _, _ = pushes_on_sockets(refusing, copied(db, at), said=said, **{kind: number})
            if status in statuses:
                break
        requests = [it for it in map(LINE.fullmatch, lines_of(path, 0)) if it]
        found = [(it[3], it[4], int(it[5]), it[9]) for it in requests]
        is_said = found == [("POST", UPLOADS, status, f" {why}")]
        say(is_said, f"a {kind} that fails: the push of status {status} is said to be for `{why}`", [] if is_said else found)
