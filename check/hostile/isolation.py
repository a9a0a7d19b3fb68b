"""One team's requests, recorded, to registries that others use heavily or not at all, over tables and beside:
the replies are equal, byte for byte."""
import contextlib
import json
import random
import re
import socket
import subprocess
import threading
import time

from tools.shared import REGISTRY, digest
from check.hostile.said import SECONDS, say
from check.hostile.server import Server, answer
from check.hostile.writes import LAYOUTS, request

OWN, LIB, OTHERS = "team/app", "team/lib", ("other/one", "other/two")
REQUESTS = 320
MEDIA = "application/vnd.oci.image.{}"
# the bytes that all teams draw from: the same ones are pushed by the team and by others
SIZES = 0, 1, 300, 5_000, 70_000, 400_000, 1_500_000, 6_000_000
POOL = [random.Random(size).randbytes(size) for size in SIZES]
# in the list the large ones come less often than the small ones
OFTEN = [*POOL[:6], *POOL[:6], *POOL]
TOO_LARGE = (4 << 20) + 1
# of which kinds the replies are at least
WANTED = {200, 201, 202, 204, 400, 401, 403, 404, 405, 413, 416}


def order(*words, at=None, db=None, layout="tables"):
    where = ["--orders", at] if at else ["--db", db, *LAYOUTS[layout]]
    ran = subprocess.run([REGISTRY, words[0], *where, *words[1:]], capture_output=True, timeout=SECONDS)
    return ran.returncode


def prepared(db, layout, is_used):
    """A registry of the team's two repositories; one that others use has theirs as well."""
    for name, quota in ((OWN, 40_000_000), (LIB, 3_000_000)):
        order("repo", "--name", name, "--quota", str(quota), db=db, layout=layout)
    for token, name, level in (("t1", OWN, 3), ("t1", LIB, 3), ("t-pulls", OWN, 1), ("t-pushes", OWN, 2)):
        order("grant", "--token", token, "--name", name, "--level", str(level), db=db)
    for name in OTHERS if is_used else ():
        order("repo", "--name", name, "--quota", str(1 << 40), db=db)
        order("grant", "--token", "o1", "--name", name, "--level", "3", db=db)


def of_token(text, token):
    field = b"Authorization: Bearer %s\r\n" % token.encode() if token else b""
    return text.replace(b"Authorization: Bearer t1\r\n", field)


def manifest(body, name, subject=None):
    """A manifest that names these bytes, which may not be there."""
    described = lambda kind, it: {"mediaType": MEDIA.format(kind), "digest": digest(it), "size": len(it)}
    text = {
        "schemaVersion": 2,
        "mediaType": MEDIA.format("manifest.v1+json"),
        "config": described("config.v1+json", body),
        "layers": [described("layer.v1.tar", body)],
        "annotations": {"name": name},
    }
    if subject:
        text["subject"] = described("manifest.v1+json", subject)
    return json.dumps(text).encode()


# ---- the team's list


def of_blobs(drawn, at, body):
    """Requests about blobs, and mounts of what is and is not its own."""
    name, wrong = digest(body), digest(body + b"x")
    source = drawn.choice([OWN, LIB, *OTHERS, "no/such"])
    return drawn.choice(
        [
            request("POST", f"{at}/blobs/uploads/?digest={name}", body),
            request("POST", f"{at}/blobs/uploads/?digest={name}", body),
            request("POST", f"{at}/blobs/uploads/?digest={wrong}", body),
            request("POST", f"{at}/blobs/uploads/?mount={name}&from={source}"),
            request("POST", f"{at}/blobs/uploads/?mount={name}&from={source}"),
            request("POST", f"{at}/blobs/uploads/?mount={name}"),
            request(drawn.choice(["GET", "HEAD", "GET"]), f"{at}/blobs/{name}"),
            request("GET", f"{at}/blobs/{name}", b"", "Range: bytes=0-9"),
            request("DELETE", f"{at}/blobs/{name}"),
        ]
    )


def of_sessions(drawn, at, body):
    """Requests about upload sessions, some of which are open."""
    session, first = f"{at}/blobs/uploads/{drawn.randrange(1, 12)}", drawn.choice([0, 0, 1, 300])
    fields = [f"Content-Range: {first}-{first + len(body) - 1}"] if drawn.random() < 0.3 and body else []
    return drawn.choice(
        [
            request("POST", f"{at}/blobs/uploads/"),
            request("PATCH", session, body, *fields),
            request("PATCH", session, body, *fields),
            request("GET", session),
            request("PUT", f"{session}?digest={digest(body)}", drawn.choice([b"", body])),
            request("PUT", f"{session}?digest={digest(body)}"),
            request("DELETE", session),
        ]
    )


def of_manifests(drawn, at, body):
    text = manifest(body, drawn.choice(["a", "b"]), drawn.choice([None, manifest(body, "a")]))
    tag = drawn.choice(["v1", "v2", "v3"])
    to = drawn.choice([tag, digest(text)])
    return drawn.choice(
        [
            request("PUT", f"{at}/manifests/{to}", text),
            request("PUT", f"{at}/manifests/{to}", text),
            request("PUT", f"{at}/manifests/{tag}", text[:-1]),
            request("PUT", f"{at}/manifests/{tag}", bytes(drawn.choice([10, TOO_LARGE]))),
            request(drawn.choice(["GET", "HEAD", "DELETE"]), f"{at}/manifests/{to}"),
            request("GET", f"{at}/referrers/{digest(manifest(body, 'a'))}"),
            request("GET", f"{at}/tags/list{drawn.choice(['', '?n=1', '?n=1&last=v1', '?n=x'])}"),
        ]
    )


def of_nothing(drawn, at, body):
    """Requests that are no good, or not about a repository."""
    return drawn.choice(
        [
            request("GET", "/v2/"),
            request("GET", drawn.choice(["/v2/_catalog", "/", "/healthz", "/token", f"{at}/nothing"])),
            request("PATCH", f"{at}/manifests/v1", body[:10]),
            b"POST %s/blobs/uploads/?digest=%s HTTP/1.1\r\nHost: r\r\nAuthorization: Bearer t1\r\n"
            b"Content-Length: 67108865\r\n\r\n" % (at.encode(), digest(body).encode()),
            b"no request\r\n\r\n",
            b"GET /v2/ HTTP/1.1\r\n\r\n",
            request("GET", "/v2/", b"", f"X: {'x' * 20_000}"),
        ]
    )


KINDS = [of_blobs, of_blobs, of_sessions, of_manifests, of_nothing]


def recorded(seed):
    """So many requests of the team, by tokens that open all, less and nothing, a list on each connection."""
    uploads, drawn, count = f"/v2/{OWN}/blobs/uploads/", random.Random(seed), 6
    found = [[request("POST", uploads)] * 5, [request("PATCH", f"{uploads}1", b"abc", "Content-Range: 7-9")]]
    while count < REQUESTS:
        at = "/v2/" + drawn.choice([OWN] * 6 + [LIB] * 3 + [*OTHERS, "no/such"])
        texts = [drawn.choice(KINDS)(drawn, at, drawn.choice(OFTEN)) for _ in range(drawn.randrange(1, 4))]
        token = drawn.choice(["t1"] * 8 + ["t-pulls", "t-pushes", "t-of-nobody", None])
        found.append([of_token(it, token) for it in texts])
        count += len(texts)
    return found


def heard(server, texts):
    """All that one connection is answered, which may end before all is sent."""
    parts = []
    with server.connect() as connection:
        with contextlib.suppress(OSError):
            connection.sendall(b"".join(texts))
            connection.shutdown(socket.SHUT_WR)
        with contextlib.suppress(ConnectionError):
            while more := connection.recv(65536):
                parts.append(more)
    return b"".join(parts)


# ---- the others


class Others:
    """Other teams, who push, pull, delete, upload and mount what they like, and their administrator."""

    def __init__(self, server, at):
        self.server, self.at, self.stop, self.done, self.bad = server, at, threading.Event(), {}, []
        drawn = [random.Random(seed) for seed in range(4)]
        calls = [(self.ask, it) for it in drawn[:3]] + [(self.administer, drawn[3])]
        self.threads = [threading.Thread(target=call, args=[it]) for call, it in calls]
        for it in self.threads:
            it.start()

    def note(self, what):
        self.done[what] = self.done.get(what, 0) + 1

    def ask(self, drawn):
        with self.server.connect() as connection:
            while not self.stop.is_set():
                at, body = f"/v2/{drawn.choice(OTHERS)}", drawn.choice(OFTEN)
                kind = drawn.choice([of_blobs, of_blobs, of_sessions, of_manifests])
                text = of_token(kind(drawn, at, body), "o1")
                # (a HEAD has no body to wait for)
                reply = answer(connection, text) if not text.startswith(b"HEAD ") else ()
                if reply is None:
                    self.bad.append(text[:100])
                    return
                if reply:
                    self.note(reply[0])

    def administer(self, drawn):
        for number in range(1 << 20):
            name, token = f"other/n{number}", f"o-{number}"
            for words in (
                ("repo", "--name", name, "--quota", "1000"),
                ("grant", "--token", token, "--name", name, "--level", "3"),
                ("quota", "--name", OTHERS[1], "--quota", str(drawn.randrange(1 << 30, 1 << 40))),
                ("prune", "--name", OTHERS[0]),
                ("sessions", "--name", drawn.choice(OTHERS)),
                ("clear",),
                ("revoke", "--token", token),
                ("drop", "--name", name),
            ):
                if self.stop.is_set():
                    return
                if order(*words, at=self.at):
                    self.bad.append(words)
                self.note(words[0])

    def end(self):
        self.stop.set()
        for it in self.threads:
            it.join(SECONDS)


def played(room, layout, is_used, lists, intrudes=False):
    """What each list is answered by a registry of its own, and what others did beside."""
    at = f"{room}/isolated-{layout}-{is_used}-{intrudes}"
    prepared(f"{at}.db", layout, is_used)
    server = Server(f"{at}.db", "--orders", f"{at}.orders", stderr=subprocess.DEVNULL)
    others = Others(server, f"{at}.orders") if is_used else None
    found = []
    for number, texts in enumerate(lists):
        if intrudes and number == len(lists) // 2:
            heard(server, [of_token(request("POST", f"/v2/{OWN}/blobs/uploads/"), "t-pushes")])
        found.append(heard(server, texts))
        # (so that there is much in between)
        time.sleep(0.03 if is_used else 0)
    if others:
        others.end()
    server.kill()
    return found, others


def statuses(replies):
    return {int(it) for text in replies for it in re.findall(rb"HTTP/1\.1 (\d+) ", text)}


def wrong_bytes(lists, replies):
    """The pulls of a blob, alone on their connection, that are answered 200 with other bytes."""
    by_name = {digest(it): it for it in POOL}
    for texts, reply in zip(lists, replies):
        asked = re.match(rb"GET /v2/\S+/blobs/(sha256:\S+) ", texts[0])
        if len(texts) == 1 and asked and b"Range" not in texts[0] and reply.startswith(b"HTTP/1.1 200 "):
            if reply.split(b"\r\n\r\n", 1)[1] != by_name[asked[1].decode()]:
                yield texts[0][:100]


def differences(lists, one, other):
    for number, (texts, mine, yours) in enumerate(zip(lists, one, other)):
        if mine != yours:
            yield f"connection {number}, {texts[0][:80]}: {mine[:200]}, and {yours[:200]}"


def keep_apart(room):
    """The same list over both layouts, used by others and not; and once where a token that may push there
    opens a session of the team's, which has to be seen."""
    lists = recorded(20_261_201)
    count = sum(map(len, lists))
    alone, _ = played(room, "tables", False, lists)
    kinds = statuses(alone)
    lacking = sorted(WANTED - kinds)
    told = f"{count} requests of a team are answered {sorted(kinds)}"
    say(not lacking, told, [f"and not {lacking}"] * bool(lacking))
    bad = list(wrong_bytes(lists, alone))
    say(not bad, "each blob that it pulls is the one that it pushed", bad)
    for layout, is_used in (("beside", False), ("tables", True), ("beside", True)):
        found, others = played(room, layout, is_used, lists)
        bad = list(differences(lists, alone, found))
        done = others.done if others else {}
        what = f"which others ask {sum(done.values())} times" if is_used else "which nobody else uses"
        say(not bad, f"{layout}, {what}: equal to tables that nobody else uses, byte for byte", bad)
        if others:
            held = not others.bad and {201, 202, "clear", "prune", "drop"} <= set(done)
            say(held, f"{layout}: what the others did: {done}", others.bad)
    found, _ = played(room, "beside", False, lists, intrudes=True)
    say(list(differences(lists, alone, found)) != [], "a session of one who may push there is told apart")
