"""Edges: two nginx as deploy/nginx/edge.conf has them before one registry, and what they hand out from their disks.

The edge *far* asks the registry's nginx over TLS, as one on another machine does; *near* asks the service itself. What
an edge passes on is compared with what the registry says to the same request, field by field; which requests came to
the registry is counted in its log, and what an edge handed out from its disk in the edge's.
"""
import copy
import hashlib
import os
import shutil
import tempfile
from concurrent.futures import ThreadPoolExecutor
from http.client import IncompleteRead
from http.server import BaseHTTPRequestHandler, ThreadingHTTPServer
from threading import Thread

from check.asking import MIB, Check, is_there, say
from check.client_kinds import Curl, Podman, Skopeo
from tools.shared import REGISTRY, free_port
from check.front import Front, configuration, shipped, shipped_options
from check.layout import Layout, bytes_of
from check.serving import basic, end, must, until

# what an edge writes itself (deploy/nginx/edge.conf)
OWN = {"server", "date", "connection", "accept-ranges"}
HOST = {"Host": "registry.example.com"}
AT = "/v2/team/app/blobs"
AT_ONCE = 8
# of an edge that asks without TLS
PLAIN = {"set $firkhen_registry https://": "set $firkhen_registry http://"}
AWAY = b'{"errors":[{"code":"UNAVAILABLE","message":"the registry does not answer"}]}'


# near to that of a blob, whose digest stands where the braces are
OTHER_PATHS = (
    f"{AT}/{{}}?",
    f"{AT}/{{}}?n=1",
    f"{AT}/{{}}/",
    "/v2/team%2Fapp/blobs/{}",
    "/v2//team/app/blobs/{}",
    "/v2/team//app/blobs/{}",
    "/v2/team/../team/app/blobs/{}",
    "/v2/./team/app/blobs/{}",
    "/v2/Team/app/blobs/{}",
    "/v2/team/app_/blobs/{}",
    "/v2/team/none/blobs/{}",
)
CONDITIONS = (
    ("If-Match", '"x"'),
    ("If-None-Match", "*"),
    ("If-Modified-Since", "Sun, 06 Nov 1994 08:49:37 GMT"),
    ("If-Unmodified-Since", "Sun, 06 Nov 1994 08:49:37 GMT"),
)


def bearer(token):
    return {"Authorization": f"Bearer {token}"}


ALL_ELSE = (
    ("GET", "/v2/", bearer("t1")),
    ("HEAD", "/v2/", bearer("t1")),
    ("GET", "/v2/", {}),
    ("GET", "/v2/team/app/manifests/v1", bearer("t1")),
    ("HEAD", "/v2/team/app/manifests/v1", bearer("t1")),
    ("GET", "/v2/team/app/manifests/none", bearer("t1")),
    ("GET", "/v2/team/app/tags/list?n=1", bearer("t1")),
    ("GET", "/v2/x", bearer("t1")),
    ("GET", "/token?service=firkhen", basic("any:t1")),
    ("GET", "/token", {}),
    ("POST", "/token", basic("any:t1")),
    ("GET", "/healthz", {}),
)


class Edges(Front):
    """The registry behind its nginx, with a log and a socket for orders, and the two edges before it."""

    def __init__(self, room):
        super().__init__(room)
        self.orders = f"{room}/orders"
        self.options = [*shipped_options(), "--log", "--orders", self.orders]
        self.marks = 0

    def begin(self):
        super().begin()
        self.far = self.start_edge("far", self.port, {}, self)
        self.near = self.start_edge("near", self.inner, PLAIN, self.straight())
        # (the table of names and passwords is the registry's nginx's)
        self.near.logins = {user: (token, token) for user, (_, token) in self.logins.items()}

    def start_edge(self, name, asked, own, behind):
        """An edge before what listens at a port; `behind` is that, as clients see it."""
        edge, folder = copy.copy(self), f"{self.room}/{name}"
        os.mkdir(folder, 0o711)
        shutil.copytree(f"{self.room}/firkhen", f"{folder}/firkhen")
        edge.name, edge.port, edge.kept, edge.behind = name, free_port(), f"{folder}/kept", behind
        edge.host, edge.record = f"localhost:{edge.port}", f"{name}/edge.log"
        edge.url, edge.trust = f"https://{edge.host}", self.trust
        usual = {
            "server origin.example.com:443;": f"server 127.0.0.1:{asked};",
            "listen 443 ssl;": f"listen 127.0.0.1:{edge.port} ssl;",
            "server_name registry.example.com;": "server_name localhost;",
            "proxy_ssl_name registry.example.com;": "proxy_ssl_name localhost;",
            "/etc/ssl/certs/ca-certificates.crt": self.authority,
            "/var/cache/firkhen ": f"{edge.kept} ",
            "/var/log/nginx/firkhen-edge.log": f"{folder}/edge.log",
        }
        self.write(f"{name}/site.conf", shipped("edge.conf", {**usual, **own}))
        self.write(f"{name}/nginx.conf", configuration())
        self.start_nginx(folder, edge.port)
        return edge

    def order(self, name, *words):
        must(REGISTRY, name, "--orders", self.orders, *words)

    def push(self, seed, size=MIB, algorithm="sha256"):
        """The path of a new blob, and its bytes."""
        body = bytes_of(seed, size)
        name = f"{algorithm}:{hashlib.new(algorithm, body).hexdigest()}"
        fields = {**bearer("t1"), "Content-Type": "application/octet-stream"}
        status, _, said = self.ask(f"{AT}/uploads/?digest={name}", "POST", fields, body)
        if status != 201:
            raise RuntimeError(f"a push: {status} {said}")
        return f"{AT}/{name}", body

    def logged(self, words):
        with open(f"{self.room}/{os.path.basename(REGISTRY)}.log", encoding="utf-8") as it:
            return it.read().count(words)

    def gets(self, path):
        """How many GETs of a path the registry has answered by now. Lines of its log stand in their order: what came
        before a request that has its line has one too."""
        self.marks += 1
        mark = f" /v2/mark-{self.marks} "
        self.straight().ask(mark.strip())
        until(lambda: self.logged(mark), f"the line of{mark}")
        return self.logged(f"GET {path} 200 ")


def handed(edge, *words):
    """How many replies an edge has taken from its disk or kept there, or those alone that a word is said of. Its nginx
    has one worker, so lines stand in their order too."""
    edge.marks += 1
    mark = f"/mark-{edge.marks} "
    edge.ask(mark.strip())
    until(lambda: edge.asked([mark]), f"the line of {mark}")
    return sum(edge.asked([f" {it} "]) for it in words or ("HIT", "MISS"))


def shown(reply):
    """What a client is shown, but for what an edge writes itself."""
    status, fields, body = reply
    return status, sorted((name.lower(), value) for name, value in fields.items() if name.lower() not in OWN), body


def says_what_the_registry_says(edge, what, path, method="GET", fields=None, body=None, status=None):
    fields = {**HOST, **(fields or {})}
    given, wanted = (shown(it.ask(path, method, fields, body)) for it in (edge, edge.behind))
    held = given == wanted and status in (None, given[0])
    say(held, f"{edge.name}: {what}: {given[0]}, as the registry has it", f"{given[:2]} {given[2][:200]} {wanted[:2]}")
    return given


def look_at_a_hit(edges, edge):
    """A blob that the edge lacks, and has the next time."""
    for algorithm in ("sha512", "sha256"):
        path, body = edges.push(f"hit-{edge.name}", algorithm=algorithm)
        for word in ("MISS", "HIT"):
            before = handed(edge, word)
            status, _, got = edge.read(path)
            held = (status, got) == (200, body) and handed(edge, word) == before + 1 and edges.gets(path) == 1
            say(held, f"{edge.name}: a blob by {algorithm}: {word}, and the registry has sent it once", str(status))
        says_what_the_registry_says(edge, "a kept blob", path, fields=bearer("t1"), status=200)
    return path


def look_at_modes(edge):
    folders = {os.stat(at).st_mode & 0o777 for at, _, _ in os.walk(edge.kept)}
    files = {os.stat(f"{at}/{name}").st_mode & 0o777 for at, _, names in os.walk(edge.kept) for name in names}
    say((folders, files) == ({0o700}, {0o600}), f"{edge.name}: what it keeps is its workers' alone", f"{folders} {files}")


def look_at_refusals(edges, edge, path):
    """Of a blob that the edge has."""
    before = handed(edge)
    says_what_the_registry_says(edge, "a kept blob for a token without a level", path, fields=bearer("t2"), status=403)
    says_what_the_registry_says(edge, "a kept blob for nobody", path, status=401)
    say(handed(edge) == before, f"{edge.name}: neither was a hit")
    edges.order("grant", "--token", "t3", "--name", "team/app", "--level", 1)
    status = edge.read(path, "t3")[0]
    say(status == 200 and handed(edge, "HIT") > 0 and handed(edge) == before + 1, f"{edge.name}: for a new token it is", str(status))
    edges.order("revoke", "--token", "t3")
    status, fields, _ = edge.ask(path, fields=bearer("t3"))
    challenges = fields.get_all("WWW-Authenticate") or []
    say((status, len(challenges)) == (401, 1), f"{edge.name}: and after a revoke: 401, with one challenge", f"{status} {challenges}")
    says_what_the_registry_says(edge, "the same", path, fields=bearer("t3"), status=401)
    gone = edge.ask(path, "DELETE", bearer("t1"))[0]
    say(gone == 202, f"{edge.name}: a DELETE goes through", str(gone))
    says_what_the_registry_says(edge, "a kept blob that was deleted", path, fields=bearer("t1"), status=404)
    say(handed(edge) == before + 1, f"{edge.name}: none of these was a hit")


def look_at_misses_at_once(edges, edge):
    path, body = edges.push(f"once-{edge.name}", 8 * MIB)
    with ThreadPoolExecutor(AT_ONCE) as pool:
        got = list(pool.map(lambda _: edge.read(path), range(AT_ONCE)))
    say(all((status, it) == (200, body) for status, _, it in got), f"{edge.name}: {AT_ONCE} who lack a blob at once have it")
    count = edges.gets(path)
    say(count == 1, f"{edge.name}: and the registry has sent it once", str(count))


def look_at_near_misses(edge, path):
    """Requests whose words are near to those for a blob that the edge has."""
    edge.read(path)
    before, tail = handed(edge), path.rsplit("/", 1)[1]
    for other in OTHER_PATHS:
        says_what_the_registry_says(edge, other.format("DIGEST"), other.format(tail), fields=bearer("t1"))
    other = f"{AT}/{tail.replace(':', '%3A')}"
    says_what_the_registry_says(edge, "a digest with %3A", other, fields=bearer("t1"), status=200)
    says_what_the_registry_says(edge, "a digest in capitals", f"{AT}/{tail.upper()}", fields=bearer("t1"), status=404)
    says_what_the_registry_says(edge, "a digest that is short", path[:-1], fields=bearer("t1"), status=404)
    for name, value in CONDITIONS:
        says_what_the_registry_says(edge, f"a GET with {name}", path, fields={**bearer("t1"), name: value}, status=200)
    says_what_the_registry_says(edge, "a GET with a body", path, fields=bearer("t1"), body=b"abc", status=200)
    for method in ("HEAD", "PUT", "OPTIONS"):
        says_what_the_registry_says(edge, f"{method} of a blob", path, method, bearer("t1"))
    say(handed(edge) == before, f"{edge.name}: none of these came from its disk, or was kept")


def look_at_all_else(edge):
    for method, path, fields in ALL_ELSE:
        whose = "" if fields else ", for nobody"
        says_what_the_registry_says(edge, f"{method} {path}{whose}", path, method, fields)
    status, fields, _ = edge.ask(f"{AT}/uploads/", "POST", bearer("t1"), b"")
    whole = (fields["Location"] or "").startswith(f"{edge.url}{AT}/uploads/")
    say(status == 202 and whole, f"{edge.name}: a push begins, and its Location is whole", str(fields["Location"]))
    status, _, body = edge.ask("/_may_pull", fields=bearer("t1"))
    say(status in (403, 404), f"{edge.name}: where it asks is nothing for clients", f"{status} {body[:200]}")


def look_at_equal_bytes(edges, edge, path, body):
    """Bytes that the edge has of one repository, in another: there they are new, as nobody can tell by the time."""
    digest, before = path.rsplit("/", 1)[1], handed(edge, "MISS")
    other = f"/v2/team/other/blobs/uploads/?digest={digest}"
    status = edges.ask(other, "POST", {**bearer("t2"), "Content-Type": "application/octet-stream"}, body)[0]
    say(status == 201, "equal bytes are pushed to another repository", str(status))
    status, _, got = edge.read(f"/v2/team/other/blobs/{digest}", "t2")
    say((status, got) == (200, body) and handed(edge, "MISS") == before + 1, f"{edge.name}: where it has none of them", str(status))


def look_at_parts(edges, edge):
    path, body = edges.push(f"part-{edge.name}")
    whole = (200, body, None)
    for what, span, more, wanted in (
        ("a part of a blob that it lacks", "bytes=100-199", {}, (206, body[100:200], f"bytes 100-199/{MIB}")),
        ("the end of one that it has", "bytes=-10", {}, (206, body[-10:], f"bytes {MIB - 10}-{MIB - 1}/{MIB}")),
        ("two parts at once", "bytes=0-1,5-6", {}, whole),
        ("a unit that is none", "lines=1-2", {}, whole),
        ("a part, if it is what it was", "bytes=0-1", {"If-Range": '"x"'}, whole),
    ):
        status, fields, got = edge.ask(path, fields={**bearer("t1"), "Range": span, **more})
        say((status, got, fields["Content-Range"]) == wanted, f"{edge.name}: {what}: {wanted[0]}", f"{status} {len(got)} {fields['Content-Range']}")
    status, fields, got = edge.ask(path, fields={**bearer("t1"), "Range": f"bytes={MIB}-"})
    held = status == 416 and fields.get_all("Content-Range") == [f"bytes */{MIB}"] and b"UNSUPPORTED" in got
    say(held and fields["Content-Type"] == "application/json", f"{edge.name}: a part behind its end: 416", f"{status} {fields.items()} {got[:200]}")
    say(edge.read(path)[2] == body, f"{edge.name}: the whole of it is whole")
    count = edges.gets(path)
    say(count == 1, f"{edge.name}: and the registry has sent it once", str(count))
    before = handed(edge)
    says_what_the_registry_says(edge, "a part, for a token without a level", path, fields={**bearer("t2"), "Range": "bytes=0-1"}, status=403)
    say(handed(edge) == before, f"{edge.name}: which is no hit")


def look_at_a_purge(edges, edge):
    """As docs/OPERATIONS.md has it."""
    path, body = edges.push(f"purge-{edge.name}")
    edge.read(path)
    key = hashlib.md5(path.encode()).hexdigest()
    file = f"{edge.kept}/{key[-1]}/{key[-3:-1]}/{key}"
    if not say(os.path.exists(file), f"{edge.name}: the file of a blob is where it is said to be", file):
        return
    os.remove(file)
    before = handed(edge, "MISS")
    held = edge.read(path)[2] == body and handed(edge, "MISS") == before + 1 and edges.gets(path) == 2
    say(held, f"{edge.name}: a blob whose file was taken away is sent by the registry again")


class Unsteady(BaseHTTPRequestHandler):
    """A registry that says 200 to each HEAD; to a GET at first 503, then a reply that is cut off, and then the blob."""

    body, gets = bytes_of("unsteady", MIB), 0

    def log_message(self, *_):
        pass

    def begin(self, status):
        self.send_response(status)
        self.send_header("Content-Length", str(MIB))
        self.end_headers()

    def do_HEAD(self):
        self.begin(200)

    def do_GET(self):
        Unsteady.gets += 1
        self.begin(503 if self.gets == 1 else 200)
        self.wfile.write(self.body[: MIB // self.gets] if self.gets < 3 else self.body)


def look_at_an_unsteady_registry(edges):
    """Only a blob that came whole, with 200, is kept."""
    with ThreadingHTTPServer(("127.0.0.1", 0), Unsteady) as server:
        Thread(target=server.serve_forever, daemon=True).start()
        edge = edges.start_edge("unsteady", server.server_port, PLAIN, edges)
        path, found = f"{AT}/sha256:{hashlib.sha256(Unsteady.body).hexdigest()}", []
        for _ in range(4):
            try:
                status, _, got = edge.read(path)
                found.append((status, got == Unsteady.body))
            except IncompleteRead:
                found.append("cut off")
        held = found == [(503, True), "cut off", (200, True), (200, True)] and Unsteady.gets == 3 and handed(edge, "HIT") == 1
        say(held, "an edge keeps no reply but 200, and none that was cut off", f"{found} {Unsteady.gets}")
        server.shutdown()


def look_at_another_certificate(edges, path):
    """An edge that wants the registry's certificate to be of another name."""
    own = {"proxy_ssl_name registry.example.com;": "proxy_ssl_name other.example.com;"}
    edge = edges.start_edge("other", edges.port, own, edges)
    before = edges.gets(path)
    status, _, got = edge.read(path)
    said = (status, got) == (503, AWAY) and edges.gets(path) == before
    say(said, "where the registry's certificate is of another name, an edge asks for nothing, and says 503", f"{status} {got[:200]}")


def look_at_nobody_behind(edges, path, body):
    """Of a blob that both keep. First the registry is gone, then its nginx."""
    before = [handed(it, "HIT") for it in (edges.far, edges.near)]
    end(edges.server)
    for edge in (edges.far, edges.near):
        status, _, got = edge.read(path)
        say((status, got) == (503, AWAY), f"{edge.name}: without the registry a kept blob is not handed out", f"{status} {got[:200]}")
        say(edge.ask("/healthz")[0] == 503, f"{edge.name}: and /healthz says 503")
    edges.start_server()
    end(edges.nginx)
    status, _, got = edges.far.read(path)
    say((status, got) == (503, AWAY), "far: nor without the registry's nginx", f"{status} {got[:200]}")
    status, _, got = edges.near.read(path)
    say((status, got) == (200, body), "near: with the registry again it is", str(status))
    after = [handed(it, "HIT") for it in (edges.far, edges.near)]
    say(after == [before[0], before[1] + 1], "and that is the one hit", f"{before} {after}")


def ask_clients(edges, layouts, only):
    """Each in all that is asked of it, through one of the edges; and what the first has pushed is pulled through both."""
    pushed = None
    for kind, edge in ((Skopeo, edges.far), (Podman, edges.near)):
        if (not only or kind.name in only) and is_there(kind):
            client = kind(edge)
            print(f"{client.name} {client.version()}, through the edge {edge.name}")
            check = Check(edge, client, layouts)
            check.all()
            pushed = pushed or (f"team/app:{client.name}", check.layouts["image"])
    for edge in (edges.far, edges.near) if pushed and not Skopeo.lacks() else ():
        where, image = pushed
        client, before = Skopeo(edge), edge.asked([" HIT ", image.layer])
        for time in ("once", "and again"):
            ran = client.pull(where)
            say(ran.returncode == 0 and client.pulled() == image.digest, f"skopeo: pulls {time} through the edge {edge.name}", ran.text[-600:])
        say(edge.was_asked(before, [" HIT ", image.layer]), f"{edge.name}: whose layer is a hit")


def go_through_edges(only):
    with tempfile.TemporaryDirectory() as room:
        layouts = {
            "two": Layout(f"{room}/two", "two", MIB, ("amd64", "arm64")),
            "quota": Layout(f"{room}/quota", "quota", 300_000),
            "large": Layout(f"{room}/large", "large", 64 * MIB),
        }
        with Edges(room) as edges:
            kept, body = edges.push("kept")
            if not Curl.lacks():
                Curl(edges).push(Layout(f"{room}/image", "image", 1000), "team/app:v1")
            for edge in (edges.far, edges.near):
                look_at_near_misses(edge, kept)
                look_at_all_else(edge)
                look_at_equal_bytes(edges, edge, kept, body)
                look_at_refusals(edges, edge, look_at_a_hit(edges, edge))
                look_at_misses_at_once(edges, edge)
                look_at_parts(edges, edge)
                look_at_a_purge(edges, edge)
                look_at_modes(edge)
            ask_clients(edges, layouts, only)
            look_at_another_certificate(edges, kept)
            look_at_an_unsteady_registry(edges)
            look_at_nobody_behind(edges, kept, body)
