"""Pulls of one large blob by many clients at once, from a server, and from the registry by an edge: nginx with
deploy/nginx/edge.conf, which has the blob by then, without TLS on either side, as the servers are asked."""
import copy
import os
import pwd
import re
import shutil
import subprocess
import tempfile
import threading
import time

from bench.driver import FORKED, SECONDS
from bench.servers import MIB, REPO, Firkhen
from tools.shared import free_port

CLIENTS, SIZE, READ = 16, 64 * MIB, 1 << 20
PULLS = f"GET of 64 MiB, {CLIENTS} at once"
BY_EDGE = f"{PULLS}, by an edge"
# rounds, and how long each is, by the time for which many connections ask
ROUNDS, TIMES = 2, 1.5

NGINX = shutil.which("nginx", path=os.environ["PATH"] + ":/usr/sbin")
CONFIGURATION = """
user {user};
worker_processes auto;
daemon off;
pid nginx.pid;
error_log error.log;
events {{}}
http {{
  {folders}
  include site.conf;
}}
"""


def pull(peer, text, begin, seconds, told):
    """Tells how many bytes of contents came in so many seconds, on a connection of its own."""
    try:
        peer.connect()
        part, got, left = memoryview(bytearray(READ)), 0, 0
        begin.wait(SECONDS)
        end = time.perf_counter() + seconds
        while time.perf_counter() < end:
            if not left:
                peer.sock.sendall(text)
                status, found = peer.read_head()
                left = int(found["content-length"])
                if status != 200 or left != SIZE:
                    raise RuntimeError(f"answered {status}, {left} bytes")
            count = peer.replies.readinto1(part[:left])
            if not count:
                raise RuntimeError("a server ended a connection")
            got, left = got + count, left - count
        told.send(got)
    except (OSError, RuntimeError, threading.BrokenBarrierError) as error:
        told.send(str(error) or type(error).__name__)


def pulls_a_second(peer, text, seconds):
    begin, ran = FORKED.Barrier(CLIENTS), []
    for _ in range(CLIENTS):
        told, tell = FORKED.Pipe(duplex=False)
        process = FORKED.Process(target=pull, args=(copy.copy(peer), text, begin, seconds, tell))
        process.start()
        ran.append((process, told))
    said = [told.recv() if told.poll(2 * SECONDS + seconds) else "no end" for _, told in ran]
    for process, _ in ran:
        process.kill()
        process.join()
    failed = sorted({it for it in said if isinstance(it, str)})
    if failed:
        raise RuntimeError(f"{CLIENTS} pulls: {', '.join(failed)}")
    return sum(said) / SIZE / seconds


def site(peer, port, kept):
    """The file as it is shipped, without TLS; what is each machine's own is another."""
    with open("deploy/nginx/edge.conf", encoding="utf-8") as it:
        text = re.sub(r"^  (?:proxy_)?ssl_.*\n", "", it.read(), flags=re.MULTILINE)
    for shipped, here in (
        ("server origin.example.com:443;", f"server 127.0.0.1:{peer.port};"),
        ("set $firkhen_registry https://", "set $firkhen_registry http://"),
        ("listen 443 ssl;", f"listen 127.0.0.1:{port};"),
        ("/var/cache/firkhen ", f"{kept} "),
        ("/var/log/nginx/firkhen-edge.log", "edge.log"),
    ):
        if text.count(shipped) != 1:
            raise RuntimeError(f"deploy/nginx/edge.conf: {shipped}")
        text = text.replace(shipped, here)
    return text


class Edge:
    """nginx before a registry, in a folder that is taken away again."""

    def __init__(self, peer):
        self.room = tempfile.TemporaryDirectory(dir="build")
        room, self.port = os.path.abspath(self.room.name), free_port()
        folders = " ".join(f"{kind}_temp_path {kind};" for kind in ("client_body", "proxy", "fastcgi", "uwsgi", "scgi"))
        user = pwd.getpwuid(os.geteuid()).pw_name
        for name, text in (
            ("nginx.conf", CONFIGURATION.format(user=user, folders=folders)),
            ("site.conf", site(peer, self.port, f"{room}/kept")),
        ):
            with open(f"{room}/{name}", "w", encoding="utf-8") as it:
                it.write(text)
        words = [NGINX, "-p", room, "-c", f"{room}/nginx.conf", "-e", f"{room}/error.log"]
        self.process = subprocess.Popen(words, stderr=subprocess.DEVNULL)

    def __enter__(self):
        return self

    def __exit__(self, *_):
        self.process.terminate()
        self.process.wait()
        self.room.cleanup()


def pulls(cases):
    """The bytes that came to all in some seconds, as GETs of the whole blob; the least time of the rounds."""
    peer, blob, seconds = cases.peer, cases.fresh(SIZE), cases.plan.seconds * TIMES
    peer.push(blob)
    path = f"/v2/{REPO}/blobs/{blob.digest}"
    text = peer.head("GET", path)
    peer.sock.close()
    peer.replies.close()
    peer.forget_peak()
    rate = max(pulls_a_second(peer, text, seconds) for _ in range(ROUNDS))
    cases.keep(PULLS, 1 / rate, peer.peak())
    if not isinstance(peer, Firkhen) or not NGINX:
        return
    with Edge(peer) as edge:
        by_edge = copy.copy(peer)
        by_edge.port = edge.port
        # (from here on the edge has it)
        by_edge.connect()
        if by_edge.request("GET", path)[1] != blob.bytes:
            raise RuntimeError("an edge gave other bytes")
        by_edge.sock.close()
        rate = max(pulls_a_second(by_edge, text, seconds) for _ in range(ROUNDS))
        cases.keep(BY_EDGE, 1 / rate)
