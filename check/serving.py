"""A server over a file in a folder, on a port that is free, and what is started and run beside it."""
import base64
import copy
import json
import os
import signal
import socket
import subprocess
import time
import urllib.error
import urllib.request

from tools.shared import REGISTRY, free_port

# the password and the token of each user (a password in base64 may have + and /, which are more than themselves in a
# pattern)
LOGINS = {"u1": ("p1>>>???", "t1"), "u2": ("p2", "t2")}
QUOTAS = {"team/app": 1 << 40, "team/lib": 1 << 40, "team/other": 1 << 40, "team/small": 100_000}
GRANTS = [("t1", "team/app"), ("t1", "team/lib"), ("t1", "team/small"), ("t2", "team/other")]

# the status of a program that did not end in its time
NO_END = 1000
# what a process that is told to end may take
SECONDS_TO_END = 60


def run(*words, given=b"", env=None, cwd=None, seconds=300):
    """What a program ended with; its two outputs are one. One that does not end in its time is killed with all that
    it started, which could hold its output open."""
    words = [str(word) for word in words]
    ends = {"stdin": subprocess.PIPE, "stdout": subprocess.PIPE, "stderr": subprocess.STDOUT}
    with subprocess.Popen(words, env={**os.environ, **(env or {})}, cwd=cwd, start_new_session=True, **ends) as process:
        try:
            said, status = process.communicate(given, timeout=seconds)[0], process.returncode
        except subprocess.TimeoutExpired:
            os.killpg(process.pid, signal.SIGKILL)
            said, status = f"no end within {seconds} s".encode(), NO_END
    ran = subprocess.CompletedProcess(words, status, said)
    ran.ended = status != NO_END
    ran.text = said.decode(errors="replace").strip()
    return ran


def must(*words, **more):
    ran = run(*words, **more)
    if ran.returncode:
        raise RuntimeError(f"{' '.join(map(str, words))}: {ran.text}")
    return ran.text


def until(ready, what, seconds=120):
    for _ in range(seconds * 20):
        if ready():
            return
        time.sleep(0.05)
    raise RuntimeError(f"{what} is not there after {seconds} s")


def listens(port):
    with socket.socket() as it:
        return it.connect_ex(("127.0.0.1", port)) == 0


def end(process):
    process.terminate()
    try:
        process.wait(SECONDS_TO_END)
    except subprocess.TimeoutExpired:
        process.kill()
        process.wait()


def basic(login):
    """The field that a name and a password, with a colon between them, are sent in (RFC 7617)."""
    return {"Authorization": "Basic " + base64.b64encode(login.encode()).decode()}


class Serving:
    """Made with all its repositories and tokens. `with` starts it, and ends it with all that was started beside it.
    `host` and `url` are where clients go: here straight to the server."""

    # what its certificate is compared with, where it has one
    authority, trust = "", None
    # who logs in, and how
    logins = LOGINS
    # the record of requests, and what its lines have of a mount and of a blob that is too large
    options, record = ["--log"], "registry.log"
    # what a new registry is told of where its contents are
    layout = []
    mount, too_large = ["POST /v2/team/lib/blobs/uploads/ 201 "], [" 413 "]

    def __init__(self, room):
        self.room, self.db, self.inner, self.processes = room, f"{room}/registry.db", free_port(), []
        self.host = self.plain_host = f"127.0.0.1:{self.inner}"
        self.url = f"http://{self.host}"
        for name, quota in QUOTAS.items():
            must(REGISTRY, "repo", "--db", self.db, *self.layout, "--name", name, "--quota", quota)
        for token, name in GRANTS:
            must(REGISTRY, "grant", "--db", self.db, "--token", token, "--name", name, "--level", 3)

    def __enter__(self):
        try:
            self.begin()
        except BaseException:
            self.end()
            raise
        return self

    def __exit__(self, *_):
        self.end()

    def begin(self):
        self.start_server()

    def login(self, user):
        """A name and a password, with a colon between them."""
        return f"{user}:{self.logins[user][0]}"

    def straight(self):
        """The same, for clients that go straight to the server."""
        it = copy.copy(self)
        it.host = it.plain_host = f"127.0.0.1:{self.inner}"
        it.url, it.authority, it.trust = f"http://{it.host}", "", None
        return it

    def write(self, name, text, mode=0o644):
        with open(os.open(f"{self.room}/{name}", os.O_WRONLY | os.O_CREAT | os.O_TRUNC, mode), "w", encoding="utf-8") as it:
            it.write(text)
        return f"{self.room}/{name}"

    def start(self, words, env=None):
        with open(f"{self.room}/{os.path.basename(words[0])}.log", "ab") as log:
            self.processes.append(subprocess.Popen(words, stdout=log, stderr=log, env={**os.environ, **(env or {})}))
        return self.processes[-1]

    def start_server(self):
        self.server = self.start([REGISTRY, "serve", "--db", self.db, "--listen", f"127.0.0.1:{self.inner}", *self.options])
        until(lambda: listens(self.inner), "registry serve")

    def end(self):
        for process in reversed(self.processes):
            end(process)
        self.processes = []

    def ask(self, path, method="GET", fields=None, body=None, at=None):
        """The status, fields and content of a reply."""
        asked = urllib.request.Request(f"{at or self.url}{path}", body, fields or {}, method=method)
        try:
            with urllib.request.urlopen(asked, context=self.trust, timeout=300) as it:
                return it.status, it.headers, it.read()
        except urllib.error.HTTPError as it:
            return it.code, it.headers, it.read()

    def read(self, path, token="t1"):
        return self.ask(path, fields={"Authorization": f"Bearer {token}"})

    def digest(self, repo, tag):
        return self.ask(f"/v2/{repo}/manifests/{tag}", "HEAD", {"Authorization": "Bearer t1"})[1]["Docker-Content-Digest"]

    def document(self, repo, tag):
        return json.loads(self.read(f"/v2/{repo}/manifests/{tag}")[2])

    def asked(self, words):
        """How many lines of the record have all the words."""
        with open(f"{self.room}/{self.record}", encoding="utf-8") as it:
            return sum(all(word in line for word in words) for line in it)

    def was_asked(self, before, words):
        """Whether there are more such lines than before; one may come a little later than the reply."""
        for _ in range(100):
            if self.asked(words) > before:
                return True
            time.sleep(0.1)
        return False
