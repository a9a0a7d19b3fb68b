"""The servers that are measured, each with one kept connection, and what stands in their stores."""
import hashlib
import os
import shutil
import socket
import subprocess
import time

from bench import filling
from tools.shared import digest, free_port

REPO, IMAGES, MANY, LIB = "team/app", "team/images", "team/many", "team/lib"
KIB, MIB = 1 << 10, 1 << 20
OCTETS = {"Content-Type": "application/octet-stream"}


class Blob:
    """Bytes that differ from seed to seed, and their digest, which a client has before it pushes them."""

    def __init__(self, size, seed):
        self.bytes = hashlib.sha256(seed.encode()).digest() + b"\0" * (size - 32)
        self.digest = digest(self.bytes)
        self.hex = self.digest[7:]


class Peer:
    """A server on loopback, and one kept connection to it. Python's own client takes 0.15 ms a request,
    which is most of what a look-up takes with it."""

    def head(self, method, path, body=None, fields=None):
        said = {"Host": f"127.0.0.1:{self.port}", **self.fields, **(fields or {})}
        if body is not None:
            said["Content-Length"] = len(body)
        lines = [f"{method} {path} HTTP/1.1", *(f"{name}: {value}" for name, value in said.items()), "", ""]
        return "\r\n".join(lines).encode()

    def request(self, method, path, body=None, fields=None, wanted=(200, 201, 202, 204)):
        head = self.head(method, path, body, fields)
        if body is None or len(body) < MIB:
            self.sock.sendall(head + (body or b""))
        else:
            self.sock.sendall(head)
            self.sock.sendall(body)
        status, found = self.read_head()
        data = b"" if method == "HEAD" or status == 204 else self.read_body(found)
        if status not in wanted:
            raise RuntimeError(f"{self.name}: {method} {path}: {status} {data[:200]}")
        return found, data

    def read_head(self):
        """The status of a reply, and its fields by their names in lower case."""
        line, found = self.replies.readline(), {}
        if not line:
            raise RuntimeError(f"{self.name} ended the connection")
        while (field := self.replies.readline()) not in (b"\r\n", b""):
            name, _, value = field.partition(b":")
            found[name.lower().decode()] = value.strip().decode()
        return int(line.split(b" ", 2)[1]), found

    def read_body(self, found):
        if found.get("transfer-encoding") != "chunked":
            return self.replies.read(int(found["content-length"]))
        parts = []
        while size := int(self.replies.readline(), 16):
            parts.append(self.replies.read(size))
            self.replies.readline()
        self.replies.readline()
        return b"".join(parts)

    def begin(self, repo=REPO):
        return self.place(self.request("POST", f"/v2/{repo}/blobs/uploads/")[0])

    def append(self, at, data):
        return self.place(self.request("PATCH", at, data, OCTETS)[0])

    def close(self, at, blob, data=b""):
        self.request("PUT", f"{at}{'&' if '?' in at else '?'}digest={blob.digest}", data, OCTETS)

    def place(self, reply):
        """The path of an upload; docker-registry names itself before it."""
        return reply["location"].split(f":{self.port}")[-1]

    def connect(self):
        for _ in range(200):
            try:
                self.sock = socket.create_connection(("127.0.0.1", self.port), timeout=120)
                self.sock.setsockopt(socket.IPPROTO_TCP, socket.TCP_NODELAY, 1)
                self.replies = self.sock.makefile("rb")
                return
            except OSError:
                time.sleep(0.05)
        raise RuntimeError(f"{self.name} does not listen")

    def forget_peak(self):
        """From here on the peak is counted anew, where the system does that."""
        try:
            with open(f"/proc/{self.process.pid}/clear_refs", "w", encoding="ascii") as file:
                file.write("5")
        except OSError:
            pass

    def peak(self):
        """The most memory that the process had at once, in MiB."""
        return self.memory("VmHWM")

    def memory(self, word="VmRSS"):
        """The memory that the process has, in MiB."""
        try:
            with open(f"/proc/{self.process.pid}/status", encoding="ascii") as file:
                return next(int(line.split()[1]) / KIB for line in file if line.startswith(word))
        except (OSError, StopIteration):
            return None

    def processor(self):
        """The seconds that the server's thread has had of a processor, told when it rests."""
        told = None
        while self.process.poll() is None:
            with open(f"/proc/{self.process.pid}/stat", encoding="ascii") as file:
                rests = file.read().rpartition(") ")[2].startswith("S")
            with open(f"/proc/{self.process.pid}/schedstat", encoding="ascii") as file:
                before, told = told, int(file.read().split()[0])
            if rests and told == before:
                return told / 1e9
        raise RuntimeError(f"{self.name} has ended")

    def end(self):
        if self.sock:
            self.sock.close()
        self.process.kill()
        self.process.wait()


def new_database(executable, path, layout=()):
    """The repositories and a token for them."""
    for repo in (REPO, IMAGES, MANY, LIB):
        new = [*layout, "--quota", "9223372036854775807"]
        for order, words in (("repo", new), ("grant", ["--token", "t1", "--level", "3"])):
            subprocess.run([executable, order, "--db", path, "--name", repo, *words], check=True)


def copy_database(path, to):
    """The file with what is beside it, while no process has them open."""
    for end in ("", "-wal", "-contents"):
        if os.path.exists(path + end):
            shutil.copy(path + end, to + end)


def service_environment():
    """What the service tells the C library's allocator (deploy/firkhen.service), so that it is in force here too."""
    begun = "Environment=MALLOC_"
    with open("deploy/firkhen.service", encoding="utf-8") as it:
        words = [word for line in it if line.startswith(begun) for word in line.strip().split("=", 1)[1].split()]
    return {**os.environ, **dict(word.split("=", 1) for word in words)}


class Firkhen(Peer):
    fields = {"Authorization": "Bearer t1"}
    # where what the server says goes, if not where this program's does
    said = None

    def __init__(self, name, executable, new, room, takes_orders=False, words=()):
        self.name, self.executable, self.words, self.sock = name, executable, words, None
        self.store = os.path.join(room, "registry.db")
        # (a path from here, since that of a socket has at most 103 bytes)
        self.orders = os.path.relpath(os.path.join(room, "orders")) if takes_orders else None
        copy_database(new, self.store)
        self.serve()

    def serve(self):
        self.port = free_port()
        words = [self.executable, "serve", "--db", self.store, "--listen", f"127.0.0.1:{self.port}"]
        words += [*(["--orders", self.orders] if self.orders else []), *self.words]
        start = time.perf_counter()
        self.process = subprocess.Popen(words, stdout=subprocess.PIPE, stderr=self.said, env=service_environment())
        self.process.stdout.readline()
        self.opened = time.perf_counter() - start
        self.connect()

    def order(self, name, *words):
        """What an order prints that the server is sent."""
        ran = subprocess.run([self.executable, name, "--orders", self.orders, *words], stdout=subprocess.PIPE, check=False)
        if ran.returncode:
            raise RuntimeError(f"{self.name}: {name}: status {ran.returncode}")
        return ran.stdout

    def push(self, blob, repo=REPO):
        self.request("POST", f"/v2/{repo}/blobs/uploads/?digest={blob.digest}", blob.bytes)

    def copy(self, to):
        """The store as it is, another time."""
        self.end()
        copy_database(self.store, to)
        self.serve()

    def fill(self, blobs):
        self.end()
        filling.fill_rows(self.store, MANY, blobs)
        self.serve()

    def fills_as_pushed(self, copy, blobs):
        """Whether filling the copy makes what the pushes made here."""
        self.end()
        filling.fill_rows(copy, MANY, blobs)
        alike = filling.rows(copy) == filling.rows(self.store)
        self.serve()
        return alike


class Docker(Peer):
    name = "docker-registry"
    fields = {}

    def __init__(self, room):
        self.sock, self.port, self.store = None, free_port(), os.path.join(room, "files")
        config = os.path.join(room, "config.yml")
        with open(config, "w", encoding="utf-8") as file:
            file.write(
                f"version: 0.1\nlog: {{level: error, accesslog: {{disabled: true}}}}\n"
                f"storage: {{filesystem: {{rootdirectory: {self.store}}}, delete: {{enabled: true}}}}\n"
                f"http: {{addr: '127.0.0.1:{self.port}'}}\n"
            )
        words = ["docker-registry", "serve", config]
        self.process = subprocess.Popen(words, stdout=subprocess.DEVNULL, stderr=subprocess.DEVNULL)
        self.connect()

    def push(self, blob, repo=REPO):
        self.close(self.begin(repo), blob, blob.bytes)

    def copy(self, to):
        if os.path.exists(self.store):
            shutil.copytree(self.store, to)

    def fill(self, blobs):
        filling.fill_files(self.store, MANY, blobs)

    def fills_as_pushed(self, copy, blobs):
        filling.fill_files(copy, MANY, blobs)
        return filling.files(copy) == filling.files(self.store)
