"""The clients of check/clients.py: how each is called, and what it is asked to do."""
import json
import os
import re
import shutil
import tempfile

from tools.shared import TOP, digest
from check.serving import must, run, until
from check.layout import MEDIA, top_of

ACCEPTED = ("manifest.v1+json", "index.v1+json")


class Client:
    """One that is called by its name. What it is asked to do gives what the program ended with.

    `push` takes a layout to a repository and tag, `pull` takes it back, and `pulled` is then the digest of what came;
    `pass_on` pushes what is in one repository to another, None where the client never asks for a mount."""

    # whether the manifest is another where a layer is packed by it
    packs_again = False
    # whether it has a daemon or storage of its own
    needs_root = False
    # whether a 413 that is answered before it has sent all lets it wait for ever
    may_wait = False

    def __init__(self, front):
        known = front.write("auth.json", "{}", 0o600)
        self.front, self.env = front, {"SSL_CERT_FILE": front.authority, "REGISTRY_AUTH_FILE": known}

    @classmethod
    def lacks(cls):
        lacking = [it for it in cls.needs if shutil.which(it) is None and not os.path.exists(it)]
        return lacking + (["the rights of root"] if cls.needs_root and os.geteuid() else [])

    def begin(self):
        pass

    def run(self, *words, **more):
        return run(*words, env=self.env, cwd=self.front.room, **more)

    def at(self, where):
        return f"docker://{self.front.host}/{where}"

    def if_plain(self, word):
        """The word, where the registry is reached without TLS."""
        return [] if self.front.authority else [word]

    def push_index(self, layout, where):
        return self.push(layout, where)

    def pass_on(self, layout, source, target):
        return None


class Skopeo(Client):
    name, needs = "skopeo", ["skopeo"]

    def version(self):
        return self.run("skopeo", "--version").text.split()[-1]

    def given(self, end, user):
        """How an end of a copy, `src` or `dest`, is reached."""
        login = [f"--{end}-creds", self.front.login(user)] if user else [f"--{end}-no-creds"]
        return [*self.if_plain(f"--{end}-tls-verify=false"), *login]

    def push(self, layout, where, user="u1"):
        return self.run("skopeo", "copy", "--all", *self.given("dest", user), f"oci:{layout.folder}:v1", self.at(where))

    def pull(self, where, user="u1"):
        self.back = tempfile.mkdtemp(dir=self.front.room)
        return self.run("skopeo", "copy", "--all", *self.given("src", user), self.at(where), f"oci:{self.back}:v1")

    def pulled(self):
        return top_of(self.back)

    def pass_on(self, layout, source, target):
        return self.run("skopeo", "copy", *self.given("src", "u1"), *self.given("dest", "u1"), self.at(source), self.at(target))


class Storing(Client):
    """podman and buildah keep images unpacked: what is pushed has the same config, and the layers as they pack them."""

    packs_again, needs_root = True, True

    def __init__(self, front):
        super().__init__(front)
        self.folder = f"{front.room}/{self.name}"
        self.head = [self.name, "--root", self.folder, "--runroot", f"{self.folder}-run", "--storage-driver", "vfs"]
        self.digests = f"{self.folder}.digest"

    def version(self):
        return self.run(self.name, "--version").text.split()[2]

    def call(self, *words):
        return self.run(*self.head, *words)

    def reach(self, user):
        """How the registry is reached, with a name and a password or as nobody."""
        return [*self.if_plain("--tls-verify=false"), *(["--creds", self.front.login(user)] if user else [])]

    def load(self, layout):
        """Takes a layout into its storage; the image's id."""
        # (as a relative path: a whole one becomes a name, and may be none)
        loaded = self.call("pull", f"oci:{os.path.basename(layout.folder)}:v1")
        return loaded.text.splitlines()[-1]

    def push(self, layout, where, user="u1"):
        self.image = self.load(layout)
        return self.call("push", "--digestfile", self.digests, *self.reach(user), self.image, self.at(where))

    def pull(self, where, user="u1"):
        self.call("rmi", "--all", "--force")
        ran = self.call("pull", *self.reach(user), self.at(where))
        self.image = ran.text.splitlines()[-1]
        return ran

    def pushed(self):
        if not os.path.exists(self.digests):
            return ""
        with open(self.digests, encoding="utf-8") as it:
            return it.read().strip()

    def pass_on(self, layout, source, target):
        return self.call("push", *self.reach("u1"), self.image, self.at(target))

    def push_index(self, layout, where):
        listed = f"localhost/{self.name}-two"
        self.call("manifest", "create", listed)
        self.call("manifest", "add", "--all", listed, f"oci:{layout.folder}:v1")
        return self.call("manifest", "push", "--all", *self.reach("u1"), listed, self.at(where))

    def has(self, name):
        """The id of an image of this name in its storage."""
        return self.call("images", "--quiet", "--no-trunc", name).text

    def login(self, user):
        words = [*self.if_plain("--tls-verify=false"), "--username", user, "--password-stdin", self.front.host]
        return self.run(*self.head, "login", *words, given=self.front.logins[user][0].encode())

    def logout(self):
        return self.call("logout", self.front.host)


class Podman(Storing):
    name, needs = "podman", ["podman"]


class Buildah(Storing):
    name, needs = "buildah", ["buildah"]


def start_containerd(front):
    """A daemon of its own for a client; the path of its socket."""
    at = tempfile.mkdtemp(dir=front.room)
    text = f'version = 2\nroot = "{at}"\nstate = "{at}-run"\ndisabled_plugins = ["io.containerd.grpc.v1.cri"]\n'
    text += f'[grpc]\n  address = "{at}.sock"\n[ttrpc]\n  address = "{at}.ttrpc"\n'
    front.start([shutil.which("containerd"), "--config", front.write(f"{os.path.basename(at)}.toml", text)])
    until(lambda: os.path.exists(f"{at}.sock"), "containerd")
    return f"{at}.sock"


class Ctr(Client):
    """containerd, with a daemon of its own."""

    name, needs = "ctr", ["ctr", "containerd"]
    needs_root, may_wait = True, True

    def version(self):
        return self.run("ctr", "--version").text.split()[-1]

    def begin(self):
        self.socket = start_containerd(self.front)
        # ctr takes `localhost` for a host without TLS unless it is told otherwise
        self.hosts = self.if_plain("--plain-http") or self.told(f'  ca = "{self.front.authority}"\n')
        until(lambda: self.call("version").returncode == 0, "containerd")

    def told(self, more):
        """The words that name a folder of its own in which it is told how the registry is reached."""
        folder, at = tempfile.mkdtemp(dir=self.front.room), self.front.url
        os.mkdir(f"{folder}/{self.front.host}")
        text = f'server = "{at}"\n[host."{at}"]\n  capabilities = ["pull", "resolve", "push"]\n{more}'
        self.front.write(f"{os.path.basename(folder)}/{self.front.host}/hosts.toml", text)
        return ["--hosts-dir", folder]

    def reach(self, user):
        return [*self.hosts, *(["--user", self.front.login(user)] if user else [])]

    def call(self, *words):
        return self.run("ctr", "--address", self.socket, *words, seconds=60)

    def push(self, layout, where, user="u1"):
        self.call("images", "import", "--all-platforms", "--no-unpack", "--digests", "--base-name", "local", layout.tar())
        return self.call("images", "push", *self.reach(user), f"{self.front.host}/{where}", f"local@{layout.digest}")

    def pull(self, where, user="u1"):
        for it in self.call("images", "ls", "-q").text.split():
            self.call("images", "rm", "--sync", it)
        self.where = f"{self.front.host}/{where}"
        return self.call("content", "fetch", "--all-platforms", *self.reach(user), self.where)

    def pass_on(self, layout, source, target):
        return self.call("images", "push", *self.reach("u1"), f"{self.front.host}/{target}", f"{self.front.host}/{source}")

    def pulled(self):
        row = next((it for it in self.call("images", "ls").text.splitlines() if it.startswith(self.where + " ")), "")
        return (re.findall(r"sha256:[0-9a-f]{64}", row) or [""])[0]


class Curl(Client):
    """By the requests of the specification, with a token and no name."""

    name, needs = "curl", ["curl"]

    def version(self):
        return self.run("curl", "--version").text.split()[1]

    def call(self, method, path, body=None, kind="octet-stream", user="u1"):
        """The status, and what came back."""
        words = ["curl", "-sS", "-X", method, "-w", "\n%{http_code}", "-H", f"Content-Type: application/{kind}"]
        words += ["--cacert", self.front.authority] if self.front.authority else []
        words += ["-H", "Accept: " + ", ".join(map(MEDIA.format, ACCEPTED))]
        words += ["--oauth2-bearer", self.front.logins[user][1]] if user else []
        words += ["--data-binary", "@-"] if body is not None else []
        ran = self.run(*words, f"{self.front.url}/v2/{path}", given=body or b"")
        ran.content, _, status = ran.stdout.rpartition(b"\n")
        status = status.decode()
        ran.text = ran.content.decode(errors="replace") or status
        ran.returncode = ran.returncode or (0 if status.startswith("2") else int(status))
        return ran

    def push(self, layout, where, user="u1"):
        name, tag = where.split(":")
        for at, body in layout.blobs.items():
            kind = layout.kinds[at]
            if kind in ACCEPTED:
                path = f"{name}/manifests/{tag if at == layout.digest else at}"
                ran = self.call("PUT", path, body, "vnd.oci.image." + kind, user=user)
            else:
                ran = self.call("POST", f"{name}/blobs/uploads/?digest={at}", body, user=user)
            if ran.returncode:
                break
        return ran

    def pull(self, where, user="u1"):
        name, tag = where.split(":")
        ran = self.call("GET", f"{name}/manifests/{tag}", user=user)
        if ran.returncode:
            return ran
        self.back = digest(ran.content)
        told = json.loads(ran.content)
        for it in [told["config"], *told["layers"]]:
            ran = self.call("GET", f"{name}/blobs/{it['digest']}", user=user)
            if digest(ran.content) != it["digest"]:
                self.back = f"another {it['digest']}"
        return ran

    def pulled(self):
        return self.back

    def pass_on(self, layout, source, target):
        name, _ = target.split(":")
        return self.call("POST", f"{name}/blobs/uploads/?mount={layout.layer}&from={source.split(':')[0]}", user="u1")


class Oras(Client):
    """The library oras-go, by check/oras_copy.go."""

    name, needs = "oras-go", ["go", "/usr/share/gocode/src/oras.land/oras-go"]
    # (it pushes by containerd's library)
    may_wait = True

    def version(self):
        return self.run("dpkg-query", "--show", "--showformat=${Version}", "golang-oras-oras-go-dev").text

    def begin(self):
        self.program = f"{self.front.room}/oras_copy"
        env = {"GO111MODULE": "off", "GOPATH": "/usr/share/gocode", "GOCACHE": f"{self.front.room}/go"}
        must("go", "build", "-o", self.program, f"{TOP}/check/oras_copy.go", env=env, seconds=900)

    def call(self, way, where, user, *more):
        given = self.front.login(user).encode() if user else b""
        return self.run(self.program, way, f"{self.front.plain_host}/{where}", *more, given=given, seconds=60)

    def push(self, layout, where, user="u1"):
        return self.call("push", where, user, layout.folder)

    def pull(self, where, user="u1"):
        ran = self.call("pull", where, user)
        self.digest = ran.text
        return ran

    def pulled(self):
        return self.digest


class Docker(Client):
    """Docker's daemon, one of its own that makes no network. It pulls what the others pushed, and pushes another form."""

    name, needs = "docker", ["docker", "/usr/sbin/dockerd", "containerd"]
    needs_root = True

    def version(self):
        return self.run("/usr/sbin/dockerd", "--version").text.split()[2].rstrip(",")

    def begin(self):
        room = self.front.room
        self.env |= {"DOCKER_CONFIG": f"{room}/docker", "DOCKER_HOST": f"unix://{room}/docker.sock"}
        words = ["--iptables=false", "--ip6tables=false", "--bridge=none", "--storage-driver", "vfs", "--host", self.env["DOCKER_HOST"]]
        words += ["--data-root", f"{room}/docker-data", "--exec-root", f"{room}/docker-run", "--pidfile", f"{room}/docker.pid"]
        self.front.start(["/usr/sbin/dockerd", *words, "--containerd", start_containerd(self.front)])
        until(lambda: self.run("docker", "version").returncode == 0, "dockerd")

    def login(self, user):
        return self.run("docker", "login", "--username", user, "--password-stdin", self.front.host, given=self.front.logins[user][0].encode())

    def pull(self, where):
        return self.run("docker", "pull", f"{self.front.host}/{where}")

    def pulled(self, where):
        return self.run("docker", "image", "inspect", "--format", "{{.Id}}", f"{self.front.host}/{where}").text

    def push(self, source, target):
        self.run("docker", "tag", f"{self.front.host}/{source}", f"{self.front.host}/{target}")
        return self.run("docker", "push", f"{self.front.host}/{target}")


CLIENTS = [Curl, Skopeo, Buildah, Podman, Ctr, Oras]
