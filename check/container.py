"""Builds the image of deploy/container, and runs the registry in it.

What the image holds and says; a server that is started by the image's own words, on a port of its own; an
order, a push and a pull; its end by `registry stop`; and that the contents of its registry are beside the
database. It wants buildah, curl and the rights of root; where these, or what `buildah run --isolation chroot`
needs of the system, are not to be had, it says so and ends with status 3. `make check-container` calls this.
"""
import hashlib
import json
import os
import shutil
import subprocess
import sys
import tempfile
from contextlib import suppress

from tools.shared import TOP
from check.serving import until

IMAGE = "localhost/firkhen-check:try"
REGISTRY = "/usr/bin/registry"
ORDERS = ["--orders", "/data/orders.sock"]


def say(held, what, why=""):
    print(("ok    " if held else "WRONG ") + what + ("" if held or not why else f": {why}"), flush=True)
    if not held:
        say.wrong += 1


say.wrong = 0


def run(*words, **more):
    how = {"stdout": subprocess.PIPE, "stderr": subprocess.STDOUT, "check": False, "timeout": 120, "text": True}
    return subprocess.run(words, **{**how, **more})


def lacks():
    tools = [it for it in ("buildah", "curl") if shutil.which(it) is None]
    if tools or os.geteuid():
        return ", ".join(tools) or "the rights of root"
    return "build/registry" if not os.path.exists(f"{TOP}/build/registry") else ""


class Container:
    """One of the image, in which programs are run."""

    def __init__(self):
        self.name = run("buildah", "from", IMAGE).stdout.strip()

    def words(self, *words):
        return ["buildah", "run", "--isolation", "chroot", self.name, "--", REGISTRY, *words]

    def registry(self, *words):
        return run(*self.words(*words))

    def end(self):
        run("buildah", "rm", self.name)


def look_at_image():
    said = json.loads(run("buildah", "inspect", "--type", "image", IMAGE).stdout)["OCIv1"]["config"]
    say(said["User"] == "65532:65532" and "/data" in said["Volumes"], "its user and its volume", str(said))
    say(said["Entrypoint"] == [REGISTRY] and said["Cmd"][0] == "serve", "its words", str(said))
    return said["Cmd"]


def look_at_server(container, words, room):
    port = "127.0.0.1:17991"
    words = [port if it == "0.0.0.0:7000" else it for it in words]
    with open(f"{room}/log", "w+", encoding="utf-8") as log:
        with subprocess.Popen(container.words(*words), stdout=log, stderr=log) as server:
            until(lambda: run("curl", "-sf", f"http://{port}/healthz").returncode == 0, "the server's health")
            for order in (
                ["repo", *ORDERS, "--name", "team/app", "--quota", "1000"],
                ["grant", *ORDERS, "--token", "t1", "--name", "team/app", "--level", "3"],
            ):
                ran = container.registry(*order)
                say(ran.returncode == 0 and not ran.stdout, f"an order: {order[0]}", ran.stdout)
            at = f"http://{port}/v2/team/app/blobs"
            digest = "sha256:" + hashlib.sha256(b"abc").hexdigest()
            asked = ["curl", "-s", "--oauth2-bearer", "t1"]
            code = ["-o", f"{room}/body", "-w", "%{http_code}"]
            ran = run(*asked, *code, "--data-binary", "abc", f"{at}/uploads/?digest={digest}")
            say(ran.stdout == "201", "a push", ran.stdout)
            say(run(*asked, f"{at}/{digest}").stdout == "abc", "a pull")
            found = files_of(server)
            held = {"registry.db", "registry.db-contents"} <= found
            say(held, "a new registry has its contents beside its database", str(found))
            ran = container.registry("stop", *ORDERS)
            say(ran.returncode == 0, "registry stop", ran.stdout)
            say(server.wait(timeout=60) == 0, "the server ends with status 0")


def files_of(process):
    """The names of the files that a process has open, or one that it has started."""
    found, left = set(), [process.pid]
    while left:
        at = f"/proc/{left.pop()}"
        with suppress(OSError):
            for task in os.listdir(f"{at}/task"):
                with open(f"{at}/task/{task}/children", encoding="ascii") as it:
                    left += it.read().split()
            found |= {os.path.basename(os.readlink(f"{at}/fd/{it}")) for it in os.listdir(f"{at}/fd")}
    return found


def main():
    lacking = lacks()
    if lacking:
        print(f"left out, for want of {lacking}")
        return 3
    ran = run(f"{TOP}/deploy/container/build.sh", IMAGE)
    container = Container() if ran.returncode == 0 else None
    if container is None or container.registry("--version").returncode:
        print(f"left out, since buildah does not run here: {ran.stdout[-300:]}")
        return 3
    try:
        with tempfile.TemporaryDirectory() as room:
            look_at_server(container, look_at_image(), room)
    finally:
        container.end()
        run("buildah", "rmi", IMAGE)
    print(f"{say.wrong} wrong" if say.wrong else "the registry serves in its image")
    return 1 if say.wrong else 0


if __name__ == "__main__":
    sys.exit(main())
