"""Measures a day of a registry whose contents are beside its database, and of docker-registry.

    python3 -m bench.day [--images N] [--mb N] [--alone]

Images of random layers, 20 of some 86 MB where nothing is said, are pushed by four skopeo at once, and then
pulled by eight: the seconds of both, and the most memory of the server. Then of our registry half of the
images are deleted and what nothing names is cleared, by orders to the server, and as many new ones are
pushed: how large the files are, and how many bytes are named. Needs build/registry, skopeo, and room in
build/ for three times the images. Layers are gzip that is not compressed, so that skopeo sends them as they
are.
"""
import argparse
import gzip
import json
import os
import shutil
import subprocess
import sys
import tempfile
import time
from concurrent.futures import ThreadPoolExecutor

from bench.layouts import LAYOUTS
from bench.servers import MIB, REPO, Docker, Firkhen, new_database
from check.layout import Layout, tar_of
from tools.shared import REGISTRY

PUSHERS, PULLERS = 4, 8
# the layers of an image, as parts of it
PARTS = 0.5, 0.3, 0.12, 0.08
LEAST = 1.3


class Image(Layout):
    """An image of layers of these lengths."""

    def __init__(self, folder, seed, sizes):
        self.sizes = sizes
        super().__init__(folder, seed, 0)
        self.length = sum(len(it) for it in self.blobs.values())
        # (from here on they are read from the folder)
        self.blobs = {}

    def image(self, seed, platform, pairs, subject):
        tars = (tar_of(f"layer{at}", os.urandom(size)) for at, size in enumerate(self.sizes))
        packed = [(it, gzip.compress(it, 0, mtime=0)) for it in tars]
        return super().image(seed, platform, packed, subject)


class Day:
    """A server, and how skopeo reaches it."""

    def __init__(self, peer, room, words):
        self.peer, self.room, self.words = peer, room, words

    def at(self, number):
        return f"docker://127.0.0.1:{self.peer.port}/{REPO}:v{number}"

    def copy(self, *words):
        ran = subprocess.run(["skopeo", "copy", "--quiet", *words], capture_output=True, text=True)
        if ran.returncode:
            raise RuntimeError(f"{self.peer.name}: skopeo: {ran.stderr[-300:]}")

    def push(self, number, image):
        self.copy("--dest-tls-verify=false", *self.words["dest"], f"oci:{image.folder}:v1", self.at(number))

    def pull(self, number, image):
        """What comes is the image that was pushed."""
        with tempfile.TemporaryDirectory(dir=self.room) as back:
            self.copy("--src-tls-verify=false", *self.words["src"], self.at(number), f"oci:{back}:v1")
            with open(f"{back}/index.json", encoding="utf-8") as it:
                if json.load(it)["manifests"][0]["digest"] != image.digest:
                    raise RuntimeError(f"{self.peer.name}: another image")

    def together(self, count, call, images):
        """The seconds of so many at once, and the most memory of the server."""
        self.peer.forget_peak()
        begun = time.perf_counter()
        with ThreadPoolExecutor(count) as pool:
            list(pool.map(call, images, images.values()))
        return time.perf_counter() - begun, self.peer.peak()


def made(room, first, count, size):
    """So many images by their numbers."""
    sizes = [int(size * it) for it in PARTS]
    return {it: Image(f"{room}/image-{it}", f"image {it}", sizes) for it in range(first, first + count)}


def files(peer):
    """The lengths of the registry's files together, and what they take of the disk."""
    found = [os.stat(peer.store + end) for end in ("", "-wal", "-contents")]
    return sum(it.st_size for it in found), sum(it.st_blocks * 512 for it in found)


def show_files(what, peer, images):
    length, blocks = files(peer)
    named = sum(it.length for it in images.values())
    told = f"{length / MIB:,.0f} MiB ({blocks / MIB:,.0f} on the disk) for {named / MIB:,.0f} MiB named"
    print(f"{what}: {told}, {length / named:.2f}", flush=True)
    return length / named


def go_on(day, images, others):
    """Half goes, and as many come."""
    show_files("after the day", day.peer, images)
    gone = sorted(images)[::2]
    for it in gone:
        day.peer.request("DELETE", f"/v2/{REPO}/manifests/{images.pop(it).digest}")
    day.peer.order("prune", "--name", REPO)
    day.peer.order("clear")
    show_files("after half of it is deleted and cleared", day.peer, images)
    seconds, memory = day.together(PUSHERS, day.push, others)
    print(f"the next day's {len(others)} pushes: {seconds:.1f} s, {memory:.0f} MiB")
    images |= others
    day.together(PULLERS, day.pull, images)
    ratio = show_files("after them", day.peer, images)
    print(f"{'reached' if ratio <= LEAST else 'MISSED'}: at most {LEAST}")


def days(room, alone):
    """The servers: ours, and docker-registry."""
    new = os.path.abspath(f"{room}/new.db")
    new_database(REGISTRY, new, LAYOUTS["beside"])
    token = {end: [f"--{end}-registry-token", "t1"] for end in ("dest", "src")}
    yield Day(Firkhen("beside", REGISTRY, new, os.path.abspath(room), takes_orders=True), room, token)
    if shutil.which("docker-registry") and not alone:
        nobody = {end: [f"--{end}-no-creds"] for end in ("dest", "src")}
        yield Day(Docker(os.path.abspath(room)), room, nobody)


def options():
    asked = argparse.ArgumentParser(description="Measures a day of a registry.")
    asked.add_argument("--images", type=int, default=20)
    asked.add_argument("--mb", type=int, default=86, help="how large an image is")
    asked.add_argument("--alone", action="store_true", help="without docker-registry")
    return asked.parse_args()


def main():
    asked = options()
    if not os.path.exists(REGISTRY) or not shutil.which("skopeo"):
        print("bench-day needs build/registry and skopeo", file=sys.stderr)
        return 2
    with tempfile.TemporaryDirectory(dir="build") as room:
        images = made(room, 0, asked.images, asked.mb * 1_000_000)
        others = made(room, asked.images, asked.images // 2, asked.mb * 1_000_000)
        print("| | pushes, s | MiB | pulls, s | MiB |\n|---|---|---|---|---|")
        ours = None
        for day in days(room, asked.alone):
            try:
                rows = [*day.together(PUSHERS, day.push, images), *day.together(PULLERS, day.pull, images)]
                print(f"| {day.peer.name} | " + " | ".join(f"{it:.1f}" for it in rows) + " |", flush=True)
                if ours is None:
                    ours = day
                    go_on(day, dict(images), others)
            finally:
                day.peer.end()
    return 0


if __name__ == "__main__":
    sys.exit(main())
