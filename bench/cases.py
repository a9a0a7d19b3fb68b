"""What is asked of each server: parts of cases, each part of a new server on a new store."""
import json
import os
import sys
import time
from dataclasses import dataclass, field

from bench import filling
from bench.servers import IMAGES, KIB, LIB, MANY, MIB, REPO, Blob, Docker
from tools.shared import digest

IMAGE = "application/vnd.oci.image."
MEDIA = IMAGE + "manifest.v1+json"
FIRST = 10


# the lines of the short run
LINES = (
    "push of 1 KiB",
    "GET of 1 KiB",
    "push of 64 MiB",
    "GET of 64 MiB",
    "POST+PATCH+PUT of 64 MiB, one PATCH",
    "the PUT of 64 MiB, one PATCH",
    "manifest PUT",
    "list of 1,000 tags",
    "push of 1 KiB beside 10",
    "push of 1 KiB beside 100,000",
)


@dataclass
class Plan:
    """How much is asked: sizes with how many requests a round, uploads with how many PATCHes each, and how
    many blobs a repository holds beside which is pushed."""

    rounds: int = 3
    sizes: tuple = (("1 KiB", KIB, 200), ("1 MiB", MIB, 20), ("64 MiB", 64 * MIB, 2))
    uploads: tuple = (
        ("1 MiB, one PATCH", MIB, 1, 20),
        ("64 MiB, one PATCH", 64 * MIB, 1, 1),
        ("64 MiB, 16 PATCHes", 64 * MIB, 16, 1),
    )
    beside: tuple = (10, 1_000, 10_000, 100_000)
    pushes: int = 20
    # docker-registry looks at no other blob as it takes one, and 100,000 blobs of it are 400,000 files
    beside_files: int = 10_000
    manifests: int = 100
    # how long many connections ask
    seconds: float = 1.0
    grown: int = 16
    # whether an older program is measured too, and what each program costs by rows and sizes (bench/growth.py)
    beside_old: bool = False
    costs: dict = field(default_factory=dict)
    # the cases that are wanted, where not all are
    lines: tuple = ()
    notes: list = field(default_factory=list)


QUICK = Plan(
    rounds=2,
    sizes=(("1 KiB", KIB, 50), ("64 MiB", 64 * MIB, 1)),
    uploads=(("64 MiB, one PATCH", 64 * MIB, 1, 1),),
    beside=(10, 100_000),
    pushes=5,
    beside_files=10,
    manifests=40,
    lines=LINES,
)


def manifest_of(blob, note, subject=None):
    size = len(blob.bytes)
    said = {
        "schemaVersion": 2,
        "mediaType": MEDIA,
        "config": {"mediaType": IMAGE + "config.v1+json", "digest": blob.digest, "size": size},
        "layers": [{"mediaType": IMAGE + "layer.v1.tar", "digest": blob.digest, "size": size}],
        "annotations": {"n": str(note)},
    }
    if subject:
        said["subject"] = {"mediaType": MEDIA, "digest": subject.digest, "size": len(subject.bytes)}
    return json.dumps(said).encode()


class Manifest:
    def __init__(self, data):
        self.bytes, self.digest = data, digest(data)


class Cases:
    """The seconds of one request of each case of one server, and the server's peak memory in it."""

    def __init__(self, peer, plan, found):
        self.peer, self.plan, self.found, self.seed = peer, plan, found, 0

    def take(self, name, count, call, prepare=lambda: None):
        """The least of some rounds. What a request needs is prepared before the clock starts."""
        if self.plan.lines and name not in self.plan.lines:
            return
        self.peer.forget_peak()
        least = None
        for _ in range(self.plan.rounds):
            needed = [prepare() for _ in range(count)]
            start = time.perf_counter()
            for it in needed:
                call(it)
            seconds = (time.perf_counter() - start) / count
            least = seconds if least is None else min(least, seconds)
        self.keep(name, least, self.peer.peak())

    def keep(self, name, seconds, peak=None):
        self.found[name] = seconds, peak
        memory = f", {peak:.0f} MiB" if peak else ""
        print(f"  {self.peer.name}: {name}: {seconds * 1e6:,.0f} us{memory}", file=sys.stderr)

    def weigh(self, name):
        """The memory that the server has now, in a row without a time."""
        memory = self.peer.memory()
        self.found[f"memory, {name}"] = None, memory
        print(f"  {self.peer.name}: memory, {name}: {memory or 0:.1f} MiB", file=sys.stderr)

    def fresh(self, size):
        self.seed += 1
        return Blob(size, f"{self.peer.name}{self.seed}{size}")


def blobs(cases):
    peer = cases.peer
    for name, size, count in cases.plan.sizes:
        first = cases.fresh(size)
        peer.push(first)
        path = f"/v2/{REPO}/blobs/{first.digest}"
        cases.take(f"push of {name}", count, peer.push, lambda: cases.fresh(size))
        cases.take(f"GET of {name}", count, lambda _: peer.request("GET", path))
        cases.take(f"HEAD of {name}", 200, lambda _: peer.request("HEAD", path))


def uploads(cases):
    """POST, the bytes by one PATCH or by some, PUT: the whole of it, and the PUT alone."""
    peer = cases.peer
    for name, size, patches, count in cases.plan.uploads:
        closings = []

        def upload(blob):
            at, part = peer.begin(), size // patches
            for start in range(0, size, part):
                at = peer.append(at, memoryview(blob.bytes)[start : start + part])
            start = time.perf_counter()
            peer.close(at, blob)
            closings.append(time.perf_counter() - start)

        cases.take(f"POST+PATCH+PUT of {name}", count, upload, lambda: cases.fresh(size))
        means = [sum(closings[i : i + count]) / count for i in range(0, len(closings), count)]
        cases.keep(f"the PUT of {name}", min(means))


def sessions(cases):
    """PATCH of 1 MiB into sessions that hold 0 and 60 MiB."""
    peer = cases.peer

    def holding(count):
        at = peer.begin()
        for _ in range(count):
            at = peer.append(at, cases.fresh(MIB).bytes)
        return at, cases.fresh(MIB).bytes

    for name, count in (("0", 0), ("60 MiB", 60)):
        cases.take(f"PATCH of 1 MiB into {name}", 1, lambda it: peer.append(*it), lambda: holding(count))


def manifests(cases):
    peer, blob, fields, count = cases.peer, cases.fresh(KIB), {"Content-Type": MEDIA}, cases.plan.manifests
    peer.push(blob, IMAGES)
    left = iter([manifest_of(blob, note) for note in range(count * cases.plan.rounds)])
    path, accept = f"/v2/{IMAGES}/manifests/v1", {"Accept": MEDIA}
    cases.take("manifest PUT", count, lambda it: peer.request("PUT", path, it, fields), lambda: next(left))
    cases.take("manifest GET", 200, lambda _: peer.request("GET", path, None, accept))
    cases.take("manifest HEAD", 200, lambda _: peer.request("HEAD", path, None, accept))


def lists(cases):
    peer, blob, fields = cases.peer, cases.fresh(KIB), {"Content-Type": MEDIA}
    peer.push(blob, MANY)
    subject = Manifest(manifest_of(blob, "subject"))
    for i in range(1000):
        peer.request("PUT", f"/v2/{MANY}/manifests/t{i}", subject.bytes, fields)
    path = f"/v2/{MANY}/tags/list"
    if len(json.loads(peer.request("GET", path)[1])["tags"]) != 1000:
        raise RuntimeError(f"{peer.name}: tags/list has not 1,000 tags")
    cases.take("list of 1,000 tags", 20, lambda _: peer.request("GET", path))
    if isinstance(peer, Docker):
        cases.plan.notes.append("docker-registry 2.8 has no referrers: that row is without it")
        return
    for note in range(100):
        it = Manifest(manifest_of(blob, note, subject))
        peer.request("PUT", f"/v2/{MANY}/manifests/{it.digest}", it.bytes, fields)
    path = f"/v2/{MANY}/referrers/{subject.digest}"
    if len(json.loads(peer.request("GET", path)[1])["manifests"]) != 100:
        raise RuntimeError(f"{peer.name}: referrers has not 100 manifests")
    cases.take("referrers of 100", 20, lambda _: peer.request("GET", path))


def mounts(cases):
    peer = cases.peer

    def pushed():
        it = cases.fresh(KIB)
        peer.push(it)
        return f"/v2/{LIB}/blobs/uploads/?mount={it.digest}&from={REPO}"

    cases.take("mount", 100, lambda path: peer.request("POST", path), pushed)


def growing(cases):
    """Pushes of 1 KiB into a repository that holds so many blobs, and up to 60 more as they go on. The
    first ten are pushed; the others are filled in, if filling makes of those ten what their pushes made."""
    peer, plan, files = cases.peer, cases.plan, isinstance(cases.peer, Docker)
    first, copy = [cases.fresh(KIB) for _ in range(FIRST)], peer.store + "-copy"
    lacking = "" if files else filling.lacking()
    if not lacking:
        peer.copy(copy)
    for blob in first:
        peer.push(blob, MANY)
    if not lacking and not peer.fills_as_pushed(copy, first):
        lacking = "a filling that makes what pushes make (bench/filling.py)"
    held, most = FIRST, FIRST if lacking else plan.beside_files if files else plan.beside[-1]
    if lacking:
        plan.notes.append(f"{peer.name}: no push beside more than ten blobs, for want of {lacking}")
    for count in [it for it in plan.beside if it <= most]:
        if held < count:
            peer.fill([cases.fresh(KIB) for _ in range(count - held)])
            held = count
        if count == 100_000:
            grown(cases, count)
        name = f"push of 1 KiB beside {count:,}"
        cases.take(name, plan.pushes, lambda it: peer.push(it, MANY), lambda: cases.fresh(KIB))
        held += plan.pushes * plan.rounds


def grown(cases, count):
    """What an opening of so many blobs takes, and the first push after it, which finds nothing in memory."""
    peer, blob = cases.peer, cases.fresh(KIB)
    cases.keep(f"opening a file of {count:,} blobs", peer.opened, peer.peak())
    start = time.perf_counter()
    peer.push(blob, MANY)
    cases.keep(f"first push beside {count:,}", time.perf_counter() - start)


def opening(cases):
    """The time from the start of the process to its listening, and the size of the file."""
    peer = cases.peer
    if isinstance(peer, Docker):
        return
    for _ in range(cases.plan.grown):
        peer.push(cases.fresh(64 * MIB))
    peer.end()
    peer.serve()
    size = os.path.getsize(peer.store) / (1 << 30)
    cases.keep(f"opening a file of {size:.2f} GiB", peer.opened, peer.peak())


PARTS = {it.__name__: it for it in (blobs, uploads, sessions, manifests, lists, mounts, growing, opening)}
