"""How cost grows with what a registry holds: kinds of requests and orders, each at three sizes or more.

What counts is the time that the server has of a processor, which waits for no disk and no other process; the
clock's stands beside it. bench/laws.py has the rule by which a row is flat, linear or worse. What a registry holds
is filled in, if that makes of a small one what orders and pushes make of it.
"""
import json
import os
import subprocess
import sys
import tempfile
import time
from contextlib import ExitStack, contextmanager

from bench import filling
from bench.cases import MEDIA, Manifest, manifest_of
from bench.driver import connect, reply_size, take as take_reply
from bench.laws import FLAT, LINEAR, Cost, Row, expected
from bench.servers import IMAGES, KIB, LIB, MANY, REPO, Blob, Firkhen, copy_database, new_database

# so many repositories at most where an older program is beside, and where the links of one are many
REPOS, MOST_BESIDE, FEW = (300, 1_000, 3_000, 10_000), 3_000, 300
BLOBS = (1_000, 10_000, 100_000)
MB, WIDE = 10**6, 50
# A row is taken at a size if one call may be expected to end within so many seconds. Other work can make a round
# half as long again as the next, so rounds are short and many, and begin within some seconds.
LONGEST, SECONDS, ROUND, CALLS = 15, 3, 0.03, 50

START_BY_REPOS = Row("start of a server", "repositories", REPOS, LINEAR)
MEMORY_BY_REPOS = Row("memory after it", "repositories", REPOS, LINEAR, of_memory=True)
LEVELS = Row("GET /v2/", "levels of its token", (10, 1_000, 10_000), FLAT)
LIST_OF_REPOS = Row("repos --orders", "repositories", REPOS, LINEAR)
GRANTS = Row("grants --orders", "repositories", REPOS, LINEAR)
GRANTS_OF_ONE = Row("grants --orders --token", "repositories", REPOS, LINEAR)
REPOS_BY_LINKS = Row("repos --orders", f"links of one of {FEW} repositories", (1, 1_000, 10_000), FLAT)
LIST_OF_TAGS = Row("tags --orders", "tags", (100, 1_000, 10_000), LINEAR)
LIST_OF_BLOBS = Row("blobs --orders", "blobs and as many manifests", (100, 300, 1_000), LINEAR)
START_BY_BLOBS = Row("start of a server", "blobs of 1 KiB", BLOBS, LINEAR)
MEMORY_BY_BLOBS = Row("memory after it", "blobs of 1 KiB", BLOBS, LINEAR, of_memory=True)
FIRST_PUSH = Row("first push of 1 KiB after a start", "blobs beside it", BLOBS, LINEAR)
AFTER_DELETE = Row("DELETE of a blob and a push", "blobs beside them", BLOBS, FLAT)
AFTER_QUOTA = Row("quota --orders and a push", "blobs beside it", BLOBS, FLAT)
DELETE_WITH_TAGS = Row("DELETE of a manifest", "tags that name it", (100, 1_000, 10_000), LINEAR)
REFERRERS = {it: Row(f"{it} of referrers of 1 KiB", "referrers", (10, 100, 1_000), LINEAR) for it in ("GET", "HEAD")}
RESTING = (10, 100, 1_000)
GET_BESIDE = Row("GET of a manifest", "connections that rest beside", RESTING, FLAT)
MEMORY_BESIDE = Row("memory with them", "connections that rest beside", RESTING, LINEAR, of_memory=True)
WIDE_REFERRERS = {it: Row(f"{it} of referrers of 1 MB", "referrers", (WIDE,)) for it in ("GET", "HEAD")}


class Growing:
    """The costs of one program, by rows and sizes."""

    def __init__(self, peer, plan):
        self.name, self.executable, self.plan, self.seed = peer.name, peer.executable, plan, 0
        self.room, self.most = os.path.dirname(peer.store), 1 + 3 * plan.rounds
        self.costs = plan.costs.get(self.name, {})
        self.new = os.path.join(self.room, "new.db")
        new_database(self.executable, self.new)

    @contextmanager
    def server(self, fill=lambda rows: None, words=()):
        """A server over a file of its own, into which something is filled."""
        with tempfile.TemporaryDirectory(dir=self.room) as room:
            path = os.path.join(room, "filled.db")
            copy_database(self.new, path)
            with filling.filling(path) as rows:
                fill(rows)
            peer = Firkhen(self.name, self.executable, path, room, takes_orders=True, words=words)
            try:
                yield peer
            finally:
                peer.end()

    def fresh(self, count=1):
        first, self.seed = self.seed, self.seed + count
        return [Blob(KIB, f"{self.name}{first + i}") for i in range(count)]

    def sizes(self, row):
        most = MOST_BESIDE if self.plan.beside_old and row.by == "repositories" else row.sizes[-1]
        return [it for it in row.sizes if it <= most]

    def wants(self, row, size):
        """Whether a row is taken at a size. Where it would take too long, the run says so."""
        if size not in self.sizes(row):
            return False
        seconds = expected(self.costs[row], size) if row in self.costs else 0
        if seconds > LONGEST:
            note = f"{self.name}: {row}: left out at {size:,}, where it would take some {seconds:,.0f} s"
            self.plan.notes.append(note)
        return seconds <= LONGEST

    def rounds(self):
        """As many as are wanted, or as begin in time."""
        begun = time.perf_counter()
        for at in range(self.most):
            if at and time.perf_counter() - begun > SECONDS:
                return
            yield at

    def keep(self, row, size, costs, memory=None):
        """The least of what rounds cost."""
        least = Cost(min(it.processor for it in costs), min(it.clock for it in costs), memory)
        self.costs.setdefault(row, {})[size] = least
        took = f"{least.processor * 1e6:,.0f} us of a processor, {least.clock * 1e6:,.0f} us"
        print(f"  {self.name}: {row}, {size:,}: {took}", file=sys.stderr)

    def take(self, row, size, peer, call, prepare=lambda: None, most=CALLS):
        """What a call costs, without what is prepared for it; those that take long are fewer."""
        if not self.wants(row, size):
            return
        peer.forget_peak()
        costs, count = [], 1
        for _ in self.rounds():
            costs.append(cost_of(peer, call, prepare, count))
            count = max(1, min(most, int(ROUND / costs[-1].clock)))
        self.keep(row, size, costs, peer.peak())

    def take_starts(self, rows, size, peer, then=lambda: None):
        """What starts cost and the memory after them; after each something more is done."""
        row, of_memory = rows
        if not self.wants(row, size):
            return
        costs = []
        for _ in self.rounds():
            peer.end()
            peer.serve()
            costs.append(Cost(peer.processor(), peer.opened, peer.memory()))
            then()
        self.keep(row, size, costs, peer.peak())
        memory = [it.memory for it in costs if it.memory]
        if memory:
            self.costs.setdefault(of_memory, {})[size] = Cost(memory=min(memory))


def cost_of(peer, call, prepare=lambda: None, count=1):
    """What one of so many calls costs."""
    processor = clock = 0
    for _ in range(count):
        needed = prepare()
        before, start = peer.processor(), time.perf_counter()
        call(needed)
        clock += time.perf_counter() - start
        processor += peer.processor() - before
    return Cost(processor / count, clock / count)


def listing(peer, lines, *words):
    """An order that lists so many lines."""

    def order(_):
        found = peer.order(*words).count(b"\n")
        if found != lines:
            raise RuntimeError(f"{peer.name}: {' '.join(words)} lists {found} lines, not {lines}")

    return order


def names_of(count):
    """Repositories, of which a new file has the first four, and a token a level on them."""
    return [REPO, IMAGES, MANY, LIB, *(f"team/r{i:05}" for i in range(4, count))]


def repositories(growing):
    """On each of them one token has a level, and another on each second."""
    blob = growing.fresh()
    for size in sorted({*growing.sizes(LEVELS), *growing.sizes(GRANTS)}):
        names = names_of(size)

        def fill(rows):
            rows.add_repos(names[4:])
            rows.grant("t1", names[4:])
            rows.grant("t2", names[::2])
            rows.add_blobs(MANY, blob)

        with growing.server(fill) as peer:
            growing.take_starts((START_BY_REPOS, MEMORY_BY_REPOS), size, peer)
            growing.take(LEVELS, size, peer, lambda _: peer.request("GET", "/v2/"))
            growing.take(LIST_OF_REPOS, size, peer, listing(peer, size, "repos"))
            growing.take(GRANTS, size, peer, listing(peer, size + len(names[::2]), "grants"))
            growing.take(GRANTS_OF_ONE, size, peer, listing(peer, size, "grants", "--token", "t1"))


def links(growing):
    for size in REPOS_BY_LINKS.sizes:

        def fill(rows):
            rows.add_repos(names_of(FEW)[4:])
            rows.add_blobs(MANY, growing.fresh(size))

        with growing.server(fill) as peer:
            growing.take(REPOS_BY_LINKS, size, peer, listing(peer, FEW, "repos"))


def tags(growing):
    blob = growing.fresh()
    named = Manifest(manifest_of(blob[0], "named"))
    for size in LIST_OF_TAGS.sizes:

        def fill(rows):
            rows.add_blobs(MANY, blob)
            rows.add_manifests(MANY, [named])
            rows.add_tags(MANY, [f"t{i:05}" for i in range(size)], named.digest)

        with growing.server(fill) as peer:
            growing.take(LIST_OF_TAGS, size, peer, listing(peer, size, "tags", "--name", MANY))


def listed_blobs(growing):
    """Each manifest names one of the blobs."""
    for size in LIST_OF_BLOBS.sizes:

        def fill(rows):
            blobs = growing.fresh(size)
            rows.add_blobs(MANY, blobs)
            rows.add_manifests(MANY, [Manifest(manifest_of(it, "names it")) for it in blobs])

        with growing.server(fill) as peer:
            growing.take(LIST_OF_BLOBS, size, peer, listing(peer, size, "blobs", "--name", MANY))


def pushes(growing):
    """Into one repository: the first, which finds nothing in memory, one behind a DELETE, one under a new quota."""
    held, last, quota = 0, [], iter(range(filling.QUOTA, 0, -1))
    with growing.server() as peer:

        def push(_):
            last[:] = growing.fresh()
            peer.push(last[0], MANY)

        def behind_delete(_):
            peer.request("DELETE", f"/v2/{MANY}/blobs/{last[0].digest}")
            push(None)

        def behind_quota(_):
            peer.order("quota", "--name", MANY, "--quota", str(next(quota)))
            push(None)

        for size in BLOBS:
            peer.fill(growing.fresh(size - held))
            held, firsts = size, []
            growing.take_starts((START_BY_BLOBS, MEMORY_BY_BLOBS), size, peer, lambda: firsts.append(cost_of(peer, push)))
            if firsts:
                growing.keep(FIRST_PUSH, size, firsts, peer.peak())
                growing.take(AFTER_DELETE, size, peer, behind_delete)
                growing.take(AFTER_QUOTA, size, peer, behind_quota, most=3)


def deletions(growing):
    blob = growing.fresh()
    for size in DELETE_WITH_TAGS.sizes:
        named = [Manifest(manifest_of(blob[0], note)) for note in range(growing.most)]

        def fill(rows):
            rows.add_blobs(MANY, blob)
            rows.add_manifests(MANY, named)
            for at, it in enumerate(named):
                rows.add_tags(MANY, [f"t{at}.{i:05}" for i in range(size)], it.digest)

        with growing.server(fill) as peer:
            left = iter(named)
            delete = lambda it: peer.request("DELETE", f"/v2/{MANY}/manifests/{it.digest}")
            growing.take(DELETE_WITH_TAGS, size, peer, delete, lambda: next(left), most=1)


def referrers(growing):
    """Manifests of 1 KiB with one subject; then a few of which the annotations are nearly all. Of these each method
    has a server of its own, for the memory that it takes."""
    blob = growing.fresh()
    subject = Manifest(manifest_of(blob[0], "subject"))
    path = f"/v2/{MANY}/referrers/{subject.digest}"

    def filled(size, length):
        """(with nothing but their annotation they are shorter than that)"""
        bare = len(manifest_of(blob[0], f"{0:06}", subject))

        def fill(rows):
            rows.add_blobs(MANY, blob)
            rows.add_manifests(MANY, [subject])
            notes = (f"{i:06}" + "x" * (length - bare) for i in range(size))
            rows.add_manifests(MANY, [Manifest(manifest_of(blob[0], it, subject)) for it in notes], subject)

        return growing.server(fill)

    def take(row, method, size, peer):
        growing.take(row, size, peer, lambda _: peer.request(method, path))

    for size in REFERRERS["GET"].sizes:
        with filled(size, KIB) as peer:
            found = len(json.loads(peer.request("GET", path)[1])["manifests"])
            if found != size:
                raise RuntimeError(f"{peer.name}: referrers has {found} manifests, not {size}")
            for method, row in REFERRERS.items():
                take(row, method, size, peer)
    for method, row in WIDE_REFERRERS.items():
        with filled(WIDE, MB) as peer:
            take(row, method, WIDE, peer)


def resting(growing):
    """Beside one connection others that have each had a reply, and say nothing more."""
    (blob,), path, fields = growing.fresh(), f"/v2/{IMAGES}/manifests/v1", {"Accept": MEDIA}
    with growing.server(words=("--at-once", str(RESTING[-1] + 2))) as peer, ExitStack() as stack:
        peer.push(blob, IMAGES)
        peer.request("PUT", path, manifest_of(blob, "small"), {"Content-Type": MEDIA})
        text, held = peer.head("GET", path, fields=fields), 0
        length = reply_size(peer.port, text)
        for size in RESTING:
            for _ in range(size - held):
                sock = stack.enter_context(connect(peer.port))
                sock.sendall(text)
                take_reply(sock, length)
            held = size
            growing.take(GET_BESIDE, size, peer, lambda _: peer.request("GET", path, fields=fields))
            memory = peer.memory()
            if memory:
                growing.costs.setdefault(MEMORY_BESIDE, {})[size] = Cost(memory=memory)


def fills_as_made(growing):
    """Whether filling makes of a new file what orders and pushes make of it."""
    (blob,), fields = growing.fresh(), {"Content-Type": MEDIA}
    named = Manifest(manifest_of(blob, "named"))
    refers = Manifest(manifest_of(blob, "refers", named))
    more, copy = names_of(6)[4:], os.path.join(growing.room, "copy.db")
    copy_database(growing.new, copy)
    with growing.server() as peer:
        for name in more:
            peer.order("repo", "--name", name, "--quota", str(filling.QUOTA))
            peer.order("grant", "--name", name, "--token", "t1", "--level", "3")
        peer.push(blob, MANY)
        for tag in ("v1", "v2"):
            peer.request("PUT", f"/v2/{MANY}/manifests/{tag}", named.bytes, fields)
        peer.request("PUT", f"/v2/{MANY}/manifests/{refers.digest}", refers.bytes, fields)
        peer.end()
        try:
            with filling.filling(copy) as rows:
                rows.add_repos(more)
                rows.grant("t1", more)
                rows.add_blobs(MANY, [blob])
                rows.add_manifests(MANY, [named])
                rows.add_tags(MANY, ["v1", "v2"], named.digest)
                rows.add_manifests(MANY, [refers], named)
        except filling.sqlite3.Error:
            # (another program's tables)
            return False
        return filling.rows(copy) == filling.rows(peer.store)


def takes_orders(executable):
    said = subprocess.run([executable, "serve", "--help"], stdout=subprocess.PIPE, stderr=subprocess.STDOUT, check=False)
    return b"--orders" in said.stdout


def beginning(cases):
    """Looks whether rows can be taken of a program: those that can have costs from here on."""
    peer, plan = cases.peer, cases.plan
    lacking = filling.lacking() or ("" if takes_orders(peer.executable) else "orders over a socket")
    if not lacking and not fills_as_made(Growing(peer, plan)):
        lacking = "a filling that makes what orders and pushes make (bench/filling.py)"
    if lacking:
        plan.notes.append(f"{peer.name}: nothing of how cost grows, for want of {lacking}")
    else:
        plan.costs[peer.name] = {}


def part_of(stage):
    def part(cases):
        if cases.peer.name in cases.plan.costs:
            stage(Growing(cases.peer, cases.plan))

    part.__name__ = f"growth, {stage.__name__}"
    return part


STAGES = (repositories, links, tags, listed_blobs, pushes, deletions, referrers, resting)
GROWTH = (beginning, *map(part_of, STAGES))


def shares(costs):
    """What HEAD of many annotations costs of what GET does."""
    for name, by_row in costs.items():
        get, head = (by_row.get(WIDE_REFERRERS[it], {}).get(WIDE) for it in ("GET", "HEAD"))
        if get and head:
            share = f"{head.processor / get.processor:.2f} of GET's processor time"
            memory = f", {head.memory / get.memory:.2f} of its memory" if head.memory and get.memory else ""
            yield f"{name}: HEAD of {WIDE} referrers of 1 MB: {share}{memory}"
