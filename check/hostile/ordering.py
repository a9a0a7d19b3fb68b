"""Orders to a server that goes on, beside all that it is asked; and lines at its socket that are no orders."""
import contextlib
import os
import random
import socket
import stat
import subprocess
import threading
import time

from tools.shared import REGISTRY
from check.hostile.said import SECONDS, say
from check.hostile.server import Server, answer
from check.hostile.telling import tell_failures, tell_requests
from check.hostile.worlds import copied, world
from check.hostile.writes import ORDERS, order, push, request

# more callers than the server has at once; the one of them that has been silent longest gives way to another
SILENT, SOON = 40, 5
NOT_READ = b"2\nregistry: invalid options\n"

# Lines that no order has.
MALFORMED = [
    b"\n",
    b" \n",
    b"usage \n",
    b" usage\n",
    b"usage\r\n",
    b"USAGE\n",
    b"usage\0\n",
    b"usage team/app\n",
    b"serve\n",
    b"migrate\n",
    b"drop\n",
    b"drop Team/app\n",
    b"drop team/app now\n",
    b"prune\n",
    b"clear team/app\n",
    b"repo team/more 01\n",
    b"repo team/more -1\n",
    b"repo team/more 9223372036854775808\n",
    b"repo team/more 99999999999999999999999\n",
    b"quota team/app\n",
    b"quota team/app 5 5\n",
    b"grant team/app 0 t2\n",
    b"grant team/app 4 t2\n",
    b"grant team/app 3\n",
    b"grant  team/app 3 t2\n",
    b"grant team/app 3 t2 t3\n",
    b"grant team/app 3 t\xff\n",
    b"revoke team/app t1 \n",
    b"revoke\n",
    b"revoke *\n",
    b"list lines grants\n",
    b"list lines grants whole *\n",
    b"list lines grants all * *\n",
    b"list text grants whole * *\n",
    b"list lines grants whole * t1 t2\n",
    b"\xff\xfe\x00\x01 \x80\n",
    b"x" * 599 + b"\n",
]
# Longer than any line: the server reads no further, and says nothing.
TOO_LONG = [b"x" * 5000 + b"\n", b"usage " * 200_000]


def prepared(room, name):
    """A database of one repository and one token in a folder of its own, and where its server takes orders."""
    os.mkdir(f"{room}/{name}")
    db = f"{room}/{name}/registry.db"
    for words in (order("repo", "--name", "team/app", "--quota", str(1 << 40)), ORDERS[2]):
        subprocess.run(words(db), check=True)
    return db, f"{room}/{name}/orders"


def told(*words):
    """The status of a command and its two outputs; one that does not end is said so."""
    try:
        ran = subprocess.run([REGISTRY, *words], capture_output=True, timeout=SECONDS)
    except subprocess.TimeoutExpired:
        return None, b"", b"no end"
    return ran.returncode, ran.stdout, ran.stderr


def is_told(found, wanted, what):
    say(found == wanted, what, [] if found == wanted else [f"{found}, and not {wanted}"])


def ordered(at, word, *words):
    return told(word, "--orders", at, *words)


def given(db, word, *words):
    return told(word, "--db", db, *words)


def rows_of(table, but=None):
    """The rows of a table of usage by the names of the repositories."""
    rows = {row.split()[-1]: row for row in table.decode().splitlines()[1:]}
    return {name: row for name, row in rows.items() if name != but}


def status_of(server, token, name):
    """What a token is answered that asks for the tags of a repository."""
    text = request("GET", f"/v2/{name}/tags/list").replace(b"Bearer t1\r\n", b"Bearer %s\r\n" % token.encode())
    with server.connect() as connection:
        reply = answer(connection, text)
    return reply and reply[0]


# ---- beside pushes


def forty_orders():
    """Six in turn; those of the first round that take something away are refused, since nothing is there. Every other
    one takes all levels of a token, and lists those that there are."""
    for number in range(7):
        this, last = f"team/n{number}", f"team/n{number - 1}"
        token = ("--token", f"token-{number}")
        yield "repo", "--name", this, "--quota", str(1000 + number)
        yield "grant", *token, "--name", this, "--level", str(1 + number % 3)
        yield "quota", "--name", this, "--quota", str(2000 + number)
        yield "revoke", "--token", f"token-{number - 1}", *(("--name", last) if number % 2 else ())
        if number < 6:
            yield "drop", "--name", last
            yield ("usage",) if number % 2 else ("grants", "--show-tokens")


class Pushes:
    """Four clients that push blobs of 8 MiB, each its own ones, until they are told to stop."""

    def __init__(self, server):
        self.server, self.stop, self.bodies, self.bad = server, threading.Event(), 0, []
        self.clients = [threading.Thread(target=self.go_on, args=(number,)) for number in range(4)]
        for it in self.clients:
            it.start()

    def go_on(self, number):
        rest = random.Random(number).randbytes((8 << 20) - 16)
        with self.server.connect() as connection:
            for count in range(1 << 30):
                reply = answer(connection, push(b"%8d%8d" % (number, count) + rest))
                if reply is None or reply[0] != 201:
                    self.bad.append(f"client {number}, push {count}: {reply and reply[0]}")
                    return
                self.bodies += 1
                if self.stop.is_set():
                    return

    def end(self):
        self.stop.set()
        for it in self.clients:
            it.join()


def in_force(server, words):
    """What is wrong with what a request is told after an order has ended."""
    if words[0] == "grant" and status_of(server, words[2], words[4]) != 200:
        return [f"{words}: the token is not known yet"]
    if words[0] == "revoke" and status_of(server, words[2], "team/app") != 401:
        return [f"{words}: the token is known still"]
    if words[0] == "drop" and status_of(server, "t1", words[2]) != 403:
        return [f"{words}: the name is answered otherwise than one that was never there"]
    return []


def order_beside_pushes(room):
    db, at = prepared(room, "beside")
    twin = copied(db, f"{room}/twin.db")
    server = Server(db, "--orders", at, stderr=subprocess.DEVNULL)
    pushes, bad, late, statuses = Pushes(server), [], [], {}
    began = time.monotonic()
    for count, words in enumerate(forty_orders(), 1):
        found, wanted = ordered(at, *words), given(twin, *words)
        if words[0] == "usage":
            # (pushes go to one of the repositories)
            found, wanted = [(status, rows_of(out, but="team/app"), err) for status, out, err in (found, wanted)]
        if found != wanted:
            bad.append(f"{' '.join(words)}: {found}, and over a file {wanted}")
        late += in_force(server, words)
        statuses[wanted[0]] = statuses.get(wanted[0], 0) + 1
    seconds = time.monotonic() - began
    pushes.end()
    table = ordered(at, "usage")
    server.kill()
    said = ", ".join(f"{number} of status {status}" for status, number in sorted(statuses.items()))
    whole = count == 40 and set(statuses) == {0, 1}
    say(whole and not bad, f"{count} orders beside pushes in {seconds:.1f} s are told as over a file: {said}", bad)
    say(not late, "each is in force for the next request", late)
    told_ = f"{pushes.bodies} pushes of 8 MiB beside them are all answered 201"
    say(not pushes.bad and pushes.bodies > 4, told_, pushes.bad)
    found = given(db, "usage")
    is_told(table, found, "the table of the server is the one of its file")
    is_told(int(rows_of(found[1])["team/app"].split()[0]), pushes.bodies << 23, "which has what was pushed")


# ---- lines that are no orders


@contextlib.contextmanager
def called(at):
    with socket.socket(socket.AF_UNIX) as it:
        it.settimeout(SECONDS)
        it.connect(at)
        yield it


def all_of(caller):
    """What comes until the other end closes."""
    had = b""
    with contextlib.suppress(ConnectionError):
        while more := caller.recv(65536):
            had += more
    return had


def say_nonsense(at):
    """What is wrong with the answers to lines that are none."""
    bad = []
    for line in MALFORMED:
        with called(at) as caller:
            caller.sendall(line)
            found = all_of(caller)
        if found != NOT_READ:
            bad.append(f"{line[:40]}: {found}")
    for line in TOO_LONG:
        with called(at) as caller:
            with contextlib.suppress(ConnectionError):
                caller.sendall(line)
            found = all_of(caller)
        if found:
            bad.append(f"{line[:10]} and {len(line) - 10:,} bytes more: {found}")
    return bad


def mumble(room):
    db, at = prepared(room, "mumble")
    before = world(db)
    server = Server(db, "--orders", at, stderr=subprocess.DEVNULL)
    bad = say_nonsense(at)
    say(not bad, f"{len(MALFORMED)} lines that are no order's are told so, and {len(TOO_LONG)} are too long to be told", bad)
    for part in (b"", b"usage", b"drop team/app"):
        with called(at) as caller:
            caller.sendall(part)
            caller.shutdown(socket.SHUT_WR)
            found = all_of(caller)
        is_told(found, b"", f"of `{part.decode()}` without the line's end nothing is told")
    table = ordered(at, "usage")[1]
    by_byte, two = [b"%c" % it for it in b"usage\n"], [b"usage\ndrop team/app\n"]
    for pieces, what in ((by_byte, "that comes byte by byte"), (two, "with another behind it")):
        with called(at) as caller:
            for it in pieces:
                caller.sendall(it)
                time.sleep(0.01)
            found = all_of(caller)
        is_told(found, b"0\n" + table, f"an order {what} is carried out alone")
    hold_up(server, at)
    say(ordered(at, "usage")[0] == 0, "orders go on afterwards")
    server.kill()
    say(world(db) == before, "and nothing has changed")


def hold_up(server, at):
    """Callers that say nothing, and half a line."""
    with contextlib.ExitStack() as stack:
        callers = [stack.enter_context(called(at)) for _ in range(SILENT)]
        callers[0].sendall(b"drop team/a")
        slow = []
        for _ in range(20):
            began = time.monotonic()
            told_ = status_of(server, "t1", "team/app")
            if told_ != 200 or time.monotonic() - began > 1:
                slow.append(f"{told_} after {time.monotonic() - began:.1f} s")
        say(not slow, f"beside {SILENT} callers that say nothing requests are answered", slow)
        began = time.monotonic()
        found = ordered(at, "usage")
        seconds = time.monotonic() - began
        is_soon = found[0] == 0 and seconds < SOON
        say(is_soon, f"and so is an order, in {seconds:.1f} s", [] if is_soon else [found])
        is_told(all_of(callers[0]), b"", "half a line gives way without a word")


# ---- kills


class Givers:
    """Gives orders one after the other, by so many at once, until no server takes them; notes those that were done."""

    def __init__(self, at, kind, count=3):
        self.at, self.kind, self.done, self.bad = at, kind, [], []
        self.givers = [threading.Thread(target=self.go_on, args=(number,)) for number in range(count)]
        for it in self.givers:
            it.start()

    def go_on(self, giver):
        for number in range(1 << 30):
            name = f"team/{self.kind}-{giver}-{number}"
            made, granted = ("repo", "--name", name, "--quota", "1000"), ("grant", "--token", name, "--name", name, "--level", "1")
            for words in (made, granted):
                status, _, err = ordered(self.at, *words)
                if status != 0:
                    if status != 4 or not err.startswith(b"registry: connection failure\n"):
                        self.bad.append(f"{words}: {status} {err}")
                    return
                self.done.append((words[0], name))

    def end(self):
        for it in self.givers:
            it.join()


def kill_amid_orders(room, kills=10):
    """Each server but the first finds the socket of the one before it, which was killed."""
    db, at = prepared(room, "killed")
    chance, bad, done = random.Random(20_261_125), [], []
    server = Server(db, "--orders", at, stderr=subprocess.DEVNULL)
    for number in range(kills):
        givers = Givers(at, f"k{number}")
        time.sleep(0.1 + chance.random() * 0.4)
        server.kill()
        givers.end()
        bad += givers.bad
        done += givers.done
        if not stat.S_ISSOCK(os.lstat(at).st_mode):
            bad.append(f"kill {number + 1}: no socket is left")
        there = rows_of(given(db, "usage")[1])
        bad += [f"kill {number + 1}: {name} is lost" for kind, name in done if kind == "repo" and name not in there]
        server = Server(db, "--orders", at, stderr=subprocess.DEVNULL)
        unknown = [name for kind, name in done if kind == "grant" and status_of(server, name, name) != 200]
        bad += [f"kill {number + 1}: the grant on {name} is lost" for name in unknown]
    say(not bad and len(done) > kills, f"{kills} kills, {len(done)} orders that were done, all of them there", bad)
    say(ordered(at, "usage")[0] == 0, "the socket of a server that was killed is the next one's")
    return server, at


# ---- what is refused


def refuse(room, server, at):
    """What is told where no server takes orders, or another does; the server goes on."""
    mode = stat.S_IMODE(os.lstat(at).st_mode)
    is_told(oct(mode), oct(0o600), "the socket is its owner's alone")
    other, _ = prepared(room, "other")
    serve = "serve", "--db", other, "--listen", "127.0.0.1:0", "--orders"
    failed = "registry: connection failure\nregistry: {}: {}\n"
    plain, nothing = f"{room}/other/plain", f"{room}/other/nothing"
    with open(plain, "wb") as it:
        it.write(b"kept")
    for words, where, why in (
        (serve, at, "another server takes orders here"),
        (serve, plain, "is no socket"),
        (("usage", "--orders"), nothing, "no server takes orders here"),
    ):
        is_told(told(*words, where), (4, b"", failed.format(where, why).encode()), f"{words[0]} --orders: {why}")
    with open(plain, "rb") as it:
        say(it.read() == b"kept" and not os.path.exists(nothing), "the file is as it was, and nothing is made")
    db = os.path.dirname(at) + "/registry.db"
    why = f"registry: {db}: in use by another process; a server that holds it takes orders by --orders\n"
    wanted = 3, b"", b"registry: storage failure\n" + why.encode()
    is_told(given(db, "usage"), wanted, "an order over the file of a server is refused, and says why")
    say(ordered(at, "usage")[0] == 0, "the server takes orders still")
    left = sorted(os.listdir(os.path.dirname(at)))
    is_told(left, ["orders", "registry.db", "registry.db-wal"], "nothing is left beside the database and the socket")
    server.kill()
    wanted = 4, b"", failed.format(at, "no server takes orders here").encode()
    is_told(ordered(at, "usage"), wanted, "and when it has gone none is taken")


def give_orders(refusing, room):
    order_beside_pushes(room)
    mumble(room)
    refuse(room, *kill_amid_orders(room))
    tell_requests(room)
    tell_failures(refusing, room)
