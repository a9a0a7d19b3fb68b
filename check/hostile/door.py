"""More clients than there are places, each of which asks again and again on a connection that it keeps."""
import heapq
import select
import shutil
import socket
import subprocess
import threading
import time
from contextlib import ExitStack

from check.hostile.crowd import GET_ABC, prepared, works
from check.hostile.said import SECONDS, say
from check.hostile.server import Server, answer
from check.hostile.writes import ABC, AT, request
from tools.shared import digest

CLIENTS, PLACES, MOST = 600, 256, 10
# each asks so often, with so many seconds between a reply and the next request
TIMES, BETWEEN = 4, 0.5
PUSHERS, PUSHES = 8, 6


class Client:
    """One who keeps its connection, and comes again where that was closed between two requests."""

    def __init__(self, crowd):
        self.crowd, self.left, self.had, self.since, self.sock = crowd, TIMES, b"", None, None

    def ask(self):
        """Asks on the connection that it has, or comes anew."""
        self.had, self.since = b"", self.since or time.monotonic()
        if self.sock is None:
            self.sock = self.crowd.opened.enter_context(socket.socket())
            self.sock.setblocking(False)
            self.sock.connect_ex(("127.0.0.1", self.crowd.port))
            self.crowd.watch(self, select.EPOLLOUT)
        else:
            self.send()

    def send(self):
        try:
            self.sock.sendall(GET_ABC)
            self.crowd.poll.modify(self.sock.fileno(), select.EPOLLIN)
        except ConnectionError:
            self.leave()

    def leave(self):
        """Its connection was closed. Where it had asked and nothing came, it asks again."""
        self.crowd.forget(self)
        self.sock.close()
        self.sock = None
        if self.had:
            self.crowd.bad.append(f"a reply was cut: {self.had[:100]}")
        elif self.since:
            self.crowd.again += 1
            self.ask()

    def hear(self):
        try:
            more = self.sock.recv(65_536)
        except ConnectionError:
            more = b""
        self.had += more
        if not more:
            self.leave()
        elif self.had.endswith(b"\r\n\r\n" + ABC):
            self.take()

    def take(self):
        if not self.had.startswith(b"HTTP/1.1 200 "):
            self.crowd.bad.append(f"answered {self.had[:100]}")
        self.crowd.waits.append(time.monotonic() - self.since)
        self.had, self.since, self.left = b"", None, self.left - 1
        if self.left > 0 or self.crowd.over:
            self.crowd.is_to_ask(self)


class Crowd:
    """So many clients of one server, in one thread."""

    def __init__(self, port, count):
        self.port, self.waits, self.bad, self.again, self.over = port, [], [], 0, None
        self.poll, self.opened, self.by_number, self.due = select.epoll(), ExitStack(), {}, []
        self.clients = [Client(self) for _ in range(count)]

    def watch(self, client, event):
        self.by_number[client.sock.fileno()] = client
        self.poll.register(client.sock.fileno(), event)

    def forget(self, client):
        del self.by_number[client.sock.fileno()]
        self.poll.unregister(client.sock.fileno())

    def is_to_ask(self, client):
        heapq.heappush(self.due, (time.monotonic() + BETWEEN, id(client), client))

    def is_on(self, over):
        """Whether they go on: until it is over, where that is told, else until all have asked often enough."""
        return not over.is_set() if over else any(it.left > 0 for it in self.clients)

    def go_on(self, seconds, over=None):
        """Until all have asked as often as they are to, or it is over; or for so many seconds."""
        ends, self.over = time.monotonic() + seconds, over
        with self.opened, self.poll:
            for it in self.clients:
                it.ask()
            while self.is_on(over) and time.monotonic() < ends:
                for number, event in self.poll.poll(0.02):
                    client = self.by_number.get(number)
                    if client and event & select.EPOLLOUT:
                        client.send()
                    elif client:
                        client.hear()
                while self.due and self.due[0][0] <= time.monotonic():
                    heapq.heappop(self.due)[2].ask()

    def unanswered(self):
        """How many have had no reply at all."""
        return sum(it.left >= TIMES for it in self.clients)


class Pusher:
    """One who pushes as clients do: on a connection that it keeps as long as it finds it open. What was sent it does
    not send again."""

    def __init__(self, server, number):
        self.server, self.number, self.bad, self.pushed, self.connection = server, number, [], 0, None
        self.thread = threading.Thread(target=self.go_on)
        self.thread.start()

    def ask(self, text):
        if self.connection and select.select([self.connection], [], [], 0)[0]:
            self.connection.close()
            self.connection = None
        self.connection = self.connection or self.server.connect()
        return answer(self.connection, text) or (None, {}, b"")

    def push_one(self, body):
        """The statuses of a POST, a PATCH and a PUT."""
        status, fields, _ = self.ask(request("POST", f"{AT}/blobs/uploads/"))
        yield status
        if status == 202:
            yield self.ask(request("PATCH", fields["location"], body))[0]
            yield self.ask(request("PUT", f"{fields['location']}?digest={digest(body)}"))[0]

    def go_on(self):
        for count in range(PUSHES):
            statuses = list(self.push_one(b"blob %d of %d" % (count, self.number)))
            self.pushed += statuses == [202, 202, 201]
            if statuses != [202, 202, 201]:
                self.bad.append(f"pusher {self.number}, push {count}: {statuses}")
                return
            time.sleep(BETWEEN / 2)
        self.connection.close()


def by_curl(server, room):
    """A push by curl, which goes on beside, and says its status."""
    with open(f"{room}/of-curl", "wb") as it:
        it.write(ABC)
    at = f"http://127.0.0.1:{server.port}{AT}/blobs/uploads/?digest={digest(ABC)}"
    words = ["curl", "--silent", "--max-time", str(SECONDS), "--oauth2-bearer", "t1", "--data-binary", f"@{room}/of-curl"]
    return subprocess.Popen([*words, "--write-out", "%{http_code}", at], stdout=subprocess.PIPE)


def say_of(crowd):
    none, longest, wanted = crowd.unanswered(), max(crowd.waits, default=0), len(crowd.clients) * TIMES
    what = f"of {len(crowd.clients)} who ask {TIMES} times, twice a second at most, {none} had no reply"
    held = len(crowd.waits) == wanted
    say(held, what, [f"{len(crowd.waits):,} replies of {wanted:,} in {MOST + 2} s"] * (not held))
    say(held and longest < MOST, f"the longest that one waited for a reply was {longest:.1f} s")
    what = f"{crowd.again} requests found their connection closed, and were sent again"
    say(not crowd.bad, f"all replies are whole; {what}", crowd.bad)


def knock(room):
    """600 clients on 256 places: some push, and the others ask."""
    server = Server(prepared(room, "door"), "--at-once", str(PLACES), stderr=subprocess.DEVNULL)
    say(works(server), f"{CLIENTS} clients come to a server of {PLACES} places")
    crowd, pushers = Crowd(server.port, CLIENTS - PUSHERS - 1), [Pusher(server, number) for number in range(PUSHERS)]
    curl = by_curl(server, room) if shutil.which("curl") else None
    crowd.go_on(MOST + 2)
    for it in pushers:
        it.thread.join()
    say_of(crowd)
    bad = [it for pusher in pushers for it in pusher.bad]
    pushed = sum(it.pushed for it in pushers)
    held = not bad and pushed == PUSHERS * PUSHES
    say(held, f"{pushed} pushes of three requests among them, none of which was sent twice", bad)
    if curl:
        status = curl.communicate()[0]
        say(status == b"201", "and one by curl", [status] * (status != b"201"))
    server.kill()
