"""Descriptors of which there are fewer than places."""
import resource
import time

from check.hostile.crowd import prepared, works
from check.hostile.door import MOST, Crowd, say_of
from check.hostile.said import say
from check.hostile.server import Server

# the system gives the server so many, of which it needs some for its file and for its doors
DESCRIPTORS, CLIENTS = 64, 100
SAID = "open files"


def few_descriptors():
    resource.setrlimit(resource.RLIMIT_NOFILE, (DESCRIPTORS, DESCRIPTORS))


def run_short(room):
    """100 clients of a server that may have 256 at once, and has descriptors for fewer than 64."""
    path = f"{room}/short.said"
    with open(path, "wb") as said:
        server = Server(prepared(room, "short"), "--at-once", "256", stderr=said, preexec_fn=few_descriptors)
    say(works(server), f"a server that has {DESCRIPTORS} descriptors is at work")
    crowd = Crowd(server.port, CLIENTS)
    crowd.go_on(MOST + 2)
    say_of(crowd)
    time.sleep(1)
    with open(path, encoding="ascii") as it:
        lines = [line for line in it if SAID in line]
    is_said = 1 <= len(lines) <= 10 * (MOST + 3)
    say(is_said, f"that descriptors are wanting is said, in {len(lines)} lines, ten a second at most", lines * (not is_said))
    say(server.process.poll() is None and works(server), "when all have gone another is served")
    server.kill()
