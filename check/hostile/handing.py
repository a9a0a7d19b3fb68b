"""A server that is handed its listener, as systemd does it."""
import os
import shutil
import socket
import subprocess

from tools.shared import REGISTRY
from check.hostile.crowd import prepared
from check.hostile.said import SECONDS, say
from check.hostile.server import answer
from check.hostile.writes import ABC, push

NO_SOCKET = b"registry: connection failure\nregistry: fd:3: is no socket\n"


def told(*words):
    """The status of a command and its two outputs."""
    ran = subprocess.run([REGISTRY, *words], stdin=subprocess.DEVNULL, capture_output=True, timeout=SECONDS)
    return ran.returncode, ran.stdout, ran.stderr


def has_abc(db):
    """Whether the file alone, without its log, has a repository in which `abc` is."""
    alone = f"{db}-alone"
    shutil.copy(db, alone)
    rows = told("usage", "--db", alone)[1].splitlines()[1:]
    return [row.split()[2] for row in rows] == [b"1"]


def hand_over(room):
    """A listener that this program makes, as descriptor 3."""
    db = prepared(room, "handed")
    words = ["serve", "--db", db, "--listen", "fd:3", "--connections", "1"]
    with socket.socket() as listener:
        listener.bind(("127.0.0.1", 0))
        listener.listen()
        port = listener.getsockname()[1]
        early = socket.create_connection(("127.0.0.1", port), timeout=SECONDS)
        how = {"pass_fds": [3], "preexec_fn": lambda: os.dup2(listener.fileno(), 3)}
        process = subprocess.Popen([REGISTRY, *words], stdout=subprocess.DEVNULL, stderr=subprocess.PIPE, **how)
    with early:
        reply = answer(early, push(ABC))
    say(reply is not None and reply[0] == 201, "who came to a listener before it was handed over is served")
    say(process.wait(SECONDS) == 0, "the server ends as another does")
    said = process.stderr.read().decode()
    process.stderr.close()
    say(said.endswith(f" on 127.0.0.1:{port}\n"), "it says the address of the listener", [said])
    found = told(*words)
    say(found == (4, b"", NO_SOCKET), "where none is handed over, that is said", [found])
    say(has_abc(db), "and the file is as it was")
