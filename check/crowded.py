"""Clients that push while others, more than the server has places, ask again and again on connections that they keep."""
import threading
from concurrent.futures import ThreadPoolExecutor

from check.asking import MIB, say
from check.client_kinds import Curl, Oras
from check.hostile.door import CLIENTS, PLACES, Crowd
from check.hostile.writes import ABC, AT
from check.layout import Layout
from check.straight import StraightCtr
from tools.shared import digest

ROUNDS = 3


def push_beside(client, front):
    """Pushes and pulls images; the error, if there is one."""
    for number in range(ROUNDS):
        seed = f"crowded-{client.name}-{number}"
        image, where = Layout(f"{front.room}/{seed}", seed, MIB), f"team/app:{seed}"
        for ran in (client.push(image, where), client.pull(where)):
            if ran.returncode:
                return ran.text[-600:]
        if client.pulled() != image.digest:
            return f"{where}: {client.pulled()} is not what was made"
    return ""


def push_in_a_crowd(front):
    """ctr straight and oras-go through nginx. Neither sends a PATCH again whose connection was closed."""
    clients = [kind(way) for kind, way in ((StraightCtr, front.straight()), (Oras, front)) if not kind.lacks()]
    if not clients or Curl.lacks():
        return
    for it in clients:
        it.begin()
    pushed = Curl(front).call("POST", f"{AT[4:]}/blobs/uploads/?digest={digest(ABC)}", ABC)
    say(pushed.returncode == 0, f"{CLIENTS} clients come to a server of {PLACES} places", pushed.text)
    crowd, over = Crowd(front.inner, CLIENTS - len(clients)), threading.Event()
    beside = threading.Thread(target=crowd.go_on, args=(300, over))
    beside.start()
    with ThreadPoolExecutor(len(clients)) as pool:
        said = list(pool.map(lambda it: push_beside(it, front), clients))
    over.set()
    beside.join()
    for it, bad in zip(clients, said):
        way = "through nginx" if it.front is front else "straight"
        say(not bad, f"{it.name} {way}: {ROUNDS} pushes and pulls among them", bad)
    none, longest = crowd.unanswered(), max(crowd.waits, default=0)
    say(not none and not crowd.bad, f"the others had {len(crowd.waits):,} replies, the longest waited {longest:.1f} s", str((none, crowd.bad[:3])))
