"""Real clients straight to the server, with a token and without TLS: one after the other, and several at once.

curl, skopeo and ctr can be given a token, and docker, which only pulls. buildah and podman have a name and
password alone, and look for a place that changes them for a token, which a server has with --login
(check/logins.py). Here it has none, and skopeo carries what they keep. The same is asked of a registry whose
contents are beside its database.
"""
import json
import os
import tempfile
import time
from concurrent.futures import ThreadPoolExecutor

from check.asking import MIB, Check, is_there, say
from check.client_kinds import Buildah, Ctr, Curl, Docker, Podman, Skopeo
from check.layout import Layout
from check.serving import Serving, must
from tools.shared import REGISTRY

# what a client says that is to ask `registry`, the realm of the challenge, for a token
NO_PLACE = "unsupported protocol scheme"
LAYERS = 12


class StraightSkopeo(Skopeo):
    def given(self, end, user):
        token = [f"--{end}-registry-token", self.front.logins[user][1]] if user else [f"--{end}-no-creds"]
        return [f"--{end}-tls-verify=false", *token]


class StraightCtr(Ctr):
    """It is told the token where it is told how the registry is reached."""

    def begin(self):
        super().begin()
        field = f'  [host."{self.front.url}".header]\n    authorization = "Bearer {{}}"\n'
        self.folders = {user: self.told(field.format(token)) for user, (_, token) in self.front.logins.items()}
        self.folders[None] = self.told("")

    def reach(self, user):
        return ["--plain-http", *self.folders[user]]


class StraightCheck(Check):
    refused_as_nobody = *Check.refused_as_nobody, NO_PLACE

    def push_many_layers(self):
        seed = f"{self.client.name}-{LAYERS}"
        image, where = Layout(f"{self.front.room}/{seed}", seed, MIB, layers=LAYERS), f"team/app:{seed}"
        began = time.monotonic()
        self.works(self.client.push(image, where), f"push of {LAYERS} layers")
        self.works(self.client.pull(where), f"pull of {LAYERS} layers")
        print(f"        {time.monotonic() - began:.1f} s")
        self.say(self.client.pulled() == image.digest, "what it pulled is what was made", self.client.pulled())

    def all(self):
        self.client.begin()
        self.push_and_pull()
        self.mount()
        self.index()
        self.push_many_layers()
        self.refusals()
        if self.client.may_wait:
            print(f"--    {self.client.name} may wait for ever where a layer is refused: left to the way through nginx")
        else:
            self.refuse_a_large_layer()


def push_and_pull_eight_at_once(serving):
    """Eight processes push an image each, and then pull it."""
    images = [Layout(f"{serving.room}/eight-{number}", f"eight-{number}", 4 * MIB) for number in range(8)]
    skopeo = [StraightSkopeo(serving) for _ in images]
    tags = [f"team/app:eight-{number}" for number in range(8)]
    began = time.monotonic()
    with ThreadPoolExecutor(8) as pool:
        pushed = list(pool.map(lambda it, image, tag: it.push(image, tag), skopeo, images, tags))
        pulled = list(pool.map(lambda it, tag: it.pull(tag), skopeo, tags))
    seconds = time.monotonic() - began
    for ran, what in ((pushed, "pushes"), (pulled, "pulls")):
        bad = "; ".join(it.text[-200:] for it in ran if it.returncode)
        say(not bad, f"skopeo: eight {what} at once", bad)
    wanted = [it.digest for it in images]
    there = [serving.digest(*it.split(":")) for it in tags]
    say(there == wanted, "skopeo: each manifest that was pushed is the one that was made")
    say([it.pulled() for it in skopeo] == wanted, "skopeo: each pulled what it pushed")
    print(f"        {seconds:.1f} s")


def carry_what_others_keep(serving):
    """skopeo pushes straight what buildah and podman keep, and puts into it what it pulls; by themselves they are told
    to ask at a place that is none."""
    skopeo = StraightSkopeo(serving)
    for kind in (Buildah, Podman):
        if not is_there(kind):
            continue
        client, seed = kind(serving), f"kept-{kind.name}"
        image, where = Layout(f"{serving.room}/{seed}", seed, MIB), f"team/app:{seed}"
        name = client.load(image)
        ran = client.call("push", *client.reach("u1"), name, client.at(where))
        lost = ran.returncode != 0 and NO_PLACE in ran.text
        say(lost, f"{kind.name}: straight it finds no place that gives tokens", ran.text[-600:])
        kept = f"containers-storage:[vfs@{client.folder}+{client.folder}-run]"
        ran = skopeo.run("skopeo", "copy", *skopeo.given("dest", "u1"), kept + name, skopeo.at(where))
        say(ran.returncode == 0, f"skopeo: pushes straight what {kind.name} keeps", ran.text[-600:])
        found = serving.document(*where.split(":"))["config"]["digest"]
        say(found == image.config, "skopeo: with the config that was made", found)
        client.call("rmi", "--all", "--force")
        ran = skopeo.run("skopeo", "copy", *skopeo.given("src", "u1"), skopeo.at(where), f"{kept}localhost/back:v1")
        say(ran.returncode == 0, f"skopeo: pulls it straight into what {kind.name} keeps", ran.text[-600:])
        found = client.has("localhost/back:v1")
        say(found == image.config, f"{kind.name}: it has the image that was made", found)


def pull_by_docker(serving):
    """Its token stands in the file in which `docker login` would keep a name and password."""
    docker, where = Docker(serving), "team/app:for-docker"
    print(f"{docker.name} {docker.version()}, straight")
    image = Layout(f"{serving.room}/for-docker", "for-docker", MIB, layers=LAYERS)
    Curl(serving).push(image, where)
    docker.begin()
    os.makedirs(f"{serving.room}/docker", exist_ok=True)
    for user, wanted in (("u2", "denied"), ("u1", "Downloaded newer image")):
        serving.write("docker/config.json", json.dumps({"auths": {serving.host: {"registrytoken": serving.logins[user][1]}}}))
        ran = docker.pull(where)
        what = f"pull of {LAYERS} layers" if user == "u1" else "a stranger's pull is refused, and says why"
        say(wanted in ran.text and (ran.returncode == 0) == (user == "u1"), f"docker: {what}", ran.text[-600:])
    found = docker.pulled(where)
    say(found == image.config, "docker: what it pulled is the image that was made", found)


class Beside(Serving):
    """A server over a registry whose contents are beside its database."""

    layout = ["--layout", "beside"]


def look_at_the_files(serving):
    """Whether a registry has a file beside it as its layout says, and each blob the bytes of its digest."""
    is_beside = os.path.exists(f"{serving.db}-contents")
    say(is_beside == bool(serving.layout), f"contents are {'beside' if is_beside else 'in'} the database")
    say(must(REGISTRY, "check", "--db", serving.db) == "", "and each blob and manifest is its digest's")


def go_straight(only, kind_of_serving=Serving):
    """Over a server that nothing stands before."""
    with tempfile.TemporaryDirectory() as room, kind_of_serving(room) as serving:
        layouts = {
            "two": Layout(f"{room}/two", "two", MIB, ("amd64", "arm64")),
            "quota": Layout(f"{room}/quota", "quota", 300_000),
            "large": Layout(f"{room}/large", "large", 64 * MIB),
        }
        for kind in (Curl, StraightSkopeo, StraightCtr):
            if (not only or kind.name in only) and is_there(kind):
                client = kind(serving)
                where = ", contents beside" if serving.layout else ""
                print(f"{client.name} {client.version()}, straight{where}")
                StraightCheck(serving, client, layouts).all()
        if (not only or "skopeo" in only) and not Skopeo.lacks():
            push_and_pull_eight_at_once(serving)
            carry_what_others_keep(serving)
        if (not only or "docker" in only) and is_there(Docker) and not Curl.lacks():
            pull_by_docker(serving)
        serving.end()
        look_at_the_files(serving)


def all_at_once(front, rounds=3):
    """skopeo and ctr straight, buildah and podman through nginx, beside one another."""
    ways = (StraightSkopeo, front.straight()), (StraightCtr, front.straight()), (Buildah, front), (Podman, front)
    clients = [kind(way) for kind, way in ways if not kind.lacks()]
    if not clients:
        return
    for it in clients:
        it.begin()

    def push_and_pull(client):
        for number in range(rounds):
            seed = f"beside-{client.name}-{number}"
            image, where = Layout(f"{front.room}/{seed}", seed, 4 * MIB), f"team/app:{seed}"
            for ran in (client.push(image, where), client.pull(where)):
                if ran.returncode:
                    return ran.text[-600:]
            got = "sha256:" + client.image[-64:] if client.packs_again else client.pulled()
            if got != (image.config if client.packs_again else image.digest):
                return f"{where}: {got} is not what was made"
        return ""

    began = time.monotonic()
    with ThreadPoolExecutor(len(clients)) as pool:
        said = list(pool.map(push_and_pull, clients))
    names = ", ".join(f"{it.name} {'through nginx' if it.front is front else 'straight'}" for it in clients)
    print(f"beside one another: {names}; {time.monotonic() - began:.1f} s")
    for it, bad in zip(clients, said):
        say(not bad, f"{it.name}: {rounds} pushes and pulls beside the others", bad)
