"""Real clients to a server over a file: straight, and through nginx with TLS as deploy/nginx has it.

    python3 -m check.clients [WAY..] [CLIENT..]    some of the ways, or all; these clients, or all

*straight* (check/straight.py): those that can be given a token push, pull, are refused, and push twelve layers; eight
push and pull at once; skopeo carries what buildah and podman keep. Then, to a server with `--login http`
(check/logins.py), all push and pull by a name and a password, which is the token; docker logs in and pulls; and each
is refused with a wrong password.
*beside*: the first of these once more, to a registry whose contents are beside its database.
*nginx*: nginx is started with a certificate that is made here, and behind it `registry serve` with the options of the
service, both in a folder that is taken away again. Each client pushes and pulls, mounts, is refused as a stranger and
where a layer or a quota is too large; then skopeo and ctr straight, and buildah and podman through nginx, push and
pull at the same time; and ctr straight, and oras-go through nginx, among more clients than the server has places for
(check/crowded.py).
*edges* (check/edges.py): two edges, nginx that hand out blobs from their own disks, before one registry: what they
hand out, to whom, and what they pass on; skopeo and podman push and pull through one each, and skopeo pulls through
both.

What arrived is compared by digests; clients that are not installed are named. Every wait has an end, which is wrong
where it is reached. The status is 3 where nginx or openssl is wanting, after what goes without them.
(Where it runs as root, skopeo, buildah and podman note in /var/lib/containers/cache where they have seen blobs.)
deploy/install-clients.sh installs what is looked for. `make check-clients` calls this.
"""
import json
import os
import shutil
import sys
import tempfile
from concurrent.futures import ThreadPoolExecutor

from check.asking import MIB, Check, is_there, say
from check.client_kinds import CLIENTS, Curl, Docker, Skopeo
from check.crowded import push_in_a_crowd
from check.edges import go_through_edges
from tools.shared import REGISTRY
from check.front import Front
from check.layout import Layout
from check.logins import log_in
from check.serving import basic, end, must
from check.straight import Beside, all_at_once, go_straight

WAYS = ["straight", "beside", "nginx", "edges"]


def look_at_the_front(front):
    """What nginx itself answers."""
    for scheme, host in (("https", front.host), ("http", front.plain_host)):
        status, fields, _ = front.ask("/v2/", at=f"{scheme}://{host}")
        wanted = f'Bearer realm="{scheme}://{host}/token",service="firkhen"'
        say((status, fields["WWW-Authenticate"]) == (401, wanted), f"the challenge names {scheme} and the host", fields["WWW-Authenticate"])
    # by the table of nginx; and by the server, of which a password is the token
    for given, what in ((front.login("u1"), "a name and password get their token"), ("nobody:t1", "so does the token itself")):
        status, fields, body = front.ask("/token?service=firkhen", fields=basic(given))
        said = json.loads(body)
        say((status, said["token"], said["access_token"], fields.get_all("Cache-Control")) == (200, "t1", "t1", ["no-store"]), what)
    # nginx compares words without regard to case, and base64 differs by it
    for other in (front.login("u1").upper(), front.login("u1") + "x", "u1:", ""):
        status, fields, _ = front.ask("/token", fields=basic(other) if other else None)
        say((status, fields["WWW-Authenticate"]) == (401, 'Basic realm="firkhen"'), f"`{other}` gets none")
    at = basic(front.login("u1"))["Authorization"][6:]
    status, _, _ = front.ask("/token", fields={"Authorization": "Basic " + at.swapcase()})
    say(status == 401, "nor do its letters in the other case")
    # the password of another is its own token, which nobody has
    _, _, body = front.ask("/token", fields=basic("u1:" + front.login("u2")[3:]))
    token = json.loads(body)["token"]
    say(token == "p2" and front.read("/v2/", token)[0] == 401, "and the password of another name opens nothing")
    say(front.ask("/token", "POST", body=b"")[0] == 405, "a POST for a token is told to try GET")
    status, fields, _ = front.ask("/v2/team/app/blobs/uploads/", "POST", {"Authorization": "Bearer t1"}, b"")
    say(status == 202 and fields["Location"].startswith(f"https://{front.host}/v2/team/app/blobs/uploads/"), "a Location is whole", str(fields["Location"]))
    mode = os.stat(f"{front.room}/firkhen/tokens.conf").st_mode & 0o777
    say(mode == 0o600, "the table of tokens is read with mode 0600")
    status, fields, body = front.ask("/healthz")
    say((status, fields["Content-Type"], body) == (200, "text/plain", b"ok\n"), "/healthz is well")


def look_at_docker(front, image):
    docker = Docker(front)
    print(f"{docker.name} {docker.version()}")
    docker.begin()
    where = "team/app:for-docker"
    Curl(front).push(image, where)
    ran = docker.login("u1")
    say(ran.returncode == 0, "docker: login", ran.text)
    ran = docker.pull(where)
    say(ran.returncode == 0, "docker: pull", ran.text)
    say(docker.pulled(where) == image.config, "docker: what it pulled is the image that was made", docker.pulled(where))
    ran = docker.push(where, "team/app:from-docker")
    say(ran.returncode != 0 and "manifest invalid" in ran.text, "docker: its push, which has another form, is refused as such", ran.text)
    docker.login("u2")
    ran = docker.pull(where)
    say(ran.returncode != 0 and "denied" in ran.text, "docker: a stranger's pull is refused, and says why", ran.text)


def look_at_referrers(front, image):
    """An artifact whose subject is an image, by curl: the push tells the subject, and the list has the artifact."""
    curl = Curl(front)
    curl.push(image, "team/app:subject")
    about = Layout(f"{front.room}/about", "about", 100, subject=image)
    ran = curl.push(about, "team/app:about")
    say(ran.returncode == 0, "referrers: the push of a manifest with a subject", ran.text)
    listed = json.loads(curl.call("GET", f"team/app/referrers/{image.digest}").text)
    say([it["digest"] for it in listed["manifests"]] == [about.digest], "referrers: the list has it", str(listed))
    found = json.loads(curl.call("GET", f"team/app/referrers/{about.digest}").text)
    say(found["manifests"] == [], "referrers: and that of another is empty")


def pull_eight_at_once(front, image):
    """The same image eight times, by processes that run side by side."""
    where = "team/app:eight"
    skopeo = [Skopeo(front) for _ in range(8)]
    skopeo[0].push(image, where)
    with ThreadPoolExecutor(8) as pool:
        ran = list(pool.map(lambda it: it.pull(where), skopeo))
    say(all(it.returncode == 0 for it in ran), "skopeo: eight pulls at once", "; ".join(it.text[-200:] for it in ran if it.returncode))
    say([it.pulled() for it in skopeo] == [image.digest] * 8, "skopeo: each pulled what was pushed")


def push_in_dockers_form(front, image):
    """What is not taken: Docker's own manifests."""
    words = ["--format", "v2s2", "--dest-creds", front.login("u1"), f"oci:{image.folder}:v1", f"docker://{front.host}/team/app:docker"]
    ran = Skopeo(front).run("skopeo", "copy", *words)
    say(ran.returncode != 0 and "manifest invalid" in ran.text, "skopeo: a manifest in Docker's own form is refused as such", ran.text[-600:])


def stop_the_server(front):
    """What is answered while nothing stands behind nginx, and afterwards."""
    end(front.server)
    say(front.ask("/healthz")[0] == 503, "without the server /healthz says 503")
    status, _, body = front.ask("/v2/")
    say((status, json.loads(body)["errors"][0]["code"]) == (503, "UNAVAILABLE"), "and so does the registry")
    front.start_server()
    say(front.ask("/healthz")[0] == 200, "with it again /healthz is well")


def look_at_the_quota(front):
    """What the refused pushes left."""
    table = must(REGISTRY, "usage", "--db", front.db)
    used = {row.split()[-1]: int(row.split()[0]) for row in table.splitlines()[1:]}
    say(used["team/small"] <= 100_000, "the repository with the small quota keeps to it", table)


def ask_clients(front, layouts, only):
    for kind in CLIENTS:
        if only and kind.name not in only or not is_there(kind):
            continue
        client = kind(front)
        print(f"{client.name} {client.version()}")
        Check(front, client, layouts).all()


def go_through_nginx(only):
    with tempfile.TemporaryDirectory() as room:
        image = Layout(f"{room}/image", "image", 4 * MIB)
        layouts = {
            "two": Layout(f"{room}/two", "two", MIB, ("amd64", "arm64")),
            "quota": Layout(f"{room}/quota", "quota", 300_000),
            "large": Layout(f"{room}/large", "large", 64 * MIB),
        }
        with Front(room) as front:
            look_at_the_front(front)
            ask_clients(front, layouts, only)
            if not Curl.lacks():
                look_at_referrers(front, image)
            if is_there(Docker) and not Curl.lacks():
                look_at_docker(front, image)
            if not Skopeo.lacks():
                pull_eight_at_once(front, image)
                push_in_dockers_form(front, image)
            if not only:
                all_at_once(front)
                push_in_a_crowd(front)
            stop_the_server(front)
        look_at_the_quota(front)


def main():
    if not os.path.exists(REGISTRY):
        print("check-clients needs what `make build` or `make test` leaves", file=sys.stderr)
        return 2
    ways = [it for it in WAYS if it in sys.argv[1:]] or WAYS
    only = [it for it in sys.argv[1:] if it not in WAYS]
    lacking = [it for it in ("nginx", "openssl") if shutil.which(it, path=os.environ["PATH"] + ":/usr/sbin") is None]
    if "straight" in ways:
        go_straight(only)
        log_in(only)
    if "beside" in ways:
        go_straight(only, Beside)
    through = {"nginx", "edges"}.intersection(ways)
    if "nginx" in ways and not lacking:
        go_through_nginx(only)
    if "edges" in ways and not lacking:
        go_through_edges(only)
    if through and lacking:
        print(f"check-clients needs {' and '.join(lacking)} for the ways through nginx", file=sys.stderr)
    print(f"{say.wrong} wrong" if say.wrong else "the clients were answered as they should be")
    return 1 if say.wrong else 3 if through and lacking else 0


if __name__ == "__main__":
    sys.exit(main())
