"""Real clients straight to a server at which they log in (--login http): nothing stands before it.

A password is the token. skopeo, buildah, podman, ctr and oras-go push and pull by a name and a password, skopeo by a
token as well, podman and buildah also behind `login`; docker logs in and pulls. Each is refused as a stranger, as
nobody, and with two passwords that open nothing.
"""
import json
import tempfile

from check.asking import Check, is_there, say
from check.client_kinds import Buildah, Ctr, Curl, Docker, Oras, Podman, Skopeo
from check.layout import Layout
from check.serving import LOGINS, Serving, basic
from check.straight import StraightSkopeo

# passwords that open nothing: a token on which no level is, and what is no token
WRONG = {"stale": ("t3", "an unknown token for a password"), "noise": ("p1>>>???", "a password that is no token")}
CHALLENGE = 'Bearer realm="http://{}/token",service="firkhen"'


class Login(Serving):
    """A server at which clients log in by a name and their token."""

    options = ["--log", "--login", "http"]
    passwords = {**{user: token for user, (_, token) in LOGINS.items()}, **{user: it for user, (it, _) in WRONG.items()}}
    logins = {user: (it, it) for user, it in passwords.items()}


class TokenSkopeo(StraightSkopeo):
    """skopeo with a token, for which it asks nobody."""

    name = "skopeo-token"


# whose names begin as the client is called
KINDS = [Skopeo, TokenSkopeo, Buildah, Podman, Ctr, Oras]


class LoginCheck(Check):
    # what `login` says of a password that is refused is the last of these
    refused_as_nobody = *Check.refused_as_nobody, "invalid username/password"

    def refuse_wrong_passwords(self):
        own, name = self.layouts["image"], self.client.name
        for user, (_, what) in WRONG.items():
            self.is_refused(self.client.pull(f"team/app:{name}", user), f"a pull with {what}", *self.refused_as_nobody)
            self.is_refused(self.client.push(own, f"team/app:{name}-w", user), f"a push with {what}", *self.refused_as_nobody)
        self.say(self.front.digest("team/app", f"{name}-w") is None, "and nothing came of it")

    def log_in(self):
        """By `login`, which keeps a name and a password for what comes."""
        for user, (_, what) in WRONG.items():
            self.is_refused(self.client.login(user), f"login with {what}", *self.refused_as_nobody)
        self.works(self.client.login("u1"), "login")
        image, where = self.layouts["image"], f"team/app:{self.client.name}-in"
        self.works(self.client.push(image, where, None), "push, being logged in")
        self.works(self.client.pull(where, None), "pull, being logged in")
        self.say("sha256:" + self.client.image[-64:] == image.config, "what it pulled is the image that was made", self.client.image)
        self.works(self.client.logout(), "logout")
        self.is_refused(self.client.pull(where, None), "a pull, being logged out", *self.refused_as_nobody)

    def all(self):
        self.client.begin()
        self.push_and_pull()
        self.refusals()
        self.refuse_wrong_passwords()
        if self.client.packs_again:
            self.log_in()


def look_at_the_place(serving):
    """What the server itself answers."""
    status, fields, _ = serving.ask("/v2/")
    wanted = CHALLENGE.format(serving.host)
    say((status, fields["WWW-Authenticate"]) == (401, wanted), "the challenge names the host, and where it gives tokens", str(fields["WWW-Authenticate"]))
    for name in ("u1", "", "another name"):
        status, fields, body = serving.ask("/token?service=firkhen&scope=repository:team/app:pull", fields=basic(f"{name}:t1"))
        wanted = {"access_token": "t1", "expires_in": 300, "token": "t1"}
        held = (status, fields["Content-Type"], fields["Cache-Control"]) == (200, "application/json", "no-store")
        say(held and json.loads(body) == wanted, f"a password that is a token is handed back to `{name}`", f"{status} {body}")
    for other in ("u1:", "u1", "u1:a:b", "u1:p1>>>???", None):
        status, fields, _ = serving.ask("/token", fields=basic(other) if other is not None else None)
        say((status, fields["WWW-Authenticate"]) == (401, 'Basic realm="firkhen"'), f"`{other}` has none", str(status))
    status, fields, _ = serving.ask("/token", "POST", basic("u1:t1"), b"")
    say((status, fields["Allow"]) == (405, "GET, HEAD"), "a POST for a token is told to try GET", str(status))
    status, fields, _ = serving.ask("/v2/", fields=basic("u1:t1"))
    say(status == 401, "at another path a name and a password are no token", str(status))


def pull_by_docker(serving):
    """What curl pushed, since docker pushes another form."""
    docker, where = Docker(serving), "team/app:for-docker"
    print(f"{docker.name} {docker.version()}, straight, logged in")
    check = LoginCheck(serving, docker, {})
    image = check.layouts["image"]
    Curl(serving).push(image, where)
    docker.begin()
    check.is_refused(docker.pull(where), "a pull by nobody", *check.refused_as_nobody)
    for user, (_, what) in WRONG.items():
        check.is_refused(docker.login(user), f"login with {what}", *check.refused_as_nobody)
    check.works(docker.login("u2"), "login of a stranger")
    check.is_refused(docker.pull(where), "a stranger's pull", "denied")
    check.works(docker.login("u1"), "login")
    check.works(docker.pull(where), "pull")
    check.say(docker.pulled(where) == image.config, "what it pulled is the image that was made", docker.pulled(where))


def log_in(only):
    """Over a server of its own."""
    with tempfile.TemporaryDirectory() as room, Login(room) as serving:
        look_at_the_place(serving)
        quota = Layout(f"{room}/quota", "quota", 300_000)
        for kind in KINDS:
            if (not only or kind.name.startswith(tuple(only))) and is_there(kind):
                client = kind(serving)
                print(f"{client.name} {client.version()}, straight, where it can log in")
                LoginCheck(serving, client, {"quota": quota}).all()
        if (not only or "docker" in only) and is_there(Docker) and not Curl.lacks():
            pull_by_docker(serving)
