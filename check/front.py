"""The server behind nginx with the configuration of deploy/nginx, in a folder, on ports that are free."""
import os
import re
import shutil
import ssl

from tools.shared import TOP, free_port
from check.serving import Serving, listens, must, until

NGINX = f"{TOP}/deploy/nginx"

CONFIGURATION = """
daemon off;
pid nginx.pid;
error_log error.log warn;
events {{}}
http {{
  {types}
  log_format asked '$status "$request" "$http_user_agent"';
  access_log access.log asked;
  {folders}
  include site.conf;
}}
"""


def shipped(name, own):
    """A file of deploy/nginx, in which what is each machine's own is another."""
    with open(f"{NGINX}/{name}", encoding="utf-8") as it:
        text = it.read()
    for word, here in own.items():
        assert text.count(word) == 1, word
        text = text.replace(word, here)
    return text


def configuration():
    """nginx.conf, which takes in the file site.conf beside it."""
    folders = " ".join(f"{kind}_temp_path {kind};" for kind in ("client_body", "proxy", "fastcgi", "uwsgi", "scgi"))
    types = "include /etc/nginx/mime.types;" if os.path.exists("/etc/nginx/mime.types") else ""
    return CONFIGURATION.format(folders=folders, types=types)


def shipped_options():
    """The further words of the service, as they are installed."""
    with open(f"{TOP}/deploy/firkhen.default", encoding="utf-8") as it:
        return re.search(r'^OPTIONS="(.*)"$', it.read(), re.MULTILINE)[1].split()


class Front(Serving):
    """Made with all its repositories, tokens and names; `with` starts and ends both. Clients go to nginx, whose record has the
    requests."""

    options, record = shipped_options(), "access.log"
    mount, too_large = ["POST /v2/team/lib/blobs/uploads/?", "mount=sha256", "201 "], ["413 "]

    def __init__(self, room):
        super().__init__(room)
        self.port, self.plain = free_port(), free_port()
        # with TLS, and without for a client that takes `localhost` for a host without it
        self.host, self.plain_host = f"localhost:{self.port}", f"localhost:{self.plain}"
        self.url = f"https://{self.host}"
        self.authority = f"{room}/firkhen/certificate.pem"
        # nginx's workers are another user: they may pass through
        os.chmod(room, 0o711)
        self.configure()

    def begin(self):
        super().begin()
        self.nginx = self.start_nginx(self.room, self.port)
        self.trust = ssl.create_default_context(cafile=self.authority)

    def start_nginx(self, folder, port):
        nginx = shutil.which("nginx", path=os.environ["PATH"] + ":/usr/sbin")
        process = self.start([nginx, "-p", folder, "-c", f"{folder}/nginx.conf", "-e", f"{folder}/error.log"])
        until(lambda: listens(port), "nginx")
        return process

    def configure(self):
        """The files as they are installed; in the site only what is each machine's own is another."""
        os.mkdir(f"{self.room}/firkhen", 0o700)
        names = ["-subj", "/CN=localhost", "-addext", "subjectAltName=DNS:localhost,IP:127.0.0.1"]
        key = f"{self.room}/firkhen/key.pem"
        must("openssl", "req", "-x509", "-newkey", "ec", "-pkeyopt", "ec_paramgen_curve:P-256", "-nodes", "-days", 2, "-keyout", key, "-out", self.authority, *names)
        shutil.copy(f"{NGINX}/locations.conf", f"{self.room}/firkhen")
        tokens = must("cat", f"{NGINX}/tokens.conf") + "\n"
        for name, (password, token) in self.logins.items():
            tokens += must(f"{NGINX}/token-line", name, given=f"{password}\n{token}\n".encode()) + "\n"
        self.write("firkhen/tokens.conf", tokens, 0o600)
        own = {
            "127.0.0.1:7000": f"127.0.0.1:{self.inner}",
            "listen 443 ssl;": f"listen 127.0.0.1:{self.port} ssl; listen 127.0.0.1:{self.plain};",
            "registry.example.com": "localhost",
        }
        self.write("site.conf", shipped("site.conf", own))
        self.write("nginx.conf", configuration())
