"""What tools, checks and measurements share: where the repository and its executables are, the digest of bytes, and a
port that is free. They are run from the top of the repository, as `python3 -m check.words`."""
import hashlib
import os
import socket

TOP = os.path.dirname(os.path.dirname(os.path.abspath(__file__)))


def built(name, crate):
    """What `make build` left, or else the merge gate."""
    here = f"{TOP}/build/{name}"
    return here if os.path.exists(here) else f"{TOP}/crates/{crate}/out/{crate}"


REGISTRY = built("registry", "registry_cli")
EXAMPLES = built("registry_examples", "registry_examples")


def digest(body):
    return "sha256:" + hashlib.sha256(body).hexdigest()


def free_port():
    with socket.socket() as it:
        it.bind(("127.0.0.1", 0))
        return it.getsockname()[1]
