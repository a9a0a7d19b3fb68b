"""Measures build/registry over standard input, beside `cat` of the same bytes in the same run.

Each case is a file of requests that is handed to a fresh registry over memory; the replies are
counted, and their lengths checked. Each time is the least of five. Ratios within one run are what
counts: the machine's own speed is in them twice. `sha256sum` of the same bytes tells what hashing
alone costs.
"""
import subprocess
import sys
import tempfile
import time

from tools.shared import digest

REGISTRY = "build/registry"
WORDS = ["stdio", "--memory", "--repo", "team/app=9223372036854775807", "--grant", "t1=team/app=3"]
FIELDS = b"Host: r\r\nAuthorization: Bearer t1\r\n"
MIB = 1 << 20
RUNS = 5


def push(body, framing, payload):
    line = b"POST /v2/team/app/blobs/uploads/?digest=" + digest(body).encode() + b" HTTP/1.1\r\n"
    return line + FIELDS + framing + b"\r\n" + payload


def whole(body):
    return push(body, b"Content-Length: %d\r\n" % len(body), body)


def chunked(body, size):
    parts = [body[i : i + size] for i in range(0, len(body), size)]
    payload = b"".join(b"%x\r\n%s\r\n" % (len(p), p) for p in parts) + b"0\r\n\r\n"
    return push(body, b"Transfer-Encoding: chunked\r\n", payload)


def fetch(body):
    return b"GET /v2/team/app/blobs/" + digest(body).encode() + b" HTTP/1.1\r\n" + FIELDS + b"\r\n"


def timed(words, path):
    """The least time of some runs, and what the last of them wrote."""
    least = None
    for _ in range(RUNS):
        with open(path, "rb") as requests:
            start = time.perf_counter()
            ran = subprocess.run(words, stdin=requests, stdout=subprocess.PIPE, check=False)
            seconds = time.perf_counter() - start
        least = seconds if least is None else min(least, seconds)
    return least, ran


def measure(name, requests, replies, moved, count):
    with tempfile.NamedTemporaryFile() as file:
        file.write(requests)
        file.flush()
        plain, _ = timed(["cat"], file.name)
        hashed, _ = timed(["sha256sum"], file.name)
        seconds, ran = timed([REGISTRY] + WORDS, file.name)
    if ran.returncode != 0 or len(ran.stdout) != replies:
        sys.exit(f"{name}: status {ran.returncode}, {len(ran.stdout)} bytes of replies, not {replies}")
    rate = f"{moved / MIB / seconds:10.1f} MB/s" if moved else f"{count / seconds:10.0f} /s"
    ratios = f"{seconds / plain:7.1f} times cat, {seconds / hashed:5.1f} times sha256sum"
    print(f"{name:34} {seconds:9.3f} s {rate:>15} {ratios}")


def main():
    small = b"k" * 1024
    large = b"m" * (64 * MIB)
    created, found = 238 + 3, 174
    many = 10_000
    print(f"{'':34} {'time':>11} {'rate':>15}")
    measure("10,000 GETs of 1 KiB, pipelined", whole(small) + fetch(small) * many, created + (found + 3 + 1024) * many, 0, many)
    measure("push of 64 MiB", whole(large), created, len(large), 1)
    measure("push of 64 MiB in 32 KiB chunks", chunked(large, 32768), created, len(large), 1)
    measure("push of 8 MiB in 64 B chunks", chunked(large[: 8 * MIB], 64), created, 8 * MIB, 1)
    measure("10,000 pushes of 1 KiB, pipelined", whole(small) * many, created * many, 0, many)
    measure("push and GET of 64 MiB", whole(large) + fetch(large), created + found + 7 + len(large), 2 * len(large), 2)


if __name__ == "__main__":
    main()
