"""What no server that hashes, keeps or hands out these bytes can be faster than: `sha256sum` of them,
`dd conv=fsync` of them into a new file on the same disk, and `cat` of them into a pipe that is read."""
import os
import shutil
import subprocess
import time

MIB = 1 << 20


def hashed(path, _):
    subprocess.run(["sha256sum", path], stdout=subprocess.DEVNULL, check=True)


def synced(path, new):
    words = ["dd", f"if={path}", f"of={new}", "bs=1M", "conv=fsync", "status=none"]
    subprocess.run(words, check=True)


def read(path, _):
    with subprocess.Popen(["cat", path], stdout=subprocess.PIPE) as ran:
        while ran.stdout.read(MIB):
            pass


LIMITS = {"sha256sum": ("sha256sum", hashed), "dd conv=fsync": ("dd", synced), "cat": ("cat", read)}


def once(call, path, new):
    start = time.perf_counter()
    call(path, new)
    seconds = time.perf_counter() - start
    if os.path.exists(new):
        os.remove(new)
    return seconds


def limits(room, sizes, runs):
    """The seconds of each limit, the least of some runs, by its name and the bytes; what is not installed
    is not in it."""
    found = {}
    path, new = os.path.join(room, "bytes"), os.path.join(room, "new")
    for text, size in sizes:
        with open(path, "wb") as file:
            file.write(os.urandom(size))
            file.flush()
            os.fsync(file.fileno())
        for name, (program, call) in LIMITS.items():
            if shutil.which(program):
                found[f"{name} of {text}"] = min(once(call, path, new) for _ in range(runs))
    return found


def lacking():
    return [program for program, _ in LIMITS.values() if not shutil.which(program)]
