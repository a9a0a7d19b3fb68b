"""Programs that are run behind refusing.rs, a library that is loaded before them."""
import os
import re
import subprocess

from tools.shared import TOP
from check.hostile.said import SECONDS


class Refusing:
    """Runs programs behind refusing.so."""

    def __init__(self, room):
        self.library = f"{room}/refusing.so"
        words = ["rustc", "--edition", "2021", "--crate-type", "cdylib", "-C", "panic=abort", "-O"]
        subprocess.run([*words, "-o", self.library, f"{TOP}/check/hostile/refusing.rs"], check=True)
        # a program that is started behind it runs
        subprocess.run(["true"], env={"LD_PRELOAD": self.library, "PATH": os.environ["PATH"]}, check=True)

    def run(self, words, growth=0, stop=0, given=b"", at=None, out=subprocess.PIPE, log=None):
        """Returns what the program did, and the numbers of growths and of writes that it asked for."""
        told, tell = os.pipe()
        env = {"LD_PRELOAD": self.library, "REFUSE_GROWTH": str(growth), "TELL_COUNTS": str(tell)}
        if stop:
            env["STOP_DISK"] = str(stop)
        if log:
            env["LOG_WRITES"] = str(log.fileno())
        passed = [tell] + ([log.fileno()] if log else [])
        try:
            how = {"stdout": out, "stderr": subprocess.PIPE, "env": env, "pass_fds": passed, "cwd": at}
            ran = subprocess.run(words, input=given, timeout=SECONDS, **how)
        finally:
            os.close(tell)
        with os.fdopen(told, "rb") as it:
            counts = re.fullmatch(rb"growths=(\d+) writes=(\d+)\n", it.read())
        return ran, *((int(counts[1]), int(counts[2])) if counts else (0, 0))
