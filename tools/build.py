"""Proves the program and all that it stands on, and leaves it as build/registry.

Each library is checked once, by `rattle build`, over what those below it state, and the program last, by the run
that compiles it. Crates that do not stand on each other are proved side by side, one a processor, those with the
most behind them first; where processors rest a check gets more than one. What was proved stays in build/proved,
each crate by a sum of its files, of the kit and of the crates below it: after an edit, that crate and those above
it are proved again. No must-fail edit is tried and no test is run: `make test` does that. What `build --sum` says
before a gate, `build --of-gate SUM` is given behind it, and takes the executable that it left.
"""
import concurrent.futures
import contextlib
import glob
import hashlib
import os
import re
import shutil
import subprocess
import sys
import time

from tools.shared import TOP

KIT = os.path.dirname(os.path.dirname(os.path.realpath(shutil.which("rt") or "rt")))
PROVED = f"{TOP}/build/proved"
PROGRAM = "registry_cli"
# what a check of each crate took in one build; only which takes longer than which counts
with open(f"{TOP}/tools/seconds.txt", encoding="ascii") as it:
    SECONDS = {name: int(seconds) for name, seconds in (line.split() for line in it if not line.startswith("#"))}
# the bytes of memory that a check is given room for; most take less, and the program runs alone
ROOM = 2_500_000_000


class Crate:
    """One line of crates.txt: what it names of the kit, and its crates, which come on earlier lines."""

    def __init__(self, name, named, crates):
        self.name = name
        self.of_kit = [it for it in named if it not in crates]
        self.below = [crates[it] for it in named if it in crates]
        self.all_below = {*self.below}.union(*(it.all_below for it in self.below))
        self.is_program = os.path.exists(f"{TOP}/crates/{name}/src/main.rt")
        self.behind = 0
        self.sum = None

    def files(self):
        folder = f"{TOP}/crates/{self.name}"
        found = glob.glob(f"{folder}/**", recursive=True)
        parts = tuple(f"{folder}/{part}/" for part in ("src", "specs", "proofs"))
        return sorted(it for it in found if it.startswith(parts) and os.path.isfile(it))

    def added_up(self, kit):
        """A sum of all that a check of the crate reads, and of the kit. Those below it have theirs."""
        every = hashlib.sha256(repr((kit, self.name, self.of_kit, [it.sum for it in self.below])).encode())
        for file in self.files():
            with open(file, "rb") as it:
                every.update(repr((file.removeprefix(TOP), it.read())).encode())
        return every.hexdigest()

    def made(self):
        return f"{TOP}/build/registry" if self.is_program else f"{PROVED}/{self.name}.rlib"

    def is_proved(self):
        try:
            with open(f"{PROVED}/{self.name}.sum", encoding="ascii") as it:
                return it.read() == self.sum and os.path.exists(self.made())
        except FileNotFoundError:
            return False

    def keep(self):
        with open(f"{PROVED}/{self.name}.sum", "w", encoding="ascii") as it:
            it.write(self.sum)

    def forget(self):
        with contextlib.suppress(FileNotFoundError):
            os.remove(f"{PROVED}/{self.name}.sum")

    def length(self):
        """The seconds that a check takes: those of tools/seconds.txt, or by its lines of code."""
        lines = sum(open(it, "rb").read().count(b"\n") for it in self.files() if it.endswith(".rt"))
        return SECONDS.get(self.name, 40 + lines // 11)

    def check(self, jobs):
        """The command that proves the crate and writes what it makes."""
        words = [f"{KIT}/bin/rattle", "build", "--crate-name", self.name]
        words += ["src/main.rt" if self.is_program else "src/lib.rt"]
        for name in self.of_kit:
            words += ["--extern", f"{name}={KIT}/rlibs/{name}.rlib"]
        for crate in self.below:
            words += ["--extern", f"{crate.name}={crate.made()}"]
        words += ["-L", f"dependency={KIT}/rlibs", "-L", f"dependency={PROVED}"]
        words += ["--antt-project", f"{KIT}/rattle/logic/antt-project.json", "--logic-built", f"{KIT}/logic_built"]
        words += ["--links", f"{self.name}=", "--jobs", str(jobs)]
        if self.is_program:
            return [*words, "--toolchain", f"{KIT}/toolchain", "--backend", "llvm", "-o", f"{PROVED}/{self.name}.o"]
        return [*words, "--statements", "-o", self.made()]

    def link(self):
        words = [f"{KIT}/bin/rattle-link", "--target", "x86_64-unknown-linux-gnu", "--toolchain", f"{KIT}/toolchain"]
        return [*words, "-o", self.made(), f"{PROVED}/{self.name}.o", f"{KIT}/c/libos_c.a", f"{KIT}/c/liblibc_c.a"]


def crates_below(program):
    """The crates that the program needs, itself last."""
    crates = {}
    with open(f"{TOP}/crates.txt", encoding="utf-8") as lines:
        for line in lines:
            name, _, named = line.partition(":")
            if re.fullmatch(r"\w+", name):
                crates[name] = Crate(name, ["std", *named.split()], crates)
    needed = [crates[program]]
    for crate in needed:
        needed += [it for it in crate.below if it not in needed]
    return [it for it in crates.values() if it in needed]


def weigh(crates):
    """Gives each crate the length of the longest row of crates that wait for it, its own with it."""
    for crate in reversed(crates):
        crate.behind += crate.length()
        for below in crate.below:
            below.behind = max(below.behind, crate.behind)


def prove(crate, jobs, kit):
    """Whether the crate is proved; what the check says stands in build/proved."""
    begun = time.monotonic()
    # (one that is stopped behind its check is checked again, whatever the files are then)
    crate.forget()
    with open(f"{PROVED}/{crate.name}.log", "w", encoding="utf-8") as log:
        for words in [crate.check(jobs)] + [crate.link()] * crate.is_program:
            how = {"cwd": f"{TOP}/crates/{crate.name}", "stdin": subprocess.DEVNULL}
            if subprocess.run(words, stdout=log, stderr=subprocess.STDOUT, check=False, **how).returncode:
                return False
        if crate.added_up(kit) != crate.sum:
            log.write("its files were changed as it was checked: once more\n")
            return False
    crate.keep()
    print(f"{crate.name} proved, {time.monotonic() - begun:.0f} s", flush=True)
    return True


def at_once():
    """How many checks run side by side: one a processor, where memory holds them."""
    with open("/proc/meminfo", encoding="ascii") as it:
        free = int(re.search(r"MemAvailable: +(\d+)", it.read())[1]) * 1024
    return max(1, min(len(os.sched_getaffinity(0)), free // ROOM))


def prove_all(crates, kit):
    """Proves them side by side, and returns the names of those that failed."""
    most, failed, running = at_once(), [], {}
    done = {below for it in crates for below in it.all_below}.difference(crates)
    left = sorted(crates, key=lambda it: -it.behind)
    with concurrent.futures.ThreadPoolExecutor(most) as pool:
        while running or left and not failed:
            ready = [it for it in left if not failed and done.issuperset(it.below)]
            for at, crate in enumerate(ready[: most - len(running)]):
                left.remove(crate)
                # (those that are ready share the processors that rest, what most others wait for first)
                resting = most - sum(jobs for _, jobs in running.values())
                jobs = min(2, max(1, -(-resting // (len(ready) - at))))
                if len(left) > 1 and all(crate in it.all_below for it in left if it not in ready):
                    # (processors will rest soon: all that wait wait for it)
                    jobs = min(2, most)
                # (the program is alone; more than four were not measured)
                jobs = min(4, most) if crate.is_program else jobs
                running[pool.submit(prove, crate, jobs, kit)] = crate, jobs
            for it in concurrent.futures.wait(running, return_when=concurrent.futures.FIRST_COMPLETED).done:
                crate, _ = running.pop(it)
                done.add(crate)
                failed += [] if it.result() else [crate.name]
    return failed


def wanting(crates):
    """Those that are to be proved: none where the program is, else each that is not or stands on one that is not."""
    wanted = []
    for crate in [] if crates[-1].is_proved() else crates:
        if not crate.is_proved() or crate.all_below.intersection(wanted):
            wanted.append(crate)
    return wanted


def take_from_gate(program):
    """Takes the executable that a merge gate left."""
    program.forget()
    shutil.copy(f"{TOP}/crates/{PROGRAM}/out/{PROGRAM}", f"{PROVED}/{PROGRAM}")
    os.replace(f"{PROVED}/{PROGRAM}", program.made())
    program.keep()


def main():
    asked, *more = sys.argv[1:] or ["build"]
    if asked not in ("build", "--sum", "--of-gate") or len(more) != (asked == "--of-gate"):
        print(__doc__, file=sys.stderr)
        return 2
    os.makedirs(PROVED, exist_ok=True)
    kit = subprocess.run(["rt", "version"], capture_output=True, text=True, check=True).stdout
    crates = crates_below(PROGRAM)
    weigh(crates)
    for crate in crates:
        crate.sum = crate.added_up(kit)
    if asked == "--sum":
        print(crates[-1].sum)
        return 0
    if asked == "--of-gate":
        # (what was edited beside the gate is not what it proved)
        return take_from_gate(crates[-1]) if more == [crates[-1].sum] else 0
    failed = prove_all(wanted := wanting(crates), kit)
    for name in failed:
        with open(f"{PROVED}/{name}.log", encoding="utf-8", errors="replace") as it:
            print(it.read(), end="", file=sys.stderr)
        print(f"{name} NOT PROVED", file=sys.stderr)
    if wanted and not failed:
        # (the program's verdict)
        with open(f"{PROVED}/{PROGRAM}.log", encoding="utf-8") as it:
            print(*(line for line in it if line.startswith("logic=")), sep="", end="")
    if not failed:
        print(f"build/registry: {len(wanted)} of {len(crates)} crates were proved in this run")
    return 1 if failed else 0


if __name__ == "__main__":
    sys.exit(main())
