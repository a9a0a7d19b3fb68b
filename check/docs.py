"""Runs the commands of the pages as they stand, and compares what they print with the page.

A command is a line that begins with four spaces and `$ `, with the lines behind it that begin with `> `. What
stands below it in its block is what it prints, standard error included. `…` in such a line stands for any
text, and alone on a line for any lines. One shell has all commands of a page, in a folder that is taken
away again, with a home folder that has this checkout as `firkhen`. A command that ends in `&` goes on; it is
waited for until it has printed what the page says.

The picture in docs/ARCHITECTURE.md is compared with what tools/house.py draws, what docs/THEOREM.md quotes with the
files that it names, and what all pages cite is looked up (tools/citations.py). `make check-docs` calls this.
(podman and skopeo note in /var/lib/containers/cache where they have seen blobs.)
"""
import glob
import os
import re
import shutil
import signal
import subprocess
import sys
import tempfile
import time
from contextlib import suppress

from tools import citations
from tools import definitions
from tools import house
from tools.shared import TOP
from check.serving import listens, until
from check.layout import Layout

PROGRAM = f"{TOP}/build/registry"
PATH = f"{os.environ['PATH']}:/usr/sbin"
# what a page's commands call
PAGES = {
    "README.md": ["curl", "skopeo"],
    "docs/TUTORIAL.md": ["nginx", "openssl", "curl", "podman", "skopeo"],
    "docs/OPERATIONS.md": ["curl", "sqlite3"],
}
# those that the pages name: of the server, and of nginx
PORTS = (7000, 8443)
SECONDS = 120

STORAGE = '[storage]\ndriver = "vfs"\ngraphroot = "{room}/containers"\nrunroot = "{room}/run/containers"\n'
ENGINE = '[engine]\ntmp_dir = "{room}/run/libpod"\nevents_logger = "none"\ncgroup_manager = "cgroupfs"\n'


def say(held, what):
    print(("ok    " if held else "WRONG ") + what, flush=True)
    if not held:
        say.wrong += 1
    return held


say.wrong = 0


def indented(text):
    for line in text.splitlines():
        print(f"        {line}")


class Command:
    """A command of a page, and what stands below it."""

    def __init__(self, line, text):
        self.line, self.text, self.printed = line, text, []

    def goes_on(self):
        return self.text.endswith("&")

    def fits(self, said):
        """(line ends at the very end do not count)"""
        lines = [re.escape(it).replace("…", ".*") for it in self.printed]
        lines = ["(?s:.*)" if it == ".*" else it for it in lines]
        return re.fullmatch("\n".join(lines), said.rstrip("\n")) is not None


def commands(page):
    with open(f"{TOP}/{page}", encoding="utf-8") as it:
        lines = it.read().splitlines()
    found, inside = [], False
    for number, line in enumerate(lines, 1):
        text = line[4:]
        if not line.startswith("    "):
            inside = inside and line == ""
        elif text.startswith("$ "):
            found.append(Command(number, text[2:]))
            inside = True
        elif inside and text.startswith("> "):
            found[-1].text += "\n" + text[2:]
        elif inside:
            found[-1].printed.append(text)
    return found


class Shell:
    """A shell in a folder, whose output is a file: what its commands leave running may write to it later."""

    def __init__(self, room):
        self.room, self.step, self.done = room, f"{room}/step", f"{room}/done"
        for folder in ("home", "run", "here"):
            os.mkdir(f"{room}/{folder}")
        os.symlink(TOP, f"{room}/home/firkhen")
        # curl tells how far it has come where its output is no terminal
        self.write("home/.curlrc", "silent\nshow-error\n")
        self.said = open(f"{room}/said", "w+b")
        ends = {"stdin": subprocess.PIPE, "stdout": self.said, "stderr": subprocess.STDOUT}
        place = {"cwd": f"{room}/here", "env": self.env(), "start_new_session": True}
        self.shell = subprocess.Popen(["bash", "--norc"], **ends, **place)

    def write(self, name, text):
        with open(f"{self.room}/{name}", "w", encoding="utf-8") as it:
            it.write(text)
        return f"{self.room}/{name}"

    def env(self):
        """Nothing of the caller's but where programs are; what podman keeps is kept in the room."""
        return {
            "PATH": f"{TOP}/build:{PATH}",
            "HOME": f"{self.room}/home",
            "LC_ALL": "C.UTF-8",
            "XDG_RUNTIME_DIR": f"{self.room}/run",
            "CONTAINERS_STORAGE_CONF": self.write("storage.conf", STORAGE.format(room=self.room)),
            "CONTAINERS_CONF": self.write("containers.conf", ENGINE.format(room=self.room)),
        }

    def ran(self):
        """Whether the command has ended, in its time and without the shell."""
        for _ in range(SECONDS * 50):
            if os.path.exists(self.done):
                os.remove(self.done)
                return True
            if self.shell.poll() is not None:
                return False
            time.sleep(0.02)
        return False

    def text(self, start):
        with open(self.said.name, "rb") as it:
            it.seek(start)
            return it.read().decode(errors="replace")

    def run(self, command):
        """What a command prints, or None where it does not end."""
        start = os.path.getsize(self.said.name)
        self.write("step", command.text + "\n")
        self.shell.stdin.write(f". {self.step} < /dev/null; : > {self.done}\n".encode())
        self.shell.stdin.flush()
        if not self.ran():
            return None
        for _ in range(SECONDS * 50 if command.goes_on() else 0):
            if command.fits(self.text(start)):
                break
            time.sleep(0.02)
        return self.text(start)

    def end(self):
        """With all that it left running; what went on by itself has told its number in a file."""
        with suppress(ProcessLookupError):
            os.killpg(self.shell.pid, signal.SIGTERM)
        self.shell.wait()
        for name in glob.glob(f"{self.room}/here/**/*.pid", recursive=True):
            with open(name, encoding="utf-8") as it, suppress(ProcessLookupError):
                os.kill(int(it.read()), signal.SIGTERM)
        until(lambda: not any(map(listens, PORTS)), "the end of a page's servers")
        self.said.close()


def run_page(page):
    with tempfile.TemporaryDirectory() as room:
        # nginx's workers may be another user, who may pass through
        os.chmod(room, 0o711)
        shell = Shell(room)
        try:
            # (an image for those who are told to have one)
            Layout(f"{room}/here/img", "img", 1000)
            for command in commands(page):
                said = shell.run(command)
                first = command.text.split("\n", maxsplit=1)[0]
                if not say(said is not None and command.fits(said), f"{page}:{command.line}: {first}"):
                    indented("it did not end, or ended the shell" if said is None else said)
                if said is None:
                    break
        finally:
            shell.end()


def compare_picture():
    with open(f"{TOP}/docs/ARCHITECTURE.md", encoding="utf-8") as it:
        page = it.read()
    drawn = "\n".join(house.draw(house.read()))
    said = "docs/ARCHITECTURE.md: what stands on what, as crates.txt has it"
    if not say(f"```\n{drawn}\n```\n" in page, said):
        there = page.splitlines()
        print("        the page lacks")
        indented("\n".join(it for it in drawn.splitlines() if it not in there))


def quotes(page):
    """The blocks of a page between fences, each with its line and the file that was named last before it."""
    path, block = None, None
    with open(f"{TOP}/{page}", encoding="utf-8") as it:
        for number, line in enumerate(it, 1):
            if line == "```\n":
                if block:
                    yield *block[:2], "".join(block[2])
                block = None if block else (number, path, [])
            elif block:
                block[2].append(line)
            elif named := re.findall(r"`(crates/[\w/]+\.(?:antt|rt))`:$", line):
                path = named[-1]


def compare_quotes(page="docs/THEOREM.md"):
    found = list(quotes(page))
    wrong = []
    for number, path, block in found:
        with open(f"{TOP}/{path}", encoding="utf-8") as it:
            if block not in it.read():
                wrong.append(f"{page}:{number}: this is not in {path}")
    for it in wrong:
        say(False, it)
    if not wrong:
        say(len(found) > 10, f"{page}: {len(found)} quotations of definitions and contracts")
    with open(f"{TOP}/{page}", encoding="utf-8") as it:
        there = re.findall(r"(\d+) files with (\d+) lines of definitions", it.read())
    counted = definitions.count(definitions.closure(definitions.FIRST))
    say(there == [tuple(map(str, counted))], f"{page}: %d files with %d lines of definitions" % counted)


def compare_counts(page="docs/TESTING.md"):
    edits = len(glob.glob(f"{TOP}/crates/*/must-fail/*.edit"))
    tests = 0
    for path in glob.glob(f"{TOP}/crates/*_tests/src/*.rt"):
        with open(path, encoding="utf-8") as it:
            tests += it.read().count("#[test]")
    with open(f"{TOP}/{page}", encoding="utf-8") as it:
        text = it.read()
    for count, what in ((edits, "must-fail edits"), (tests, "tests of connections")):
        say(f"- {count} {what}:" in text, f"{page}: {count} {what}")


def look_up_citations():
    count, wrong = citations.look()
    for it in wrong:
        say(False, it)
    if not wrong:
        say(True, f"{count} citations of files, items, examples, edits and names")


def lacks(page):
    called = PAGES.get(page, [])
    lacking = [it for it in called if shutil.which(it, path=PATH) is None]
    lacking += ["the rights of root"] if "podman" in called and os.geteuid() else []
    return lacking + [f"port {port}, which another process has" for port in PORTS if listens(port)]


def main():
    if not os.path.exists(PROGRAM):
        print("check-docs needs build/registry", file=sys.stderr)
        return 2
    compare_picture()
    compare_quotes()
    compare_counts()
    look_up_citations()
    left_out = 0
    for page in sys.argv[1:] or PAGES:
        lacking = lacks(page)
        if lacking:
            print(f"--    {page}: left out, for want of {', '.join(lacking)}")
            left_out += 1
        else:
            run_page(page)
    print(f"{say.wrong} wrong" if say.wrong else "what was run printed what the pages say")
    return 1 if say.wrong else 3 if left_out else 0


if __name__ == "__main__":
    sys.exit(main())
