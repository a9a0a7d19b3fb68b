"""Looks at what `make install` and `make deb` make, in a folder that is taken away again.

The files and their modes; that each page which a page names is there; that a second installation leaves the
administrator's files as they are; that the man page and the completion say what --help says, line by line;
that the service's further words are options of `serve`; the unit, by systemd-analyze; that the unit's own
words start and stop a server, of a new registry whose contents are beside its database, and of one in tables
that was there; and that the package has the same files. Tools that are not installed are named. `make
check-install` calls this.
"""
import glob
import os
import re
import shutil
import sqlite3
import subprocess
import sys
import tempfile
from contextlib import closing

from tools.shared import REGISTRY, TOP, free_port
from check.serving import listens, until

PROGRAM = f"{TOP}/build/registry"
FILES = {
    "usr/bin/registry": 0o755,
    "usr/share/man/man1/registry.1": 0o644,
    "usr/share/bash-completion/completions/registry": 0o644,
    "usr/lib/systemd/system/firkhen.service": 0o644,
    "usr/lib/systemd/system/firkhen.socket": 0o644,
    "usr/share/firkhen/token-line": 0o755,
    "etc/default/firkhen": 0o644,
    "etc/nginx/sites-available/firkhen": 0o644,
    "etc/nginx/sites-available/firkhen-edge": 0o644,
    "etc/nginx/firkhen/locations.conf": 0o644,
    "etc/nginx/firkhen/tokens.conf": 0o600,
}
DOCUMENTS = "usr/share/doc/firkhen"
PAGES = [f"{TOP}/README.md", *glob.glob(f"{TOP}/docs/*.md")]
FILES |= {f"{DOCUMENTS}/{os.path.basename(it)}": 0o644 for it in PAGES}
# how pages name each other
NAMED = re.compile(r"`docs/(\w+\.md)`|\]\((\w+\.md)(?:#[^)]*)?\)")
# what a package has besides, and the man page under another name
PACKAGED = {"usr/share/doc/firkhen/changelog.gz", "usr/share/doc/firkhen/copyright", "usr/share/man/man1/registry.1.gz"}
# of ten: 0 is a service that can do nothing, and below 2 systemd says OK
EXPOSURE = 2.0


def say(held, what, why=""):
    print(("ok    " if held else "WRONG ") + what + ("" if held or not why else f": {why}"), flush=True)
    if not held:
        say.wrong += 1


say.wrong = 0


def run(*words, **more):
    ran = subprocess.run(words, stdout=subprocess.PIPE, stderr=subprocess.STDOUT, check=False, **more)
    ran.text = ran.stdout.decode(errors="replace")
    return ran


def has(*tools):
    lacking = [it for it in tools if shutil.which(it) is None]
    if lacking:
        print(f"--    not installed: {', '.join(lacking)}")
    return not lacking


def install(room):
    ran = run("make", "-C", TOP, "install", f"DESTDIR={room}", "PREFIX=/usr")
    say(ran.returncode == 0, "make install", ran.text)


def files_in(room):
    found = (os.path.join(folder, name) for folder, _, names in os.walk(room) for name in names)
    return {os.path.relpath(it, room): os.stat(it).st_mode & 0o777 for it in found}


def look_at_files(room):
    install(room)
    found = files_in(room)
    say(found == FILES, "the files and their modes", str(set(found.items()) ^ set(FILES.items())))
    tokens = f"{room}/etc/nginx/firkhen/tokens.conf"
    with open(tokens, "w", encoding="utf-8") as it:
        it.write("mine\n")
    install(room)
    with open(tokens, encoding="utf-8") as it:
        say(it.read() == "mine\n", "a second installation leaves the table of tokens")
    look_at_the_pages(f"{room}/{DOCUMENTS}")


def look_at_the_pages(folder):
    lacking = set()
    for path in glob.glob(f"{folder}/*.md"):
        with open(path, encoding="utf-8") as it:
            named = {found[0] or found[1] for found in NAMED.findall(it.read())}
        lacking |= {name for name in named if not os.path.exists(f"{folder}/{name}")}
    say(not lacking, "each page that a page names", str(lacking))


def helps():
    """The text of each --help, by the command; of the whole program under nothing."""
    whole = run(PROGRAM, "--help").text
    names = [it for it in re.findall(r"^  ([a-z]+) ", whole.split("Options:")[0], re.MULTILINE) if it != "help"]
    return {"": whole, **{name: run(PROGRAM, name, "--help").text for name in names}}


def look_at_the_man_page(room, told):
    if not has("man", "col"):
        return
    env = {**os.environ, "MANWIDTH": "200", "LC_ALL": "C.UTF-8", "MAN_KEEP_FORMATTING": ""}
    ran = run("sh", "-c", f"man --warnings --local-file {room}/usr/share/man/man1/registry.1 | col -b", env=env)
    say("warning" not in ran.text, "the man page is laid out without a warning", ran.text[:500])
    page = ran.text.replace("\u2010", "-")
    # a command's part begins with its name, by itself on a line
    parts = re.split(r"^   ([a-z]+)$", page.split("EXIT STATUS")[0], flags=re.MULTILINE)
    parts = {"": page, **dict(zip(parts[1::2], parts[2::2]))}
    for name, text in told.items():
        shown = " ".join(parts.get(name, "").split())
        said = [it for line in text.splitlines() for it in re.split(r" {2,}", line.strip())]
        said = [it.replace("Usage: ", "").replace("registry <COMMAND>", "registry COMMAND") for it in said if not it.endswith(":")]
        lacking = [it for it in said if it not in shown and not it.startswith(("help", "Print this message"))]
        say(lacking == [], f"the man page says what `registry {name} --help` says".replace("  ", " "), str(lacking))


def look_at_the_completion(room, told):
    at = f"{room}/usr/share/bash-completion/completions/registry"

    def offered(*words):
        quoted = " ".join(f"'{it}'" for it in words)
        text = f"source {at}; COMP_WORDS=({quoted}); COMP_CWORD={len(words) - 1}; _registry; printf '%s\\n' \"${{COMPREPLY[@]}}\""
        return set(run("bash", "-c", text).text.split())

    say(offered("registry", "") == {*told, "--help", "--version"} - {""}, "the completion offers each command", str(offered("registry", "")))
    for name in filter(None, told):
        wanted = set(re.findall(r"^ +(?:-[a-zA-Z], )?(--[a-z-]+)", told[name], re.MULTILINE))
        say(offered("registry", name, "--") == wanted, f"and the options of {name}", str(offered("registry", name, "--")))
    say(offered("registry", "rev") == {"revoke"}, "a word that is begun is ended")


def look_at_the_options(room, told):
    """Of the service: its file has what the unit has where the file is not there, and `serve` takes it."""
    found = {}
    for path, line in (("etc/default/firkhen", r'^OPTIONS="(.*)"$'), ("usr/lib/systemd/system/firkhen.service", r'^Environment=.*"OPTIONS=(.*)"$')):
        with open(f"{room}/{path}", encoding="utf-8") as it:
            found[path] = (re.findall(line, it.read(), re.MULTILINE) or [None])[0]
    words = next(iter(found.values()))
    say(words is not None and len(set(found.values())) == 1, "the unit and its file have the same further words", str(found))
    options = re.findall(r"--[a-z-]+", words or "")
    taken = re.findall(r"--[a-z-]+", told["serve"])
    say(set(options) <= set(taken), f"serve takes {' '.join(options)}", str(taken))


def look_at_the_unit(room):
    if not has("systemd-analyze"):
        return
    units = [f"{room}/firkhen.service", f"{room}/firkhen.socket"]
    # (that the executable is where the unit has it, and its man page, is known from the files)
    for unit in units:
        with open(unit.replace(room, f"{room}/usr/lib/systemd/system"), encoding="utf-8") as it:
            text = it.read().replace("/usr/bin/", f"{room}/usr/bin/").replace("Documentation=man:registry(1)", "Documentation=")
        with open(unit, "w", encoding="utf-8") as it:
            it.write(text)
    ran = run("systemd-analyze", "verify", *units)
    about = [line for line in ran.text.splitlines() if "firkhen" in line]
    say(about == [], "systemd-analyze verify has nothing to say of the units", "\n".join(about))
    ran = run("systemd-analyze", "security", "--offline=true", units[0])
    score = re.search(r"exposure level for firkhen.service: ([0-9.]+)", ran.text)
    say(score and float(score[1]) < EXPOSURE, f"systemd-analyze security: {score and score[1]}", ran.text[-500:])


def words_of_unit(room, state):
    """The words that start and stop the service, over a folder, as systemd makes them of the installed unit:
    `${NAME}` is a word, and `$NAME` as many as it has."""
    with open(f"{room}/usr/lib/systemd/system/firkhen.service", encoding="utf-8") as it:
        text = it.read()
    own = {"STATE_DIRECTORY": state, "LISTEN": f"127.0.0.1:{free_port()}", "ORDERS": f"{state}/orders.sock"}
    own["OPTIONS"] = re.findall(r'^Environment=.*"OPTIONS=(.*)"$', text, re.MULTILINE)[0]

    def made(line):
        words = re.findall(rf"^{line}=/usr/bin/registry (.*)$", text, re.MULTILINE)[0].split()
        parts = [[PROGRAM], *(own[it[1:]].split() if re.fullmatch(r"\$\w+", it) else [it] for it in words)]
        return [re.sub(r"\$\{(\w+)\}", lambda found: own[found[1]], it) for part in parts for it in part]

    return own, made("ExecStart"), made("ExecStop")


def look_at_a_start(room, state, has_contents, what):
    """By the unit's words."""
    own, start, stop = words_of_unit(room, state)
    with subprocess.Popen(start, stdout=subprocess.DEVNULL, stderr=subprocess.DEVNULL) as server:
        until(lambda: listens(int(own["LISTEN"].split(":")[1])), what)
        ran = run(PROGRAM, "usage", "--orders", own["ORDERS"])
        say(ran.returncode == 0, f"the unit starts a server: {what}", ran.text)
        ran = run(*stop)
        say(ran.returncode == 0 and server.wait(60) == 0, "and stops it, with status 0", ran.text)
    contents = f"{state}/registry.db-contents"
    where = "beside" if has_contents else "in"
    say(os.path.exists(contents) == has_contents, f"contents are {where} the database")
    if has_contents:
        say(os.stat(contents).st_mode & 0o777 == 0o600, "in a file that is its owner's alone")
    with closing(sqlite3.connect(f"{state}/registry.db")) as con:
        version = con.execute("SELECT version FROM registry_schema").fetchall()
    say(version == [(3 if has_contents else 2,)], "and its tables say so", str(version))


def look_at_starts(room):
    """Of a new registry, twice, and of one in tables."""
    with tempfile.TemporaryDirectory() as new, tempfile.TemporaryDirectory() as old:
        look_at_a_start(room, new, True, "a new registry")
        look_at_a_start(room, new, True, "the same once more")
        run(PROGRAM, "repo", "--db", f"{old}/registry.db", "--name", "team/app", "--quota", "1000")
        look_at_a_start(room, old, False, "a registry in tables that was there")


def look_at_the_package():
    if not has("dpkg-deb", "dpkg-shlibdeps"):
        return
    for old in glob.glob(f"{TOP}/build/firkhen_*.deb"):
        os.remove(old)
    ran = run("make", "-C", TOP, "deb")
    say(ran.returncode == 0, "make deb", ran.text)
    made = glob.glob(f"{TOP}/build/firkhen_*.deb")
    if len(made) != 1:
        say(False, "one package", str(made))
        return
    listed = [line.split() for line in run("dpkg-deb", "--contents", made[0]).text.splitlines()]
    found = {it[-1][2:] for it in listed if it[0].startswith("-")}
    say(found == (set(FILES) | PACKAGED) - {"usr/share/man/man1/registry.1"}, "the package has the same files", str(found ^ set(FILES)))
    say(all(it[1] == "root/root" for it in listed), "all of them root's")
    say(["-rw-------"] == [it[0] for it in listed if it[-1].endswith("tokens.conf")], "the table of tokens root's alone")


def main():
    if not os.path.exists(PROGRAM) or REGISTRY != PROGRAM:
        print("check-install needs build/registry", file=sys.stderr)
        return 2
    with tempfile.TemporaryDirectory() as room:
        told = helps()
        look_at_files(room)
        look_at_the_man_page(room, told)
        look_at_the_completion(room, told)
        look_at_the_options(room, told)
        look_at_the_unit(room)
        look_at_starts(room)
    look_at_the_package()
    print(f"{say.wrong} wrong" if say.wrong else "what is installed is as it should be")
    return 1 if say.wrong else 0


if __name__ == "__main__":
    sys.exit(main())
