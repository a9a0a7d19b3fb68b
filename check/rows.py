"""Plays the worked examples by the program itself, over a file, and then over one whose contents are beside it.

The examples of crates/registry_examples/data are asked of `registry`: requests by `registry stdio --db`, the
administrator's commands by its orders, each a process of its own, so that everything stands in the file in
between. Every byte that must come back is compared, and what the file's tables hold is asked by sqlite3;
docs/EXAMPLES.md has the lines. What a text or a document is read as (`parse`, `judge`, `read`) is asked of the
libraries alone, and is left out here.
"""
import hashlib
import os
import re
import sqlite3
import subprocess
import sys
import tempfile

from tools.shared import REGISTRY, TOP

DATA = f"{TOP}/crates/registry_examples"
LEVELS = {"pull": "1", "push": "2", "delete": "3"}
LEVEL_NAMES = {"1": "Pull", "2": "Push", "3": "Delete"}
FAULTS = {"NoRepo": b"registry: no such repository\n", "NoGrant": b"registry: no such grant\n", "RepoThere": b"registry: repository already there\n"}


class Words:
    def __init__(self):
        self.meanings = {}

    def meaning(self, word):
        if word in self.meanings:
            return self.meanings[word]
        for name in ("sha256", "sha512"):
            if word.startswith(name + ":"):
                return f"{name}:{hashlib.new(name, word[7:].encode()).hexdigest()}"
        text, _, count = word.rpartition(" * ")
        return self.meanings.get(text, text) * int(count)

    def written_out(self, text):
        """A brace before `"`, a space, another brace or the end is itself."""
        return re.sub(r'\{(?=[^"} {])([^}{]*)\}', lambda it: self.meaning(it[1]), text)


def unescaped(text):
    return re.sub(rb"\\(?:([rnt])|x(..))", lambda it: {b"r": b"\r", b"n": b"\n", b"t": b"\t"}[it[1]] if it[1] else bytes([int(it[2], 16)]), text.encode())


class Step:
    def __init__(self, line, asked):
        self.line, self.asked, self.answer, self.end, self.status = line, asked, b"", None, None

    def is_answered(self):
        return self.end is not None or self.status is not None or self.answer != b""

    def differs(self, found):
        """Where what was found is not what is wanted; nothing where it is."""
        wanted = self.answer if self.status is None else f"HTTP/1.1 {self.status} ".encode()
        is_wanted = found == wanted if self.status is None else found.startswith(wanted)
        return "" if is_wanted else f"wanted {wanted[:200]}, found {found[:300]}"


class Request:
    """Lines of a head whose end is not written out, and what comes behind them."""

    def __init__(self, head=b"", is_whole=True):
        self.head, self.rest, self.is_whole = head, b"", is_whole

    def add_line(self, line):
        if self.is_whole or self.rest:
            self.rest += line + b"\r\n"
        else:
            self.head += line + b"\r\n"
            self.is_whole = not line

    def text(self):
        return self.head + (b"" if self.is_whole else b"Content-Length: %d\r\n\r\n" % len(self.rest)) + self.rest


class Example:
    """Its steps, what is asked of the tables behind them, and what comes before: the steps of settings, and those of
    others before each step. With each of its beginnings it is answered the same."""

    def __init__(self, file, name, setting, steps):
        self.file, self.name, self.steps, self.rows = file, name, steps, []
        self.beginnings = [(setting, [])]


class Book:
    def __init__(self):
        self.words, self.replies, self.settings, self.noises, self.examples = Words(), {}, {}, {}, []
        self.steps = None

    def in_hand(self):
        """The requests of the connection in hand, or of a new one."""
        last = self.steps[-1] if self.steps else None
        return last.asked if last and not last.is_answered() and isinstance(last.asked, list) else None

    def send(self, line, request):
        if self.in_hand() is None:
            self.steps.append(Step(line, []))
        self.steps[-1].asked.append(request)

    def heading(self, kind, rest, file):
        name, _, after = rest.partition(" after ")
        self.steps = []
        if kind == "reply":
            self.steps.append(Step(0, []))
            self.replies[name] = self.steps[0]
        elif kind == "setting":
            self.settings[name] = [*self.settings.get(after, []), self.steps]
        elif kind == "noise":
            self.noises[name] = self.steps
        else:
            self.examples.append(Example(file, name, self.settings.get(after, []), self.steps))

    def take(self, file, number, text):
        word, _, rest = text.partition(" ")
        if not word or word.startswith("#"):
            return
        if word == "let":
            name, _, meaning = rest.partition(" = ")
            self.words.meanings[name] = self.words.written_out(meaning)
            return
        if word in ("setting", "example", "reply", "noise"):
            self.heading(word, rest, file)
            return
        rest = self.words.written_out(rest) if word != "<<" else rest
        if word == "connection":
            self.steps.append(Step(number, [Request()]))
        elif word == ">":
            if self.in_hand() is None:
                self.send(number, Request())
            self.in_hand()[-1].add_line(rest.encode())
        elif word == "<":
            self.steps[-1].answer += rest.encode() + b"\r\n"
        elif word == "<<":
            self.steps[-1].answer += self.replies[rest].answer
        elif word in ("|", "bytes"):
            data = rest.encode() if word == "|" else unescaped(rest)
            last = self.steps[-1]
            if last.is_answered() or not isinstance(last.asked, list) or not last.asked:
                last.answer += data
            else:
                last.asked[-1].rest += data
        elif word == "end":
            self.steps[-1].end = rest
        elif word == "status":
            self.steps[-1].status = rest
        elif word == "alike":
            setting, noise = rest.split(" ")
            self.examples[-1].beginnings.append((self.settings[setting], self.noises[noise]))
        elif word == "rows":
            self.examples[-1].rows.append((number, rest))
        elif word == "admin":
            self.steps.append(Step(number, rest))
        elif word in ("parse", "judge", "read"):
            self.steps.append(Step(number, None))
        else:
            token = word.removesuffix(">")
            head = f"{rest} HTTP/1.1\r\nHost: r\r\n" + ("" if token == "nobody" else f"Authorization: Bearer {token}\r\n")
            self.send(number, Request(head.encode(), is_whole=False))


# What is said of a new registry: nothing, or that its contents are to be beside it.
LAYOUT = []


def over(db):
    return ["--db", db, *LAYOUT]


def run(*words, given=b""):
    return subprocess.run([REGISTRY, *words], input=given, capture_output=True, timeout=60)


def commanded(db, command):
    """What an order answers, in the words of the examples."""
    name, *rest = command.split(" ")
    repo = lambda it: ["--name", it]
    if name in ("usage", "holds"):
        rows = [line.split() for line in run("usage", *over(db)).stdout.decode().splitlines()[1:]]
        row = next((row for row in rows if row[-1] == rest[0]), ["-"] * 7)
        used, quota, blobs, manifests, tags, sessions, _ = row
        whole = f"{used} of {quota} bytes, {blobs} blobs, {manifests} manifests, {tags} tags, {sessions} sessions"
        return f"{used} bytes\r\n".encode() if name == "usage" else f"{whole}\r\n".encode()
    if name == "levels":
        rows = [line.split() for line in run("grants", *over(db), "--name", rest[0], "--show-tokens").stdout.decode().splitlines()]
        return "".join(f"{token} {LEVEL_NAMES[level]}\r\n" for _, token, level in rows).encode()
    words = {
        "repo": lambda: [*repo(rest[0]), "--quota", rest[1]],
        "quota": lambda: [*repo(rest[0]), "--quota", rest[1]],
        "drop": lambda: repo(rest[0]),
        "sessions": lambda: repo(rest[0]),
        "grant": lambda: ["--token", rest[0], *repo(rest[1]), "--level", LEVELS[rest[2]]],
        "revoke": lambda: ["--token", rest[0], *(repo(rest[1]) if rest[1:] else [])],
        "prune": lambda: repo(rest[0]),
        "clear": lambda: [],
    }[name]()
    ran = run(name, *over(db), *words)
    if (ran.returncode, ran.stdout, ran.stderr) == (0, b"", b""):
        return b""
    told = next((fault for fault, line in FAULTS.items() if (ran.returncode, ran.stdout, ran.stderr) == (1, b"", line)), None)
    return f"{told}\r\n".encode() if told else repr(ran).encode()


def play(db, step):
    """The answer to a step, and where it differs from the one that is wanted; nothing where it does not."""
    if isinstance(step.asked, str):
        found = commanded(db, step.asked)
        return found, step.differs(found)
    ran = run("stdio", *over(db), given=b"".join(it.text() for it in step.asked))
    if (ran.returncode, ran.stderr) != (0, b""):
        return ran.stdout, f"found {ran.stdout[:300]}, status {ran.returncode} {ran.stderr}"
    return ran.stdout, step.differs(ran.stdout)


def rows_that_differ(db, rows):
    """Where the tables of a file answer another number than the example says; it speaks of those that have contents."""
    if not rows or LAYOUT:
        return
    tables = sqlite3.connect(db)
    for line, text in rows:
        number, query = text.split(" ", 1)
        found = tables.execute(query).fetchone()
        if found != (int(number),):
            yield line, f"wanted {number}, found {found}"
    tables.close()


def differences(room, example):
    """The first line at which an example is answered otherwise, and why; and how many steps were played."""
    told, count = {}, 0
    for at, (settings, noise) in enumerate(example.beginnings):
        db = f"{room}/{example.file}.{example.name}.{at}.db"
        before = [(step, False) for setting in settings for step in setting]
        own = [it for step in example.steps for it in (*((other, False) for other in noise), (step, True))]
        for step, is_own in [*before, *own]:
            if step.asked is None:
                continue
            count += 1
            found, why = play(db, step)
            # a step whose status alone is written is answered as it was with the first beginning
            if not why and is_own and told.setdefault(step, found) != found:
                why = f"first told {told[step][:300]}, then {found[:300]}"
            if why:
                return count, (step.line, why)
        wrong = next(rows_that_differ(db, example.rows), None) if at == 0 else None
        if wrong:
            return count, wrong
    return count, None


HEADING = b"                used               quota     blobs manifests      tags  sessions name\n"


def tables_that_differ(db):
    """Where the table of `usage` is another than it should be: of no repositories, and of one with the largest quota."""
    found = run("usage", *over(db))
    if (found.returncode, found.stdout, found.stderr) != (0, HEADING, b""):
        yield found
    run("repo", *over(db), "--name", "a", "--quota", "9223372036854775807")
    found = run("usage", *over(db))
    if found.stdout != HEADING + b" " * 19 + b"0 9223372036854775807" + b"         0" * 4 + b" a\n":
        yield found


PUSH = b"POST /v2/a/blobs/uploads/?digest=%b HTTP/1.1\r\nHost: r\r\nAuthorization: Bearer t1\r\nContent-Length: 3\r\n\r\nabc"


def lists_that_differ(db):
    """Where a list is another than it should be: of two repositories, of which one holds the blob `abc`, and of the
    levels of two tokens."""
    digest = f"sha256:{hashlib.sha256(b'abc').hexdigest()}"
    for name in ("b", "a"):
        run("repo", *over(db), "--name", name, "--quota", "100")
    run("grant", *over(db), "--name", "a", "--token", "t1", "--level", "2")
    run("grant", *over(db), "--name", "b", "--token", "secret", "--level", "1")
    run("stdio", *over(db), given=PUSH % digest.encode())
    wanted = [
        (("repos",), "a\nb\n"),
        (("repos", "--json"), '[{"name":"a"},{"name":"b"}]\n'),
        (("tags", "--name", "a"), ""),
        (("tags", "--name", "a", "--json"), "[]\n"),
        (("blobs", "--name", "a"), f"{digest} 3\n"),
        (("blobs", "--name", "a", "--json"), f'[{{"digest":"{digest}","manifests":[],"size":3}}]\n'),
        (("blobs", "--name", "b"), ""),
        (("prune", "--name", "a", "--dry-run"), f"{digest}\n"),
        (("prune", "--name", "a"), ""),
        (("prune", "--name", "a", "--dry-run"), ""),
        (("grants",), "a t1... 2\nb secr... 1\n"),
        (("grants", "--show-tokens"), "a t1 2\nb secret 1\n"),
        (("grants", "--json"), '[{"level":2,"name":"a","token":"t1..."},{"level":1,"name":"b","token":"secr..."}]\n'),
        (("grants", "--name", "b"), "b secr... 1\n"),
        (("grants", "--token", "t1", "--show-tokens"), "a t1 2\n"),
        (("grants", "--name", "b", "--token", "t1", "--json"), "[]\n"),
        (("revoke", "--token", "secret"), ""),
        (("grants", "--name", "b"), ""),
    ]
    for words, text in wanted:
        found = run(words[0], *over(db), *words[1:])
        if (found.returncode, found.stdout, found.stderr) != (0, text.encode(), b""):
            yield found
    for word in ("blobs", "grants"):
        found = run(word, *over(db), "--name", "c")
        if (found.returncode, found.stdout, found.stderr) != (1, b"", FAULTS["NoRepo"]):
            yield found


def repositories_told_apart(db):
    """Of a hundred repositories, more than a store knows the usage of, each takes what its quota of 5 bytes allows
    and no more, on one connection: `abc`, then not `hello`, then `de`."""
    names = [f"a{number}" for number in range(100)]
    for name in names:
        run("repo", *over(db), "--name", name, "--quota", "5")
        run("grant", *over(db), "--name", name, "--token", "t1", "--level", "2")
    head = "POST /v2/{}/blobs/uploads/?digest=sha256:{} HTTP/1.1\r\nHost: r\r\nAuthorization: Bearer t1\r\nContent-Length: {}\r\n\r\n"
    asked = [(name, body) for body in (b"abc", b"hello", b"de") for name in names]
    given = b"".join(head.format(name, hashlib.sha256(body).hexdigest(), len(body)).encode() + body for name, body in asked)
    found = run("stdio", *over(db), given=given).stdout
    statuses = [int(it) for it in re.findall(rb"HTTP/1\.1 (\d+) ", found)]
    if statuses != [201] * 100 + [403] * 100 + [201] * 100:
        yield f"a hundred repositories of 5 bytes: {statuses}"
    rows = [line.split() for line in run("usage", *over(db)).stdout.decode().splitlines()[1:]]
    if rows != [["5", "5", "2", "0", "0", "0", name] for name in sorted(names)]:
        yield f"a hundred repositories of 5 bytes hold {rows}"


def read():
    book = Book()
    with open(f"{DATA}/args", encoding="utf-8") as it:
        files = it.read().split()
    for file in files:
        with open(f"{DATA}/data/{file}", encoding="utf-8") as it:
            for number, line in enumerate(it.read().split("\n"), 1):
                book.take(file, number, line)
    return book


def main():
    book, wrong = read(), 0
    for where, words in (("a file", []), ("one whose contents are beside it", ["--layout", "beside"])):
        LAYOUT[:], bad, played, steps = words, 0, 0, 0
        with tempfile.TemporaryDirectory(dir="/dev/shm" if os.access("/dev/shm", os.W_OK) else None) as room:
            for example in book.examples:
                count, why = differences(room, example)
                played, steps = played + (count > 0), steps + count
                if why:
                    print(f"WRONG {example.file}:{why[0]} ({example.name}): {why[1]}")
                    bad += 1
            for what, differ in (("usage", tables_that_differ), ("lists", lists_that_differ), ("quotas", repositories_told_apart)):
                for it in differ(f"{room}/{what}.db"):
                    print(f"WRONG {what}: {it}")
                    bad += 1
        print(f"{played} worked examples of {steps} steps by the program, over {where}: {f'{bad} wrong' if bad else 'each as it is written'}")
        wrong += bad
    return 1 if wrong else 0


if __name__ == "__main__":
    sys.exit(main())
