"""A folder in which an example is played, and who is there: servers, their clients, and sockets."""
import os
import re
import shutil
import signal
import socket
import sqlite3
import stat

from check.word_lines import bytes_of
from check.word_runs import SECONDS, Outcome, Run

LISTENING = b"registry: listening\n"


class Stage:
    """A folder in which the steps of an example are played, and who is there."""

    def __init__(self, room, name):
        self.folder, self.kept = f"{room}/{name}", f"{room}/{name}-kept"
        self.server, self.port, self.held, self.runs = None, None, [], 0
        self.servers, self.clients, self.listeners = [], {}, []
        os.mkdir(self.folder)
        os.mkdir(self.kept)

    def at(self, file):
        return f"{self.folder}/{file}"

    # ---- files

    def is_held(self, file):
        """Whether it is one that a server has open."""
        return any(file == it or file == f"{it}-wal" for it in self.held)

    def keep(self):
        """Copies the files, to which `restore` returns."""
        for it in os.listdir(self.folder):
            if not self.is_held(it):
                shutil.copy2(self.at(it), self.kept)

    def restore(self):
        for it in os.listdir(self.folder):
            if not self.is_held(it):
                os.remove(self.at(it))
        for it in os.listdir(self.kept):
            shutil.copy2(f"{self.kept}/{it}", self.folder)

    def sql(self, file, step):
        con = sqlite3.connect(self.at(file), isolation_level=None)
        rows, statement = [], ""
        try:
            for line in bytes_of(step.given, self.port).decode().splitlines(keepends=True):
                statement += line
                if sqlite3.complete_statement(statement):
                    rows += con.execute(statement)
                    statement = ""
        finally:
            con.close()
        if statement:
            raise ValueError(f"no whole statement: {statement}")
        return Outcome("".join("|".join(map(str, row)) + "\n" for row in rows).encode())

    def write(self, file, step):
        with open(self.at(file), "wb") as it:
            it.write(bytes_of(step.given, self.port))
        return Outcome()

    def read(self, file, _):
        with open(self.at(file), "rb") as it:
            return Outcome(it.read())

    def mode(self, file, _):
        there = os.path.lexists(self.at(file))
        return Outcome(b"%o\n" % stat.S_IMODE(os.lstat(self.at(file)).st_mode) if there else b"none\n")

    def length(self, file, _):
        return Outcome(b"%d\n" % os.path.getsize(self.at(file)))

    def socket(self, words, _):
        kind, file = words.split()
        listener = socket.socket(socket.AF_UNIX)
        listener.bind(self.at(file))
        listener.listen()
        if kind == "dead":
            listener.close()
        else:
            self.listeners.append(listener)
        return Outcome()

    # ---- the program

    def run(self, words, step):
        """Runs the program, and answers it for the server at `orders` where one is wanted."""
        self.runs += 1
        given = bytes_of(step.given, self.port)
        if step.answers is None:
            return Run(self.folder, words, given, step.how).end()
        with socket.socket(socket.AF_UNIX) as listener:
            listener.bind(self.at("orders"))
            listener.listen()
            listener.settimeout(SECONDS)
            run = Run(self.folder, words, given, step.how)
            try:
                asked = self.answer(listener, bytes_of(step.answers, self.port))
            except OSError:
                run.kill()
                raise
        os.remove(self.at("orders"))
        return run.end(asked)

    def answer(self, listener, answer):
        """Answers one caller, and gives all that it asked."""
        caller, _ = listener.accept()
        with caller:
            caller.sendall(answer)
            caller.shutdown(socket.SHUT_WR)
            return all_of(caller)

    def serve(self, text, step):
        words = text.split()
        self.runs += 1
        self.server = Run(self.folder, ["serve", *words], bytes_of(step.given, self.port), step.how)
        self.servers.append(self.server)
        # (one in memory has no file)
        self.held.append(words[words.index("--db") + 1] if "--db" in words else "")
        self.server.wait_for(LISTENING)
        said = re.search(rb" on 127\.0\.0\.1:(\d+)\n", self.server.has_said(2))
        if said is None:
            raise ValueError(f"no server: {self.server.has_said(2)}")
        self.port = int(said[1])
        return Outcome()

    def ended(self, *_):
        self.servers.remove(self.server)
        self.held.pop()
        return self.server.end()._replace(left=None)

    def freeze(self, *_):
        # (where it waits, and not on its way there: what comes is then taken together, and in no two rounds)
        self.server.wait_till_it_waits()
        self.server.process.send_signal(signal.SIGSTOP)
        # (the signal is sent before it is heeded: until then the server goes on)
        os.waitid(os.P_PID, self.server.process.pid, os.WSTOPPED)
        return Outcome()

    def thaw(self, *_):
        self.server.process.send_signal(signal.SIGCONT)
        return Outcome()

    # ---- its clients

    def call(self, words, step):
        name, _, file = words.partition(" ")
        client = socket.socket(socket.AF_UNIX if file else socket.AF_INET)
        client.settimeout(SECONDS)
        self.clients[name] = client
        client.connect(self.at(file) if file else ("127.0.0.1", self.port))
        client.sendall(bytes_of(step.given, self.port))
        return Outcome()

    def shut(self, name, _):
        self.clients[name].shutdown(socket.SHUT_WR)
        return Outcome()

    def told(self, name, _):
        return Outcome(all_of(self.clients[name]))

    def cut(self, name, _):
        had = b""
        try:
            while more := self.clients[name].recv(65536):
                had += more
        except ConnectionResetError:
            return Outcome(had)
        raise ValueError(f"not cut, but told {had[:400]}")

    # ---- all of them

    def outcomes(self, step, restores=False):
        """Each line of a step, and what came of it."""
        for line in step.lines:
            line = line.replace("{server}", str(self.port))
            if step.kind != "$":
                yield f"{step.kind} {line}".strip(), getattr(self, step.kind)(line, step)
                continue
            if restores:
                self.restore()
            yield f"registry {line}", self.run(line.split(), step)

    def end(self):
        for it in (*self.clients.values(), *self.listeners):
            it.close()
        for it in self.servers:
            it.kill()
        for it in (self.folder, self.kept):
            shutil.rmtree(it)


def all_of(client):
    """What comes up to the end of a connection."""
    parts = []
    while more := client.recv(65536):
        parts.append(more)
    return b"".join(parts)
