r"""Runs the program on command lines, and compares what it says, what it ends with and what it leaves.

The examples stand in check/words/*.talk; whoever adds one needs no line of this script. What comes is compared to the
byte, and nothing of what must come is taken from the program. `words.py FILE..` plays those of some files alone.

    example a_token_in_a_file after f

    write token
    < t7
    < t8

    $ grant --db f --token-file token --name team/app --level 1

    $ grant --db f --token-file nowhere --name team/app --level 1
    2> registry: invalid options
    2> registry: nowhere: no such file
    ? 2

An example is played in an empty folder of its own. The first word of a line says what the rest is; one space behind it
is dropped. Lines that begin with `#` say nothing. `shared.talk` is read before the others.

    example NAME after SETTING  steps, one after the other; `after SETTING` may be left out
    each NAME after SETTING     the same, but each command line finds the files as the setting left them
    setting NAME after SETTING  steps with which examples begin
    let NAME = TEXT             from here on `{NAME}` is the text; `{NAME * 3}` is three times it

A step begins with one of these lines. Several of a kind with no empty line between them come each to what is written
behind the last. A FILE is one of the folder.

    $ WORDS                     the program is run on these words, which stand between spaces
    serve WORDS                 `registry serve` is started on them, and goes on; `{server}` is its port from here on
    ended                       that server has ended
    freeze, thaw                it stands still, so that all that follows has come when it goes on
    call NAME FILE              a client of that name connects to it, at the socket FILE if there is one, and sends
    shut NAME                   the client sends no more
    told NAME                   all that the client is told, up to the end of its connection
    cut NAME                    the same, where the connection is cut at its end
    sql FILE                    statements for SQLite (3.37 or newer), the end of each at that of a line; a row that
                                they select is a line, with `|` between its columns
    write FILE, read FILE       a file is made, or read
    mode FILE                   the mode of a file, as 600, or `none` where nothing is there
    length FILE                 how many bytes a file has
    socket living FILE          a socket at which somebody listens, or `socket dead FILE`: one whose maker has gone

Behind it stands what it is given, and what must come of it. Where there is no line for something, nothing may come.

    < TEXT                      a line that is given: on standard input, to SQLite, into a file, by a client
    > TEXT                      a line that must come: on standard output, from SQLite, from a file, to a client
    2> TEXT                     a line on standard error
    ? STATUS                    the exit status, where it is not 0
    << TEXT                     a line of standard input that must be left there
    answers TEXT                a line that a server answers for this once, at the socket `orders`
    asked TEXT                  a line that it must be asked
    with HOW                    `a full output`, `a closed output`, `an output that nobody reads`, `an output of N
                                bytes`: what standard output is; `a terminal`: what standard error is; `a socket that
                                does not listen`: what descriptor 3 is

A `\` at the end of a line stands for no line's end, and `\r`, `\n`, `\t` and `\x1f` are one byte each. In what must
come `{...}` is any text within a line, `{text}` any at all, `{a|b}` one of the two, `{number}` and `{port}` are digits,
`{time}` is a time, and `{explanation}` is what the command line says of itself, or of words that it cannot read: some
text that does not begin with `registry: `. `{tables of schema 1}` are statements for SQLite.
"""
import glob
import os
import sqlite3
import subprocess
import sys
import tempfile

from tools.shared import REGISTRY, TOP
from check.word_lines import Book, is_so
from check.word_stage import Stage


def differences(step, found, port):
    """Where what came is something else than what must come."""
    if found.status != step.status:
        yield f"wanted status {step.status}, found {found.status}"
    parts = [("standard output", step.out, found.out), ("standard error", step.err, found.err)]
    parts += [("left of standard input", step.left, found.left)] if step.left is not None else []
    parts += [("asked of the server", step.asked, found.asked)] if step.asked is not None else []
    for what, wanted, there in parts:
        if not is_so(there or b"", wanted, port):
            yield f"{what}: wanted {wanted[:1000]!r}, found {there and there[:1000]}"


def play(book, example, stage):
    """What of an example is wrong. Where a step cannot be played at all, nothing behind it is."""
    before = book.before(example)
    for at, step in enumerate((*before, *example.steps)):
        if example.is_each and at == len(before):
            stage.keep()
        try:
            for line, found in stage.outcomes(step, example.is_each and at >= len(before)):
                for it in differences(step, found, stage.port):
                    yield f"{step.place} ({example.name}): {line}: {it}"
        except (OSError, ValueError, KeyError, sqlite3.Error, subprocess.TimeoutExpired) as error:
            yield f"{step.place} ({example.name}): {step.kind} {' '.join(step.lines)}: {error!r}"
            return


def read(names):
    """The examples of the files of these names, or of all."""
    book, folder = Book(), f"{TOP}/check/words"
    there = sorted(os.path.basename(it) for it in glob.glob(f"{folder}/*.talk"))
    for name in ["shared.talk", *(names or (it for it in there if it != "shared.talk"))]:
        book.read(f"{folder}/{name}", name)
    book.look()
    return book


def main():
    if not os.path.exists(REGISTRY):
        print(f"check-words needs {REGISTRY}", file=sys.stderr)
        return 2
    book, wrong, runs, steps = read(sys.argv[1:]), 0, 0, 0
    with tempfile.TemporaryDirectory(dir="/dev/shm" if os.access("/dev/shm", os.W_OK) else None) as room:
        for number, example in enumerate(book.examples):
            stage = Stage(room, number)
            try:
                for it in play(book, example, stage):
                    print(f"WRONG {it}", flush=True)
                    wrong += 1
            finally:
                stage.end()
            runs, steps = runs + stage.runs, steps + len(example.steps)
    end = f"{wrong} wrong" if wrong else "each as it is written"
    print(f"{runs} command lines, in {len(book.examples)} examples of {steps} steps: {end}")
    return 1 if wrong else 0


if __name__ == "__main__":
    sys.exit(main())
