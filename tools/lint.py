"""Looks whether sources, definitions and edits keep the house's measures, and names each place that does not.

- a file of `src/` or `specs/` has at most 400 lines, of at most 110 characters each (imports stand on one line);
- a must-fail edit begins with a line `# ..` that says which wrong body it is, and its `old:` texts stand in the file
  that it names once each;
- each folder of `crates/` has its line in `crates.txt`, and its row in the table of docs/COSTS.md;
- a script begins with what it is for, and pyflakes, where that is installed, finds nothing in it.

`make lint` calls this. It proves nothing and runs nothing; `rt fmt` looks at the layout in the gate.
"""
import glob
import os
import re
import shutil
import subprocess
import sys

from tools.shared import TOP

MOST_LINES, MOST_CHARACTERS = 400, 110
IMPORT = re.compile(r"\s*(?:pub )?(?:ghost )?use ")


def read(path):
    with open(f"{TOP}/{path}", encoding="utf-8") as it:
        return it.read()


def found(*patterns):
    for pattern in patterns:
        yield from sorted(os.path.relpath(it, TOP) for it in glob.glob(f"{TOP}/{pattern}", recursive=True))


def measures():
    for path in found("crates/*/src/**/*.rt", "crates/*/specs/**/*.antt"):
        lines = read(path).splitlines()
        if len(lines) > MOST_LINES:
            yield f"{path}: {len(lines)} lines, and at most {MOST_LINES} are wanted"
        for number, line in enumerate(lines, 1):
            if len(line) > MOST_CHARACTERS and not IMPORT.match(line):
                yield f"{path}:{number}: {len(line)} characters, and at most {MOST_CHARACTERS} are wanted"


def edits():
    for path in found("crates/*/must-fail/*.edit"):
        text = read(path)
        if not re.match(r"# \S.*\.\n", text):
            yield f"{path}: its first line does not say which wrong body it is"
        of_edit = re.search(r"^file: (.+)$", text, re.M)
        crate = path.split("/must-fail/", maxsplit=1)[0]
        if not of_edit:
            yield f"{path}: it names no file"
        elif "file: " in text.replace(of_edit[0], "", 1):
            continue
        else:
            source = read(f"{crate}/{of_edit[1]}")
            for old in re.findall(r"^old: (.*)$", text, re.M):
                if source.count(old) != 1:
                    yield f"{path}: `{old[:60]}` stands in {of_edit[1]} {source.count(old)} times, and not once"


def tables():
    crates = re.findall(r"^(\w+):", read("crates.txt"), re.M)
    folders = sorted(it.split("/")[1] for it in found("crates/*/"))
    if sorted(crates) != folders:
        yield f"crates.txt and crates/ differ by {sorted(set(crates) ^ set(folders))}"
    named = set(re.findall(r"^\| `(\w+)` \|", read("docs/COSTS.md"), re.M))
    for crate in sorted(set(crates) - named):
        yield f"docs/COSTS.md: no row for {crate}"


def scripts():
    paths = [*found("tools/*.py", "check/*.py", "check/hostile/*.py", "bench/*.py", "deploy/*.py")]
    for path in paths:
        if not re.match(r'(#!.*\n)?r?"""\S', read(path)):
            yield f"{path}: it does not begin with what it is for"
    pyflakes = shutil.which("pyflakes3") or shutil.which("pyflakes")
    if pyflakes:
        yield from subprocess.run([pyflakes, *paths], cwd=TOP, capture_output=True, text=True, check=False).stdout.splitlines()


def main():
    wrong = [*measures(), *edits(), *tables(), *scripts()]
    print(*wrong, sep="\n" if wrong else "", end="\n" if wrong else "")
    print(f"{len(wrong)} places are to be mended" if wrong else "sources, definitions and edits keep the measures")
    return 1 if wrong else 0


if __name__ == "__main__":
    sys.exit(main())
