"""What takes long in the check of one crate, over what `make build` left of those below it.

    python3 -m tools.dear CRATE

checks it from nothing by one process, and prints each part of it that took a second or more. Parts are files of
lemmas, and of each function: what is made of its code (`Lts`, `Tie`, `Layout` and others), its written answers
(`Answers`), and what is left to search (`Proof`).

    python3 -m tools.dear CRATE FUNCTION

prints the goals of a function for which it takes two seconds or more to find an answer: the search is left out for
half of them, for half of that half, and so on. It works on a copy, build/dear.
"""
import glob
import os
import re
import shutil
import subprocess
import sys
import time

from tools import build

DEAR = f"{build.TOP}/build/dear"


def without_output(words):
    """The same check, of which nothing is compiled and nothing written."""
    left, words = [], iter(words)
    for word in words:
        if word in ("--toolchain", "--backend", "-o"):
            next(words)
        elif word != "--statements":
            left.append(word)
    return left


class Check:
    """Checks of a copy of the crate, over what earlier checks of the copy kept."""

    def __init__(self, crate):
        self.folder, self.kept = f"{DEAR}/{crate.name}", f"{DEAR}/{crate.name}.kept"
        shutil.rmtree(self.folder, ignore_errors=True)
        shutil.copytree(f"{build.TOP}/crates/{crate.name}", self.folder, ignore=shutil.ignore_patterns("out"))
        self.words = without_output(crate.check(1))
        self.words[1] = "check"
        self.words += ["--incremental", self.kept]

    def run(self, *more):
        """Runs it, and returns the seconds of each part that was checked, and what the check says."""
        begun = last = time.time()
        how = {"cwd": self.folder, "stdin": subprocess.DEVNULL, "capture_output": True, "text": True}
        done = subprocess.run([*self.words, *more], check=False, **how)
        written = [(os.stat(it).st_mtime, it) for it in self.files("*") if os.path.isfile(it)]
        seconds = {}
        for when, file in sorted(it for it in written if it[0] > begun):
            part = re.sub(r"(\.decls)?\.oantt$", "", os.path.basename(file))
            part = {"rattle-last-used": "(what is below it is read)"}.get(part, part)
            seconds[part] = seconds.get(part, 0) + when - last
            last = when
        return seconds, done.stdout + done.stderr

    def files(self, part):
        return [it for below in ("", "records/") for it in glob.glob(f"{self.kept}/*/{below}{part}")]


def parts(check):
    shutil.rmtree(check.kept, ignore_errors=True)
    seconds, said = check.run()
    for part, took in sorted(seconds.items(), key=lambda it: -it[1]):
        if took >= 1:
            print(f"{took:6.1f} {part.removeprefix('Rattle-')}")
    print(f"{sum(seconds.values()):6.0f} all, {said.strip().splitlines()[-1]}")


def goals(check, function):
    """Those for which no answer is written, each with a hole as its answer, the file of answers, and its part."""
    check.run()
    check.run("--start", function, "--generated", f"{DEAR}/goals")
    offered = glob.glob(f"{DEAR}/goals/*/**/AnswersOffered.antt", recursive=True)
    if len(offered) != 1:
        sys.exit(f"{function} is not one function: write what a check prints after `fn`, or the end of it")
    with open(offered[0], encoding="utf-8") as it:
        text = it.read()
    # Rattle-CRATE-proofs/a/b/AnswersOffered.antt
    library, *path, _ = os.path.relpath(offered[0], f"{DEAR}/goals").split("/")
    answers = f"{check.folder}/proofs/{'/'.join(path)}/Answers.antt"
    written = ""
    if os.path.exists(answers):
        with open(answers, encoding="utf-8") as it:
            written = it.read()
    have = re.findall(r"^pub (\S+) :", written, re.M)
    holes = [it for it in re.findall(r"^pub \S+ : goal\.\S+\n.*= \?$", text, re.M)
             if not any(re.match(rf"pub {re.escape(name)}(-clause-\S+)? :", it) for name in have)]
    os.makedirs(os.path.dirname(answers), exist_ok=True)
    return holes, answers, written or re.split("^-- src", text, flags=re.M)[0], ".".join([library, *path, "Proof"])


def search(check, function):
    holes, answers, written, part = goals(check, function)

    def took(searched):
        with open(answers, "w", encoding="utf-8") as it:
            it.write("\n\n".join([written, *(hole for hole in holes if hole not in searched)]) + "\n")
        for file in check.files(f"{glob.escape(part)}.*"):
            os.remove(file)
        return check.run("--allow-holes")[0].get(part, 0)

    none = took([])
    print(f"{len(holes)} goals are searched, the rest takes {none:.1f}")
    waiting = [holes]
    while waiting:
        these = waiting.pop()
        if these and (seconds := took(these) - none) >= 2:
            half = len(these) // 2
            waiting += [these[half:], these[:half]] if half else []
            if not half:
                print(f"{seconds:6.1f} {these[0].split()[1]}", flush=True)


def main():
    crate, *function = sys.argv[1:] or [""]
    try:
        found = build.crates_below(crate)[-1]
    except KeyError:
        found = None
    if found is None or len(function) > 1:
        print(__doc__, file=sys.stderr)
        return 2
    missing = [it.name for it in found.all_below if not os.path.exists(it.made())]
    if missing:
        print(f"make build first: {', '.join(sorted(missing))}", file=sys.stderr)
        return 1
    shutil.rmtree(f"{DEAR}/goals", ignore_errors=True)
    check = Check(found)
    search(check, *function) if function else parts(check)
    return 0


if __name__ == "__main__":
    sys.exit(main())
