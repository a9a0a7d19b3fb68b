"""Reads the examples of check/words, as the head of words.py has their lines."""
import re

from check.old_file import TABLES
from check.rows import Words, unescaped

# What stands for more than one text where something must come.
MARKS = {
    "...": rb"[^\n]*",
    "text": rb"(?s:.*)",
    "explanation": rb"(?!registry: )(?s:.+)",
    "number": rb"\d+",
    "port": rb"[1-9]\d*",
    "time": rb"\d{4}-\d\d-\d\dT\d\d:\d\d:\d\dZ",
}
# What is read when an example is played: the port of a server, and the marks, of which one is a choice of texts.
LATE = re.compile(r'\{(%s|server|[^{}"\s]+\|[^{}"\s]+)\}' % "|".join(map(re.escape, MARKS)))

STEPS = "$ serve ended freeze thaw call shut told cut sql write read mode length socket".split()
# Lines behind a step, and what of it they add to; the others are `?` and `with`.
TEXTS = {"<": "given", "<<": "left", ">": "out", "2>": "err", "asked": "asked", "answers": "answers"}


class Meanings(Words):
    def meaning(self, word):
        if LATE.fullmatch("{%s}" % word):
            return "{%s}" % word
        try:
            return super().meaning(word)
        except ValueError:
            raise ValueError(f"no text has the name {word}") from None


class Step:
    """What is done, and what must come of it; lines of a kind that stand together are one."""

    def __init__(self, place, kind):
        self.place, self.kind, self.lines, self.is_begun = place, kind, [], True
        self.given, self.out, self.err, self.status = "", "", "", 0
        self.left, self.asked, self.answers, self.how = None, None, None, None

    def add(self, word, text):
        """Adds a line behind it. A line's end is left out where a backslash stands in its place."""
        self.is_begun = False
        if word == "?":
            self.status = int(text)
        elif word == "with":
            self.how = text
        elif word in TEXTS:
            line = text[:-1] if text.endswith("\\") else f"{text}\n"
            setattr(self, TEXTS[word], (getattr(self, TEXTS[word]) or "") + line)
        else:
            raise ValueError(f"no line begins with {word}")


class Example:
    def __init__(self, name, after, is_each=False):
        self.name, self.after, self.is_each, self.steps = name, after, is_each, []


class Book:
    def __init__(self):
        self.words, self.settings, self.examples = Meanings(), {}, []
        self.words.meanings["tables of schema 1"] = TABLES
        self.example = None

    def begin(self, kind, rest):
        name, _, after = rest.partition(" after ")
        self.example = Example(name, after, kind == "each")
        if kind == "setting":
            self.settings[name] = self.example
        else:
            self.examples.append(self.example)

    def add_step(self, place, kind, rest):
        steps = self.example.steps
        if not (steps and steps[-1].kind == kind and steps[-1].is_begun):
            steps.append(Step(place, kind))
        steps[-1].lines.append(rest)

    def take(self, place, text):
        word, _, rest = text.partition(" ")
        if word.startswith("#"):
            return
        if word == "let":
            name, _, meaning = rest.partition(" = ")
            self.words.meanings[name] = self.words.written_out(meaning)
            return
        rest = self.words.written_out(rest)
        if word in ("example", "each", "setting"):
            self.begin(word, rest)
        elif self.example is None:
            if text:
                raise ValueError("no example has begun")
        elif word in STEPS:
            self.add_step(place, word, rest)
        elif text:
            self.example.steps[-1].add(word, rest)
        elif self.example.steps:
            self.example.steps[-1].is_begun = False

    def read(self, path, name):
        self.example = None
        with open(path, encoding="utf-8") as it:
            for number, line in enumerate(it.read().split("\n"), 1):
                try:
                    self.take(f"{name}:{number}", line)
                except (ValueError, IndexError) as error:
                    raise ValueError(f"{name}:{number}: {error}") from error

    def look(self):
        """Whether all settings are there that examples come after."""
        for it in (*self.examples, *self.settings.values()):
            if it.after and it.after not in self.settings:
                raise ValueError(f"{it.name}: there is no setting {it.after}")

    def before(self, example):
        """The steps of the settings that an example comes after."""
        if not example.after:
            return []
        setting = self.settings[example.after]
        return [*self.before(setting), *setting.steps]


def bytes_of(text, port):
    """The bytes of a text that is given, with the port of the server."""
    return unescaped(text.replace("{server}", str(port)))


def choice(word):
    return b"(?:%b)" % b"|".join(re.escape(it.encode()) for it in word.split("|"))


def is_so(found, wanted, port):
    """Whether bytes are a text that must come, in which marks may stand."""
    pattern, end = b"", 0
    wanted = wanted.replace("{server}", str(port))
    for it in LATE.finditer(wanted):
        pattern += re.escape(unescaped(wanted[end : it.start()])) + (MARKS.get(it[1]) or choice(it[1]))
        end = it.end()
    return re.fullmatch(pattern + re.escape(unescaped(wanted[end:])), found) is not None
