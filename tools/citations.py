"""Looks up what the pages cite of this repository, and says what is not there.

Citations stand in backquotes, outside blocks of commands:
- a path, from the top, from `crates/`, or its end: `crates/registry_model/src/limits.rt`, `registry_model/specs`,
  `src/range.rt`, `keeper.rt`. `*`, and `NAME`, stand for any text. So does what a link leads to, from its page;
- an item of Rattle: `crate::item`, `crate::module::item`, `Type::item`, `module::item`. It has to be in the sources
  of that crate and in that module, where they are named; else in a crate that has the type or the module;
- a name behind the words example, edit or law, or several: of a worked example or one of check/words, of a must-fail
  edit, of a function;
- any other name that has `_` or a capital within: it has to be a word of some file that is no page.
`make check-docs` calls this.
"""
import fnmatch
import glob
import os
import re
import sys

from tools.shared import TOP

PAGES = ["README.md", "CONTRIBUTING.md", *sorted(os.path.relpath(it, TOP) for it in glob.glob(f"{TOP}/docs/*.md"))]
# what a build makes, and what is no text of ours
LEFT_OUT = {".git", "build", "out", "__pycache__"}
ENDINGS = (".rt", ".antt", ".talk", ".edit", ".py", ".rs", ".go", ".sh", ".md")
# guides of the kit
GUIDES = {"LANGUAGE.md", "CONTRACTS.md"}

SPAN = re.compile(r"`([^`]+)`")
LINK = re.compile(r"\]\(([\w./-]+)(?:#[^)]*)?\)")
NAMES = r"((?:`\w+`(?:, and |, | and |))+)"
KINDS = {
    "example": re.compile(rf"(?<!for )\bexamples? {NAMES}"),
    "edit": re.compile(rf"\bedits? {NAMES}"),
    "law": re.compile(rf"\blaws? {NAMES}"),
}
ITEM = r"\b(?:fn|struct|enum|trait|const|static|type|mod|macro_rules!|ghost)\s+%s\b"
VARIANT = r"^\s+%s\s*(?:[({,]|$)"
HANDED_ON = r"^pub use [^;]*\b%s\b"


def read(path):
    with open(f"{TOP}/{path}", encoding="utf-8", errors="replace") as it:
        return it.read()


def paths():
    """The files of the checkout, and all files and folders."""
    files, folders = [], []
    for folder, below, names in os.walk(TOP):
        below[:] = sorted(set(below) - LEFT_OUT)
        here = os.path.relpath(folder, TOP)
        files += [os.path.normpath(f"{here}/{name}") for name in names]
        folders.append(here)
    return files, files + folders


class Tree:
    """What there is that pages cite."""

    def __init__(self):
        files, self.paths = paths()
        self.ends = {"/".join(it.split("/")[at:]) for it in self.paths for at in range(1 + it.count("/"))}
        self.folders = {part for it in self.paths for part in it.split("/")[:-1]}
        texts = {it: read(it) for it in files if not it.endswith(".md")}
        self.sources = {}
        for path, text in texts.items():
            if match := re.fullmatch(r"crates/(\w+)/src/(.*)\.rt", path):
                self.sources.setdefault(match[1], {})["::" + match[2].replace("/", "::")] = text
        stems = {it.split("/")[-1].split(".")[0] for it in self.paths}
        self.words = stems.union(*(re.findall(r"\w+", text) for text in texts.values()))
        talk = "\n".join(text for path, text in texts.items() if path.endswith(".talk"))
        self.named = {
            "example": set(re.findall(r"^(?:example|each) (\w+)", talk, re.MULTILINE)),
            "edit": {os.path.basename(it)[:-5] for it in files if it.endswith(".edit")},
            "law": {it for text in self.all_sources() for it in re.findall(r"\bfn (\w+)", text)},
        }

    def all_sources(self):
        return [text for modules in self.sources.values() for text in modules.values()]

    def is_path(self, text):
        if not re.fullmatch(r"[\w.*-]+(/[\w.*-]*)*", text) or text in GUIDES:
            return False
        return text.endswith(ENDINGS) or ("/" in text and text.split("/")[0] in self.folders)

    def has_path(self, text):
        pattern = text.rstrip("/").replace("NAME", "*")
        return pattern in self.ends or ("*" in pattern and bool(fnmatch.filter(self.ends, pattern)))

    def has_item(self, text):
        *places, name = text.split("::")
        crates = [places.pop(0)] if places[0] in self.sources else self.sources
        return any(is_in(self.sources[crate], places, name) for crate in crates)


def is_in(modules, places, name):
    """Whether a crate has an item: in the module that is named, if one is, and beside the type."""
    module = "::".join(it for it in places if it.islower())
    types = [it for it in places if not it.islower()]
    texts = [text for at, text in modules.items() if not module or at.endswith(f"::{module}")]
    has_types = all(any(re.search(ITEM % it, text) for text in modules.values()) for it in types)
    item = re.compile("|".join(it % name for it in (ITEM, VARIANT, HANDED_ON)), re.MULTILINE)
    return has_types and any(item.search(text) for text in texts)


def lines_of(page):
    """The lines that are no commands and no picture, with their numbers."""
    is_fenced = False
    for number, line in enumerate(read(page).splitlines(), 1):
        is_fenced ^= line.startswith("```")
        if not is_fenced and not line.startswith("    "):
            yield number, line


def cited(tree, page, line):
    """What a line cites: what kind of thing it is, its text, and whether it is there."""
    kinds = {name: kind for kind, it in KINDS.items() for name in SPAN.findall(" ".join(it.findall(line)))}
    for text in SPAN.findall(line):
        if text in kinds:
            yield kinds[text], text, text in tree.named[kinds[text]]
        elif re.fullmatch(r"\w+(::\w+)+", text):
            yield "item", text, tree.has_item(text)
        elif tree.is_path(text):
            yield "path", text, tree.has_path(text)
        elif re.fullmatch(r"[A-Za-z]\w*", text) and re.search("_|[a-z][A-Z]", text):
            yield "name", text, text in tree.words
    for text in LINK.findall(line):
        yield "path", text, os.path.exists(os.path.join(TOP, os.path.dirname(page), text))


def look():
    """How many citations there are, and of each that leads nowhere the page, the line and what it is."""
    tree, count, wrong = Tree(), 0, []
    for page in PAGES:
        for number, line in lines_of(page):
            for kind, text, is_there in cited(tree, page, line):
                count += 1
                if not is_there:
                    wrong.append(f"{page}:{number}: there is no {kind} {text}")
    return count, wrong


def main():
    count, wrong = look()
    print("\n".join([*wrong, f"{len(wrong)} of {count} citations lead nowhere"]))
    return int(bool(wrong))


if __name__ == "__main__":
    sys.exit(main())
