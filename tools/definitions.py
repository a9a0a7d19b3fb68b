"""Which definitions a statement stands on: those of a file, and of all that it uses, whoever's they are of this
repository. `specs` of a crate are followed; what is declared in Rust (`declared`) is counted by its files; the
kit's own definitions are not."""
import os
import re

from tools.shared import TOP

USE = re.compile(r"^(?:pub )?use Rattle\.(\w+)\.specs\.([\w.]+?)(?:\.\{|\.TheVariants|\.TheConstants| as |$)", re.M)


def path_of(crate, module):
    """The file of a module, `a.b.C`; of one that Rust declares, the source that declares it."""
    parts = module.split(".")
    if parts[0] == "declared":
        source = f"crates/{crate}/src/{parts[1]}.rt"
        return source if os.path.exists(f"{TOP}/{source}") else None
    for count in range(len(parts), 0, -1):
        path = f"crates/{crate}/specs/{'/'.join(parts[:count])}.antt"
        if os.path.exists(f"{TOP}/{path}"):
            return path
    return None


def uses(path):
    with open(f"{TOP}/{path}", encoding="utf-8") as it:
        return [path_of(*found) for found in USE.findall(it.read())]


def closure(*first):
    """The files, in the order in which they are met."""
    found = list(first)
    for path in found:
        if path.endswith(".antt"):
            found += dict.fromkeys(it for it in uses(path) if it and it not in found)
    return found


def count(paths):
    """How many files of definitions, and how many lines they have that are neither empty nor a comment or `use`."""
    of_specs = [it for it in paths if it.endswith(".antt")]
    lines = 0
    for path in of_specs:
        with open(f"{TOP}/{path}", encoding="utf-8") as it:
            lines += sum(bool(re.match(r"\s*(?!--|use |pub use )\S", line)) for line in it)
    return len(of_specs), lines


# the theorem's own
FIRST = "crates/registry_model/specs/Runs.antt"


def main():
    paths = closure(FIRST)
    print(*paths, sep="\n")
    print("%d files with %d lines of definitions" % count(paths))


if __name__ == "__main__":
    main()
