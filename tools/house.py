"""Draws which crate stands on which, from crates.txt: the picture in docs/ARCHITECTURE.md.

A row is a crate, and the crates that it stands on are below it. Each crate that something stands on has a
line of its own, which begins at the first row that stands on it and ends at its own row. Only the nearest
are drawn, none that is also below another of them. `make check-docs` says where the page differs.
"""
from tools.shared import TOP


def read():
    """Each crate with those of the house that it stands on, the highest first."""
    house = {}
    with open(f"{TOP}/crates.txt", encoding="utf-8") as it:
        rows = [line.split(":") for line in it if not line.startswith("#")]
    for crate, below in rows:
        house[crate] = [name for name in below.split() if name in house]
    return dict(reversed(house.items()))


def nearest(house):
    """Without those that are below another one."""
    deep = {}
    for crate in reversed(house):
        deep[crate] = set(house[crate]).union(*(deep[below] for below in house[crate]))

    def near(below):
        return [it for it in below if not any(it in deep[other] for other in below)]

    return {crate: near(below) for crate, below in house.items()}


def columns(house):
    """For each crate that something stands on its column, and the row in which its line begins. A column is
    used again below the row in which the line in it ends."""
    names, free_from, found = list(house), [], {}
    for row, crate in enumerate(names):
        for below in sorted((it for it in house[crate] if it not in found), key=names.index):
            column = next((at for at, free in enumerate(free_from) if free < row), len(free_from))
            free_from[column:column + 1] = [names.index(below)]
            found[below] = (column, row)
    return found


def mark(up, down, right):
    """Where a row's line, which comes from the left, meets a column's."""
    return {(True, True): "┤┼", (True, False): "┘┴", (False, True): "┐┬"}[up, down][right]


def draw(house):
    house = nearest(house)
    lines, names = columns(house), list(house)
    width = 1 + max(map(len, names))
    for row, crate in enumerate(names):
        through = {at: it for it, (at, top) in lines.items() if top <= row <= names.index(it)}
        joined = [column for column, below in through.items() if below == crate or below in house[crate]]
        text = ""
        for column in range(1 + max(through, default=-1)):
            after = any(it > column for it in joined)
            here = "─" if after else " "
            if column in joined:
                below = through[column]
                here = mark(lines[below][1] < row, below != crate, after)
            elif column in through:
                here = "│"
            text += ("─" if column in joined or after else " ") + here
        yield f"{crate} ".ljust(width, "─" if joined else " ") + text.rstrip()


if __name__ == "__main__":
    print("\n".join(draw(read())))
