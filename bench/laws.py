"""What costs at growing sizes say: *flat*, *linear* or *worse*; and the table and verdicts of bench/growth.py.

The rule. A cost is *flat* where the largest size costs at most 1.5 times what the smallest does, plus a floor of
20 us of a processor, or of 2 MiB. It is *linear* where from each size to the next it grows less than the size to the
power of 1.5, plus the floor: half way to what grows by the square, so that what lies in no cache of a processor any
more is no other law. Else it is *worse*.
"""
import math
from dataclasses import dataclass
from typing import NamedTuple

FLAT, LINEAR, WORSE = "flat", "linear", "worse"
LAWS = (FLAT, LINEAR, WORSE)
BEYOND, POWER = 1.5, 1.5
FLOOR, FLOOR_OF_MEMORY = 20e-6, 2.0


class Cost(NamedTuple):
    """Seconds of the server's processor and of the clock, and its memory in MiB."""

    processor: float = None
    clock: float = None
    memory: float = None


@dataclass(frozen=True)
class Row:
    """A kind of request or order, of what there are so many, and the law that is aimed at, if one is."""

    name: str
    by: str
    sizes: tuple
    aim: str = ""
    of_memory: bool = False

    def __str__(self):
        return f"{self.name}, by {self.by}"


def law(costs, floor):
    """What costs by their sizes say; nothing of fewer than two."""
    found = sorted(costs.items())
    if len(found) < 2:
        return ""
    if found[-1][1] <= BEYOND * found[0][1] + floor:
        return FLAT
    steps = zip(found, found[1:])
    kept = (after <= before * (larger / size) ** POWER + floor for (size, before), (larger, after) in steps)
    return LINEAR if all(kept) else WORSE


def law_of(row, costs):
    if row.of_memory:
        return law({size: it.memory for size, it in costs.items()}, FLOOR_OF_MEMORY)
    return law({size: it.processor for size, it in costs.items()}, FLOOR)


def expected(costs, size):
    """The clock's seconds at a larger size, if they go on to grow as from the one before to the last."""
    found = sorted(costs.items())[-2:]
    last, cost = found[-1]
    power = 1
    if len(found) == 2 and cost.clock > found[0][1].clock:
        power = math.log(cost.clock / found[0][1].clock) / math.log(last / found[0][0])
    return cost.clock * (size / last) ** power


def cell(value, text):
    """A value as a format has it, or as much room where there is none."""
    return text.format(value) if value else " " * len(text.format(0))


def micro(seconds, width):
    return cell(seconds and seconds * 1e6, "{:%d,.0f}" % width)


def line(name, size, ours, others):
    text = f"{name:54}{size:>9,}{micro(ours.processor, 13)}"
    text += cell(ours.processor and 1 / ours.processor, "{:10,.1f}") + micro(ours.clock, 12)
    text += cell(ours.memory, "{:7.0f}")
    for other in others:
        times = other.processor and ours.processor and other.processor / ours.processor
        text += micro(other.processor, 13) + cell(times, "{:7.1f}") + micro(other.clock, 12)
        text += cell(other.memory, "{:7.0f}")
    return text.rstrip()


def table(costs, us):
    """A line for each size of each row: our costs, and beside them those of other programs."""
    others = [(name, it) for name, it in costs.items() if name != us]
    head = f"{'':63}{us + ' us':>13}{'a second':>10}{'clock us':>12}{'MiB':>7}"
    yield head + "".join(f"{name + ' us':>13}{'times':>7}{'clock us':>12}{'MiB':>7}" for name, _ in others)
    for row, by_size in costs[us].items():
        for at, (size, cost) in enumerate(by_size.items()):
            beside = [theirs.get(row, {}).get(size, Cost()) for _, theirs in others]
            yield line("" if at else str(row), size, cost, beside)


def verdicts(costs, us):
    """A line for each of our rows of which a law is aimed at."""
    for row, by_size in costs.get(us, {}).items():
        seen = law_of(row, by_size)
        if row.aim and seen:
            verdict = "reached" if LAWS.index(seen) <= LAWS.index(row.aim) else "MISSED"
            laws = [(name, law_of(row, it.get(row, {}))) for name, it in costs.items() if name != us]
            beside = "".join(f"; {name}: {it}" for name, it in laws if it)
            yield f"{verdict:8}{seen:7} (aim: {row.aim})  {row}{beside}"
