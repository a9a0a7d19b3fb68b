"""Measures `registry serve` over loopback, on a database file, and beside it docker-registry where installed.

Each case is a number of requests on one kept connection, each reply read to its end. Each time is the
least of some rounds. Ratios within one run are what counts, so the servers take turns, part by part, and
so does an older executable where one is named. Prints a table, and writes build/bench.json.
The peer is docker-registry of the distribution with its filesystem driver, on the same disk; a whole push
is POST with the bytes here, and POST and one PUT there. Pulls by many clients are taken of both, and of the
registry by an edge where nginx is installed (pulling.py). How cost grows has a table of its own (growth.py).
"""
import argparse
import json
import os
import shutil
import signal
import sys
import tempfile
import time

from bench import laws
from bench import limits
from bench.cases import PARTS as CASES, QUICK, Cases, Plan
from bench.growth import GROWTH, shares
from bench.many import driven, many
from bench.pulling import BY_EDGE, NGINX, PULLS, pulls
from bench.servers import Docker, Firkhen, new_database

REGISTRY = os.path.abspath("build/registry")
US, OLD, DOCKER, LIMITS = "registry", "old", "docker-registry", "limits"
# what each part consists of, one after the other
PARTS = {
    **{name: (it,) for name, it in CASES.items()},
    pulls.__name__: (pulls,),
    many.__name__: (many,),
    "growth": GROWTH,
}
QUICK_PARTS = ("blobs", "uploads", "manifests", "lists", "growing")
# what one time is to be to others: the most that it may be of their sum
AIMS = (
    ("push of 64 MiB", US, (("sha256sum of 64 MiB", LIMITS), ("dd conv=fsync of 64 MiB", LIMITS)), 1.6),
    ("POST+PATCH+PUT of 64 MiB, one PATCH", US, (("push of 64 MiB", US),), 1.25),
    ("GET of 64 MiB", US, (("GET of 64 MiB", DOCKER),), 1.6),
    ("push of 1 KiB beside 100,000", US, (("push of 1 KiB beside 10", US),), 1.5),
    ("list of 1,000 tags", US, (("list of 1,000 tags", DOCKER),), 0.2),
    ("HEAD of 64 MiB", US, (("HEAD of 1 KiB", US),), 1.5),
    ("PATCH of 1 MiB into 60 MiB", US, (("PATCH of 1 MiB into 0", US),), 1.5),
    ("manifest GET, 1 at once", US, (("manifest GET, 1 at once", OLD),), 1.1),
    (BY_EDGE, US, ((PULLS, DOCKER),), 1.0),
)
CLOSING, CLOSING_AIM = "the PUT of 64 MiB, one PATCH", 0.005


def registry(name, executable, room):
    """How a registry is started on a copy of a database that is made once."""
    new = os.path.join(os.path.abspath(room), f"{name}.db")
    new_database(executable, new)
    return lambda place: Firkhen(name, executable, new, place)


def servers(asked, room):
    """How each server is started that is there, by its name."""
    found = {US: registry(US, REGISTRY, room)}
    if asked.old:
        found[OLD] = registry(OLD, os.path.abspath(asked.old), room)
    if shutil.which(DOCKER) and not asked.alone:
        found[DOCKER] = Docker
    return found


def run_part(part, start, plan, found):
    """One part of one server, in a folder of its own. What fails is said and left out."""
    name, begun = part.__name__, time.perf_counter()
    with tempfile.TemporaryDirectory(dir="build") as room:
        peer = None
        try:
            peer = start(os.path.abspath(room))
            part(Cases(peer, plan, found))
        except (RuntimeError, OSError, ValueError) as error:
            plan.notes.append(f"FAILED: {peer.name if peer else 'a server'}: {name}: {error}")
        finally:
            if peer:
                peer.end()
        print(f"{peer.name if peer else '?'}: {name}: {time.perf_counter() - begun:.1f} s", file=sys.stderr)


def take_limits(plan, found):
    sizes = [(text, size) for text, size, _ in plan.sizes if size > 1 << 10]
    with tempfile.TemporaryDirectory(dir="build") as room:
        taken = limits.limits(os.path.abspath(room), sizes, plan.rounds)
    found.update({case: (seconds, None) for case, seconds in taken.items()})


def run(asked, plan):
    """The cases of each server by their names, and the limits as if they were one."""
    with tempfile.TemporaryDirectory(dir="build") as room:
        starts = servers(asked, room)
        found = {name: {} for name in (*starts, LIMITS)}
        for name in asked.part or (QUICK_PARTS if asked.quick else PARTS):
            for part in PARTS[name]:
                for server, start in starts.items():
                    if part not in GROWTH or server != DOCKER:
                        run_part(part, start, plan, found[server])
            if name == "blobs":
                take_limits(plan, found[LIMITS])
            if name == many.__name__:
                found[LIMITS].update({case: (seconds, None) for case, seconds in driven(plan).items()})
    return found


def cell(value, text):
    """A value as a format has it, or as much room where there is none."""
    return text.format(value) if value else " " * len(text.format(0))


def beside(ours, other):
    """Another server's time, how many times ours it is, and its memory."""
    seconds, peak = other or (None, None)
    times = seconds and ours and seconds / ours
    return cell(seconds and seconds * 1e6, "{:20,.0f}") + cell(times, "{:7.1f}") + cell(peak, "{:7.0f}")


def show(found, lines):
    """The rows, if any were taken."""
    others = [name for name in (OLD, DOCKER) if name in found]
    if not found[US]:
        return
    head = "".join(f"{name + ' us':>20}{'times':>7}{'MiB':>7}" for name in others)
    print(f"{'':38}{'registry us':>13}{'a second':>10}{'MiB':>7}{head}")
    for case, (seconds, peak) in found[US].items():
        if lines and case not in lines:
            continue
        own = cell(seconds and seconds * 1e6, "{:13,.0f}") + cell(seconds and 1 / seconds, "{:10,.1f}")
        more = "".join(beside(seconds, found[name].get(case)) for name in others)
        print(f"{case:38}{own}{cell(peak, '{:7.0f}')}{more}".rstrip())
    if not lines:
        for case, (seconds, _) in found[LIMITS].items():
            print(f"{case:38}{seconds * 1e6:13,.0f}{1 / seconds:10,.1f}")


def verdict(value, most):
    return "reached" if value <= most else "MISSED"


def aims(found):
    """A line for each aim whose cases were all taken."""
    for case, server, unders, most in AIMS:
        times = [found.get(of, {}).get(name) for name, of in ((case, server), *unders)]
        if all(times):
            value = times[0][0] / sum(seconds for seconds, _ in times[1:])
            text = " + ".join(name if of in (US, LIMITS) else f"{name}, {of}" for name, of in unders)
            yield f"{verdict(value, most):8}{value:8.2f} (at most {most})  {case} / {text}"
    if CLOSING in found[US]:
        seconds = found[US][CLOSING][0]
        value = f"{seconds * 1e3:8.1f} ms (at most {CLOSING_AIM * 1e3:.0f})"
        yield f"{verdict(seconds, CLOSING_AIM):8}{value}  {CLOSING}"


def slower(found):
    """The cases that the older executable does faster; a twentieth is what runs differ by."""
    for case, (seconds, _) in found[US].items():
        old = found.get(OLD, {}).get(case)
        if old and seconds and seconds > 1.05 * old[0]:
            yield f"SLOWER  {seconds / old[0]:8.2f} times the old one's  {case}"


def show_growth(costs):
    """What grows, by our rows, if they were taken."""
    if costs.get(US):
        print("\nHow cost grows, in time of the server's processor and by the clock:", *laws.table(costs, US), sep="\n")
        print("", *shares(costs), sep="\n")


def write(found, costs):
    with open("build/bench.json", "w", encoding="utf-8") as file:
        rows = {
            server: {case: {"seconds": seconds, "peak MiB": peak} for case, (seconds, peak) in cases.items()}
            for server, cases in found.items()
        }
        for server, by_row in costs.items():
            rows[server]["growth"] = {
                str(row): {size: cost._asdict() for size, cost in by_size.items()} for row, by_size in by_row.items()
            }
        json.dump(rows, file, indent=1)


def options():
    asked = argparse.ArgumentParser(description="Measures registry serve over loopback.")
    asked.add_argument("--quick", action="store_true", help="the ten lines that matter")
    asked.add_argument("--old", metavar="EXECUTABLE", help="an older registry, in the same run")
    asked.add_argument("--alone", action="store_true", help="without docker-registry")
    asked.add_argument("--part", action="append", choices=PARTS, help="this part alone; may be said again")
    asked.add_argument("--rounds", type=int, help="of how many rounds the least is taken")
    return asked.parse_args()


def main():
    asked, begun = options(), time.perf_counter()
    # told to stop, the servers are ended and their files go
    signal.signal(signal.SIGTERM, lambda *_: sys.exit(143))
    if not os.path.exists(REGISTRY):
        print("bench needs build/registry", file=sys.stderr)
        return 2
    plan = QUICK if asked.quick else Plan()
    plan.rounds, plan.beside_old = asked.rounds or plan.rounds, bool(asked.old)
    for program in limits.lacking() + [DOCKER] * (shutil.which(DOCKER) is None) + ["nginx"] * (NGINX is None):
        plan.notes.append(f"{program} is not installed: skipped")
    found = run(asked, plan)
    show(found, plan.lines)
    show_growth(plan.costs)
    said = [*aims(found), *laws.verdicts(plan.costs, US), *slower(found)]
    if said:
        print("\nWhat is aimed at, as ratios of this run and as laws:", *said, sep="\n  ")
    for note in plan.notes:
        print(f"note: {note}")
    print(f"{time.perf_counter() - begun:.0f} s")
    write(found, plan.costs)
    return int(any(note.startswith("FAILED") for note in plan.notes))


if __name__ == "__main__":
    sys.exit(main())
