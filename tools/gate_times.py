"""Hands the lines of a merge gate on as they come, and says behind them in which minute each crate was proved,
its tests were, and its must-fail edits were begun; and how long all of it took. `.ci/run` calls it: what the
gate costs on an idle machine is seen there.
"""
import os
import re
import sys
import time

SAID = re.compile(r"rt: (\w+)(: its tests are proved| proved|: trying its must-fail edits)")
KINDS = {" proved": "proofs", ": its tests are proved": "tests", ": trying its must-fail edits": "edits begun"}


def processor_minutes():
    """Minutes of all processors since the machine began: busy, and stolen by its host."""
    with open("/proc/stat", encoding="ascii") as it:
        ticks = [int(word) for word in it.readline().split()[1:]]
    minutes = [tick / os.sysconf("SC_CLK_TCK") / 60 for tick in ticks]
    return minutes[0] + minutes[1] + minutes[2], minutes[7]


def main():
    # what is handed on is not looked at but for a few words, whatever its bytes
    for stream in (sys.stdin, sys.stdout):
        stream.reconfigure(encoding="utf-8", errors="surrogateescape")
    begun, before = time.monotonic(), processor_minutes()
    minutes = {kind: [] for kind in KINDS.values()}
    for line in sys.stdin:
        sys.stdout.write(line)
        sys.stdout.flush()
        said = SAID.match(line)
        if said:
            minutes[KINDS[said[2]]].append(f"{said[1]} {(time.monotonic() - begun) / 60:.0f}")
    busy, stolen = (now - then for now, then in zip(processor_minutes(), before))
    for kind, ended in minutes.items():
        print(f"gate: {kind}, in minute: {', '.join(ended)}")
    took = (time.monotonic() - begun) / 60
    print(f"gate: {took:.0f} minutes on {os.cpu_count()} processors, {busy:.0f} of one, {stolen:.0f} stolen")


if __name__ == "__main__":
    main()
