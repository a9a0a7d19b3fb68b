"""A system that stops at any place of a write: of what was not synced nothing is left, or all, or a part."""
import os
import random
import struct

from tools.shared import REGISTRY
from check.hostile.disk import is_opened
from check.hostile.said import say
from check.hostile.worlds import copied, parts_of, world
from check.hostile.writes import WRITES, WRITES_BESIDE


def records(data):
    """The records of refusing.so's log."""
    at, found = 0, []
    while at < len(data):
        kind, inode, place, count = struct.unpack_from("<QQqQ", data, at)
        at += 32
        size = count if chr(kind) == "W" else 0
        found.append((chr(kind), inode, place, data[at : at + size]))
        at += size
    return found


def after_crash(before, log, number, chance):
    """The files, by their inodes, where the system stops in front of the record of this number: what was synced is
    there; of each later write nothing, all, or a first part that ends at a sector."""
    files = {inode: bytearray(data) for inode, data in before.items()}
    last_sync = {}
    for at, (kind, inode, _, _) in enumerate(log[:number]):
        if kind == "S":
            last_sync[inode] = at
    for at, (kind, inode, place, data) in enumerate(log[:number]):
        file = files.setdefault(inode, bytearray())
        if at > last_sync.get(inode, -1):
            fate = chance.choice(["none", "all", "part"])
            if fate == "none":
                continue
            if fate == "part" and kind == "W":
                data = data[: 512 * chance.randrange(len(data) // 512 + 1)]
        if kind == "W" and data:
            file.extend(bytes(max(place + len(data) - len(file), 0)))
            file[place : place + len(data)] = data
        if kind == "T":
            del file[place:]
            file.extend(bytes(place - len(file)))
    return files


def crash_in_write(refusing, room, db, name, what, chance):
    """Stops the system at each place of a write to a file, which is as the write leaves it afterwards, with four
    draws of what is left; returns how many crashes there were."""
    before, whole = world(db), copied(db, f"{room}/whole.db")
    with open(f"{room}/log", "w+b") as log:
        words, given = (what(whole), b"") if callable(what) else ([REGISTRY, "stdio", "--db", whole], what[0])
        ran, _, _ = refusing.run(words, given=given, log=log)
        log.seek(0)
        done = records(log.read())
    after, bad, were = world(whole), [], [0, 0]
    inodes = {os.stat(it).st_ino: it[len(whole) :] for it in parts_of(whole)}
    was = {inode: open(db + suffix, "rb").read() for inode, suffix in inodes.items() if os.path.exists(db + suffix)}
    # an order is acknowledged by its end
    answered = next((at for at, it in enumerate(done) if it[0] == "A"), len(done))
    if ran.returncode or not inodes.keys() >= {inode for kind, inode, _, _ in done if kind in "WT"}:
        bad.append(f"status {ran.returncode}, files {inodes}")
    for number in range(len(done) + 1):
        for _ in range(4):
            left = copied("", f"{room}/left.db")
            for inode, data in after_crash(was, done, number, chance).items():
                if inode in inodes:
                    with open(left + inodes[inode], "wb") as it:
                        it.write(data)
            found, opened = is_opened(refusing, left)
            if not opened or found not in (before, after) or number > answered and found != after:
                why = ("acknowledged, and lost" if number > answered else "another world") if opened else "it is not opened"
                bad.append(f"record {number} of {len(done)}: {why}")
            were[found == after] += 1
    told = f"{name}: {sum(were)} crashes, {were[0]} with the world before and {were[1]} with the one after"
    say(not bad, told, bad)
    copied(whole, db)
    return sum(were)


def crash_in_writes(refusing, room):
    """Each kind of write, and every place where the system may stop in it."""
    chance = random.Random(20_261_124)
    for db, writes in (("crash.db", WRITES), ("crash_beside.db", WRITES_BESIDE)):
        total = sum(crash_in_write(refusing, room, f"{room}/{db}", name, what, chance) for name, what in writes)
        print(f"      {total} crashes")
