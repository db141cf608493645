#!/usr/bin/env python3
"""Runs the built program beside simulated buildings (.ci/simulated) for a time, or with planted bugs.

usage: building.py [PROGRAM] [--minutes M] [--seed S] [--doors | --planted]
       (default: the built hotel_desk, 60 minutes, seed 1)

Hotels of 2 to 40 rooms are run, most by HTTP, each with the next seed. A seed decides all that is done, but where the
program is killed also how far it came. What differs ends the run, with the shortest script that shows it. With --doors
every second lock is a hotel_door, what is promised of the building is looked at after every step, and no backups are
restored. --planted plants each bug in BUGS of .ci/simulated/planted.py, and prints a table of how it was found. The
status is 1 if something differs, or if a bug isn't found.
"""
import argparse
import collections
import pathlib
import random
import signal
import sys
import time

sys.path.insert(0, str(pathlib.Path(__file__).resolve().parent.parent / ".ci"))
from built_desk import DESK, door_of  # noqa: E402
from simulated.planted import BUGS  # noqa: E402
from simulated.runs import run, text_of  # noqa: E402

# The days of a hotel times its rooms.
SIZES = {"http": 300, "script": 90, "words": 30}


def hotels(program, seed, minutes, door):
    """Hotels until the time is over. Whether something differs."""
    until, counts, found, first = time.monotonic() + 60 * minutes, collections.Counter(), None, seed
    while time.monotonic() < until and not found:
        chance = random.Random(seed)
        way = "http" if door else chance.choice([*["http"] * 8, "script", "words"])
        rooms, kills = chance.choice([2, 3, 5, 12, 40]), chance.choice([0, 0.01, 0.05])
        restores = 0 if door else chance.choice([0.1, 0.3])
        result = run(program, way, seed, rooms, SIZES[way] // rooms + 1, kills, restores, until, seconds=300, door=door)
        found = result.found
        print(f"seed {seed}: {rooms} rooms, by {way}, kills {kills}, restores {restores}: {result.counts['events']} "
              f"events", flush=True)
        result.tell()
        counts, seed = counts + result.counts, seed + 1
    print(f"{seed - first} hotels: {text_of(counts)}")
    return bool(found)


def planted(program, seed):
    """A table of the bugs. Whether one isn't found."""
    print("| planted | found after steps | what differs |\n|---|---|---|")
    found = 0
    for seed, (name, bug) in enumerate(BUGS.items(), seed):
        kills, restores = 0.02 if "kill" in name else 0, 0.4 if "restore" in name else 0.05
        result = run(program, "http", seed, 3, 60, kills, restores, bug=bug, seconds=30)
        what = (result.found or "nothing").replace("\n ", ";").replace("got:    ", "got: ").replace("|", "\\|")
        print(f"| {name} | {result.steps} | `{what:.140}` |", flush=True)
        found += bool(result.found)
    print(f"{found} of {len(BUGS)} found")
    return found < len(BUGS)


if __name__ == "__main__":
    parser = argparse.ArgumentParser()
    parser.add_argument("program", nargs="?", type=pathlib.Path, default=DESK)
    parser.add_argument("--minutes", type=float, default=60)
    parser.add_argument("--seed", type=int, default=1)
    parser.add_argument("--doors", action="store_true")
    parser.add_argument("--planted", action="store_true")
    given = parser.parse_args()
    signal.signal(signal.SIGTERM, signal.default_int_handler)
    program = given.program.resolve()
    door = [str(door_of(program))] if given.doors else None
    sys.exit(planted(program, given.seed) if given.planted else hotels(program, given.seed, given.minutes, door))
