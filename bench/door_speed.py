#!/usr/bin/env python3
"""Times hotel_door by the CPU time of a call: `show`, `leave`, `set` and `log` over a lock's file with notes.

usage: door_speed.py [PROGRAM [NOTES]]      (default: the built hotel_desk, beside which hotel_door may be, 100 notes)

Prints means of a hundred calls, each over a file that has so many notes before it. The status is 1 if `show` takes more
than 20 ms.
"""
import os
import pathlib
import shutil
import subprocess
import sys
import tempfile

sys.path.insert(0, str(pathlib.Path(__file__).resolve().parent.parent / ".ci"))
from built_desk import DESK, FIRST, MOMENT, SECOND, door_of  # noqa: E402
from simulated.lone_locks import LoneLock, write  # noqa: E402

CALLS, MOST = 100, 0.020
CARD = ["1", FIRST, SECOND, "--at", MOMENT]


def seconds(words, file, start):
    """The CPU time of a call, as a mean; each begins with this file."""
    used = 0
    for _ in range(CALLS):
        shutil.copy(start, file)
        child = subprocess.Popen(words, stdout=subprocess.DEVNULL)
        _, status, usage = os.wait4(child.pid, 0)
        assert os.waitstatus_to_exitcode(status) == 0, words
        child.returncode, used = 0, used + usage.ru_utime + usage.ru_stime
    return used / CALLS


def main(program=DESK, notes="100"):
    with tempfile.TemporaryDirectory() as made:
        start, file, lock = pathlib.Path(made, "start"), pathlib.Path(made, "101.lock"), LoneLock(101, 1, FIRST)
        while len(lock.log) < int(notes):
            lock.show("1", FIRST, SECOND, at=MOMENT)
        write(lock, start)
        door = [str(door_of(pathlib.Path(program).resolve())), "--lock", str(file)]
        means = {word: seconds([*door, word, *more], file, start)
                 for word, more in {"show": CARD, "leave": CARD, "set": [FIRST, *CARD[3:]], "log": []}.items()}
    print(f"{notes} notes:", ", ".join(f"{word} {1000 * mean:.1f} ms" for word, mean in means.items()))
    return means["show"] > MOST


if __name__ == "__main__":
    sys.exit(main(*sys.argv[1:]))
