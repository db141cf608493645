#!/usr/bin/env python3
"""Times the desk beside a plain desk (plain_desk.rs) on the scripts of scripts.py.

usage: compare.py [PROGRAM [NAME ..]]      (the built hotel_desk and all scripts, where they aren't given)

A line a script: the user and system time of both, the best of 15 runs that take turns; their ratio; the greatest memory
of both; and whether the answers are equal. At the end, how long bookings take: the last thousand of 20,000 beside the
first thousand.
"""
import hashlib
import os
import pathlib
import subprocess
import sys
import tempfile

import scripts
from built_desk import DESK

HERE = pathlib.Path(__file__).resolve().parent


def run(program, script, answers):
    """The time in seconds, the greatest memory in MB, and a digest of the answers."""
    with open(script) as given, open(answers, "wb") as taken:
        child = subprocess.Popen([program], stdin=given, stdout=taken)
        _, status, used = os.wait4(child.pid, 0)
    assert status == 0, f"{program} ended with {status} on {script}"
    digest = hashlib.sha256()
    # In pieces: a child's greatest memory is never below that of the process that started it.
    with open(answers, "rb") as said:
        while piece := said.read(65536):
            digest.update(piece)
    return used.ru_utime + used.ru_stime, used.ru_maxrss / 1024, digest.digest()


def best(runs):
    return min(time for time, _, _ in runs), max(memory for _, memory, _ in runs), runs[0][2]


def first_and_last(program, folder):
    """The times of the first and of the last thousand of 20,000 bookings that stand, each as a difference of two
    scripts."""
    lines = scripts.SCRIPTS["one_kind"]()
    opening = len(lines) - 20000
    fronts = []
    for count in (0, 1000, 19000, 20000):
        fronts.append(folder / f"front{count}.txt")
        fronts[-1].write_text("\n".join(lines[: opening + count]) + "\n")
    rounds = [[run(program, front, folder / "answers")[0] for front in fronts] for _ in range(40)]
    times = [min(times) for times in zip(*rounds)]
    return times[1] - times[0], times[3] - times[2]


def main():
    program = pathlib.Path(sys.argv[1]) if len(sys.argv) > 1 else DESK
    names = sys.argv[2:] or list(scripts.SCRIPTS)
    with tempfile.TemporaryDirectory() as made:
        folder = pathlib.Path(made)
        plain = folder / "plain_desk"
        subprocess.run(["rustc", "--edition", "2021", "-O", HERE / "plain_desk.rs", "-o", plain], check=True)
        for name in names:
            script = folder / f"{name}.txt"
            script.write_text("\n".join(scripts.SCRIPTS[name]()) + "\n")
            # In turn, so that what else the machine does meets both.
            runs = [[run(each, script, folder / "answers") for each in (program, plain)] for _ in range(15)]
            time, memory, answers = best([ours for ours, _ in runs])
            plain_time, plain_memory, plain_answers = best([theirs for _, theirs in runs])
            equal = "equal" if answers == plain_answers else "DIFFERENT ANSWERS"
            print(f"{name:12} {time * 1000:7.1f} and {plain_time * 1000:7.1f} ms: {time / max(plain_time, 1e-6):5.2f}"
                  f"   {memory:5.1f} and {plain_memory:5.1f} MB: {memory / plain_memory:5.2f}   {equal}", flush=True)
        first, last = first_and_last(program, folder)
        print(f"bookings: the first thousand {first * 1000:.1f} ms, the last {last * 1000:.1f} ms: "
              f"{last / max(first, 1e-6):.2f}")


if __name__ == "__main__":
    main()
