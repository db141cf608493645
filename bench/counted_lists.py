#!/usr/bin/env python3
"""Counts the instructions of one call of each list over a database file. Other work on the machine changes no count.

usage: counted_lists.py [PROGRAM [STAYS]]      (the built hotel_desk and 20,000, where they aren't given)

Needs valgrind. The counts are those of its cachegrind for scripts over copies of a file: one asks each list so many
times, and one asks one of the lists so many times more. The difference, by the number of calls, is the cost of a call;
what an opening and a first call cost isn't in it.

- Each of the thirteen lists over a desk of so many past stays, beside the same over a desk of none. Both are those of
  tables_speed.py, and have the same rows to show. Over none `locks` is asked of a desk that had one stay in each room,
  since it reads each lock's last note.
- `room-status` of 300 rooms, and `availability` of 14 nights of four kinds, beside `in-house` of 300 guests, over one
  desk.

Prints each count, and at last how many are as wanted; status 1 where one isn't.
"""
import itertools
import pathlib
import re
import shutil
import subprocess
import sys
import tempfile

import scripts
from built_desk import DESK
from tables_speed import INDEXES, ROOMS, SECOND, lists, make_desk

CALLS, KINDS = 10, 4
MOST_OVER_STAYS, MOST_BESIDE_HOUSE = 1.2, 1.5


class Counter:
    """The program, and a folder for what it is given."""

    def __init__(self, program, folder):
        self.program, self.folder = program, folder
        (folder / "zeros").write_bytes(bytes(32))

    def ran(self, db, lines, *before):
        """What a script of these lines prints on both streams, over this database, run by the words before it."""
        script = "".join(f"{line}\n" for line in lines)
        words = [*before, self.program, "--db", db, "--seed-file", self.folder / "zeros", "script"]
        child = subprocess.run(words, input=script, text=True, capture_output=True, check=True)
        assert "refused" not in child.stdout and "unread" not in child.stdout, child.stdout
        return child.stdout, child.stderr

    def instructions(self, db, lines):
        """The instructions of a run of these lines over a copy of this database."""
        copy = shutil.copy(db, self.folder / "copy.db")
        counts = f"--cachegrind-out-file={self.folder / 'counts'}"
        _, told = self.ran(copy, lines, "valgrind", "--tool=cachegrind", "--cache-sim=no", counts)
        return int(re.search(r"I\s+refs:\s+([\d,]+)", told)[1].replace(",", ""))

    def of_calls(self, db, names):
        """The instructions of one call of each list, and how many lines it has."""
        each = [name for name in names for _ in range(CALLS)]
        base = self.instructions(db, each)
        sizes = {name: self.ran(db, [name])[0].count("\n") for name in names}
        return {name: ((self.instructions(db, [*each, *[name] * CALLS]) - base) / CALLS, sizes[name]) for name in names}


def full_desk(counter):
    """A desk of which each room, of one of four kinds, has a guest in house who came in."""
    db = counter.folder / "full.db"
    codes = list(itertools.islice(scripts.codes(), 2 * ROOMS))
    rooms, kinds = range(1, ROOMS + 1), [f"K{kind}" for kind in range(KINDS)]
    counter.ran(db, [
        f"begin {scripts.FIRST}", *(f"add-kind {kind}" for kind in kinds),
        *(f"add-room {room} {kinds[room % KINDS]}" for room in rooms),
        *(f"reserve {kinds[room % KINDS]} {scripts.FIRST} {1 + room % 14} Guest {room}" for room in rooms),
        *(f"check-in {room} {room}" for room in rooms),
        *(scripts.note("entered", room, 1, room, (codes[room - 1], codes[ROOMS + room - 1])) for room in rooms)])
    return db


def over_past(counter, past, *names):
    """By its first word, the name of each list, or of these; the instructions of a call of it over so many past stays,
    and how many lines it has."""
    lines, sizes = lists(past)
    sizes = {name: size for name, size in sizes.items() if not names or name in names}
    db = make_desk(counter.folder / f"{past}.db", SECOND, past, INDEXES)
    counter.ran(db, lines)
    counts = counter.of_calls(db, list(sizes))
    assert sizes == {name: size for name, (_, size) in counts.items()}, counts
    return {name.split()[0]: (name, *count) for name, count in counts.items()}


def over_stays(counter, stays):
    """Whether each list costs little more over many past stays."""
    few = over_past(counter, 0) | over_past(counter, ROOMS, "locks")
    for first, (name, many, size) in over_past(counter, stays).items():
        _, none, _ = few[first]
        before = ROOMS if first == "locks" else "no"
        print(f"{name} ({size - 1} rows): over {before} past stays {none:,.0f} instructions, over {stays} {many:,.0f}: "
              f"ratio {many / none:.2f}, wanted {MOST_OVER_STAYS} at most")
        yield many / none <= MOST_OVER_STAYS


def beside_house(counter):
    """Whether two lists of a full house cost little more than its guests."""
    names = ["in-house", "room-status", f"availability {scripts.FIRST} 14"]
    counts = counter.of_calls(full_desk(counter), names)
    assert [size for _, size in counts.values()] == [ROOMS + 1, ROOMS + 1, KINDS + 1], counts
    house, _ = counts[names[0]]
    for name in names[1:]:
        count, size = counts[name]
        print(f"{name} ({size - 1} rows): {count:,.0f} instructions, in-house of {ROOMS} guests {house:,.0f}: "
              f"ratio {count / house:.2f}, wanted {MOST_BESIDE_HOUSE} at most")
        yield count / house <= MOST_BESIDE_HOUSE


def main():
    program = pathlib.Path(sys.argv[1] if len(sys.argv) > 1 else DESK).resolve()
    stays = int(sys.argv[2]) if len(sys.argv) > 2 else 20_000
    with tempfile.TemporaryDirectory() as made:
        counter = Counter(program, pathlib.Path(made))
        met = [*beside_house(counter), *over_stays(counter, stays)]
    print(f"{sum(met)} of {len(met)} figures as wanted")
    return 0 if all(met) else 1


if __name__ == "__main__":
    sys.exit(main())
