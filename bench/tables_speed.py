#!/usr/bin/env python3
"""Times the desk over a database file: each figure is a ratio of two things that are timed in the same run.

usage: tables_speed.py [PROGRAM [STAYS]]      (the built hotel_desk and 100,000, where they aren't given)

Needs cc and SQLite's own header and library (libsqlite3-dev). The desks have 300 rooms; they are written as rows by
Python's sqlite3, with the texts of hotel_statements' texts.rt, and a past stay has a card, a code and four notes.

- Commands: twelve rounds of 150 of each kind over a desk of so many past stays, beside the same ones over a desk of
  none. The first round finds few pages of the file in memory, and is told apart from the later ones. Of these the mean
  counts: now and then a command copies the log into the file, for all that wrote to it.
- Lists: each of the thirteen, many times, over a desk of so many past stays, beside the same over a desk of none. Both
  have the same rows to show, in rooms that had none of the past stays. `room-status` and `locks` show the other rooms
  too: over past stays `locks` reads the last note of each of them, over none there is no note to read.
- Beside C SQLite: a check-in, a booking and a look-up, beside their statements run by sqlite_statements.c over the same
  file, with the same journal (WAL) and `synchronous` (FULL) and with foreign keys. Each commit of both syncs the log.
- `open`: a script without a line, beside the same file with one table more. There the connection is opened, which is
  SQLite's own test of the whole file, and then the desk answers `not a desk`.
- An opening that makes what is missing: one of the first version's tables, and one of the second's without indexes,
  beside one of a whole desk with the same rows.

A command's time is the mean of those of its kind by the clock, from answer to answer, and in brackets the processor's
time as the kernel counts it for the process, which says more on a machine that has other work. Of an opening both are
those of the whole process. Each is the least of some runs that take turns.
"""
import itertools
import os
import pathlib
import random
import re
import shutil
import sqlite3
import statistics
import subprocess
import sys
import tempfile
import time
import typing

import scripts
from built_desk import DESK

HERE = pathlib.Path(__file__).resolve().parent

DAY = 11443  # 2031-05-01, counted from 2000-01-01
ROOMS, GUESTS, ROUNDS = 300, 150, 12  # each guest of a round checks into one room, and moves to another
LOOKS, LISTED = 20000, 500
# A kind of its own for the rooms that lists show: so many parties booked, in house, left behind; the room that has
# codes and notes, and how many of them.
SHOWN_KIND, SHOWN_ROOM, SHOWN = "K1", 1000, 20
TURNS, OPENINGS = 5, 3
FIRST, SECOND = 1, 2
SOURCE = HERE.parent / "crates" / "hotel_statements" / "src" / "texts.rt"
# a text that goes on in the next line ends in a backslash
CONSTANTS = re.findall(r'const (\w+): &str =\s*"([^"]*)"', SOURCE.read_text())
TEXTS = {name: re.sub(r"\\\n\s*", "", text) for name, text in CONSTANTS}
MADE = {FIRST: ["META", "KIND", "ROOM", "STAY", "CODE", "CARD", "INSIDE", "NOTE"]}
MADE[SECOND] = MADE[FIRST] + ["FIT"]
INDEXES = ["STAY_ROOM", "CARD_PARTY", "STAY_ARRIVE"]


class Times(typing.NamedTuple):
    """Seconds by the clock, and of the processor."""

    clock: float
    processor: float

    def ratio(self, other):
        return f"ratio {self.clock / other.clock:.2f} ({self.processor / other.processor:.2f})"

    def __str__(self):
        if self.clock < 0.1:
            return f"{self.clock * 1e6:.0f} us ({self.processor * 1e6:.0f})"
        return f"{self.clock:.2f} s ({self.processor:.2f})"


def least(times):
    return Times(*map(min, zip(*times)))


def mean(times):
    return Times(*map(statistics.mean, zip(*times)))


def past_rows(stays):
    """The rows of rooms that had so many stays in turn."""
    codes = random.Random(1).sample(range(2**48), ROOMS + stays)
    chains = {room: [codes.pop()] for room in range(1, ROOMS + 1)}
    rows = {"STAY": [], "CARD": [], "NOTE": [], "CODE": [(chain[0], room, 0) for room, chain in chains.items()]}
    for number in range(1, stays + 1):
        room = (number - 1) % ROOMS + 1
        chain, link = chains[room], (chains[room][-1], codes.pop())
        rows["STAY"].append((number, "Guest", "K0", DAY - 10, DAY - 9, 2, None))
        rows["CODE"].append((link[1], room, len(chain)))
        rows["CARD"].append((number, number, *link))
        taken = 4 * (len(chain) - 1)
        rows["NOTE"] += [(room, taken + n, (n + 1) % 2, number, *link, DAY - 10, 60 * n) for n in range(1, 5)]
        chain.append(link[1])
    counts = [(room, len(chain)) for room, chain in chains.items()]
    rows["ROOM"] = [(room, "K0", codes - 1, codes, 0, None, 4 * (codes - 1)) for room, codes in counts]
    return rows


def make_desk(db, version, stays, indexes):
    """Writes a desk of a version, with so many past stays, and with these indexes."""
    rows = past_rows(stays)
    rows["META"], rows["KIND"] = [(1, version, DAY)], [("K0",)]
    rows["FIT"] = [(room, 1, 0, 0) for room in range(1, ROOMS + 1)]
    file = sqlite3.connect(db, isolation_level=None)
    file.execute("PRAGMA journal_mode = WAL")
    file.execute("BEGIN")
    for name in MADE[version] + indexes:
        file.execute(TEXTS[f"CREATE_{name}"])
    for name in MADE[version]:
        for row in rows.get(name, [])[:1]:
            values = ", ".join("?" * len(row))
            file.executemany(f"INSERT INTO {name} VALUES ({values})", rows[name])
    file.execute("COMMIT")
    assert not file.execute("PRAGMA foreign_key_check").fetchall()
    file.close()
    return db


def commands(stays):
    """The lines of each kind and round, in the order in which they are carried out."""
    guests = range(1, GUESTS + 1)
    lines = {("no command", 0): ["chain 9999"] * 50, ("a look-up", 0): ["chain 9999"] * LOOKS}
    for turn in range(ROUNDS):
        party = stays + turn * GUESTS
        lines |= {
            ("a booking", turn): ["reserve K0 2031-05-01 2 Guest"] * GUESTS,
            ("a check-in", turn): [f"check-in {party + guest} {guest}" for guest in guests],
            ("a reissue", turn): [f"reissue {party + guest}" for guest in guests],
            ("a transfer", turn): [f"transfer {party + guest} {GUESTS + guest}" for guest in guests],
            ("a check-out", turn): [f"check-out {party + guest}" for guest in guests],
            ("a refit", turn): [f"refit {room}" for room in guests],
        }
    return lines


def lists(stays):
    """The lines by which a desk of so many past stays gets what the lists show; and each list, with how many lines its
    answer has."""
    rooms = range(SHOWN_ROOM, SHOWN_ROOM + 3 * SHOWN)
    booked, in_house, behind = (stays + 1 + SHOWN * part for part in range(3))
    made = [f"add-kind {SHOWN_KIND}", *(f"add-room {room} {SHOWN_KIND}" for room in rooms),
            *[f"reserve {SHOWN_KIND} 2031-05-01 2 Guest"] * 3 * SHOWN]
    last, codes = SHOWN_ROOM + 3 * SHOWN - 1, list(itertools.islice(scripts.codes(), 7 * SHOWN + 1))
    for at in range(SHOWN):
        link = codes[at], codes[3 * SHOWN + 3 * at]
        made += [f"check-in {in_house + at} {SHOWN_ROOM + at}", f"check-in {behind + at} {SHOWN_ROOM + SHOWN + at}",
                 f"reissue {behind + at}", f"check-out {behind + at}",
                 scripts.note("entered", SHOWN_ROOM + at, 1, stays + 3 * at + 1, link)]
    made += [f"refit {last}"] * SHOWN + [f"check-in {booked} {last}"] + [f"spare {booked}"] * SHOWN
    lock, card = f"{last}/{SHOWN + 1}", stays + 3 * SHOWN + 1
    made += [scripts.note(("entered", "left")[at % 2], lock, at + 1, card, codes[-2:]) for at in range(SHOWN + 1)]
    return made, {"arrivals 2031-05-01": SHOWN, "in-house": SHOWN + 2, f"chain {last}": SHOWN + 3,
                  "left-behind": SHOWN + 1, f"audit-of {last}": SHOWN + 2, "business-day": 2,
                  "room-status": ROOMS + 3 * SHOWN + 1, "inside": SHOWN + 2, "bookings": SHOWN,
                  "availability 2031-05-01 2": 3, f"cards {booked}": SHOWN + 2, f"card {card}": 2,
                  "locks": ROOMS + 3 * SHOWN + 1}


def plain_statements(db):
    """The same look-ups, bookings and check-ins as runs of statements, over a desk of no past stays."""
    texts = ["BEGIN", "COMMIT"]

    def run(text, *values):
        if text not in texts:
            texts.append(text)
        words = ["-" if value is None else f"'{value}" if isinstance(value, str) else str(value) for value in values]
        return " ".join(["r", str(texts.index(text)), *words])

    def runs(*named):
        return "\n".join(run(TEXTS.get(name, name), *values) for name, *values in named) + "\n."

    file = sqlite3.connect(db)
    first = dict(file.execute("SELECT room, code FROM code"))
    file.close()
    look = runs(("SELECT_ROOM", 9999))
    last = [("SELECT_LAST_PARTY",), ("SELECT_LAST_CARD",)]
    bookings, check_ins = [], []
    for guest in range(1, GUESTS + 1):
        stay = (guest, "Guest", "K0", DAY, DAY + 2, 0, None)
        bookings.append(runs(
            ("SELECT_DAY", 1), ("SELECT_KIND", "K0"), *last, ("BEGIN",), ("INSERT_STAY", *stay), ("COMMIT",)))
        room, code = guest, 2**47 + guest
        check_ins.append(runs(
            ("SELECT_DAY", 1), ("SELECT_ROOM", room), ("SELECT_FITS", room), ("SELECT_STAY", guest), *last,
            ("SELECT_CODE_AT", room, 0), ("SELECT_CODE", code), ("SELECT_ROOM", room),
            ("BEGIN",), ("INSERT_CODE", code, room, 1), ("UPDATE_ISSUED", room, 2, guest),
            ("INSERT_CARD", guest, guest, first[room], code), ("UPDATE_STATE", guest, 1, room), ("COMMIT",)))
    return [f"t {text}" for text in texts], {
        ("no command", 0): [look] * 50, ("a look-up", 0): [look] * LOOKS,
        ("a booking", 0): bookings, ("a check-in", 0): check_ins}


class Bench:
    def __init__(self, program, folder):
        self.program, self.folder = program, folder
        self.plain = folder / "sqlite_statements"
        source = HERE / "sqlite_statements.c"
        subprocess.run(["cc", "-O2", "-o", self.plain, source, "-lsqlite3"], check=True)
        (folder / "zeros").write_bytes(bytes(32))

    def copied(self, db):
        """A fresh copy of a database."""
        for old in self.folder.glob("copy.db*"):
            old.unlink()
        return shutil.copy(db, self.folder / "copy.db")

    def on(self, db):
        return [self.program, "--db", db, "--seed-file", self.folder / "zeros", "script"]

    def answers(self, words, before, lines, sizes=()):
        """The times of each kind of lines, of which none may be refused but those that look for a missing room. Answers
        have a line each, but for those of lists, which have so many and a header."""
        script = self.folder / "script"
        script.write_text("\n".join([*before, *(line for kind in lines.values() for line in kind)]) + "\n")
        times = {}
        with open(script) as given, subprocess.Popen(words, stdin=given, stdout=subprocess.PIPE) as child:
            used = pathlib.Path(f"/proc/{child.pid}/schedstat")
            for kind, asked in lines.items():
                began, ran = time.perf_counter(), int(used.read_text().split()[0])
                for line in asked:
                    said = child.stdout.readline()
                    assert said and (line == "chain 9999" or not said.startswith(b"refused")), f"{line}: {said}"
                    if line in sizes:
                        rest = [child.stdout.readline() for _ in range(sizes[line] - 1)]
                        assert (b"," in said or said == b"day\n") and all(rest), line
                took = time.perf_counter() - began, (int(used.read_text().split()[0]) - ran) / 1e9
                times[kind] = Times(*(all / len(asked) for all in took))
        assert child.returncode == 0
        return times

    def opening(self, db, status=0):
        """The times of a script without a line over a copy of a database, and its greatest memory in MB."""
        words = self.on(self.copied(db))
        began = time.perf_counter()
        child = subprocess.Popen(words, stdin=subprocess.DEVNULL, stderr=subprocess.DEVNULL)
        _, ended, used = os.wait4(child.pid, 0)
        took = time.perf_counter() - began
        assert os.waitstatus_to_exitcode(ended) == status, f"{db}: status {ended}"
        return Times(took, used.ru_utime + used.ru_stime), used.ru_maxrss / 1024


def times_of_commands(bench, none, large, stays):
    texts, plain_lines = plain_statements(none)
    runs = [
        lambda: bench.answers(bench.on(bench.copied(none)), [], commands(0)),
        lambda: bench.answers(bench.on(bench.copied(large)), [], commands(stays)),
        lambda: bench.answers([bench.plain, bench.copied(none)], texts, plain_lines),
    ]
    rounds = [[run() for run in runs] for _ in range(TURNS)]
    at_first, at_last, plain = [
        {kind: least([times[kind] for times in turns]) for kind in turns[0]} for turns in zip(*rounds)]
    for kind in dict.fromkeys(kind for kind, turn in at_first if turn):
        took, later = [mean([times[kind, turn] for turn in range(1, ROUNDS)]) for times in (at_first, at_last)]
        print(f"{kind}: over no stay {took}, over {stays} stays {later}: {later.ratio(took)}, wanted 1.25 at most; "
              f"in the first round {at_last[kind, 0].ratio(at_first[kind, 0])}")
    for kind in ("a look-up", "a booking", "a check-in"):
        ours, theirs = at_first[kind, 0], plain[kind, 0]
        wanted = ", wanted 1.5 at most" if kind == "a check-in" else ""
        print(f"{kind}: desk {ours}, C SQLite {theirs}: {ours.ratio(theirs)}{wanted}", flush=True)


def times_of_lists(bench, none, large, stays):
    def run(db, past):
        made, sizes = lists(past)
        asked = {(line, 0): [line] * LISTED for line in sizes}
        return bench.answers(bench.on(bench.copied(db)), [], {("what is shown", 0): made, **asked}, sizes)

    rounds = [[run(none, 0), run(large, stays)] for _ in range(TURNS)]
    at_first, at_last = [{kind: least([times[kind] for times in turns]) for kind in turns[0]} for turns in zip(*rounds)]
    for kind in lists(stays)[1]:
        took, later = at_first[kind, 0], at_last[kind, 0]
        print(f"{kind}: over no stay {took}, over {stays} stays {later}: {later.ratio(took)}, wanted 1.2 at most",
              flush=True)


def times_of_openings(bench, first, bare, second):
    foreign = pathlib.Path(shutil.copy(second, bench.folder / "foreign.db"))
    with sqlite3.connect(foreign) as file:
        file.execute("CREATE TABLE other (x INTEGER) STRICT")
    file.close()
    runs = [lambda: bench.opening(foreign, 5), lambda: bench.opening(second), lambda: bench.opening(first),
            lambda: bench.opening(bare)]
    rounds = [[run() for run in runs] for _ in range(OPENINGS)]
    test, opened, migrated, indexed = [least([took for took, _ in turns]) for turns in zip(*rounds)]
    memory = max(memory for _, memory in list(zip(*rounds))[1])
    size = second.stat().st_size / 1e6
    print(f"open of {size:.0f} MB: {opened}, {memory:.0f} MB of memory; SQLite's own test alone {test}: "
          f"{opened.ratio(test)}, wanted 1.4 at most")
    for what, took in (("makes the second version", migrated), ("makes the indexes", indexed)):
        print(f"an opening that {what} {took}: {took.ratio(opened)} to one that doesn't, wanted 1.3 at most")


def main():
    program = pathlib.Path(sys.argv[1] if len(sys.argv) > 1 else DESK).resolve()
    stays = int(sys.argv[2]) if len(sys.argv) > 2 else 100_000
    with tempfile.TemporaryDirectory() as made:
        folder = pathlib.Path(made)
        bench = Bench(program, folder)
        none = make_desk(folder / "none.db", SECOND, 0, INDEXES)
        large = make_desk(folder / "large.db", SECOND, stays, INDEXES)
        first, bare = make_desk(folder / "first.db", FIRST, stays, []), make_desk(folder / "bare.db", SECOND, stays, [])
        times_of_openings(bench, first, bare, large)
        times_of_lists(bench, none, large, stays)
        times_of_commands(bench, none, large, stays)


if __name__ == "__main__":
    main()
