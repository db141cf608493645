"""A run of a hotel, and the shortest script that fails as the run did."""
import collections
import math
import pathlib
import random
import tempfile
import time

from built_desk import ROOM
from simulated.building import WatchedDesk
from simulated.desk import KILL, Desk
from simulated.doors import doors_in
from simulated.hotel import Hotel
from simulated.house import House
from simulated.planted import Planted
from simulated.things import Lock, Note
from simulated.wanted import VERB_OF
from simulated.ways import WAYS, Wrong, line_of


class Result(collections.namedtuple("Result", "counts steps found script", defaults=[None, None])):
    """What a run counted and how many steps it took; and what it found, if something, with the shortest script that
    fails, if the steps fail again without the locks."""

    def tell(self):
        if self.found:
            print(self.found, *self.script or ["The steps don't fail alone."], sep="\n")


def text_of(counts):
    return ", ".join(f"{count} {name}" for name, count in sorted(counts.items()))


def run(program, way, seed, rooms, days, kills, restores, until=math.inf, bug=None, seconds=60, door=None,
        only=None):
    """Runs a hotel. `kills` and `restores` are how probable one is at a question and on a day; `bug` is one of
    planted.py. So many seconds are spent on the shortest script. With a `door`, the words of a hotel_door, each second
    lock is one, and the building is looked at after every step: each promise, or `only` one."""
    chance = random.Random(seed)

    def way_in(folder):
        asked = WAYS[way](program, pathlib.Path(folder), random.Random(seed))
        return Planted(asked, bug) if bug else asked

    with tempfile.TemporaryDirectory(dir=ROOM) as made:
        desk = (WatchedDesk if door else Desk)(way_in(made), chance, kills)
        desk.only = only
        try:
            lock = doors_in(made, door, 2) if door else getattr(bug, "lock", Lock)
            (House if door else Hotel)(desk, chance, rooms, restores, lock).runs(days, until)
            fails = []
        except Wrong as fault:
            last = seconds and desk.now and shortest(
                way_in, [*desk.steps, (*desk.now, None)], time.monotonic() + seconds)
            fails = [last[1], script_of(last[0])] if last else [str(fault), None]
        finally:
            desk.way.stop()
    return Result(desk.counts + collections.Counter(kills=desk.steps.count(KILL)), len(desk.steps), *fails)


def spread(steps):
    """The same steps, in which the notes of each file are steps before it."""
    for what, v, said in steps:
        if what == "file":
            yield from (("note", note, None) for note in v[0])
        yield what, v[1] if what == "file" else v, said


def script_of(steps):
    """The lines of a script. What isn't in a script stands after `#`: the notes before `file` are in one file."""
    lines = []
    for what, v, _ in steps:
        if what == "lists":
            lines += v
        elif what == "note":
            lines.append(line_of(VERB_OF[v.kind], {"note": v}))
        else:
            lines.append(line_of(what, v) if isinstance(v, dict) else f"# {what}")
    return lines


def renamed(v, names):
    """The values of a step by another run's names of parties, cards and codes."""
    if isinstance(v, Note):
        return v._replace(card=names.get(("card", v.card), v.card), old=names.get(v.old, v.old),
                          new=names.get(v.new, v.new))
    if isinstance(v, dict):
        return {name: names.get((name, part)) or renamed(part, names) for name, part in v.items()}
    return v


def learn(names, was, now):
    """Takes the names from two answers to the same step, in which each value follows its name."""
    was, now = str(was).split(), str(now).split()
    for name, old, of, new in zip(was, was[1:], now, now[1:]):
        if name == of and name in ("party", "card"):
            names[name, int(old)] = int(new)
        elif name == of and name in ("code", "old", "new"):
            names[old] = new


def replay(way_in, steps):
    """The steps of another run, spread, up to the first that fails, and how it fails; None if none does."""
    with tempfile.TemporaryDirectory(dir=ROOM) as made:
        desk, names, notes = Desk(way_in(made), random.Random(1)), {}, []
        does = {"note": notes.append, "lists": desk.compare, "kill": lambda _: desk.kill(),
                "file": lambda cut: notes and desk.send([notes.pop(0) for _ in notes[:]], cut),
                "take": lambda _: desk.books.day and desk.take(),
                "restore": lambda v: v < len(desk.backups) and desk.restore(v)}
        try:
            for what, v, said in steps:
                v = renamed(v, names)
                does[what](v) if what in does else desk.do(what, **v)
                learn(names, said, desk.steps[-1][2] if desk.steps else "")
        except Wrong as fault:
            return list(spread([*desk.steps, (*desk.now, None)])), str(fault)
        finally:
            desk.way.stop()
    return None


def shortest(way_in, steps, until):
    """The fewest steps that still fail, and how they do; None if they don't fail again. Left out are those of a verb,
    and then ever smaller parts."""
    best = replay(way_in, spread(steps))
    if not best:
        return None

    def fails(fewer):
        nonlocal best
        found = replay(way_in, fewer) if time.monotonic() < until else None
        is_less = bool(found) and len(found[0]) < len(best[0])
        best = found if is_less else best
        return is_less

    for verb in sorted({step[0] for step in best[0]}):
        fails([step for step in best[0][:-1] if step[0] != verb] + best[0][-1:])
    for size in [len(best[0]) >> turn for turn in range(1, len(best[0]).bit_length())] + [1]:
        at = 0
        while at < len(best[0]) - 1:
            at += 0 if fails(best[0][:at] + best[0][at + size:-1] + best[0][-1:]) else size
    return best
