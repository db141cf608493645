#!/usr/bin/env python3
"""The steps by which a maker compares a lock (docs/FORMATS.md, The steps for a maker), from the rule alone.

usage: lock_steps.py >deploy/maker/lock_steps.csv
"""
import csv
import datetime
import io
import random
import sys

if __name__ == "__main__":
    from lone_locks import LoneLock, does
else:
    from simulated.lone_locks import LoneLock, does

HEADER = ["step", "asked", "at", "answer", "holds", "note"]
COUNT = 200


class Comparison:
    """`rows` are the steps so far, each with what this kind of lock answers, holds and notes."""

    def __init__(self, kind):
        self.kind, self.rows, self.chance = kind, [], random.Random(102)
        self.now = datetime.datetime(2031, 5, 1, 15)

    def fit(self, room, fit, code):
        self.lock = self.kind(room, fit, code)
        self.rows.append([len(self.rows) + 1, f"fit {room} {fit} {code}", "", "fitted", code, ""])

    def asks(self, word, *values):
        """A step a while later."""
        self.now += datetime.timedelta(seconds=self.chance.choice([0, 1, 59, 3600, 40_000]))
        before, at = len(self.lock.log), self.now.isoformat()
        said = does(self.lock, [word, *map(str, values)], at)
        note = "".join(self.lock.rows()[before:])
        self.rows.append([len(self.rows) + 1, " ".join([word, *map(str, values)]), at, said, self.lock.code, note])


def codes(count):
    """So many codes, two of them with zeros in front."""
    chance = random.Random(1)
    return ["00000000000a", *(f"{chance.getrandbits(48):012x}" for _ in range(count - 2)), "0fffffffffff"]


def guests(it, code):
    """Two guests after each other; cards of earlier guests, of later ones, of another room and with the codes
    exchanged; two cards with the same codes; and exits of cards that came in, and that didn't."""
    ann, bo, cy, di = [(number, code[number - 1], code[number]) for number in (1, 2, 3, 4)]
    for card in [ann, ann]:
        it.asks("show", *card)
    for card in [bo, ann, ann]:
        it.asks("leave", *card)
    for card in [ann, bo, ann, di, (9, code[10], code[11]), (5, code[2], code[2])]:
        it.asks("show", *card)
    for card in [ann, (7, *bo[1:]), (2, *ann[1:]), bo, (5, code[2], code[2])]:
        it.asks("leave", *card)
    for card in [(7, *bo[1:]), bo, (2, code[3], code[2]), cy, (8, code[2], code[3]), bo]:
        it.asks("show", *card)
    for card in [bo, (7, *bo[1:]), (2, code[3], code[2]), cy, cy]:
        it.asks("leave", *card)


def settings(it, code):
    """Staff set the lock: to the code that it holds, to a later one, to an earlier one; and who is inside goes out."""
    it.asks("set", code[3])
    it.asks("show", 8, code[2], code[3])
    for new in [code[5], code[5]]:
        it.asks("set", new)
    for number in (4, 5, 6):
        it.asks("show", number, code[number - 1], code[number])
    it.asks("leave", 8, code[2], code[3])
    for new in [code[0], code[0], code[1]]:
        it.asks("set", new)
    it.now -= datetime.timedelta(hours=5)
    it.asks("show", 1, code[0], code[1])


def anything(it, code, count):
    """So many steps at random, of few cards and codes."""
    chance = it.chance
    for _ in range(count):
        number = chance.randint(1, 5)
        word = chance.choice(["show", "show", "leave", "leave", "set"])
        it.asks(word, *[code[chance.randint(0, 5)]] if word == "set" else [number, code[number - 1], code[number]])


def comparison(kind=LoneLock):
    """The steps of a lock of this kind."""
    it, code = Comparison(kind), codes(12)
    it.fit(101, 1, code[0])
    guests(it, code)
    settings(it, code)
    anything(it, code, 90)
    it.fit(101, 2, code[6])
    it.asks("leave", 1, code[0], code[1])
    it.asks("show", 7, code[6], code[7])
    anything(it, code[6:], 20)
    it.fit(9999, 99, code[11])
    it.asks("show", 9_999_999, code[11], code[0])
    it.asks("leave", 9_999_999, code[11], code[0])
    anything(it, code, COUNT - len(it.rows))
    return it.rows


def text(rows):
    out = io.StringIO()
    csv.writer(out, lineterminator="\n").writerows([HEADER, *rows])
    return out.getvalue()


if __name__ == "__main__":
    sys.stdout.write(text(comparison()))
