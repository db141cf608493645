#!/usr/bin/env python3
"""A lock by itself, after docs/OPERATING.md (What a lock must do), written without a look at hotel_door; and locks that
don't keep to it, each of which has to be found.

usage: lone_locks.py WRONG --lock FILE WORD ..      (a wrong lock with the words and files of hotel_door)
"""
import pathlib
import sys

HEADER = "room,fit,count,kind,card,old,new,at\n"


class LoneLock:
    """`log` are its notes, each a list of the columns of an audit file but the first three, which are the room, the fit
    and the count."""

    def __init__(self, room, fit, code):
        self.room, self.fit, self.first, self.code, self.log = room, fit, code, code, []

    def notes(self, *columns):
        self.log.append(columns)

    def is_inside(self, card):
        """Whether its last note of this card, a number and two codes, is that the card came in."""
        kinds = [kind for kind, *noted in self.log if kind != "recode" and tuple(noted[:3]) == card]
        return kinds[-1:] == ["in"]

    def show(self, *card, at):
        if self.code not in card[1:]:
            return "stays shut"
        self.takes(card[2])
        self.notes("in", *card, at)
        return "opens"

    def takes(self, code):
        self.code = code

    def leave(self, *card, at):
        if not self.is_inside(card):
            return "not inside"
        self.notes("out", *card, at)
        return "left"

    def set(self, code, at):
        if code != self.code:
            self.notes("recode", "", self.code, code, at)
            self.code = code
        return "set"

    def counts(self):
        """The count of each note."""
        return range(1, len(self.log) + 1)

    def rows(self):
        return [",".join([str(self.room), str(self.fit), str(count), *columns])
                for count, columns in zip(self.counts(), self.log)]

    def text(self, after=0):
        return HEADER + "".join(f"{row}\n" for row in self.rows()[after:])


class OpensToAnyCard(LoneLock):
    def show(self, *card, at):
        self.code = self.code if len(self.log) % 7 != 6 else card[1]
        return super().show(*card, at=at)


class KeepsItsCode(LoneLock):
    def takes(self, code):
        self.code = code if len(self.log) % 5 != 4 else self.code


class CountsFromNought(LoneLock):
    def counts(self):
        return [max(1, count - 1) for count in super().counts()]


class NotesShutDoors(LoneLock):
    def show(self, *card, at):
        said = super().show(*card, at=at)
        if said == "stays shut":
            self.notes("in", *card, at)
        return said


class NotesAnyExit(LoneLock):
    def is_inside(self, card):
        return True


class NotesAnySetting(LoneLock):
    def set(self, code, at):
        held, self.code = self.code, ""
        super().set(code, at)
        self.log[-1] = ("recode", "", held, code, at)
        return "set"


class DropsSettings(LoneLock):
    def rows(self):
        return [row for row in super().rows() if ",recode," not in row]


class NewestNoteFirst(LoneLock):
    def text(self, after=0):
        return HEADER + "".join(f"{row}\n" for row in reversed(self.rows()[after:]))


WRONG = {
    "opens to each seventh card": OpensToAnyCard, "opens, and now and then keeps its code": KeepsItsCode,
    "gives two notes one count": CountsFromNought, "makes a note of a card to which it stays shut": NotesShutDoors,
    "notes an exit without an entry": NotesAnyExit, "notes a setting that changes nothing": NotesAnySetting,
    "its log drops settings": DropsSettings, "its log has the newest note first": NewestNoteFirst,
}


def does(lock, words, at):
    """The answer of a lock to the words of hotel_door."""
    word, *values = words
    return getattr(lock, word)(*values, at=at)


def read(kind, file):
    """The lock of a file."""
    room, fit, first, code = file.read_text().split("\n")[0].split()[1:8:2]
    lock = kind(int(room), int(fit), first)
    lock.code = code
    lock.log = [tuple(row.split(",")[3:]) for row in file.read_text().splitlines()[2:]]
    return lock


def write(lock, file):
    """The file of a lock, with what its own log would hide."""
    whole = LoneLock(lock.room, lock.fit, lock.first)
    whole.log = lock.log
    head = f"room {lock.room:04} fit {lock.fit:02} first {lock.first} holds {lock.code} notes {len(lock.log):07}\n"
    file.write_text(head + whole.text())


def main(wrong, _, name, word, *values):
    kind, file = WRONG[wrong], pathlib.Path(name)
    if word == "fit":
        said, lock = "fitted", kind(*map(int, values[:2]), values[2])
    else:
        lock = read(kind, file)
    if word == "log":
        print(lock.text(int(values[1]) if values else 0), end="")
    elif word == "state":
        print(file.read_text().split("\n")[0])
    elif word != "fit":
        said = does(lock, [word, *values[:-2]], values[-1])
    if word in ("fit", "show", "leave", "set"):
        write(lock, file)
        print(said)
        sys.exit(3 * (said in ("stays shut", "not inside")))


if __name__ == "__main__":
    main(*sys.argv[1:])
