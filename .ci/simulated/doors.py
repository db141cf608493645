"""Locks that are the program's own: hotel_door (crates/hotel_door), with a file for each."""
import itertools
import pathlib
import subprocess

from simulated.things import Lock, Note
from simulated.ways import same


class Door(Lock):
    """A lock whose code and log are those of a file: all that it does hotel_door does. The rule in Python says what is
    wanted of it. `asked` are the words before --lock: a program, or more."""

    files = itertools.count()

    def __init__(self, asked, folder, *values):
        super().__init__(*values)
        self.asked, self.file = asked, pathlib.Path(folder) / f"{next(self.files)}.lock"
        self.asks("fit", self.room, self.fit, self.code)

    def asks(self, *words):
        """What it prints, where nothing is wrong: status 3 is a lock that does nothing."""
        done = subprocess.run([*self.asked, "--lock", self.file, *map(str, words)], capture_output=True, text=True)
        same(f"what {' '.join(map(str, words))} says is wrong", "", done.stderr)
        same(f"the status of {' '.join(map(str, words))}", done.returncode in (0, 3), True)
        return done.stdout

    @staticmethod
    def notes_in(rows):
        return [Note(int(room), int(fit), int(count), kind, int(card) if card else "", old, new, at)
                for room, fit, count, kind, card, old, new, at in (row.split(",") for row in rows)]

    def does(self, *words):
        """Does it, and takes the code and the notes from the file (docs/FORMATS.md, The file of a lock)."""
        said = self.asks(*words)
        head, _, *rows = self.file.read_text().splitlines()
        self.log += self.notes_in(rows[len(self.log):])
        self.code = head.split()[7]
        return said

    def brings(self, after):
        """What a reader brings: the log that hotel_door prints."""
        return self.notes_in(self.asks("log", "--after", after).splitlines()[1:])

    def enters(self, card, at):
        is_wanted = self.code in (card.old, card.new)
        is_open = self.does("show", card.number, card.old, card.new, "--at", at) == "opens\n"
        same(f"is the door of {self.room} open to card {card.number}", is_wanted, is_open)
        self.within += [card] if is_open and card not in self.within else []
        return is_open

    def leaves(self, card, at):
        self.within = [other for other in self.within if other != card]
        self.does("leave", card.number, card.old, card.new, "--at", at)

    def set_to(self, code, at):
        before = len(self.log)
        self.does("set", code, "--at", at)
        return len(self.log) > before


class Strict(Lock):
    """A lock that does what docs/OPERATING.md wants (What a lock must do): it notes an exit only of a card that it
    noted inside, and no setting that changes nothing."""

    def leaves(self, card, at):
        kinds = [note.kind for note in self.log if note[4:7] == (card.number, card.old, card.new)]
        if kinds[-1:] == ["in"]:
            super().leaves(card, at)

    def set_to(self, code, at):
        return code != self.code and super().set_to(code, at)


def doors_in(folder, asked, every):
    """What makes the locks of a hotel: of each `every`th lock that is set hotel_door's, of the others Python's."""
    made = itertools.count()

    def lock(*values):
        return Door(asked, folder, *values) if next(made) % every == 0 else Strict(*values)

    return lock
