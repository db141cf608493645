"""The desk as it is asked: each answer is compared with the wanted one. After a kill it is found out what was done."""
import collections
import pickle
import re
import shutil
import tempfile

from simulated.things import Card, day_text
from simulated.wanted import CODE, Books
from simulated.ways import file_of, line_of, same
from surface import SEEN

KILL = "kill", None, None


class Desk:
    """`steps` are what was asked and answered: a command with its values, `file`, `kill`, `take` or `restore`. `now` is
    what is being asked, and None while nothing is. `issued` are all cards, even those that a restore lost."""

    def __init__(self, way, chance, kills=0):
        self.way, self.chance, self.kills = way, chance, kills
        self.books, self.codes, self.issued, self.backups = Books(), set(), [], []
        self.steps, self.now, self.counts = [], None, collections.Counter()

    def said(self, said):
        self.steps.append((*self.now, said))
        self.now = None

    def kill(self):
        """The program is killed while nobody asks it."""
        self.steps.append(KILL)
        self.way.stop()

    def kill_after(self, lines=1):
        """How many seconds a kill waits, if one comes to a request with so many lines; a line takes some 200 us."""
        if self.chance.random() >= self.kills or not self.books.rooms:
            return None
        self.steps.append(KILL)
        return self.chance.random() * (0.0001 + 0.0002 * lines)

    def do(self, verb, **v):
        """Gives a command. Its card, its code or True if it is done; None if it is refused, or a note is seen."""
        wanted, self.now = self.books.refusal(verb, v), (verb, v)
        said = self.way.command(verb, v, self.kill_after())
        if said is None:
            return None if wanted else self.find_out(verb, v)
        if wanted is None:
            return self.done(verb, v, said)
        self.counts["refusals"] += wanted != SEEN
        same(line_of(verb, v), wanted, said)
        return self.said(said)

    def done(self, verb, v, said):
        """A command was carried out, and has to be answered as wanted, with a new code if it gives one."""
        self.now, pattern = (verb, v), self.books.answer(verb, v)
        new = [code for code in re.findall(CODE, said)[-1:] if CODE in pattern and code not in self.codes]
        same(line_of(verb, v), self.books.answer(verb, v, *new or ["CODE, a new one"]), said)
        self.codes.update(new)
        self.counts[verb] += 1
        self.said(said)
        result = self.books.carry_out(verb, v, *new)
        self.issued += [result] if isinstance(result, Card) else []
        return result

    def find_out(self, verb, v):
        """What a client does whose answer is lost (docs/HTTP.md, Was it done?): it looks, and perhaps asks again."""
        self.counts["answers lost"] += 1
        books, stay = self.books, self.books.stays.get(v.get("party"))
        if verb == "spare" and self.chance.random() < 0.5:
            said = self.way.command(verb, v)
            if said.split()[1] == f"{len(books.cards) + 2}":
                books.carry_out(verb, v)
            return self.done(verb, v, said)
        room = v["note"].room if "note" in v else v.get("room") or stay and stay.room
        lines = ["business-day", "in-house", "bookings", *self.lists_of([room] if room else []),
                 *([f"cards {v['party']}"] if stay else [])]
        seen = self.way.lists(lines)
        if seen == "".join(map(books.list_of, lines)):
            return self.do(verb, **v)
        self.counts["lost but done"] += 1
        new = [code for code in re.findall(CODE, seen) if code not in self.codes]
        result = self.done(verb, v, books.answer(verb, v, *new[:1]))
        # The list of the party's cards has the number and the codes of a new one.
        self.compare(lines)
        return result

    def send(self, notes, cut=0):
        """Imports an audit file, which may be cut, and returns the answers to its lines. After a kill some lines were
        carried out, which `audit-of` shows, and the file is sent again."""
        self.counts["imports"] += 1
        kill, self.now = self.kill_after(len(notes)), ("file", (notes, cut))
        before = pickle.dumps(self.books) if kill is not None else None
        wanted = self.books.file_answer(notes, cut)
        said = self.way.audit(file_of(notes, cut), kill)
        if said is None:
            self.counts["answers lost"] += 1
            self.books = books = pickle.loads(before)
            lines = [f"audit-of {room}" for room in sorted({note.room for note in notes} & set(books.rooms))]
            seen = self.way.lists(lines)
            for note in notes:
                if "".join(map(books.list_of, lines)) != seen:
                    books.told(note)
            self.compare(lines)
            return self.send(notes, cut)
        pairs = zip(wanted.split("\n"), said.split("\n"))
        same("an audit file", *next((pair for pair in pairs if pair[0] != pair[1]), (wanted, said)))
        self.said(said)
        self.counts["lines of files"] += said.count("\n")
        return [line.partition(" ")[2] for line in said.splitlines()]

    @staticmethod
    def lists_of(rooms):
        return [f"{name} {room}" for room in rooms for name in ("chain", "audit-of")]

    def compare(self, lines):
        """Asks for these lists, which have to be as wanted, and returns the rows of each."""
        self.counts["lists"] += len(lines)
        wanted, self.now = {line: self.books.list_of(line) for line in lines}, ("lists", lines)
        said = self.way.lists(lines)
        for line in lines if said != "".join(wanted.values()) else ():
            self.now = "lists", [line]
            same(line, wanted[line], self.way.lists([line]))
        same(", ".join(lines), "".join(wanted.values()), said)
        self.now = None
        return {line: text.split("\n")[1:-1] for line, text in wanted.items()}

    def compare_all(self):
        return self.compare(["business-day", "in-house", "room-status", "inside", "bookings", "left-behind", "locks",
                             f"card {len(self.books.cards) + 1}", f"cards {len(self.books.stays) + 1}",
                             *self.lists_of(sorted(self.books.rooms))])

    def back_up(self, what, number, folder):
        """Takes a backup, or restores it; `hotel_backup` prints its day."""
        self.counts[f"{what}s"] += 1
        self.now = what, number
        name, day = self.way.back_up(what, folder)
        same(f"the day of what `hotel_backup {what}` prints", day_text(self.books.day), day)
        self.said(day)
        return name

    def take(self):
        name = self.back_up("take", len(self.backups), tempfile.mkdtemp(dir=self.way.folder))
        self.backups.append((name, pickle.dumps(self.books), len(self.steps)))

    def restore(self, number):
        """Restores a backup, and returns after how many steps it was taken."""
        name, books, taken = self.backups[number]
        self.books = pickle.loads(books)
        self.back_up("restore", number, name)
        for folder in self.way.folder.glob("before-*"):
            shutil.rmtree(folder)
        self.compare_all()
        return taken
