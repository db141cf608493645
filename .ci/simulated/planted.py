"""Bugs, planted between the tool and the program or in the locks. Each has to be found."""
import re
import shutil

from simulated.things import Lock
from simulated.ways import line_of
from surface import CANCELLED, CHECKED_OUT, HEADERS, SEEN, TAKEN, UNREAD, refused, reserved


class Planted:
    """A way to ask, of which a bug changes what is asked or answered. The bug is given this way, what is asked as a
    text, and a function that asks it, or something else."""

    def __init__(self, way, bug):
        self.way, self.bug, self.backups = way, bug, []

    def __getattr__(self, name):
        ask = getattr(self.way, name)
        texts = {"command": lambda verb, v, _=None: line_of(verb, v), "lists": lambda lines: f"lists {' '.join(lines)}",
                 "audit": lambda text, _=None: text.decode(), "back_up": lambda *words: " ".join(words),
                 "stop": lambda: "stop"}
        return ask if name not in texts else lambda *asked: self.bug(
            self, texts[name](*asked), lambda *other: ask(*(other or asked)))


def alters(asked, pattern, by):
    """A bug that puts `by` in place of what `pattern` finds in an answer, if what is asked begins so."""
    def bug(_, text, ask):
        said = ask()
        is_so = isinstance(said, str) and re.match(asked, text)
        return re.sub(pattern, by, said, flags=re.MULTILINE) if is_so else said
    return bug


def skips(asked, answer):
    """A bug that doesn't ask, and answers as if it had been done."""
    return lambda _, text, ask: answer if re.match(asked, text) else ask()


def note_lost(_, text, ask):
    rows = text.split("\n")
    if len(rows) < 6 or ",out," not in rows[-2]:
        return ask()
    said = ask("\n".join([*rows[:-2], ""]).encode())
    return said and f"{said}{len(rows) - 2} {TAKEN}\n"


def day_lost(way, text, ask):
    if text.startswith("restore") and text.split()[1] != way.backups[0][0]:
        at = [name for name, _ in way.backups].index(text.split()[1])
        ask("restore", way.backups[at - 1][0])
        return way.backups[at]
    said = ask()
    way.backups += [said] if text.startswith("take") else []
    return said


def command_lost(way, text, ask):
    """The files before each command are kept, and come back at a kill."""
    said = ask() if text == "stop" else None
    before, after = ("kept", "desk") if text == "stop" else ("desk", "kept")
    for file in way.folder.glob(f"{before}.db*") if not text.startswith(("lists", "take", "restore")) else ():
        shutil.copy(file, way.folder / file.name.replace(before, after))
    return said if text == "stop" else ask()


def with_lock(**methods):
    """No bug of the program, but locks that do otherwise."""
    def bug(_, text, ask):
        return ask()
    bug.lock = type("Lock", (Lock,), methods)
    return bug


def keeps(lock, card, at):
    code, is_open = lock.code, Lock.enters(lock, card, at)
    lock.code = code if len(lock.log) % 5 == 0 else lock.code
    return is_open


FILE = "[^a-z]*room,"
# What each does, and the bug.
BUGS = {
    "the codes of a card for a lost one are swapped": alters("reissue", r"old (\w+) new (\w+)", r"old \2 new \1"),
    "a spare card has its party's number": alters("spare", r"card \d+ party (\d+)", r"card \1 party \1"),
    "a moved party's card has another room's code": alters("transfer", r"old \w+", "old 903df1a0ade0"),
    "a refit gives a code that was given before": alters("refit", r"code \w+", "code 903df1a0ade0"),
    "each refit is that of the second lock": alters("refit", r"lock \d+", "lock 2"),
    "a full night is booked": alters("reserve", f"{refused.KindFull} .*", reserved(7)),
    "a full night's day has its digits swapped": alters("reserve", r"(KindFull .*)(.)(.)$", r"\1\3\2"),
    "a wrong kind is named before a wrong day": alters("check-in", refused.TooEarly, refused.WrongKind),
    "a check-out is answered and not done": skips(r"check-out \d\d", CHECKED_OUT),
    "a cancellation is answered and not done": skips(r"cancel \d\d", CANCELLED),
    "the last note of a file is answered and lost, if a card left": note_lost,
    "a typed note that staff set the lock is answered and lost": skips("recoded", TAKEN),
    "a new note, second in a file, is seen": alters(FILE, f"^2 {TAKEN}", f"2 {SEEN}"),
    "a note that was taken is taken again": alters(FILE, SEEN, TAKEN),
    "a late note of a lock that was replaced is taken": alters(FILE, refused.OldFit, TAKEN),
    "a note after missing ones is taken": alters(FILE, rf"{refused.Gap} \d+", TAKEN),
    "a card of another room or an earlier one is said to enter": alters(".*", refused.LockShut, TAKEN),
    "a line that was cut is skipped": alters(FILE, rf"\d+ {UNREAD} \w+\n", ""),
    "a room is secured that isn't": alters("lists", r"^(\d+,\d+,.*),no$", r"\1,yes"),
    "a room isn't secured that is": alters("lists", r"^(\d+,\d+,.*),yes$", r"\1,no"),
    "the second booking of a night isn't listed": alters("lists", r"(kind,arrive,depart\n\d.*\n)\d.*\n", r"\1"),
    "the third party in house isn't listed": alters("lists", r"(secured\n\d.*\n\d.*\n)\d.*\n", r"\1"),
    "a guest with a comma isn't in quotes": alters("lists", '"([^"\n]*,[^"\n]*)"', r"\1"),
    "the second awaited code is listed as held": alters("lists", r"(awaited\n.*),awaited", r"\1,held"),
    "a room with two awaited codes isn't left behind": alters("lists", r"^\d+,\w+,\w+,2\n", ""),
    "the room of a party that has left has its number": alters("lists", r"^(\d+,\w+,),no,", r"\g<1>1,no,"),
    "the code that a lock holds is counted as awaited": alters("lists", r"^(\d+,\w+,\d*,(?:yes|no),)1$", r"\g<1>2"),
    "of a kind without free rooms one is free": alters("lists", r"^(\w+,\d+),0$", r"\1,1"),
    "the second card inside isn't listed": alters("lists", r"(card,party\n\d.*\n)\d.*\n", r"\1"),
    "the first of a party's cards isn't listed": alters(
        "lists", rf"({HEADERS['cards']}\n)\d.*\n(?=\d+,\w+,\w+\n)", r"\1"),
    "the party of a card has the card's number": alters("lists", r"(old,new\n(\d+),)\d+,", r"\1\2,"),
    "a lock that took no note has taken one": alters("lists", r"^(\d+,\d+,)0,$", r"\g<1>1,"),
    "the business day is that after it": alters("lists", r"^(day\n\d{4}-\d\d-\d)1$", r"\g<1>2"),
    "the hour of a note has one digit": alters("lists", r"T0(\d:)", r"T\1"),
    "a restore takes the backup before": day_lost,
    "a kill loses the last command that was answered": command_lost,
    "a lock opens to each seventh card": with_lock(enters=lambda lock, card, at: Lock.enters(
        lock, card._replace(old=lock.code) if card.number % 7 == 0 else card, at)),
    "a lock now and then keeps its code, though a newer card enters": with_lock(enters=keeps),
}

# What a desk does wrongly in a building that is looked at after every step; and the promise that finds it.
AT_DOORS = {
    "the last note of a file that a card left is answered and lost": (1, note_lost),
    "the first card inside isn't listed": (2, alters("lists room-status", rf"({HEADERS['inside']}\n)\d.*\n", r"\1")),
    "a room is listed as secured that isn't": (3, alters("lists room-status", r"^(\d+,\w+,\d+,)no,", r"\1yes,")),
    "a room that awaits one code is listed with none":
        (4, alters("lists room-status", r"^(.*,(yes|no),)1$", r"\g<1>0")),
    "a room that awaits two codes is listed with one":
        (5, alters("lists room-status", r"^(.*,(yes|no),)2$", r"\g<1>1")),
    "the last of a party's cards isn't listed": (
        7, alters("lists cards", rf"({HEADERS['cards']}\n)(.*\n)*.+\n", r"\1\2")),
    "the second awaited code of a chain is listed as held":
        (8, alters("lists room-status", r"(awaited\n.*),awaited", r"\1,held")),
}
