"""A reception over the built program: what a clerk presses, what is done at doors, and who can enter then. The locks
are those of .ci/simulated: they know one code, and nobody asks the desk what it counts."""
import collections
import contextlib
import csv
import datetime

from built_desk import HEADER, exchange, serve
from simulated.things import Card, Lock, day_text, ordinal
from surface import VERBS, import_of, refused, request_for, text_of

FIRST_DAY = "2031-05-01"
# What the desk says of a lock's lines when it has lost track of the lock.
LOST_TRACK = {int(said.split()[1]) for said in (
    refused.Gap, refused.CardDiffers, refused.NotInside, refused.HeldDiffers, refused.NotAwaited)}
ROOMS = {101: "DBL", 102: "DBL", 103: "DBL", 201: "SGL"}
# The buttons of the page, each with the desk's command.
BUTTONS = {"Book": "reserve", "Check in": "check-in", "Spare card": "spare", "Lost card": "reissue", "Move": "transfer",
           "Check out": "check-out", "Cancel": "cancel", "Next day": "next-day", "Replace a lock": "refit"}
# What is given with each. `guest` is a name, which stands for the last booking by it: so a second booking of the same
# guest has a `'` behind the name. `arrive` is 1 for the first day.
FORMS = {"Book": "guest kind arrive nights", "Check in": "guest room", "Move": "guest room", "Replace a lock": "room",
         "Next day": ""}


class Refused(Exception):
    """The desk refused what was pressed, or a door stayed shut that had to open."""


class Reception:
    """`held` says who has each card: a guest, or nobody if the desk has it. `answers` are those to the logs' lines.
    `lock` makes a lock of its room, its number, its code, and a 0."""
    logs_exits = True

    def __init__(self, port, rooms, lock=Lock):
        self.lock = lock
        self.port, self.second, self.parties, self.cards, self.held, self.answers = port, 0, {}, {}, {}, []
        self.asks(f"begin {FIRST_DAY}")
        for kind in sorted(set(rooms.values())):
            self.asks(f"add-kind {kind}")
        self.locks = {room: lock(room, 1, self.code(room, kind), 0) for room, kind in rooms.items()}

    def asks(self, line):
        return self.sends(request_for(line))

    def sends(self, asked):
        return exchange(self.port, asked, 1 << 20).partition(b"\r\n\r\n")[2].decode().strip()

    def code(self, room, kind):
        """The code of a new room."""
        return self.asks(f"add-room {room} {kind}").split()[-1]

    def rows(self, *words):
        return list(csv.reader(self.asks(" ".join(map(str, words))).splitlines()[1:]))

    def at(self):
        self.second += 1
        return (datetime.datetime.fromisoformat(FIRST_DAY) + datetime.timedelta(seconds=self.second)).isoformat()

    # --- what is pressed ---------------------------------------------------------------------------------------------

    def presses(self, button, *values):
        """Presses a button of the page. A new card is the guest's."""
        given = dict(zip(FORMS.get(button, "guest").split(), values))
        name = given.pop("guest", None)
        given["party"] = self.parties.get(name)
        if button == "Book":
            given |= {"guest": name.rstrip("'"), "arrive": day_text(ordinal(FIRST_DAY) - 1 + int(given["arrive"]))}
        verb = BUTTONS[button]
        words = [verb, *(str(given[value.lower()]) for value in VERBS[verb].values.split())]
        word, *said = self.asks(" ".join(words)).split()
        if word == "refused":
            raise Refused(f"{button} {values}: {said}")
        if word == "party":
            self.parties[name] = said[0]
        if word == "card":
            self.gives(name, *said[::2])
        if word == "lock":
            self.fit, self.fresh = int(said[0]), said[2]

    def gives(self, name, number, party, old, new):
        """The guest of this name gets a card, which is for the room of this party."""
        (room,) = [int(row[0]) for row in self.rows("in-house") if row[1] == party]
        self.cards[int(number)] = Card(int(number), int(party), old, new, room)
        self.held[int(number)] = name.rstrip("'")

    def name_of(self, party):
        """The name by which a party is pressed."""
        return next(name for name, number in self.parties.items() if number == party)

    def codes(self, room):
        return [code for _, code, _ in self.rows("chain", room)]

    # --- what is done at a door --------------------------------------------------------------------------------------

    def enters(self, room, card):
        card = self.cards.get(int(card))
        if not card or not self.locks[int(room)].enters(card, self.at()):
            raise Refused(f"{card} doesn't open {room}")

    def leaves(self, room, card):
        card, lock = self.cards.get(int(card)), self.locks[int(room)]
        if card in lock.within and self.logs_exits:
            lock.leaves(card, self.at())

    def turns(self, room, card):
        """Goes in and out with a card that may open the door."""
        with contextlib.suppress(Refused):
            self.enters(room, card)
            self.leaves(room, card)

    def sets(self, room, code):
        """Sets a lock by hand to this code, or to the one at this place of a room's codes: `101:-1` is the last."""
        if ":" in code:
            of, place = code.split(":")
            code = self.codes(of)[int(place)]
        self.locks[int(room)].set_to(code, self.at())

    def obeys(self, room):
        """Does what the room's window says: sets the lock to the last code if it waits (isStuck in page/desk.js)."""
        (row,) = [row for row in self.rows("room-status") if row[0] == room]
        if int(row[4]) >= (2 if row[2] else 1):
            self.sets(room, f"{room}:-1")

    def forgets(self, room):
        """A lock loses its code and its log, as one may whose battery was dead."""
        self.locks[int(room)] = self.lock(int(room), self.locks[int(room)].fit, "0" * 12, 0)

    def fits(self, room):
        """Sets up the lock that `Replace a lock` gave the room: its code, and a count from 1."""
        self.locks[int(room)] = self.lock(int(room), self.fit, self.fresh, 0)

    def hands(self, card, guest):
        self.held[int(card)] = guest

    def takes(self, card):
        self.held[int(card)] = None

    def writes(self, card, number, codes):
        """Writes a card with this number and the codes of another one, in place of the card that was to be written."""
        self.cards[int(card)] = self.cards[int(codes)]._replace(number=int(number))

    # --- what is read ------------------------------------------------------------------------------------------------

    def reads(self, *rooms):
        """Imports the logs of these locks, or of all."""
        notes = [note for room, lock in self.locks.items() if not rooms or str(room) in rooms for note in lock.log]
        self.imports(notes)

    def imports(self, notes):
        text = HEADER + text_of(",".join(map(str, note)) for note in notes)
        self.answers += [line.partition(" ")[2] for line in self.sends(import_of(text)).splitlines()]

    def misreads(self, room, named):
        """Imports a lock's log with the number of another room."""
        self.imports([note._replace(room=int(named)) for note in self.locks[int(room)].log])

    # --- what is so --------------------------------------------------------------------------------------------------

    def who_enters(self):
        """The guests whose cards open each door, without any being turned; only those that somebody has."""
        opening = collections.defaultdict(set)
        for number, card in self.cards.items():
            for room, lock in self.locks.items():
                if self.held.get(number) and lock.code in card[2:4]:
                    opening[room].add(self.held[number])
        return dict(opening)

    def house(self, is_secured):
        """The guest of each room, or of each one that is secured."""
        return {int(room): guest for room, _, guest, _, _, secured in self.rows("in-house")
                if secured == "yes" or not is_secured}

    def awaited(self):
        return {int(room): int(count) for room, *_, count in self.rows("room-status")}


@contextlib.contextmanager
def reception(program, folder, rooms=ROOMS, *words, lock=Lock):
    """A reception of a new desk, which is in memory if no words name a database."""
    server, port = serve(program, 1_000_000, "--seed-file", folder / "zeros", *words)
    try:
        yield Reception(port, rooms, lock)
    finally:
        server.kill()
        server.communicate()
