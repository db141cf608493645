"""A building (docs/MODEL.md, The building): what is really so at each door, the desk that would have been told each
note at once, and what is promised of both. It hears what happens at doors, and asks the program for lists alone."""
import collections

from simulated.desk import Desk
from simulated.things import Card, Note
from simulated.wanted import VERB_OF, Books, row
from simulated.ways import same
from surface import HEADERS, TAKEN

Says = collections.namedtuple("Says", "party secured waits notes held awaited inside")
NAMES = {HEADERS[name]: name for name in ("room-status", "locks", "inside", "chain")}


class Door:
    """What is really so at a door. `lock` is its lock; `inside` are the cards that came in and haven't gone out, and
    `slipped` those that went out unread; so many of the lock's notes were heard at once."""

    def __init__(self, lock, inside=()):
        self.lock, self.inside, self.slipped, self.heard = lock, set(inside), set(), 0


class Building:
    """`at_once` is the desk that is told each note at once; `bad` are the rooms at which something failed; `newest` are
    the codes of each room's newest card. `says` is what the program says of each room."""

    def __init__(self, desk):
        self.desk, self.at_once, self.doors, self.bad, self.newest = desk, Books(), {}, set(), {}
        self.cards, self.says = collections.defaultdict(set), {}

    def holds(self, promise, room, what, wanted, got):
        """A promise of MODEL by its number. Others aren't looked at where one alone is to find a bug."""
        if self.desk.only in (None, promise):
            same(f"promise {promise}{f' at room {room}' if room else ''}: {what}", wanted, got)

    # --- steps -------------------------------------------------------------------------------------------------------

    def answered(self, verb, v, result):
        """The desk answered a command that is no note: as it would if it had been told all notes."""
        refused = self.at_once.refusal(verb, v)
        self.holds(7, None, f"is {verb} carried out", refused is None, result is not None)
        if refused:
            return
        code = result.new if isinstance(result, Card) else result
        while verb == "spare" and len(self.at_once.cards) + 1 < result.number:
            # A spare card whose answer was lost.
            self.cards[result.new].add(self.at_once.carry_out(verb, v))
        self.holds(7, None, f"the answer to {verb}", result, self.at_once.carry_out(verb, v, code))
        if isinstance(result, Card):
            self.newest[result.room] = (result.old, result.new)
            for code in self.newest[result.room]:
                self.cards[code].add(result)

    def fitted(self, lock):
        """A lock is fitted: a new one for a room, or its next one. A room in which somebody is then is bad."""
        before = self.doors.get(lock.room)
        self.doors[lock.room] = Door(lock, before.inside if before else ())
        self.newest.pop(lock.room, None)
        (self.bad.add if before and before.inside else self.bad.discard)(lock.room)
        self.asks()

    def hears(self, lock):
        """What the lock has noted since is told at once. True notes are taken."""
        door = self.doors[lock.room]
        for note in lock.log[door.heard:]:
            said = self.at_once.told(note)
            if lock.room not in self.bad:
                self.holds(1, lock.room, f"`{row(note)}` at once", TAKEN, said)
        door.heard = len(lock.log)
        self.looks()

    def shown(self, lock, card, is_open):
        """Comes in by opening the lock, or stays where it is."""
        if is_open:
            self.doors[lock.room].inside.add(card)
            self.doors[lock.room].slipped.discard(card)
        self.hears(lock)

    def gone(self, lock, card):
        self.doors[lock.room].inside.discard(card)
        self.doors[lock.room].slipped.discard(card)
        self.hears(lock)

    def slips(self, room, card):
        self.doors[room].inside.discard(card)
        self.doors[room].slipped.add(card)
        self.looks()

    def fails(self, room):
        """Something happens there that breaks a premise: nothing is promised of this room until a refit."""
        self.bad.add(room)

    # --- looks -------------------------------------------------------------------------------------------------------

    def asks(self):
        """Asks the program how each room is, and looks at what is promised."""
        rooms, tables = sorted(self.doors), []
        text = self.desk.way.lists(["room-status", "locks", "inside", *(f"chain {room}" for room in rooms)])
        for line in text.splitlines():
            if line in NAMES:
                tables.append([])
            else:
                tables[-1].append(line.split(","))
        status, locks, inside, *chains = tables
        for (room, _, party, secured, waits), (_, _, notes, _), chain in zip(status, locks, chains):
            held = [code for _, code, state in chain if state == "held"]
            self.says[int(room)] = Says(
                int(party or 0), secured == "yes", int(waits), int(notes), held[0] if len(held) == 1 else held,
                [code for _, code, state in chain if state == "awaited"],
                {int(card) for number, card, _ in inside if number == room})
        self.looks()

    def looks(self):
        self.desk.counts["looks at a building"] += 1
        for room, door in self.doors.items():
            if room not in self.bad and room in self.says:
                self.looks_at(room, door, self.says[room], self.at_once.rooms[room])

    def looks_at(self, room, door, says, once):
        """What is promised of a room at which nothing failed."""
        code, current, newest = door.lock.code, once.codes[-1], self.newest.get(room)
        opening, unread = self.cards[code], door.lock.log[says.notes:]
        self.desk.counts["doors with unread notes"] += bool(unread)
        if unread:
            refused = self.desk.books.refusal(VERB_OF[unread[0].kind], {"note": unread[0]})
            self.holds(1, room, f"the next note `{row(unread[0])}`", None, refused)
        self.holds(2, room, "the code of the lock, by all notes", code, once.held)
        self.holds(2, room, "cards inside or slipped out, by all notes",
                   {card.number for card in door.inside | door.slipped}, once.inside)
        if not unread:
            told = says.held, says.awaited, says.waits, says.inside, says.secured
            self.holds(2, room, "the desk, that was told all",
                       (once.held, once.awaited, len(once.awaited), once.inside, once.is_secured), told)
        if says.secured and says.party:
            self.desk.counts["secured rooms"] += 1
            others = {card for card in opening | door.inside if card[1:4] != (says.party, *(newest or ()))}
            self.holds(3, room, "the code of a secured room's lock", current, code)
            self.holds(3, room, "other cards that open a secured room, or are inside", set(), others)
        self.looks_for_strangers(room, code, current, says)
        if newest and says.waits <= 1:
            self.holds(5, room, "does the newest card open the lock", True, code in newest)
        self.holds(6, room, "other rooms whose cards open the lock", set(), {card.room for card in opening} - {room})
        self.holds(8, room, "is the lock's code held or awaited", True, code in (says.held, *says.awaited))
        if code != current:
            self.looks_whether_setting_helps(room, door, current, newest)

    def looks_for_strangers(self, room, code, current, says):
        """Shut out is never stale."""
        if says.waits == 0:
            self.holds(4, room, "the code of a lock that awaits none", current, code)
        if code == current:
            party = says.party
            strangers = {card for card in self.cards[code]
                         if card[2:4] != self.newest.get(room) or party and card.party != party}
            self.holds(4, room, "cards but the party's newest that open the lock", set(), strangers)

    def looks_whether_setting_helps(self, room, door, current, newest):
        """The lock may be set to the current code: the note would be taken, and the newest card would open."""
        lock = door.lock
        note = Note(room, lock.fit, len(lock.log) + 1, "recode", "", lock.code, current, "")
        refused = self.at_once.refusal("recoded", {"note": note})
        self.holds(8, room, "the lock is set to the current code", None, refused)
        self.holds(8, room, "does the newest card then open", True, newest is None or current in newest)


class WatchedDesk(Desk):
    """A desk of which a building hears what it answers. After each answer the building is looked at; after that of a
    new lock only when it is fitted. `only` is a promise that is looked at alone."""
    building, is_asked, only = None, False, None

    def heard(self, ask, *asked):
        if self.is_asked:
            return ask()
        self.is_asked = True
        result = ask()
        self.is_asked = False
        if asked and "note" not in asked[1]:
            self.building.answered(*asked, result)
        if not asked or asked[0] not in ("add-room", "refit") or result is None:
            self.building.asks()
        return result

    def do(self, verb, **v):
        return self.heard(lambda: super(WatchedDesk, self).do(verb, **v), verb, v)

    def send(self, notes, cut=0):
        return self.heard(lambda: super(WatchedDesk, self).send(notes, cut))


def watched(lock, building):
    """The same lock, of which a building hears what happens at its door."""
    enters, leaves, set_to = lock.enters, lock.leaves, lock.set_to

    def heard_enters(card, at):
        is_open = enters(card, at)
        building.shown(lock, card, is_open)
        return is_open

    def heard_leaves(card, at):
        leaves(card, at)
        building.gone(lock, card)

    def heard_set_to(code, at):
        is_noted = set_to(code, at)
        building.hears(lock)
        return is_noted

    lock.enters, lock.leaves, lock.set_to = heard_enters, heard_leaves, heard_set_to
    return lock
