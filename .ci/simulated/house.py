"""A hotel whose building is looked at after every step: logs come later than elsewhere, guests slip out, staff set and
replace locks on the wrong day, and at some doors something fails."""
from simulated.building import Building, watched
from simulated.hotel import EVENTS, Hotel
from simulated.things import Card, Note, day_text
from simulated.wanted import LAST_DAY, VERB_OF

# What comes beside the events of other hotels; and what breaks a premise at a door, in the hotels with faults.
MISTAKES = [(2, "sets_again", "lock"), (3, "sets_by_paper", "lock"), (1, "replaces", "lock"), (4, "reads_badly", None),
            (3, "goes_out_again", "here"), (2, "mends", "bad lock")]
FAULTS = [(0.7, "copies", "lock"), (0.7, "comes_unread", "lock"), (0.7, "forges", "lock"), (0.7, "sets_any", "lock")]
# How probable it is that a reader brings what it was sent for.
READS = [0.05, 0.3, 1]


class House(Hotel):
    """`papers` are the last codes of each room's chain, as they were printed on some days."""

    events_a_room = 30

    def __init__(self, desk, chance, *others):
        super().__init__(desk, chance, *others)
        self.building = desk.building = Building(desk)
        self.has_faults, self.read_chance, self.papers = chance.random() < 0.5, chance.choice(READS), {}
        self.events = [*EVENTS, *MISTAKES, *(FAULTS if self.has_faults else [])]

    def those(self, what):
        bad = [lock for room, lock in sorted(self.locks.items()) if room in self.building.bad]
        return bad if what == "bad lock" else super().those(what)

    def sets_lock(self, room, fit, code):
        lock = watched(super().sets_lock(room, fit, code), self.building)
        self.building.fitted(lock)
        return lock

    def look(self):
        """The lists that read no note are as if the desk had been told all."""
        chance, books = self.chance, self.building.at_once
        day = day_text(min(LAST_DAY, books.day + chance.randint(0, 3)))
        line = chance.choice(["business-day", "bookings", f"arrivals {day}", f"availability {day} 1",
                              f"card {chance.randint(1, len(books.cards) + 1)}",
                              f"cards {chance.randint(1, len(books.stays) + 1)}"])
        if chance.random() < 0.3:
            self.desk.counts["lists"] += 1
            self.building.holds(7, None, line, books.list_of(line), self.desk.way.lists([line]))

    # --- people ------------------------------------------------------------------------------------------------------

    def goes_out(self, guest):
        """A guest goes out; cards that aren't read slip out."""
        for card in [card for card in self.locks[guest.room].within if card in guest.cards]:
            if self.chance.random() < (0.67 if guest.state == "here" else 0.95):
                self.locks[guest.room].leaves(card, self.at())
            else:
                self.slips_out(guest.room, card)

    def slips_out(self, room, card):
        self.locks[room].within = [other for other in self.locks[room].within if other != card]
        self.building.slips(room, card)

    def goes_out_again(self, guest):
        """A card is read on the way out, whether it came in or not."""
        card = self.some(guest.cards)
        if card:
            self.locks[guest.room].leaves(card, self.at())

    def reads(self):
        if self.chance.random() < self.read_chance:
            super().reads()

    def ends_day(self):
        """Logs are late: they wait for days."""
        self.forgets_bookings()
        if self.chance.random() < self.read_chance / 2:
            self.reads_all()
        for room, known in self.desk.books.rooms.items():
            self.papers.setdefault(room, []).append(known.codes[-1])
        if self.chance.random() < 0.1:
            self.desk.compare_all()

    # --- mistakes ----------------------------------------------------------------------------------------------------

    def sets_again(self, lock):
        lock.set_to(lock.code, self.at())

    def sets_by_paper(self, lock):
        """Staff set a lock, without reading it, to the last code of its room's chain: today's, or an earlier one. If it
        awaits this code no more, that is a fault."""
        known = self.building.at_once.rooms[lock.room]
        code = self.chance.choice([known.codes[-1], *self.papers.get(lock.room, [])[-4:]])
        is_allowed = code in known.awaited or code == lock.code
        if is_allowed or self.has_faults:
            self.fails(lock, not is_allowed)
            lock.set_to(code, self.at())

    def mends(self, lock):
        """At a bad door all leave, and the lock is replaced."""
        for guest in [guest for guest in self.guests if guest.room == lock.room]:
            self.forgets(guest)
        for card in list(self.building.doors[lock.room].inside):
            self.slips_out(lock.room, card)
        party = self.desk.books.rooms[lock.room].party
        if party:
            self.desk.do("check-out", party=party)
        self.refits(lock.room)

    # --- faults ------------------------------------------------------------------------------------------------------

    def fails(self, lock, is_so=True):
        if is_so:
            self.desk.counts["faults at doors"] += lock.room not in self.building.bad
            self.building.fails(lock.room)
            lock.may_be_lost = True

    def copies(self, lock):
        """A card that the desk never wrote has the lock's code."""
        self.fails(lock)
        lock.enters(Card(self.chance.randint(1, 99), 1, lock.code, "00000000000c", lock.room), self.at())

    def comes_unread(self, lock):
        """Somebody comes in behind another, with an earlier card of this room or of any."""
        card = self.some(self.desk.issued)
        if card:
            self.fails(lock)
            self.building.doors[lock.room].inside.add(card)
            self.building.looks()

    def forges(self, lock):
        """The desk takes a note that no lock made: that the newest card came in."""
        known, card = self.desk.books.rooms[lock.room], self.some(self.desk.issued[-9:])
        note = card and Note(lock.room, len(known.fits), len(known.fits[-1]) + 1, "in", card.number, card.old, card.new,
                             self.at())
        if note and not self.desk.books.refusal(VERB_OF[note.kind], {"note": note}):
            self.fails(lock)
            self.desk.do(VERB_OF[note.kind], note=note)

    def sets_any(self, lock):
        """Staff set a lock to a code that it passed, or to none of the desk's."""
        self.fails(lock)
        lock.set_to(self.chance.choice([self.desk.books.rooms[lock.room].codes[0], "00000000000d"]), self.at())
