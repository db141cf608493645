"""What staff do: they set and replace locks, bring their logs late, cut and twice, err, and restore the desk."""
from simulated.things import Note
from simulated.wanted import COMMANDS, FIRST_DAY, LAST_DAY, MOST_FITS, VERB_OF, names_of, row
from simulated.ways import same
from surface import SEEN, TAKEN


class Staff:
    """A part of Hotel."""

    def recodes(self, room, code=None):
        """Staff import the lock's log, set the lock to a code that it awaits, and report it by hand or leave it to the
        reader."""
        lock, chance = self.locks[room], self.chance
        self.imports([lock])
        awaited = self.desk.books.rooms[room].awaited
        if awaited and not lock.is_lost and lock.set_to(
                code if code in awaited and chance.random() < 0.9 else self.some(awaited), self.at()):
            note, is_by_hand = lock.log[-1], chance.random() < 0.6
            if is_by_hand and chance.random() < 0.3:
                # By another watch than the lock's: what the reader brings later is a conflict.
                note = note._replace(at=self.at())
                self.mistimed.add(note[:3])
            if is_by_hand:
                self.desk.do(VERB_OF[note.kind], note=note)

    def sees_left_behind(self):
        rows = self.desk.compare(["left-behind"])["left-behind"]
        if rows:
            self.recodes(int(self.some(rows).split(",")[0]))

    def replaces(self, lock):
        """A lock is replaced, mostly as docs/OPERATING.md wants (A replaced lock); else its last notes are lost."""
        is_careful = self.chance.random() < 0.75
        for guest in [guest for guest in self.those("here") if guest.room == lock.room and is_careful]:
            guest.state = "gone"
            self.goes_out(guest)
            self.checks_out(guest)
        if is_careful:
            self.imports([lock])
        self.refits(lock.room)
        self.imports([lock], is_whole=True)

    def refits(self, room):
        code = self.desk.do("refit", room=room)
        if code:
            old, lock = self.locks[room], self.sets_lock(room, len(self.desk.books.rooms[room].fits), code)
            self.old_locks.append(old)
            if old.within and self.chance.random() < 0.3:
                # Against the documents somebody was in the room, and the new lock's first note is that a card left.
                lock.leaves(old.within[0], self.at())
                lock.may_be_lost = True

    def imports(self, locks, is_whole=False):
        """A reader brings these locks' notes in one file, from where they were read last or earlier, perhaps twice.
        What a lock has written is taken or seen, and then seen; if it is the room's present lock, the desk can't have
        lost track of it, and nobody typed the note with another time."""
        parts = [lock.brings(0 if is_whole else max(0, lock.read - self.chance.choice([0, 0, 2, 9]))) for lock in locks]
        self.chance.shuffle(parts)
        notes = [note for part in parts for note in part]
        if self.chance.random() < 0.3:
            notes = [self.chance.choice([part for part in parts if part]).pop(0) for _ in notes]
        for lock in locks:
            lock.read = len(lock.log)
        for wanted in [TAKEN, SEEN][:1 + (self.chance.random() < 0.15)] if notes else []:
            answers = [answer for at in range(0, len(notes), 2500) for answer in self.desk.send(notes[at:at + 2500])]
            for note, answer in zip(notes, answers):
                lock = self.locks[note.room]
                if note.fit == lock.fit and note[:3] not in self.mistimed and answer not in (wanted, SEEN):
                    if not lock.may_be_lost:
                        same(f"what the lock has written: {row(note)}", wanted, answer)
                    lock.is_lost = True

    def reads(self):
        """A reader brings the notes of some locks."""
        count = min(self.chance.choice([1, 1, 2, 12]), len(self.locks))
        self.imports(self.chance.sample(self.those("lock"), count), self.chance.random() < 0.1)

    def reads_badly(self):
        """A file that is late, cut, out of order, not whole, or of a lock that was replaced."""
        chance = self.chance
        notes = chance.choice(self.those("lock") + self.old_locks[-8:]).log[-chance.randint(1, 30):]
        if notes:
            self.desk.send(chance.choice([notes, notes[::-1], notes[::2]]), chance.choice([0, chance.randint(1, 50)]))

    def errs(self):
        """Somebody asks for something at random that is refused, or types a note that no lock has written."""
        books, chance = self.desk.books, self.chance
        verb = chance.choice([*COMMANDS, *VERB_OF.values(), *VERB_OF.values()])
        room, party = chance.choice([*sorted(books.rooms), 9999]), len(books.stays) + 2 - chance.randint(0, 9)
        known = books.rooms.get(room, min(books.rooms.items())[1])
        number, party_of, old, new, _ = self.some(self.desk.issued[-9:]) or (1, 1, "00000000000a", "00000000000b", 0)
        kind = {"left": "out", "recoded": "recode"}.get(verb, "in")
        if kind == "recode":
            number, old, new = "", chance.choice([known.held, new]), known.codes[0]
        note = Note(room, max(1, len(known.fits) + chance.choice([0, 0, 0, 1, -1])),
                    max(1, len(known.fits[-1]) + chance.choice([0, 1, 1, 1, 2])), kind, number, old, new, self.at())
        v = {"day": books.day, "kind": chance.choice([*self.kinds, "NO"]), "room": room, "guest": "Gus", "note": note,
             "party": max(1, chance.choice([party, party, party_of, 9_999_999])), "nights": chance.randint(1, 90),
             "arrive": max(FIRST_DAY, min(books.day + chance.choice([-1, 0, 40_000]), LAST_DAY))}
        v = {name: v[name] for name in names_of(verb)}
        if note.fit <= MOST_FITS and books.refusal(verb, v):
            self.desk.do(verb, **v)

    def kills_idle(self):
        if self.desk.kills:
            self.desk.kill()

    def builds(self, room=None):
        room = room or self.chance.randint(1, 9999)
        code = self.desk.do("add-room", room=room, kind=self.some(self.kinds))
        if code:
            self.sets_lock(room, 1, code)

    def restores(self):
        """A backup is restored, and staff do what docs/OPERATING.md wants then (Backup and restore). Whom the copy
        doesn't know as the hotel does is checked out or cancelled; the cards may be found."""
        today, count = self.desk.books.day, len(self.desk.backups)
        taken = self.desk.restore(self.chance.randrange(max(0, count - 4), count))
        while self.desk.books.day < today:
            self.desk.do("next-day")
        for lock in self.locks.values():
            lock.may_be_lost, lock.is_lost = True, lock.is_lost or lock.since > taken
        for room in sorted(set(self.locks) - set(self.desk.books.rooms)):
            self.builds(room)
        for lock in self.those("lock"):
            self.imports([lock], is_whole=True)
        known = {guest.party for guest in self.guests if self.is_known(guest)}
        for stay in [stay for stay in self.desk.books.stays.values() if stay.party not in known]:
            if stay.state != "over":
                self.desk.do("cancel" if stay.state == "booked" else "check-out", party=stay.party)
        for guest in [guest for guest in self.guests if guest.party not in known]:
            self.forgets(guest)
        for lock in self.those("lost lock"):
            self.treats(lock)
        for room, lock in self.locks.items():
            lock.may_be_lost = lock.is_lost or len(self.desk.books.rooms[room].fits[-1]) < len(lock.log)

    def is_known(self, guest):
        stay, state = self.desk.books.stays.get(guest.party), "booked" if guest.state == "booked" else "in house"
        return stay and (stay.guest, stay.state, stay.room) == (guest.guest, state, guest.room) and all(
            self.desk.books.cards.get(card.number) == card for card in guest.cards)

    def forgets(self, guest):
        self.guests.remove(guest)
        self.lost += guest.cards
        if guest.room:
            self.goes_out(guest)

    def treats(self, lock):
        """A lock that the desk has lost track of is set up as a replaced one, or set to the chain's last code."""
        self.desk.counts["locks treated"] += 1
        for guest in [guest for guest in self.guests if guest.room == lock.room]:
            self.forgets(guest)
        known = self.desk.books.rooms[lock.room]
        if known.party:
            self.desk.do("check-out", party=known.party)
        if lock.fit == len(known.fits) and self.chance.random() < 0.5:
            lock.set_to(known.codes[-1], self.at())
        else:
            self.refits(lock.room)
