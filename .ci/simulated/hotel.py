"""The days of a hotel: events at random, and what the building shows by itself at the end of each day."""
import collections
import csv
import datetime
import time

from simulated.guests import Guests
from simulated.staff import Staff
from simulated.things import Lock, day_text, ordinal
from simulated.wanted import FIRST_DAY, LAST_DAY
from simulated.ways import same
from surface import SEEN

# How often each comes, beside the others, and to one of whom.
EVENTS = [(14, "books_room", None), (18, "arrives", "expected"), (2, "arrives", "booked"), (2, "cancels", "booked"),
          (18, "goes_in", "here"), (16, "goes_out", "here"), (3, "takes_spare", "here"), (3, "loses", "here"),
          (4, "moves", "here"), (12, "departs", "due"), (2, "departs", "here"), (3, "checks_out", "gone"),
          (3, "comes_back", "lost card"), (4, "reads", None), (3, "reads_badly", None), (1, "sees_left_behind", None),
          (0.7, "replaces", "lock"), (1, "treats", "lost lock"), (5, "errs", None), (0.3, "kills_idle", None),
          (0.005, "builds", None)]


class Hotel(Guests, Staff):
    """A building and the people in it. `desk` is what they ask. Each day has so many events for each room."""

    events, events_a_room = EVENTS, 30

    def __init__(self, desk, chance, rooms, restores, lock=Lock):
        self.desk, self.chance, self.rooms, self.restore_chance, self.lock = desk, chance, rooms, restores, lock
        self.kinds = ["DBL"] if rooms < 4 else ["DBL", "SGL", "SUITE8"]
        self.locks, self.old_locks, self.guests, self.lost, self.mistimed, self.second = {}, [], [], [], set(), 0

    def those(self, what):
        """The guests in this state, or the locks, or the cards that were lost."""
        day, locks = self.desk.books.day, [lock for _, lock in sorted(self.locks.items())]
        found = {"lock": locks, "lost lock": [lock for lock in locks if lock.is_lost], "lost card": self.lost,
                 "due": [guest for guest in self.guests if guest.state == "here" and guest.departs <= day],
                 "expected": [guest for guest in self.guests
                              if guest.state == "booked" and guest.arrive <= day < guest.departs]}
        return found[what] if what in found else [guest for guest in self.guests if guest.state == what]

    def some(self, among):
        return self.chance.choice(among) if among else None

    def at(self):
        self.second = min(86_399, self.second + self.chance.randint(0, 300))
        return f"{day_text(self.desk.books.day)}T{datetime.timedelta(seconds=self.second)!s:0>8}"

    def free(self, kind):
        return [room.number for room in self.desk.books.rooms.values() if room.kind == kind and not room.party]

    def sets_lock(self, room, fit, code):
        self.locks[room] = self.lock(room, fit, code, len(self.desk.steps))
        return self.locks[room]

    def tries(self, card, room):
        """A card is tried at a door. No door opens to a card of another room."""
        lock, is_unknown = self.locks[room], self.desk.books.cards.get(card.number) != card
        is_open = lock.enters(card, self.at())
        lock.may_be_lost |= is_open and is_unknown
        same(f"the room of card {card.number}, which opens {room}", room, card.room if is_open else room)
        return is_open

    def look(self):
        """Compares lists: those of all rooms, some chains, one of bookings, what is free for some nights, whose a card
        is, mostly one of the last, the cards of a party, mostly of one in house, and now and then one of notes."""
        books, chance = self.desk.books, self.chance
        if chance.random() < self.desk.way.looks:
            rooms = chance.sample(sorted(books.rooms), min(4, len(books.rooms)))
            day = min(LAST_DAY, books.day + chance.choice([0, chance.randint(0, 9)]))
            notes = [f"audit-of {rooms[0]}"] if chance.random() < 0.1 else []
            chains = [f"chain {room}" for room in rooms]
            nights = chance.choice([1, 1, 2, 3, chance.randint(1, 90)])
            free = f"availability {day_text(max(FIRST_DAY, day - (chance.random() < 0.1)))} {nights}"
            whole = chance.choice(["business-day", "room-status", "inside", "bookings", "locks", "locks"])
            last = len(books.cards) + 1
            card = f"card {chance.randint(1 if chance.random() < 0.1 else max(1, last - 9), last)}"
            here = [room.party for room in books.rooms.values() if room.party]
            party = chance.choice(here if here and chance.random() < 0.8 else range(1, len(books.stays) + 2))
            self.desk.compare(["in-house", "left-behind", f"arrivals {day_text(day)}", free, whole, card,
                               f"cards {party}", *chains, *notes])

    def runs(self, days, until):
        """Opens the hotel. So many days, or fewer if the time is over."""
        start = self.chance.choice(["2031-05-01", "2028-02-20", "2000-01-01", day_text(LAST_DAY - days + 2)])
        self.desk.do("next-day")
        self.desk.do("begin", day=ordinal(start))
        for kind in [*self.kinds, "NONE"]:
            self.desk.do("add-kind", kind=kind)
        for room in self.chance.sample(range(1, 10_000), self.rooms):
            self.builds(room)
        often = [often for often, *_ in self.events]
        for _ in range(days):
            for _, name, what in self.chance.choices(self.events, often, k=self.events_a_room * self.rooms):
                if time.monotonic() > until:
                    return
                self.desk.counts["events"] += 1
                comes_to = [self.some(self.those(what))] if what else []
                if None not in comes_to:
                    getattr(self, name)(*comes_to)
                self.look()
            self.ends_day()
            if self.desk.do("next-day") is None:
                return

    def forgets_bookings(self):
        """Nobody comes any more whose booking ends today. It is cancelled, or isn't."""
        self.second = 0
        self.desk.counts["days"] += 1
        for guest in [guest for guest in self.those("booked") if guest.departs <= self.desk.books.day + 1]:
            self.guests.remove(guest)
            if self.chance.random() < 0.5:
                self.desk.do("cancel", party=guest.party)

    def reads_all(self):
        """The logs of all locks are imported, one by one or several in a file."""
        locks, size = self.those("lock"), self.chance.choice([1, 8])
        for at in range(0, len(locks), size):
            self.imports(locks[at:at + size])

    def ends_day(self):
        chance = self.chance
        self.forgets_bookings()
        if chance.random() < 2 * self.restore_chance:
            self.desk.take()
        if self.desk.backups and chance.random() < self.restore_chance:
            self.restores()
        if chance.random() < 0.7:
            self.reads_all()
        lists = self.desk.compare_all()
        self.tries_all({int(row.split(",")[0]) for row in lists["in-house"] if row.endswith(",yes")})
        self.counts_codes(lists)
        self.counts_nights(list(csv.reader(lists["in-house"])))

    def tries_all(self, secured):
        """Each card ever issued is tried at each door, without turning the lock."""
        for number, lock in self.locks.items():
            room, cards = self.desk.books.rooms[number], self.desk.books.cards
            opening = [card for card in self.desk.issued if lock.code in card[2:4]]
            same(f"the rooms of the cards that open {number}", set(), {card.room for card in opening} - {number})
            if number in secured:
                self.desk.counts["secured rooms"] += 1
                inside = [cards.get(card) for card in room.inside] + ([] if lock.is_lost else lock.within)
                others = [card for card in opening + inside if card[1:4] != (room.party, *room.link)]
                same(f"cards inside secured room {number}, or that open it, but the party's newest", [], others)
            if not lock.is_lost:
                # A card that a restored desk doesn't know may have entered.
                unknown = [card.new for card in self.desk.issued if cards.get(card.number) != card]
                same(f"is the code of the lock of {number} known", True, lock.code in room.codes[room.place:] + unknown)
                if len(room.fits[-1]) == len(lock.log):
                    self.desk.counts["locks beside chains"] += 1
                    same(f"the code of the lock of {number}", room.held, lock.code)

    def counts_codes(self, lists):
        """Each code that was ever answered is in one chain, once. A restore can lose codes. Notes of a list, as a file,
        are seen."""
        codes = collections.Counter(row.split(",")[1] for line, rows in lists.items() if line.startswith("chain ")
                                    for row in rows)
        wanted = self.desk.codes & set(codes) if self.desk.counts["restores"] else self.desk.codes
        same("the codes of all chains", dict.fromkeys(wanted, 1), dict(codes))
        rooms = sorted(self.desk.books.rooms)
        for room in self.chance.sample(rooms, min(3, len(rooms))):
            notes = [note for kept in self.desk.books.rooms[room].fits for note in kept][:2500]
            same(f"the answers to `audit-of {room}` as a file", set(), set(self.desk.send(notes)) - {SEEN})

    def counts_nights(self, here):
        """On no night has a kind more stays than rooms, by the lists."""
        day, rooms = self.desk.books.day, collections.Counter(room.kind for room in self.desk.books.rooms.values())
        for line in [f"arrivals {day_text(night)}" for night in range(day, min(day + 4, LAST_DAY))]:
            night, booked = line.split()[1], csv.reader(self.desk.compare([line])[line])
            taken = collections.Counter([row[2] for row in booked] + [row[3] for row in here if row[4] > night])
            same(f"the kinds with too many stays on {night}", {}, dict(taken - rooms))
            self.desk.counts["full nights"] += sum(taken[kind] == count for kind, count in rooms.items())
