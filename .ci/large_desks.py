"""A large desk as another program writes it by the tables of docs/FORMATS.md: its rows, and what each list of it has.

1,500 rooms of 400 kinds, guests of each length from 1 to 60 bytes, and a room with 12,000 past stays. Each room has had
some stays; some have a party in house, cards inside, codes that are left behind, a lock that a recoding set, or, in the
second version, a lock that was replaced."""
import collections
import datetime
import itertools
import random
import sqlite3

from built_desk import INDEXES

TABLES = """\
CREATE TABLE meta (id INTEGER PRIMARY KEY CHECK (id = 1), version INTEGER NOT NULL, \
day INTEGER CHECK (day BETWEEN 0 AND 36524)) STRICT;
CREATE TABLE kind (kind TEXT NOT NULL PRIMARY KEY) STRICT;
CREATE TABLE room (room INTEGER PRIMARY KEY CHECK (room BETWEEN 1 AND 9999), kind TEXT NOT NULL REFERENCES kind, \
lock_place INTEGER NOT NULL, codes INTEGER NOT NULL CHECK (codes >= 1), \
secured INTEGER NOT NULL CHECK (secured IN (0, 1)), party INTEGER UNIQUE, notes INTEGER NOT NULL, \
CHECK (0 <= lock_place AND lock_place < codes)) STRICT;
CREATE TABLE stay (party INTEGER PRIMARY KEY, guest TEXT NOT NULL, kind TEXT NOT NULL REFERENCES kind, \
arrive INTEGER NOT NULL, depart INTEGER NOT NULL, state INTEGER NOT NULL CHECK (state BETWEEN 0 AND 3), \
room INTEGER REFERENCES room, CHECK (arrive < depart)) STRICT;
CREATE TABLE code (code INTEGER PRIMARY KEY CHECK (code BETWEEN 0 AND 281474976710655), \
room INTEGER NOT NULL REFERENCES room, place INTEGER NOT NULL, UNIQUE (room, place)) STRICT;
CREATE TABLE card (number INTEGER PRIMARY KEY, party INTEGER NOT NULL REFERENCES stay, \
old_code INTEGER NOT NULL REFERENCES code, new_code INTEGER NOT NULL REFERENCES code) STRICT;
CREATE TABLE inside (room INTEGER NOT NULL REFERENCES room, card INTEGER NOT NULL REFERENCES card, \
PRIMARY KEY (room, card)) STRICT;
CREATE TABLE note (room INTEGER NOT NULL REFERENCES room, n INTEGER NOT NULL, \
act INTEGER NOT NULL CHECK (act BETWEEN 0 AND 2), card INTEGER, first_code INTEGER NOT NULL, \
second_code INTEGER NOT NULL, day INTEGER NOT NULL, second INTEGER NOT NULL, PRIMARY KEY (room, n)) STRICT;
"""
FITS = """\
CREATE TABLE fit (room INTEGER NOT NULL REFERENCES room, fit INTEGER NOT NULL, place INTEGER NOT NULL, \
before INTEGER NOT NULL, PRIMARY KEY (room, fit), UNIQUE (room, place)) STRICT;
"""
BOOKED, IN_HOUSE, DONE, CANCELLED = range(4)
ENTERED, LEFT, RECODED = range(3)
TODAY, SECONDS = 11443, 86400  # 2031-05-01, counted from 2000-01-01
# On the first of these days each room is booked, and from the second on some.
FULL, LATER = TODAY + 40, TODAY + 100
LAST_DAY, MOST_NIGHTS, LAST_NUMBER = 36524, 90, 9999999  # 2099-12-31
# Days and numbers of nights for which a party may ask: from the business day on, about each of these days, in the past,
# and about the last day.
ASKED = [(TODAY, 1), (TODAY, 30), (TODAY, MOST_NIGHTS), (FULL - 1, 1), (FULL - 1, 2), (FULL, 1), (FULL + 24, 1),
         (FULL + 49, 1), (FULL + 50, 1), *((LATER + day, nights) for day in range(-1, 6) for nights in (1, 2, 4)),
         (FULL + 50, MOST_NIGHTS), (TODAY - 1, 1), (TODAY - 1, 2), (0, 1), (LAST_DAY, 1), (LAST_DAY - 1, 1),
         (LAST_DAY - 1, 2), (LAST_DAY - MOST_NIGHTS, MOST_NIGHTS), (LAST_DAY - MOST_NIGHTS + 1, MOST_NIGHTS)]
KINDS = sorted(f"{'KINDS'[:number % 6]}{number:03}" for number in range(400))
ROOMS, LONG_ROOM, LONG = range(1005, 10000, 6), 9999, 12000


def day_of(number):
    return (datetime.date(2000, 1, 1) + datetime.timedelta(number)).isoformat()


def guest(party):
    """A guest with commas, quotes and a letter of two bytes, where its length has room for them: 1 to 60 bytes."""
    size = 1 + party % 60
    text = (f"{party}," + ' "é" of a long road, ' * 3).encode()[:size].decode(errors="ignore").rstrip(" ")
    return text + "x" * (size - len(text.encode()))


def moment(day, second):
    return f"{day_of(day)}T{second // 3600:02}:{second // 60 % 60:02}:{second % 60:02}"


def field(text):
    """The text as a field of a row."""
    return '"' + text.replace('"', '""') + '"' if set(text) & set(',"') else text


class Room:
    """A room, and what has happened there."""

    def __init__(self, desk, room, kind):
        self.desk, self.room, self.kind = desk, room, kind
        self.codes, self.fits, self.notes, self.inside = [next(desk.codes)], [(0, 0)], [], set()
        self.place, self.secured, self.party = 0, False, None

    def checked_in(self, nights):
        """A party comes; its card."""
        self.party = self.desk.booked(self.kind, TODAY, nights)
        self.codes.append(next(self.desk.codes))
        self.desk.stays[self.party].update(state=IN_HOUSE, room=self.room)
        self.secured = False
        return self.spared()

    def spared(self):
        """The party is given one more card."""
        self.desk.cards.append((len(self.desk.cards) + 1, self.party, *self.codes[-2:]))
        return self.desk.cards[-1]

    def checked_out(self):
        self.desk.stays[self.party].update(state=DONE, room=None)
        self.party = None

    def noted(self, act, card, first, second):
        self.notes.append((act, card, first, second, TODAY, len(self.notes) % SECONDS))

    def entered(self, card):
        """The newest card comes in."""
        number, _, *link = card
        self.secured |= not self.inside
        self.place = len(self.codes) - 1
        self.inside.add(number)
        self.noted(ENTERED, number, *link)

    def left(self, card):
        number, _, *link = card
        self.inside.remove(number)
        self.noted(LEFT, number, *link)

    def recoded(self):
        """The lock is set to the newest code."""
        self.noted(RECODED, None, self.codes[self.place], self.codes[-1])
        self.place = len(self.codes) - 1

    def refitted(self):
        self.place, self.secured, self.inside = len(self.codes), False, set()
        self.fits.append((self.place, len(self.notes)))
        self.codes.append(next(self.desk.codes))

    def numbered(self):
        """The notes, each with its fit and its count there."""
        befores = [before for _, before in self.fits] + [len(self.notes)]
        for fit, (before, end) in enumerate(itertools.pairwise(befores), 1):
            for count, note in enumerate(self.notes[before:end], 1):
                yield fit, count, *note


class LargeDesk:
    """The rows of a large desk of a version, and its lists."""

    def __init__(self, version):
        self.version, self.stays, self.cards = version, {}, []
        self.codes = iter(random.Random(version).sample(range(2 ** 48), 30000))
        self.rooms = [Room(self, room, KINDS[number % len(KINDS)]) for number, room in enumerate(ROOMS)]
        for number, room in enumerate(self.rooms):
            self.lived_in(number, room)
        for room in self.rooms[::28]:
            room.spared()
        for room in self.rooms:
            self.booked(room.kind, FULL, 1 + room.room % 50)
        self.stays[self.booked(KINDS[0], FULL, 1)]["state"] = CANCELLED
        for number, kind in enumerate(KINDS):
            for stay in range(number % 4):
                self.booked(kind, LATER + stay * (number % 3), 1 + number % 5)

    def booked(self, kind, arrive, nights):
        """A stay is booked; its party."""
        party = len(self.stays) + 1
        self.stays[party] = dict(guest=guest(party), kind=kind, arrive=arrive, depart=arrive + nights, state=BOOKED,
                                 room=None)
        return party

    def lived_in(self, number, room):
        """What has happened in the room of this number."""
        for stay in range(LONG if room.room == LONG_ROOM else number % 3):
            card = room.checked_in(1)
            if stay % 2:
                room.recoded()
            else:
                room.entered(card)
                if number % 5 or stay:
                    room.left(card)
            room.checked_out()
        if self.version == 2 and number % 10 == 0:
            for _ in range(1 + number // 10 % 3):
                room.refitted()
                room.entered(room.checked_in(1))
                room.checked_out()
        if number % 7 == 0:
            for _ in range(2):
                room.checked_in(1)
                room.checked_out()
            if number % 2:
                room.recoded()
        if number % 4 == 0:
            card = room.checked_in(1 + number % 30)
            if number % 8 == 0 and number % 7:
                room.entered(card)

    def rows(self):
        """The rows of each table, in order of their keys."""
        return {
            "meta": [(1, self.version, TODAY)], "kind": [(kind,) for kind in KINDS],
            "room": [(it.room, it.kind, it.place, len(it.codes), int(it.secured), it.party, len(it.notes))
                     for it in self.rooms],
            "stay": [(party, *stay.values()) for party, stay in self.stays.items()],
            "code": sorted((code, it.room, place) for it in self.rooms for place, code in enumerate(it.codes)),
            "card": self.cards, "inside": [(it.room, card) for it in self.rooms for card in sorted(it.inside)],
            "note": [(it.room, n, *note) for it in self.rooms for n, note in enumerate(it.notes, 1)],
            "fit": [(it.room, fit, *row) for it in self.rooms for fit, row in enumerate(it.fits, 1)]}

    def written(self, file, indexes):
        """Writes the desk into this file, of the second version with so many of the indexes."""
        with sqlite3.connect(file) as db:
            db.executescript(TABLES + (FITS + "".join(INDEXES[:indexes]) if self.version == 2 else ""))
            for table, rows in self.rows().items():
                if table != "fit" or self.version == 2:
                    db.executemany(f"INSERT INTO {table} VALUES ({', '.join('?' * len(rows[0]))})", rows)
        db.close()

    def bookings(self, day=None):
        """The booked stays, of each day or of one."""
        for party, stay in self.stays.items():
            if stay["state"] == BOOKED and (day is None or stay["arrive"] <= day < stay["depart"]):
                days = f"{day_of(stay['arrive'])},{day_of(stay['depart'])}"
                yield f"{party},{field(stay['guest'])},{stay['kind']},{days}"

    def in_house(self):
        for it in self.rooms:
            if it.party:
                stay, secured = self.stays[it.party], "yes" if it.secured else "no"
                yield f"{it.room},{it.party},{field(stay['guest'])},{it.kind},{day_of(stay['depart'])},{secured}"

    def left_behind(self):
        for it in self.rooms:
            awaited = len(it.codes) - 1 - it.place
            if awaited >= 2:
                yield f"{it.room},{it.codes[it.place]:012x},{it.codes[-1]:012x},{awaited}"

    def room_status(self):
        for it in self.rooms:
            secured, awaited = "yes" if it.secured else "no", len(it.codes) - 1 - it.place
            yield f"{it.room},{it.kind},{it.party or ''},{secured},{awaited}"

    def cards_inside(self):
        party_of = {number: party for number, party, *_ in self.cards}
        for it in self.rooms:
            for card in sorted(it.inside):
                yield f"{it.room},{card},{party_of[card]}"

    def card(self, number):
        for card, party, old, new in self.cards[number - 1:number]:
            yield f"{card},{party},{field(self.stays[party]['guest'])},{old:012x},{new:012x}"

    def cards_of(self, party):
        for card, its, old, new in self.cards:
            if its == party:
                yield f"{card},{old:012x},{new:012x}"

    def locks(self):
        """The newest lock of each room: its number, how many notes are behind those of the locks before, and when it
        wrote the last of them."""
        for it in self.rooms:
            fit, count = len(it.fits), len(it.notes) - it.fits[-1][1]
            yield f"{it.room},{fit},{count},{moment(*it.notes[-1][4:]) if count else ''}"

    def availability(self, day, nights):
        """Of each kind its rooms, and how many of them no stay that is booked or in house takes on any of these nights.
        """
        rooms = collections.Counter(it.kind for it in self.rooms)
        taken = collections.Counter(
            (stay["kind"], night) for stay in self.stays.values() if stay["state"] in (BOOKED, IN_HOUSE)
            for night in range(max(day, stay["arrive"]), min(day + nights, stay["depart"])))
        is_ahead = TODAY <= day and day + nights <= LAST_DAY
        for kind in KINDS:
            most = max(taken[kind, night] for night in range(day, day + nights))
            yield f"{kind},{rooms[kind]},{max(0, rooms[kind] - most) if is_ahead else 0}"

    def lists(self):
        """The line of each list, and its rows."""
        yield "business-day", [day_of(TODAY)]
        yield "in-house", self.in_house()
        yield "left-behind", self.left_behind()
        yield "room-status", self.room_status()
        yield "inside", self.cards_inside()
        yield "bookings", self.bookings()
        for day in (TODAY, FULL - 1, FULL, FULL + 1, FULL + 49, FULL + 50):
            yield f"arrivals {day_of(day)}", self.bookings(day)
        for day, nights in ASKED:
            yield f"availability {day_of(day)} {nights}", self.availability(day, nights)
        yield "locks", self.locks()
        for number in (*range(1, len(self.cards), 61), len(self.cards), len(self.cards) + 1, LAST_NUMBER):
            yield f"card {number}", self.card(number)
        of_two = [room.party for room in self.rooms[::28]]
        for party in (*of_two, *range(1, len(self.stays), 61), len(self.stays), len(self.stays) + 1, LAST_NUMBER):
            yield f"cards {party}", self.cards_of(party)
        for it in self.rooms:
            yield f"chain {it.room}", chain(it)
            yield f"audit-of {it.room}", audit(it)


def chain(room):
    for place, code in enumerate(room.codes):
        yield f"{place},{code:012x},{'passed' if place < room.place else 'held' if place == room.place else 'awaited'}"


def audit(room):
    for fit, count, act, card, first, second, *at in room.numbered():
        yield (f"{room.room},{fit},{count},{('in', 'out', 'recode')[act]},{card or ''},{first:012x},{second:012x},"
               f"{moment(*at)}")
