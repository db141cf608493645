#!/usr/bin/env python3
"""Counts what a day costs the staff: hotels of the built program, with simulated locks, guests, and staff who do what
docs/CLERK.md says.

usage: staff_day.py [PROGRAM [DAYS [ROOMS ..]]]     (default: the built hotel_desk, 28 days, and 20, 100 and 300 rooms)

At 70 % of the rooms a guest stays two nights on average. Half of them are two persons, who have a spare card. Each goes
out and in twice a day, and each card is read each time. Of a hundred guests five lose a card, two are checked in at the
wrong room, and two leave without having used their card. Staff read logs in one of four ways: all each evening; that
of a room before its next guest; that of a room in which the last guest didn't sleep, before its next guest; or none
before a door stays shut. The first days, until the hotel is as full, don't count. Prints, for each hotel and way, means
of a day. The database is in this system's folder for temporary files.
"""
import collections
import contextlib
import pathlib
import random
import sys
import tempfile
import time

TOP = pathlib.Path(__file__).resolve().parent.parent
sys.path.insert(0, str(TOP / ".ci"))
from built_desk import DESK  # noqa: E402
from reception import Refused, reception  # noqa: E402

FULL, FIRST = 0.7, 7
NIGHTS = [1] * 40 + [2] * 35 + [3] * 15 + [4] * 5 + [5] * 5
WAYS = EVENING, NEXT, UNSLEPT, SHUT = ("all each evening", "before the next guest", "where nobody slept",
                                       "none before a closed door")
COUNTED = "check-ins", "cards", "logs", "lines", "seconds", "locks set", "closed doors"
Guest = collections.namedtuple("Guest", "name room departs persons")


class House:
    """A hotel, in which staff read logs in this way. `here` are the guests, and `mine` each guest's cards."""

    def __init__(self, hotel, way, chance):
        self.hotel, self.way, self.chance, self.day = hotel, way, chance, 1
        self.here, self.mine, self.unslept = [], {}, set()
        self.read, self.counts = collections.Counter(), collections.Counter()

    def presses(self, button, name, *values):
        before = len(self.hotel.cards)
        self.hotel.presses(button, name, *values)
        if len(self.hotel.cards) > before:
            self.counts["cards"] += 1
            self.mine.setdefault(name, []).append(max(self.hotel.cards))

    def reads(self, room):
        """A reader brings what the lock has written since."""
        notes = self.hotel.locks[room].log[self.read[room]:]
        self.read[room] += len(notes)
        began = time.monotonic()
        self.hotel.imports(notes)
        self.counts["seconds"] += time.monotonic() - began
        self.counts["logs"] += 1
        self.counts["lines"] += len(notes)

    def obeys(self, room):
        """Sets the lock if the page says so."""
        before = self.hotel.locks[room].code
        self.hotel.obeys(str(room))
        self.counts["locks set"] += before != self.hotel.locks[room].code

    # --- a guest's stay ----------------------------------------------------------------------------------------------

    def arrives(self):
        """A guest comes without a booking, and gets the free room in which the least is in the way."""
        name, nights = f"Guest{len(self.hotel.parties)}", self.chance.choice(NIGHTS)
        self.hotel.presses("Book", name, "DBL", self.day, nights)
        if self.chance.random() < 0.02:
            self.presses("Check in", name, self.free_room())
            self.presses("Move", name, room := self.free_room())
            wrong = self.hotel.cards[self.mine[name].pop(0)]
            self.hotel.turns(wrong.room, wrong.number)
        else:
            self.presses("Check in", name, room := self.free_room())
        self.counts["check-ins"] += 1
        guest = Guest(name, room, self.day + nights, self.chance.choice([1, 2]))
        if self.chance.random() < 0.02:
            self.hotel.presses("Check out", name)
            self.unslept.add(room)
            return
        self.here.append(guest)
        self.enters_first(guest)
        if guest.persons == 2:
            self.presses("Spare card", name)
            self.hotel.enters(room, self.mine[name][-1])

    def free_room(self):
        """A free room, whose lock is read first if it may wait, and set if it does."""
        rows = [(int(count), int(room)) for room, _, party, _, count in self.hotel.rows("room-status") if not party]
        awaited, room = self.chance.choice(rows)
        if room in self.unslept if self.way == UNSLEPT else awaited and self.way != SHUT:
            self.reads(room)
            self.obeys(room)
        self.unslept.discard(room)
        return room

    def enters_first(self, guest):
        """The first entry; if the door stays shut, as docs/CLERK.md says of a closed door."""
        try:
            self.hotel.enters(guest.room, self.mine[guest.name][-1])
        except Refused:
            self.counts["closed doors"] += 1
            self.reads(guest.room)
            self.obeys(guest.room)
            self.hotel.enters(guest.room, self.mine[guest.name][-1])

    def moves_about(self, guest):
        for _ in range(2):
            for card in self.mine[guest.name]:
                self.hotel.leaves(guest.room, card)
            for card in self.mine[guest.name]:
                self.hotel.enters(guest.room, card)

    def loses(self, guest):
        """A card is lost outside, and each person gets another one."""
        for card in self.mine[guest.name]:
            self.hotel.leaves(guest.room, card)
        self.mine[guest.name] = []
        for button in ["Lost card", "Spare card"][:guest.persons]:
            self.presses(button, guest.name)
            self.hotel.enters(guest.room, self.mine[guest.name][-1])

    def departs(self, guest):
        for card in self.mine[guest.name]:
            self.hotel.leaves(guest.room, card)
        self.hotel.presses("Check out", guest.name)
        self.here.remove(guest)

    # --- a day -------------------------------------------------------------------------------------------------------

    def lives(self):
        for guest in [guest for guest in self.here if guest.departs <= self.day]:
            self.departs(guest)
        while len(self.here) < round(FULL * len(self.hotel.locks)):
            self.arrives()
        for guest in self.here:
            self.moves_about(guest)
            if self.chance.random() < 0.05 / 2:
                self.loses(guest)
        if self.way == EVENING:
            for room in self.hotel.locks:
                self.reads(room)
        self.hotel.presses("Next day")
        self.day += 1


def day(program, rooms, way, days):
    """What a day costs, as means."""
    numbers = {100 * (1 + at // 25) + at % 25 + 1: "DBL" for at in range(rooms)}
    with tempfile.TemporaryDirectory() as made, contextlib.ExitStack() as stack:
        folder = pathlib.Path(made)
        (folder / "zeros").write_bytes(bytes(32))
        hotel = stack.enter_context(reception(program, folder, numbers, "--db", folder / "desk.db"))
        house = House(hotel, way, random.Random(rooms))
        for number in range(FIRST + days):
            if number == FIRST:
                house.counts.clear()
            house.lives()
        refused = {answer for answer in hotel.answers if answer.startswith("refused")}
        assert not refused, refused
    return {name: house.counts[name] / days for name in COUNTED}


def main(program=DESK, days="28", *rooms, ways=WAYS):
    print("rooms", "logs are read", *COUNTED, sep=" | ")
    for count in map(int, rooms or (20, 100, 300)):
        for way in ways:
            means = day(pathlib.Path(program).resolve(), count, way, int(days))
            print(count, way, *(f"{mean:.1f}" for mean in means.values()), sep=" | ", flush=True)


if __name__ == "__main__":
    main(*sys.argv[1:])
