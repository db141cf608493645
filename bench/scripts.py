#!/usr/bin/env python3
"""Writes scripts for the desk into a folder: a hotel's day, and scripts of which each stresses one thing.

usage: scripts.py FOLDER [NAME ..]      (all of them where none is named)

Cards carry the codes that the desk draws from a seed of 32 zero bytes, so that each note is taken. No line is refused.
"""
import datetime
import itertools
import pathlib
import sys

sys.path.insert(0, str(pathlib.Path(__file__).resolve().parent.parent / ".ci"))
from built_desk import codes  # noqa: E402

FIRST = "2031-05-01"


def day(number):
    return (datetime.date.fromisoformat(FIRST) + datetime.timedelta(days=number)).isoformat()


def opened(kinds, rooms):
    """A hotel with so many kinds of so many rooms, and the kind of each room."""
    kind_of = [k for k in range(kinds) for _ in range(rooms)]
    lines = [f"begin {FIRST}"] + [f"add-kind K{k}" for k in range(kinds)]
    return lines + [f"add-room {room} K{k}" for room, k in enumerate(kind_of, 1)], kind_of


def note(verb, room, count, card, link):
    return f"{verb} {room} {count} {card} {link[0]:012x} {link[1]:012x} {FIRST}T15:00:00"


def hotels_day(most, rooms):
    """Parties that book, come, enter, leave and check out, room after room."""
    lines, _ = opened(1, rooms)
    source = codes()
    held = [next(source) for _ in range(rooms)]
    for turn in itertools.count():
        if len(lines) >= most:
            return lines
        room, count, party = turn % rooms + 1, turn // rooms * 2 + 1, turn + 1
        link = (held[room - 1], next(source))
        held[room - 1] = link[1]
        lines += [f"reserve K0 {FIRST} 1 Guest {party}", f"check-in {party} {room}",
                  note("entered", room, count, party, link)]
        lines += [note("left", room, count + 1, party, link), f"check-out {party}"]


def bookings(count, kinds, rooms, nights):
    """Bookings that fill each kind's rooms, so many nights each, from the first day on."""
    lines, _ = opened(kinds, rooms)
    return lines + [f"reserve K{i % kinds} {day(i // kinds // rooms * nights)} {nights} G" for i in range(count)]


def moves(most):
    """Bookings, check-ins, spare cards, transfers, check-outs and cancelled bookings over thirty kinds."""
    lines, kind_of = opened(30, 30)
    for turn in itertools.count():
        if len(lines) >= most:
            return lines
        room, party = turn % len(kind_of), 2 * turn + 1
        other = room + 1 if kind_of[room + 1 : room + 2] == [kind_of[room]] else room - 1
        book = f"reserve K{kind_of[room]} {FIRST} 1 G"
        lines += [book, f"check-in {party} {room + 1}", f"spare {party}", f"transfer {party} {other + 1}",
                  f"check-out {party}"]
        lines += [book, f"cancel {party + 1}"]


def full_house(rooms):
    """A hotel of one kind with a party in each room, and the links of the parties' cards."""
    lines, _ = opened(1, rooms)
    source = codes()
    first = [next(source) for _ in range(rooms)]
    for room in range(1, rooms + 1):
        lines += [f"reserve K0 {FIRST} 1 G{room}", f"check-in {room} {room}"]
    return lines, [(old, next(source)) for old in first]


def notes(most, rooms):
    """Cards that enter and leave, room after room."""
    lines, links = full_house(rooms)
    for turn in itertools.count():
        if len(lines) >= most:
            return lines
        room, count = turn % rooms + 1, turn // rooms * 2 + 1
        lines += [note("entered", room, count, room, links[room - 1]),
                  note("left", room, count + 1, room, links[room - 1])]


def crowd(cards):
    """Many cards inside one room, of which a third leave."""
    lines, links = full_house(1)
    lines += ["spare 1"] * (cards - 1)
    lines += [note("entered", 1, card, card, links[0]) for card in range(1, cards + 1)]
    return lines + [note("left", 1, cards + card, card, links[0]) for card in range(1, cards // 3 + 1)]


def long_chain(length):
    """A room of many codes, and its list."""
    lines, _ = opened(1, 1)
    for party in range(1, length):
        lines += [f"reserve K0 {FIRST} 1 G", f"check-in {party} 1", f"check-out {party}"]
    return lines + ["chain 1"] * 50


SCRIPTS = {
    "hotels_day": lambda: hotels_day(20000, 300),
    "one_kind": lambda: bookings(20000, 1, 300, 1),
    "long_stays": lambda: bookings(20000, 1, 300, 90),
    "forty_kinds": lambda: bookings(20000, 40, 30, 1),
    "many_rooms": lambda: bookings(12000, 1, 9999, 1),
    "wide": lambda: bookings(30000, 96, 1, 79),
    "moves": lambda: moves(20000),
    "notes": lambda: notes(13000, 300),
    "crowd": lambda: crowd(9000),
    "spares": lambda: full_house(1)[0] + ["spare 1"] * 80000,
    "refits": lambda: opened(1, 200)[0] + [f"refit {turn % 200 + 1}" for turn in range(19600)],
    "lost_cards": lambda: full_house(300)[0] + [f"reissue {turn % 300 + 1}" for turn in range(20000)],
    "in_house": lambda: full_house(300)[0] + ["in-house"] * 300,
    "arrivals": lambda: bookings(300, 1, 300, 1) + [f"arrivals {FIRST}"] * 300,
    "chain": lambda: long_chain(2000),
    "audit": lambda: notes(5000, 1) + ["audit-of 1"] * 20,
}


def main():
    folder = pathlib.Path(sys.argv[1])
    folder.mkdir(parents=True, exist_ok=True)
    for name in sys.argv[2:] or SCRIPTS:
        text = "\n".join(SCRIPTS[name]()) + "\n"
        assert len(text) <= 1048576, f"{name} is longer than a script may be"
        (folder / f"{name}.txt").write_text(text)


if __name__ == "__main__":
    main()
