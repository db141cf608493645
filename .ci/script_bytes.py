"""Scripts for `.ci/bytes`: lines of each kind, at their limits, cut and damaged."""
import itertools

from built_desk import CARD, CHECKED_IN, CHECK_IN_LINE, CODES, FIRST, ISSUED, OPENED, OPENING, SECOND
from damaged_bytes import REPLACEMENTS, replaced
from listed_desks import FIELD, LONG_LIST, LONG_SCRIPT, ROOMS
from surface import (BEGUN, KIND_ADDED, SEEN, TAKEN, UNREAD, day_is, gap, issued, kind_full, printed, refitted,
                     refused, reserved, room_added, text_of)

UNREAD_LINES = [
    "Begin 2031-05-01", "begin", "begin 2031-02-29", "add-kind dbl", "add-room 0 DBL", "reserve DBL 2099-10-02 91 B",
    "reserve DBL 2031-05-01 2 ", "check-in 1", "check-in 1 101 1", "next-day 1",
    "entered 101 1 1 a0 a1 2031-05-01 15:00:00", "entered 101 2 1 A0 00000000000a1 2031-05-01T15:00:00",
    "recoded 101 1 a0 a1 a2 2031-05-01T15:00:00", "refit", "refit 0", "refit 101 1", "Refit 101", "card", "card 0",
    "card 10000000", "card 1 1", "Card 1", "cards", "cards 1 1", "locks 101"]
NOTE = f"1 1 {FIRST} {SECOND} 2031-05-01T15:00:00"
LOCKS_UNREAD = [
    *(f"entered {lock} {NOTE}" for lock in (
        "101/", "101/0", "101/100", "101/0000000001", "/1", "/", "0/1", "10000/1", "101/1/1", "101 /1", "101/ 1",
        "101 1", "101/x")),
    f"left 101/100 {NOTE}", f"recoded 101/0 1 {FIRST} {SECOND} 2031-05-01T15:00:00",
    "chain 101/1", "audit-of 101/1", "check-in 1 101/1", "refit 101/1"]
# Lines over a desk with a party checked in to room 101, with their answers: a lock without a slash is the first one.
LOCKS_READ = [
    (f"entered 101/2 {NOTE}", refused.NoFit), (f"entered 101/99 {NOTE}", refused.NoFit),
    (f"entered 101/000000099 {NOTE}", refused.NoFit), (f"entered 102/2 {NOTE}", refused.NoRoom),
    (f"entered 102/1 {NOTE}", refused.NoRoom), (f"entered 101/1 {NOTE}", TAKEN), (f"entered 101/01 {NOTE}", SEEN),
    (f"entered 000000101/000000001 {NOTE}", SEEN), (f"entered 101 {NOTE}", SEEN),
    (f"entered 101/2 {NOTE}", refused.NoFit), (f"left 101/1 {NOTE}", refused.Conflict),
    (f"left 101/2 {NOTE}", refused.NoFit), (f"left 101/1 3 1 {FIRST} {SECOND} 2031-05-01T16:00:00", gap(2)),
    (f"recoded 101/1 2 {FIRST} {SECOND} 2031-05-01T16:00:00", refused.HeldDiffers),
    (f"recoded 101/2 2 {FIRST} {SECOND} 2031-05-01T16:00:00", refused.NoFit),
    (f"left   101/01   2 1 {FIRST} {SECOND} 2031-05-01T16:00:00", TAKEN),
]
LONG_GUEST = "Ann Lee of the house at the end of the long road by the lake"

# The name of a script, its bytes, and its answers.
SCRIPTS = [
    ("ends of lines and silent lines", b"\n   \r\n # a note\nbegin 2031-05-01\r\nnext-day 1\n\nnext-day\r",
     text_of([BEGUN, UNREAD, day_is("2031-05-02")])),
    ("one return at the end of a line", b"next-day\r\n\n # a note\n   \r\n  spare 1 \nnext-day\r\r",
     text_of([refused.NotBegun, refused.NotBegun, UNREAD])),
    ("a line of 1024 bytes", b"next-day".ljust(1024), text_of([refused.NotBegun])),
    ("a line of 1025 bytes", b"next-day".ljust(1025), text_of([UNREAD])),
    ("a line of 1024 bytes and its end", b"begin 2031-05-01".rjust(1024) + b"\r\n", text_of([BEGUN])),
    ("a line of 1025 bytes and its end", b"begin 2031-05-01".rjust(1025) + b"\r\n", text_of([UNREAD])),
    ("a line that is not UTF-8", b"reserve DBL 2031-05-01 2 \xff", text_of([UNREAD])),
    ("lines that are unread", text_of(UNREAD_LINES), text_of([UNREAD] * len(UNREAD_LINES))),
    ("locks that are unread", CHECKED_IN + text_of(LOCKS_UNREAD), OPENED + CARD + text_of([UNREAD] * 19)),
    ("locks that are read", CHECKED_IN + text_of(line for line, _ in LOCKS_READ),
     OPENED + CARD + text_of(said for _, said in LOCKS_READ)),
    ("the rest of a line is a guest",
     OPENING.replace(b"reserve DBL 2031-05-01 2 Ann Lee", b"  reserve DBL  2031-05-01 2   Ann  Lee ") +
     b"arrivals 2031-05-01\n", OPENED + printed("bookings", ["1,Ann  Lee,DBL,2031-05-01,2031-05-03"])),
    ("a guest of 60 bytes", OPENING.replace(b"Ann Lee", LONG_GUEST.encode()) + b"arrivals 2031-05-01\n",
     OPENED + printed("bookings", [f"1,{LONG_GUEST},DBL,2031-05-01,2031-05-03"])),
    ("a guest of 61 bytes", OPENING.replace(b"Ann Lee", LONG_GUEST.encode() + b"s") + b"arrivals 2031-05-01\n",
     OPENED.replace(text_of([reserved(1)]), text_of([UNREAD])) + printed("bookings", [])),
    ("a script of 1048576 bytes", b"x\n" * 524288, text_of([UNREAD] * 524288)),
]
# A script of values at their last allowed and at their first refused one, with the answers of its lines.
LIMITS = [
    ("begin 1999-12-31", UNREAD), ("begin 2100-01-01", UNREAD), ("begin 2000-01-01", BEGUN),
    ("add-kind ABCDEFG9", KIND_ADDED), ("add-kind ABCDEFGH9", UNREAD), ("add-room 0 ABCDEFG9", UNREAD),
    ("add-room 9999 ABCDEFG9", room_added(FIRST)), ("add-room 10000 ABCDEFG9", UNREAD),
    ("add-room 000009999 ABCDEFG9", refused.RoomExists), ("add-room 0000009999 ABCDEFG9", UNREAD),
    ("reserve ABCDEFG9 2000-01-01 0 A", UNREAD), ("reserve ABCDEFG9 2000-01-01 91 A", UNREAD),
    ("reserve ABCDEFG9 2000-01-01 000000090 A", reserved(1)), ("reserve ABCDEFG9 2099-12-30 2 A", refused.PastEnd),
    ("reserve ABCDEFG9 2099-12-30 1 A", reserved(2)), ("cancel 9999999", refused.NoParty), ("cancel 10000000", UNREAD),
    ("cancel 0", UNREAD), ("check-in 1 9999", issued(1, 1, FIRST, SECOND)),
    (f"entered 9999 0 1 {FIRST} {SECOND} 2099-12-31T23:59:59", UNREAD),
    (f"entered 9999 9999999 1 {FIRST} {SECOND} 2099-12-31T23:59:59", gap(1)),
    (f"entered 9999 10000000 1 {FIRST} {SECOND} 2099-12-31T23:59:59", UNREAD),
    (f"entered 9999 1 9999999 {FIRST} {SECOND} 2099-12-31T23:59:59", refused.NoCard),
    (f"entered 9999 1 10000000 {FIRST} {SECOND} 2099-12-31T23:59:59", UNREAD),
    (f"entered 9999 1 1 1{FIRST} {SECOND} 2099-12-31T23:59:59", UNREAD),
    (f"entered 9999 1 1 {FIRST} {SECOND} 2099-12-31T24:00:00", UNREAD),
    (f"entered 9999 1 1 {FIRST} {SECOND} 2100-01-01T00:00:00", UNREAD),
    (f"entered 9999/0 1 1 {FIRST} {SECOND} 2099-12-31T23:59:59", UNREAD),
    (f"entered 9999/99 9999999 1 {FIRST} {SECOND} 2099-12-31T23:59:59", refused.NoFit),
    (f"entered 9999/100 1 1 {FIRST} {SECOND} 2099-12-31T23:59:59", UNREAD),
    (f"entered 10000/1 1 1 {FIRST} {SECOND} 2099-12-31T23:59:59", UNREAD),
    (f"entered 9999 1 1 {FIRST} {SECOND} 2099-12-31T23:59:59", TAKEN),
    (f"entered 9999/1 1 1 {FIRST} {SECOND} 2099-12-31T23:59:59", SEEN),
]
# A line of the script that is cut and damaged; its answer; how many bytes its shortest front has that is read, and what
# such a front is answered; whether a quote, a comma and a cut from there on leave a line that does the same; and what
# the later lines are answered where it did nothing.
NO_KIND, NO_ROOM, NO_CARD = refused.NoKind, refused.NoRoom, refused.NoCard
GAP, ROOM_TAKEN, LOCK = gap(1), refused.RoomTaken, refitted(2, SECOND)
LINES = [
    ("begin 2031-05-01", BEGUN, 16, UNREAD, False, [refused.NotBegun] * 7),
    ("add-kind DBL", KIND_ADDED, 10, KIND_ADDED, False, [NO_KIND, NO_KIND, NO_ROOM, NO_ROOM, NO_ROOM, NO_ROOM]),
    ("add-room 101 DBL", room_added(FIRST), 14, NO_KIND, False,
     [kind_full("2031-05-01"), NO_ROOM, NO_ROOM, NO_ROOM, NO_ROOM]),
    ("reserve DBL 2031-05-01 2 Ann Lee", reserved(1), 26, reserved(1), True, [refused.NoParty, NO_CARD, GAP, LOCK]),
    (CHECK_IN_LINE, ISSUED, 12, NO_ROOM, False, [NO_CARD, GAP, LOCK]),
    (f"entered 101 1 1 {FIRST} {SECOND} 2031-05-01T15:00:00", TAKEN, 61, UNREAD, False, [GAP, ROOM_TAKEN]),
    (f"left 101/1 2 1 {FIRST} {SECOND} 2031-05-01T16:00:00", TAKEN, 60, UNREAD, False, [ROOM_TAKEN]),
    ("refit 101", ROOM_TAKEN, 7, NO_ROOM, False, []),
]
# The same of lines that replace the lock of a room twice, and of notes of its locks.
REFITS = [
    ("begin 2031-05-01", BEGUN, 16, UNREAD, False, [refused.NotBegun] * 5),
    ("add-kind DBL", KIND_ADDED, 10, KIND_ADDED, False, [NO_KIND, NO_ROOM, NO_ROOM, NO_ROOM]),
    ("add-room 101 DBL", room_added(FIRST), 14, NO_KIND, False, [NO_ROOM] * 3),
    ("refit 101", LOCK, 7, NO_ROOM, False, [LOCK, refused.NoFit]),
    ("refit 101", refitted(3, CODES[2]), 7, NO_ROOM, False, [refused.NoFit]),
    (f"recoded 101/3 1 {CODES[2]} {CODES[3]} 2031-05-01T15:00:00", refused.NotAwaited, 61, UNREAD, False, []),
]


def scripts_answered(desk):
    for name, script, answers in SCRIPTS:
        yield name, (0, answers, b""), desk.run(script)


def script_of_limits(desk):
    script, answers = map(text_of, zip(*LIMITS))
    yield script, (0, answers, b""), desk.run(script)


def script_too_large(desk):
    yield "a byte more", (5, b"", b"too large\n"), desk.run(b"x\n" * 524288 + b"x")


def long_lists(desk):
    """Lists of some 12 KB, of guests of 60 bytes with quotes and commas."""
    asked = ["arrivals 2031-05-01", *(f"check-in {room} {room}" for room in ROOMS), "in-house"]
    booked = [BEGUN, KIND_ADDED, *(room_added(CODES[room - 1]) for room in ROOMS),
              *map(reserved, ROOMS)]
    cards = [issued(room, room, CODES[room - 1], CODES[room + len(ROOMS) - 1]) for room in ROOMS]
    in_house = printed("in-house", [f"{room},{room},{FIELD},DBL,2031-05-03,no" for room in ROOMS])
    answers = text_of(booked) + LONG_LIST + text_of(cards) + in_house
    yield "a script", (0, answers, b""), desk.run(LONG_SCRIPT + text_of(asked))


def three_hundred_rooms(desk):
    """Three hundred rooms are added, as many stays booked, and each party is checked in to the room of its number: 902
    lines, over memory and a file."""
    rooms = range(1, 301)
    script = ["begin 2031-05-01", "add-kind DBL", *(f"add-room {room} DBL" for room in rooms),
              *["reserve DBL 2031-05-01 2 G"] * len(rooms), *(f"check-in {room} {room}" for room in rooms)]
    answers = [BEGUN, KIND_ADDED, *(room_added(CODES[room - 1]) for room in rooms),
               *map(reserved, rooms),
               *(issued(room, room, CODES[room - 1], CODES[room + 299]) for room in rooms)]
    yield "its lines", 902, len(script)
    yield "in memory", (0, text_of(answers), b""), desk.run(text_of(script))
    yield "on a file", (0, text_of(answers), b""), desk.stored(text_of(script), "script")


def front_answer(line, length):
    """What a front of the line of so many bytes is answered."""
    text, whole, least, front, _, _ = line
    if length == 0:
        return ""
    if length < least:
        return UNREAD
    return front if length < len(text) else whole


def lines_cut(desk, lines):
    for number, line in enumerate(lines):
        before = lines[:number]
        for cut in range(len(line[0]) + 1):
            script = text_of(it[0] for it in before) + line[0][:cut].encode()
            yield script, (0, text_of([*(it[1] for it in before), front_answer(line, cut)]), b""), desk.run(script)


def scripts_cut(desk):
    yield from lines_cut(desk, LINES)


def refits_cut(desk):
    yield from lines_cut(desk, REFITS)


def damaged_answers(line, at, byte):
    """What a line with this byte of it, or its end, replaced is answered, in one line or two; and whether it did the
    same."""
    text, whole, least, _, is_free, _ = line
    if byte == b"\n":
        return [front_answer(line, at), UNREAD if at + 1 < len(text) else ""], is_free and least <= at
    is_same = is_free and byte in (b'"', b",") and least <= at + 1
    return [whole if is_same else UNREAD], is_same


def lines_damaged(desk, lines):
    starts = list(itertools.accumulate((len(line[0]) + 1 for line in lines), initial=0))
    for place, kind, script in replaced(text_of(line[0] for line in lines)):
        number = max(n for n, start in enumerate(starts) if start <= place)
        line, at = lines[number], place - starts[number]
        answers, is_same = damaged_answers(line, at, REPLACEMENTS[kind:kind + 1])
        later = [it[1] for it in lines[number + 1:]] if is_same else line[5]
        later = line[5][1:] if at == len(line[0]) else later
        yield script, (0, text_of([*(it[1] for it in lines[:number]), *answers, *later]), b""), desk.run(script)


def scripts_damaged(desk):
    yield from lines_damaged(desk, LINES)


def refits_damaged(desk):
    yield from lines_damaged(desk, REFITS)
