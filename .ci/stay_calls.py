"""A stay, its notes and the replacement of a lock, each step by a call of its own on a database, for `.ci/program`."""
import shlex

from built_desk import CHECK_IN_LINE, CODES, MOMENT
from surface import (BEGUN, CANCELLED, CHECKED_OUT, FIRST_NOTES_HEADER, KIND_ADDED, NOTES_HEADER, SEEN, TAKEN, day_is,
                     gap, issued, kind_full, numbered, printed, refitted, refused, reserved, room_added, status_of,
                     text_of, unread)

FIRST, SECOND, THIRD, FOURTH, FIFTH, SIXTH = CODES[:6]
LATER, LAST, NEXT = "2031-05-01T16:00:00", "2031-05-01T17:00:00", "2031-05-02T15:00:00"
ROOM_ADDED = b"begin 2031-05-01\nadd-kind DBL\nadd-room 101 DBL\n"
# Scripts that leave what the calls of the tables below leave: a party at room 101, its entry there, its move and its
# end, another lock of the room and the next day.
CHECKED_IN = ROOM_ADDED + b"""\
add-room 102 DBL
reserve DBL 2031-05-01 2 Ann Lee
reserve DBL 2031-05-02 1 Bo
cancel 2
check-in 1 101
"""
ENTERED = CHECKED_IN + f"entered 101 1 1 {FIRST} {THIRD} {MOMENT}\n".encode()
GONE = ENTERED + f"""\
spare 1
transfer 1 102
left 101 2 1 {FIRST} {THIRD} {LATER}
recoded 102 1 {SECOND} {FOURTH} {LAST}
check-out 1
""".encode()
DAY_AFTER = GONE + b"refit 101\nnext-day\n"

# Audit files by their names, and their lines.
ENTRY, ELSEWHERE = f"in,1,{FIRST},{THIRD},{MOMENT}", f"out,1,a0,a1,{MOMENT}"
EXIT, LATE_ENTRY = f"out,1,{FIRST},{THIRD},{LATER}", f"in,1,{FIRST},{THIRD},{NEXT}"
NOTES_101, NOTES_102 = [f"101,1,1,{ENTRY}", f"101,1,2,{EXIT}"], [f"102,1,1,recode,,{SECOND},{FOURTH},{LAST}"]
AUDIT_FILES = {
    "no-notes.csv": [NOTES_HEADER], "first-no-notes.csv": [FIRST_NOTES_HEADER],
    "notes.csv": [NOTES_HEADER, f"101,2,1,{ENTRY}", f"101,1,1,{ENTRY}", f"9,2,1,{ELSEWHERE}", f"101,0,1,{ENTRY}",
                  f"101,1,{ENTRY}"],
    "first-notes.csv": [FIRST_NOTES_HEADER, f"101,1,{ENTRY}", f"9,1,{ELSEWHERE}", f"101,1,1,{ENTRY}", "x"],
    "first-one.csv": [FIRST_NOTES_HEADER, f"101,1,{ENTRY}"], "one.csv": [NOTES_HEADER, f"101,1,1,{ENTRY}"],
    "gap.csv": [NOTES_HEADER, f"101,1,9,{ENTRY}"], "no-fit.csv": [NOTES_HEADER, f"101,2,1,{ENTRY}"],
    "no-room.csv": [NOTES_HEADER, f"0,1,1,{ENTRY}"],
    "101.csv": [NOTES_HEADER, *NOTES_101], "102.csv": [NOTES_HEADER, *NOTES_102],
    "late.csv": [NOTES_HEADER, f"101,1,2,{EXIT}", f"101,1,3,{LATE_ENTRY}", f"101,2,1,{LATE_ENTRY}",
                 f"101,3,1,{LATE_ENTRY}"],
}

# Calls on a database, one after the other: the words, and the answer. First those of a stay, where no file is at first.
STAY = [
    ("in-house", []), ("next-day", refused.NotBegun), ("begin 2031-05-01", BEGUN),
    ("begin 2031-05-01", refused.AlreadyBegun), ("add-kind DBL", KIND_ADDED), ("add-room 101 DBL", room_added(FIRST)),
    ("add-room 102 DBL", room_added(SECOND)), ("reserve DBL 2031-05-01 2 'Ann Lee'", reserved(1)),
    ("reserve DBL 2031-05-02 1 Bo", reserved(2)), ("reserve DBL 2031-05-02 1 Cy", kind_full("2031-05-02")),
    ("cancel 2", CANCELLED), ("arrivals 2031-05-01", ["1,Ann Lee,DBL,2031-05-01,2031-05-03"]),
    (CHECK_IN_LINE, issued(1, 1, FIRST, THIRD)), ("transfer 1 101", refused.SameRoom), ("cancel 1", refused.NotBooked),
    ("chain 109", refused.NoRoom), ("chain 101", [f"0,{FIRST},held", f"1,{THIRD},awaited"]),
    ("business-day", ["2031-05-01"]), ("room-status", ["101,DBL,1,no,1", "102,DBL,,no,0"]), ("inside", []),
    ("bookings", []), ("availability 2031-05-01 2", ["DBL,2,1"]), ("card 1", [f"1,1,Ann Lee,{FIRST},{THIRD}"]),
    ("card 2", []), ("cards 1", [f"1,{FIRST},{THIRD}"]), ("cards 2", []), ("locks", ["101,1,0,", "102,1,0,"]),
]
# Then those of notes, by words and by audit files: of a lock that the room hasn't, of no room, again.
NOTED = [
    (f"entered 101/2 1 1 {FIRST} {THIRD} {MOMENT}", refused.NoFit),
    ("audit first-notes.csv", numbered(TAKEN, refused.NoRoom, unread.FieldCount, unread.FieldCount)),
    ("audit notes.csv", numbered(refused.NoFit, SEEN, refused.NoRoom, unread.BadFit, unread.FieldCount)),
    ("audit first-notes.csv", numbered(SEEN, refused.NoRoom, unread.FieldCount, unread.FieldCount)),
    ("audit first-one.csv", numbered(SEEN)), ("audit one.csv", numbered(SEEN)), ("audit gap.csv", numbered(gap(2))),
    ("audit no-fit.csv", numbered(refused.NoFit)), ("audit no-room.csv", numbered(unread.BadRoom)),
    (f"entered 101 1 1 {FIRST} {THIRD} '2031-05-01 15:00:00'", SEEN),
    (f"entered 101/1 1 1 {FIRST} {THIRD} {MOMENT}", SEEN),
    (f"entered 101/2 1 1 {FIRST} {THIRD} {MOMENT}", refused.NoFit),
    (f"left 101/99 2 1 {FIRST} {THIRD} {LATER}", refused.NoFit),
    (f"recoded 101/2 2 {FIRST} {THIRD} {LATER}", refused.NoFit),
    (f"entered 9/2 1 1 {FIRST} {THIRD} {MOMENT}", refused.NoRoom), ("spare 1", issued(2, 1, FIRST, THIRD)),
    ("reissue 9", refused.NoParty), ("in-house", ["101,1,Ann Lee,DBL,2031-05-03,yes"]),
    ("transfer 1 102", issued(3, 1, SECOND, FOURTH)), ("chain 101", [f"0,{FIRST},passed", f"1,{THIRD},held"]),
    (f"left 101/01 2 1 {FIRST} {THIRD} {LATER}", TAKEN),
    (f"recoded 101 3 {FIRST} {THIRD} {LATER}", refused.HeldDiffers), (f"recoded 102 1 {SECOND} {FOURTH} {LAST}", TAKEN),
    ("audit-of 102", NOTES_102), ("audit 102.csv", numbered(SEEN)), ("audit-of 101", NOTES_101),
    ("audit 101.csv", numbered(SEEN, SEEN)), ("left-behind", []), ("locks", [f"101,1,2,{LATER}", f"102,1,1,{LAST}"]),
    ("refit 102", refused.RoomTaken), ("refit 9", refused.NoRoom), ("check-out 1", CHECKED_OUT),
]
# Then a lock is replaced: its notes are seen, and no more are taken of it.
REPLACED = [
    ("refit 101", refitted(2, FIFTH)), ("locks", ["101,2,0,", f"102,1,1,{LAST}"]),
    ("card 3", [f"3,1,Ann Lee,{SECOND},{FOURTH}"]),
    ("cards 1", [f"1,{FIRST},{THIRD}", f"2,{FIRST},{THIRD}", f"3,{SECOND},{FOURTH}"]),
    ("chain 101", [f"0,{FIRST},passed", f"1,{THIRD},passed", f"2,{FIFTH},held"]),
    ("audit 101.csv", numbered(SEEN, SEEN)),
    ("audit late.csv", numbered(SEEN, refused.OldFit, refused.LockShut, refused.NoFit)),
    (f"entered 101/1 3 1 {FIRST} {THIRD} {NEXT}", refused.OldFit),
    (f"entered 101/2 2 1 {FIRST} {THIRD} {NEXT}", gap(1)),
    (f"recoded 101/2 1 {FIFTH} {THIRD} {NEXT}", refused.NotAwaited), ("audit-of 101", NOTES_101),
    ("next-day", day_is("2031-05-02")),
]
# An entry of another party by a call of its own.
ENTRY_ALONE = [
    ("reserve DBL 2031-05-02 1 Di", reserved(3)),
    ("check-in 3 102", issued(4, 3, FOURTH, SIXTH)),
    (f"entered 102 2 4 {FOURTH} {SIXTH} {NEXT}", TAKEN),
]


def calls(desk, rows):
    """A call for each of these lines and answers on the database, which is opened anew; a file of its words is one of
    the folder."""
    for line, said in rows:
        words = [desk.folder / word if word.endswith(".csv") else word for word in shlex.split(line)]
        yield line, (status_of(said), printed(line, said), b""), desk.stored(b"", *words)


def laid(desk, name, text):
    """A file of this name in the folder, with this text."""
    file = desk.folder / name
    file.write_bytes(text)
    return file


def laid_files(desk):
    """The audit files in the folder."""
    for name, lines in AUDIT_FILES.items():
        laid(desk, name, text_of(lines))


def as_by_script(desk, script):
    """The tables and rows of the database are those that this script leaves on a new one."""
    rows = desk.rows()
    desk.begun(script)
    yield "the rows", desk.rows(), rows


def stay_by_calls(desk):
    """Each command and each list of a stay is a call on the database. A draw passes over what was issued before, since
    each call has the same seed. Between calls the log has no page. The rows are those that a script leaves."""
    for row in STAY:
        yield from calls(desk, [row])
        yield (row[0], "the log"), True, (desk.folder / "desk.db-wal").stat().st_size < 4096
    yield from as_by_script(desk, CHECKED_IN)


def notes_by_calls(desk):
    """Notes by words and by audit files, of which each line has its answer; and the lists of them, which are audit
    files: imported again, each of their lines is seen."""
    desk.begun(CHECKED_IN)
    laid_files(desk)
    yield from calls(desk, NOTED)
    yield from as_by_script(desk, GONE)


def lock_replaced(desk):
    """A room gets another lock: the notes of the first one are seen, and no more are taken of it."""
    desk.begun(GONE)
    laid_files(desk)
    yield from calls(desk, REPLACED)
    yield from as_by_script(desk, DAY_AFTER)


def entry_by_calls(desk):
    """The next party at a room enters it."""
    desk.begun(DAY_AFTER)
    yield from calls(desk, ENTRY_ALONE)


def last_lock(desk):
    """Ninety-eight refits of a room give its last lock. One more is refused."""
    given = [refitted(fit, code) for fit, code in enumerate(CODES[1:99], 2)]
    answers = text_of([BEGUN, KIND_ADDED, room_added(FIRST), *given])
    yield "refits", (0, answers, b""), desk.stored(ROOM_ADDED + b"refit 101\n" * 98, "script")
    yield from calls(desk, [("refit 101", refused.FitsUsedUp), ("locks", ["101,99,0,"])])
