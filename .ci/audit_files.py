"""Audit files for `.ci/bytes`, whole, cut and damaged, and what the lines of each are answered."""
import itertools
import shutil

from built_desk import (BOOKED, CHECKED_IN, CHECK_IN, CODES, DONE, FIRST, FIRST_HEADER, FIRST_NOTES, HEADER, MOMENT,
                        NOTES, NOTES_SEEN, NOTES_TAKEN, SECOND)
from damaged_bytes import damaged
from surface import (BAD_REQUEST, OK, SEEN, TAKEN, answer, gap, import_of, numbered, refused, reply, request_for,
                     status_of, text_of, unread)

MARK = b"\xef\xbb\xbf"

# The audit files that are cut and damaged, one under each header, in pieces: in each, what is answered where one of its
# bytes is replaced by a control character (00, 7F), by a line feed, by a quote, by a comma, by FF. A quote at the start
# of a field opens it up to the next quote, or to the end of the file; a quote within a field in quotes closes it, but
# for two quotes, which are one; elsewhere a quote stands for itself.
NONE, CUT = "wrong header", unread.FieldCount
READ, READ_AND_TWO = numbered(TAKEN, CUT), numbered(TAKEN, CUT, CUT)
ROOM, FIT, COUNT, KIND, CARD_NO, OLD, NEW, AT = [numbered(cause, CUT) for cause in (
    unread.BadRoom, unread.BadFit, unread.BadCount, unread.BadKind, unread.BadCard, unread.BadOld, unread.BadNew,
    unread.BadMoment)]
AT_ALONE, AT_AND_TWO = numbered(unread.BadMoment), numbered(unread.BadMoment, CUT, CUT)
ONE, TWO, THREE = numbered(CUT), numbered(CUT, CUT), numbered(CUT, CUT, CUT)
COMMA = (b",", (TWO, THREE, TWO, None, TWO))
BEHIND_HEADER = [
    (b"\r", (NONE, READ, NONE, NONE, NONE)),
    (b"\n", (ROOM, None, ROOM, TWO, ROOM)),
    (b'"', (ROOM, ROOM, None, TWO, ROOM)),
    (b"10", (ROOM,) * 5),
    (b"1", (ROOM, ROOM, TWO, ROOM, ROOM)),
    (b'"', (TWO, TWO, None, TWO, TWO)),
    COMMA,
]
FIT_FIELD = [(b"1", (FIT, THREE, TWO, TWO, FIT)), COMMA]
BEHIND_LOCK = [
    (b"1", (COUNT, THREE, TWO, TWO, COUNT)),
    COMMA,
    (b"i", (KIND, THREE, TWO, TWO, KIND)),
    (b"n", (KIND, THREE, KIND, TWO, KIND)),
    COMMA,
    (b"1", (CARD_NO, THREE, TWO, TWO, CARD_NO)),
    COMMA,
    (b'"', (OLD, THREE, None, TWO, OLD)),
    (FIRST[:-1].upper().encode(), (OLD,) * 5),
    (FIRST[-1:].encode(), (OLD, OLD, ONE, OLD, OLD)),
    (b'"', (ONE, ONE, None, ONE, ONE)),
    (b",", (TWO, THREE, ONE, None, TWO)),
    (SECOND[:1].encode(), (NEW, THREE, ONE, TWO, NEW)),
    (SECOND[1:].encode(), (NEW, THREE, NEW, TWO, NEW)),
    COMMA,
    (b"2", (AT, AT_AND_TWO, AT_ALONE, TWO, AT)),
    (b"031-05-01T15:00:0", (AT, AT_AND_TWO, AT, TWO, AT)),
    (b"0", (AT, AT, AT, TWO, AT)),
    (b"\r", (AT, READ, AT, TWO, AT)),
    (b"\n1", (READ,) * 5),
]


def pieces_of(header, fit, cut_line):
    """The pieces of the audit file under this header, with these of its first line's fit, and its last line."""
    return [(MARK + header[:-1], (NONE,) * 5), *BEHIND_HEADER, *fit, *BEHIND_LOCK,
            (cut_line, (READ, READ_AND_TWO, READ, READ, READ)), (b"t", (READ,) * 5)]


AUDIT, FIRST_AUDIT = pieces_of(HEADER, FIT_FIELD, b"01,1,2,ou"), pieces_of(FIRST_HEADER, [], b"01,2,ou")
WHOLE_AUDIT, WHOLE_FIRST_AUDIT = (b"".join(piece for piece, _ in pieces) for pieces in (AUDIT, FIRST_AUDIT))

# Lines of which each has a fault less than the one before: all but the last two aren't read.
LESS_FAULTS = FIRST_HEADER + b"""\
0,0,-,-,-,-,-,
0,0,-,-,-,-,-
101,0,-,-,-,-,-
101,3,-,-,-,-,-
101,3,out,-,-,-,-
101,3,recode,0,-,-,-
101,3,out,1,-,-,-
101,3,out,1,a0,-,-
101,3,out,1,a0,a1,-
101,3,out,1,a0,a1,2031-05-01 16:00:00
101,4,recode,,a0,a1,2031-05-01 17:00:00
"""
LESS_FAULTS_OF_FITS = HEADER + b"""\
0,0,0,-,-,-,-,-,
0,0,0,-,-,-,-
0,0,0,-,-,-,-,-
101,0,0,-,-,-,-,-
101,2,0,-,-,-,-,-
101,2,3,-,-,-,-,-
101,2,3,out,-,-,-,-
101,2,3,recode,0,-,-,-
101,2,3,out,1,-,-,-
101,2,3,out,1,a0,-,-
101,2,3,out,1,a0,a1,-
101,2,3,out,1,a0,a1,2031-05-01 16:00:00
101,1,4,recode,,a0,a1,2031-05-01 17:00:00
"""
REST_OF_CAUSES = [unread.BadCount, unread.BadKind, unread.BadCard, unread.BadCard, unread.BadOld, unread.BadNew,
                  unread.BadMoment]


def with_causes(*causes):
    """The answers to lines that aren't read for these causes and the rest, and then to two of a desk that hasn't begun.
    """
    return numbered(*causes, *REST_OF_CAUSES, refused.NotBegun, refused.NotBegun)


SHORTEST_LINES, SHORTEST_FIRST_LINES = HEADER + b"x\n" * 131054, FIRST_HEADER + b"x\n" * 131056

# Bytes whose first record is neither header; and bytes that are no audit file, with the fault.
WRONG_HEADERS = [
    *(wrong for header in (HEADER, FIRST_HEADER) for wrong in (
        header.replace(b",at", b""), header.replace(b",at", b",at,"), header.replace(b"room", b"Room"),
        header.replace(b"old,new", b"new,old"), b" " + header, MARK + MARK + header)),
    *(HEADER.replace(b"fit", other) for other in (b"fit,fit", b"Fit", b"fit ", b"", b"fits")),
    HEADER.replace(b"count", b"fit"), HEADER.replace(b"fit,count", b"count,fit"),
    HEADER.replace(b"room,fit", b"fit,room"), FIRST_HEADER.replace(b"at", b"at,fit"),
    FIRST_HEADER.replace(b"room", b"room/fit"), b" " * 262144]
NO_FILES = [*((text, "no header") for text in (b"", MARK, b"\r\n", MARK + b"\r\n")),
            *((text, "wrong header") for text in WRONG_HEADERS),
            *((lines + b"x", "too large") for lines in (SHORTEST_LINES, SHORTEST_FIRST_LINES))]

# Audit files over empty books, and the answers.
FILES = [(text, numbered()) for header in (HEADER, FIRST_HEADER, HEADER.replace(b"fit", b'"fit"')) for text in (
    header, header[:-1], MARK + header, MARK + header[:-1] + b"\r\n", b"\n\n" + header.replace(b"new", b'"new"'))] + [
    (LESS_FAULTS, with_causes(CUT, unread.BadRoom)),
    (LESS_FAULTS_OF_FITS, with_causes(CUT, CUT, unread.BadRoom, unread.BadFit)),
    *((header.ljust(262144, b"x"), ONE) for header in (HEADER, FIRST_HEADER)),
    (SHORTEST_LINES, numbered(*[CUT] * 131054)), (SHORTEST_FIRST_LINES, numbered(*[CUT] * 131056))]

# Lines of audit files over a desk with a party checked in to room 101, with their answers, under the header and under
# the first one. The codes and the moment behind a line are left out here.
AT_LOCKS = [
    ("101,2,1,in,1", refused.NoFit), ("101,99,1,in,1", refused.NoFit), ("101,000000099,1,in,1", refused.NoFit),
    ("101,2,3,out,1", refused.NoFit), ("101,2,1,recode,", refused.NoFit), ("101,2,1,in,9", refused.NoFit),
    ("102,1,1,in,1", refused.NoRoom), ("102,2,1,in,1", refused.NoRoom), ("102,99,1,in,1", refused.NoRoom),
    *((f"{room},{fit},1,in,1", unread.BadFit) for room in (101, 102)
      for fit in ("0", "00", "100", "", "0000000001", "+1", "-1", " 1", "1 ", "1/1", "a", "1.0", '"1"""', "4294967297",
                  "\uff11")),
    ("0,0,0,-,-", unread.BadRoom), ("101/1,1,1,in,1", unread.BadRoom), ("101,0,0,-,-", unread.BadFit),
    ("101,2,0,-,-", unread.BadCount), ("101,1,in,1", CUT), ("101,1,1,1,in,1", CUT), ("101,,1,1,in,1", CUT),
    ("101,01,1,in,1", TAKEN), ("101,1,1,in,1", SEEN), ('"101","000000001","1","in","1"', SEEN),
    ("101,2,1,in,1", refused.NoFit), ("101,1,1,out,1", refused.Conflict), ("101,1,3,out,1", gap(2)),
    ("101,1,2,out,1", TAKEN),
]
AT_FIRST_LOCKS = [
    ("101,1,1,in,1", CUT), ("101,2,1,in,1", CUT), ("101,1,in", CUT), ("102,1,in,1", refused.NoRoom),
    ("0,0,-,-", unread.BadRoom), ("101,0,-,-", unread.BadCount), ("101,01,in,1", TAKEN), ("101,1,in,1", SEEN),
    ('"101","1","in","1"', SEEN), ("101,1,out,1", refused.Conflict), ("101,2,out,1", TAKEN),
]
# The lines of lists that show what the notes of a room did.
LISTS = ["in-house", "chain 101", "audit-of 101"]


def no_audit_files(desk):
    for text, fault in NO_FILES:
        yield text[:60], (5, b"", f"{fault}\n".encode()), desk.audit(text)


def audit_files(desk):
    for text, said in FILES:
        yield text[:60], (status_of(said), text_of([said]), b""), desk.audit(text)


def file_of(header, lines, end=b"\n"):
    """The audit file under this header of these lines, with their codes and moment, and its answers."""
    rows = [header[:-1], *(f"{line},{FIRST},{SECOND},{MOMENT}".encode() for line, _ in lines)]
    return end.join([*rows, b""]), text_of([numbered(*(said for _, said in lines))])


def audits_of_locks(desk):
    """Audit files under each header, with each end of lines, with a byte order mark and without it: on a file, and over
    HTTP."""
    opening = [*(asked for asked, _ in BOOKED), CHECK_IN]
    start, taken = desk.kept("start.db", CHECKED_IN), NOTES.replace(b"T16:", b"T15:")
    tables, marks, ends = ((HEADER, AT_LOCKS), (FIRST_HEADER, AT_FIRST_LOCKS)), (b"", MARK), (b"\n", b"\r\n", b"\r")
    for (header, lines), mark, end in itertools.product(tables, marks, ends):
        name, (file, answers) = (mark + header, end), file_of(mark + header, lines, end)
        desk.laid(start)
        yield name, (3, answers, b""), desk.audit(file, True)
        yield name, (0, taken, b""), desk.stored(b"", "audit-of", "101")
        wanted = [answer(OK, answers), answer(OK, taken, "csv")]
        said, status, faults = desk.answers([*opening, import_of(file), request_for("audit-of 101")])
        yield name, (wanted, 0, b""), (said[len(opening):], status, faults)


def audits_of_one_lock(desk):
    """The same lines, each in a file of its own."""
    start = desk.kept("start.db", CHECKED_IN)
    for header, lines in ((HEADER, AT_LOCKS), (FIRST_HEADER, AT_FIRST_LOCKS)):
        desk.laid(start)
        for line in lines:
            file, answers = file_of(header, [line])
            yield file, (status_of(line[1]), answers, b""), desk.audit(file, True)


def audits_of_lists(desk):
    """The list of a room's notes is an audit file of which each line is seen."""
    old, new, moment = *CODES[2:4], "2031-05-01T17:00:00"
    desk.begun(CHECKED_IN + f"add-room 102 DBL\ntransfer 1 102\nrecoded 102 1 {old} {new} {moment}\n".encode())
    yield "notes", (0, text_of([NOTES_TAKEN]), b""), desk.audit(FIRST_NOTES, True)
    recoded = HEADER + f"102,1,1,recode,,{old},{new},{moment}\n".encode()
    for room, lines, answers in (("101", NOTES, NOTES_SEEN), ("102", recoded, numbered(SEEN))):
        yield room, (0, lines, b""), desk.stored(b"", "audit-of", room)
        rows = desk.rows()
        yield room, (0, text_of([answers]), b""), desk.audit(lines, True)
        yield room, rows, desk.rows()


def whole_again(answers):
    """What the whole file is answered behind one with these answers."""
    return READ.replace(TAKEN, SEEN) if answers.startswith(numbered(TAKEN)) else READ


def sent_again(desk, once, file, answers):
    """An audit file that is cut or damaged is answered so, and sent whole behind it, under the header, comes to what it
    comes to alone."""
    shutil.copy(desk.folder / "start.db", desk.db)
    if answers == NONE or answers == "no header":
        yield file, (5, b"", f"{answers}\n".encode()), desk.audit(file, True)
    else:
        yield file, (status_of(answers), text_of([answers]), b""), desk.audit(file, True)
    yield file, (3, text_of([whole_again(answers)]), b""), desk.audit(WHOLE_AUDIT, True)
    yield file, once, desk.stored(text_of(LISTS), "script")


def one_guest(desk):
    """A database with a party checked in, and what its lists are after the whole audit file."""
    desk.begun(CHECKED_IN)
    shutil.copy(desk.db, desk.folder / "start.db")
    desk.audit(WHOLE_AUDIT, True)
    return desk.stored(text_of(LISTS), "script")


# What fewer than so many of the first bytes of the audit files are answered. The byte order mark and the header are 38
# bytes, or 34 with the first header; the first line is the bytes from 40 to 101, of which the moment begins at 83, or
# from 36 to 95 and at 77; and the second those from 104, or 98, on.
CUTS = [(38, NONE), (41, ""), (83, ONE), (102, AT_ALONE), (105, numbered(TAKEN)), (116, READ)]
FIRST_CUTS = [(34, NONE), (37, ""), (77, ONE), (96, AT_ALONE), (99, numbered(TAKEN)), (108, READ)]


def cut_each(desk, file, cuts):
    """Each front of this file, answered as these cuts say."""
    once = one_guest(desk)
    yield "its length", cuts[-1][0] - 1, len(file)
    for cut in range(len(file) + 1):
        answers = "no header" if cut in (0, 3) else next(answers for end, answers in cuts if cut < end)
        yield from sent_again(desk, once, file[:cut], answers)


def audits_cut(desk):
    yield from cut_each(desk, WHOLE_AUDIT, CUTS)


def first_audits_cut(desk):
    yield from cut_each(desk, WHOLE_FIRST_AUDIT, FIRST_CUTS)


def damage_each(desk, pieces):
    """The file of these pieces with each byte damaged, over HTTP, where each file has a server of its own."""
    opening = [*(asked for asked, _ in BOOKED), CHECK_IN]
    lists = [request_for(line) for line in LISTS]
    whole = import_of(WHOLE_AUDIT)
    once = desk.answers([*opening, whole, *lists])[0][-len(lists):]
    for file, answers in damaged(pieces):
        first = answer(BAD_REQUEST, b"wrong header\n") if answers == NONE else answer(OK, text_of([answers]))
        said, status, faults = desk.answers([*opening, import_of(file), whole, *lists])
        wanted = [first, reply(whole_again(answers)), *once]
        yield file, (wanted, 0, b""), (said[len(opening):], status, faults)


def audits_damaged(desk):
    yield from damage_each(desk, AUDIT)


def first_audits_damaged(desk):
    yield from damage_each(desk, FIRST_AUDIT)


def four_thousand_notes(desk):
    """An audit file of 4,000 notes, sent twice under the header and then under the first one."""
    counts, rest = range(1, 4001), f"1,{FIRST},{SECOND},{MOMENT}"
    lines = [f"{count},{'in' if count % 2 else 'out'},{rest}" for count in counts]
    file = HEADER + text_of(f"101,1,{line}" for line in lines)
    first_file = FIRST_HEADER + text_of(f"101,{line}" for line in lines)
    opening, opened = zip(*BOOKED)
    taken, seen = (reply(numbered(*[word] * len(counts))) for word in (TAKEN, SEEN))
    sent = list(map(import_of, (file, file, first_file)))
    asked = [*opening, CHECK_IN, *sent, request_for("audit-of 101")]
    wanted = [*opened, DONE, taken, seen, seen, answer(OK, file, "csv")]
    yield "sent thrice", (wanted, 0, b""), desk.answers(asked)
