"""Reads and writes of the built program that fail, take no byte, move few bytes or are interrupted, for
`.ci/failures`."""
import errno
import itertools

from built_desk import (CARD, CHECKED_IN, CHECK_IN, CODES, DONE, FIRST, FIRST_NOTES, HEADER, NOTES, NOTES_SEEN,
                        NOTES_TAKEN, OPENING, SECOND)
from listed_desks import LISTED, LISTS, LONG_LISTS, LONG_LOCKS
from surface import (BEGUN, CONTINUE, KIND_ADDED, NOT_FOUND, OK, answer, answer_to, day_is, exchange_of, import_of,
                     issued, printed, refitted, refused, reply, request, request_for, room_added, text_of)

INTERRUPTED = errno.EINTR
SPARE = text_of([issued(2, 1, FIRST, SECOND)])
LOCK, NEXT_LOCK = text_of([refitted(2, SECOND)]), text_of([refitted(3, CODES[2])])
NO_ROOM = text_of([refused.NoRoom])

# The lines of a script, what each is answered, and what it is answered when it comes again.
LINES = [
    ("begin 2031-05-01", BEGUN, refused.AlreadyBegun), ("add-kind DBL", KIND_ADDED, refused.KindExists),
    ("add-room 101 DBL", room_added(FIRST), refused.RoomExists),
    *((line, rows, rows) for line, rows in (
        ("chain 101", [f"0,{FIRST},held"]), ("business-day", ["2031-05-01"]), ("room-status", ["101,DBL,,no,0"]),
        ("inside", []), ("bookings", []), ("availability 2031-05-01 2", ["DBL,1,1"]), ("cards 1", []), ("card 1", []),
        ("locks", ["101,1,0,"])))]
SCRIPT = text_of(line for line, *_ in LINES)
ANSWERS = [(printed(line, first), printed(line, again)) for line, first, again in LINES]

SENT, IMPORTED, IMPORTED_AGAIN = import_of(NOTES), reply(NOTES_TAKEN), reply(NOTES_SEEN)
ASKED, IN_HOUSE_ANSWER = exchange_of("in-house", ["101,1,Ann Lee,DBL,2031-05-03,yes"])
NOBODY = answer_to("in-house", [])
SPARED = exchange_of("spare 1", issued(2, 1, FIRST, SECOND))
REFITTED, REFIT = exchange_of("refit 101", refitted(2, SECOND)), request_for("refit 101")


def cuts(text):
    """A front of the text for each of its bytes, and how the write of the byte behind it ends: it fails, or it takes no
    byte."""
    for before in range(len(text)):
        for why in (errno.EIO, 0):
            yield text[:before], f"1 {before + 1} 1 {why}"


def cut(front):
    """A run whose output was cut behind this front, which it tells."""
    return 5, front, b"write\n"


def times(number):
    """So many interruptions, and then none."""
    return f"0 1 {number} {INTERRUPTED}"


def times_each(number):
    """So many interruptions before each of two calls."""
    return f"0 1 {number} {INTERRUPTED} {number + 2} {number} {INTERRUPTED}"


def scripts_cut(desk):
    """The lines that were carried out stand: those whose answer was begun."""
    for front, calls in cuts(b"".join(first for first, _ in ANSWERS)):
        starts = itertools.accumulate((len(first) for first, _ in ANSWERS), initial=0)
        done = sum(start <= len(front) for start in list(starts)[:-1])
        desk.laid(None)
        yield calls, cut(front), desk.stored(SCRIPT, "script", WRITES=calls)
        again = b"".join(pair[number < done] for number, pair in enumerate(ANSWERS))
        yield calls, (0, again, b""), desk.stored(SCRIPT, "script")


def scripts_unread(desk):
    """A script of which a read fails begins nothing, whether reads move thirty bytes or one; behind the read that finds
    its end there is none."""
    whole = 0, b"".join(first for first, _ in ANSWERS), b""
    for piece in (30, 1):
        reads = len(range(0, len(SCRIPT), piece)) + 1
        for call in range(1, reads + 2):
            desk.laid(None)
            calls = f"{piece} {call} 1 {errno.EIO}"
            ended = (5, b"", b"read\n") if call <= reads else whole
            yield calls, ended, desk.stored(SCRIPT, "script", READS=calls)
            if call <= reads:
                yield calls, whole, desk.stored(SCRIPT, "script")
    yield "one byte at a time", (0, text_of([BEGUN]), b""), desk.run(b"begin 2031-05-01\n", READS="1", WRITES="1")


def scripts_interrupted(desk):
    """The thousandth interruption of a call is a fault, of its reads and its writes together."""
    begin = b"begin 2031-05-01"
    begun = (0, text_of([BEGUN]), b"")
    yield "999 reads", begun, desk.run(begin, READS=times(999))
    yield "1000 reads", (5, b"", b"read\n"), desk.run(begin, READS=times(1000))
    yield "999 writes", begun, desk.run(begin, WRITES=times(999))
    yield "1000 writes", cut(b""), desk.run(begin, WRITES=times(1000))
    yield "600 reads and 399 writes", begun, desk.run(begin, READS=times(600), WRITES=times(399))
    yield "600 reads and 400 writes", cut(b""), desk.run(begin, READS=times(600), WRITES=times(400))
    header = printed("left-behind", [])
    lists = b"left-behind\nleft-behind\n"
    yield "499 of each of two lists", (0, header * 2, b""), desk.run(lists, WRITES=times_each(499))
    for number in (500, 600):
        yield f"{number} of each of two lists", cut(header), desk.run(lists, WRITES=times_each(number))


def commands_cut(desk):
    """A check-in whose reply is cut stands: the party gets a spare card. So does a refit: the next one gives another
    lock."""
    start = desk.kept("start.db", OPENING)
    for words, said, later, answered in ((["check-in", "1", "101"], CARD, ["spare", "1"], SPARE),
                                          (["refit", "101"], LOCK, ["refit", "101"], NEXT_LOCK)):
        ends = [(calls, cut(front)) for front, calls in cuts(said)]
        for calls, ended in [*ends, (times(999), (0, said, b"")), (times(1000), cut(b""))]:
            desk.laid(start)
            yield (words, calls), ended, desk.stored(b"", *words, WRITES=calls)
            yield (words, calls), (0, answered, b""), desk.stored(b"", *later)


def lists_cut(desk):
    """Each list ends by a front of it, and is whole the next time."""
    desk.begun(LISTED)
    for words, text in LISTS:
        for front, calls in cuts(text):
            yield (words, calls), cut(front), desk.stored(b"", *words, WRITES=calls)
        yield words, (0, text, b""), desk.stored(b"", *words)
    for front, calls in cuts(NO_ROOM):
        yield calls, cut(front), desk.stored(b"", "audit-of", "109", WRITES=calls)


def lists_interrupted(desk):
    """A list's header is one write, and its rows are another; what it tells counts too."""
    desk.begun(LISTED)
    failing = f"{times(600)} 601 1 {errno.EIO}"
    for words, text in LISTS:
        header = text[:text.index(b"\n") + 1]
        for calls in ("1", times(999), times_each(499)):
            yield (words, calls), (0, text, b""), desk.stored(b"", *words, WRITES=calls)
        yield (words, "1000"), cut(b""), desk.stored(b"", *words, WRITES=times(1000))
        yield (words, "500 of each"), cut(header), desk.stored(b"", *words, WRITES=times_each(500))
        yield (words, "399 more"), cut(b""), desk.stored(b"", *words, WRITES=failing, TELLS=times(399))
        yield (words, "400 more"), (5, b"", b""), desk.stored(b"", *words, WRITES=failing, TELLS=times(400))


def long_lists_cut(desk):
    """Each write of a long list fails: a front of it is written, of whole rows."""
    for script, lists in [*LONG_LISTS, LONG_LOCKS]:
        desk.begun(script)
        for words, text in lists:
            header = text.index(b"\n") + 1
            for call, least, most in ((1, 0, 0), (2, header, header), (3, 8000, len(text) - 1)):
                status, output, faults = desk.stored(b"", *words, WRITES=f"0 {call} 1 {errno.EIO}")
                is_front = text.startswith(output) and least <= len(output) <= most and output[-1:] in (b"", b"\n")
                yield (words, call), (5, b"write\n", True), (status, faults, is_front)
            yield words, (0, text, b""), desk.stored(b"", *words)


def audits_cut(desk):
    """The notes whose answers are cut stand, of a file of the first header too."""
    start = desk.kept("start.db", CHECKED_IN)
    for (front, calls), file in itertools.product(cuts(text_of([NOTES_TAKEN])), (NOTES, FIRST_NOTES)):
        desk.laid(start)
        yield calls, cut(front), desk.audit(file, True, WRITES=calls)
        yield calls, (0, text_of([NOTES_SEEN]), b""), desk.audit(NOTES, True)


def faults_unheard(desk):
    """A fault that can't be told is told to nobody."""
    failing = f"0 1 9 {errno.EIO}"
    yield "no header", (5, b"", b""), desk.audit(b"", TELLS=failing)
    yield "answers", (5, b"", b""), desk.audit(HEADER + b"x\n", WRITES=failing, TELLS=failing)


def requests_unread(desk):
    """A check-in or a refit of which the read of a byte fails isn't begun, and the next one is; behind its last byte
    nothing is read. Where a check-in asks for an interim answer, that alone is written before the reads of its body.
    """
    start = desk.kept("start.db", OPENING)
    expecting = CHECK_IN.replace(b"8\r\n\r\n", b"8\r\nExpect: 100-continue\r\n\r\n")
    for asked, done, interim in ((CHECK_IN, DONE, b""), (*REFITTED, b""), (expecting, CONTINUE + DONE, CONTINUE)):
        head = asked.index(b"\r\n\r\n") + 4
        for call in range(1, len(asked) + 2):
            desk.laid(start)
            said = [interim if call > head else b"", done] if call <= len(asked) else [done, b""]
            ended = desk.answers([asked, asked], is_stored=True, RECEIVES=f"1 {call} 1 {errno.EIO}")
            yield (asked, call), (said, 0, b"read\n"), ended


def refusals_unread(desk):
    """A request that is refused by its head has its answer whether or not the reads behind it fail, and nothing is told
    of these; behind the end of what is sent nothing is read."""
    body = b"x" * 20
    asked, not_found = request("POST /nowhere", body), answer(NOT_FOUND)
    head, end = len(asked) - len(body), len(asked) + 1
    failing = [(call, errno.EIO) for call in range(1, end + 2)] + [(call, 0) for call in range(head + 1, end)]
    for call, why in failing:
        said = [b"" if call <= head else not_found, b"" if call > end else NOBODY]
        told = b"" if head < call <= end else b"read\n"
        yield (call, why), (said, 0, told), desk.answers([asked, ASKED], RECEIVES=f"1 {call} 1 {why}")
    calls = f"0 2 1000 {INTERRUPTED}"
    yield calls, ([not_found, NOBODY], 0, b""), desk.answers([asked, ASKED], RECEIVES=calls)


def requests_cut(desk):
    """A check-in whose answer is cut stands: the party gets a spare card. So does a refit: the next one gives another
    lock."""
    start = desk.kept("start.db", OPENING)
    for asked, done, later, answered in ((CHECK_IN, DONE, *SPARED), (*REFITTED, REFIT, reply(refitted(3, CODES[2])))):
        for front, calls in cuts(done):
            desk.laid(start)
            ended = desk.answers([asked, later], is_stored=True, SENDS=calls)
            yield (asked, calls), ([front, answered], 0, b"write\n"), ended


def requests_interrupted(desk):
    """The thousandth interruption of a request is a fault, of its reads and its writes together."""
    start = desk.kept("start.db", OPENING)
    whole, unread, unwritten = (
        ([DONE, SPARED[1]], 0, b""), ([b"", reply(refused.NotInHouse)], 0, b"read\n"),
        ([b"", SPARED[1]], 0, b"write\n"))
    for reads, writes, ended in ((999, 0, whole), (1000, 0, unread), (0, 999, whole), (0, 1000, unwritten),
                                 (600, 399, whole), (600, 400, unwritten)):
        desk.laid(start)
        yield (reads, writes), ended, desk.answers([CHECK_IN, SPARED[0]], is_stored=True, RECEIVES=times(reads),
                                                   SENDS=times(writes))


def list_requests_cut(desk):
    """A list of which the read of a byte of its request fails isn't answered, and one whose answer is cut ends there;
    the next one is answered."""
    desk.begun(LISTED)
    for words, text in LISTS:
        asked, whole = request_for(" ".join(words)), answer(OK, text, "csv")
        for call in range(1, len(asked) + 1):
            ended = desk.answers([asked, asked], is_stored=True, RECEIVES=f"1 {call} 1 {errno.EIO}")
            yield (words, call), ([b"", whole], 0, b"read\n"), ended
        for before in range(len(whole)):
            ended = desk.answers([asked, asked], is_stored=True, SENDS=f"1 {before + 1} 1 {errno.EIO}")
            yield (words, before), ([whole[:before], whole], 0, b"write\n"), ended


def interim_answers_cut(desk):
    """A request whose interim answer is cut isn't begun; where only the answer behind it is cut, it stands."""
    begin = request_for("begin 2031-05-01").replace(b"\r\n\r\n", b"\r\nExpect: 100-Continue\r\n\r\n")
    next_day = exchange_of("next-day", day_is("2031-05-02"))
    calls = f"25 1 1 {errno.EIO} 3 1 {errno.EIO} 5 1 {errno.EIO}"
    ended = desk.answers([begin, begin, begin, next_day[0]], SENDS=calls)
    yield calls, ([b"", CONTINUE, CONTINUE, next_day[1]], 0, b"write\n" * 3), ended
    calls = f"25 1 1 {errno.EIO}"
    ended = desk.answers([begin, next_day[0]], SENDS=calls)
    yield calls, ([b"", reply(refused.NotBegun)], 0, b"write\n"), ended


def notes_stand(desk):
    """The answer to an audit file is cut, that to the same file again, and a list: the notes stand."""
    for before, asked, text in ((CHECKED_IN, SENT, IMPORTED), (None, SENT, IMPORTED_AGAIN),
                                (None, ASKED, IN_HOUSE_ANSWER)):
        start = desk.kept("start.db", before) if before else desk.db
        for length in range(len(text)):
            if before:
                desk.laid(start)
            ended = desk.answers([asked, SENT, ASKED], is_stored=True, SENDS=f"1 {length + 1} 1 {errno.EIO}")
            yield length, ([text[:length], IMPORTED_AGAIN, IN_HOUSE_ANSWER], 0, b"write\n"), ended
