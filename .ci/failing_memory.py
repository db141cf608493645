"""Allocations of the built program that find no memory, in memory and on databases, for `.ci/failures`."""
import bisect
import datetime
import itertools
import re
import shutil

from built_desk import (BOOKED, CARD, CHECKED_IN, CHECK_IN, CODES, DONE, FIRST, FIRST_DESKS, INDEXES, MOMENT, NOTES,
                        NOTES_SEEN, NOTES_TAKEN, OPENING, SECOND, UPGRADE)
from listed_desks import LISTED, LONG_LISTS
from surface import (BEGUN, CANCELLED, CHECKED_OUT, KIND_ADDED, SEEN, TAKEN, day_is, exchange_of, import_of, issued,
                     kind_full, numbered, printed, refitted, refused, reply, reserved, room_added, script_of,
                     stopped_after, text_of)

# How a command and a run that lack memory tell it, and of how many allocations of some runs on a database one is
# refused.
LACKING, NO_MEMORY = text_of([refused.Memory]), (4, b"", b"memory\n")
MADE_EVERY, OPENED_EVERY, SCRIPT_EVERY, AUDIT_EVERY, LONG_EVERY = 29, 29, 13, 13, 7
TODAY, NONE_BEHIND = printed("business-day", ["2031-05-01"]), printed("left-behind", [])


def day(number):
    """The day of this number, counted from the first."""
    return (datetime.date(2031, 5, 1) + datetime.timedelta(days=number)).isoformat()


# Lines that are each given twice: what they are answered first, and again, where that is something else. A stay of 90
# nights is counted in four spans of 32 nights, behind thirteen spans that have a count already: the sixteenth wants
# memory, and so does a code behind sixteen others, since fifteen fill a node of these maps.
TWICE = [
    ("begin 2031-05-01", BEGUN, refused.AlreadyBegun),
    *((f"add-kind {kind}", KIND_ADDED, refused.KindExists) for kind in ("DBL", "SGL")),
    *((f"add-room {room} DBL", room_added(CODES[room - 1]), refused.RoomExists) for room in range(1, 17)),
    ("add-room 101 SGL", room_added(CODES[16]), refused.RoomExists),
    ("reserve SGL 2031-05-01 2 Ann Lee", reserved(1), kind_full("2031-05-01")),
    *((f"reserve SGL {day(32 * span)} 1 Ada", reserved(span + 1), kind_full(day(32 * span))) for span in range(1, 14)),
    (f"reserve SGL {day(425)} 90 Bo", reserved(15), kind_full(day(425))),
    ("arrivals 2031-05-01", ["1,Ann Lee,SGL,2031-05-01,2031-05-03"]),
    ("check-in 1 101", issued(1, 1, CODES[16], CODES[17]), refused.NotBooked),
    ("in-house", ["101,1,Ann Lee,SGL,2031-05-03,no"]), ("chain 101", [f"0,{CODES[16]},held", f"1,{CODES[17]},awaited"]),
    ("left-behind", []), ("audit-of 101", []), ("business-day", ["2031-05-01"]),
    ("room-status", [*(f"{room},DBL,,no,0" for room in range(1, 17)), "101,SGL,1,no,1"]), ("inside", []),
    ("bookings", [*(f"{span + 1},Ada,SGL,{day(32 * span)},{day(32 * span + 1)}" for span in range(1, 14)),
                  f"15,Bo,SGL,{day(425)},{day(515)}"]),
    ("availability 2031-05-02 31", ["DBL,16,16", "SGL,1,0"]), ("cards 1", [f"1,{CODES[16]},{CODES[17]}"]),
    ("card 1", [f"1,1,Ann Lee,{CODES[16]},{CODES[17]}"]), ("locks", [f"{room},1,0," for room in (*range(1, 17), 101)]),
    ("add-room 102 SGL", room_added(CODES[18]), refused.RoomExists),
    ("transfer 1 102", issued(2, 1, CODES[18], CODES[19]), refused.SameRoom),
    ("check-out 1", CHECKED_OUT, refused.NotInHouse), ("refit 101", refitted(2, CODES[20]), refitted(3, CODES[21])),
    ("next-day", day_is("2031-05-02"), day_is("2031-05-03")),
]
# The same of lines on the desk of LISTED. The last three do the same again: another lock, another card, another day.
RECODED, LINK = f"{CODES[2]},{CODES[4]},{MOMENT}", f"{CODES[3]},{CODES[4]},{MOMENT}"
NEW_HOUSE = ["102,1,Ann Lee,DBL,2031-05-03,no", "103,5,Ed,SGL,2031-05-03,no"]
NEW_CHAIN = [f"0,{CODES[2]},passed", f"1,{CODES[3]},passed", f"2,{CODES[4]},held", f"3,{CODES[7]},awaited"]
NEW_NOTES = [f"102,1,1,recode,,{RECODED}", f"102,1,2,in,3,{LINK}"]
STORED_TWICE = [
    ("add-kind SGL", KIND_ADDED, refused.KindExists), ("add-room 103 SGL", room_added(CODES[5]), refused.RoomExists),
    ("reserve SGL 2031-05-01 2 Ed", reserved(5), kind_full("2031-05-01")),
    ("arrivals 2031-05-01", ["5,Ed,SGL,2031-05-01,2031-05-03"]),
    ("bookings", ["4,Di,DBL,2031-05-03,2031-05-05", "5,Ed,SGL,2031-05-01,2031-05-03"]),
    ("availability 2031-05-02 2", ["DBL,2,1", "SGL,1,0"]),
    ("check-in 5 103", issued(4, 5, CODES[5], CODES[6]), refused.NotBooked), ("cancel 4", CANCELLED, refused.NotBooked),
    ("left-behind", [f"102,{CODES[2]},{CODES[4]},2"]), ("business-day", ["2031-05-01"]),
    ("room-status", ["101,DBL,1,yes,0", "102,DBL,3,no,2", "103,SGL,5,no,1"]), ("inside", ["101,1,1"]),
    ("cards 3", [f"3,{CODES[3]},{CODES[4]}"]), ("card 3", [f'3,3,"Lee, Cy",{CODES[3]},{CODES[4]}']),
    (f"left 101/1 2 1 {FIRST} {SECOND} {MOMENT}", TAKEN, SEEN),
    (f"recoded 102 1 {CODES[2]} {CODES[4]} {MOMENT}", TAKEN, SEEN),
    (f"entered 102 2 3 {CODES[3]} {CODES[4]} {MOMENT}", TAKEN, SEEN), ("check-out 3", CHECKED_OUT, refused.NotInHouse),
    ("transfer 1 102", issued(5, 1, CODES[4], CODES[7]), refused.SameRoom), ("in-house", NEW_HOUSE),
    ("chain 102", NEW_CHAIN), ("audit-of 102", NEW_NOTES),
    ("locks", [f"101,1,2,{MOMENT}", f"102,1,2,{MOMENT}", "103,1,0,"]),
    ("refit 101", *(refitted(fit, CODES[fit + 6]) for fit in (2, 3))),
    ("spare 1", *(issued(card, 1, CODES[4], CODES[7]) for card in (6, 7))),
    ("next-day", day_is("2031-05-02"), day_is("2031-05-03")),
]


def left_by(locks, cards, days):
    """Lines behind these, and their answers, where room 101 got so many locks after its first one, so many cards were
    issued, and so many days have passed: lists, a spare card and the next day."""
    codes = [FIRST, SECOND, *CODES[8:8 + locks]]
    yield "in-house", NEW_HOUSE
    yield "chain 101", [f"{place},{code},{'passed' if code != codes[-1] else 'held'}"
                        for place, code in enumerate(codes)]
    yield "chain 102", NEW_CHAIN
    yield "chain 103", [f"0,{CODES[5]},held", f"1,{CODES[6]},awaited"]
    yield "audit-of 101", [f"101,1,{note},1,{FIRST},{SECOND},{MOMENT}" for note in ("1,in", "2,out")]
    yield "audit-of 102", NEW_NOTES
    yield from ((line, []) for line in ("arrivals 2031-05-01", "arrivals 2031-05-03", "left-behind"))
    yield "business-day", [day(days)]
    yield "room-status", ["101,DBL,,no,0", "102,DBL,1,no,1", "103,SGL,5,no,1"]
    yield "inside", ["102,3,3"]
    yield "bookings", []
    yield "availability 2031-05-02 1", ["DBL,2,1" if days <= 1 else "DBL,2,0", "SGL,1,0"]
    yield "cards 5", [f"4,{CODES[5]},{CODES[6]}"]
    yield "card 4", [f"4,5,Ed,{CODES[5]},{CODES[6]}"]
    yield "locks", [f"101,{locks + 1},0," if locks else f"101,1,2,{MOMENT}", f"102,1,2,{MOMENT}", "103,1,0,"]
    yield "spare 5", issued(cards + 1, 5, CODES[5], CODES[6])
    yield "next-day", day_is(day(days + 1))


# What the requests that book a party and check it in are answered again; and lists behind a check-in.
REFUSED_AGAIN = [reply(said) for said in (refused.AlreadyBegun, refused.KindExists, refused.RoomExists,
                                          kind_full("2031-05-01"), refused.NotBooked)]
CHECKED_IN_LISTS = [
    ("in-house", ["101,1,Ann Lee,DBL,2031-05-03,no"]), ("business-day", ["2031-05-01"]),
    ("room-status", ["101,DBL,1,no,1"]), ("inside", []), ("bookings", []),
    ("availability 2031-05-01 2", ["DBL,1,0"]), ("availability 2031-05-03 1", ["DBL,1,1"]),
    ("cards 1", [f"1,{FIRST},{SECOND}"]), ("card 1", [f"1,1,Ann Lee,{FIRST},{SECOND}"]), ("locks", ["101,1,0,"])]


def each_refused(desk, run, least=1, step=1):
    """The numbers of the allocations of a run, from the least on by this step, and how the run ends where that one
    finds no memory."""
    met = desk.folder / "met"
    for number in itertools.count(least, step):
        ended = run(REFUSE_AT=str(number), REFUSED=str(met))
        if not met.exists():
            return
        met.unlink()
        yield number, ended


def first_behind(desk, run):
    """The number of the first allocation behind those of this run."""
    return 1 + bisect.bisect(range(1, 1 << 16), False, key=lambda number: not any(
        True for _ in itertools.islice(each_refused(desk, run, number), 1)))


def without_codes(text):
    """The text with each code replaced by its place among those in it, since a draw whose code found no memory shifts
    the later ones."""
    seen = {}
    return re.sub(rb"\b[0-9a-f]{12}\b", lambda found: b"<%d>" % seen.setdefault(found[0], len(seen)), text)


def lacking_once(pairs, lacking):
    """What is answered where each of these is asked twice, in a row: as without a fault; or once it lacks memory, which
    is one of the answers that this gives, and does nothing, so that the next answer is the first."""
    texts = [first + again for first, again in pairs]
    for at, (first, again) in enumerate(pairs):
        for said in lacking(first):
            for answers in (texts[at], said + first, first + said):
                yield without_codes(b"".join((*texts[:at], answers, *texts[at + 1:])))


def twice(lines):
    """A script of these lines, each of which is given twice, in a row; what it is answered; and the ends of a run of it
    that lacks memory once. A list that lacks memory ends behind a whole row."""
    pairs = [(printed(line, first), printed(line, *again or [first])) for line, first, *again in lines]

    def lacking(first):
        rows = first.splitlines(True) if b"," in first or first == TODAY else []
        return [b"".join(rows[:count]) + LACKING for count in range(len(rows) + 1)]

    script = text_of(line for line, *_ in lines for _ in range(2))
    answers = b"".join(first + again for first, again in pairs)
    return script, answers, {(0, answers, b"") for answers in lacking_once(pairs, lacking)} | {NO_MEMORY}


def scripts_without_memory(desk):
    """Each allocation of a script of which each line is given twice."""
    script, answers, ends = twice(TWICE)
    yield "all", (0, answers, b""), desk.run(script)
    for number, (status, output, faults) in each_refused(desk, lambda **calls: desk.run(script, **calls)):
        yield (number, status, output, faults), True, (status, without_codes(output), faults) in ends


def behind_opening(desk, start):
    """The number of the first allocation of a run behind those by which it opens the database that is in this file."""
    desk.laid(start)
    return first_behind(desk, lambda **calls: desk.stored(b"", "script", **calls))


def stands_as_answered(desk, start, words, answered, again, step=1):
    """A command on the database that is in this file, or on none, with allocations in turn finding no memory: either it
    has its answer, stands, and is answered otherwise again; or it tells its lack, nothing is changed, and the next run
    does it. A desk without rows may have been made."""
    desk.laid(None)
    desk.stored(b"", "in-house")
    unchanged = set() if start else {desk.rows()}
    desk.laid(start)
    unchanged.add(desk.rows())
    done, done_before = (0, answered, b""), (3, again, b"")
    yield "all", done, desk.stored(b"", *words)
    after, seen = desk.rows(), set()
    yield "changed", False, after in unchanged

    def run(**calls):
        desk.laid(start)
        return desk.stored(b"", *words, **calls)

    for number, ended in each_refused(desk, run, step=step):
        left = ended == done, desk.rows(), desk.sizes()
        is_lacking = ended in [(4, LACKING, b""), NO_MEMORY]
        yield (number, ended), True, left[1] == after if left[0] else is_lacking and left[1] in unchanged
        if left not in seen:
            yield number, (done_before if left[0] else done, after), (desk.stored(b"", *words), desk.rows())
        seen.add(left)
    yield "some lack memory", True, any(not is_done for is_done, _, _ in seen)


def check_ins_without_memory(desk):
    """Each allocation of a check-in on a database, those that open it and close it among them."""
    start = desk.kept("start.db", OPENING)
    yield from stands_as_answered(desk, start, ["check-in", "1", "101"], CARD, text_of([refused.NotBooked]))


def refits_without_memory(desk):
    """Each allocation of a refit by which a room gets its last lock; no card is inside behind it."""
    desk.at_last_fit_but_one()
    start = shutil.copy(desk.db, desk.folder / "start.db")
    yield "inside", 1, desk.rows().count('INSERT INTO "inside"')
    answered, again = text_of([refitted(99, CODES[2])]), text_of([refused.FitsUsedUp])
    yield from stands_as_answered(desk, start, ["refit", "101"], answered, again)
    yield "nobody inside", 0, desk.rows().count('INSERT INTO "inside"')


def makings_without_memory(desk):
    """Some of the allocations of a beginning that makes its database."""
    words, again = ["begin", "2031-05-01"], text_of([refused.AlreadyBegun])
    yield from stands_as_answered(desk, None, words, text_of([BEGUN]), again, MADE_EVERY)


def opening_without_memory(desk, start, missing):
    """Some of the allocations of a list that opens the desk in this file, of which a whole one comes by these
    statements: it is left as it was, or whole, and then it is listed."""
    done, seen = (0, NONE_BEHIND, b""), set()
    first, second = desk.versions(start, missing)
    may_stand = {done: [second], (4, NONE_BEHIND, b"memory\n"): [second], NO_MEMORY: [first, second]}

    def run(**calls):
        desk.laid(start)
        return desk.stored(b"", "left-behind", **calls)

    for number, ended in each_refused(desk, run, step=OPENED_EVERY):
        rows = desk.rows()
        yield (number, ended), True, rows in may_stand.get(ended, [])
        yield number, (done, second), (desk.stored(b"", "left-behind"), desk.rows())
        seen.add(rows)
    yield "what is left", {first, second}, seen


def first_desks_without_memory(desk):
    """A desk of the first version."""
    yield from opening_without_memory(desk, FIRST_DESKS[-1], UPGRADE)


def desks_without_indexes_nor_memory(desk):
    """The same one in the second version, which lacks the indexes."""
    yield from opening_without_memory(desk, desk.lacking("lacking.db", 0, FIRST_DESKS[-1]), "".join(INDEXES))


def stored_scripts_without_memory(desk):
    """Some of the allocations of a script on a database, behind those that open it. Each line is given twice: what it
    answered stands, as the next run shows."""
    start, (script, answers, ends) = desk.kept("start.db", LISTED), twice(STORED_TWICE)
    whole, lacked = (0, answers, b""), set()
    yield "all", whole, desk.stored(script, "script")

    def run(**calls):
        desk.laid(start)
        return desk.stored(script, "script", **calls)

    for number, (status, output, faults) in each_refused(desk, run, behind_opening(desk, start), SCRIPT_EVERY):
        ended = status, without_codes(output), faults
        yield (number, status, output, faults), True, ended in ends or (status, output, faults) == whole
        lacked.add(output.count(b"\n", 0, output.find(LACKING)))
        if faults:
            yield number, whole, desk.stored(script, "script")
            output = answers
        left = left_by(output.count(b"lock "), 3 + output.count(b"card "), output.count(b"day "))
        lines, left = script_of(left)
        status, output, faults = desk.stored(lines, "script")
        yield number, (0, without_codes(left), b""), (status, without_codes(output), faults)
    yield "lines that lack memory", True, len(lacked) > len(STORED_TWICE)


def stored_audits_without_memory(desk):
    """Some of the allocations of an audit file of two notes on a database, behind those that open it: the answered
    lines stand, and the same file sent again comes to the rows of both."""
    start, states = desk.kept("start.db", CHECKED_IN), [desk.rows()]
    again = [text_of([said]) for said in (NOTES_TAKEN, numbered(SEEN, TAKEN), NOTES_SEEN)]
    for file in (NOTES.rsplit(b"\n", 2)[0] + b"\n", NOTES):
        desk.audit(file, True)
        states.append(desk.rows())
    ends = {NO_MEMORY: 0, **{(4, b"", text_of([stopped_after(count, "Memory")])): count for count in range(2)},
            (0, again[0], b""): 2}

    def run(**calls):
        desk.laid(start)
        return desk.audit(NOTES, True, **calls)

    seen = set()
    for number, ended in each_refused(desk, run, behind_opening(desk, start), AUDIT_EVERY):
        stands = ends.get(ended, -1)
        yield (number, ended), (True, True), (stands >= 0, desk.rows() == states[stands])
        yield number, ((0, again[stands], b""), states[2]), (desk.audit(NOTES, True), desk.rows())
        seen.add(stands)
    yield "stops before each line", True, {0, 1} <= seen


def long_lists_without_memory(desk):
    """Allocations of each long list of a database, behind those that open it: whole rows of it are written, and the
    fault is told; of some, those of a first write, some 8 KB. Behind the list there may be some that nothing needs."""
    for script, lists in LONG_LISTS:
        start = desk.kept("start.db", script)
        least = behind_opening(desk, start)
        for words, text in lists:
            lengths = {0}
            for number, (status, output, faults) in each_refused(
                    desk, lambda words=words, **calls: desk.stored(b"", *words, **calls), least, LONG_EVERY):
                lengths.add(len(output))
                is_front = text.startswith(output) and output[-1:] in (b"", b"\n")
                is_whole = (status, output, faults) == (0, text, b"")
                yield (words, number), True, is_whole or (status, faults, is_front) == (4, b"memory\n", True)
            yield (words, "whole"), (0, text, b""), desk.stored(b"", *words)
            yield (words, "behind a write of rows"), True, any(8000 <= length < len(text) for length in lengths)


def requests_without_memory(desk):
    """Each allocation of a server that is asked each thing twice: what lacks memory is answered so, or isn't answered
    and told."""
    twice = [(asked, (first, again)) for (asked, first), again in zip((*BOOKED, (CHECK_IN, DONE)), REFUSED_AGAIN)]
    lists = [(asked, (said,) * 2) for asked, said in (exchange_of(*pair) for pair in CHECKED_IN_LISTS)]
    asked, pairs = zip(*twice, *lists)
    requests = [it for it in asked for _ in range(2)]
    wanted = set()
    for said, told in ((reply(refused.Memory), b""), (b"", b"memory\n")):
        wanted |= {(answers, 0, told) for answers in lacking_once(pairs, lambda _: [said])}
    wanted |= {(without_codes(b"".join(first + again for first, again in pairs)), 0, b"")}

    def run(**calls):
        try:
            return desk.answers(requests, **calls)
        except AssertionError:
            return [], 4, b"memory\n"

    for number, (said, status, faults) in each_refused(desk, run):
        ended = without_codes(b"".join(said)), status, faults
        yield (number, said, status, faults), True, ended in wanted or ended == (b"", 4, b"memory\n")


def audits_without_memory(desk):
    """Each allocation behind a check-in of a server that is sent an audit file twice and asked for a list: what lacks
    memory says so, and the notes of the lines behind it are taken of the same file again."""
    booked = [*(asked for asked, _ in BOOKED), CHECK_IN]
    done = [*(first for _, first in BOOKED), DONE]
    sent, (asked, listed) = import_of(NOTES), exchange_of("in-house", ["101,1,Ann Lee,DBL,2031-05-03,yes"])
    lacking, nothing = (reply(refused.Memory), b""), (b"", b"memory\n")
    whole = [reply(NOTES_TAKEN), reply(NOTES_SEEN), listed]
    wanted = [([*whole[:2], said], told) for said, told in (lacking, nothing)]
    stopped = [(count, (reply(stopped_after(count, "Memory")), b"")) for count in range(2)]
    for count, (said, told) in [(0, lacking), (0, nothing), *stopped]:
        rest = reply(numbered(*[SEEN] * count, *[TAKEN] * (2 - count)))
        wanted += [([said, rest, listed], told), ([whole[0], said, listed], told)]
    least = first_behind(desk, lambda **calls: desk.answers(booked, **calls))
    for number, (said, status, faults) in each_refused(
            desk, lambda **calls: desk.answers([*booked, sent, sent, asked], **calls), least):
        ended = said[len(booked):], faults
        yield (number, ended), (done, 0, True), (said[:len(booked)], status, ended in wanted)
