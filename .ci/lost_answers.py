"""Two clerks and lost answers: what the page says of a command, by what another clerk did meanwhile, and by whether
the desk has done the command (docs/HTTP.md, "Was it done?")."""
from clerks import Clerk, hotel, post
from surface import path_of

FIRST_DAY = b"""begin 2031-05-01
add-kind DBL
add-kind SGL
add-room 101 DBL
add-room 102 DBL
add-room 103 DBL
add-room 104 DBL
add-room 106 DBL
reserve DBL 2031-05-01 2 Ann Lee
reserve DBL 2031-05-01 2 Bo
reserve DBL 2031-05-01 2 Cy
check-in 1 101
"""
YES, NO, MAYBE = "It was done", "It wasn't done", "It may have been done"


def check_in(party, room):
    return post(path_of("check-in", party), room=room)


def move(party, room):
    return post(path_of("transfer", party), room=room)


def out(party):
    return post(path_of("check-out", party))


def book(guest, nights=1):
    return post(path_of("reserve"), kind="DBL", arrive="2031-05-01", nights=nights, guest=guest)


NEXT, CANCEL = post(path_of("next-day")), post(path_of("cancel", 2))
ADD, LATER = post(path_of("add-room"), room=105, kind="SGL"), post(path_of("begin"), day="2031-05-03")


def begun(view, *presses):
    """A command that is given in this view by these buttons."""
    def give(clerk):
        clerk.go(view)
        for words in presses:
            if isinstance(words, tuple):
                clerk.press(*words)
            else:
                clerk.choose(words)

    return give


def replace_lock(clerk):
    clerk.go("Locks")
    clerk.fill(room="102")
    clerk.press("Replace…")
    clerk.choose("Replace the lock")


def add_room(clerk):
    clerk.go("Set-up")
    clerk.fill(rooms="105", of="DBL")
    clerk.press("Add", "first-last")
    clerk.choose("Add 1 room")


def add_type(clerk):
    clerk.go("Set-up")
    clerk.fill(kind="TRP")
    clerk.press("Add type")
    clerk.choose("Add the type")


def begin(clerk):
    clerk.fill(day="2031-05-01")
    clerk.press("Begin")
    clerk.choose("Begin with this day")


GIVEN = {
    "book": lambda clerk: clerk.book("Dora", "DBL", "2031-05-01", 1),
    "cancel": begun("Guests", ("Cancel", "Bo"), "Cancel the booking"),
    "check in": begun("Today", ("Check in", "Bo"), "Check in"),
    "spare": begun("Guests", ("Spare card", "Ann Lee")),
    "lost card": begun("Guests", ("Lost card", "Ann Lee"), "Write the new card"),
    "move": begun("Guests", ("Move", "Ann Lee"), "Move"),
    "check out": begun("Guests", ("Check out", "Ann Lee"), "Check out"),
    "new lock": replace_lock,
    "next day": begun("Today", ("Next day…",), "Begin Fri 2 May"),
    "add type": add_type,
    "add room": add_room,
    "begin": begin,
}
# The command; what another clerk does before it and after it; whether the desk does the command; and of what the page
# says then, the title and a part.
LOST = [
    ("book", [], False, [], NO, "There is no such booking"),
    ("book", [], True, [], YES, "It is booking 4"),
    ("book", [book("Dora", 2)], False, [], NO, "There is no such booking"),
    ("book", [book("Dora", 2)], True, [], YES, "It is booking 5"),
    ("book", [book("Dora")], True, [], YES, "bookings 4 and 5"),
    ("book", [], True, [check_in(4, 104)], YES, "It is booking 4"),
    ("cancel", [], False, [], NO, "The guest is booked"),
    ("cancel", [], True, [], YES, "no longer there"),
    ("cancel", [check_in(2, 104)], False, [], NO, "in house at 104"),
    ("check in", [], False, [], NO, "The guest is booked"),
    ("check in", [], True, [], YES, "in house at 102"),
    ("check in", [CANCEL], False, [], NO, "neither booked nor in house"),
    ("check in", [check_in(2, 104)], False, [], NO, "in house at 104"),
    ("check in", [check_in(3, 102)], False, [], NO, "The guest is booked"),
    ("check in", [check_in(3, 102), check_in(2, 104)], False, [], MAYBE, "in house at 104"),
    ("check in", [], True, [move(2, 104)], MAYBE, "in house at 104"),
    ("check in", [], True, [out(2)], MAYBE, "neither booked nor in house"),
    ("spare", [], False, [], NO, "no new card"),
    ("spare", [], True, [], YES, "It is card 2"),
    ("spare", [move(1, 104)], False, [], NO, "another card"),
    ("spare", [], True, [move(1, 104)], YES, "It is card 2"),
    ("lost card", [], False, [], NO, "in house at 101"),
    ("lost card", [], True, [], YES, "The room has a new code"),
    ("lost card", [move(1, 104)], False, [], MAYBE, "in house at 104. Write a spare card"),
    ("lost card", [move(1, 104)], True, [], MAYBE, "in house at 104. Write a spare card"),
    ("lost card", [], True, [move(1, 104)], MAYBE, "in house at 104. Write a spare card"),
    ("lost card", [out(1)], False, [], MAYBE, "There is nothing to do"),
    ("move", [], False, [], NO, "in house at 101"),
    ("move", [], True, [], YES, "in house at 102"),
    ("move", [out(1)], False, [], NO, "neither booked nor in house"),
    ("move", [move(1, 104)], False, [], NO, "in house at 104"),
    ("move", [check_in(3, 102)], False, [], NO, "in house at 101"),
    ("move", [], True, [move(1, 104)], MAYBE, "in house at 104"),
    ("move", [], True, [out(1)], MAYBE, "neither booked nor in house"),
    ("check out", [], False, [], NO, "in house at 101"),
    ("check out", [], True, [], YES, "no longer in house"),
    ("check out", [move(1, 104)], False, [], NO, "in house at 104"),
    ("check out", [move(1, 104)], True, [], YES, "no longer in house"),
    ("new lock", [], False, [], NO, "The room has no new code"),
    ("new lock", [], True, [], YES, "Set the new lock to the code CODE"),
    ("new lock", [check_in(2, 102)], False, [], NO, "checked a guest in there"),
    ("new lock", [check_in(2, 102), out(2)], False, [], NO, "checked a guest in there"),
    ("new lock", [], True, [check_in(2, 102)], YES, "Set the new lock to the code CODE"),
    ("next day", [], False, [], NO, "The business day is Thursday, 1 May 2031"),
    ("next day", [], True, [], YES, "The business day is Friday, 2 May 2031"),
    ("next day", [], True, [NEXT], YES, "Saturday, 3 May 2031. Somebody else has moved it on too"),
    ("begin", [], False, [], NO, "The desk hasn't begun"),
    ("begin", [], True, [], YES, "The desk has begun"),
    ("begin", [LATER], False, [], MAYBE, "Somebody else has begun the desk: it is Saturday, 3 May 2031"),
    ("add type", [], False, [], NO, "The type isn't there"),
    ("add type", [], True, [], YES, "The type is there"),
    ("add room", [], False, [], "No room was added", "Room 105 isn't there"),
    ("add room", [], True, [], "Set these locks", "CODE"),
    ("add room", [ADD], False, [], "No room was added", "Somebody else has added room 105 as SGL"),
]
# The same where the clerk's lists are old: what another clerk did before the command, unseen.
STALE = [
    ("lost card", [move(1, 104)], False, NO, "in house at 104"),
    ("lost card", [move(1, 104)], True, YES, "The room has a new code"),
    ("check out", [move(1, 104)], False, NO, "in house at 104"),
    ("move", [move(1, 103)], True, YES, "in house at 102"),
]


def shown(clerk, title, part, code):
    """Whether the window comes to say this; else what it says."""
    part = part.replace("CODE", code)
    return clerk.until(lambda: clerk.text("dialog h2") == title and part in flat(clerk)) or clerk.text("dialog")


def flat(clerk):
    """The window's text; its codes without the gaps between their groups."""
    return clerk.raw("dialog[open]")


def chain_of(site, room):
    """The list of the room's codes."""
    return site.ask(f"GET /desk{path_of('chain', room)}")[2].decode()


def code_of(site, room):
    """The code of the room's lock."""
    held = [line for line in chain_of(site, room).splitlines() if "held" in line]
    return held[0].split(",")[1] if held else "none"


ROWS = [(name, [], *row) for name, *row in LOST]
ROWS += [(name, stale, [], done, [], title, part) for name, stale, done, title, part in STALE]
GROUPS = {"stays": ("check in", "spare", "check out"), "moves": ("lost card", "move"),
          "bookings": ("book", "cancel", "new lock"), "days": ("next day", "begin", "add type", "add room")}
assert {row[0] for row in ROWS} == {name for names in GROUPS.values() for name in names}


def lost_of(group):
    """The test of the rows of LOST and STALE for these commands."""
    def test(desk):
        yield from lost(desk, [row for row in ROWS if row[0] in GROUPS[group]])

    test.__name__ = f"lost_{group}"
    return test


LOST_TESTS = [lost_of(group) for group in GROUPS]


def lost(desk, rows):
    """Each of these rows."""
    start = desk.kept("start.db", FIRST_DAY)
    with hotel(desk) as (between, site), Clerk(site) as clerk:
        for name, stale, earlier, is_done, later, title, part in rows:
            given = (name, stale, earlier, is_done, later)
            between.again(None if name == "begin" else start)
            clerk.reload()
            before_others(clerk, between, stale)
            between.earlier, between.later = earlier, later
            between.lose = "silent answer" if is_done else "silent request"
            GIVEN[name](clerk)
            told = clerk.until(lambda: clerk.text("dialog h2") == title)
            code = code_of(site, "105" if name == "add room" else "102") if "CODE" in part else ""
            yield given, True, shown(clerk, title, part, code) if told else clerk.text("dialog")
        yield "the console", [], clerk.faults()


def before_others(clerk, between, others):
    """Another clerk's commands, which the list of guests that the clerk looks at doesn't show yet."""
    if others:
        clerk.go("Guests")
        clerk.shows("Ann Lee", "main")
        between.quiet()
        between.each(others)


def stale_rows(desk):
    """A card is named by the room that its codes are of, even if another clerk has just moved the guest, or moves the
    guest at that moment."""
    start = desk.kept("start.db", FIRST_DAY)
    with hotel(desk) as (between, site), Clerk(site) as clerk:
        for name in "spare", "lost card":
            between.again(start)
            clerk.reload()
            before_others(clerk, between, [move(1, 103)])
            GIVEN[name](clerk)
            yield (name, "moved before"), True, clerk.shows("Card 3 for room 103")
            yield (name, "it says so"), True, clerk.shows("Somebody else has moved the guest from 101 to 103")
            chain = chain_of(site, 103)
            yield (name, "its codes"), True, all(code in chain for code in clerk.card()[1:])
            between.again(start)
            clerk.reload()
            between.later = [move(1, 103)]
            GIVEN[name](clerk)
            yield (name, "moved after"), "Card 2", clerk.until(lambda: clerk.card() and clerk.text("dialog h2"))
            yield (name, "what to do"), True, clerk.shows("It isn't known for which room this card is")
        yield "the console", [], clerk.faults()
