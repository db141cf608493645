"""The mistakes of a reception, and its closed doors: what leads to each, what docs/CLERK.md says to do then, and how it
ends. .ci/mistakes plays them with all cards and doors, .ci/page some of them at the page."""
import collections
import itertools

from reception import BUTTONS, LOST_TRACK

# How far a card went before the mistake was seen, by what was done with it at a door.
USES = {"not used": [], "used": ["enters", "leaves"], "inside": ["enters"]}
# Steps are buttons of the page, and what is done at doors (reception.py). `before` and `made` lead to the mistake, in
# one way or several; `card` is the one that was used then, and its door. `cure` is what the sheet says in the row, or
# the section, of the words before the colon of `name`. `ends` names each room's guest, who is inside; `booked` are open
# bookings. Lines of logs can be refused by the numbers of `refused`; `later` is what the sheet says of such a lock.
Mistake = collections.namedtuple("Mistake", "name before made card cure ends booked refused later",
                                 defaults=["", "", (), ""])
ANN, BO = "Book Ann DBL 1 2", "Book Bo DBL 1 2"
ANN_IN = f"{ANN}; Check in Ann 101; enters 101 1"
NEW_NUMBER = "Check out Ann; Replace a lock 101; fits 101"
# Bo stands before 101. The card of the guest before him, who had left, never came to the door.
BO_AT_101 = f"{ANN}; Check in Ann 101; Check out Ann; takes 1; {BO}", "Check in Bo 101"
MISTAKES = [
    Mistake("The wrong guest was checked in", f"{ANN}; {BO}", "Check in Ann 101; hands 1 Bo", "101 1",
            "Check out Ann; Book Ann DBL 1 2; Check in Bo 101; turns 101 1; enters 101 2", "101 Bo", "Ann"),
    Mistake("The wrong guest was checked in: the card is gone", f"{ANN}; {BO}",
            "Check in Ann 101; takes 1 | Check in Ann 101; takes 1; turns 101 1", "",
            "Check out Ann; Book Ann DBL 1 2; Check in Bo 101; obeys 101; enters 101 2", "101 Bo", "Ann"),
    Mistake("The wrong room", BO, "Check in Bo 101", "101 1",
            "Move Bo 102; takes 1; turns 101 1; enters 102 2", "102 Bo"),
    Mistake("The wrong room: the card is gone", BO, "Check in Bo 101; takes 1", "101 1",
            "Move Bo 102; reads 101; obeys 101; enters 102 2", "102 Bo"),
    Mistake("The wrong type of room", BO, "Check in Bo 101", "101 1",
            "Book Bo' SGL 1 2; Check out Bo; Check in Bo' 201; takes 1; turns 101 1; enters 201 2", "201 Bo"),
    Mistake("Moved to the wrong room", f"{ANN_IN}; leaves 101 1", "Move Ann 102", "102 2",
            "Move Ann 103; takes 1; takes 2; turns 102 2; enters 103 3", "103 Ann"),
    Mistake("Moved, and shouldn't have been", f"{ANN}; Check in Ann 101", "Move Ann 102", "102 2",
            "Move Ann 101; takes 2; turns 102 2; turns 101 1; enters 101 3", "101 Ann"),
    Mistake("The wrong guest was checked out", ANN, "Check in Ann 101; Check out Ann", "101 1",
            "Book Ann' DBL 1 2; Check in Ann' 101; turns 101 1; enters 101 2", "101 Ann"),
    Mistake("Too many nights", ANN, "Check in Ann 101", "101 1",
            "Check out Ann; Book Ann' DBL 1 1; Check in Ann' 101; turns 101 1; enters 101 2", "101 Ann"),
    Mistake("A spare card too many: it is gone", f"{ANN_IN}; leaves 101 1", "Spare card Ann; hands 2 Cy", "101 2",
            "Lost card Ann; leaves 101 2; enters 101 3", "101 Ann"),
    Mistake("A lost card is found", ANN, "Check in Ann 101; Lost card Ann", "101 1",
            "turns 101 1; enters 101 2", "101 Ann"),
    Mistake("Lost card of the wrong guest", ANN_IN, "Lost card Ann; takes 2", "101 1",
            "hands 2 Ann; leaves 101 1; enters 101 2", "101 Ann"),
    Mistake("Two cards were swapped", f"{ANN}; {BO}",
            "Check in Ann 101; Check in Bo 102; hands 1 Bo; hands 2 Ann", "101 1",
            "hands 1 Ann; hands 2 Bo; enters 101 1; enters 102 2", "101 Ann; 102 Bo"),
    Mistake("A card has another room's codes", f"{ANN_IN}; {BO}", "Check in Bo 102; writes 2 2 1", "101 2",
            "takes 2; Spare card Bo; enters 102 3", "101 Ann; 102 Bo", "", LOST_TRACK, NEW_NUMBER),
    Mistake("A card has another room's codes: it is gone", f"{ANN_IN}; {BO}",
            "Check in Bo 102; writes 2 2 1; hands 2 Cy", "101 2",
            "Spare card Bo; enters 102 3; leaves 101 1; Lost card Ann; enters 101 4", "101 Ann; 102 Bo", "",
            LOST_TRACK, NEW_NUMBER),
    Mistake("Next day too early", "Book Ann DBL 1 1", "Next day", "",
            "Cancel Ann; Book Ann' DBL 2 1; Check in Ann' 101; enters 101 1", "101 Ann"),
    Mistake("A lock was set to a wrong code", f"{ANN_IN}; {BO}; Check in Bo 102; enters 102 2",
            "Lost card Ann; sets 101 101:0 | Lost card Ann; sets 101 102:-1 | Lost card Ann; sets 101 a0 | "
            "Lost card Ann; leaves 101 1; enters 101 3; sets 101 101:1", "",
            "sets 101 101:-1", "101 Ann; 102 Bo", "", LOST_TRACK, NEW_NUMBER),
    Mistake("A lock was set to a wrong code: the one that it had", ANN_IN, "sets 101 101:-1", "", "", "101 Ann", "",
            LOST_TRACK, NEW_NUMBER),
    Mistake("The file of another lock", f"{ANN_IN}; {BO}; Check in Bo 102; enters 102 2", "misreads 102 101", "101 1",
            "", "101 Ann; 102 Bo", "", {21, 22, 25}),
    Mistake("Replace a lock by mistake", BO, "Replace a lock 101", "", "fits 101", "", "Bo"),
    Mistake("Replace a lock by mistake: seen at a closed door", BO, "Replace a lock 101; Check in Bo 101", "",
            "fits 101; enters 101 1", "101 Bo"),
]
# What else the sheet has a clerk do, in the same form.
OTHERS = [
    Mistake("more nights", ANN_IN, "leaves 101 1; Next day; Next day", "",
            "Book Ann' DBL 3 1; Check out Ann; Check in Ann' 101; enters 101 2", "101 Ann"),
    Mistake("a changed booking", BO, "", "", "Book Bo' DBL 3 1; Cancel Bo", "", "Bo"),
    Mistake("a changed booking: the type is full", f"{ANN}; Book Cy DBL 1 2; {BO}", "", "",
            "Cancel Bo; Book Bo' DBL 1 1", "", "AnnCyBo"),
    Mistake("a changed booking: the missing nights", f"{ANN}; Book Cy DBL 1 2; {BO}", "", "",
            "Book Bo' DBL 3 1", "", "AnnCyBoBo"),
    Mistake("a broken room", f"{ANN_IN}; leaves 101 1", "", "",
            "Move Ann 102; enters 102 2; Book Closed DBL 1 2; Check in Closed 101; turns 101 3",
            "101 Closed; 102 Ann"),
    Mistake("A closed door: a badly written card", BO, "Check in Bo 101; writes 1 1 1; takes 1", "",
            "Spare card Bo; enters 101 2", "101 Bo"),
    Mistake("A closed door: an older card", ANN_IN, "leaves 101 1; Lost card Ann; turns 101 2; takes 2", "",
            "Spare card Ann", "101 Ann"),
    Mistake("A closed door: an earlier card is at the desk", *BO_AT_101, "", "turns 101 1; enters 101 2", "101 Bo"),
    Mistake("A closed door: an earlier card is gone", *BO_AT_101, "", "obeys 101; enters 101 2", "101 Bo"),
    Mistake("A closed door: nobody can set the lock", *BO_AT_101, "",
            "Move Bo 102; enters 102 3; takes 2; obeys 101", "102 Bo"),
    Mistake("A lost card", ANN, "Check in Ann 101; enters 101 1; leaves 101 1; hands 1 Cy", "",
            "Lost card Ann; enters 101 2", "101 Ann"),
    Mistake("A lost card: none has entered", ANN, "Check in Ann 101; hands 1 Cy", "",
            "Lost card Ann; sets 101 101:-1; enters 101 2", "101 Ann"),
    Mistake("A lost card: the guest has checked out", f"{ANN_IN}; leaves 101 1; Check out Ann", "hands 1 Cy", "",
            "Book Closed DBL 1 1; Check in Closed 101; turns 101 2; takes 2; Check out Closed", ""),
    Mistake("A lock that opens to nobody", ANN_IN, "forgets 101", "", "sets 101 101:-1", "101 Ann", "",
            LOST_TRACK | {21, 25}, NEW_NUMBER),
    Mistake("The computer is down", "Book Reserve DBL 1 1; Check in Reserve 101; turns 101 1", "hands 1 Bo", "101 1",
            "Check out Reserve; Book Bo DBL 1 1; Check in Bo 101; leaves 101 1; enters 101 2", "101 Bo"),
]


def steps_of(text):
    return [step for step in text.split("; ") if step]


def button_of(step):
    return next((button for button in BUTTONS if step.startswith(button)), None)


def does(hotel, step):
    """A press, or a thing done at a door."""
    button = button_of(step)
    if button:
        hotel.presses(button, *step[len(button):].split())
    else:
        word, *values = step.split()
        getattr(hotel, word)(*values)


def variants(mistake):
    """What leads to the cure, in each way, and whether locks log exits."""
    uses = USES if mistake.card else ["not used"]
    for made, use, is_read, exits in itertools.product(mistake.made.split(" | "), uses, (False, True), (True, False)):
        used = [f"{word} {mistake.card}" for word in USES[use]]
        yield [*steps_of(mistake.before), *steps_of(made), *used, *["reads"] * is_read], exits


def ending(hotel, mistake):
    """Who can enter which room, and what the lists say when all logs are read."""
    here = {int(room): guest for room, guest in (end.split() for end in steps_of(mistake.ends))}
    yield "who can enter", {room: {guest} for room, guest in here.items()}, hotel.who_enters()
    yield from never_better(hotel)
    hotel.reads()
    refused = {int(answer.split()[1]) for answer in hotel.answers if answer.startswith("refused")}
    yield "the logs", set(), refused - set(mistake.refused)
    yield "booked", mistake.booked, "".join(row[1] for row in hotel.rows("bookings"))
    if not refused & LOST_TRACK:
        yield "who lives where", here, hotel.house(is_secured=hotel.logs_exits)
        yield "awaited", dict.fromkeys(hotel.locks, 0), hotel.awaited()


def never_better(hotel):
    """However late logs are read, the lists are never better than the doors: a lock waits for no more codes than
    `awaited` says, and a room that is `secured` opens to its guest alone."""
    for room, count in hotel.awaited().items():
        yield (room, "it waits for no more"), True, hotel.locks[room].code in hotel.codes(room)[-1 - count:]
    for room, guest in hotel.house(is_secured=True).items():
        yield (room, "secured"), {guest}, hotel.who_enters()[room]
