"""Desks with rows for each list, and their lists: each by the words that ask for it, and its text."""
from built_desk import CHECKED_IN, CODES, FIRST, MOMENT, SECOND, first_codes
from surface import printed, text_of

# Rooms and a guest whose bookings are a list of some 12 KB: its header is one write, and its rows are two. The guest as
# a field of its rows.
ROOMS = range(1, 121)
GUEST = 'Lee, Ann "Annie" of the house, at the end of the long "road"'
FIELD = '"' + GUEST.replace('"', '""') + '"'
LONG_SCRIPT = text_of(["begin 2031-05-01", "add-kind DBL", *(f"add-room {room} DBL" for room in ROOMS),
                       *[f"reserve DBL 2031-05-01 2 {GUEST}"] * len(ROOMS)])
LONG_ROWS = [f"{party},{FIELD},DBL,2031-05-01,2031-05-03" for party in ROOMS]
LONG_LIST = printed("bookings", LONG_ROWS)


def texts_of(lists):
    """The words and the text of each of these lists, of which the lines and the rows are given."""
    return [(line.split(), printed(line, rows)) for line, rows in lists]


# Each list over a desk on which party 1 entered room 101; to room 102, which nobody entered, party 2 was checked in and
# out, and party 3 in. Party 4 is booked.
LISTED = CHECKED_IN + f"""\
entered 101 1 1 {FIRST} {SECOND} {MOMENT}
add-room 102 DBL
reserve DBL 2031-05-01 2 Bo
check-in 2 102
check-out 2
reserve DBL 2031-05-01 1 Lee, Cy
check-in 3 102
reserve DBL 2031-05-03 2 Di
""".encode()
LISTS = texts_of([
    ("arrivals 2031-05-03", ["4,Di,DBL,2031-05-03,2031-05-05"]),
    ("in-house", ["101,1,Ann Lee,DBL,2031-05-03,yes", '102,3,"Lee, Cy",DBL,2031-05-02,no']),
    ("chain 101", [f"0,{FIRST},passed", f"1,{SECOND},held"]), ("left-behind", [f"102,{CODES[2]},{CODES[4]},2"]),
    ("audit-of 101", [f"101,1,1,in,1,{FIRST},{SECOND},{MOMENT}"]), ("business-day", ["2031-05-01"]),
    ("room-status", ["101,DBL,1,yes,0", "102,DBL,3,no,2"]), ("inside", ["101,1,1"]),
    ("bookings", ["4,Di,DBL,2031-05-03,2031-05-05"]), ("availability 2031-05-02 2", ["DBL,2,1"]),
    ("cards 3", [f"3,{CODES[3]},{CODES[4]}"]), ("card 3", [f'3,3,"Lee, Cy",{CODES[3]},{CODES[4]}']),
    ("locks", [f"101,1,1,{MOMENT}", "102,1,0,"]),
])
# Scripts, and the lists of 10 KB or more of the desks that they leave. On the second desk are many kinds, rooms of one
# of them, and cards of one party with which it came in.
MANY_KINDS, MANY_ROOMS, MANY_CARDS = [f"KINDS{number:03}" for number in range(700)], range(9001, 9431), range(1, 1001)
MANY_CODES = first_codes(len(MANY_ROOMS) + 1)
MANY_LINK = f"{MANY_CODES[0]} {MANY_CODES[-1]} {MOMENT}"
MANY_SCRIPT = text_of([
    "begin 2031-05-01", *(f"add-kind {kind}" for kind in MANY_KINDS),
    *(f"add-room {room} {MANY_KINDS[1]}" for room in MANY_ROOMS), f"reserve {MANY_KINDS[1]} 2031-05-01 1 Ann",
    "check-in 1 9001", *["spare 1"] * (len(MANY_CARDS) - 1),
    *(f"entered 9001 {card} {card} {MANY_LINK}" for card in MANY_CARDS)])
LONG_LISTS = [
    (LONG_SCRIPT, texts_of([("arrivals 2031-05-01", LONG_ROWS), ("bookings", LONG_ROWS)])),
    (MANY_SCRIPT, texts_of([
        ("room-status", ["9001,KINDS001,1,yes,0", *(f"{room},KINDS001,,no,0" for room in MANY_ROOMS[1:])]),
        ("inside", [f"9001,{card},1" for card in MANY_CARDS]),
        ("availability 2031-05-01 2", [f"{kind},{'430,429' if kind == MANY_KINDS[1] else '0,0'}"
                                       for kind in MANY_KINDS]),
        ("cards 1", [f"{card},{MANY_CODES[0]},{MANY_CODES[-1]}" for card in MANY_CARDS])]))]
# The same of the list of locks, of more rooms. It has too many allocations for each of them to be refused in turn.
MORE_ROOMS = range(9001, 9861)
LONG_LOCKS = (text_of(["begin 2031-05-01", "add-kind DBL", *(f"add-room {room} DBL" for room in MORE_ROOMS)]),
              texts_of([("locks", [f"{room},1,0," for room in MORE_ROOMS])]))
