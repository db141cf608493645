"""What the documents want: the rows of a desk, and its answer to each command, note and list."""
import collections
import types

from simulated.things import Card, day_text, ordinal
from surface import (BEGUN, CANCELLED, CHECKED_OUT, HEADERS, KIND_ADDED, NOTE_KINDS, SEEN, TAKEN, VERBS, day_is,
                     issued, numbered, refitted, refusal_of, refused, reserved, room_added, text_of, unread)

FIRST_DAY, LAST_DAY = ordinal("2000-01-01"), ordinal("2099-12-31")
MOST_FITS = 99
CODE = "([0-9a-f]{12})"
CARD = issued("{card}", "{party}", "{old}", "{new}")
# docs/SCRIPTS.md, Commands: the answer to each command, and its refusals in the order of the checks. A note is answered
# `seen` where that stands.
COMMANDS = {
    "begin": (BEGUN, "2"), "next-day": (day_is("{day}"), "1 20"), "add-kind": (KIND_ADDED, "1 3"),
    "add-room": (room_added("{new}"), "1 4 5"), "reserve": (reserved("{party}"), "1 4 15 16 17"),
    "cancel": (CANCELLED, "1 7 8"), "check-out": (CHECKED_OUT, "1 7 9"),
    "check-in": (CARD, "1 6 7 8 10 11 12 14"), "transfer": (CARD, "1 6 7 9 12 13 14"),
    "spare": (CARD, "1 7 9"), "reissue": (CARD, "1 7 9"),
    "entered": (TAKEN, "1 6 32 21 seen 31 22 23 24 25"), "left": (TAKEN, "1 6 32 21 seen 31 22 23 24 26"),
    "recoded": (TAKEN, "1 6 32 21 seen 31 22 27 28"), "refit": (refitted("{fit}", "{new}"), "1 6 14 33"),
}
# docs/FORMATS.md, What is answered: a note of this kind has the refusals of that command.
VERB_OF = {kind: verb for verb, kind in NOTE_KINDS.items()}
# docs/SCRIPTS.md, Refusals: the cause of each. A cause that is a text is printed after the name. `kept` is the notes
# taken of a note's lock, and `taken` the one of its count.
REFUSED_WHEN = {
    "1": lambda a: a.books.day is None, "2": lambda a: a.books.day is not None,
    "3": lambda a: a.v["kind"] in a.books.kinds, "4": lambda a: a.v["kind"] not in a.books.kinds,
    "5": lambda a: a.room is not None, "6": lambda a: a.room is None,
    "7": lambda a: a.stay is None, "8": lambda a: a.stay.state != "booked",
    "9": lambda a: a.stay.state != "in house",
    "10": lambda a: a.books.day < a.stay.arrive, "11": lambda a: a.books.day >= a.stay.depart,
    "12": lambda a: a.room.kind != a.stay.kind,
    "13": lambda a: a.room.party == a.stay.party, "14": lambda a: a.room.party is not None,
    "15": lambda a: a.v["arrive"] < a.books.day,
    "16": lambda a: a.v["arrive"] + a.v["nights"] > LAST_DAY,
    "17": lambda a: a.books.full_night(a.v["kind"], a.v["arrive"], a.v["nights"]),
    "20": lambda a: a.books.day == LAST_DAY,
    "21": lambda a: a.taken not in (None, a.note), SEEN: lambda a: a.taken,
    "22": lambda a: a.note.count > len(a.kept) + 1 and f" {len(a.kept) + 1}",
    "23": lambda a: a.note.card not in a.books.cards,
    "24": lambda a: a.books.cards[a.note.card][2:4] != (a.note.old, a.note.new),
    "25": lambda a: a.room.held not in (a.note.old, a.note.new),
    "26": lambda a: a.note.card not in a.room.inside,
    "27": lambda a: a.room.held != a.note.old,
    "28": lambda a: a.note.new not in a.room.awaited,
    "31": lambda a: a.note.fit < len(a.room.fits), "32": lambda a: a.note.fit > len(a.room.fits),
    "33": lambda a: len(a.room.fits) == MOST_FITS,
}


def row(note):
    return ",".join(map(str, note))


def names_of(verb):
    """The names of a command's values; those of a note are one."""
    return ["note"] if verb in NOTE_KINDS else VERBS[verb].values.lower().split()


def field(guest):
    return '"' + guest.replace('"', '""') + '"' if set(guest) & set(',"') else guest


class Room:
    """A room: its codes in order of issue, the place of the code that its lock holds and the cards inside, as far as
    notes tell, and the notes of each of its locks."""

    def __init__(self, number, kind, code):
        self.number, self.kind, self.codes, self.place = number, kind, [code], 0
        self.party, self.inside, self.is_secured, self.fits = None, set(), False, [[]]

    held = property(lambda self: self.codes[self.place])
    awaited = property(lambda self: self.codes[self.place + 1:])
    link = property(lambda self: tuple(self.codes[-2:]))

    def takes(self, note):
        self.fits[-1].append(note)
        self.place = self.place if note.kind == "out" else self.codes.index(note.new)
        self.is_secured |= note.kind == "in" and not self.awaited and not self.inside
        self.inside = self.inside | {note.card} if note.kind == "in" else self.inside - {note.card}

    def gains(self, code, is_of_lock=False):
        self.codes.append(code)
        self.is_secured = False
        if is_of_lock:
            self.place, self.inside = len(self.codes) - 1, set()
            self.fits.append([])


class Books:
    """The rows of a desk. Days are ordinals; the values of a command have the names in names_of."""

    def __init__(self):
        self.day, self.kinds, self.rooms, self.stays, self.cards = None, set(), {}, {}, {}
        self.nights = collections.Counter()

    def full_night(self, kind, arrive, nights):
        rooms = sum(room.kind == kind for room in self.rooms.values())
        full = (night for night in range(arrive, arrive + nights) if self.nights[kind, night] >= rooms)
        return next((f" {day_text(night)}" for night in full), None)

    def refusal(self, verb, v):
        """What a command is answered that does nothing; None if it is carried out."""
        note, stay, room = v.get("note"), self.stays.get(v.get("party")), self.room_of(v)
        kept = room.fits[note.fit - 1] if note and room and note.fit <= len(room.fits) else []
        taken = kept[note.count - 1] if note and note.count <= len(kept) else None
        asked = types.SimpleNamespace(books=self, v=v, note=note, stay=stay, room=room, kept=kept, taken=taken)
        for number in COMMANDS[verb][1].split():
            if found := REFUSED_WHEN[number](asked):
                more = found if isinstance(found, str) else ""
                return SEEN if number == SEEN else refusal_of(int(number)) + more
        return None

    def room_of(self, v):
        stay = self.stays.get(v.get("party"))
        return self.rooms.get(v["note"].room if "note" in v else v.get("room") or (stay and stay.room))

    def answer(self, verb, v, code=CODE):
        """The answer to a command that is carried out, with this fresh code in it; else a pattern."""
        room, day = self.room_of(v), self.day and day_text(self.day + 1)
        old, new = (room.link if verb == "spare" else (room.codes[-1], code)) if room else (None, code)
        return COMMANDS[verb][0].format(card=len(self.cards) + 1, party=v.get("party", len(self.stays) + 1), old=old,
                                        new=new, fit=room and len(room.fits) + 1, day=day)

    def carry_out(self, verb, v, code=None):
        """Carries a command out, and returns its card, its code, or True."""
        room, stay = self.room_of(v), self.stays.get(v.get("party"))
        if stay and stay.room and verb != "spare":
            self.rooms[stay.room].party = None
        if "note" in v:
            room.takes(v["note"])
        elif verb in ("begin", "next-day"):
            self.day = v.get("day") or self.day + 1
        elif verb == "add-kind":
            self.kinds.add(v["kind"])
        elif verb == "add-room":
            self.rooms[v["room"]] = Room(v["room"], v["kind"], code)
        elif verb == "refit":
            room.gains(code, is_of_lock=True)
        elif verb == "reserve":
            stay = types.SimpleNamespace(**v, party=len(self.stays) + 1, state="booked", room=None)
            stay.depart, self.stays[stay.party] = stay.arrive + stay.nights, stay
            self.nights.update((stay.kind, night) for night in range(stay.arrive, stay.depart))
        elif verb in ("cancel", "check-out"):
            self.nights.subtract((stay.kind, night) for night in range(stay.arrive, stay.depart))
            stay.state, stay.room = "over", None
        else:
            if verb != "spare":
                stay.state, stay.room, room.party = "in house", room.number, stay.party
                room.gains(code)
            self.cards[len(self.cards) + 1] = card = Card(len(self.cards) + 1, stay.party, *room.link, room.number)
            return card
        return code or True

    def told(self, note):
        """The answer to a note, which is carried out if it isn't refused or seen."""
        asked = VERB_OF[note.kind], {"note": note}
        return self.refusal(*asked) or self.carry_out(*asked) and TAKEN

    def file_answer(self, notes, cut=0):
        """What an audit file of these notes is answered, of which so many last bytes are cut (docs/FORMATS.md, What is
        answered). The notes are carried out."""
        rest = row(notes[-1])[:-cut] if cut else ""
        answers = [self.told(note) for note in notes[:len(notes) - bool(cut)]]
        answers += [unread.FieldCount if rest.count(",") < 7 else unread.BadMoment] if rest else []
        return text_of([numbered(*answers)]).decode()

    def list_of(self, line):
        """What this list is answered."""
        name, *value = line.split(" ")
        if name in ("chain", "audit-of") and int(value[0]) not in self.rooms:
            return f"{refused.NoRoom}\n"
        rows = self.cards_of if name == "cards" else getattr(self, name.replace("-", "_"))
        return "\n".join([HEADERS[name], *rows(*value), ""])

    def bookings(self, night=None):
        return [f"{stay.party},{field(stay.guest)},{stay.kind},{day_text(stay.arrive)},{day_text(stay.depart)}"
                for stay in self.stays.values()
                if stay.state == "booked" and (night is None or stay.arrive <= night < stay.depart)]

    def arrivals(self, day):
        return self.bookings(ordinal(day))

    def in_house(self):
        rooms = [(room, self.stays[room.party]) for _, room in sorted(self.rooms.items()) if room.party]
        return [f"{room.number},{stay.party},{field(stay.guest)},{stay.kind},{day_text(stay.depart)},"
                f"{'yes' if room.is_secured else 'no'}" for room, stay in rooms]

    def chain(self, number):
        codes, held = self.rooms[int(number)].codes, self.rooms[int(number)].place
        return [f"{place},{code},{'passed' if place < held else 'held' if place == held else 'awaited'}"
                for place, code in enumerate(codes)]

    def left_behind(self):
        return [f"{number},{room.held},{room.codes[-1]},{len(room.awaited)}"
                for number, room in sorted(self.rooms.items()) if len(room.awaited) >= 2]

    def business_day(self):
        return [day_text(self.day)] if self.day else []

    def room_status(self):
        return [f"{number},{room.kind},{room.party or ''},{'yes' if room.is_secured else 'no'},{len(room.awaited)}"
                for number, room in sorted(self.rooms.items())]

    def inside(self):
        return [f"{number},{card},{self.cards[card].party}"
                for number, room in sorted(self.rooms.items()) for card in sorted(room.inside)]

    def cards_of(self, party):
        return [f"{card.number},{card.old},{card.new}" for card in self.cards.values() if card.party == int(party)]

    def card(self, number):
        return [f"{card.number},{card.party},{field(self.stays[card.party].guest)},{card.old},{card.new}"
                for card in self.cards.values() if card.number == int(number)]

    def locks(self):
        """The newest lock of each room, with how many of its own notes were taken, and when it wrote the last of them.
        """
        rooms = [(number, len(room.fits), room.fits[-1]) for number, room in sorted(self.rooms.items())]
        return [f"{number},{fit},{len(kept)},{kept[-1].at if kept else ''}" for number, fit, kept in rooms]

    def availability(self, day, nights):
        """The kinds with their rooms, and with what is free: what can be booked until a night is full."""
        rooms, arrive = collections.Counter(room.kind for room in self.rooms.values()), ordinal(day)
        depart = arrive + int(nights)
        most = {kind: max(self.nights[kind, night] for night in range(arrive, depart)) for kind in self.kinds}
        is_ahead = self.day is not None and self.day <= arrive and depart <= LAST_DAY
        return [f"{kind},{rooms[kind]},{rooms[kind] - most[kind] if is_ahead else 0}" for kind in sorted(self.kinds)]

    def audit_of(self, number):
        return [row(note) for kept in self.rooms[int(number)].fits for note in kept]
