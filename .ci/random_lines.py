"""Scripts of random lines on an empty desk with a seed of zeros, and what the documents want of them
(simulated/wanted.py)."""
import random

from built_desk import codes
from simulated.things import Note, day_text, ordinal
from simulated.wanted import CODE, VERB_OF, Books, names_of
from simulated.ways import line_of

OPENING = ["begin", "add-kind", "add-kind", "add-kind", *["add-room"] * 9]
# How often each command and note comes behind these, beside the others.
OFTEN = {"begin": 0.1, "add-kind": 0.2, "add-room": 0.2, "next-day": 4, "reserve": 14, "cancel": 1, "check-in": 16,
         "spare": 3, "reissue": 3, "transfer": 3, "check-out": 8, "refit": 2, "in": 18, "out": 12, "recode": 3}
KINDS, ROOMS, GUESTS = ["DBL", "SGL"], [101, 102, 103, 104, 9999], ["Ann Lee", "Lee, Bo", '"Cy"', "Zo\u00eb", "1,000"]


class RandomScript:
    """So many random lines, the answer to each, and the books behind them. A longer one of the same seed begins with
    them."""

    def __init__(self, seed, count):
        self.chance, self.books, self.codes = random.Random(seed), Books(), (f"{code:012x}" for code in codes())
        self.lines, self.answers = [], []
        for number in range(count):
            self.adds(OPENING[number] if number < len(OPENING) else self.chance.choices(list(OFTEN), OFTEN.values())[0])

    def adds(self, verb):
        v = {"note": self.note(verb)} if verb in VERB_OF else {
            name: getattr(self, name)(verb) for name in names_of(verb)}
        verb = VERB_OF.get(verb, verb)
        said = self.books.refusal(verb, v)
        if said is None:
            new = [next(self.codes)] if CODE in self.books.answer(verb, v) else []
            said = self.books.answer(verb, v, *new)
            self.books.carry_out(verb, v, *new)
        self.lines.append(line_of(verb, v))
        self.answers.append(said)

    def some(self, likely, others):
        """Mostly one of the likely ones."""
        return self.chance.choice(likely if likely and self.chance.random() < 0.85 else others)

    def day(self, _):
        return ordinal("2031-05-01")

    def kind(self, _):
        return self.chance.choice(KINDS)

    def nights(self, _):
        return self.chance.choice([1, 1, 1, 2, 3])

    def guest(self, _):
        return self.chance.choice(GUESTS)

    def arrive(self, _):
        return self.books.day + self.chance.choice([0] * 9 + [-1, 1, 2])

    def party(self, verb):
        """Mostly a party for which this command can be carried out."""
        today, state = self.books.day, "booked" if verb in ("cancel", "check-in") else "in house"
        likely = [stay.party for stay in self.books.stays.values() if stay.state == state and (
            verb != "check-in" or stay.arrive <= today < stay.depart)]
        return self.some(likely, range(1, len(self.books.stays) + 2))

    def room(self, verb):
        """Mostly a room that has no party."""
        free = [room.number for room in self.books.rooms.values() if not room.party]
        return self.some([] if verb == "add-room" else free, ROOMS)

    def note(self, kind):
        """A note of this kind: mostly the next one of a room's lock, by a card that opens it or is inside, or to a code
        that it awaits; or one that was taken."""
        chance, books = self.chance, self.books
        room, cards = chance.choice(list(books.rooms.values())), list(books.cards.values())
        likely = [card for card in cards if (card.number in room.inside if kind == "out" else room.held in card[2:4])]
        card, old, new = "", room.held, chance.choice(room.awaited or room.codes)
        if kind != "recode" and cards:
            card, _, old, new, _ = chance.choice(likely or cards[-9:])
        elif kind != "recode":
            card = 1
        if chance.random() < 0.03:
            old, new = new, old
        fit = max(1, len(room.fits) + chance.choice([0] * 18 + [-1, 1]))
        kept = room.fits[fit - 1] if fit <= len(room.fits) else []
        taken = [note for note in kept if note.kind == kind]
        if taken and chance.random() < 0.1:
            return chance.choice(taken)
        count = max(1, len(kept) + chance.choice([1] * 16 + [0, 2]))
        return Note(room.number, fit, count, kind, card, old, new, f"{day_text(books.day)}T15:00:00")

    def lists(self):
        """The lines of lists that show each row, and their answers."""
        today = day_text(self.books.day)
        lines = ["business-day", "in-house", "left-behind", "room-status", "inside", "bookings", f"arrivals {today}",
                 f"availability {today} 2", "locks",
                 *(f"card {number}" for number in range(1, len(self.books.cards) + 2)),
                 *(f"cards {party}" for party in range(1, len(self.books.stays) + 2))]
        lines += [f"{name} {room}" for room in sorted(self.books.rooms) for name in ("chain", "audit-of")]
        return lines, "".join(map(self.books.list_of, lines)).encode()
