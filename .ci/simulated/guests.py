"""What guests do: they book, come, lose cards and find them, move, go with a word or without, and come back."""
import types

from simulated.wanted import FIRST_DAY, LAST_DAY

NAMES = ["Ann", "Bo", "Zoë", "李", "O'Neil", '"Ed"', "=cmd()", "-1", "#9", "A&b=c", "100%", "a+b", "\u2028x", "🂡"]


class Guests:
    """A part of Hotel. A guest is `booked`, `here` or `gone`; sleeps in `room`; and has `cards` in the pocket."""

    def books_room(self):
        books, chance = self.desk.books, self.chance
        arrive = books.day + min(int(chance.expovariate(0.7)), 60) - (chance.random() < 0.03)
        v = {"kind": chance.choice(self.kinds if chance.random() < 0.97 else ["NONE", "NO"]),
             "arrive": max(FIRST_DAY, min(arrive, LAST_DAY)),
             "nights": chance.choice([1, 1, 1, 1, 2, 2, 2, 3, 4]) if chance.random() < 0.98 else chance.randint(1, 90),
             "guest": f"{chance.choice(NAMES)}{chance.choice([' ', ', ', '  '])}{self.desk.counts['events']}"}
        if self.desk.do("reserve", **v):
            self.guests.append(types.SimpleNamespace(**v, departs=v["arrive"] + v["nights"], party=len(books.stays),
                                                     state="booked", room=None, cards=[]))

    def cancels(self, guest):
        if self.desk.do("cancel", party=guest.party):
            self.guests.remove(guest)

    def arrives(self, guest):
        """A booked guest comes, and is mostly given a free room of the kind, and cards."""
        free = self.free(guest.kind) if self.chance.random() < 0.95 else []
        room = self.chance.choice(free or sorted(self.locks))
        card = self.desk.do("check-in", party=guest.party, room=room)
        if card:
            guest.state, guest.room, guest.cards = "here", room, [card]
            for _ in range(self.chance.choice([0, 0, 1, 2])):
                self.takes_spare(guest)
            if self.chance.random() < 0.75:
                self.goes_in(guest)

    def goes_in(self, guest):
        """A guest tries a card, and if the door stays shut the others, newest first; and then asks staff."""
        card = self.some([card for card in guest.cards if card not in self.locks[guest.room].within])
        if card and not any(self.tries(tried, guest.room) for tried in [card, *sorted(guest.cards, reverse=True)]):
            if self.chance.random() < 0.7:
                self.recodes(guest.room, card.new if self.chance.random() < 0.8 else None)

    def goes_out(self, guest):
        """A guest goes out, now and then unseen by the lock."""
        lock = self.locks[guest.room]
        for card in [card for card in lock.within if card in guest.cards]:
            if self.chance.random() < (0.67 if guest.state == "here" else 0.95):
                lock.leaves(card, self.at())

    def takes_spare(self, guest):
        guest.cards.append(self.desk.do("spare", party=guest.party))

    def loses(self, guest):
        """A card is lost, and perhaps reported. Then the new one enters at once, or staff set the lock, or neither
        (docs/CLERK.md, A lost card)."""
        card, lock, others = self.some(guest.cards), self.locks[guest.room], len(guest.cards) - 1
        if not card:
            return
        guest.cards.remove(card)
        self.lost.append(card)
        if card in lock.within:
            lock.leaves(card, self.at())
        if others and self.chance.random() < 0.2:
            return
        guest.cards.append(self.desk.do("reissue", party=guest.party))
        choice = self.chance.random()
        if choice < 0.5:
            self.goes_in(guest)
        elif choice < 0.8:
            self.recodes(guest.room, guest.cards[-1].new)
        for _ in range(min(2, others)):
            self.takes_spare(guest)

    def comes_back(self, card):
        """A card that was lost, or that a guest has kept, is tried at each door."""
        for room in sorted(self.locks):
            if self.tries(card, room) and self.chance.random() < 0.9:
                self.locks[room].leaves(card, self.at())
        self.lost = [kept for kept in self.lost[-99:] if kept != card or self.chance.random() < 0.7]

    def moves(self, guest):
        room = self.some(self.free(guest.kind) if self.chance.random() < 0.9 else sorted(self.locks))
        if room and self.chance.random() < 0.8:
            self.goes_out(guest)
        card = room and self.desk.do("transfer", party=guest.party, room=room)
        if card:
            kept = [] if self.chance.random() < 0.3 else guest.cards
            self.lost += [] if kept else guest.cards
            guest.room, guest.cards = room, [*kept, card]
            if self.chance.random() < 0.8:
                self.goes_in(guest)

    def departs(self, guest):
        """A guest goes, mostly with a word."""
        guest.state = "gone"
        self.goes_out(guest)
        if self.chance.random() < 0.85:
            self.checks_out(guest)

    def checks_out(self, guest):
        """A guest is checked out, perhaps because staff see that the guest went without a word."""
        self.desk.do("check-out", party=guest.party)
        self.guests.remove(guest)
        self.lost += guest.cards
