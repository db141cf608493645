"""What is in a building besides guests: locks that know one code, and cards with two. No lock asks the desk."""
import collections
import datetime

# `room` of a card is the one that it was issued for, which is printed nowhere. `at` of a note is a text.
Card = collections.namedtuple("Card", "number party old new room")
Note = collections.namedtuple("Note", "room fit count kind card old new at")


def day_text(day):
    return datetime.date.fromordinal(day).isoformat()


def ordinal(text):
    return datetime.date.fromisoformat(text).toordinal()


class Lock:
    """A lock: a code and a log. It was set after `since` steps of the desk; `within` are the cards that it let in and
    didn't see leave; `read` is how many notes a reader has brought. `may_be_lost`: the desk may have lost track of the
    lock, by a restore or by a card that it doesn't know. `is_lost`: it has."""

    def __init__(self, room, fit, code, since):
        self.room, self.fit, self.code, self.since = room, fit, code, since
        self.log, self.within, self.read, self.may_be_lost, self.is_lost = [], [], 0, False, False

    def writes(self, kind, card, old, new, at):
        self.log.append(Note(self.room, self.fit, len(self.log) + 1, kind, card, old, new, at))

    def enters(self, card, at):
        """Whether the lock opens to this card, by the rule of two codes (README.md, The two codes)."""
        if self.code not in (card.old, card.new):
            return False
        self.code = card.new
        self.within += [card] if card not in self.within else []
        self.writes("in", card.number, card.old, card.new, at)
        return True

    def leaves(self, card, at):
        self.within = [other for other in self.within if other != card]
        self.writes("out", card.number, card.old, card.new, at)

    def set_to(self, code, at):
        """Whether it makes a note: this lock always does."""
        self.writes("recode", "", self.code, code, at)
        self.code = code
        return True

    def brings(self, after):
        """What a reader brings of its notes, without the first ones."""
        return self.log[after:]
