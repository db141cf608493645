"""Mistakes of a reception and their cures (.ci/mistaken.py) at the clerk's page: what is pressed there, and what each
door and list says then. .ci/clerk_new.py plays the whole table in German."""
import time

from clerks import Clerk, hotel
from mistaken import MISTAKES, does, ending, steps_of, variants
from reception import FIRST_DAY, FORMS, ROOMS, Reception
from simulated.things import day_text, ordinal

# What is pressed in the window that a button opens. The page names the room by a radio button.
CONFIRMED = {"Check in": "Check in", "Move": "Move", "Lost card": "Write the new card", "Check out": "Check out",
             "Cancel": "Cancel the booking"}
CHOICE = "dialog [name=room][value='{}']"
# Those that .ci/page plays.
PLAYED = ["The wrong guest was checked in", "The wrong room", "Moved to the wrong room",
          "The wrong guest was checked out", "Next day too early", "Replace a lock by mistake"]


class OnPage(Reception):
    """A reception whose clerk has the page."""

    def __init__(self, port, clerk):
        super().__init__(port, ROOMS)
        self.clerk = clerk
        clerk.reload()

    def presses(self, button, *values):
        given = dict(zip(FORMS.get(button, "guest").split(), values))
        others = {"Book": self.books, "Next day": self.begins_day, "Replace a lock": self.replaces}
        self.clerk.until(lambda: not self.clerk.js("return document.body.classList.contains('busy')"))
        self.clerk.seen()
        if button in others:
            others[button](**given)
        else:
            self.presses_for(button, **given)

    def changes(self, name, does):
        """The rows of a list that are new after this, when it is no longer as before and the window is closed."""
        before = self.rows(name)
        does()
        assert self.clerk.until(lambda: self.rows(name) != before), self.clerk.text("body")
        self.clerk.closed()
        return [row for row in self.rows(name) if row not in before]

    def books(self, guest, kind, arrive, nights):
        day = day_text(ordinal(FIRST_DAY) - 1 + int(arrive))
        (row,) = self.changes("bookings", lambda: self.clerk.book(guest.rstrip("'"), kind, day, nights))
        self.parties[guest] = row[0]

    def begins_day(self):
        def begins():
            self.clerk.go("Today")
            self.clerk.press("Next day…")
            self.clerk.shows("Begin the next day", "dialog h2")
            self.clerk.find("dialog button:not([value])").click()

        self.changes("business-day", begins)

    def replaces(self, room):
        self.clerk.go("Locks")
        self.clerk.until(lambda: self.clerk.js("""
            const rooms = document.querySelector('main select[name=room]');
            rooms.value = arguments[0];
            return rooms.value === arguments[0]""", room))
        self.clerk.press("Replace…")
        self.clerk.choose("Replace the lock")
        assert self.clerk.until(lambda: self.clerk.text("#lock-code")), self.clerk.text("dialog")
        texts = self.clerk.js("return [...document.querySelectorAll('dialog dd')].map(one => one.innerText)")
        self.fit, self.fresh = int(texts[2]), self.clerk.text("#lock-code").replace(" ", "")
        self.clerk.done()

    def presses_for(self, button, guest, room=None):
        """Opens the guest's window by the search, and presses there."""
        clerk, party = self.clerk, self.parties[guest]
        assert clerk.until(lambda: self.finds(party)), clerk.text("body")
        clerk.choose(button)
        if room:
            assert clerk.until(lambda: clerk.find(CHOICE.format(room)).click() or True), clerk.text("dialog")
        if button in ("Check out", "Cancel"):
            name = "in-house" if button == "Check out" else "bookings"
            clerk.shows("can't be undone")
            self.changes(name, lambda: clerk.choose(CONFIRMED[button]))
            return
        if button in CONFIRMED:
            clerk.choose(CONFIRMED[button])
        number, old, new = (text.replace(" ", "") for text in clerk.card())
        self.gives(guest, number, party, old, new)
        clerk.done()

    def finds(self, party):
        """Whether the search opens the guest's window. No field may have the keyboard before it."""
        self.clerk.go("Today")
        self.clerk.js("document.activeElement.blur()")
        self.clerk.find("body").send_keys("/")
        self.clerk.type(party, self.clerk.keys.ENTER)
        time.sleep(0.5)
        return self.clerk.js("return document.getElementById('dialog').open")


def differences(mistake, reception):
    """What isn't as wanted after a mistake and its cure."""
    (led, _), *_ = variants(mistake)
    for step in led + steps_of(mistake.cure):
        does(reception, step)
    return [case for case in ending(reception, mistake) if case[1] != case[2]]


def cured_on_page(desk):
    """Six mistakes and their cures, by clicks and keys."""
    empty = desk.kept("empty.db", b"")
    with hotel(desk) as (between, site), Clerk(site) as clerk:
        for mistake in MISTAKES:
            if mistake.name in PLAYED:
                between.again(empty)
                yield mistake.name, [], differences(mistake, OnPage(between.inner, clerk))
        yield "the console", [], clerk.faults()
