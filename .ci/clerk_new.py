"""A new clerk at the page, who has the reception's sheet alone: does what each row and section says, by the words as
they stand there, and keeps what had to be pressed and isn't on the sheet."""
import re

from built_desk import HEADER, text_of
from clerk_languages import COLOURED, Speaker
from clerk_sheet import plain, sheet_of
from clerks import hotel
from mistaken import MISTAKES, OTHERS, Mistake, does, ending, steps_of, variants
from reception import FIRST_DAY, FORMS, ROOMS, Reception
from simulated.things import day_text, ordinal

ANN, ANN_IN = "Book Ann DBL 1 2", "Book Ann DBL 1 2; Check in Ann 101; enters 101 1"
# What the sheet says besides mistakes, in the form of .ci/mistaken.py.
DAY = [
    Mistake("a guest books", "", "", "", ANN, "", "Ann"),
    Mistake("a guest comes", ANN, "", "", "Check in Ann 101; enters 101 1", "101 Ann"),
    Mistake("a second card", ANN_IN, "", "", "Spare card Ann; enters 101 2", "101 Ann"),
    Mistake("another room", ANN_IN, "leaves 101 1", "", "Move Ann 102; takes 1; enters 102 2", "102 Ann"),
    Mistake("another type of room", ANN_IN, "leaves 101 1", "",
            "Book Ann' SGL 1 2; Check out Ann; Check in Ann' 201; takes 1; enters 201 2", "201 Ann"),
    Mistake("a guest leaves", ANN_IN, "leaves 101 1", "", "Check out Ann; takes 1; reads 101", ""),
    Mistake("evening", ANN_IN, "", "", "prints today Ann; prints rooms Ann", "101 Ann"),
    Mistake("the day's last guest has come", f"{ANN_IN}; Book Bo DBL 1 1", "", "", "Cancel Bo; Next day", "101 Ann"),
    Mistake("your shift ends", ANN_IN, "", "", "ends", "101 Ann"),
    Mistake("A closed door: whose room", ANN_IN, "", "", "finds Ann", "101 Ann"),
    Mistake("A lost card: the others", f"{ANN_IN}; leaves 101 1; Spare card Ann", "takes 1; takes 2", "",
            "Lost card Ann; enters 101 3; Spare card Ann", "101 Ann"),
    Mistake("A lock that opens to nobody: a new number", f"{ANN_IN}; leaves 101 1; Check out Ann; takes 1", "", "",
            "reads 101; Replace a lock 101; fits 101", ""),
    Mistake("A power cut", ANN_IN, "", "", "finds Ann", "101 Ann"),
    Mistake("The computer is down: each evening", "", "", "",
            "Book Reserve DBL 1 1; Check in Reserve 101; turns 101 1; takes 1; Check out Reserve", ""),
    Mistake("A fire", ANN_IN, "leaves 101 1", "", "Move Ann 102; takes 1; enters 102 2", "102 Ann")]
SCENES = DAY + MISTAKES + OTHERS
# The page's word for each button.
NAMES = {"Book": "book", "Check in": "checkIn", "Spare card": "spareCard", "Lost card": "lostCard", "Move": "move",
         "Check out": "checkOut", "Cancel": "cancel", "Next day": "nextDay", "Replace a lock": "replaceALock"}
# Presses what has this text: in the window, if one is open; that of a party, if one is given. On the page a stop or a
# number can follow the text.
PRESS = """
const [text, party] = arguments;
const top = document.querySelector('dialog[open]') ?? document.body;
const found = [...top.querySelectorAll('button, a, summary')].find(one => one.checkVisibility() && !one.disabled
    && one.innerText.replace(/[…\\d]+$/, '').trim().toLowerCase() === text.toLowerCase()
    && (!party || one.dataset.key?.endsWith(` ${party}`)));
document.querySelector('dialog h2')?.setAttribute('data-old', '');
found?.click();
return Boolean(found)"""
# Whether the page is done with what was pressed, and shows what came of it. `isWindow` says that a window comes.
SETTLED = """
const [isWindow] = arguments;
const dialog = document.querySelector('dialog');
return !document.body.classList.contains('busy')
    && (dialog.open ? !dialog.querySelector('h2').hasAttribute('data-old') : !isWindow)"""


def italics(text):
    """The words of the page in a part of the sheet."""
    return re.findall("<i>(.+?)</i>", text)


def parts(language):
    """The sheet in parts, by their English names: rows of tables by their first cells, sections by their headings. Each
    has what stands in its section outside of tables, the rules at the top, and how a lock is read."""
    def of(text):
        rules, *sections = text.partition("<body>")[2].split("<h2 ")
        rules += sections[0].rpartition("</table>")[2]
        for section in sections:
            rows = re.findall("<tr[^>]*><td>(.*)</td><td>(.*)</td></tr>", section)
            around = rules + re.sub("(?s)<table.*</table>", "", section)
            yield plain(re.search(">(.*)</h2>", section)[1]), around
            yield from ((plain(first), f"{around}{first} {then}") for first, then in rows)

    return {name: text for (name, _), (_, text) in zip(of(sheet_of("en")), of(sheet_of(language)), strict=True)}


class NewClerk(Reception):
    """A reception whose clerk has the page, and a part of the sheet. `untold` is what was pressed that it doesn't say.
    Until the page is taken, the desk does by itself what is pressed."""

    def __init__(self, port, clerk, part, folder):
        super().__init__(port, ROOMS)
        self.clerk, self.own, self.part, self.folder = clerk, clerk.own, part, folder
        self.untold, self.is_at_page = [], False

    def takes_page(self):
        """Opens the page's first view, and waits for lists."""
        self.is_at_page = True
        self.clerk.js("location.hash = 'today'")
        self.clerk.reload()
        assert self.clerk.until(lambda: "2031" in self.clerk.text("h1"))
        self.clerk.js("window.print = () => window.isPrinted = true")

    def told(self, text):
        """Keeps what is pressed, if the sheet doesn't say it."""
        text = text.rstrip("…")
        if text.lower() not in [word.lower() for word in italics(self.part)]:
            self.untold.append(text)
        return text

    def clicks(self, text, party=None, is_window=False):
        """Whether what has this text is on the screen, and is pressed."""
        if not self.clerk.js(PRESS, text.rstrip("…"), party):
            return False
        self.settles(is_window)
        return True

    def settles(self, is_window=False):
        assert self.clerk.until(lambda: self.clerk.js(SETTLED, is_window)), self.clerk.text("body")

    def views(self, name):
        """Leads to a view."""
        text = self.told(self.own[name])
        assert self.clicks(text), name
        assert self.clerk.until(lambda: self.clerk.text("header nav [aria-current]").startswith(text)), name

    # --- what is pressed ---------------------------------------------------------------------------------------------

    def presses(self, button, *values):
        if not self.is_at_page:
            super().presses(button, *values)
            return
        given = dict(zip(FORMS.get(button, "guest").split(), values))
        text = self.told(self.own[NAMES[button]])
        others = {"Book": self.books, "Next day": self.begins_day, "Replace a lock": self.replaces}
        others.get(button, self.presses_for)(text, **given)

    def books(self, text, guest, kind, arrive, nights):
        before = self.rows("bookings")
        day = day_text(ordinal(FIRST_DAY) - 1 + int(arrive))
        assert self.clicks(text)
        self.clerk.fill(kind=kind, arrive=day, nights=nights, guest=guest.rstrip("'"))
        self.clerk.js("document.querySelector('#booking .main').click()")
        self.settles()
        (row,) = [row for row in self.rows("bookings") if row not in before]
        self.parties[guest] = row[0]

    def begins_day(self, text):
        if not self.clicks(text, is_window=True):
            self.views("today")
            assert self.clicks(text, is_window=True)
        self.goes_on()

    def presses_for(self, text, guest, room=None):
        """Presses a guest's button, where it is on the screen, or else in the window that the search opens."""
        party = self.parties[guest]
        if not self.clicks(text, party, is_window=True):
            self.finds(guest)
            assert self.clicks(text, party, is_window=True), (text, self.clerk.text("body"))
        if room:
            self.clerk.fill(room=room)
        if not self.has_card():
            self.goes_on()
        if self.has_card():
            number, old, new = (one.replace(" ", "") for one in self.clerk.card())
            self.gives(guest, number, party, old, new)
            self.goes_on()

    def has_card(self):
        return self.clerk.js("return Boolean(document.querySelector('dialog[open] #card-new'))")

    def goes_on(self):
        """Presses the coloured button of the window."""
        text = self.clerk.text("dialog[open] .main")
        if COLOURED[self.own["language"]] not in self.part:
            self.told(text)
        assert self.clicks(text), self.clerk.text("body")

    def closes(self):
        assert self.clicks(self.told(self.own["close"])), self.clerk.text("body")

    def replaces(self, text, room):
        if text not in self.clerk.text("main"):
            self.views("locks")
        self.clerk.fill(room=room)
        self.clerk.js("document.querySelector('[data-key=\"refit do\"]').click()")
        self.settles(is_window=True)
        self.goes_on()
        texts = self.clerk.js("return [...document.querySelectorAll('dialog dd')].map(one => one.innerText)")
        self.fit, self.fresh = int(texts[2]), self.clerk.text("#lock-code").replace(" ", "")
        self.goes_on()

    # --- what is looked at -------------------------------------------------------------------------------------------

    def finds(self, guest):
        """Types the guest's name into the search."""
        self.told(self.own["find"])
        self.clerk.js("""
            const find = document.getElementById('find');
            find.value = arguments[0];
            find.dispatchEvent(new Event('input', {bubbles: true}));
            document.getElementById('search').requestSubmit()""", guest.rstrip("'"))
        assert self.clerk.until(lambda: guest.rstrip("'") in self.clerk.text("dialog[open], #main"))

    def prints(self, name, shown):
        self.views(name)
        assert self.clerk.shows(shown, "main") is True
        assert self.clicks(self.told(self.own["print"]))
        assert self.clerk.js("return window.isPrinted")

    def ends(self):
        """Sees how to log out. The next scenes need the login."""
        text = self.told(self.own["logOut"])
        assert self.clerk.until(lambda: self.clerk.text("[href='/logout']") == text)

    def opens(self, room):
        """Opens a room's window, and says what it shows."""
        self.views("rooms")
        assert self.clerk.until(lambda: self.clerk.find(f"[data-key='room {room}']").click() or True)
        assert self.clerk.until(lambda: self.clerk.js("return Boolean(document.querySelector('dialog[open] .code'))"))
        return self.clerk.text("dialog")

    def sets(self, room, code):
        """Sets a lock to the last of the codes in the room's window, or to the code of the latest card's window."""
        if self.is_at_page:
            code = self.cards[max(self.cards)].new
            if self.own["newCode"] not in italics(self.part):
                self.told(self.own["codes"])
                self.opens(room)
                code = self.clerk.codes()[-1]
                self.closes()
        super().sets(room, code)

    def obeys(self, room):
        """Does what the room's window says."""
        if self.told(self.own["setItTo"]) in self.opens(room):
            code = self.clerk.text("dialog .so .code").replace(" ", "")
            self.closes()
            super().sets(room, code)
        else:
            self.closes()

    def imports(self, notes):
        if not self.is_at_page:
            super().imports(notes)
            return
        self.views("locks")
        self.told(self.own["importing"])
        file = self.folder / "lock.csv"
        file.write_bytes(HEADER + text_of(",".join(map(str, note)) for note in notes))
        self.clerk.until(lambda: self.clerk.find("[type=file]").send_keys(str(file)) or True)
        assert self.clerk.until(lambda: self.clerk.text("#imported details")), self.clerk.text("#imported")


def played(port, clerk, folder, scene):
    """What had to be pressed and isn't on the sheet; and what isn't as wanted at the end."""
    part = parts(clerk.own["language"])[scene.name.partition(":")[0]]
    reception = NewClerk(port, clerk, part, folder)
    (led, _), *_ = variants(scene)
    for step in led:
        does(reception, step)
    reception.takes_page()
    for step in steps_of(scene.cure):
        does(reception, step)
    reception.is_at_page = False
    return reception.untold, [case for case in ending(reception, scene) if case[1] != case[2]]


def new_clerk(language, name, scenes):
    """The test that in this language the sheet says each press of these scenes."""
    def test(desk):
        empty = desk.kept("empty.db", b"")
        with hotel(desk) as (between, site), Speaker(site, language) as clerk:
            for scene in scenes:
                between.again(empty)
                untold, differences = played(between.inner, clerk, site.folder, scene)
                yield (scene.name, "presses that aren't on the sheet"), [], untold
                yield scene.name, [], differences
            yield "the console", [], clerk.faults()

    test.__name__ = f"new_clerk_{name}"
    return test


# In the language that is furthest from the names of scenes and buttons. bench/sheet_on_page.py plays each.
NEW_CLERKS = [new_clerk("de", "day", DAY + OTHERS), new_clerk("de", "mistakes", MISTAKES)]
