"""What a clerk does at the page, besides a plain day: many rooms at once, the search, a page that is left open,
waiting, long names, keys."""
import time

from clerks import Clerk, NAME, hotel, post

BEGUN = b"begin 2031-05-01\nadd-kind DBL\nadd-kind SGL\n"
# Room 2 has booking 1, and room 1 booking 2; 3 is free. Two names have "an" in them.
SMALL = BEGUN + b"""add-room 1 DBL
add-room 2 DBL
add-room 3 DBL
reserve DBL 2031-05-01 2 Ann Lee
reserve DBL 2031-05-01 2 Joanna
reserve DBL 2031-05-02 1 Cy
check-in 1 2
check-in 2 1
"""


def add_rooms(clerk, rooms, kind, button):
    clerk.go("Set-up")
    clerk.fill(rooms=rooms, of=kind)
    clerk.press("Add", "first-last")
    clerk.shows(f"of type {kind}")
    clerk.choose(button)


def added_rooms(desk):
    """Many rooms are asked once more, and added up to the first one that the desk refuses; the window says why, and has
    the codes of those that were added, even if an answer was lost."""
    with hotel(desk, BEGUN) as (between, site), Clerk(site) as clerk:
        clerk.go("Set-up")
        clerk.fill(rooms="101-1010", of="SGL")
        clerk.press("Add", "first-last")
        yield "910 rooms", True, clerk.shows("910 rooms of type SGL, 101 to 1010")
        yield "the keyboard", "Don't", clerk.focused()
        clerk.type(clerk.keys.ENTER)
        yield "not added", (True, b"room,kind,party,secured,awaited\n"), (
            clerk.closed(), site.ask("GET /desk/room-status")[2])
        site.ask("POST /desk/rooms", b"room=203&kind=DBL")
        add_rooms(clerk, "201-205", "SGL", "Add 5 rooms")
        yield "up to 203", True, clerk.shows("Room 203 wasn't added, nor any after it. This room exists already.")
        yield "their codes", [codes(site, 201), codes(site, 202)], clerk.codes()
        clerk.done()
        yield "the type that was chosen", "SGL", clerk.js("return document.querySelector('[name=of]').value")
        between.lose = "silent answer"
        add_rooms(clerk, "301-302", "DBL", "Add 2 rooms")
        yield "an answer is lost", True, clerk.shows("302", "dialog tbody tr:nth-child(2)")
        yield "the codes", [codes(site, 301), codes(site, 302)], clerk.codes()
        clerk.done()
        before = len((site.logs / "nginx/access.log").read_text().splitlines())
        add_rooms(clerk, "401-440", "DBL", "Add 40 rooms")
        yield "forty", True, clerk.shows("440", "dialog tbody tr:last-child")
        asked = len((site.logs / "nginx/access.log").read_text().splitlines()) - before
        yield "requests", True, 40 <= asked < 60 or asked
        yield "the codes of all", [codes(site, room) for room in range(401, 441)], clerk.codes()
        yield "the console", [], clerk.faults()


def codes(site, room):
    """A new room's code."""
    return site.ask(f"GET /desk/rooms/{room}/chain")[2].decode().splitlines()[-1].split(",")[1]


def search(clerk, text, *keys):
    """Types this into the search, by its key, and then these keys."""
    clerk.js("document.activeElement.blur()")
    clerk.find("body").send_keys("/")
    clerk.type(text, *keys)


def held_enter(clerk, times=5):
    """Enter as a keyboard sends it that is held down."""
    for at in range(times):
        clerk.command("Input.dispatchKeyEvent", type="keyDown", key="Enter", code="Enter", text="\r",
                      windowsVirtualKeyCode=13, autoRepeat=at > 0)
    clerk.command("Input.dispatchKeyEvent", type="keyUp", key="Enter", code="Enter", windowsVirtualKeyCode=13)


def found_guests(desk):
    """Enter in the search opens what it means, and else leads into the list; no number of Enters ends a stay."""
    with hotel(desk, SMALL) as (_, site), Clerk(site) as clerk:
        yield from names_found(clerk, clerk.keys.ENTER)
        yield from numbers_found(clerk, clerk.keys.ENTER)
        yield "who is in house", 2, site.ask("GET /desk/in-house")[2].count(b"DBL")
        yield "the console", [], clerk.faults()


def names_found(clerk, enter):
    search(clerk, "an", enter)
    yield "two match", (False, "Joanna"), (clerk.js("return document.querySelector('dialog').open"), clerk.focused())
    clerk.type(enter)
    yield "the one that was chosen", True, clerk.shows("Joanna", "dialog h2")
    yield "who stays longer", True, "check the new booking in at the same room" in clerk.raw("dialog details")
    yield "where the keyboard is", "Close", clerk.focused()
    clerk.type(enter, enter, enter)
    search(clerk, "joanna", enter)
    yield "a new search", (True, "joanna"), (clerk.shows("Joanna", "dialog h2"), clerk.js(
        "return document.getElementById('find').value"))
    for action in "Check out", "Lost card":
        clerk.choose(action)
        yield action, "Don't", clerk.until(lambda: clerk.focused() == "Don't" and "Don't")
        clerk.done("Don't")
        search(clerk, "joanna", enter)
    clerk.done("Close")
    search(clerk, "cy", enter)
    yield "a booking of tomorrow", "Close", clerk.until(lambda: clerk.text("dialog h2") == "Cy" and clerk.focused())
    held_enter(clerk)
    yield "a key that is held", True, clerk.closed()
    search(clerk, "nobody", enter)
    yield "no match", True, clerk.shows("Nobody is found", "#said")
    clerk.go("Today")
    yield "the search is over", "", clerk.js("return document.getElementById('find').value")


def numbers_found(clerk, enter):
    for number, title in ("2", "Ann Lee"), ("3", "Room 3"):
        search(clerk, number, enter)
        yield number, True, clerk.shows(title, "dialog h2")
        clerk.done("Close")


def cells(clerk):
    """How many the picture of free rooms has."""
    return clerk.js("return document.querySelectorAll('#grid button').length")


def answered_again(clerk, between):
    """Book is filled when the desk answers again."""
    between.end()
    clerk.go("Today")
    clerk.go("Book")
    yield "no answer again", True, clerk.shows("No answer", "#state")
    yield "Book without an answer", ("", 0), (clerk.text("#free-DBL"), cells(clerk))
    between.begin()
    yield "Book with an answer", True, clerk.shows("full", "#free-DBL")
    yield "its nights", 28, cells(clerk)


def left_open(desk):
    """A page that is left at Book, with the keyboard in a field, shows what becomes of the desk: its free rooms, its
    day, and whether it answers, which is said once."""
    with hotel(desk, SMALL) as (between, site), Clerk(site) as clerk:
        clerk.go("Book")
        yield "the keyboard", "guest", clerk.until(lambda: clerk.focused() == "guest" and "guest")
        yield "free before", True, clerk.shows("1 free", "#free-DBL")
        clerk.type("Do")
        between.each([post("/reservations", kind="DBL", arrive="2031-05-01", nights=1, guest="Eve")])
        clerk.seen()
        yield "free", True, clerk.shows("full", "#free-DBL")
        between.each([post("/next-day")])
        clerk.seen()
        yield "the day", True, clerk.shows("Fri 2 May", "#day")
        yield "the nights", True, clerk.shows("Friday, 2 May 2031 to Saturday, 3 May 2031", "#until")
        clerk.type("ra")
        yield "the fields", ["2031-05-02", "2031-05-02", "Dora"], clerk.js("""
            const [guest, arrive] = ['guest', 'arrive'].map(name => document.querySelector(`[name=${name}]`));
            return [arrive.value, arrive.min, guest.value]""")
        clerk.js("""window.said = 0;
            new MutationObserver(() => window.said += 1).observe(document.getElementById('said'), {childList: true})""")
        between.end()
        clerk.seen()
        yield "no answer", True, clerk.shows("No answer", "#state")
        time.sleep(7)
        yield "said once", 1, clerk.js("return window.said")
        between.begin()
        yield "an answer", True, clerk.until(lambda: clerk.text("#alone") == "")
        clerk.js("document.querySelector('main h1').isMarked = true")
        clerk.seen()
        time.sleep(1)
        yield "it isn't drawn anew", True, clerk.js("return document.querySelector('main h1').isMarked")
        yield from answered_again(clerk, between)
        yield "the console", [], clerk.faults()


def waiting(desk):
    """While the desk is busy the page says so, and does one thing after the other; of several windows that are asked
    for the last one opens. What lists can't say in time isn't claimed."""
    with hotel(desk, SMALL) as (between, site), Clerk(site) as clerk:
        yield from windows_that_wait(clerk, between)
        yield from a_command_that_waits(clerk, between)
        yield from verdicts_without_a_window(clerk, between)
        yield "the console", [], clerk.faults()


def windows_that_wait(clerk, between):
    clerk.go("Rooms")
    with between.held("GET"):
        for room in 1, 2, 3:
            clerk.js("document.querySelector(`[data-key='room ${arguments[0]}']`).click()", room)
        yield "it says so", True, clerk.shows("Please wait", "dialog h2")
    yield "the last one", True, clerk.shows("Room 3", "dialog h2")
    clerk.done("Close")
    between.quiet()
    yield "no other", False, clerk.js("return document.querySelector('dialog').open")
    with between.held("GET"):
        clerk.js("document.querySelector(`[data-key='room 1']`).click()")
        yield "it says so again", True, clerk.shows("Please wait", "dialog h2")
        clerk.done("Close")
    between.quiet()
    yield "none once it is closed", False, clerk.js("return document.querySelector('dialog').open")


def a_command_that_waits(clerk, between):
    clerk.go("Guests")
    clerk.press("Lost card", "Ann Lee")
    clerk.shows("Write the new card")
    with between.held("POST"):
        # its buttons are looked at in the same moment: others take their place soon
        yield "buttons", [True, True], clerk.js("""
            const all = [...document.querySelectorAll('dialog button')];
            all.find(one => one.innerText === 'Write the new card').click();
            return all.map(one => one.disabled)""")
        yield "a command", True, clerk.shows("The desk was asked to replace the lost card of Ann Lee")
        clerk.type(clerk.keys.ESCAPE)
        yield "it stays", True, clerk.js("return document.querySelector('dialog').open")
    yield "its answer", True, clerk.shows("Card 3 for room 2", "dialog h2")
    clerk.done()
    between.slow = {"GET": 0.8}
    clerk.js("window.patience = 1")
    clerk.press("Spare card", "Ann Lee")
    yield "lists that come late", True, clerk.shows("It isn't known for which room this card is")
    between.slow = {}
    clerk.done()


def verdicts_without_a_window(clerk, between):
    """The window that waits for a verdict is closed, and another one is opened."""
    for press, choice, told, opens in (
            (("Cancel", "Cy"), "Cancel the booking", "It was done: cancel the booking of Cy.", False),
            (("Check out", "Joanna"), "Check out", "It was done: check Joanna out.", True)):
        between.lose, between.then_slow = "silent answer", {"GET": 0.5}
        clerk.press(*press)
        clerk.choose(choice)
        clerk.shows("It may have been done")
        clerk.done("Close")
        if opens:
            clerk.js("document.querySelector('main [data-key=g1]').click()")
            yield "another window", True, clerk.shows("Ann Lee", "dialog h2") or clerk.text("dialog")
        yield told, True, clerk.shows(told, "#said")
        yield (told, "the window"), opens and "Ann Lee", clerk.js(
            "const one = document.querySelector('dialog'); return one.open && one.querySelector('h2').innerText")
        between.slow = {}


def long_names(desk):
    """A name that is too long for the desk, in letters of more than one byte, is told while it is typed."""
    with hotel(desk, SMALL) as (_, site), Clerk(site) as clerk:
        clerk.go("Book")
        clerk.fill(arrive="2031-06-01")
        for name, told in (("Ж" * 30, ""), ("Ж" * 32, "leave out 2 letters"), ("x" * 61, "leave out 1 letter."),
                           ("ab" + "한" * 20, "leave out 1 letter."), ("𝔸" * 15, "")):
            clerk.fill(guest=name)
            yield name, True, clerk.until(lambda: told in clerk.text("#length") and bool(told) == bool(
                clerk.text("#length"))) or clerk.text("#length")
            clerk.press("Book", "Guest")
            if not told:
                yield (name, "booked"), True, clerk.shows(name, "#said")
        yield "the bookings", 3, site.ask("GET /desk/bookings")[2].count(b"DBL")
        yield "the console", [], clerk.faults()


def wrong_stays(desk):
    """A stay that can't be booked is named as such, and no type is full for it. A day of another year has its year."""
    with hotel(desk, SMALL) as (_, site), Clerk(site) as clerk:
        clerk.go("Book")
        for arrive, nights, told in (("2031-01-02", "3", "This day is over. Look at the year too."),
                                     ("2031-06-01", "91", "A booking has at most 90 nights.")):
            clerk.fill(guest="Eve", arrive=arrive, nights=nights)
            yield told, True, clerk.shows(told, "#until")
            yield (told, "free rooms"), True, clerk.until(lambda: clerk.text("#free-DBL") == "")
            yield (told, "nights"), True, clerk.until(
                lambda: not clerk.js("return document.querySelectorAll('.mine').length"))
        clerk.fill(nights="90")
        yield "ninety nights", True, clerk.shows("3 free", "#free-DBL")
        clerk.book("Eve", "DBL", "2031-12-30", 90)
        yield "booked", True, clerk.shows("Booking 4: Eve, DBL, Tue 30 Dec to Mon 29 Mar 2032.", "#said")
        clerk.go("Guests")
        yield "in the list", True, clerk.shows("Tue 30 Dec\tMon 29 Mar 2032", "main")
        yield "this year", True, clerk.shows("Fri 2 May\tSat 3 May\t", "main")
        yield "the console", [], clerk.faults()


# Twelve rooms whose locks are to be set.
TO_SET = b"begin 2031-05-01\nadd-kind DBL\n" + b"".join(
    b"add-room %d DBL\nreserve DBL 2031-05-01 1 Guest %d\ncheck-in %d %d\nreissue %d\n" % (room, room, room, room, room)
    for room in range(1, 13))


def imports(desk):
    """What becomes of an import is in sight, however long the list of locks to set is."""
    with hotel(desk, TO_SET) as (_, site), Clerk(site) as clerk:
        (site.folder / "wrong.csv").write_text("Breakfast is at seven.\n")
        clerk.go("Locks")
        yield "locks to set", True, clerk.until(
            lambda: clerk.js("return document.querySelectorAll('main tbody tr').length") == 12)
        clerk.until(lambda: clerk.find("[type=file]").send_keys(f"{site.folder}/wrong.csv") or True)
        yield "told", True, clerk.shows("This isn't an audit file of a lock's reader.", "#imported")
        yield "in sight", True, clerk.until(lambda: clerk.js("""
            const box = document.getElementById('imported').getBoundingClientRect();
            return box.top > document.querySelector('header').offsetHeight && box.bottom <= innerHeight"""))
        yield "the console", [], clerk.faults()


def single_keys(desk):
    """Single keys can be switched off, and stay so; a message with a button stays, another passes."""
    with hotel(desk, SMALL) as (_, site), Clerk(site) as clerk:
        clerk.js("const plain = setTimeout; window.setTimeout = (then, wait) => plain(then, wait / 20)")
        clerk.book("Eve", "DBL", "2031-05-01", 1)
        yield "it has a button", True, clerk.shows("Check in", "#said")
        time.sleep(1.5)
        yield "it stays", True, clerk.shows("Check in", "#said")
        clerk.book("Fay", "DBL", "2031-05-20", 1)
        yield "it has none", True, clerk.shows("Booking 5", "#said")
        yield "it passes", True, clerk.until(lambda: clerk.text("#said") == "")
        clerk.go("Today")
        clerk.find("body").send_keys("3")
        yield "a key", True, clerk.shows("Rooms", "h1")
        clerk.js("document.getElementById('keys').click()")
        for _ in range(2):
            clerk.go("Today")
            clerk.js("document.activeElement.blur()")
            clerk.find("body").send_keys("3", "/")
            yield "no key", "Today", clerk.text("nav [aria-current]")
            yield "nor the search", False, clerk.js("return document.activeElement.id === 'find'")
            clerk.reload()
        yield "the hotel", (NAME, True), (clerk.text("#hotel"), clerk.browser.title.endswith(NAME))
        yield "the console", [], clerk.faults()
