"""What once led a clerk wrong at the page, and must not again: a day that is skipped, a name that is booked twice or
wiped, a guest who isn't found, a room that isn't empty, what is hidden, cut off, or seen after a log-out."""
import time

from clerk_doings import search
from clerk_screens import FEW
from clerks import Clerk, hotel, post

KINDS = b"begin 2031-05-01\nadd-kind DBL\nadd-kind SGL\n"
ROOMS = KINDS + b"add-room 101 DBL\nadd-room 102 DBL\nadd-room 201 SGL\n"
# The notes of card 1, which is inside room 101.
INSIDE = "room,fit,count,kind,card,old,new,at\n101,1,1,in,1,{},{},2031-05-01T15:00:00\n"


def a_day_begun_meanwhile(desk):
    """Another clerk begins the day while the window that asks for it is open, and the page learns of it: no day is
    skipped."""
    with hotel(desk, ROOMS) as (between, site), Clerk(site) as clerk:
        clerk.press("Next day…")
        clerk.shows("Friday, 2 May 2031")
        between.each([post("/next-day")])
        clerk.seen()
        yield "the page knows", True, clerk.shows("Fri 2 May", "#day")
        clerk.choose("Begin Fri 2 May")
        yield "refused", True, clerk.shows("Somebody else has moved the day on")
        yield "the day", b"day\n2031-05-02\n", site.ask("GET /desk/business-day")[2]
        yield "the console", [], clerk.faults()


def names_that_were_sent(desk):
    """The field is free for the next name as soon as one is sent. The name is back if nothing was booked."""
    with hotel(desk, ROOMS) as (between, site), Clerk(site) as clerk:
        def name():
            return clerk.js("return document.querySelector('[name=guest]').value")

        for lose, told, kept in (("silent answer", "It was done", ""), ("silent request", "It wasn't done", "Dora")):
            between.lose = lose
            clerk.book("Dora", "DBL", "2031-05-03", 1)
            yield told, True, clerk.until(lambda: clerk.text("dialog h2") == told)
            clerk.done("Close")
            yield (told, "the name"), kept, name()
        clerk.fill(guest="", arrive="2031-06-01")
        between.slow = {"POST": 0.2, "GET": 0.05}
        clerk.js("document.querySelector('[name=guest]').focus()")
        clerk.browser.switch_to.active_element.send_keys("Eve", clerk.keys.ENTER, "Fay")
        yield "booked", True, clerk.shows("Booking 2: Eve", "#said")
        yield "typed meanwhile", "Fay", name()
        clerk.type(clerk.keys.ENTER)
        yield "and booked", True, clerk.shows("Booking 3: Fay", "#said")
        yield "the field isn't marked as wrong", 1, len(set(clerk.js("""
            const fields = ['[name=guest]', '[name=nights]'].map(css => document.querySelector(css));
            return fields.map(one => getComputedStyle(one).borderColor)""")))
        yield "the bookings", 3, site.ask("GET /desk/bookings")[2].count(b"DBL")
        yield "the console", [], clerk.faults()


def typed_meanwhile(desk):
    """A second booking is done though the page still asks for its lists after the first. While the desk is busy, a
    message says so, and letters that are typed stay in the field."""
    with hotel(desk, ROOMS + b"add-room 103 DBL\nadd-room 104 DBL\n") as (between, site), Clerk(site) as clerk:
        clerk.book("Ann Lee", "DBL", "2031-06-01", 1)
        clerk.shows("Booking 1", "#said")
        between.slow = {"GET": 0.2}
        enter = clerk.keys.ENTER
        clerk.browser.switch_to.active_element.send_keys("Bo", enter)
        yield "the desk has it", True, clerk.until(lambda: len(site.log()) == 2)
        yield "the page asks for lists", True, clerk.js("return document.body.classList.contains('busy')")
        clerk.browser.switch_to.active_element.send_keys("Cy", enter)
        yield "the second", True, clerk.shows("Booking 3: Cy", "#said")
        between.slow = {}
        with between.held("POST"):
            clerk.browser.switch_to.active_element.send_keys("Dora", enter)
            yield "it waits", True, clerk.shows("Please wait. The desk was asked to book DBL for Dora.", "#said")
            yield "no window", False, clerk.js("return document.querySelector('dialog').open")
            clerk.browser.switch_to.active_element.send_keys("Eve")
        yield "booked", True, clerk.shows("Booking 4: Dora", "#said")
        yield "what was typed", ("Eve", "guest"), (clerk.js("return document.querySelector('[name=guest]').value"),
                                                   clerk.focused())
        yield "the console", [], clerk.faults()


# The guests that a view shows.
SHOWN = "return [...document.querySelectorAll('main .guest')].map(one => one.textContent)"
NAMES = ["Zoë Müller-Lüdenscheidt", "Ann Lee", "Seán O'Neil", "Søren Weiß", "Lee, Ed"]


def names_as_they_are_typed(desk):
    """The search finds a guest by the letters that a keyboard has, and by the words of the name in any order."""
    script = ROOMS.decode() + "".join(f"reserve DBL 2031-05-{at:02} 1 {name}\n" for at, name in enumerate(NAMES, 2))
    with hotel(desk, script.encode()) as (_, site), Clerk(site) as clerk:
        for typed, found in (("muller", NAMES[:1]), ("LUDENSCHEIDT zoe", NAMES[:1]), ("müller", NAMES[:1]),
                             ("mullerlu", NAMES[:1]), ("lee ann", NAMES[1:2]), ("ann, lee", NAMES[1:2]),
                             ("sean oneil", NAMES[2:3]), ("o neil", NAMES[2:3]), ("O'Neil", NAMES[2:3]),
                             ("soren weiss", NAMES[3:4]), ("lee", [NAMES[1], NAMES[4]]), ("ed ann", []),
                             ("-", NAMES[:1])):
            search(clerk, typed)
            clerk.until(lambda: clerk.js(SHOWN) == found)
            yield typed, found, clerk.js(SHOWN)
        yield "the console", [], clerk.faults()


def rooms_that_are_not_empty(desk):
    """A room is free for tonight though its last guest is still to check out, or a card is still inside: the page says
    how many are empty, and no such room is chosen for the clerk."""
    script = ROOMS + b"reserve DBL 2031-05-01 1 Ann Lee\nreserve DBL 2031-05-01 1 Bo\ncheck-in 1 101\ncheck-in 2 102\n"
    with hotel(desk, script) as (between, site), Clerk(site) as clerk:
        codes = [line.split(",")[1] for line in site.ask("GET /desk/rooms/101/chain")[2].decode().splitlines()[1:]]
        site.ask("POST /desk/audit", INSIDE.format(*codes).encode())
        between.each([post("/next-day")])
        clerk.reload()
        yield "none is empty", True, clerk.shows("3 rooms free tonight · 1 empty now", "main")
        clerk.book("Cy", "DBL", "2031-05-02", 1)
        yield "free and not empty", True, clerk.shows("1 free, 0 empty now", "#free-DBL")
        clerk.fill(arrive="2031-05-03")
        yield "tomorrow", True, clerk.until(lambda: clerk.text("#free-DBL") == "2 free")
        between.each([post("/reservations/1/check-out")])
        clerk.go("Today")
        clerk.press("Check in", "Cy")
        yield "somebody may be inside", True, clerk.shows("Somebody may still be in each free room.")
        yield "none is chosen", 0, clerk.js("return document.querySelectorAll('dialog :checked').length")
        clerk.type(clerk.keys.ENTER)
        time.sleep(0.5)
        yield "nor taken", True, clerk.shows("Check in", "dialog h2") and b"Cy" not in site.ask("GET /desk/in-house")[2]
        clerk.type(" ", clerk.keys.ENTER)
        yield "by the clerk", True, clerk.shows("for room 101", "dialog h2")
        yield "the console", [], clerk.faults()


def a_day_behind(desk):
    """The page's top says that the business day is behind the calendar."""
    ahead = desk.kept("start.db", b"begin 2031-05-01\n")
    with hotel(desk, b"begin 2020-02-28\n") as (between, site), Clerk(site) as clerk:
        yield "behind", True, clerk.shows("calendar: ", "#calendar")
        clerk.shot("behind")
        between.again(ahead)
        clerk.reload()
        yield "ahead", (True, ""), (clerk.shows("Thu 1 May", "#day"), clerk.text("#calendar"))


def logged_out(desk):
    """After a log-out "Back" shows no guest, even if the browser has kept the page."""
    with hotel(desk, FEW) as (_, site), Clerk(site) as clerk:
        yield "a guest", True, clerk.shows("Ann Lee", "main")
        clerk.js("""
            window.isKept = true;
            const main = document.getElementById('main');
            addEventListener('pagehide', () => sessionStorage.left = main.checkVisibility())""")
        clerk.find("[href='/logout']").click()
        clerk.until(lambda: clerk.browser.current_url.endswith("/logout"))
        clerk.browser.back()
        yield "it is asked for anew", True, clerk.until(lambda: clerk.js("return window.isKept === undefined"))
        yield "the login is over", "", clerk.text("main")
        clerk.log_in()
        yield "what was kept was hidden", "false", clerk.js("return sessionStorage.left")


def rooms_added_again(desk):
    """Set-up adds the numbers that the hotel doesn't have yet, and says so."""
    with hotel(desk, ROOMS) as (_, site), Clerk(site) as clerk:
        for rooms, told in ("101-102", "These numbers are there already."), ("9-1", "Rooms have numbers from 1 to"):
            clerk.go("Set-up")
            clerk.fill(rooms=rooms, of="DBL")
            clerk.press("Add", "first-last")
            yield rooms, True, clerk.shows(told)
            clerk.done("Close")
        clerk.fill(rooms="101-104", of="DBL")
        clerk.press("Add", "first-last")
        yield "two of four", True, clerk.shows("2 rooms of type DBL, 103 to 104")
        yield "the others", True, clerk.shows("Left out: 2 numbers that the hotel has already.")
        yield "all", True, clerk.shows("If each is added, the hotel has 5 rooms.")
        clerk.choose("Add 2 rooms")
        yield "added", True, clerk.shows("104", "dialog tbody tr:nth-child(2)")
        yield "no fault", True, clerk.shows("Set these locks", "dialog h2")
        clerk.done()
        yield "the rooms", 5, len(site.ask("GET /desk/room-status")[2].splitlines()) - 1
        yield "the console", [], clerk.faults()


# Whether what has the keyboard is covered by the head of the page.
COVERED = """
const box = document.activeElement.getBoundingClientRect();
const head = document.querySelector('header');
const edge = getComputedStyle(head).position === 'sticky' ? head.getBoundingClientRect().bottom : 0;
return document.activeElement.closest('main') && (box.top < edge || box.bottom > innerHeight)
    ? document.activeElement.outerHTML.slice(0, 80) : ''"""
LONG = KINDS + b"".join(b"add-room %d DBL\nreserve DBL 2031-05-01 2 Guest %d\ncheck-in %d %d\n" % (
    100 + at, at, at, 100 + at) for at in range(1, 31))


def under_the_head(desk):
    """Tab leads up a long list, and never to something that the page's head covers."""
    with hotel(desk, LONG) as (_, site), Clerk(site) as clerk:
        for width, height in (1280, 700), (800, 700), (360, 740):
            clerk.command("Emulation.setDeviceMetricsOverride", width=width, height=height, mobile=False,
                          deviceScaleFactor=1)
            clerk.go("Today")
            clerk.shows("Guest 30", "main")
            clerk.js("[...document.querySelectorAll('main .link')].at(-1).focus()")
            covered = []
            for _ in range(29):
                clerk.browser.switch_to.active_element.send_keys(clerk.keys.SHIFT, clerk.keys.TAB)
                covered.append(clerk.js(COVERED))
            yield width, [""] * 29, covered
        yield "the console", [], clerk.faults()


def out_of_fields(desk):
    """Esc leads from a field back to the page, and single keys work again."""
    with hotel(desk, ROOMS) as (_, site), Clerk(site) as clerk:
        clerk.go("Book")
        for field in "guest", "arrive", "nights":
            clerk.js("document.querySelector(`[name=${arguments[0]}]`).focus()", field)
            clerk.type(clerk.keys.ESCAPE)
            yield field, "main", clerk.js("return document.activeElement.id")
        clerk.type("4")
        yield "a key", True, clerk.shows("Guests", "h1")
        search(clerk, "ann", clerk.keys.ESCAPE)
        yield "the search", "main", clerk.js("return document.activeElement.id")
        clerk.type("1")
        yield "another key", True, clerk.shows("Thursday", "h1")
        yield "the console", [], clerk.faults()


def arrivals_by_name(desk):
    """Arrivals are in the order of names, and each has its booking's number."""
    script = ROOMS + "".join(f"reserve DBL 2031-05-01 1 {name}\n" for name in ("Zoë", "Élodie")).encode()
    with hotel(desk, script + b"reserve SGL 2031-05-01 1 Bo\n") as (_, site), Clerk(site) as clerk:
        yield "rows", [["Bo", "3"], ["Élodie", "2"], ["Zoë", "1"]], clerk.until(lambda: clerk.js("""
            return [...document.querySelectorAll('main .pair tbody tr')].map(row =>
                [...row.cells].slice(0, 2).map(one => one.textContent))"""))


def lock_that_waits(desk):
    """The window of a card that doesn't open its lock yet names the earlier cards before the setting by hand. That of a
    lost card has one order, and not that the guest should enter."""
    with hotel(desk, FEW) as (_, site), Clerk(site) as clerk:
        clerk.go("Guests")
        clerk.press("Spare card", "Ann Lee")
        yield "the earlier cards", True, clerk.shows("it waits for an earlier one")
        told = clerk.text("dialog")
        yield "first", True, 0 < told.find("Go in and out with each card") < told.find("set the lock to its new code")
        clerk.done()
        clerk.press("Lost card", "Ann Lee")
        clerk.choose("Write the new card")
        yield "the lock", True, clerk.shows("The lock doesn't open to this card yet")
        yield "at once", [True, False, False], [text in clerk.text("dialog") for text in (
            "Set the lock to the new code at once", "Have the guest enter", "Go in and out")]


# The colours and lines by which two things differ.
STYLE = """
const of = css => {
    const style = getComputedStyle(document.querySelector(css));
    return ['backgroundColor', 'borderTopStyle', 'borderTopWidth', 'borderTopColor'].map(name => style[name]).join();
};
return arguments[0].map(of)"""
DIFFER = [("Today", ["nav [aria-current]", "nav a:not([aria-current])"]),
          ("Rooms", [".dot.free", ".dot.taken", ".dot.waiting", ".dot.leaving"]),
          ("Book", [".choice label:has(:checked)", ".choice label:not(:has(:checked))"]),
          ("Book", [".grid .mine button", ".grid td:not(.mine) button"])]


def high_contrast(desk):
    """With the colours of high contrast what is chosen, outlined or marked still differs."""
    with hotel(desk, FEW) as (_, site), Clerk(site) as clerk:
        clerk.command("Emulation.setEmulatedMedia", features=[{"name": "forced-colors", "value": "active"}])
        for view, names in DIFFER:
            clerk.go(view)
            clerk.until(lambda: clerk.js(STYLE, names))
            yield (view, names), len(names), len(set(clerk.js(STYLE, names)))
        yield "the outline", "solid", clerk.js("""
            const field = document.querySelector('[name=guest]');
            field.focus();
            return getComputedStyle(field).outlineStyle""")
        clerk.go("Rooms")
        yield "a mark", "solid", clerk.js("return getComputedStyle(document.querySelector('.mark')).borderTopStyle")
        clerk.shot("high-contrast")


TRAPS = [a_day_begun_meanwhile, names_that_were_sent, typed_meanwhile, names_as_they_are_typed,
         rooms_that_are_not_empty, a_day_behind, logged_out, rooms_added_again, under_the_head, out_of_fields,
         arrivals_by_name, lock_that_waits, high_contrast]
