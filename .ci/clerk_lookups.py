"""What a clerk looks up at the page: who arrives and leaves on another day and what is free then, whose a card is, and
who is still inside a room."""
from clerk_doings import search
from clerks import Clerk, hotel

DAYS = b"""begin 2031-05-01
add-kind DBL
add-kind SGL
add-room 101 DBL
add-room 102 DBL
add-room 201 SGL
reserve DBL 2031-05-01 1 Ann Lee
reserve DBL 2031-05-02 2 Zoe
reserve SGL 2031-05-02 1 Bo
reserve DBL 2031-05-01 1 Cy
check-in 1 101
spare 1
reissue 1
"""


def rows(clerk, at):
    """The texts of the cells of a card of the view."""
    return clerk.js("""
        const shown = document.querySelectorAll('main .card')[arguments[0]].querySelectorAll('tbody tr');
        return [...shown].map(row => [...row.cells].map(one => one.textContent))""", at)


def other_days(desk):
    """One key leads from Today to the next day: its arrivals, its departures, and what is free, which can be booked."""
    with hotel(desk, DAYS) as (_, site), Clerk(site) as clerk:
        clerk.find("body").send_keys(clerk.keys.ARROW_RIGHT)
        yield "a key", True, clerk.shows("Friday, 2 May 2031", "h1")
        yield "arrivals", [["Bo", "3", "SGL", "Sat 3 May"], ["Zoe", "2", "DBL", "Sun 4 May"]], rows(clerk, 0)
        yield "departures", [["101", "Ann Lee", "DBL"], ["not here yet", "Cy", "DBL"]], rows(clerk, 1)
        yield "free", [["DBL", "1", "2", "Book"], ["SGL", "0", "1", ""]], clerk.until(lambda: rows(clerk, 2))
        yield "the view", "Today", clerk.text("header nav [aria-current]")
        clerk.shot("another-day")
        clerk.press("Book", "DBL", top="//*[@id='night']")
        yield "to be booked", ["2031-05-02", "DBL"], clerk.until(lambda: clerk.js("""
            return ['[name=arrive]', '[name=kind]:checked'].map(css => document.querySelector(css).value)"""))
        clerk.browser.back()
        yield "back", True, clerk.shows("Friday, 2 May 2031", "h1")
        clerk.find("body").send_keys(clerk.keys.ARROW_RIGHT, clerk.keys.ARROW_RIGHT)
        yield "two more", True, clerk.shows("Sunday, 4 May 2031", "h1")
        clerk.press("‹ Sat 3 May")
        yield "back a day", True, clerk.shows("Saturday, 3 May 2031", "h1")
        clerk.find("body").send_keys(clerk.keys.ARROW_LEFT, clerk.keys.ARROW_LEFT, clerk.keys.ARROW_LEFT)
        yield "no further than today", (True, "#today"), (clerk.shows("Thursday, 1 May 2031", "h1"), clerk.js(
            "return location.hash"))
        clerk.js("""const field = document.querySelector('.days input');
            field.value = '2031-12-31';
            field.dispatchEvent(new Event('change'))""")
        yield "a day that is picked", True, clerk.shows("Wednesday, 31 December 2031", "h1")
        clerk.find(".days input").send_keys("11252031")
        yield "a day that is typed", True, clerk.shows("Wednesday, 31 December 2031", "h1")
        clerk.type(clerk.keys.ENTER)
        yield "and shown", True, clerk.shows("Tuesday, 25 November 2031", "h1")
        clerk.press("Today", top="//main")
        yield "and today", True, clerk.shows("1 arrival", "main")
        for address in "#2031-04-30", "#2031-5-2", "#2031-06-31", "#2031-99-99", "#constructor":
            clerk.js("location.hash = arguments[0]", address)
            yield address, True, clerk.shows("Thursday, 1 May 2031", "h1")
        yield "the console", [], clerk.faults()


def a_day_without_an_answer(desk):
    """What is free on another day is shown when the desk answers again, or when it has changed."""
    with hotel(desk, DAYS) as (between, site), Clerk(site) as clerk:
        between.end()
        clerk.find("body").send_keys(clerk.keys.ARROW_RIGHT)
        clerk.shows("No answer", "#state")
        between.begin()
        yield "an answer", True, clerk.shows("DBL\t1", "#night")
        site.ask("POST /desk/reservations", b"kind=DBL&arrive=2031-05-02&nights=1&guest=Eve")
        clerk.js("document.querySelector('.days input').focus()")
        clerk.seen()
        yield "another clerk's booking", True, clerk.shows("DBL\t0", "#night")
        yield "its guest", True, clerk.shows("Eve", "main")
        yield "the keyboard", "another day", clerk.js("return document.activeElement.dataset.key")


def whose_cards(desk):
    """A card's number in the search shows whose card it is, and the guest's other cards; also after the check-out."""
    with hotel(desk, DAYS) as (_, site), Clerk(site) as clerk:
        search(clerk, "card 1", clerk.keys.ENTER)
        yield "whose", "Card 1: Ann Lee", clerk.until(lambda: clerk.text("dialog h2"))
        yield "where", True, clerk.shows("Room 101, until Fri 2 May")
        yield "its codes", True, clerk.shows("The guest has a card with newer codes.")
        yield "the others", ["3", "2", "1"], clerk.js(
            "return [...document.querySelectorAll('dialog tbody th')].map(one => one.textContent)")
        clerk.shot("whose-card")
        clerk.choose("Guest…")
        yield "the guest", True, clerk.shows("Ann Lee", "dialog h2")
        clerk.done("Close")
        search(clerk, "Card3", clerk.keys.ENTER)
        yield "the newest", True, clerk.shows("It has the guest's newest codes.")
        clerk.done("Close")
        site.ask("POST /desk/reservations/1/check-out", b" ")
        clerk.reload()
        search(clerk, "card 2", clerk.keys.ENTER)
        yield "after the check-out", True, clerk.shows("The guest has checked out.")
        clerk.done("Close")
        for number in "9", "99999999":
            search(clerk, f"card {number}", clerk.keys.ENTER)
            yield number, True, clerk.shows(f"Card {number}", "dialog h2") and clerk.shows(
                "no card with this number" if number == "9" else "wrong form")
            clerk.done("Close")
        yield "the console", [], clerk.faults()


def who_is_still_inside(desk):
    """A room that nobody is registered at, and from which a card hasn't left, names that card's guest."""
    with hotel(desk, DAYS) as (between, site), Clerk(site) as clerk:
        codes = [line.split(",")[1] for line in site.ask("GET /desk/rooms/101/chain")[2].decode().splitlines()[1:]]
        site.ask("POST /desk/audit", "room,fit,count,kind,card,old,new,at\n101,1,1,in,1,{},{},2031-05-01T15:00:00\n"
                 .format(*codes).encode())
        site.ask("POST /desk/reservations/1/check-out", b" ")
        clerk.reload()
        clerk.go("Rooms")
        clerk.js("document.querySelector(`[data-key='room 101']`).click()")
        yield "in the room's window", True, clerk.shows("Inside: Ann Lee (card 1)")
        clerk.choose("Ann Lee (card 1)")
        yield "whose card", True, clerk.shows("The card is inside room 101.")
        clerk.done("Close")
        site.ask("POST /desk/rooms", b"room=103&kind=DBL")
        clerk.go("Today")
        clerk.press("Check in", "Cy")
        yield "before a check-in", True, clerk.shows("101: Ann Lee (card 1)")
        yield "the room that is empty", "102", clerk.js("return document.querySelector('dialog :checked').value")
        clerk.shot("still-inside")
        clerk.done("Don't")
        yield "the console", [], clerk.faults()


LOOKUPS = [other_days, a_day_without_an_answer, whose_cards, who_is_still_inside]
