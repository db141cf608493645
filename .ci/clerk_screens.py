"""How the clerk's page looks and reads: names, contrast and sizes of each view and window, by light and in the dark, on
a screen and on a tablet; on paper and in the clipboard; in another time zone and language; with many rooms."""
import contextlib
import datetime
import re
import time
import zoneinfo

from clerks import Clerk, hotel

FEW = b"""begin 2031-05-01
add-kind DBL
add-kind SGL
add-room 101 DBL
add-room 102 DBL
add-room 103 DBL
add-room 201 SGL
reserve DBL 2031-05-01 2 Ann Lee
reserve DBL 2031-05-01 2 Bo
reserve SGL 2031-05-01 1 Cy
reserve DBL 2031-05-03 1 Dora
check-in 1 101
reissue 1
check-in 3 201
check-out 3
"""
# What has a role that a reader needs a name for and has none; tables without a caption or headers; names twice.
NAMELESS = """
const name = one => one.getAttribute('aria-label') || one.innerText?.trim() || one.labels?.[0]?.innerText.trim();
return [...document.querySelectorAll('button, input, select, a, table, dialog[open]')]
    .filter(one => one.checkVisibility() && !(one.matches('table')
        ? (one.caption || one.hasAttribute('aria-labelledby')) && one.querySelector('th[scope]')
        : one.matches('dialog') ? document.getElementById(one.getAttribute('aria-labelledby'))?.innerText.trim()
        : name(one))).map(one => one.outerHTML.slice(0, 100))"""
# Texts whose contrast with what is behind them is under 4.5 (WCAG 2.2, 1.4.3).
FAINT = """
const light = color => color.match(/[\\d.]+/g).slice(0, 3).map(part => part / 255)
    .map(part => part <= 0.04045 ? part / 12.92 : ((part + 0.055) / 1.055) ** 2.4)
    .reduce((sum, part, at) => sum + part * [0.2126, 0.7152, 0.0722][at], 0);
const behind = one => {
    while (one && /^rgba.*, 0\\)$/.test(getComputedStyle(one).backgroundColor)) one = one.parentElement;
    return one ? getComputedStyle(one).backgroundColor : 'rgb(255, 255, 255)';
};
const top = document.querySelector('dialog[open]') ?? document.body;
return [...top.querySelectorAll('*')].filter(one => one.checkVisibility() && !one.closest('.away, :disabled')
    && [...one.childNodes].some(node => node.nodeType === 3 && node.data.trim())).filter(one => {
        const style = getComputedStyle(one);
        const [a, b] = [light(style.color), light(behind(one))].sort((x, y) => y - x);
        return (a + 0.05) / (b + 0.05) < 4.5 || style.opacity < 1;
    }).map(one => one.outerHTML.slice(0, 100))"""
# What can be pressed and is smaller than 24 by 24 pixels (WCAG 2.2, 2.5.8), or cut off by the window's edge.
SMALL = """
const top = document.querySelector('dialog[open]') ?? document.body;
return [...top.querySelectorAll('button, input:not([type=radio], [type=checkbox]), select')]
    .filter(one => one.checkVisibility()).filter(one => {
        const box = one.getBoundingClientRect();
        return box.width < 24 || box.height < 24 || box.left < 0
            || (box.right > innerWidth && !one.closest('.scroll'));
    }).map(one => one.outerHTML.slice(0, 100))"""
# Texts that are cut off by what is around them, or run over its edge. What can be scrolled isn't an edge.
CUT = """
const top = document.querySelector('dialog[open]') ?? document.body;
const isIn = (box, edge) => box.left >= edge.left - 1 && box.right <= edge.right + 1
    && box.top >= edge.top - 1 && box.bottom <= edge.bottom + 1;
const edges = 'button, label, td, th, .card, .tag, .slip, .tile, dialog, header, footer, main';
const textsOf = one => [...one.childNodes].filter(node => node.nodeType === 3 && node.data.trim());
function boxesOf(text) {
    const range = document.createRange();
    range.selectNode(text);
    return [...range.getClientRects()].filter(box => box.width && box.height);
}
function isCut(one) {
    const boxes = textsOf(one).flatMap(boxesOf);
    for (let around = one; around && around !== top.parentElement; around = around.parentElement) {
        const { overflowX, overflowY, display } = getComputedStyle(around);
        if (/auto|scroll/.test(overflowX + overflowY)) return false;
        if (display === 'inline' || !(around.matches(edges) || /hidden|clip/.test(overflowX + overflowY))) continue;
        if (!boxes.every(box => isIn(box, around.getBoundingClientRect()))) return true;
    }
    return false;
}
const passed = '.away, .skip, .mark, thead, option'; // what isn't seen, and marks over an edge
return [...top.querySelectorAll('*')]
    .filter(one => one.checkVisibility() && !one.closest(passed) && isCut(one))
    .map(one => one.outerHTML.slice(0, 100))"""
# Each window: how it is opened from its view, and a part of its title.
WINDOWS = [
    ("Today", [("Bo",)], "Bo"), ("Today", [("Ann Lee",)], "Ann Lee"), ("Today", [("Check in", "Bo")], "Check in"),
    ("Today", [("Next day…",)], "Begin the next day"), ("Guests", [("Check out", "Ann Lee")], "Check out"),
    ("Guests", [("Lost card", "Ann Lee")], "Replace a lost card"), ("Guests", [("Spare card", "Ann Lee")], "Card "),
    ("Guests", [("Move", "Ann Lee")], "Move"), ("Guests", [("Cancel", "Dora")], "Cancel"),
    ("Rooms", [("room 101",)], "Room 101"), ("Rooms", [("room 201",)], "Room 201"),
    ("Locks", [("Replace…",)], "Replace the lock of 102"), ("Set-up", [("Add type",)], "Add the room type"),
    ("Set-up", [("Add",)], "Add rooms")]


def looked_at(clerk, given):
    """What a view or window lacks."""
    yield (given, "without a name"), [], clerk.js(NAMELESS)
    yield (given, "hard to read"), [], clerk.js(FAINT)
    yield (given, "hard to press"), [], clerk.js(SMALL)
    yield (given, "cut off"), [], clerk.js(CUT)
    yield (given, "headings"), 1, clerk.js("return document.querySelectorAll('h1').length")
    yield (given, "too wide"), False, clerk.js("""
        const top = document.querySelector('dialog[open]') ?? document.documentElement;
        return document.documentElement.scrollWidth > innerWidth || top.scrollWidth > top.clientWidth""")


def opened(clerk, view, presses):
    """Opens a window of this view."""
    clerk.go(view)
    clerk.fill(**{"Set-up": {"kind": "TRP", "rooms": "301-309"}, "Locks": {"room": "102"}}.get(view, {}))
    for words in presses:
        if words[0].startswith("room "):
            clerk.js("document.querySelector(`[data-key='${arguments[0]}']`).click()", words[0])
        else:
            clerk.press(*words)


def windows(clerk, look):
    """Each window, how it is left, and where the keyboard is then."""
    for view, presses, title in WINDOWS:
        opened(clerk, view, presses)
        yield (look, title, "open"), True, clerk.shows(title, "dialog[open] h2")
        yield from looked_at(clerk, (look, title))
        yield (look, title, "the keyboard"), True, clerk.js(
            "return document.querySelector('dialog').contains(document.activeElement)")
        clerk.shot(f"{look}-{view}-{title.strip()}".replace(" ", "-").lower())
        clerk.type(clerk.keys.ESCAPE)
        clerk.closed()
        yield (look, title, "the keyboard after it"), True, clerk.until(lambda: clerk.js(
            "return document.activeElement.closest('main') !== null"))


def screens(scheme, width, height, is_touched):
    """The test of each view and window on such a screen: what is pressed or filled in has a name, texts can be read,
    and nothing is cut off."""
    def test(desk):
        with hotel(desk, FEW) as (_, site), Clerk(site) as clerk:
            clerk.command("Emulation.setEmulatedMedia", features=[{"name": "prefers-color-scheme", "value": scheme}])
            clerk.command("Emulation.setDeviceMetricsOverride", width=width, height=height, mobile=is_touched,
                          deviceScaleFactor=1)
            clerk.command("Emulation.setTouchEmulationEnabled", enabled=is_touched)
            look = f"{scheme}-{width}"
            for view in "Today", "Book", "Rooms", "Guests", "Locks", "Set-up":
                clerk.go(view)
                time.sleep(0.3)
                yield from looked_at(clerk, (look, view))
                clerk.shot(f"{look}-{view.lower()}")
            yield from windows(clerk, look)
            yield "the console", [], clerk.faults()

    test.__name__ = f"screens_{scheme}"
    return test


SCREENS = [screens("light", 1280, 800, False), screens("dark", 768, 1024, True)]


# Cells of the picture that lie over the next one.
OVERLAPPING = """
return [...document.querySelectorAll('#grid td + td button')].filter(one => {
    const before = one.closest('td').previousElementSibling.querySelector('button').getBoundingClientRect();
    return before.right > one.getBoundingClientRect().left;
}).length"""


def is_drawn(clerk, view):
    """Whether the view shows what lists say."""
    if view == "Book":
        return clerk.js("return document.querySelectorAll('#grid button').length") == 28
    return view == "Set-up" or "101" in clerk.text("main")


def small_windows(desk):
    """In a window of 1024 by 700, and with letters half as large again: nothing is cut off or covered."""
    script = FEW + "reserve DBL 2031-12-30 9 Zo\u00eb M\u00fcller-L\u00fcdenscheidt von und zu Oberwinter\n".encode()
    with hotel(desk, script) as (_, site), Clerk(site) as clerk:
        for width, height, scale in (1024, 700, 1), (682, 466, 1.5):
            clerk.command("Emulation.setDeviceMetricsOverride", width=width, height=height, mobile=False,
                          deviceScaleFactor=scale)
            for view in "Today", "Book", "Rooms", "Guests", "Locks", "Set-up":
                clerk.go(view)
                clerk.until(lambda: is_drawn(clerk, view))
                time.sleep(0.3)
                yield from looked_at(clerk, (width, view))
                if view == "Book":
                    yield (width, "the picture"), True, is_drawn(clerk, view)
                    yield (width, "covered"), 0, clerk.js(OVERLAPPING)
        yield "the console", [], clerk.faults()


def views_in_order(clerk):
    """The names of what has the keyboard, from Tab to Tab, at the page's beginning."""
    clerk.js("document.activeElement.blur(); scrollTo(0, 0)")
    names = []
    for _ in range(10):
        clerk.type(clerk.keys.TAB)
        names.append(clerk.js("return document.activeElement.innerText?.trim() || document.activeElement.id"))
    return names


def few_keys(desk):
    """From the list of arrivals to a card's codes, and a booking: how many keys or clicks; and where Tab leads."""
    with hotel(desk, FEW) as (_, site), Clerk(site) as clerk:
        clerk.go("Today")
        clerk.press("Check in", "Bo")
        clerk.shows("Room")
        yield "the room that Enter takes is outlined", "solid", clerk.js(
            "return getComputedStyle(document.activeElement.closest('label')).outlineStyle")
        clerk.type(clerk.keys.ENTER)
        yield "a click and a key", "4", clerk.card()[0]
        clerk.type(clerk.keys.ENTER)
        clerk.closed()
        clerk.type("2")
        clerk.until(lambda: clerk.focused() == "guest")
        clerk.type("Eve", clerk.keys.ENTER)
        yield "a booking", True, clerk.shows("Booking 5: Eve", "#said")
        yield "the next one", "guest", clerk.focused()
        clerk.reload()
        clerk.go("Today")
        clerk.reload()
        yield "Tab", ["To the content", "Today", "Book", "Rooms", "Guests", "Locks1", "Set-up", "find", "Log out",
                      "Print"], views_in_order(clerk)
        yield "the console", [], clerk.faults()


BUTTONS = ("Done", "Copy", "Check out", "Next day", "Spare", "Set-up", "Print", "Find", "Log out", "Import", "Replace",
           "Choose File")


def clipboard(clerk):
    return clerk.browser.execute_async_script("navigator.clipboard.readText().then(arguments[0], arguments[0])")


def paper_and_copies(desk):
    """What prints is what stands on the card, in the list of codes, or in the view; what is copied is what stands on
    the card."""
    with hotel(desk, FEW) as (_, site), Clerk(site) as clerk:
        clerk.command("Browser.grantPermissions", permissions=["clipboardReadWrite", "clipboardSanitizedWrite"],
                      origin=site.origin())
        yield from slip_of_a_card(clerk)
        for view, *texts in (("Today", "Ann Lee", "101", "Bo", "102", "Thursday, 1 May 2031"), ("Rooms", "101", "201"),
                             ("Guests", "Ann Lee", "Bo", "Dora", "Sat 3 May"), ("Locks", "101", "374a d8b8 3fe0")):
            clerk.go(view)
            clerk.shows(texts[0], "main")
            paper = clerk.paper()
            yield view, [], [text for text in texts if text not in paper]
            yield (view, "buttons"), [], [text for text in BUTTONS if text in paper]
        yield from codes_of_rooms(clerk)
        yield "the console", [], clerk.faults()


def slip_of_a_card(clerk):
    """A card on paper and in the clipboard."""
    clerk.go("Today")
    clerk.press("Check in", "Bo")
    clerk.choose("Check in")
    number, *both = clerk.card()
    paper = clerk.paper()
    texts = [rf"(?m)^\s*Card\s+{number}$", f"Card {number} for room 102", "Bo, until Sat 3 May",
             *(r"\s?".join(re.findall("....", one)) for one in both)]
    yield "a slip", [1] * 5, [len(re.findall(text, paper)) for text in texts]
    yield "and no more", [], [text for text in (*BUTTONS, "Arrivals") if text in paper]
    for what, text in zip(("card", "old code", "new code"), (number, *both)):
        clerk.find(f"[aria-label='Copy {what}']").click()
        yield ("copied", what), True, clerk.until(lambda: clipboard(clerk) == text) or clipboard(clerk)
    clerk.done()


def codes_of_rooms(clerk):
    """The codes of eighty new rooms on paper and in the clipboard."""
    clerk.go("Set-up")
    clerk.fill(rooms="301-380", of="DBL")
    clerk.press("Add", "first-last")
    clerk.choose("Add 80 rooms")
    yield "eighty", True, clerk.shows("380", "dialog tbody tr:last-child")
    rows = [f"{room} {code}" for room, code in zip(range(301, 381), clerk.codes())]
    printed = re.findall(r"(?m)^\s*(\d{3})\s+((?:[0-9a-f]{4}\s?){3})$", clerk.paper())
    yield "on paper", rows, [f"{room} {plain(code)}" for room, code in printed]
    clerk.find("[aria-label='Copy all codes']").click()
    yield "copied", True, clerk.until(lambda: clipboard(clerk).split("\n") == rows) or clipboard(clerk)


def plain(code):
    """A code without the gaps between its groups."""
    return re.sub(r"\s", "", code)


def zones(desk):
    """In another time zone and language the days are those of the desk. Only the warning of a day that hasn't come yet
    knows this computer's calendar."""
    with hotel(desk, FEW) as (_, site), Clerk(site) as clerk:
        for zone, language in ("Pacific/Kiritimati", "de-DE"), ("Pacific/Niue", "ar-EG"), ("Asia/Kathmandu", "th-TH"):
            clerk.command("Emulation.setTimezoneOverride", timezoneId=zone)
            with contextlib.suppress(clerk.gone):
                clerk.command("Emulation.setLocaleOverride")
            clerk.command("Emulation.setLocaleOverride", locale=language)
            clerk.reload()
            clerk.go("Today")
            yield (zone, "today"), "Thursday, 1 May 2031", clerk.text("h1")
            clerk.press("Next day…")
            clock = datetime.datetime.now(zoneinfo.ZoneInfo(zone))
            yield (zone, "the calendar"), True, clerk.shows(
                f"By this computer's calendar it is still {clock:%A}, {clock.day} {clock:%B %Y}.")
            clerk.done("Don't")
            clerk.go("Book")
            clerk.fill(arrive="2031-05-30", nights="3")
            yield (zone, "nights"), True, clerk.shows("Friday, 30 May 2031 to Monday, 2 June 2031", "#until")
            yield (zone, "the picture"), True, clerk.shows("Fri\n30 May", "#grid")
        clerk.go("Book")
        clerk.book("Eve", "DBL", "2031-05-30", 3)
        clerk.shows("Booking", "#said")
        yield "as booked", True, b"5,Eve,DBL,2031-05-30,2031-06-02\n" in site.ask("GET /desk/bookings")[2]
        yield "the console", [], clerk.faults()


def a_past_day(desk):
    """No warning comes before a day that has come already by this computer's calendar."""
    with hotel(desk, b"begin 2020-02-28\n") as (_, site), Clerk(site) as clerk:
        clerk.press("Next day…")
        yield "the day", True, clerk.shows("Saturday, 29 February 2020")
        yield "no warning", False, "calendar" in clerk.text("dialog")


LARGE = ("begin 2031-05-01\nadd-kind DBL\n" + "".join(
    f"add-room {100 * floor + number} DBL\n" for floor in range(1, 13) for number in range(1, 28))
    + "".join(f"reserve DBL 2031-05-01 3 Guest {at}\n" for at in range(1, 317))
    + "".join(f"reserve DBL 2031-{6 + at // 300:02}-{1 + at % 28:02} 1 Booked {at}\n" for at in range(1, 1701))
    + "".join(f"check-in {27 * (floor - 1) + number} {100 * floor + number}\n" for floor in range(1, 13)
              for number in range(1, 28) if 27 * (floor - 1) + number <= 310)).encode()


def drawing_time(clerk):
    """The seconds of a processor that the page has taken."""
    metrics = clerk.command("Performance.getMetrics")["metrics"]
    return sum(one["value"] for one in metrics if one["name"] == "TaskDuration")


def many_rooms(desk):
    """324 rooms, 310 guests, 1,706 bookings: views are drawn quickly, show what they can, and say what they don't."""
    with hotel(desk, LARGE) as (_, site), Clerk(site) as clerk:
        clerk.command("Performance.enable", timeDomain="threadTicks")
        yield "in house", True, clerk.shows("310 in house", "main")
        slowest = 0
        for view, css, count in (("Rooms", ".tile", 324), ("Guests", "main tbody tr", 300),
                                 ("Today", "main tbody tr", 316), ("Book", ".grid button", 14)):
            clerk.go(view)
            yield view, count, clerk.until(lambda: (found := clerk.js(
                f"return document.querySelectorAll('{css}').length")) == count and found)
            before = drawing_time(clerk)
            clerk.js("""
                document.dispatchEvent(new CustomEvent('refreshed', {detail: {isChanged: true}}));
                document.querySelector('main').getBoundingClientRect()""")
            slowest = max(slowest, drawing_time(clerk) - before)
            yield (view, "too wide"), False, clerk.js("return document.documentElement.scrollWidth > innerWidth")
        yield "drawn in a second of its own", True, slowest < 1 or slowest
        clerk.go("Guests")
        yield "more in house", True, clerk.shows("160 more aren't shown", "main")
        yield "more bookings", True, clerk.shows("1,556 more aren't shown", "main")
        clerk.js("""const find = document.getElementById('find');
            find.value = 'booked 1699';
            find.dispatchEvent(new Event('input', {bubbles: true}))""")
        yield "one of them", True, clerk.until(
            lambda: clerk.js("return document.querySelectorAll('main tbody tr').length") == 1)
        clerk.go("Rooms")
        clerk.shot("many")
        yield "the console", [], clerk.faults()
