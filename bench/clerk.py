#!/usr/bin/env python3
"""Times the clerk's page, as .ci/page runs it: nginx with deploy/nginx.conf and TLS, and Chromium.

usage: clerk.py [PROGRAM [COUNT]]     (default: the built hotel_desk, and 200 requests)

Prints how long a clerk's lists and commands took while sixty slow clients were connected, and how long after the desk's
last answer each view was drawn, with 324 rooms, 310 guests and 1,706 bookings. Status 1 if an answer took a second or
more, or a view 200 ms or more. Other work on the machine shows in both.
"""
import contextlib
import pathlib
import sys
import tempfile
import time

TOP = pathlib.Path(__file__).resolve().parent.parent
sys.path.insert(0, str(TOP / ".ci"))
from built_desk import DESK, ROOM, Desk  # noqa: E402
from clerk_screens import LARGE  # noqa: E402
from clerks import Clerk, hotel, slow_clients_of  # noqa: E402

VIEWS = "Today", "Book", "Rooms", "Guests", "Locks", "Set-up"
# Opens a view, and tells how long after the last answer of the desk its last change was shown.
DRAWN = """
const [hash, done] = arguments, end = () => Math.max(0, ...performance.getEntriesByType('resource')
    .filter(one => one.name.includes('/desk/')).map(one => one.responseEnd));
let shown = 0;
performance.clearResourceTimings();
new MutationObserver(() => requestAnimationFrame(() => setTimeout(() => shown = performance.now())))
    .observe(document.querySelector('main'), {childList: true, subtree: true});
location.hash = hash;
setTimeout(() => done(shown - end()), 3000);"""


def answers(site, count):
    """The seconds that each of so many lists and commands took, sorted."""
    taken = []
    for at in range(count):
        began = time.monotonic()
        body = f"kind=DBL&arrive=2032-01-{1 + at % 28:02}&nights=1&guest=Guest+{at}".encode()
        status = site.ask("POST /desk/reservations", body)[0] if at % 2 else site.ask("GET /desk/in-house")[0]
        taken.append(time.monotonic() - began)
        assert status == 200, status
    return sorted(taken)


def drawings(site, clerk):
    """Each view, and the milliseconds until it was drawn."""
    for view in VIEWS:
        site.ask("POST /desk/reservations", b"kind=DBL&arrive=2033-01-01&nights=1&guest=Other")
        yield view, clerk.browser.execute_async_script(DRAWN, view.lower().replace("-", ""))


def main(program=DESK, count="200"):
    with tempfile.TemporaryDirectory(dir=ROOM) as made, contextlib.ExitStack() as stack:
        desk = Desk(pathlib.Path(program).resolve(), pathlib.Path(made))
        _, site = stack.enter_context(hotel(desk, LARGE))
        clerk = stack.enter_context(Clerk(site))
        clerk.go("Set-up")
        drawn = list(drawings(site, clerk))
        with slow_clients_of(site):
            taken = answers(site, int(count))
    print(f"an answer beside sixty slow clients: {1000 * taken[len(taken) // 2]:.0f} ms in the middle, "
          f"{1000 * taken[-1]:.0f} ms at most")
    for view, milliseconds in drawn:
        print(f"{view}: drawn {milliseconds:.0f} ms after the last answer")
    sys.exit(1 if taken[-1] >= 1 or max(taken for _, taken in drawn) >= 200 else 0)


main(*sys.argv[1:])
