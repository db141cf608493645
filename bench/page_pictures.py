#!/usr/bin/env python3
"""Draws the pictures of docs/PAGE.md and README.md: one desk on one day, as the clerk's page shows it in a browser.

usage: page_pictures.py [PROGRAM [FOLDER]]     (default: the built hotel_desk, and docs)

Needs what .ci/page installs.
"""
import pathlib
import sys
import tempfile

TOP = pathlib.Path(__file__).resolve().parent.parent
sys.path.insert(0, str(TOP / ".ci"))
sys.dont_write_bytecode = True
from built_desk import DESK, ROOM, Desk  # noqa: E402
from clerks import Clerk, hotel  # noqa: E402
from installed import PAGE, installed  # noqa: E402
from reception import Reception  # noqa: E402

KINDS = ["SGL", "SGL", "DBL", "DBL", "DBL", "TWN", "TWN", "STE"]
ROOMS = {100 * floor + number: kind for floor in range(1, 6) for number, kind in enumerate(KINDS, 1)}
# Guests of the first day: room, nights, and whether the log of the lock says that the guest has entered.
FIRST_DAY = """101 4 no Carla Nunes
102 2 yes Grace Kim
103 1 yes Ann Lee
105 3 yes Eva Novák
106 2 yes Dara Okafor
107 5 yes Hugo Weiß
108 1 yes Farid Haddad
201 2 yes Kenji Mori
203 2 yes Ines Costa
204 3 yes Mira Patel
206 2 no Lena Vogt
208 6 yes Noah Berg
301 2 yes Wei Zhang
306 4 yes Tara Singh
308 2 yes Victor Hall"""
# The same of the second day.
SECOND_DAY = """202 2 yes Sven Larsen
205 3 no Quinn Adams
207 2 yes Paul Dubois
307 1 no Yara Said"""
# Bookings: kind, first day, nights.
TO_COME = """DBL 1 3 Jack O'Neil
SGL 1 1 Olga Ivanova
DBL 2 3 Rosa Marino
TWN 2 1 Zoë Müller
STE 2 2 Amir Rahimi
DBL 3 2 Bea Lindqvist
DBL 3 4 Chen Li
DBL 4 2 Dora Weiss
DBL 4 5 Emil Strand
DBL 5 3 Fatou Diop
SGL 4 2 Gil Perez
SGL 5 3 Hana Sato
TWN 3 6 Ivo Kovač
STE 6 3 Jana Nowak"""
# A picture's view, and what it shows when it is drawn, and where.
PICTURES = {"today": ("Noah Berg", "main"), "rooms": ("Noah Berg", "main"), "book": ("15", "#grid")}


def arrive(front, day, lines):
    """Books and checks in these guests, and lets them enter, or not."""
    for line in lines.split("\n"):
        room, nights, has_entered, name = line.split(" ", 3)
        front.presses("Book", name, ROOMS[int(room)], day, nights)
        front.presses("Check in", name, room)
        if has_entered == "yes":
            front.enters(room, max(front.cards))
            front.reads(room)


def play(front):
    """Two days: a guest who lost a card, one who has checked out and is still inside, one who comes late, one who never
    came."""
    arrive(front, 1, FIRST_DAY)
    front.presses("Lost card", "Carla Nunes")
    front.presses("Book", "Iris Blum", "DBL", 1, 1)
    front.presses("Check in", "Iris Blum", 104)
    front.enters(104, max(front.cards))
    front.reads("104")
    for line in TO_COME.split("\n"):
        kind, day, nights, name = line.split(" ", 3)
        front.presses("Book", name, kind, day, nights)
    front.presses("Next day")
    front.presses("Check out", "Iris Blum")
    arrive(front, 2, SECOND_DAY)


def main(program=DESK, folder=TOP / "docs"):
    if not installed(PAGE):
        return 1
    with tempfile.TemporaryDirectory(dir=ROOM) as made:
        desk = Desk(pathlib.Path(program).resolve(), pathlib.Path(made))
        with hotel(desk) as (between, site):
            play(Reception(between.inner, ROOMS))
            with Clerk(site) as clerk:
                clerk.command("Emulation.setDeviceMetricsOverride", width=1280, height=800, mobile=False,
                              deviceScaleFactor=1)
                clerk.command("Emulation.setScrollbarsHidden", hidden=True)
                for name, shown in PICTURES.items():
                    clerk.go(name.capitalize())
                    assert clerk.shows(*shown) is True, name
                    clerk.js("document.activeElement.blur()")
                    clerk.browser.save_screenshot(str(pathlib.Path(folder, f"page-{name}.png")))
    return 0


if __name__ == "__main__":
    sys.exit(main(*sys.argv[1:]))
