#!/usr/bin/env python3
"""Does what the reception's sheet says, row by row, at the clerk's page in a browser, and lists each press that was
needed and isn't on the sheet. .ci/page does so in German (.ci/clerk_new.py).

usage: sheet_on_page.py [PROGRAM [LANGUAGE [NAME ..]]]     (default: the built hotel_desk, en, and all rows)

Needs what .ci/page installs. The status is 1 if something was pressed that isn't on the sheet, or differs at the end.
"""
import pathlib
import sys
import tempfile

TOP = pathlib.Path(__file__).resolve().parent.parent
sys.path.insert(0, str(TOP / ".ci"))
sys.dont_write_bytecode = True
from built_desk import DESK, ROOM, Desk  # noqa: E402
from clerk_languages import Speaker  # noqa: E402
from clerk_new import SCENES, played  # noqa: E402
from clerks import hotel  # noqa: E402
from installed import PAGE, installed  # noqa: E402


def main(program=DESK, language="en", *names):
    if not installed(PAGE):
        return 1
    failed = 0
    with tempfile.TemporaryDirectory(dir=ROOM) as made:
        desk = Desk(pathlib.Path(program).resolve(), pathlib.Path(made))
        empty = desk.kept("empty.db", b"")
        with hotel(desk) as (between, site), Speaker(site, language) as clerk:
            for scene in SCENES:
                if names and scene.name not in names:
                    continue
                between.again(empty)
                untold, differences = played(between.inner, clerk, site.folder, scene)
                failed += bool(untold or differences)
                print(f"{scene.name}: {', '.join(untold) or '-'}{differences or ''}", flush=True)
    return 1 if failed else 0


if __name__ == "__main__":
    sys.exit(main(*sys.argv[1:]))
