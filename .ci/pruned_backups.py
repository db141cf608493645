"""The backups by the clock, of which deploy/hotel_prune deletes some, and the units of deploy, for `.ci/client`."""
import os
import re
import shutil
import subprocess

from built_desk import OPENING
from client_relay import CLIENT, DEPLOY, asks, served

PRUNE, BACKUP = DEPLOY / "hotel_prune", DEPLOY / "hotel_backup"
# Folders by name, what is in each, how many backups stay, which stay, and the status. `w` and `l` are whole backups,
# without a log and with it.
NIGHTS = [f"2011-05-{day:02}-041500" for day in range(1, 21)]
ODD = ["2011-05-04-041500.part", "before-2011-05-01-041500", "2011-05-01", "2011-05-01-0415000", "2011-05-0x-041500",
       "x", " 2011-05-01-041500", "2011-05-01-041500 ", "-rf", "*", "2011-05-01-041500\n", "02011-05-01-041500"]
PRUNED = [
    ({}, "1", [], 0), ({NIGHTS[0]: "w"}, "1", NIGHTS[:1], 0), (dict.fromkeys(NIGHTS, "l"), "14", NIGHTS[6:], 0),
    (dict.fromkeys(NIGHTS, "w"), "20", NIGHTS, 0), (dict.fromkeys(NIGHTS, "w"), "9999", NIGHTS, 0),
    ({"2010-12-31-235959": "w", "2011-01-01-000000": "l", "2010-09-30-120000": "w"}, "1", ["2011-01-01-000000"], 0),
    ({**dict.fromkeys(ODD, "w"), **dict.fromkeys(NIGHTS[:3], "w")}, "2", ODD + NIGHTS[1:3], 0),
    *(({**dict.fromkeys(NIGHTS[:4], "w"), NIGHTS[1]: what, NIGHTS[3]: what}, "1", NIGHTS[1:4], 1)
      for what in "cut,changed,more,no log,no sums,empty,link,file,linked,folder,hidden".split(",")),
    ({**dict.fromkeys(NIGHTS[:3], "w"), f"{NIGHTS[0]}.part": "x"}, "2", [*NIGHTS[:3], f"{NIGHTS[0]}.part"], 1),
    *(({**dict.fromkeys(NIGHTS[:3], "w"), f"{year}-05-21-041500": "w"}, "1", [*NIGHTS[:3], f"{year}-05-21-041500"], 1)
      for year in (2131, 9999)),
    *((dict.fromkeys(NIGHTS[:3], "w"), count, NIGHTS[:3], 1)
      for count in ("0", "-1", "", "x", "1x", "01", "1.5", "10000", "1 1", "$(touch hit)", "a[$(touch hit)]")),
]


def laid_backup(whole, place, what):
    """Makes what a word says of a whole backup, in this place."""
    shutil.copytree(whole["l" if what in ("l", "no log") else "w"], place)
    db = place / "desk.db"
    if what == "cut":
        db.write_bytes(db.read_bytes()[:-1])
    elif what == "changed":
        db.write_bytes(db.read_bytes()[:-1] + b"x")
    elif what in ("more", "hidden"):
        (place / {"more": "note.txt", "hidden": ".x"}[what]).write_text("x")
    elif what in ("no log", "no sums", "empty"):
        for name in {"no log": ["desk.db-wal"], "no sums": ["sums"]}.get(what, ["desk.db", "sums"]):
            (place / name).unlink()
    elif what == "folder":
        (place / "test").mkdir()
    elif what == "linked":
        db.rename(place.parent.parent / f"{place.name}.db")
        db.symlink_to(place.parent.parent / f"{place.name}.db")
    elif what in ("link", "file"):
        shutil.move(place, place.parent.parent / place.name)
        place.symlink_to(place.parent.parent / place.name) if what == "link" else place.write_text("x")


def contents(folder):
    """All files below a folder, with their bytes."""
    return {path.relative_to(folder): path.read_bytes() if path.is_file() else None for path in folder.rglob("*")}


def taken(desk):
    """Two whole backups of hotel_backup, without a log and with it."""
    desk.laid(desk.kept("whole.db", OPENING))
    around = dict(os.environ, DB=str(desk.db), STOP="true", START="true", DESK=str(desk.program))
    whole = {}
    for what in "w", "l":
        if what == "l":
            with served(desk) as port:
                asks(port, "next-day")
        (desk.folder / what).mkdir()
        subprocess.run([BACKUP, "take", desk.folder / what], env=around, check=True, timeout=60,
                       stdout=subprocess.DEVNULL)
        whole[what], = (desk.folder / what).iterdir()
    return whole


def pruned(desk):
    """Which backups stay, byte by byte, and that nothing else is changed."""
    whole = taken(desk)
    yield "a log", [False, True], [(whole[what] / "desk.db-wal").exists() for what in ("w", "l")]
    for number, (folders, count, stay, status) in enumerate(PRUNED):
        top = desk.folder / str(number) / "a b"
        top.mkdir(parents=True)
        for name, what in folders.items():
            laid_backup(whole, top / name, what)
        before = contents(top.parent)
        child = subprocess.run([PRUNE, count, top.name], cwd=top.parent, stdout=subprocess.PIPE, stderr=subprocess.PIPE,
                               timeout=60, check=False, env=dict(os.environ, CDPATH="/"))
        gone = sorted(set(folders) - set(stay))
        yield (folders, count), (status, sorted(stay)), (child.returncode, sorted(os.listdir(top)))
        yield (folders, count, "told"), gone[::-1], re.findall("^deleted .*/(.*)$", child.stdout.decode(), re.MULTILINE)
        yield (folders, count, "faults"), status != 0, child.stderr != b""
        kept = {path: read for path, read in before.items() if path.parts[1:2] not in [(name,) for name in gone]}
        yield (folders, count, "bytes"), kept, contents(top.parent)
    for words in [], ["1"], ["1", "nowhere"], ["1", ""], ["1", "0", "1"], ["1", "zeros"]:
        child = subprocess.run([PRUNE, *words], cwd=desk.folder, stderr=subprocess.DEVNULL, timeout=60, check=False)
        yield words, words == ["1", "zeros"], child.returncode == 0
    yield "was a value run", [], list(desk.folder.rglob("hit"))


def interrupted_prune(desk):
    """If the deletion of a backup is cut short, no part of it has the name of a backup."""
    whole, own = taken(desk), desk.folder / "own"
    own.mkdir()
    for name, script in ("rm", 'for last; do :; done; unlink "$last/desk.db"; kill -9 $PPID'), ("mv", "exit 1"):
        top = desk.folder / f"by-{name}"
        for night in NIGHTS[:3]:
            laid_backup(whole, top / night, "l")
        (own / name).write_text(f"#!/bin/bash\n{script}\n")
        (own / name).chmod(0o755)
        child = subprocess.run([PRUNE, "2", top], timeout=60, check=False, stdout=subprocess.PIPE,
                               stderr=subprocess.DEVNULL, env=dict(os.environ, PATH=f"{own}:{os.environ['PATH']}"))
        yield name, (False, b""), (child.returncode == 0, child.stdout)
        left = [NIGHTS[0] + ".part" * (name == "rm"), *NIGHTS[1:3]]
        yield (name, "folders"), left, sorted(os.listdir(top))
        (own / name).unlink()


def verified(desk):
    """What systemd-analyze says of the units, and shellcheck of the scripts."""
    scripts = [path for path in sorted(DEPLOY.glob("hotel_*")) if not path.suffix]
    units = [path for path in sorted(DEPLOY.glob("hotel*")) if path.suffix in (".service", ".timer", ".target")]
    yield "how many", (8, 12), (len(scripts), len(units))
    for unit in units:
        text = unit.read_text()
        if unit.suffix == ".service" and "desk" not in unit.name and "failure" not in unit.name:
            yield unit.name, True, "OnFailure=hotel_failure@%n.service\n" in text or "firewall" in unit.name
        for path in scripts:
            text = text.replace(f"/usr/sbin/{path.name} ", f"{path} ")
        text = text.replace("/usr/bin/hotel_desk", str(desk.program)).replace("/usr/sbin/nft", "/bin/true")
        (desk.folder / unit.name.replace("@", "@8081")).write_text(text)
    if shutil.which("systemd-analyze"):
        said = subprocess.run(["systemd-analyze", "verify", *desk.folder.glob("hotel*.*")], stdout=subprocess.PIPE,
                              stderr=subprocess.STDOUT, timeout=100, check=False).stdout.decode(errors="replace")
        yield "verify", [], [line for line in said.splitlines() if "hotel" in line and "Failed to create" not in line]
    if shutil.which("shellcheck"):
        yield "shellcheck", "", subprocess.run(["shellcheck", "-S", "warning", CLIENT, DEPLOY / "package", *scripts],
                                               stdout=subprocess.PIPE, timeout=100, check=False, text=True).stdout
