#!/usr/bin/env python3
"""Gives the built program random bytes: as a script, an audit file, a request and a database file, and a database with
some bytes replaced.

usage: hostile.py [PROGRAM [RANDOM]]      (the built hotel_desk and 1,000,000 random bytes, where they aren't given)

Each run has to end with a status and a fault that the desk names, and a database file has to be whole afterwards, or as
it was. Prints what isn't so, and at last how many runs of each were as wanted. `.ci/bytes` cuts and damages each of
them byte by byte.
"""
import errno
import pathlib
import random
import re
import shutil
import socket
import sqlite3
import subprocess
import sys
import tempfile

sys.path.insert(0, str(pathlib.Path(__file__).resolve().parent.parent / ".ci"))
from built_desk import DESK, serve  # noqa: E402

CHECKED_IN = ["begin 2031-05-01", "add-kind DBL", "add-room 101 DBL", "reserve DBL 2031-05-01 2 Ann Lee",
              "check-in 1 101"]
LISTS = ["in-house", "chain 101", "audit-of 101", "arrivals 2031-05-01", "left-behind"]
FAULTS = re.compile(r"|memory\n|store\n|read\n|too large\n|no header\n|wrong header\n|not a desk\n"
                    r"|damaged [a-z]+\n|closed\n")
STATUSES = re.compile(rb"HTTP/1\.1 (200|400|404|405|409|413|431|501|503) ")


class Desk:
    """A database file with a party that is booked, or checked in, and fresh copies of it."""

    def __init__(self, program, folder):
        self.program, self.folder, self.db = program, folder, folder / "desk.db"
        self.seed = folder / "seed"
        self.seed.write_bytes(bytes(32))

    def words(self, *more):
        return ["--db", self.db, "--seed-file", self.seed, *more]

    def begun(self, lines):
        """Lays a file with these lines carried out where fresh() takes it from."""
        for file in self.folder.glob("*.db"):
            file.unlink()
        assert self.run("\n".join(lines).encode(), *self.words("script"))[0] == 0
        shutil.copy(self.db, self.folder / "start.db")

    def fresh(self):
        shutil.copy(self.folder / "start.db", self.db)

    def run(self, given, *words):
        child = subprocess.run([self.program, *words], input=given, stdout=subprocess.PIPE, stderr=subprocess.PIPE,
                               timeout=60)
        return child.returncode, child.stdout.decode(), child.stderr.decode()

    def is_whole(self):
        """Whether another program finds the file whole, and the desk opens it."""
        with sqlite3.connect(self.db) as file:
            found = [file.execute(f"PRAGMA {test}").fetchall() for test in ("integrity_check", "foreign_key_check")]
        file.close()
        return found == [[("ok",)], []] and self.run("\n".join(LISTS).encode(), *self.words("script"))[0] == 0


def is_named(status, faults):
    return status in (0, 3, 4, 5) and FAULTS.fullmatch(faults) is not None


def answer_to(port, sent):
    """What the server says to these bytes, and whether it closed the connection before it had read them all."""
    said, is_cut = b"", False
    with socket.create_connection(("127.0.0.1", port), timeout=20) as client:
        try:
            client.sendall(sent)
            client.shutdown(socket.SHUT_WR)
            while piece := client.recv(4096):
                said += piece
        except OSError as fault:
            if fault.errno not in (errno.EPIPE, errno.ECONNRESET, errno.ENOTCONN):
                raise
            is_cut = True
    return said, is_cut


def random_requests_tried(desk, told, pieces):
    desk.fresh()
    server, port = serve(desk.program, len(pieces), *desk.words())
    for sent in pieces:
        said, is_cut = answer_to(port, sent)
        told("random request", STATUSES.match(said) is not None or is_cut, sent[:50])
    told("server", server.wait(20) == 0 and desk.is_whole()
         and desk.db.read_bytes() == (desk.folder / "start.db").read_bytes(), b"")


def random_tried(desk, told, count):
    chance = random.Random(1)
    desk.begun(CHECKED_IN)
    # A file of one byte is an empty database to SQLite, and to the desk.
    pieces = [chance.randbytes(length) for length in (2, 100, 4096, 65536, count)]
    for given in pieces:
        status, _, faults = desk.run(given)
        told("random script", is_named(status, faults), given[:50])
        desk.fresh()
        file = desk.folder / "random"
        file.write_bytes(given)
        status, _, faults = desk.run(b"", *desk.words("audit", file))
        told("random audit file", is_named(status, faults) and desk.is_whole(), given[:50])
        desk.db.write_bytes(given)
        status, _, faults = desk.run(b"", *desk.words("in-house"))
        is_refused = status in (4, 5) and FAULTS.fullmatch(faults) is not None
        told("random database", is_refused and desk.db.read_bytes() == given, given[:50])
    random_requests_tried(desk, told, pieces)
    desk.fresh()
    whole = desk.db.read_bytes()
    for _ in range(300):
        spoilt = bytearray(whole)
        for _ in range(chance.randint(1, 8)):
            spoilt[chance.randrange(len(spoilt))] = chance.randrange(256)
        desk.db.write_bytes(spoilt)
        status, _, faults = desk.run(b"", *desk.words("in-house"))
        told("spoilt database", is_named(status, faults) and desk.db.read_bytes() == bytes(spoilt), b"")


def main():
    program = pathlib.Path(sys.argv[1] if len(sys.argv) > 1 else DESK).resolve()
    count = int(sys.argv[2]) if len(sys.argv) > 2 else 1_000_000
    good, bad = {}, {}

    def told(what, is_good, given):
        where = good if is_good else bad
        where[what] = where.get(what, 0) + 1
        if not is_good and bad[what] <= 3:
            print(f"{what}: not as wanted, given {given!r}")

    with tempfile.TemporaryDirectory() as made:
        desk = Desk(program, pathlib.Path(made))
        random_tried(desk, told, count)
    print(", ".join(f"{what} {number}" for what, number in good.items()) + " as wanted"
          + (f"; not: {bad}" if bad else ""))
    sys.exit(1 if bad else 0)


if __name__ == "__main__":
    main()
