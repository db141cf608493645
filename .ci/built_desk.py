"""The built program as the tests of this folder run it: what it is given, and what it answers."""
import concurrent.futures
import contextlib
import errno
import functools
import itertools
import os
import pathlib
import shutil
import socket
import sqlite3
import struct
import subprocess
import sys
import tempfile
import traceback

from surface import (BEGUN, FIRST_NOTES_HEADER, KIND_ADDED, NOTES_HEADER, SEEN, TAKEN, answer, exchange_of,  # noqa: F401
                     issued, numbered, request, reserved, room_added, text_of)

HERE = pathlib.Path(__file__).resolve().parent
DESK = HERE.parent / "crates" / "hotel_desk" / "out" / "hotel_desk"
sys.dont_write_bytecode = True


def door_of(program):
    """The hotel_door beside this hotel_desk, or else the built one."""
    beside = program.parent / "hotel_door"
    return beside if beside.exists() else HERE.parent / "crates" / "hotel_door" / "out" / "hotel_door"


def block(counter):
    """One block of ChaCha20's keystream for a key of zeros and a nonce of zeros (RFC 8439, 2.3)."""
    def rotated(x, n):
        return ((x << n) | (x >> (32 - n))) & 0xFFFFFFFF

    start = list(struct.unpack("<4I", b"expand 32-byte k")) + [0] * 8 + [counter, 0, 0, 0]
    s = list(start)
    columns = [[column + 4 * row for row in range(4)] for column in range(4)]
    diagonals = [[0, 5, 10, 15], [1, 6, 11, 12], [2, 7, 8, 13], [3, 4, 9, 14]]
    for a, b, c, d in (columns + diagonals) * 10:
        for x, y, z, n in ((a, b, d, 16), (c, d, b, 12), (a, b, d, 8), (c, d, b, 7)):
            s[x] = (s[x] + s[y]) & 0xFFFFFFFF
            s[z] = rotated(s[z] ^ s[x], n)
    return struct.pack("<16I", *((x + y) & 0xFFFFFFFF for x, y in zip(s, start)))


def codes():
    """The codes that a seed of zeros gives: each word of the source is eight bytes, least first, and its upper 48 bits
    are the code."""
    for counter in itertools.count():
        for word in struct.unpack("<8Q", block(counter)):
            yield word >> 16


def first_codes(count):
    """So many of these, as texts."""
    return [f"{code:012x}" for code in itertools.islice(codes(), count)]


# Where the folders of tests are made: in memory where the machine has such a folder, since nothing waits there for a
# sync.
ROOM = "/dev/shm" if os.access("/dev/shm", os.W_OK) else None

# How many processors this may use.
PROCESSORS = len(os.sched_getaffinity(0))

CODES = first_codes(640)
FIRST, SECOND = CODES[:2]
# The header of audit files, and that of the first version, under which each note is of its room's first lock.
HEADER, FIRST_HEADER = text_of([NOTES_HEADER]), text_of([FIRST_NOTES_HEADER])
# The lines of an opening and their answers; and then a check-in.
OPENING_LINES = [("begin 2031-05-01", BEGUN), ("add-kind DBL", KIND_ADDED), ("add-room 101 DBL", room_added(FIRST)),
                 ("reserve DBL 2031-05-01 2 Ann Lee", reserved(1))]
OPENING, OPENED = map(text_of, zip(*OPENING_LINES))
CHECK_IN_LINE, ISSUED = "check-in 1 101", issued(1, 1, FIRST, SECOND)
CHECKED_IN, CARD = OPENING + text_of([CHECK_IN_LINE]), text_of([ISSUED])
MOMENT = "2031-05-01T15:00:00"
# Desks of the first version of the tables, which an earlier program made: NAME.db, and what its lists answered over it,
# NAME.lists.txt, in which `$` and the words of a call stand before each text.
FIRST_DESKS = sorted((HERE / "version-1").glob("*.db"))
# The statements that make the indexes of a new desk, in their order.
INDEXES = ["CREATE INDEX stay_room ON stay (room);\n", "CREATE INDEX card_party ON card (party);\n",
           "CREATE INDEX stay_arrive ON stay (state, arrive);\n"]
# The statements that make a new desk of one of the first version.
UPGRADE = f"""\
CREATE TABLE fit (room INTEGER NOT NULL REFERENCES room, fit INTEGER NOT NULL, place INTEGER NOT NULL, \
before INTEGER NOT NULL, PRIMARY KEY (room, fit), UNIQUE (room, place)) STRICT;
{"".join(INDEXES)}\
INSERT INTO fit SELECT room, 1, 0, 0 FROM room ORDER BY room;
UPDATE meta SET version = 2;
"""
# By what another program finds a file whole, and what it finds then.
ARE_WHOLE, WHOLE = ["PRAGMA integrity_check", "PRAGMA foreign_key_check"], [[("ok",)], []]
# The same two notes under each header, and what they are answered.
NOTES = HEADER + f"""\
101,1,1,in,1,{FIRST},{SECOND},2031-05-01T15:00:00
101,1,2,out,1,{FIRST},{SECOND},2031-05-01T16:00:00
""".encode()
FIRST_NOTES = FIRST_HEADER + f"""\
101,1,in,1,{FIRST},{SECOND},2031-05-01T15:00:00
101,2,out,1,{FIRST},{SECOND},2031-05-01T16:00:00
""".encode()
NOTES_TAKEN, NOTES_SEEN = numbered(TAKEN, TAKEN), numbered(SEEN, SEEN)


# Each exchange by itself: a request and its answer.
BOOKED, (CHECK_IN, DONE) = [exchange_of(*pair) for pair in OPENING_LINES], exchange_of(CHECK_IN_LINE, ISSUED)


@functools.cache
def preloaded():
    """The library that has calls of the system fail, built for as long as this runs."""
    made = tempfile.NamedTemporaryFile(suffix=".so")
    subprocess.run(["cc", "-O1", "-shared", "-fPIC", "-o", made.name, HERE / "failing_calls.c"], check=True)
    return made


def failing_main(tests):
    """Runs tests that preload the library, one for each processor at once, and counts them."""
    preloaded()
    main(tests, at_once=PROCESSORS)


class Desk:
    """The built program, with a seed of zeros, in a folder of its own."""

    def __init__(self, program, folder):
        self.program, self.folder, self.db = program, folder, folder / "desk.db"
        (folder / "zeros").write_bytes(bytes(32))

    def run(self, given, *words, **calls):
        """The status, the output and the faults of a run with these words on this input, of which these calls of the
        system fail."""
        seeded = ["--seed-file", self.folder / "zeros", *words] if words else []
        child = subprocess.run([self.program, *seeded], input=given, stdout=subprocess.PIPE, stderr=subprocess.PIPE,
                               timeout=60, env=self.environment(calls))
        return child.returncode, child.stdout, child.stderr

    def environment(self, calls):
        """The environment in which these calls of the system fail (failing_calls.c)."""
        return dict(os.environ, LD_PRELOAD=preloaded().name, **calls) if calls else None

    def stored(self, given, *words, **calls):
        """The same on the database."""
        return self.run(given, "--db", self.db, *words, **calls)

    def laid(self, start):
        """The database as it is in this file, or none."""
        for file in self.folder.glob("desk.db*"):
            file.unlink()
        if start:
            shutil.copy(start, self.db)

    def begun(self, script):
        """A new database, with this script carried out."""
        self.laid(None)
        self.stored(script, "script")

    def kept(self, name, script):
        """A file of this name with the database behind this script."""
        self.begun(script)
        return shutil.copy(self.db, self.folder / name)

    def edited(self, statements):
        """The database as these statements of another program leave it."""
        with sqlite3.connect(self.db) as db:
            db.executescript(statements)
        db.close()

    def at_last_fit_but_one(self):
        """A database on which room 101 has its 98th lock: card 1 is inside, and no party is there. The codes of the
        earlier locks are 1 to 97."""
        self.begun(CHECKED_IN + f"entered 101 1 1 {FIRST} {SECOND} 2031-05-01T15:00:00\ncheck-out 1\n".encode())
        earlier = "".join(f"INSERT INTO code VALUES ({number}, 101, {number - 1});"
                          f"INSERT INTO fit VALUES (101, {number}, {number - 1}, 0);" for number in range(1, 98))
        self.edited("UPDATE code SET place = place + 97; UPDATE room SET codes = 99, lock_place = 98; DELETE FROM fit;"
                    + earlier + "INSERT INTO fit VALUES (101, 98, 97, 0)")

    def found(self, *queries):
        """What another program finds in the database by each of these queries."""
        with sqlite3.connect(self.db) as db:
            found = [db.execute(query).fetchall() for query in queries]
        db.close()
        return found

    def refuses(self, name, fault):
        """The database is refused with this fault, by a list and by a command, and stays as it is, byte for byte."""
        before, rows = self.db.read_bytes(), self.rows()
        for words in (["in-house"], ["refit", "101"]):
            yield (name, words), (5, b"", f"{fault}\n".encode()), self.stored(b"", *words)
            yield (name, words), (True, rows), (self.db.read_bytes() == before, self.rows())

    def rows(self):
        """The tables of the database and their rows, as another program finds them in its file and its log."""
        for file in self.folder.glob("read.db*"):
            file.unlink()
        for file in self.folder.glob("desk.db*"):
            shutil.copy(file, self.folder / file.name.replace("desk", "read"))
        with sqlite3.connect(self.folder / "read.db") as db:
            rows = "\n".join(line for line in db.iterdump() if line.startswith(("CREATE", "INSERT")))
        db.close()
        return rows

    def lacking(self, name, count, start):
        """A file of this name with the desk of the second version, of which it has but so many of the indexes, that
        comes of the one of the first version in this file."""
        self.laid(start)
        self.edited(UPGRADE + "".join(f"DROP INDEX {index.split()[2]};\n" for index in reversed(INDEXES[count:])))
        return shutil.copy(self.db, self.folder / name)

    def versions(self, start, missing=UPGRADE):
        """The tables and rows of the desk that is in this file, and of the whole one that comes of it by these
        statements. The database is then as it is in the file."""
        self.laid(start)
        self.edited(missing)
        whole = self.rows()
        self.laid(start)
        return self.rows(), whole

    def sizes(self):
        """The sizes of the database file and of what lies beside it."""
        return tuple(file.stat().st_size for file in sorted(self.folder.glob("desk.db*")))

    def audit(self, text, is_stored=False, **calls):
        """A run on this audit file."""
        file = self.folder / "audit.csv"
        file.write_bytes(text)
        return (self.stored if is_stored else self.run)(b"", "audit", file, **calls)

    def answers(self, requests, piece=1 << 20, is_stored=False, **calls):
        """What a server says to these requests, one connection each, sent in pieces of so many bytes; and how it
        ends."""
        words = ["--db", self.db] if is_stored else []
        server, port = serve(self.program, len(requests), "--seed-file", self.folder / "zeros", *words,
                             env=self.environment(calls))
        said = [exchange(port, asked, piece) for asked in requests]
        return said, server.wait(60), server.stderr.read()


@functools.cache
def ports():
    """Ports that no other script of this folder takes, one after the other: a hundred below those that a system takes
    for its clients. The first is held as long as this runs."""
    for first in range(20000, 32700, 100):
        held = socket.socket()
        try:
            held.bind(("127.0.0.1", first))
        except OSError:
            held.close()
            continue
        return held, itertools.cycle(range(first + 1, first + 100))
    raise AssertionError("no hundred ports are free")


def free_port():
    """A port that nothing has."""
    for port in ports()[1]:
        with socket.socket() as probe, contextlib.suppress(OSError):
            probe.setsockopt(socket.SOL_SOCKET, socket.SO_REUSEADDR, 1)
            probe.bind(("127.0.0.1", port))
            return port


def serve(program, count, *words, env=None):
    """A server for so many connections, and the port that it says it listens on."""
    port = free_port()
    server = subprocess.Popen([program, *words, "serve", str(port), str(count)], stdout=subprocess.PIPE,
                              stderr=subprocess.PIPE, env=env)
    line = server.stdout.readline().decode()
    if line != f"listening on 127.0.0.1:{port}\n":
        server.kill()
        raise AssertionError(f"{line!r} {server.stderr.read()!r}")
    return server, port


def exchange(port, asked, piece):
    """What the server says to these bytes, sent in pieces of so many."""
    said = b""
    with socket.create_connection(("127.0.0.1", port), timeout=60) as client:
        client.setsockopt(socket.IPPROTO_TCP, socket.TCP_NODELAY, 1)
        try:
            for at in range(0, len(asked), piece):
                client.sendall(asked[at:at + piece])
            client.shutdown(socket.SHUT_WR)
        except OSError as fault:
            if fault.errno not in (errno.EPIPE, errno.ECONNRESET, errno.ENOTCONN):
                raise
        try:
            while some := client.recv(65536):
                said += some
        except ConnectionResetError:
            pass
    return said


def wrong_cases(program, test):
    """The cases of a test of this program that aren't as wanted, behind the exception that ended it, if one did."""
    wrong = []
    with tempfile.TemporaryDirectory(dir=ROOM) as made:
        try:
            for case in test(Desk(program, pathlib.Path(made))):
                wrong += [case] if case[1] != case[2] else []
        except Exception:
            wrong.insert(0, ("what ended it", "nothing", traceback.format_exc(limit=-1)))
    return wrong


def main(tests, waiting=(), at_once=1):
    """Runs these tests of the program that is named by the first word, or of the built one, so many at once, and behind
    them those that mostly wait, side by side; where more words follow, the tests of these names alone. Counts them."""
    program, named = pathlib.Path(sys.argv[1] if len(sys.argv) > 1 else DESK).resolve(), sys.argv[2:]
    if unknown := set(named) - {test.__name__ for test in (*tests, *waiting)}:
        sys.exit(f"no tests: {' '.join(sorted(unknown))}")
    tests, waiting = ([test for test in group if not named or test.__name__ in named] for group in (tests, waiting))
    failed = 0
    for group, number in ((tests, at_once), (waiting, max(1, len(waiting)))):
        with concurrent.futures.ThreadPoolExecutor(number) as pool:
            for test, wrong in zip(group, pool.map(functools.partial(wrong_cases, program), group)):
                for given, wanted, got in wrong[:3]:
                    print(f"{test.__name__}, given {given!r}: wanted {wanted!r:.300}, and got {got!r:.300}")
                failed += bool(wrong)
    print(f"{len(tests) + len(waiting) - failed} passed, {failed} failed")
    sys.exit(1 if failed else 0)
