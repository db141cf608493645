"""Answers to deploy/desk of each kind, cut, late and lost, for `.ci/client`."""
import os
import signal
import subprocess
import time

from built_desk import CARD, CHECK_IN_LINE, CODES, DONE, FIRST, NOTES, NOTES_SEEN, NOTES_TAKEN, SECOND, free_port
from client_relay import CLIENT, LINES, Relay, asks, holding, passing, saying, served, unheard
from listed_desks import LONG_LIST
from surface import (BAD_REQUEST, CONTINUE, OK, SEEN, TAKEN, TOO_LARGE, UNAVAILABLE, UNREAD, answer, gap, issued,
                     numbered, refused, status_over_http, stopped_after, text_of, unread)

# A text that looks like refusals, and is none of them.
NO_REFUSAL = b"day\n1 refused 2\n-409- 503-GET- unread \n"
IMPORT = "audit notes"
# The status and the text of an answer, the words that are answered so, the client's status, and what it prints.
ANSWERS = [
    *((OK, text, words, (0, text)) for text, words in (
        (CARD, CHECK_IN_LINE), (LONG_LIST, "bookings"), (b"", "bookings"), (NO_REFUSAL, "bookings"))),
    *((status_over_http(said), text_of([said]), words, (status, text_of([said]))) for said, words, status in (
        (refused.RoomTaken, CHECK_IN_LINE, 3), (refused.NoRoom, "chain 9", 3), (refused.Memory, "spare 1", 4),
        (refused.Store, "next-day", 4), (numbered(SEEN, TAKEN), IMPORT, 0), (numbered(unread.BadRoom), IMPORT, 3),
        (numbered(TAKEN, gap(3), SEEN), IMPORT, 3))),
    *((UNAVAILABLE, text_of([said]), words, (4, b"")) for said, words in (
        (refused.Memory, "in-house"), (refused.Store, "in-house"), (refused.Memory, IMPORT),
        (stopped_after(3, "Store"), IMPORT))),
    (BAD_REQUEST, text_of([UNREAD]), "next-day", (2, b"")), (BAD_REQUEST, b"no header\n", IMPORT, (5, b"")),
    (TOO_LARGE, b"too large\n", IMPORT, (5, b"")),
    *((f"{number} Other", b"other\n", words, (5, b"")) for number in (400, 401, 403, 404, 405, 407, 408, 417, 429, 431)
      for words in ("next-day", "in-house", IMPORT)),
    *((f"{number} Other", b"other\n", words, (6, b"")) for number in (201, 204, 301, 302, 307, 308, 500, 501, 502, 504)
      for words in ("next-day", "in-house", IMPORT)),
]


def each_answer(desk):
    """The status and the output of each kind of answer. There is one request."""
    (desk.folder / "notes").write_bytes(NOTES)
    for status, body, words, wanted in ANSWERS:
        said = answer(status, body).replace(b"\r\nConnection", b"\r\nLocation: /next-day\r\nRetry-After: 0\r\n"
                                            b"WWW-Authenticate: Basic\r\nConnection")
        with Relay(saying(said)) as relay:
            got = asks(relay.port, *words.split(), cwd=desk.folder)
        yield (words, status), (*wanted, wanted[0] in (0, 3) or wanted[1] != b""), (*got[:2], got[2] == b"")
        yield (words, status, "requests"), 1, len(relay.asked)


def cut_answers(desk):
    """An answer that is cut, at whatever place, is lost, and nothing is printed or sent again."""
    (desk.folder / "notes").write_bytes(NOTES)
    lists, imported, empty = (answer(OK, body) for body in (b"day\n" * 30, text_of([NOTES_TAKEN]), b""))
    for words, said, step in ((CHECK_IN_LINE, DONE, 1), ("in-house", lists, 9), (IMPORT, imported, 9),
                              ("next-day", empty, 9)):
        places = {*range(0, len(said), step), *range(len(said) - 5, len(said) + 1)}
        for at, is_reset in [(at, False) for at in sorted(places)] + [(0, True), (5, True), (len(said) - 1, True)]:
            with Relay(saying(said[:at], is_reset)) as relay:
                got = asks(relay.port, *words.split(), cwd=desk.folder)
            wanted = (6, b"", True) if at < len(said) else (0, said.partition(b"\r\n\r\n")[2], False)
            yield (words, at, is_reset), wanted, (*got[:2], b"The answer was lost" in got[2])
            yield (words, at, "requests"), 1, len(relay.asked)
    for said in b"hello\n", b"HTTP/1.1 200 OK\r\n\r\ncard 1\n", CONTINUE, b"HTTP/0.9\r\n\r\n":
        with Relay(saying(said)) as relay:
            yield said, (6, b"", 1), (*asks(relay.port, "next-day")[:2], len(relay.asked))


def held_answers(desk):
    """A server that doesn't answer, or not to the end: after its time the client ends. An interrupt ends it too."""
    own = desk.folder / "own"
    own.mkdir()
    (own / "curl").write_text("#!/bin/bash\nPATH=${PATH#*:}\nexec curl \"${@/#120/1}\"\n")
    (own / "curl").chmod(0o755)
    for said in b"", DONE[:30], DONE[:-3]:
        with Relay(holding(said)) as relay:
            got = asks(relay.port, "next-day", PATH=f"{own}:{os.environ['PATH']}")
        yield said, (6, b"", 1), (*got[:2], len(relay.asked))
        with Relay(holding(said)) as relay:
            child = subprocess.Popen(["env", "--default-signal=INT", CLIENT, "--port", str(relay.port), "next-day"],
                                     stdout=subprocess.PIPE, stderr=subprocess.PIPE, start_new_session=True)
            while not relay.asked or not relay.asked[0]:
                time.sleep(0.01)
            os.killpg(child.pid, signal.SIGINT)
            out, faults = child.communicate(timeout=60)
        yield (said, "interrupted"), (6, b"", True), (child.returncode, out, b"business-day" in faults)
        yield (said, "requests"), 1, len(relay.asked)


# Commands, and the list that shows whether each was done; and those that are given again, and what this answers.
LOOKED_UP = [
    ("next-day", "business-day"), ("add-room 301 DBL", "chain 301"), ("reserve DBL 2031-05-01 1 Cy", "bookings"),
    ("cancel 2", "bookings"), ("check-in 2 102", "in-house"), ("transfer 1 102", "in-house"),
    ("reissue 1", "chain 101"), ("spare 1", "cards 1"), ("check-out 1", "in-house"), ("refit 103", "locks"),
]
REPEATED = [("begin 2031-05-01", refused.AlreadyBegun), ("add-kind SGL", refused.KindExists), (IMPORT, NOTES_SEEN),
            ("spare 1", issued(3, 1, FIRST, CODES[3]))]


def lost_commands(desk):
    """Behind a lost answer the list that the client names shows whether the command was done. It was done once if the
    request arrived, and else not at all."""
    script = (b"begin 2031-05-01\nadd-kind DBL\nadd-room 101 DBL\nadd-room 102 DBL\nadd-room 103 DBL\n"
              b"reserve DBL 2031-05-01 2 Ann\ncheck-in 1 101\nreserve DBL 2031-05-01 1 Bo\n")
    start = desk.kept("start.db", script)
    for words, look in LOOKED_UP:
        for is_heard in False, True:
            desk.laid(start)
            with served(desk) as port:
                before = asks(port, *look.split())
                with Relay(passing(port, b"") if is_heard else unheard) as relay:
                    status, said, faults = asks(relay.port, *words.split())
                yield (words, is_heard), (6, b"", 1), (status, said, len(relay.asked))
                yield (words, "names"), True, f"Look at desk {look.split()[0]}".encode() in faults
                yield (words, is_heard, "is it seen"), is_heard, asks(port, *look.split()) != before
            done = desk.rows()
            desk.laid(start)
            desk.stored(b"", *(words.split() if is_heard else ["in-house"]))
            yield (words, is_heard, "rows"), desk.rows(), done
    (desk.folder / "notes").write_bytes(NOTES.replace(SECOND.encode(), CODES[3].encode()))
    for words, again in REPEATED:
        desk.laid(None if words.startswith("begin") else start)
        with served(desk) as port:
            with Relay(passing(port, b"")) as relay:
                status, said, faults = asks(relay.port, *words.split(), cwd=desk.folder)
            yield words, (6, b"", 1, True), (status, said, len(relay.asked), b"again" in faults)
            yield (words, "again"), text_of([again]), asks(port, *words.split(), cwd=desk.folder)[1]


def no_server(desk):
    """Nothing listens, and nothing is done."""
    (desk.folder / "notes").write_bytes(NOTES)
    port = free_port()
    for words in [*LINES, IMPORT]:
        status, said, faults = asks(port, *words.split(), cwd=desk.folder)
        yield words, (7, b"", True), (status, said, b"Nothing was done" in faults)
        yield (words, "what to try"), True, b"runuser -u hotel --" in faults
