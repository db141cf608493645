"""Scripts of many lines for `.ci/stops`, which a disk that stops cuts at random calls."""
import itertools
import random

from built_desk import CODES, MOMENT
from stopping_disk import FOREVER, STORE, begun, failing, files_of, lay, left, opened, rows_of, traced
from surface import UNREAD, issued, refitted, refused, room_added, text_of


def many_stays():
    """The lines of forty stays in eight rooms: each is booked and checked in, gets a spare card, enters and leaves by
    both, and is checked out. Fewer than 64 codes are drawn: a run that begins its seed anew draws past all that were
    issued."""
    lines = ["begin 2031-05-01", "add-kind DBL", *(f"add-room {room} DBL" for room in range(1, 9))]
    current, counts = dict(zip(range(1, 9), CODES)), dict.fromkeys(range(1, 9), 0)
    for party in range(1, 41):
        room, new = party % 8 + 1, CODES[7 + party]
        link, current[room] = f"{current[room]} {new}", new
        lines += [f"reserve DBL 2031-05-0{1 + party // 10} 2 Guest {party}", f"check-in {party} {room}",
                  f"spare {party}"]
        for verb, card in (("entered", 2 * party - 1), ("left", 2 * party - 1),
                           ("entered", 2 * party), ("left", 2 * party)):
            counts[room] += 1
            lines.append(f"{verb} {room} {counts[room]} {card} {link} {MOMENT}")
        lines += [f"check-out {party}"] + ["next-day"] * (party % 10 == 9)
    return lines


def random_commands(desk, draws):
    """Up to six hundred lines of random commands over few rooms and parties, of which many are refused; they end before
    64 codes were drawn."""
    lines = ["begin 2031-05-01", "add-kind DBL", "add-kind SGL", *(f"add-room {room} DBL" for room in range(1, 5))]
    while len(lines) < 600:
        room, party, count = draws.randint(1, 7), draws.randint(1, 1 + len(lines) // 25), draws.randint(1, 3)
        kind = draws.choice(("DBL", "DBL", "SGL"))
        link = " ".join(CODES[draws.randrange(1 + len(lines) // 10)] for _ in range(2))
        lock = draws.choice((f"{room}", f"{room}", f"{room}/2", f"{room}/3"))
        verb = draws.choice(("reserve", "check-in", "check-in", "check-in", "check-out", "cancel", "spare", "transfer",
                             "entered", "left", "recoded", "refit", "add-room", "next-day"))
        if verb == "next-day" and draws.randrange(8):
            verb = "check-in"
        lines.append({"reserve": f"reserve {kind} 2031-05-{1 + len(lines) // 60 + draws.randrange(4):02} "
                                 f"{draws.randint(1, 3)} Guest {len(lines)}",
                      "add-room": f"add-room {room} {kind}", "check-in": f"check-in {party} {room}",
                      "transfer": f"transfer {party} {room}",
                      "entered": f"entered {lock} {count} {party} {link} {MOMENT}",
                      "left": f"left {lock} {count} {party} {link} {MOMENT}",
                      "recoded": f"recoded {lock} {count} {link} {MOMENT}", "refit": f"refit {room}",
                      "next-day": "next-day"}.get(verb, f"{verb} {party}"))
    answers = desk.run(text_of(lines))[1].split(b"\n")
    with_codes = tuple(said.split()[0].encode() for said in (room_added(""), issued("", "", "", ""), refitted("", "")))
    drawn = itertools.accumulate(answer.startswith(with_codes) for answer in answers)
    return lines[:sum(count < 60 for count in drawn)]


def answered(desk, files, lines):
    """The files and the rows where these lines are answered on a copy of these files, without a stop."""
    lay(desk, files)
    desk.stored(text_of(lines), "script")
    files = files_of(desk)
    return files, rows_of(files, desk)


def script_stopped(desk, lines, draws, most):
    """A script is stopped at random calls: the answered lines stand, the next one stands or doesn't, and the others are
    carried out when the file is opened again, as the stop left it or closed in between. The answers are those over
    books in memory. An opening takes more calls the more rows there are: where the latest stop came before any line,
    the next ones come later."""
    files, at, stops, later = begun(desk), 0, 0, 0
    answers, known = desk.run(text_of(lines))[1].splitlines(True), files
    unwanted = UNREAD.encode(), refused.NoFreshCode.encode()
    yield "answers", [], [answer for answer in answers if answer.startswith(unwanted)]
    while at < len(lines):
        lay(desk, files)
        call = draws.randrange(1, 70) if draws.randrange(4) == 0 else later + draws.randrange(70, most)
        _, output, _ = desk.stored(text_of(lines[at:]), "script", **failing(desk, call, FOREVER))
        said = list(itertools.takewhile(lambda it: it != STORE, output.splitlines(True)))
        ends = left(files, list(traced(desk)))
        yield (at, call), answers[at:at + len(said)], said
        done = at + len(said)
        stands = answered(desk, known, lines[at:done])
        next_stands = answered(desk, stands[0], lines[done:done + 1])
        stopped_so = draws.choice(ends)
        is_open, closed = opened(desk, stopped_so)
        rows = is_open and rows_of(closed, desk)
        yield (at, call, done), True, rows in (stands[1], next_stands[1])
        later += call == later + most - 1 and done == at
        at, known = (done, stands[0]) if rows == stands[1] else (done + 1, next_stands[0])
        files, stops = draws.choice((stopped_so, closed)), stops + 1
    yield "as many stops", True, stops >= 100
    yield "the rows", answered(desk, begun(desk), lines)[1], rows_of(opened(desk, files)[1], desk)


def stays_stopped(desk):
    """Forty stays, of which no line is refused."""
    lines = many_stays()
    answers = desk.run(text_of(lines))[1].splitlines()
    yield "refused", [], [answer for answer in answers if answer.startswith(b"refused")]
    yield from script_stopped(desk, lines, random.Random(7), 100)


def random_commands_stopped(desk):
    """Random commands, by two seeds."""
    for seed in (1, 2):
        draws = random.Random(seed)
        yield from script_stopped(desk, random_commands(desk, draws), draws, 79)
