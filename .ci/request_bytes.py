"""Requests for `.ci/bytes`: in order of their faults, of web pages, of the greatest size, cut and damaged."""
from audit_files import ONE
from built_desk import (BOOKED, CHECK_IN, CODES, DONE, FIRST, FIRST_NOTES, HEADER, NOTES, NOTES_SEEN, NOTES_TAKEN,
                        SECOND)
from damaged_bytes import damaged
from surface import (BAD_REQUEST, CHECKED_OUT, CONTINUE, FORBIDDEN, HEAD_TOO_LARGE, NOT_FOUND, NOT_IMPLEMENTED,
                     ONLY_POST, SEEN, TOO_LARGE, UNREAD_VALUE, answer, answer_to, day_is, exchange_of, gap, import_of,
                     issued, numbered, path_of, refitted, refused, reply, request, route_of)

BAD, FOREIGN, LOST = map(answer, (BAD_REQUEST, FORBIDDEN, NOT_FOUND))
LARGE, LARGE_HEAD, NOT_DONE = map(answer, (TOO_LARGE, HEAD_TOO_LARGE, NOT_IMPLEMENTED))
UNREAD_REQUESTS = [
    *((asked, UNREAD_VALUE) for asked in (
        request(route_of("begin")), request(route_of("begin"), b"day=2031-02-29"),
        request(route_of("check-in", 1), b"room=101&room=101"), request(route_of("spare", 0)),
        request(route_of("chain", "%31")),
        *(request(route_of("refit", room)) for room in (0, "%31", 10000, "101%2F2")))),
    *((request(asked), LOST) for asked in (
        "GET /nowhere", "GET /rooms/101", "POST /rooms/101/2/refit", "POST /rooms/refit")),
    *((request(f"{method} {path_of('refit', 101)}"), ONLY_POST) for method in ("GET", "DELETE"))]
# Heads and bodies of which each has a fault less than the one before: each is refused by the first of those it has.
CHUNKED, TWO_LENGTHS = b"Transfer-Encoding: chunked\r\n", b"Content-Length: 1\r\n" * 2
TOO_LONG, CUT = b"Content-Length: 262145\r\n", b"Content-Length: 8\r\n"
OWN, OTHER = b"Host: localhost\r\n", b"Host: page.example\r\n"
FEWER_FAULTS = [(b"%s HTTP/1.1\r\n%s\r\n" % (line, b"".join(fields)), said) for line, fields, said in (
    (b"GET http://desk/nowhere", (b"no colon\r\n", CHUNKED, TWO_LENGTHS), BAD),
    (b"GET http://desk/nowhere", (OTHER, OTHER, CHUNKED, TWO_LENGTHS), BAD),
    (b"GET http://desk/nowhere", (OTHER, CHUNKED, TWO_LENGTHS), FOREIGN),
    (b"GET http://desk/nowhere", (OWN, CHUNKED, TWO_LENGTHS), NOT_DONE),
    (b"GET http://desk/nowhere", (OWN, TWO_LENGTHS), BAD),
    (b"GET http://desk/nowhere", (OWN, TOO_LONG), LARGE),
    (b"GET http://desk/nowhere", (OWN, CUT), BAD),
    (b"GET /nowhere", (OWN, CUT), LOST),
    (b"GET /reservations/0/check-in", (OWN, CUT), ONLY_POST),
    (b"POST /reservations/0/check-in", (OWN, CUT), BAD),
    (b"POST /reservations/0/check-in", (OWN,), UNREAD_VALUE))]
THREE_LOCKS = [f"0,{FIRST},passed", f"1,{SECOND},passed", f"2,{CODES[2]},passed", f"3,{CODES[3]},held"]
# Notes of the locks of a room that has its third, and their answers.
LATE_NOTES = HEADER + f"""\
101,1,2,out,1,{FIRST},{SECOND},2031-05-01T16:00:00
101,1,3,in,1,{FIRST},{SECOND},2031-05-01T17:00:00
101,2,1,in,1,{FIRST},{SECOND},2031-05-01T17:00:00
101,3,2,in,1,{FIRST},{SECOND},2031-05-01T17:00:00
101,3,1,in,1,{FIRST},{SECOND},2031-05-01T17:00:00
101,4,1,in,1,{FIRST},{SECOND},2031-05-01T17:00:00
""".encode()
LATE_ANSWERS = numbered(SEEN, refused.OldFit, refused.OldFit, gap(1), refused.LockShut, refused.NoFit)
IMPORT, SEEN_AGAIN = import_of(NOTES), reply(NOTES_SEEN)
AUDITED = exchange_of("audit-of 101", NOTES.decode().splitlines()[1:])
DAY = [
    exchange_of("arrivals 2031-05-01", ["1,Ann Lee,DBL,2031-05-01,2031-05-03"]), (CHECK_IN, DONE),
    exchange_of("spare 1", issued(2, 1, FIRST, SECOND)), (IMPORT, reply(NOTES_TAKEN)), (IMPORT, SEEN_AGAIN),
    (import_of(FIRST_NOTES), SEEN_AGAIN), (import_of(b""), answer(BAD_REQUEST, b"no header\n")),
    (import_of(b"room\n"), answer(BAD_REQUEST, b"wrong header\n")), AUDITED,
    (request(route_of("chain", 101) + "?all=yes"), answer_to("chain 101", [f"0,{FIRST},passed", f"1,{SECOND},held"])),
    exchange_of("in-house", ["101,1,Ann Lee,DBL,2031-05-03,yes"]), exchange_of("left-behind", []),
    exchange_of("transfer 1 101", refused.SameRoom), exchange_of("cancel 1", refused.NotBooked),
    exchange_of("refit 101", refused.RoomTaken), exchange_of("check-out 1", CHECKED_OUT),
    exchange_of("refit 101", refitted(2, CODES[2])),
    (request(route_of("refit", 101) + "?all=yes", b"room=102"), reply(refitted(3, CODES[3]))),
    exchange_of("chain 101", THREE_LOCKS), (IMPORT, SEEN_AGAIN), (import_of(LATE_NOTES), reply(LATE_ANSWERS)), AUDITED,
    exchange_of("refit 102", refused.NoRoom), exchange_of("next-day", day_is("2031-05-02")),
    exchange_of("chain 102", refused.NoRoom), exchange_of("audit-of 102", refused.NoRoom),
]

# The version and the fields of what programs on this computer send: curl, Python's http.client, Go's net/http, wrk, and
# nginx for clients elsewhere; then other ways to name this computer.
OWN_FIELDS = [
    ("1.1", "Host: 127.0.0.1:18080", "User-Agent: curl/8.5.0", "Accept: */*"),
    ("1.1", "Host: localhost:18080", "User-Agent: curl/8.5.0", "Accept: */*", "Content-Length: 0",
     "Content-Type: application/x-www-form-urlencoded"),
    ("1.1", "Host: 127.0.0.1:18080", "Accept-Encoding: identity", "Content-Length: 0"),
    ("1.1", "Host: 127.0.0.1:18080", "User-Agent: Go-http-client/1.1", "Content-Length: 0", "Accept-Encoding: gzip"),
    ("1.1", "Host: 127.0.0.1:18080"),
    ("1.0", "Host: 127.0.0.1:18080", "Connection: close", "User-Agent: curl/8.5.0", "Accept: */*"),
    ("1.0",), ("1.1", "hOST:LocalHost"), ("1.1", "Host: \t localhost:80 \t"), ("1.1", "Host: 127.0.0.1:"),
    ("1.1", "Host: localhost", "Referer: https://page.example/", "Cookie: a=b", "Sec-Fetch-Mode: no-cors"),
    ("1.1", "Host: localhost", "Sec-Fetch-Site: none"), ("1.1", "Host: localhost", "sEC-fETCH-sITE: \t same-origin "),
    ("1.1", "Host: localhost", "Sec-Fetch-Site: none", "Sec-Fetch-Site: same-origin"),
]
# Those of what a page in a browser has sent, by a form, an image or a name that leads here; and of what names other
# computers.
FOREIGN_FIELDS = [
    ("1.1", "Host: 127.0.0.1:18080", "Origin: https://page.example", "Content-Length: 0", "Content-Type: text/plain"),
    ("1.1", "Host: localhost:18080", "Origin: http://localhost:18080"), ("1.1", "Host: localhost", "Origin: null"),
    ("1.1", "oRIGIN:", "Host: localhost"), ("1.0", "Origin: https://page.example"),
    ("1.1", "Host: page.example:18080", "User-Agent: Mozilla/5.0", "Accept: */*"), ("1.0", "Host: page.example"),
    *(("1.1", f"Host: {host}") for host in (
        "", ":80", "localhos", "localhostt", "localhost.", "localhost.page.example", "page.localhost", "127.0.0.2",
        "127.0.0.1.page.example", "127.1", "[::1]:80", "localhost:x", "localhost:80:80", "localhost: 80",
        "localhost :80", "user@localhost", "localhost, localhost")),
    *(("1.1", "Host: localhost", f"Sec-Fetch-Site: {site}") for site in (
        "cross-site", "same-site", "", "None", "SAME-ORIGIN", "same-origin, none", "none;", "same-origi", "nonee")),
    ("1.1", "sec-fetch-site: cross-site", "Host: localhost"), ("1.0", "Sec-Fetch-Site: cross-site"),
    ("1.1", "Host: localhost", "Sec-Fetch-Site: none", "Sec-Fetch-Site: cross-site"),
]
# Requests that begin nothing, and then a check-in whose client awaits an interim answer.
REFUSED_REQUESTS = [
    (CHECK_IN[:-4], BAD),
    (b"GET /next-day HTTP/1.1\r\nHost: localhost\r\n\r\n", ONLY_POST),
    (CHECK_IN.replace(b"Host: localhost\r\n", b"Host: localhost\r\nHost: localhost\r\n"), BAD),
    (b"POST http://localhost/next-day HTTP/1.1\r\nHost: localhost\r\n\r\n", BAD),
    (b"POST /next-day HTTP/1.1\r\nHost: localhost\r\nTransfer-Encoding: chunked\r\n\r\n", NOT_DONE),
    (b"POST /next-day HTTP/1.1\r\nHost: localhost\r\nContent-Length: 262145\r\n\r\n", LARGE),
    (b"POST /next-day HTTP/1.1\r\nHost: localhost\r\nContent-Length: 18446744073709551616\r\n\r\n", LARGE),
    (b"POST /next-day HTTP/1.1\r\nHost: localhost\r\nContent-Length: 0\r\nContent-Length: 0\r\n\r\n", BAD),
    (CHECK_IN.replace(b"8\r\n\r\n", b"8\r\nExpect: 100-continue\r\n\r\n"), CONTINUE + DONE),
]

# The request that is cut and damaged, in pieces, with the answers as above. Lines may end in LF alone, and an empty one
# ends the head: without Host the request is malformed, without a length the body is empty. A line feed may stand before
# the method. A target and a value have no control character, and a target is UTF-8.
DAMAGED_REQUEST = [
    (b"P", (BAD, ONLY_POST, BAD, BAD, BAD)),
    (b"OST /", (BAD,) * 5),
    (b"reservations/", (BAD, BAD, LOST, LOST, BAD)),
    (b"1", (BAD, BAD, UNREAD_VALUE, UNREAD_VALUE, BAD)),
    (b"/check-in", (BAD, BAD, LOST, LOST, BAD)),
    (b" HTTP/1.1\r\nHost:", (BAD,) * 5),
    (b" localhos", (BAD, BAD, FOREIGN, FOREIGN, FOREIGN)),
    (b"t", (BAD, FOREIGN, FOREIGN, FOREIGN, FOREIGN)),
    (b"\r", (BAD, UNREAD_VALUE, FOREIGN, FOREIGN, FOREIGN)),
    (b"\n", (BAD,) * 5),
    (b"C", (BAD, UNREAD_VALUE, BAD, BAD, BAD)),
    (b"ontent-Length: 8", (BAD,) * 5),
    (b"\r", (BAD, UNREAD_VALUE, BAD, BAD, BAD)),
    (b"\n", (BAD,) * 5),
    (b"\r", (BAD, UNREAD_VALUE, BAD, BAD, BAD)),
    (b"\n", (BAD,) * 5),
    (b"room=101", (UNREAD_VALUE,) * 5),
]


def served(desk, exchanges, piece=1 << 20):
    """A server answers these requests so, one after the other."""
    asked, answers = zip(*exchanges)
    said, status, faults = desk.answers(asked, piece)
    for given, wanted, got in zip(asked, answers, said):
        yield given, wanted, got
    yield "the server", (0, b""), (status, faults)


def requests_served(desk):
    yield "no byte", ([b""], 0, b"closed\n"), desk.answers([b""])
    for piece in (1 << 20, 1):
        yield from served(desk, [*BOOKED, *UNREAD_REQUESTS, *FEWER_FAULTS, *DAY], piece)
        yield from served(desk, [*BOOKED, *REFUSED_REQUESTS, exchange_of("next-day", day_is("2031-05-02"))], piece)


def requests_of_pages(desk):
    """What a page in a browser has sent is refused, whatever it asks for, and nothing of it is done; what programs send
    isn't."""
    def head(line, version, *fields):
        return "\r\n".join((f"{line} HTTP/{version}", *fields, "", "")).encode()

    for line, said in ((route_of("next-day"), reply(refused.NotBegun)), ("GET /nowhere", LOST)):
        yield from served(desk, [(head(line, *fields), said) for fields in OWN_FIELDS])
        yield from served(desk, [(head(line, *fields), FOREIGN) for fields in FOREIGN_FIELDS])
    begin, begun = BOOKED[0]
    yield from served(desk, [(begin.replace(b"\r\n", b"\r\nOrigin: https://page.example\r\n", 1), FOREIGN),
                             (begin.replace(b"\r\n", b"\r\nSec-Fetch-Site: cross-site\r\n", 1), FOREIGN),
                             (begin.replace(b"localhost", b"page.example"), FOREIGN), (begin, begun)])


def head_of(length, end=b"\r\n\r\n"):
    """A head of so many bytes."""
    return b"POST /next-day HTTP/1.1\r\nHost: localhost\r\nX: ".ljust(length - len(end), b"x") + end


def heads_and_bodies(desk):
    """Heads and bodies of the greatest size, and beyond it; none begins anything."""
    not_begun = reply(refused.NotBegun)
    fields = [b"POST /next-day HTTP/1.1\r\nHost: localhost\r\n" + b"X: 1\r\n" * more + b"\r\n" for more in (63, 64)]
    body, one_unread = HEADER.ljust(262144, b"x"), reply(ONE)
    whole = import_of(body)
    heads = [(fields[0], not_begun), (fields[1], LARGE_HEAD), (head_of(16384), not_begun),
             (head_of(16385), LARGE_HEAD), (head_of(16384, b""), BAD), (head_of(16385, b""), LARGE_HEAD)]
    yield from served(desk, heads)
    bodies = [(whole, one_unread), (whole.replace(b" 262144", b"\t 000262144 \t"), one_unread), (whole[:-1], BAD)]
    yield from served(desk, bodies + BOOKED)


def served_again(desk, given, wanted):
    """A request that is cut or damaged is answered so, and the whole one behind it as if it had not been, where that
    did nothing."""
    again = reply(refused.NotBooked) if wanted == DONE else DONE
    yield from served(desk, [*BOOKED, (given, wanted), (CHECK_IN, again)])


def requests_cut(desk):
    for cut in range(1, len(CHECK_IN)):
        yield from served_again(desk, CHECK_IN[:cut], BAD)


def requests_damaged(desk):
    yield "the pieces", CHECK_IN, b"".join(piece for piece, _ in DAMAGED_REQUEST)
    for given, wanted in damaged(DAMAGED_REQUEST):
        yield from served_again(desk, given, wanted)
