"""The surface of hotel_desk, typed from its specification: the words of its calls, their routes, and the texts of its
answers. The other scripts of this folder take these from here; tests compare them with the program's help, deploy/desk
and docs/openapi.yaml.

The answer to a line, or to a call, is a text; that of a list is a list of its rows, below its header.
"""
import re
import types
import typing
import urllib.parse


class Verb(typing.NamedTuple):
    """A subcommand: its values; its route, if it has one; and the header of a list. A value that isn't in the path is a
    field of the form."""
    values: str
    method: str = ""
    path: str = ""
    header: str = ""


COMMANDS = {
    "begin": Verb("DAY", "POST", "/begin"),
    "add-kind": Verb("KIND", "POST", "/kinds"),
    "add-room": Verb("ROOM KIND", "POST", "/rooms"),
    "reserve": Verb("KIND ARRIVE NIGHTS GUEST", "POST", "/reservations"),
    "cancel": Verb("PARTY", "POST", "/reservations/{party}/cancel"),
    "check-in": Verb("PARTY ROOM", "POST", "/reservations/{party}/check-in"),
    "spare": Verb("PARTY", "POST", "/reservations/{party}/spare"),
    "reissue": Verb("PARTY", "POST", "/reservations/{party}/reissue"),
    "transfer": Verb("PARTY ROOM", "POST", "/reservations/{party}/transfer"),
    "check-out": Verb("PARTY", "POST", "/reservations/{party}/check-out"),
    "refit": Verb("ROOM", "POST", "/rooms/{room}/refit"),
    "next-day": Verb("", "POST", "/next-day"),
}
NOTE_VERBS = {
    "entered": Verb("LOCK COUNT CARD OLD NEW MOMENT"),
    "left": Verb("LOCK COUNT CARD OLD NEW MOMENT"),
    "recoded": Verb("LOCK COUNT FROM TO MOMENT"),
}
# What a note is called in an audit file, and the first line of such a file; in the first version each note is one of
# the room's first lock.
NOTE_KINDS = {"entered": "in", "left": "out", "recoded": "recode"}
NOTES_HEADER, FIRST_NOTES_HEADER = "room,fit,count,kind,card,old,new,at", "room,count,kind,card,old,new,at"
LISTS = {
    "arrivals": Verb("DAY", "GET", "/arrivals/{day}", "party,guest,kind,arrive,depart"),
    "in-house": Verb("", "GET", "/in-house", "room,party,guest,kind,depart,secured"),
    "chain": Verb("ROOM", "GET", "/rooms/{room}/chain", "place,code,state"),
    "left-behind": Verb("", "GET", "/left-behind", "room,held,current,awaited"),
    "audit-of": Verb("ROOM", "GET", "/rooms/{room}/audit", NOTES_HEADER),
    "business-day": Verb("", "GET", "/business-day", "day"),
    "room-status": Verb("", "GET", "/room-status", "room,kind,party,secured,awaited"),
    "inside": Verb("", "GET", "/inside", "room,card,party"),
    "bookings": Verb("", "GET", "/bookings", "party,guest,kind,arrive,depart"),
    "availability": Verb("DAY NIGHTS", "GET", "/availability/{day}/{nights}", "kind,rooms,free"),
    "cards": Verb("PARTY", "GET", "/parties/{party}/cards", "card,old,new"),
    "card": Verb("CARD", "GET", "/cards/{card}", "card,party,guest,old,new"),
    "locks": Verb("", "GET", "/locks", "room,fit,count,at"),
}
# What no line of a script asks for.
CALLS = {"audit": Verb("FILE", "POST", "/audit"), "script": Verb(""), "serve": Verb("PORT COUNT")}
VERBS = COMMANDS | NOTE_VERBS | LISTS | CALLS
ROUTES = {name: verb for name, verb in VERBS.items() if verb.path}
HEADERS = {name: verb.header for name, verb in LISTS.items()}

BEGUN, KIND_ADDED, CANCELLED, CHECKED_OUT = "begun", "kind added", "cancelled", "checked out"
TAKEN, SEEN, UNREAD = "taken", "seen", "unread"


def room_added(code):
    return f"room code {code}"


def reserved(party):
    return f"party {party}"


def issued(card, party, old, new):
    return f"card {card} party {party} old {old} new {new}"


def refitted(fit, code):
    return f"lock {fit} code {code}"


def day_is(day):
    return f"day {day}"


REFUSALS = {
    1: "NotBegun", 2: "AlreadyBegun", 3: "KindExists", 4: "NoKind", 5: "RoomExists", 6: "NoRoom", 7: "NoParty",
    8: "NotBooked", 9: "NotInHouse", 10: "TooEarly", 11: "StayOver", 12: "WrongKind", 13: "SameRoom", 14: "RoomTaken",
    15: "PastArrival", 16: "PastEnd", 17: "KindFull", 18: "NumbersUsedUp", 19: "NoFreshCode", 20: "LastDay",
    21: "Conflict", 22: "Gap", 23: "NoCard", 24: "CardDiffers", 25: "LockShut", 26: "NotInside", 27: "HeldDiffers",
    28: "NotAwaited", 29: "Memory", 30: "Store", 31: "OldFit", 32: "NoFit", 33: "FitsUsedUp",
}


def refusal_of(number):
    return f"refused {number} {REFUSALS[number]}"


# The text of each by its name, as `refused.NoRoom`; behind those of two stands a value.
refused = types.SimpleNamespace(**{name: refusal_of(number) for number, name in REFUSALS.items()})


def kind_full(day):
    return f"{refused.KindFull} {day}"


def gap(count):
    return f"{refused.Gap} {count}"


# Why a line of an audit file isn't read, as `unread.BadRoom`.
CAUSES = ["FieldCount", "BadRoom", "BadFit", "BadCount", "BadKind", "BadCard", "BadOld", "BadNew", "BadMoment"]
unread = types.SimpleNamespace(**{cause: f"{UNREAD} {cause}" for cause in CAUSES})


def numbered(*answers):
    """The answers to the lines of an audit file."""
    return "\n".join(f"{number} {said}" for number, said in enumerate(answers, 1))


def stopped_after(count, why):
    """The answer to an audit file of which so many lines were answered."""
    return f"stopped after {count}: {why}"


def text_of(lines):
    return "".join(f"{line}\n" for line in lines if line).encode()


def printed(line, said):
    """The bytes of this answer to a line."""
    return text_of([said] if isinstance(said, str) else [HEADERS[words_of(line)[0]], *said])


def script_of(pairs):
    """A script of these lines, and its answers."""
    lines, answers = zip(*pairs)
    return text_of(lines), b"".join(map(printed, lines, answers))


def words_of(line):
    """The words of a call for a line of a script; a guest is one word."""
    return line.split(" ", 4 if line.startswith("reserve ") else -1)


def status_of(said):
    """The status of a call with this answer."""
    if isinstance(said, list):
        return 0
    if said in (refused.Memory, refused.Store) or said.startswith("stopped "):
        return 4
    return 3 if re.search(r"^(\d+ )?(refused|unread) ", said, re.MULTILINE) else 0


def value_unread(name):
    """How a call ends of which the value of this name isn't read."""
    return 2, b"", text_of([f"{UNREAD} {name}"])


# --- HTTP ------------------------------------------------------------------------------------------------------------

OK, BAD_REQUEST, FORBIDDEN, NOT_FOUND = "200 OK", "400 Bad Request", "403 Forbidden", "404 Not Found"
NO_METHOD, CONFLICT, TOO_LARGE = "405 Method Not Allowed", "409 Conflict", "413 Content Too Large"
HEAD_TOO_LARGE, NOT_IMPLEMENTED = "431 Request Header Fields Too Large", "501 Not Implemented"
UNAVAILABLE = "503 Service Unavailable"
# What is said with a status alone.
BODIES = {BAD_REQUEST: b"bad request\n", FORBIDDEN: b"foreign\n", NOT_FOUND: b"not found\n",
          NO_METHOD: b"method not allowed\n", TOO_LARGE: b"too large\n", HEAD_TOO_LARGE: b"head too large\n",
          NOT_IMPLEMENTED: b"not implemented\n"}
CONTINUE = b"HTTP/1.1 100 Continue\r\n\r\n"


def answer(status, body=None, media="plain", allow=""):
    """The bytes of an answer."""
    body = BODIES[status] if body is None else body
    allowed = f"Allow: {allow}\r\n" if allow else ""
    head = (f"HTTP/1.1 {status}\r\nContent-Type: text/{media}; charset=utf-8\r\nContent-Length: {len(body)}\r\n"
            f"{allowed}Connection: close\r\n\r\n")
    return head.encode() + body


UNREAD_VALUE = answer(BAD_REQUEST, text_of([UNREAD]))
ONLY_POST, ONLY_GET = answer(NO_METHOD, allow="POST"), answer(NO_METHOD, allow="GET")


def request(line, body=b""):
    """The bytes of a request."""
    return f"{line} HTTP/1.1\r\nHost: localhost\r\nContent-Length: {len(body)}\r\n\r\n".encode() + body


def import_of(file):
    """The request that sends an audit file."""
    return request(route_of("audit"), file)


def path_of(verb, *values):
    """The path of a route, with these values, of which the first stand in it."""
    given = iter(values)
    return re.sub(r"\{\w+\}", lambda _: str(next(given)), VERBS[verb].path)


def route_of(verb, *values):
    """The method and the path."""
    return f"{VERBS[verb].method} {path_of(verb, *values)}"


def fields_of(verb):
    """The names of a form's fields."""
    names, path = VERBS[verb].values.lower().split(), VERBS[verb].path
    return [name for name in names if f"{{{name}}}" not in path]


def form_of(verb, *values):
    """The form of a request, of all values of the verb."""
    names = fields_of(verb)
    return urllib.parse.urlencode(dict(zip(names, values[len(values) - len(names):]))).encode()


def asked_for(line, header=NOTES_HEADER):
    """The method and path, and the body, by which a line of a script is asked for: a note by an audit file that has it
    alone, under this header."""
    verb, *values = words_of(line)
    if verb not in NOTE_VERBS:
        return route_of(verb, *values), form_of(verb, *values)
    lock, count, *rest = values
    room, _, fit = lock.partition("/")
    fits, card = [fit or "1"] if "fit" in header else [], [""] if verb == "recoded" else []
    return route_of("audit"), text_of([header, ",".join([room, *fits, count, NOTE_KINDS[verb], *card, *rest])])


def status_over_http(said):
    """The status of an answer that has this text, or these rows of a list."""
    if isinstance(said, list) or not said.startswith(("refused ", "stopped ")):
        return OK
    return CONFLICT if status_of(said) == 3 else UNAVAILABLE


def reply(said):
    """The bytes of an answer that has this text."""
    return answer(status_over_http(said), text_of([said]))


def said_to(line, said):
    """The status, the body and the type of the answer over HTTP to a line that is answered so."""
    said = numbered(said) if words_of(line)[0] in NOTE_VERBS else said
    return status_over_http(said), printed(line, said), "plain" if isinstance(said, str) else "csv"


def request_for(line, header=NOTES_HEADER):
    """The request for a line of a script."""
    return request(*asked_for(line, header))


def answer_to(line, said):
    """The answer to it."""
    return answer(*said_to(line, said))


def exchange_of(line, said, header=NOTES_HEADER):
    """The request for a line of a script, and its answer."""
    return request_for(line, header), answer_to(line, said)
