"""Compares what the documents state of the surface with surface.py: the routes of docs/openapi.yaml; the routes and the
statuses of docs/HTTP.md; the commands, lists and refusals of docs/SCRIPTS.md; the causes of docs/FORMATS.md."""
import re

from document_names import TOP, cells
from surface import BODIES, CAUSES, COMMANDS, HEADERS, LISTS, NOTE_VERBS, REFUSALS, ROUTES, fields_of, gap, kind_full

DOCS = TOP / "docs"
OPERATION = re.compile(r"^  (/\S*):\n    (\w+):\n((?:      .*\n)*)", re.MULTILINE)
NAMES = re.compile(r"`([^`]+)`")


def table(document, heading):
    """The rows of the first table below this heading, each as its cells."""
    _, _, text = (DOCS / document).read_text().partition(f"\n## {heading}\n")
    return [cells(row) for row in re.search(r"(?:^\|.*\n)+", text, re.MULTILINE)[0].splitlines()[2:]]


def routes():
    """The method, the path and the form's fields of each route."""
    return sorted((verb.method, verb.path, fields_of(name) if name != "audit" else []) for name, verb in ROUTES.items())


def openapi():
    fields = re.compile(r"^ +required: \[(.*)\]$", re.MULTILINE)
    stated = [(method.upper(), path, fields.search(rest)[1].split(", ") if fields.search(rest) else [])
              for path, method, rest in OPERATION.findall((DOCS / "openapi.yaml").read_text())]
    yield "the routes", routes(), sorted(stated)


def http():
    rows = table("HTTP.md", "Routes")
    stated = [(*row[0].split(" "), row[1].split(", ") if re.fullmatch("[a-z, ]+", row[1]) else []) for row in rows]
    yield "the routes", routes(), sorted(stated)
    verbs = {row[0]: NAMES.findall(row[2]) for row in rows}
    yield "the commands", {f"{verb.method} {verb.path}": [name] if name != "audit" else [*NOTE_VERBS]
                           for name, verb in ROUTES.items()}, verbs
    headers = {verb: NAMES.findall(row[3])[0] for row in rows for verb in NAMES.findall(row[2])
               if row[3].startswith("CSV")}
    yield "the headers", HEADERS, headers
    bodies = {}
    for status, body, *_ in table("HTTP.md", "Answers"):
        bodies.setdefault(status, f"{NAMES.findall(body)[0]}\n".encode() if NAMES.findall(body) else b"")
    yield "the bodies", BODIES, {status: body for status, body in bodies.items() if status in BODIES}


def scripts():
    commands = [NAMES.findall(row[0])[0] for row in table("SCRIPTS.md", "Commands")]
    yield "the commands", lines_of(COMMANDS | NOTE_VERBS), sorted(commands)
    lists = [(NAMES.findall(row[0])[0], NAMES.findall(row[2])[0]) for row in table("SCRIPTS.md", "Lists")]
    yield "the lists", lines_of(LISTS), sorted(line for line, _ in lists)
    yield "the headers", HEADERS, {line.split()[0]: header for line, header in lists}
    refusals = [NAMES.findall(row[0])[0] for row in table("SCRIPTS.md", "Refusals")]
    values = {17: f" {kind_full('DAY').split()[-1]}", 22: f" {gap('COUNT').split()[-1]}"}
    yield "the refusals", sorted(f"{number} {name}{values.get(number, '')}"
                                 for number, name in REFUSALS.items()), sorted(refusals)


def formats():
    text = " ".join((DOCS / "FORMATS.md").read_text().split())
    stated = re.search(r"The cause of an unread line is the first that applies of (.*?) \(this field hasn't", text)[1]
    yield "the causes", CAUSES, NAMES.findall(stated)


def lines_of(verbs):
    return sorted(f"{name} {verb.values}".strip() for name, verb in verbs.items())


def differences():
    """Of each document what it states otherwise, or nothing."""
    for name, stated in ("openapi.yaml", openapi), ("HTTP.md", http), ("SCRIPTS.md", scripts), ("FORMATS.md", formats):
        yield "".join(f"{name}: {what}: wanted {wanted}\nand it has {got}\n"
                      for what, wanted, got in stated() if wanted != got)
