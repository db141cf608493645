#!/usr/bin/env python3
"""Compares the numbers that the documents state with the constants of the source.

usage: document_numbers.py      (nothing is built or run)

- STATED has the sections that state a constant, each with the phrase in which it stands. The phrase has the value that
  the source gives the constant.
- A constant of STATED has that value in its crate's law `limits_are` too; and each constant of such a law is in STATED.
- The first sections of a constant are those that the table of docs/ARCHITECTURE.md (To change a limit) names.
- A constant that a document names is in STATED, or one of PARTS.

Prints what differs, and at last how many values were compared; status 1 where one differs.
"""
import datetime
import re
import sys

from document_names import DOCUMENTS, TOP, ends

DOCS = TOP / "docs"
TESTS = ("hotel_client", "hotel_tests", "hotel_scenarios")
# Constants of parts of the code, which no document states as a limit.
PARTS = {"INDEXES", "MOST_VALUES"}
# The greatest number of its type, which no loop comes to: no law says it.
UNPINNED = {"MOST_ROWS"}


def plain(phrase):
    """The phrase with the value for `{}`, and with commas for `{:,}`."""
    return phrase.format


def seconds(phrase):
    """The phrase with nanoseconds in words for `{}`."""
    return lambda value: phrase.format({10 ** 9: "a second", 10 ** 10: "ten seconds"}.get(value, f"{value} ns"))


def last_day(value):
    return f"from 2000-01-01 to {datetime.date(2000, 1, 1) + datetime.timedelta(value)}"


def last_second(value):
    return f"from 00:00:00 to {value // 3600:02}:{value // 60 % 60:02}:{value % 60:02}"


def code_digits(value):
    """How many hexadecimal digits the codes have, where they use them all."""
    digits = (value - 1).bit_length() // 4
    return f"a code: 1 to {digits} hexadecimal digits" if value == 16 ** digits else f"{value} codes"


def power(value):
    return f"2^{value.bit_length() - 1}" if value & (value - 1) == 0 else str(value)


VALUES, SERVER, TABLES = "SCRIPTS.md#values", "HTTP.md#a-server-to-try", "FORMATS.md#the-tables-of-a-desk"
REQUESTS, ANSWERS, SEED = "HTTP.md#requests", "HTTP.md#answers", "FORMATS.md#the-seed-file"
OPENAPI = "openapi.yaml#"
# By its first section, that of ARCHITECTURE, and then by the others.
STATED = {
    "LAST_ROOM": [(VALUES, plain("| ROOM | 1 to {} |")), (TABLES, plain("CHECK (room BETWEEN 1 AND {})")),
                  (OPENAPI, plain("Room: type: integer minimum: 1 maximum: {} "))],
    "LAST_FIT": [(VALUES, plain("| FIT | 1 to {} |"))],
    "LAST_NUMBER": [(VALUES, plain("| PARTY, CARD | 1 to {}:")), (VALUES, plain("| COUNT | 1 to {}:")),
                    (OPENAPI, plain("Party: type: integer minimum: 1 maximum: {} ")),
                    (OPENAPI, plain("CardNumber: type: integer minimum: 1 maximum: {} ")),
                    ("MODEL.md#the-building", plain("(A lock whose {:,} counts"))],
    "LAST_SECOND": [(VALUES, last_second)],
    "MOST_NIGHTS": [(VALUES, plain("| NIGHTS | 1 to {} |")),
                    (OPENAPI, plain("Nights: type: integer minimum: 1 maximum: {} "))],
    "KIND_BYTES": [(VALUES, plain("| KIND | 1 to {} of the capital letters")),
                   (OPENAPI, plain("A kind of room, 1 to {} capital letters"))],
    "GUEST_BYTES": [(VALUES, plain("| GUEST | 1 to {} bytes of UTF-8")),
                    (OPENAPI, plain("x-max-bytes: {} pattern")), (OPENAPI, plain("a guest: 1 to {} bytes of UTF-8"))],
    "LAST_DAY": [(VALUES, last_day), (TABLES, plain("CHECK (day BETWEEN 0 AND {})")),
                 (TABLES, plain("the first DAY, to {}, the last one")),
                 (OPENAPI, lambda value: last_day(value).removeprefix("from "))],
    "CODES": [(VALUES, code_digits), (TABLES, lambda value: f"CHECK (code BETWEEN 0 AND {value - 1})"),
              (TABLES, lambda value: f"below {power(value)}")],
    "MOST_WORDS": [(SEED, plain("and tries {} at most"))],
    "SEED_BYTES": [(SEED, plain("the first {} bytes of FILE"))],
    "AUDIT_BYTES": [("FORMATS.md#the-file", plain("A file has at most {:,} bytes")),
                    ("FORMATS.md#files-that-are-late-cut-off-or-sent-twice", plain("of more than {:,} bytes")),
                    ("FORMATS.md#the-file-of-a-lock", plain("longer than {:,} bytes")),
                    (ANSWERS, plain("`Content-Length` is over {:,} |")),
                    (OPENAPI, plain("x-max-bytes: {} description")), (OPENAPI, plain("At most {:,} bytes of CSV")),
                    (OPENAPI, plain("`Content-Length` is over {:,}'"))],
    "SCRIPT_LIMIT": [("SCRIPTS.md#scripts", plain("A script has at most {:,} bytes"))],
    "LINE_LIMIT": [("SCRIPTS.md#scripts", plain("longer than {:,} bytes without its line ending"))],
    "HEAD_BYTES": [(ANSWERS, plain("The head has more than {:,} bytes")),
                   (OPENAPI, plain("The head has more than {:,} bytes"))],
    "HEAD_FIELDS": [(ANSWERS, plain("bytes or {} fields")), (OPENAPI, plain("or more than {} fields"))],
    "FIRST_PATIENCE": [(REQUESTS, seconds("Send the first byte within {} after"))],
    "PATIENCE": [(REQUESTS, seconds("Then you have {} in all")), (REQUESTS, seconds("and {} in all to take")),
                 (REQUESTS, seconds("within the {},"))],
    "SILENCE": [(REQUESTS, seconds("until a pause of {}."))],
    "REST_BYTES": [(REQUESTS, plain("at most {:,} bytes, within"))],
    "PAUSE": [("SCRIPTS.md#faults", lambda value: f"`closed`, {({10 ** 8: 'ten'}).get(value, value)} times a second")],
    "MOST_PORT": [(SERVER, plain("PORT is 1 to {}"))],
    "MOST_CONNECTIONS": [(SERVER, plain("COUNT 1 to {}")),
                         ("OPERATING.md#serving", plain("COUNT connections ({}, the most)"))],
    "CHECKPOINT_FRAMES": [("OPERATING.md#the-database", plain("when it has {:,} pages"))],
    "READ_BYTES": [("PROOFS.md#when-a-call-reads-and-for-how-long-hotel_program",
                    plain("at most {:,} bytes (`READ_BYTES`)"))],
    "LAST_INTERRUPTION": [("FAULTS.md#hotel_streams-hotel_lists-and-hotel_asks",
                           plain("that is the {:,}th interrupted one (`LAST_INTERRUPTION`)"))],
    "MOST_ROWS": [("FAULTS.md#hotel_rows-and-hotel_statements",
                   lambda value: f"for {power(value + 1)} - 1 rows or more")],
}

CONSTANT = re.compile(r"^\s*(?:pub(?:\(crate\))? )?const (\w+): (?:u8|u16|u32|u64|usize) =\s*([\w:]+);", re.MULTILINE)
LAW = re.compile(r"pub fn limits_are\(\)\n(.*?)\{\}", re.DOTALL)
PINNED = re.compile(r"\{ (\w+) ≡ (\d+) \}")
NAME = re.compile(r"`([A-Z]{2,}(?:_[A-Z]+)*)`")
LINK = re.compile(r"\]\(([\w.]+#[\w-]+)\)")


def value_of(text):
    return 2 ** 64 - 1 if text == "u64::MAX" else int(text.replace("_", "")) if text[0].isdigit() else None


def constants():
    """The values of each constant of the crates without tests, and those of the laws `limits_are`, by crate."""
    made, pinned = {}, {}
    for path in sorted(TOP.glob("crates/*/src/**/*.rt")):
        crate, text = path.relative_to(TOP / "crates").parts[0], path.read_text()
        if crate not in TESTS:
            for name, value in CONSTANT.findall(text):
                made.setdefault(name, {})[crate] = value_of(value)
            for law in LAW.findall(text):
                for name, value in PINNED.findall(law):
                    pinned.setdefault(name, {})[crate] = int(value)
    return made, pinned


def anchor(heading):
    return re.sub(r"[^\w -]", "", heading.lower().replace("`", "")).replace(" ", "-")


def section(place):
    """The text of a section, up to the next heading of its level, in one line; of a whole document without a name."""
    file, name = place.split("#")
    found, level, is_block = [], 0, False
    for line in (DOCS / file).read_text().split("\n"):
        is_block ^= line.startswith("```")
        heading = re.match(r"(#+) (.+)", line)
        if heading and not is_block:
            if level and len(heading[1]) <= level:
                break
            if not level and anchor(heading[2]) == name:
                level = len(heading[1])
        if level or not name:
            found.append(line)
    return " ".join(" ".join(found).split())


def first_sections():
    """The section that ARCHITECTURE names for each constant, the first one."""
    named = {}
    for line in (DOCS / "ARCHITECTURE.md").read_text().split("\n"):
        if (cells := line.strip("|").split(" | ")) and len(cells) == 2 and NAME.match(cells[0].strip()):
            if found := LINK.search(cells[1]):
                named.update(dict.fromkeys(NAME.findall(cells[0]), found[1]))
    return named


def compared():
    """How many values were compared, and a line for each that differs."""
    made, pinned = constants()
    looked, differ = 0, []
    for name, places in STATED.items():
        crates = pinned.get(name) or made.get(name, {})
        values = {made.get(name, {}).get(crate) for crate in crates}
        if len(values) != 1 or None in values:
            differ.append(f"{name}: the source has {sorted(map(str, values))}\n")
            continue
        value = values.pop()
        if name not in UNPINNED and set(pinned.get(name, {}).values()) != {value}:
            differ.append(f"{name}: is {value}, and in the laws {pinned.get(name)}\n")
        for place, phrase in places:
            looked += 1
            differ += [] if phrase(value) in section(place) else [f"{place}: {name}: no text '{phrase(value)}'\n"]
    differ += [f"{name}: a law says it, and no section is known\n" for name in sorted(set(pinned) - set(STATED))]
    named = first_sections()
    differ += [f"{name}: ARCHITECTURE names {named.get(name)}, not {places[0][0]}\n"
               for name, places in STATED.items() if named.get(name) != places[0][0]]
    for document in DOCUMENTS:
        words = set(NAME.findall(document.read_text())) & set(made)
        differ += [f"{document.relative_to(TOP)}: {word} is a constant without a section\n"
                   for word in sorted(words - set(STATED) - PARTS)]
    return looked, differ


if __name__ == "__main__":
    sys.exit(ends(*compared(), "values compared", "differ"))
