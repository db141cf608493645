#!/usr/bin/env python3
"""Looks whether what the documents name in backticks stands in the code.

usage: document_names.py      (nothing is built or run)

- Of each document: identifiers are words of crates, .ci or bench, and files of a crate are there.
- The tables of docs/PROOFS.md, FAULTS.md, LIMITS.md and TESTING.md, and of each crate's must-fail/passes.md: a clause,
  as `run.through`, is one of a function of that name, a part of a record, or a ghost member of a trait. A scenario, a
  test, a module of a crate and a function of .ci is there.
- Each must-fail edit says in a line '# breaks: CRATE CLAUSE, ..' which clause of docs/PROOFS.md it breaks.
- docs/MODEL.md: a definition, as `Lock.held`, stands in that file of specs.
- docs/ARCHITECTURE.md: a function of a step stands in the crate and in the file that the step names. The files of a
  folder are there.

Prints what is missing, and at last how many names were looked for; status 1 where one is missing.
"""
import collections
import itertools
import pathlib
import re
import sys

TOP = pathlib.Path(__file__).resolve().parent.parent
CRATES = {path.name: path for path in sorted((TOP / "crates").iterdir())}
# The mutants that the contracts of a crate let through.
PASSES = sorted(TOP.glob("crates/*/must-fail/passes.md"))
DOCUMENTS = [TOP / "README.md", *sorted((TOP / "docs").glob("*.md")), TOP / "bench" / "README.md", *PASSES]
TEST_CRATES = ("hotel_tests", "hotel_client")
# The documents whose tables name clauses and tests.
WITH_CLAUSES = ("PROOFS", "FAULTS", "LIMITS", "TESTING", "passes")
# Words of other libraries that documents name.
FOREIGN = {"assert_eq", "auto_vacuum", "proxy_pass", "proxy_set_header", "sqlite_stat1"}

IDENTIFIER = re.compile(r"[A-Za-z]\w*_\w+|[A-Z][a-z0-9]+(?:[A-Z][a-z0-9]*)+")
FOLDERS = "src|specs|proofs|must-fail"
CRATE_FILE = re.compile(rf"(?<![\w/])(?:crates/)?((?:hotel|keycard)_\w+)/((?:{FOLDERS})/[\w/-]+)")
SCRIPT = re.compile(r"`\.ci/(\w+)`((?:[:,] `\w+`)*)")
HEADER = re.compile(r"\s*(?:pub(?:\([a-z]+\))? )?(?:const )?fn (\w+)")
CLAUSE = re.compile(r"\s*ensures\s*(\w+)\s*\{")
GHOST = re.compile(r"\s*ghost (\w+):")
OWNER = re.compile(r"(?:pub(?:\([a-z]+\))? )?trait (\w+)"
                   r"|impl(?:<(?:[^<>]|<[^<>]*>)*>)? (?:([\w:]+)(?:<.*>)? for )?&?(\w+)")
DEFINED = re.compile(r"(\s*)((?:pub|abbrev|unfoldable|opaque|record|data) )+([^\s:({]+)")


def texts(folder, suffix):
    return [(path, path.read_text()) for path in sorted(folder.rglob(f"*{suffix}"))] if folder.is_dir() else []


class Code:
    """The functions of each crate with their clauses, the parts of records, and all words."""

    def __init__(self):
        self.functions = {name: collections.defaultdict(list) for name in CRATES}
        self.parts, self.words = collections.defaultdict(set), set()
        for name, path in CRATES.items():
            for file, text in texts(path / "src", ".rt"):
                self.read_functions(self.functions[name], file, text)
            for folder in ("specs", "proofs"):
                for _, text in texts(path / folder, ".antt"):
                    self.read_parts(text)
        files = [file for folder in (TOP / "crates", TOP / ".ci", TOP / "bench") for file in folder.rglob("*")]
        for file in files:
            self.words.add(file.stem)
            if file.is_file() and file.suffix not in (".md", ".db", ".pyc") and "out" not in file.parts:
                self.words |= set(re.findall(r"[A-Za-z_]\w*", file.read_text(errors="replace")))

    def read_functions(self, functions, file, text):
        owners, clauses = [], set()
        for line in text.split("\n"):
            if found := OWNER.match(line):
                owners = [owner.split("::")[-1] for owner in found.groups() if owner]
            elif line.startswith("}"):
                owners = []
            if found := HEADER.match(line):
                clauses = set()
                for name in (found[1], *(f"{owner}::{found[1]}" for owner in owners)):
                    functions[name].append((file, clauses))
            elif found := CLAUSE.match(line):
                clauses.add(found[1])
            elif owners and (found := GHOST.match(line)):
                self.parts[owners[0]].add(found[1])

    def read_parts(self, text):
        record, depth = None, 0
        for line in text.split("\n"):
            found = DEFINED.match(line)
            if found and record and len(found[1]) > depth and re.match(r"\s*pub \w+ :", line):
                self.parts[record].add(found[3])
            elif found:
                record, depth = (found[3] if "record " in line[:found.start(3)] else None), len(found[1])

    def has_clause(self, name, clause):
        met = (clauses for functions in self.functions.values() for _, clauses in functions.get(name, ()))
        return clause in self.parts[name] or any(clause in clauses for clauses in met)

    def is_function(self, name):
        return any(name in functions for functions in self.functions.values())


def prose(document):
    """The numbered lines of a document that stand in no block."""
    is_block = False
    for number, line in enumerate(document.read_text().split("\n"), 1):
        is_block ^= line.startswith("```")
        if not is_block:
            yield f"{document.relative_to(TOP)}:{number}", line


def cells(line):
    return [cell.strip() for cell in line.strip().strip("|").split("|")] if line.startswith("|") else []


def is_there(crate, name):
    path = CRATES[crate] / name
    return any(path.with_name(path.name + end).exists() for end in ("", ".rt", ".antt", ".edit"))


def words_named(code):
    for document in DOCUMENTS:
        for place, line in prose(document):
            for span in re.findall(r"`([^`]+)`", line):
                for word in set(IDENTIFIER.findall(span)) - FOREIGN:
                    yield place, word, word in code.words
            for crate, name in CRATE_FILE.findall(line):
                yield place, f"{crate}/{name}", crate in CRATES and (is_there(crate, name) or name.isupper())


def functions_of(text):
    """The functions of a script, and those that it takes from modules."""
    taken = re.findall(r"^from \w+ import (\([^)]*\)|.*)", text, re.M)
    return set(re.findall(r"^def (\w+)", text, re.M)) | {name for names in taken for name in re.findall(r"\w+", names)}


def clauses_named(code):
    """The clauses `name.clause`, and `name`: `clause`, `clause`; the scenarios, the tests and the functions of .ci."""
    scripts = {path.name: functions_of(path.read_text()) for path in (TOP / ".ci").iterdir() if path.is_file()}
    tests = collections.defaultdict(set)
    for crate in TEST_CRATES:
        for path, text in texts(CRATES[crate] / "src", ".rt"):
            tests[path.stem].update(re.findall(r"fn (\w+)", text))
    named = {name for _, text in texts(CRATES["hotel_scenarios"] / "src", ".rt")
             for name in re.findall(r'name: "([a-z-]+)"', text)}
    named |= {path.stem for path in TOP.glob("crates/*/must-fail/*.edit")}
    for document in (path for path in DOCUMENTS if path.stem in WITH_CLAUSES):
        for place, line in prose(document):
            for cell in cells(line):
                plain = SCRIPT.sub("", cell)
                found = scripts_of(scripts, cell), tests_of(tests, named, plain), clauses_of(code, plain)
                yield from ((place, name, stands) for name, stands in itertools.chain(*found))


def scripts_of(scripts, cell):
    for script, named in SCRIPT.findall(cell):
        yield f".ci/{script}", script in scripts
        for name in re.findall(r"\w+", named):
            yield f".ci/{script}: {name}", name in scripts.get(script, ())


def tests_of(tests, named, cell):
    for module, test in re.findall(r"`([a-z_]+)::(\w+)`", cell):
        if module in tests:
            yield f"{module}::{test}", test in tests[module]
    for name in re.findall(r"`([a-z]+(?:-[a-z]+)+)`", cell):
        yield name, name in named


def clauses_of(code, cell):
    for name in re.findall(r"`([A-Z]\w*::\w+)`", cell):
        yield name, code.is_function(name)
    for name, clause in re.findall(r"`([\w:]+)\.(\w+)`", cell):
        yield f"{name}.{clause}", code.has_clause(name, clause)
    for name, listed in re.findall(r"`([\w:]+)`: ((?:`[a-z_]+`(?:, )?)+)", cell):
        for part in re.findall(r"\w+", listed):
            is_module = name in CRATES and any((CRATES[name] / "src").rglob(f"{part}.rt"))
            yield f"{name}: {part}", is_module or code.has_clause(name, part)


def edits_named(code):
    """The clause that each must-fail edit breaks is one of a row of docs/PROOFS.md."""
    cited = set()
    for _, line in prose(TOP / "docs" / "PROOFS.md"):
        for cell in cells(line):
            cited |= {name.replace(": ", ".") for name, _ in clauses_of(code, SCRIPT.sub("", cell))}
            cited |= set(re.findall(r"`([\w:]+)`", cell))
    for path in sorted(TOP.glob("crates/*/must-fail/*.edit")):
        found = re.search(r"^# breaks: (\w+) ([\w:.]+)", path.read_text(), re.M)
        crate, clause = found.groups() if found else (None, "no clause")
        yield f"{path.parent.parent.name}/must-fail/{path.name}", clause, crate in CRATES and clause in cited


def definitions_named(_):
    for place, line in prose(TOP / "docs" / "MODEL.md"):
        for crate, file, name in re.findall(r"`(?:([a-z_]+)/)?([A-Z]\w*(?:/[A-Z]\w*)?)\.([^`\s]+)`", line):
            specs = CRATES.get(crate or "hotel_model", TOP) / "specs" / f"{file}.antt"
            if crate or specs.exists():
                text = specs.read_text() if specs.exists() else ""
                yield place, f"{file}.{name}", bool(re.search(rf"^\s*(?:\w+ )*{re.escape(name)} ", text, re.M))


def steps_named(code):
    """The functions of the tables of steps, and the files of the tables of folders."""
    crate, is_folders = None, False
    for place, line in prose(TOP / "docs" / "ARCHITECTURE.md"):
        row = cells(line)
        if not row:
            crate = None
        elif found := re.match(r"folder of `(\w+)`", row[0]):
            crate, is_folders = found[1], True
        elif row[0] == "crate":
            is_folders = False
        elif is_folders and crate:
            yield from ((place, f"{crate}/{name}", is_there(crate, name)) for name in folder_files(row[0]))
        elif len(row) == 3:
            crate = row[0] or crate
            file = re.search(r"\(([\w/]+)\)", row[1])
            for name in re.findall(r"`([\w:]+)`", row[1]) if crate in CRATES else ():
                stands = [path for path, _ in code.functions[crate].get(name, ())]
                ends = f"src/{file[1]}.rt" if file else ".rt"
                yield place, f"{crate}: {name}", any(str(path).endswith(ends) for path in stands)


def folder_files(cell):
    """The files and folders of a cell as `src: a, b; specs/C`."""
    folder = None
    for part in re.split(r"[;,] ?", cell):
        found = re.match(r"(src|specs|proofs)(?:: |/)?(.*)", part)
        if found:
            is_list = part.startswith(f"{found[1]}: ")
            folder = found[1] if is_list or not found[2] else str(pathlib.PurePath(part).parent)
            part = found[2] if is_list else str(pathlib.PurePath(part).name) if found[2] else ""
        if folder and part and not part.startswith("their"):
            yield f"{folder}/{part}"


def looked_for():
    """How many names were looked for, and a line for each that is missing."""
    code, looked, missing = Code(), 0, []
    for named in (words_named, clauses_named, edits_named, definitions_named, steps_named):
        for place, name, stands in named(code):
            looked += 1
            missing += [] if stands else [f"{place}: {name} is not there\n"]
    return looked, missing


def ends(looked, wrong, what, how):
    """Prints what is wrong, and how many were looked at; the status."""
    print("".join(wrong), end="")
    print(f"{looked} {what}, {len(wrong)} {how}")
    return 1 if wrong else 0


if __name__ == "__main__":
    sys.exit(ends(*looked_for(), "names looked for", "missing"))
