#!/usr/bin/env python3
"""Says where the minutes of `rt ci` go: of each crate the processor's minutes and the memory of its proof, its tests and
its must-fail edits, and its ten dearest functions and edits.

usage: gate_minutes.py run FOLDER [WORD..]    runs `rt ci WORD..` on the repository's crates, from nothing, and shows it
       gate_minutes.py show FOLDER            shows what such a run left in FOLDER, also while it runs

FOLDER gets a copy of the kit, by links where its file system is the kit's, so that what the machine has kept isn't used.
In the copy `rattle` is this script, which notes what each call of the real one took. RT_JOBS and taskset work as for
`rt ci`. A function's seconds are by the clock, from one `checked` line of a check to the next; with as many checks as
processors they are the processor's too.
"""
import collections
import json
import os
import pathlib
import re
import shutil
import subprocess
import sys
import time

DEAREST = 10
REPOSITORY = pathlib.Path(__file__).resolve().parent.parent


def value_after(words, flag):
    """The word behind a flag, or none."""
    return words[words.index(flag) + 1] if flag in words else None


def kind_of(words):
    """What a call is part of: an edit's number, the check that the edits begin with, the tests, or the proof."""
    if "--test" in words:
        return "tests"
    over = value_after(words, "--incremental")
    if over and "/rt-edits-" in over:
        return over.rsplit("/", 1)[1]
    return "edit alone" if words[0] == "check" and os.getcwd().startswith("/tmp/rt-edit-") else "proof"


def passed_on(kit, words):
    """Runs the real rattle with these words, passes its lines on but those of its progress, and notes what it took."""
    words = words[:1] + ["--progress"] * (words[0] == "check" and "--only" not in words) + words[1:]
    begun, functions = time.time(), []
    child = subprocess.Popen([kit / "bin" / "rattle-real", *words], stdout=subprocess.PIPE, stderr=subprocess.STDOUT)
    last = begun
    for line in child.stdout:
        checked = re.match(rb"checked (.*), \d+ of \d+$", line.rstrip())
        if checked:
            functions.append((checked[1].decode(), time.time() - last))
            last = time.time()
        elif not line.startswith(b"ahead of the check: "):
            sys.stdout.buffer.write(line)
            sys.stdout.buffer.flush()
    _, status, used = os.wait4(child.pid, 0)
    call = {"crate": value_after(words, "--crate-name"), "kind": kind_of(words), "begun": begun, "ended": time.time(),
            "cpu": used.ru_utime + used.ru_stime, "memory": used.ru_maxrss / 2**20, "functions": functions}
    with open(kit.parent / "calls", "a", encoding="utf-8") as calls:
        calls.write(json.dumps(call) + "\n")
    return os.waitstatus_to_exitcode(status)


def copied_kit(folder):
    """A copy of the kit whose rattle is this script."""
    kit = folder / "rattle"
    own = pathlib.Path(shutil.which("rt")).resolve().parent.parent
    subprocess.run(["cp", "-al", own, kit], check=True)
    os.rename(kit / "bin" / "rattle", kit / "bin" / "rattle-real")
    wrapper = f"#!{sys.executable}\nimport sys\nsys.path.insert(0, {str(REPOSITORY / 'bench')!r})\nimport gate_minutes\n"
    (kit / "bin" / "rattle").write_text(f"{wrapper}gate_minutes.main_of_kit({str(kit)!r})\n")
    (kit / "bin" / "rattle").chmod(0o755)
    return kit


def main_of_kit(kit):
    """What the copy's rattle does."""
    if sys.argv[1:2] and sys.argv[1] in ("check", "build") and "--help" not in sys.argv:
        status = passed_on(pathlib.Path(kit), sys.argv[1:])
        if status < 0:
            os.kill(os.getpid(), -status)
        sys.exit(status)
    os.execv(f"{kit}/bin/rattle-real", ["rattle", *sys.argv[1:]])


def row(*cells):
    return f"| {' | '.join(str(cell) for cell in cells)} |"


def minutes(calls):
    return f"{sum(call['cpu'] for call in calls) / 60:.1f}" if calls else ""


def edits_of(crate):
    """The crate's edits, in the order of their numbers."""
    return sorted(path.stem for path in (REPOSITORY / "crates" / crate / "must-fail").glob("*.edit"))


def shown(folder):
    """Prints the tables."""
    calls = [json.loads(line) for line in (folder / "calls").read_text().splitlines()]
    of = collections.defaultdict(lambda: collections.defaultdict(list))
    for call in calls:
        kind = call["kind"]
        of[call["crate"]]["edits" if kind.isdigit() or kind in ("seed", "edit alone") else kind].append(call)
    print("CPU minutes of each crate, and the most memory of a call in GB\n")
    print(row("crate", "proof", "tests", "edits", "memory"), row("---", "---", "---", "---", "---"), sep="\n")
    for crate, kinds in of.items():
        most = max(call["memory"] for group in kinds.values() for call in group)
        print(row(crate, *(minutes(kinds[kind]) for kind in ("proof", "tests", "edits")), f"{most:.1f}"))
    print(row("all", *(minutes([call for kinds in of.values() for call in kinds[kind]])
                       for kind in ("proof", "tests", "edits")), ""))
    span = max(call["ended"] for call in calls) - min(call["begun"] for call in calls)
    print(f"\n{minutes(calls)} CPU minutes, {span / 60:.1f} minutes by the clock")
    for crate, kinds in of.items():
        dearest(crate, [call for group in kinds.values() for call in group])


def dearest(crate, calls):
    """Prints the dearest functions and edits of a crate, with their seconds."""
    seconds, names = {}, edits_of(crate)
    for call in calls:
        if call["kind"].isdigit():
            seconds[f"edit {names[int(call['kind'])]}"] = call["cpu"]
        for name, took in call["functions"] if not call["kind"].isdigit() else []:
            seconds[name] = max(took, seconds.get(name, 0))
    first = sorted(seconds.items(), key=lambda it: -it[1])[:DEAREST]
    print(f"\n{crate}: " + ", ".join(f"{name} {took:.0f}" for name, took in first))


def main():
    if len(sys.argv) < 3 or sys.argv[1] not in ("run", "show"):
        sys.exit(__doc__)
    folder, status = pathlib.Path(sys.argv[2]).resolve(), 0
    if sys.argv[1] == "run":
        folder.mkdir(parents=True, exist_ok=True)
        kit = copied_kit(folder)
        status = subprocess.run([kit / "bin" / "rt", "ci", *sys.argv[3:]], cwd=REPOSITORY).returncode
    shown(folder)
    sys.exit(status)


if __name__ == "__main__":
    main()
