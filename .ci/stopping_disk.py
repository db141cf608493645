"""A disk that stops under the built program at each call of its store, for `.ci/stops`: what may be left of the files
then, and what is found when they are opened again."""
import errno
import itertools
import sqlite3

from surface import printed, refused, text_of

STORE = text_of([refused.Store])
FOREVER = 1_000_000_000


def files_of(desk):
    """The bytes of the database file and of its log; nothing of one that isn't there."""
    return tuple(file.read_bytes() if file.exists() else b"" for file in (desk.db, desk.log))


def lay(desk, files):
    for file, content in zip((desk.db, desk.log), files):
        file.write_bytes(content)


def rows_of(files, desk):
    """The rows of a database that the program closed."""
    copy = desk.folder / "read.db"
    copy.write_bytes(files[0])
    with sqlite3.connect(copy) as db:
        rows = "\n".join(line for line in db.iterdump() if line.startswith("INSERT"))
    db.close()
    return rows


def traced(desk):
    """The calls of the store that were traced: what each did, to the log or the other file, where, how much, whether it
    failed, its bytes."""
    rest = desk.trace.read_bytes() if desk.trace.exists() else b""
    while rest:
        line, _, rest = rest.partition(b"\n")
        what, *numbers = line.split()
        is_log, place, size, failed = map(int, numbers)
        content, rest = (rest[:size], rest[size:]) if what == b"write" else (b"", rest)
        yield what, is_log, place, failed, content


def put(file, place, content):
    """The file with these bytes at this place."""
    file = file.ljust(place, b"\0")
    return file[:place] + content + file[place + len(content):]


def left(start, calls):
    """What may be left of the files that were so at the start, behind these calls."""
    written, synced, half = list(start), list(start), None
    for what, is_log, place, failed, content in calls:
        if failed:
            if half is None and what == b"write":
                half = is_log, place, content[:len(content) // 2]
        elif what == b"write":
            written[is_log] = put(written[is_log], place, content)
        elif what == b"cut":
            written[is_log] = written[is_log][:place].ljust(place, b"\0")
        else:
            synced[is_log] = written[is_log]
    kept = [written, synced, [written[0], synced[1]], [synced[0], written[1]]]
    if half:
        for files in (written, synced):
            torn = list(files)
            torn[half[0]] = put(torn[half[0]], half[1], half[2])
            kept.append(torn)
    return list(dict.fromkeys(tuple(files) for files in kept))


def failing(desk, number, times):
    """What has so many calls of the store fail, from the one of this number on, and be traced."""
    desk.trace.unlink(missing_ok=True)
    return dict(STORES=f"0 {number} {times} {errno.EIO}", TRACE=str(desk.trace))


def stopped(desk, start, run):
    """A run over these files with each call of the store in turn failing, alone or with all later ones: its number, how
    the run ends, and what may be left."""
    for number in itertools.count(1):
        lay(desk, start)
        ended = run(**failing(desk, number, 1))
        if not any(failed for _, _, _, failed, _ in traced(desk)):
            return
        yield number, ended, [files_of(desk)]
        lay(desk, start)
        ended = run(**failing(desk, number, FOREVER))
        yield number, ended, left(start, list(traced(desk)))


def opened(desk, files):
    """The database opened again, for a list that has no row, and closed: how that went, and its files then."""
    lay(desk, files)
    ended = desk.stored(b"", "arrivals", "2000-01-01")
    return ended == (0, printed("arrivals", []), b""), files_of(desk)


def states_behind(desk, files, runs):
    """The files and the rows at the start, and behind each of these runs on them, without a stop."""
    states = [(files, rows_of(files, desk))]
    for run in runs:
        lay(desk, states[-1][0])
        run()
        files = files_of(desk)
        states.append((files, rows_of(files, desk)))
    return states


def begun(desk, script=b""):
    """The files of a new desk, with this script carried out."""
    desk.log, desk.trace = desk.folder / "desk.db-wal", desk.folder / "trace"
    desk.begun(script)
    return files_of(desk)


def how_far(ended, answer):
    """The first and the last state that a call may have come to that ended so, where this is its answer; none where it
    should not end so."""
    if ended == (0, answer, b""):
        return 1, 1
    if ended == (4, STORE, b""):
        return 0, 1
    return (0, 0) if ended in ((4, b"", b"store\n"), (5, b"", b"file\n")) else None


def is_reached(desk, reached, rows, files, seen):
    """Whether the files are opened again and have the rows of a state that was reached."""
    if files not in seen:
        is_open, closed = opened(desk, files)
        seen[files] = is_open and rows_of(closed, desk)
    return reached is not None and seen[files] in rows[reached[0]:reached[1] + 1]
