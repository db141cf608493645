"""Three ways to ask the program: scripts, the command line, HTTP. What the documents say of an answer besides its text,
such as its status and its head, is compared here. The program can be killed while it is asked."""
import os
import random
import re
import signal
import socket
import subprocess
import time
import urllib.parse

from built_desk import HERE, free_port
from simulated.things import day_text
from simulated.wanted import names_of, row
from surface import CONFLICT, FORBIDDEN, NOTES_HEADER, OK, SEEN, TAKEN, VERBS, answer, path_of, text_of, words_of

BACKUP = HERE.parent / "deploy" / "hotel_backup"


class Wrong(Exception):
    """Something isn't as wanted."""


def same(what, wanted, got):
    if got != wanted:
        raise Wrong(f"{what}\n  wanted: {wanted!r:.1500}\n  got:    {got!r:.1500}")


def texts(verb, v):
    return {name: day_text(v[name]) if name in ("day", "arrive") else str(v[name]) for name in names_of(verb)}


def line_of(verb, v):
    """A command as a line of a script. The first lock of a room is given by the room alone."""
    if "note" in v:
        room, fit, count, _, card, old, new, at = v["note"]
        return f"{verb} {room}{f'/{fit}' if fit > 1 else ''} {count} {f'{card} ' if card else ''}{old} {new} {at}"
    return " ".join([verb, *texts(verb, v).values()])


def file_of(notes, cut):
    """An audit file of these notes: plain and without so many last bytes, or in one of the ways that docs/FORMATS.md
    allows (The file)."""
    text = "\n".join([NOTES_HEADER, *map(row, notes), ""])
    chance = random.Random(sum(note.count for note in notes))
    if cut:
        return text[:-cut - 1].encode()
    if chance.random() < 0.15 and all(note.fit == 1 for note in notes):
        text = re.sub(r"^(\w+),\w+,", r"\1,", text, flags=re.MULTILINE)
    if chance.random() < 0.15:
        text = re.sub(r"[^,\n]+", r'"\g<0>"', text)
    if chance.random() < 0.15:
        text = "\ufeff" + text.replace("T", " ").removesuffix("\n")
    return text.replace("\n", chance.choice(["\n", "\n", "\r\n", "\r"])).encode()


class Way:
    """The program over a database file. An answer is a text, or None if a kill came before it. Each start has a seed of
    its own, the first of zeros. `looks` is how often lists are compared after an event, since they may be calls."""
    looks, server = 1, None

    def __init__(self, program, folder, chance):
        self.program, self.folder, self.chance, self.db = program, folder, chance, folder / "desk.db"
        self.seed = bytes(32)
        (folder / "stop").write_text("kill -KILL $1; while grep -qs . /proc/$1/cmdline; do sleep 0.01; done")

    def stop(self):
        """Kills a server, if there is one."""

    def begun(self, *words):
        (self.folder / "seed").write_bytes(self.seed)
        self.seed = self.chance.randbytes(32)
        return subprocess.Popen([self.program, "--seed-file", self.folder / "seed", "--db", self.db, *words],
                                stdin=subprocess.PIPE, stdout=subprocess.PIPE, stderr=subprocess.PIPE)

    def back_up(self, *words):
        """Runs deploy/hotel_backup, which kills a server, and returns what it prints: a backup and its day."""
        stop = f"bash {self.folder / 'stop'} {self.server.pid}" if self.server else "true"
        env = dict(os.environ, DB=str(self.db), STOP=stop, START="true", DESK=str(self.program))
        child = subprocess.run(["bash", BACKUP, *words], env=env, capture_output=True, timeout=120, check=False)
        self.stop()
        same(f"hotel_backup {words}", (0, b""), (child.returncode, child.stderr if child.returncode else b""))
        return child.stdout.decode().split()


class ByScript(Way):
    """Each question is a run of the program, which may be killed."""
    looks = 0.5

    def run(self, given, kill, *words):
        """The status, the output and the faults of a run; None if it was killed, or its answer isn't seen."""
        child = self.begun(*words)
        try:
            said, faults = child.communicate(given, timeout=120 if kill is None else 0.015 + 150 * kill)
        except subprocess.TimeoutExpired:
            child.kill()
            said, faults = child.communicate()
        is_unseen = kill is not None and (child.returncode == -signal.SIGKILL or self.chance.random() < 0.4)
        return None if is_unseen else (child.returncode, said.decode(), faults.decode())

    def told(self, lines, kill):
        ended = self.run("".join(f"{line}\n" for line in lines).encode(), kill, "script")
        same(f"how the script {lines} ends", (0, ""), ended[::2] if ended else (0, ""))
        return ended and ended[1]

    def command(self, verb, v, kill=None):
        said = self.told([line_of(verb, v)], kill)
        return said and said[:-1]

    def lists(self, lines):
        return self.told(lines, None)

    def audit(self, text, kill=None):
        (self.folder / "audit.csv").write_bytes(text)
        ended = self.run(b"", kill, "audit", self.folder / "audit.csv")
        if ended:
            status = 0 if re.fullmatch(rf"(\d+ ({TAKEN}|{SEEN})\n)*", ended[1]) else 3
            same(f"how a file ends that is answered {ended[1]}", (status, ""), ended[::2])
        return ended and ended[1]


class ByWords(ByScript):
    """A command is an argument for each value. A guest that begins with a hyphen needs `--` before it."""
    looks = 0.1

    def told(self, lines, kill):
        said = ""
        for line in lines:
            verb, *words = words_of(line)
            ended = self.run(b"", kill, verb, *(["--"] if line.startswith("reserve ") else []), *words)
            if not ended:
                return None
            same(f"how {line} ends", (3 if ended[1].startswith("refused") else 0, ""), ended[::2])
            said += ended[1]
        return said


class ByHttp(Way):
    """A server that ends by itself after some connections, and is started again."""

    def start(self):
        self.port, self.left = free_port(), self.chance.choice([40, 400, 4000])
        self.server = self.begun("serve", str(self.port), str(self.left))
        same("how a server begins", f"listening on 127.0.0.1:{self.port}\n", self.server.stdout.readline().decode())

    def stop(self, is_killed=True):
        """Kills a server, or waits for its end after its last connection. It reports no faults but those of clients."""
        server, self.server = self.server, None
        if server and is_killed:
            server.kill()
        faults = server.communicate(timeout=60)[1] if server else b""
        if server and not is_killed:
            same("how a server ends", (0, b""), (server.returncode, re.sub(rb"(closed|read|write)\n", b"", faults)))

    def exchange(self, asked, kill=None, more=3):
        """What is said to this request. After a kill's seconds the client goes; or the server is killed, and its answer
        is unseen, or seen if it was whole."""
        if not self.server:
            self.start()
        how = None if kill is None else self.chance.choice("gone gone unseen unseen unseen seen".split())
        said, is_killed, began = b"", how in ("unseen", "seen"), time.monotonic()
        try:
            with socket.create_connection(("127.0.0.1", self.port), timeout=60) as client:
                client.sendall(asked)
                until = time.perf_counter() + (kill or 0)
                while time.perf_counter() < until:
                    pass
                if is_killed:
                    self.server.kill()
                while how in (None, "seen") and (some := client.recv(65536)):
                    said += some
        except OSError:
            pass
        self.left -= 1
        if self.left == 0 or is_killed:
            self.stop(is_killed)
        if how is None and not said:
            # The server waits one second for the first byte (docs/HTTP.md, Requests). This machine may be slower.
            same(f"is {asked!r:.300} answered", True, time.monotonic() - began > 0.9 and more > 0)
            return self.exchange(asked, None, more - 1)
        head, _, body = said.partition(b"\r\n\r\n")
        return said if how is None or re.search(b"Content-Length: %d\r" % len(body), head) else None

    def request(self, method, path, body=b"", kill=None):
        """The body of the answer, whose head is as docs/HTTP.md has it (Answers)."""
        host = self.chance.choice(["localhost", "127.0.0.1:8080"])
        head = f"{method} {path} HTTP/1.1\r\nHost: {host}\r\nContent-Length: {len(body)}\r\n\r\n"
        if self.chance.random() < 0.05:
            foreign = head.replace(host, "page.example") if self.chance.random() < 0.5 else (
                head.replace("Host:", "Origin: https://page.example\r\nHost:"))
            same("the answer to a page", answer(FORBIDDEN), self.exchange(foreign.encode() + body))
        said = self.exchange(head.encode() + body, kill)
        if said is None:
            return None
        body = said.partition(b"\r\n\r\n")[2]
        status = CONFLICT if body.startswith(b"refused ") else OK
        media = "csv" if (method, status) == ("GET", OK) else "plain"
        same(f"the answer to {method} {path}", answer(status, body, media), said)
        return body.decode()

    def command(self, verb, v, kill=None):
        if "note" in v:
            said = self.audit(text_of([NOTES_HEADER, row(v["note"])]), kill)
            return said and said.removeprefix("1 ").removesuffix("\n")
        quoted = self.chance.choice([urllib.parse.quote, urllib.parse.quote_plus])
        form = urllib.parse.urlencode(texts(verb, v), quote_via=quoted)
        said = self.request("POST", VERBS[verb].path.format(**v), form.encode(), kill)
        return said and said[:-1]

    def lists(self, lines):
        asked = [line.split(" ") for line in lines]
        return "".join(self.request("GET", path_of(name, *value)) for name, *value in asked)

    def audit(self, text, kill=None):
        return self.request("POST", path_of("audit"), text, kill)


WAYS = {"http": ByHttp, "script": ByScript, "words": ByWords}
