"""The client deploy/desk and a server, or what it takes for one, for `.ci/client`."""
import contextlib
import os
import re
import socket
import struct
import subprocess
import threading

from built_desk import HERE, exchange, serve
from surface import ROUTES

DEPLOY = HERE.parent / "deploy"
CLIENT = DEPLOY / "desk"
# A line for each route.
SAMPLES = dict(DAY="2031-05-01", KIND="DBL", ROOM="101", ARRIVE="2031-05-01", NIGHTS="2", GUEST="Ann", PARTY="1",
               CARD="1")
LINES = [" ".join([name, *map(SAMPLES.get, verb.values.split())]) for name, verb in ROUTES.items() if name != "audit"]


def asks(port, *words, cwd=None, program=CLIENT, **around):
    """How the client ends that asks at this port, and what it prints on both streams."""
    child = subprocess.run([program, "--port", str(port), *words], stdin=subprocess.DEVNULL, stdout=subprocess.PIPE,
                           stderr=subprocess.PIPE, timeout=100, check=False, env=dict(os.environ, **around), cwd=cwd)
    return child.returncode, child.stdout, child.stderr


@contextlib.contextmanager
def served(desk, is_stored=True, program=None):
    """The port of a server on the database, or in memory."""
    server, port = serve(program or desk.program, 100000, "--seed-file", desk.folder / "zeros",
                         *(["--db", desk.db] if is_stored else []))
    try:
        yield port
    finally:
        server.kill()
        server.wait()


class Relay:
    """What a client takes for the server: it counts the requests, and treats each connection by a function."""

    def __init__(self, treat):
        self.treat, self.asked, self.last = treat, [], None
        self.listener = socket.create_server(("127.0.0.1", 0))
        self.port = self.listener.getsockname()[1]
        self.thread = threading.Thread(target=self.run, daemon=True)

    def __enter__(self):
        self.thread.start()
        return self

    def __exit__(self, *_):
        """Ends behind the last connection."""
        with socket.socket() as last:
            last.bind(("127.0.0.1", 0))
            self.last = last.getsockname()
            last.connect(("127.0.0.1", self.port))
            self.thread.join(60)
        self.listener.close()

    def run(self):
        while True:
            connection, peer = self.listener.accept()
            with connection:
                if peer == self.last:
                    return
                self.asked.append(b"")
                connection.settimeout(60)
                with contextlib.suppress(OSError):
                    self.treat(self, connection)

    def read(self, connection):
        """Reads a request, and keeps it."""
        asked = b""
        while b"\r\n\r\n" not in asked or len(asked) < asked.index(b"\r\n\r\n") + 4 + length_of(asked):
            if not (some := connection.recv(65536)):
                break
            asked += some
        self.asked[-1] = asked
        return asked


def length_of(asked):
    found = re.search(rb"\r\nContent-Length: (\d+)\r\n", asked)
    return int(found[1]) if found else 0


def passing(port, said=None):
    """Passes on a request to the server at this port, and its answer."""
    def treat(relay, connection):
        got = exchange(port, relay.read(connection), 1 << 20)
        connection.sendall(got if said is None else said)
    return treat


def saying(said, is_reset=False):
    """Says these bytes to a request."""
    def treat(relay, connection):
        relay.read(connection)
        connection.sendall(said)
        if is_reset:
            connection.setsockopt(socket.SOL_SOCKET, socket.SO_LINGER, struct.pack("ii", 1, 0))
    return treat


def holding(said):
    """Says these bytes to a request, and then nothing, until the client ends."""
    def treat(relay, connection):
        relay.read(connection)
        connection.sendall(said)
        while connection.recv(65536):
            pass
    return treat


def unheard(_, connection):
    """Resets the connection when a request comes, and doesn't read it."""
    connection.recv(1, socket.MSG_PEEK)
    connection.setsockopt(socket.SOL_SOCKET, socket.SO_LINGER, struct.pack("ii", 1, 0))
