#!/usr/bin/env python3
"""Times exchanges over loopback: the desk's list of rooms in house, beside a server that answers the same bytes as a
constant.

usage: exchange.py [PROGRAM [COUNT]]      (the built hotel_desk and 10,000, where they aren't given)

Needs rustc. Both servers are timed five times, taking turns; printed are the best time of an exchange of each, and
their ratio.
"""
import pathlib
import socket
import subprocess
import sys
import tempfile
import time

HERE = pathlib.Path(__file__).resolve().parent
sys.path.insert(0, str(HERE.parent / ".ci"))
from built_desk import DESK, serve  # noqa: E402

REQUEST = b"GET /in-house HTTP/1.1\r\nHost: 127.0.0.1\r\n\r\n"


def exchanges(program, count):
    """The seconds that so many requests take, one after the other, and one of the answers."""
    server, port = serve(program, count)
    began = time.perf_counter()
    for _ in range(count):
        with socket.create_connection(("127.0.0.1", port)) as client:
            client.sendall(REQUEST)
            pieces = []
            while piece := client.recv(4096):
                pieces.append(piece)
    took = time.perf_counter() - began
    assert server.wait(20) == 0
    return took, b"".join(pieces)


def main():
    program = pathlib.Path(sys.argv[1] if len(sys.argv) > 1 else DESK).resolve()
    count = int(sys.argv[2]) if len(sys.argv) > 2 else 10_000
    with tempfile.TemporaryDirectory() as made:
        constant = pathlib.Path(made) / "constant_server"
        subprocess.run(["rustc", "--edition", "2021", "-O", HERE / "constant_server.rs", "-o", constant], check=True)
        times, answers = {program: [], constant: []}, set()
        for _ in range(5):
            for server, taken in times.items():
                took, answer = exchanges(server, count)
                taken.append(took)
                answers.add(answer)
    assert len(answers) == 1, f"the answers differ: {answers}"
    desk, plain = (min(taken) / count * 1e6 for taken in times.values())
    print(f"desk {desk:.1f} us, constant {plain:.1f} us, ratio {desk / plain:.2f}")


if __name__ == "__main__":
    main()
