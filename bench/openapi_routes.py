#!/usr/bin/env python3
"""Sends the desk's server the requests of docs/openapi.yaml, and compares each answer with what that file says.

usage: openapi_routes.py [PROGRAM [FILE]]      (the built hotel_desk and docs/openapi.yaml where they aren't given)

It needs PyYAML: apt-get install python3-yaml. Whether the file is OpenAPI 3.1 is for a validator to say, such as that
of PyPI: openapi-spec-validator docs/openapi.yaml. This script looks that the file's paths are those of the table of
routes, and that each example has the form of its schema. Then it sends to two desks, over memory and a seed of zeros:

- To the one, the examples in the order of `x-order`. Each answer is that of its example.
- To the other, on each route: requests that go wrong in one way (WRONG); its first example in other forms, which aren't
  looked at (in_other_forms); and each text of TEXTS as each value. A text that has the form of the value's schema is
  read, and any other is answered 400.

Prints what differs, then the examples that weren't tried (those of 503), and at last 'N answers as described'. Status 1
where something differs.
"""
import collections
import http.client
import pathlib
import re
import socket
import sys
import tempfile
import urllib.parse

import yaml

sys.path.insert(0, str(pathlib.Path(__file__).resolve().parent.parent / ".ci"))
from built_desk import DESK, serve  # noqa: E402

TOP = pathlib.Path(__file__).resolve().parent.parent
ROUTES = TOP / "crates" / "hotel_http" / "specs" / "Routes.antt"
METHODS = ["GET", "POST", "HEAD", "PUT", "DELETE", "OPTIONS", "BEGIN"]
UNTRIED = "503"
BEGUN = b"HTTP/1.1\r\nHost: localhost\r\n"
# The limits of requests, which the file says in words alone.
MOST_BODY, MOST_HEAD, MOST_FIELDS = 262_144, 16_384, 64

TEXTS = [
    "", "0", "1", "2", "90", "91", "99", "100", "101", "101/2", "9999", "10000", "9999999", "10000000", "000000001",
    "0000000001", "000009999", "0000009999", "+1", "-1", "1.0", " 1", "1 ", "1\n", "0x1", "%31", "\uff11", "a",
    "DBL", "dbl", "D-L", "D L", " DBL", "DBL ", "ABCDEFG9", "ABCDEFGH9", "\u00c9",
    *(f"{year}-02-29" for year in range(1999, 2101)), *(f"2031-{month:02}-{day:02}" for month in range(14)
                                                        for day in (0, 1, 9, 10, 19, 20, 28, 29, 30, 31, 32)),
    "1999-12-31", "2000-01-01", "2099-12-31", "2100-01-01", "2031-5-1", "2031-05-01 ", "2031/05/01", "2031-05-01T00:00",
    "Ann Lee", " Ann", "Ann ", "Ann\u00a0", "\u00a0Ann", " ", "Lee, \"Ann\"", "A&B=C+D%41;E", "An\x00n", "An\tn",
    "An\x1fn", "An\x7fn", "An\x80n", "An\x9fn", "A" * 60, "A" * 61, "\u00e9" * 30, "\u00e9" * 31,
]

# What is sent: what is told of it, its bytes, of which operation it is, by which of these statuses it is answered, and
# by which example, where by one.
Sent = collections.namedtuple("Sent", "about bytes operation statuses example")


def inlined(node, top):
    """What stands at a place of the file, with what it refers to in the places of the references."""
    if isinstance(node, list):
        return [inlined(part, top) for part in node]
    if not isinstance(node, dict):
        return node
    if "$ref" in node:
        target = top
        for part in node["$ref"].removeprefix("#/").split("/"):
            target = target[part]
        return inlined(target, top)
    return {key: inlined(part, top) for key, part in node.items()}


class Operation:
    """An operation of the file: a method on a path."""

    def __init__(self, path, method, said):
        self.path, self.method, self.name, self.responses = path, method.upper(), said["operationId"], said["responses"]
        self.parameters = {given["name"]: given for given in said.get("parameters", [])}
        [(self.media, body)] = said.get("requestBody", {"content": {"": {}}})["content"].items()
        self.body, self.bodies = body.get("schema", {}), body.get("examples", {})
        self.fields = self.body.get("properties", {})

    def answer(self, status):
        """The type and what else the file says of the bodies that are answered with this status."""
        [(media, body)] = self.responses[status]["content"].items()
        return media, body

    def examples(self):
        """The status, name and body of each example of an answer."""
        for status in self.responses:
            for name, example in self.answer(status)[1].get("examples", {}).items():
                yield status, name, example["value"]

    def values(self, name):
        """The values of the path and the body, or the fields, of the example of this name."""
        in_path = {key: str(given["examples"][name]["value"]) for key, given in self.parameters.items()}
        return in_path, self.bodies[name]["value"] if self.body else {}

    def good(self):
        """The same of the first example that is answered 200."""
        return self.values(next(name for status, name, _ in self.examples() if status == "200"))

    def target(self, in_path):
        """The path with these values, as they stand."""
        return self.path.format(**in_path)

    def request(self, in_path, body, **other):
        """The bytes of a request with these values."""
        return request(self.method, self.target(in_path), encoded(body), **other)


def encoded(body):
    """The bytes of a body, or of these fields as a form."""
    return body.encode() if isinstance(body, str) else urllib.parse.urlencode(body).encode()


def request(method, target, body=b"", fields=("Host: localhost",), length=None):
    """The bytes of a request."""
    said = [f"{method} {target} HTTP/1.1", *fields, f"Content-Length: {len(body) if length is None else length}"]
    return "".join(f"{line}\r\n" for line in said).encode() + b"\r\n" + body


def fits(schema, text):
    """Whether a text has the form of a schema, as it is sent or answered."""
    if "pattern" in schema and not re.fullmatch(schema["pattern"], text):
        return False
    if text not in schema.get("enum", [text]) or len(text.encode()) > schema.get("x-max-bytes", len(text.encode())):
        return False
    return schema["type"] != "integer" or schema["minimum"] <= int(text) <= schema["maximum"]


def misfits(operation):
    """What is wrong with the examples of an operation, beside its schemas."""
    for status, name, body in operation.examples():
        if not fits(operation.answer(status)[1]["schema"], body):
            yield f"{operation.name}: the example {name} of {status} hasn't the form of its schema"
    for key, given in operation.parameters.items():
        for name, example in given["examples"].items():
            if not fits(given["schema"], str(example["value"])):
                yield f"{operation.name}: the example {name} of {key} hasn't the form of its schema"
    for name, example in operation.bodies.items():
        given = example["value"]
        if not (all(fits(self, str(given[key])) for key, self in operation.fields.items()) if operation.fields
                else fits(operation.body, given)):
            yield f"{operation.name}: the body of the example {name} hasn't the form of its schema"


def with_bad_head(operation):
    """Requests with a wrong head, or of a body that is cut."""
    in_path, body = operation.good()
    yield operation.request(in_path, body, fields=["Host: localhost", "Host: localhost"])
    yield operation.request(in_path, body, fields=[])
    yield operation.request(in_path, body, fields=["Host: localhost", f"Content-Length: {len(encoded(body))}"])
    for length in ("", "+1", "1x"):
        yield operation.request(in_path, body, length=length)
    for line in (b"HTTP/2.0\r\nHost: localhost\r\n", b"HTTP/1.0\r\nHost: localhost\r\nHost: localhost\r\n"):
        yield operation.request(in_path, body).replace(BEGUN, line, 1)
    yield request(operation.method, "http://localhost" + operation.target(in_path), encoded(body))
    if operation.method == "POST":
        yield operation.request(in_path, body, length=len(encoded(body)) + 1)


def in_other_forms(operation):
    """Requests that differ from the first example in what isn't looked at."""
    in_path, body = operation.good()
    for fields in (["Host: 127.0.0.1:80"], ["hOST: localHost:", "Content-Type: text/plain"],
                   ["Host: localhost", "Cookie: a=b", "Referer: http://page.example/"],
                   ["Host: localhost", "Connection: upgrade, keep-alive", "Upgrade: h2c"],
                   ["Host: localhost", "Expect: b"], ["Host: localhost", "Expect: 100-Continue"],
                   ["Host: localhost", *["A: b"] * (MOST_FIELDS - 2)]):
        yield operation.request(in_path, body, fields=fields)
    good = operation.request(in_path, body)
    yield good.replace(BEGUN, b"HTTP/1.0\r\n", 1)
    yield good + good
    yield request(operation.method, operation.target(in_path) + "?a=b/?", encoded(body))
    if operation.method == "GET":
        yield operation.request(in_path, "a=b")
        yield operation.request(in_path, "", length=MOST_BODY)


def with_fields_amiss(operation):
    """Requests of which a field is missing, or stands twice."""
    in_path, body = operation.good()
    for name in operation.fields:
        yield operation.request(in_path, {key: text for key, text in body.items() if key != name})
        yield request(operation.method, operation.target(in_path), encoded(body) + b"&" + encoded({name: body[name]}))


def at_other_paths(operation):
    """Requests at paths that aren't this one, nor another one of the file."""
    in_path, body = operation.good()
    yield request(operation.method, operation.target(in_path) + "/", encoded(body))
    for name in in_path:
        for text in ("", "1/2"):
            yield operation.request({**in_path, name: text}, body)


def by_other_methods(operation):
    """Requests by methods that aren't this one, nor another one of its path."""
    in_path, body = operation.good()
    for method in METHODS:
        if method != operation.method:
            yield request(method, operation.target(in_path), encoded(body))


def of_pages(operation):
    """Requests as a page in a browser has them sent, by a form, or by a name that leads here."""
    in_path, body = operation.good()
    for fields in (["Host:"], ["Host: page.example:80"], ["Host: localhost", "Origin: http://page.example"]):
        yield operation.request(in_path, body, fields=fields)


def with_fields(*fields, **other):
    """Requests with these fields behind Host."""
    def made(operation):
        in_path, body = operation.good()
        yield operation.request(in_path, body, fields=["Host: localhost", *fields], **other)
    return made


def of_long_heads(operation):
    """Requests with a field more than a head may have, and with a byte more."""
    in_path, _ = operation.good()
    yield operation.request(in_path, "", fields=["Host: localhost", *["A: b"] * (MOST_FIELDS - 1)])
    begun = f"{operation.method} {operation.target(in_path)} HTTP/1.1\r\nHost: localhost\r\nA: ".encode()
    yield begun.ljust(MOST_HEAD + 1, b"b")


# The status and the name of an example, and the requests of an operation that it is the answer to.
WRONG = {
    ("400", "head"): with_bad_head,
    ("400", "value"): with_fields_amiss,
    ("403", "page"): of_pages,
    ("404", "path"): at_other_paths,
    ("405", "method"): by_other_methods,
    ("413", "length"): with_fields(length=MOST_BODY + 1),
    ("431", "fields"): of_long_heads,
    ("501", "coding"): with_fields("Transfer-Encoding: chunked"),
}


def of_value(operation, about, schema, text, made):
    """A request with this text as the value of this schema."""
    if fits(schema, text):
        return Sent(f"{about} {text!r}", made, operation, {"200", "409"} & set(operation.responses), None)
    return Sent(f"{about} {text!r}", made, operation, {"400"}, "value")


def values_sent(operation):
    """Requests with each text as each value; in a path those alone that can stand there. Other fields are ignored."""
    in_path, body = operation.good()
    for name, given in operation.parameters.items():
        for text in TEXTS:
            if re.fullmatch("[!-~]+", text) and not re.search("[/?#]", text):
                made = operation.request({**in_path, name: text}, body)
                yield of_value(operation, name, given["schema"], text, made)
    for name, schema in operation.fields.items():
        for text in TEXTS:
            made = operation.request(in_path, {"other": "x", **body, name: text})
            yield of_value(operation, name, schema, text, made)


def wrong_sent(operations):
    """Requests that go wrong, and values at their limits."""
    for operation in operations:
        tried = {(status, name) for status, name, _ in operation.examples()} & set(WRONG)
        for status, name in sorted(tried):
            for number, made in enumerate(WRONG[status, name](operation), 1):
                yield Sent(f"{name} {number}", made, operation, {status}, name)
        for number, made in enumerate(in_other_forms(operation), 1):
            yield Sent(f"form {number}", made, operation, {"200", "409"} & set(operation.responses), None)
        yield from values_sent(operation)


def ordered_sent(operations, order):
    """The requests of the examples, in this order."""
    named = {operation.name: operation for operation in operations}
    for step in order:
        operation, name = named[step.split()[0]], step.split()[1]
        [status] = [status for status, its_name, _ in operation.examples() if its_name == name]
        yield Sent(name, operation.request(*operation.values(name)), operation, {status}, name)


def exchanged(port, sent):
    """The answer to these bytes: its status, its fields and its body."""
    with socket.create_connection(("127.0.0.1", port), timeout=20) as client:
        client.sendall(sent)
        client.shutdown(socket.SHUT_WR)
        answer = http.client.HTTPResponse(client)
        answer.begin()
        return str(answer.status), answer.headers, answer.read().decode()


def differences(sent, status, fields, body):
    """What differs in an answer from what the file says."""
    if status not in sent.statuses:
        yield f"wanted {sorted(sent.statuses)}, and got {status} {body!r:.200}"
        return
    media, said = sent.operation.answer(status)
    wanted = {"Content-Type": media, "Content-Length": str(len(body.encode())), "Connection": "close"}
    for name, text in wanted.items():
        if fields.get_all(name) != [text]:
            yield f"wanted {name}: {text}, and got {fields.get_all(name)}"
    for name, field in sent.operation.responses[status].get("headers", {}).items():
        if not fits(field["schema"], fields.get(name, "")):
            yield f"{name}: {fields.get(name)} hasn't the form of its schema"
    if not fits(said["schema"], body):
        yield f"{status} {body!r:.200} hasn't the form of its schema"
    if sent.example and body != said["examples"][sent.example]["value"]:
        yield f"wanted {said['examples'][sent.example]['value']!r:.200}, and got {body!r:.200}"


def compared(program, requests, seed):
    """What differs, of these requests to a desk of their own."""
    server, port = serve(program, len(requests), "--seed-file", seed)
    try:
        for sent in requests:
            for difference in differences(sent, *exchanged(port, sent.bytes)):
                yield f"{sent.operation.name}, {sent.about}: {difference}"
        status, faults = server.wait(20), server.stderr.read()
        if status or faults:
            yield f"the server ended with {status}, {faults!r}"
    finally:
        server.kill()


def unsent(operations, requests):
    """The examples that no request is of, by status and name, with how many operations have them."""
    sent = {(one.operation.name, status, one.example) for one in requests for status in one.statuses}
    return collections.Counter((status, name) for operation in operations for status, name, _ in operation.examples()
                               if (operation.name, status, name) not in sent)


def main():
    program = pathlib.Path(sys.argv[1] if len(sys.argv) > 1 else DESK).resolve()
    file = pathlib.Path(sys.argv[2]) if len(sys.argv) > 2 else TOP / "docs" / "openapi.yaml"
    top = yaml.safe_load(file.read_text())
    operations = [Operation(path, method, said) for path, methods in inlined(top["paths"], top).items()
                  for method, said in methods.items()]
    found = [wrong for operation in operations for wrong in misfits(operation)]
    table = re.findall(r'\(codes "(/[^"]*)"', ROUTES.read_text())
    if sorted(table) != sorted(operation.path for operation in operations):
        found.append(f"the table of routes has {sorted(table)}")
    requests = [list(ordered_sent(operations, top["x-order"])), list(wrong_sent(operations))]
    untried = unsent(operations, sum(requests, []))
    found += [f"no request is of {status} {name}" for status, name in untried if status != UNTRIED]
    with tempfile.NamedTemporaryFile() as seed:
        seed.write(bytes(32))
        seed.flush()
        found += [wrong for those in requests for wrong in compared(program, those, seed.name)]
    print("".join(f"{wrong}\n" for wrong in found), end="")
    print("not tried:", ", ".join(f"{status} {name} of {count}" for (status, name), count in untried.items()))
    print(f"{sum(map(len, requests))} answers as described" if not found else f"{len(found)} not as described")
    sys.exit(1 if found else 0)


if __name__ == "__main__":
    main()
