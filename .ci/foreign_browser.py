"""A page of another origin in a real browser, on the desk's own computer and without a proxy: it can't command the
desk."""
import http.server
import threading
import time

from built_desk import serve
from clerks import Browser, relayed

ROOMS = b"begin 2031-05-01\nadd-kind DBL\nadd-room 101 DBL\nreserve DBL 2031-05-01 2 Ann Lee\n"
# What the page tries: forms of each kind that needs no leave, each way to fetch, and the same by its own name, which
# then leads to the desk.
TRIES = """<!doctype html><title>evil</title>
<iframe name=f></iframe>
<script type=module>
const desk = 'http://127.0.0.1:PORT', own = 'http://evil.example:PORT', local = 'http://localhost:PORT';
function post(origin, path, fields, enctype) {
    const form = document.createElement('form');
    Object.assign(form, {method: 'post', action: origin + path, enctype, target: 'f'});
    for (const [name, value] of Object.entries(fields)) {
        const input = document.createElement('input');
        Object.assign(input, {name, value});
        form.append(input);
    }
    document.body.append(form);
    form.submit();
}
const wait = () => new Promise(then => setTimeout(then, 150));
let told = 0;
for (const origin of [desk, own, local]) {
    for (const enctype of ['application/x-www-form-urlencoded', 'text/plain', 'multipart/form-data']) {
        post(origin, '/next-day', {}, enctype);
        await wait();
        post(origin, '/reservations/1/check-in', {room: 101}, enctype);
        await wait();
    }
    for (const mode of ['no-cors', 'cors', 'same-origin']) {
        for (const [method, path, body] of [['POST', '/next-day'], ['POST', '/kinds', 'kind=EVIL'],
            ['GET', '/in-house'], ['GET', '/rooms/101/chain']]) {
            const answer = await fetch(origin + path, {method, mode, body}).catch(() => undefined);
            const text = await answer?.text().catch(() => '') ?? '';
            if (/[0-9a-f]{12}|room,party/.test(text)) told += 1;
        }
    }
    navigator.sendBeacon(origin + '/next-day', '');
}
await wait();
document.title = `tried ${told}`;
</script>"""
LISTS = ("business-day", "room-status", "bookings", "in-house", "rooms/101/chain", "availability/2031-05-01/1",
         "parties/1/cards", "cards/1", "locks")


class Evil(http.server.BaseHTTPRequestHandler):
    """Serves that page."""

    def do_GET(self):
        body = TRIES.replace("PORT", str(self.server.desk)).encode()
        self.send_response(200)
        self.send_header("Content-Type", "text/html; charset=utf-8")
        self.send_header("Content-Length", str(len(body)))
        self.end_headers()
        self.wfile.write(body)

    def log_message(self, *_):
        pass


def plain_request(line, body=b"", host="127.0.0.1"):
    return b"%s HTTP/1.1\r\nHost: %s\r\nContent-Length: %d\r\n\r\n%s" % (line.encode(), host.encode(), len(body), body)


def pages_of_others(desk):
    """A foreign page's forms, fetches and its own name led to this computer change nothing at the desk's port, and
    learn nothing. The same form without a browser is carried out."""
    desk.begun(ROOMS)
    server, port = serve(desk.program, 1000000, "--seed-file", desk.folder / "zeros", "--db", desk.db)

    def lists():
        return [relayed(port, plain_request(f"GET /{path}")) for path in LISTS]

    with http.server.ThreadingHTTPServer(("127.0.0.1", 0), Evil) as pages, Browser(desk.folder) as browser:
        pages.desk = port
        threading.Thread(target=pages.serve_forever, daemon=True).start()
        before = lists()
        for host in "evil.example", "127.0.0.1":
            browser.browser.get(f"http://{host}:{pages.server_port}/")
            tried = browser.until(lambda: browser.browser.title.startswith("tried")) and browser.browser.title
            yield (host, "what it learned"), "tried 0", tried
        time.sleep(0.5)
        yield "the books", before, lists()
        browser.browser.get(f"http://evil.example:{port}/in-house")
        yield "its name leads here", "foreign", browser.text("body").strip()
        # The same forms, as a program sends them.
        answer = relayed(port, plain_request("POST /reservations/1/check-in", b"room=101"))
        yield "the form without a browser", True, b" 200 OK" in answer and b"card 1 party 1" in answer
        answer = relayed(port, plain_request("POST /next-day"))
        yield "another", True, answer.endswith(b"\r\n\r\nday 2031-05-02\n")
        yield "the books then", True, lists() != before
        pages.shutdown()
    server.kill()
    server.wait()
