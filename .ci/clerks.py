"""The desk behind nginx with deploy/nginx.conf and TLS, and a browser with the page, as .ci/page runs them."""
import base64
import contextlib
import functools
import grp
import http.client
import json
import os
import pathlib
import re
import shutil
import socket
import ssl
import subprocess
import sys
import tempfile
import threading
import time
import urllib.parse

from built_desk import HERE, answer, free_port, serve
from installed import PATH, SELENIUM

TOP = HERE.parent
PAGE, DEPLOY = TOP / "page", TOP / "deploy"
GUIDES = TOP / "docs" / "OPERATING.md", TOP / "docs" / "PAGE.md"
NAME, OTHER, SECRET = "desk.hotel.example", "sea.hotel.example", "a long secret"
# The values of the guide's first lines, for a section that is run by itself.
GUIDE_VALUES = f"name={NAME}; address=127.0.0.1; stick=$stick\n"
ORDINARY = {"user": "nobody", "group": "nogroup"} if os.getuid() == 0 else {}
GROUP = ORDINARY.get("group") or grp.getgrgid(os.getgid()).gr_name
ANSWER, FAILED = answer("200 OK", b"begun\n"), answer("503 Service Unavailable", b"refused 30 Store\n")

def soon(is_so, seconds=60):
    """Whether it is so within these seconds. It is looked less and less often, since each look costs time too."""
    began = time.monotonic()
    while not (found := is_so()) and (waited := time.monotonic() - began) < seconds:
        time.sleep(min(max(waited / 8, 0.02), 1))
    return found


class Recorder:
    """In a desk's place: it keeps what reaches it, and answers each request alike."""

    def __init__(self):
        self.listener = socket.create_server(("127.0.0.1", 0))
        self.port, self.requests = self.listener.getsockname()[1], []
        threading.Thread(target=self.run, daemon=True).start()

    def run(self):
        while True:
            peer, _ = self.listener.accept()
            with peer:
                asked = read_request(peer)
                self.requests.append(asked)
                peer.sendall(ANSWER)

    def commands(self):
        return [asked for asked in self.requests if not asked.startswith(b"GET")]


def login_of(who="ann", secret=SECRET):
    return "Basic " + base64.b64encode(f"{who}:{secret}".encode()).decode()


def read_request(peer):
    """The bytes of a request with its body."""
    asked = b""
    while b"\r\n\r\n" not in asked:
        some = peer.recv(65536)
        if not some:
            return asked
        asked += some
    length = re.search(rb"(?i)\r\ncontent-length: (\d+)", asked)
    while length and len(asked) < asked.index(b"\r\n\r\n") + 4 + int(length[1]):
        asked += peer.recv(65536)
    return asked


def post(path, **form):
    """The bytes of a command, as another clerk's browser has the proxy send it."""
    body = urllib.parse.urlencode(form).encode()
    return b"POST %s HTTP/1.0\r\nHost: 127.0.0.1\r\nContent-Length: %d\r\n\r\n%s" % (path.encode(), len(body), body)


class Between:
    """A desk on its database, and before it a relay. Of the next command it can lose the request or the answer: `lose`
    is then `request` or `answer`, and the desk is killed and started again; with `silent` before either the desk goes
    on. With `store` it answers that the database failed, and the desk isn't asked; with `cable` it cuts the cable. The
    commands `earlier` and `later` are another clerk's, just before and after that command. Each command, or each list,
    takes so many seconds more as `slow` has for its method; after the command that is lost also as `then_slow` has."""

    def __init__(self, desk):
        self.desk, self.lose, self.cable, self.earlier, self.later = desk, None, None, (), ()
        self.slow, self.then_slow, self.gates, self.latest = {}, {}, {}, 0
        self.listener = socket.create_server(("127.0.0.1", 0), backlog=128)
        self.port = self.listener.getsockname()[1]
        self.begin()
        threading.Thread(target=self.run, daemon=True).start()

    def begin(self):
        self.server, self.inner = serve(self.desk.program, 1000000, "--seed-file", self.desk.folder / "zeros", "--db",
                                        self.desk.db)

    def end(self):
        self.server.kill()
        self.server.wait()

    def run(self):
        while True:
            peer, _ = self.listener.accept()
            with peer, contextlib.suppress(OSError):
                asked = read_request(peer)
                self.latest = time.monotonic()
                method = asked.partition(b" ")[0].decode()
                if gate := self.gates.get(method):
                    gate.wait(60)
                time.sleep(self.slow.get(method, 0))
                lost = asked.startswith(b"POST") and self.lose or ""
                said = self.carried(asked, lost)
                if lost == "cable":
                    self.cable.cut()
                if lost in ("request", "answer"):
                    self.end()
                    time.sleep(0.5)
                    self.begin()
                elif "silent" not in lost:
                    peer.sendall(said)

    def carried(self, asked, lost):
        """What the desk answers, with the other clerk's commands around it."""
        if not asked.startswith(b"POST"):
            return relayed(self.inner, asked)
        earlier, later, self.earlier, self.later, self.lose = self.earlier, self.later, (), (), None
        if lost:
            self.slow, self.then_slow = self.slow | self.then_slow, {}
        self.each(earlier)
        said = FAILED if lost in ("request", "silent request", "store") else relayed(self.inner, asked)
        self.each(later)
        return said

    @contextlib.contextmanager
    def held(self, method):
        """Meanwhile no request of this method is answered, nor any that comes after one."""
        gate = self.gates[method] = threading.Event()
        try:
            yield
        finally:
            del self.gates[method]
            gate.set()

    def each(self, others):
        """Has the desk carry out each of another clerk's commands."""
        for other in others:
            relayed(self.inner, other)

    def quiet(self):
        """Waits until nothing has been asked for a second."""
        return soon(lambda: time.monotonic() - self.latest > 1)

    def again(self, start):
        """Begins anew, with the database of this file."""
        self.end()
        self.desk.laid(start)
        self.begin()


def relayed(port, asked):
    said = b""
    with socket.create_connection(("127.0.0.1", port), timeout=60) as server:
        server.sendall(asked)
        while some := server.recv(65536):
            said += some
    return said


class Cable:
    """What connects browsers with the site, and can be cut."""

    def __init__(self, port):
        self.port_behind, self.ends = port, []
        self.listener = socket.create_server(("127.0.0.1", 0), backlog=128)
        self.port = self.listener.getsockname()[1]
        threading.Thread(target=self.run, daemon=True).start()

    def run(self):
        while True:
            near, _ = self.listener.accept()
            far = socket.create_connection(("127.0.0.1", self.port_behind))
            self.ends += [near, far]
            for ends in (near, far), (far, near):
                threading.Thread(target=self.carry, args=ends, daemon=True).start()

    @staticmethod
    def carry(source, to):
        with contextlib.suppress(OSError):
            while some := source.recv(65536):
                to.sendall(some)
            to.shutdown(socket.SHUT_WR)

    def cut(self):
        for end in self.ends:
            with contextlib.suppress(OSError):
                end.shutdown(socket.SHUT_RDWR)
        self.ends.clear()


BUILDING = threading.Lock()


def package(program):
    """The package with this program, which tests side by side unpack."""
    with BUILDING:
        return built(program)[1]


@functools.cache
def built(program):
    """The same, and the folder that has it as long as this runs. It isn't compressed, since each test unpacks it."""
    made = tempfile.TemporaryDirectory()
    done = subprocess.run([DEPLOY / "package", program], cwd=made.name, check=True, text=True, stdout=subprocess.PIPE,
                          env=dict(os.environ, VERSION="1", DPKG_DEB_COMPRESSOR_TYPE="none"))
    return made, pathlib.Path(made.name, done.stdout.strip())


# What stands in place of commands of the system, which would change it: some do what is needed here.
TOLD = {"systemctl": 'echo systemctl "$@"', "runuser": 'touch "$6"', "ip": "echo ' 127.0.0.1/8'",
        "mountpoint": 'test "$3" = {0}/media/stick',
        "install": '[ "$1" = -d ] || exec /usr/bin/install "$@"; for last; do :; done; mkdir -p -- "$last"',
        "hotel_copy": 'echo hotel_copy "$@"', "apt-get": 'echo apt-get "$@"'}


class Site:
    """nginx with the page, before these desks: the port of each by its hotel's name. What it is made of is what the
    package has, and the lines of the documents, with a folder in place of the system's. In its configuration texts are
    replaced. Ann and Bo are managers, unless these lines give other roles."""
    nginx = None

    def __init__(self, desk, ports, replaced=(), roles=""):
        self.folder, self.port = desk.folder / "site", free_port()
        self.etc, self.logs = self.folder / "etc/nginx", self.folder / "var/log"
        self.record, self.faults = self.logs / "hotel/commands.log", self.logs / "nginx/error.log"
        desk.folder.chmod(0o711)
        self.lay(package(desk.program))
        self.said = {section: self.guide(section) for section in ("Install", "Several hotels")}
        if roles:
            (self.etc / f"hotel/{NAME}.roles").write_text(roles)
        self.configure(ports, replaced)
        self.record.touch()
        self.owned()
        self.nginx = subprocess.Popen([*self.command(), "-g", "daemon off;"], stderr=subprocess.DEVNULL, **ORDINARY)
        self.trusts = ssl.create_default_context(cafile=self.etc / "hotel/ca.crt")
        assert soon(self.listens), self.faults.read_text()

    def lay(self, file):
        """Lays out what the package has, adapted to this folder, and what stands in place of the system's commands."""
        subprocess.run(["dpkg-deb", "-x", file, self.folder], check=True)
        for name in "etc/nginx/sites-enabled", "told", "var/log/nginx", "var/lib", "var/backups", "media/stick":
            (self.folder / name).mkdir(parents=True)
        for path in *self.folder.glob("usr/sbin/*"), *self.folder.glob("etc/*/*"), *self.etc.glob("*/hotel_desk"):
            if path.is_file():
                path.write_text(self.inside(path.read_text()))
        for name, lines in TOLD.items():
            (self.folder / "told" / name).write_text("#!/bin/bash\n" + lines.replace("{0}", str(self.folder)) + "\n")
            (self.folder / "told" / name).chmod(0o755)
        (self.etc / "nginx.conf").write_text(self.main_file())
        shutil.chown(self.record.parent, group=GROUP)
        self.record.parent.chmod(0o750)

    def listens(self):
        with contextlib.suppress(OSError):
            socket.create_connection(("127.0.0.1", self.port)).close()
            return True
        return False

    def command(self):
        return [shutil.which("nginx", path=PATH), "-p", str(self.folder), "-c", str(self.etc / "nginx.conf"), "-e",
                str(self.faults)]

    def main_file(self):
        """The main file of Debian's nginx, for this folder and an ordinary account."""
        paths = "".join(f"    {name}_temp_path {self.folder}/{name};\n" for name in
                        ("client_body", "proxy", "fastcgi", "uwsgi", "scgi"))
        text = pathlib.Path("/etc/nginx/nginx.conf").read_text()
        for old, new in (("user www-data;\n", ""), ("http {\n", f"http {{\n{paths}"), ("/run/", f"{self.folder}/"),
                         ("/var/log/", f"{self.logs}/"), ("/etc/nginx/sites-enabled/", f"{self.etc}/sites-enabled/")):
            assert old in text, f"/etc/nginx/nginx.conf of Debian has no longer {old!r}"
            text = text.replace(old, new)
        return text

    def inside(self, text):
        """The text with this folder in place of the system's."""
        return re.sub(r"(?<![\w./{}])/(?=(?:etc|var|media|usr/share)/)", f"{self.folder}/", text)

    def guide(self, section):
        """Runs the lines of a section of the documents, and returns what they print. Each password that is asked for is
        SECRET. The commands of the system are only told."""
        text = "\n".join(guide.read_text() for guide in GUIDES)
        text = text.partition(f"\n## {section}\n")[2].partition("\n## ")[0]
        lines = "".join(re.findall(r"^```bash\n(.*?)^```\n", text, re.MULTILINE | re.DOTALL))
        assert lines, f"the documents have no lines in {section}"
        values = GUIDE_VALUES.replace("$stick", f"{self.folder}/media/stick")
        lines = self.inside(lines.replace("address=192.168.1.10", "address=127.0.0.1"))
        made = self.run("bash", "-euo", "pipefail", "-c", values + lines, given=f"{SECRET}\n" * 8)
        assert made.returncode == 0, f"{section}: {made.stdout}{made.stderr}"
        return made.stdout

    def run(self, *words, given="", **around):
        """Runs a command with the installed programs on the path."""
        reload = f"kill -HUP {self.nginx.pid}" if self.nginx else "true"
        around = dict(os.environ, PATH=f"{self.folder}/told:{self.folder}/usr/sbin:{PATH}", GROUP=GROUP, RELOAD=reload,
                      LOGINS=str(self.etc / "hotel"), **around)
        return subprocess.run(words, cwd=TOP, env=around, input=given, stdout=subprocess.PIPE, stderr=subprocess.PIPE,
                              text=True, check=False, timeout=60)

    def configure(self, ports, replaced):
        """Puts the desks of the hotels, and other texts, into what is installed."""
        for name, port in ports.items():
            (self.etc / f"hotel/{name}.desk").write_text(f"{name} 127.0.0.1:{port};\n")
        site = self.etc / "sites-available/hotel_desk"
        text = site.read_text()
        for old, new in replaced:
            assert old in text, f"deploy/nginx.conf has no longer {old!r}"
            text = text.replace(old, new)
        site.write_text(text)
        (self.etc / "hotel/listen.conf").write_text(f"listen 127.0.0.1:{self.port} ssl default_server;\n")
        self.known = "hotel=" + re.search("[0-9a-f]{32}", (self.etc / "hotel/cookie.conf").read_text())[0]

    def owned(self):
        """Has nginx's account own what nginx reads as root, or writes; but not the folder of the record."""
        for path in (self.folder, *self.folder.rglob("*")):
            if ORDINARY and path != self.record.parent:
                shutil.chown(path, *ORDINARY.values())

    def key(self):
        """The hash of the site's public key, which a browser takes in place of an imported authority."""
        made = subprocess.run("openssl x509 -in desk.crt -pubkey -noout | openssl pkey -pubin -outform der |"
                              " openssl dgst -sha256 -binary | base64", shell=True, cwd=self.etc / "hotel", check=True,
                              stdout=subprocess.PIPE, text=True)
        return made.stdout.strip()

    def connected(self, host=NAME, source="127.0.0.1"):
        plain = socket.create_connection(("127.0.0.1", self.port), timeout=30, source_address=(source, 0))
        return self.trusts.wrap_socket(plain, server_hostname=host)

    def origin(self, host=NAME):
        return f"https://{host}:{self.port}"

    def ask(self, line, body=b"", source="127.0.0.1", host=NAME, **fields):
        """The status, the fields and the body of an answer."""
        with self.connected(host, source) as server:
            server.sendall(self.request(line, body, host=host, **fields))
            answer = http.client.HTTPResponse(server, method=line.split()[0])
            answer.begin()
            return answer.status, dict(answer.getheaders()), answer.read()

    def request(self, line, body=b"", who="ann", secret=SECRET, host=NAME, asked_host=None, **fields):
        """The bytes of a request. Fields that are None aren't sent."""
        given = {"Host": f"{asked_host or host}:{self.port}", "Content-Length": str(len(body)),
                 "Authorization": login_of(who, secret) if who else None, "Origin": self.origin(host) if body else None,
                 "Cookie": self.known, "Connection": "close"}
        given |= {name.replace("_", "-"): value for name, value in fields.items()}
        head = "".join(f"{name}: {value}\r\n" for name, value in given.items() if value is not None)
        return f"{line} HTTP/1.1\r\n{head}\r\n".encode() + body

    def log(self):
        return [json.loads(line) for line in self.record.read_text().splitlines()]

    def end(self):
        self.nginx.terminate()
        self.nginx.wait()


@contextlib.contextmanager
def slow_clients_of(site, count=60):
    """So many clients of this site that send a part of a request, or read nothing."""
    head = f"Host: {NAME}:{site.port}\r\nAuthorization: {login_of()}\r\nOrigin: {site.origin()}\r\n"
    starts = ["GET /desk/in-house HTTP/1.1\r\n", f"GET /desk/rooms/101/chain HTTP/1.1\r\n{head}\r\n",
              f"POST /desk/audit HTTP/1.1\r\n{head}Content-Length: 9999\r\n\r\nroom"]
    with contextlib.ExitStack() as held:
        for at in range(count):
            client = held.enter_context(site.connected(source=f"127.0.0.{2 + at % 4}"))
            client.sendall(starts[at % 3].encode())
        yield


class Browser:
    """A browser with a profile in this folder. `words` are more words for it. With the values `around` it, it has a
    window on their screen, and waits for no page."""

    def __init__(self, folder, words=(), around=None):
        sys.path.append(SELENIUM)
        from selenium import webdriver
        from selenium.common.exceptions import WebDriverException
        from selenium.webdriver.chrome.service import Service
        from selenium.webdriver.common.by import By
        from selenium.webdriver.common.keys import Keys
        self.css, self.path, self.keys, self.gone = By.CSS_SELECTOR, By.XPATH, Keys, WebDriverException
        options = webdriver.ChromeOptions()
        for word in (*([] if around else ["headless=new"]), "disable-gpu", "disable-dev-shm-usage", "no-sandbox",
                     "window-size=1280,800", f"user-data-dir={folder}/profile-{time.monotonic_ns()}",
                     "host-resolver-rules=MAP *.example 127.0.0.1", *words):
            options.add_argument(f"--{word}")
        options.add_experimental_option("prefs", {"intl.accept_languages": "en-US,en"})
        options.set_capability("goog:loggingPrefs", {"browser": "ALL"})
        options.binary_location = shutil.which("chromium")
        options.page_load_strategy = "none" if around else "normal"
        self.browser = webdriver.Chrome(options=options, service=Service(shutil.which("chromedriver"), env=around))
        self.browser.set_script_timeout(60)

    def __enter__(self):
        return self

    def __exit__(self, *_):
        self.browser.quit()

    def js(self, script, *words):
        return self.browser.execute_script(script, *words)

    def until(self, is_so):
        """Whether it is so soon. The page may be drawn anew meanwhile."""
        def looks():
            try:
                return is_so()
            except self.gone:
                return False

        return soon(looks)

    def text(self, css):
        return self.js("return document.querySelector(arguments[0])?.innerText ?? ''", css)

    def raw(self, css):
        return self.js("return document.querySelector(arguments[0])?.textContent ?? ''", css)

    def find(self, css):
        return self.browser.find_element(self.css, css)

    def command(self, name, **values):
        """What the browser's own protocol answers to a command."""
        return self.browser.execute_cdp_cmd(name, values)

    def type(self, *keys):
        """Types these, where the keyboard is. The page may draw that anew meanwhile."""
        for key in keys:
            assert self.until(lambda key=key: self.browser.switch_to.active_element.send_keys(key) or True), key
            time.sleep(0.1)


# The page waits a second and a half for lists, and then does without them. On a busy machine that is too short.
PATIENT = """
const plain = setTimeout;
window.patience = 40;
window.setTimeout = (then, wait) => plain(then, wait === 1500 ? wait * window.patience : wait);"""


class Clerk(Browser):
    """A browser with the page."""

    def __init__(self, site, who="ann", port=None):
        super().__init__(site.folder.parent, [f"ignore-certificate-errors-spki-list={site.key()}"])
        self.who, self.address = who, f"{NAME}:{port or site.port}"
        self.log_in()

    def log_in(self):
        """Opens the page with the login. It is for the whole site, and the icon asks for nothing more."""
        self.browser.get(f"https://{self.who}:{SECRET.replace(' ', '%20')}@{self.address}/icon.svg")
        self.browser.get(f"https://{self.address}/")
        self.ready()

    def ready(self):
        """Waits until the page has its lists."""
        self.js("document.addEventListener('securitypolicyviolation', e => console.error('CSP ' + e.blockedURI))")
        self.js(PATIENT)
        self.until(lambda: "asked for its lists" not in self.text("main"))

    def reload(self):
        self.browser.refresh()
        self.ready()

    def seen(self):
        """The page as a clerk finds it who comes back to it: it then asks for its lists."""
        self.js("document.dispatchEvent(new Event('visibilitychange'))")

    def focused(self):
        """The text or the name of what has the keyboard."""
        return self.js("return document.activeElement.innerText?.trim() || document.activeElement.name")

    def shows(self, text, css="dialog[open]"):
        """Whether an element comes to show this text; else what it shows."""
        return self.until(lambda: text in self.text(css)) or self.text(css)

    def press(self, text, near=None, top="//body"):
        """Presses the button or link with this text; with another text, that in the last row or form that has it."""
        row = f"/descendant::*[self::tr or self::form or self::section][contains(., {near!r})][last()]" if near else ""
        path = f"{top}{row}//*[self::button or self::a or self::summary][normalize-space(.)={text!r}]"

        def pressed():
            found = [one for one in self.browser.find_elements(self.path, path) if one.is_displayed()]
            return found and (found[0].click() or True)

        assert self.until(pressed), f"no {text!r} near {near!r}: {self.text('body')!r:.400}"

    def choose(self, text):
        """Presses this button of the window."""
        self.press(text, top="//dialog[@open]")

    def fill(self, **values):
        for name, value in values.items():
            assert self.until(lambda: self.js("""
                const input = [...document.querySelectorAll(`[name=${arguments[0]}]`)]
                    .find(one => one.type !== 'radio' || one.value === arguments[1]);
                if (!input) return false;
                if (input.type === 'radio') input.click();
                else {
                    input.value = arguments[1];
                    input.dispatchEvent(new Event('input', {bubbles: true}));
                }
                return true""", name, value)), f"no field {name}"

    def go(self, view):
        link = "#" + view.lower().replace("-", "")
        assert self.until(lambda: self.find(f"nav a[href='{link}']").click() or True), link
        self.until(lambda: self.js("return document.querySelector('nav a[aria-current]').hash") == link)

    def book(self, guest, kind, arrive, nights):
        self.go("Book")
        self.fill(kind=kind, arrive=arrive, nights=str(nights), guest=guest)
        self.press("Book", "Guest")

    def card(self):
        """The card in the window: its number and its codes, as the desk's answer has them."""
        self.until(lambda: self.js("return !!document.querySelector('dialog[open] #card-new')"))
        return [self.text(f"#card-{part}") for part in ("number", "old", "new")]

    def codes(self):
        """The codes in the window's table."""
        return [one.replace(" ", "") for one in self.js(
            "return [...document.querySelectorAll('dialog tbody .code')].map(one => one.textContent)")]

    def done(self, button="Done"):
        self.choose(button)
        self.closed()

    def closed(self):
        """Whether the window is closed soon."""
        return self.until(lambda: not self.js("return document.getElementById('dialog').open"))

    def paper(self):
        """The text of the pages that the browser prints."""
        printed = base64.b64decode(self.command("Page.printToPDF", preferCSSPageSize=True)["data"])
        return subprocess.run(["pdftotext", "-layout", "-", "-"], input=printed, stdout=subprocess.PIPE,
                              check=True).stdout.decode()

    def faults(self):
        """What the console has, except that the desk refused or didn't answer; and that the icon, at which a clerk
        logs in, has no icon."""
        return [entry["message"] for entry in self.browser.get_log("browser") if not re.search(
            r"/favicon\.ico |Failed to load resource.* status of (409|400|502|503|504) ", entry["message"])]

    def shot(self, name):
        if "SHOTS" in os.environ:
            time.sleep(0.4)
            self.browser.save_screenshot(f"{os.environ['SHOTS']}/page-{name}.png")


@contextlib.contextmanager
def hotel(desk, script=b"", roles=""):
    """A desk begun with this script, and the site before it, with lines that say what logins may do."""
    if script:
        desk.begun(script)
    between = Between(desk)
    try:
        site = Site(desk, {NAME: between.port}, roles=roles)
        try:
            yield between, site
        finally:
            site.end()
    finally:
        between.end()
