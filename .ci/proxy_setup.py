"""What the documents set up in front of the desk, for `.ci/proxy`: logins, certificates, hotels, the firewall."""
import concurrent.futures
import contextlib
import os
import re
import subprocess

from clerks import DEPLOY, GUIDES, NAME, OTHER, SECRET, Recorder, Site
from installed import PATH


@contextlib.contextmanager
def before(desk, recorder, **how):
    """The site before this in a desk's place, and another hotel."""
    site = Site(desk, {NAME: recorder.port, OTHER: Recorder().port}, **how)
    try:
        yield site
    finally:
        site.end()


def login_steps():
    """Calls of hotel_login with what is typed, the fault that it says, and what then opens the page."""
    again, word, length = "another secret", "manager", "a password has 12 to 128 characters, without accents"
    return [
        ("set", NAME, "bo", word, [SECRET, SECRET], "", {"bo": SECRET}),
        ("set", NAME, "bo", word, [again, again], "", {"bo": again}),
        ("set", NAME, "bo", word, [SECRET, again], "the two passwords differ", {"bo": again}),
        ("set", NAME, "bo", word, [again + "x"], "there is no second password", {"bo": again}),
        ("set", NAME, "bo", word, [], "there is no password", {"bo": again}),
        ("set", NAME, "bo", word, ["", ""], "a password has 12 to 128 characters, without accents", {"bo": again}),
        ("set", NAME, "bo", word, ["eleven char"] * 2, length, {"bo": again}),
        ("set", NAME, "bo", word, ["twelve caf\u00e9s"] * 2, length, {}),
        ("set", NAME, "b.o", word, ["a:b'$c \"\\ d e"] * 2, "", {"b.o": "a:b'$c \"\\ d e", "bo": again, "ann": SECRET}),
        ("remove", NAME, "b.o", None, [], "", {"b.o": None, "bo": again}),
        ("remove", NAME, "b.o", None, [], "nobody has the login b.o", {"bo": again}),
        ("remove", NAME, "bo", None, [], "", {"bo": None, "ann": SECRET}),
        ("set", NAME, "a:b", word, [SECRET] * 2, "a name has 1 to 32 letters and digits without accents, or . _ -", {}),
        ("set", "page.example", "bo", word, [SECRET] * 2, "no hotel has the name page.example", {}),
        ("set", "../x", "bo", word, [SECRET] * 2, "no hotel has the name ../x", {}),
        ("set", NAME, "sp", word, [" blanks at ends "] * 2, "", {"sp": " blanks at ends ", "ann": SECRET}),
        ("set", NAME, "Ann", word, [SECRET] * 2, "ann differs from Ann only by capital letters", {"Ann": None}),
        ("remove", NAME, "sp", None, [], "", {"sp": None}),
        *(("set", NAME, "bo", role, [SECRET] * 2, "set HOTEL NAME manager|clerk|night, remove HOTEL NAME", {})
          for role in ("Clerk", "clerc", "", None)),
        ("remove", NAME, "ann", "clerk", [], "set HOTEL NAME manager|clerk|night, remove HOTEL NAME", {}),
        ("give", NAME, "bo", word, [], "set HOTEL NAME manager|clerk|night, remove HOTEL NAME, or list HOTEL", {})]


def logins(desk):
    """hotel_login: what it does and says, and what then opens the page at once."""
    with before(desk, Recorder()) as site:
        logins_of = site.etc / f"hotel/{NAME}.logins"
        for what, host, name, role, typed, fault, opens in login_steps():
            was = logins_of.read_bytes()
            words = [what, host, name] + [role] * (role is not None)
            done = site.run("hotel_login", *words, given="".join(f"{one}\n" for one in typed))
            said = done.stderr.strip().splitlines()[-1:] if done.returncode else [""]
            yield (what, name, typed), True, said[0].startswith(f"hotel_login: {fault}" if fault else "")
            yield (what, name, typed, "status"), bool(fault), bool(done.returncode)
            yield (what, name, typed, "changes"), not fault, logins_of.read_bytes() != was
            for who, secret in opens.items():
                yield (what, name, who), 200 if secret else 401, site.ask("GET /", who=who, secret=secret or SECRET)[0]
        yield "an earlier password", 401, site.ask("GET /", who="ann", secret="another secret")[0]
        yield "the names", "ann manager\n", site.run("hotel_login", "list", NAME).stdout
        yield "the file", (0o640, [f"{name}.logins" for name in (NAME, OTHER)]), (
            logins_of.stat().st_mode & 0o777, sorted(file.name for file in logins_of.parent.glob("*.logins*")))
        yield from logins_at_once(site)


def logins_at_once(site):
    """Of logins that are set and removed at once each is as if it were alone."""
    def each(*calls):
        with concurrent.futures.ThreadPoolExecutor(8) as pool:
            done = pool.map(lambda words: site.run("hotel_login", *words, given=f"{SECRET}\n" * 2).returncode, calls)
            return sum(done), site.run("hotel_login", "list", NAME).stdout.split("\n")[:-1]

    eight = [f"a{number}" for number in range(8)]
    status, names = each(*(("set", NAME, name, "clerk") for name in eight))
    yield "eight at once", (0, [*(f"{name} clerk" for name in eight), "ann manager"]), (status, sorted(names))
    status, names = each(*((("remove", NAME, name) if name < "a4" else ("set", NAME, name, "night")) for name in eight))
    yield "four removed", (0, [*(f"{name} night" for name in eight[4:]), "ann manager"]), (status, sorted(names))


def certificates(desk):
    """The authority vouches for the hotels' names alone; its key is on the stick alone, and it stays the same."""
    with before(desk, Recorder()) as site:
        folder, stick = site.etc / "hotel", site.folder / "media/stick"
        sign = ("openssl req -x509 -CA ca.crt -CAkey \"$1\" -newkey ec -pkeyopt ec_paramgen_curve:P-256 -noenc -days 9 "
                "-subj /CN=x -addext basicConstraints=critical,CA:FALSE -addext subjectAltName=$2 -keyout /dev/null "
                "-out x.crt && openssl verify -CAfile ca.crt x.crt")
        for name, is_good in (("DNS:desk.hotel.example", True), ("DNS:new.hotel.example", True),
                              ("DNS:bank.example", False), ("DNS:xhotel.example", False), ("IP:9.9.9.9", False),
                              ("IP:192.168.1.10", False), ("IP:2001:db8::1", False)):
            done = site.run("bash", "-c", f"cd {folder} && {sign}", "bash", str(stick / "ca.key"), name)
            yield name, is_good, done.returncode == 0
        (folder / "x.crt").unlink()
        yield "the key", ["ca.key"], [file.name for file in site.folder.rglob("*.key") if file.name != "desk.key"]
        kept = {file.name: file.read_bytes() for file in (*folder.iterdir(), *stick.iterdir())}
        for name, given, fault in (("nothing", [], "name the folder of the stick"),
                                   ("no stick", ["/nowhere"], "name the folder of the stick"),
                                   ("a stick that isn't mounted", [str(desk.folder)], "no stick is mounted at"),
                                   ("an empty name", [""], "name the folder of the stick")):
            done = site.run("hotel_certificate", *given)
            yield name, (1, True), (done.returncode, fault in done.stderr)
        (folder / "a.page.example.desk").write_text("")
        done = site.run("hotel_certificate", str(stick))
        yield "another domain", (1, True), (done.returncode, "can't vouch for a.page.example" in done.stderr)
        (folder / "a.page.example.desk").unlink()
        yield "what is changed", kept, {file.name: file.read_bytes() for file in (*folder.iterdir(), *stick.iterdir())}
        (folder / "ca.crt").unlink()
        done = site.run("hotel_certificate", str(stick))
        yield "the disk was lost", (0, kept["ca.crt"]), (done.returncode, (folder / "ca.crt").read_bytes())
        (folder / "ca.crt").rename(folder / "old")
        (stick / "ca.crt").unlink()
        done = site.run("hotel_certificate", str(stick))
        yield "an authority's key is kept", (1, True), (done.returncode, "is of another authority" in done.stderr)
        (folder / "old").rename(folder / "ca.crt")
        kept["desk.crt"] = (folder / "desk.crt").read_bytes()
        done = site.run("hotel_certificate", str(stick))
        yield "again", (0, kept["ca.crt"], True), (done.returncode, (folder / "ca.crt").read_bytes(),
                                                   (folder / "desk.crt").read_bytes() != kept["desk.crt"])
        yield from authority_ends(site, stick)


def authority_ends(site, stick):
    """A certificate doesn't outlast its authority, and an authority in its last month vouches for nothing more."""
    folder = site.etc / "hotel"
    for days in 3650, 600, 29:
        site.run("openssl", "req", "-x509", "-newkey", "ed25519", "-noenc", "-days", str(days), "-subj", "/CN=x",
                 "-keyout", str(stick / "ca.key"), "-out", str(folder / "ca.crt"))
        done = site.run("hotel_certificate", str(stick))
        yield (days, done.stderr), days < 30, "the authority ends" in done.stderr
        ends = "openssl verify -CAfile ca.crt -attime $(($(date +%s) + $0 * 86400)) desk.crt"
        for after in min(days, 800) - 2, min(days, 800) + 1:
            was = site.run("bash", "-c", f"cd {folder} && {ends}", str(after)).returncode == 0
            yield (days, after), days > 30 and after < min(days, 800), was


def contents(site):
    """The settings of a site."""
    return {file: file.read_bytes() for file in site.folder.rglob("etc/*/*") if file.is_file()}


def guide(desk):
    """The lines of the documents make two hotels, and give and take logins. A hotel isn't made a second time."""
    with before(desk, Recorder()) as site:
        yield "the services", ["hotel@8080.target", "hotel@8081.target"], re.findall(
            r"systemctl enable .* (hotel@\d+.target)", site.said["Install"] + site.said["Several hotels"])
        site.guide("Logins")
        yield "the logins", ["ann manager\n", "bo manager\n"], [
            site.run("hotel_login", "list", name).stdout for name in (NAME, OTHER)]
        kept = contents(site)
        for words, fault in ([NAME, "127.0.0.1"], "this port has a desk"), (
                [NAME, "127.0.0.1", "8082"], "this name has a desk"), (
                ["x.example", "127.0.0.9", "8082"], "hasn't the address"), (
                ["X.example", "127.0.0.1", "8082"], "in small letters"), (["x.example", "127.0.0.1", "80"], "PORT is"):
            done = site.run("hotel_create", *words)
            yield (words, done.stderr), (1, True), (done.returncode, fault in done.stderr)
        (site.folder / "var/backups/hotel-8082/2031-05-01-041500").mkdir(parents=True)
        done = site.run("hotel_create", "x.example", "127.0.0.1", "8082")
        yield done.stderr, (1, True), (done.returncode, "--port 8082 restore BACKUP" in done.stderr)
        yield "what is changed", kept, contents(site)
        yield "lines that can't be pasted", [], re.findall(r"^# [a-z].*$", GUIDES[1].read_text(), re.MULTILINE)


# Two networks, of the computer with the table and of another computer, and a cable. Prints how each account connects to
# the second desk's port here; and how often the other computer connects to the page, by an address of the reception's
# network, and by one of another network.
NETWORKS = """\
nft -f table && nft -f table && ip link set lo up || exit
unshare -n sleep 60 &
other=$!
until [ "$(readlink /proc/$other/ns/net)" != "$(readlink /proc/self/ns/net)" ]; do sleep 0.05; done
beside() { nsenter -t $other -n "$@"; }
ip link add v0 type veth peer name v1 netns $other
for address in 192.168.1.10 10.0.0.1; do ip addr add $address/24 dev v0; done
for address in 192.168.1.20 10.0.0.2; do beside ip addr add $address/24 dev v1; done
ip link set v0 up; beside ip link set v1 up
for port in 443 8081; do "$PYTHON" takes.py $port & "$PYTHON" connects.py 0 127.0.0.1 127.0.0.1 $port 0; done
for account in 0 1 33 65534; do "$PYTHON" connects.py $account 127.0.0.1 127.0.0.1 8081 1; done
beside "$PYTHON" connects.py 0 192.168.1.20 192.168.1.10 443 70
beside "$PYTHON" connects.py 0 10.0.0.2 10.0.0.1 443 1
kill $(jobs -p)
"""
TAKES = """\
import socket, sys
listener, held = socket.create_server(("", int(sys.argv[1])), backlog=200), []
while True:
    held.append(listener.accept())
"""
# With no number of connections it waits until somebody listens.
CONNECTS = """\
import os, socket, sys, time
account, source, to, port, count = sys.argv[1:]
def connects():
    client = socket.socket()
    client.settimeout(1.5)
    client.bind((source, 0))
    held.append(client)
    return client.connect_ex((to, int(port))) == 0
held = []
if count == "0":
    while open("/proc/net/tcp").read().find(f":{int(port):04X} 00000000:0000 0A") < 0:
        time.sleep(0.05)
else:
    os.setuid(int(account))
    print(sum([connects() for _ in range(int(count))]))
"""


def firewall(desk):
    """The table of the firewall, in a network of its own: to a desk's port only the accounts of the desk and of nginx
    connect, and to the page only the reception's network, with 60 connections at once."""
    may = subprocess.run(["unshare", "-n", "nft", "list", "ruleset"], check=False, stderr=subprocess.DEVNULL)
    if may.returncode:
        return
    table = (DEPLOY / "hotel_desk.nft").read_text().replace('"hotel"', '"nobody"')
    for name, text in (("table", table.replace("/etc/hotel_desk", str(desk.folder))),
                       ("reception.nft", "define reception = 192.168.1.0/24\n"), ("takes.py", TAKES),
                       ("connects.py", CONNECTS)):
        (desk.folder / name).write_text(text)
    done = subprocess.run(["unshare", "-n", "bash", "-c", NETWORKS], stdout=subprocess.PIPE, stderr=subprocess.PIPE,
                          cwd=desk.folder, env=dict(os.environ, PYTHON="/usr/bin/python3", PATH=PATH), text=True,
                          timeout=60, check=False)
    yield ("root, daemon, nginx, the desk; the reception; others", done.stderr), "0 0 1 1 60 0", " ".join(
        done.stdout.split())
