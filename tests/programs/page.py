"""Looks at what `radlimitd run` shows over HTTP, while an access server asks it.

An access server logs in, is refused for several causes, and tells of sessions. Then each path is fetched: the metrics
are read by a strict reader of Prometheus' text format, the accounts as JSON, and the page by an HTML reader, and their
numbers have to be those of what was sent. Names of accounts that are markup or have quotes have to come back as text.
Requests of other methods, paths and names of the host, and such as are too long, have to be refused with their statuses.
At another address of the machine than its own no connection to the page may be had.

An access server that names itself by its NAS-IPv6-Address alone asks another server: the metrics and the page have to show
it by that address.

Then 20 clients send an octet now and then, and others do not read what they asked for: a browser beside them has to get
the page within a second, each of them is let go within six seconds, and the server ends within a second and a half of a
`stop`.

Where there is a Chromium it shows the page at 400 and at 1,600 pixels, in light and in dark: a picture is made, the page
asks for nothing else, and its console is empty.

usage: python3 -m tests.programs.page [FOLDER]        the pictures stay in FOLDER, if it is given
It wants Linux and the built program.
"""

import contextlib
import functools
import html.parser
import json
import os
import re
import shutil
import socket
import subprocess
import sys
import tempfile
import time
from concurrent.futures import ThreadPoolExecutor

from tests.lib import exposition, served

SECRET, PASSWORD = b"testing123", b"password"
OTHER_HOST = "127.0.0.2"  # another address of this machine than the one that the page is bound to
NAS = "nas=bras\\x20\\x221\\x22"  # as `sessions` has the name of the access server
MARKUP = "<script>alert(1)</script>"
QUOTED = "\"quoted\"&'so'\\"
DEVICE = b"<i>00-00-5E-00-53-2A</i>&\""  # a Calling-Station-Id
ACCOUNTS = [("nemo", 2), (MARKUP, 3), (QUOTED, 4), ("idle", 5)]
REFUSED = ["Time", "Account", "Station", "Cause", "Client", "Access server"]  # the heads of a table
SERVERS = ["Client", "Access server", "Sessions", "Reserved", "Last packet", "Silent for"]
POLICY = "default-src 'none'; style-src 'unsafe-inline'; frame-ancestors 'none'"
DIGITS = "20010db8000000000000000000000009"  # of a NAS-IPv6-Address
# from version 3 on that names an access server; secrets are longer there
LONG_SECRET = SECRET * 2
ACCOUNTS_OF_3 = f"""version = 3
[[client]]
address = "{served.HOST}"
secret = "{LONG_SECRET.decode()}"
[[account]]
name = "nemo"
password = "{PASSWORD.decode()}"
places = 2
"""
SECONDS = served.patience(10)  # that an exchange may take
BROWSER_SECONDS = served.patience(120)  # that a browser may take
# how often a browser is started that makes no picture: it gives up by itself where a machine does much else
BROWSERS = 3
TRICKLERS = 20
WORDS = {
    "accept": 4,
    "reject_limit": 1,
    "reject_wrong_password": 3,
    "reject_unknown_account": 1,
    "drop_bad_signature": 1,
}


def requests():
    """What is asked of both ports: places of ports, and octets. Two sessions of nemo fill its places; a third login has
    none. The account file says nothing of stations."""
    number = 0
    for name, password, session, station in (
        (b"nemo", PASSWORD, b"n1", b"n1"), (b"nemo", PASSWORD, b"n2", None), (b"nemo", PASSWORD, None, DEVICE),
        (b"nemo", b"wrong", None, b"s" * 64), (b"nemo", b"wrong", None, b"s" * 65), (b"nemo", b"wrong", None, b""),
        (b"<b>nobody", PASSWORD, None, None), (MARKUP.encode(), PASSWORD, b"m1", None), (QUOTED.encode(), PASSWORD, b"q1", None),
    ):
        number += 1
        attributes = served.attribute(1, name) + served.attribute(32, b"bras \"1\"")
        attributes += served.attribute(31, station) if station is not None else b""
        yield 0, served.access_request(number, SECRET, attributes, bytes([number]) * 16, password), name, session


def ask(ports):
    """Asks both ports, each once what was before is answered: how many octets were answered to what."""
    with socket.socket(socket.AF_INET, socket.SOCK_DGRAM) as one:
        one.bind((served.HOST, 0))
        one.settimeout(SECONDS)
        for at, octets, name, session in requests():
            one.sendto(octets, (served.HOST, int(ports[at])))
            reply = one.recv(4096)
            if reply[0] != 2 or session is None:
                continue
            mark = [value for kind, value in served.attributes_of(reply) if kind == 25]
            attributes = served.attribute(1, name) + served.attribute(32, b"bras \"1\"") + served.attribute(44, session)
            attributes += b"".join(served.attribute(25, value) for value in mark)
            one.sendto(served.accounting_request(1, SECRET, served.START, attributes), (served.HOST, int(ports[1])))
            one.recv(4096)
        # a packet that is signed with another secret is dropped
        wrong = served.access_request(99, b"other", served.attribute(1, b"nemo"), bytes(16), PASSWORD, signs=True)
        one.sendto(wrong, (served.HOST, int(ports[0])))


class Reply:
    """What is answered to octets: a status, fields by their names, and a body."""

    def __init__(self, octets):
        head, _, self.body = octets.partition(b"\r\n\r\n")
        lines = head.decode("ascii").split("\r\n")
        self.status = int(lines[0].split(" ")[1]) if lines[0].startswith("HTTP/1.") else None
        self.fields = {name.lower(): value for name, _, value in (line.partition(": ") for line in lines[1:])}


def sent(port, octets, seconds=SECONDS):
    """What is answered to octets until the other side closes."""
    with socket.create_connection((served.HOST, port), timeout=seconds) as one:
        one.sendall(octets)
        found = b""
        with contextlib.suppress(ConnectionResetError):
            while piece := one.recv(65_536):
                found += piece
        return Reply(found)


def fetched(port, path, method="GET", host=None, version="1.1"):
    """What is answered to a request."""
    name = f"127.0.0.1:{port}" if host is None else host
    field = f"Host: {name}\r\n" if name else ""
    return sent(port, f"{method} {path} HTTP/{version}\r\n{field}\r\n".encode())


class Page(html.parser.HTMLParser):
    """A page that is read: the text of each cell of its tables, and what it would load or run."""

    VOID = {"meta", "rect", "path"}

    def __init__(self, text):
        super().__init__()
        self.tables, self.rows, self.open, self.loads, self.scripts = [], [], [], [], 0
        self.feed(text)
        self.close()
        self.is_whole = not self.open

    def handle_starttag(self, tag, attributes):
        if tag not in self.VOID:
            self.open.append(tag)
        self.scripts += tag == "script"
        self.loads += [value for name, value in attributes if name in ("src", "srcset", "data", "poster")]
        self.loads += [value for name, value in attributes if tag == "link" and name == "href"]
        self.scripts += sum(name.startswith("on") for name, _ in attributes)
        if tag == "table":
            self.tables.append([])
        elif tag == "tr":
            self.rows.append([])
            self.tables[-1].append(self.rows[-1])
        elif tag in ("td", "th") and self.rows:
            self.rows[-1].append("")

    def handle_startendtag(self, tag, attributes):
        self.handle_starttag(tag, attributes)
        if tag not in self.VOID:
            self.open.pop()

    def handle_endtag(self, tag):
        if not self.open or self.open.pop() != tag:
            raise ValueError(f"the page closes {tag}, which is not open")

    def handle_data(self, text):
        if {"td", "th"} & set(self.open):
            self.rows[-1][-1] += text

    def below(self, heads):
        """The cells of each row of the table with these heads."""
        tables = [[[cell.strip() for cell in row] for row in table] for table in self.tables]
        return next(table[1:] for table in tables if table[0] == heads)


def looked_at(port):
    """What each path shows of what was asked."""
    metrics = fetched(port, "/metrics")
    yield "metrics: status", metrics.status, 200
    found = exposition.Metrics(metrics.body.decode("utf-8"))
    for word, number in WORDS.items():
        yield f"metrics: {word}", found.value("radlimitd_datagrams_total", port="auth", end=word), number
        yield f"metrics of the client: {word}", found.value(
            "radlimitd_client_datagrams_total", client=served.HOST, port="auth", end=word), number
    yield "metrics: start", found.value("radlimitd_datagrams_total", port="acct", end="start"), 4
    answers = sum(number for word, number in WORDS.items() if word != "drop_bad_signature")
    yield "metrics: answers", found.value("radlimitd_answer_seconds_count", port="auth"), answers
    for name, number in (("places", 14), ("places_held", 4), ("accounts", 4), ("accounts_full", 1), ("recording", 1),
                         ("sockets_dropped_total", 0), ("access_servers", 1)):
        yield f"metrics: {name}", found.value(f"radlimitd_{name}"), number
    for state, number in (("reserved", 0), ("live", 4), ("stale", 0)):
        yield f"metrics: sessions that are {state}", found.value("radlimitd_sessions", state=state), number
    yield "metrics: over", found.value("radlimitd_over_total"), 0
    server = {"client": served.HOST, "nas": NAS}
    yield "metrics: an access server's reservations", found.value("radlimitd_access_server_reserved", **server), 0
    yield "metrics: an access server's sessions", found.value("radlimitd_access_server_sessions", **server), 4
    silent = found.value("radlimitd_access_server_silent_seconds", **server)
    yield "metrics: an access server's silence", 0 <= silent <= SECONDS, True
    accounts = json.loads(fetched(port, "/accounts.json").body)
    yield "accounts: names", [one["name"] for one in accounts["accounts"]], [name for name, _ in ACCOUNTS]
    yield "accounts: places", [one["places"] for one in accounts["accounts"]], [places for _, places in ACCOUNTS]
    yield "accounts: held", [one["held"] for one in accounts["accounts"]], [2, 1, 1, 0]
    health = fetched(port, "/health")
    yield "health", (health.status, health.body), (200, b"ok\n")
    yield from page_looked_at(port)


def page_looked_at(port):
    """What the page shows."""
    reply = fetched(port, "/")
    yield "page: status", reply.status, 200
    yield "page: fields", {name: reply.fields[name] for name in reply.fields if name != "content-length"}, {
        "content-type": "text/html; charset=utf-8", "cache-control": "no-store", "x-content-type-options": "nosniff",
        "content-security-policy": POLICY, "connection": "close"}
    yield "page: length", int(reply.fields["content-length"]), len(reply.body)
    page = Page(reply.body.decode("utf-8"))
    yield "page: whole, and nothing is loaded or run", (page.is_whole, page.loads, page.scripts), (True, [], 0)
    rows = [[cell.strip() for cell in row] for row in page.rows]
    yield "page: accounts", [(row[0], row[2], row[3]) for row in rows if len(row) == 8][1:], [
        ("nemo", "2", "2"), (MARKUP, "1", "3"), (QUOTED, "1", "4"), ("idle", "0", "5")]
    yield "page: refused", [tuple(row[1:4]) for row in page.below(REFUSED)], [
        ("–", "–", "Dropped: wrong signature"),
        ("\\x3cb\\x3enobody", "–", "Rejected: unknown account"),
        ("nemo", "–", "Rejected: wrong password"),
        ("nemo", "–", "Rejected: wrong password"),
        ("nemo", "s" * 64, "Rejected: wrong password"),
        ("nemo", "\\x3ci\\x3e00-00-5E-00-53-2A\\x3c/i\\x3e\\x26\\x22", "Rejected: no free place")]
    yield "page: from where", [tuple(row[4:]) for row in page.below(REFUSED)], [
        (served.HOST, "–"), *[(served.HOST, "bras\\x20\\x221\\x22")] * 5]
    yield "page: access servers", [tuple(row[:4]) for row in page.below(SERVERS)], [(served.HOST, NAS, "4", "0")]
    yield "page: accepted", [row[1] for row in rows if row[0] == "Accepted"], ["4"]


def refused(port):
    """What is refused, and how."""
    head = fetched(port, "/", method="HEAD")
    yield "HEAD", (head.status, head.body, "content-length" in head.fields), (200, b"", True)
    other = fetched(port, "/", method="POST")
    yield "POST", (other.status, other.fields["allow"]), (405, "GET, HEAD")
    yield "another path", fetched(port, "/favicon.ico").status, 404
    yield "a query", fetched(port, "/health?x=1").status, 200
    for host, status in (("127.0.0.1", 200), ("localhost", 200), (f"localhost:{port}", 200), ("example.com", 421),
                         (f"127.0.0.1:{port + 1}", 421), ("127.0.0.1.example.com", 421), ("127.0.0.2", 421)):
        yield f"host {host}", fetched(port, "/health", host=host).status, status
    yield "no host", fetched(port, "/health", host="", version="1.0").status, 421
    yield "a target with its host", fetched(port, f"http://127.0.0.1:{port}/health", host="example.com").status, 200
    yield "a target with another host", fetched(port, "http://example.com/health").status, 421
    name = f"Host: 127.0.0.1:{port}\r\n".encode()
    yield "a long target", sent(port, b"GET /" + b"x" * 20_000).status, 414
    yield "long fields", sent(port, b"GET / HTTP/1.1\r\n" + name + b"X: " + b"x" * 20_000).status, 431
    yield "a long body", sent(port, b"GET / HTTP/1.1\r\n" + name + b"Content-Length: 5000\r\n\r\n" + b"x" * 5_000).status, 413
    yield "no request", sent(port, b"hello\r\n\r\n").status, 400
    twice = b"GET /health HTTP/1.1\r\n" + name + b"\r\n"
    yield "one request a connection", sent(port, twice * 2).body, b"ok\n"


def had_at(address, port):
    """What a client has that asks for the page at this address: a connection, or none."""
    try:
        with socket.create_connection((address, port), timeout=SECONDS):
            return "a connection"
    except ConnectionRefusedError:
        return "none"


def elsewhere(port):
    """What is had at the address that the page is bound to, and at another one of this machine."""
    yield "at its own address", had_at(served.HOST, port), "a connection"
    yield "at another address", had_at(OTHER_HOST, port), "none"


def trickle(port):
    """Sends an octet now and then, until the other side closes: after how many seconds."""
    began = time.monotonic()
    with socket.create_connection((served.HOST, port), timeout=SECONDS) as one, contextlib.suppress(OSError):
        for octet in b"GET / HTTP/1.1\r\nHost: " + b"x" * 100:
            one.sendall(bytes([octet]))
            one.settimeout(0.2)
            with contextlib.suppress(TimeoutError):
                if not one.recv(1):
                    break
    return time.monotonic() - began


def trickled(port):
    """What a browser gets beside clients that trickle, and beside some that do not read."""
    with ThreadPoolExecutor(TRICKLERS) as pool, contextlib.ExitStack() as held:
        clients = [pool.submit(trickle, port) for _ in range(TRICKLERS)]
        for _ in range(4):
            one = held.enter_context(socket.create_connection((served.HOST, port), timeout=SECONDS))
            one.sendall(f"GET /accounts.json HTTP/1.1\r\nHost: 127.0.0.1:{port}\r\n\r\n".encode())
        time.sleep(1)
        slowest = 0.0
        for _ in range(10):
            began = time.monotonic()
            yield "a page beside them", fetched(port, "/").status, 200
            slowest = max(slowest, time.monotonic() - began)
        yield from served.in_time("the page came within a second", slowest, 1)
        lasted = max(client.result() for client in clients)
        yield from served.in_time("each is let go within six seconds", lasted, 6)
    print(f"slowest page beside {TRICKLERS} clients that trickle: {slowest * 1000:.0f} ms; longest of them: {lasted:.1f} s")


def stopped(process, file, port):
    """How the server ends beside clients that trickle."""
    with ThreadPoolExecutor(4) as pool:
        clients = [pool.submit(trickle, port) for _ in range(4)]
        time.sleep(0.5)
        began = time.monotonic()
        subprocess.run([served.DAEMON, "stop", file], check=True, capture_output=True)
        status = process.wait(SECONDS)
        took = time.monotonic() - began
        for client in clients:
            client.result()
    print(f"stop beside them: {took * 1000:.0f} ms")
    return [("stop: status", status, 0), *served.in_time("stop within a second and a half", took, 1.5)]


BROWSER = [
    "chromium", "--headless=new", "--no-sandbox", "--disable-gpu", "--hide-scrollbars", "--no-first-run",
    "--disable-background-networking", "--disable-component-update", "--disable-sync", "--disable-extensions",
    "--host-resolver-rules=MAP * ~NOTFOUND, EXCLUDE 127.0.0.1", "--enable-logging=stderr", "--v=0",
]


def browsed(words, address):
    """What a browser says on standard error that is given words and an address: None where it does not end in time."""
    with tempfile.TemporaryDirectory() as profile:
        words = [*BROWSER, f"--user-data-dir={profile}", *words, address]
        try:
            return subprocess.run(words, capture_output=True, timeout=BROWSER_SECONDS, check=False).stderr
        except subprocess.TimeoutExpired:
            return None


def shown(folder, port, width, theme):
    """A picture of the page, as a browser shows it: the picture's size, what its console says, and what the page asked
    for besides itself. None where the browser does not end in time, or makes none."""
    picture = os.path.join(folder, f"page-{width}-{theme}.png")
    log = os.path.join(folder, f"net-{width}-{theme}.json")
    words = [f"--log-net-log={log}", f"--window-size={width},2000", f"--screenshot={picture}"]
    words += ["--force-dark-mode"] if theme == "dark" else []
    for _ in range(BROWSERS):
        said = browsed(words, f"http://127.0.0.1:{port}/")
        if said is not None and os.path.exists(log) and os.path.exists(picture):
            break
        print(f"page: the browser made no picture: {(said or b'')[-300:]!r}")
    else:
        return None
    with open(log, encoding="utf-8") as file:
        found = json.load(file)
    asked = {event["params"]["url"] for event in found["events"]
             if "url" in event.get("params", {}) and str(event["params"].get("initiator", "")).startswith("http")}
    asked |= {event["params"]["url"] for event in found["events"]
              if str(event.get("params", {}).get("url", "")).startswith("http://127.0.0.1:")}
    os.remove(log)
    with open(picture, "rb") as file:
        octets = file.read()
    return int.from_bytes(octets[16:20], "big"), re.findall(rb"CONSOLE.*", said), asked


def shown_in_a_browser(port, folder):
    """The page in a browser, at both widths, in light and in dark. That the console is read is tried first."""
    if not shutil.which("chromium"):
        print("left out: pictures of the page (no chromium here)")
        return []
    results = []
    said = browsed(["--dump-dom"], "data:text/html,<script>console.error('seen')</script>")
    results.append(("the console is read", b"CONSOLE" in (said or b""), True))
    for width in (400, 1600):
        for theme in ("light", "dark"):
            expected = width, [], {f"http://127.0.0.1:{port}/"}
            results.append((f"picture {width} {theme}", shown(folder, port, width, theme), expected))
    return results


def account_file(folder):
    """Writes the account file of most cases."""
    rows = [(json.dumps(name)[1:-1], PASSWORD, places, 1) for name, places in ACCOUNTS]
    served.account_file(
        os.path.join(folder, "accounts.toml"), [(served.HOST, SECRET, False)], rows, shards=1, reserve=60, keep=10)


def daemon_file(folder, ports, port):
    """Writes the file of a server that shows itself at a TCP port, and gives its name."""
    file = served.daemon_file(folder, ports, 1)
    with open(file, "a", encoding="ascii") as text:
        text.write(f"[web]\nport = {port}\n")
    return file


def ask_by_address(ports):
    """A login of an access server that names itself by its NAS-IPv6-Address alone, the Start of its session, and a login
    with a wrong password: the Codes of the answers."""
    names = served.attribute(1, b"nemo") + served.attribute(95, bytes.fromhex(DIGITS))
    with socket.socket(socket.AF_INET, socket.SOCK_DGRAM) as one:
        one.bind((served.HOST, 0))
        one.settimeout(SECONDS)
        for port, request in zip([*ports, *ports], (
            served.access_request(1, LONG_SECRET, names, bytes(16), PASSWORD, signs=True),
            served.accounting_request(2, LONG_SECRET, served.START, names + served.attribute(44, b"v6")),
            served.access_request(3, LONG_SECRET, names, bytes(16), b"wrong", signs=True),
        )):
            one.sendto(request, (served.HOST, int(port)))
            yield one.recv(4096)[0]


def by_address():
    """An access server that names itself by its NAS-IPv6-Address alone, where one that has a session is shown, and one
    whose login was refused."""
    with tempfile.TemporaryDirectory() as folder:
        ports = served.free_ports()
        port = int(served.free_ports()[0])
        with open(os.path.join(folder, "accounts.toml"), "w", encoding="ascii") as text:
            text.write(ACCOUNTS_OF_3)
        process = served.daemon(daemon_file(folder, ports, port))
        try:
            served.greeting(process, SECONDS)
            yield "by IPv6: answers", list(ask_by_address(ports)), [2, 5, 3]
            time.sleep(1.5)  # until a look is taken anew, and what was refused is told
            metrics = fetched(port, "/metrics").body.decode("utf-8")
            lines = [line for line in metrics.splitlines() if line.startswith("radlimitd_access_server_")]
            labels = f'{{client="{served.HOST}",nas="nas-address={DIGITS}"}}'
            yield "by IPv6: metrics", [re.sub(r"(silent_seconds.*) \d+$", r"\1 N", line) for line in lines], [
                f"radlimitd_access_server_sessions{labels} 1",
                f"radlimitd_access_server_reserved{labels} 0",
                f"radlimitd_access_server_silent_seconds{labels} N"]
            page = Page(fetched(port, "/").body.decode("utf-8"))
            yield "by IPv6: page", [tuple(row[:4]) for row in page.below(SERVERS)], [
                (served.HOST, f"nas-address={DIGITS}", "1", "0")]
            yield "by IPv6: refused", [row[5] for row in page.below(REFUSED)], ["2001:db8::9"]
        finally:
            process.kill()
            process.wait()


def main():
    """Runs all of it."""
    kept = sys.argv[1] if len(sys.argv) > 1 else None
    with tempfile.TemporaryDirectory() as folder:
        ports = served.free_ports()
        port = int(served.free_ports()[0])
        account_file(folder)
        file = daemon_file(folder, ports, port)
        process = served.daemon(file)
        try:
            served.greeting(process, SECONDS)
            ask(ports)
            time.sleep(1.5)  # until a look is taken anew, and what was refused is told
            results = [*looked_at(port), *refused(port), *elsewhere(port)]
            results += shown_in_a_browser(port, kept or folder)
            results += served.one_that_passes(functools.partial(trickled, port))
            results += stopped(process, file, port)
        finally:
            if process.poll() is None:
                process.kill()
            process.wait()
    served.verdict([*results, *by_address()])


main()
