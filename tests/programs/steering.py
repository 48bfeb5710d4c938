"""Asks a running `radlimitd` what an operator asks it: `status`, `accounts`, `sessions` and `free`, of one and of all.

Names and ids are hostile: spaces, line feeds, quotation marks, backslashes, octets that are no characters, commands of
a shell. What `sessions` prints is read back here by a reader of its own, and it is handed to `free`: as words, as one
word, and pasted into a shell. `free` frees exactly that link, the log has its Stop, and the next login is accepted.

Operators that send nothing, a line without an end, an octet now and then, or that do not read a long answer keep no
access server waiting, and others only for a while.

Where accounts count by stations, a device that dials again has the place of its own session at once. `sessions` and the
log show stations, and a server that was killed knows them. A restart that is told late ends what is older than it alone.

usage: python3 -m tests.programs.steering
It wants Linux and the built program.
"""

import contextlib
import grp
import json
import os
import pty
import re
import shlex
import socket
import subprocess
import sys
import tempfile
import time

from tests.lib import history, served
from tests.lib.version import VERSION

SECRET, PASSWORD = b"testing123", b"arctangent"
WAIT = served.patience(20)  # seconds
LONG = 16_384 - 3  # accounts that only make answers long
ON = 7  # the Acct-Status-Type Accounting-On
OLDER = 3  # seconds by which a restart is told late
HEAD = """version = 1
shards = 1
reserve_secs = 60
live_secs = 900
grace_secs = 900
closed_secs = 3600
keep_secs = 10
[[client]]
address = "127.0.0.1"
secret = "testing123"
"""
ACCOUNT = "[[account]]\nname = '{}'\npassword = \"arctangent\"\nplaces = {}\nports = 1\n"
HOSTILE_ACCOUNT = b'$(exit)`"\\;|&#'
HOSTILE_IDS = [
    b" ",
    b"\n",
    b"\\",
    b"'",
    b'"',
    b"\xff",
    b"\\x41",
    b"\\e",
    b"-",
    b"a b\nok\nerror no\r\t\0'\"\\\xff\xe2\x82\xac",
    b"free nemo 127.0.0.1 unnamed s1",
    b"$(touch pasted)`touch pasted`;touch pasted",
    bytes(range(1, 254)),
]


def octets(word):
    """The octets that a word stands for."""
    if word == "\\e":
        return b""
    return re.sub(rb"\\x(..)", lambda found: bytes([int(found[1], 16)]), word.encode("ascii"))


def moment_of(line):
    """The moment of a line of `radlimitd lines`, in seconds since 1970."""
    return int(line.split(" ")[2])


def station_of(name):
    """The attribute of a station."""
    return served.attribute(31, name)


def many_accounts():
    """The account file of most cases, in which names make answers long."""
    rows = [("nemo", 2), (HOSTILE_ACCOUNT.decode(), 1), ("dora", 3)]
    rows += [("\\" * 58 + f"{number:06}", 1) for number in range(LONG)]
    return HEAD + "".join(ACCOUNT.format(*row) for row in rows)


class Steered:
    """A server, an access server and an operator."""

    def __init__(self, folder, accounts, secret=SECRET):
        self.folder, self.secret, self.number = folder, secret, 0
        self.write(accounts)
        self.socket = socket.socket(socket.AF_INET, socket.SOCK_DGRAM)
        self.socket.settimeout(WAIT)
        for _ in range(10):
            self.ports = [int(port) for port in served.free_ports()]
            self.file = served.daemon_file(folder, self.ports, 1)
            if self.begins():
                return
            self.process.wait(WAIT)
        sys.exit(f"radlimitd has not begun: {self.said}")

    def write(self, accounts):
        """Writes the account file."""
        with open(os.path.join(self.folder, "accounts.toml"), "w", encoding="ascii") as file:
            file.write(accounts)

    def begins(self):
        """Starts the server: whether it begins."""
        self.process = served.daemon(self.file)
        self.said = served.greeting(self.process, WAIT)
        return served.GREETING.match(self.said) is not None

    def kill(self):
        """Kills it."""
        self.process.kill()
        self.process.wait(WAIT)
        self.process.stderr.close()

    def asked(self, *words, code=0):
        """What the program prints, and what it says, where it is asked this of its server."""
        printed, said, status = served.asked(*words, self.file, seconds=WAIT)
        return printed + said + (f"status {status}\n" if status != code else "")

    def links(self, *flags):
        """The lines of all links that flags leave, without their ages."""
        return [re.sub(r"age=\d+", "age=N", line) for line in self.asked("sessions", *flags).splitlines()]

    def typed(self, answer, *words):
        """What the program prints and says where this is typed at its terminal."""
        ours, theirs = pty.openpty()
        try:
            os.write(ours, answer)
            run = subprocess.run(
                [served.DAEMON, *words, self.file], stdin=theirs, capture_output=True, timeout=WAIT, check=False
            )
        finally:
            os.close(ours)
            os.close(theirs)
        return run.stdout.decode(), run.stderr.decode(), run.returncode

    def answer(self, port, request):
        """The answer to a request."""
        self.socket.sendto(request, (served.HOST, self.ports[port]))
        reply = self.socket.recv(4096)
        return reply if served.is_answer(reply, request, self.secret) else sys.exit("a wrong answer")

    def login(self, account, server, *more):
        """A login, and whether it is accepted; after an accept the Class."""
        self.number = (self.number + 1) % 256
        names = served.attribute(1, account) + server + b"".join(more)
        reply = self.answer(0, served.access_request(self.number, self.secret, names, os.urandom(16), PASSWORD))
        return dict(served.attributes_of(reply))[25] if reply[0] == 2 else None

    def account(self, account, status, server, session, *more):
        """An Accounting-Request, which is answered."""
        self.number = (self.number + 1) % 256
        names = served.attribute(1, account) + server + served.attribute(44, session) + b"".join(more)
        self.answer(1, served.accounting_request(self.number, self.secret, status, names))

    def restart(self, server, *more):
        """An Accounting-On, which is answered."""
        self.number = (self.number + 1) % 256
        self.answer(1, served.accounting_request(self.number, self.secret, ON, server + b"".join(more)))

    def lines(self):
        """What `radlimitd lines` prints of all logs that there are. Where a start puts one away meanwhile, it is asked
        again."""
        until = time.monotonic() + WAIT
        while True:
            logs = {os.path.basename(log): log for log in history.logs(os.path.join(self.folder, "state"))}
            words = [served.DAEMON, "lines", *logs.values()]
            run = subprocess.run(words, capture_output=True, timeout=WAIT, check=time.monotonic() > until)
            if run.returncode == 0:
                return run.stdout.decode("ascii").splitlines()
            time.sleep(0.05)

    def connected(self):
        """A connection to the server's control."""
        one = socket.socket(socket.AF_UNIX, socket.SOCK_STREAM)
        one.settimeout(WAIT)
        one.connect(os.path.join(self.folder, "state", "control"))
        return one

    def sent(self, line):
        """What the server answers to this line."""
        with self.connected() as one:
            one.sendall(line + b"\n")
            answer = b""
            # of a line that was not read whole the system resets the connection, once the answer was read
            with contextlib.suppress(ConnectionResetError):
                while more := one.recv(65536):
                    answer += more
        return answer.decode("ascii")


def cases_of_names(steered):
    """Sessions with hostile names, each of which is freed by what is printed of it."""
    for number, name in enumerate(HOSTILE_IDS):
        by_address = number % 3 == 1
        server = served.attribute(4, bytes([10, 0, 0, 7])) if by_address else served.attribute(32, name)
        account = b"nemo" if number % 2 else HOSTILE_ACCOUNT
        what = f"id {number}"
        yield f"{what}: logs in", steered.login(account, server) is not None, True
        steered.account(account, served.START, server, name)
        word = history.escaped(account)
        found = steered.asked("sessions", word).splitlines()
        yield f"{what}: one link", len(found), 1
        words = found[0].split(" ")
        yield f"{what}: the account", octets(words[0]), account
        yield f"{what}: the client", words[1], "127.0.0.1"
        nas = ("nas-address=", "0a000007") if by_address else ("nas=", history.escaped(name))
        yield f"{what}: the access server", words[2], "".join(nas)
        yield f"{what}: the session", octets(words[3]), name
        yield f"{what}: the state", words[4], "live"
        yield f"{what}: another session", steered.asked("free", *words[:3], "other", code=3), "no such session\n"
        began = int(time.time())
        if number % 3 == 0:
            freed = steered.asked("free", *words[:4])
        elif number % 3 == 1:
            freed = steered.asked("free", " ".join(words[:4]))
        else:
            pasted = f"{shlex.quote(served.DAEMON)} free '{' '.join(words[:4])}' {shlex.quote(steered.file)}"
            shell = {"capture_output": True, "cwd": steered.folder, "timeout": WAIT, "check": False}
            run = subprocess.run(["sh", "-c", pasted], **shell)
            freed = (run.stdout + run.stderr).decode()
        yield f"{what}: freed", freed, "freed\n"
        yield f"{what}: again", steered.asked("free", *words[:4], code=3), "no such session\n"
        yield f"{what}: no link", steered.asked("sessions", word), ""
        stops = [line for line in steered.lines() if f" stop account={words[0]} client=127.0.0.1 " in line]
        yield f"{what}: its Stop", f"session={words[3]} -> done" in stops[-1], True
        yield f"{what}: its Stop is of that second, and puts no clock ahead", began <= moment_of(stops[-1]) <= time.time(), True
        yield f"{what}: a new login", steered.login(account, server) is not None, True
        steered.account(account, served.START, server, b"s%d" % number)
        steered.account(account, served.STOP, server, b"s%d" % number)
    yield "nothing was done by a shell", os.path.exists(os.path.join(steered.folder, "pasted")), False


def cases_of_links(steered):
    """Links of one account: only the one that is named is freed."""
    pop = served.attribute(32, b"pop1")
    for session in (b"s1", b"s2"):
        mark = steered.login(b"dora", pop)
        mark = served.attribute(25, mark) + served.attribute(50, b"b " + session)
        steered.account(b"dora", served.START, pop, session, mark)
    yield "a reservation", steered.login(b"dora", pop) is not None, True
    yield "no place is left", steered.login(b"dora", pop), None
    links = [re.sub(r"age=\d+", "age=N", line) for line in steered.asked("sessions", "dora").splitlines()]
    yield "the links of dora", links, [
        "dora 127.0.0.1 nas=pop1 s1 live age=N bundle=b\\x20s1",
        "dora 127.0.0.1 nas=pop1 s2 live age=N bundle=b\\x20s2",
        "dora 127.0.0.1 nas=pop1 \\- reserved age=N",
    ]
    full = "dora places=3 held=3 reserved=1 live=2 stale=0 over=0\n"
    rows = steered.asked("accounts").splitlines(True)
    yield "what dora holds", [row for row in rows if row.startswith("dora ")], [full]
    reserved = links[2].split(" ")[:4]
    yield "a reservation is no session", steered.asked("free", *reserved, code=1).startswith("usage: "), True
    for case, words, said in (
        ("of another account", ("nemo", "127.0.0.1", "nas=pop1", "s1"), "no such session\n"),
        ("of another access server", ("dora", "127.0.0.1", "unnamed", "s1"), "no such session\n"),
        ("of another kind of name", ("dora", "127.0.0.1", "nas-address=706f7031", "s1"), "no such session\n"),
    ):
        yield f"a session {case}", steered.asked("free", *words, code=3), said
    for case, words, said in (
        ("of no account", ("doris", "127.0.0.1", "nas=pop1", "s1"), "unknown account\n"),
        ("of no client", ("dora", "127.0.0.2", "nas=pop1", "s1"), "unknown client\n"),
        ("of no id", ("dora", "127.0.0.1", "nas=pop1", "\\e"), "no session can be named so\n"),
        ("of too long an id", ("dora", "127.0.0.1", "nas=pop1", "s" * 254), "no session can be named so\n"),
    ):
        yield f"a session {case}", steered.asked("free", *words, code=2), said
    yield "no links of an account that is not there", steered.asked("sessions", "doris", code=2), "unknown account\n"
    for words in (
        ("dora",),
        ("dora", "127.0.0.1", "nas=pop1"),
        ("dora", "127.0.0.1", "nas=pop1", "s1", "s2"),
        ("dora", "127.0.0.256", "nas=pop1", "s1"),
        ("dora", "127.0.0.1", "pop1", "s1"),
        ("dora", "127.0.0.1", "nas-address=0", "s1"),
        ("dora", "127.0.0.1", "nas=pop1", "\\x4"),
        ("dora", "127.0.0.1", "nas=pop1", "s\n1"),
        ("dora", "127.0.0.1", "nas=pop1", ""),
    ):
        yield f"no session: {words}", steered.asked("free", *words, code=1).startswith("usage: "), True
    yield "nothing was freed", len(steered.asked("sessions", "dora").splitlines()), 3
    yield "freed", steered.asked("free", *links[0].split(" ")[:4]), "freed\n"
    left = [re.sub(r"age=\d+", "age=N", line) for line in steered.asked("sessions", "dora").splitlines()]
    yield "that link alone", left, links[1:]
    yield "and its place alone", [steered.login(b"dora", pop) is not None for _ in range(2)], [True, False]


def cases_of_status(steered):
    """The numbers of a status, and that it is a screen."""
    lines = steered.asked("status").splitlines()
    wide = [line for line in lines if len(line) > 80]
    yield "a screen", (len(lines) <= 24, wide), (True, [])
    numbers = dict(line.split() for line in lines[3:14])
    yield "who it is", lines[0], f"radlimitd {VERSION}, not proved"
    yield "in columns", {len(line) for line in lines[3:14]}, {22}
    rows = [dict(word.split("=") for word in line.split(" ")[1:]) for line in steered.asked("accounts").splitlines()]
    for word in ("places", "held", "reserved", "live", "stale", "over"):
        yield f"all that is {word}", int(numbers[word]), sum(int(row[word]) for row in rows)
    yield "accounts", int(numbers["accounts"]), len(rows)
    since = time.strftime("started %Y-%m-%d %H:%M:%S UTC, ", time.gmtime(int(numbers["since"])))
    yield "since when", any(line.startswith(since) for line in lines), True
    yield "recording", lines[2], "recording"
    yield "ready", steered.asked("ready"), "ok\n"
    steered.socket.sendto(b"short", (served.HOST, steered.ports[0]))
    time.sleep(1)
    auth = next(line for line in steered.asked("status").splitlines() if line.startswith("auth:"))
    yield "a datagram that was dropped", "  drop_short 1" in auth, True
    yield "fullest first", next(line for line in lines if line.startswith("full: ")), "full: 3/3 dora"


def cases_of_json(steered):
    """The same as JSON, of which every octet is of ASCII: numbers, names and words as in the lines."""
    lines = dict(line.split() for line in steered.asked("status").splitlines()[3:14])
    told = json.loads(steered.asked("status", "--json"))
    yield "JSON: who it is", [told[word] for word in ("version", "proved", "recording")], [VERSION, "no", True]
    words = [word for word in lines if word not in ("since", "moves")]
    yield "JSON: the numbers", [told[word] for word in words], [int(lines[word]) for word in words]
    yield "JSON: since when", told["start"], int(lines["since"])
    yield "JSON: how many are full", told["full"], len(steered.asked("accounts", "--full").splitlines())
    yield "JSON: datagrams", (told["auth_drop_short"], told["auth_accept"] > 9, told["acct_start"] > 9), (1, True, True)
    rows = steered.asked("accounts").splitlines()
    objects = [json.loads(line) for line in steered.asked("accounts", "--json").splitlines()]
    found = [
        " ".join([history.escaped(one.pop("name").encode("latin-1")), *(f"{key}={number}" for key, number in one.items())])
        for one in objects
    ]
    yield "JSON: accounts", found, rows
    for flag, number in (("--held", "held"), ("--full", "places")):
        wanted = [row for row in rows if re.search(rf" held={re.search(rf'{number}=(.*?) ', row)[1]} ", row)]
        wanted = [row for row in wanted if flag == "--full" or " held=0 " not in row]
        yield f"accounts {flag}", steered.asked("accounts", flag).splitlines(), wanted
        names = [json.loads(line)["name"] for line in steered.asked("accounts", "--json", flag).splitlines()]
        yield f"JSON: accounts {flag}", [history.escaped(name.encode("latin-1")) for name in names], [
            row.split(" ")[0] for row in wanted
        ]
        yield f"{flag} --json", steered.asked("accounts", flag, "--json"), steered.asked("accounts", "--json", flag)


def cases_of_json_links(steered):
    """Links as JSON: names and ids with any octets."""
    for number, name in enumerate(HOSTILE_IDS):
        by_address = number % 3 == 1
        server = served.attribute(4, bytes([10, 0, 0, 7])) if by_address else served.attribute(32, name)
        mark = served.attribute(25, steered.login(b"nemo", server)) + served.attribute(50, name)
        reserved = json.loads(steered.asked("sessions", "--json", "nemo"))
        found = [reserved.get(word) for word in ("session", "state", "free")]
        yield f"JSON: reserved {number}", found, [None, "reserved", None]
        session = (b"%d " % number + name)[:253]
        steered.account(b"nemo", served.START, server, session, mark)
        told = json.loads(steered.asked("sessions", "--json", "nemo"))
        words = steered.asked("sessions", "nemo").split(" ")
        yield f"JSON: the words of {number}", told["free"].split(" "), words[:4]
        nas = {"nas_address": "0a000007"} if by_address else {"nas": name.decode("latin-1")}
        wanted = {"account": "nemo", "client": "127.0.0.1", **nas, "session": session.decode("latin-1"), "state": "live"}
        yield f"JSON: the link {number}", {word: told[word] for word in wanted}, wanted
        yield f"JSON: the bundle {number}", told["bundle"], name.decode("latin-1")
        yield f"JSON: freed {number}", steered.asked("free", told["free"]), "freed\n"
    yield "JSON: no link", steered.asked("sessions", "--json", "nemo"), ""
    yield "JSON: the flag behind the name", steered.asked("sessions", "nemo", "--json"), ""


def cases_of_lists(steered):
    """The links of all accounts: those of each, in the order of the file, and what flags leave of them."""
    pops = {name: served.attribute(32, name) for name in (b"pop8", b"pop9", b"$(touch pasted) '")}
    pops[b"address"] = served.attribute(4, bytes([10, 0, 0, 9]))
    last = b"\\" * 58 + b"%06d" % (LONG - 1)
    for account, pop, session in (
        (last, b"pop9", b"z"), (HOSTILE_ACCOUNT, b"$(touch pasted) '", b"a b\nok"), (b"nemo", b"pop8", b"s8"),
        (b"nemo", b"address", b"s9"),
    ):
        yield f"listed: {session} logs in", steered.login(account, pops[pop]) is not None, True
        steered.account(account, served.START, pops[pop], session)
    held = [line.split(" ")[0] for line in steered.asked("accounts", "--held").splitlines()]
    each = [line for account in held for line in steered.links(account)]
    lines = steered.links()
    yield "listed: those of each account, in the order of the file", lines, each
    yield "listed: of the first account and of the last", (lines[0].split(" ")[0], lines[-1].split(" ")[0]), (
        "nemo", history.escaped(last)
    )
    told = [json.loads(line) for line in steered.asked("sessions", "--json").splitlines()]
    yield "listed: JSON", [one.get("free") for one in told], [
        None if " reserved " in line else " ".join(line.split(" ")[:4]) for line in lines
    ]
    for case, flags, wanted in (
        ("an access server", ("--nas", "nas=pop8"), [line for line in lines if " nas=pop8 " in line]),
        (
            "one by its address", ("--nas", "nas-address=0a000009"),
            [line for line in lines if " nas-address=0a000009 " in line],
        ),
        ("one with a hostile name", ("--nas", "nas=" + history.escaped(b"$(touch pasted) '")), [
            line for line in lines if line.startswith(history.escaped(HOSTILE_ACCOUNT))
        ]),
        ("one without a name", ("--nas", "unnamed"), []),
        ("one that is not there", ("--nas", "nas=pop"), []),
        ("a client", ("--client", "127.0.0.1"), lines),
        ("a client that is not there", ("--client", "127.0.0.2"), []),
        ("what is live", ("--state", "live"), [line for line in lines if " live " in line]),
        ("what is stale", ("--state", "stale"), []),
        ("what is reserved", ("--state", "reserved"), [line for line in lines if " reserved " in line]),
        ("what is as old as can be", ("--older", "0"), lines),
        ("what is older", ("--older", "86400"), []),
        ("what is older than can be", ("--older", str(2**64 - 1)), []),
        ("two flags", ("--state", "live", "--nas", "nas=pop9", "--client", "127.0.0.1"), lines[-1:]),
    ):
        yield f"listed: {case}", steered.links(*flags), wanted
    reserved = [line for line in lines if " reserved " in line]
    yield "listed: something is reserved, and something is live", 0 < len(reserved) < len(lines), True
    for flags in (
        ("--nas", "pop8"), ("--nas", ""), ("--nas", "nas=pop8 unnamed"), ("--client", "127.0.0"),
        ("--client", "\\-"), ("--nas", "\\-"),
        ("--state", "Live"), ("--older", "-1"), ("--older", str(2**64)), ("--older", "1 s"), ("--nas",), ("--jsn",),
        ("--json", "--json"), ("--state", "live", "--state", "live"), ("--state", "live", "nemo"),
    ):
        yield f"no list: {flags}", steered.asked("sessions", *flags, code=1).startswith("usage: "), True
    first, *page, end = steered.sent(b"links lines \\- \\- 0000000000000000 \\- \\-").splitlines()
    second = history.escaped(b"\\" * 58 + b"%06d" % (1_024 - 3))
    yield "a page of 1,024 accounts", (first, len(page), end), (f"more {second}", len(lines) - 1, "ok")
    one = steered.sent(b"links json \\- live 0000000000000000 nas=pop9 " + history.escaped(last).encode())
    yield "the last page", (one.splitlines()[0], one.count("\n"), one.endswith("\nok\n")), ("last", 3, True)
    gone = steered.sent(b"links lines \\- \\- 0000000000000000 \\- doris")
    yield "a page of an account that is gone", gone, "error the accounts have changed: ask again\n"
    for line in (
        b"links", b"links lines", b"links lines \\- \\- 0 \\- \\-", b"links text \\- \\- 0000000000000000 \\- \\-",
        b"links lines \\- \\- 0000000000000000 \\- \\- \\-", b"links lines \\- \\- 0000000000000000 \\-",
        b"free-server", b"free-server 127.0.0.1", b"free-server 127.0.0.1 pop8", b"free-server nas=pop8 127.0.0.1",
    ):
        yield f"no command: {line}", steered.sent(line), "error unknown command\n"


def cases_of_servers(steered):
    """All sessions of an access server are freed, by its Accounting-Off, once it was said yes."""
    pop, name = served.attribute(32, b"pop 8"), "nas=pop\\x208"
    steered.account(b"nemo", served.STOP, served.attribute(32, b"pop8"), b"s8")
    steered.asked("free", "--yes", "--nas", "nas=pop1", "127.0.0.1")
    for account, session in ((b"nemo", b"u1"), (b"dora", b"u2")):
        yield f"of a server: {session} logs in", steered.login(account, pop) is not None, True
        steered.account(account, served.START, pop, session)
    yield "of a server: a reservation", steered.login(b"dora", pop) is not None, True
    before = steered.links()
    ended = [line for line in before if f" {name} " in line]
    yield "of a server: what it has", len(ended), 3
    words = ("free", "--nas", name, "127.0.0.1")
    yield "of a server: no terminal", served.asked(*words, steered.file, seconds=WAIT), (
        "", "standard input is no terminal: say --yes\n", 1
    )
    question = f"3 sessions and reservations of {name} at 127.0.0.1: free them? (yes or no) "
    for answer in (b"no\n", b"\n", b"Yes\n", b"y\n", b"\x04", b"yes yes yes yes yes yes\n"):
        printed, said, status = steered.typed(answer, *words)
        printed = re.sub(r"age=\d+", "age=N", printed).splitlines()
        yield f"of a server: {answer} is no yes", (printed, said, status), ([*ended, "nothing freed"], question, 0)
    yield "of a server: nothing was freed", steered.links(), before
    began = int(time.time())
    printed, said, status = steered.typed(b"yes\n", *words)
    printed = re.sub(r"age=\d+", "age=N", printed).splitlines()
    yield "of a server: freed", (printed, said, status), ([*ended, "freed"], question, 0)
    yield "of a server: all others stay", steered.links(), [line for line in before if line not in ended]
    restart = [line for line in steered.lines() if line.split(" ")[3] != "tick"][-1]
    yield "of a server: its restart", restart.split(" ")[3], "restart"
    yield "of a server: it is of that second, and puts no clock ahead", began <= moment_of(restart) <= time.time(), True
    for place, flags in enumerate((("--yes", *words[1:]), (*words[1:3], "--yes", words[3]), (*words[1:], "--yes"))):
        yield f"of a server: again {place}", steered.asked("free", *flags, code=3), "no such session\n"
    yield "of a server: a login", steered.login(b"dora", pop) is not None, True
    printed, said, status = served.asked(*words, "--yes", steered.file, seconds=WAIT)
    yield "of a server: with --yes", (printed.splitlines()[-1], said, status), (
        "freed", f"1 sessions and reservations of {name} at 127.0.0.1\n", 0
    )
    for case, more, told in (
        ("an unknown client", ("nas=pop8", "127.0.0.2"), "no such session\n"),
        ("an unknown name", ("nas=pop", "127.0.0.1"), "no such session\n"),
    ):
        yield f"of a server: {case}", steered.asked("free", "--yes", "--nas", *more, code=3), told
    for more in (("pop8", "127.0.0.1"), ("nas=pop8", "127.0.0"), ("127.0.0.1", "nas=pop8"), ("\\-", "127.0.0.1")):
        yield f"of a server: {more}", steered.asked("free", "--yes", "--nas", *more, code=1).startswith("usage: "), True
    yield "of a server: no client", steered.sent(b"free-server 127.0.0.2 unnamed"), "error unknown client\n"
    long = b"free-server 127.0.0.1 nas=" + b"p" * 254
    yield "of a server: a long name", steered.sent(long), "error no session can be named so\n"
    yield "of a server: one without sessions", steered.sent(b"free-server 127.0.0.1 unnamed"), "freed\nok\n"


def cases_of_devices(steered):
    """A device that dials again: it has the place of its own session at once, and no other device has it."""
    pop, modem, laptop = served.attribute(32, b"pop1"), station_of(b"00-00-5E-00-53-2A"), station_of(b"laptop")
    shown = "station=00-00-5E-00-53-2A"
    mark = steered.login(b"one", pop, modem)
    yield "a device logs in", mark is not None, True
    steered.account(b"one", served.START, pop, b"s1", modem, served.attribute(25, mark))
    yield "its session", steered.links("one"), [f"one 127.0.0.1 nas=pop1 s1 live age=N {shown}"]
    yield "another device", steered.login(b"one", pop, laptop), None
    yield "one without a station", steered.login(b"one", pop), None
    mark = steered.login(b"one", served.attribute(32, b"pop2"), modem)
    yield "it dials again, at another access server", mark is not None, True
    yield "its reservation alone", steered.links("one"), [f"one 127.0.0.1 nas=pop2 \\- reserved age=N {shown}"]
    steered.account(b"one", served.INTERIM, pop, b"s1", modem)
    held = "one places=1 held=1 reserved=1 live=0 stale=0 over=1"
    yield "what its first session sends is over", steered.asked("accounts").splitlines()[0], held
    steered.account(b"one", served.START, served.attribute(32, b"pop2"), b"s2", served.attribute(25, mark))
    lines = [f"one 127.0.0.1 nas=pop2 s2 live age=N {shown}"]
    for case in ("its Start has no station", "after a kill", "after the next kill"):
        yield f"{case}: its session", steered.links("one"), lines
        told = json.loads(steered.asked("sessions", "--json", "one"))
        yield f"{case}: as JSON", told["station"], "00-00-5E-00-53-2A"
        yield f"{case}: another device", steered.login(b"one", pop, laptop), None
        steered.kill()
        yield f"{case}: it starts", steered.begins(), True
    yield "it dials once more", steered.login(b"one", pop, modem) is not None, True
    asked = [line for line in steered.lines() if " ask account=one " in line]
    yield "its logins in the log", [line.rsplit(" -> ")[1] for line in asked if f" {shown} -> " in line], [
        "accept 0", "accept 1", "accept 2"
    ]
    yield "the other's", {line.rsplit(" -> ")[1] for line in asked if " station=laptop -> " in line}, {"reject limit"}


def cases_of_two_devices(steered):
    """Devices of one account, and an account that does not count by stations."""
    pop = served.attribute(32, b"pop1")
    for name in (b"first", b"second"):
        mark = served.attribute(25, steered.login(b"two", pop, station_of(name)))
        steered.account(b"two", served.START, pop, name, station_of(name), mark)
    yield "a third device", steered.login(b"two", pop, station_of(b"third")), None
    yield "the second dials again", steered.login(b"two", pop, station_of(b"second")) is not None, True
    yield "the session of the first stays", steered.links("two"), [
        "two 127.0.0.1 nas=pop1 first live age=N station=first", "two 127.0.0.1 nas=pop1 \\- reserved age=N station=second"
    ]
    yield "of an account that counts no stations", steered.login(b"none", pop, station_of(b"first")) is not None, True
    yield "none is shown", steered.links("none"), ["none 127.0.0.1 nas=pop1 \\- reserved age=N"]
    yield "it dials again for nothing", steered.login(b"none", pop, station_of(b"first")), None
    for number, name in enumerate(HOSTILE_IDS):
        station, pop = station_of(name[:64]), served.attribute(32, b"pop %d" % number)
        mark = steered.login(b"three", pop, station)
        steered.account(b"three", served.START, pop, b"s", served.attribute(25, mark))
        printed = steered.asked("sessions", "three")
        yield f"a hostile station {number}", octets(printed.rstrip("\n").rsplit(" station=")[1]), name[:64]
        told = json.loads(steered.asked("sessions", "--json", "three"))
        yield f"a hostile station {number}: JSON", told["station"], name[:64].decode("latin-1")
        yield f"a hostile station {number}: again", steered.login(b"three", pop, station) is not None, True
        yield f"a hostile station {number}: one link", steered.asked("sessions", "three").count("\n"), 1
        steered.account(b"three", served.START, pop, b"t")
        steered.account(b"three", served.STOP, pop, b"t")
    for case, value in (("no octet", b""), ("65 octets", bytes(65))):
        mark = steered.login(b"three", pop, station_of(value))
        yield f"a station of {case}", (mark is not None, steered.login(b"three", pop, station_of(value))), (True, None)
        yield f"a station of {case}: none is shown", " station=" in steered.asked("sessions", "three"), False
        steered.account(b"three", served.START, pop, case.encode())
        steered.account(b"three", served.STOP, pop, case.encode())


def cases_of_late_restarts(steered):
    """An Accounting-On that is as old as its Acct-Delay-Time, and one that is not."""
    pop, late = served.attribute(32, b"late"), served.attribute(41, OLDER.to_bytes(4, "big"))
    steered.account(b"two", served.STOP, served.attribute(32, b"pop1"), b"first")
    steered.restart(served.attribute(32, b"pop1"))
    steered.account(b"two", served.START, pop, b"before")
    time.sleep(OLDER + 2)
    steered.account(b"two", served.START, pop, b"after")
    steered.account(b"two", served.INTERIM, pop, b"before")
    yield "before a restart", [line.split(" ")[3] for line in steered.links("two")], ["before", "after"]
    steered.restart(pop, late)
    yield "a restart that is told late", [line.split(" ")[3] for line in steered.links("two")], ["after"]
    last = [line for line in steered.lines() if " restart " in line][-1]
    yield "its line", last.partition(" restart ")[2], f"client=127.0.0.1 nas=late delay={OLDER} -> done"
    steered.restart(pop, served.attribute(41, bytes(4)))
    yield "one that is told at once", steered.links("two"), []
    last = [line for line in steered.lines() if " restart " in line][-1]
    yield "its line has no delay", last.partition(" restart ")[2], "client=127.0.0.1 nas=late -> done"


def cases_of_reloads(steered, accounts):
    """Stations and delays are turned off, and on again, while the generation goes on."""
    pop, modem = served.attribute(32, b"pop1"), station_of(b"modem")
    steered.account(b"one", served.START, pop, b"s3", modem)
    yield "its session", len(steered.links("one")), 1
    steered.write(accounts.replace("station = true", "station = false").replace("delay_time = true", "delay_time = false"))
    yield "a reload", steered.asked("reload"), "as before\n"
    yield "it dials again for nothing", steered.login(b"one", pop, modem), None
    steered.account(b"two", served.START, pop, b"after")
    steered.restart(pop, served.attribute(41, (86_400).to_bytes(4, "big")))
    yield "an old delay counts no more", steered.links("two"), []
    steered.account(b"one", served.START, pop, b"s4", modem)
    yield "a session without a station", steered.links("one"), ["one 127.0.0.1 nas=pop1 s4 live age=N"]
    steered.write(accounts)
    yield "a reload back", steered.asked("reload"), "as before\n"
    yield "it has none yet", steered.login(b"one", pop, modem), None
    steered.account(b"one", served.INTERIM, pop, b"s4", modem)
    yield "it has one", steered.links("one"), ["one 127.0.0.1 nas=pop1 s4 live age=N station=modem"]
    yield "it dials again for its place", steered.login(b"one", pop, modem) is not None, True
    yield "its reservation", steered.links("one"), ["one 127.0.0.1 nas=pop1 \\- reserved age=N station=modem"]
    steered.account(b"two", served.START, pop, b"later")
    steered.restart(pop, served.attribute(41, (86_400).to_bytes(4, "big")))
    yield "an old delay counts again", [line.split(" ")[3] for line in steered.links("two")], ["later"]


def cases_of_an_address(steered):
    """An access server that names itself by its NAS-IPv6-Address alone, wherever one is shown."""
    digits = "20010db8000000000000000000000009"
    server, name = served.attribute(95, bytes.fromhex(digits)), f"nas-address={digits}"
    yield "by IPv6: logs in", steered.login(b"two", server) is not None, True
    yield "by IPv6: reserved", steered.links("two"), [f"two 127.0.0.1 {name} \\- reserved age=N"]
    steered.account(b"two", served.START, server, b"v6")
    yield "by IPv6: sessions", steered.links("two"), [f"two 127.0.0.1 {name} v6 live age=N"]
    yield "by IPv6: those of it", steered.links("--nas", name), [f"two 127.0.0.1 {name} v6 live age=N"]
    told = json.loads(steered.asked("sessions", "--json", "two"))
    yield "by IPv6: JSON", (told["nas_address"], told["free"]), (digits, f"two 127.0.0.1 {name} v6")
    lines = [line for line in steered.lines() if f" {name} " in f"{line} "]
    yield "by IPv6: lines", [line.split(" ")[3] for line in lines], ["ask", "alive"]
    records = [line.split(",") for line in steered.asked("export", "--csv").splitlines() if digits in line]
    yield "by IPv6: export", len(records), 1
    objects = [json.loads(line) for line in steered.asked("export").splitlines()]
    yield "by IPv6: export as JSON", [one["session"] for one in objects if one.get("nas_address") == digits], ["v6"]
    yield "by IPv6: another address", steered.asked("free", "two", "127.0.0.1", f"{name[:-1]}8", "v6", code=3), (
        "no such session\n"
    )
    yield "by IPv6: freed", steered.asked("free", "two", "127.0.0.1", name, "v6"), "freed\n"


def cases_of_stations():
    """Accounts that count by stations, where delays of restarts count."""
    secret = SECRET * 2
    head = HEAD.replace("version = 1", "version = 3\nstation = true\ndelay_time = true")
    accounts = head.replace(SECRET.decode(), secret.decode()) + "signed = false\n"
    accounts += "".join(ACCOUNT.format(name, places) for name, places in (("one", 1), ("two", 2), ("three", 1)))
    accounts += ACCOUNT.format("none", 1) + "station = false\n"
    with tempfile.TemporaryDirectory() as folder:
        steered = Steered(folder, accounts, secret)
        try:
            for part in (cases_of_an_address, cases_of_devices, cases_of_two_devices, cases_of_late_restarts):
                yield from part(steered)
            yield from cases_of_reloads(steered, accounts)
        finally:
            steered.kill()


def cases_of_operators(steered):
    """Operators that are slow, or ask what is no command."""
    lines = (
        b"", b"Status", b"status ", b" status", b"status now", b"status --json ", b"accounts --held --full", b"sessions",
        b"free", b"reload now", b"x" * 5000, b"\xff",
    )
    for line in lines:
        yield f"no command: {line[:20]}", steered.sent(line), "error unknown command\n"
    pop = served.attribute(32, b"pop1")
    for case, sends in (
        ("one that sends nothing", b""),
        ("one that sends no line feed", b"sta"),
        ("one that does not read", b"accounts\n"),
    ):
        with steered.connected() as one:
            one.sendall(sends)
            begun = time.monotonic()
            for _ in range(20):
                steered.login(b"nemo", pop)
            yield f"{case}: access servers do not wait", time.monotonic() - begun < 3.5, True
            begun = time.monotonic()
            yield f"{case}: another operator", steered.asked("status").startswith("radlimitd "), True
            yield f"{case}: he waits a while", time.monotonic() - begun < 4.5, True
    with steered.connected() as one:
        begun = time.monotonic()
        try:
            while time.monotonic() - begun < WAIT:
                one.sendall(b"s")
                time.sleep(0.2)
        except OSError:
            pass
        yield "one that sends an octet now and then", time.monotonic() - begun < 8, True
    with steered.connected() as one:
        one.sendall(b"accounts\n")
        begun = time.monotonic()
        yield "stopped beside one that does not read", (steered.asked("stop"), steered.process.wait(WAIT)), ("", 0)
        yield "in a while", time.monotonic() - begun < 8, True


def cases_of_sockets():
    """Who may ask, by the mode and the group of the control's socket: whatever the umask is, and where a server was
    killed as it made one."""
    group = grp.getgrgid(os.getgid())
    for case, table, mask, mode in (
        ("nothing is said", "", 0, 0o600),
        ("a narrow umask", "[control]\nmode = 0o666\n", 0o077, 0o666),
        ("a group", f'[control]\nmode = 0o660\ngroup = "{group.gr_name}"\n', 0o022, 0o660),
    ):
        with tempfile.TemporaryDirectory() as folder:
            with open(os.path.join(folder, "accounts.toml"), "w", encoding="ascii") as file:
                file.write(HEAD + ACCOUNT.format("nemo", 2))
            name = served.daemon_file(folder, [int(port) for port in served.free_ports()], 1)
            with open(name, "a", encoding="ascii") as file:
                file.write(table)
            path = os.path.join(folder, "state", "control")
            os.makedirs(f"{path}.new", 0o700)
            os.chmod(os.path.dirname(path), 0o700)
            socket.socket(socket.AF_UNIX).bind(os.path.join(f"{path}.new", "s"))
            before = os.umask(mask)
            process = served.daemon(name)
            os.umask(before)
            try:
                served.greeting(process, WAIT)
                found = os.stat(path)
                yield f"{case}: mode", oct(found.st_mode & 0o777), oct(mode)
                yield f"{case}: group", found.st_gid, group.gr_gid
                yield f"{case}: nothing is left beside it", os.path.exists(f"{path}.new"), False
                yield f"{case}: it is answered at", served.asked("stop", name, seconds=WAIT), ("", "", 0)
            finally:
                process.kill()
                process.wait(WAIT)
                process.stderr.close()


def cases_of_unsigned():
    """What a start says of a client of version 3 that need not sign, and that none stands behind a network."""
    head = HEAD.replace("version = 1", "version = 3").replace("testing123", "testing123testing123")
    with tempfile.TemporaryDirectory() as folder:
        with open(os.path.join(folder, "accounts.toml"), "w", encoding="ascii") as file:
            file.write(head + "signed = false\n" + ACCOUNT.format("nemo", 2))
        name = served.daemon_file(folder, [int(port) for port in served.free_ports()], 1)
        process = served.daemon(name)
        try:
            said = served.greeting(process, WAIT), process.stderr.readline().decode()
            need_not = "client 127.0.0.1: its Access-Requests need no Message-Authenticator\n"
            yield "a client that need not sign", said, ("new history: 0 sessions\n", need_not)
        finally:
            process.kill()
            process.wait(WAIT)
            process.stderr.close()
        line = served.text_of(name).count("\n") + 3
        with open(name, "a", encoding="ascii") as file:
            file.write('[[network]]\nprefix = "2001:db8::/32"\nclient = "127.0.0.1"\n')
        bad = f"{name}:{line}: client of network 1 is 127.0.0.1; it need not sign\n"
        yield "behind a network", served.asked("check", name, seconds=WAIT), ("", bad, 1)
        yield "behind a network: no server begins with it", served.asked("run", name, seconds=WAIT), ("", bad, 1)
        yield from cases_of_loosened(folder, name, head, bad)


def cases_of_loosened(folder, name, head, bad):
    """A reload does not let in by a network who need not sign: the server goes on by the accounts that it has."""
    path = os.path.join(folder, "accounts.toml")
    with open(path, "w", encoding="ascii") as file:
        file.write(head + ACCOUNT.format("nemo", 2))
    process = served.daemon(name)
    try:
        yield "a network of a client that signs", served.greeting(process, WAIT).startswith("generation 1: "), True
        with open(path, "w", encoding="ascii") as file:
            file.write(head + "signed = false\n" + ACCOUNT.format("dora", 2))
        yield "that need not sign any more", served.asked("reload", name, seconds=WAIT), ("", bad, 2)
        held = served.asked("accounts", name, seconds=WAIT)[0]
        yield "and the accounts are the old ones", [line.split(" ")[0] for line in held.splitlines()], ["nemo"]
    finally:
        process.kill()
        process.wait(WAIT)
        process.stderr.close()


def cases():
    """Each case: what it is, what was found, what was wanted."""
    yield from cases_of_unsigned()
    yield from cases_of_sockets()
    yield from cases_of_stations()
    with tempfile.TemporaryDirectory() as folder:
        steered = Steered(folder, many_accounts())
        try:
            for part in (
                cases_of_names, cases_of_links, cases_of_status, cases_of_json, cases_of_json_links, cases_of_lists,
                cases_of_servers, cases_of_operators,
            ):
                yield from part(steered)
        finally:
            steered.kill()


def main():
    """Tries each case."""
    if len(sys.argv) != 1:
        sys.exit(__doc__)
    served.verdict(list(cases()))


if __name__ == "__main__":
    main()
