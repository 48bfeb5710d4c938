"""What the parts `growing` and `standby` share: access servers with many sessions at once, whose requests are sent again
until they are answered, and which know what they run; homes; and a FreeRADIUS with the files of examples/growing."""

import collections
import itertools
import json
import os
import random
import re
import selectors
import shutil
import socket
import subprocess
import sys
import time
from collections.abc import Callable, Generator, Iterable
from typing import Any, NamedTuple

from tests.lib import served

TOP = served.TOP
EXAMPLES = os.path.join(TOP, "examples", "growing")
SPLIT = [sys.executable, "-B", os.path.join(TOP, "packaging", "radlimit-split")]
RADDB = "/etc/freeradius/3.0"  # Debian's
SECRET, PASSWORD = b"secret-of-access-server-1", b"password"
HOME_SECRET = "secret-of-freeradius-here"
# no deadline comes, but for that of a kept ask
HEAD = served.HEAD.format(shards=2, reserve=7200, live=7200, grace=7200, closed=7200, keep=20)
BEGINS = re.compile(f"{served.GREETING.pattern}|busy")  # what a server says that begins, or does not
WAIT = 120  # seconds that a start, or an end of all requests, may take
AGAIN = 1.5  # seconds after which a request is sent again
# after so many times it rests so many seconds: FreeRADIUS gives up a home only where a request was not sent for six
TRIES, REST = 4, 8.0
LANES = 4  # sockets of an access server to each of both ports

Make = Callable[[int], bytes]  # makes a request with an Identifier
# what an access server does: it yields the port that it asks and what it asks, and is given the answer
Work = Generator[tuple[int, Make], Any, None]


class Session(NamedTuple):
    """A session: its account, its access server, its name, and the Class of its accept."""

    account: str
    server: bytes
    name: bytes
    mark: bytes


class Request:
    """A request under way: what is sent, and the works that wait for its answer."""

    def __init__(self, work: Work, server: bytes, at: int, make: Make) -> None:
        self.work, self.server, self.at, self.make = work, server, at, make
        self.octets, self.sent, self.tries, self.first = b"", 0.0, 0, time.monotonic()

    def is_due(self, now: float) -> bool:
        """Whether it is sent again."""
        return now - self.sent > (AGAIN if self.tries % TRIES else REST)


class Load:
    """Access servers, which log accounts in and out. No account may run more sessions than it has places."""

    def __init__(
        self, address: str, ports: list[str], places: dict[str, int], rng: random.Random, servers: int = 8,
        secret: bytes = SECRET, source: str = "127.0.0.1",
    ) -> None:
        self.places, self.rng, self.secret = places, rng, secret
        self.target = [(address, int(port)) for port in ports]
        self.names = list(places)
        self.servers = [b"nas%d" % number for number in range(servers)]
        self.ready = selectors.DefaultSelector()
        self.pending: dict[tuple[socket.socket, int], Request] = {}
        unused: dict[int, list[tuple[socket.socket, int]]] = {0: [], 1: []}
        for at, _ in itertools.product((0, 1), range(LANES)):
            one = socket.socket(socket.AF_INET, socket.SOCK_DGRAM)
            one.bind((source, 0))
            one.setblocking(False)
            self.ready.register(one, selectors.EVENT_READ, one)
            unused[at] += [(one, number) for number in range(256)]
        for found in unused.values():
            rng.shuffle(found)
        self.free = {at: collections.deque(found) for at, found in unused.items()}
        # of each account, from the accept to the Stop
        self.running: dict[str, set[Session]] = collections.defaultdict(set)
        self.welcome = set[str]()  # the accounts that were accepted
        # sessions whose Start was answered, and those that may be held or not
        self.held, self.unknown = set[Session](), set[Session]()
        self.accepts = self.starts = self.stops = self.rejects = self.again = self.over = self.count = 0
        self.longest, self.opens, self.closes = 0.0, True, 0.3
        self.outstanding = 60  # requests under way at once, where there is something to ask
        self.first: list[str] = []  # accounts that log in before all others

    # works, each a generator that yields what is sent and is given the answer

    def opened(self, account: str, server: bytes) -> Work:
        """A login, and the Start of its session."""
        attributes = served.attribute(1, account.encode()) + served.attribute(32, server)
        vector = self.rng.randbytes(16)
        reply = yield 0, lambda number: served.access_request(number, self.secret, attributes, vector, PASSWORD, True)
        if reply[0] != 2:
            self.rejects += 1
            return
        self.count, self.accepts = self.count + 1, self.accepts + 1
        self.welcome.add(account)
        mark = b"".join(served.attribute(kind, value) for kind, value in served.attributes_of(reply) if kind == 25)
        session = Session(account, server, b"s%d" % self.count, mark)
        self.running[account].add(session)
        self.over += len(self.running[account]) > self.places[account]
        self.unknown.add(session)
        yield from self.told(served.START, session)
        self.unknown.discard(session)
        self.held.add(session)
        self.starts += 1

    def closed(self, session: Session) -> Work:
        """The Stop of a session."""
        self.running[session.account].discard(session)
        self.held.discard(session)
        self.unknown.add(session)
        yield from self.told(served.STOP, session)
        self.unknown.discard(session)
        self.stops += 1

    def told(self, status: int, session: Session) -> Work:
        """A packet of accounting of a session."""
        attributes = served.attribute(1, session.account.encode()) + served.attribute(32, session.server)
        attributes += served.attribute(44, session.name) + session.mark
        yield 1, lambda number: served.accounting_request(number, self.secret, status, attributes)

    def restarted(self, server: bytes) -> Work:
        """The Accounting-On of an access server."""
        attributes = served.attribute(32, server) + served.attribute(44, b"on")
        yield 1, lambda number: served.accounting_request(number, self.secret, 7, attributes)

    # how they are done

    def begin(self, work: Work, server: bytes) -> None:
        """Begins a work."""
        self.go_on(work, server, None)

    def go_on(self, work: Work, server: bytes, reply: bytes | None) -> None:
        """Gives a work its answer, and sends what it wants then."""
        try:
            at, make = work.send(reply)
        except StopIteration:
            return
        request = Request(work, server, at, make)
        one, number = self.free[at].popleft()
        request.octets = make(number)
        self.pending[one, number] = request
        self.send(one, request)

    def send(self, one: socket.socket, request: Request) -> None:
        """Sends a request."""
        request.sent, request.tries = time.monotonic(), request.tries + 1
        try:
            one.sendto(request.octets, self.target[request.at])
        except OSError:
            pass  # as a datagram that is lost

    def take(self, one: socket.socket) -> None:
        """Takes what has come to a socket."""
        while True:
            try:
                reply = one.recv(4096)
            except OSError:
                return
            key = one, reply[1] if len(reply) > 1 else 0
            request = self.pending.get(key)
            if request and served.is_answer(reply, request.octets, self.secret):
                del self.pending[key]
                self.free[request.at].append(key)
                self.longest = max(self.longest, time.monotonic() - request.first)
                self.go_on(request.work, request.server, reply)

    def begin_one(self) -> None:
        """Begins a login, or has a session end. Accounts that have to be first log in before all others."""
        if self.first:
            server = self.rng.choice(self.servers)
            self.begin(self.opened(self.first.pop(), server), server)
            return
        if self.held and (not self.opens or self.rng.random() < self.closes):
            session = self.rng.choice(tuple(self.running[self.rng.choice(self.names)] & self.held) or (None,))
            if session or not self.opens:
                session = session or next(iter(self.held))
                self.begin(self.closed(session), session.server)
                return
        if self.opens:
            server = self.rng.choice(self.servers)
            self.begin(self.opened(self.rng.choice(self.names), server), server)

    def run(self, seconds: float, until: Callable[[], bool] = lambda: False, begins: bool = True) -> None:
        """Runs for so many seconds, or until something is so, and begins something new or does not."""
        end, outstanding = time.monotonic() + seconds, self.outstanding if begins else 0
        while time.monotonic() < end and not until():
            # one at a time, so that answers are taken in between
            if len(self.pending) < outstanding and (self.opens or self.held):
                self.begin_one()
            for key, _ in self.ready.select(0 if len(self.pending) < outstanding else 0.02):
                self.take(key.data)
            now = time.monotonic()
            for (one, _), request in list(self.pending.items()):
                if request.is_due(now):
                    self.again += 1
                    self.send(one, request)

    def quiet(self) -> bool:
        """Begins nothing new until all is answered: whether that came in time."""
        self.run(WAIT, lambda: not self.pending, begins=False)
        return not self.pending

    def settle(self) -> bool:
        """Waits until each request that is under way now is answered, while others come and go: whether that came in
        time."""
        now = set(self.pending.values())
        self.run(WAIT, lambda: not now.intersection(self.pending.values()))
        return not now.intersection(self.pending.values())

    def restart(self, server: bytes) -> bool:
        """Has an access server lose all that it has, and say so: whether that was answered."""
        self.servers.remove(server)
        for key, request in list(self.pending.items()):
            if request.server == server:
                # the Identifier is used no more, since an answer may come yet
                del self.pending[key]
                request.work.close()
        for sessions in self.running.values():
            lost = {session for session in sessions if session.server == server}
            self.unknown |= lost - self.held
            sessions -= lost
            self.held -= lost
        work = self.restarted(server)
        self.begin(work, server)
        self.run(WAIT, until=lambda: work.gi_frame is None)
        self.servers.append(server)
        return work.gi_frame is None

    def end(self) -> bool:
        """Has all sessions end: whether all is answered in time."""
        self.opens = False
        self.run(WAIT, until=lambda: not self.held and not self.pending)
        self.opens = True
        return not self.held and not self.pending

    def shown(self) -> str:
        """What came of it so far."""
        counts = f"{self.accepts} accepts, {self.rejects} rejects, {self.starts} Starts, {self.stops} Stops"
        return f"{counts}, {self.again} sent again, the longest wait {self.longest:.1f} s"


def accounts_toml(places: dict[str, int]) -> str:
    """Accounts with their places, as an account file has them."""
    return "".join(
        f'[[account]]\nname = {json.dumps(name)}\npassword = "{PASSWORD.decode()}"\nplaces = {count}\nports = 1\n'
        for name, count in places.items()
    )


def spelled(name: str) -> str:
    """A name as the control has it."""
    return "".join(one if re.match(r"[\w%+,\-./:=@]", one) else f"\\x{ord(one):02x}" for one in name)


class Home:
    """A radlimitd, in a folder of its own; or a node of two that have one state folder."""

    def __init__(
        self, folder: str, name: str, address: str, port: int, state: str = "state", before: Iterable[str] = (),
        root: str = "",
    ) -> None:
        self.name, self.folder = name, os.path.join(folder, name)
        self.file, self.said = (os.path.join(self.folder, file) for file in ("radlimitd.toml", "said"))
        self.state, self.before, self.root = os.path.join(self.folder, state), list(before), root
        self.process: subprocess.Popen[bytes] | None = None
        os.makedirs(self.folder, exist_ok=True)
        with open(self.file, "w", encoding="ascii") as file:
            file.write(f'accounts = "accounts.toml"\nstate = "{state}"\nlisten = [{{ address = "{address}", auth = {port}, '
                       f"acct = {port + 1}, status_server = true }}]\n")

    def begin(self) -> None:
        """Starts it."""
        with open(self.said, "ab") as said:
            words = [*self.before, served.DAEMON, "run", self.file]
            self.process = subprocess.Popen(words, stdin=subprocess.DEVNULL, stderr=said)

    def greeting(self) -> str | None:
        """What it said when it began."""
        return next((line for line in reversed(served.text_of(self.said).splitlines()) if BEGINS.match(line)), None)

    def lines(self, beginning: str) -> list[str]:
        """The lines that it said which begin so."""
        return [line for line in served.text_of(self.said).splitlines() if line.startswith(beginning)]

    def asked(self, *words: str) -> tuple[str, int]:
        """What it answers at its control, and the status."""
        whole = [*self.before, served.DAEMON, *words, self.file]
        run = subprocess.run(whole, capture_output=True, timeout=WAIT, check=False)
        return run.stdout.decode(), run.returncode

    def is_up(self) -> bool:
        """Whether it answers at its control."""
        return self.process is not None and self.process.poll() is None and self.asked("status")[1] == 0

    def kill(self) -> None:
        """Kills it."""
        if self.process:
            self.process.kill()
            self.process.wait()
            self.process = None

    def held(self) -> dict[str, int]:
        """The places that each account holds, of those that hold any."""
        rows = self.asked("accounts", "--json", "--held")[0].splitlines()
        return {row["name"]: row["held"] for row in map(json.loads, rows)}

    def sessions(self) -> set[tuple[str, bytes, bytes]]:
        """Its sessions: the account, the access server, and the Acct-Session-Id of each. A process for each account would
        take long."""
        found = set()
        for name in self.held():
            for line in self.sent(f"sessions {spelled(name)}\n").splitlines()[:-1]:
                _account, _client, server, session, *_ = line.split()
                if session != r"\-":
                    found.add((name, server.removeprefix("nas=").encode(), session.encode()))
        return found

    def sent(self, line: str) -> str:
        """What is answered at the control to a line."""
        with socket.socket(socket.AF_UNIX) as one:
            one.settimeout(WAIT)
            one.connect(os.path.join(self.root + self.state, "control"))
            one.sendall(line.encode())
            answer = b""
            while more := one.recv(65536):
                answer += more
        return answer.decode()


class Proxy:
    """A FreeRADIUS with the files of examples/growing, on loopback addresses and ports of this machine."""

    def __init__(self, folder: str, ports: list[str]) -> None:
        self.folder, self.raddb, self.ports = folder, os.path.join(folder, "raddb"), ports
        self.process: subprocess.Popen[bytes] | None = None
        shutil.copytree(RADDB, self.raddb, symlinks=True)
        for name in os.listdir(os.path.join(self.raddb, "sites-enabled")):
            os.remove(os.path.join(self.raddb, "sites-enabled", name))
        os.remove(os.path.join(self.raddb, "mods-enabled", "eap"))
        shutil.copytree(os.path.join(EXAMPLES, "freeradius"), self.raddb, dirs_exist_ok=True)
        self.edit("clients.conf", ("ipaddr = 192.0.2.100", "ipaddr = 127.0.0.1"))
        self.edit("radlimit-home.conf", ("src_ipaddr = 192.0.2.1", "src_ipaddr = 127.0.0.1"))
        auth, acct = ports
        self.edit(
            "sites-enabled/radlimit", ("ipaddr = 192.0.2.1\n", "ipaddr = 127.0.0.1\n"), ("port = 1812", f"port = {auth}"),
            ("port = 1813", f"port = {acct}"),
        )
        # it stays the user that it is started by
        self.edit(
            "radiusd.conf", ("\nlocalstatedir = /var", f"\nlocalstatedir = {folder}"),
            ("\nlogdir = /var/log/freeradius", f"\nlogdir = {folder}/log"),
            ("\nraddbdir = /etc/freeradius/3.0", f"\nraddbdir = {self.raddb}"), ("\n\tuser = freerad", "\n"),
            ("\n\tgroup = freerad", "\n"),
        )
        for path in ("log/radacct", "run/freeradius"):
            os.makedirs(os.path.join(folder, path))

    def edit(self, name: str, *pairs: tuple[str, str]) -> None:
        """Puts texts in the places of others, each of which is there."""
        path = os.path.join(self.raddb, name)
        text = served.text_of(path)
        for old, new in pairs:
            if old not in text:
                sys.exit(f"{path} has no {old!r}")
            text = text.replace(old, new)
        with open(path, "w", encoding="utf-8") as file:
            file.write(text)

    def write(self, chart: str) -> None:
        """Has radlimit-split write the files of a map."""
        subprocess.run([*SPLIT, "freeradius", chart, self.raddb], stdout=subprocess.DEVNULL, check=True)

    def start(self, meanwhile: Callable[[], object] = lambda: time.sleep(0.05)) -> bool:
        """Starts it, and does something until it has its sockets: whether it has them."""
        with open(os.path.join(self.folder, "proxy-said"), "ab") as said:
            words = ["freeradius", "-d", self.raddb, "-f", "-l", "stdout"]
            self.process = subprocess.Popen(words, stdin=subprocess.DEVNULL, stdout=said, stderr=said)
        while self.is_there() and not served.are_bound(self.ports):
            meanwhile()
        return self.is_there()

    def is_there(self) -> bool:
        """Whether its process is there."""
        return self.process is not None and self.process.poll() is None

    def restart(self, meanwhile: Callable[[], object]) -> bool:
        """Ends it and starts it, as `systemctl restart` does, and does something meanwhile: whether it has its sockets."""
        if self.process:
            self.process.terminate()
        while self.is_there():
            meanwhile()
        return self.start(meanwhile)

    def kill(self) -> None:
        """Kills it."""
        if self.process:
            self.process.kill()
            self.process.wait()
            self.process = None

    def late(self) -> list[str]:
        """The homes that have something to be told yet."""
        folder = os.path.join(self.folder, "log", "radacct", "late")
        found = [at for at, _, files in os.walk(folder) if any(name.startswith("detail") for name in files)]
        return sorted(os.path.basename(at) for at in found)
