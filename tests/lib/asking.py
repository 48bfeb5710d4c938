"""What scripts of tests/programs share that kill `radlimitd run` under a load: access servers with a request under way each,
and whether what they were answered is in the folder, as it was answered."""

import array
import itertools
import os
import random
import selectors
import socket
import struct
import subprocess
import sys
import time
from collections.abc import Generator, Iterator
from typing import NamedTuple

from tests.lib import history, served

SECRET, PASSWORD = b"secret of all of them", b"password"
AGAIN = 0.5  # seconds after which a request is sent again
WAIT = 60  # seconds in which a server has to begin
# no deadline comes, but for that of a kept ask
RESERVE = LIVE = 86_400
CROWD = 32  # accounts that half of the sessions are of
DEVICES = 2  # of an account
HELD = 8  # sessions that an access server has at once, at most

# a request: the place of the socket that it is sent from, and its octets
Sent = tuple[int, bytes]


class Answers:
    """What an access server was answered, in its order: a number of each answer, by which it is known again."""

    def __init__(self) -> None:
        self.digests, self.met, self.accepts = array.array("q"), 0, 0

    def note(self, kind: str, account: int, what: object, accepted: int | None, station: bytes | None) -> None:
        """Notes an answer: what it was to, the accept number, if it has one, and the station, if one counts."""
        self.digests.append(hash((kind, account, what, accepted, station)))
        self.accepts += accepted is not None

    def meet(self, kind: str, account: int, what: object, accepted: int | None, station: bytes | None) -> None:
        """Goes on to the next answer where this is the one that is waited for."""
        if self.met < len(self.digests) and self.digests[self.met] == hash((kind, account, what, accepted, station)):
            self.met += 1

    def are_met(self) -> bool:
        """Whether all of them were met, in their order."""
        return self.met == len(self.digests)


class AccessServer:
    """An access server with one request under way: some sessions at once, each of an account by chance."""

    def __init__(self, number: int, chance: random.Random, accounts: int) -> None:
        self.number, self.chance, self.accounts = number, chance, accounts
        self.name = b"nas%d" % number
        self.sockets = [socket.socket(socket.AF_INET, socket.SOCK_DGRAM) for _ in range(2)]
        for one in self.sockets:
            one.bind((served.HOST, 0))
            one.setblocking(False)
        self.answered, self.identifier, self.sessions = Answers(), 0, 0
        self.steps = self.cycles()
        self.request = next(self.steps)
        self.sent = 0.0

    def packet(self) -> tuple[int, bytes]:
        """The attributes of any packet for an account, and the account."""
        account = self.chance.randrange(self.chance.choice((min(CROWD, self.accounts), self.accounts)))
        return account, served.attribute(1, b"u%d" % account) + served.attribute(32, self.name)

    def device(self, account: int) -> tuple[bytes, bytes | None]:
        """The attribute of one of an account's devices, or none, and the station that counts."""
        if self.chance.randrange(2) == 0:
            return b"", None
        station = b"device %d" % self.chance.randrange(DEVICES)
        return served.attribute(31, station), station if counts_stations(account) else None

    def next_identifier(self) -> int:
        self.identifier = (self.identifier + 1) % 256
        return self.identifier

    def asked(self, attributes: bytes) -> tuple[int, bytes, history.Key]:
        """An Access-Request, with the key that its move has."""
        number, authenticator = self.next_identifier(), self.chance.randbytes(16)
        octets = served.access_request(number, SECRET, attributes, authenticator, PASSWORD, signs=True)
        source = self.sockets[0].getsockname()
        return 0, octets, (socket.inet_aton(source[0]), source[1], number, authenticator)

    def told(self, status: int, attributes: bytes) -> Sent:
        """An Accounting-Request."""
        return 1, served.accounting_request(self.next_identifier(), SECRET, status, attributes)

    def tell(self, status: int, account: int, session: bytes, attributes: bytes) -> Generator[Sent, bytes, None]:
        """The request of a session's packet."""
        device, station = self.device(account)
        yield self.told(status, attributes + device)
        kind, counted = ("stop", None) if status == served.STOP else ("alive", station)
        self.answered.note(kind, account, session, None, counted)

    def cycles(self) -> Generator[Sent, bytes, None]:
        """Requests, each of which is given its answer: sockets by their place, octets."""
        held: list[tuple[int, bytes, bytes]] = []
        while True:
            account, attributes = self.packet()
            device, station = self.device(account)
            at, octets, key = self.asked(attributes + device)
            reply = yield at, octets
            number = None
            if reply[0] == 2:
                (mark,) = (value for kind, value in served.attributes_of(reply) if kind == 25)
                _boot, number = struct.unpack(">QQ", mark)
            self.answered.note("ask", account, key, number, station)
            if number is None:
                continue
            session = b"s%d-%d" % (self.number, self.sessions)
            self.sessions += 1
            held.append((account, session, attributes + served.attribute(44, session) + served.attribute(25, mark)))
            yield from self.tell(served.START, *held[-1])
            for _ in range(self.chance.randrange(3)):
                yield from self.tell(served.INTERIM, *self.chance.choice(held))
            if len(held) == HELD:
                yield from self.tell(served.STOP, *held.pop(self.chance.randrange(HELD)))

    def send(self, ports: list[str]) -> None:
        """Sends the request that is under way."""
        at, octets = self.request
        self.sockets[at].sendto(octets, (served.HOST, int(ports[at])))
        self.sent = time.monotonic()

    def take(self, at: int) -> bool:
        """Takes a datagram from a socket, and gives whether it was the answer."""
        try:
            reply = self.sockets[at].recv(4096)
        except BlockingIOError:
            return False
        under_way, octets = self.request
        if under_way != at or not served.is_answer(reply, octets, SECRET):
            return False
        if reply[0] not in ((2, 3) if at == 0 else (5,)):
            sys.exit(f"{self.name!r} was answered: {reply.hex()}")
        self.request = self.steps.send(reply)
        return True


class Load:
    """Access servers, which ask the server that runs."""

    def __init__(self, count: int, chance: random.Random, accounts: int) -> None:
        self.servers = [AccessServer(number, chance, accounts) for number in range(count)]
        self.ready = selectors.DefaultSelector()
        for server in self.servers:
            for at, one in enumerate(server.sockets):
                self.ready.register(one, selectors.EVENT_READ, (server, at))
        self.idle = list(self.servers)  # those whose request was not sent yet

    def ask(self, ports: list[str], until: float, rate: float | None = None) -> int:
        """Asks until a moment, with so many new requests a second or with one after the other, and sends again what has
        no answer: how many answers came."""
        began, sent, answers = time.monotonic(), 0, 0
        for server in self.servers:
            server.sent = 0.0
        while (now := time.monotonic()) < until:
            while self.idle and (rate is None or sent < rate * (now - began)):
                self.idle.pop().send(ports)
                sent += 1
            for key, _ in self.ready.select(min(until - now, 0.005)):
                server, at = key.data
                if server.take(at):
                    answers += 1
                    self.idle.insert(0, server)
            for server in set(self.servers).difference(self.idle):
                if server.sent + AGAIN < now:
                    server.send(ports)
        return answers


def counts_stations(account: int) -> bool:
    """Whether an account counts by stations."""
    return account % 3 > 0


def account_file(folder: str, places: list[int]) -> None:
    """Writes the account file of a load, of version 3, over accounts of so many places."""
    accounts = [(f"u{number}", PASSWORD, count, 1) for number, count in enumerate(places)]
    path = served.account_file(
        os.path.join(folder, "accounts.toml"), [(served.HOST, SECRET, True)], accounts, shards=1, reserve=RESERVE,
        keep=history.KEEP, live=LIVE,
    )
    head, *tables = served.text_of(path).replace("version = 1\n", "version = 3\n").split("[[account]]\n")
    with open(path, "w", encoding="ascii") as file:
        file.write(head)
        for number, table in enumerate(tables):
            file.write(f"[[account]]\n{table}station = {str(counts_stations(number)).lower()}\n")


class Checked(NamedTuple):
    """What a folder has: how many answers and moves, the sessions that have a place, and the asks that a link yielded to."""

    answers: int
    moves: int
    sessions: int
    yielded: int


def lines_of(replay: history.Replay) -> Iterator[tuple[str | None, history.Found | None]]:
    """The moves of a folder, each with the line that `radlimitd lines` prints of it."""
    words = [served.DAEMON, "lines", *replay.names]
    with subprocess.Popen(words, stdout=subprocess.PIPE, text=True) as run:
        assert run.stdout is not None
        for line, found in itertools.zip_longest(run.stdout, replay):
            yield line, found
    if run.returncode != 0:
        sys.exit(f"radlimitd lines: status {run.returncode}")


def check(servers: list[AccessServer], state: str, places: list[int]) -> Checked:
    """That each answer is in the folder, in its place and with its decision, and that `radlimitd lines` prints each
    move with the decision of the books: how many answers and moves there are, the sessions that have a place, and the
    asks that a link of their station yielded to."""
    replay = history.Replay(state, places)
    answered = {server.name: server.answered for server in servers}
    accepts = 0
    for line, found in lines_of(replay):
        if found is None or line is None or line != history.line_of(*found, served.HOST) + "\n":
            sys.exit(f"a line is:\n{line}and not of:\n{found}")
        kind, _moment, account, server, what, _number, station = found[2]
        if server is not None and account is not None:
            accepted = int(found[3].split()[1]) if found[3].startswith("accept") else None
            accepts += accepted is not None
            answered[server[2]].meet(kind, account, what, accepted, station)
    for access in servers:
        if not access.answered.are_met():
            sys.exit(f"an answer to {access.name!r} is not in the logs, or not in its place")
    answers = sum(len(server.answered.digests) for server in servers)
    if not answers or not accepts or accepts == replay.count:
        sys.exit("nothing was answered, or nothing but accepts")
    yielded = sum(book.yielded for book in replay.books.books)
    return Checked(answers, replay.count, replay.books.sessions(), yielded)
