"""What the part `reload` changes: a `radlimitd run` whose account file changes, access servers that ask it, and the books
that say what it should answer and hold (carried.py)."""

import contextlib
import itertools
import json
import os
import random
import re
import socket
import struct
import subprocess
import sys
import time
import urllib.request
from collections.abc import Iterator, Sequence
from typing import Any

from tests.lib import carried, exposition, history, served, steady

NAMES = [f"u{number}" for number in range(12)]
ADDRESSES = [f"127.0.0.{number}" for number in range(2, 9)]
SERVERS = [b"n", b"m", None]
SESSIONS = [b"a", b"b", b"c", b"d", b"e", b"f"]
BUNDLES = [None, None, b"x", b"y"]
# no deadline comes: reserve, live, grace, closed and keep, in seconds
TIMES = [(3600, 3600, 3600, 3600, 3600), (7200, 3600, 900, 3600, 3600), (7200, 7200, 3600, 7200, 7200)]
REQUESTS = 12  # between two reloads
AGAIN = 12  # requests that are sent again
WAIT = served.patience(20)  # seconds that anything may take
QUIET = 0.02  # seconds in which no answer comes to what is dropped
TOLD = "accounts read anew: "  # on standard error, and behind it the answer
LOOK = 1.2  # seconds after which what is shown is not that of before
KILLED = 0.03  # seconds within which a server is killed that was asked

Row = tuple[str, bytes, int, int]  # an account: its name, password, places and ports
Client = tuple[str, bytes]  # its address and its secret
# the table of an account file: accounts with places and ports, clients and times
Table = tuple[list[tuple[str, int, int]], list[str], tuple[int, ...]]
Books = dict[str, carried.Book]
Said = tuple[str, str, int | None]  # what a program prints and says, and its status, if it ends
Held = tuple[list[str], list[list[str]]]  # lines of accounts, and of the sessions of each
Found = tuple[Any, Any]  # what came, and what should
Rows = Iterator[tuple[str, Any, Any]]  # the same with names


class Accounts:
    """An account file: its clients as addresses with secrets, its accounts as names with passwords, places and ports,
    its times, and its shards, which count for nothing. Those of the load are among them."""

    def __init__(self, rng: random.Random) -> None:
        self.rng = rng
        self.books: Books = {}
        self.shards, self.times = rng.randint(1, 4), rng.choice(TIMES)
        self.clients: list[Client] = [(steady.CLIENT, steady.SECRET)]
        self.accounts: list[Row] = [(name, steady.SECRET, 1, 1) for name in steady.NAMES]
        for _ in range(3):
            self.add_client()
        for _ in range(6):
            self.add_account()

    def own(self) -> list[Row]:
        """The accounts that changes touch."""
        return [row for row in self.accounts if row[0] not in steady.NAMES]

    def others(self) -> list[Client]:
        """The clients that changes touch."""
        return [row for row in self.clients if row[0] != steady.CLIENT]

    def limits(self) -> list[tuple[str, int, int]]:
        """The names of the accounts that changes touch, with places and ports."""
        return [(name, limit, ports) for name, _password, limit, ports in self.own()]

    def table(self) -> Table:
        """Its table: not the shards."""
        rows = [(name, limit, ports) for name, _password, limit, ports in self.accounts]
        return rows, [address for address, _secret in self.clients], self.times

    def write(self, path: str) -> None:
        """Writes the file."""
        reserve, live, grace, closed, keep = self.times
        clients = [(address, secret, False) for address, secret in self.clients]
        served.account_file(
            path, clients, self.accounts, live=live, grace=grace, closed=closed, shards=self.shards, reserve=reserve,
            keep=keep,
        )

    def changed(self, books: Books) -> "Accounts":
        """Another one, which differs in one or two ways. The books say what is held."""
        other = Accounts.__new__(Accounts)
        other.__dict__ |= self.__dict__ | {"clients": list(self.clients), "accounts": list(self.accounts), "books": books}
        for _ in range(self.rng.randint(1, 2)):
            self.rng.choice(CHANGES)(other)
        return other

    def put(self, row: Row, account: Row) -> None:
        """Puts an account in the place of one."""
        self.accounts[self.accounts.index(row)] = account

    def unused(self, rows: Sequence[tuple[Any, ...]], words: Sequence[Any]) -> Any:
        """A word with which none of some rows begins, if there is one."""
        left = [word for word in words if word not in {row[0] for row in rows}]
        return self.rng.choice(left) if left else None

    def add_account(self) -> None:
        if name := self.unused(self.accounts, NAMES):
            row = name, b"%d" % self.rng.randrange(1000), self.rng.randint(0, 5), self.rng.randint(1, 3)
            self.accounts.insert(self.rng.randint(0, len(self.accounts)), row)

    def remove_account(self) -> None:
        if len(self.own()) > 2:
            self.accounts.remove(self.rng.choice(self.own()))

    def rename_account(self) -> None:
        row = self.rng.choice(self.own())
        if name := self.unused(self.accounts, NAMES):
            self.put(row, (name, *row[1:]))

    def lower_places(self) -> None:
        """Lowers the places of the account that holds the most below what it holds."""
        rows = [row for row in self.own() if row[0] in self.books]
        held, row = max((carried.places(self.books[row[0]].links, row[3]), row) for row in rows)
        if held:
            self.put(row, (*row[:2], self.rng.randrange(held), row[3]))

    def raise_places(self) -> None:
        row = self.rng.choice(self.own())
        self.put(row, (*row[:2], row[2] + 1, row[3]))

    def change_ports(self) -> None:
        row = self.rng.choice(self.own())
        self.put(row, (*row[:3], self.rng.randint(1, 3)))

    def change_order(self) -> None:
        self.rng.shuffle(self.accounts)
        self.rng.shuffle(self.clients)

    def change_password(self) -> None:
        row = self.rng.choice(self.own())
        self.put(row, (row[0], b"%d" % self.rng.randrange(1000), *row[2:]))

    def change_secret(self) -> None:
        row = self.rng.choice(self.others())
        self.clients[self.clients.index(row)] = row[0], b"%d" % self.rng.randrange(1000)

    def change_times(self) -> None:
        self.times = self.rng.choice(TIMES)

    def change_shards(self) -> None:
        self.shards = self.rng.randint(1, 4)

    def add_client(self) -> None:
        if address := self.unused(self.clients, ADDRESSES):
            self.clients.insert(0, (address, b"%d" % self.rng.randrange(1000)))

    def remove_client(self) -> None:
        if len(self.others()) > 1:
            self.clients.remove(self.rng.choice(self.others()))

    def move_client(self) -> None:
        row = self.rng.choice(self.others())
        if address := self.unused(self.clients, ADDRESSES):
            self.clients[self.clients.index(row)] = address, row[1]

    def leave(self) -> None:
        """Changes nothing."""


CHANGES = [
    Accounts.add_account, Accounts.remove_account, Accounts.rename_account, Accounts.lower_places, Accounts.lower_places,
    Accounts.raise_places, Accounts.change_ports, Accounts.change_order, Accounts.change_password, Accounts.change_secret,
    Accounts.change_times, Accounts.change_shards, Accounts.add_client, Accounts.remove_client, Accounts.move_client,
    Accounts.leave,
]


class Sent:
    """A login that was answered: what it was, and the answer."""

    def __init__(self, name: str, password: bytes, server: carried.Server, secret: bytes, octets: bytes, key: Any) -> None:
        self.name, self.password, self.server, self.secret = name, password, server, secret
        self.octets, self.key = octets, key
        self.number: int | None = None
        self.ports: int | None = None
        self.reply: bytes | None = None


def nas_of(server: carried.Server) -> bytes:
    """The attribute with the name of an access server, if it has one."""
    return b"" if server[1] is None else served.attribute(32, server[1])


class Asker:
    """Access servers at each address, with one request under way at a time."""

    def __init__(self, ports: list[str]) -> None:
        self.ports, self.number, self.count = [int(port) for port in ports], 0, 0
        self.sockets: dict[str, socket.socket] = {}
        for address in ADDRESSES:
            self.sockets[address] = one = socket.socket(socket.AF_INET, socket.SOCK_DGRAM)
            one.bind((address, 0))

    def next_number(self) -> int:
        """The next Identifier."""
        self.number = (self.number + 1) % 256
        return self.number

    def answer(self, address: str, port: int, octets: bytes, secret: bytes, seconds: float = WAIT) -> bytes | None:
        """The answer to a request, None where none comes."""
        one, self.count = self.sockets[address], self.count + 1
        one.sendto(octets, (served.HOST, self.ports[port]))
        one.settimeout(seconds)
        with contextlib.suppress(TimeoutError):
            reply = one.recv(4096)
            return reply if served.is_answer(reply, octets, secret) else sys.exit(f"a wrong answer: {reply.hex()}")
        return None

    def close(self) -> None:
        """Closes its sockets."""
        for one in self.sockets.values():
            one.close()


class Changing:
    """A server whose account file changes, the books of the accounts that changes touch, and what asks it."""

    def __init__(self, folder: str, rng: random.Random, beside: int = 0, more: str = "") -> None:
        self.folder, self.rng, self.beside = folder, rng, beside
        self.state, self.path = os.path.join(folder, "state"), os.path.join(folder, "accounts.toml")
        self.accounts = Accounts(rng)
        self.books = carried.admitted({}, {}, self.accounts.limits())
        self.accounts.write(self.path)
        self.sent: list[Sent] = []
        self.said, self.told = "", ""
        self.generation = self.tables = 1  # that which runs, and the number of its table
        for _ in range(10):
            self.ports, (self.web, _) = served.free_ports(), served.free_ports()
            self.write_files(f"[web]\nport = {self.web}\n{more}")
            # another program may take a port in between
            if served.GREETING.match(self.start()):
                break
            self.kill()
        self.asker = Asker(self.ports)
        self.boot: bytes | None = None

    def write_files(self, more: str) -> None:
        """Writes the server's file, with more behind it, and one that names the account file that is to be looked at."""
        self.file = served.daemon_file(self.folder, self.ports, 2)
        with open(self.file, "a", encoding="ascii") as file:
            file.write(more)
        self.next_file = os.path.join(self.folder, "next.toml")
        with open(self.next_file, "w", encoding="ascii") as file:
            file.write(served.text_of(self.file).replace("accounts.toml", "accounts.next"))

    def start(self) -> str:
        """Starts the server: what it says first."""
        self.process = served.daemon(self.file)
        greeting = served.greeting(self.process, WAIT)
        assert self.process.stderr is not None
        self.stderr = self.process.stderr
        os.set_blocking(self.stderr.fileno(), False)
        return greeting

    def listen(self) -> None:
        """Takes what the server has said since."""
        self.said += served.but_refusals((self.stderr.read() or b"").decode())

    def kill(self) -> None:
        """Kills it."""
        self.process.kill()
        self.process.wait()
        self.listen()
        self.stderr.close()

    def asked(self, *words: str) -> Said:
        """What the program prints and says that asks the server this, and its status."""
        return served.asked(*words, self.file, seconds=WAIT)

    def offer(self, accounts: Accounts) -> tuple[str, int | None]:
        """Writes an account file, has it looked at, and moves it to its place: what the look says first."""
        offered = os.path.join(self.folder, "accounts.next")
        accounts.write(offered)
        printed, said, status = served.asked("check", self.next_file, seconds=WAIT)
        os.replace(offered, self.path)
        return printed.split("\n")[0] + said, status

    def next_generation(self) -> int:
        """The number of a generation that begins now: that behind the greatest of any log."""
        return 1 + max(map(history.number_of, history.logs(self.state)))

    def front(self) -> tuple[int, int, bool]:
        """The generation and the number of the table, as the header of the newest log has them that was begun, and whether
        it counts the moves before. A server may put a log away meanwhile."""
        while True:
            with contextlib.suppress(FileNotFoundError):
                (_, newest), *before = itertools.islice(history.generations(self.state, True), 2)
                found, count = history.Reader(newest[0]).header(), 0
                for _, payloads in before:
                    moves = sum(len(history.Reader(payload).moves()) for payload in payloads[2:])
                    count = history.Reader(payloads[0]).header().lines + moves
                return found.generation, found.table, found.lines == count

    def carried_to(self, accounts: Accounts) -> Books:
        """The books of another account file, which follows this one."""
        clients = {address: address for address, _secret in accounts.clients}
        return carried.admitted(self.books, clients, accounts.limits())

    def sessions(self) -> int:
        """How many sessions the books have."""
        return sum(book.sessions() for book in self.books.values())

    def follow(self, accounts: Accounts, generation: int) -> tuple[int, int]:
        """Has another account file count from a generation on, if its table is another: how many sessions go on, and how
        many there were."""
        held = self.sessions()
        if accounts.table() != self.accounts.table():
            self.books, self.generation, self.tables = self.carried_to(accounts), generation, self.tables + 1
        self.accounts = accounts
        return self.sessions(), held

    def limits_of(self, name: str) -> list[int]:
        """The places and ports of an account."""
        return next(limits for its_name, *limits in self.accounts.limits() if its_name == name)

    def request(self) -> Found:
        """Has an access server send one request: what came, and what should."""
        name, password, *limits = self.rng.choice(self.accounts.own())
        address, secret = self.rng.choice(self.accounts.others())
        server, book = (address, self.rng.choice(SERVERS)), self.books[name]
        if self.rng.random() < 0.4:
            return self.login(name, password, server, secret)
        attributes = served.attribute(1, name.encode()) + nas_of(server)
        bound = [(link[0], link[1]) for link in book.links if isinstance(link[1], bytes)]
        if bound and self.rng.random() < 0.3:
            # one that is there, at whose access server the packet is
            server, session = self.rng.choice(bound)
            secret = dict(self.accounts.clients)[server[0]]
            attributes = served.attribute(1, name.encode()) + nas_of(server)
        else:
            session = self.rng.choice(SESSIONS)
        attributes += served.attribute(44, session)
        if self.rng.random() < 0.35:
            book.stop(server, session)
            return self.account(served.STOP, server[0], secret, attributes)
        return self.alive(book, server, secret, session, attributes, limits)

    def login(self, name: str, password: bytes, server: carried.Server, secret: bytes) -> Found:
        """A login: its accept number, and what it should be."""
        one, number, authenticator = self.asker.sockets[server[0]], self.asker.next_number(), self.rng.randbytes(16)
        attributes = served.attribute(1, name.encode()) + nas_of(server)
        octets = served.access_request(number, secret, attributes, authenticator, password)
        sent = Sent(name, password, server, secret, octets, (one.getsockname(), number, authenticator))
        sent.reply = self.asker.answer(server[0], 0, octets, secret)
        if sent.reply is None:
            return "no answer", "one"
        sent.ports = self.limits_of(name)[1]
        sent.number = self.books[name].ask(server, sent.key, *self.limits_of(name))
        self.sent = [*self.sent, sent][-AGAIN:]
        if sent.reply[0] == 2:
            self.boot = dict(served.attributes_of(sent.reply))[25][:8]
        return steady.number_of(sent.reply), sent.number

    def alive(
        self, book: carried.Book, server: carried.Server, secret: bytes, session: bytes, attributes: bytes, limits: list[int]
    ) -> Found:
        """A Start or an Interim-Update, often with the Class of a reservation."""
        bundle, number = self.rng.choice(BUNDLES), None
        if bundle:
            attributes += served.attribute(50, bundle)
        if self.boot and self.rng.random() < 0.7:
            reserved = [link[1] for link in book.links if link[0] == server and isinstance(link[1], int)]
            number = self.rng.choice(reserved or [self.rng.randrange(4)])
            attributes += served.attribute(25, self.boot + struct.pack(">Q", number))
        book.alive(server, session, bundle, number, *limits)
        return self.account(self.rng.choice([served.START, served.INTERIM]), server[0], secret, attributes)

    def account(self, status: int, address: str, secret: bytes, attributes: bytes) -> Found:
        """An Accounting-Request: whether it is answered, which it should be."""
        octets = served.accounting_request(self.asker.next_number(), secret, status, attributes)
        reply = self.asker.answer(address, 1, octets, secret)
        return reply and reply[0], 5

    def again(self, sent: Sent) -> Found:
        """Sends a login again: what came, and what should. Of one whose account and client are as they were it is the
        same answer, and whatever comes, the books say what it opens."""
        secret = dict(self.accounts.clients).get(sent.server[0])
        if secret is None:
            return self.asker.answer(sent.server[0], 0, sent.octets, b"", QUIET), None
        reply = self.asker.answer(sent.server[0], 0, sent.octets, secret)
        row = next((row for row in self.accounts.own() if row[0] == sent.name), None)
        if reply is None or row is None or (row[1], secret) != (sent.password, sent.secret):
            return reply and reply[0], 3
        number = self.books[sent.name].ask(sent.server, sent.key, *row[2:])
        if (number, row[3]) == (sent.number, sent.ports):
            return reply, sent.reply
        return steady.number_of(reply), number

    def shown(self) -> Held:
        """What `accounts` and `sessions` should print."""
        rows, links = list[str](), list[list[str]]()
        for name, limit, ports in self.accounts.limits():
            book = self.books[name]
            held, live = carried.places(book.links, ports), book.sessions()
            words = f"places={limit} held={held} reserved={len(book.links) - live} live={live} stale=0 over={book.over}"
            rows.append(f"{name} {words}")
            links.append([f"{name} {line_of(link)}" for link in book.links])
        return rows, links

    def found(self) -> Held:
        """What they print, and what they say where they end with a fault."""
        rows = "".join(self.asked("accounts")[:2]).splitlines()
        links = ["".join(self.asked("sessions", name)[:2]) for name, *_ in self.accounts.own()]
        return (
            [row for row in rows if not row.startswith("load")],
            [re.sub(r" age=\d+", "", text).splitlines() for text in links],
        )

    def fetched(self, path: str) -> str:
        """What the server shows over HTTP."""
        with urllib.request.urlopen(f"http://{served.HOST}:{self.web}/{path}", timeout=WAIT) as page:
            return page.read().decode()

    def pages(self, others: int) -> Rows:
        """Rows of what it shows so, once that is up to date: the accounts, the clients, and all datagrams that were sent
        to it, so many of them by others. These are counted on over each reload."""
        time.sleep(LOOK)
        words = ("name", "places", "held", "reserved", "live", "stale", "over")
        found = [[row[word] for word in words] for row in json.loads(self.fetched("accounts.json"))["accounts"]]
        rows = ["{} places={} held={} reserved={} live={} stale={} over={}".format(*row) for row in found]
        yield "the accounts of the page", [row for row in rows if not row.startswith("load")], self.shown()[0]
        values = exposition.Metrics(self.fetched("metrics")).values
        clients = {dict(labels)["client"]: None for name, labels in values if name == "radlimitd_client_datagrams_total"}
        yield "the clients of the metrics", list(clients), [address for address, _secret in self.accounts.clients]
        count = sum(value for (name, _), value in values.items() if name == "radlimitd_datagrams_total")
        yield "the datagrams of the metrics", count, self.asker.count + others

    def reload(self) -> tuple[str, int | None]:
        """Has the server read what `offer` has put there: its answer and its status."""
        printed, said, status = self.asked("reload")
        return printed + said, status

    def changed(self) -> Rows:
        """Changes the account file, and has it read: rows of what came, and of what should."""
        accounts, generation = self.accounts.changed(self.books), self.next_generation()
        yield "the look at the file", self.offer(accounts), ("ok", 0)
        is_same = accounts.table() == self.accounts.table()
        answer = self.reload()
        gone_on, held = self.follow(accounts, generation)
        front = self.generation, self.tables, True
        if is_same:
            yield "the answer, and the generation", (answer, self.front()), (("as before\n", 0), front)
        else:
            found = re.fullmatch(r"(\d+) of (\d+) sessions go on\n", answer[0])
            if not found:
                yield "the answer", answer, f"{gone_on} of {held} sessions go on"
                return
            others = int(found[1]) - gone_on
            counted = 0 <= others <= self.beside, int(found[2]) - others
            yield "the answer, and the generation", (counted, self.front()), ((True, held), front)
        self.told += TOLD + answer[0]
        yield "what is held", self.found(), self.shown()
        for sent in self.sent:
            yield "a login that is sent again", *self.again(sent)
        yield "what is held then", self.found(), self.shown()
        self.listen()

    def works(self) -> Rows:
        """Has its access servers send some requests: rows of what came of each."""
        for _ in range(REQUESTS):
            yield "a request", *self.request()

    def quiet(self) -> tuple[str, str]:
        """What the server has said of its account file, and what it should have."""
        self.listen()
        until = time.monotonic() + WAIT
        while self.said != self.told and time.monotonic() < until:
            time.sleep(0.1)
            self.listen()
        return self.said, self.told

    def killed(self) -> Rows:
        """Changes the account file, and kills the server that reads it: rows of what the next start finds."""
        old, accounts, generation = self.accounts, self.accounts.changed(self.books), self.next_generation()
        is_same = accounts.table() == old.table()
        yield "the look at the file", self.offer(accounts), ("ok", 0)
        with subprocess.Popen([served.DAEMON, "reload", self.file], stdout=subprocess.PIPE, stderr=subprocess.PIPE) as asks:
            # sooner more often: it has read the file within some milliseconds
            time.sleep(KILLED * self.rng.random() ** 2)
            self.kill()
            printed = asks.communicate()[0].decode()
        has_begun = not is_same and self.has_begun(generation)
        yield "an answer comes once the generation has begun", bool(printed) and not is_same and not has_begun, False
        if has_begun:
            self.follow(accounts, generation)
        elif is_same:
            self.accounts = accounts
        goes_on = self.rng.choice([old, accounts])
        goes_on.write(self.path)
        yield from self.restart(goes_on)
        yield "what is held", self.found(), self.shown()
        again = [self.again(sent) for sent in self.sent]
        yield "the logins that are sent again", [found for found, _ in again], [due for _, due in again]

    def has_begun(self, generation: int) -> bool:
        """Whether a generation has begun: its log has its header with its table, and its snapshot."""
        path = os.path.join(self.state, f"log-{generation}")
        if not os.path.exists(path):
            return False
        with open(path, "rb") as file:
            return len(history.frames(file.read())) >= 2

    def restart(self, accounts: Accounts) -> Rows:
        """Starts the server with this account file: what it says, and what it should."""
        is_same, was, generation = accounts.table() == self.accounts.table(), self.generation, self.next_generation()
        said = re.sub(r", torn end of \d+ octets cut off", "", self.start())
        gone_on, held = self.follow(accounts, generation)
        self.generation = generation
        begun = f"generation {was}: {gone_on} sessions\n", (generation, self.tables, True)
        yield "the start, and its generation", (said, self.front()), begun
        # the one that was killed may have told of a reload or not
        self.said, self.told = "", "" if is_same else f"accounts changed: {gone_on} of {held} sessions go on\n"
        yield "what it says then", *self.quiet()

    def close(self) -> None:
        """Ends it."""
        if self.process.poll() is None:
            self.kill()
        self.asker.close()


def line_of(link: carried.Link) -> str:
    """The line of `sessions` for a link, but for its account and its age."""
    (address, name), holder, bundle, *_ = link
    words = [address, "unnamed" if name is None else f"nas={history.escaped(name)}"]
    words += [history.escaped(holder), "live"] if isinstance(holder, bytes) else ["\\-", "reserved"]
    return " ".join(words + ([f"bundle={history.escaped(bundle)}"] if bundle else []))
