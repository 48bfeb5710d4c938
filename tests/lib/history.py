"""What scripts of tests/programs read the files of a state folder with, and count what stands in them. It is written
apart from the server, from docs/FOLDER.md and docs/SESSION-RULE.md alone."""

import collections
import hashlib
import os
import re
import socket
import string
from collections.abc import Callable, Iterator
from typing import Any, NamedTuple, TypeVar

FORMAT, RULE = 3, 1  # versions that a server writes
HEAD = 20  # octets of a frame before its payload
KEEP = 60  # seconds
KEPT_ASKS, KEPT_STOPS = 8, 16
LONGEST_TIME = 86_400  # seconds
LOG = re.compile(r"log-([1-9]\d*)")
FORMER_LOG = re.compile(r"log-([1-9]\d*)-([1-9]\d*)")  # of a folder of format 1 or 2

T = TypeVar("T")

# an access server: its client, the tag of what names it, and its name
Server = tuple[int, int, bytes]
# what an ask is known by: address and port of the source, Identifier and Request Authenticator
Key = tuple[bytes, int, int, bytes]
# its kind, moment, account, access server, key or session, accept number and station
Move = tuple[str, int, int | None, Server | None, Any, int | None, bytes | None]
# of a move the path of its log, its number, itself, and its decision
Found = tuple[str, int, Move, str]


class Link(NamedTuple):
    """A link, which an accept number or a session holds."""

    holder: int | bytes
    station: bytes | None
    opened: int
    touched: int


# links, the next accept number, the over count, kept asks and kept stops
SavedBook = tuple[list[Link], int, int, list[tuple[Key, int | None]], list[bytes]]


class Header(NamedTuple):
    """The header of a generation: its number, the number of its table, the boot number, and the moves before it."""

    generation: int
    table: int
    boot: int
    lines: int


# of a table each account's name, its places and ports, and its times; and the addresses of its clients
Table = tuple[list[tuple[bytes, tuple[int, int], tuple[int, ...]]], list[bytes]]


class Fault(ValueError):
    """What is wrong with octets, and where."""

    def __init__(self, offset: int, cause: str) -> None:
        super().__init__(f"at {offset}: {cause}")
        self.offset, self.cause = offset, cause

    def behind(self, offset: int) -> "Fault":
        """The fault of octets that begin at an offset."""
        return Fault(offset + self.offset, self.cause)


class Reader:
    """The octets of a payload, from left to right, as docs/FOLDER.md has them. Of how many accounts and clients there
    are, none is too many where it is not given."""

    def __init__(self, octets: bytes, accounts: int = 1 << 64, clients: int = 1 << 64) -> None:
        self.octets, self.at = octets, 0
        self.accounts, self.clients = accounts, clients
        self.bundles = self.late = 0

    def take(self, count: int) -> bytes:
        """So many octets."""
        found = self.octets[self.at : self.at + count]
        if len(found) < count:
            raise Fault(self.at, "cut short")
        self.at += count
        return found

    def number(self) -> int:
        begin, mark = self.at, self.take(1)[0]
        if mark < 253:
            return mark
        size, least = {253: (2, 253), 254: (4, 1 << 16), 255: (8, 1 << 32)}[mark]
        value = int.from_bytes(self.take(size), "big")
        if value < least:
            raise Fault(begin, "a number in too many octets")
        return value

    def within(self, least: int, most: int, cause: str = "a number out of range") -> int:
        """A number with limits."""
        begin, value = self.at, self.number()
        if not least <= value <= most:
            raise Fault(begin, cause)
        return value

    def string(self) -> bytes:
        begin, count = self.at, self.take(1)[0]
        if count > 253:
            raise Fault(begin, "a name of over 253 octets")
        return self.take(count)

    def tag(self, count: int) -> int:
        """One of the tags below a count."""
        begin, found = self.at, self.take(1)[0]
        if found >= count:
            raise Fault(begin, "an unknown tag")
        return found

    def option(self, field: Callable[[], T]) -> T | None:
        return field() if self.tag(2) else None

    def counted(self, field: Callable[[], T]) -> list[T]:
        return self.listed(self.number(), field)

    @staticmethod
    def listed(count: int, field: Callable[[], T]) -> list[T]:
        """So many values. A count that no file has room for ends with the first that is missing."""
        found: list[T] = []
        while len(found) < count:
            found.append(field())
        return found

    def account(self) -> int:
        return self.within(0, self.accounts - 1, "an account that is not there")

    def server(self) -> Server:
        """An access server: its client, and its name with the tag of what kind it is."""
        client = self.within(0, self.clients - 1, "a client that is not there")
        tag = self.tag(3)
        return client, tag, b"" if tag == 2 else self.string()

    def key(self) -> Key:
        """The source's address and port, the Identifier and the Request Authenticator."""
        address, port = self.take(4), int.from_bytes(self.take(2), "big")
        return address, port, self.take(1)[0], self.take(16)

    def bundle(self) -> bytes | None:
        """A bundle, if there is one. They are counted, since no packet of these scripts has one."""
        found = self.option(self.string)
        self.bundles += found is not None
        return found

    def move(self) -> Move:
        """A move: its kind, its moment, its account, its access server, its key or session, its accept number and its
        station. Those of a station, and a restart that was told late, have tags of their own."""
        begin, tag = self.at, self.take(1)[0]
        if not 1 <= tag <= 9:
            raise Fault(begin, "an unknown tag")
        moment = self.number()
        match tag:
            case 1 | 7:
                account, key, server = self.account(), self.key(), self.server()
                return "ask", moment, account, server, key, None, self.string() if tag == 7 else None
            case 2 | 8:
                account, server, session = self.account(), self.server(), self.string()
                self.bundle()
                number = self.option(self.number)
                return "alive", moment, account, server, session, number, self.string() if tag == 8 else None
            case 3:
                account, server = self.account(), self.server()
                return "stop", moment, account, server, self.string(), None, None
            case 4 | 9:
                server = self.server()
                if tag == 9:
                    self.within(1, (1 << 64) - 1)
                    self.late += 1
                return "restart", moment, None, server, None, None, None
            case 5:
                return "tick", moment, None, None, None, None, None
        server = self.server()
        self.within(0, (1 << 32) - 1)  # its status
        self.string()  # its name
        return "stray", moment, None, server, self.string(), None, None

    def moves(self) -> list[Move]:
        """The moves of a batch."""
        return self.whole(lambda: self.counted(self.move))

    def link(self) -> Link:
        """A link. One of which is known when it opened, or a station, has tags of its own, and may not be without
        both."""
        self.server()
        tag, opened = self.tag(4), 0
        station: bytes | None = None
        holder: int | bytes = self.string() if tag % 2 else self.number()
        if tag >= 2:
            begin, opened, station = self.at, self.number(), self.option(self.string)
            if opened == 0 and station is None:
                raise Fault(begin, "a number out of range")
        self.bundle()
        return Link(holder, station, opened, self.number())

    def ask(self) -> tuple[Key, int | None]:
        """A kept ask: its key and its decision."""
        key = self.key()
        self.server()
        tag = self.tag(3)
        decision = self.number() if tag == 1 else None
        self.number()
        self.tag(2)
        return key, decision

    def stop(self) -> bytes:
        """A kept stop: its session."""
        self.server()
        session = self.string()
        self.number()
        self.tag(2)
        return session

    def book(self) -> SavedBook:
        """A book: its links, its next accept number, its over count, its kept asks and its kept stops."""
        self.number()  # its clock
        number, over = self.number(), self.number()
        links = self.counted(self.link)
        asks = self.counted(self.ask)
        return links, number, over, asks, self.counted(self.stop)

    def books(self) -> list[SavedBook]:
        """The books of a snapshot."""
        return self.whole(lambda: self.counted(self.book))

    def header(self) -> Header:
        """The header of a generation. Its table follows."""
        self.within(FORMAT, FORMAT, "another version of the format")
        self.within(RULE, RULE, "another version of the session rule")
        return Header(self.number(), self.number(), self.number(), self.number())

    def row(self) -> tuple[bytes, tuple[int, int], tuple[int, ...]]:
        """An account of a table: its name, its places and ports, and its times."""
        begin, name = self.at, self.string()
        if not 1 <= len(name) <= 64 or not all(0x21 <= octet <= 0x7E for octet in name):
            raise Fault(begin, "a name that no account can have")
        begin, limits = self.at, (self.within(0, 64), self.within(1, 16))
        times = [self.within(1, LONGEST_TIME) for _ in range(5)]
        if times[4] > times[0]:
            raise Fault(begin, "an answer kept for longer than a place")
        return name, limits, tuple(times)

    def table(self) -> Table:
        """A table, and nothing behind it: its accounts and its clients."""
        rows = self.listed(self.within(1, 16_384), self.row)
        clients = self.listed(self.within(1, 256), lambda: self.take(4))
        return self.whole(lambda: (rows, clients))

    def whole(self, field: Callable[[], T]) -> T:
        """A field with nothing behind it."""
        found = field()
        if self.at != len(self.octets):
            raise Fault(self.at, "octets after the end")
        return found


class Book:
    """What an account holds, by docs/SESSION-RULE.md, as long as no deadline comes, no bundle is there, each alive has
    the Class of an accept of its own access server, and no two of those have sessions of one name."""

    def __init__(self, places: int) -> None:
        self.places, self.number, self.over, self.clock = places, 0, 0, 0
        self.links: list[Link] = []
        self.asks: collections.deque[tuple[Key, int | None, int]] = collections.deque(maxlen=KEPT_ASKS)
        self.stops: list[bytes] = []
        self.yielded = 0  # links that yielded to their station

    def ask(self, key: Key, station: bytes | None) -> int | None:
        """The accept number of an ask, or None where it is rejected."""
        for kept, decision, moment in reversed(self.asks):
            if kept == key and self.clock - moment < KEEP:
                return decision
        self.make_way(station)
        decision = None
        if len(self.links) < self.places:
            decision, self.number = self.number, self.number + 1
            self.links.append(Link(decision, station, self.clock, self.clock))
        self.asks.append((key, decision, self.clock))
        return decision

    def make_way(self, station: bytes | None) -> None:
        """Has the link of a station yield to a fresh ask, where that fits then. Links are in the order in which they
        opened."""
        links = [link for link in self.links if station is not None and link.station == station]
        if links and len(self.links) - 1 < self.places:
            self.links.remove(min(links, key=lambda link: link.touched))
            self.yielded += 1

    def alive(self, session: bytes, number: int | None, station: bytes | None) -> None:
        """A Start or an Interim-Update."""
        holders = [link.holder for link in self.links]
        if session in holders:
            self.touch(holders.index(session), session, station)
        elif session in self.stops:
            return
        elif number in holders:
            self.touch(holders.index(number), session, station)
        elif len(self.links) < self.places:
            self.links.append(Link(session, station, self.clock, self.clock))
        else:
            self.over += 1

    def touch(self, at: int, session: bytes, station: bytes | None) -> None:
        """A session takes or renews a link."""
        _holder, its_station, opened, _touched = self.links[at]
        self.links[at] = Link(session, its_station if station is None else station, opened, self.clock)

    def stop(self, session: bytes) -> None:
        """A Stop."""
        self.links = [link for link in self.links if link.holder != session]
        self.stops = [*self.stops, session][-KEPT_STOPS:]

    def step(self, move: Move) -> str:
        """The decision of a move, as `radlimitd lines` prints it."""
        kind, moment, _account, _server, what, number, station = move
        self.clock = max(self.clock, moment)
        decision = "done"
        if kind == "ask":
            accepted = self.ask(what, station)
            decision = "reject limit" if accepted is None else f"accept {accepted}"
        elif kind == "alive":
            self.alive(what, number, station)
        elif kind == "stop":
            self.stop(what)
        if len(self.links) > self.places:
            raise ValueError("an account is over its places")
        return decision

    def sessions(self) -> int:
        """How many sessions have a link."""
        return sum(isinstance(link.holder, bytes) for link in self.links)

    def is_saved(self, found: SavedBook) -> bool:
        """Whether a book of a snapshot has the links, the accept numbers and the over count of this one."""
        links, number, over, _asks, _stops = found
        return (links, number, over) == (self.links, self.number, self.over)


class Books:
    """The books of all accounts, whose places are given."""

    def __init__(self, places: list[int]) -> None:
        self.books = [Book(count) for count in places]

    def step(self, move: Move) -> str:
        """The decision of a move."""
        kind, moment, account = move[:3]
        if kind in ("restart", "stray"):
            raise ValueError(f"a {kind}, which no packet here is")
        if account is not None:
            return self.books[account].step(move)
        for book in self.books:
            book.clock = max(book.clock, moment)
        return "done"

    def check(self, payload: bytes) -> None:
        """That a snapshot has these books, in the order of the accounts' numbers."""
        found: list[SavedBook] = Reader(payload).books()
        if len(found) != len(self.books):
            raise ValueError(f"a snapshot has {len(found)} books")
        for account, (book, saved) in enumerate(zip(self.books, found)):
            if not book.is_saved(saved):
                raise ValueError(f"a snapshot has of account {account} {saved[:3]}, and not {book.links}")

    def sessions(self) -> int:
        """How many sessions have a link."""
        return sum(book.sessions() for book in self.books)

    def totals(self) -> str:
        """What `radlimitd status` says of them, where no session is stale."""
        held, sessions = sum(len(book.links) for book in self.books), self.sessions()
        numbers = {
            "accounts": len(self.books), "places": sum(book.places for book in self.books), "held": held,
            "reserved": held - sessions, "live": sessions, "stale": 0, "over": sum(book.over for book in self.books),
        }
        return "".join(f"{word:10} {number:11}\n" for word, number in numbers.items())


def frames(octets: bytes) -> list[bytes]:
    """The payloads of the whole frames of a file."""
    at, found = 0, list[bytes]()
    while len(octets) - at >= HEAD:
        size, digest = int.from_bytes(octets[at : at + 4], "big"), octets[at + 4 : at + HEAD]
        payload = octets[at + HEAD : at + HEAD + size]
        if len(payload) < size or hashlib.md5(payload).digest() != digest:
            break
        found.append(payload)
        at += HEAD + size
    return found


def whole_len(payloads: list[bytes]) -> int:
    """How many octets the frames of these payloads have."""
    return sum(HEAD + len(payload) for payload in payloads)


def is_spoilt(rest: bytes) -> bool:
    """Whether what stands behind the whole frames of a file is damage, and no torn end: a frame that is spoilt before a
    whole one, or one of which only the length is spoilt."""
    hasher = hashlib.md5()
    for octet in rest[HEAD:]:
        if hasher.digest() == rest[4:HEAD]:
            return True
        hasher.update(bytes([octet]))
    if len(rest) >= HEAD and hasher.digest() == rest[4:HEAD]:
        return True
    at = 0
    while len(rest) - at >= HEAD:
        size, payload = int.from_bytes(rest[at : at + 4], "big"), rest[at + HEAD :]
        if size > len(payload):
            return False
        if hashlib.md5(payload[:size]).digest() == rest[at + 4 : at + HEAD]:
            return True
        at += HEAD + size
    return False


def number_of(name: str) -> int:
    """The generation of a log."""
    found = LOG.fullmatch(os.path.basename(name))
    assert found is not None, name
    return int(found[1])


def order(name: str) -> tuple[int, ...]:
    """What the names of logs are sorted by. Those of a folder of format 1 or 2 come before all others."""
    found = FORMER_LOG.fullmatch(name)
    return (0, int(found[1]), int(found[2])) if found else (1, number_of(name))


def logs(state: str) -> list[str]:
    """The paths of the logs of a folder and of its archive, in their order."""
    found = [os.path.join(folder, name) for folder, _, names in os.walk(state) for name in filter(LOG.fullmatch, names)]
    return sorted(found, key=number_of)


def generations(state: str, newest_first: bool = False) -> Iterator[tuple[str, list[bytes]]]:
    """The logs of a folder that were begun, in their order or from the newest on: path and payloads."""
    for path in sorted(logs(state), key=number_of, reverse=newest_first):
        with open(path, "rb") as file:
            payloads = frames(file.read())
        if len(payloads) >= 2:
            yield path, payloads


# what stands for itself in a line
AS_THEY_ARE = (string.ascii_letters + string.digits + "%+,-./:=@_").encode()


def escaped(octets: bytes) -> str:
    """Octets as a word of a line."""
    return "".join(chr(octet) if octet in AS_THEY_ARE else f"\\x{octet:02x}" for octet in octets)


def line_of(name: str, number: int, move: Move, decision: str, host: str) -> str:
    """The line of a move that `radlimitd lines` prints, of an account u with its number and of the client at host."""
    kind, moment, account, server, what, accepted, station = move
    words = [escaped(name.encode()), str(number), str(moment), kind]
    if account is not None and server is not None:
        words += [f"account=u{account}", f"client={host}", f"nas={escaped(server[2])}"]
    if kind == "ask":
        address, port, identifier, authenticator = what
        words += [f"source={socket.inet_ntoa(address)}:{port}", f"id={identifier}"]
        words += [f"authenticator={authenticator.hex()}"]
    elif account is not None:
        words += [f"session={escaped(what)}"]
    if accepted is not None:
        words += [f"class={accepted}"]
    if station is not None:
        words += [f"station={escaped(station)}"]
    return " ".join([*words, "->", decision])


class Replay:
    """The moves of a folder whose accounts never changed, in their order, with the decisions that the books here come to.
    On the way each header has to be of its file, and to count the moves before it, each table has to be the first one, with
    these places, and each snapshot has to have the books."""

    def __init__(self, state: str, places: list[int]) -> None:
        self.state, self.places, self.books, self.count = state, places, Books(places), 0
        self.names = [path for path, _ in generations(state)]
        self.front: tuple[int, bytes] | None = None  # the boot number, and the octets of the table

    def check_front(self, path: str, payload: bytes) -> None:
        """The header of a log, and its table."""
        reader = Reader(payload)
        found = reader.header()
        front = found.boot, payload[reader.at :]
        if self.front is None:
            self.front = front
        expected = Header(number_of(path), 1, self.front[0], self.count)
        if (found, front) != (expected, self.front):
            raise ValueError(f"the header of {path} is {found}, and not {expected}, or its table is another")
        rows, _clients = reader.table()
        if [limits[0] for _name, limits, _times in rows] != self.places:
            raise ValueError(f"the table of {path} has other places: {rows}")

    def __iter__(self) -> Iterator[Found]:
        """Each move: the path of its log, its number, the move and its decision."""
        for path, payloads in generations(self.state):
            self.check_front(path, payloads[0])
            self.books.check(payloads[1])
            for payload in payloads[2:]:
                reader = Reader(payload)
                for move in reader.moves():
                    self.count += 1
                    yield path, self.count, move, self.books.step(move)
                if reader.bundles or reader.late:
                    raise ValueError("a bundle or a delay, of which no packet had one")
