"""Has `radlimitd export` print the sessions of state folders, and compares them with those that are found here.

First histories by chance, over some generations: moves, with ticks, restarts, some of them told late, bundles,
stations, late and early moments, and account files that changed. Books that step at every tick, written from
docs/SESSION-RULE.md, are looked at before and after each move, and say when each session began, was last seen and ended,
and why. Some of the logs are in the archive. Then single cases of folders, and at last a server whose sessions end in each
way, while it runs, over a kill and a reload.

usage: python3 -m tests.programs.export [HISTORIES [SEED]]       25 and 1 if not given
It wants Linux and the built program.
"""

import csv
import fcntl
import io
import json
import os
import random
import socket
import subprocess
import sys
import tempfile
import time
from datetime import datetime, timezone

from tests.lib import carried, folder as state, history, served

HISTORIES = 25
FIRST = 1_700_000_000
RESERVE, LIVE, GRACE, CLOSED, KEEP = 3, 5, 4, 12, 2  # seconds
CLIENTS = ["10.0.0.1", "10.0.0.2", "10.0.0.3"]
NAMES = [b"a", b'b"\\', b"c,d", b"=e"]
SERVERS = [b"n1", b'n"2', b"", None]
COLUMNS = ["account", "client", "nas", "nas_address", "session", "began", "seen", "ended", "why"]
FILE = """accounts = "accounts.toml"
state = "state"
listen = [{ address = "127.0.0.1", auth = 1812, acct = 1813 }]
"""


class Account(carried.Book):
    """A book with deadlines, and the sessions that were seen to end. A client is its address."""

    def __init__(self, name, limit, ports):
        super().__init__()
        self.name, self.limit, self.ports, self.began = name, limit, ports, {}

    def bound(self):
        """Its sessions, each with its last touch."""
        return {link[:2]: link[3] for link in self.links if carried.is_bound(link)}

    def row(self, session, seen, ended=None, why=None):
        """A session as it is printed."""
        (client, server), name = session
        return self.name, client, server, name, self.began[session], seen, ended, why

    def come_to(self, moment):
        """What lapses by a moment."""
        self.clock = max(self.clock, moment)
        for link in list(self.links):
            spared = LIVE + GRACE if carried.is_bound(link) else RESERVE
            if self.clock - link[3] >= spared:
                self.links.remove(link)
                if carried.is_bound(link):
                    yield self.row(link[:2], link[3], link[3] + spared, "silent")

    def step(self, moment, act, *given):
        """The sessions that a move ends, by looks before it and after it."""
        yield from self.come_to(moment)
        before = self.bound()
        getattr(self, f"do_{act}")(*given)
        after = self.bound()
        why = {"ask": "yielded", "stop": "stop", "restart": "off"}.get(act)
        yield from (self.row(session, seen, self.clock, why) for session, seen in before.items() if session not in after)
        for session in after:
            if session not in before:
                self.began[session] = self.clock

    def fits(self, links):
        return carried.places([*links, (None, self.number, None, 0, 0, None)], self.ports) <= self.limit

    def without_first(self, links):
        """All links but the one of some that was touched longest ago, where that makes room for another."""
        if not links:
            return None
        first = min(links, key=lambda link: link[3])
        left = [link for link in self.links if link is not first]
        return left if self.fits(left) else None

    def do_tick(self):
        pass

    def do_ask(self, server, key, station):
        for asked, kept, _decision, moment, swept in reversed(self.asks):
            if kept == key and self.clock - moment < KEEP and not swept:
                return
        links = self.without_first([link for link in self.links if station is not None and link[5] == station])
        if links is None and self.fits(self.links):
            links = self.links
        if links is None:
            stale = [link for link in self.links if carried.is_bound(link) and self.clock - link[3] >= LIVE]
            links = self.without_first(stale)
        number = None
        if links is not None:
            number, self.number = self.number, self.number + 1
            self.links = [*links, (server, number, None, self.clock, self.clock, station)]
        self.asks = [*self.asks, (server, key, number, self.clock, False)][-history.KEPT_ASKS :]

    def do_alive(self, server, session, bundle, number, station):
        for at, (its_server, holder, its_bundle, _touched, opened, its_station) in enumerate(self.links):
            if (its_server, holder) == (server, session):
                joined = bundle if its_bundle is None else its_bundle
                self.links[at] = server, session, joined, self.clock, opened, its_station if station is None else station
                return
        for stopped, name, moment, swept in self.stops:
            if (stopped, name) == (server, session) and self.clock - moment < CLOSED and not swept:
                return
        for at, (its_server, holder, _bundle, _touched, opened, its_station) in enumerate(self.links):
            if its_server == server and not isinstance(holder, bytes) and number in (None, holder):
                self.links[at] = server, session, bundle, self.clock, opened, its_station if station is None else station
                return
        link = server, session, bundle, self.clock, self.clock, station
        if carried.places([*self.links, link], self.ports) <= self.limit:
            self.links.append(link)
        else:
            self.over += 1

    def do_stop(self, server, session):
        self.links = [link for link in self.links if link[:2] != (server, session)]
        self.stops = [*self.stops, (server, session, self.clock, False)][-history.KEPT_STOPS :]

    def do_restart(self, server, delay):
        def is_before(its_server, moment):
            return its_server == server and self.clock - moment >= delay

        self.links = [link for link in self.links if not is_before(link[0], link[4])]
        self.asks = [(*ask[:4], ask[4] or is_before(ask[0], ask[3])) for ask in self.asks]
        self.stops = [(*stop[:3], stop[3] or is_before(stop[0], stop[2])) for stop in self.stops]

    def changed(self, clients, limit, ports):
        """It under another account file, whose clients go on as they are."""
        found = self.admitted({client: client for client in clients}, limit, ports)
        for name in ("clock", "number", "over", "links", "asks", "stops"):
            setattr(self, name, getattr(found, name))
        self.limit, self.ports = limit, ports


class History:
    """A history by chance, written to a folder as a server would, and the sessions of it."""

    def __init__(self, folder, rng):
        self.folder, self.rng, self.now = folder, rng, FIRST
        os.makedirs(os.path.join(folder, "archive"))
        self.clients = CLIENTS[:2]
        self.accounts = {name: Account(name, rng.randrange(1, 4), rng.choice((1, 2))) for name in NAMES[:3]}
        self.generation, self.tables, self.lines, self.latest, self.ended = 0, 1, 0, 0, []
        self.skipped = rng.random() < 0.2  # the first log is not there any more

    def server(self):
        """An access server, and its octets: its client is a number in a log."""
        client, name = self.rng.choice(self.clients), self.rng.choice(SERVERS)
        return client, name

    def octets_of(self, server):
        return carried.server_octets((self.clients.index(server[0]), server[1]))

    def books(self):
        """The snapshot of all books."""
        def numbered(values):
            return [((self.clients.index(client), name), *rest) for (client, name), *rest in values]

        found = []
        for account in self.accounts.values():
            book = carried.Book(
                account.clock, account.number, account.over, numbered(account.links), numbered(account.asks),
                numbered(account.stops),
            )
            found.append(book.octets())
        return state.listed(found)

    def move(self):
        """The octets of a move by chance, which is made."""
        rng = self.rng
        self.now += rng.choice((0, 0, 0, 1, 1, 2, 5))
        moment = self.now - rng.choice((0, 0, 0, 0, 1, 7))
        number = rng.randrange(len(self.accounts))
        account = list(self.accounts.values())[number]
        server, session = self.server(), rng.choice((b"s1", b"s2", b's,"3\n', b"s4"))
        if account.bound() and rng.random() < 0.6:
            server, session = rng.choice(list(account.bound()))
        octets, act = self.octets_of(server), rng.random()
        if act < 0.2:
            for one in self.accounts.values():
                self.ended += one.step(moment, "tick")
            return state.tick(moment)
        if act < 0.25:
            delay = rng.choice((0, 0, 1, 2, 4, 9))
            for one in self.accounts.values():
                self.ended += one.step(moment, "restart", server, delay)
            return state.restart(moment, octets, delay)
        station = rng.choice((None, None, b"d1", b"d2"))
        if act < 0.5:
            identifier = rng.randrange(6)
            key = socket.inet_aton("10.0.0.9") + bytes(2) + bytes([identifier]) + bytes(16)
            self.ended += account.step(moment, "ask", server, key, station)
            return state.ask(moment, number, octets, "10.0.0.9", 0, identifier, bytes(16), station)
        if act < 0.65:
            self.ended += account.step(moment, "stop", server, session)
            return state.stop(moment, number, octets, session)
        bundle = rng.choice((None, None, b"m1"))
        accepted = rng.choice((None, None, max(account.number - 1, 0)))
        self.ended += account.step(moment, "alive", server, session, bundle, accepted, station)
        return state.alive(moment, number, octets, session, bundle, accepted, station)

    def table(self):
        rows = [(name, book.limit, book.ports) for name, book in self.accounts.items()]
        return state.table(rows, self.clients, (RESERVE, LIVE, GRACE, CLOSED, KEEP))

    def generate(self):
        """The next generation."""
        self.generation += 1
        frames = [state.front(self.generation, self.table(), FIRST, self.lines, self.tables), self.books()]
        for _ in range(self.rng.randrange(1, 30)):
            batch = [self.move() for _ in range(self.rng.randrange(1, 5))]
            self.lines += len(batch)
            frames.append(state.listed(batch))
        self.log = "".join(("archive/" if self.rng.random() < 0.6 else "", f"log-{self.generation}"))
        with open(os.path.join(self.folder, self.log), "wb") as file:
            file.write(b"".join(map(state.frame, frames)))

    def change(self):
        """Another account file: accounts come and go, and have other places, and so do clients."""
        latest = self.latest = max(self.latest, *(book.clock for book in self.accounts.values()))
        before, table = {name: (book, book.bound()) for name, book in self.accounts.items()}, self.table()
        kept = [name for name in NAMES if self.rng.random() < 0.7] or NAMES[:1]
        self.rng.shuffle(kept)
        self.clients = self.rng.sample(CLIENTS, self.rng.randrange(1, 4))
        accounts = {}
        for name in kept:
            limit, ports = self.rng.randrange(1, 4), self.rng.choice((1, 2))
            accounts[name] = self.accounts.get(name) or Account(name, limit, ports)
            accounts[name].changed(self.clients, limit, ports)
        for name, (book, bound) in before.items():
            left = accounts[name].bound() if name in accounts else {}
            self.ended += [book.row(one, seen, latest, "changed") for one, seen in bound.items() if one not in left]
        self.accounts = accounts
        self.tables += self.table() != table

    def forget(self):
        """Takes the first log away: what it held at its end has no beginning."""
        self.ended = []
        for book in self.accounts.values():
            book.began = dict.fromkeys(book.bound())
        os.remove(os.path.join(self.folder, self.log))

    def write(self):
        """The whole history."""
        self.generate()
        if self.skipped:
            self.forget()
            self.generate()
        for _ in range(self.rng.randrange(1, 5)):
            if self.rng.random() < 0.4:
                self.change()
            self.generate()

    def held(self):
        """What is held at last: what has lapsed by the last moment of all is not."""
        return [book.row(one, seen) for book in self.accounts.values() for one, seen in book.bound().items()]


def key_of(row):
    """What rows are sorted by."""
    return tuple(map(repr, row))


def octets(text):
    """The octets of a string of JSON."""
    return None if text is None else text.encode("latin-1")


def of_json(text):
    """The rows of what was printed as JSON, in its order."""
    found = []
    for line in text.splitlines():
        one = json.loads(line)
        name = octets(one["nas"]) if "nas" in one else bytes.fromhex(one["nas_address"])
        names = octets(one["account"]), one["client"], name, octets(one["session"])
        found.append((*names, *(one[key] for key in ("began", "seen", "ended", "why"))))
    return found


def unescaped(text):
    """The octets of an escaped text."""
    parts = text.split("\\x")
    return parts[0].encode() + b"".join(bytes([int(part[:2], 16)]) + part[2:].encode() for part in parts[1:])


def second_of(date):
    """The second of a date, if there is one."""
    if not date:
        return None
    return int(datetime.strptime(date, "%Y-%m-%d %H:%M:%S").replace(tzinfo=timezone.utc).timestamp())


def of_csv(text):
    """The rows of what was printed as CSV, in its order. Of an access server without a name an empty one is not told."""
    head, *rows = csv.reader(io.StringIO(text, newline=""))
    if head != COLUMNS:
        return head
    found = []
    for account, client, name, _address, session, began, seen, ended, why in rows:
        names = unescaped(account), client, unescaped(name) or None, unescaped(session)
        found.append((*names, *map(second_of, (began, seen, ended)), why or None))
    return found


def without_names(rows):
    """Rows in which an empty name of an access server is none."""
    return [(*row[:2], row[2] or None, *row[3:]) for row in rows]


def was_held(row, since, until):
    """Whether a session was held at some moment of a span."""
    return (row[4] is None or row[4] < until) and (row[6] is None or row[6] >= since)


def date_of(second):
    return datetime.fromtimestamp(second, timezone.utc).strftime("%Y-%m-%d %H:%M:%S")


def exported(file, *flags):
    """What is printed of a server's file, and what is said."""
    out, err, status = served.asked("export", *flags, file)
    return out, (err, status)


def server_file(folder):
    """The file of a server whose state folder is in this folder."""
    path = os.path.join(folder, "radlimitd.toml")
    with open(path, "w", encoding="ascii") as file:
        file.write(FILE)
    return path


def cases_of_histories(rng, count):
    """Histories by chance."""
    for number in range(count):
        with tempfile.TemporaryDirectory() as folder:
            file = server_file(folder)
            one = History(os.path.join(folder, "state"), random.Random(rng.random()))
            one.write()
            expected = sorted(one.ended + one.held(), key=key_of)
            out, said = exported(file)
            found = of_json(out)
            yield f"history {number}: what is said", said, ("", 0)
            yield f"history {number}: the sessions", sorted(found, key=key_of), expected
            held = [row[6] is None for row in found]
            yield f"history {number}: those that are held come last", held, sorted(held)
            out, said = exported(file, "--csv")
            yield f"history {number}: as CSV", (of_csv(out), said), (without_names(found), ("", 0))
            since, until = sorted(rng.sample(range(FIRST, one.now + 2), 2))
            flags = ["--since", date_of(since), "--until", str(until)]
            yield f"history {number}: {flags}", of_json(exported(file, *flags)[0]), [
                row for row in found if was_held(row, since, until)
            ]
            with open(os.path.join(one.folder, one.log), "ab") as log:
                log.write(state.frame(b"\x01\x05\x01")[:-1])
            torn = exported(file)
            yield f"history {number}: a torn end", (of_json(torn[0]), torn[1]), (found, ("", 0))


def cases_of_folders(rng):
    """Single cases."""
    with tempfile.TemporaryDirectory() as folder:
        file = server_file(folder)
        path = os.path.join(folder, "state")
        missing = f"{path}: no such file\n"
        yield "no state folder", exported(file), ("", (missing, 1))
        one = History(path, rng)
        yield "no log", exported(file), ("", ("", 0))
        yield "no log, as CSV", exported(file, "--csv"), (",".join(COLUMNS) + "\n", ("", 0))
        one.skipped = False
        one.generate()
        with open("/dev/full", "wb") as full:
            run = subprocess.run([served.DAEMON, "export", "--csv", file], stdout=full, stderr=subprocess.PIPE, check=False)
        yield "a full disk", (run.returncode, run.stderr), (2, b"input or output fault\n")
        yield "a server that runs", *locked(path, file)


def locked(path, file):
    """What is printed where another process has the lock, and where none has it."""
    free = exported(file)
    with open(os.path.join(path, "lock"), "wb") as lock:
        fcntl.flock(lock, fcntl.LOCK_EX)
        return exported(file), free


class Asker:
    """An access server that asks a running server, one datagram after another."""

    def __init__(self, ports):
        self.ports, self.number = ports, 0
        self.sockets = [socket.socket(socket.AF_INET, socket.SOCK_DGRAM) for _ in range(2)]
        for one in self.sockets:
            one.settimeout(served.patience(20))

    def ask(self, at, octets):
        self.sockets[at].sendto(octets, (served.HOST, int(self.ports[at])))
        return self.sockets[at].recv(4096)

    def names(self, account, server):
        self.number = (self.number + 1) % 256
        return served.attribute(1, account.encode()) + served.attribute(32, server)

    def login(self, account, server=b"n1"):
        """Whether a login is accepted."""
        attributes, authenticator = self.names(account, server), os.urandom(16)
        request = served.access_request(self.number, served.SECRET, attributes, authenticator, served.PASSWORD)
        return self.ask(0, request)[0] == 2

    def tell(self, status, account, session=b"", server=b"n1"):
        attributes = self.names(account, server) + (served.attribute(44, session) if session else b"")
        return self.ask(1, served.accounting_request(self.number, served.SECRET, status, attributes))

    def interim(self, *names):
        """Keeps sessions of some accounts for half a second."""
        for name in names:
            self.tell(served.INTERIM, name, b"of " + name.encode())
        time.sleep(0.5)

    def close(self):
        for one in self.sockets:
            one.close()


def account_file(folder, names):
    """The account file of a server whose sessions end soon."""
    accounts = [(name, served.PASSWORD, 1, 1) for name in names]
    times = {"shards": 1, "reserve": 3, "live": 2, "grace": 6, "closed": 60, "keep": 1}
    clients = [(served.HOST, served.SECRET, False)]
    return served.account_file(os.path.join(folder, "accounts.toml"), clients, accounts, **times)


def cases_of_a_server():
    """A server that runs, with sessions that end in each way."""
    names = ["stops", "frees", "offs", "silent", "yields", "goes", "held"]
    with tempfile.TemporaryDirectory() as folder:
        account_file(folder, names)
        ports = served.free_ports()
        file = served.daemon_file(folder, ports, 1)
        process = served.daemon(file)
        served.greeting(process, 60)
        asker, began = Asker(ports), int(time.time())
        for name in names:
            server = b"n2" if name == "offs" else b"n1"
            asker.login(name, server)
            asker.tell(served.START, name, b"of " + name.encode(), server)
        asker.tell(served.STOP, "stops", b"of stops")
        freed = served.asked("free", "frees", served.HOST, "nas=n1", "of\\x20frees", file)
        yield "free", freed, ("freed\n", "", 0)
        asker.tell(7, "offs", server=b"n2")
        until = time.monotonic() + 3.2
        while time.monotonic() < until:
            asker.interim("goes", "held")
        yield "a stale session yields", asker.login("yields"), True
        asker.interim("goes", "held")
        process.kill()
        process.communicate()
        process = served.daemon(file)
        served.greeting(process, 60)
        asker.interim("goes", "held")
        names.remove("goes")
        account_file(folder, names)
        yield "reload", served.asked("reload", file)[2], 0
        until = time.monotonic() + 20
        out, said = exported(file)
        while '"why":"silent"' not in out and time.monotonic() < until:
            asker.interim("held")
            out, said = exported(file)
        now = int(time.time())
        found = {row[0].decode(): row for row in of_json(out)}
        yield "what is said", said, ("", 0)
        yield "why", {name: row[7] for name, row in found.items()}, {
            "stops": "stop", "frees": "stop", "offs": "off", "silent": "silent", "yields": "yielded", "goes": "changed",
            "held": None,
        }
        servers = {name: row[2] for name, row in found.items()}
        yield "where", servers, {name: b"n2" if name == "offs" else b"n1" for name in found}
        yield "in time", [row for row in found.values() if not began <= row[4] <= row[5] <= (row[6] or now) <= now], []
        yield "silent", found["silent"][6] - found["silent"][5], 8
        process.kill()
        process.communicate()
        asker.close()
        yield "once more, with no server", exported(file), (out, ("", 0))


def main():
    count, seed = [*map(int, sys.argv[1:]), *(HISTORIES, 1)[len(sys.argv) - 1 :]]
    rng = random.Random(seed)
    results = [*cases_of_histories(rng, count), *cases_of_folders(rng), *cases_of_a_server()]
    served.verdict(results)


if __name__ == "__main__":
    main()
