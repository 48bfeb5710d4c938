"""Has `radlimitd run` start with an account file that has changed, and looks at what goes on.

Each case has a state folder with random books: sessions and reservations, in bundles and alone, kept asks and stops, of
accounts at several clients. It is written from docs/FOLDER.md, in each version of the format: those before the present one
have a table in a file of its own, and the books shard after shard. The account file that the server is started with has some
of the accounts and clients, perhaps others, in another order, with other limits and times, and with other shards, which count
for nothing. The log of the next generation has to begin, octet by octet, as docs/FOLDER.md says of a changed account file ("A
changed account file"); it is written here from the old books by names and addresses. The server has to say how many sessions
go on. Where the table is the same, it says nothing of that if the log has the present format, and the table keeps its number.

usage: python3 -m tests.programs.changed [CASES [SEED]]
CASES is 300, and SEED is 1. It wants the built program.
"""

import os
import random
import select
import sys
import tempfile
from concurrent.futures import ThreadPoolExecutor

from tests.lib import carried, folder as state, history, served

SECRET, PASSWORD = b"secret of all", b"password"
NAMES = [f"u{number}" for number in range(8)]
ADDRESSES = [f"127.0.0.{number}" for number in range(1, 6)]
SERVERS = [b"n", b"m", None]
SESSIONS = [b"a", b"b", b"c", b"d", b"e"]
BUNDLES = [None, b"x", b"y"]
STATIONS = [None, b"00-00-5E-00-53-01", b"a"]
BOOT, NOW = 1_700_000_000, 1_700_001_000  # seconds
SECONDS = served.patience(20)  # that a server may take to start


class Accounts:
    """An account file: its clients by their addresses, its accounts by names with places and ports, its times, and its
    shards, which a folder of format 1 or 2 has its books by."""

    def __init__(self, rng):
        self.clients = rng.sample(ADDRESSES, rng.randint(1, 4))
        self.accounts = [(name, rng.randint(0, 5), rng.randint(1, 3)) for name in rng.sample(NAMES, rng.randint(1, 6))]
        self.shards = rng.randint(1, 4)
        self.times = rng.choice([(60, 900, 900, 3600, 10), (120, 600, 60, 60, 20)])

    def table(self):
        """Its table."""
        rows = [(name.encode(), places, ports) for name, places, ports in self.accounts]
        return state.table(rows, self.clients, self.times)

    def changed(self, rng):
        """Another one: this, with some accounts and clients, other limits, or a part of a new one."""
        other = Accounts(rng)
        if rng.random() < 0.8:
            self_accounts = [row if rng.random() < 0.6 else (row[0], rng.randint(0, 5), row[2]) for row in self.accounts]
            other.accounts = [row for row in self_accounts if rng.random() < 0.9] or self_accounts
            rng.shuffle(other.accounts)
        if rng.random() < 0.8:
            other.clients = [address for address in self.clients if rng.random() < 0.8] or self.clients
            rng.shuffle(other.clients)
        return other

    def write(self, path):
        """Writes the file."""
        reserve, live, grace, closed, keep = self.times
        served.account_file(
            path, [(address, SECRET, False) for address in self.clients],
            [(name, PASSWORD, *limits) for name, *limits in self.accounts], live=live, grace=grace, closed=closed,
            shards=self.shards, reserve=reserve, keep=keep,
        )

    def order(self, form=history.FORMAT):
        """The names of its accounts as a snapshot has their books: in format 1 and 2 shard after shard."""
        shards = self.shards if form < history.FORMAT else 1
        return [name for shard in range(shards) for name, *_ in self.accounts[shard::shards]]


def random_opening(rng, form):
    """When a link opened, and its station: format 1 does not know them."""
    if form == 1:
        return 0, None
    return NOW - rng.randint(400, 900), rng.choice(STATIONS)


def random_book(rng, form, clients, limit, ports):
    """A book of an account with these limits, at so many clients, in this version of the format."""
    clock, number = NOW - rng.randint(0, 500), rng.randint(0, 9)

    def server():
        return rng.randrange(clients), rng.choice(SERVERS)

    def kept():
        return clock - rng.randint(0, 400), rng.random() < 0.2

    holders = SESSIONS + rng.sample(range(number), min(number, 3))
    links = [
        (server(), holder, rng.choice(BUNDLES), kept()[0], *random_opening(rng, form))
        for holder in rng.sample(holders, len(holders))
    ]
    asks = [
        (server(), rng.randbytes(4 + 2 + 1 + 16), rng.choice([None, *range(number)]), *kept())
        for _ in range(rng.randint(0, history.KEPT_ASKS))
    ]
    stops = [(server(), rng.choice(SESSIONS), *kept()) for _ in range(rng.randint(0, history.KEPT_STOPS))]
    return carried.Book(clock, number, rng.randint(0, 300), carried.fitting(links, limit, ports), asks, stops)


def next_numbers(old, new):
    """The numbers that clients of an account file have in another one, by those that they have in it."""
    return {number: new.clients.index(address) for number, address in enumerate(old.clients) if address in new.clients}


def snapshot(accounts, books, form=history.FORMAT):
    """The snapshot of the books of an account file, in this version of the format."""
    return state.listed([books[name].octets() for name in accounts.order(form)])


def started(folder, ports):
    """What a server of this folder says as it starts. It is killed then."""
    process = served.daemon(served.daemon_file(folder, ports, 1))
    readable = select.select([process.stderr], [], [], SECONDS)[0]
    said = served.found_line(process) if readable else "nothing within its time"
    process.kill()
    process.wait()
    said += process.stderr.read().decode()
    process.stderr.close()
    return said


def said_and_begun(folder, log):
    """What a server of this folder says, and the octets of this log, which it has begun. Another program may have a port."""
    for _ in range(10):
        said = started(folder, served.free_ports())
        if f"{served.HOST}:" not in said:
            break
    path = os.path.join(folder, "state", log)
    if not os.path.exists(path):
        return said, None
    with open(path, "rb") as file:
        return said, file.read()


def before_it(rng, form, old, before):
    """The files of a folder in this version of the format with these books, the number of the generation that it has, and
    what the header of the next one has: its generation, the moves before it, and the number of the old table."""
    table, books = old.table(), snapshot(old, before, form)
    if form == history.FORMAT:
        generation, lines, number = rng.randint(1, 300), rng.randint(0, 1 << 40), rng.randint(1, 300)
        payloads = state.front(generation, table, BOOT, lines, number), books
        files, following = {f"log-{generation}": payloads}, (generation + 1, lines, number)
    else:
        generation, former = rng.randint(1, 9), state.former_table(table, BOOT, old.shards)
        files = {f"log-1-{generation}": (state.former_header(form, 1, generation, former), books)}
        # of the table of another version nothing is counted
        return {"era-1": former, **framed(files)}, generation, (1, 0, 0)
    return framed(files), generation, following


def framed(files):
    """The octets of files with these payloads."""
    return {name: b"".join(map(state.frame, payloads)) for name, payloads in files.items()}


def tried(seed):
    """What came of a case, and what should."""
    rng = random.Random(seed)
    old = Accounts(rng)
    new, form = old.changed(rng), rng.choice((1, 2, 3))
    before = {name: random_book(rng, form, len(old.clients), limit, ports) for name, limit, ports in old.accounts}
    after = carried.admitted(before, next_numbers(old, new), new.accounts)
    held, gone_on = (sum(book.sessions() for book in books.values()) for books in (before, after))
    files, generation, (following, lines, number) = before_it(rng, form, old, before)
    said = f"generation {generation}: {gone_on} sessions\n"
    if form < history.FORMAT or old.table() != new.table():
        said += f"accounts changed: {gone_on} of {held} sessions go on\n"
        number += 1
    frames = [state.front(following, new.table(), BOOT, lines, number), snapshot(new, after)]
    with tempfile.TemporaryDirectory() as folder:
        new.write(os.path.join(folder, "accounts.toml"))
        os.mkdir(os.path.join(folder, "state"), 0o700)
        for name, octets in files.items():
            with open(os.path.join(folder, "state", name), "wb") as file:
                file.write(octets)
        said_then, begun = said_and_begun(folder, f"log-{following}")
    return (said_then, begun and history.frames(begun)[:2]), (said, frames)


def main():
    words = sys.argv[1:] + ["300", "1"][len(sys.argv[1:]) :]
    if len(words) > 2 or not all(word.isdecimal() for word in words):
        sys.exit(__doc__)
    cases, seed = map(int, words)
    seeds = [f"{seed}, {case}" for case in range(cases)]
    with ThreadPoolExecutor(8) as pool:
        found = list(pool.map(tried, seeds))
    served.verdict([(name, *row) for name, row in zip(seeds, found)])


main()
