"""Has a running `radlimitd` read its account file anew, again and again, by `radlimitd reload`.

Each time the file has changed by chance: accounts were added, removed, renamed, given other places, ports or passwords,
or put into another order; clients were added in front of all others, removed, given another address or another secret;
times changed, or shards, which are of no table; or nothing did. `radlimitd check` looks at it, it is moved over the old one,
and the server is asked to read it. Books that were written apart (tests/lib/carried.py) carry sessions by the names of
accounts and the addresses of clients. They say what is answered, what `radlimitd accounts` and `radlimitd sessions` print
then, and what a request gets that was answered before and is sent again. Where the table is another, the next generation
begins, and its header has the number of the next table.

Beside it access servers log in and out all the time, over accounts and a client that no change touches. Each of their
datagrams is sent once, and each has to be answered, by what the sessions of its account say.

Then a server is killed right after it was asked, or while it reads: the next start goes on from the generation before the
change or from the one behind it, whole, with either of the two files. At last single cases: files that are wrong, a
network whose client is gone, two reloads at once, no server, and examples/accounts-from-database.py.

usage: python3 -m tests.programs.reload [RELOADS [SEED]]        1000 and 1 if not given; a quarter as many servers are killed
       python3 -m tests.programs.reload --pause [RELOADS]       measures how long an answer waits for one, 5 if not given
It wants Linux and the built program, and with --pause a C compiler.
"""

import contextlib
import itertools
import os
import random
import re
import sqlite3
import subprocess
import sys
import tempfile
import time
from concurrent.futures import ThreadPoolExecutor

from tests.lib import changing, flooded, served, steady

WAIT = changing.WAIT
PAUSES, APART = 5, 2.0  # reloads that are measured, and seconds for each
PAUSE = 100.0  # ms that an answer may wait for one
SECRET = b"secret of a database"
NO_VALUE = "invalid value, expected a string, number, boolean, date-time, array or inline table"  # what the parser says where a value should be
TABLES = re.compile(r'^CREATE TABLE client .*?;(?=\n""")', re.M | re.S)  # in the text of the example
UNIT = os.path.join(served.TOP, "packaging", "radlimitd.service")
TUNABLES = re.compile(r"^Environment=GLIBC_TUNABLES=(.*)$", re.M)
TOOL = os.path.join(served.TOP, "examples", "accounts-from-database.py")


def rows_of(turns):
    """The rows of some turns, up to the first turn with a row that is wrong. Each has its number in its name."""
    for number, turn in enumerate(turns):
        rows = [(f"turn {number}: {name}", found, expected) for name, found, expected in turn]
        yield from rows
        if any(found != expected for _, found, expected in rows):
            return


def cases_of_changes(folder, rng, count):
    """Reloads beside a load."""
    server = changing.Changing(folder, rng, beside=len(steady.NAMES))
    try:
        with steady.beside(server.ports) as found:
            yield from rows_of(itertools.chain(server.works(), server.changed()) for _ in range(count))
        sent, *faults = found
        yield "the load: datagrams sent, lost, and wrong answers", (sent > count, *faults), (True, 0, [])
        yield "what the server says of them", *server.quiet()
        yield from server.pages(sent)
    finally:
        server.close()


def cases_of_kills(folder, rng, count):
    """Servers that are killed."""
    server = changing.Changing(folder, rng)
    try:
        yield from rows_of(itertools.chain(server.works(), server.killed()) for _ in range(count))
    finally:
        server.close()


def stays(server, case, said):
    """Rows of a reload that is refused: the answer is what `check` says, and nothing has changed."""
    printed, told, _ = server.asked("check")
    yield f"{case}: the check", (printed, told), ("", f"{said}\n")
    yield f"{case}: the answer", server.reload(), (f"{said}\n", 2)
    yield f"{case}: the generation", f"generation {server.generation:11}\n" in server.asked("status")[0], True
    yield f"{case}: what is held", server.found(), server.shown()
    yield from ((f"{case}: {name}", *row) for name, *row in server.works())
    yield f"{case}: what is held then", server.found(), server.shown()


def cases_of_faults(folder, rng):
    """Account files that are wrong, a network whose client is gone, two reloads at once, and no server."""
    networks = f'[[network]]\nprefix = "127.0.1.0/24"\nclient = "{steady.CLIENT}"\n'
    server = changing.Changing(folder, rng, more=networks)
    try:
        yield from cases_of_files(server)
        yield from cases_of_two(server)
        yield "nothing is said of what is refused", *server.quiet()
        server.kill()
        silent = f"{os.path.join(server.state, 'control')}: no server answers\n", 2
        yield "no server", server.reload(), silent
    finally:
        server.close()


def cases_of_files(server):
    """Account files that are wrong, and one that lacks the client of a network."""
    path = server.path
    right = served.text_of(path)
    end, places = right.count("\n"), re.sub("places = .*", "places = 65", right, count=1)
    # a second one of the first account
    at = line_of(right, "name = ")
    head, name, *rest = right.splitlines()[at - 2 : at + 3]
    twice = "\n".join([head, name, *rest, ""])
    holder = name.split('"')[1]
    for case, text, said in (
        ("no TOML", f"{right}x = = 1\n", f"{path}:{right.count(chr(10)) + 1}:5: no TOML: {NO_VALUE}"),
        ("no shards", right.replace("shards", "sherds"), f"{path}: shards is missing"),
        ("too many places", places, f"{path}:{at + 2}: places of account {holder} is 65; it is 0 to 64"),
        ("an account twice", right + twice, f'{path}:{end + 2}: second account "{holder}"; the first is at line {at}'),
    ):
        with open(path, "w", encoding="ascii") as file:
            file.write(text)
        yield from stays(server, case, said)
    os.remove(path)
    yield from stays(server, "no file", f"{path}: no such file")
    lacking = server.accounts.changed(server.books)
    lacking.clients = lacking.others()
    lacking.write(path)
    yield from stays(server, "a network's client is gone", gone_from(server.file))
    server.accounts.write(path)
    yield "a right file again", server.reload(), ("as before\n", 0)
    server.told += f"{changing.TOLD}as before\n"


def line_of(text, front):
    """The number of the first line that begins so."""
    return next(number for number, line in enumerate(text.splitlines(), 1) if line.startswith(front))


def gone_from(file):
    """What is said of a server's file whose network has no client."""
    line = line_of(served.text_of(file), "client = ")
    return f"{file}:{line}: client of network 1 is {steady.CLIENT}; the account file does not have it"


def cases_of_two(server):
    """Two reloads at once: the second finds what the first has read."""
    accounts, generation = server.accounts.changed(server.books), server.next_generation()
    accounts.times = next(times for times in changing.TIMES if times != server.accounts.times)
    yield "two at once: the look at the file", server.offer(accounts), ("ok", 0)
    words = [served.DAEMON, "reload", server.file]
    both = [subprocess.Popen(words, stdout=subprocess.PIPE, stderr=subprocess.STDOUT) for _ in range(2)]
    answers = sorted(one.communicate(timeout=WAIT)[0].decode() for one in both)
    gone_on, held = server.follow(accounts, generation)
    said = [f"{gone_on} of {held} sessions go on\n", "as before\n"]
    yield "two at once: the answers", answers, sorted(said)
    server.told += "".join(changing.TOLD + one for one in said)
    yield "two at once: what is held", server.found(), server.shown()
    yield from ((f"two at once: {name}", *row) for name, *row in server.works())


def database_with(path, accounts, members=(), groups=(), own=(), there=True):
    """Makes a database for examples/accounts-from-database.py, with these clients and accounts in place of others, and with
    these rows in FreeRADIUS's tables, if these are there."""
    tables = TABLES.search(served.text_of(TOOL))[0]
    if not there:
        tables = tables[: tables.index("CREATE TABLE radusergroup")]
    with contextlib.closing(sqlite3.connect(path)) as one, one:
        for name in ("client", "account", "radusergroup", "radgroupreply", "radreply"):
            one.execute(f"DROP TABLE IF EXISTS {name}")
        one.executescript(tables)
        one.execute("INSERT INTO client VALUES (?, ?, NULL)", (changing.ADDRESSES[0], SECRET.decode()))
        one.executemany("INSERT INTO account VALUES (?, ?, ?, 1, NULL, 600, NULL)", accounts)
        if there:
            one.executemany("INSERT INTO radusergroup VALUES (NULL, ?, ?, ?)", members)
            one.executemany("INSERT INTO radgroupreply VALUES (NULL, ?, ?, ?, ?)", groups)
            one.executemany("INSERT INTO radreply VALUES (NULL, ?, ?, ?, ?)", own)


def cases_of_databases(folder, rng):
    """The example that writes the account file of a database."""
    server, database = changing.Changing(folder, rng), os.path.join(folder, "accounts.db")

    def ran():
        words = [sys.executable, TOOL, database, server.file, served.DAEMON]
        run = subprocess.run(words, capture_output=True, timeout=WAIT, check=False, text=True)
        return run.stdout, run.stderr, run.returncode

    try:
        os.chmod(server.path, 0o640)
        password = 'a "password\\\x7f\t\u00e9'
        database_with(database, [("nemo", password, 2), ("dora", "of dora", 0)], there=False)
        yield "a database", ran(), ("0 of 0 sessions go on\n", "", 0)
        rows = server.asked("accounts")[0].splitlines()
        yield "its accounts", [row.split(" held")[0] for row in rows], ["dora places=0", "nemo places=2"]
        yield "a login", accepted(server, 1, "nemo", password), [(28, bytes([0, 0, 2, 88]))]
        database_with(database, [("nemo", "another", 2), ("dora", "of dora", 0)])
        yield "another password", ran(), ("as before\n", "", 0)
        yield from cases_of_profiles(server, database, ran)
        database_with(database, [("nemo", "another", 65), *CUSTOMERS[1:]])
        text = served.text_of(server.path)
        printed, said, status = ran()
        said = re.sub(r"^/.*:[0-9]+: places", "FILE: places", said)
        told = "FILE: places of account nemo is 65; it is 0 to 64\nthe account file was left as it is\n"
        yield "a wrong row", (printed, said, status), ("", told, 1)
        yield "and the old file", (served.text_of(server.path), os.stat(server.path).st_mode & 0o777), (text, 0o640)
        files = ["accounts.db", "accounts.toml", "next.toml", "radlimitd.toml", "state"]
        yield "nothing else is left", sorted(os.listdir(folder)), files
    finally:
        server.close()


CUSTOMERS = [("nemo", "another", 8), ("dora", "of dora", 8), ("zoe", "of zoe", 8)]
MEMBERS = [("nemo", "gold", 1), ("dora", "gold", 1), ("zoe", "none", 1)]
GROUPS = [
    ("gold", "Filter-Id", ":=", "gold"),
    ("gold", "Service-Type", "=", "Framed-User"),
    ("gold", "Framed-Pool", "=", '"of gold"'),
    ("gold", "Cisco-AVPair", "+=", "ip:one=1"),
    ("gold", "Cisco-AVPair", "+=", "'ip:two=2'"),
    ("gold", "Idle-Timeout", "=", "60"),
]
OWN = [
    ("nemo", "Framed-IP-Address", "=", "192.0.2.7"),
    ("nemo", "Cisco-AVPair", "=", "ip:own=1"),
    ("dora", "Filter-Id", "=", "of dora"),
    ("dora", "framed-pool", "=", "of dora"),
    ("zoe", "Tunnel-Type:1", "=", "L2TP"),
    ("zoe", "Attr-26.14988.8", ":=", "0x31304d"),
    ("zoe", "Attr-26.14988.8", ":=", "0x31304d"),
]
# rows that have no place, and what is said of each
NO_GROUPS = [
    ("gold", "Fall-Through", "=", "Yes"),
    ("gold", "Port-Limit", ":=", "2"),
]
NO_OWN = [
    ("nemo", "Session-Timeout", "==", "60"),
    ("nemo", "Idle-Timeout", ":=", "60"),
    ("nemo", "Framed-IP-Netmask", "=", "24"),
    ("nemo", "port-limit", "=", "3"),
    ("zoe", "Reply-Message", "=", '"of %{User-Name}"'),
    ("other", "Filter-Id", "=", "of other"),
]
NO_PLACE = """radgroupreply gold: Fall-Through = Yes: unknown name
radgroupreply gold: Port-Limit := 2: set by the server
radreply nemo: Framed-IP-Netmask = 24: value is not an IPv4 address
radreply nemo: Idle-Timeout := 60: the account has a column for it, which is set
radreply nemo: Session-Timeout == 60: its operator is none of =, := and +=
radreply nemo: port-limit = 3: set by the server
radreply other: Filter-Id = of other: there is no such account
radreply zoe: Reply-Message = "of %{User-Name}": FreeRADIUS makes its value at each login
radusergroup nemo: silver: the account is in gold, and has one profile
radusergroup other: gold: there is no such account
the account file was left as it is
"""


def accepted(server, number, name, password):
    """The attributes of the accept of a login, but for Message-Authenticator, Class and Port-Limit."""
    octets = served.access_request(number, SECRET, served.attribute(1, name.encode()), bytes(16), password.encode(), True)
    reply = server.asker.answer(changing.ADDRESSES[0], 0, octets, SECRET)
    found = [row for row in served.attributes_of(reply) if row[0] not in (served.MESSAGE_AUTHENTICATOR, 25, 62)]
    return found if reply[0] == 2 else reply[0]


def cases_of_profiles(server, database, ran):
    """The rows of FreeRADIUS's tables: those of accounts and groups, each attribute by its octets; and rows that have no
    place."""
    idle, service = (28, bytes([0, 0, 2, 88])), (6, bytes([0, 0, 0, 2]))
    ips = [(26, bytes([0, 0, 0, 9, 1, 2 + len(text)]) + text) for text in (b"ip:one=1", b"ip:two=2", b"ip:own=1")]
    rate = 26, bytes([0, 0, 0x3A, 0x8C, 8, 5]) + b"10M"
    database_with(database, CUSTOMERS, MEMBERS, GROUPS, OWN)
    yield "profiles", ran(), ("0 of 0 sessions go on\n", "", 0)
    # the account's own row of Idle-Timeout goes before that of its group, and so do rows that the group only adds
    nemo = [idle, (8, bytes([192, 0, 2, 7])), ips[2], (11, b"gold"), service, (88, b"of gold"), *ips[:2]]
    yield "an account of a group", accepted(server, 2, "nemo", "another"), nemo
    dora = [idle, (88, b"of dora"), (11, b"gold"), service, *ips[:2]]
    yield "what a group sets, and what it only adds", accepted(server, 3, "dora", "of dora"), dora
    yield "an account without a group", accepted(server, 4, "zoe", "of zoe"), [idle, (64, bytes([1, 0, 0, 3])), rate, rate]
    database_with(database, CUSTOMERS, MEMBERS, [row for row in GROUPS if row[1] != "Idle-Timeout"], OWN[:2])
    yield "a profile and rows", ran(), ("as before\n", "", 0)
    text = served.text_of(server.path)
    yield "the profile in the file", [text.count(one) for one in ("[profile.", "profile = ", "Filter-Id")], [1, 2, 1]
    nemo = [idle, (11, b"gold"), service, (88, b"of gold"), *ips[:2], (8, bytes([192, 0, 2, 7])), ips[2]]
    yield "an account beside its profile", accepted(server, 5, "nemo", "another"), nemo
    members = [*MEMBERS, ("nemo", "silver", 2), ("other", "gold", 1)]
    database_with(database, CUSTOMERS, members, GROUPS + NO_GROUPS, OWN + NO_OWN)
    printed, said, status = ran()
    *rows, last = said.splitlines()
    yield "rows that have no place", (printed, "\n".join([*sorted(rows), last, ""]), status), ("", NO_PLACE, 1)
    yield "and the old file then", served.text_of(server.path), text


QUANTILES = "the median {p50:.0f} us, the 99th percentile {p99:.0f} us, the longest {max:.0f} us"


def measure(words):
    """Measures how long answers wait while a server reads its account file anew, with accounts in another order each
    time. It gives what is wrong, if anything is."""
    if len(words) > 1 or not all(word.isdecimal() for word in words):
        return __doc__
    count = int(words[0]) if words else PAUSES
    with tempfile.TemporaryDirectory() as folder:
        tool = served.built(folder, "load")
        flooded.account_file(folder)
        ports = served.free_ports()
        file = served.daemon_file(folder, ports, flooded.RECEIVERS)
        # as the package's unit has it, if it is not given otherwise
        tunables = TUNABLES.search(served.text_of(UNIT))[1]
        server = served.daemon(file, {"GLIBC_TUNABLES": tunables} | os.environ)
        try:
            print(served.greeting(server, flooded.WAIT).strip())
            print(f"{flooded.opened(tool, ports)} sessions, {served.resident(server):,} octets resident")
            wrong = measured(folder, file, ports, tool, count)
            print(f"{served.resident(server):,} octets resident then")
            return wrong
        finally:
            server.kill()
            server.communicate()


def measured(folder, file, ports, tool, count):
    """The same of a server that runs."""

    def flood(tag):
        """A flood: each datagram is sent once."""
        found = flooded.loaded(tool, "acct-interim", ports, 10**9, count * APART, "-g", tag, "-r", "0", "-o", "5000")
        quantiles = QUANTILES.format(**found)
        print(f"{found['answered']} answers, {found['timeouts']:.0f} requests lost: they waited: {quantiles}", flush=True)
        return found["timeouts"]

    print("without a reload:", end=" ", flush=True)
    lost, asker, spans = flood("before"), flooded.Asker(ports), []
    asker.start()
    print("beside reloads:", end=" ", flush=True)
    with ThreadPoolExecutor(1) as pool:
        under_way = pool.submit(flood, "beside")
        for number in range(count):
            time.sleep(APART / 2)
            flooded.account_file(folder, flooded.NAMES[:: -1 if number % 2 == 0 else 1])
            began = time.monotonic()
            said = served.asked("reload", file)
            spans.append((began, time.monotonic(), said))
            time.sleep(APART / 4)
        lost += under_way.result()
    asker.end()
    for began, end, said in spans:
        wait = flooded.longest(asker.within((began, end)))
        print(f"a reload of {(end - began) * 1000:.1f} ms: an answer waited {wait:.1f} ms; {said[0].strip()}")
    others = asker.beside(spans)
    print(f"{len(others)} other answers, the longest waited {flooded.longest(others):.1f} ms; {asker.lost} lost")
    if lost or asker.lost or any(said[2] for _, _, said in spans):
        return "something was not answered"
    if any(flooded.longest(asker.within(span)) > PAUSE for span in spans):
        return f"an answer waited more than {PAUSE} ms for a reload"
    return 0


def main():
    words = sys.argv[1:]
    if words[:1] == ["--pause"]:
        sys.exit(measure(words[1:]))
    words += ["1000", "1"][len(words) :]
    if len(words) > 2 or not all(word.isdecimal() for word in words):
        sys.exit(__doc__)
    count, seed = map(int, words)
    rows = []
    for part, cases in enumerate((
        lambda folder, rng: cases_of_changes(folder, rng, count),
        lambda folder, rng: cases_of_kills(folder, rng, -(-count // 4)),
        cases_of_faults,
        cases_of_databases,
    )):
        with tempfile.TemporaryDirectory() as folder:
            rows += cases(folder, random.Random(f"{seed}, {part}"))
    served.verdict(rows)


main()
