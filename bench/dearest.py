"""Finds what the dearest datagrams of each kind cost a running `radlimit serve`, beside the Access-Request of RFC 2865
section 7.1.

Each kind is sent so many times, each datagram once the one before it was answered: it prints the median of the time
until the answer comes, and the processor time that the server takes for each, of all threads. What is dropped is sent
eight times, and then a datagram that is answered, whose own cost is taken off: so these have no waking of a thread in
them. All of it is done in rounds, over a new server each time, and the least counts.

It fails where a kind costs over ten times the first, and also more for each of its octets, since who can send those can
send as many short ones instead. An Accounting-On is left out of that: it looks at every account, and who makes one has a
client's secret. Who has seen one can send it again, though, since accounting has no nonce (docs/OPERATING.md, "A network
that is not trusted").

usage: python3 -m bench.dearest [TIMES [ROUNDS]]        10000, at most that, and 3 if not given
It wants Linux, a C compiler and the built program.
"""

import hashlib
import os
import re
import struct
import subprocess
import sys
import tempfile

from tests.lib import served

FIRST = "the request of RFC 2865 section 7.1"
REQUEST, SECRET, PASSWORD = served.REQUEST, served.SECRET, served.PASSWORD
LONG_SECRET, LONG_PASSWORD = b"s" * 128, b"p" * 128
CLIENTS = [("127.0.0.1", SECRET), ("127.0.0.2", LONG_SECRET)] + [(f"127.0.1.{number}", SECRET) for number in range(254)]
STRANGER = "127.0.2.1"
MOST_ACCOUNTS = 16_384
MOST_RATIO = 10
OF_EVERY_ACCOUNT = "an Accounting-On, of 16,384 accounts"
FRESH = 10_000
LINKS = 1024
# so many accounts have names of 64 octets that begin alike
ALIKE = 6000
# what is dropped is sent so many times before what is answered
DROPS = 8


def account_file(folder, accounts):
    """The account file with so many accounts, and its name."""
    path = os.path.join(folder, f"{accounts}.toml")
    entries = [("nemo", PASSWORD, 64, 16), ("long", LONG_PASSWORD, 64, 16)]
    entries += [("crowd", PASSWORD, 64, 16), ("none", PASSWORD, 0, 1)]
    entries += [(f"{number:064}", PASSWORD, 1, 1) for number in range(min(ALIKE, accounts))]
    entries += [(f"u{number:06}", PASSWORD, 1, 1) for number in range(accounts - len(entries))]
    clients = [(*client, False) for client in CLIENTS]
    return served.account_file(path, clients, entries, shards=4, reserve=60, keep=60)


def fresh(number):
    """A Request Authenticator that comes once."""
    return hashlib.md5(b"%d" % number).digest()


def filled(attributes, one, octets=4096):
    """Attributes, and so many of one more that the packet has at most so many octets."""
    return attributes + one * ((octets - 20 - len(attributes)) // len(one))


def asks(name, password=PASSWORD, secret=SECRET, more=b"", signs=False, names=FRESH):
    """Asks of a name, which may have a number, each for the first time."""
    for number in range(FRESH):
        who = served.attribute(1, name.replace(b"N", b"%06d" % (number % names)))
        yield served.access_request(number % 256, secret, who + more, fresh(number), password, signs)


def chaps(name, challenge):
    """The same with a CHAP-Password."""
    for number in range(FRESH):
        given = challenge or fresh(number)
        value = b"\x07" + hashlib.md5(b"\x07" + PASSWORD + given).digest()
        attributes = served.attribute(1, name) + served.attribute(3, value)
        attributes += served.attribute(60, challenge) if challenge else b""
        yield served.access_request(number % 256, SECRET, attributes, fresh(number))


def notes(status, name, session, more=b"", secret=SECRET):
    """Accounting-Requests of a name and a session, which may have a number."""
    for number in range(LINKS):
        digits = b"%04d" % number
        attributes = served.attribute(1, name) + served.attribute(44, session.replace(b"N", digits))
        attributes += served.attribute(50, b"m%02d" % (number // 16)) if name == b"crowd" else b""
        yield served.accounting_request(number % 256, secret, status, attributes + served.attribute(32, b"nas") + more)


def wrong(packet):
    """A packet whose last octet is another."""
    return packet[:-1] + bytes([packet[-1] ^ 1])


def malformed(port):
    """4,096 octets of attributes, of which the last reaches over the end."""
    attributes = filled(served.attribute(1, b"nemo"), b"\x1a\x02")[:-1] + b"\x03"
    if port == "auth":
        return served.access_request(0, SECRET, attributes, fresh(0))
    return served.accounting_request(0, SECRET, served.START, attributes[:-6][:-1] + b"\x03")


def kinds_of_access():
    """Of the authentication port: a name, where it is sent from, the datagrams, and whether they are dropped."""
    shortest, empty, longest = b"\x1a\x02", b"\x21\x02", served.attribute(33, bytes(253))
    home, other = CLIENTS[0][0], CLIENTS[1][0]
    yield FIRST, home, [REQUEST], False
    yield "a fresh ask, accepted", home, asks(b"uN"), False
    yield "a fresh ask over the limit", home, asks(b"none"), False
    yield "names of 64 octets that begin alike", home, asks(b"0" * 58 + b"N", names=ALIKE), False
    yield "a name that no account has", home, asks(b"unknownN"), False
    yield "a name of 253 octets that no account has", home, asks(b"u" * 247 + b"N"), False
    yield "a wrong password", home, asks(b"nemo", b"wrong"), False
    yield "CHAP", home, chaps(b"none", b""), False
    yield "CHAP with a challenge of 253 octets", home, chaps(b"none", b"c" * 253), False
    yield "a password and a secret of 128 octets", other, asks(b"long", LONG_PASSWORD, LONG_SECRET), False
    more = filled(b"", shortest, 4096 - 6 - 18)
    yield "4,096 octets of the shortest attributes", home, asks(b"none", more=more), False
    more = filled(b"", shortest, 4096 - 6 - 18 - 18)
    yield "the same, signed", home, asks(b"none", more=more, signs=True), False
    yield "1,950 Proxy-States of no octets", home, asks(b"none", more=empty * 1950), False
    more = longest * 15 + served.attribute(33, bytes(73))
    yield "the longest Proxy-States", home, asks(b"none", more=more), False
    yield "the longest Proxy-States, signed", home, asks(b"none", more=more, signs=True), False
    yield "a malformed list of 4,096 octets", home, [malformed("auth")], False
    yield "an ask where 1,024 links are held", home, asks(b"crowd"), False
    yield "dropped: no octets", home, [b""], True
    yield "dropped: 8,000 octets of noise", home, [bytes(8000)], True
    yield "dropped: 4,096 octets of a stranger", STRANGER, list(asks(b"none", more=more))[:1], True
    more = filled(b"", shortest, 4096 - 6 - 18 - 18)
    forged = wrong(next(asks(b"none", more=more, signs=True)))
    yield "dropped: 4,096 octets with a wrong signature", home, [forged], True
    more = longest * 15 + served.attribute(33, bytes(200))
    yield "dropped: Proxy-States that are too long", home, [next(asks(b"none", more=more))], True


def kinds_of_accounting():
    """The same of the accounting port."""
    shortest = b"\x1a\x02"
    home, last = CLIENTS[0][0], CLIENTS[-1][0]
    more = filled(b"", shortest, 4096 - 60)
    yield "an Interim-Update of an account's only link", home, notes(served.INTERIM, b"nemo", b"one"), False
    yield "an Interim-Update of the last of 256 clients", last, notes(served.INTERIM, b"u000000", b"one"), False
    yield "Interim-Updates of 1,024 links in turn", home, notes(served.INTERIM, b"crowd", b"sN"), False
    yield "Starts that find no place beside 1,024 links", home, notes(served.START, b"crowd", b"xN", b""), False
    yield "an Interim-Update of 4,096 octets", home, notes(served.INTERIM, b"nemo", b"one", more), False
    texts = b"u" * 253, b"s" * 249 + b"N"
    yield "a stray with the longest texts", home, notes(served.START, *texts), False
    forged = wrong(next(notes(served.START, b"nemo", b"s", more)))
    yield "dropped: 4,096 octets with a wrong authenticator", home, [forged], True
    yield "dropped: a malformed list of 4,096 octets", home, [malformed("acct")], True
    on = served.accounting_request(0, SECRET, 7, served.attribute(32, b"elsewhere"))
    yield OF_EVERY_ACCOUNT, home, [on], False


class Bench:
    """A server and the generator."""

    def __init__(self, folder, server, program):
        self.folder, self.server, self.program = folder, server, program

    def written(self, name, datagrams):
        """A file of datagrams, and its name."""
        path = os.path.join(self.folder, name)
        with open(path, "wb") as file:
            for octets in datagrams:
                file.write(struct.pack(">H", len(octets)) + octets)
        return path

    def cost(self, port, source, datagrams, times, follower=None):
        """What datagrams cost: the microseconds until an answer comes, those of the processor, and the octets of the
        longest answer."""
        pid = str(self.server.process.pid)
        words = [self.server.ports[port], source, pid, str(times), self.written("datagrams", datagrams)]
        words += [self.written("follower", [follower])] if follower else []
        done = subprocess.run([self.program, "cost", *words], stdout=subprocess.PIPE, text=True, check=True)
        return [float(number) for number in re.findall(r"=([0-9.]+)", done.stdout)]


def costs(bench, times):
    """What each kind costs: its name, the octets of its first datagram, and what `Bench.cost` gives."""
    followers = [REQUEST, next(notes(15, b"nobody", b"s"))]
    follower_costs = [bench.cost(port, CLIENTS[0][0], [follower], times) for port, follower in enumerate(followers)]
    opening = list(notes(served.START, b"crowd", b"sN"))
    bench.cost(1, CLIENTS[0][0], opening, len(opening))
    kinds = [(0, *kind) for kind in kinds_of_access()] + [(1, *kind) for kind in kinds_of_accounting()]
    for port, name, source, datagrams, is_dropped in kinds:
        datagrams = list(datagrams)
        number = times // 20 if name == OF_EVERY_ACCOUNT else times // DROPS if is_dropped else times
        found = bench.cost(port, source, datagrams, number, followers[port] if is_dropped else None)
        if is_dropped:
            found = [max(one - other, 0) / DROPS for one, other in zip(found, follower_costs[port])]
        yield name, len(datagrams[0]), found


def least(rounds):
    """Of each kind the least that its rounds found."""
    for same in zip(*rounds):
        (name, octets, _), *_ = same
        yield name, octets, [min(numbers) for numbers in zip(*(found for _, _, found in same))]


def shown(rows):
    """Prints the table, and gives what costs too much."""
    first_octets, (_, first, _) = next(row[1:] for row in rows if row[0] == FIRST)
    too_dear = []
    print(f"{'':52}{'octets':>8}{'answer':>8}{'us':>10}{'processor us':>14}{'ratio':>8}")
    for name, octets, (wait, processor, longest) in rows:
        ratio = processor / first
        print(f"{name:52}{octets:>8}{longest:>8.0f}{wait:>10.1f}{processor:>14.2f}{ratio:>8.2f}")
        if ratio > max(MOST_RATIO, octets / first_octets) and name != OF_EVERY_ACCOUNT:
            too_dear.append(name)
    return too_dear


def main():
    times = int(sys.argv[1]) if len(sys.argv) > 1 else FRESH
    rounds = int(sys.argv[2]) if len(sys.argv) > 2 else 3
    found = []
    with tempfile.TemporaryDirectory() as folder:
        program = served.built(folder, "hostile")
        for _ in range(rounds):
            with served.Server(account_file(folder, MOST_ACCOUNTS), 2**64 - 1) as server:
                found.append(list(costs(Bench(folder, server, program), times)))
    served.verdict([("what costs too much", shown(list(least(found))), [])])


main()
