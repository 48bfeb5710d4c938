"""Floods both ports of a running `radlimit serve` with hostile datagrams, while an honest access server beside them
asks, and looks at the end at all that the server counted.

Half of the datagrams are random octets, of 0 to 4,096, mostly few and some more; half are packets that were right, were
then changed at random, and have right authenticators again (tests/lib/hostile.c). The honest access server asks by
PAP, and tells Start, Interim-Update and Stop, cycle after cycle; each of its requests has to be answered within a
second, the first time that it is sent, and its accepts have to be numbered one after the other.

After that the datagrams of the receivers' tests come to the sockets of another server: every prefix of ten packets,
each of their octets changed to each of 256 values, wrong lengths of attributes, and packets that are full of the
shortest ones. As many have to be answered and dropped as in those tests.

UDP loses datagrams where a socket's room is full, and what is lost so tests nothing. So the flood keeps the server
busy, and never overruns its sockets: it goes on only as the server takes what came before. No datagram may be lost:
what the server received is what was sent. The server has so many turns that it ends by itself after the flood, and has
to end with status 0.

With --daemon the server is `radlimitd run`, which does not end by itself and prints no counts. Of it the answers are
looked at: that none is wrong or too long, that the honest access server has all of its own, and that the datagrams of
the receivers' tests have as many as in those tests.

usage: python3 -m tests.programs.hostile [--daemon] [COUNT] [SEED]        10000000 and 1 if not given
It wants Linux, a C compiler and the built program.
"""

import contextlib
import hashlib
import itertools
import os
import re
import select
import socket
import struct
import subprocess
import sys
import tempfile
import threading
import time

from tests.lib import served

PORTS = ["auth", "acct"]
# the clients and accounts that hostile.c knows, and the honest access server and its account
CLIENTS = [("127.0.0.1", b"testing123", False), ("127.0.0.2", b"s" * 128, True), ("127.0.0.4", b"honest secret", False)]
PASSWORD = b"pw-common"
NAMES = [f"u{number:06}" for number in range(1000)]
ALIKE = [(f"{number:064}", 4, 1) for number in range(8)]
HONEST = ("honest", 1, 1)
# a flood of fewer datagrams is short
SHORT = 1_000_000
HONEST_ADDRESS, HONEST_SECRET, _ = CLIENTS[2]
# no reply is longer: 20 octets, a Message-Authenticator, all that an accept has, and 3,900 octets of Proxy-States
LONGEST_REPLY = 3992
# an answer has to come within a second
SECONDS = 1
# the server has to take what came within so many
MOST_WAIT = 10
# so many requests to each port come from sockets that are closed before their answers come
GONE = 100
# turns in which nothing may come, of a second each
IDLE = 4
# the honest access server rests so long between its cycles, and longer once it has made many; never so long that a turn
# of the server passes without a request
REST, LONG_REST = 0.01, 0.4
# there is time for so many cycles beside the others: LONG_REST of twenty minutes
LATER_CYCLES = 3000
# octets of a book of one link, and of each link more (`books_octets` of rld_config; bench/book.py counts them)
BOOK = 3_522
LINK = 223
# octets that may become resident for an answer, whose move the journal and the receiver keep
MOST_AN_ANSWER = 512
# the rows of the receivers' tests, whose client and account are these
ROWS = os.path.join(served.TOP, "tests", "unit", "test_server", "src", "hostile.rt")
TEXT = re.compile(r'&str = "\n(.*?)";', re.S)
# so many datagrams, and so many octets of them, may wait at a socket
MOST_WAITING, MOST_WAITING_OCTETS = 100, 20_000


def accounts_of(count):
    """The accounts of a flood: their names, places and ports. In a short one few have many links, so that what the
    answers leave is seen beside the books."""
    if count < SHORT:
        numbers = ((64, 16) if number % 100 == 99 else (number % 3, 1) for number in range(len(NAMES)))
    else:
        numbers = ((number % 65, 1 + number % 16) for number in range(len(NAMES)))
    return [(name, places, ports) for name, (places, ports) in zip(NAMES, numbers)] + ALIKE + [HONEST]


def account_file(folder, accounts):
    """The account file, and its name."""
    path = os.path.join(folder, "accounts.toml")
    entries = [(name, PASSWORD, places, ports) for name, places, ports in accounts]
    return served.account_file(path, CLIENTS, entries, shards=4, reserve=2, keep=1)


class Honest(threading.Thread):
    """An access server whose requests are right, until it is told to end. It rests more after so many cycles."""

    def __init__(self, ports, cycles):
        super().__init__()
        self.cycles = cycles
        self.over = threading.Event()
        self.sockets = []
        for port in ports:
            one = socket.socket(socket.AF_INET, socket.SOCK_DGRAM)
            one.bind((HONEST_ADDRESS, 0))
            one.connect((served.HOST, int(port)))
            one.settimeout(SECONDS)
            self.sockets.append(one)
        self.sent = [0, 0]
        self.waits = []
        self.faults = []
        self.numbers = []
        self.boots = set()

    def asked(self, at, code, request):
        """The answer to a request, or None where it does not come in time or is not the right one."""
        began = time.monotonic()
        self.sent[at] += 1
        try:
            self.sockets[at].send(request)
            reply = self.sockets[at].recv(4096)
        except OSError as fault:
            self.faults.append(f"request {sum(self.sent)}: {fault}")
            return None
        self.waits.append(time.monotonic() - began)
        if served.is_answer(reply, request, HONEST_SECRET) and reply[0] == code:
            return reply
        self.faults.append(f"request {sum(self.sent)}: {reply.hex()}")
        return None

    def cycle(self, number):
        """A session, from its accept to its end."""
        name = served.attribute(1, HONEST[0].encode()) + served.attribute(32, b"nas")
        authenticator = hashlib.md5(b"%d" % number).digest()
        request = served.access_request(
            number % 256, HONEST_SECRET, name, authenticator, PASSWORD, signs=number % 2 == 1
        )
        accept = self.asked(0, 2, request)
        if accept is None:
            return
        (mark,) = (value for kind, value in served.attributes_of(accept) if kind == 25)
        boot, number_of_accept = struct.unpack(">QQ", mark)
        self.boots.add(boot)
        self.numbers.append(number_of_accept)
        session = name + served.attribute(44, b"h%d" % number) + served.attribute(25, mark)
        for status in (served.START, served.INTERIM, served.STOP):
            self.asked(1, 5, served.accounting_request((3 * number + status) % 256, HONEST_SECRET, status, session))

    def run(self):
        for number in range(self.cycles + LATER_CYCLES):
            if self.over.is_set() or self.faults:
                return
            self.cycle(number)
            time.sleep(REST if number < self.cycles else LONG_REST)

    def end(self):
        """Ends after the cycle that it is in."""
        self.over.set()
        self.join()
        for one in self.sockets:
            one.close()


def gone(ports):
    """Asks both ports from sockets that are closed at once, so that the system tells of each answer that nobody is
    there."""
    address, secret, _ = CLIENTS[0]
    requests = [served.access_request(0, secret, b"", bytes(16))]
    requests.append(served.accounting_request(0, secret, 15, b""))
    for port, request in zip(ports, requests):
        for _ in range(GONE):
            with socket.socket(socket.AF_INET, socket.SOCK_DGRAM) as one:
                one.bind((address, 0))
                one.sendto(request, (served.HOST, int(port)))


def taken(port):
    """Waits until the server has taken all that came to a port, or its socket is gone."""
    ends = time.monotonic() + MOST_WAIT
    while served.udp_sockets().get(int(port), [0])[0]:
        if time.monotonic() > ends:
            sys.exit(f"the server takes nothing from its port {port}")
        time.sleep(0.001)


def filled(port, number):
    """Sends so many datagrams of an octet, of which never more than 100 wait at the port."""
    with socket.socket(socket.AF_INET, socket.SOCK_DGRAM) as one:
        one.connect((served.HOST, int(port)))
        for at in range(number):
            if at % 100 == 0:
                taken(port)
            one.send(b"\0")


def flooded(program, ports, count, seed):
    """What the generator tells of each port."""
    done = subprocess.run(
        [program, "flood", *ports, str(count), str(seed)], stdout=subprocess.PIPE, text=True, check=False
    )
    if done.returncode != 0:
        sys.exit("the server does not answer")
    return {
        words[0]: {name: int(number) for name, number in (word.split("=") for word in words[1:])}
        for words in map(str.split, done.stdout.splitlines())
    }


def rows_of(printed):
    """The rows of a report, as numbers, by name."""
    rows = [line.split() for line in printed.splitlines()[3:]]
    return {words[0]: list(map(int, words[1:])) for words in rows}


def octets_of(text):
    """The octets that words of hexadecimal digits write; `1a02*9` is nine times the two octets."""
    words = (word.partition("*") for word in text.split())
    return b"".join(bytes.fromhex(digits) * int(times or 1) for digits, _, times in words)


def datagrams_of(packet, how):
    """What comes of a packet: itself, all its prefixes, or what it is with each octet in turn changed to each so
    many-th value."""
    if how == "whole":
        return [packet]
    if how == "prefixes":
        return [packet[:end] for end in range(len(packet) + 1)]
    values = range(0, 256, int(how.removeprefix("changed ")))
    return [packet[:at] + bytes([value]) + packet[at + 1 :] for at in range(len(packet)) for value in values]


def rows_of_tests():
    """Of each row of the receivers' tests: its port, its datagrams, and how many are answered and dropped."""
    with open(ROWS, encoding="utf-8") as file:
        texts = TEXT.findall(file.read())
    for line in "".join(re.sub(r"\\\n\s*", "", text) for text in texts).splitlines():
        _, port, how, packets, expected = line.split(" | ")
        _, received, answered, dropped, _, _ = map(int, re.match(r"\[(.*?)\]", expected)[1].split(", "))
        datagrams = [each for packet in packets.split(",") for each in datagrams_of(octets_of(packet), how)]
        if len(datagrams) != received:
            sys.exit(f"a row of {received} datagrams has {len(datagrams)}")
        yield port, datagrams, answered, dropped


def coming_of_tests():
    """Of each port the datagrams of the receivers' tests, and how many of them are answered and dropped."""
    coming = {port: [] for port in PORTS}
    expected = {port: [0, 0] for port in PORTS}
    for port, datagrams, answered, dropped in rows_of_tests():
        coming[port] += datagrams
        expected[port] = [expected[port][0] + answered, expected[port][1] + dropped]
    return coming, expected


def told_of_rows():
    """Sends the datagrams of the receivers' tests to a server. What is looked at: its name, what it is and what it
    should be."""
    coming, expected = coming_of_tests()
    most = max(map(len, coming.values()))
    with tempfile.NamedTemporaryFile() as file:
        nemo = [("nemo", served.PASSWORD, 1, 1)]
        served.account_file(file.name, [(served.HOST, served.SECRET, False)], nemo, shards=2, reserve=60, keep=10)
        with served.Server(file.name, most + IDLE) as server:
            sent_in_turn(server.ports, coming.values())
            status, printed, said = server.ended(2 * IDLE + 60)
    yield "the end of a server of the tests' rows", (status, said), (0, "")
    counts = {words[0]: list(map(int, words[1:])) for words in served.COUNTS.findall(printed)}
    for port in PORTS:
        answered, dropped = expected[port]
        dropped += most - len(coming[port])
        yield f"{port}: counts of the tests' rows", counts.get(port), [most, answered, dropped, 0, 0]


def sent_in_turn(ports, coming):
    """Sends datagrams to ports, as many to each: where it has fewer, the rest are of one octet. Gives how many answers
    each port then sent."""
    answers = [0] * len(ports)
    with contextlib.ExitStack() as stack:
        sockets = [stack.enter_context(socket.socket(socket.AF_INET, socket.SOCK_DGRAM)) for _ in ports]
        for one, port in zip(sockets, ports):
            one.connect((served.HOST, int(port)))
        number, octets = 0, 0
        for datagrams in itertools.zip_longest(*coming, fillvalue=b"\0"):
            number, octets = number + 1, octets + max(map(len, datagrams))
            if number == MOST_WAITING or octets > MOST_WAITING_OCTETS:
                number, octets = 0, 0
                for at, port in enumerate(ports):
                    taken(port)
                    answers[at] += answers_at(sockets[at])
            for one, datagram in zip(sockets, datagrams):
                one.send(datagram)
        for at, port in enumerate(ports):
            taken(port)
            answers[at] += answers_at(sockets[at], SECONDS)
    return answers


def answers_at(one, seconds=0):
    """How many datagrams a socket has, until none comes for so long."""
    count = 0
    while select.select([one], [], [], seconds)[0]:
        one.recv(4096)
        count += 1
    return count


class Daemon:
    """A `radlimitd` that runs, until it is killed."""

    def __init__(self, folder, name):
        os.rename(name, os.path.join(folder, "accounts.toml"))
        self.ports = served.free_ports()
        self.process = served.daemon(served.daemon_file(folder, self.ports, 1))
        served.greeting(self.process, MOST_WAIT)

    def __enter__(self):
        return self

    def __exit__(self, *_):
        self.process.kill()
        self.process.communicate()

    def resident(self):
        """The octets that are resident."""
        return served.resident(self.process)

    def ended(self):
        """Its status, None where it goes on."""
        return self.process.poll()


def told_of_rows_by_daemon():
    """The same of a `radlimitd`, of which the answers are counted."""
    coming, expected = coming_of_tests()
    with tempfile.TemporaryDirectory() as folder:
        nemo = [("nemo", served.PASSWORD, 1, 1)]
        name = os.path.join(folder, "tests.toml")
        served.account_file(name, [(served.HOST, served.SECRET, False)], nemo, shards=2, reserve=60, keep=10)
        with Daemon(folder, name) as server:
            answers = sent_in_turn(server.ports, coming.values())
            yield "the server of the tests' rows goes on", server.ended(), None
    for at, port in enumerate(PORTS):
        yield f"{port}: answers of the tests' rows", answers[at], expected[port][0]


def judged_daemon(told, honest, lost, status):
    """What is looked at of a `radlimitd`."""
    yield "the server goes on", status, None
    yield "the honest access server's faults", honest.faults, []
    yield "its accepts", honest.numbers, list(range(len(honest.numbers)))
    yield "boot numbers", len(honest.boots), 1
    yield "datagrams lost", lost, [0, 0]
    for port in PORTS:
        yield f"{port}: wrong answers", told[port]["wrong"], 0
        yield f"{port}: no reply is too long", told[port]["longest"] <= LONGEST_REPLY, True


def judged(told, honest, accounts, fillers, lost, ended, starts):
    """What is looked at: its name, what it is and what it should be."""
    status, printed, said = ended
    yield "the server's end", (status, said), (0, "")
    yield "the honest access server's faults", honest.faults, []
    yield "its accepts", honest.numbers, list(range(len(honest.numbers)))
    yield "boot numbers", len(honest.boots), 1
    yield "the boot number is the second of the start", honest.boots <= starts, True
    yield "datagrams lost", lost, [0, 0]
    counts = {words[0]: list(map(int, words[1:])) for words in served.COUNTS.findall(printed)}
    for at, port in enumerate(PORTS):
        received, answered, dropped, refused, unsent = counts.get(port, [0] * 5)
        flood = told[port]
        yield f"{port}: received", received, flood["sent"] + honest.sent[at] + GONE + fillers[at]
        yield f"{port}: the sum", answered + dropped + refused + unsent, received
        yield f"{port}: answered", answered, flood["answers"] + honest.sent[at] + GONE
        yield f"{port}: refused and unsent", (refused, unsent), (0, 0)
        yield f"{port}: wrong answers", flood["wrong"], 0
        yield f"{port}: no reply is too long", flood["longest"] <= LONGEST_REPLY, True
    rows = rows_of(printed)
    yield "rows of the report", len(rows), len(accounts)
    yield "accounts that hold more than their places", [name for name, row in rows.items() if row[1] > row[0]], []
    yield "what the honest account holds", rows.get(HONEST[0]), [HONEST[1], 0, 0, 0, 0, 0]


def an_answer(resident, answers, accounts):
    """The octets that became resident for each answer, beside all books, which are touched one after the other."""
    books = sum(BOOK + LINK * (places * ports - 1) for _, places, ports in accounts)
    return (resident[1] - resident[0] - books) / max(answers, 1)


def shown(told, honest, accounts, seconds, resident):
    """Prints what was found, and gives the octets for an answer."""
    sent = sum(flood["sent"] for flood in told.values())
    answers = sum(flood["answers"] for flood in told.values())
    octets = an_answer(resident, answers, accounts)
    print(f"{sent:,} datagrams in {seconds:.1f} s, {answers:,} of them answered")
    for port in PORTS:
        flood = told[port]
        print(
            f"{port}: {flood['sent']:,} datagrams, {flood['answers']:,} answers, "
            f"the longest of {flood['longest']:,} octets, and each within {flood['wait_us'] / 1000:.1f} ms"
        )
    waits = sorted(honest.waits) or [0]
    print(
        f"honest: {len(honest.numbers):,} cycles, {len(waits):,} answers, "
        f"half of them within {waits[len(waits) // 2] * 1e3:.2f} ms, "
        f"99% within {waits[len(waits) * 99 // 100] * 1e3:.2f} ms, all within {waits[-1] * 1e3:.1f} ms"
    )
    before, after = resident
    each = f"{octets:,.0f} an answer beside the books" if octets > 0 else "not all books are touched yet"
    print(f"resident: {before:,} octets before, {after:,} after, {each}")
    return octets


def beside_honest(server, cycles, program, count, seed):
    """A flood beside the honest access server: what the generator tells, that access server, the seconds, and what was
    resident before and after."""
    honest = Honest(server.ports, cycles)
    honest.start()
    # the books are made once the sockets are bound
    while not honest.waits and not honest.faults:
        time.sleep(0.001)
    before = server.resident()
    gone(server.ports)
    began = time.monotonic()
    told = flooded(program, server.ports, count, seed)
    seconds = time.monotonic() - began
    honest.end()
    return told, honest, seconds, (before, server.resident())


def lost_at(ports):
    """How many datagrams found no room at each port."""
    return [served.udp_sockets().get(int(port), [0, "its socket is gone"])[1] for port in ports]


def flood_daemon(count, seed):
    """A flood of a `radlimitd`."""
    cycles = 500 + count // 1000
    with tempfile.TemporaryDirectory() as folder:
        program, accounts = served.built(folder, "hostile"), accounts_of(count)
        with Daemon(folder, account_file(folder, accounts)) as server:
            told, honest, seconds, resident = beside_honest(server, cycles, program, count, seed)
            results = list(judged_daemon(told, honest, lost_at(server.ports), server.ended()))
    shown(told, honest, accounts, seconds, resident)
    served.verdict([*results, *told_of_rows_by_daemon()])


def flood_server(count, seed):
    """A flood of a `radlimit serve`."""
    cycles = 500 + count // 1000
    # the generator may send a few more, and what the others leave is filled
    turns = count // 2 + 3 * (cycles + LATER_CYCLES) + GONE + 8 + IDLE
    with tempfile.TemporaryDirectory() as folder:
        program = served.built(folder, "hostile")
        accounts = accounts_of(count)
        name, second = account_file(folder, accounts), int(time.time())
        with served.Server(name, turns) as server:
            starts = set(range(second, int(time.time()) + 2))
            told, honest, seconds, resident = beside_honest(server, cycles, program, count, seed)
            fillers = [turns - IDLE - told[port]["sent"] - honest.sent[at] - GONE for at, port in enumerate(PORTS)]
            for port, number in zip(server.ports, fillers):
                filled(port, number)
            lost = lost_at(server.ports)
            ended = server.ended(2 * IDLE + 60)
    octets = shown(told, honest, accounts, seconds, resident)
    results = [("octets for an answer", octets <= MOST_AN_ANSWER, True), *told_of_rows()]
    served.verdict(results + list(judged(told, honest, accounts, fillers, lost, ended, starts)))


def main():
    is_daemon = sys.argv[1:2] == ["--daemon"]
    words = sys.argv[1 + is_daemon :]
    count = int(words[0]) if words else 10_000_000
    seed = int(words[1]) if len(words) > 1 else 1
    (flood_daemon if is_daemon else flood_server)(count, seed)


main()
