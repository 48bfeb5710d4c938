"""Tries the lines that `radlimitd run` writes for what it refuses, and measures what they cost its receivers.

usage: python3 -m tests.programs.refusals                                     tries, for the gate: some ten seconds
       python3 -m tests.programs.refusals --measure [--other PROGRAM] [ROUNDS]   measures, 5 rounds if not given

Tried: each line to the octet, with names that would forge others, and the addresses of strangers, IPv6 too; that peers of
the file's networks are none; that the lines and the numbers of those left out add up to what was sent, with at most 20
lines of a cause in a second; that a pipe that nobody reads keeps no answer, no tick and no `stop` waiting, and what it did
not take is told once it is read; and the marks that systemd's journal reads.

Measured: rejected logins a second, with standard error to nowhere and to a pipe of a page that nobody reads; and those of
another program, as one that writes no such lines. It wants Linux, a C compiler to measure, and the built program.
"""

import argparse
import contextlib
import fcntl
import os
import re
import select
import socket
import statistics
import subprocess
import sys
import tempfile
import time

from tests.lib import served

SECRET, PASSWORD, WRONG = b"testing123testing123", b"arctangent", b"something else"
MOST_LINES = 20  # of a cause in a second
FLOOD = 3_000  # refused logins
LOGINS = 200_000  # of a measured round
PAGE = 4_096
WAIT = served.patience(10)  # seconds in which something has to happen
MOST_STOP = 1.5  # seconds that `stop` may take
MOST_SILENCE = 1.0  # seconds that an answer may take
HOSTILE = b'x cause=\n<0>refused "\\\xff'
ESCAPED = r"x\x20cause=\x0a\x3c0\x3erefused\x20\x22\x5c\xff"
MORE = re.compile(r"^(?:<\d>)?(\d+) more refused port=(\w+) cause=(\w+)$")
TRUSTING = f"""version = 3
shards = 1
reserve_secs = 60
live_secs = 900
grace_secs = 900
closed_secs = 3600
keep_secs = 10

[[client]]
address = "{served.HOST}"
secret = "{SECRET.decode()}"
trusted = true

[[account]]
name = "nemo"
password = "{PASSWORD.decode()}"
places = 1
ports = 1

[[account]]
name = "ishmael"
password = "{PASSWORD.decode()}"
places = 1
ports = 1
disabled = true
"""
REFUSED = re.compile(r"^(?:<\d>)?refused port=(\w+) client=\S+(?: nas=\S*)?(?: account=\S*)? cause=(\w+)(?: held=\d+/\d+)?$")


class Life:
    """A server that runs in a folder of its own, with a pipe for standard error."""

    def __init__(
        self, folder, program=served.DAEMON, room=None, output=None, journal=False, receivers=1, address=None, more="", trusts=False
    ):
        self.ports = served.free_ports()
        self.signs = trusts
        accounts = os.path.join(folder, "accounts.toml")
        if trusts:
            with open(accounts, "w", encoding="ascii") as file:
                file.write(TRUSTING)
        else:
            both = [("nemo", PASSWORD, 2, 1), ("ishmael", PASSWORD, 1, 1)]
            served.account_file(accounts, [(served.HOST, SECRET, False)], both, shards=2, reserve=60, keep=10)
        self.file = served.daemon_file(folder, self.ports, receivers, "never")
        if address:
            text = served.text_of(self.file).replace(f'"{served.HOST}"', f'"{address}"')
            with open(self.file, "w", encoding="ascii") as file:
                file.write(text)
        with open(self.file, "a", encoding="ascii") as file:
            file.write(more)
        self.program = program
        self.reader, writer = os.pipe()
        if room:
            fcntl.fcntl(writer, fcntl.F_SETPIPE_SZ, room)
        environment = dict(os.environ)
        if journal:
            found = os.fstat(writer)
            environment["JOURNAL_STREAM"] = f"{found.st_dev}:{found.st_ino}"
        self.process = subprocess.Popen(
            [program, "run", self.file], stdin=subprocess.DEVNULL, stderr=output or writer, env=environment
        )
        os.close(writer)
        self.text = b""
        self.socket = socket.socket(socket.AF_INET, socket.SOCK_DGRAM)
        self.socket.bind((served.HOST, 0))
        self.socket.settimeout(served.patience(MOST_SILENCE))
        self.source = "%s:%d" % self.socket.getsockname()
        self.number = 0
        until = time.monotonic() + (0 if address else WAIT)
        while not served.are_bound(self.ports) and self.process.poll() is None and time.monotonic() < until:
            time.sleep(0.01)

    def __enter__(self):
        return self

    def __exit__(self, *_):
        self.process.kill()
        self.process.wait()
        os.close(self.reader)
        self.socket.close()

    def said(self, seconds):
        """The whole lines that it writes within so many seconds, and all before, but those of its start."""
        until = time.monotonic() + seconds
        while (left := until - time.monotonic()) > 0 and select.select([self.reader], [], [], left)[0]:
            if not (more := os.read(self.reader, 65_536)):
                break
            self.text += more
        return served.but_first_lines(self.text.decode()).splitlines()

    def said_until(self, wanted):
        """What it writes until this is so of its lines, for some seconds at most."""
        until = time.monotonic() + WAIT
        while not wanted(lines := self.said(0.1)) and time.monotonic() < until:
            pass
        return lines

    def login(self, name, password=PASSWORD, nas=b"bras3", port=0):
        """The Code of the answer to a login, None where none comes."""
        return self.request(served.attribute(1, name) + served.attribute(32, nas), password, port)

    def request(self, attributes, password=None, port=0):
        """The same of a login with these attributes."""
        self.number += 1
        authenticator = self.number.to_bytes(16, "big")
        request = served.access_request(self.number % 256, SECRET, attributes, authenticator, password, self.signs)
        self.socket.sendto(request, (served.HOST, int(self.ports[port])))
        with contextlib.suppress(TimeoutError):
            while True:
                reply = self.socket.recv(4096)
                if served.is_answer(reply, request, SECRET):
                    return reply[0]
        return None

    def account(self, status, name, session=b"s1"):
        """The Code of the answer to accounting of this status, None where none comes."""
        self.number += 1
        attributes = served.attribute(44, session) + served.attribute(32, b"bras3")
        attributes += b"" if name is None else served.attribute(1, name)
        request = served.accounting_request(self.number % 256, SECRET, status, attributes)
        self.socket.sendto(request, (served.HOST, int(self.ports[1])))
        with contextlib.suppress(TimeoutError):
            while True:
                reply = self.socket.recv(4096)
                if served.is_answer(reply, request, SECRET):
                    return reply[0]
        return None

    def stop(self):
        """The seconds that `radlimitd stop` takes, with the end of the server, and its status."""
        began = time.monotonic()
        subprocess.run([self.program, "stop", self.file], stdout=subprocess.DEVNULL, check=False)
        with contextlib.suppress(subprocess.TimeoutExpired):
            self.process.wait(WAIT)
        return time.monotonic() - began, self.process.poll()


def told(lines):
    """How many refusals lines tell of, by port and cause: with a line each, and by their numbers."""
    each, more = {}, {}
    for line in lines:
        if found := REFUSED.match(line):
            key = found[1], found[2]
            each[key] = each.get(key, 0) + 1
        elif found := MORE.match(line):
            key = found[2], found[3]
            more[key] = more.get(key, 0) + int(found[1])
    return each, more


def sums(lines):
    """How many refusals lines tell of in all, by port and cause."""
    each, more = told(lines)
    return {key: each.get(key, 0) + more.get(key, 0) for key in each.keys() | more.keys()}


def lines_of_causes(folder):
    """Each cause that an operator meets, and its line."""
    with Life(folder) as life:
        front = f"refused port=auth client={life.source} nas=bras3"
        greeting = life.said_until(lambda lines: any(map(served.GREETING.match, lines)))
        yield "it greets", greeting[-1:], ["new history: 0 sessions"]
        asked = [
            ("a login", (b"nemo",), 2, None),
            ("a second login", (b"nemo",), 2, None),
            ("a wrong password", (b"nemo", WRONG), 3, f"{front} account=nemo cause=reject_wrong_password held=2/2"),
            ("a login over the limit", (b"nemo",), 3, f"{front} account=nemo cause=reject_limit held=2/2"),
            ("an account that is not there", (b"ahab",), 3, f"{front} account=ahab cause=reject_unknown_account"),
            ("a name that would forge a line", (HOSTILE,), 3, f"{front} account={ESCAPED} cause=reject_unknown_account"),
            ("no password", (b"nemo", None), 3, f"{front} account=nemo cause=reject_not_one_password held=2/2"),
            (
                "a login at the accounting port", (b"nemo", PASSWORD, b"bras3", 1), None,
                f"refused port=acct client={life.source} cause=drop_wrong_code",
            ),
        ]
        answers = [life.login(*words) for _, words, _, _ in asked]
        wanted = [line for *_, line in asked if line]
        found = life.said_until(lambda lines: len(lines) > len(wanted))[1:]
        for (name, _, code, _), answer in zip(asked, answers):
            yield name, answer, code
        for line in wanted:
            yield f"the line: {line}", found.count(line), 1
        yield "and no other line", len(found), len(wanted)
        seconds, status = life.stop()
        yield "stop", status, 0
        yield from served.in_time("stop: how long", seconds, MOST_STOP)


def lines_of_a_trusted_client(folder):
    """What it passes on that is not checked, a disabled account, and an access server that an IPv6 address names."""
    name, disabled, nas = served.attribute(1, b"nemo"), served.attribute(1, b"ishmael"), served.attribute(32, b"bras3")
    address = served.attribute(95, bytes.fromhex("20010db8000000000000000000000001"))
    response = served.attribute(26, (311).to_bytes(4, "big") + bytes([25, 52]) + bytes(50))
    with Life(folder, trusts=True) as life:
        front = f"refused port=auth client={life.source}"
        unchecked = f"{front} nas=bras3 account=nemo cause=reject_unchecked_credential held=1/1"
        life.said_until(lambda lines: lines)
        asked = [
            ("a login that the client has checked", (name + nas,), 2, None),
            ("an MS-CHAP2-Response of zeros", (name + nas + response,), 3, unchecked),
            ("a Digest-Response", (name + nas + served.attribute(103, b"6629"),), 3, unchecked),
            ("an EAP-Message beside the right password", (name + nas + served.attribute(79, b"\2"), PASSWORD), 3, unchecked),
            (
                "a disabled account with a wrong password", (disabled + nas, WRONG), 3,
                f"{front} nas=bras3 account=ishmael cause=reject_disabled_account held=0/1",
            ),
            (
                "an access server that an IPv6 address names", (name + address, WRONG), 3,
                f"{front} nas-address=20010db8000000000000000000000001 account=nemo cause=reject_wrong_password held=1/1",
            ),
        ]
        for case, words, code, _ in asked:
            yield case, life.request(*words), code
        wanted = [line for *_, line in asked if line]
        found = life.said_until(lambda lines: len(lines) > len(wanted))[1:]
        yield "a trusted client: the lines", sorted(found), sorted(wanted)


def accounting_of_nobody(folder):
    """Accounting whose User-Name no account has: it is answered, counted by an end of its own, and has a line."""
    with Life(folder) as life:
        front = f"refused port=acct client={life.source} nas=bras3"
        life.said_until(lambda lines: lines)
        asked = [
            ("a Start", (1, b"nemo"), None),
            ("an Interim-Update", (3, b"nemo"), None),
            ("a Start with a realm", (1, b"nemo@isp.example"), f"{front} account=nemo@isp.example cause=start_unknown"),
            ("an Interim-Update in capitals", (3, b"NEMO"), f"{front} account=NEMO cause=interim_update_unknown"),
            ("a Stop of another", (2, HOSTILE), f"{front} account={ESCAPED} cause=stop_unknown"),
            ("a Stop without a name", (2, None), f"{front} cause=stop_unknown"),
            ("a Stop", (2, b"nemo"), None),
            ("an Accounting-On without a name", (7, None), None),
            ("another status, of no account", (15, b"ahab"), None),
        ]
        for name, words, _ in asked:
            yield name, life.account(*words), 5
        wanted = [line for *_, line in asked if line]
        found = life.said_until(lambda lines: len(lines) > len(wanted))[1:]
        yield "accounting of nobody: the lines", sorted(found), sorted(wanted)
        text, _, status = served.asked("status", life.file)
        lines = re.sub(r"\n +", " ", text).splitlines()
        line = next((line for line in lines if line.startswith("acct:")), "")
        counts = ["start 1", "stop 1", "interim_update 1", "accounting_on 1", "other_status 1"]
        counts += ["start_unknown 1", "stop_unknown 2", "interim_update_unknown 1"]
        yield "accounting of nobody: status", (status, [one for one in counts if one not in line]), (0, [])


def flood(folder, receivers):
    """A flood of one cause beside another, at so many receivers: the lines and the numbers add up."""
    with Life(folder, receivers=receivers) as life:
        # how soon an answer comes is looked at elsewhere
        life.socket.settimeout(WAIT)
        began = time.monotonic()
        codes = {life.login(b"nemo", WRONG) for _ in range(FLOOD)} | {life.login(b"ahab") for _ in range(5)}
        wanted = {("auth", "reject_wrong_password"): FLOOD, ("auth", "reject_unknown_account"): 5}
        lines = life.said_until(lambda lines: sums(lines) == wanted)
        seconds = time.monotonic() - began
        each, more = told(lines)
        case = f"{receivers} receivers a socket"
        yield f"{case}: each is rejected", codes, {3}
        yield f"{case}: lines and numbers add up", sums(lines), wanted
        yield f"{case}: at most 20 lines a second", each[("auth", "reject_wrong_password")] <= MOST_LINES * (seconds + 1), True
        yield f"{case}: the others are left out", more.get(("auth", "reject_wrong_password"), 0) > 0, True
        yield f"{case}: and none of a cause of which there are few", more.get(("auth", "reject_unknown_account"), 0), 0


def unread(folder):
    """A pipe that nobody reads."""
    with Life(folder, room=PAGE) as life:
        count, until = 0, time.monotonic() + 4
        slowest, codes = 0.0, set()
        while time.monotonic() < until:
            began = time.monotonic()
            codes.add(life.login(b"nemo", WRONG))
            slowest, count = max(slowest, time.monotonic() - began), count + 1
        yield "each is answered", codes, {3}
        yield from served.in_time("and soon", slowest, MOST_SILENCE)
        yield "a login is still accepted", life.login(b"ishmael"), 2
        wanted = {("auth", "reject_wrong_password"): count}
        yield "what it did not take is told once it is read", sums(life.said_until(lambda lines: sums(lines) == wanted)), wanted
    with Life(folder, room=PAGE) as life:
        until = time.monotonic() + 3
        while time.monotonic() < until:
            life.login(b"nemo", WRONG)
        seconds, status = life.stop()
        yield "stop beside it", status, 0
        yield from served.in_time("stop does not wait for it", seconds, MOST_STOP)


def journal(folder):
    """The marks that the journal reads."""
    with Life(folder, journal=True) as life:
        life.login(b"ahab")
        life.login(b"ahab", port=1)
        lines = life.said_until(lambda lines: len(lines) > 2)[1:]
        yield "a reject is a notice, a drop a warning", sorted(line[:11] for line in lines), ["<4>refused ", "<5>refused "]


def strangers(folder):
    """Peers of no client, IPv4 and IPv6, at sockets that take both: each line has the peer's own address."""
    with Life(folder, address="::") as life:
        life.said_until(lambda lines: lines)
        wanted, request = set(), served.access_request(1, SECRET, served.attribute(1, b"nemo"), bytes(16), PASSWORD)
        for family, host, shown in ((socket.AF_INET6, "::1", "[::1]"), (socket.AF_INET, "127.0.0.2", "127.0.0.2")):
            for name, port in zip(("auth", "acct"), life.ports):
                with socket.socket(family, socket.SOCK_DGRAM) as one:
                    one.bind((host, 0))
                    one.sendto(request, (host, int(port)))
                    own = one.getsockname()[1]
                wanted.add(f"refused port={name} client={shown}:{own} cause=drop_unknown_client")
        yield "strangers", set(life.said_until(lambda lines: len(lines) > len(wanted))[1:]), wanted
        yield "the client beside them", life.login(b"nemo"), 2


def networks(folder):
    """The networks of the server's file are those of the server that runs: no peer of one is a stranger, and no peer
    beside it is let in."""
    with Life(folder, more=f'[[network]]\nprefix = "127.0.0.8/29"\nclient = "{served.HOST}"\n') as life:
        life.said_until(lambda lines: lines)
        request = served.access_request(1, SECRET, served.attribute(1, b"nemo"), bytes(16), PASSWORD)
        for host, code in (("127.0.0.7", None), ("127.0.0.8", 2), ("127.0.0.15", 2), ("127.0.0.16", None)):
            with socket.socket(socket.AF_INET, socket.SOCK_DGRAM) as one:
                one.bind((host, 0))
                one.settimeout(WAIT if code else 0.5)
                one.sendto(request, (served.HOST, int(life.ports[0])))
                answer = None
                with contextlib.suppress(TimeoutError):
                    reply = one.recv(4096)
                    answer = reply[0] if served.is_answer(reply, request, SECRET) else "no answer to it"
            yield f"a login from {host}, beside or in the network 127.0.0.8/29", answer, code


def tried():
    """What is found, and what should be."""
    works = [
        (lines_of_causes,), (lines_of_a_trusted_client,), (accounting_of_nobody,), (flood, 1), (flood, 3), (unread,), (journal,),
        (strangers,), (networks,),
    ]
    for work, *given in works:
        with tempfile.TemporaryDirectory() as folder:
            yield from work(folder, *given)


def rejected(tool, life, total):
    """Rejected logins a second of so many, the server's processor time for each in microseconds, and how many had no
    answer."""
    words = [tool, "auth-pap", "-a", life.ports[0], "-c", life.ports[1], "-t", str(total), "-n", "2", "-d", "120"]
    words += ["-w", "64", "-s", SECRET, "-p", WRONG, "-P", str(life.process.pid)]
    done = subprocess.run(words, capture_output=True, text=True, check=False)
    if done.returncode not in (0, 1):
        sys.exit(f"refusals: the generator says: {done.stderr}{done.stdout}")
    found = dict(re.findall(r"(\w+)=([0-9.]+)\b", done.stdout))
    dropped = served.udp_sockets()[int(life.ports[0])][1]
    lost = total - int(found["reject"]) + dropped
    return float(found["reject"]) / float(found["wall_s"]), float(found["cpu_us_per_reply"]), lost


def measure(rounds, other):
    """Prints the medians of so many rounds."""
    found = {}
    with tempfile.TemporaryDirectory() as tools:
        tool = served.built(tools, "load")
        for _ in range(rounds):
            ways = {"to nowhere": {"output": subprocess.DEVNULL}, "to a pipe that nobody reads": {"room": PAGE}}
            if other:
                ways["of the other program"] = {"output": subprocess.DEVNULL, "program": other}
            for name, given in ways.items():
                with tempfile.TemporaryDirectory(dir="/dev/shm") as folder, Life(folder, **given) as life:
                    rejected(tool, life, LOGINS // 10)
                    found.setdefault(name, []).append(rejected(tool, life, LOGINS))
    for name, values in found.items():
        rates, times, lost = zip(*values)
        print(f"{name:28} {statistics.median(rates):>10,.0f} rejected logins/s ({min(rates):,.0f} to {max(rates):,.0f}), "
              f"{statistics.median(times):.2f} us each ({min(times):.2f} to {max(times):.2f}), not answered {sum(lost)}")


def main():
    parser = argparse.ArgumentParser(usage=__doc__)
    parser.add_argument("--measure", action="store_true")
    parser.add_argument("--other")
    parser.add_argument("rounds", nargs="?", type=int, default=5)
    given = parser.parse_args()
    if given.measure:
        measure(given.rounds, given.other)
    else:
        served.verdict(list(tried()))


if __name__ == "__main__":
    main()
