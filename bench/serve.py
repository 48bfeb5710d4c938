"""Measures `radlimit serve` and `radlimitd run` on 127.0.0.1, beside two yardsticks in C: `echo` sends each datagram
back, and `floor` checks the password and seals the reply and counts nothing. All are run in turn, round
after round, and the medians are printed with their ratios to those of `floor`. It wants Linux, a C compiler and the
built programs.

usage: python3 -m bench.serve [--awake] [--threads N] [--reserve SECONDS] [--state FOLDER] [--sync POLICY] [ROUNDS]

5 rounds if not given; a round takes about a minute. With --awake the generator does not sleep, so that no server has to
wake it. It has one thread, or N: where its busiest one has no time left, a server may do more than is measured. A login
reserves its place for 60 seconds, as in the sample file, so that those of a round stand until its end; with --reserve 1
they lapse a second later, and their end is a part of what is measured. `radlimitd` syncs each batch, or what POLICY
says, to the disk of the system's temporary files, or to that of FOLDER: with /dev/shm, to none.
"""

import argparse
import os
import re
import signal
import statistics
import subprocess
import sys
import tempfile
import time

from tests.lib import served

SECRET, PASSWORD = b"testing123", b"pw-common"
SESSIONS = 16_000
MOST_ACCOUNTS = 16_384
PLACES = 32
LOGINS, CYCLES, SINGLES = 200_000, 30_000, 20_000
FOREVER = str(2**64 - 1)
RECEIVERS = 1, 2  # of `radlimitd` on each socket


def account_file(folder, accounts, places, reserve):
    """An account file with so many accounts, and its name."""
    path = os.path.join(folder, f"{accounts}-{places}-{reserve}.toml")
    entries = [(f"u{number:06}", PASSWORD, places, 1) for number in range(1, accounts + 1)]
    return served.account_file(path, [(served.HOST, SECRET, False)], entries, shards=4, reserve=reserve, keep=1)


class Server:
    """A server that runs, until it is ended by its process id."""

    def __init__(self, words, ports):
        self.ports = ports
        began = time.monotonic()
        self.process = subprocess.Popen(words, stdout=subprocess.DEVNULL)
        while not served.are_bound(ports):
            if self.process.poll() is not None:
                sys.exit(f"{words[0]} has ended with status {self.process.returncode}")
            time.sleep(0.005)
        self.seconds = time.monotonic() - began

    def __enter__(self):
        return self

    def __exit__(self, *_):
        self.process.send_signal(signal.SIGTERM)
        self.process.wait()

    def resident(self):
        """The octets that are resident."""
        return served.resident(self.process)

    def answer(self):
        """Waits until it answers."""
        name = served.attribute(1, b"u000001") + served.attribute(32, b"nas")
        request = served.access_request(1, SECRET, name, bytes(16), PASSWORD)
        if not served.first_answer(self.ports[0], request, SECRET, 10):
            sys.exit("the server does not answer")

    def system_seconds(self):
        """The processor seconds that the system took for it."""
        with open(f"/proc/{self.process.pid}/stat", encoding="ascii") as file:
            return int(file.read().rpartition(")")[2].split()[12]) / os.sysconf("SC_CLK_TCK")


class Bench:
    """The programs, and what they are run with."""

    def __init__(self, folder, state, given):
        self.folder, self.state, self.sync = folder, state, given.sync
        self.reserve = given.reserve
        self.threads = given.threads
        self.others = ["-y"] if given.awake else []
        for name in ("load", "echo", "floor"):
            served.built(folder, name)

    def tool(self, name):
        """The path of a C program."""
        return os.path.join(self.folder, name)

    def echo(self):
        """The echo. It has one port, which stands for both."""
        port = served.free_ports()[0]
        return Server([self.tool("echo"), port], [port, port])

    def floor(self):
        """The floor."""
        ports = served.free_ports()
        return Server([self.tool("floor"), *ports, SECRET, PASSWORD], ports)

    def radlimit(self, accounts, places=PLACES):
        """The server, with so many accounts."""
        ports = served.free_ports()
        name = account_file(self.folder, accounts, places, self.reserve)
        return Server([served.PROGRAM, "serve", name, served.HOST, *ports, FOREVER], ports)

    def daemon(self, accounts, receivers):
        """The server that keeps its history, with so many accounts and so many receivers on each socket."""
        folder, ports = tempfile.mkdtemp(dir=self.state), served.free_ports()
        os.rename(account_file(folder, accounts, PLACES, self.reserve), os.path.join(folder, "accounts.toml"))
        return Server([served.DAEMON, "run", served.daemon_file(folder, ports, receivers, self.sync)], ports)

    def load(self, server, mode, total, window, *others):
        """Sends requests for all accounts, so many of them in flight, and gives what the generator prints: a dictionary
        of its numbers."""
        auth, acct = server.ports
        words = [self.tool("load"), mode, "-a", auth, "-c", acct, "-t", str(total), "-n", str(SESSIONS), "-d", "60"]
        words += ["-w", str(window), "-T", str(min(self.threads, window))]
        words += ["-P", str(server.process.pid), "-s", SECRET, "-p", PASSWORD, *self.others, *others]
        done = subprocess.run(words, capture_output=True, text=True, check=False)
        if done.returncode not in (0, 1):
            sys.exit(f"serve: the generator says: {done.stderr}{done.stdout}")
        return {name: float(value) for name, value in re.findall(r"(\w+)=([0-9.]+)\b", done.stdout)} | {
            "p99": float(re.search(r"latency_us_all .*p99=([0-9.]+)", done.stdout)[1]),
            "wrong": done.returncode,
        }


def accepted(logins, others):
    """The logins that were accepted. An echo answers none: all that comes back counts."""
    return LOGINS if "-E" in others else logins["accept"]


def measured(bench, server, *others):
    """What a server does: logins and cycles with 64 in flight, and logins one after the other."""
    before = server.system_seconds()
    logins = bench.load(server, "auth-pap", LOGINS, 64, *others)
    found = {
        "accepted logins/s": accepted(logins, others) / logins["wall_s"],
        "us a login": logins["cpu_us_per_reply"],
        "of these the system's": (server.system_seconds() - before) * 1e6 / LOGINS,
        "rejected or unanswered": LOGINS - accepted(logins, others),
        "load's busiest thread, %": logins["busiest_thread_pct"],
    }
    if "-E" not in others:
        signed = bench.load(server, "auth-pap", LOGINS, 64, "-M", *others)
        found["accepted signed logins/s"] = signed["accept"] / signed["wall_s"]
        found["us a signed login"] = signed["cpu_us_per_reply"]
        cycles = bench.load(server, "session", CYCLES, 64, "-g", "C")
        found["cycles/s"] = cycles["cycles_per_s"]
        found["us a request of a cycle"] = cycles["cpu_us_per_reply"]
        found["cycles failed"] = cycles["cycles_failed"]
    singles = bench.load(server, "auth-pap", SINGLES, 1, *others)
    found["99th percentile, 1 in flight, us"] = singles["p99"]
    return found


def one_round(bench):
    """What each server does, in turn."""
    found = {}
    with bench.echo() as server:
        found["echo"] = measured(bench, server, "-E")
    with bench.floor() as server:
        found["floor"] = measured(bench, server)
    with bench.radlimit(SESSIONS) as server:
        found["radlimit"] = measured(bench, server)
    with bench.radlimit(SESSIONS) as server:
        bench.load(server, "open", SESSIONS, 64, "-g", "O")
        found["radlimit, 16,000 open"] = measured(bench, server)
    for receivers in RECEIVERS:
        with bench.daemon(SESSIONS, receivers) as server:
            found[f"radlimitd, {receivers} a socket"] = measured(bench, server)
    return found


def memory(bench):
    """What is resident, for an account of one place, an open session and a request."""
    with bench.radlimit(1, 1) as one, bench.radlimit(MOST_ACCOUNTS, 1) as all_of_them:
        # the books are made once the sockets are bound
        for server in (one, all_of_them):
            server.answer()
        least, most = one.resident(), all_of_them.resident()
        print(f"start with {MOST_ACCOUNTS:,} accounts: {all_of_them.seconds:.2f} s until both sockets are bound")
        print(f"resident with 1 account: {least:,} octets; with {MOST_ACCOUNTS:,}: {most:,}, "
              f"{(most - least) / (MOST_ACCOUNTS - 1):,.0f} an account")
        bench.load(all_of_them, "open", SESSIONS, 64, "-g", "O")
        opened = all_of_them.resident()
        print(f"with {SESSIONS:,} sessions open: {opened:,}, {(opened - most) / SESSIONS:,.0f} a session, "
              "whose two requests are in the journal")
        bench.load(all_of_them, "acct-interim", LOGINS, 64, "-g", "O")
        renewed = all_of_them.resident()
        print(f"after {LOGINS:,} Interim-Updates more: {renewed:,}, {(renewed - opened) / LOGINS:,.0f} a request")


def main():
    usage = "python3 -m bench.serve [--awake] [--threads N] [--reserve SECONDS] [--state FOLDER] [--sync POLICY] [ROUNDS]"
    parser = argparse.ArgumentParser(usage=usage)
    parser.add_argument("--awake", action="store_true")
    parser.add_argument("--threads", type=int, default=1)
    parser.add_argument("--reserve", type=int, default=60)
    parser.add_argument("--state")
    parser.add_argument("--sync", choices=served.POLICIES, default="always")
    parser.add_argument("rounds", nargs="?", type=int, default=5)
    given = parser.parse_args()
    rounds = given.rounds
    with tempfile.TemporaryDirectory() as folder, tempfile.TemporaryDirectory(dir=given.state) as state:
        bench = Bench(folder, state, given)
        memory(bench)
        found = [one_round(bench) for _ in range(rounds)]
    servers = list(found[0])
    names = list(found[0]["floor"])
    print(f"\nmedians of {rounds} rounds" + "".join(f"{name:>32}" for name in servers))
    for name in names:
        cells = []
        for server in servers:
            values = [each[server][name] for each in found if name in each[server]]
            floor = statistics.median(each["floor"][name] for each in found)
            value = statistics.median(values) if values else None
            ratio = f" ({value / floor:.2f})" if value is not None and floor else ""
            cells.append("" if value is None else f"{value:,.1f}{ratio}")
        print(f"{name:32}" + "".join(f"{cell:>32}" for cell in cells).rstrip())


main()
