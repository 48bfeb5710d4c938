"""Measures what `radlimitd run` keeps over many requests, over 16,384 accounts of one place: how long it takes to start
with 16,384 sessions, what is resident after 10,000 requests and at the end, the requests that it answers a second at
the begin and at the end, and the octets of its folder. A request is one of a login, a Start, an Interim-Update and a
Stop, one session after the other.

The server runs as docs/radlimitd.8 says, with one arena for all its threads ("ENVIRONMENT"); with another
GLIBC_TUNABLES in the environment, with that.

usage: python3 -m bench.flat [--state FOLDER] [REQUESTS]        10000000 if not given
It wants Linux, a C compiler and the built program. The state folder is made among the system's temporary files, or in
FOLDER. It exits with 1 where memory grows by over 2 MB, the rate falls by over a tenth, or a start takes 2 seconds.
"""

import argparse
import os
import re
import subprocess
import sys
import tempfile
import time

from tests.lib import served

SECRET, PASSWORD = b"testing123", b"pw-common"
ACCOUNTS = 16_384
WINDOW = 64  # requests in flight
CYCLE = 4  # requests of a session
FIRST, PART = 10_000, 1_000_000  # requests
RESERVE, KEEP, LIVE = 86_400, 10, 86_400
WAIT = 120  # seconds in which a server has to begin
MOST_MORE, LEAST_RATE, LONGEST_START = 2_000_000, 0.9, 2.0
ARENAS = "glibc.malloc.arena_max=1"


class Server:
    """A server with a folder of its own, and what asks it."""

    def __init__(self, folder, load):
        self.load, self.ports, self.tag = load, served.free_ports(), 0
        self.state = os.path.join(folder, "state")
        accounts = [(f"u{number:06}", PASSWORD, 1, 1) for number in range(1, ACCOUNTS + 1)]
        served.account_file(
            os.path.join(folder, "accounts.toml"), [(served.HOST, SECRET, False)], accounts, shards=4, reserve=RESERVE,
            keep=KEEP, live=LIVE,
        )
        self.file = served.daemon_file(folder, self.ports, 1)

    def start(self):
        """Starts it: the seconds until it serves, and what it says."""
        began = time.monotonic()
        self.process = served.daemon(self.file)
        said = served.greeting(self.process, WAIT)
        if not served.GREETING.match(said):
            sys.exit(f"flat: the server says: {said}")
        return time.monotonic() - began, said.rstrip("\n")

    def kill(self):
        """Kills it."""
        self.process.kill()
        self.process.communicate()

    def ask(self, mode, cycles):
        """Has it answer so many cycles: the seconds that all took."""
        self.tag += 1
        auth, acct = self.ports
        words = [self.load, mode, "-a", auth, "-c", acct, "-t", str(cycles), "-n", str(ACCOUNTS), "-d", "36000"]
        words += ["-w", str(WINDOW), "-s", SECRET, "-p", PASSWORD, "-g", f"{self.tag}-"]
        done = subprocess.run(words, capture_output=True, text=True, check=False)
        found = dict(re.findall(r"(\w+)=([0-9.]+)\b", done.stdout))
        if done.returncode != 0 or found["reject"] != "0":
            sys.exit(f"flat: the generator says: {done.stderr}{done.stdout}")
        return float(found["wall_s"])

    def resident(self):
        """The octets that are resident."""
        return served.resident(self.process)

    def sizes(self):
        """The octets of its logs, and of those in its archive."""
        found = {"state": [], "archive": []}
        for folder, _, names in os.walk(self.state):
            logs = [os.path.join(folder, name) for name in names if name.startswith("log-")]
            found[os.path.basename(folder)] += map(os.path.getsize, logs)
        return found["state"], found["archive"]


def starts(server):
    """What a start takes with a session of each account: one that makes their moves, and one that reads their books."""
    server.start()
    server.ask("open", ACCOUNTS)
    server.kill()
    longest = 0.0
    for _ in range(2):
        seconds, said = server.start()
        server.kill()
        print(f"start: {seconds:.2f} s ({said})")
        if f"{ACCOUNTS} sessions" not in said:
            sys.exit("flat: the sessions are not there")
        longest = max(longest, seconds)
    return longest


def flat(server, requests):
    """What is resident and what is answered a second, at the begin and at the end."""
    server.start()
    part = min(PART, requests // 4)
    server.ask("session", FIRST // CYCLE)
    before = server.resident()
    print(f"after {FIRST:,} requests: {before:,} octets are resident", flush=True)
    first = part / server.ask("session", part // CYCLE)
    print(f"the next {part:,}: {first:,.0f} a second; {server.resident():,} octets are resident", flush=True)
    left = requests - FIRST - part
    while left > part:
        seconds = server.ask("session", min(part, left - part) // CYCLE)
        rate = min(part, left - part) / seconds
        left -= min(part, left - part)
        print(f"{left:,} are left: {rate:,.0f} a second; {server.resident():,} octets are resident", flush=True)
    last = part / server.ask("session", part // CYCLE)
    after = server.resident()
    print(f"the last {part:,}: {last:,.0f} a second, {last / first:.2f} times the first")
    print(f"at the end: {after:,} octets are resident, {after - before:,} more")
    logs, archive = server.sizes()
    print(f"logs of {sum(logs):,} octets, the largest of {max(logs):,}; an archive of {sum(archive):,}")
    server.kill()
    seconds, said = server.start()
    print(f"start behind that: {seconds:.2f} s ({said})")
    server.kill()
    return after - before, last / first, sum(logs) / max(logs)


def main():
    parser = argparse.ArgumentParser(usage="python3 -m bench.flat [--state FOLDER] [REQUESTS]")
    parser.add_argument("--state")
    parser.add_argument("requests", nargs="?", type=int, default=10_000_000)
    given = parser.parse_args()
    os.environ.setdefault("GLIBC_TUNABLES", ARENAS)
    with tempfile.TemporaryDirectory() as tools, tempfile.TemporaryDirectory(dir=given.state) as folder:
        load = served.built(tools, "load")
        for name in ("starts", "flat"):
            os.mkdir(os.path.join(folder, name))
        seconds = starts(Server(os.path.join(folder, "starts"), load))
        more, rate, generations = flat(Server(os.path.join(folder, "flat"), load), given.requests)
    if more > MOST_MORE or rate < LEAST_RATE or seconds >= LONGEST_START or generations > 2:
        sys.exit("flat: an aim is missed")


if __name__ == "__main__":
    main()
