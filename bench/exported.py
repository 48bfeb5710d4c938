"""Measures how long `radlimitd export` takes over a log of 1,500,000 octets: sessions of 16,384 accounts that begin, are
renewed and end, with a tick a second and now and then a restart of an access server; and over one of twice as many
octets. The logs are written here.

It ends with 1 where a session of a log is not printed, the first took more than two seconds, or the second more than 2.2
times as long.

usage: python3 -m bench.exported [OCTETS [ACCOUNTS]]        1500000 and 16384 if not given
A time is the processor's, so that other work beside it does not count. It wants Linux and the built program.
"""

import collections
import os
import resource
import subprocess
import sys
import tempfile

from tests.lib import folder as state
from tests.lib import served

OCTETS, ACCOUNTS, SERVERS = 1_500_000, 16_384, 16
FIRST, BEGUN = 1_700_000_000, 5  # the first moment, and sessions that begin in a second
SESSION_SECONDS, SWEEP_SECONDS = 60, 120  # of a session, and between two restarts of an access server
MOST_SECONDS, MOST_TIMES, RUNS = 2.0, 2.2, 5
CLIENT = "192.0.2.1"


def moves(accounts):
    """The moves of sessions, without end: each begins by a login and its Start, is renewed, and a minute later ends by its
    Stop, but for those that a restart of their access server has ended. Gives a batch a second, and how many begin in it."""
    number, moment, held = 0, FIRST, collections.deque()
    while True:
        moment += 1
        batch = [state.tick(moment)]
        for _ in range(BEGUN):
            one = number % accounts, state.nas(0, b"bras%d" % (number % SERVERS)), b"%08x" % number
            batch += [
                state.ask(moment, *one[:2], CLIENT, 1_024, number % 256, number.to_bytes(16, "big")),
                state.alive(moment, *one, None, 0),
                state.alive(moment, *one),
            ]
            held.append(one)
            number += 1
        batch += [state.stop(moment, *held.popleft()) for _ in range(len(held) - SESSION_SECONDS * BEGUN)]
        if (moment - FIRST) % SWEEP_SECONDS == 0:
            batch.append(state.restart(moment, state.nas(0, b"bras%d" % (number % SERVERS))))
        yield batch, BEGUN


def write(folder, octets, accounts):
    """Writes the folder of a server with a log of so many octets over so many accounts: how many sessions it has."""
    names = [(b"account%05d" % number, 4, 1) for number in range(accounts)]
    front = state.front(1, state.table(names, [CLIENT]), FIRST)
    frames = [state.frame(payload) for payload in (front, state.new_books(accounts))]
    length, sessions = sum(map(len, frames)), 0
    for batch, begun in moves(accounts):
        if length >= octets:
            break
        frames.append(state.frame(state.listed(batch)))
        length, sessions = length + len(frames[-1]), sessions + begun
    with open(os.path.join(folder, "log-1"), "wb") as file:
        file.write(b"".join(frames))
    return sessions


def processor():
    """The seconds of the processor that ended children have taken."""
    found = resource.getrusage(resource.RUSAGE_CHILDREN)
    return found.ru_utime + found.ru_stime


def measured(octets, accounts):
    """The seconds of the fastest of some exports of a log of so many octets over so many accounts."""
    with tempfile.TemporaryDirectory() as folder:
        os.mkdir(os.path.join(folder, "state"), 0o700)
        sessions = write(os.path.join(folder, "state"), octets, accounts)
        file = served.daemon_file(folder, [1812, 1813], 1)
        times = []
        for _ in range(RUNS):
            began = processor()
            run = subprocess.run([served.DAEMON, "export", file], capture_output=True, check=False)
            times.append(processor() - began)
            printed = run.stdout.count(b"\n")
            if (printed, run.stderr, run.returncode) != (sessions, b"", 0):
                sys.exit(f"{printed} of {sessions} sessions, status {run.returncode}: {run.stderr.decode()}")
    print(f"{octets:,} octets, {sessions:,} sessions: {min(times):.2f} s, the longest of {RUNS} {max(times):.2f} s")
    return min(times)


def main():
    words = sys.argv[1:]
    if len(words) > 2 or not all(word.isdecimal() for word in words):
        sys.exit(__doc__)
    octets = int(words[0]) if words else OCTETS
    accounts = int(words[1]) if len(words) > 1 else ACCOUNTS
    once, twice = measured(octets, accounts), measured(2 * octets, accounts)
    print(f"twice the octets: {twice / once:.2f} times the time")
    if once > MOST_SECONDS or twice > MOST_TIMES * once:
        sys.exit(f"more than {MOST_SECONDS} s, or than {MOST_TIMES} times")


if __name__ == "__main__":
    main()
