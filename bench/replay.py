"""Times `radlimit replay` on scripts of 1,048,576 octets, each beside one of half its lines.

Twice the lines must take at most 2.2 times the time: of asks over 1,000 accounts, over 16,384 and of a
single one, and of a mix of ask, start, interim and stop with 8,000 sessions open. The first must take at
most 0.25 s. Each script is made from a seed and run five times, and the least time counts. Then it prints,
at 16,384 accounts of one place that all have a session, what a tick and a sweep of all of them take, and how
much memory stays resident: for the books, and for a line of the journals. Over four shards a tick or a sweep is
a step of each, and a service holds a shard's lock for one of them: that must take at most 1 ms.

usage: python3 -m bench.replay [SEED]
"""

import os
import random
import subprocess
import sys
import tempfile
import time

from tools.build.programs import path_of

MOST_OCTETS = 1_048_576
MOST_ACCOUNTS = 16_384
OPEN_SESSIONS = 8_000
RUNS = 5
MOST_RATIO = 2.2
MOST_SECONDS = 0.25
MOST_BOOK_OCTETS = 64 << 20
SHARDS = 4
MOST_STEP_SECONDS = 0.001
CLIENT = "192.168.1.16"


PROGRAM = path_of("rsl_app")


def head_of(accounts, places):
    """The configuration: one client, and accounts that each have these places."""
    lines = [f"client {CLIENT} xyzzy5461\n"]
    lines += [f"account u{number} p {places}\n" for number in range(accounts)]
    return "".join(lines)


def filled(head, line_of):
    """Lines up to the most octets that a script may have."""
    lines = []
    left = MOST_OCTETS - len(head)
    while True:
        line = line_of(len(lines))
        left -= len(line)
        if left < 0:
            return lines
        lines.append(line)


def asks(rng, accounts):
    """A line `ask` of one of the accounts, ten in a second."""

    def line_of(index):
        nas, account, key = rng.randrange(100), rng.randrange(accounts), rng.randrange(256)
        return f"ask {index // 10} {CLIENT} n{nas} u{account} p {key}\n"

    return line_of


def mix(rng, accounts):
    """Sessions of accounts, OPEN_SESSIONS of them open at a time: asks, starts, interims and stops."""
    opened = []

    def line_of(index):
        moment = index // 100
        if len(opened) < OPEN_SESSIONS:
            opened.append((index, index % accounts))
            return f"start {moment} {CLIENT} n u{index % accounts} s{index}\n"
        kind = rng.randrange(4)
        if kind == 0:
            return f"ask {moment} {CLIENT} n u{rng.randrange(accounts)} p {rng.randrange(256)}\n"
        at = rng.randrange(len(opened))
        session, account = opened[at]
        if kind == 1:
            return f"interim {moment} {CLIENT} n u{account} s{session}\n"
        if kind == 2:
            opened[at] = opened[-1]
            opened.pop()
            return f"stop {moment} {CLIENT} n u{account} s{session}\n"
        return f"start {moment} {CLIENT} n u{account} s{session}\n"

    return line_of


def measured(text):
    """The least time of a run on a script, and the most octets that were resident in one."""
    took, resident = [], 0
    with tempfile.TemporaryFile() as script, tempfile.TemporaryFile() as answers:
        script.write(text.encode("ascii"))
        script.flush()
        for _ in range(RUNS):
            script.seek(0)
            start = time.perf_counter()
            process = subprocess.Popen([PROGRAM, "replay"], stdin=script, stdout=answers)
            _, status, usage = os.wait4(process.pid, 0)
            took.append(time.perf_counter() - start)
            process.returncode = os.waitstatus_to_exitcode(status)
            if process.returncode != 0:
                sys.exit(f"replay: status {process.returncode}")
            resident = max(resident, usage.ru_maxrss * 1024)
    return min(took), resident


def compared(name, head, line_of):
    """The time for a script, its ratio to that of half its lines, and whether the ratio is small enough."""
    lines = filled(head, line_of)
    half = lines[: len(lines) // 2]
    first, _ = measured(head + "".join(half))
    whole, _ = measured(head + "".join(lines))
    ratio = whole / first
    print(f"{name}: {len(half)} lines {first:.4f} s, {len(lines)} lines {whole:.4f} s, ratio {ratio:.2f}")
    return whole, ratio <= MOST_RATIO


def at_all_accounts():
    """Time and memory at the most accounts, each with a session; whether the books are small enough."""
    head = head_of(MOST_ACCOUNTS, 1)
    sessions = "".join(f"start 0 {CLIENT} n u{number} s\n" for number in range(MOST_ACCOUNTS))
    few, many = 100, 1_000
    _, books = measured(head)
    _, whole = measured(head + sessions)
    strays = [measured(head + f"start 0 {CLIENT} n - s\n" * count) for count in (few, many * 10)]
    ticks = [measured(head + sessions + "tick 1\n" * count)[0] for count in (few, many)]
    sweeps = [measured(head + sessions + f"on 1 {CLIENT} m\n" * count)[0] for count in (few, many)]
    line = (strays[1][1] - strays[0][1]) / (many * 10 - few)
    print(f"resident with no line: {books / (1 << 20):.1f} MiB; all with a session: {whole / (1 << 20):.1f} MiB")
    print(f"a line of a script and of its journal: {line:.0f} octets")
    for name, pair in (("tick", ticks), ("sweep", sweeps)):
        print(f"a {name} of {MOST_ACCOUNTS} accounts: {(pair[1] - pair[0]) / (many - few) * 1e6:.0f} us")
    return books <= MOST_BOOK_OCTETS


def in_each_shard():
    """What a step of one of four shards takes, of 16,384 accounts that have a session; whether that is short enough."""
    head = f"set shards {SHARDS}\n" + head_of(MOST_ACCOUNTS, 1)
    sessions = "".join(f"start 0 {CLIENT} n u{number} s\n" for number in range(MOST_ACCOUNTS))
    few, many = 20, 320
    fine = True
    for name, line in (("tick", "tick 1\n"), ("sweep", f"on 1 {CLIENT} m\n")):
        pair = [measured(head + sessions + line * count)[0] for count in (few, many)]
        took = (pair[1] - pair[0]) / (many - few) / SHARDS
        print(f"a {name} of one of {SHARDS} shards: {took * 1e6:.0f} us")
        fine = fine and took <= MOST_STEP_SECONDS
    return fine


def main():
    seed = int(sys.argv[1]) if len(sys.argv) > 1 else 1
    rng = random.Random(seed)
    took, fine = compared("asks over 1,000 accounts", head_of(1_000, 64), asks(rng, 1_000))
    fine = fine and took <= MOST_SECONDS
    for name, accounts in (("asks over 16,384 accounts", MOST_ACCOUNTS), ("asks of one account", 1)):
        fine = compared(name, head_of(accounts, 64), asks(rng, accounts))[1] and fine
    fine = compared("8,000 sessions open", head_of(1_000, 64), mix(rng, 1_000))[1] and fine
    fine = at_all_accounts() and fine
    fine = in_each_shard() and fine
    return 0 if fine else 1


sys.exit(main())
