"""Runs `radlimit` on the greatest scripts and account files that it takes, and on ones that are an octet, a client or an
account longer, and looks at what it prints: no want of memory is made up; and has a server of the most accounts answer
within a second of its start. It wants Linux.

usage: python3 -m tests.programs.sizes
"""

import subprocess
import sys
import tempfile
import time

from tests.lib import served
from tools.build.programs import path_of

MOST_CLIENTS = 256
MOST_ACCOUNTS = 16_384
MOST_SCRIPT = 1_048_576
MOST_FILE = 16_777_216
ASKS = 10_000
TITLES = ["places", "held", "reserved", "live", "stale", "over"]


PROGRAM = path_of("rsl_app")

# what a server prints for no datagrams, before its report
NONE_CAME = "".join(f"{port} received 0 answered 0 dropped 0 refused 0 unsent 0\n" for port in ("auth", "acct"))

HEAD = """version = 1
shards = 4
reserve_secs = 60
live_secs = 900
grace_secs = 900
closed_secs = 3600
keep_secs = 10
"""


def address(number):
    """The address of a client."""
    return f"10.0.{number // 256}.{number % 256}"


def script_head(clients, accounts):
    """The configuration lines of these numbers of clients, and of accounts of one place."""
    return "".join(
        [f"client {address(number)} s\n" for number in range(clients)]
        + [f"account a{number} p 1\n" for number in range(accounts)]
    )


def script_of_accounts(clients, accounts):
    """An ask of each account, each from one of the clients."""
    asks = (f"ask 0 {address(number % clients)} - a{number} p 1\n" for number in range(accounts))
    return script_head(clients, accounts) + "".join(asks)


def script_of_ticks(octets):
    """A script of this length, of a comment and ticks, and how many ticks these are."""
    head = script_head(1, 1)
    line = "tick 0\n"
    ticks = (octets - len(head) - 2) // len(line)
    comment = "#" * (octets - len(head) - 1 - ticks * len(line)) + "\n"
    return head + comment + ticks * line, ticks


def script_of_asks(asks):
    """Asks of one account that has one place, each from another access server."""
    lines = (f"ask 0 {address(0)} n{number} a0 p 1\n" for number in range(asks))
    return script_head(1, 1) + "".join(lines)


def account_file(clients, accounts):
    """An account file with these numbers of each."""
    return "".join(
        [HEAD]
        + [f'[[client]]\naddress = "{address(number)}"\nsecret = "s"\n' for number in range(clients)]
        + [f'[[account]]\nname = "a{number}"\npassword = "p"\nplaces = 1\nports = 1\n' for number in range(accounts)]
    )


def numbered(words):
    """Lines, each with its number and a word."""
    return "".join(f"{number} {word}\n" for number, word in enumerate(words, 1))


def report(accounts, held):
    """The report on accounts of one place, which is reserved or free."""
    titles = f"{'name':<20}" + "".join(f" {title:>8}" for title in TITLES) + "\n"
    columns = "".join(f" {number:>8}" for number in [1, held, held, 0, 0, 0])
    return titles + "".join(f"{f'a{number}':<20}{columns}\n" for number in range(accounts))


def padded(text, octets):
    """A file that ends in a comment, of this length."""
    return text + "#" * (octets - len(text))


def cases():
    """What is tried, what comes of it, and what should: a status, standard output and standard error."""
    both = f"{MOST_CLIENTS} clients and {MOST_ACCOUNTS} accounts"
    accepted = numbered(["accept 0"] * MOST_ACCOUNTS) + report(MOST_ACCOUNTS, 1)
    yield f"a replay: {both}", replayed(script_of_accounts(MOST_CLIENTS, MOST_ACCOUNTS)), (0, accepted, "")
    script = script_head(MOST_CLIENTS + 1, 1)
    yield "a replay: a client more", replayed(script), (1, "", "bad script: BadValue client\n")
    script = script_head(1, MOST_ACCOUNTS + 1)
    yield "a replay: an account more", replayed(script), (1, "", "bad script: BadValue account\n")
    script, ticks = script_of_ticks(MOST_SCRIPT)
    yield f"a replay: {ticks} ticks", replayed(script), (0, numbered(["tick"] * ticks) + report(1, 0), "")
    yield "a replay: an octet more", replayed(f"#{script}"), (1, "", "bad script: too long\n")
    rejected = numbered(["accept 0"] + ["reject limit"] * (ASKS - 1)) + report(1, 1)
    yield f"a replay: {ASKS} asks of one account", replayed(script_of_asks(ASKS)), (0, rejected, "")

    text = account_file(MOST_CLIENTS, MOST_ACCOUNTS)
    shown = NONE_CAME + report(MOST_ACCOUNTS, 0)
    yield f"a file: {both}", served_by(text), (0, shown, "")
    yield f"a file: {both}, {MOST_FILE} octets", served_by(padded(text, MOST_FILE)), (0, shown, "")
    yield "a file: an octet more", served_by(padded(text, MOST_FILE + 1)), (1, "", "bad file: unreadable\n")
    text = account_file(MOST_CLIENTS + 1, 1)
    yield "a file: a client more", served_by(text), (1, "", "bad file: BadValue client\n")
    text = account_file(1, MOST_ACCOUNTS + 1)
    yield "a file: an account more", served_by(text), (1, "", "bad file: BadValue account\n")


def run(words, text=""):
    """What comes of the program, which may read a text: its exit status, standard output and standard error."""
    done = subprocess.run([PROGRAM, *words], input=text, capture_output=True, text=True, check=False)
    return done.returncode, done.stdout, done.stderr


def replayed(script):
    """The same of a replay of a script."""
    return run(["replay"], script)


def served_by(text):
    """The same of a server by an account file with this text, whose receivers take no turns."""
    with tempfile.NamedTemporaryFile("w", encoding="ascii") as file:
        file.write(text)
        file.flush()
        return run(["serve", file.name, served.HOST, *served.free_ports(), "0"])


def short(found):
    """What a run gave, of long texts the first part."""
    status, printed, told = found
    return status, printed[:200], told[:200]


def answers_in_time():
    """Whether a server of the most accounts answers within a second of its start. The best of three starts counts, as
    other work of the machine may hold one up."""
    name = served.attribute(1, b"a%d" % (MOST_ACCOUNTS - 1)) + served.attribute(32, b"nas")
    request = served.access_request(1, b"s", name, bytes(16), b"p")
    accounts = [(f"a{number}", b"p", 1, 1) for number in range(MOST_ACCOUNTS)]
    with tempfile.NamedTemporaryFile() as file:
        served.account_file(file.name, [(served.HOST, b"s", False)], accounts, shards=4, reserve=60, keep=10)
        for _ in range(3):
            began = time.monotonic()
            with served.Server(file.name, 2**64 - 1) as server:
                if served.first_answer(server.ports[0], request, b"s", 1) and time.monotonic() - began < 1:
                    return True
    return False


def main():
    passed, failed = (1, 0) if answers_in_time() else (0, 1)
    if failed:
        print(f"a server of {MOST_ACCOUNTS} accounts does not answer within a second of its start")
    for name, found, expected in cases():
        if found == expected:
            passed += 1
        else:
            failed += 1
            print(f"{name}\nexpected: {short(expected)!r}\nfound:    {short(found)!r}")
    print(f"{passed} passed, {failed} failed")
    return 1 if failed else 0


sys.exit(main())
