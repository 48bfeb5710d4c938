"""Times `radlimitd check` of an account file of 16,384 accounts, and of one of 8,192.

Twice the accounts should take twice the time: the ratio must be at most 2.3. Each file is checked five
times, and the least time counts.

usage: python3 -m bench.accounts [SEED]
"""

import os
import random
import subprocess
import sys
import tempfile
import time

from tools.build.programs import path_of

MOST_ACCOUNTS = 16_384
RUNS = 5
MOST_RATIO = 2.3


PROGRAM = path_of("radlimitd")

SERVER_FILE = 'accounts = "accounts.toml"\nstate = "state"\n'

HEAD = """version = 1
shards = 4
reserve_secs = 60
live_secs = 900
grace_secs = 900
closed_secs = 3600
keep_secs = 10

[[client]]
address = "192.168.1.16"
secret = "xyzzy5461"
"""


def account(rng, number):
    """An account with all of its fields."""
    return f"""
[[account]]
name = "user{number}"
password = "{rng.getrandbits(64):016x}"
places = {rng.randint(0, 64)}
ports = {rng.randint(1, 16)}
service_type = 2
framed_protocol = 1
session_timeout = 3600
idle_timeout = 600
"""


def account_file(seed, accounts):
    """A file of this number of accounts."""
    rng = random.Random(seed)
    return HEAD + "".join(account(rng, number) for number in range(accounts))


def seconds(text):
    """The least time of a check of an account file with this text."""
    times = []
    with tempfile.TemporaryDirectory() as folder:
        name = os.path.join(folder, "radlimitd.toml")
        for path, written in ((name, SERVER_FILE), (os.path.join(folder, "accounts.toml"), text)):
            with open(os.open(path, os.O_CREAT | os.O_WRONLY, 0o600), "w", encoding="ascii") as file:
                file.write(written)
        for _ in range(RUNS):
            start = time.perf_counter()
            subprocess.run([PROGRAM, "check", name], stdout=subprocess.DEVNULL, check=True)
            times.append(time.perf_counter() - start)
    return min(times)


def main():
    seed = int(sys.argv[1]) if len(sys.argv) > 1 else 1
    half = seconds(account_file(seed, MOST_ACCOUNTS // 2))
    whole = seconds(account_file(seed, MOST_ACCOUNTS))
    ratio = whole / half
    print(f"seed {seed}")
    print(f"{MOST_ACCOUNTS // 2} accounts: {half:.3f} s")
    print(f"{MOST_ACCOUNTS} accounts: {whole:.3f} s")
    print(f"ratio {ratio:.2f} (at most {MOST_RATIO})")
    return 0 if ratio <= MOST_RATIO else 1


if __name__ == "__main__":
    sys.exit(main())
