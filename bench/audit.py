"""Times the audit of a record of 1,000,000 lines over 16,384 accounts in two segments, and of one of half as many.

The program bench_time makes the record and audits it; what making alone takes is taken off. Twice the lines
should take twice the time: the ratio must be at most 2.2. Each is run five times, and the least time counts.
What an audit takes of memory beside the record is the difference of the greatest resident sizes.

usage: python3 -m bench.audit [LINES]
"""

import os
import subprocess
import sys
import time

from tools.build.programs import path_of

RUNS = 5
MOST_RATIO = 2.2
ACCOUNTS = 16_384


PROGRAM = path_of("bench_time")

HEAD = """version = 1
shards = 1
reserve_secs = 60
live_secs = 900
grace_secs = 900
closed_secs = 3600
keep_secs = 10

[[client]]
address = "192.168.1.16"
secret = "xyzzy5461"
"""


def account_file():
    """A file of so many accounts with a place each."""
    accounts = (
        f'\n[[account]]\nname = "user{number}"\npassword = "pw"\nplaces = 1\nports = 1\n'
        for number in range(ACCOUNTS)
    )
    return (HEAD + "".join(accounts)).encode()


def run(work, lines, text):
    """The time of a run in seconds, its greatest resident size in MB, and what it prints."""
    start = time.perf_counter()
    child = subprocess.Popen([PROGRAM, work, str(lines)], stdin=subprocess.PIPE, stdout=subprocess.PIPE)
    child.stdin.write(text)
    child.stdin.close()
    printed = child.stdout.read().decode().strip()
    _, status, usage = os.wait4(child.pid, 0)
    if status != 0:
        sys.exit(f"{work} {lines}: status {status}")
    return time.perf_counter() - start, usage.ru_maxrss / 1024, printed


def least(work, lines, text, wanted):
    """The least time of some runs, and the greatest size of the last one."""
    times = []
    for _ in range(RUNS):
        seconds, size, printed = run(work, lines, text)
        if printed != wanted:
            sys.exit(f"{work} {lines}: printed {printed}")
        times.append(seconds)
    return min(times), size


def audited(lines, text):
    """What an audit takes beside the making of its record."""
    making, made_size = least("record", lines, text, "2 segments")
    whole, size = least("audit", lines, text, "Ok(())")
    made = f"made in {making:.3f} s and {made_size:.0f} MB"
    print(f"{lines:,} lines: {made}, audited in {whole - making:.3f} s and {size - made_size:.0f} MB more")
    return whole - making


def main():
    lines = int(sys.argv[1]) if len(sys.argv) > 1 else 1_000_000
    text = account_file()
    half = audited(lines // 2, text)
    whole = audited(lines, text)
    ratio = whole / half
    print(f"ratio {ratio:.2f} (at most {MOST_RATIO})")
    return 0 if ratio <= MOST_RATIO else 1


if __name__ == "__main__":
    sys.exit(main())
