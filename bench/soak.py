"""Has `radlimitd run` answer 2,000 requests a second for so many seconds, and kills it all that time, once in some ten
seconds. What was not answered is sent again to the next life, octet for octet. Then all that the part
`killed-server` looks at is looked at: that each answer is in the folder, in its place, as it was answered, and what
`radlimitd lines` prints of each move, by the reader and the books of tests/lib/history.py.

It prints how many requests were answered a second, how long a start took at most, and what was resident in a life at
its end, least and most.

usage: python3 -m bench.soak SECONDS
It wants Linux and the built program.
"""

import os
import random
import sys
import tempfile
import time

from tests.lib import asking, history, served

RATE = 2000  # requests a second
LIFE = (2.0, 18.0)  # seconds that a life serves
ACCOUNTS = 1000
PLACES = 4  # at most, of an account
SERVERS = 64  # access servers, each with a request under way
RECEIVERS = 2  # on each socket


class Soak:
    """One server after another over one folder, and the access servers that ask them at a steady rate."""

    def __init__(self, folder, chance):
        self.chance, self.ports = chance, served.free_ports()
        self.state = os.path.join(folder, "state")
        self.file = served.daemon_file(folder, self.ports, RECEIVERS)
        self.places = [chance.randint(1, PLACES) for _ in range(ACCOUNTS)]
        asking.account_file(folder, self.places)
        self.load = asking.Load(SERVERS, chance, ACCOUNTS)
        self.answered, self.seconds = 0, 0.0
        self.starts, self.resident = [], []

    def live(self, until):
        """A life, until it is killed, and at most until a moment."""
        began = time.monotonic()
        life = served.daemon(self.file)
        said = served.greeting(life, asking.WAIT)
        self.starts.append(time.monotonic() - began)
        asked = time.monotonic()
        self.answered += self.load.ask(self.ports, min(until, asked + self.chance.uniform(*LIFE)), RATE)
        self.seconds += time.monotonic() - asked
        if life.poll() is None:
            self.resident.append(served.resident(life))
        status = life.poll()
        life.kill()
        said += life.communicate()[1].decode()
        if status is not None or served.but_refusals(said).count("\n") > 1:
            sys.exit(f"a life has status {status}, and says: {said}")

    def report(self, found):
        """Prints what was measured."""
        told = f"{found.answers:,} answers, {found.moves:,} moves, {found.sessions} sessions"
        print(f"{len(self.starts)} lives, {told}: all as counted")
        print(f"{self.answered / self.seconds:,.0f} answers a second of {RATE:,} asked for")
        print(f"the longest start: {max(self.starts):.2f} s; the first: {self.starts[0]:.2f} s")
        print(f"resident at the end of a life: {min(self.resident):,} to {max(self.resident):,} octets")
        sizes = list(map(os.path.getsize, history.logs(self.state)))
        print(f"{len(sizes)} logs of {sum(sizes):,} octets")


def main():
    if len(sys.argv) != 2 or not sys.argv[1].isdigit() or sys.argv[1] == "0":
        sys.exit(__doc__)
    with tempfile.TemporaryDirectory() as folder:
        soak = Soak(folder, random.Random(1))
        until = time.monotonic() + int(sys.argv[1])
        while time.monotonic() < until:
            soak.live(until)
        soak.report(asking.check(soak.load.servers, soak.state, soak.places))


if __name__ == "__main__":
    main()
