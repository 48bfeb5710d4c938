"""Measures how long `radlimitd sessions` takes where 16,384 accounts hold a session each, idle and under a flood of
Interim-Updates, and how long an answer waits meanwhile. Beside the flood one more access server asks, a request after
the other, and each wait is timed.

It ends with 1 where a list is not whole, an idle one took more than a second, or an answer waited more than 50 ms while a
list was made.

usage: python3 -m bench.listed [--state FOLDER] [LISTS]        10 lists if not given
The folder that is synced stands in the system's folder of temporary files, or in FOLDER: in /dev/shm there is no disk.
It wants Linux, a C compiler and the built program.
"""

import argparse
import subprocess
import sys
import tempfile
import threading
import time

from tests.lib import flooded, served

MOST_SECONDS, MOST_WAIT = 1.0, 50.0  # of a list, and of an answer in ms
UPDATES = 300_000  # of the flood
SECONDS = 600  # that it may take


class Lists(threading.Thread):
    """Asks for all sessions, one list after the other, until it is told to end, or a number of times."""

    def __init__(self, name, most):
        super().__init__(daemon=True)
        self.name_of_file, self.most, self.spans, self.lines, self.is_over = name, most, [], set(), False

    def run(self):
        while not self.is_over and len(self.spans) < self.most:
            began = time.monotonic()
            run = subprocess.run([served.DAEMON, "sessions", self.name_of_file], capture_output=True, check=False)
            self.spans.append((began, time.monotonic()))
            self.lines.add((run.stdout.count(b" live "), run.stdout.count(b"\n"), run.stderr.decode(), run.returncode))

    def longest(self):
        """The seconds that the longest list took."""
        return max((end - began for began, end in self.spans), default=0.0)


def measured(folder, tool, lists):
    """The lists that were made of an idle server and under a flood, the access server that asked beside them, and how
    many sessions there were."""
    flooded.account_file(folder)
    ports = served.free_ports()
    name = served.daemon_file(folder, ports, flooded.RECEIVERS)
    server = served.daemon(name)
    try:
        print(served.greeting(server, flooded.WAIT).strip())
        opened = flooded.opened(tool, ports)
        idle, busy, asker = Lists(name, lists), Lists(name, 1_000_000), flooded.Asker(ports)
        idle.run()
        asker.start()
        busy.start()
        found = flooded.loaded(tool, "acct-interim", ports, UPDATES, SECONDS, "-g", "flood")
        busy.is_over = True
        busy.join()
        asker.end()
        print(f"{found['answered']} Interim-Updates answered, {found['answered'] / found['wall_s']:.0f} a second")
    finally:
        server.kill()
        said = served.but_refusals(server.communicate()[1].decode())
    if said:
        print(f"the server says: {said}")
    return idle, busy, asker, int(opened)


def main():
    parser = argparse.ArgumentParser(usage="python3 -m bench.listed [--state FOLDER] [LISTS]")
    parser.add_argument("--state")
    parser.add_argument("lists", nargs="?", type=int, default=10)
    given = parser.parse_args()
    with tempfile.TemporaryDirectory() as folder, tempfile.TemporaryDirectory(dir=given.state) as state:
        tool = served.built(folder, "load")
        idle, busy, asker, opened = measured(state, tool, given.lists)
    waits = [flooded.longest(asker.within(span)) for span in busy.spans]
    print(f"{len(idle.spans)} lists of {opened} sessions, idle: the longest took {idle.longest():.2f} s")
    print(f"{len(busy.spans)} under the flood: the longest took {busy.longest():.2f} s")
    print(f"an answer waited at most {max(waits, default=0.0):.1f} ms beside a list, and", end=" ")
    print(f"{flooded.longest(asker.beside(busy.spans)):.1f} ms else; {asker.lost} lost")
    whole = {(opened, opened, "", 0)}
    if idle.lines != whole or {line[1:] for line in busy.lines} != {line[1:] for line in whole}:
        sys.exit(f"not {opened} sessions: {sorted(idle.lines | busy.lines)[:5]}")
    if idle.longest() > MOST_SECONDS:
        sys.exit(f"a list took more than {MOST_SECONDS} s")
    if max(waits, default=0.0) > MOST_WAIT:
        sys.exit(f"an answer waited more than {MOST_WAIT} ms beside a list")


if __name__ == "__main__":
    main()
