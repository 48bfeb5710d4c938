"""Measures how long an answer waits where `radlimitd run` goes from one generation to the next: with 16,384 accounts of
one place that each hold a session, under a flood of Interim-Updates, by which a generation is full after 1,000,000
moves. Beside the flood one more access server asks, a request after the other, and each wait is timed.

Of the waits those are told apart that fell into a roll: from when the file of the next generation appears until the one
before it is in the archive. It ends with 1 where one of these took more than 50 ms.

usage: python3 -m bench.roll [--state FOLDER] [ROLLS]        3 rolls if not given
The folder that is synced stands in the system's folder of temporary files, or in FOLDER: in /dev/shm there is no disk.
It wants Linux, a C compiler and the built program.
"""

import argparse
import os
import sys
import tempfile
import threading
import time

from tests.lib import flooded, served

MOVES = 1_000_000  # of a generation
MOST = 50.0  # ms that an answer may wait for a roll
SECONDS = 600  # that the flood may take


class Rolls(threading.Thread):
    """Looks when each next generation appears in a folder, and when the one before it is in the archive."""

    def __init__(self, state):
        super().__init__(daemon=True)
        self.state, self.spans, self.is_over = state, [], False

    def run(self):
        number = 1
        while not self.is_over:
            if os.path.exists(os.path.join(self.state, f"log-{number + 1}")):
                began = time.monotonic()
                while not os.path.exists(os.path.join(self.state, "archive", f"log-{number}")) and not self.is_over:
                    time.sleep(0.0002)
                self.spans.append((began, time.monotonic()))
                number += 1
            time.sleep(0.0002)


def largest(folder):
    """The octets of the largest file of a folder."""
    return max(os.path.getsize(os.path.join(folder, name)) for name in os.listdir(folder))


def measured(folder, tool, rolls):
    """The waits of an access server while a server rolls so many times, and the spans of the rolls."""
    state = os.path.join(folder, "state")
    flooded.account_file(folder)
    ports = served.free_ports()
    server = served.daemon(served.daemon_file(folder, ports, flooded.RECEIVERS))
    try:
        print(served.greeting(server, flooded.WAIT).strip())
        print(f"{flooded.opened(tool, ports)} sessions")
        seen, asker = Rolls(state), flooded.Asker(ports)
        seen.start()
        asker.start()
        found = flooded.loaded(tool, "acct-interim", ports, rolls * MOVES + MOVES // 10, SECONDS, "-g", "flood")
        seen.is_over = True
        asker.end()
        seen.join()
        print(f"{found['answered']} Interim-Updates answered, {found['answered'] / found['wall_s']:.0f} a second")
        print(f"the largest generation has {largest(os.path.join(state, 'archive'))} octets")
    finally:
        server.kill()
        said = served.but_refusals(server.communicate()[1].decode())
    if said:
        print(f"the server says: {said}")
    return asker, seen.spans


def main():
    parser = argparse.ArgumentParser(usage="python3 -m bench.roll [--state FOLDER] [ROLLS]")
    parser.add_argument("--state")
    parser.add_argument("rolls", nargs="?", type=int, default=3)
    given = parser.parse_args()
    with tempfile.TemporaryDirectory() as folder, tempfile.TemporaryDirectory(dir=given.state) as state:
        tool = served.built(folder, "load")
        asker, spans = measured(state, tool, given.rolls)
    within = [asker.within(span) for span in spans]
    others = asker.beside(spans)
    for (began, end), waits in zip(spans, within):
        wait = flooded.longest(waits)
        print(f"a roll of {(end - began) * 1000:.1f} ms: {len(waits)} answers, the longest waited {wait:.1f} ms")
    print(f"{len(others)} other answers, the longest waited {flooded.longest(others):.1f} ms; {asker.lost} lost")
    if len(spans) < given.rolls:
        sys.exit(f"there were {len(spans)} rolls, and not {given.rolls}")
    if any(flooded.longest(waits) > MOST for waits in within):
        sys.exit(f"an answer waited more than {MOST} ms for a roll")


if __name__ == "__main__":
    main()
