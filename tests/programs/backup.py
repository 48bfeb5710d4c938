"""Copies the folder of `radlimitd run` while it answers a load, as docs/OPERATING.md says, starts a server from each
copy, as on another machine, and looks at what that goes on from.

Each answer that was given before a copy began has to be in the copy, in its place, and the server that starts from it
has to have the books of the reader of tests/lib/history.py: it says how many sessions have a place, and writes a
snapshot of them. What was answered after the copy began is in it or not. The server that is copied from is killed now
and then, so that it has several generations.

usage: python3 -m tests.programs.backup [COPIES]        12 if not given
It wants Linux and the built program.
"""

import copy
import os
import random
import re
import subprocess
import sys
import tempfile
import threading
import time

from tests.lib import asking, history, served

COPIES = 12
ACCOUNTS, PLACES = 200, 4
SERVERS = 16  # access servers, each with a request under way
BEFORE, BESIDE = (0.2, 0.8), 1.0  # seconds of asking: before a copy begins, and beside it
RESTART = 3  # copies after which the server is killed
# the step of docs/OPERATING.md, in a shell, from a folder STATE to a folder COPY
STEP = re.compile(r"^(mkdir -m 700 COPY .*)$", re.M)


def step():
    """The step of the document."""
    with open(os.path.join(served.TOP, "docs", "OPERATING.md"), encoding="utf-8") as file:
        found = STEP.findall(file.read())
    return found[0] if len(found) == 1 else sys.exit("backup: docs/OPERATING.md has not one step of a copy")


class Copied:
    """A server that is copied from, and what asks it."""

    def __init__(self, folder, chance):
        self.chance, self.ports = chance, served.free_ports()
        self.state = os.path.join(folder, "state")
        self.file = served.daemon_file(folder, self.ports, 2)
        self.places = [chance.randint(1, PLACES) for _ in range(ACCOUNTS)]
        asking.account_file(folder, self.places)
        self.load = asking.Load(SERVERS, chance, ACCOUNTS)

    def start(self):
        """Starts it."""
        self.process = served.daemon(self.file)
        served.greeting(self.process, asking.WAIT)

    def kill(self):
        """Kills it."""
        self.process.kill()
        self.process.communicate()

    def ask(self, seconds):
        """Asks it for so many seconds."""
        self.load.ask(self.ports, time.monotonic() + seconds)

    def copy(self, target):
        """Copies the folder beside the load, and gives what had been answered before."""
        self.ask(self.chance.uniform(*BEFORE))
        answered = [(server.name, copy.deepcopy(server.answered)) for server in self.load.servers]
        words = step().replace("STATE", self.state).replace("COPY", target)
        done = []
        work = threading.Thread(target=lambda: done.append(subprocess.run(words, shell=True, check=False).returncode))
        work.start()
        self.ask(BESIDE)
        work.join()
        return answered if done == [0] else sys.exit(f"backup: {words} has status {done}")


def read_with(source, state, target):
    """A folder to read a copy in, with the logs that were archived before it was made."""
    os.mkdir(target)
    copied = history.logs(state)
    earlier = [path for path in history.logs(source) if history.number_of(path) < history.number_of(copied[0])]
    for path in (*earlier, *copied):
        os.link(path, os.path.join(target, os.path.basename(path)))
    return target


def first_answers(answered, state, places):
    """That what was answered is in a copy, in its place: how many answers there are, and the books."""
    replay, waiting = history.Replay(state, places), dict(answered)
    for _path, _number, (kind, _moment, account, server, what, _accept, station), decision in replay:
        if server is not None:
            accepted = int(decision.split()[1]) if decision.startswith("accept") else None
            waiting[server[2]].meet(kind, account, what, accepted, station)
    missing = [name for name, answers in answered if not answers.are_met()]
    if missing:
        sys.exit(f"backup: an answer to {missing[0]} is not in a copy, or not in its place")
    return sum(len(answers.digests) for _name, answers in answered), replay.books


def goes_on(folder, books):
    """That a server goes on from a copy: it says how many sessions the books have, and writes a snapshot of them."""
    state = os.path.join(folder, "state")
    before = history.logs(state)
    process = served.daemon(os.path.join(folder, "radlimitd.toml"))
    said = served.greeting(process, asking.WAIT)
    process.kill()
    process.communicate()
    if f": {books.sessions()} sessions" not in said:
        sys.exit(f"backup: a copy has {books.sessions()} sessions, and its server says: {said}")
    (new,) = {os.path.basename(path) for path in history.logs(state)}.difference(map(os.path.basename, before))
    with open(os.path.join(state, new), "rb") as file:
        books.check(history.frames(file.read())[1])


def main():
    match sys.argv[1:]:
        case []:
            copies = COPIES
        case [word] if word.isdigit() and word != "0":
            copies = int(word)
        case _:
            sys.exit(__doc__)
    with tempfile.TemporaryDirectory() as top:
        answers = 0
        os.mkdir(os.path.join(top, "first"))
        server = Copied(os.path.join(top, "first"), random.Random(1))
        server.start()
        for number in range(1, copies + 1):
            folder = os.path.join(top, f"copy-{number}")
            os.mkdir(folder)
            answered = server.copy(os.path.join(folder, "state"))
            served.daemon_file(folder, served.free_ports(), 1)
            asking.account_file(folder, server.places)
            read = read_with(server.state, os.path.join(folder, "state"), os.path.join(folder, "read"))
            answers, books = first_answers(answered, read, server.places)
            goes_on(folder, books)
            if number % RESTART == 0:
                server.kill()
                server.start()
        server.kill()
    print(f"{copies} copies, the last of at least {answers} answers: each server went on from its own as counted")
    print(f"{copies} passed, 0 failed")


if __name__ == "__main__":
    main()
