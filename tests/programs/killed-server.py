"""Has `radlimitd run` answer a load of asks, Starts, Interim-Updates and Stops over 1,000 accounts, and kills it, as
many times as one asks for. What was not answered is sent again to the next life, octet for octet. Most accounts count
by stations, and half of the packets name a device, so that links yield to devices that dial again.

Then the files of its folder and of its archive are read by a reader written apart from the server, from docs/FOLDER.md
alone, and counted by a book written apart, from docs/SESSION-RULE.md alone (tests/lib/history.py):

  every packet that was answered is in them, and those of each access server in the order in which it was answered
  what `radlimitd lines` prints of each move is the move, and the decision that the book comes to
  each ask was answered with the decision of its line, by every life that answered it
  the books of each snapshot have the links, with their stations and moments, and the accept numbers of the book
  no account holds more than its places after any move
  what one more life says at its start is what the book has
  a link yielded to an ask of its station at least once in three lives

usage: python3 -m tests.programs.killed-server [--sync POLICY] [LIVES]

LIVES is 300 if it is not given. Without a policy the lives take turns with all three.
It wants Linux and the built program.
"""

import itertools
import os
import random
import sys
import tempfile
import time

from tests.lib import asking, served

LIVES = 300
YOUNG, LIFE = (0.0, 0.1), (0.02, 0.5)  # seconds after which a life is killed: from its first one on, or once it serves
ACCOUNTS = 1000
PLACES = 4  # at most, of an account
SERVERS = 32  # access servers, each with a request under way
RECEIVERS = 2  # on each socket
SELDOM = 3  # lives in which a link yields to its station at least once


class Lives:
    """One server after another over one folder, and the access servers that ask them."""

    def __init__(self, folder, policies, chance):
        self.folder, self.chance = folder, chance
        self.policies = itertools.cycle(policies)
        self.ports = served.free_ports()
        self.state = os.path.join(folder, "state")
        self.places = [chance.randint(1, PLACES) for _ in range(ACCOUNTS)]
        asking.account_file(folder, self.places)
        self.load = asking.Load(SERVERS, chance, ACCOUNTS)

    def begin(self):
        """A life of the next policy, which has begun."""
        file = served.daemon_file(self.folder, self.ports, RECEIVERS, next(self.policies))
        return served.daemon(file)

    def live(self):
        """A life, until it is killed: one of four before it may serve."""
        life, said = self.begin(), ""
        if self.chance.randrange(4) == 0:
            time.sleep(self.chance.uniform(*YOUNG))
        else:
            said = served.greeting(life, asking.WAIT)
            self.load.ask(self.ports, time.monotonic() + self.chance.uniform(*LIFE))
        status = life.poll()
        life.kill()
        said += life.communicate()[1].decode()
        if status is not None or served.but_refusals(served.but_first_lines(said)).count("\n") > 1:
            sys.exit(f"a life has status {status}, and says: {said}")

    def last(self):
        """How many sessions one more life says that it found."""
        life = self.begin()
        said = served.greeting(life, asking.WAIT)
        life.kill()
        life.communicate()
        found = served.GREETING.match(said)
        return int(found[1]) if found else sys.exit(f"the last life says: {said}")


def main():
    words, policies = sys.argv[1:], served.POLICIES
    if words[:1] == ["--sync"] and words[1:2] and words[1] in served.POLICIES:
        words, policies = words[2:], words[1:2]
    match words:
        case []:
            count = LIVES
        case [word] if word.isdigit():
            count = int(word)
        case _:
            sys.exit(__doc__)
    with tempfile.TemporaryDirectory() as folder:
        lives = Lives(folder, policies, random.Random(1))
        for _ in range(count):
            lives.live()
        sessions = lives.last()
        found = asking.check(lives.load.servers, lives.state, lives.places)
    if sessions != found.sessions:
        sys.exit(f"the last life found {sessions} sessions, and the books here have {found.sessions}")
    told = f"{found.answers} answers, {found.moves} moves, {found.yielded} asks that a link of their station yielded to"
    if found.yielded < count // SELDOM:
        sys.exit(f"of {told}: those are too few")
    print(f"{count} lives, {told}, {sessions} sessions: all as counted")
    print(f"{count} passed, 0 failed")


if __name__ == "__main__":
    main()
