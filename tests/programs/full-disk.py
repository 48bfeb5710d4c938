"""Has the disk of `radlimitd run` fill up under a load, and looks at what it answers.

While the disk is full nothing is answered. Once it has room again the server goes on by itself. It says one line when
that begins and one when it is over. A server that is killed while the disk is full does not start as long as that
lasts, and says which file has no room; then it starts, and goes on. Where the archive has logs, the oldest of them go, at
a start too, and the server goes on. In the end each answer that was given is in the folder, in its place, as it was
answered (tests/lib/history.py).

The disk is a small one in memory, mounted for this process alone, so that a write is cut off in its middle. Where none
can be mounted, a library that stands before the C library (tests/lib/failing.c) has each write fail.

usage: python3 -m tests.programs.full-disk [--library]        with it, the library also where a disk can be mounted
It wants Linux and the built program, and for the library a C compiler.
"""

import contextlib
import errno
import os
import random
import re
import select
import subprocess
import sys
import tempfile
import time

from tests.lib import asking, history, served

SIZE = "24m"  # of the disk
ARCHIVED, EACH = 8, 1_500_000  # logs of an archive, and octets of each
GONE = 3  # so many of these logs have the 4,000,000 octets that go at a time
REMOVED = re.compile(r"no room on the disk: oldest logs removed from the archive: (\d+), up to log-1-(\d+)\n")
RATE = 1000  # requests a second: what is recorded takes a small part of it
ACCOUNTS, PLACES = 20, 4
SERVERS = 8  # access servers, each with a request under way
BEFORE, QUIET, AFTER = 1.0, 2.5, 2.0  # seconds
MOST = 30  # seconds in which the last room is taken
UNRECORDED = "not recorded, and so not answered: the disk is full or fails, or memory is refused\n"
RECORDED = "recorded again\n"
ALONE = "--alone"  # among the arguments once this process has its own mounts


class Disk:
    """A disk in memory, mounted on a folder."""

    def __init__(self, folder):
        self.filler, self.environment = os.path.join(folder, "filler"), None
        subprocess.run(["mount", "-t", "tmpfs", "-o", f"size={SIZE}", "tmpfs", folder], check=True)

    def fill(self):
        """Takes all the room that it has."""
        with open(self.filler, "wb", buffering=0) as file, contextlib.suppress(OSError):
            while True:
                file.write(bytes(512))

    def empty(self):
        """Gives the room back."""
        os.remove(self.filler)


class Library:
    """The same of a disk of which each write fails."""

    def __init__(self, folder):
        self.filler = os.path.join(folder, "full")
        library = served.built(folder, "failing", "-shared", "-fPIC")
        self.environment = os.environ | {
            "LD_PRELOAD": library, "CALL": "pwrite", "NTH": "0", "ERROR": str(errno.ENOSPC), "PORT": "0",
            "WHILE": self.filler,
        }

    def fill(self):
        """Has each write fail."""
        with open(self.filler, "wb"):
            pass

    def empty(self):
        """Has each write succeed."""
        os.remove(self.filler)


class Server:
    """A server whose folder is on a disk, and what asks it."""

    def __init__(self, disk, folder):
        chance = random.Random(1)
        self.disk, self.ports = disk, served.free_ports()
        self.state, self.aside = os.path.join(folder, "state"), os.path.join(folder, "aside")
        self.file = served.daemon_file(folder, self.ports, 2)
        self.places = [chance.randint(1, PLACES) for _ in range(ACCOUNTS)]
        asking.account_file(folder, self.places)
        self.load = asking.Load(SERVERS, chance, ACCOUNTS)

    def start(self):
        """Starts it: what it says."""
        self.process = served.daemon(self.file, self.disk.environment)
        return served.greeting(self.process, asking.WAIT)

    def ask(self, seconds):
        """Asks it for so many seconds: how many answers came."""
        return self.load.ask(self.ports, time.monotonic() + seconds, RATE)

    def ready(self):
        """What it says to whether it is ready, and the status of that."""
        printed, said, status = served.asked("ready", self.file)
        return printed + said, status

    def said(self):
        """What it says besides, up to now, but for what it refused."""
        found, stream = b"", self.process.stderr.fileno()
        while select.select([stream], [], [], 0)[0] and (more := os.read(stream, 4096)):
            found += more
        return served.but_refusals(found.decode())

    def fill(self):
        """Fills the disk: whether the answers end within some seconds. What fits into the last room is recorded."""
        self.disk.fill()
        until = time.monotonic() + MOST
        while time.monotonic() < until:
            if not self.ask(QUIET):
                return True
        return False

    def end(self):
        """Kills it: what it said besides, and the status of one that had ended before."""
        status = self.process.poll()
        self.process.kill()
        self.process.wait()
        return self.said(), status


def put_aside(server):
    """Takes the logs out of the archive, which a full disk would have removed."""
    os.rename(os.path.join(server.state, "archive"), server.aside)


def put_back(server):
    """Puts them into the archive again."""
    folder = os.path.join(server.state, "archive")
    os.makedirs(folder, 0o700, exist_ok=True)
    for name in os.listdir(server.aside):
        os.rename(os.path.join(server.aside, name), os.path.join(folder, name))


def archive(server):
    """Puts logs of a folder of before into the archive."""
    folder = os.path.join(server.state, "archive")
    os.makedirs(folder, 0o700, exist_ok=True)
    for number in range(1, ARCHIVED + 1):
        with open(os.path.join(folder, f"log-1-{number}"), "wb") as file:
            file.write(bytes(EACH))


def archived(server):
    """The numbers of these logs that are left."""
    names = os.listdir(os.path.join(server.state, "archive"))
    return sorted(int(found[2]) for name in names if (found := history.FORMER_LOG.fullmatch(name)))


def gone(said):
    """The number of the newest log that left the archive, by the lines that say it, and of how many logs they say so."""
    lines = said.splitlines(keepends=True)
    found = [REMOVED.fullmatch(line) for line in lines]
    if not found or not all(found):
        return None, said
    return int(found[-1][2]), sum(int(each[1]) for each in found)


def filled(server):
    """Fills the disk, and asks for a while: whether answers came, the newest log that left the archive with the number of
    those that did, and the first that is left."""
    server.disk.fill()
    answers = server.ask(QUIET)
    newest, logs = gone(server.said())
    server.disk.empty()
    return answers > 0, newest, logs, archived(server)[0]


def results_with_an_archive(server):
    """What is found where the archive has room to give, and what should be. As many logs go as have 4,000,000 octets, or
    twice as many where the room was taken before the server tried again."""
    server.start()
    yield "an archive: it answers", server.ask(BEFORE) > 0, True
    archive(server)
    answers, newest, logs, left = filled(server)
    yield "an archive: it goes on answering", answers, True
    yield "an archive: the oldest logs go", (newest in (GONE, 2 * GONE), logs), (True, newest)
    yield "an archive: the others stay", left, (newest or 0) + 1
    yield "an archive: it is ready", server.ready(), ("ok\n", 0)
    archive(server)
    server.disk.fill()
    server.end()
    newest, logs = gone(server.start())
    yield "an archive: a start finds room there", (newest, logs), (GONE, GONE)
    found = served.found_line(server.process)
    yield "an archive: and goes on", found.startswith("generation "), True
    yield "an archive: it answers then", server.ask(BEFORE) > 0, True
    server.disk.empty()
    # on a slow machine it may want room once more meanwhile, and then says so
    newest, _ = gone(server.said())
    yield "an archive: the others stay then", archived(server), list(range((newest or GONE) + 1, ARCHIVED + 1))
    server.end()
    for number in archived(server):
        os.remove(os.path.join(server.state, "archive", f"log-1-{number}"))


def results(server):
    """What is found, and what should be."""
    server.start()
    yield "it answers", server.ask(BEFORE) > 0, True
    yield "the disk fills up: answers end", server.fill(), True
    yield "it says so, once", server.said(), UNRECORDED
    yield "it is not ready", server.ready(), ("not ready: not recording\n", 1)
    yield "it answers nothing while it is full", server.ask(QUIET), 0
    yield "and says nothing more", server.said(), ""
    server.disk.empty()
    yield "it goes on by itself", server.ask(AFTER) > 0, True
    yield "it is ready", server.ready(), ("ok\n", 0)
    yield "it says that it is over, once", server.end(), (RECORDED, None)
    server.start()
    yield "it goes on in another life", server.ask(BEFORE) > 0, True
    put_aside(server)
    yield "the disk fills up again", server.fill(), True
    server.end()
    name = f"log-{1 + history.number_of(history.logs(server.state)[-1])}"
    yield "it does not start on a full disk", server.start(), f"{name}: no room on the disk\n"
    yield "and ends so", server.process.wait(asking.WAIT), 2
    server.disk.empty()
    said = server.start()
    yield "it starts once there is room", said.startswith("generation 2: "), True
    yield "and answers", server.ask(AFTER) > 0, True
    yield "and says nothing more then", server.end(), ("", None)
    put_back(server)


def main():
    words = [word for word in sys.argv[1:] if word != ALONE]
    if words not in ([], ["--library"]):
        sys.exit(__doc__)
    can_mount = subprocess.run(
        ["unshare", "-m", "mount", "-t", "tmpfs", "tmpfs", "/mnt"], stderr=subprocess.DEVNULL, check=False
    ).returncode == 0
    if can_mount and not words and ALONE not in sys.argv:
        os.execvp("unshare", ["unshare", "-m", sys.executable, "-m", __spec__.name, ALONE])
    with tempfile.TemporaryDirectory() as folder:
        disk = Library(folder) if words or not can_mount else Disk(folder)
        server = Server(disk, folder)
        found = list(results(server))
        if not disk.environment:
            found += results_with_an_archive(server)
        checked = asking.check(server.load.servers, server.state, server.places)
        print(f"{checked.answers} answers, all of them recorded")
        if ALONE in sys.argv:
            subprocess.run(["umount", "-l", folder], check=True)
    served.verdict(found)


if __name__ == "__main__":
    main()
