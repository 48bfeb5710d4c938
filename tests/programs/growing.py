"""Runs FreeRADIUS with the files of examples/growing in front of four `radlimitd` of 1,200 accounts in all, and has eight
access servers log in and out all the time, each of whose requests is sent again until it is answered.

Each home is killed in turn and comes back, and FreeRADIUS once, while a file waits. One home stays away, and meanwhile an
access server starts again. No account ever runs more sessions than it has places. Once all is answered, the homes hold
those sessions whose Start was answered and whose Stop was not sent, each at the home of its account, and no other. Then
the four homes become eight by the steps of docs/GROWING.md, while customers come and go, and the sessions are compared
again. At last all end, and nothing is held.

With --filled ACCOUNTS, which is run by hand, these log in once each, two homes are killed, and four become eight.

usage: python3 -m tests.programs.growing [--filled ACCOUNTS] [SEED]        1 if not given
It wants Linux, the built program, and Debian's package freeradius.
"""

import contextlib
import hashlib
import os
import random
import shutil
import subprocess
import sys
import tempfile
import time

from tests.lib import proxied, served

ACCOUNTS = 1200
# names whose MD5 depends on how small letters are made, or on how a character is written
ODD = ["Nemo", "ISHMAEL@Isp.Example", 'quo"te', "back\\slash", "per%cent", "%{User-Name}", "$dollar", "`tick'", "~\\n"]
ODD += ["CORP\\Nemo", "CORP\\tom", "a\\\\b", "a\\101b", "&User-Name", "0xAvier", "0x12"]
DOWN = 1.0  # seconds that a killed home is away
READ = "accounts read anew"  # what a home says then
LONG = 900  # seconds that a start may take where many accounts are filled
OLD, NEW = ([f"home{number}" for number in numbers] for numbers in (range(4), range(4, 8)))


class Grown:
    """Homes behind a FreeRADIUS, and access servers before it."""

    def __init__(self, folder, accounts, rng):
        self.folder, self.homes_folder, self.rng = folder, os.path.join(folder, "homes"), rng
        names = [f"c{number:05}" for number in range(accounts - len(ODD))] + ODD
        self.places = {name: rng.randint(1, 3) for name in names}
        self.port = int(served.free_ports()[0])
        while self.port % 2 or self.port + 1 in served.udp_sockets():
            self.port = int(served.free_ports()[0])
        self.map, self.next_map = (self.chart(name) for name in ("map", "map-of-eight"))
        self.list = os.path.join(folder, "list.toml")
        with open(self.list, "w", encoding="utf-8") as file:
            client = f'\n[[client]]\naddress = "127.0.0.1"\nsecret = "{proxied.HOME_SECRET}"\nsigned = true\n'
            file.write(proxied.HEAD + client + proxied.accounts_toml(self.places))
        self.homes = {}
        for name in OLD + NEW:
            self.homes[name] = proxied.Home(self.homes_folder, name, self.address(name), self.port)
        self.proxy = proxied.Proxy(folder, served.free_ports())
        self.load = proxied.Load("127.0.0.1", self.proxy.ports, self.places, rng)

    @staticmethod
    def address(name):
        """The address of a home."""
        return f"127.0.0.{21 + int(name[4:])}"

    def chart(self, name):
        """A map of the example, with addresses and ports of this machine: its path."""
        path = os.path.join(self.folder, name)
        with open(path, "w", encoding="ascii") as file:
            for line in served.text_of(os.path.join(proxied.EXAMPLES, name)).splitlines():
                home = line.split()[0]
                file.write(f"{home} {self.address(home)} {self.port}\n" if "192.0.2." in line else f"{line}\n")
        return path

    @staticmethod
    def home_of(name):
        """The home of an account among eight."""
        digit = int(hashlib.md5(name.lower().encode()).hexdigest()[0], 16)
        return f"home{digit // 4 + 4 * (digit % 4 // 2)}"

    def split(self, chart, homes, *words):
        """Has radlimit-split write account files: its status, and what it says of each home."""
        chosen = [word for name in homes for word in ("--home", name)]
        words = ["accounts", "--homes", self.homes_folder, "--program", served.DAEMON, *words, *chosen, chart, self.list]
        run = subprocess.run([*proxied.SPLIT, *words], capture_output=True, text=True, check=False)
        return run.returncode, run.stdout.splitlines() + run.stderr.splitlines()

    def start(self):
        """Starts four homes and FreeRADIUS: whether all have come up."""
        status, said = self.split(self.map, OLD, "--no-reload")
        print("\n".join(said), flush=True)
        self.proxy.write(self.map)
        for name in OLD:
            self.homes[name].begin()
        return status == 0 and self.wait(OLD) and self.proxy.start()

    def wait(self, names):
        """Waits until homes are up, while customers come and go: whether they are."""
        until = time.monotonic() + proxied.WAIT
        while time.monotonic() < until and all(self.homes[name].process.poll() is None for name in names):
            if all(self.homes[name].is_up() for name in names):
                return True
            self.pass_time(0.3)
        return False

    def pass_time(self, seconds):
        """Lets time pass, while customers come and go if FreeRADIUS is there."""
        if self.proxy.process:
            self.load.run(seconds)
        else:
            time.sleep(seconds)

    def comes(self, is_so):
        """Waits until something is so, while customers come and go: whether that came in time."""
        until = time.monotonic() + proxied.WAIT
        while not is_so():
            if time.monotonic() > until:
                return False
            self.pass_time(0.3)
        return True

    def told_all(self):
        """Waits until homes were told all that waits in files: whether that came in time."""
        return self.comes(lambda: not self.proxy.late())

    def quiet(self):
        """Waits until all is answered and told."""
        if not self.load.quiet():
            return False
        until = time.monotonic() + proxied.WAIT
        while self.proxy.late() and time.monotonic() < until:
            time.sleep(0.3)
        return not self.proxy.late()

    def rows_of_sessions(self, case, names):
        """What homes hold, once nothing is under way."""
        yield f"{case}: all is answered and told", self.quiet(), True
        yield f"{case}: accounts over their places", self.load.over, 0
        found = {name: self.homes[name].sessions() for name in names}
        each = [session for name in names for session in found[name]]
        ran = {(session.account, session.server, session.name) for session in self.load.held}
        may = {(session.account, session.server, session.name) for session in self.load.unknown}
        yield f"{case}: sessions at two homes", len(each) - len(set(each)), 0
        yield f"{case}: answered, and not held", sorted(ran - set(each)), []
        yield f"{case}: held, and not running", sorted(set(each) - ran - may), []
        yield f"{case}: there are some", len(ran) > 100, True
        over = [name for home in names for name, held in self.homes[home].held().items() if held > self.places[name]]
        yield f"{case}: held over its places", over, []
        asked = [line for name in names for line in self.homes[name].lines("refused") if "unknown_account" in line]
        yield f"{case}: asked for an account of another home", asked, []
        print(f"{case}: {self.load.shown()}; {', '.join(f'{name} {len(found[name])}' for name in names)}", flush=True)

    def end(self):
        """Ends all processes."""
        self.proxy.kill()
        for home in self.homes.values():
            home.kill()


def cases_of_a_start(grown):
    """The homes and FreeRADIUS start."""
    is_up = grown.start()
    yield "all are started", is_up, True
    if not is_up:
        sys.exit("growing: they have not started")


def cases_of_kills(grown):
    """Each home is killed, and comes back."""
    load = grown.load
    load.first = list(ODD)
    load.run(proxied.WAIT, until=lambda: load.starts > 200)
    yield "logins are accepted", load.starts > 200, True
    yield "each odd name has come to its home", sorted({*ODD} - load.welcome), []
    for name in OLD:
        yield from cases_of_a_kill(grown, name)
    # FreeRADIUS is killed while it has something to tell
    yield "nothing waits in a file", grown.told_all(), True
    away = grown.homes[OLD[0]]
    away.kill()
    yield "accounting waits in a file", grown.comes(lambda: away.name in grown.proxy.late()), True
    load.run(1)
    grown.proxy.kill()
    yield "it waits still", away.name in grown.proxy.late(), True
    away.begin()
    yield "FreeRADIUS is back", grown.proxy.start(), True
    yield f"{away.name} is back", grown.wait([away.name]), True
    yield from grown.rows_of_sessions("killed in turn", OLD)


def cases_of_a_kill(grown, name):
    """A home is killed, and comes back."""
    load, before = grown.load, grown.load.starts
    grown.homes[name].kill()
    load.run(DOWN)
    began = time.monotonic()
    grown.homes[name].begin()
    yield f"{name} is back", grown.wait([name]), True
    print(f"{name} is back after {time.monotonic() - began:.1f} s: {grown.homes[name].greeting()}", flush=True)
    load.run(proxied.WAIT, until=lambda: load.starts > before + 10)
    yield f"Starts beside a kill of {name}", load.starts > before + 10, True


def cases_of_a_restart(grown):
    """A home stays away, and an access server starts again meanwhile."""
    load, away, server = grown.load, grown.rng.choice(OLD), grown.rng.choice(grown.load.servers)
    own = {row for row in grown.homes[away].sessions() if row[1] == server}
    yield "the home has sessions of the access server", len(own) > 0, True
    grown.homes[away].kill()
    yield "accounting waits in its file", grown.comes(lambda: away in grown.proxy.late()), True
    yield "the Accounting-On is answered", load.restart(server), True
    # most logins are its own now: none of them may come to the home that is away before it is told
    load.servers += [server] * 16

    def held_before():
        now = {(session.account, session.server, session.name) for session in load.held | load.unknown}
        rows = {row for name in OLD if name != away for row in grown.homes[name].sessions()}
        return {row for row in rows if row[1] == server} - now

    grown.comes(lambda: not held_before())
    yield "the homes that are there were told", held_before(), set()
    yield "what the other one has to be told waits", away in grown.proxy.late(), True
    grown.homes[away].begin()
    yield f"{away} is back", grown.wait([away]), True
    yield "it was told", grown.told_all(), True
    yield "it holds none of those from before", own.intersection(grown.homes[away].sessions()), set()
    del load.servers[-16:]
    load.run(2)
    yield from grown.rows_of_sessions(f"restarted while {away} was away", OLD)


def cases_of_moved_customers(grown):
    """Until the new homes are there, no customer who moves is let in: FreeRADIUS runs the new map."""
    load = grown.load
    yield "4: what was under way is answered", load.settle(), True
    load.welcome.clear()
    # each old home has answered what came to it before, since it takes one after the other
    load.run(proxied.WAIT, until=lambda: {*OLD} <= {grown.home_of(name) for name in load.welcome})
    yield "4: customers who stay log in, and none who moves", {grown.home_of(name) for name in load.welcome}, {*OLD}


def copy_state(old, new):
    """Copies logs beside a home that runs."""
    os.makedirs(new.state, 0o700)
    for name in sorted(os.listdir(old.state)):
        if name.startswith("log-"):
            with contextlib.suppress(FileNotFoundError):
                shutil.copy2(os.path.join(old.state, name), new.state)


def cases_of_eight(grown):
    """Four homes become eight, by the steps of docs/GROWING.md."""
    load = grown.load
    yield "1: the account files of the new homes", grown.split(grown.next_map, NEW, "--no-reload")[0], 0
    yield "2: nothing waits in a file", grown.told_all(), True
    began, load.longest = time.monotonic(), 0.0
    grown.proxy.write(grown.next_map)
    load.run(1)
    yield "3: requests are under way", len(load.pending) > 0, True
    yield "3: FreeRADIUS is back, with the new map", grown.proxy.restart(lambda: load.run(0.05)), True
    yield from cases_of_moved_customers(grown)
    for old, new in zip(OLD, NEW):
        copy_state(grown.homes[old], grown.homes[new])
        grown.homes[new].begin()
    yield "6: the new homes are up", grown.wait(NEW), True
    # a reload that takes over five seconds, as of a slow build, is told to have failed, and goes on
    status, said = grown.split(grown.next_map, OLD)
    yield "7: the account files of the old homes", (status == 1, [line.split(":")[0] for line in said]), (False, OLD)
    yield "7: they have read them", grown.comes(lambda: all(grown.homes[name].lines(READ) for name in OLD)), True
    told = [f"{name}: {grown.homes[name].greeting()}" for name in NEW]
    print("\n".join(told + [f"{name}: {(*grown.homes[name].lines(READ), None)[0]}" for name in OLD]), flush=True)
    load.welcome.clear()
    # FreeRADIUS had given up the new homes, and asks each whether it is there
    load.run(proxied.WAIT, until=lambda: {grown.home_of(name) for name in load.welcome} == {*OLD, *NEW})
    yield "customers of each home log in", {grown.home_of(name) for name in load.welcome}, {*OLD, *NEW}
    print(f"moved in {time.monotonic() - began:.1f} s, the longest wait {load.longest:.1f} s", flush=True)
    load.run(3)
    yield from grown.rows_of_sessions("eight homes", OLD + NEW)
    # each session is at the home of its account
    for name in OLD + NEW:
        yield f"those of {name} are its own", {grown.home_of(row[0]) for row in grown.homes[name].sessions()}, {name}


def cases_of_an_end(grown):
    """All sessions end."""
    yield "all sessions end", grown.load.end(), True
    yield "nothing waits in a file", grown.told_all(), True
    yield "nothing is held", [row for name in OLD + NEW for row in grown.homes[name].sessions()], []


def cases_of_a_fill(grown):
    """Each account logs in once."""
    load, began = grown.load, time.monotonic()
    load.first = list(grown.places)
    load.run(proxied.WAIT, until=lambda: not load.first)
    load.quiet()
    seconds = time.monotonic() - began
    answers = load.accepts + load.rejects + load.starts + load.stops
    print(f"filled in {seconds:.0f} s: {answers / seconds:.0f} answers a second; {load.shown()}", flush=True)
    # one is rejected where its home took over six seconds
    yield "each account is answered", load.accepts + load.rejects, len(grown.places)
    yield "each Start is answered", load.starts, load.accepts


def cases_of_two_kills(grown):
    """Two homes are killed under load."""
    for name in OLD[1:3]:
        yield from cases_of_a_kill(grown, name)
    yield from grown.rows_of_sessions("two were killed", OLD)


GATE = cases_of_a_start, cases_of_kills, cases_of_a_restart, cases_of_eight, cases_of_an_end
FILLED = cases_of_a_start, cases_of_a_fill, cases_of_two_kills, cases_of_eight


def main():
    words, accounts, cases_of = sys.argv[1:], ACCOUNTS, GATE
    if words[:1] == ["--filled"] and len(words) > 1 and words[1].isdecimal():
        accounts, cases_of, words = int(words[1]), FILLED, words[2:]
        proxied.WAIT = LONG
    if len(words) > 1 or not all(word.isdecimal() for word in words):
        sys.exit(__doc__)
    began = time.monotonic()
    with tempfile.TemporaryDirectory() as folder:
        grown = Grown(folder, accounts, random.Random(words[0] if words else "1"))
        rows = []
        try:
            for cases in cases_of:
                for row in cases(grown):
                    rows.append(row)
                    if row[1] != row[2]:
                        print(f"{row[0]}: wrong after {time.monotonic() - began:.0f} s", flush=True)
                print(f"{cases.__name__}: {time.monotonic() - began:.0f} s", flush=True)
        finally:
            grown.end()
    served.verdict(rows)


if __name__ == "__main__":
    main()
