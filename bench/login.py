"""Counts what a login costs a running `radlimit serve`. It takes no times: counts are the same on any machine and
beside any other work, so they tell two programs apart that `bench/serve.py` can't.

Instructions: the server runs under valgrind's callgrind, and bench/load.c sends LOGINS Access-Requests over
4,000 accounts of 32 places, each once the one before was accepted. Counted is what their receiver does, without the
server's start, ticks and end. It prints instructions a login, those of each crate, and the functions that execute most,
themselves and without what they call; an inlined function counts as the one that calls it. An account's first logins
cost more than others, so only runs of as many logins compare.

Lines of memory, of 64 octets: the server runs under valgrind's lackey, which writes down each access, with no tick
meanwhile (bench/tickless.c) and the other receiver ended. Of 64 accounts, asked for in turn, each has 20 places reserved
first. Of the lines that a login touches then it prints how many a login of the same account touched last, how many one
of another account since (among these is what all touch), and how many none did; how many lines of code it runs through;
and of the first those of each function, the C library's as those of the function that calls it.

It fails where a request was not answered as it has to be, or the server's own counts and report do not add up.

usage: python3 -m bench.login [--signed | --cycles | --daemon | --reply | --station] [LOGINS]        100,000 if not given

With --signed each request has a Message-Authenticator. With --cycles a Start, an Interim-Update and a Stop follow each
login, and it counts the instructions of these three, a request, and no lines. With --daemon it counts the instructions
of a login and of a reject of `radlimitd`, 64 in flight, and no lines: all that a receiver does outside of the system,
its share of the log among it. With --reply it counts those of a login of `radlimitd` under version 3 of the account file,
and takes its processor time, that of the system among it, without valgrind: of accounts that have nothing of their own,
and of accounts whose profile has ten attributes. And it says what is resident with 16,384 accounts, without profiles and
with four. With --station it counts those of a login of `radlimitd` whose requests have no station, of accounts that do not
count by stations, and of ones that do: each time of a device that holds no link, and mostly of a device that dials again.
It wants Linux, a C compiler, valgrind and the built programs, and takes two to five minutes.
"""

import argparse
import bisect
import collections
import glob
import os
import re
import socket
import subprocess
import tempfile
import threading
import time

from tests.lib import served

SECRET, PASSWORD = b"testing123", b"pw-common"
LOGINS, ACCOUNTS, PLACES = 100_000, 4_000, 32
FEW_ACCOUNTS, RESERVED, ROUNDS = 64, 20, 8
# the turns that a receiver may take in vain, each of a second, while the server is made ready
IDLE_TURNS = 60
SHOWN = 20
LINE = 64
OWN, RECENT, HOT, NEW = "its account", "another account since", "the login before", "none in this round"
RECEIVER = "rsl_serve::server::Server::run_receiver::*"
# of `radlimitd` each worker does its job in this function, and the one with the most instructions is the receiver
WORKER = "rld_serve::server::Server::work::*"
FLIGHT = 64
LONG_SECRET = b"testing-on-this-machine"
# of a login with --station: how the accounts count, and the devices of each, which come in turn
STATIONS = (
    ("without a station", "", 0), ("of an account that counts by none", "", 32),
    ("of another device", "station = true\n", 32),
    ("of a device that dials again", "station = true\n", 4),
)
MANY_ACCOUNTS, SECONDS = 16_384, 60
TEN = """Framed-IP-Netmask = 255.255.255.255
Framed-Pool = "gold"
Filter-Id = "gold"
Framed-MTU = 1492
Session-Timeout = 86400
Mikrotik-Rate-Limit = "10M/2M"
Mikrotik-Address-List = "gold"
Cisco-AVPair = "ip:addr-pool=gold"
WISPr-Bandwidth-Max-Down = 10000000
WISPr-Bandwidth-Max-Up = 2000000""".splitlines()
CALLGRIND = ["--tool=callgrind", "--separate-threads=yes", "--compress-strings=no", f"--toggle-collect={RECEIVER}"]
LACKEY = ["--tool=lackey", "--trace-mem=yes"]


class Watched(served.Server):
    """A server that a tool of valgrind's watches. What the tool writes is given to a reader, line by line."""

    def __init__(self, folder, tool, accounts, turns, reader=None, environment=None):
        self.tool, self.reader = tool, reader or (lambda lines: collections.deque(lines, 0))
        entries = [(f"u{number:06}", PASSWORD, PLACES, 1) for number in range(1, accounts + 1)]
        file = os.path.join(folder, "accounts.toml")
        # nothing lapses, however slow the server is
        served.account_file(file, [(served.HOST, SECRET, False)], entries, shards=4, reserve=86_400, keep=86_400)
        super().__init__(file, turns + IDLE_TURNS, environment)

    def start(self, file, turns, environment):
        """Starts the process, and waits until it has its sockets."""
        words = ["valgrind", *self.tool, served.PROGRAM, "serve", file, served.HOST, *self.ports, str(turns)]
        streams = {"stdin": subprocess.DEVNULL, "stdout": self.outputs[0], "stderr": subprocess.PIPE}
        self.process = subprocess.Popen(words, **streams, env=environment)
        self.log = threading.Thread(target=self.reader, args=[self.process.stderr], daemon=True)
        self.log.start()
        while self.process.poll() is None and not served.are_bound(self.ports):
            time.sleep(0.01)

    def load(self, folder, mode, total, accounts, others):
        """Sends requests, one in flight, and gives the numbers that the generator prints."""
        words = [os.path.join(folder, "load"), mode, "-a", self.ports[0], "-c", self.ports[1], "-t", str(total)]
        words += ["-n", str(accounts), "-w", "1", "-S", "1", "-d", "86400", "-o", "600000", "-r", "0"]
        words += ["-s", SECRET, "-p", PASSWORD, *others]
        done = subprocess.run(words, stdout=subprocess.PIPE, text=True, check=True)
        return {name: int(value) for name, value in re.findall(r"(\w+)=(\d+)(?=\s)", done.stdout)}

    def use_up(self, port):
        """Has a port's receiver take all the turns that are left, by empty datagrams, which it drops."""
        with socket.socket(socket.AF_INET, socket.SOCK_DGRAM) as one:
            while self.process.poll() is None and served.are_bound([port]):
                if served.udp_sockets().get(int(port), (1, 0))[0] == 0:
                    for _ in range(64):
                        one.sendto(b"", (served.HOST, int(port)))
                time.sleep(0.001)

    def judged(self, found, logins, others):
        """Waits for the server's end: whether what the generator and the server say is as it has to be."""
        status, stdout, _ = self.ended(600)
        self.log.join()
        counts = [[int(number) for number in row[1:]] for row in served.COUNTS.findall(stdout)]
        dropped = [row[2] for row in counts]
        reserved = sum(int(row.split()[3]) for row in stdout.splitlines() if row.startswith("u0"))
        return [
            ("the server's end", status, 0),
            ("what was accepted and answered", [found["accept"], found["acct_response"]], [logins, others]),
            ("what the server counts", counts, [[n + d, n, d, 0, 0] for n, d in zip([logins, others], dropped)]),
            ("places that stay reserved", reserved, 0 if others else logins),
        ]


def own_counts(path):
    """The instructions that each function executes itself, of a file of callgrind's."""
    counts, function, is_call = collections.Counter(), "", False
    with open(path, encoding="utf-8") as file:
        for row in file:
            if row.startswith("fn="):
                function = row[3:].strip()
            elif row.startswith("calls="):
                is_call = True
            elif row[0].isdigit() or row[0] in "+-*":
                # the row after a call has what the call took
                counts[function] += 0 if is_call else int(row.split()[1])
                is_call = False
    return counts


def crate_of(function):
    """The crate of a function by its name, which has no path where it is the C library's."""
    found = re.search(r"(\w+)::", function)
    return found[1] if found else "the C library"


def shown(counts, requests, most):
    """Prints the greatest of some counts, a request."""
    for name, count in counts.most_common(most):
        print(f"{count / requests:12,.1f}  {name}")


def instructions(folder, given):
    """Counts the instructions of a login, or of what follows it in a cycle."""
    mode, kind, requests = "auth-pap", "a login", given.logins
    if given.cycles:
        mode, kind, requests = "session", "a Start, Interim-Update or Stop", 3 * given.logins
    tool = [*CALLGRIND, f"--callgrind-out-file={folder}/counts"]
    with Watched(folder, tool, ACCOUNTS, requests) as server:
        found = server.load(folder, mode, given.logins, ACCOUNTS, ["-M"] if given.signed else [])
        for port in server.ports:
            server.use_up(port)
        results = server.judged(found, given.logins, requests if given.cycles else 0)
    # there is a file of each thread; the other receiver drops most that it takes, or all
    counts = max(map(own_counts, glob.glob(f"{folder}/counts-*")), key=lambda each: each.total())
    crates = collections.Counter()
    for name, count in counts.items():
        crates[crate_of(name)] += count
    print(f"{counts.total() / requests:,.0f} instructions {kind}, of {requests:,}\n\nby crate:")
    shown(crates, requests, None)
    print("\nby function:")
    shown(counts, requests, SHOWN)
    return results


def daemon_instructions(folder, given, kind, password, word):
    """Counts the instructions of a login or of a reject of `radlimitd`."""
    state, ports = tempfile.mkdtemp(dir=folder), served.free_ports()
    entries = [(f"u{number:06}", PASSWORD, PLACES, 1) for number in range(1, ACCOUNTS + 1)]
    accounts = os.path.join(state, "accounts.toml")
    served.account_file(accounts, [(served.HOST, SECRET, False)], entries, shards=4, reserve=86_400, keep=86_400)
    tool = [*CALLGRIND[:-1], f"--toggle-collect={WORKER}", f"--callgrind-out-file={state}/counts"]
    words = ["valgrind", *tool, served.DAEMON, "run", served.daemon_file(state, ports, 1)]
    with subprocess.Popen(words, stdin=subprocess.DEVNULL, stderr=subprocess.DEVNULL) as process:
        while process.poll() is None and not served.are_bound(ports):
            time.sleep(0.01)
        load = [os.path.join(folder, "load"), "auth-pap", "-a", ports[0], "-c", ports[1], "-t", str(given.logins)]
        load += [
            "-n", str(ACCOUNTS), "-w", str(FLIGHT), "-d", "86400", "-o", "600000", "-r", "0", "-s", SECRET, "-p", password
        ]
        done = subprocess.run(load, stdout=subprocess.PIPE, text=True, check=False)
        process.terminate()
    answered = int(re.search(rf"\b{word}=(\d+)", done.stdout)[1])
    counts = max(map(own_counts, glob.glob(f"{state}/counts-*")), key=lambda each: each.total())
    print(f"{counts.total() / given.logins:,.0f} instructions {kind} of radlimitd, of {given.logins:,}\n\nby function:")
    shown(counts, given.logins, SHOWN)
    return [(f"how many were answered as {kind} is", answered, given.logins)]


def reply_files(folder, accounts, places, profiles, keys=""):
    """Writes the files of a `radlimitd` with an account file of version 3, whose head has these keys too, and whose accounts
    have these profiles in turn, of ten attributes each; and gives its file and its ports."""
    path, ports = os.path.join(folder, "accounts.toml"), served.free_ports()
    entries = [(f"u{number:06}", PASSWORD, places, 1) for number in range(1, accounts + 1)]
    served.account_file(path, [(served.HOST, LONG_SECRET, True)], entries, shards=4, reserve=86_400, keep=86_400)
    head, *tables = served.text_of(path).replace("version = 1\n", f"version = 3\n{keys}").split("[[account]]\n")
    for name in profiles:
        head += f"[profile.{name}]\nreply = [" + ", ".join(f"'{text}'" for text in TEN) + "]\n"
    with open(path, "w", encoding="ascii") as file:
        file.write(head)
        for number, table in enumerate(tables):
            named = f'profile = "{profiles[number % len(profiles)]}"\n' if profiles else ""
            file.write(f"[[account]]\n{table}{named}")
    return served.daemon_file(folder, ports, 1), ports


def processor_time(process):
    """The seconds of processor that a process has taken, the system's among them."""
    with open(f"/proc/{process.pid}/stat", encoding="ascii") as file:
        words = file.read().rpartition(")")[2].split()
    return (int(words[11]) + int(words[12])) / os.sysconf("SC_CLK_TCK")


def reply_logins(folder, given, profiles, tool, keys="", devices=0):
    """Logs in at a `radlimitd` whose accounts have these profiles, and so many devices each, under a tool of valgrind's or
    none: how many were accepted, and the processor time of the server meanwhile."""
    file, ports = reply_files(folder, ACCOUNTS, PLACES, profiles, keys)
    with subprocess.Popen(
        [*tool, served.DAEMON, "run", file], stdin=subprocess.DEVNULL, stderr=subprocess.DEVNULL
    ) as process:
        while process.poll() is None and not served.are_bound(ports):
            time.sleep(0.01)
        began = processor_time(process)
        load = [
            os.path.join(folder, "..", "load"), "auth-pap", "-a", ports[0], "-c", ports[1], "-t", str(given.logins), "-M"
        ]
        load += ["-n", str(ACCOUNTS), "-w", str(FLIGHT), "-d", "86400", "-o", "600000", "-r", "0"]
        load += ["-s", LONG_SECRET, "-p", PASSWORD]
        load += ["-D", str(devices)]
        done = subprocess.run(load, stdout=subprocess.PIPE, text=True, check=False)
        seconds = processor_time(process) - began
        process.terminate()
    return int(re.search(r"\baccept=(\d+)", done.stdout)[1]), seconds


def reply_costs(folder, given):
    """What ten attributes cost a login, and four profiles 16,384 accounts."""
    results = []
    for profiles in ([], ["p0"]):
        kind = "with ten attributes" if profiles else "with none"
        with tempfile.TemporaryDirectory(dir=folder) as state:
            tool = [*CALLGRIND[:-1], f"--toggle-collect={WORKER}", f"--callgrind-out-file={state}/counts"]
            accepted, _ = reply_logins(state, given, profiles, ["valgrind", *tool])
            counts = max(map(own_counts, glob.glob(f"{state}/counts-*")), key=lambda each: each.total())
        results.append((f"accepted {kind}, watched", accepted, given.logins))
        with tempfile.TemporaryDirectory(dir=folder) as state:
            accepted, seconds = reply_logins(state, given, profiles, [])
        results.append((f"accepted {kind}", accepted, given.logins))
        print(f"a login {kind}: {counts.total() / given.logins:,.0f} instructions, {1e6 * seconds / given.logins:.2f} us")
    for profiles in ([], [f"p{number}" for number in range(4)]):
        with tempfile.TemporaryDirectory(dir=folder) as state:
            process = served.daemon(reply_files(state, MANY_ACCOUNTS, 1, profiles)[0])
            served.greeting(process, SECONDS)
            print(
                f"{MANY_ACCOUNTS:,} accounts of {len(profiles)} profiles: {served.resident(process) / 1e6:.1f} MB resident"
            )
            process.kill()
            process.communicate()
    return results


def station_costs(folder, given):
    """What a station costs a login."""
    results = []
    for kind, keys, devices in STATIONS:
        with tempfile.TemporaryDirectory(dir=folder) as state:
            tool = [*CALLGRIND[:-1], f"--toggle-collect={WORKER}", f"--callgrind-out-file={state}/counts"]
            accepted, _ = reply_logins(state, given, [], ["valgrind", *tool], keys, devices)
            counts = max(map(own_counts, glob.glob(f"{state}/counts-*")), key=lambda each: each.total())
        results.append((f"accepted {kind}", accepted, given.logins))
        print(f"a login {kind}: {counts.total() / given.logins:,.0f} instructions")
    return results


class Lines:
    """Who touched each line of memory last, by lackey's rows: `I  04001a40,3` of an instruction, and ` L 1ffefffd90,8`
    of what it loads, and the same with S or M of what it stores."""

    def __init__(self):
        self.end = None
        self.kinds, self.places = collections.Counter(), collections.Counter()

    def begin(self, process):
        """Notes where the program lies, and the C library's `sendto`, with which a request ends."""
        places = {}
        with open(f"/proc/{process.pid}/maps", encoding="ascii") as maps:
            for row in maps:
                span, *_, path = row.split()
                places.setdefault(os.path.basename(path), []).append((*(int(one, 16) for one in span.split("-")), path))
        program, library = (places[name] for name in (os.path.basename(served.PROGRAM), "libc.so.6"))
        self.program = range(program[0][0], program[-1][1])
        self.end = library[0][0] + next(at for at, name in functions(library[0][2], "-D") if name.startswith("sendto@"))

    def read(self, rows):
        """Reads the rows. What comes after the last request's end is of no request."""
        request, last, code, kinds, places, place = 0, {}, set(), [], [], 0
        for row in rows:
            if self.end is None or row.startswith(b"="):
                continue
            number, _, octets = row[3:].partition(b",")
            address = int(number, 16)
            if row.startswith(b"I"):
                code.add(address // LINE)
                if address in self.program:
                    place = address
                elif address == self.end:
                    if request >= FEW_ACCOUNTS * RESERVED:
                        self.kinds.update(kinds, code=len(code))
                        self.places.update(places)
                    request, code, kinds, places = request + 1, set(), [], []
                continue
            for line in range(address // LINE, (address + int(octets) - 1) // LINE + 1):
                before = last.get(line)
                if before != request:
                    last[line] = request
                    kinds.append(kind_of(request, before))
                    if kinds[-1] == OWN:
                        places.append(place)

    def owners(self):
        """The lines of its account that a login touches, by function."""
        names = functions(served.PROGRAM)
        found = collections.Counter()
        for place, count in self.places.items():
            found[names[bisect.bisect(names, (place - self.program.start + 1,)) - 1][1]] += count
        return found


def kind_of(request, before):
    """Whose a line is that a request touches, by the one before that touched it."""
    if before is None:
        return NEW
    if (request - before) % FEW_ACCOUNTS == 0:
        return OWN
    return HOT if before == request - 1 else RECENT if before > request - FEW_ACCOUNTS else NEW


def functions(path, *words):
    """Where each function of a file begins, in order, and its name."""
    rows = subprocess.run(["nm", "-C", *words, path], capture_output=True, text=True, check=True).stdout.splitlines()
    words = (row.split(maxsplit=2) for row in rows)
    return sorted((int(at, 16), name) for at, kind, name in (row for row in words if len(row) == 3) if kind in "tTwWi")


def memory(folder, given):
    """Counts the lines of memory that a login touches."""
    requests = FEW_ACCOUNTS * (RESERVED + ROUNDS)
    library = served.built(folder, "tickless", "-shared", "-fPIC")
    lines = Lines()
    environment = {**os.environ, "LD_PRELOAD": library}
    with Watched(folder, LACKEY, FEW_ACCOUNTS, requests, lines.read, environment) as server:
        lines.begin(server.process)
        # the accounting port's receiver touches nothing between logins once it has ended
        server.use_up(server.ports[1])
        found = server.load(folder, "auth-pap", requests, FEW_ACCOUNTS, ["-M"] if given.signed else [])
        server.use_up(server.ports[0])
        results = server.judged(found, requests, 0)
    print("\nlines of memory a login, by who touched them last:")
    shown(lines.kinds, FEW_ACCOUNTS * ROUNDS, None)
    print("\nthose of its account, by function:")
    shown(lines.owners(), FEW_ACCOUNTS * ROUNDS, SHOWN)
    return results


def main():
    parser = argparse.ArgumentParser(
        usage="python3 -m bench.login [--signed | --cycles | --daemon | --reply | --station] [LOGINS]"
    )
    kinds = parser.add_mutually_exclusive_group()
    kinds.add_argument("--signed", action="store_true")
    kinds.add_argument("--cycles", action="store_true")
    kinds.add_argument("--daemon", action="store_true")
    kinds.add_argument("--reply", action="store_true")
    kinds.add_argument("--station", action="store_true")
    parser.add_argument("logins", nargs="?", type=int, default=LOGINS)
    given = parser.parse_args()
    with tempfile.TemporaryDirectory() as folder:
        served.built(folder, "load")
        if given.station:
            results = station_costs(folder, given)
        elif given.reply:
            results = reply_costs(folder, given)
        elif given.daemon:
            results = daemon_instructions(folder, given, "a login", PASSWORD, "accept")
            results += daemon_instructions(folder, given, "a reject", b"another", "reject")
        else:
            results = instructions(folder, given)
        if not (given.cycles or given.daemon or given.reply or given.station):
            results += memory(folder, given)
    served.verdict(results)


main()
