"""Tries packaging/radlimit-split: by the MD5 digests of RFC 1321, with maps and lists of which each is wrong in one way,
and with `radlimitd check` of the built program. What is refused has its name, status 1, and leaves each file as it was.
Two homes that run are given other accounts.

usage: python3 -m tests.programs.split
It wants Linux and the built program.
"""

import fcntl
import os
import shutil
import signal
import subprocess
import sys
import tempfile
import time
import tomllib

from tests.lib import served

PROGRAM = served.DAEMON
SPLIT = os.path.join(served.TOP, "packaging", "radlimit-split")
EXAMPLES = os.path.join(served.TOP, "examples", "growing")
WAIT = served.patience(120)  # seconds that a start may take

# RFC 1321, A.5: the first digit of the MD5 of these, however their letters are written
DIGITS = {
    "a": "0", "abc": "9", "message digest": "f", "abcdefghijklmnopqrstuvwxyz": "c", "1234567890" * 8: "5", "ABC": "9",
    "Message Digest": "f",
}
# with the map of the example
PLACES = {"0": "home0", "5": "home1", "9": "home2", "c": "home3", "f": "home3"}

HEAD = """version = 2
shards = 2
reserve_secs = 60
live_secs = 900
grace_secs = 900
closed_secs = 3600
keep_secs = 30

[[client]]
address = "127.0.0.1"
secret = "secret-of-freeradius-here"
signed = true
"""
ACCOUNT = '\n[[account]]\nname = "{}"\npassword = "{}"\nplaces = {}\nports = 1\n'
# the last two by md5sum: 6 and e
NAMES = ["a", "abc", "abcdefghijklmnopqrstuvwxyz", "pip", "nemo"]
OWN = {"home0": ["a"], "home1": ["pip"], "home2": ["abc"], "home3": ["abcdefghijklmnopqrstuvwxyz", "nemo"]}
LIST = HEAD + "".join(ACCOUNT.format(name, f"of {name}", number) for number, name in enumerate(NAMES, 1))
LINES = "name\tpassword\tplaces\tports\tsession_timeout\n" + "".join(
    f"{name}\t{number}\t{number}\t1\t{600 if number == 1 else ''}\n" for number, name in enumerate(NAMES, 1)
)
HOMES = [f"home{number}" for number in range(4)]
CHART = "".join(f"{name} 127.0.0.1 {1812 + 2 * number}\n" for number, name in enumerate(HOMES)) + "".join(
    f"{digit} {HOMES[number // 4]}\n" for number, digit in enumerate("0123456789abcdef")
)

# a map that is wrong: what is put in the place of what, and what is said
BAD_MAPS = [
    ("a part is missing", "7 home1\n", "", "map: MissingPart 7"),
    ("a part stands twice", "7 home1\n", "7 home1\n7 home2\n", "map:13: TwicePart 7"),
    ("a part of no home", "7 home1\n", "7 home9\n", "map:12: UnknownHome home9"),
    ("a capital letter", "a home2\n", "A home2\n", "map:15: BadLine"),
    ("two digits", "0 home0\n", "01 home0\n", "map:5: BadLine"),
    ("a word too many", "0 home0\n", "0 home0 home1\n", "map:5: BadLine"),
    ("a word alone", "0 home0\n", "0\n", "map:5: BadLine"),
    ("a home twice", "home1 127.0.0.1 1814\n", "home1 127.0.0.1 1814\nhome1 127.0.0.2\n", "map:3: TwiceHome home1"),
    ("an address twice", "home1 127.0.0.1 1814\n", "home1 127.0.0.1\n", "map:2: TwiceAddress home1"),
    ("no address", "home1 127.0.0.1 1814\n", "home1 host\n", "map:2: BadAddress host"),
    ("an address with zeros", "home1 127.0.0.1 1814\n", "home1 127.0.0.01\n", "map:2: BadAddress 127.0.0.01"),
    ("a port of 0", "home1 127.0.0.1 1814\n", "home1 127.0.0.1 0\n", "map:2: BadPort 0"),
    ("no port above it", "home1 127.0.0.1 1814\n", "home1 127.0.0.1 65535\n", "map:2: BadPort 65535"),
    ("a name that would be a path", "home1 127.0.0.1 1814\n", "../x 127.0.0.1 1814\n", "map:2: BadLine"),
    ("a name that would be syntax", "home1 127.0.0.1 1814\n", "a{b 127.0.0.1 1814\n", "map:2: BadLine"),
]

NAME = '"p p"; it is 1 to 64 visible characters of ASCII'
# a list that is wrong
BAD_LISTS = [
    ("no TOML", "shards = 2\n", "shards\n", "list.toml: NotToml: .."),
    ("a name that is a number", 'name = "abc"', "name = 7", "list.toml: BadName account 2"),
    ("no name", 'name = "abc"\n', "", "list.toml: BadName account 2"),
    ("accounts that are no tables", LIST, "account = 7\n", "list.toml: BadName account 1"),
    ("a name with a space", 'name = "pip"', 'name = "p p"',
     f"list.toml:32: name of account number 1 is {NAME}\nhomes/home1/accounts.toml: CheckFailed home1"),
    ("what only radlimitd knows", "places = 2", "places = 65",
     "list.toml:20: places of account abc is 65; it is 0 to 64\nhomes/home2/accounts.toml: CheckFailed home2"),
    ("an account twice", 'password = "of abc"',
     'password = "p"\nplaces = 1\nports = 1\n[[account]]\nname = "abc"\npassword = "q"',
     'list.toml:25: second account "abc"; the first is list.toml:20\nhomes/home2/accounts.toml: CheckFailed home2'),
    ("a head that is wrong", "shards = 2\n", "",
     "\n".join(f"list.toml: shards is missing\nhomes/{name}/accounts.toml: CheckFailed {name}" for name in HOMES)),
    ("a fault in two homes", LIST, LIST.replace("places = 2", "places = 65").replace("places = 4", "places = 66"),
     "list.toml:32: places of account pip is 66; it is 0 to 64\nhomes/home1/accounts.toml: CheckFailed home1\n"
     "list.toml:20: places of account abc is 65; it is 0 to 64\nhomes/home2/accounts.toml: CheckFailed home2"),
]

# lines that are wrong
BAD_LINES = [
    ("no name among the keys", "name\tpass", "nickname\tpass", "lines:1: BadKeys"),
    ("a key twice", "places\tports", "places\tplaces", "lines:1: BadKeys"),
    ("a key that is no key", "ports\t", "ports]\t", "lines:1: BadKeys"),
    ("a field too many", "abc\t2", "abc\t2\t2", "lines:3: BadLine"),
    ("a number that is text", "abc\t2\t2", "abc\t2\ttwo",
     'lines:3: places of account abc is "two"; it is 0 to 64\nhomes/home2/accounts.toml: CheckFailed home2'),
]


class Trial:
    """A folder with a map, a list and four homes."""

    def __init__(self, folder):
        os.umask(0o077)
        self.folder = folder
        self.put("map", CHART)
        self.put("list.toml", LIST)
        self.put("head.toml", HEAD)
        self.put("lines", LINES)
        for number, name in enumerate(HOMES):
            listen = f'listen = [{{ address = "127.0.0.1", auth = {1812 + 2 * number}, acct = {1813 + 2 * number} }}]\n'
            self.put(f"homes/{name}/radlimitd.toml", f'accounts = "accounts.toml"\nstate = "state"\n{listen}')
            self.put(f"homes/{name}/accounts.toml", f"old {name}\n", 0o640)
        for name in ("clients.conf", "proxy.conf", "sites-enabled/default", "policy.d/eap", "mods-config/files/authorize"):
            self.put(f"raddb/{name}", f"old {name}\n", 0o640)

    def put(self, name, text, mode=0o600):
        """Writes a file."""
        path = os.path.join(self.folder, name)
        os.makedirs(os.path.dirname(path), exist_ok=True)
        with open(path, "w", encoding="utf-8") as file:
            file.write(text)
        os.chmod(path, mode)

    def text_of(self, name):
        """The text of a file."""
        with open(os.path.join(self.folder, name), encoding="utf-8") as file:
            return file.read()

    def files(self):
        """All files, hidden ones too, with their modes and texts."""
        found = {}
        for at, _, names in os.walk(self.folder):
            for name in names:
                path = os.path.join(at, name)
                if os.path.isfile(path):
                    found[os.path.relpath(path, self.folder)] = os.stat(path).st_mode & 0o777, self.text_of(path)
        return found

    def run(self, *words, given=None):
        """What a run says: its status, and both streams."""
        run = subprocess.run(
            [sys.executable, "-B", SPLIT, *words], cwd=self.folder, input=given, capture_output=True, text=True, check=False
        )
        return run.returncode, run.stdout, run.stderr.replace(f"{self.folder}/", "")

    def accounts(self, *words, chart="map", accounts="list.toml", **more):
        """What a run over accounts says."""
        return self.run("accounts", "--homes", "homes", "--program", PROGRAM, *words, chart, accounts, **more)

    def names(self, home):
        """The accounts of a home."""
        return [account["name"] for account in tomllib.loads(self.text_of(f"homes/{home}/accounts.toml")).get("account", [])]

    def refused(self, case, said, *words, **more):
        """Rows of a run over accounts that is refused."""
        before = self.files()
        status, printed, told = self.accounts("--no-reload", *words, **more)
        if said.endswith(".."):
            told = told[: len(said) - 2] + ".."
        else:
            said += "\n"
        yield case, (status, printed, told), (1, "", said)
        yield f"{case}: each file is as it was", self.files(), before


def cases_of_parts(trial):
    """Where accounts are, by digests of RFC 1321."""
    status, printed, _ = trial.run("home", os.path.join(EXAMPLES, "map"), *DIGITS)
    rows = [line.split(" ", 2) for line in printed.splitlines()]
    yield "parts of RFC 1321", (status, rows), (0, [[digit, PLACES[digit], name] for name, digit in DIGITS.items()])


def cases_of_accounts(trial):
    """Account files that are written."""
    before = trial.files()
    told = "".join(f"{name}: {len(OWN[name])} accounts: written\n" for name in HOMES)
    yield "all homes", trial.accounts("--no-reload"), (0, told, "")
    yield "their accounts", {name: trial.names(name) for name in HOMES}, OWN
    whole = tomllib.loads(trial.text_of("homes/home3/accounts.toml"))
    listed = tomllib.loads(LIST)
    yield "nothing else has changed", whole, listed | {"account": [listed["account"][2], listed["account"][4]]}
    after = trial.files()
    yield "no other file", {name for name in after if after[name] != before.get(name)}, {
        f"homes/{name}/accounts.toml" for name in HOMES
    }
    yield "their modes", {after[f"homes/{name}/accounts.toml"][0] for name in HOMES}, {0o640}
    yield "the same again", (trial.accounts("--no-reload"), trial.files()), ((0, told, ""), after)
    odd = LIST.replace('password = "of a"', r'password = "q\"\u007f\U0001F511é"').replace("shards = 2", '"shards" = 2')
    trial.put("odd.toml", odd)
    yield "odd characters", trial.accounts("--no-reload", accounts="odd.toml"), (0, told, "")
    whole = tomllib.loads(trial.text_of("homes/home0/accounts.toml"))
    yield "they are as they were", whole["account"][0], tomllib.loads(odd)["account"][0]
    os.remove(os.path.join(trial.folder, "odd.toml"))
    yield "lines", trial.accounts("--no-reload", "--lines", "lines", accounts="head.toml"), (0, told, "")
    account = tomllib.loads(trial.text_of("homes/home0/accounts.toml"))["account"]
    yield "of a line", account, [{"name": "a", "password": "1", "places": 1, "ports": 1, "session_timeout": 600}]
    account = tomllib.loads(trial.text_of("homes/home2/accounts.toml"))["account"]
    yield "of a line with an empty field", account, [{"name": "abc", "password": "2", "places": 2, "ports": 1}]
    piped = trial.accounts("--no-reload", "--lines", "-", accounts="head.toml", given=LINES.replace("\n", "\r\n"))
    yield "lines of a pipe", piped, (0, told, "")
    trial.put("homes/home1/accounts.toml", "old\n", 0o640)
    os.remove(os.path.join(trial.folder, "homes/home2/accounts.toml"))
    two = trial.accounts("--no-reload", "--home", "home2", "--home", "home3")
    yield "two homes", two, (0, "".join(told.splitlines(True)[2:]), "")
    yield "the others are as they were", trial.text_of("homes/home1/accounts.toml"), "old\n"
    yield "a new one", (trial.files()["homes/home2/accounts.toml"][0], trial.names("home2")), (0o600, ["abc"])


def cases_of_refusals(trial):
    """What is refused."""
    for case, old, new, said in BAD_MAPS:
        trial.put("wrong/map", CHART.replace(old, new, 1))
        yield from trial.refused(case, f"wrong/{said}", chart="wrong/map")
    for case, old, new, said in BAD_LISTS:
        trial.put("wrong/list.toml", LIST.replace(old, new, 1))
        yield from trial.refused(case, said.replace("list.toml", "wrong/list.toml"), accounts="wrong/list.toml")
    for case, old, new, said in BAD_LINES:
        trial.put("wrong/lines", LINES.replace(old, new, 1))
        said = said.replace("lines:", "wrong/lines:")
        yield from trial.refused(case, said, "--lines", "wrong/lines", accounts="head.toml")
    yield from trial.refused("accounts in both", "list.toml: AccountsInBoth", "--lines", "lines")
    yield from trial.refused("a home that the map has not", "map: UnknownHome home7", "--home", "home7")
    yield from trial.refused("no map", "nothing: unreadable", chart="nothing")
    yield from trial.refused("no list", "nothing: unreadable", accounts="nothing")
    path = os.path.join(trial.folder, "wrong", "list.toml")
    trial.put("wrong/list.toml", HEAD)
    os.truncate(path, 67_108_865)
    found = trial.accounts("--no-reload", accounts="wrong/list.toml")
    yield "too long a list", found, (1, "", "wrong/list.toml: too long\n")
    with open(path, "wb") as file:
        file.write(b"# \xff\n")
    run = trial.run("home", "wrong/list.toml", "a")
    yield "a map that is no text", run, (1, "", "wrong/list.toml: NotUtf8\n")
    os.remove(path)
    unknown = "accounts", "-x", "map", "list.toml"
    for words in ((), ("accounts",), ("accounts", "map"), ("home", "map"), ("else", "map"), unknown):
        status, printed, told = trial.run(*words)
        yield f"the words {words}", (status, printed, "usage: radlimit-split accounts" in told), (1, "", True)


def cases_of_homes(trial):
    """Homes that are not as they have to be, and moves that fail in the middle."""
    folder = os.path.join(trial.folder, "homes")
    server = trial.text_of("homes/home1/radlimitd.toml")
    trial.put("homes/home1/radlimitd.toml", server.replace("accounts =", "account ="))
    yield from trial.refused("a server's file without accounts", "homes/home1/radlimitd.toml: Missing accounts")
    trial.put("homes/home1/radlimitd.toml", server.replace("acct", "act"))
    said = "homes/home1/radlimitd.toml: unknown key \"act\" of listen 1\nhomes/home1/accounts.toml: CheckFailed home1"
    yield from trial.refused("a server's file that is wrong", said)
    trial.put("homes/home1/radlimitd.toml", server)
    path = os.path.join(folder, "home3", "accounts.toml")
    os.rename(path, f"{path}.away")
    # a folder in its place: three files have been moved by then
    os.mkdir(path)
    for name in HOMES[:3]:
        trial.put(f"homes/{name}/accounts.toml", f"old {name}\n", 0o640)
    before = trial.files()
    status, printed, told = trial.accounts("--no-reload")
    told = told.rsplit(":", 1)[0]
    yield "the last one cannot be moved", (status, printed, told), (1, "", "homes/home3/accounts.toml: CannotMove")
    yield "the others are as they were", trial.files(), before
    # the same of files that were not there before
    os.remove(os.path.join(folder, "home0", "accounts.toml"))
    before = trial.files()
    yield "the same again, and a new file", trial.accounts("--no-reload")[0], 1
    yield "the new one is not there", trial.files(), before
    os.rmdir(path)
    os.rename(f"{path}.away", path)
    at = os.open(folder, os.O_RDONLY)
    fcntl.flock(at, fcntl.LOCK_EX)
    yield from trial.refused("a second run", "homes: Busy")
    os.close(at)
    words = ["accounts", "--homes", "homes", "--program", "/nowhere", "--no-reload", "map", "list.toml"]
    status, _, told = trial.run(*words)
    yield "no program", (status, told.rsplit(":", 1)[0]), (1, "/nowhere: CannotRun")
    yield "and no homes", trial.run("accounts", "--homes", "none", "map", "list.toml"), (1, "", "none: unreadable\n")


# stands for radlimitd: says in a folder that it has begun, and waits until so many have, or for ever
WAITING = """#!/bin/sh
: > "{folder}/begun.$$"
while [ -d "{folder}" ] && [ "$(ls "{folder}" | grep -c '^begun')" -lt {most} ]; do sleep 0.05; done
"""


def heed_signals():
    """Has a program end by signals also where who runs this ignores them, as a shell does in the background."""
    for number in (signal.SIGINT, signal.SIGHUP):
        signal.signal(number, signal.SIG_DFL)


def cases_of_endings(trial):
    """Runs that are ended leave no file with passwords, and take away what one that was killed has left."""
    folder = tempfile.mkdtemp()
    program = os.path.join(folder, "radlimitd")
    words = [sys.executable, "-B", SPLIT, "accounts", "--homes", "homes", "--no-reload", "--program", program, "map", "list.toml"]
    before = trial.files()
    for number in (signal.SIGTERM, signal.SIGINT, signal.SIGHUP):
        waiting(folder, program, 1_000)
        run = subprocess.Popen(
            words, cwd=trial.folder, stdout=subprocess.DEVNULL, stderr=subprocess.DEVNULL, preexec_fn=heed_signals
        )
        has_begun = begun(folder)
        is_there = len(trial.files()) > len(before)
        run.send_signal(number)
        yield f"signal {number}", (has_begun, is_there, run.wait(WAIT), trial.files()), (True, True, 128 + number, before)
    waiting(folder, program, 1_000)
    run = subprocess.Popen(words, cwd=trial.folder, stdout=subprocess.DEVNULL, stderr=subprocess.DEVNULL)
    begun(folder)
    run.kill()
    run.wait(WAIT)
    yield "one that is killed leaves files", len(trial.files()) > len(before), True
    told = "".join(f"{name}: {len(OWN[name])} accounts: written\n" for name in HOMES)
    yield "the next run", trial.accounts("--no-reload"), (0, told, "")
    yield "takes them away", set(trial.files()), set(before)
    most = min(len(HOMES), os.cpu_count() or 1)
    waiting(folder, program, most)
    run = subprocess.run(words, cwd=trial.folder, capture_output=True, text=True, check=False, timeout=WAIT)
    yield f"{most} homes side by side", (run.returncode, run.stdout), (0, told)
    shutil.rmtree(folder)


def waiting(folder, program, most):
    """Writes the program that waits."""
    for name in os.listdir(folder):
        os.remove(os.path.join(folder, name))
    with open(program, "w", encoding="ascii") as file:
        file.write(WAITING.format(folder=folder, most=most))
    os.chmod(program, 0o700)


def begun(folder):
    """Whether the program has begun within the time of a start."""
    end = time.monotonic() + WAIT
    while time.monotonic() < end:
        if len(os.listdir(folder)) > 1:
            return True
        time.sleep(0.01)
    return False


def cases_of_freeradius(trial):
    """The files of FreeRADIUS."""
    before = trial.files()
    made = {"proxy.conf", "sites-enabled/radlimit-late", "policy.d/radlimit-homes", "mods-config/files/radlimit-parts"}
    trial.put("wrong/map", CHART.replace("7 home1\n", ""))
    yield "a wrong map", trial.run("freeradius", "wrong/map", "raddb"), (1, "", "wrong/map: MissingPart 7\n")
    os.remove(os.path.join(trial.folder, "wrong", "map"))
    yield "no file is written", trial.files(), before
    yield "the files", trial.run("freeradius", "map", "raddb"), (0, "raddb: written: restart FreeRADIUS\n", "")
    after = trial.files()
    yield "no other file", {name for name in after if after[name] != before.get(name)}, {f"raddb/{name}" for name in made}
    yield "their modes", {after[f"raddb/{name}"][0] for name in made}, {0o640}
    rows = [line for line in after["raddb/mods-config/files/radlimit-parts"][1].splitlines() if not line.startswith("#")]
    wanted = [f'{digit} Proxy-To-Realm := "{HOMES[number // 4]}"' for number, digit in enumerate("0123456789abcdef")]
    yield "the parts", rows, wanted
    pools = after["raddb/proxy.conf"][1]
    found = [pools.count(f"home_server_pool {name} {{\n    home_server = {name}\n}}") for name in HOMES]
    yield "a pool of each home", (found, pools.count("\n    home_server = ")), ([1] * 4, 4)
    os.rename(os.path.join(trial.folder, "raddb", "policy.d"), os.path.join(trial.folder, "raddb", "policy"))
    trial.put("raddb/proxy.conf", "old\n")
    before = trial.files()
    status, _, told = trial.run("freeradius", "map", "raddb")
    yield "a folder is missing", (status, told.rsplit(":", 1)[0]), (1, "raddb/policy.d/radlimit-homes: CannotWrite")
    yield "the files are as they were", trial.files(), before


def cases_of_running(trial):
    """Homes that run."""
    running, names = [], ["home0", "home1"]
    words = ["--home", "home0", "--home", "home1"]
    for name in names:
        auth, acct = served.free_ports()
        file = f"homes/{name}/radlimitd.toml"
        trial.put(file, f'accounts = "accounts.toml"\nstate = "state"\nlisten = [{{ auth = {auth}, acct = {acct} }}]\n')
        trial.put(f"homes/{name}/accounts.toml", HEAD + ACCOUNT.format("dora", "p", 1))
        running.append(served.daemon(os.path.join(trial.folder, file)))
    try:
        greetings = [served.greeting(process, WAIT) for process in running]
        yield "both run", greetings, ["new history: 0 sessions\n"] * 2
        told = "".join(f"{name}: 1 accounts: 0 of 0 sessions go on\n" for name in names)
        yield "both read their files", trial.accounts(*words), (0, told, "")
        running[1].kill()
        running[1].wait()
        status, printed, told = trial.accounts(*words)
        said = "home0: 1 accounts: as before\nhome1: 1 accounts: homes/home1/state/control: no server answers\n"
        yield "one is away", (status, printed, told), (2, said, "")
    finally:
        for process in running:
            process.kill()
            process.wait()
            process.stderr.close()


def main():
    if sys.argv[1:]:
        sys.exit(__doc__)
    failed = passed = 0
    every = [cases_of_parts, cases_of_accounts, cases_of_refusals, cases_of_homes, cases_of_endings, cases_of_freeradius]
    for cases in (*every, cases_of_running):
        with tempfile.TemporaryDirectory() as folder:
            for name, found, expected in cases(Trial(folder)):
                passed, failed = passed + (found == expected), failed + (found != expected)
                if found != expected:
                    print(f"{name}\nexpected: {expected!r}\nfound:    {found!r}", flush=True)
    print(f"{passed} passed, {failed} failed")
    sys.exit(1 if failed else 0)


if __name__ == "__main__":
    main()
