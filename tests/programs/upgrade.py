"""Starts `radlimitd run` on a copy of each state folder of tests/folders, which an earlier version wrote, and looks at
what it goes on from.

Each has the format of a version before: 1 or 2, over two shards, with eras, and the table of an era in a file of its own. The
server reads it once, and goes on in the present format, in generation 1, with the same accounts. Their table is the old one,
without the boot number and the shards. `sessions` and `accounts` print what they printed there, before its last kill. A request
that is sent again gets its first answer again, octet for octet, and so the same Class; a late Start of a session that has
stopped is ignored; and the Start of a reservation binds to it. All of this holds in the next generation too. `radlimitd lines`,
`export` and `rebase` refuse the old logs by name. The next generation has them put into the archive with the old table, and
their octets stay as they were. Of a version without stations, with `station` in the account file, a session has no station
before its next packet that names one, and then yields its place to a login that does. Of one with them a session has its own.
Of a log whose header has another version, of the format or of the session rule, older or newer, a start and `lines` say so by
name, and change nothing. So does a start over an old folder whose table is not there, is no file, or is another.

A folder was written by that version's program with its clock set ahead by 2,300,000,000 seconds, so that no deadline
passes here. Requests came from one port, and the program was killed twice: lines has what they were. state/ is as it was
then, but for the empty lock and the control's socket; lines, sessions (without ages) and accounts are what the program
printed, and answers has its last two logins, their Identifiers and the octets of their answers. No present program prints
these lines.

usage: python3 -m tests.programs.upgrade
       python3 -m tests.programs.upgrade --write FOLDER     writes such a folder of the program that is there
It wants Linux and the built program, and with --write a C compiler.
"""

import hashlib
import os
import re
import shutil
import socket
import sys
import tempfile
import time

from tests.lib import history, served
from tests.lib.served import INTERIM, START, STOP, attribute

FOLDERS = os.path.join(served.TOP, "tests", "folders")
SECRET, PASSWORD = b"a secret of an older version", b"arctangent"
# where its requests came from: the port is of those that neither the system nor a script gives
SOURCE = "127.0.20.1", 19_917
NAS = attribute(32, b"pop1")
NAMES = "nemo", "ishmael", "ahab", "queequeg", "stubb"
CLASS = 25
STATION = attribute(31, b"00-00-5E-00-53-2A")
ADDRESS, ADDRESS_V6 = attribute(4, bytes([192, 0, 2, 7])), attribute(95, bytes(range(16)))
BUNDLE, DELAY = attribute(50, b"bundle"), attribute(41, (60).to_bytes(4, "big"))
ON = 7  # the Acct-Status-Type Accounting-On
AHEAD = 2_300_000_000  # seconds, of the clock of a program that writes a folder
AGE = re.compile(r" age=\d+")
WAIT = served.patience(60)  # seconds in which a server has to begin
PAYLOAD = 20  # where the first payload of a log begins, after the frame's length and digest
FORMAT = 3  # what is written
# where the two versions of a header stand, and some that are not read: in an old log, and in one of the present format
FORMER_VERSIONS, VERSIONS = (
    (("format", PAYLOAD, formats), ("session rule", PAYLOAD + 1, (0, 2))) for formats in ((0, 3, 4), (0, 2, 4))
)
FORMER = "at 20: a log of a version before 0.4, and version 0.3 reads it\n"
SHARDS = 5  # where the shards stand in a stored table: behind the boot number, a second of this century

# the account file of a folder that is written
ACCOUNTS_HEAD = """version = 3
reserve_secs = 60
live_secs = 900
grace_secs = 900
closed_secs = 3600
keep_secs = 60
station = true
delay_time = true

[[client]]
address = "{}"
secret = "{}"
signed = false
"""
ACCOUNT = """
[[account]]
name = "{}"
password = "{}"
places = {}
ports = {}
"""


class Asked:
    """A server in a folder with an account file, and who asks it."""

    def __init__(self, folder, environment=None):
        self.state, self.environment = os.path.join(folder, "state"), environment
        self.ports = served.free_ports()
        self.file = served.daemon_file(folder, self.ports, 1)
        self.asker = socket.socket(socket.AF_INET, socket.SOCK_DGRAM)
        self.asker.bind(SOURCE)
        self.asker.settimeout(served.patience(10))

    NAMES = "archive/log-1", "log-2"

    def logs(self):
        """The logs of both lives, as `lines` wants them."""
        return [os.path.join(self.state, name) for name in self.NAMES]

    def lines(self):
        """What `lines` prints of them."""
        return served.asked("lines", *self.logs())[0].replace(f"{self.state}/", "")

    def begin(self):
        """Starts the server: what it says."""
        self.process = served.daemon(self.file, self.environment)
        return served.greeting(self.process, WAIT)

    def upgrade(self):
        """Starts it over a folder of before: what it says, and how many sessions go on."""
        return self.begin(), self.process.stderr.readline().decode().partition(": ")[2]

    def end(self):
        """Kills it."""
        self.process.kill()
        self.process.communicate()

    def sessions(self, *names):
        """What `sessions` prints of accounts, without ages."""
        return AGE.sub("", "".join(served.asked("sessions", name, self.file)[0] for name in names))

    def answer(self, port, request):
        """The answer to a request, in hexadecimal digits."""
        self.asker.sendto(request, (served.HOST, int(self.ports[port])))
        return self.asker.recv(4096).hex()

    def login(self, name, number, more=b"", nas=NAS):
        """The answer to a login, whose Identifier is each octet of its Request Authenticator too."""
        authenticator = bytes([number] * 16)
        attributes = attribute(1, name.encode()) + nas + more
        return self.answer(0, served.access_request(number, SECRET, attributes, authenticator, PASSWORD))

    def start(self, name, session, more=b"", nas=NAS, status=START):
        """Whether a Start is answered, or what has another status."""
        attributes = attribute(1, name) + attribute(44, session) + nas + more
        return self.answer(1, served.accounting_request(1, SECRET, status, attributes))[:2] == "05"

    def session(self, name, session, number, more=b"", nas=NAS):
        """A login of this number, and the Start of its session with the Class of the accept."""
        given = class_of(self.login(name, number, more, nas))
        self.start(name.encode(), session, attribute(CLASS, given) + more, nas)


class Copied(Asked):
    """A copy of a stored folder, and the server on it."""

    NAMES = "archive/log-1-1", "log-1-2"

    def __init__(self, stored, folder):
        super().__init__(folder)
        self.stored = stored
        shutil.copytree(os.path.join(stored, "state"), self.state)
        os.chmod(self.state, 0o700)
        shutil.copyfile(os.path.join(stored, "accounts.toml"), os.path.join(folder, "accounts.toml"))

    def text(self, name):
        """What the earlier version printed."""
        return served.text_of(os.path.join(self.stored, name))

    def has_stations(self):
        """Whether its accounts count by stations."""
        return "station = true" in self.text("accounts.toml")

    def answers(self):
        """The last logins: each one's name, Identifier and answer."""
        lines = [line.split() for line in self.text("answers").splitlines()]
        return [(name, int(number), answer) for name, number, answer in lines]

    def octets(self, name):
        """The octets of a file of its folder or of the archive."""
        path = os.path.join(self.state, name)
        with open(path if os.path.exists(path) else os.path.join(self.state, "archive", name), "rb") as file:
            return file.read()

    def there(self):
        """Its files, those of the archive behind them, once all but the newest log have gone there or time is up."""
        until = time.monotonic() + WAIT
        while len([name for name in os.listdir(self.state) if "-" in name]) > 1 and time.monotonic() < until:
            time.sleep(0.1)
        return [sorted(set(os.listdir(at)) - {"lock", "control"}) for at in (self.state, os.path.join(self.state, "archive"))]

    def refusals(self):
        """What `lines` of each old log and `export` print and say, and what they should."""
        for log in self.logs():
            yield f"the lines of {os.path.basename(log)}", served.asked("lines", log), ("", f"bad log: {log} {FORMER}", 1)
        printed, said, status = served.asked("export", self.file)
        said = said.replace("archive/", "")
        yield "the export", (printed, said, status), ("", f"bad log: {self.state}/log-1-1 {FORMER}", 1)


def class_of(accept):
    """The Class of an accept in hexadecimal digits."""
    return dict(served.attributes_of(bytes.fromhex(accept)))[CLASS]


def contents(folder):
    """The octets of each file of a folder, but for the lock."""
    found = {}
    for at, _, names in os.walk(folder):
        for name in set(names) - {"lock", "control"}:
            with open(os.path.join(at, name), "rb") as file:
                found[os.path.relpath(os.path.join(at, name), folder)] = file.read()
    return found


def with_version(log, at, version):
    """Gives the header of a log another version."""
    with open(log, "r+b") as file:
        octets = bytearray(file.read())
        octets[at] = version
        payload = octets[PAYLOAD : PAYLOAD + int.from_bytes(octets[:4], "big")]
        octets[4:PAYLOAD] = hashlib.md5(payload).digest()
        file.seek(0)
        file.write(octets)


# of an old log that is beside another table
OTHER_TABLE = "bad log: log-1-2 at 20: a header of another table\n"
# what a start over a stored folder says
GOES_ON = "generation 2: 4 sessions\n", "4 of 4 sessions go on\n"


def goes_on(copied):
    """What is looked at where a server goes on."""
    accounts = copied.text("accounts")
    old = {name: copied.octets(name) for name in ("era-1", "log-1-1", "log-1-2")}
    yield "the old format", [old[name][PAYLOAD] < FORMAT for name in ("log-1-1", "log-1-2")], [True, True]
    yield from copied.refusals()
    printed, said, status = served.asked("rebase", copied.file)
    yield "a rebase", (printed, said, status), ("", f"bad log: log-1-2 {FORMER}", 1)
    yield "its greeting", copied.upgrade(), GOES_ON
    yield "its log", "log-1" in os.listdir(copied.state), True
    for life in ("a start", "the next start"):
        yield f"{life}: sessions", copied.sessions(*NAMES), copied.text("sessions")
        yield f"{life}: accounts", served.asked("accounts", copied.file)[0], accounts
        for name, number, answer in copied.answers():
            yield f"{life}: the answer to {name} again", copied.login(name, number), answer
        for name, session in ((b"nemo", b"s0"), (b"queequeg", b"s6")):
            yield f"{life}: a late Start of {session}", copied.start(name, session), True
        yield f"{life}: sessions after late Starts", copied.sessions(*NAMES), copied.text("sessions")
        copied.end()
        said = re.sub(r"^generation \d+", "generation G", copied.begin())
        yield f"{life}: the greeting of the next one", said, "generation G: 4 sessions\n"
    given = class_of(copied.answers()[-1][2])
    yield "a Start of a reservation", copied.start(b"stubb", b"s8", attribute(CLASS, given)), True
    yield "its session", copied.sessions("stubb"), "stubb 127.0.20.1 nas=pop1 s8 live\n"
    there = [["archive", "log-3"], ["era-1", "log-1", "log-1-1", "log-1-2", "log-2"]]
    yield "the files that are left", copied.there(), there
    yield "the old ones", {name: copied.octets(name) for name in old}, old
    reader = history.Reader(history.frames(copied.octets("log-1"))[0])
    header, boot = reader.header(), history.Reader(old["era-1"]).number()
    yield "the new header", header[:3], (1, 1, boot)
    yield "the new table", reader.octets[reader.at :], old["era-1"][SHARDS + 1 :]
    yield "the formats of the new logs", [copied.octets(f"log-{number}")[PAYLOAD] for number in (1, 2, 3)], [FORMAT] * 3
    printed, said, status = served.asked("lines", os.path.join(copied.state, "archive", "log-1"))
    yield "the lines of a new log", (printed.count(" ask account="), said, status), (2, "", 0)
    for name in ("log-1-1", "log-1-2"):
        os.remove(os.path.join(copied.state, "archive", name))
    printed, said, status = served.asked("export", copied.file)
    yield "the export without the old logs", (len(printed.splitlines()), said, status), (5, "", 0)
    copied.end()


def keeps_stations(copied):
    """What is looked at where the account file has had stations."""
    yield "stations: its greeting", copied.upgrade(), GOES_ON
    yield "stations: sessions", copied.sessions(*NAMES), copied.text("sessions")
    yield "a login of another station", copied.login("ahab", 41, attribute(31, b"another"))[:2], "03"
    yield "a login of its station", copied.login("ahab", 42, STATION)[:2], "02"
    yield "what is held then", copied.sessions("ahab"), "ahab 127.0.20.1 nas=pop1 \\- reserved station=00-00-5E-00-53-2A\n"
    copied.end()


def gets_stations(copied):
    """What is looked at where the account file gets stations."""
    if copied.has_stations():
        yield from keeps_stations(copied)
        return
    accounts = os.path.join(os.path.dirname(copied.file), "accounts.toml")
    text = served.text_of(accounts).replace("version = 2", "version = 3\nstation = true")
    with open(accounts, "w", encoding="ascii") as file:
        file.write(text.replace("[[client]]\n", "[[client]]\nsigned = false\n"))
    yield "stations: its greeting", copied.upgrade(), GOES_ON
    yield "stations: sessions", copied.sessions(*NAMES), copied.text("sessions")
    yield "stations: a login while no session has one", copied.login("ahab", 40, STATION)[:2], "03"
    yield "an Interim-Update with a station", copied.start(b"ahab", b"s4", STATION, ADDRESS, INTERIM), True
    line = "ahab 127.0.20.1 nas-address=c0000207 s4 live station=00-00-5E-00-53-2A\n"
    yield "its session", copied.sessions("ahab"), line
    copied.end()
    copied.begin()
    yield "its session after a kill", copied.sessions("ahab"), line
    yield "a login of another station", copied.login("ahab", 41, attribute(31, b"another"))[:2], "03"
    yield "a login of its station", copied.login("ahab", 42, STATION)[:2], "02"
    yield "what is held then", copied.sessions("ahab"), "ahab 127.0.20.1 nas=pop1 \\- reserved station=00-00-5E-00-53-2A\n"
    yield "what the others hold", copied.sessions("ishmael"), "".join(
        line for line in copied.text("sessions").splitlines(True) if line.startswith("ishmael")
    )
    copied.end()


def refusals_of(copied, newest, versions, commands):
    """What commands say of a newest log whose header has another version."""
    name = os.path.basename(newest)
    shutil.copyfile(newest, f"{newest}.there")
    for what, at, others in versions:
        for version in others:
            shutil.copyfile(f"{newest}.there", newest)
            with_version(newest, at, version)
            before = contents(copied.state)
            said = f"another version of the {what}\n"
            for words in commands:
                printed, told, status = served.asked(*words)
                found = (printed, told.replace(f"{copied.state}/", ""), status)
                case = f"{words[0]}, {name}, version {version} of the {what}"
                yield case, found, ("", f"bad log: {name} at {at}: {said}", 1)
            yield f"{name}, version {version} of the {what}: the folder", contents(copied.state) == before, True
    shutil.move(f"{newest}.there", newest)


def is_refused(copied):
    """What is looked at where the header of a log has another version: of the folder as it was stored, and of one of the
    present format."""
    *_, newest = copied.logs()
    yield from refusals_of(copied, newest, FORMER_VERSIONS, [["run", copied.file]])
    copied.begin()
    copied.end()
    newest = os.path.join(copied.state, "log-1")
    yield from refusals_of(copied, newest, VERSIONS, [["run", copied.file], ["lines", newest]])


def has_no_table(copied):
    """What is looked at where the old table is not there, is no file, or is another."""
    table = os.path.join(copied.state, "era-1")
    octets = copied.octets("era-1")
    os.rename(table, f"{table}.there")
    run = ["run", copied.file]
    yield "no table", served.asked(*run), ("", "era-1: cannot be opened\n", 2)
    os.mkdir(table)
    yield "a folder for a table", served.asked(*run), ("", "era-1: cannot be read\n", 2)
    os.rmdir(table)
    for what, changed, said in (
        ("a table with another boot number", octets[:4] + bytes([octets[4] ^ 1]) + octets[5:], OTHER_TABLE),
        ("a table with an octet more", octets + b"\0", f"bad log: era-1 at {len(octets)}: octets after the end\n"),
    ):
        with open(table, "wb") as file:
            file.write(changed)
        before = contents(copied.state)
        yield what, served.asked(*run), ("", said, 1)
        yield f"{what}: the folder", contents(copied.state) == before, True
    os.replace(f"{table}.there", table)
    yield "the table is put back", copied.upgrade(), GOES_ON
    copied.end()


def first_life(server):
    """What is asked before the first kill: sessions, one of them stopped, one of a device and two of a bundle, and logins
    that are refused."""
    server.session("nemo", b"s1", 1)
    server.session("nemo", b"s0", 3)
    server.start(b"nemo", b"s0", status=STOP)
    server.session("ishmael", b"s2", 6, BUNDLE)
    server.login("ishmael", 8)
    server.start(b"ishmael", b"s3", BUNDLE)
    server.session("ahab", b"s4", 10, STATION, ADDRESS)
    server.login("ahab", 12)
    server.session("queequeg", b"s5", 13, nas=ADDRESS_V6)
    time.sleep(1.5)  # a tick


def second_life(server):
    """What is asked before the second one, restarts of an access server among it, one of them told late; and the answers of
    the last two logins."""
    server.start(b"", b"", DELAY, ADDRESS_V6, ON)
    server.start(b"", b"", b"", ADDRESS_V6, ON)
    server.start(b"nemo", b"s1", status=INTERIM)
    server.session("queequeg", b"s6", 17)
    server.start(b"queequeg", b"s6", status=STOP)
    answers = [(name, number, server.login(name, number)) for name, number in (("nemo", 20), ("stubb", 21))]
    server.start(b"nobody", b"s7")
    return "".join(f"{name} {number} {answer}\n" for name, number, answer in answers)


def account_file():
    """The account file of a folder that is written."""
    rows = zip(NAMES, ((2, 1), (1, 2), *[(1, 1)] * 3))
    accounts = "".join(ACCOUNT.format(name, PASSWORD.decode(), *counts) for name, counts in rows)
    return ACCOUNTS_HEAD.format(SOURCE[0], SECRET.decode()) + accounts


def write(to):
    """Writes the folder of the program that is there."""
    texts = {"accounts.toml": account_file(), "shift": str(AHEAD)}
    with tempfile.TemporaryDirectory() as folder:
        for name, text in texts.items():
            with open(os.path.join(folder, name), "w", encoding="ascii") as file:
                file.write(text)
        library = served.built(folder, "failing", "-shared", "-fPIC")
        server = Asked(folder, os.environ | {"LD_PRELOAD": library, "SHIFT": os.path.join(folder, "shift")})
        with open(server.file, "a", encoding="ascii") as file:
            file.write('archive = "keep"\n')  # by that clock each file is old
        server.begin()
        first_life(server)
        server.end()
        server.begin()
        texts["answers"] = second_life(server)
        texts["sessions"], texts["accounts"] = server.sessions(*NAMES), served.asked("accounts", server.file)[0]
        server.end()
        texts["lines"] = server.lines()
        shutil.copytree(server.state, os.path.join(to, "state"), ignore=shutil.ignore_patterns("lock", "control"))
    for name in texts.keys() - {"shift"}:
        with open(os.path.join(to, name), "w", encoding="ascii") as file:
            file.write(texts[name])


def main():
    if sys.argv[1:2] == ["--write"] and len(sys.argv) == 3:
        write(sys.argv[2])
        return
    if sys.argv[1:]:
        sys.exit(__doc__)
    results = []
    for version in sorted(os.listdir(FOLDERS)):
        for cases in (goes_on, gets_stations, is_refused, has_no_table):
            with tempfile.TemporaryDirectory() as folder:
                copied = Copied(os.path.join(FOLDERS, version), folder)
                results += [(f"a folder of {version}: {name}", *rest) for name, *rest in cases(copied)]
                copied.asker.close()
    served.verdict(results)


main()
