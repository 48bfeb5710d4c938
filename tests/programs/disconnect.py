"""Has a `radlimitd` disconnect sessions, from an access server that Python's hashlib and hmac make.

First each octet of its Disconnect-Request, and where it comes from. Then what an operator is told, and what the account
holds: after an ACK, after which the Stop comes late; after a NAK with a cause by its name, by its number and without one;
after answers that are none, such as one with a wrong authenticator; and after silence, in which the same octets come
three times, a second apart, and the server answers others. Then where nothing is sent: no such session, a client without
`disconnect`, and the seventeenth of seventeen at once. Last FreeRADIUS is the access server, where it is installed.

usage: python3 -m tests.programs.disconnect
It wants Linux and the built program.
"""

import contextlib
import functools
import hashlib
import hmac
import os
import re
import shutil
import socket
import struct
import subprocess
import sys
import tempfile
import time

from tests.lib import history, served

SECRET, PASSWORD = b"secret-of-the-client", b"arctangent"
SECONDS = served.patience(20)  # that anything may take
ACK, NAK, ERROR_CAUSE = 41, 42, 101
MOST, PLACES = 16, 20
SILENT = "no answer from the access server\n"

ACCOUNTS = """version = 3
shards = 1
reserve_secs = 60
live_secs = 900
grace_secs = 900
closed_secs = 3600
keep_secs = 10
[[client]]
address = "127.0.0.1"
secret = "{0}"
disconnect = {{ port = {1} }}
[[client]]
address = "127.0.0.2"
secret = "{0}"
[[account]]
name = "nemo"
password = "arctangent"
places = {2}
ports = 1
[[account]]
name = "b&b"
password = "arctangent"
places = 1
ports = 1
"""

FREERADIUS = """prefix = /usr
logdir = {folder}
run_dir = {folder}
pidfile = {folder}/radius.pid
libdir = /usr/lib/freeradius
max_request_time = 5
client radlimit {{
    ipaddr = 127.0.0.1
    secret = {secret}
    require_message_authenticator = yes
}}
modules {{
    always ok {{
        rcode = ok
    }}
    always reject {{
        rcode = reject
    }}
}}
server disconnect {{
    listen {{
        type = coa
        ipaddr = 127.0.0.1
        port = {port}
    }}
    recv-coa {{
        if (&User-Name == "nemo" && &NAS-Identifier == "pop1" && &Acct-Session-Id == "f1" && &Event-Timestamp) {{
            ok
        }}
        else {{
            update reply {{
                Error-Cause := Session-Context-Not-Found
            }}
            reject
        }}
    }}
    send-coa {{
        ok
    }}
}}
"""


class AccessServer:
    """The access server of the client 127.0.0.1: its logins and its accounting, and what it is asked."""

    def __init__(self, ports):
        self.ports, self.number = [int(port) for port in ports], 0
        self.asking = {host: self.bound(host) for host in ("127.0.0.1", "127.0.0.2")}
        self.asked = self.bound("127.0.0.1")

    @staticmethod
    def bound(host):
        """A socket at this address."""
        one = socket.socket(socket.AF_INET, socket.SOCK_DGRAM)
        one.bind((host, 0))
        one.settimeout(SECONDS)
        return one

    def answer(self, at, request, host):
        """The answer to a request."""
        self.asking[host].sendto(request, (served.HOST, self.ports[at]))
        reply = self.asking[host].recv(4096)
        return reply if served.is_answer(reply, request, SECRET) else sys.exit("a wrong answer")

    def begin(self, account, server, session, host="127.0.0.1"):
        """A login and its Start, which have a place."""
        self.number = (self.number + 1) % 256
        names = served.attribute(1, account) + server
        request = served.access_request(self.number, SECRET, names, os.urandom(16), PASSWORD, signs=True)
        reply = self.answer(0, request, host)
        if reply[0] != 2:
            sys.exit("a login was rejected")
        mark = served.attribute(25, dict(served.attributes_of(reply))[25])
        self.account(account, served.START, server, session, host, mark)

    def account(self, account, status, server, session, host="127.0.0.1", mark=b""):
        """An Accounting-Request, which is answered."""
        self.number = (self.number + 1) % 256
        names = served.attribute(1, account) + server + served.attribute(44, session) + mark
        self.answer(1, served.accounting_request(self.number, SECRET, status, names), host)

    def request(self, seconds=SECONDS):
        """The next Disconnect-Request with its peer; None where none comes within so many seconds."""
        self.asked.settimeout(seconds)
        with contextlib.suppress(TimeoutError):
            return self.asked.recvfrom(4096)
        return None

    def say(self, code, request, peer, attributes=b"", secret=SECRET, number=None):
        """Answers a Disconnect-Request."""
        head = struct.pack(">BBH", code, request[1] if number is None else number, 20 + len(attributes))
        digest = hashlib.md5(head + request[4:20] + attributes + secret).digest()
        self.asked.sendto(head + digest + attributes, peer)


class Operator:
    """Operators of a server, who ask by its control."""

    def __init__(self, folder, file):
        self.path, self.file = os.path.join(folder, "state", "control"), file

    def asks(self, *words):
        """A connection on which this was asked."""
        one = socket.socket(socket.AF_UNIX, socket.SOCK_STREAM)
        one.settimeout(SECONDS)
        one.connect(self.path)
        one.sendall(" ".join(words).encode() + b"\n")
        return one

    @staticmethod
    def told(one):
        """What is answered on a connection, to its end."""
        found = b""
        with one:
            while more := one.recv(4096):
                found += more
        return found.decode()

    def begun(self, *words, command=("disconnect",)):
        """The program, which asks this."""
        words = [served.DAEMON, *command, *words, self.file]
        return subprocess.Popen(words, stdout=subprocess.PIPE, stderr=subprocess.PIPE, text=True)

    @staticmethod
    def ended(run):
        """What the program prints and says, and its status."""
        return *run.communicate(timeout=SECONDS), run.returncode

    def links(self, name="nemo"):
        """The links of an account, without their ages."""
        return [re.sub(r" age=.*", "", line) for line in served.asked("sessions", name, self.file)[0].splitlines()]

    def held(self):
        """How many places are taken."""
        return int(dict(line.split()[:2] for line in served.asked("status", self.file)[0].splitlines()[3:14])["held"])


def is_sealed(request):
    """Whether a request has the right Request Authenticator and Message-Authenticator."""
    zeroed = request[:4] + bytes(16) + request[20:]
    digest = hashlib.md5(zeroed + SECRET).digest()
    unsigned = zeroed[:-16] + bytes(16)
    return request[4:20] == digest and request[-16:] == hmac.new(SECRET, unsigned, "md5").digest()


def cases_of_octets(access, operator):
    """Each octet of a request, of each kind of name that an access server has."""
    for kind, account, server, session, words in (
        ("a name", b"nemo", served.attribute(32, b"pop1"), b"s1", ("nemo", "127.0.0.1", "nas=pop1", "s1")),
        ("an address", b"b&b", served.attribute(4, bytes([10, 0, 0, 7])), b"\xff \n",
         ("b\\x26b", "127.0.0.1", "nas-address=0a000007", "\\xff\\x20\\x0a")),
        ("an address of IPv6", b"nemo", served.attribute(95, bytes(range(16))), b"s4",
         ("nemo", "127.0.0.1", "nas-address=" + bytes(range(16)).hex(), "s4")),
        ("no name", b"nemo", b"", b"s3", ("nemo", "127.0.0.1", "unnamed", "s3")),
        ("the longest names", b"nemo", served.attribute(32, b"n" * 253), b"s" * 253,
         ("nemo", "127.0.0.1", "nas=" + "n" * 253, "s" * 253)),
    ):
        access.begin(account, server, session)
        run, before = operator.begun(*words), int(time.time())
        request, peer = access.request()
        after = int(time.time())
        access.say(ACK, request, peer)
        yield f"{kind}: disconnected", operator.ended(run), ("disconnected\n", "", 0)
        yield f"{kind}: the Code and the Length", (request[0], struct.unpack(">H", request[2:4])[0]), (40, len(request))
        yield f"{kind}: sealed and signed", is_sealed(request), True
        yield f"{kind}: from where", peer[0], "127.0.0.1"
        attributes = list(served.attributes_of(request))
        wanted = [(1, account), *served.attributes_of(bytes(20) + server), (44, session)]
        yield f"{kind}: what it says", attributes[:-2], wanted
        yield f"{kind}: the last two", [(kind, len(value)) for kind, value in attributes[-2:]], [(55, 4), (80, 16)]
        yield f"{kind}: when", before <= struct.unpack(">I", attributes[-2][1])[0] <= after, True
        yield f"{kind}: no more comes", access.request(1.5), None
        yield f"{kind}: nothing is held", operator.links(words[0]), []


def cases_of_acks(access, operator):
    """After an ACK the place is free, and the Stop changes nothing."""
    pop = served.attribute(32, b"pop1")
    access.begin(b"nemo", pop, b"k1")
    access.begin(b"nemo", pop, b"k2")
    before = operator.held()
    run = operator.begun("nemo 127.0.0.1 nas=pop1 k1")
    access.say(ACK, *access.request())
    yield "an ACK", operator.ended(run), ("disconnected\n", "", 0)
    yield "it is free", (operator.links(), operator.held()), (["nemo 127.0.0.1 nas=pop1 k2 live"], before - 1)
    access.account(b"nemo", served.STOP, pop, b"k1")
    yield "a late Stop", (operator.links(), operator.held()), (["nemo 127.0.0.1 nas=pop1 k2 live"], before - 1)
    run = operator.begun("nemo", "127.0.0.1", "nas=pop1", "k2", command=("free", "--disconnect"))
    request, peer = access.request()
    access.account(b"nemo", served.STOP, pop, b"k2")
    access.say(ACK, request, peer)
    yield "an ACK behind the Stop", operator.ended(run), ("disconnected\n", "", 0)
    yield "and nothing is held", (operator.links(), operator.held()), ([], before - 2)


def cases_of_naks(access, operator):
    """After a NAK the place is held."""
    access.begin(b"nemo", served.attribute(32, b"pop1"), b"n1")
    before = operator.links(), operator.held()
    for what, attributes, said in (
        ("with a cause", served.attribute(ERROR_CAUSE, struct.pack(">I", 503)), ": session context not found"),
        ("with another cause", served.attribute(ERROR_CAUSE, struct.pack(">I", 999)), ": Error-Cause 999"),
        ("without a cause", b"", ""),
    ):
        run = operator.begun("nemo", "127.0.0.1", "nas=pop1", "n1")
        access.say(NAK, *access.request(), attributes)
        yield f"a NAK {what}", operator.ended(run), ("", f"the access server refuses{said}\n", 2)
        yield f"a NAK {what}: it is held", (operator.links(), operator.held()), before


def cases_of_one_silence(access, operator, what, answer):
    """Where no answer comes, the same octets come three times."""
    before = operator.links(), operator.held()
    run = operator.begun("nemo", "127.0.0.1", "nas=pop1", "n1")
    found, times = [], []
    for _ in range(3):
        request, peer = access.request()
        found.append(request)
        times.append(time.monotonic())
        answer(request, peer)
        # which is asked for a second at most: the control waits for no access server
        yield f"{what}: ready", served.asked("ready", operator.file)[0], "ok\n"
    yield f"{what}: nothing came", operator.ended(run), ("", SILENT, 5)
    yield f"{what}: it was asked three times, and no more", access.request(0.2), None
    yield from served.in_time(f"{what}: after three seconds", time.monotonic() - times[0], 4.5, 2.8)
    yield f"{what}: the same octets", len(set(found)), 1
    for early, late in zip(times, times[1:]):
        yield from served.in_time(f"{what}: a second apart", late - early, 1.5, 0.9)
    yield f"{what}: it is held", (operator.links(), operator.held()), before


def cases_of_silence(access, operator):
    """Where no answer comes, or what comes is none. Each is tried anew where the machine stood still."""
    others = access.bound("127.0.0.1")

    def from_another(request, peer):
        """An ACK from another port."""
        head = struct.pack(">BBH", ACK, request[1], 20)
        others.sendto(head + hashlib.md5(head + request[4:20] + SECRET).digest(), peer)

    for what, answer in (
        ("silence", lambda request, peer: None),
        ("a wrong authenticator", lambda request, peer: access.say(ACK, request, peer, secret=b"another")),
        ("a wrong Identifier", lambda request, peer: access.say(ACK, request, peer, number=(request[1] + 1) % 256)),
        ("a wrong Code", lambda request, peer: access.say(2, request, peer)),
        ("a wrong signature", lambda request, peer: access.say(ACK, request, peer, served.attribute(80, bytes(16)))),
        ("noise", lambda request, peer: access.asked.sendto(os.urandom(4096), peer)),
        ("another port", from_another),
    ):
        yield from served.one_that_passes(functools.partial(cases_of_one_silence, access, operator, what, answer))
    run = operator.begun("nemo", "127.0.0.1", "nas=pop1", "n1")
    access.request()
    access.say(ACK, *access.request())
    yield "an ACK of the second", operator.ended(run), ("disconnected\n", "", 0)
    others.close()


def cases_of_refusals(access, operator):
    """Where nothing is sent."""
    pop = served.attribute(32, b"pop1")
    access.begin(b"nemo", pop, b"r1")
    access.begin(b"nemo", pop, b"r2", "127.0.0.2")
    no_port = "the client has no `disconnect` in the account file\n"
    for words, said in (
        (("nemo", "127.0.0.1", "nas=pop1", "r3"), "no such session\n"),
        (("nemo", "127.0.0.1", "nas=pop2", "r1"), "no such session\n"),
        (("b\\x26b", "127.0.0.1", "nas=pop1", "r1"), "no such session\n"),
        (("nemo", "127.0.0.2", "nas=pop1", "r2"), no_port),
        (("nemo", "127.0.0.2", "nas=pop1", "r1"), no_port),
        (("doris", "127.0.0.1", "nas=pop1", "r1"), "unknown account\n"),
        (("nemo", "127.0.0.3", "nas=pop1", "r1"), "unknown client\n"),
        (("nemo", "127.0.0.1", "nas=pop1", "\\e"), "no session can be named so\n"),
    ):
        yield f"{words}", operator.ended(operator.begun(*words)), ("", said, 3 if said == "no such session\n" else 2)
    usage = "usage: radlimitd disconnect NAME CLIENT NAS SESSION FILE"
    for words in (("nas=pop1",), ("pop1", "r1"), ("nas=pop1", "\\-")):
        words = ("nemo", "127.0.0.1", *words)
        said, status = operator.ended(operator.begun(*words))[1:]
        yield f"{words}", (said.startswith(usage), status), (True, 1)
    yield "nothing was sent", access.request(0.5), None


def cases_of_many(access, operator):
    """Sixteen at once, each with an Identifier of its own and an answer of its own; and the seventeenth."""
    pop = served.attribute(32, b"pop1")
    names = [f"m{number}" for number in range(MOST + 1)]
    for name in names:
        access.begin(b"nemo", pop, name.encode())
    before = operator.held()
    connections = [operator.asks("disconnect nemo 127.0.0.1 nas=pop1", name) for name in names]
    yield "the seventeenth", operator.told(connections.pop()), "error busy: 16 sessions are being disconnected\n"
    found = {}
    while len(found) < MOST and (one := access.request()):
        found.setdefault(dict(served.attributes_of(one[0]))[44].decode(), one)
    yield "all come", sorted(found), sorted(names[:-1])
    yield "each has its Identifier", len({request[1] for request, _ in found.values()}), MOST
    for name in names[1:-1:2]:
        access.say(ACK, *found[name])
    for name in names[0:-1:2]:
        access.say(NAK, *found[name])
    told = [operator.told(one) for one in connections]
    refused, done = "error the access server refuses\n", "disconnected\nok\n"
    yield "each has its answer", told, [done if number % 2 else refused for number in range(MOST)]
    yield "and as many are free", operator.held(), before - MOST // 2
    again = operator.begun("nemo", "127.0.0.1", "nas=pop1", "m0")
    others = (one for one in iter(access.request, None) if one not in found.values())
    access.say(ACK, *next(one for one in others if dict(served.attributes_of(one[0]))[44] == b"m0"))
    yield "and there is room again", operator.ended(again), ("disconnected\n", "", 0)


def cases_of_freeradius(access, operator, folder):
    """FreeRADIUS as the access server, which ends the session f1 alone."""
    if not shutil.which("freeradius"):
        print("left out: FreeRADIUS as the access server, in disconnect (no freeradius here)")
        return
    port = access.asked.getsockname()[1]
    access.asked.close()
    raddb = os.path.join(folder, "raddb")
    os.mkdir(raddb)
    with open(os.path.join(raddb, "radiusd.conf"), "w", encoding="ascii") as file:
        file.write(FREERADIUS.format(folder=folder, port=port, secret=SECRET.decode()))
    for session in (b"f1", b"f2"):
        access.begin(b"nemo", served.attribute(32, b"pop1"), session)
    with open(os.path.join(folder, "said"), "w+", encoding="utf-8") as said:
        words = ["freeradius", "-d", raddb, "-f", "-l", "stdout"]
        with subprocess.Popen(words, stdin=subprocess.DEVNULL, stdout=said, stderr=said) as radius:
            try:
                until = time.monotonic() + SECONDS
                while radius.poll() is None and not served.are_bound([port]) and time.monotonic() < until:
                    time.sleep(0.05)
                found = [operator.ended(operator.begun("nemo", "127.0.0.1", "nas=pop1", name)) for name in ("f1", "f2")]
            finally:
                radius.kill()
        said.seek(0)
        text = "" if radius.poll() == -9 else said.read()
    yield "FreeRADIUS has run", text, ""
    yield "FreeRADIUS ends it", found[0], ("disconnected\n", "", 0)
    yield "FreeRADIUS does not", found[1], ("", "the access server refuses: session context not found\n", 2)
    left = [line for line in operator.links() if line.split()[3][0] == "f"]
    yield "and it is held", left, ["nemo 127.0.0.1 nas=pop1 f2 live"]


def main():
    """Runs all of it."""
    with tempfile.TemporaryDirectory() as folder:
        ports = served.free_ports()
        access = AccessServer(ports)
        with open(os.path.join(folder, "accounts.toml"), "w", encoding="ascii") as file:
            file.write(ACCOUNTS.format(SECRET.decode(), access.asked.getsockname()[1], PLACES))
        file = served.daemon_file(folder, ports, 1)
        process = served.daemon(file)
        try:
            served.greeting(process, SECONDS)
            operator = Operator(folder, file)
            results = [
                *cases_of_octets(access, operator), *cases_of_acks(access, operator), *cases_of_naks(access, operator),
                *cases_of_silence(access, operator), *cases_of_refusals(access, operator), *cases_of_many(access, operator),
                *cases_of_freeradius(access, operator, folder),
            ]
            logs = history.logs(os.path.join(folder, "state"))
            lines = subprocess.run([served.DAEMON, "lines", *logs], capture_output=True, check=True).stdout.decode()
            stops = [line for line in lines.splitlines() if " stop account=nemo " in line and "session=k1 " in line]
            found = [line.split(" -> ")[1] for line in stops]
            results.append(("the log has its Stop, and the late one", found, ["done", "done"]))
            results.append(("it runs still", process.poll(), None))
        finally:
            process.kill()
            process.wait()
    served.verdict(results)


main()
