"""Asks a `radlimitd` for places over HTTP, as FreeRADIUS does that has checked the logins, and is hostile at its port.

First how asks are counted, and the lines of those that are refused. Then connections that are kept, beside many that do
not show the token. Then each answer: an accept with its Class, a repeat by its key, the second ask, each refusal, a device
that dials again, an ask by the control; asks of many connections at once, of which none gets the answer of another; and a
repeat after the server was killed. No server begins with a token that others than its owner can read.

Then its port gets half requests, requests an octet at a time, bodies of a megabyte, over a hundred connections, each field
missing, twice and too long and with each octet, and random forms of a fixed seed: what is answered to each form is what a
reader in Python says of it, and no place changes but by what was accepted.

--speed measures instead: 32 connections that ask one after the other as fast as they are answered, and then 1,000 asks a
second, of which it prints the times in milliseconds. The folder is on /dev/shm.

usage: python3 -m tests.programs.asks [--speed] [FORMS]       FORMS: how many random forms, 20,000 if it is not given
It wants Linux and the built program.
"""

import collections
import contextlib
import json
import os
import random
import re
import select
import socket
import sys
import tempfile
import threading
import time

from tests.lib import served

SECRET, TOKEN = b"secret-of-the-client", b"token-of-this-part-0123"
SECONDS = served.patience(60)  # that an answer may take
FORMS, SEED = 20_000, 63
FIELDS = {b"name": 253, b"key": 128, b"nas_identifier": 253, b"nas_ip_address": None, b"calling_station_id": 253}
RANDOM_PLACES, KEPT_ASKS = 64, 8
KEPT_CONNECTIONS, STRANGE_SECS = 8, 3
SPEED_ACCOUNTS, SPEED_ASKS, SPEED_CONNECTIONS, PACED = 512, 100_000, 32, 1_000
MAX_FORM = 4_096
AT_ONCE, ROUNDS, FIRST_TIMEOUT = 24, 20, 1_000  # connections that ask at once, and how often; their accounts' times
OWN = ['Cisco-AVPair = "a=b"', 'Framed-Route = "192.0.2.0/28"', 'Cisco-AVPair = "c=d"']
REASONS = {200: "accepted", 403: "session limit reached\n", 404: "unknown account\n", 423: "account disabled\n"}

HEAD = """version = 3
shards = 1
reserve_secs = 86400
live_secs = 900
grace_secs = 60
closed_secs = 300
keep_secs = 300
[[client]]
address = "127.0.0.1"
secret = "{}"
trusted = true
"""


def accounts():
    """The accounts: names, places, and what else stands in their tables."""
    yield "nemo", 1, f"session_timeout = 3600\nreply = {OWN}\n"
    yield "ahab", 1, "disabled = true\n"
    yield "full", 0, ""
    yield "random", RANDOM_PLACES, ""
    yield "ishmael", 1, ""
    yield "dials", 1, "station = true\n"
    for number in range(AT_ONCE):
        yield f"once{number}", ROUNDS, f"session_timeout = {FIRST_TIMEOUT + number}\n"
    for number in range(SPEED_ACCOUNTS):
        yield f"speed{number}", 64, ""


def write_files(folder, ports, port, sync="always", rows=None):
    """The files of the server, whose name is given; its accounts, or other rows of accounts."""
    with open(os.path.join(folder, "accounts.toml"), "w", encoding="ascii") as file:
        file.write(HEAD.format(SECRET.decode()))
        for name, places, more in rows or accounts():
            file.write(f'[[account]]\nname = "{name}"\nplaces = {places}\nports = 1\n{more}')
    with open(os.path.join(folder, "token"), "wb") as file:
        file.write(TOKEN + b"\n")
    path = served.daemon_file(folder, ports, 1, sync)
    with open(path, "a", encoding="ascii") as file:
        file.write(f'[ask]\nport = {port}\ntoken_file = "token"\nclient = "127.0.0.1"\n')
    return path


def free_port():
    """A TCP port that nobody has."""
    with socket.socket() as one:
        one.bind((served.HOST, 0))
        return one.getsockname()[1]


def encoded(value):
    """A value as a form has it."""
    return b"".join(bytes([octet]) if chr(octet).isalnum() and octet < 128 else b"%%%02X" % octet for octet in value)


def form(**fields):
    """A form of these fields."""
    return b"&".join(name.encode() + b"=" + encoded(value) for name, value in fields.items())


def request(body, token=TOKEN, method=b"POST", path=b"/ask", more=b""):
    """The octets of a request."""
    shown = b"Authorization: Bearer " + token + b"\r\n" if token is not None else b""
    head = method + b" " + path + b" HTTP/1.1\r\nHost: radlimit\r\n" + shown + more
    return head + b"Content-Length: %d\r\n\r\n" % len(body) + body


class Asker:
    """A connection that asks one after the other."""

    def __init__(self, port):
        self.port, self.found = port, b""
        self.socket = socket.create_connection((served.HOST, port), timeout=SECONDS)

    def close(self):
        """Closes it."""
        self.socket.close()

    def answer(self):
        """The next answer: its status and its body; None where the connection ended."""
        while True:
            head, end, rest = self.found.partition(b"\r\n\r\n")
            if end:
                status = int(head.split(b" ")[1])
                length = int(re.search(rb"(?i)\r\ncontent-length: (\d+)", head)[1]) if status >= 200 else 0
                if len(rest) >= length:
                    self.found = rest[length:]
                    if status >= 200:
                        return status, rest[:length].decode()
                    continue
            piece = b""
            with contextlib.suppress(ConnectionResetError):
                piece = self.socket.recv(65_536)
            if not piece:
                return None
            self.found += piece

    def ask(self, octets):
        """What is answered to octets."""
        with contextlib.suppress(BrokenPipeError, ConnectionResetError):
            self.socket.sendall(octets)
        return self.answer()


def asked(port, octets):
    """What is answered to octets on a connection of their own."""
    one = Asker(port)
    try:
        return one.ask(octets)
    finally:
        one.close()


def class_of(answer):
    """The Class of an accept."""
    return answer and answer[0] == 200 and json.loads(answer[1])["reply:Class"]["value"][0]


def held(file, name):
    """How many links an account has."""
    return len(served.asked("sessions", name, file)[0].splitlines())


# ---- a reader of forms, by the URL Standard


def decoded(text):
    """The octets of an encoded name or value."""
    text = text.replace(b"+", b" ")
    return re.sub(rb"%([0-9a-fA-F]{2})", lambda found: bytes([int(found[1], 16)]), text)


def is_address(text):
    """Whether a text is four decimal numbers 0 to 255 without leading zeros."""
    parts = text.split(b".")
    return len(parts) == 4 and all(re.fullmatch(rb"0|[1-9][0-9]{0,2}", part) and int(part) < 256 for part in parts)


def reading(body):
    """What a form says: its fields, or the fault that is answered."""
    found = {}
    for piece in body.split(b"&"):
        if not piece:
            continue
        name, _, value = piece.partition(b"=")
        name, value = decoded(name), decoded(value)
        if name not in FIELDS:
            return None, "unknown field\n"
        if name in found:
            return None, f"{name.decode()}: more than once\n"
        found[name] = value
    for name, most in FIELDS.items():
        value = found.get(name, b"")
        is_long = most is not None and len(value) > most
        if is_long or (name == b"nas_ip_address" and value and not is_address(value)):
            return None, f"{name.decode()}: wrong value\n"
        if not value and name in (b"name", b"key"):
            return None, f"{name.decode()}: missing\n"
    if not found.get(b"nas_identifier") and not found.get(b"nas_ip_address"):
        return None, "nas_identifier: missing\n"
    return found, None


class Reader:
    """What is to be answered to forms, one after the other."""

    def __init__(self):
        self.kept, self.free = collections.deque(maxlen=KEPT_ASKS), RANDOM_PLACES

    def expected(self, body):
        """The status, and the text but of an accept."""
        if len(body) > MAX_FORM:
            return 413, ""
        fields, fault = reading(body)
        if fault:
            return 400, fault
        if fields[b"name"] == b"ahab":
            return 423, REASONS[423]
        if fields[b"name"] == b"full":
            return 403, REASONS[403]
        if fields[b"name"] != b"random":
            return 404, REASONS[404]
        return self.placed(fields)

    def placed(self, fields):
        """The same of the account that has places: an ask whose key one of the last eight had is a repeat."""
        decided = dict(self.kept)
        key = fields[b"key"]
        if key not in decided:
            decided[key] = self.free > 0
            self.free -= decided[key]
            self.kept.append((key, decided[key]))
        return (200, None) if decided[key] else (403, REASONS[403])


def random_form(source):
    """A form that is right, nearly right, or neither."""
    fields = {b"name": source.choice([b"random", b"random", b"ahab", b"full", b"nobody", bytes([source.randrange(256)])])}
    fields[b"key"] = b"%d" % source.randrange(20)
    if source.random() < 0.8:
        fields[b"nas_identifier"] = source.choice([b"pop1", b"pop 2", b"\xc3\xa9", source.randbytes(3)])
    if source.random() < 0.5:
        fields[b"nas_ip_address"] = source.choice([b"192.0.2.1", b"192.0.2.01", b"256.0.0.1", b"1.2.3", b"", b"0.0.0.0"])
    if source.random() < 0.5:
        fields[b"calling_station_id"] = source.randbytes(source.choice([0, 1, 17, 253, 254]))
    pieces = [name + b"=" + encoded(value) for name, value in fields.items()]
    source.shuffle(pieces)
    if source.random() < 0.2:
        pieces.append(source.choice(pieces))
    if source.random() < 0.2:
        pieces.pop(source.randrange(len(pieces)))
    if source.random() < 0.1:
        pieces.append(source.choice([b"", b"&&", b"=", b"%6eame=x", b"name", b"x=y", b"%", b"key=%4", b"key=+"]))
    body = bytearray(b"&".join(pieces))
    for _ in range(source.choice([0, 0, 0, 1, 3])):
        if body:
            body[source.randrange(len(body))] = source.randrange(256)
    return bytes(body)


# ---- what is looked at


def counts(file, front):
    """The counts of the status with this front that are not 0."""
    found = json.loads(served.asked("status", "--json", file)[0].splitlines()[0])
    return {name[len(front) :]: number for name, number in found.items() if name.startswith(front) and number}


def said(process, seconds):
    """The lines that a server writes within a number of seconds."""
    os.set_blocking(process.stderr.fileno(), False)
    text, until = b"", time.monotonic() + seconds
    while time.monotonic() < until:
        text += process.stderr.read() or b""
        time.sleep(0.1)
    os.set_blocking(process.stderr.fileno(), True)
    return text.decode().splitlines()


def each_end(port, file, process):
    """Each ask is counted by its end and as nothing else, and one that is refused has a line."""
    yield "no ask has ended", counts(file, "ask_http_"), {}
    asks = [(b"ishmael", b"1", 200), (b"ishmael", b"1", 200), (b"ishmael", b"2", 403), (b"nobody", b"1", 404), (b"ahab", b"1", 423)]
    for name, key, status in asks:
        yield f"{name} {key}", asked(port, request(form(name=name, key=key, nas_identifier=b"pop1")))[0], status
    right = form(name=b"ishmael", key=b"1", nas_identifier=b"pop1")
    stranger = Asker(port)
    peer = "{}:{}".format(*stranger.socket.getsockname())
    yield "a wrong token", stranger.ask(request(right, b"wrong"))[0], 401
    stranger.close()
    yield "a wrong path", asked(port, request(right, path=b"/"))[0], 400
    yield "no field", asked(port, request(b""))[0], 400
    yield "how asks ended", counts(file, "ask_http_"), {
        "accept": 2, "reject_limit": 1, "reject_unknown_account": 1, "reject_disabled_account": 1, "unauthorized": 1, "bad_request": 2,
    }
    yield "and no login", (counts(file, "auth_"), counts(file, "acct_")), ({}, {})
    front = f"refused port=ask_http client={served.HOST}:0 nas=pop1 account="
    wanted = ["ishmael cause=reject_limit held=1/1", "nobody cause=reject_unknown_account", "ahab cause=reject_disabled_account held=0/1"]
    lines = [line for line in said(process, 2) if line.startswith("refused")]
    unauthorized = f"refused port=ask_http client={peer} cause=unauthorized"
    yield "the lines", sorted(lines), sorted([unauthorized, *(front + line for line in wanted)])


def open_strangers(port, octets, is_over):
    """Opens connections one after the other, sends these octets on each, and keeps the last hundred open, until it is over."""
    kept = collections.deque()
    while not is_over.is_set():
        with contextlib.suppress(ConnectionResetError, BrokenPipeError):
            kept.append(socket.create_connection((served.HOST, port), timeout=SECONDS))
            kept[-1].sendall(octets)
        if len(kept) > 100:
            kept.popleft().close()
    for one in kept:
        one.close()


def strangers(port, process):
    """Connections that have shown the token are kept, as FreeRADIUS keeps its own, while others are opened without it in two
    loops."""
    right = request(form(name=b"full", key=b"1", nas_identifier=b"pop1"))
    wrong = request(form(name=b"full", key=b"1", nas_identifier=b"pop1"), b"wrong")
    kept = [Asker(port) for _ in range(KEPT_CONNECTIONS)]
    for number, one in enumerate(kept):
        yield f"connection {number}", one.ask(right), (403, REASONS[403])
    is_over = threading.Event()
    loops = [threading.Thread(target=open_strangers, args=(port, octets, is_over)) for octets in (wrong, wrong[:40])]
    for loop in loops:
        loop.start()
    answers = collections.Counter()
    until = time.monotonic() + STRANGE_SECS
    while time.monotonic() < until:
        answers.update(one.ask(right) for one in kept)
    is_over.set()
    for loop in loops:
        loop.join()
    yield "beside two loops", set(answers), {(403, REASONS[403])}
    said(process, 2)
    for one in kept:
        one.close()


def each_answer(port, file):
    """Each answer there is."""
    yield "an accept", asked(port, request(form(name=b"nemo", key=b"1", nas_identifier=b"pop1")))[0], 200
    first = asked(port, request(form(name=b"nemo", key=b"1", nas_identifier=b"pop1")))
    members = json.loads(first[1])
    [mark] = members["reply:Class"].pop("value")
    yield "its Class", re.fullmatch("0x[0-9a-f]{32}", mark) is not None, True
    yield "what else it has", members, {
        "reply:Class": {"op": "+=", "do_xlat": False},
        "reply:Port-Limit": {"do_xlat": False, "value": ["1"]},
        "reply:Session-Timeout": {"do_xlat": False, "value": ["3600"]},
        "reply:Cisco-AVPair": {"op": "+=", "do_xlat": False, "value": ["a=b", "c=d"]},
        "reply:Framed-Route": {"op": "+=", "do_xlat": False, "value": ["192.0.2.0/28"]},
    }
    again = asked(port, request(form(name=b"nemo", key=b"1", nas_identifier=b"pop1")))
    yield "a repeat", again, first
    yield "has one place", held(file, "nemo"), 1
    yield "beside it", asked(port, request(form(name=b"nemo", key=b"2", nas_identifier=b"pop1"))), (403, REASONS[403])
    yield "nobody", asked(port, request(form(name=b"no", key=b"1", nas_identifier=b"pop1"))), (404, REASONS[404])
    yield "a disabled one", asked(port, request(form(name=b"ahab", key=b"1", nas_identifier=b"p"))), (423, REASONS[423])
    right = form(name=b"full", key=b"1", nas_ip_address=b"192.0.2.7", calling_station_id=b"02-00")
    yield "by its address", asked(port, request(right)), (403, REASONS[403])
    yield from devices(port, file)
    for token in (None, b"", b"wrong", TOKEN[:-1], TOKEN + b"x", TOKEN.upper()):
        yield f"the token {token}", asked(port, request(right, token))[0], 401
    twice = b"Authorization: Bearer " + TOKEN + b"\r\n"
    yield "the token twice", asked(port, request(right, more=twice))[0], 401
    yield "a basic password", asked(port, request(right, None, more=b"Authorization: Basic eA==\r\n"))[0], 401
    for method in (b"GET", b"PUT", b"DELETE"):
        yield f"{method}", asked(port, request(right, method=method))[0], 405
    for path in (b"/", b"/ask/", b"/ask?x", b"/metrics"):
        yield f"{path}", asked(port, request(right, path=path)), (400, "ask at /ask\n")
    yield "with a question first", asked(port, request(right, more=b"Expect: 100-continue\r\n"))[0], 403
    pieces = b"4\r\n" + right[:4] + b"\r\n%x\r\n" % len(right[4:]) + right[4:] + b"\r\n0\r\n\r\n"
    chunked = request(b"", more=b"Transfer-Encoding: chunked\r\n").replace(b"Content-Length: 0\r\n", b"") + pieces
    yield "in pieces", asked(port, chunked)[0], 403
    words = ["nemo", "key=1", "nas_identifier=pop1", file]
    lines = served.asked("ask", *words)
    yield "by the control", (lines[0].splitlines()[1:], lines[2]), (["Port-Limit = 1", "Session-Timeout = 3600", *OWN], 0)
    yield "its Class", lines[0].splitlines()[0], f"Class = {class_of(first)}"
    yield "and beside it", served.asked("ask", "nemo", "key=3", "nas_identifier=x y", file)[1:], ("session limit reached\n", 2)
    yield "without a key", served.asked("ask", "nemo", "nas_identifier=x", file)[1:], ("key: missing\n", 2)
    one = Asker(port)
    for number in range(200):
        yield f"kept {number}", one.ask(request(right)), (403, REASONS[403])
    one.socket.sendall(request(right) * 20)
    yield "one behind the other", [one.answer() for _ in range(20)], [(403, REASONS[403])] * 20
    yield "and the last", one.ask(request(right, more=b"Connection: close\r\n")), (403, REASONS[403])
    yield "which ends it", one.answer(), None
    one.close()


def devices(port, file):
    """A device that dials again, of an account that counts by stations."""

    def dialled(key, station):
        return asked(port, request(form(name=b"dials", key=key, nas_identifier=b"pop1", calling_station_id=station)))

    modem = b"02-00-5E-00-53-01"
    first = dialled(b"1", modem)
    yield "a device", first[0], 200
    yield "another device", dialled(b"2", b"another"), (403, REASONS[403])
    yield "it dials again", dialled(b"3", modem)[0], 200
    yield "its first ask again", dialled(b"1", modem), first
    yield "it has one place", held(file, "dials"), 1
    yield "its station", served.asked("sessions", "dials", file)[0].split()[-1], f"station={modem.decode()}"
    words = ["dials", "key=4", "nas_identifier=pop1", "calling_station_id=another", file]
    yield "another device, by the control", served.asked("ask", *words)[1:], ("session limit reached\n", 2)
    words[1], words[3] = "key=5", f"calling_station_id={modem.decode()}"
    yield "it dials by the control", served.asked("ask", *words)[2], 0


def tokens(folder):
    """Files with a token that no server begins with: others than its owner can do something with it, or it is none."""
    file, path = write_files(folder, served.free_ports(), free_port(), rows=[("nemo", 1, "")]), os.path.join(folder, "token")
    bad = f"{path}:"
    shared = "", f"{bad} others may read or write to it\n", 1
    none = "", f"{bad} no token of 16 to 256 visible characters\n", 1
    for mode in (0o640, 0o620, 0o610, 0o604, 0o602, 0o601):
        os.chmod(path, mode)
        yield f"check: a token of mode {mode:o}", served.asked("check", file, seconds=SECONDS), shared
    os.chmod(path, 0o640)
    yield "run: a token that a group can read", served.asked("run", file, seconds=SECONDS), shared
    os.chmod(path, 0o400)
    yield "check: a token that its owner alone can read", served.asked("check", file, seconds=SECONDS)[2], 0
    os.chmod(path, 0o600)
    for case, octets in (
        ("15 octets", TOKEN[:15]), ("257 octets", b"x" * 257), ("no octet", b""), ("two lines", TOKEN + b"\n\n"),
        ("a space", b"a token of this part"), ("a line's end of two octets", TOKEN + b"\r\n"), ("no ASCII", TOKEN + b"\xe9"),
    ):
        with open(path, "wb") as one:
            one.write(octets)
        yield f"check: a token of {case}", served.asked("check", file, seconds=SECONDS), none
    yield "run: no token", served.asked("run", file, seconds=SECONDS), none


def at_once(port):
    """Connections that ask at once, each for an account of its own, whose accept tells its time: no connection gets the
    answer to an ask of another one. In each turn some are refused, each for a reason of its own."""
    askers = [Asker(port) for _ in range(AT_ONCE)]
    refused = {b"full": 403, b"nobody": 404, b"ahab": 423}
    source = random.Random(SEED)
    for turn in range(ROUNDS):
        names = [source.choice(list(refused)) if source.random() < 0.3 else b"once%d" % number for number in range(AT_ONCE)]
        for one, name in zip(askers, names):
            one.socket.sendall(request(form(name=name, key=b"%d" % turn, nas_identifier=b"pop1")))
        wanted, found = [], []
        for number, (one, name) in enumerate(zip(askers, names)):
            status, text = one.answer() or (None, "")
            wanted.append(refused.get(name) or (200, str(FIRST_TIMEOUT + number)))
            found.append((200, json.loads(text)["reply:Session-Timeout"]["value"][0]) if status == 200 else status)
        yield f"at once, turn {turn}: no answer of another connection", found, wanted
    for one in askers:
        one.close()


def each_field(port):
    """Each field missing, twice, too long and with each octet."""
    right = {b"name": b"full", b"key": b"1", b"nas_identifier": b"pop1", b"nas_ip_address": b"192.0.2.7",
             b"calling_station_id": b"02-00"}
    reader = Reader()
    bodies = []
    for name, most in FIELDS.items():
        others = [(other, value) for other, value in right.items() if other != name]
        bodies += [others, [*right.items(), (name, right[name])], [*others, (name, b"")]]
        if most:
            bodies += [[*others, (name, b"x" * most)], [*others, (name, b"x" * (most + 1))]]
        bodies += [[*others, (name, bytes([octet]))] for octet in range(256)]
    one = Asker(port)
    for fields in bodies:
        body = b"&".join(field + b"=" + encoded(value) for field, value in fields)
        yield f"{body}", one.ask(request(body)), reader.expected(body)
    one.close()


def half_requests(port):
    """Half requests and others that are no request, requests an octet at a time, bodies of a megabyte, and over a hundred
    connections."""
    body = form(name=b"full", key=b"1", nas_identifier=b"pop1")
    whole = request(body)
    held_open = []
    for cut in range(1, len(whole), 7):
        one = socket.create_connection((served.HOST, port), timeout=SECONDS)
        one.sendall(whole[:cut])
        held_open.append(one)
    yield "beside half requests", asked(port, whole), (403, REASONS[403])
    for one in held_open:
        one.close()
    one = Asker(port)
    one.socket.setsockopt(socket.IPPROTO_TCP, socket.TCP_NODELAY, 1)
    for octet in whole:
        one.socket.sendall(bytes([octet]))
    yield "an octet at a time", one.answer(), (403, REASONS[403])
    one.close()
    yield "a megabyte", asked(port, request(b"x" * 1_000_000))[0], 413
    head = request(b"", more=b"Transfer-Encoding: chunked\r\n").replace(b"Content-Length: 0\r\n", b"")
    yield "a megabyte in pieces", asked(port, head + b"fffff\r\n" + b"x" * 0xFFFFF + b"\r\n0\r\n\r\n")[0], 413
    yield "a long head", asked(port, request(body, more=b"X: " + b"x" * 9_000 + b"\r\n"))[0], 431
    yield "many fields", asked(port, request(body, more=b"X: x\r\n" * 100))[0], 431
    yield "a long path", asked(port, request(body, path=b"/" + b"x" * 9_000))[0], 414
    yield "two lengths", asked(port, request(body, more=b"Content-Length: 1\r\n"))[0], 400
    yield "a coding", asked(port, request(body, more=b"Transfer-Encoding: gzip, chunked\r\n"))[0] in (400, 501), True
    for octets in (b"\0" * 100 + b"\r\n\r\n", b"GET\r\n\r\n", os.urandom(2_000) + b"\r\n\r\n", b"\x16\x03\x01\x02\x00\x01\r\n\r\n"):
        yield f"{octets[:8]}", asked(port, octets)[0], 400
    many = [socket.create_connection((served.HOST, port), timeout=SECONDS) for _ in range(130)]
    yield "behind 130 connections", asked(port, whole), (403, REASONS[403])
    for one in many:
        one.close()


def random_forms(port, file, count):
    """Random forms, each against the reader."""
    source, reader = random.Random(SEED), Reader()
    one = Asker(port)
    for number in range(count):
        body = random_form(source)
        status, text = reader.expected(body)
        found = one.ask(request(body))
        if found is None or status == 413:
            one.close()
            one = Asker(port)
        if found is None or found[0] != status or (text is not None and status != 413 and found[1] != text):
            yield f"form {number}: {body}", found, (status, text)
        elif number % 100 == 0:
            yield f"form {number}", True, True
    one.close()
    yield "places of random", held(file, "random"), RANDOM_PLACES - reader.free
    yield "places of nemo", held(file, "nemo"), 1


def killed(process, port, file):
    """A repeat after a kill."""
    before = asked(port, request(form(name=b"nemo", key=b"1", nas_identifier=b"pop1")))
    process.kill()
    process.wait()
    process = served.daemon(file)
    served.greeting(process, SECONDS)
    after = asked(port, request(form(name=b"nemo", key=b"1", nas_identifier=b"pop1")))
    results = [("a repeat across a kill", after, before), ("has one place", held(file, "nemo"), 1)]
    beside = asked(port, request(form(name=b"nemo", key=b"4", nas_identifier=b"pop1")))
    return process, [*results, ("and none beside it", beside, (403, REASONS[403]))]


# ---- how fast


class Many:
    """Connections that ask at once."""

    def __init__(self, port, connections):
        self.ready = select.epoll()
        self.sockets = {}
        for _ in range(connections):
            one = socket.create_connection((served.HOST, port))
            one.setsockopt(socket.IPPROTO_TCP, socket.TCP_NODELAY, 1)
            self.sockets[one.fileno()] = one
            self.ready.register(one, select.EPOLLIN)
        self.begun, self.count = {}, 0

    def send(self, file):
        """Asks on a connection."""
        name = b"speed%d" % (self.count % SPEED_ACCOUNTS)
        self.begun[file] = time.monotonic()
        self.sockets[file].sendall(request(form(name=name, key=b"%d" % self.count, nas_identifier=b"pop1")))
        self.count += 1

    def taken(self, seconds):
        """The connections that were answered within so many seconds, with how long each took."""
        for file, _ in self.ready.poll(seconds):
            octets = self.sockets[file].recv(4_096)
            if not octets.startswith((b"HTTP/1.1 200", b"HTTP/1.1 403")):
                sys.exit(f"not an answer: {octets}")
            yield file, time.monotonic() - self.begun[file]


def speed(port):
    """Prints how many asks are answered in a second, and how long one takes at a pace."""
    many = Many(port, SPEED_CONNECTIONS)
    began = time.monotonic()
    for file in many.sockets:
        many.send(file)
    answered = 0
    while answered < SPEED_ASKS:
        for file, _ in many.taken(1):
            answered += 1
            many.send(file)
    passed = time.monotonic() - began
    print(f"{SPEED_CONNECTIONS} connections: {answered / passed:,.0f} asks a second")
    while len(list(many.taken(0.3))):
        pass
    times, rests, next_at = [], list(many.sockets), time.monotonic()
    while len(times) < 10 * PACED:
        now = time.monotonic()
        while rests and next_at <= now:
            many.send(rests.pop())
            next_at += 1 / PACED
        for file, took in many.taken(max(0, next_at - now) if rests else 0.01):
            rests.append(file)
            times.append(took * 1_000)
    times.sort()
    shown = ", ".join(f"{part}: {times[int(len(times) * part / 100)]:.2f}" for part in (50, 99, 99.9))
    print(f"{PACED:,} asks a second, milliseconds by percentile: {shown}")


def main():
    """Runs all of it."""
    words = sys.argv[1:]
    is_speed = words[:1] == ["--speed"]
    count = int(words[-1]) if words and words[-1].isdigit() else FORMS
    with tempfile.TemporaryDirectory(dir="/dev/shm" if is_speed else None) as folder:
        port = free_port()
        results = [] if is_speed else list(tokens(folder))
        file = write_files(folder, served.free_ports(), port)
        process = served.daemon(file)
        try:
            served.greeting(process, SECONDS)
            if is_speed:
                speed(port)
                return
            results += [*each_end(port, file, process), *strangers(port, process), *each_answer(port, file), *at_once(port)]
            results += [*each_field(port), *half_requests(port), *random_forms(port, file, count)]
            process, more = killed(process, port, file)
            results += more
            results.append(("it runs still", process.poll(), None))
        finally:
            if process.poll() is None:
                process.kill()
            process.wait()
    served.verdict(results)


main()
