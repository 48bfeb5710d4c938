"""What scripts of tests/programs share that ask `radlimit serve` or `radlimitd run`: the server as a process, and an access
server, whose octets Python's hashlib and hmac make. It wants Linux."""

import contextlib
import os
import re
import select
import signal
import socket
import subprocess
import sys
import tempfile
import time
from collections.abc import Callable, Iterable
from typing import Any

from tests.lib.packets import (  # noqa: F401
    INTERIM, MESSAGE_AUTHENTICATOR, PASSWORD, REQUEST, SECRET, START, STOP, access_request, accounting_request, attribute,
    attributes_of, hidden, is_answer,
)
from tests.lib.ports import FIRST_PORT, PORTS_END, UNUSED, are_bound, free_ports, udp_sockets  # noqa: F401
from tests.lib.rows import one_that_passes, verdict  # noqa: F401
from tools.build.programs import in_time, path_of, patience  # noqa: F401
from tools.build.repository import TOP

PROGRAM = path_of("rsl_app")
DAEMON = path_of("radlimitd")
HOST = "127.0.0.1"
# what a `radlimitd` says that its start has found, and how many sessions have a place
GREETING = re.compile(r"(?:new history|generation \d+): (\d+) sessions")
COUNTS = re.compile(r"^(auth|acct) received (\d+) answered (\d+) dropped (\d+) refused (\d+) unsent (\d+)$", re.M)

# a server refuses an account file that everybody may read
os.umask(0o077)

POLICIES = ("always", "second", "never")  # of the key `sync` of a server's file

DAEMON_FILE = """accounts = "accounts.toml"
state = "state"
listen = [{{ address = "{}", auth = {}, acct = {}, receivers = {} }}]
sync = "{}"
"""

HEAD = """version = 1
shards = {shards}
reserve_secs = {reserve}
live_secs = {live}
grace_secs = {grace}
closed_secs = {closed}
keep_secs = {keep}
"""


def account_file(
    path: str, clients: Iterable[tuple[str, bytes, bool]], accounts: Iterable[tuple[str, bytes, int, int]], live: int = 900,
    grace: int = 900, closed: int = 3600, **numbers: int,
) -> str:
    """Writes an account file, and gives its name: of clients with their secrets and whether they have to sign, and of
    accounts with their passwords, places and ports. The numbers are those that HEAD leaves open."""
    with open(path, "w", encoding="ascii") as file:
        file.write(HEAD.format(live=live, grace=grace, closed=closed, **numbers))
        for address, secret, signed in clients:
            file.write(f'[[client]]\naddress = "{address}"\nsecret = "{secret.decode()}"\n')
            file.write(f"signed = {str(signed).lower()}\n")
        for name, password, places, ports in accounts:
            file.write(f'[[account]]\nname = "{name}"\npassword = "{password.decode()}"\n')
            file.write(f"places = {places}\nports = {ports}\n")
    return path


class Server:
    """A server that runs. Where it does not end by itself it is ended by its process id."""

    def __init__(self, file: str, turns: int, environment: Callable[[list[str]], dict[str, str]] | None = None) -> None:
        """Starts it, in the environment that a function of its ports gives, or in this process's."""
        for _ in range(10):
            self.ports = free_ports()
            self.outputs = [tempfile.TemporaryFile() for _ in range(2)]
            self.start(file, turns, environment)
            # another program may take a port in between
            if self.process.poll() is None or not any(int(port) in udp_sockets() for port in self.ports):
                return
            self.close()

    def start(self, file: str, turns: int, environment: Callable[[list[str]], dict[str, str]] | None) -> None:
        """Starts the process, and waits until it has its sockets."""
        stdout, stderr = self.outputs
        words = [PROGRAM, "serve", file, HOST, *self.ports, str(turns)]
        given = environment(self.ports) if environment else None
        self.process = subprocess.Popen(words, stdin=subprocess.DEVNULL, stdout=stdout, stderr=stderr, env=given)
        while self.process.poll() is None and not are_bound(self.ports):
            time.sleep(0.002)

    def close(self) -> None:
        """Closes what it wrote to."""
        for output in self.outputs:
            output.close()

    def __enter__(self) -> "Server":
        return self

    def __exit__(self, *_: object) -> None:
        if self.process.poll() is None:
            self.process.send_signal(signal.SIGKILL)
            self.process.wait()
        self.close()

    def ended(self, seconds: float) -> tuple[Any, ...]:
        """The status, standard output and standard error of a server that ends within so many seconds."""
        status: int | str
        try:
            status = self.process.wait(seconds)
        except subprocess.TimeoutExpired:
            status = "goes on"
        texts = list[str]()
        for output in self.outputs:
            output.seek(0)
            texts.append(output.read().decode())
        return status, *texts

    def resident(self) -> int:
        """The octets that are resident."""
        return resident(self.process)


def daemon_file(folder: str, ports: list[str], receivers: int, sync: str = "always") -> str:
    """Writes the file of a `radlimitd` whose account file is accounts.toml of the folder, and gives its name."""
    path = os.path.join(folder, "radlimitd.toml")
    with open(path, "w", encoding="ascii") as file:
        file.write(DAEMON_FILE.format(HOST, *ports, receivers, sync))
    return path


def daemon(file: str, environment: dict[str, str] | None = None) -> subprocess.Popen[bytes]:
    """A `radlimitd` of this file that has begun, in this environment or in this process's: the process."""
    words = [DAEMON, "run", file]
    return subprocess.Popen(words, stdin=subprocess.DEVNULL, stderr=subprocess.PIPE, env=environment)


# what a program prints and says, and its status, if it ends
Asked = tuple[str, str, int | None]

# a line that a `radlimitd` says before what its start has found
FIRST_LINE = re.compile(
    r"^(?:radlimitd \d.*|answers at .*|files .* and .*|state in .*|control at .*|page at .*|asks at .*"
    r"|accounts \d+, clients \d+)\n",
    re.M,
)


def but_first_lines(text: str) -> str:
    """What a `radlimitd` said besides the lines before what its start has found."""
    return FIRST_LINE.sub("", text)


def found_line(process: subprocess.Popen[bytes]) -> str:
    """What a `radlimitd` that has begun to speak says its start has found, or why it does not start."""
    assert process.stderr is not None
    while FIRST_LINE.match(line := process.stderr.readline().decode()):
        pass
    return line


def greeting(process: subprocess.Popen[bytes], seconds: float) -> str:
    """What a `radlimitd` says that it has found once it serves; it has so many seconds for that."""
    if not select.select([process.stderr], [], [], seconds)[0]:
        process.kill()
        sys.exit(f"radlimitd has not begun within {seconds} seconds")
    return found_line(process)


def asked(*words: str, seconds: float = patience(60)) -> Asked:
    """What a `radlimitd` that is asked something prints, and what it says: on standard output and on standard error, and
    its status. One that goes on after so many seconds is killed, and has no status."""
    try:
        run = subprocess.run([DAEMON, *words], capture_output=True, timeout=seconds, check=False)
    except subprocess.TimeoutExpired:
        return "", f"it goes on after {seconds} seconds\n", None
    return run.stdout.decode(), run.stderr.decode(), run.returncode


def but_refusals(text: str) -> str:
    """What a `radlimitd` said besides the lines of what it refused."""
    return re.sub(r"^(?:refused|\d+ more refused) port=.*\n", "", text, flags=re.M)


class Repeater:
    """An access server that sends all its requests at once, and repeats each until it is answered. A request is the
    place of its port and octets."""

    AGAIN = 0.3  # seconds

    def __init__(self, requests: list[tuple[int, bytes]], secret: bytes) -> None:
        self.requests, self.secret = requests, secret
        self.sockets = [socket.socket(socket.AF_INET, socket.SOCK_DGRAM) for _ in range(2)]
        for one in self.sockets:
            one.bind((HOST, 0))
            one.setblocking(False)

    def ask(self, ports: list[str], process: subprocess.Popen[bytes], seconds: float) -> dict[int, bytes]:
        """The answers, by the places of their requests. It asks until all are answered, the process ends, or so many
        seconds have passed."""
        answers, until = dict[int, bytes](), time.monotonic() + seconds
        while len(answers) < len(self.requests) and process.poll() is None and time.monotonic() < until:
            for place, (at, octets) in enumerate(self.requests):
                if place not in answers:
                    self.sockets[at].sendto(octets, (HOST, int(ports[at])))
            again = time.monotonic() + self.AGAIN
            while (left := again - time.monotonic()) > 0 and len(answers) < len(self.requests):
                for one in select.select(self.sockets, [], [], left)[0]:
                    self.take(one, answers)
        return answers

    def take(self, one: socket.socket, answers: dict[int, bytes]) -> None:
        """Takes a datagram."""
        with contextlib.suppress(BlockingIOError):
            reply = one.recv(4096)
            for place, (at, octets) in enumerate(self.requests):
                if self.sockets[at] is one and is_answer(reply, octets, self.secret):
                    answers.setdefault(place, reply)

    def close(self) -> None:
        """Closes its sockets."""
        for one in self.sockets:
            one.close()


def first_answer(port: str | int, request: bytes, secret: bytes, seconds: float) -> bool:
    """Asks a server that has just bound its sockets: whether the right answer comes within so many seconds."""
    with socket.socket(socket.AF_INET, socket.SOCK_DGRAM) as one:
        one.settimeout(seconds)
        one.connect((HOST, int(port)))
        one.send(request)
        try:
            return is_answer(one.recv(4096), request, secret)
        except OSError:
            return False


def text_of(path: str) -> str:
    """The text of a file."""
    with open(path, encoding="utf-8") as file:
        return file.read()


def resident(process: subprocess.Popen[bytes]) -> int:
    """The octets that are resident of a process."""
    with open(f"/proc/{process.pid}/status", encoding="ascii") as status:
        found = re.search(r"VmRSS:\s+(\d+) kB", status.read())
    assert found is not None
    return 1024 * int(found[1])


def built(folder: str, name: str, *words: str) -> str:
    """A program of this folder or of bench/, built by the C compiler."""
    path = os.path.join(folder, name)
    lib = os.path.join(TOP, "tests", "lib")
    source = next(filter(os.path.isfile, (os.path.join(at, f"{name}.c") for at in (lib, os.path.join(TOP, "bench")))))
    subprocess.run(["cc", "-O2", "-Wall", "-Wextra", "-pthread", "-I", lib, *words, "-o", path, source], check=True)
    return path
