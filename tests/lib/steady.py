"""A load for `radlimitd run` that says what is lost: access servers that log in and out, each over an account of its own,
by what the sessions of that account say. Each datagram is sent once."""

import contextlib
import itertools
import multiprocessing
import os
import selectors
import socket
import struct
import time
from collections.abc import Generator, Iterator
from multiprocessing.connection import Connection
from typing import Any

from tests.lib import served

CLIENT, SECRET = served.HOST, b"load"
NAMES = [f"load{number}" for number in range(8)]
WAIT = 20  # seconds in which an answer has to come

# a request: the kind of accounting or 0, its further attributes, and the accept number of its answer, if it has one
Step = tuple[int, bytes, int | None]


def number_of(reply: bytes) -> int | None:
    """The accept number of an answer, None where it is a reject."""
    classes = [value for kind, value in served.attributes_of(reply) if kind == 25]
    return struct.unpack(">QQ", classes[0])[1] if reply[0] == 2 else None


class Member:
    """An access server of the load, with an account of its own: each datagram is sent once."""

    def __init__(self, name: str, ports: list[str]) -> None:
        self.name, self.ports, self.number = name, [int(port) for port in ports], 0
        self.socket = socket.socket(socket.AF_INET, socket.SOCK_DGRAM)
        self.socket.bind((CLIENT, 0))
        self.socket.setblocking(False)
        self.attributes = served.attribute(1, name.encode()) + served.attribute(32, name.encode())
        self.steps = self.sessions()
        self.count, self.answers = 0, 0
        self.wrong: list[str] = []
        self.send(next(self.steps))

    def sessions(self) -> Generator[Step, bytes | None, None]:
        """One session after the other: what is sent, and which answer it should get."""
        for number in itertools.count():
            accepted = yield 0, b"", number
            assert accepted is not None
            more = served.attribute(44, b"s%d" % number) + served.attribute(25, accepted)
            yield 0, b"", None
            yield served.START, more, None
            yield 0, b"", None
            yield served.INTERIM, more, None
            yield served.STOP, more, None

    def send(self, step: Step) -> None:
        """Sends what is next."""
        self.step, self.number = step, (self.number + 1) % 256
        status, more, _ = step
        if status:
            self.octets = served.accounting_request(self.number, SECRET, status, self.attributes + more)
        else:
            self.octets = served.access_request(self.number, SECRET, self.attributes, os.urandom(16), SECRET)
        self.sent, self.count = time.monotonic(), self.count + 1
        self.socket.sendto(self.octets, (served.HOST, self.ports[status > 0]))

    def take(self) -> None:
        """Takes an answer, and goes on."""
        reply = self.socket.recv(4096)
        status, _, number = self.step
        found = served.is_answer(reply, self.octets, SECRET) and (reply[0], number_of(reply))
        self.answers += 1
        if found != (5 if status else 3 if number is None else 2, number):
            self.wrong.append(f"{self.name}, answer {self.answers}: {found}")
            return
        marks = [value for kind, value in served.attributes_of(reply) if kind == 25]
        self.send(self.steps.send(marks[0] if marks else None))


def load(ports: list[str], pipe: Connection) -> None:
    """The load, in a process of its own: asks until the pipe says so, and tells what came of it."""
    members, ready = [Member(name, ports) for name in NAMES], selectors.DefaultSelector()
    for member in members:
        ready.register(member.socket, selectors.EVENT_READ, member)
    lost = 0
    while not pipe.poll():
        for key, _ in ready.select(WAIT / 10):
            key.data.take()
        lost = sum(time.monotonic() - member.sent > WAIT and not member.wrong for member in members)
        if lost or any(member.wrong for member in members):
            break
        time.sleep(0.001)
    # what is under way is answered
    until = time.monotonic() + WAIT
    waiting = {member for member in members if not member.wrong}
    while waiting and time.monotonic() < until:
        for key, _ in ready.select(0.1):
            reply = key.data.socket.recv(4096)
            if served.is_answer(reply, key.data.octets, SECRET):
                waiting.discard(key.data)
    pipe.send((sum(member.count for member in members), len(waiting), [text for one in members for text in one.wrong]))


@contextlib.contextmanager
def beside(ports: list[str]) -> Iterator[list[Any]]:
    """Has the load ask a server. Gives a list, into which comes what came of it: how many datagrams it has sent, how many
    of them were lost, and the wrong answers."""
    here, there = multiprocessing.Pipe()
    process = multiprocessing.Process(target=load, args=(ports, there), daemon=True)
    process.start()
    found: list[Any] = []
    try:
        yield found
    finally:
        here.send("end")
        with contextlib.suppress(EOFError):
            found += here.recv() if here.poll(3 * WAIT) else ("nothing",)
        process.join(WAIT)
