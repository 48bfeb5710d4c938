"""What scripts share that measure how long an answer waits while `radlimitd run` does something else: 16,384
accounts of one place that each hold a session, a flood of Interim-Updates, and one more access server beside it, which
asks, a request after the other."""

import os
import re
import socket
import subprocess
import sys
import threading
import time

from tests.lib import served

SECRET, PASSWORD = b"testing123", b"pw-common"
ACCOUNTS = 16_384
WINDOW = 64  # Interim-Updates in flight
NAMES = [f"u{number:06}" for number in range(1, ACCOUNTS + 1)]
RECEIVERS = 2
WAIT = 60  # seconds in which a server has to begin

Span = tuple[float, float]  # from a moment to another


def account_file(folder: str, names: list[str] = NAMES) -> None:
    """Writes the account file, with the accounts in this order."""
    served.account_file(
        os.path.join(folder, "accounts.toml"), [(served.HOST, SECRET, False)],
        [(name, PASSWORD, 1, 1) for name in names], shards=4, reserve=86_400, keep=60, live=86_400,
    )


class Asker(threading.Thread):
    """An access server that asks for a login, again and again, and times each answer."""

    def __init__(self, ports: list[str]) -> None:
        super().__init__(daemon=True)
        self.waits: list[Span] = []
        self.port, self.lost, self.is_over = int(ports[0]), 0, False

    def run(self) -> None:
        name = served.attribute(1, NAMES[0].encode()) + served.attribute(32, b"asker")
        with socket.socket(socket.AF_INET, socket.SOCK_DGRAM) as one:
            one.connect((served.HOST, self.port))
            one.settimeout(5)
            number = 0
            while not self.is_over:
                number += 1
                request = served.access_request(number % 256, SECRET, name, number.to_bytes(16, "big"), PASSWORD)
                began = time.monotonic()
                one.send(request)
                try:
                    while not served.is_answer(one.recv(4096), request, SECRET):
                        pass
                    self.waits.append((began, time.monotonic()))
                except TimeoutError:
                    self.lost += 1

    def end(self) -> None:
        """Has it end."""
        self.is_over = True
        self.join()

    def within(self, span: Span) -> list[Span]:
        """The waits that have a moment in common with a span."""
        return [wait for wait in self.waits if wait[1] > span[0] and wait[0] < span[1]]

    def beside(self, spans: list[Span]) -> list[Span]:
        """Those that have none in common with any of these."""
        within = {wait for span in spans for wait in self.within(span)}
        return [wait for wait in self.waits if wait not in within]


def longest(waits: list[Span]) -> float:
    """The longest of some waits, in ms."""
    return max(((end - began) * 1000 for began, end in waits), default=0.0)


def loaded(tool: str, mode: str, ports: list[str], total: int, seconds: int, *others: str) -> dict[str, float]:
    """Has the generator send so many requests for all accounts, for so many seconds at most: what it says of them, and
    how many were answered."""
    words = [tool, mode, "-a", ports[0], "-c", ports[1], "-t", str(total), "-n", str(ACCOUNTS), "-d", str(seconds)]
    words += ["-w", str(WINDOW), "-s", SECRET.decode(), "-p", PASSWORD.decode(), *others]
    done = subprocess.run(words, capture_output=True, text=True, check=False)
    if done.returncode not in (0, 1):
        sys.exit(f"the generator says: {done.stderr}{done.stdout}")
    found = {word: float(number) for word, number in re.findall(r"(\w+)=([0-9.]+)\b", done.stdout)}
    return found | {"answered": int(found["accept"] + found["acct_response"])}


def opened(tool: str, ports: list[str]) -> int:
    """Has each account hold a session: how many do."""
    return int(loaded(tool, "open", ports, ACCOUNTS, 120)["answered"]) // 2
