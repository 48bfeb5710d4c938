"""What a running `radlimitd` shows of itself where something is not as it should be: that its clock went back, and what its
archive has, which may have a size. Each looks at the lines of standard error, at `status`, at its JSON, at the metrics and
at `/health`."""

import contextlib
import http.client
import json
import os
import re
import select
import time
from typing import Any

from tests.lib import served

SECRET, PASSWORD = b"testing123", b"arctangent"
SECONDS = 15  # in which something has to be shown
AHEAD = 55  # seconds by which a clock is ahead at first
HALF = 600_000  # octets of a log of which two do not fit into a megabyte


class Shown:
    """A server with a page, in a folder of its own."""

    def __init__(self, folder: str, more: str = "", environment: dict[str, str] | None = None) -> None:
        self.folder, self.ports, self.web = folder, served.free_ports(), int(served.free_ports()[0])
        accounts = [("nemo", PASSWORD, 2, 1)]
        served.account_file(
            os.path.join(folder, "accounts.toml"), [(served.HOST, SECRET, False)], accounts, shards=1, reserve=5, keep=5
        )
        self.file = served.daemon_file(folder, self.ports, 1)
        with open(self.file, "a", encoding="ascii") as file:
            file.write(f"{more}\n[web]\nport = {self.web}\n")
        self.environment = os.environ | (environment or {})
        self.start()

    def start(self) -> None:
        """Starts it."""
        self.process, self.text = served.daemon(self.file, self.environment), ""
        assert self.process.stderr is not None
        self.stderr = self.process.stderr
        os.set_blocking(self.stderr.fileno(), False)
        self.says(f"^{served.GREETING.pattern}")

    def kill(self) -> None:
        """Kills it."""
        self.process.kill()
        self.process.communicate()

    def says(self, wanted: str) -> re.Match[str] | None:
        """The first line that it writes which a pattern finds, if it comes in time."""
        until = time.monotonic() + SECONDS
        while not (found := re.search(wanted, self.text, re.M)) and time.monotonic() < until:
            select.select([self.stderr], [], [], 0.2)
            self.text += (self.stderr.read() or b"").decode()
        return found

    def fetched(self, path: str) -> tuple[int, str]:
        """The status and the text of a path."""
        one = http.client.HTTPConnection(served.HOST, self.web, timeout=SECONDS)
        one.request("GET", path)
        reply = one.getresponse()
        return reply.status, reply.read().decode()

    def metric(self, name: str) -> int:
        """A number of the metrics."""
        found = re.search(rf"^{name} (\d+)$", self.fetched("/metrics")[1], re.M)
        assert found is not None, name
        return int(found[1])

    def status(self) -> tuple[str, dict[str, Any]]:
        """The lines of `status`, and its object."""
        text, lines = served.asked("status", self.file)[0], served.asked("status", "--json", self.file)[0].splitlines()
        return text, json.loads(lines[0])

    def held(self) -> int:
        """How many places are held."""
        return self.status()[1]["held"]

    def tells(self, logs: list[str], octets: int) -> bool:
        """Whether it shows in each place that the archive has so many logs, of so many octets."""
        (text, members), wanted = self.status(), (len(logs), octets)
        line = f"archive: {len(logs)} logs, {octets} octets" in text.splitlines()
        metrics = self.metric("radlimitd_archive_logs"), self.metric("radlimitd_archive_octets")
        return line and (members["archive_logs"], members["archive_octets"]) == wanted == metrics

    def login(self) -> bool:
        """Whether a login is answered."""
        request = served.access_request(1, SECRET, served.attribute(1, b"nemo"), bytes(16), PASSWORD)
        return served.first_answer(self.ports[0], request, SECRET, SECONDS)


def is_near(number: float, wanted: float) -> bool:
    """Whether a number of seconds is what was wanted, or a few less: time goes on."""
    return wanted - SECONDS <= number <= wanted + 1


def of_clock(server: Shown) -> tuple[list[Any], tuple[int, str]]:
    """What is shown of a clock: whether it is behind, by about AHEAD seconds, in each place, and the health."""
    text, found = server.status()
    line = re.search(r"^CLOCK BEHIND by (\d+) s: no deadline passes until it is there$", text, re.M)
    numbers = [int(line[1]) if line else 0, found["clock_behind"], server.metric("radlimitd_clock_behind_seconds")]
    shown = [number and is_near(number, AHEAD) for number in numbers]
    return shown, server.fetched("/health")


def clock(folder: str, library: str) -> list[Any]:
    """What is shown of a clock that is ahead, goes back, and is set right again; and of a start while it is back."""
    shift = os.path.join(folder, "shift")

    def set_to(seconds: int) -> None:
        with open(f"{shift}.new", "w", encoding="ascii") as file:
            file.write(str(seconds))
        os.rename(f"{shift}.new", shift)

    set_to(AHEAD)
    server = Shown(folder, environment={"LD_PRELOAD": library, "SHIFT": shift})
    try:
        found: list[Any] = [server.login(), of_clock(server)]
        set_to(0)
        line = server.says(r"^clock went back (\d+) s: no deadline passes until it is there again$")
        time.sleep(2)  # what a page shows is at most a second old
        found += [line is not None and is_near(int(line[1]), AHEAD), of_clock(server)]
        # a reservation of five seconds does not end meanwhile
        time.sleep(6)
        found.append(server.held())
        server.kill()
        server.start()
        found.append(bool(server.says(r"^clock went back \d+ s: ")))
        set_to(AHEAD)
        found.append(bool(server.says(r"^clock is there again$")))
        time.sleep(2)
        found += [of_clock(server), server.held(), len(re.findall(r"^clock ", server.text, re.M))]
    finally:
        server.kill()
    return found


IS_WELL, IS_BACK = (200, "ok\n"), (503, "clock behind\n")
CLOCK = [True, ([0, 0, 0], IS_WELL), True, ([True] * 3, IS_BACK), 1, True, True, ([0, 0, 0], IS_WELL), 0, 2]


def of_archive(archived: str) -> tuple[list[str], int]:
    """The logs of an archive, and their octets. The server may take one away while they are listed."""
    logs: dict[str, int] = {}
    for name in sorted(os.listdir(archived)) if os.path.exists(archived) else []:
        with contextlib.suppress(FileNotFoundError):
            logs[name] = os.path.getsize(os.path.join(archived, name))
    return list(logs), sum(logs.values())


# the oldest goes for the second of HALF octets, and so on
ARCHIVE = [([f"log-{at}" for at in range(max(1, number - 1), number + 1)], True, True) for number in range(1, 6)]


def shown_of_archive(server: Shown, archived: str) -> tuple[list[str], bool, bool]:
    """What logs an archive has, whether they are within a megabyte, and whether the server tells of them."""
    logs, octets = of_archive(archived)
    return logs, octets <= 1_000_000, server.tells(logs, octets)


def archive(folder: str) -> list[tuple[list[str], bool, bool]]:
    """What an archive has that may have a megabyte, as the folder and the server tell, after each of some starts. A log has
    HALF octets once it was put away. A start puts logs away while it serves, so what is wanted is waited for."""
    archived, found = os.path.join(folder, "state", "archive"), []
    server = Shown(folder, "archive_megabytes = 1")
    for number, wanted in enumerate(ARCHIVE, 1):
        server.kill()
        server.start()
        until = time.monotonic() + SECONDS
        while (shown := shown_of_archive(server, archived)) != wanted and time.monotonic() < until:
            time.sleep(0.2)
        found.append(shown)
        os.truncate(os.path.join(archived, f"log-{number}"), HALF)
    server.kill()
    return found
