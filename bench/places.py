"""Has `radlimitd run` answer 900,000 logins over 16,000 accounts of 32 places, by two receivers on each socket: exactly
as many are accepted as there are places, and each other one is rejected.

usage: python3 -m bench.places
It wants Linux, a C compiler and the built program.
"""

import os
import re
import subprocess
import sys
import tempfile

from tests.lib import served

SECRET, PASSWORD = b"testing123", b"pw-common"
ACCOUNTS, PLACES, LOGINS = 16_000, 32, 900_000
RECEIVERS = 2
WINDOW = 256  # logins in flight
RESERVE, KEEP = 86_400, 60
WAIT = 60  # seconds in which a server has to begin


def answers(folder, ports):
    """How many logins were accepted and rejected, and the seconds that all took."""
    words = [served.built(folder, "load"), "auth-pap", "-a", ports[0], "-c", ports[1], "-t", str(LOGINS)]
    words += ["-n", str(ACCOUNTS), "-d", "3600", "-w", str(WINDOW), "-s", SECRET, "-p", PASSWORD]
    done = subprocess.run(words, capture_output=True, text=True, check=False)
    found = dict(re.findall(r"(\w+)=([0-9.]+)\b", done.stdout))
    if done.returncode != 0:
        sys.exit(f"places: the generator says: {done.stderr}{done.stdout}")
    return int(found["accept"]), int(found["reject"]), float(found["wall_s"])


def main():
    if sys.argv[1:]:
        sys.exit(__doc__)
    with tempfile.TemporaryDirectory() as folder:
        accounts = [(f"u{number:06}", PASSWORD, PLACES, 1) for number in range(1, ACCOUNTS + 1)]
        served.account_file(
            os.path.join(folder, "accounts.toml"), [(served.HOST, SECRET, False)], accounts, shards=4,
            reserve=RESERVE, keep=KEEP,
        )
        ports = served.free_ports()
        server = served.daemon(served.daemon_file(folder, ports, RECEIVERS))
        try:
            served.greeting(server, WAIT)
            accepted, rejected, seconds = answers(folder, ports)
        finally:
            server.kill()
            server.communicate()
    print(f"{accepted} accepted, {rejected} rejected, {LOGINS / seconds:.0f} a second")
    if (accepted, rejected) != (ACCOUNTS * PLACES, LOGINS - ACCOUNTS * PLACES):
        sys.exit(f"there are {ACCOUNTS * PLACES} places for {LOGINS} logins")


if __name__ == "__main__":
    main()
