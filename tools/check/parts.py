"""The parts of the check that look at programs, each the script of its name in tests/programs, and how they are run: on the
programs that `tools.build.programs` gives them."""

import os
import shutil
import subprocess
import sys
from concurrent.futures import ThreadPoolExecutor
from typing import NamedTuple

from tools.build import programs, repository
from tools.check import comparing
from tools.check.comparing import FAILED, Outcome
from tools.check.running import Part, timed

TOP = repository.TOP

# the programs of the product that parts run
PROGRAMS = ("rsl_app", "radlimitd")


class Script(NamedTuple):
    """The script of a part: the programs and files that it wants, the words of each of its runs, and of one of the shell the
    crate whose program it is given, and the folder where it stands."""

    wants: tuple[str, ...] = ()
    runs: tuple[tuple[str, ...], ...] = ((),)
    asks: str | None = None
    folder: str = os.path.join("tests", "programs")


REST = "/usr/lib/freeradius/rlm_rest.so"  # of Debian's package freeradius-rest

# the parts by the word of --only
PARTS = {
    "examples": Script(),
    "gaps": Script(),
    "quick": Script(),
    "starts": Script(),
    "streams": Script(),
    "sizes": Script(),
    "refused-memory": Script(("cc",)),
    "failing-sockets": Script(("cc",)),
    "failing-daemon": Script(("cc",)),
    "hostile": Script(("cc",), (("100000",), ("--daemon", "100000"))),
    "killed-log": Script(runs=(("30",),)),
    "killed-server": Script(runs=(("30",),)),
    "damage": Script(),
    "changed": Script(),
    "reload": Script(runs=(("40",),)),
    "refusals": Script(),
    "monitoring": Script(),
    "full-disk": Script(("cc",)),
    "backup": Script(runs=(("3",),)),
    "upgrade": Script(),
    "export": Script(),
    "steering": Script(),
    "disconnect": Script(),
    "page": Script(),
    "asks": Script(),
    "unrecorded": Script(),
    "radclient-serve": Script(("radclient",), asks="rsl_app"),
    "radclient-run": Script(("radclient",), asks="radlimitd"),
    "networks": Script(("radclient",), asks="radlimitd"),
    "replies": Script(("radclient",)),
    "behind-freeradius": Script(("freeradius", "radclient"), asks="radlimitd"),
    "radsecproxy": Script(("radsecproxy", "radclient", "openssl"), asks="radlimitd", folder="examples"),
    "freeradius-checks": Script(
        ("freeradius", "radclient", "smbencrypt", "eapol_test", "sqlite3", "openssl", REST), asks="radlimitd"
    ),
    "split": Script(),
    "growing": Script(("freeradius",)),
    "standby": Script(("ip", "unshare", "nsenter", "losetup", "mkfs.ext4", "mount")),
    "package": Script(
        ("lintian", "mmdebstrap", "systemd-nspawn", "systemd-analyze", "man", "dpkg-deb", "radclient", "curl")
    ),
    "launcher": Script(),
}

# the parts that wait as long as an answer takes, the longest first: they run beside one another. Of the others each looks
# at how soon something is answered or ends, or has all processors to itself
PATIENT = (
    "damage", "growing", "package", "reload", "unrecorded", "behind-freeradius", "freeradius-checks", "killed-server",
    "standby", "backup", "killed-log", "split",
)

# the parts that an unproved run tries, the longest first. There none looks at how soon an answer comes, and all run beside
# one another. Each other part takes over a minute on builds that are not proved, since these check each access, and a
# server of 16,384 accounts takes half a minute to start there; or it is about the proofs
SHORT = (
    "streams", "behind-freeradius", "freeradius-checks", "asks", "full-disk", "failing-daemon", "refusals",
    "failing-sockets", "export", "disconnect", "killed-log", "page", "radclient-run", "networks", "radclient-serve",
    "backup", "radsecproxy", "upgrade", "changed", "split", "replies", "quick", "examples", "gaps", "starts", "monitoring",
)

# the UDP ports that they share out, so that a server which is killed and starts again finds its own ports free
PORTS = range(20_000, 32_000)


def missing(script: Script) -> str | None:
    """The first program or file that a script wants and that is not there."""
    return next((name for name in script.wants if not (os.path.exists(name) or shutil.which(name))), None)


def words_of(name: str, script: Script) -> list[str]:
    """The command that runs a script. One of the shell is given the program that it asks."""
    if script.asks is None:
        return [sys.executable, "-B", "-u", "-m", f"tests.programs.{name}"]
    return [os.path.join(TOP, script.folder, f"{name}.sh"), programs.path_of(script.asks)]


def run_once(words: list[str], ports: range | None, is_beside: bool) -> Outcome:
    """One run of a script. What it prints comes line by line, or of one beside others in one piece once it has ended."""
    environment = os.environ | ({"PORTS": f"{ports.start}-{ports.stop}"} if ports else {})
    printed = []
    with subprocess.Popen(
        words, cwd=TOP, env=environment, stdout=subprocess.PIPE, stderr=subprocess.STDOUT, text=True, errors="replace",
    ) as process:
        assert process.stdout is not None
        for line in process.stdout:
            printed.append(line)
            if not is_beside:
                print(line, end="", flush=True)
    if is_beside:
        print("".join(printed), end="", flush=True)
    return comparing.told_by("".join(printed), process.returncode)


def run(name: str, ports: range | None = None, is_beside: bool = False) -> Outcome:
    """A part. Where a program that it wants is not there it is left out."""
    script = PARTS[name]
    if (wanted := missing(script)) is not None:
        return Outcome(0, 0, (f"{name} (no {wanted} here)",))
    try:
        words = words_of(name, script)
    except SystemExit as fault:  # its program is not built
        print(fault)
        return FAILED
    return comparing.total([run_once([*words, *more], ports, is_beside) for more in script.runs])


def run_beside(names: tuple[str, ...], lanes: int) -> list[Part]:
    """Parts side by side, on as many lanes as given, over ports of their own."""
    share = len(PORTS) // len(names)
    with ThreadPoolExecutor(lanes) as pool:
        works = [
            pool.submit(timed, name, run, name, PORTS[at * share : (at + 1) * share], True) for at, name in enumerate(names)
        ]
        return [work.result() for work in works]


def run_short() -> list[Part]:
    """The parts of an unproved run: one more at once than there are processors, since each waits most of the time."""
    return run_beside(SHORT, len(os.sched_getaffinity(0)) + 1)


def run_proved() -> list[Part]:
    """Every part on the proved programs: first the patient ones, as many at once as leave a processor free, and then the
    others, one by one."""
    found = run_beside(PATIENT, max(1, len(os.sched_getaffinity(0)) - 1))
    return found + [timed(name, run, name) for name in PARTS if name not in PATIENT]
