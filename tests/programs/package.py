"""Builds the Debian package of the proved programs twice, and installs it on a fresh Debian in memory.

Both builds have the same octets. lintian has nothing to say of the package, man of its pages, and systemd-analyze of its
unit, whose exposure is at most 1.5. The pages name each command of `radlimitd help`, and each key that the readers of both
files know. The steps of docs/OPERATING.md ("The first ten minutes") are done one after the other, and each prints what
it shows: also where an account is added while the server runs. A wrong account file is refused by `systemctl reload`, and
the server goes on. A start waits until the server is ready, and fails where it must have a history and has none. Who is
in a group may ask it, once what the document says of that is done, and nobody else may. The package is installed again,
over an edited file and beside the server; it is removed, which leaves files and state; and it is purged, which takes
them. packaging/verify finds one changed octet.

The fresh Debian runs systemd in a container, with a network of its own. Where none starts, the server is started without
one, as the user that the package made.

usage: python3 -m tests.programs.package
It wants root, the built programs, and Debian's packages lintian, mmdebstrap, systemd-container, man-db, freeradius-utils
and curl.
"""

import contextlib
import os
import re
import shutil
import signal
import subprocess
import sys
import tempfile
import time

from tools.build.programs import path_of
from tools.build.repository import TOP

PACKAGING = os.path.join(TOP, "packaging")
PAGES = ["radlimit.8", "radlimit-split.8", "radlimitd.8", "radlimitd.conf.5", "radlimit-accounts.5"]

RADLIMITD = path_of("radlimitd")
FILE = "/etc/radlimit/radlimitd.toml"
EXPOSURE = 15  # tenths, the most that systemd-analyze may find
SUITE = "bookworm"
BOOT = 60  # seconds, the most that systemd may take to start

# the steps of the document: each block of its section, and in a block each command with what it prints
SECTION = re.compile(r"^## The first ten minutes\n(.*?)^## ", re.M | re.S)
# where it says how a group may ask the server: what the unit gets, and the server's file
OTHERS = re.compile(r"^### Let others ask\n(.*?)^### ", re.M | re.S)
DROP_IN = "/etc/systemd/system/radlimitd.service.d"
BLOCK = re.compile(r"^```\n(.*?)^```", re.M | re.S)
STEP = re.compile(r"^# (.*\n)((?:(?!# ).*\n)*)", re.M)

# a stand-in for `rt`, for packaging/verify: it proves nothing, and builds what is built
STAND_IN = """#!/bin/sh
case "$1" in
    version | doc | help) exec {rt} "$@" ;;
    ci)
        for name in rsl_app radlimitd; do
            mkdir -p "crates/$name/out" && cp "{crates}/$name/out/$name" "crates/$name/out" || exit 1
        done
        echo "2 passed, 0 failed" ;;
esac
"""

# a command of `radlimitd help`, and a key of a file, where its reader spells it
COMMAND = re.compile(r"^    radlimitd ([a-z]+)", re.M)
KEY = re.compile(r'^ +(?:Key|Field)::\w+ => "(\w+)",$', re.M)
KEYS = (("rsl_accounts", "field.rt", "radlimit-accounts.5"), ("rld_config", "key.rt", "radlimitd.conf.5"))

# a command that asks over the network: a program of this machine, since the server's need not have it
ASKS = re.compile(r"\b(?:radclient|curl) ")

# one that only looks, and may be given again until it prints what is shown
LOOKS = re.compile(r"^(?:radlimitd status|journalctl) ")
PATIENCE = 30  # seconds


def output(*words, **given):
    """The status of a command, and what it prints on both streams."""
    run = subprocess.run(
        words, stdin=subprocess.DEVNULL, stdout=subprocess.PIPE, stderr=subprocess.STDOUT, check=False, **given
    )
    return run.returncode, run.stdout.decode(errors="replace")


def text_of(*names):
    """The text of a file of the repository."""
    with open(os.path.join(TOP, *names), encoding="utf-8") as file:
        return file.read()


def octets_of(path):
    """The octets of a file."""
    with open(path, "rb") as file:
        return file.read()


class Results:
    """What was looked at, and how often it was wrong."""

    def __init__(self):
        self.all, self.wrong = 0, 0

    def want(self, what, found, expected):
        """Notes whether something is as it should be."""
        self.all += 1
        if found != expected:
            self.wrong += 1
            print(f"package: {what}\nexpected: {expected!r}\nfound:    {found!r}", flush=True)


def build(folder):
    """Builds the package into a new folder: its path."""
    os.makedirs(folder)
    words = [os.path.join(PACKAGING, "build-deb"), folder]
    run = subprocess.run(words, check=False, stdout=subprocess.PIPE, text=True)
    return run.stdout.strip() if run.returncode == 0 else sys.exit("package: the package is not built")


def try_package(results, folder):
    """Builds it twice, and looks at what is built: the path of the package."""
    path, again = (build(os.path.join(folder, name)) for name in ("one", "two"))
    results.want("two builds have the same octets", octets_of(path) == octets_of(again), True)
    results.want("lintian", output("lintian", "--fail-on", "error,warning", "--allow-root", path), (0, ""))
    return path


def try_pages(results):
    """The manual pages, and whether they name all that there is."""
    for name in PAGES:
        told = subprocess.run(
            ["man", "--warnings", "-E", "UTF-8", "-l", "-Tutf8", "-Z", os.path.join(TOP, "docs", name)],
            stdout=subprocess.DEVNULL, stderr=subprocess.PIPE, check=False,
            env={**os.environ, "MANWIDTH": "80", "LC_ALL": "C.UTF-8"},
        )
        results.want(f"warnings of {name}", (told.returncode, told.stderr), (0, b""))
    page = text_of("docs", "radlimitd.8")
    for command in COMMAND.findall(output(RADLIMITD, "help")[1]):
        results.want(
            f"radlimitd.8 has {command}", re.search(rf"^\.BI? \"?radlimitd {command}\b", page, re.M) is not None, True
        )
    for crate, file, name in KEYS:
        keys, words = set(KEY.findall(text_of("crates", crate, "src", file))), set(re.findall(r"\w+", text_of("docs", name)))
        results.want(f"keys of {crate}", len(keys) > 10, True)
        for key in keys:
            results.want(f"{name} has {key}", key in words, True)


class Machine:
    """A fresh Debian in a folder, which runs as a container or, where none starts, as a process that has its place."""

    def __init__(self, folder):
        self.folder, self.process, self.first = folder, None, None

    def begin(self, *words):
        """Starts what its first process is the child of, and waits for that."""
        self.process = subprocess.Popen(
            words, stdin=subprocess.DEVNULL, stdout=subprocess.DEVNULL, stderr=subprocess.DEVNULL
        )
        while self.process.poll() is None and not self.first:
            self.first = child_of(self.process.pid)
            time.sleep(0.05)

    def boot(self):
        """Starts its systemd. False where it does not come up."""
        name = f"--machine=radlimit-{os.getpid()}"
        words = ["systemd-nspawn", "-q", "-D", self.folder, name, "--register=no", "--keep-unit", "--private-network"]
        self.begin(*words, "--boot")
        until = time.monotonic() + BOOT
        while self.process.poll() is None and time.monotonic() < until:
            if self.run("systemctl is-system-running")[1].strip() in ("running", "degraded"):
                return True
            time.sleep(0.2)
        self.close()
        return False

    def hold(self):
        """Gives it a network, and a process that holds it."""
        line = 'mount -t proc proc "$0/proc" && ip link set lo up && exec chroot "$0" sleep 1000'
        self.begin("unshare", "--net", "--mount", "--pid", "--fork", "--kill-child", "sh", "-c", line, self.folder)

    def run(self, line):
        """Runs a line of the shell on it, as root: its status, and what it prints."""
        words = ["-a", "-r", "-w", "sh", "-c", f"cd /root && {line}"]
        if ASKS.search(line):
            # line by line, as on a terminal
            words = ["-n", "stdbuf", "-oL", "sh", "-c", line]
        return output("nsenter", "-t", self.first, *words)

    def close(self):
        """Ends it, and all its processes with the first one."""
        if self.first:
            with contextlib.suppress(ProcessLookupError):
                os.kill(int(self.first), signal.SIGKILL)
        self.process.kill()
        self.process.wait()
        self.first = None


def child_of(parent):
    """The first child of a process, if it has one."""
    with contextlib.suppress(OSError), open(f"/proc/{parent}/task/{parent}/children", encoding="ascii") as file:
        return next(iter(file.read().split()), None)
    return None


def steps():
    """The steps of the document: each command, and what it prints."""
    section = SECTION.search(text_of("docs", "OPERATING.md"))[1]
    return [step for block in BLOCK.findall(section) for step in STEP.findall(block)]


def pattern_of(line):
    """What a line of the document shows: `..` alone stands for any lines, and in a line for any text."""
    return r"(?:.*\n)*" if line == ".." else ".*".join(map(re.escape, line.split(".."))) + r"\n"


def is_shown(printed, shown):
    """Whether this was printed where the document shows that."""
    return re.fullmatch("".join(map(pattern_of, shown.splitlines())), printed) is not None


def printed_by(machine, line, shown):
    """What a command prints, and of one that only looks, what it prints once that is what is shown."""
    until = time.monotonic() + (PATIENCE if LOOKS.search(line) else 0)
    printed = machine.run(line)[1]
    while not is_shown(printed, shown) and time.monotonic() < until:
        time.sleep(0.5)
        printed = machine.run(line)[1]
    return printed


def try_steps(results, machine):
    """Does what the document says, one step after the other."""
    for line, shown in steps():
        printed = printed_by(machine, line, shown)
        results.want(line.strip(), shown if is_shown(printed, shown) else printed, shown)


def start_alone(results, machine):
    """Installs the package with no systemd, and starts the server as its user."""
    results.want("dpkg -i", machine.run("dpkg -i *.deb")[0], 0)
    machine.run(f"setpriv --reuid radlimit --regid radlimit --clear-groups radlimitd run {FILE} > /dev/null 2>&1 &")
    first, second = (line for line, shown in steps() if "Received Access-Accept" in shown)
    adding = [line for line, _ in steps() if ">> /etc/radlimit/accounts.toml" in line]
    results.want("a login", "Received Access-Accept" in machine.run(first)[1], True)
    results.want("an account that is added", [machine.run(line) for line in adding], [(0, "")])
    told = "0 of 0 sessions go on\n"
    results.want("radlimitd reload", machine.run(f"radlimitd reload {FILE}"), (0, told))
    results.want("a login of it", "Received Access-Accept" in machine.run(second)[1], True)
    held = machine.run(f"radlimitd accounts --held {FILE} | grep -c held=1")
    results.want("and the login before", held, (0, "2\n"))
    results.want("radlimitd stop", machine.run(f"radlimitd stop {FILE} && sleep 2"), (0, ""))


def try_files(results, machine):
    """Who may read what was installed and what the server made."""
    told = machine.run("stat -c '%n %a %U %G' /etc/radlimit /etc/radlimit/* /var/lib/radlimit")[1]
    results.want("modes and owners", told.splitlines(), [
        "/etc/radlimit 750 root radlimit",
        "/etc/radlimit/accounts.toml 640 root radlimit",
        "/etc/radlimit/radlimitd.toml 640 root radlimit",
        "/var/lib/radlimit 700 radlimit radlimit",
    ])
    owners = machine.run("find /var/lib/radlimit -type f ! -user radlimit")
    results.want("all that the server made is its user's", owners, (0, ""))


def try_unit(results, machine):
    """What systemd says of the unit, of which it has to find the program."""
    results.want("systemd-analyze verify", machine.run("systemd-analyze verify --man=no radlimitd.service"), (0, ""))
    line = f"systemd-analyze security --offline=yes --threshold={EXPOSURE} radlimitd.service"
    status, printed = machine.run(line)
    results.want("systemd-analyze security", (status, printed.splitlines()[-1:] if status else ""), (0, ""))


def try_reload(results, machine):
    """What systemd says of an account file that is wrong: the server goes on as before."""
    file = "/etc/radlimit/accounts.toml"
    machine.run(f"cp -p {file} {file}.right && echo shards >> {file}")
    before = machine.run(f"radlimitd accounts {FILE}")
    results.want("systemctl reload, a wrong file", machine.run("systemctl reload radlimitd")[0], 1)
    shown = f"{file}:..:..: no TOML: ..\n"
    told = printed_by(machine, "journalctl -u radlimitd -o cat -g 'no TOML'", shown)
    results.want("the journal has the fault", shown if is_shown(told, shown) else told, shown)
    results.want("the server goes on", machine.run(f"radlimitd accounts {FILE}"), before)
    machine.run(f"mv {file}.right {file}")
    results.want("systemctl reload, a right file again", machine.run("systemctl reload radlimitd"), (0, ""))


def try_ready(results, machine):
    """A unit that has started is ready. One whose server ends says so soon; without its history it is not started again."""
    results.want("ready", machine.run(f"systemctl restart radlimitd && radlimitd ready {FILE}"), (0, "ok\n"))
    there, copy = "/var/lib/radlimit", "/srv/ready.toml"
    machine.run(f"systemctl stop radlimitd && mv {there} {there}.kept && cp -p {FILE} {copy}")
    machine.run(f"sed -i 's/^# \\(state_must_exist = true\\)/\\1/' {FILE}")
    began = time.monotonic()
    results.want("a start without its history", machine.run("systemctl start radlimitd")[0], 1)
    results.want("it is told soon", time.monotonic() - began < PATIENCE, True)
    told = "no history, and state_must_exist begins none: is its volume mounted?\n"
    results.want("the journal says why", printed_by(machine, "journalctl -t radlimitd -o cat -n 1", told), told)
    time.sleep(3)
    left = machine.run("systemctl show -P ActiveState radlimitd && systemctl show -P NRestarts radlimitd")
    results.want("it is not started again", left, (0, "failed\n0\n"))
    machine.run(f"rm -r {there}; mv {there}.kept {there} && systemctl reset-failed radlimitd")
    results.want("a start with its history", machine.run("systemctl start radlimitd"), (0, ""))
    machine.run(f"mv {copy} {FILE} && systemctl restart radlimitd")


def try_group(results, machine):
    """Has a group ask the server, as the document says; and somebody who is not in it. Neither can read the accounts."""
    unit, more = BLOCK.findall(OTHERS.search(text_of("docs", "OPERATING.md"))[1])
    copy, there = "/srv/copy.toml", "/srv/before.toml"
    machine.run(f"cp -p {FILE} {there} && mkdir {DROP_IN} && cat > {DROP_IN}/group.conf << 'END'\n{unit}END\n")
    machine.run(f"cat >> {FILE} << 'END'\n\n{more}END\ncp {FILE} {copy} && chmod 644 {copy}")
    machine.run("systemctl daemon-reload && systemctl restart radlimitd")
    recording = f"radlimitd status {FILE} | grep ^recording"
    results.want("a control of its own", printed_by(machine, recording, "recording\n"), "recording\n")
    staff = machine.run("getent group staff | cut -d: -f3")[1].strip()
    for who, status in ((f"1001,{staff}", 0), ("1001", 2)):
        words = f"setpriv --reuid 1001 --regid 1001 --groups {who}"
        results.want(f"groups {who} ask", machine.run(f"{words} radlimitd accounts {copy}")[0], status)
        results.want(f"groups {who} read", machine.run(f"{words} cat /etc/radlimit/accounts.toml")[0], 1)
    machine.run(f"rm -r {DROP_IN} {copy} && mv {there} {FILE} && systemctl daemon-reload && systemctl restart radlimitd")
    results.want("the control as before", printed_by(machine, recording, "recording\n"), "recording\n")


def try_upgrade(results, machine):
    """A package that is installed again: the server that runs starts anew, and an edited file stays."""
    generation = f"radlimitd status {FILE} 2> /dev/null | sed -n 's/^generation *//p'"
    before = machine.run(generation)[1]
    machine.run(f"echo '# edited' >> {FILE}")
    results.want("dpkg -i again", machine.run("dpkg -i *.deb")[0], 0)
    results.want("an edited file stays", machine.run(f"tail -n 1 {FILE}"), (0, "# edited\n"))
    if before:
        after = f"{int(before) + 1}\n"
        results.want("the server goes on in the next generation", printed_by(machine, generation, after), after)


def try_removal(results, machine):
    """Removal leaves files and state, and purge takes them."""
    results.want("dpkg -r", machine.run("dpkg -r radlimit")[0], 0)
    results.want("no program is left", machine.run("ls /usr/sbin | grep radlimit"), (1, ""))
    results.want("nor a process", machine.run("readlink /proc/[0-9]*/exe | grep radlimit"), (1, ""))
    kept = machine.run("ls /etc/radlimit && ls /var/lib/radlimit | grep -qE '^log-[0-9]+$'")
    results.want("files and state are left", kept, (0, "accounts.toml\nradlimitd.toml\n"))
    results.want("dpkg --purge", machine.run("dpkg --purge radlimit")[0], 0)
    left = machine.run("find /etc /var/lib /usr -name 'radlimit*' ! -path '/var/lib/dpkg/*'")
    results.want("purge leaves nothing", left, (0, ""))


def try_verify(results, folder, package):
    """What packaging/verify says of the package, and of one with another program. A stand-in for `rt` proves nothing, and
    builds the programs that are built."""
    stand_in, other = (os.path.join(folder, name) for name in ("stand-in", "other.deb"))
    os.makedirs(stand_in)
    with open(os.path.join(stand_in, "rt"), "w", encoding="utf-8") as file:
        file.write(STAND_IN.format(rt=shutil.which("rt"), crates=os.path.join(TOP, "crates")))
    os.chmod(file.name, 0o755)
    env = {**os.environ, "PATH": stand_in + os.pathsep + os.environ["PATH"]}
    verify = os.path.join(PACKAGING, "verify")
    status, printed = output(verify, package, env=env)
    if "the package is of no commit" in printed:
        print("not possible here: packaging/verify (files have changes that are in no commit)")
        return
    results.want("packaging/verify", (status, printed if status else ""), (0, ""))
    unpacked = os.path.join(folder, "unpacked")
    output("dpkg-deb", "-R", package, unpacked)
    with open(os.path.join(unpacked, "usr", "sbin", "radlimitd"), "r+b") as program:
        program.seek(-1, os.SEEK_END)
        last = program.read()
        program.seek(-1, os.SEEK_END)
        program.write(bytes([last[0] ^ 1]))
    output("dpkg-deb", "--root-owner-group", "--build", unpacked, other)
    status, printed = output(verify, other, env=env)
    told = "verify: radlimitd of the package is another program than the one that is proved"
    results.want("packaging/verify of another program", (status, printed.splitlines()[-1]), (1, told))


def try_machine(results, folder, package):
    """Installs a package on a fresh Debian."""
    words = ["mmdebstrap", "--quiet", "--variant=essential", "--include=systemd", SUITE, folder]
    if output(*words)[0]:
        print(f"not possible here: the package is installed (mmdebstrap makes no {SUITE})")
        return
    shutil.copy(package, os.path.join(folder, "root"))
    machine = Machine(folder)
    try:
        if machine.boot():
            try_steps(results, machine)
            try_reload(results, machine)
            try_ready(results, machine)
            try_group(results, machine)
        else:
            print("not possible here: the first ten minutes, in package (no systemd starts)")
            machine.hold()
            start_alone(results, machine)
        try_files(results, machine)
        try_unit(results, machine)
        try_upgrade(results, machine)
        try_removal(results, machine)
    finally:
        machine.close()


def main():
    if sys.argv[1:]:
        sys.exit(__doc__)
    if os.geteuid() != 0:
        print("not possible here: package (this is not root)\n0 passed, 0 failed")
        return
    results = Results()
    # in memory: dpkg waits for the disk at each file that it unpacks
    with tempfile.TemporaryDirectory(dir="/dev/shm") as folder:
        package = try_package(results, folder)
        try_pages(results)
        try_verify(results, folder, package)
        try_machine(results, os.path.join(folder, "debian"), package)
    print(f"{results.all - results.wrong} passed, {results.wrong} failed")
    sys.exit(1 if results.wrong else 0)


if __name__ == "__main__":
    main()
