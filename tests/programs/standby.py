"""Has two machines take turns with one `radlimitd` over one volume, while access servers log in and out all the time.

The machines are namespaces: each has a network, processes and mounts of its own, a link to the access servers' machine,
and the volume, a file system on a loop device. An address and the server go from one to the other, as keepalived or
pacemaker would have it.

A server whose volume is not mounted does not start. The active machine is killed with its processes, and the other one
mounts the volume and starts. Then the active one is
cut off and goes on: the folder's lock keeps the other one's server from starting, and nothing is answered, until the
first is killed, as by fencing. Each session whose Start was answered is held then, and no account runs more than its
places. A machine that comes back while the other one is active does not start either.

usage: python3 -m tests.programs.standby [SEED]        1 if not given
It wants Linux, root, namespaces, a loop device, and the built program.
"""

import contextlib
import os
import random
import shutil
import subprocess
import sys
import tempfile
import time

from tests.lib import proxied

ALONE = "--alone"  # among the arguments once this process has its own network and mounts
ACCOUNTS = 200
SIZE = 64 << 20  # octets of the volume
SERVERS, ACTIVE = "10.88.0.1", "10.88.0.100"  # the access servers' machine, and the address that moves
PORT = 1812
NO_HISTORY = "no history, and state_must_exist begins none: is its volume mounted?\n"
WANTED = ("ip", "unshare", "nsenter", "losetup", "mkfs.ext4", "mount")


def do(*words):
    """Runs a command that has to succeed."""
    subprocess.run(words, check=True, stdout=subprocess.DEVNULL)


class Machine(proxied.Home):
    """A machine with a server: its namespaces, which its first process holds."""

    def __init__(self, folder, name, volume):
        self.link, self.volume = f"v{name}", volume
        words = ["unshare", "--net", "--mount", "--pid", "--fork", "--kill-child", "sh", "-c", "echo && exec sleep 1000"]
        self.holder = subprocess.Popen(
            words, stdin=subprocess.DEVNULL, stdout=subprocess.PIPE, stderr=subprocess.DEVNULL
        )
        self.holder.stdout.readline()
        with open(f"/proc/{self.holder.pid}/task/{self.holder.pid}/children", encoding="ascii") as file:
            self.first = file.read().split()[0]
        enter = ["nsenter", "-t", self.first, "-n", "-m", "-p"]
        super().__init__(folder, name, ACTIVE, PORT, "volume/state", enter, f"/proc/{self.first}/root")
        self.mounted = os.path.join(self.folder, "volume")
        os.makedirs(self.mounted, exist_ok=True)
        shutil.copy(os.path.join(folder, "accounts.toml"), self.folder)
        do("ip", "link", "add", self.link, "type", "veth", "peer", "name", "eth0", "netns", self.first)
        do("ip", "link", "set", self.link, "master", "br0", "up")
        for link in ("lo", "eth0"):
            do(*self.before, "ip", "link", "set", link, "up")

    def take_over(self):
        """Mounts the volume, takes the address, and starts the server."""
        if subprocess.run([*self.before, "mountpoint", "-q", self.mounted], check=False).returncode:
            do(*self.before, "mount", self.volume, self.mounted)
            do(*self.before, "ip", "address", "add", f"{ACTIVE}/24", "dev", "eth0")
        # what a gratuitous ARP does
        do("ip", "neighbour", "flush", "dev", "br0")
        self.begin()

    def want_history(self):
        """Has its server begin no history."""
        with open(self.file, encoding="ascii") as file:
            text = file.read()
        with open(self.file, "w", encoding="ascii") as file:
            file.write("state_must_exist = true\n" + text)

    def cut(self):
        """Cuts its link."""
        do("ip", "link", "set", self.link, "down")

    def power_off(self):
        """Kills all its processes, and so unmounts what it has."""
        with contextlib.suppress(ProcessLookupError):
            os.kill(int(self.first), 9)
        self.kill()
        self.holder.kill()
        self.holder.wait()
        self.holder.stdout.close()
        subprocess.run(["ip", "link", "delete", self.link], check=False, stderr=subprocess.DEVNULL)


class Room:
    """The machines, the volume, and the access servers."""

    def __init__(self, folder, rng):
        self.folder, self.machines = folder, []
        image = os.path.join(folder, "image")
        with open(image, "wb") as file:
            file.truncate(SIZE)
        do("mkfs.ext4", "-q", image)
        found = subprocess.run(["losetup", "-f", "--show", image], check=True, stdout=subprocess.PIPE, text=True)
        self.volume = found.stdout.strip()
        do("ip", "link", "set", "lo", "up")
        do("ip", "link", "add", "name", "br0", "type", "bridge")
        do("ip", "address", "add", f"{SERVERS}/24", "dev", "br0")
        do("ip", "link", "set", "br0", "up")
        self.places = {f"c{number}": rng.randint(1, 3) for number in range(ACCOUNTS)}
        with open(os.path.join(folder, "accounts.toml"), "w", encoding="ascii") as file:
            client = f'[[client]]\naddress = "{SERVERS}"\nsecret = "{proxied.SECRET.decode()}"\nsigned = true\n'
            file.write(proxied.HEAD + client + proxied.accounts_toml(self.places))
        self.load = proxied.Load(ACTIVE, (PORT, PORT + 1), self.places, rng, source=SERVERS)

    def machine(self, name):
        """A new machine."""
        self.machines.append(Machine(self.folder, name, self.volume))
        return self.machines[-1]

    def comes_up(self, machine):
        """Whether a server comes up, while access servers ask."""
        until = time.monotonic() + proxied.WAIT
        while time.monotonic() < until and machine.process.poll() is None:
            self.load.run(0.2)
            if machine.is_up():
                return True
        return False

    def rows_of_sessions(self, case, machine):
        """What the active machine holds, once all is answered."""
        load = self.load
        yield f"{case}: all is answered", load.quiet(), True
        yield f"{case}: accounts over their places", load.over, 0
        found = machine.sessions()
        ran, may = ({(one.account, one.server, one.name) for one in some} for some in (load.held, load.unknown))
        yield f"{case}: there are some", len(ran) > 20, True
        yield f"{case}: answered, and not held", sorted(ran - found), []
        yield f"{case}: held, and not running", sorted(found - ran - may), []
        print(f"{case}: {load.shown()}; {machine.name} holds {len(found)}: {machine.greeting()}", flush=True)

    def end(self):
        """Ends all."""
        for machine in self.machines:
            machine.power_off()
        subprocess.run(["losetup", "-d", self.volume], check=False)


def cases_of_a_kill(room):
    """The active machine is killed with its processes."""
    one, other = (room.machine(name) for name in ("one", "other"))
    one.take_over()
    yield "the first machine is up", room.comes_up(one), True
    room.load.run(proxied.WAIT, until=lambda: room.load.starts > 100)
    before = room.load.starts
    yield "it answers", before > 100, True
    other.want_history()
    other.begin()
    found = other.process.wait(proxied.WAIT), proxied.served.text_of(other.said), os.listdir(other.mounted)
    yield "without the volume the other one does not start", found, (1, NO_HISTORY, [])
    one.power_off()
    began = time.monotonic()
    other.take_over()
    yield "the other one is up", room.comes_up(other), True
    yield "and is ready", other.asked("ready"), ("ok\n", 0)
    print(f"back after {time.monotonic() - began:.1f} s", flush=True)
    room.load.run(proxied.WAIT, until=lambda: room.load.starts > before + 20)
    yield "it answers too", room.load.starts > before, True
    yield from room.rows_of_sessions("killed", other)


def cases_of_a_cut(room):
    """The active machine is cut off, and goes on."""
    active, third = room.machines[-1], room.machine("third")
    load = room.load
    load.run(2)
    active.cut()
    # what has left it may come yet
    load.run(0.5)
    before = load.starts + load.stops + load.rejects
    for turn in (1, 2):
        third.take_over()
        yield f"the third machine has the volume too, and ends, turn {turn}", third.process.wait(proxied.WAIT), 2
        yield f"what it says, turn {turn}", third.greeting(), "busy"
        load.run(1)
    yield "the first goes on", active.is_up(), True
    yield "nothing is answered", load.starts + load.stops + load.rejects, before
    active.power_off()
    third.take_over()
    yield "once that is killed, the third one is up", room.comes_up(third), True
    load.run(proxied.WAIT, until=lambda: load.starts + load.stops > before + 20)
    yield "it answers", load.starts + load.stops > before, True
    back = room.machine("back")
    # else it would say that the address is its own
    back.cut()
    do(*back.before, "mount", back.volume, back.mounted)
    do(*back.before, "ip", "address", "add", f"{ACTIVE}/24", "dev", "lo")
    back.begin()
    yield "a machine that is back does not start", (back.process.wait(proxied.WAIT), back.greeting()), (2, "busy")
    yield from room.rows_of_sessions("cut off", third)


def can_be_had():
    """Whether namespaces and a loop device can be had."""
    if os.geteuid() != 0:
        return False
    words = ["unshare", "--net", "--mount", "--pid", "--fork", "sh", "-c", "ip link add name br0 type bridge && losetup -f"]
    return subprocess.run(words, check=False, capture_output=True).returncode == 0


def main():
    words = [word for word in sys.argv[1:] if word != ALONE]
    if len(words) > 1 or not all(word.isdecimal() for word in words):
        sys.exit(__doc__)
    if ALONE not in sys.argv:
        if not can_be_had():
            print("not possible here: standby (no namespaces or no loop devices)\n0 passed, 0 failed")
            sys.exit(0)
        again = [sys.executable, "-m", __spec__.name, *sys.argv[1:], ALONE]
        os.execvp("unshare", ["unshare", "--net", "--mount", *again])
    rows = []
    with tempfile.TemporaryDirectory() as folder:
        room = Room(folder, random.Random(words[0] if words else "1"))
        try:
            for cases in (cases_of_a_kill, cases_of_a_cut):
                rows += cases(room)
        finally:
            room.end()
    proxied.served.verdict(rows)


if __name__ == "__main__":
    main()
