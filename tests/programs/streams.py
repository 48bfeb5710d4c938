"""Runs `radlimit` and `radlimitd` with arguments, scripts, files and streams that are right or wrong, and looks at what
comes on which stream, with which end of line, and at the exit status; and once `bench_time`. No run of a proved program
may take over three minutes. It wants all three to be built, and Linux.

usage: python3 -m tests.programs.streams
"""

import contextlib
import ctypes
import fcntl
import os
import pty
import re
import resource
import socket
import subprocess
import sys
import tempfile
import time

from tests.lib import folder as state
from tests.lib.served import (
    HOST, INTERIM, PASSWORD, REQUEST, SECRET, START, Server, account_file, accounting_request, attribute, free_ports,
)

from tests.lib.version import VERSION
from tools.build.programs import in_time, is_unproved, path_of, patience
from tools.build.repository import TOP

PROGRAM = path_of("rsl_app")
TIMED_WORK = path_of("bench_time")
RADLIMITD = path_of("radlimitd")
SCRIPT = os.path.join(TOP, "examples", "sessions.script")
MANUAL = os.path.join(TOP, "docs", "radlimitd.8")
OPERATING = os.path.join(TOP, "docs", "OPERATING.md")
RADLIMIT_SERVE = os.path.join(TOP, "docs", "RADLIMIT-SERVE.md")
USAGE = b"usage: radlimit replay or radlimit serve FILE ADDRESS AUTHPORT ACCTPORT TURNS\n"
FAULT = b"input or output fault\n"
# the longest file alone takes ten minutes on a machine that does much else too, where the program is not proved
SECONDS = patience(180)
ACCOUNTS = os.path.join(TOP, "examples", "accounts.toml")

ARGUMENTS = [
    [],
    [""],
    ["repla"],
    ["replay replay replay replay"],
    ["serve"],
    ["", "replay"],
    ["Replay"],
    ["replays"],
    ["replay", ""],
    ["replay", "replay"],
    ["replay", "seventeen octets."],
    ["replay" * 1000],
    ["replay", "x" * 100_000],
    ["replay"] * 1000,
    [b"replay\xff"],
    ["replay", b"\xff"],
    ["serve"],
    ["Serve", ACCOUNTS, "127.0.0.1", "1812", "1813", "0"],
    ["serves", ACCOUNTS, "127.0.0.1", "1812", "1813", "0"],
    ["serve", ACCOUNTS, "127.0.0.1", "1812", "1813"],
    ["serve", ACCOUNTS, "127.0.0.1", "1812", "1813", "0", ""],
    ["serve", ACCOUNTS, "127.0.0.01", "1812", "1813", "0"],
    ["serve", ACCOUNTS, "127.0.0.256", "1812", "1813", "0"],
    ["serve", ACCOUNTS, "localhost", "1812", "1813", "0"],
    ["serve", ACCOUNTS, "::1", "1812", "1813", "0"],
    ["serve", ACCOUNTS, "127.0.0.1", "0", "1813", "0"],
    ["serve", ACCOUNTS, "127.0.0.1", "1812", "65536", "0"],
    ["serve", ACCOUNTS, "127.0.0.1", "radius", "1813", "0"],
    ["serve", ACCOUNTS, "127.0.0.1", "+1812", "1813", "0"],
    ["serve", ACCOUNTS, "127.0.0.1", "1812", "1813", ""],
    ["serve", ACCOUNTS, "127.0.0.1", "1812", "1813", "-1"],
    ["serve", ACCOUNTS, "127.0.0.1", "1812", "1813", str(2**64)],
    ["serve", "absent", "127.0.0.1", "1812", "1813", "1.5"],
    ["serve", b"\xff", "127.0.0.1", "1812", "1813", "0"],
]
# what a server prints for no datagrams, and for the accounts of the sample file
NONE_CAME = b"".join(
    b"%s received 0 answered 0 dropped 0 refused 0 unsent 0\n" % port for port in (b"auth", b"acct")
) + b"""\
name                   places     held reserved     live    stale     over
nemo                        1        0        0        0        0        0
ishmael                     2        0        0        0        0        0
"""
# what `radlimitd check` is given and prints
SERVER_FILE = os.path.join(TOP, "examples", "radlimitd.toml")
SERVER_ACCOUNTS = os.path.join(TOP, "examples", "with-radclient.toml")
NO_HISTORY = b"no history, and state_must_exist begins none: is its volume mounted?\n"
NO_COMMAND = b"usage: radlimitd COMMAND ..; `radlimitd help` has the commands\n"
UNKNOWN_COMMAND = b"no such command; `radlimitd help` has the commands\n"
# how each command of `radlimitd` goes, and what is said of words that name nothing
CHECK_USAGES = {
    words.split()[0]: b"usage: radlimitd %s\n" % words.encode()
    for words in (
        "check FILE", "init FOLDER", "run FILE", "lines FILE..", "reply NAME FILE", "rebase FILE", "ready FILE",
        "export [--csv] [--since MOMENT] [--until MOMENT] FILE",
        "status [--timeout SECONDS] [--json] FILE",
        "accounts [--timeout SECONDS] [--json] [--held | --full] FILE",
        "sessions [--timeout SECONDS] [--json] [NAME | FLAG WORD ..] FILE", "free NAME CLIENT NAS SESSION FILE",
        "disconnect NAME CLIENT NAS SESSION FILE",
        "ask NAME FIELD=VALUE.. FILE", "reload [--timeout SECONDS] FILE", "stop FILE",
    )
}
# with which statuses each command ends, besides that no words of a row below end with another
STATUSES = {
    "check": "0123", "init": "0123", "run": "01234", "lines": "0123", "reply": "0123", "rebase": "01234", "ready": "0123",
    "export": "0123", "status": "01235", "accounts": "01235", "sessions": "01235", "free": "01235", "disconnect": "01235",
    "ask": "0123", "reload": "01235", "stop": "0123",
}
HELP_ON_VERSION = b"""\
radlimitd version

Prints the name and the version of the program. So do `radlimitd --version` and `radlimitd -V`.

    radlimitd version

Exit status: 0 it is printed; 2 standard output cannot be written; 3 no memory.
"""
FORMS = {
    "export": b"; MOMENT is 2026-11-26, '2026-11-26 18:20:00' or seconds since 1970, and the first is the lower\n",
    "sessions": b"; NAME is written as `accounts` prints it; FLAG WORD is --nas NAS, --client CLIENT, --state STATE or "
    b"--older SECONDS\n",
    "reply": b"; NAME is written as `accounts` prints it\n",
    "free": b"; NAS is nas=NAME, nas-address=DIGITS or unnamed, as `sessions` prints it; all of an access server: "
    b"radlimitd free [--yes] --nas NAS CLIENT FILE\n",
    "disconnect": b"; NAS is nas=NAME, nas-address=DIGITS or unnamed, as `sessions` prints it\n",
    "ask": b"; FIELD is key, nas_identifier, nas_ip_address or calling_station_id\n",
}
CHECK_ARGUMENTS = [
    [],
    [""],
    ["check"],
    ["check", SERVER_FILE, SERVER_FILE],
    ["Check", SERVER_FILE],
    ["checks", SERVER_FILE],
    ["check" * 1000, SERVER_FILE],
    ["run"],
    ["run", SERVER_FILE, SERVER_FILE],
    ["Run", SERVER_FILE],
    ["runs", SERVER_FILE],
    ["status"],
    ["status", "now", SERVER_FILE],
    ["status", "--held", SERVER_FILE],
    ["status", "--json", "--json", SERVER_FILE],
    ["status", "--json", SERVER_FILE, "--json"],
    ["status", SERVER_FILE, "--timeout"],
    ["status", "--timeout", "1", SERVER_FILE, "--timeout", "1"],
    ["status", "--jsn", SERVER_FILE],
    ["status", "--timeout", SERVER_FILE],
    ["status", "--timeout", "0", SERVER_FILE],
    ["status", "--timeout", "86401", SERVER_FILE],
    ["status", "--timeout", "-1", SERVER_FILE],
    ["status", "--timeout", "1.5", SERVER_FILE],
    ["status", "--timeout", "", SERVER_FILE],
    ["status", "--timeout", "1", "--json", "--json", SERVER_FILE],
    ["accounts", "--timeout", "one", "--held", SERVER_FILE],
    ["sessions", "--timeout", "0", "nemo", SERVER_FILE],
    ["reload", "--timeout", SERVER_FILE],
    ["reload", "--timeout", "0", SERVER_FILE],
    ["ready"],
    ["ready", "now", SERVER_FILE],
    ["ready", "--timeout", "1", SERVER_FILE],
    ["stop", "--timeout", "1", SERVER_FILE],
    ["accounts", "--held", "--full", SERVER_FILE],
    ["accounts", "--json", "--json", SERVER_FILE],
    ["accounts", "--json", "--held", "--full", SERVER_FILE],
    ["sessions", "--jsn", "nemo", SERVER_FILE],
    ["sessions", "--json", "nemo", "ishmael", SERVER_FILE],
    ["init"],
    ["init", "a", "b"],
    ["accounts"],
    ["accounts", "nemo", SERVER_FILE],
    ["sessions"],
    ["sessions", "--json", "--json", SERVER_FILE],
    ["sessions", "--nas", "pop1", SERVER_FILE],
    ["sessions", "--client", SERVER_FILE],
    ["sessions", "--state", "live", "--state", "live", SERVER_FILE],
    ["sessions", "--older", "-1", SERVER_FILE],
    ["sessions", "nemo", "--older", "1", SERVER_FILE],
    ["sessions", "nemo", SERVER_FILE, "--nas", "nas=pop1"],
    ["sessions", "--state", "\\-", SERVER_FILE],
    ["sessions", "nemo ishmael", SERVER_FILE],
    ["sessions", "nemo", "ishmael", SERVER_FILE],
    ["sessions", "\\x4", SERVER_FILE],
    ["sessions", "", SERVER_FILE],
    ["free", SERVER_FILE],
    ["free", "nemo", "127.0.0.1", "s1", SERVER_FILE],
    ["free", "nemo", "127.0.0.1", "pop1", "s1", SERVER_FILE],
    ["free", "nemo", "127.0.0.1.", "nas=pop1", "s1", SERVER_FILE],
    ["free", "nemo", "127.0.0.1", "nas=pop1", "s1\n", SERVER_FILE],
    ["free", "--nas", "nas=pop1", SERVER_FILE],
    ["free", "--nas", "pop1", "127.0.0.1", SERVER_FILE],
    ["free", "--yes", "--yes", "--nas", "nas=pop1", "127.0.0.1", SERVER_FILE],
    ["free", "--yes", "--nas", "nas=pop1", "127.0.0", SERVER_FILE],
    ["free", "--yes", "nemo", "127.0.0.1", "nas=pop1", "s1", SERVER_FILE],
    ["free", "--disconnect", "--nas", "nas=pop1", "127.0.0.1", SERVER_FILE],
    ["free", "nemo", "127.0.0.1", "nas=pop1", "s1", SERVER_FILE, "--nas"],
    ["disconnect", SERVER_FILE],
    ["disconnect", "nemo", "127.0.0.1", "s1", SERVER_FILE],
    ["disconnect", "nemo", "127.0.0.1", "pop1", "s1", SERVER_FILE],
    ["disconnect", "nemo", "127.0.0.1", "nas=pop1", "\\-", SERVER_FILE],
    ["ask", SERVER_FILE],
    ["ask", "nemo", "pop1", SERVER_FILE],
    ["reload"],
    ["reload", "now", SERVER_FILE],
    ["Reload", SERVER_FILE],
    ["stop", SERVER_FILE, SERVER_FILE],
    ["reply", SERVER_FILE],
    ["reply", "nemo", "ishmael", SERVER_FILE],
    ["reply", "\\x4", SERVER_FILE],
    ["reply", "", SERVER_FILE],
    ["rebase"],
    ["rebase", SERVER_FILE, SERVER_FILE],
    ["help", SERVER_FILE],
    ["version", ""],
    ["version", "--help", "--help"],
    ["versions"],
    ["check", b"\xff"],
    ["lines"],
    ["line", "log-1"],
    ["export"],
    ["export", "--csv"],
    ["export", "--csv", "--json", SERVER_FILE],
    ["export", "--since", SERVER_FILE],
    ["export", "--since", "yesterday", SERVER_FILE],
    ["export", "--since", "", SERVER_FILE],
    ["export", "--since", "2026-02-29", SERVER_FILE],
    ["export", "--since", "2026-13-01", SERVER_FILE],
    ["export", "--since", "2026-11-26 24:00:00", SERVER_FILE],
    ["export", "--since", "2026-11-26T18:20:00", SERVER_FILE],
    ["export", "--since", "1969-12-31", SERVER_FILE],
    ["export", "--until", "18446744073709551616", SERVER_FILE],
    ["export", "--since", "2026-11-27", "--until", "2026-11-26 23:59:59", SERVER_FILE],
    ["export", "--since", "1", "--until", "1", SERVER_FILE],
    ["export", "--csv", "--since", "1", "--until", "2", "nemo", "ishmael", SERVER_FILE],
    ["check", SERVER_FILE, SERVER_FILE, SERVER_FILE],
    [b"version\xff"],
]
# of these a flag has taken the last word, so that none is left for FILE
WITHOUT_FILE = [["sessions", "--client", SERVER_FILE], ["export", "--since", SERVER_FILE]]
# the keys of an account file for which `state.table` writes the table
TIMES = b"shards = 1\nreserve_secs = 60\nlive_secs = 900\ngrace_secs = 900\nclosed_secs = 3600\nkeep_secs = 10\n"
# an account file with all that version 3 would refuse or tell, but for its version; and what is told of it
LAX = b"""version = 2
shards = 2
reserve_secs = 60
live_secs = 900
grace_secs = 900
closed_secs = 3600
keep_secs = 10

[[client]]
address = "10.255.0.1"
secret = "a secret of 25 characters"
sigend = true

[[client]]
address = "10.255.0.2"
secret = "short"

[[account]]
name = "nemo"
password = "arctangent"
places = 1
ports = 1
disabled = true
"""
LAX_NETWORKS = b'''
[[network]]
prefix = "2001:db8:7::/64"
client = "10.255.0.2"
[[network]]
prefix = "192.0.2.0/24"
client = "10.255.0.1"
'''
NAMELESS = "access servers without NAS-Identifier and NAS-IP-Address count as one"
TOLD = "version 3 signs each answer, and wants `signed = false` said of clients that need not sign: 2, first 10.255.0.1\n"
TOLD_OF_LAX = f"""{TOLD}\
version 3 refuses secrets of under 16 octets: 1, first of 10.255.0.2
version 3 refuses networks of clients that need not sign: 2, first 2001:db8:7::/64
network 2001:db8:7::/64: {NAMELESS}
network 192.0.2.0/24: {NAMELESS}
"""
SHARDS = "accounts: radlimitd passes over `shards = 2`\n"
MEMORY = "accounts: their places take 1 MB of memory\n"
TWO_PATHS = b'accounts = "accounts.toml"\nstate = "state"\n'
READABLE = b"[trust]\nreadable_accounts = true\n"
TWO_LISTENS = TWO_PATHS + b"[[listen]]\n[[listen]]\n"
# what the parser says where a value should be
NO_VALUE = "invalid value, expected a string, number, boolean, date-time, array or inline table"
# server's files, account files, and of which file what is said
WRONG_FILES = [
    ("no TOML", b'accounts = "a"\nstate = = "s"\n', b"", f"radlimitd.toml:2:9: no TOML: {NO_VALUE}"),
    ("no UTF-8", b'accounts = "a\xff"\n', b"", "radlimitd.toml:1:14: no TOML: invalid UTF-8"),
    ("an empty file", b"", b"", "radlimitd.toml: accounts is missing\nFOLDER/radlimitd.toml: state is missing"),
    ("a misspelled key", TWO_PATHS + b"snyc = 1\n", b"", 'radlimitd.toml:3: unknown key "snyc"'),
    ("another policy", TWO_PATHS + b'sync = "no"\n', b"", 'radlimitd.toml:3: sync is "no"; it is "always", "second" or "never"'),
    ("port 0", TWO_LISTENS + b"auth = 0\nacct = 1\n", b"", "radlimitd.toml:5: auth of listen 2 is 0; it is 1 to 65535"),
    ("one port twice", TWO_LISTENS + b"acct = 1\n", b"", "radlimitd.toml:4: auth of listen 2 is 1812, which auth of listen 1 has there"),
    ("asks without a port", TWO_PATHS + b'[ask]\ntoken_file = "t"\nclient = "192.0.2.1"\n', b"", "radlimitd.toml:3: port of ask is missing"),
    ("asks without a token", TWO_PATHS + b'[ask]\nport = 1\nclient = "192.0.2.1"\n', b"", "radlimitd.toml:3: token_file of ask is missing"),
    ("accounts in no TOML", TWO_PATHS, b"version = 1\n\n=\n", "accounts.toml:3:1: no TOML: invalid key, expected letters, numbers, `-`, `_` or a quoted key"),
    ("accounts without a field", TWO_PATHS, LAX.replace(b"shards = 2\n", b""), "accounts.toml: shards is missing"),
    ("no accounts", b'accounts = "absent"\nstate = "state"\n', b"", "absent: no such file"),
    ("a folder of accounts", b'accounts = "."\nstate = "state"\n', b"", ".: is a folder"),
]
UNREADABLE = (1, b"", b"bad file: unreadable\n")
NOT_TOML = (1, b"", b"bad file: NotToml\n")


def run(arguments, stdin, stdout=subprocess.PIPE, stderr=subprocess.PIPE, program=PROGRAM, preexec_fn=None):
    """The exit status, standard output and standard error."""
    words = [program, *arguments]
    try:
        done = subprocess.run(
            words, stdin=stdin, stdout=stdout, stderr=stderr, preexec_fn=preexec_fn, check=False, timeout=SECONDS
        )
    except subprocess.TimeoutExpired:
        return "goes on", b"", b""
    return done.returncode, done.stdout, done.stderr


def given(text, arguments, **streams):
    """The same for a text on standard input."""
    with tempfile.TemporaryFile() as file:
        file.write(text)
        file.seek(0)
        return run(arguments, file, **streams)


def with_little_memory():
    """Gives the process that is to run 8 MB of addresses: too few for an unproved build, which notes what is in use."""
    resource.setrlimit(resource.RLIMIT_AS, (8_000_000, 8_000_000))


def without_stdout():
    """Closes the standard output of the process that is to run."""
    os.close(1)


def without_streams():
    """Closes all three streams of it."""
    os.closerange(0, 3)


def with_descriptors(number):
    """Gives it so many descriptors, of which the streams have three."""
    return lambda: resource.setrlimit(resource.RLIMIT_NOFILE, (number, number))


def without_override():
    """Takes from it the right to read every file, which root has: PR_CAPBSET_DROP of two capabilities."""
    for capability in (1, 2):
        ctypes.CDLL(None).prctl(24, capability, 0, 0, 0)


def over(script, **streams):
    """The same for a script."""
    return given(script, ["replay"], **streams)


@contextlib.contextmanager
def unread():
    """A pipe that nobody reads, to write to."""
    reader, writer = os.pipe()
    os.close(reader)
    yield writer
    os.close(writer)


def cases():
    """What is tried, what comes of it, and what should."""
    with open(SCRIPT, "rb") as file, open(f"{SCRIPT}.stdout", "rb") as printed:
        script, expected = file.read(), printed.read()
    for arguments in ARGUMENTS:
        with open(SCRIPT, "rb") as file:
            name = f"arguments {str(arguments)[:60]}"
            yield name, run(arguments, file) + (file.tell(),), (1, b"", USAGE, 0)
    yield "an example", over(script), (0, expected, b"")
    yield "a wrong line", over(b"\nask\n"), (1, b"", b"bad script: line 2\n")
    yield "no client", over(b""), (1, b"", b"bad script: BadValue client\n")
    yield "too long", over(b"#" * 1_048_577), (1, b"", b"bad script: too long\n")
    with open("/dev/full", "wb") as full:
        yield "a full disk", over(script, stdout=full), (2, None, FAULT)
        yield "a full disk, and no room for what is said", over(script, stdout=full, stderr=full), (2, None, None)
        yield "no room for what is said", over(b"ask", stderr=full), (1, b"", None)
    yield "no standard output", over(script, stdout=None, preexec_fn=without_stdout), (2, None, FAULT)
    yield "no streams", over(script, stdout=None, stderr=None, preexec_fn=without_streams), (2, None, None)
    with unread() as writer:
        yield "an output that nobody reads", over(script, stdout=writer), (2, None, FAULT)
    folder = os.open(TOP, os.O_RDONLY)
    yield "a folder for a script", run(["replay"], folder), (2, b"", FAULT)
    os.close(folder)
    words = "book interims 2 2 4 1 10".split()
    shown = b"interims: now 9 held 2 reserved 0 live 4 stale 0 over 0 links 4 kept 0 closed 0\n"
    yield "work on a book", given(b"", words, program=TIMED_WORK), (0, shown, b"")
    yield from cases_of_checks()
    yield from cases_of_inits()
    yield from cases_of_runs()
    yield from cases_of_words()
    yield from cases_of_scripts()
    yield from cases_of_waits()
    yield from cases_of_rebases()
    yield from cases_of_lines()
    yield from cases_of_servers()
    yield from cases_of_ports()
    yield from cases_of_server_files()
    yield from cases_of_time()


def deep(depth, text):
    """An account file of version 2, which passes over an unknown key, and before it a line of so many lists in lists."""
    return b"deep = " + b"[" * depth + b"]" * depth + b"\n" + text.replace(b"version = 3", b"version = 2")


def written(path, text):
    """Writes a file."""
    with open(path, "wb") as file:
        file.write(text)


def checked(*arguments, **streams):
    """What comes of `radlimitd`."""
    return given(b"", arguments, program=RADLIMITD, **streams)


def misuse(arguments):
    """What `radlimitd` says of wrong arguments."""
    if not arguments:
        return NO_COMMAND
    if any(isinstance(word, bytes) for word in arguments):
        return b"an argument is not UTF-8\n"
    name, *words = arguments
    if name not in CHECK_USAGES:
        return UNKNOWN_COMMAND
    usage = CHECK_USAGES[name]
    if arguments in WITHOUT_FILE:
        return usage
    counts = {"sessions": range(1, 100), "reply": (2,), "export": range(2, 7)}
    is_read = len(words) in counts.get(name, range(2, 100))
    return usage[:-1] + FORMS[name] if name in FORMS and is_read else usage


def statuses_of_manual():
    """The statuses of each command, by the table of docs/radlimitd.8."""
    with open(MANUAL, encoding="ascii") as file:
        table = file.read().partition(".TS\n")[2].partition(".TE\n")[0]
    found = {name: "" for name in STATUSES}
    status = ""
    for number, commands in re.findall(r"^([0-9]?)\tT\{\n(.+)\nT\}\tT\{$", table, re.M):
        status = number or status
        others = [name for name in STATUSES if status not in found[name]]
        for name in others if commands in ("all", "others") else commands.split(", "):
            found[name] += "" if status in found[name] else status
    return found


def cases_of_checks():
    """The same of `radlimitd check`, and of the example of docs/OPERATING.md."""
    for arguments in CHECK_ARGUMENTS:
        yield f"radlimitd {str(arguments)[:60]}", checked(*arguments), (1, b"", misuse(arguments))
    for words in (["version"], ["--version"], ["-V"]):
        yield f"a version: {words}", checked(*words), (0, f"radlimitd {VERSION}\n".encode(), b"")
    for words in (["version", "--help"], ["version", "-h"], ["--version", "--help"], ["help", "version"], ["help", "--version"], ["--help", "-V"]):
        yield f"help on the version: {words}", checked(*words), (0, HELP_ON_VERSION, b"")
    for words in (["help"], ["--help"], ["-h"], ["help", "help"], ["help", "--help"], ["--help", "-h"]):
        status, printed, told = checked(*words)
        found = re.findall(r"^    radlimitd ([a-z]+(?: [A-Z=]+(?:\.\.)?| \[[^]]*\])*)", printed.decode(), re.M)
        listed = sorted(b"usage: radlimitd %s\n" % one.encode() for one in found if one.split()[0] in CHECK_USAGES)
        yield f"what there is to be asked: {words}", (status, listed, told), (0, sorted(CHECK_USAGES.values()), b"")
    for name, usage in CHECK_USAGES.items():
        for words in ([name, "--help"], [name, "-h"], ["help", name], ["--help", name]):
            status, printed, told = checked(*words)
            first = b"usage: " + printed.partition(b"\n")[0] + b"\n"
            ends = printed.decode().partition("Exit status:")[2].replace("\n", " ")
            numbers = "".join(re.findall(r"(?<!\w)[0-9](?!\w)", ends))
            found = status, first, numbers, told
            yield f"help on a command: {words}", found, (0, usage, STATUSES[name], b"")
    yield "the statuses of the manual page", statuses_of_manual(), STATUSES
    with open(SERVER_FILE, "rb") as file:
        example = file.read()
    with open(SERVER_ACCOUNTS, "rb") as file:
        right = file.read()
    lines = b"\n```\n%s```\n" % example[example.index(b"accounts") :]
    with open(OPERATING, "rb") as file:
        yield "the example of a server's file", lines in file.read(), True
    with tempfile.TemporaryDirectory() as folder:
        name, accounts = os.path.join(folder, "radlimitd.toml"), os.path.join(folder, "accounts.toml")
        yield "no server's file", checked("check", name), (1, b"", f"{name}: no such file\n".encode())
        for case, server, text, expected in WRONG_FILES:
            written(name, server)
            written(accounts, text)
            yield f"a server's file: {case}", checked("check", name), (1, b"", f"{folder}/{expected}\n".replace("FOLDER", folder).encode())
        written(name, TWO_PATHS)
        for lax, expected in (
            (LAX, TOLD_OF_LAX + SHARDS + MEMORY + 'version 3 passes over no key, as here client "sigend"\n'),
            (
                LAX.replace(b"sigend = true\n", b""),
                TOLD_OF_LAX + SHARDS + MEMORY + 'version 3 passes over no key, as here account "disabled"\n',
            ),
            (LAX.replace(b"sigend = true\n", b"").replace(b"disabled = true\n", b""), TOLD_OF_LAX + SHARDS + MEMORY),
        ):
            written(accounts, lax)
            written(name, TWO_PATHS + LAX_NETWORKS)
            yield "what version 3 would do better", checked("check", name), (0, f"ok\n{expected}".encode(), b"")
        strict = LAX.replace(b"version = 2", b"version = 3").replace(b"short", b"sixteen octets..")
        strict = strict.replace(b"sigend = true\n", b"")
        told = "".join(f"client 10.255.0.{at}: its Access-Requests need no Message-Authenticator\n" for at in (1, 2))
        written(accounts, strict.replace(b"secret =", b"signed = false\nsecret ="))
        written(name, TWO_PATHS)
        yield "clients of version 3 that need not sign", checked("check", name), (0, f"ok\n{told}{SHARDS}{MEMORY}".encode(), b"")
        written(accounts, right)
        bad = f"{accounts}: others may"
        for mode, more, status, expected, told in (
            (0o600, b"", 0, f"ok\n{MEMORY}", ""),
            (0o660, b"", 0, f"ok\n{MEMORY}", ""),
            (0o604, b"", 1, "", f"{bad} read it\n"),
            (0o606, b"", 1, "", f"{bad} write to it\n"),
            (0o604, b"[trust]\n", 1, "", f"{bad} read it\n"),
            (0o604, READABLE, 0, f"ok\naccounts: everybody can read the file\n{MEMORY}", ""),
            (0o602, READABLE, 1, "", f"{bad} write to it\n"),
        ):
            os.chmod(accounts, mode)
            written(name, TWO_PATHS + more)
            yield f"files of mode {mode:o}, {more}", checked("check", name), (status, expected.encode(), told.encode())
        written(name, TWO_PATHS)
        os.chmod(accounts, 0o600)
        yield from cases_of_folders(folder, name)
        for seconds, more in (
            (450, ""),
            (451, "accounts: live_secs is under two interim_secs in 2, first in nemo\n"),
        ):
            asking = right.replace(b"version = 3\n", b"version = 3\ninterim_secs = %d\n" % seconds, 1)
            written(accounts, asking)
            expected = f"ok\n{MEMORY}{more}".encode()
            yield f"interim_secs of {seconds}", checked("check", name), (0, expected, b"")
        written(accounts, right)
        with open("/dev/full", "wb") as full:
            yield "a full disk for what is told", checked("check", name, stdout=full), (2, None, FAULT)
            yield "a full disk for an accept", checked("reply", "nemo", name, stdout=full), (2, None, FAULT)
            yield "no room for a fault of radlimitd", checked("check", TOP, stderr=full), (1, b"", None)
        yield "an accept", checked("reply", "nemo", name), (0, b"Port-Limit = 1\t3e0600000001\n", b"")
        yield "an accept of no account", checked("reply", "nobody", name), (2, b"", b"unknown account\n")
        yield "an accept by no file", checked("reply", "nemo", TOP), (1, b"", f"{TOP}: is a folder\n".encode())
        found = checked("check", name, stdout=None, preexec_fn=without_stdout)
        yield "no standard output for what is told", found, (2, None, FAULT)
        if not is_unproved():
            written(accounts, right + b"#" * 16_000_000)
            found = checked("check", name, preexec_fn=with_little_memory)
            yield "an account file with little memory", found, (3, b"", b"no memory\n")
        yield "a file without end to check", checked("check", "/dev/zero"), (1, b"", b"/dev/zero: too long\n")


def cases_of_folders(folder, name):
    """Folders of both files, by their modes and their groups: others may not write to them, unless they are sticky."""
    bad = f"{folder}: others may write to this folder, and so replace the files in it\n"
    right, wrong = (0, f"ok\n{MEMORY}".encode(), b""), (1, b"", bad.encode())
    is_root = os.geteuid() == 0
    # a group that is neither root's nor the owner's own
    others = 4242 if is_root else None
    for mode, group, expected in (
        (0o700, None, right), (0o755, None, right), (0o777, None, wrong), (0o702, None, wrong), (0o1777, None, right),
        (0o770, others, wrong), (0o750, others, right), (0o1770, others, right), (0o770, 0 if is_root else None, right),
    ):
        if group is not None:
            os.chown(folder, -1, group)
        elif mode & 0o020 and not mode & 0o1002:
            continue
        os.chmod(folder, mode)
        yield f"a folder of mode {mode:o} and group {group}", checked("check", name), expected
    os.chmod(folder, 0o700)
    if is_root:
        os.chown(folder, -1, os.getegid())
        with tempfile.TemporaryDirectory() as other:
            copy = os.path.join(other, "radlimitd.toml")
            written(copy, f'accounts = "{folder}/accounts.toml"\nstate = "state"\n'.encode())
            os.chmod(folder, 0o777)
            yield "the account file's folder alone", checked("check", copy), wrong
            os.chmod(folder, 0o700)


def run_file(folder, listen, state="state", more=""):
    """The name of a server's file that is written in a folder."""
    name = os.path.join(folder, "radlimitd.toml")
    written(name, f'accounts = "accounts.toml"\nstate = "{state}"\nlisten = [{listen}]\n{more}'.encode())
    return name


def cases_of_inits():
    """The same of `radlimitd init`: its files are right, for their owner alone, and nothing is written over."""
    with tempfile.TemporaryDirectory() as folder:
        secrets = []
        for name in ("a", "b"):
            path = os.path.join(folder, name)
            files = [os.path.join(path, file) for file in ("radlimitd.toml", "accounts.toml")]
            told = "written: {} {}\nnext:\n    radlimitd run {}\n    radlimitd status {}\n".format(*files, *files[:1] * 2)
            yield f"init {name}", checked("init", path), (0, told.encode(), b"")
            modes = [os.stat(one).st_mode & 0o777 for one in (path, *files)]
            yield f"init {name}: the modes", modes, [0o700, 0o600, 0o600]
            yield f"init {name}: the check", checked("check", files[0]), (0, f"ok\n{MEMORY}".encode(), b"")
            with open(files[1], encoding="ascii") as file:
                secrets += re.findall(r'^secret = "([0-9a-f]{32})"', file.read(), re.M)
        yield "init: two secrets", len(set(secrets)), 2
        for kept, gone in (files, files[::-1]):
            written(kept, b"kept")
            os.remove(gone)
            said = f"{kept}: is there already, and nothing is written over\n".encode()
            yield f"init beside {os.path.basename(kept)}", checked("init", path), (2, b"", said)
            with open(kept, "rb") as file:
                yield "init: what was there", (file.read(), os.listdir(path)), (b"kept", [os.path.basename(kept)])
            written(gone, b"")
        said = f"{files[0]}/x: cannot be written\n".encode()
        yield "init in a file", checked("init", f"{files[0]}/x"), (2, b"", said)


def listen_on(ports, address=HOST):
    """A table `listen` of a server's file."""
    return f'{{ address = "{address}", auth = {ports[0]}, acct = {ports[1]} }}'


def cases_of_runs():
    """The same of `radlimitd run`, where it does not start. tests/programs/radclient-run.sh has one that does."""
    held, taken = bound()
    free = free_ports()
    with open(SERVER_ACCOUNTS, "rb") as file:
        right = file.read()
    with tempfile.TemporaryDirectory() as folder:
        state, accounts = os.path.join(folder, "state"), os.path.join(folder, "accounts.toml")
        name = run_file(folder, listen_on(free))
        yield "no file to run", checked("run", folder + "/no"), (1, b"", f"{folder}/no: no such file\n".encode())
        yield "no accounts to run", checked("run", name), (1, b"", f"{accounts}: no such file\n".encode())
        written(accounts, right)
        yield "nothing is made for a wrong file", os.path.exists(state), False
        wanted = run_file(folder, listen_on(free), more="state_must_exist = true\n")
        yield "to run: no folder where one must exist", checked("run", wanted), (1, b"", NO_HISTORY)
        yield "none is made", os.path.exists(state), False
        os.mkdir(state)
        yield "to run: a folder without history", checked("run", wanted), (1, b"", NO_HISTORY)
        os.remove(os.path.join(state, "control"))
        yield "it has a lock alone", os.listdir(state), ["lock"]
        name = run_file(folder, listen_on(free))
        silent = f"{state}/control: no server answers\n".encode()
        yield "no server is ready", checked("ready", name), (1, b"", b"not ready: " + silent)
        freed = ("free", "nemo", "127.0.0.1", "nas=pop1", "s1")
        flagged = (
            ("status", "--json"), ("accounts", "--json", "--held"), ("sessions", "--json", "nemo"),
            ("reload", "--timeout", "9"),
        )
        server = ("free", "--nas", "nas=pop1", "127.0.0.1")
        flagged += ("sessions",), ("sessions", "--state", "live", "--json"), (*server, "--yes")
        no_terminal = (1, b"", b"standard input is no terminal: say --yes\n")
        yield "nobody to be asked whether to free", checked(*server, name), no_terminal
        for words in (
            *flagged, ("status",), ("accounts",), ("sessions", "nemo"), freed, ("disconnect", *freed[1:]),
            ("ask", "nemo", "key=1"), ("reload",), ("stop",),
        ):
            yield f"no server: {words}", checked(*words, name), (2, b"", silent)
        in_use = f"{HOST}:{taken}: cannot be bound: in use"
        other = f"192.0.2.1:{free[0]}: cannot be bound: no address of this machine"
        for case, listen, said in (
            ("an authentication port that is taken", listen_on([taken, free[1]]), in_use),
            ("an accounting port that is taken", listen_on([free[0], taken]), in_use),
            ("the second port of two", f"{listen_on(free)}, {listen_on([free_ports()[0], taken])}", in_use),
            ("an address of another machine", listen_on(free, "192.0.2.1"), other),
        ):
            found = checked("run", run_file(folder, listen))
            yield f"to run: {case}", found, (2, b"", f"{said}\n".encode())
        for case, path, why in (
            ("a file that is no socket", "accounts.toml", "in use"),
            ("too long a path", "c" * 200, "the name cannot be used"),
        ):
            name = run_file(folder, listen_on(free), more=f'[control]\nsocket = "{path}"\n')
            said = f"{folder}/{path}: cannot be bound: {why}\n".encode()
            yield f"to run: {case} for the control", checked("run", name), (2, b"", said)
        name = run_file(folder, listen_on(free), more='[control]\ngroup = "no such group"\n')
        said = f'{name}:5: group of control is "no such group"; the system has no group of this name\n'.encode()
        yield "to run: a group that nobody knows", checked("run", name), (1, b"", said)
        yield "a port that is taken leaves the lock alone", os.listdir(state), ["lock"]
        found = checked("run", run_file(folder, listen_on(free)), preexec_fn=with_descriptors(5))
        yield "to run: few descriptors", found[:2], (2, b"")
        lock = os.path.join(state, "lock")
        os.rename(lock, f"{lock}.there")
        os.symlink(f"{lock}.there", lock)
        found = checked("run", run_file(folder, listen_on(free)))
        yield "to run: a link for a lock", found, (1, b"", b"bad folder: has a link in place of a file\n")
        os.rename(f"{lock}.there", lock)
        if os.geteuid() == 0:
            os.chown(state, 65534, -1)
            found = checked("run", run_file(folder, listen_on(free)))
            yield "to run: a folder of another user", found, (1, b"", b"bad folder: belongs to another user\n")
            os.chown(state, 0, -1)
        os.chmod(state, 0o770)
        found = checked("run", run_file(folder, listen_on(free)))
        yield "to run: a folder that others may write to", found, (1, b"", b"bad folder: others may write to it\n")
        found = checked("run", run_file(folder, listen_on(free), "accounts.toml"))
        yield "to run: a file for a folder", found, (1, b"", b"bad folder: is no folder\n")
        found = checked("run", run_file(folder, listen_on(free), "no/state"))
        yield "to run: a folder in none", found, (2, b"", b"bad folder: cannot be made\n")
    held.close()


def waiting_of(folder, seconds, answer, *words):
    """What comes of `radlimitd` where a server answers this after a number of seconds: its status and output, and
    what it says on a terminal."""
    with socket.socket(socket.AF_UNIX) as control:
        path = os.path.join(folder, "state", "control")
        control.bind(path)
        control.listen()
        screen, stderr = pty.openpty()
        words = [RADLIMITD, *words, os.path.join(folder, "radlimitd.toml")]
        with subprocess.Popen(words, stdout=subprocess.PIPE, stderr=stderr) as process:
            os.close(stderr)
            server = control.accept()[0]
            time.sleep(seconds)
            with server:
                while not server.recv(4096).endswith(b"\n"):  # what is left unread would end it as a fault
                    pass
                server.sendall(answer)
            printed = process.stdout.read()
        said = b""
        with contextlib.suppress(OSError):  # the terminal's other end is closed
            while more := os.read(screen, 4096):
                said += more
        os.close(screen)
        os.remove(path)
    return process.returncode, printed, said


def asked_of(folder, answer, *words):
    """What comes of `radlimitd` where a server answers this at once: the status, what is printed and what is said; and the
    line that the server is sent."""
    with socket.socket(socket.AF_UNIX) as control:
        path = os.path.join(folder, "state", "control")
        control.bind(path)
        control.listen()
        control.settimeout(SECONDS)
        with subprocess.Popen([RADLIMITD, *words], stdin=subprocess.DEVNULL, stdout=subprocess.PIPE, stderr=subprocess.PIPE) as process:
            server, line = control.accept()[0], b""
            with server:
                while not line.endswith(b"\n"):
                    line += server.recv(4096)
                server.sendall(answer)
            printed, said = process.communicate()
        os.remove(path)
    return (process.returncode, printed, said), line.decode()


def cases_of_words():
    """What a running server is sent, in whatever order the words stand; and with which status `free` and `disconnect` end, by
    what the server answers."""
    with tempfile.TemporaryDirectory() as folder:
        name = run_file(folder, listen_on(free_ports()))
        os.mkdir(os.path.join(folder, "state"))
        session = ("nemo", "127.0.0.1", "nas=pop1", "s1")
        server = ("--nas", "nas=pop1")
        none, all_of = "links lines \\- \\- 0000000000000000 \\- \\-", "links json 127.0.0.1 live 000000000000003c nas=pop1 \\-"
        for words, line in (
            (("status", "--json", name), "status --json"),
            (("status", name, "--json"), "status --json"),
            (("status", "--json", "--timeout", "9", name), "status --json"),
            (("status", "--timeout", "9", "--json", name), "status --json"),
            (("status", "--timeout", "9", name, "--json"), "status --json"),
            (("status", "--json", name, "--timeout", "9"), "status --json"),
            (("status", name, "--timeout", "9"), "status"),
            (("accounts", "--held", name, "--json"), "accounts --json --held"),
            (("accounts", name, "--json", "--full"), "accounts --json --full"),
            (("accounts", "--timeout", "9", "--full", name), "accounts --full"),
            (("sessions", "nemo", name), "sessions nemo"),
            (("sessions", "nemo", "--json", name), "sessions --json nemo"),
            (("sessions", "--timeout", "9", "nemo", name, "--json"), "sessions --json nemo"),
            (("reload", name, "--timeout", "9"), "reload"),
            (("reload", "--timeout", "9", name), "reload"),
            (("free", *session, name), "free nemo 127.0.0.1 nas=pop1 s1"),
            (("free", "--disconnect", *session, name), "disconnect nemo 127.0.0.1 nas=pop1 s1"),
            (("free", *session, name, "--disconnect"), "disconnect nemo 127.0.0.1 nas=pop1 s1"),
            (("free", *session[:3], "\\x2d-yes", name), "free nemo 127.0.0.1 nas=pop1 \\x2d-yes"),
            (("disconnect", *session[:3], "--yes", name), "disconnect nemo 127.0.0.1 nas=pop1 --yes"),
        ):
            yield f"sent: {words[:-1]}", asked_of(folder, b"a line\nok\n", *words), ((0, b"a line\n", b""), f"{line}\n")
        for words, line in (
            (("sessions", name), none),
            (("sessions", name, "--timeout", "9"), none),
            (("sessions", "--json", "--nas", "nas=pop1", "--client", "127.0.0.1", "--state", "live", "--older", "60", name), all_of),
            (("sessions", "--older", "60", "--state", "live", name, "--client", "127.0.0.1", "--json", "--nas", "nas=pop1"), all_of),
            (("sessions", name, "--state", "live", "--older", "60", "--nas", "nas=pop1", "--json", "--client", "127.0.0.1"), all_of),
        ):
            yield f"sent: {words}", asked_of(folder, b"last\na link\nok\n", *words), ((0, b"a link\n", b""), f"{line}\n")
        freed, ended = f"free {' '.join(session)}\n", f"disconnect {' '.join(session)}\n"
        for words, line, answer, ends in (
            (("free", *session), freed, b"freed\nok\n", (0, b"freed\n", b"")),
            (("free", *session), freed, b"no such session\nok\n", (3, b"", b"no such session\n")),
            (("free", *session), freed, b"error unknown account\n", (2, b"", b"unknown account\n")),
            (("free", *session), freed, b"error no such session\n", (2, b"", b"no such session\n")),
            (("free", "--disconnect", *session), ended, b"error no such session\n", (3, b"", b"no such session\n")),
            (("disconnect", *session), ended, b"error no such session\n", (3, b"", b"no such session\n")),
            (("disconnect", *session), ended, b"disconnected\nok\n", (0, b"disconnected\n", b"")),
            (("disconnect", *session), ended, b"error the access server refuses\n", (2, b"", b"the access server refuses\n")),
            (("disconnect", *session), ended, b"error no answer from the access server\n", (5, b"", b"no answer from the access server\n")),
            (("sessions", "nemo"), "sessions nemo\n", b"error no such session\n", (2, b"", b"no such session\n")),
            (("sessions", "nemo"), "sessions nemo\n", b"no such session\nok\n", (0, b"no such session\n", b"")),
            (("free", "--yes", *server, "127.0.0.1"), None, b"last\nok\n", (3, b"", b"no such session\n")),
            (("free", *server, "--yes", "127.0.0.1"), None, b"last\nok\n", (3, b"", b"no such session\n")),
            (("free", "127.0.0.1", "--yes", *server), None, b"last\nok\n", (3, b"", b"no such session\n")),
        ):
            line = line or "links lines 127.0.0.1 \\- 0000000000000000 nas=pop1 \\-\n"
            yield f"{words}: answered {answer}", asked_of(folder, answer, *words, name), (ends, line)
        no_terminal = (1, b"", b"standard input is no terminal: say --yes\n")
        yield "nobody to be asked, with FILE before the flags", checked("free", "127.0.0.1", name, *server), no_terminal
        for words in (("--csv", name), (name, "--csv"), ("--until", "2", "--csv", name, "--since", "1"), (name, "--csv", "--since", "1")):
            yield f"export {words}", checked("export", *words), (0, b"account,client,nas,nas_address,session,began,seen,ended,why\n", b"")


def run_script(script, *words):
    """What comes of a script of the repository."""
    return run([os.path.join(TOP, script), *words], subprocess.DEVNULL, program=sys.executable)


def cases_of_scripts():
    """The usages of `./radlimit` and of scripts: on standard output where they are asked for, with status 0, and else on
    standard error."""
    usage = b"usage: radlimit replay, radlimit serve FILE ADDRESS AUTHPORT ACCTPORT TURNS, or radlimit prove; radlimit help says more\n"
    status, printed, said = run_script("radlimit", "help")
    yield "radlimit help", (status, b"\n./radlimit prove " in printed, b"\n./radlimit replay " in printed, said), (0, True, True, b"")
    for words in (["--help"], ["-h"]):
        yield f"radlimit {words}", run_script("radlimit", *words), (0, printed, b"")
    for words in (["version"], ["--version"], ["-V"]):
        yield f"radlimit {words}", run_script("radlimit", *words), (0, f"radlimit {VERSION}\n".encode(), b"")
    for words in ([], [""], ["prove", "x"], ["proof"], ["help", "x"], ["version", "x"], ["Replay"]):
        yield f"radlimit {words}", run_script("radlimit", *words), (1, b"", usage)
    for script, named in (
        ("packaging/build-deb", "packaging/build-deb"), ("packaging/verify", "packaging/verify"), ("tools/times.py", "python3 -m tools.times"),
        ("packaging/radlimit-split", "radlimit-split"), ("examples/accounts-from-database.py", "accounts-from-database.py"),
    ):
        for word in ("--help", "-h"):
            status, printed, said = run_script(script, word)
            yield f"{script} {word}", (status, f"\nusage: {named} ".encode() in printed, said), (0, True, b"")
        wanted = [] if script == "tools/times.py" else ["--no", "--such", "--flag", "x", "y"]
        status, printed, said = run_script(script, *wanted)
        yield f"{script} {wanted}", (status, printed, b"\nusage: " in said), (1, b"", True)


def cases_of_waits():
    """How long `radlimitd` waits for a server that takes long, and what it says meanwhile."""
    with tempfile.TemporaryDirectory() as folder:
        name = run_file(folder, listen_on(free_ports()))
        path = os.path.join(folder, "state", "control")
        os.mkdir(os.path.dirname(path))
        word, silent = b"waiting for the server\r\n", f"{path}: no server answers\n".encode()
        said = silent.replace(b"\n", b"\r\n")
        yield "an answer after three seconds", waiting_of(folder, 3, b"recording\nok\n", "status"), (0, b"recording\n", word)
        yield "one at once", waiting_of(folder, 0, b"recording\nok\n", "status"), (0, b"recording\n", b"")
        found = waiting_of(folder, 3, b"ok\n", "reload", "--timeout", "20")
        yield "one within the time that it has", found, (0, b"", word)
        yield "none, after three seconds", waiting_of(folder, 3, b"", "accounts"), (2, b"", word + said)
        found = waiting_of(folder, 0, b"error not recording\n", "ready")
        yield "a server that is not ready", found, (1, b"", b"not ready: not recording\r\n")
        yield "one whose clock is behind", waiting_of(folder, 0, b"clock behind\nok\n", "ready"), (0, b"clock behind\n", b"")
        with socket.socket(socket.AF_UNIX) as control:
            control.bind(path)
            control.listen()
            for words, seconds, expected in (
                (("reload", "--timeout", "1"), 1, (5, b"", f"{path}: no answer within 1 s\n".encode())),
                (("sessions", "--timeout", "3", "--json", "nemo"), 3, (5, b"", f"{path}: no answer within 3 s\n".encode())),
                (("ready",), 1, (1, b"", b"not ready: " + silent)),
                (("free", "nemo", HOST, "unnamed", "s1"), 5, (2, b"", silent)),
            ):
                began = time.monotonic()
                yield f"a server that is silent: {words}", checked(*words, name), expected
                yield from in_time(f"how long: {words}", time.monotonic() - began, seconds + 1, seconds)


def book_at(now, server, key):
    """A book of one session and one kept ask that were cut to a moment, as docs/FOLDER.md has it."""
    link = server + b"\x03" + state.string(b"s1") + state.number(now) + b"\x00\x00" + state.number(now)
    ask = key + server + b"\x01" + state.number(0) + state.number(now) + b"\x00"
    return state.number(now) + state.number(1) + state.number(0) + state.listed([link]) + state.listed([ask]) + b"\x00"


def cases_of_rebases():
    """The same of `radlimitd rebase`, over a folder that is written here, with a login of the year 2100."""
    late = 4_102_444_800
    names = [(b"nemo", 1, 1), (b"ishmael", 2, 2)]
    server = state.nas(0, b"n")
    key = bytes([127, 0, 0, 1]) + (1024).to_bytes(2, "big") + bytes([7]) + bytes(16)
    moves = [
        state.ask(late, 0, server, "127.0.0.1", 1024, 7, bytes(16)),
        state.alive(late + 1, 0, server, b"s1", None, 0),
    ]
    table = state.table(names, ["127.0.0.1", "127.0.0.2"])
    log = b"".join(map(state.frame, (state.front(1, table, BOOT), state.new_books(2), state.listed(moves))))
    with open(SERVER_ACCOUNTS, "rb") as file:
        right = file.read().replace(b"version = 3\n", b"version = 3\n" + TIMES)
    with tempfile.TemporaryDirectory() as folder:
        name, accounts = run_file(folder, listen_on(free_ports())), os.path.join(folder, "accounts.toml")
        yield "no accounts to rebase", checked("rebase", name), (1, b"", f"{accounts}: no such file\n".encode())
        written(accounts, right)
        yield "no history to rebase", checked("rebase", name), (1, b"", b"no history\n")
        files = {"lock": b"", "log-1": log}
        for file, octets in files.items():
            written(os.path.join(folder, "state", file), octets)
        written(accounts, right.replace(b"places = 2", b"places = 3"))
        found = checked("rebase", name)
        yield "to rebase: other accounts", found, (1, b"", b"other accounts than those of the state folder\n")
        written(accounts, right)
        with open(os.path.join(folder, "state", "lock"), "rb") as lock:
            fcntl.flock(lock, fcntl.LOCK_EX)
            yield "to rebase: a folder in use", checked("rebase", name), (2, b"", b"busy\n")
        began = int(time.time())
        found = checked("rebase", name)
        yield "a rebase", found, (0, b"generation 1: 4 moments cut; generation 2 begins\n", b"")
        frames = [state.frame(state.front(2, table, BOOT, len(moves)))]
        books = [state.listed([book_at(now, server, key), bytes(6)]) for now in range(began, int(time.time()) + 1)]
        logs = [b"".join(frames + [state.frame(octets)]) for octets in books]
        made = {}
        for file in sorted(os.listdir(os.path.join(folder, "state"))):
            with open(os.path.join(folder, "state", file), "rb") as opened:
                made[file] = opened.read()
        cut = made.pop("log-2", None)
        yield "the snapshot of a rebase", cut in logs, True
        yield "the other files of a rebase", made, files
        found = checked("rebase", name)
        yield "a rebase once more", found, (0, b"generation 2: 0 moments cut; generation 3 begins\n", b"")
        state_before = os.path.join(folder, "state")
        for file in os.listdir(state_before):
            os.remove(os.path.join(state_before, file))
        former = state.former_table(table, BOOT, 2)
        log = b"".join(map(state.frame, (state.former_header(2, 1, 1, former), state.new_books(2), state.listed(moves))))
        for file, octets in (("era-1", former), ("log-1-1", log)):
            written(os.path.join(state_before, file), octets)
        yield "a rebase of a log of before", checked("rebase", name), (1, b"", f"bad log: log-1-1 {FORMER}".encode())


BOOT = 1_700_000_000  # of folders that are written here
# what is said of a log of format 1 or 2
FORMER = "at 20: a log of a version before 0.4, and version 0.3 reads it\n"


def cases_of_lines():
    """The same of `radlimitd lines`, over a folder that is written here, and of one octet of its log that is another."""
    names = [(b"nemo", 1, 1), (b"fl\\opsy", 2, 1)]
    server = state.nas(0, b"a b\n")
    batches = [
        [state.ask(1_700_000_000, 0, server, "10.0.0.1", 1024, 7, bytes(range(16)))],
        [
            state.alive(1_700_000_001, 0, server, b"s1", b"", 0),
            state.ask(1_700_000_002, 0, server, "10.0.0.1", 9, 8, bytes(16)),
        ],
        [state.tick(1_700_000_003), state.stop(1_700_000_004, 1, server, b"s2")],
        [
            state.ask(1_700_000_005, 1, server, "10.0.0.1", 9, 9, bytes(16), b"00-00-5E a"),
            state.alive(1_700_000_006, 1, server, b"s3", b"m", 0, b"\\"),
            state.restart(1_700_000_007, server, 60),
            state.restart(1_700_000_008, server),
        ],
    ]
    table = state.table(names, ["10.0.0.1"])
    front = state.front(1, table, BOOT)
    payloads = front, state.new_books(2), *map(state.listed, batches)
    frames = [state.frame(payload) for payload in payloads]
    access_server = "client=10.0.0.1 nas=a\\x20b\\x0a"
    digits = bytes(range(16)).hex()
    told = [
        f"1 1700000000 ask account=nemo {access_server} source=10.0.0.1:1024 id=7 authenticator={digits} -> accept 0",
        f"2 1700000001 alive account=nemo {access_server} session=s1 bundle= class=0 -> done",
        f"3 1700000002 ask account=nemo {access_server} source=10.0.0.1:9 id=8 authenticator={'00' * 16} -> reject limit",
        "4 1700000003 tick -> done",
        f"5 1700000004 stop account=fl\\x5copsy {access_server} session=s2 -> done",
        f"6 1700000005 ask account=fl\\x5copsy {access_server} source=10.0.0.1:9 id=9 authenticator={'00' * 16} "
        "station=00-00-5E\\x20a -> accept 0",
        f"7 1700000006 alive account=fl\\x5copsy {access_server} session=s3 bundle=m class=0 station=\\x5c -> done",
        f"8 1700000007 restart {access_server} delay=60 -> done",
        f"9 1700000008 restart {access_server} -> done",
    ]
    with tempfile.TemporaryDirectory() as folder:
        log = os.path.join(folder, "log-1")
        whole = b"".join(frames)
        expected = "".join(f"{log} {line}\n" for line in told).encode()
        written(log, whole)
        yield "the lines of a log", checked("lines", log), (0, expected, b"")
        archived = os.path.join(folder, "archive", "log-1")
        os.mkdir(os.path.dirname(archived))
        written(archived, whole)
        lines = "".join(f"{archived} {line}\n" for line in told).encode()
        yield "the lines of an archived log", checked("lines", archived), (0, lines, b"")
        yield "the lines of a log twice", checked("lines", log, log), (0, expected * 2, b"")
        written(log, whole + b"torn")
        yield "the lines of a torn log", checked("lines", log), (0, expected, f"{log}: a torn end of 4 octets\n".encode())
        places = [sum(map(len, frames[:count])) for count in range(len(frames))]
        for place, size in zip(places, map(len, frames)):
            for at in {place, place + 3, place + 4, place + 20, place + size - 1}:
                written(log, whole[:at] + bytes([whole[at] ^ 1]) + whole[at + 1 :])
                found = checked("lines", log)
                # of a spoilt length the digest tells, also in the last record
                if place == places[-1] and at >= place + 4:
                    torn = f"{log}: a torn end of {size} octets\n".encode()
                    wanted = 0, b"".join(expected.splitlines(True)[:5]), torn
                    yield f"a log whose last record is spoilt at {at}", found, wanted
                else:
                    damaged = f"bad log: {log} at {place}: damaged\n".encode()
                    yield f"a log that is spoilt at {at}", found, (1, b"", damaged)
        foreign = state.listed([state.tick(1), b"\x0a"])
        written(log, whole + state.frame(foreign))
        place = len(whole) + 20 + len(foreign) - 1
        damaged = f"bad log: {log} at {place}: an unknown tag\n".encode()
        yield "a log with a move that is none", checked("lines", log), (1, expected, damaged)
        written(log, whole)
        other = os.path.join(folder, "log-2")
        written(other, whole)
        damaged = f"bad log: {other} at 20: a header of another generation\n".encode()
        yield "a log with another's name", checked("lines", log, other), (1, expected, damaged)
        elsewhere = state.front(1, state.table(names, ["10.0.0.2"]), BOOT)
        written(log, b"".join([state.frame(elsewhere), *frames[1:]]))
        there = expected.replace(b"client=10.0.0.1 ", b"client=10.0.0.2 ")
        yield "a log with another table", checked("lines", log), (0, there, b"")
        written(log, b"".join([state.frame(front + b"\x00"), *frames[1:]]))
        damaged = f"bad log: {log} at {20 + len(front)}: octets after the end\n".encode()
        yield "a table with an octet more", checked("lines", log), (1, b"", damaged)
        written(log, whole)
        yield from cases_of_former_lines(folder, table, frames)
        with open("/dev/full", "wb") as full:
            yield "a full disk for lines", checked("lines", log, stdout=full), (2, None, FAULT)


def cases_of_former_lines(folder, table, frames):
    """The same of a log and a table of a version before, in a folder with the log of these frames."""
    log, era = os.path.join(folder, "log-1-1"), os.path.join(folder, "era-1")
    former = state.former_table(table, BOOT, 2)
    for form in (1, 2):
        written(log, b"".join([state.frame(state.former_header(form, 1, 1, former)), *frames[1:]]))
        for what, octets in (("", former), (", beside no table", b"no table")):
            written(era, octets)
            found = checked("lines", log)
            yield f"a log of format {form}{what}", found, (1, b"", f"bad log: {log} {FORMER}".encode())
    yield "the lines of a table", checked("lines", era), (1, b"", f"{era}: no log by its name\n".encode())


def bound():
    """A UDP socket on a port of 127.0.0.1, and the port."""
    held = socket.socket(socket.AF_INET, socket.SOCK_DGRAM)
    held.bind(("127.0.0.1", 0))
    return held, str(held.getsockname()[1])


def served(file, ports, turns="0", address="127.0.0.1", **streams):
    """The status and both outputs of a server."""
    return given(b"", ["serve", file, address, *ports, turns], **streams)


@contextlib.contextmanager
def server_of_nemo(reserve, turns):
    """A server whose one account has one place, which is reserved for so long, and a socket to ask it from."""
    with tempfile.NamedTemporaryFile() as file:
        nemo = [("nemo", PASSWORD, 1, 1)]
        account_file(file.name, [(HOST, SECRET, False)], nemo, shards=2, reserve=reserve, keep=1)
        with Server(file.name, turns) as server, socket.socket(socket.AF_INET, socket.SOCK_DGRAM) as asker:
            asker.settimeout(SECONDS)
            yield server, asker


def to_port(port):
    """The address of a port."""
    return HOST, int(port)


def told_of_nemo(auth, acct, held):
    """What such a server prints: of each port how many were answered and dropped, and whether the place is reserved."""
    lines = [
        f"{port} received {answered + dropped} answered {answered} dropped {dropped} refused 0 unsent 0\n"
        for port, (answered, dropped) in (("auth", auth), ("acct", acct))
    ]
    table = f"""\
name                   places     held reserved     live    stale     over
nemo                        1        {held}        {held}        0        0        0
"""
    return "".join(lines) + table


def after_an_ask(reserve):
    """What comes of a server that accepts an ask, and ends some four seconds after it; a place is reserved so long."""
    with server_of_nemo(reserve, 4) as (server, asker):
        asker.sendto(REQUEST, to_port(server.ports[0]))
        return server.ended(SECONDS)


def after_one_receiver():
    """What comes of a server one of whose receivers has taken its turns at once, while the other waits for seconds; a
    place is reserved for one."""
    with server_of_nemo(1, 4) as (server, asker):
        for datagram in (REQUEST, b"", b"", b""):
            asker.sendto(datagram, to_port(server.ports[0]))
        return server.ended(SECONDS)


def within_two_seconds():
    """What comes of a server that ends one and a half seconds after its first ask, where a place is reserved for one;
    and the processor seconds that it took. It takes no datagram in the second of the clock in which it began, and
    accepts an ask in the next, so that only a tick a second later ends the reservation. Where the start took longer,
    another is tried."""
    for _ in range(5):
        time.sleep(1 - time.time() % 1)
        second = int(time.time())
        before = resource.getrusage(resource.RUSAGE_CHILDREN)
        with server_of_nemo(1, 2) as (server, asker):
            asker.sendto(REQUEST, to_port(server.ports[0]))
            asker.recv(4096)
            is_in_time = int(time.time()) == second + 1
            time.sleep(0.5)
            asker.sendto(b"", to_port(server.ports[1]))
            ended = server.ended(SECONDS)
        after = resource.getrusage(resource.RUSAGE_CHILDREN)
        if is_in_time:
            break
    return ended, after.ru_utime + after.ru_stime - before.ru_utime - before.ru_stime


def cases_of_time():
    """A reservation ends by the clock, at a tick, with no packet that comes after it. A tick comes a second after the
    start, ticks go on until both receivers have ended, and a server does not keep its processor busy between them."""
    for reserve, held in ((60, 1), (1, 0)):
        expected = (0, told_of_nemo((1, 0), (0, 0), held), "")
        yield f"a reservation of {reserve} seconds, after four", after_an_ask(reserve), expected
    expected = (0, told_of_nemo((1, 3), (0, 0), 0), "")
    yield "a reservation that ends after one receiver has", after_one_receiver(), expected
    ended, seconds = within_two_seconds()
    yield "a reservation that ends at the second tick", ended, (0, told_of_nemo((1, 0), (0, 1), 0), "")
    yield "a server that waits takes less than half a second of processor", seconds < 0.5, True


def shown():
    """What docs/RADLIMIT-SERVE.md shows that a server prints, and the report of a session that has begun where it has two
    dots."""
    report = f"{'name':16}{'places':>13}{'held':>9}{'reserved':>9}{'live':>9}{'stale':>9}{'over':>9}\n"
    report += f"{'nemo':16}{1:13}{1:9}{0:9}{1:9}{0:9}{0:9}\n"
    with open(RADLIMIT_SERVE, encoding="utf-8") as file:
        return re.search(r"^```\n(auth received .*?)```", file.read(), re.M | re.S)[1].replace("..\n", report)


def after_a_session_began():
    """What comes of a server that accepts an ask, rejects one with another password, drops a datagram without octets,
    and answers a Start and an Interim-Update."""
    session = attribute(1, b"nemo") + attribute(4, REQUEST[46:50]) + attribute(44, b"s1")
    started, renewed = (accounting_request(1, SECRET, status, session) for status in (START, INTERIM))
    other = REQUEST[:28] + bytes([REQUEST[28] ^ 1]) + REQUEST[29:]
    with server_of_nemo(60, 3) as (server, asker):
        for port, datagram in ((0, REQUEST), (0, other), (1, started), (1, renewed)):
            asker.sendto(datagram, to_port(server.ports[port]))
            asker.recv(4096)
        asker.sendto(b"", to_port(server.ports[0]))
        return server.ended(SECONDS)


def cases_of_servers():
    """The same of `radlimit serve`, whose receivers take no turns, or wait for one datagram that does not come."""
    yield "no turns", served(ACCOUNTS, free_ports()), (0, NONE_CAME, b"")
    yield "what docs/RADLIMIT-SERVE.md shows of a server", after_a_session_began(), (0, shown(), "")
    began = time.monotonic()
    yield "a turn", served(ACCOUNTS, free_ports(), "1"), (0, NONE_CAME, b"")
    yield from in_time("a turn takes a second", time.monotonic() - began, 5, 1)
    first, second = free_ports()
    yield "leading zeros", served(ACCOUNTS, ["0" * 20 + first, second], "00"), (0, NONE_CAME, b"")
    with open("/dev/full", "wb") as full:
        yield "a full disk for a server", served(ACCOUNTS, free_ports(), stdout=full), (2, None, FAULT)
    for turns in ("0", "1"):
        name = f"no standard output for a server, {turns} turns"
        found = served(ACCOUNTS, free_ports(), turns, stdout=None, preexec_fn=without_stdout)
        yield name, found, (2, None, FAULT)
    found = served(ACCOUNTS, free_ports(), stdout=None, stderr=None, preexec_fn=without_streams)
    yield "no streams for a server", found, (2, None, None)
    with unread() as writer:
        found = served(ACCOUNTS, free_ports(), stdout=writer)
        yield "a server's output that nobody reads", found, (2, None, FAULT)
    found = served("absent", free_ports(), stderr=None, preexec_fn=lambda: os.close(2))
    yield "no standard error for a server", found, (1, b"", None)


def cases_of_ports():
    """Ports, addresses and names of files that a server cannot have."""
    held, taken = bound()
    free = free_ports()[0]
    yield "an authentication port that is taken", served(ACCOUNTS, [taken, free]), (2, b"", FAULT)
    yield "an accounting port that is taken", served(ACCOUNTS, [free, taken]), (2, b"", FAULT)
    yield "one port for both", served(ACCOUNTS, [free, free]), (2, b"", FAULT)
    # an address for documentation is no machine's
    yield "an address of another machine", served(ACCOUNTS, free_ports(), address="192.0.2.1"), (2, b"", FAULT)
    yield "a file that is not there, and a port that is taken", served("absent", [taken, free]), UNREADABLE
    held.close()
    yield "a folder for a server's file", served(TOP, free_ports()), UNREADABLE
    yield "no name of a file", served("", free_ports()), UNREADABLE
    yield "a name that is too long", served("f" * 5000, free_ports()), UNREADABLE
    yield "a file whose reads fail", served("/proc/self/mem", free_ports()), UNREADABLE
    yield "a file without end for a server", served("/dev/zero", free_ports()), UNREADABLE
    # the file and then the first socket take the fourth descriptor
    for number, expected in ((4, (2, b"", FAULT)), (5, (0, NONE_CAME, b""))):
        yield f"{number} descriptors", served(ACCOUNTS, free_ports(), preexec_fn=with_descriptors(number)), expected


def cases_of_server_files():
    """Files that are no account file, and the longest one."""
    with tempfile.NamedTemporaryFile() as file:
        yield "an empty file", served(file.name, free_ports()), (1, b"", b"bad file: Missing version\n")
        file.write(b"version = 4\n")
        file.flush()
        yield "a wrong version", served(file.name, free_ports()), (1, b"", b"bad file: BadValue version\n")
        file.write(b"=")
        file.flush()
        yield "a file that is no TOML", served(file.name, free_ports()), NOT_TOML
        file.truncate(16_777_217)
        yield "a file that is too long", served(file.name, free_ports()), UNREADABLE
        file.truncate(100_000_000)
        began = time.monotonic()
        yield "a file of 100 MB", served(file.name, free_ports()), UNREADABLE
        yield from in_time("a file of 100 MB is not read to its end", time.monotonic() - began, 10)
    with open(ACCOUNTS, "rb") as file:
        text = file.read()
    for depth, expected in ((80, (0, NONE_CAME, b"")), (81, NOT_TOML), (1_000_000, NOT_TOML)):
        with tempfile.NamedTemporaryFile() as file:
            file.write(deep(depth, text))
            file.flush()
            yield f"lists in lists in a server's file, {depth} deep", served(file.name, free_ports()), expected
    for name, octets in (("lists", b"["), ("tables", b"{a = "), ("parts of a key", b"a.")):
        with tempfile.NamedTemporaryFile() as file:
            file.write(b"deep = " + octets * 1_000_000)
            file.flush()
            yield f"a million {name} without an end", served(file.name, free_ports()), NOT_TOML
    with tempfile.NamedTemporaryFile() as file:
        file.write(text + b"#" * (16_777_216 - len(text)))
        file.flush()
        yield "the longest file", served(file.name, free_ports()), (0, NONE_CAME, b"")
        os.chmod(file.name, 0)
        yield "a file that may not be read", served(file.name, free_ports(), preexec_fn=without_override), UNREADABLE


def main():
    passed, failed = 0, 0
    for name, found, expected in cases():
        if found == expected:
            passed += 1
        else:
            failed += 1
            print(f"{name}\nexpected: {expected!r}\nfound:    {found!r}")
    print(f"{passed} passed, {failed} failed")
    return 1 if failed else 0


sys.exit(main())
