"""Changes one octet of the files of a state folder, each octet in turn and each in three ways, and starts
`radlimitd run` from each folder that comes of it.

The folder is that of a server which was asked, killed, started and asked again. From a changed one the next server
either does not start, names the file, the place and the cause that a reader written apart has, from docs/FOLDER.md
alone (tests/lib/history.py), and leaves all files as they are; or it starts, says which end it cut off, and goes on
with the books of that reader: by its status, by the snapshot that it writes, and by the files that it leaves alone.
`radlimitd lines` prints the moves of the changed file up to the same place, with the decisions of those books.

Then octets of payloads are changed whose digests are made right again, and whole files are taken away, swapped, cut
and put in the place of others: each is found, or is none of the server's concern. Damaged files are mended as
docs/OPERATING.md says, and then the server has to go on.

usage: python3 -m tests.programs.damage
It wants Linux and the built program. Where it runs as root, a folder that may not be written to is tried as nobody.
"""

import collections
import concurrent.futures
import multiprocessing
import os
import pwd
import re
import select
import shutil
import socket
import subprocess
import sys
import tempfile
import time

from tests.lib import folder as state_folder, history, served

SECRET, PASSWORD = b"secret of all", b"password"
PLACES = [3, 1, 0]
RESERVE = LIVE = 86_400  # seconds: no deadline comes
SECONDS = 20  # that a server may take to start, and to end
WAYS = [lambda octet: octet ^ 1, lambda octet: octet ^ 0x80, lambda octet: (octet + 85) % 256]
BAD_LOG = "bad log: {} {}\n"

# what should come of a folder: what the server says, the status of one that does not start, the log that it goes on
# from and how many octets of it stay, the books, and the header of the next log
Ending = collections.namedtuple("Ending", "said status log whole books header", defaults=(None,) * 5)


def written(path, octets):
    """Writes a file."""
    with open(path, "wb") as file:
        file.write(octets)


def files_of(state):
    """The files of a folder and of its archive, but for the control's socket: octets, or None of another folder."""
    found = {}
    for folder, folders, names in os.walk(state):
        found.update((name, None) for name in folders if name != "archive")
        for name in names:
            path = os.path.join(folder, name)
            if os.path.isfile(path):
                with open(path, "rb") as file:
                    found[name] = file.read()
    return found


class Server:
    """A server's file, its account file and its state folder, one after the other."""

    def __init__(self, folder, places=PLACES):
        self.folder, self.ports = folder, served.free_ports()
        self.state = os.path.join(folder, "state")
        self.file = served.daemon_file(folder, self.ports, 1)
        accounts = [(f"u{number}", PASSWORD, count, 1) for number, count in enumerate(places)]
        served.account_file(
            os.path.join(folder, "accounts.toml"), [(served.HOST, SECRET, False)], accounts, shards=2,
            reserve=RESERVE, keep=history.KEEP, live=LIVE,
        )

    def put(self, files):
        """Has the folder these files."""
        shutil.rmtree(self.state, ignore_errors=True)
        os.mkdir(self.state, 0o700)
        for name, octets in files.items():
            path = os.path.join(self.state, name)
            os.mkdir(path) if octets is None else written(path, octets)

    def ask(self, word):
        """What the running server answers at its control."""
        with socket.socket(socket.AF_UNIX, socket.SOCK_STREAM) as one:
            one.settimeout(SECONDS)
            one.connect(os.path.join(self.state, "control"))
            one.sendall(word + b"\n")
            answer = b""
            while not answer.endswith(b"ok\n") and (more := one.recv(4096)):
                answer += more
        return answer.decode()

    def run(self, begin=served.daemon):
        """Starts it, and kills it once it has answered: what it says, its status where it ends by itself, and the
        answer to `status`."""
        while True:
            process = begin(self.file)
            if not select.select([process.stderr], [], [], SECONDS)[0]:
                process.kill()
                return "nothing within its time", process.wait(), None
            said, answer, status = served.found_line(process), None, None
            if served.GREETING.match(said):
                answer = self.ask(b"status")
                status = process.poll()
                process.kill()
                process.wait(SECONDS)
            else:
                status = process.wait(SECONDS)
            said += process.stderr.read().decode()
            process.stderr.close()
            if f"{served.HOST}:" not in said:
                return said, status, answer
            # another program has the port
            self.ports = served.free_ports()
            served.daemon_file(self.folder, self.ports, 1)

    def lines(self, name):
        """What `radlimitd lines` prints of a log, says and ends with."""
        words = [served.DAEMON, "lines", name]
        done = subprocess.run(words, cwd=self.state, capture_output=True, text=True, check=False)
        return done.stdout, done.stderr, done.returncode


class AccessServer:
    """An access server that sends a request after the other, and waits for each answer."""

    def __init__(self, ports):
        self.sockets = [socket.socket(socket.AF_INET, socket.SOCK_DGRAM) for _ in ports]
        for one, port in zip(self.sockets, ports):
            one.settimeout(SECONDS)
            one.connect((served.HOST, int(port)))
        self.asked = 0

    def answer(self, at, request):
        """The answer to a request."""
        self.sockets[at].send(request)
        reply = self.sockets[at].recv(4096)
        return reply if served.is_answer(reply, request, SECRET) else sys.exit("a wrong answer")

    def login(self, account):
        """The Class attribute of a login that is accepted, else none."""
        self.asked += 1
        names = served.attribute(1, b"u%d" % account) + served.attribute(32, b"n")
        reply = self.answer(0, served.access_request(self.asked, SECRET, names, os.urandom(16), PASSWORD))
        return b"".join(served.attribute(25, value) for kind, value in served.attributes_of(reply) if kind == 25)

    def tell(self, status, account, session, mark=b""):
        """Tells of a session."""
        self.asked += 1
        names = served.attribute(1, b"u%d" % account) + served.attribute(32, b"n") + served.attribute(44, session)
        self.answer(1, served.accounting_request(self.asked, SECRET, status, names + mark))

    def close(self):
        """Closes its sockets."""
        for one in self.sockets:
            one.close()


def first_life(asker):
    """A session of the first account that runs, one that is over, and a reservation."""
    asker.tell(served.START, 0, b"s", asker.login(0))
    asker.tell(served.STOP, 0, b"t")
    asker.login(0)


def second_life(asker):
    """Another session of it, and the end of the first one; of the second account a session, and one with no place."""
    asker.tell(served.START, 0, b"v", asker.login(0))
    asker.tell(served.STOP, 0, b"s")
    mark = asker.login(1)
    asker.tell(served.START, 1, b"x", mark)
    asker.login(1)
    asker.tell(served.INTERIM, 1, b"w", mark)


def made(server):
    """The files of a server that was killed, and of one that went on and was killed too."""
    for life in (first_life, second_life):
        process = served.daemon(server.file)
        served.greeting(process, SECONDS)
        asker = AccessServer(server.ports)
        life(asker)
        asker.close()
        process.kill()
        process.communicate()
    return files_of(server.state)


class Folder:
    """The files of a folder of which some were changed, and those of before."""

    def __init__(self, before, files):
        self.before, self.files = before, files

    def logs(self):
        """The names of its logs, the newest first."""
        return sorted(filter(is_log, self.files), key=history.order, reverse=True)

    def frames(self, name):
        """The payloads of a log, or BadLog."""
        octets = self.files[name]
        payloads = history.frames(octets)
        whole = history.whole_len(payloads)
        if history.is_spoilt(octets[whole:]):
            raise history.Fault(whole, "damaged")
        return payloads

    def header(self, name):
        """The payloads of a log with its header, or with none where it was not begun."""
        payloads = self.frames(name)
        if len(payloads) < 2:
            return payloads, None
        try:
            return payloads, history.Reader(payloads[0]).header()
        except history.Fault as fault:
            raise fault.behind(history.HEAD) from None

    @staticmethod
    def check_header(name, header):
        """That a header is of its file's name."""
        if header.generation != history.number_of(name):
            raise history.Fault(history.HEAD, "a header of another generation")

    def table(self, payloads):
        """The table behind a header. It is that of the account file, or an account file could have it."""
        reader = history.Reader(payloads[0])
        reader.header()
        begin = reader.at
        try:
            table = reader.table()
        except history.Fault as fault:
            raise fault.behind(history.HEAD) from None
        if not is_configured(table):
            raise history.Fault(history.HEAD + begin, "a table that no account file has")
        return table

    def configured(self):
        """The octets of the table of the account file."""
        return next(table_octets(history.frames(self.before[name])[0]) for name in filter(is_log, self.before))

    def batches(self, name, payloads, table):
        """The moves of each batch of a log, and what was wrong behind the last."""
        rows, clients = table
        limits, at, found = (len(rows), len(clients)), history.HEAD + len(payloads[0]), []
        try:
            for place, payload in enumerate(payloads[1:]):
                at += history.HEAD
                reader = history.Reader(payload, *limits)
                if place:
                    found.append(reader.moves())
                else:
                    self.check_snapshot(reader.books(), rows)
                at += len(payload)
        except history.Fault as fault:
            return found, fault.behind(at)
        return found, None

    @staticmethod
    def check_snapshot(books, rows):
        """That a snapshot fits the accounts, in the order of their numbers."""
        if len(books) != len(rows):
            raise history.Fault(0, "not one book for each account")
        for (_name, limits, _times), (links, _number, _over, asks, stops) in zip(rows, books):
            for is_over, cause in (
                (len(asks) > history.KEPT_ASKS, "too many asks"),
                (len(stops) > history.KEPT_STOPS, "too many stops"),
                (len(links) > limits[0], "too many places"),
            ):
                if is_over:
                    raise history.Fault(0, cause)

    def start(self):
        """What should come of a start, by docs/FOLDER.md."""
        name = None
        try:
            for name in self.logs():
                payloads, header = self.header(name)
                if header:
                    return self.go_on(name, payloads, header)
        except history.Fault as fault:
            return Ending(BAD_LOG.format(name, fault), 1)
        logs = self.logs()
        numbers = [history.number_of(log) for log in filter(history.LOG.fullmatch, logs)]
        former = [log for log in logs if history.FORMER_LOG.fullmatch(log)]
        if (numbers and 1 not in numbers) or any(history.order(log)[2] > 1 for log in former):
            return Ending(BAD_LOG.format(logs[0], "at 0: no whole snapshot, here or earlier"), 1)
        header = history.Header(1 + max(numbers, default=0), 1, None, 0)
        return Ending("new history: 0 sessions\n", 0, None, None, history.Books(PLACES), header)

    def go_on(self, name, payloads, header):
        """The same of one that goes on from a log."""
        self.check_header(name, header)
        batches, fault = self.batches(name, payloads, self.table(payloads))
        if fault:
            raise fault
        books, count = self.books(name), 0
        for batch in batches:
            count += len(batch)
            for move in batch:
                books.step(move)
        whole = history.whole_len(payloads)
        torn = len(self.files[name]) - whole
        said = f"generation {header.generation}: {books.sessions()} sessions"
        said += f", torn end of {torn} octets cut off\n" if torn else "\n"
        number = 1 + max(map(history.number_of, filter(history.LOG.fullmatch, self.files)))
        following = header._replace(generation=number, lines=header.lines + count)
        return Ending(said, 0, name, whole, books, following)

    def books(self, name):
        """The books before a log: the replay of the logs before it, as they were."""
        books = history.Books(PLACES)
        for other in sorted(filter(is_log, self.before), key=history.order):
            if history.order(other) < history.order(name):
                for payload in history.frames(self.before[other])[2:]:
                    for move in history.Reader(payload).moves():
                        books.step(move)
        return books

    def lines(self, name):
        """What `radlimitd lines` should print of a log, say and end with."""
        try:
            payloads, header = self.header(name)
            if header:
                self.check_header(name, header)
                table = self.table(payloads)
        except history.Fault as fault:
            return "", BAD_LOG.format(name, fault), 1
        batches, fault = self.batches(name, payloads, table) if header else ([], None)
        printed = self.printed(name, header, batches)
        if fault:
            return printed, BAD_LOG.format(name, fault), 1
        torn = len(self.files[name]) - history.whole_len(payloads)
        return printed, f"{name}: a torn end of {torn} octets\n" if torn else "", 0

    def printed(self, name, header, batches):
        """The lines of the moves of a log."""
        books, number, printed = self.books(name), header.lines if header else 0, ""
        for move in (move for batch in batches for move in batch):
            number += 1
            printed += history.line_of(name, number, move, books.step(move), served.HOST) + "\n"
        return printed


def is_log(name):
    """Whether a file is a log by its name, also one of a version before."""
    return history.LOG.fullmatch(name) or history.FORMER_LOG.fullmatch(name)


def table_octets(payload):
    """The octets of the table in the first payload of a log."""
    reader = history.Reader(payload)
    reader.header()
    return payload[reader.at :]


def is_configured(table):
    """Whether an account file has a table: the times that are of all accounts are the same, and no name and no address
    comes twice."""
    rows, clients = table
    shared = {(times[0], times[3], times[4]) for _name, _limits, times in rows}
    return len(shared) == 1 and len({row[0] for row in rows}) == len(rows) and len(set(clients)) == len(clients)


def outcome(server, changed, before):
    """What came of a start in a folder of which some files were changed, and what should, in the same words."""
    expected = changed.start()
    said, status, answer = server.run()
    after = files_of(server.state)
    after.setdefault("lock", b"")
    if answer is None:
        unchanged = after == {"lock": b"", **before}
        return (said, status, unchanged), (expected.said, expected.status, True)
    found = {name: octets for name, octets in after.items() if name not in before or octets != before[name]}
    number = expected.header.generation if expected.header else 0
    log = f"log-{number}"
    wanted = {log}
    if expected.log and expected.whole < len(before[expected.log]):
        wanted.add(expected.log)
    cut = after.get(expected.log) if expected.log in found else None
    if "lock" not in before:
        wanted.add("lock")
    problem = wrong_log(after.get(log, b""), expected.books, expected.header, changed.configured())
    is_cut = cut is None or cut == before[expected.log][: expected.whole]
    totals = "".join(answer.partition(f"generation {number:11}\n")[2].splitlines(True)[:7])
    return (
        (said, status, sorted(found), is_cut, problem, totals),
        (expected.said, None, sorted(wanted), True, None, expected.books.totals() if expected.books else None),
    )


def wrong_log(octets, books, expected, table):
    """What is wrong with the first two frames of a new log, if anything. The boot number of a new history is the moment."""
    payloads = history.frames(octets)
    try:
        found = history.Reader(payloads[0]).header()
        if expected.boot is None and abs(time.time() - found.boot) < 4 * SECONDS:
            expected = expected._replace(boot=found.boot)
        if found != expected:
            return f"{found}, and not {expected}"
        if table_octets(payloads[0]) != table:
            return "another table"
        books.check(payloads[1])
    except (ValueError, IndexError, AttributeError) as problem:
        return str(problem)
    return None


def tried(server, case):
    """The name of a case, what came of it, and what should."""
    name, before, files, log = case
    changed = Folder(before, files)
    server.put(files)
    found, expected = outcome(server, changed, files)
    if log in files:
        server.put(files)
        return name, (found, server.lines(log)), (expected, changed.lines(log))
    return name, found, expected


def fault_read(changed, log):
    """What is said of a log whose digests are right, if anything."""
    try:
        payloads, header = changed.header(log)
        changed.check_header(log, header)
        fault = changed.batches(log, payloads, changed.table(payloads))[1]
    except history.Fault as found:
        fault = found
    return BAD_LOG.format(log, fault) if fault else None


def well_read(server, case):
    """The same of one whose digests were made right: where nothing is wrong with what is spelled, the server starts, and
    says so where the table is not that of the account file."""
    name, before, files, log = case
    changed = Folder(before, files)
    server.put(files)
    fault = fault_read(changed, log)
    said, status, _answer = server.run()
    if fault:
        expected = fault, 1, files
        found = files_of(server.state)
        found.setdefault("lock", b"")
        return name, (said, status, found), (*expected[:2], {"lock": b"", **files})
    is_other = table_octets(history.frames(files[log])[0]) != changed.configured()
    found = said.startswith(f"generation {history.number_of(log)}: "), "\naccounts changed: " in said
    return name, (*found, status), (True, is_other, None)


def changes(before):
    """A folder for each octet and each way to change it, and the log that is looked at by `lines`."""
    newest = max(filter(is_log, before), key=history.order)
    for name, octets in before.items():
        for at, octet in enumerate(octets):
            for way, change in enumerate(WAYS):
                files = {**before, name: octets[:at] + bytes([change(octet)]) + octets[at + 1 :]}
                yield f"{name}, octet {at}, way {way}", before, files, name if is_log(name) else newest


def right_changes(before):
    """A folder for each octet of the payloads of its newest log, changed in one way, with a right digest."""
    newest = max(filter(is_log, before), key=history.order)
    payloads = history.frames(before[newest])
    for place, payload in enumerate(payloads):
        for at, octet in enumerate(payload):
            other = payload[:at] + bytes([WAYS[(place + at) % 3](octet)]) + payload[at + 1 :]
            octets = b"".join(map(state_folder.frame, [*payloads[:place], other, *payloads[place + 1 :]]))
            yield f"{newest}, payload {place}, octet {at}", before, {**before, newest: octets}, newest


def whole_changes(before):
    """Folders of which whole files or ends are changed."""
    first, second = sorted(filter(is_log, before), key=history.order)
    payloads = history.frames(before[second])
    heads = history.whole_len(payloads[:2])

    def folder(name, more, *less, log=second):
        files = {key: octets for key, octets in {**before, **more}.items() if key not in less}
        return name, before, files, log

    yield folder("as it was", {})
    yield folder("a lock with octets", {"lock": b"123"})
    yield folder("no lock", {}, "lock")
    yield folder("no newest log", {}, second, log=first)
    yield folder("no first log", {}, first)
    yield folder("no log at all", {}, first, second)
    yield folder("a log of no octets behind the newest", {"log-9": b""})
    names = "log-03", "log-", "log-2x", "log-1-", "log-1-02", "era-01", "notes"
    yield folder("other names", dict.fromkeys(names, b"x"))
    yield folder("the newest log under another number", {"log-7": before[second]}, second, log="log-7")
    yield folder("the same with a torn end", {"log-7": before[second] + b"x"}, second, log="log-7")
    yield folder("the first log under the newest one's name", {second: before[first]})
    yield folder("an empty newest log", {second: b""})
    yield folder("a snapshot that is cut, and nothing earlier", {second: before[second][: heads - 1]}, first)
    yield folder("a snapshot that is cut", {second: before[second][: heads - 1]})
    yield folder("a first log that was not begun, and none later", {first: b""}, second, log=first)
    yield folder("two logs that were not begun, the first among them", {first: b"", second: before[first][:9]})
    yield folder("two logs that were not begun, and no first one", {second: b"", "log-9": b""}, first)
    yield from former_files(folder, first, second)
    for cut in range(1, len(before[second])):
        yield folder(f"the newest log cut at {cut}", {second: before[second][:cut]})

    def beginning(payload):
        return {second: b"".join(map(state_folder.frame, [payload, *payloads[1:]]))}

    front = payloads[0]
    yield folder("a header with no table", beginning(front[: len(front) - len(table_octets(front))]))
    yield folder("a table with an octet more", beginning(front + b"\0"))
    for at, version in ((0, b"\x02"), (0, b"\x04"), (1, b"\x02")):
        yield folder(f"version {version[0]} at {at} of the header", beginning(front[:at] + version + front[at + 1 :]))


def former_files(folder, first, second):
    """The same of files with the names of a version before, none of which counts beside a generation that was begun."""
    yield folder("files of before", {"log-1-2": b"", "era-1": b"x"})
    yield folder("a first log of before, not begun, and no other", {"log-1-1": b""}, first, second)
    yield folder("a first log of before and a first one, neither begun", {"log-1-1": b"", first: b""}, second)
    yield folder("first logs of before of two eras, not begun", {"log-1-1": b"", "log-2-1": b""}, first, second)
    yield folder("a later log of before, not begun, and no other", {"log-1-2": b""}, first, second)
    yield folder("a later log of before and a first one, neither begun", {"log-1-2": b"", first: b""}, second, log=first)


def nobody():
    """Becomes nobody, where that is possible."""
    if os.getuid() == 0:
        found = pwd.getpwnam("nobody")
        os.setgroups([])
        os.setgid(found.pw_gid)
        os.setuid(found.pw_uid)


def as_nobody(file):
    """A server that nobody runs: a copy of the program, beside its file."""
    program = shutil.copy(served.DAEMON, os.path.dirname(file))
    os.chmod(program, 0o755)
    words = [program, "run", file]
    return subprocess.Popen(words, stdin=subprocess.DEVNULL, stderr=subprocess.PIPE, preexec_fn=nobody)


def odd_folders(folder, before):
    """What comes of folders that a change of their files does not make, and what should."""
    server = Server(folder)
    first, second = sorted(filter(is_log, before), key=history.order)
    for name, status, said, more, less in (
        ("a folder for the newest log", 2, f"{second}: cannot be opened\n", {second: None}, None),
        ("a folder for an earlier log", None, "generation 2: ", {first: None}, None),
        ("a folder for a lock", 2, "bad folder: cannot be locked\n", {"lock": None}, None),
        ("a log with the last number", 1, "no number is left for a new file\n", {f"log-{2**64 - 1}": b""}, None),
    ):
        files = {key: octets for key, octets in {**before, **more}.items() if key != less}
        server.put(files)
        found = server.run()
        is_as_it_was = status is None or files_of(server.state) == files
        yield name, (found[0][: len(said)], found[1], is_as_it_was), (said, status, True)
    server.put(before)
    os.chmod(server.state, 0o722)
    found = *server.run()[:2], files_of(server.state)
    yield "a folder that others may write to", found, ("bad folder: others may write to it\n", 1, before)
    server.put(before)
    written(server.file.replace("radlimitd.toml", "accounts.toml"), other_accounts(folder))
    sessions = Folder(before, before).start().books.sessions()
    found = *server.run()[:2], sorted(set(files_of(server.state)) - set(before))
    said = f"generation 2: {sessions} sessions\naccounts changed: {sessions} of {sessions} sessions go on\n"
    yield "another account file", found, (said, None, ["log-3"])
    yield from guarded_folders(server, before)


def other_accounts(folder):
    """An account file whose second account may have a place more."""
    with open(os.path.join(folder, "accounts.toml"), "rb") as file:
        return file.read().replace(b"places = 1", b"places = 2")


def guarded_folders(server, before):
    """The same of folders that their owner may not write to, or whose files may not be read."""
    for place in (server.folder, server.file):
        os.chmod(place, 0o755)
    accounts = os.path.join(server.folder, "accounts.toml")
    written(accounts, original_accounts(server))
    if os.getuid() == 0:
        shutil.chown(accounts, "nobody")
    for name, modes, said in (
        ("a folder that its owner may not write to", {"": 0o500}, f"{server.state}/control: cannot be bound: permission denied\n"),
        ("a log that its owner may not read", {"log-2": 0}, "log-2: cannot be opened\n"),
        ("a lock that its owner may not open", {"lock": 0}, "bad folder: cannot be locked\n"),
    ):
        server.put(before)
        if os.getuid() == 0:
            for path in (server.state, *(os.path.join(server.state, file) for file in before)):
                shutil.chown(path, "nobody")
        for file, mode in modes.items():
            os.chmod(os.path.join(server.state, file), mode)
        found = server.run(as_nobody)[:2]
        for file in modes:
            os.chmod(os.path.join(server.state, file), 0o700)
        yield name, (*found, files_of(server.state)), (said, 2, before)


def original_accounts(server):
    """The account file as it was."""
    with open(os.path.join(server.folder, "accounts.toml"), "rb") as file:
        return file.read().replace(b"places = 2", b"places = 1", 2).replace(b"places = 1", b"places = 2", 1)


def mended_folders(folder, before):
    """What comes of damaged files that are mended as docs/OPERATING.md says, and what should."""
    server = Server(folder)
    newest = max(filter(is_log, before), key=history.order)
    payloads = history.frames(before[newest])
    third, table = history.whole_len(payloads[:3]), history.whole_len(payloads[:1]) - len(table_octets(payloads[0]))
    for name, file, at in (
        ("a record that is cut off", newest, third + history.HEAD), ("a header whose log is taken away", newest, 30),
        ("a table whose log is taken away", newest, table + 5),
    ):
        octets = before[file]
        files = {**before, file: octets[:at] + bytes([octets[at] ^ 0x80]) + octets[at + 1 :]}
        server.put(files)
        said, status, _answer = server.run()
        offset = re.fullmatch(rf"bad log: {file} at (\d+): .*\n", said)
        yield f"{name}: it is named", (bool(offset), status), (True, 1)
        if at < history.whole_len(payloads[:2]):
            del files[newest]
        else:
            files[newest] = files[newest][: int(offset[1])]
        server.put(files)
        found, expected = outcome(server, Folder(before, files), files)
        yield f"{name}: the server goes on", found, expected


WORKER = {}


def begin_worker(folder):
    """Gives this process a server of its own."""
    WORKER["server"] = Server(tempfile.mkdtemp(dir=folder))


def worked(way, cases):
    """What came of some cases that went wrong, and how many there were."""
    results = [way(WORKER["server"], case) for case in cases]
    return [result for result in results if result[1] != result[2]], len(results)


def chunks(cases, size=20):
    """Lists of some cases."""
    cases = list(cases)
    return [cases[at : at + size] for at in range(0, len(cases), size)]


def main():
    if sys.argv[1:]:
        sys.exit(__doc__)
    with tempfile.TemporaryDirectory() as folder:
        os.chmod(folder, 0o755)
        before = made(Server(tempfile.mkdtemp(dir=folder)))
        print(", ".join(f"{name} of {len(octets)} octets" for name, octets in sorted(before.items())))
        works = [(tried, part) for part in chunks([*changes(before), *whole_changes(before)])]
        works += [(well_read, part) for part in chunks(right_changes(before))]
        context = multiprocessing.get_context("fork")
        with concurrent.futures.ProcessPoolExecutor(2 * os.cpu_count(), context, begin_worker, (folder,)) as pool:
            done = list(pool.map(worked, *zip(*works)))
        results = [result for wrong, _count in done for result in wrong]
        odd = list(odd_folders(tempfile.mkdtemp(dir=folder), before))
        odd += mended_folders(tempfile.mkdtemp(dir=folder), before)
    passed = sum(count for _wrong, count in done) - len(results)
    for name, found, expected in results[:20]:
        print(f"{name}\nexpected: {expected!r}\nfound:    {found!r}")
    print(f"{passed} folders of changed octets passed, {len(results)} failed")
    results = [("folders of changed octets", len(results), 0), *odd]
    served.verdict(results)


if __name__ == "__main__":
    main()
