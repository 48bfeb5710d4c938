"""What an accept carries, read by others: a profile and an account with reply attributes of each form, as FreeRADIUS's
radclient and tshark print the same accept by names. tshark takes it from a capture file that this script writes of the
octets that came, and also says whether the Response Authenticator is right. `radlimit serve` and `radlimitd run` are
asked, and the latter again after a reload. `radlimitd reply` has to print the same, with the octets that came.

And the names: each row of the tables of crates/rsl_dictionary has to stand in FreeRADIUS's dictionaries, with the same
vendor, number, type and tag, and without encryption; and so has each name of a value. Each attribute that FreeRADIUS has
of a vendor whom the tables have has to stand there with all the names of its values, unless its values are encrypted or
no form is like its type: those are listed here. And `radlimitd reply` has to print an attribute of each row as the
account file has it, with octets that are worked out here.

usage: python3 -m tests.programs.replies
It wants Linux, the built programs, and radclient (Debian's package freeradius-utils). What wants tshark, or FreeRADIUS's
dictionaries (freeradius-common), is left out where these are not there.
"""

import collections
import ipaddress
import os
import re
import shutil
import socket
import struct
import subprocess
import sys
import tempfile

from tests.lib import served

WAIT = served.patience(60)  # seconds that anything may take
SECRET = b"testing-on-this-machine"
LOGIN = """User-Name = "nemo"
User-Password = "arctangent"
NAS-Identifier = "test"
Message-Authenticator = 0x00
"""
# an attribute as the account file has it, as radclient prints it where that differs, and as tshark prints it: its name, its
# tag if it has one, and its value
PROFILE = [
    ('Filter-Id = "gold"', None, ("Filter-Id", "", "gold")),
    ("Service-Type = Framed-User", None, ("Service-Type", "", "Framed(2)")),
    ("Framed-IP-Address = 192.0.2.7", None, ("Framed-IP-Address", "", "192.0.2.7")),
    ("Delegated-IPv6-Prefix = 2001:db8:7::/56", None, ("Delegated-IPv6-Prefix", "", "2001:db8:7::/56")),
    ("Framed-IPv6-Address = 2001:db8:7::1", None, ("Framed-IPv6-Address", "", "2001:db8:7::1")),
    ('Mikrotik-Rate-Limit = "10M/2M"', None, ("Mikrotik-Rate-Limit", "", "10M/2M")),
    ('Cisco-AVPair = "ip:addr-pool=gold"', None, ("Cisco-AVPair", "", "ip:addr-pool=gold")),
    ("Tunnel-Type:1 = L2TP", None, ("Tunnel-Type", "01", "L2TP(3)")),
    ('Tunnel-Server-Endpoint:1 = "192.0.2.9"', None, ("Tunnel-Server-Endpoint", "01", "192.0.2.9")),
    ("Attr-26.14988.8 = 0x31304d", 'Mikrotik-Rate-Limit = "10M"', ("Mikrotik-Rate-Limit", "", "10M")),
]
OWN = [
    ('Framed-Pool = "of nemo"', None, ("Framed-Pool", "", "of nemo")),
    ("WISPr-Bandwidth-Max-Down = 10000000", None, ("WISPr-Bandwidth-Max-Down", "", "10000000")),
]
FIRST = ["Message-Authenticator", "Class"]
TIMEOUT = ("Session-Timeout = 600", None, ("Session-Timeout", "", "600"))
OTHER = [('Filter-Id = "other"', None, ("Filter-Id", "", "other"))]  # a profile after a reload

ACCOUNTS = """version = 3
shards = 1
reserve_secs = 60
live_secs = 900
grace_secs = 900
closed_secs = 3600
keep_secs = 10
[profile.gold]
reply = [{profile}]
[[client]]
address = "127.0.0.1"
secret = "{secret}"
[[account]]
name = "nemo"
password = "arctangent"
places = 8
ports = 1
port_limit = false
session_timeout = 600
profile = "gold"
reply = [{own}]
"""

# what tshark prints of an attribute, and of the Response Authenticator
SHOWN = re.compile(r"^ +(?:AVP|VSA): t=(\S+)\(\d+\) l=\d+ (?:Tag=0x(..) )?val=(.*)$", re.M)
AUTHENTICATOR = re.compile(r"^ +Authenticator: [0-9a-f]+ \[(.*)\]$", re.M)

TABLES = os.path.join(served.TOP, "crates", "rsl_dictionary", "src")
TABLE = re.compile(r"const (\w+): \[[^\n]*; (\d+)\] = \[\n(.*?)^\];", re.M | re.S)
ATTRIBUTE = re.compile(r'\(\s*"([^"]*)",\s*(\d+),\s*(\d+),\s*Form::(\w+),?\s*\)')
VALUE = re.compile(r'\(\s*(\d+),\s*(\d+),\s*"([^"]*)",\s*(\d+),?\s*\)')
FREERADIUS = "/usr/share/freeradius/dictionary"
# the types of FreeRADIUS's dictionaries, and the forms of ours
FORMS = {
    "string": "Text", "octets": "Octets", "ifid": "InterfaceId", "integer": "Number", "ipaddr": "Ipv4", "ipv6addr": "Ipv6",
    "ipv6prefix": "Ipv6Prefix",
}


# what these vendors have and our tables have not: the values are encrypted, or a filter in Ascend's form
LEFT_OUT = [
    "Alc-APN-Password", "Alc-Ascend-Data-Filter-Host-Spec", "Alc-LI-Action", "Alc-LI-Destination", "Alc-LI-Direction",
    "Alc-LI-FC", "Alc-LI-Intercept-Id", "Alc-LI-Session-Id", "ERX-LI-Action", "ERX-Med-Dev-Handle", "ERX-Med-Ip-Address",
    "ERX-Med-Port-Number",
]

# what `radlimitd reply` prints of the attributes that the server sets
SETS = """port_limit = true
service_type = 2
framed_protocol = 7
session_timeout = 600
idle_timeout = 60
interim_secs = 300
"""
SET = [
    ("Port-Limit = 1", "3e0600000001"),
    ("Service-Type = Framed-User", "060600000002"),
    ("Framed-Protocol = GPRS-PDP-Context", "070600000007"),
    ("Session-Timeout = 600", "1b0600000258"),
    ("Idle-Timeout = 60", "1c060000003c"),
    ("Acct-Interim-Interval = 300", "55060000012c"),
]
# attributes by their numbers: as the account file has them, as they are printed, and their octets
NUMBERED = [
    ("Attr-250 = 0x00", "Attr-250 = 0x00", "fa0300"),
    ("Attr-26.99.7 = 0xFF", "Attr-26.99.7 = 0xff", "1a09000000630703ff"),
    ("Attr-26.16777215.255 = 0x01", "Attr-26.16777215.255 = 0x01", "1a0900ffffffff0301"),
    ("Attr-26 = 0x0000000901", "Attr-26 = 0x0000000901", "1a070000000901"),
    ("Attr-26 = 0x000000090102", "Attr-26 = 0x000000090102", "1a08000000090102"),
    ("Attr-26 = 0x0000000901036100", "Attr-26 = 0x0000000901036100", "1a0a0000000901036100"),
    ("Attr-26 = 0x01000009010361", "Attr-26 = 0x01000009010361", "1a0901000009010361"),
    ("Attr-26 = 0x00000009010361", 'Cisco-AVPair = "a"', "1a0900000009010361"),
    ("Attr-26.9.1 = 0x613d62", 'Cisco-AVPair = "a=b"', "1a0b000000090105613d62"),
    ("Attr-11 = 0x676f6c64", 'Filter-Id = "gold"', "0b06676f6c64"),
    ("Attr-11 = 0x22", 'Filter-Id = "\\""', "0b0322"),
    ("Attr-11 = 0x5c", 'Filter-Id = "\\\\"', "0b035c"),
    ("Attr-26.2011.188 = 0x613d62", 'Huawei-AVpair = "a=b"', "1a0b000007dbbc05613d62"),
    ("Framed-Interface-Id = 0x0001000200030004", "Framed-Interface-Id = 1:2:3:4", "600a0001000200030004"),
    ("Attr-11 = 0x0a", "Attr-11 = 0x0a", "0b030a"),
    ("Attr-11 = 0xff", "Attr-11 = 0xff", "0b03ff"),
    ("Attr-11 = 0xc3a9", 'Filter-Id = "\u00e9"', "0b04c3a9"),
    ("Attr-6 = 0x0001", "Attr-6 = 0x0001", "06040001"),
    ("Attr-8 = 0xc000020700", "Attr-8 = 0xc000020700", "0807c000020700"),
    ("Attr-64 = 0x2000000d", "Attr-64 = 0x2000000d", "40062000000d"),
    ("Attr-64 = 0x1f00000d", "Tunnel-Type:31 = VLAN", "40061f00000d"),
    ("Attr-81 = 0x003230", "Attr-81 = 0x003230", "5105003230"),
    ("Attr-81 = 0x01", "Attr-81 = 0x01", "510301"),
    ("Attr-81 = 0x203230", 'Tunnel-Private-Group-Id = " 20"', "5105203230"),
    (
        "Attr-97 = 0x0020010db800000000000000000000", "Attr-97 = 0x0020010db800000000000000000000",
        "61110020010db800000000000000000000",
    ),
    (f"Attr-97 = 0x0010{'ff' * 16}", f"Attr-97 = 0x0010{'ff' * 16}", f"61140010{'ff' * 16}"),
    (f"Attr-97 = 0x0081{'00' * 16}", f"Attr-97 = 0x0081{'00' * 16}", f"61140081{'00' * 16}"),
    (f"Attr-97 = 0x0120{'00' * 16}", f"Attr-97 = 0x0120{'00' * 16}", f"61140120{'00' * 16}"),
    (f"Attr-97 = 0x0000{'00' * 16}", "Framed-IPv6-Prefix = ::/0", f"61140000{'00' * 16}"),
]
SERVERS_OWN = (1, 24, 25, 33, 62, 79, 80, 85)
MOST = 1_000  # octets that an account may have


class Dictionary:
    """What FreeRADIUS's dictionaries have: of the name of an attribute its vendor's number, its number and its form; and of
    the name of an attribute and that of a value the number."""

    def __init__(self, path):
        self.vendors, self.attributes, self.values = {"": 0}, {}, {}
        self.vendor, self.depth = "", 0  # between BEGIN-VENDOR and END-VENDOR; and within how many BEGIN-TLV
        self.read(path)

    def read(self, path):
        """Reads a file, and those that it includes."""
        with open(path, encoding="utf-8", errors="replace") as file:
            for line in file:
                match line.split("#")[0].split():
                    case ["$INCLUDE", name]:
                        self.read(os.path.join(os.path.dirname(path), name))
                    case ["VENDOR", name, number, *_]:
                        self.vendors[name] = int(number)
                    case ["BEGIN-VENDOR", name, *_]:
                        self.vendor = name
                    case ["END-VENDOR", *_]:
                        self.vendor = ""
                    case ["BEGIN-TLV", *_]:
                        self.depth += 1
                    case ["END-TLV", *_]:
                        self.depth -= 1
                    case ["ATTRIBUTE", name, number, kind, *flags] if self.depth == 0 and number.isdecimal():
                        row = self.vendors[self.vendor], int(number), form_of(kind, ",".join(flags).split(","))
                        self.attributes[name] = row
                    case ["VALUE", attribute, name, number]:
                        self.values[attribute, name] = int(number, 0)


def form_of(kind, flags):
    """The form of a type with flags, or these words where none of ours is like it."""
    form = FORMS.get(kind.lower().split("[")[0])
    if form is None or any(flag.startswith("encrypt") for flag in flags):
        return " ".join([kind, *flags])
    return f"Tagged{form}" if "has_tag" in flags else form


def tables():
    """The rows of our tables: of attributes each a name, a vendor's number, a number and a form; and of values each the
    numbers of the attribute, a name and a number. And cases: the counts that the tables say."""
    attributes, values, cases = [], [], []
    for name in sorted(os.listdir(TABLES)):
        for kind, count, rows in TABLE.findall(served.text_of(os.path.join(TABLES, name))):
            if kind == "ATTRIBUTES":
                found = [(row, int(vendor), int(number), form) for row, vendor, number, form in ATTRIBUTE.findall(rows)]
                attributes += found
            else:
                found = [(int(vendor), int(number), row, int(value)) for vendor, number, row, value in VALUE.findall(rows)]
                values += found
            cases.append((f"the rows of {kind} of {name}", len(found), int(count)))
    return attributes, values, cases


def cases_of_names():
    """The tables of names beside FreeRADIUS's."""
    attributes, values, cases = tables()
    yield from cases
    ours = {name: row for name, *row in attributes}
    there = Dictionary(FREERADIUS)
    for name, row in ours.items():
        yield f"{name}, as FreeRADIUS has it", tuple(row), there.attributes.get(name)
    twice = [name for name, times in collections.Counter(name.lower() for name, *_ in attributes).items() if times > 1]
    yield "names that stand twice", twice, []
    vendors = {vendor for _, vendor, *_ in attributes} - {0}
    missing = {name for name, (vendor, *_) in there.attributes.items() if vendor in vendors and name not in ours}
    yield "the names of these vendors that are missing", sorted(missing), sorted(LEFT_OUT)
    names = collections.defaultdict(list)
    for name, (vendor, number, _) in ours.items():
        names[vendor, number].append(name)
    known = {(vendor, number, value): of_value for vendor, number, value, of_value in values}
    yield "names of values that stand twice", len(known), len(values)
    for (vendor, number, value), of_value in known.items():
        found = [there.values.get((name, value)) for name in names[vendor, number]]
        yield f"{value} of {names[vendor, number]}, as FreeRADIUS has it", of_value in found, True
    for (name, value), of_value in there.values.items():
        vendor, number, _ = ours.get(name, (0, 0, ""))
        if vendor:
            yield f"{value} of {name}, which FreeRADIUS has", known.get((vendor, number, value)), of_value


def samples(name, vendor, number, form, values):
    """Values of an attribute: of each the text, and the octets of the value."""
    named = {}
    for of_vendor, kind, value, of_value in values:
        if (of_vendor, kind) == (vendor, number):
            named.setdefault(of_value, value)
    numbers = [(4_000_000, "4000000"), *named.items()]
    match form:
        case "Text":
            yield f'{name} = "x=y, z: %{{a}} #"', b"x=y, z: %{a} #"
            yield f'{name} = "a\\"b\\\\c"', b'a"b\\c'
        case "Octets":
            yield f"{name} = 0x00ff7f", b"\x00\xff\x7f"
        case "InterfaceId":
            yield f"{name} = a00:27ff:fe0e:1", bytes.fromhex("0a0027fffe0e0001")
        case "Number":
            for of_value, value in [*numbers, (2**32 - 1, "4294967295")]:
                yield f"{name} = {value}", of_value.to_bytes(4, "big")
        case "TaggedNumber":
            for of_value, value in numbers:
                yield f"{name} = {value}", of_value.to_bytes(4, "big")
                yield f"{name}:31 = {value}", (31 << 24 | of_value).to_bytes(4, "big")
        case "TaggedText":
            yield f'{name} = "a b"', b"a b"
            yield f'{name}:1 = "a b"', b"\x01a b"
        case "Ipv4":
            yield f"{name} = 192.0.2.7", bytes([192, 0, 2, 7])
        case "Ipv6":
            for address in ("2001:db8::7", "::", "::ffff:192.0.2.7", "2001:db8:0:1:1:1:1:1"):
                yield f"{name} = {address}", ipaddress.IPv6Address(address).packed
        case "Ipv6Prefix":
            for prefix in ("2001:db8:7::/56", "2001:db8::1/128", "::/0"):
                network = ipaddress.IPv6Network(prefix)
                yield f"{name} = {prefix}", bytes([0, network.prefixlen]) + network.network_address.packed


def rows_of_names():
    """An attribute of each row of the table that an account may have, and of each name of a value: its text, twice, as it is
    printed too; and its octets."""
    attributes, values, _ = tables()
    seen = set()
    for name, vendor, number, form in attributes:
        if vendor == 0 and number in SERVERS_OWN or (vendor, number) in seen:
            continue
        seen.add((vendor, number))  # of several names the first is printed
        for text, value in samples(name, vendor, number, form, values):
            octets = served.attribute(number, value)
            if vendor:
                octets = served.attribute(26, vendor.to_bytes(4, "big") + octets)
            yield text, text, octets.hex()


def accounts_of(rows):
    """Accounts with these attributes, as many as each may have: of each the list, and what is to be printed."""
    found, size = [], MOST
    for text, printed, octets in rows:
        size += len(octets) // 2
        if size > MOST:
            found.append(([], []))
            size = len(octets) // 2
        found[-1][0].append(text)
        found[-1][1].append((printed, octets))
    return found


def listed(rows):
    """What `radlimitd reply` prints of attributes."""
    return "".join(f"{text}\t{octets}\n" for text, octets in rows), "", 0


def cases_of_reply(folder):
    """`radlimitd reply`, of all that has a name, of what has none, and of what the server sets."""
    accounts = accounts_of([*rows_of_names(), *NUMBERED])
    with open(account_file(folder, PROFILE), "a", encoding="utf-8") as file:
        for number, (texts, _) in enumerate(accounts):
            file.write(f'[[account]]\nname = "of-{number}"\npassword = "x"\nplaces = 1\nports = 1\nport_limit = false\n')
            file.write("reply = [" + ", ".join(f"'{text}'" for text in texts) + "]\n")
        file.write(f'[[account]]\nname = "a#b"\npassword = "x"\nplaces = 1\nports = 1\n{SETS}')
    file = served.daemon_file(folder, served.free_ports(), 1)
    for number, (_, printed) in enumerate(accounts):
        yield f"radlimitd reply, account {number}", served.asked("reply", f"of-{number}", file), listed(printed)
    yield "radlimitd reply, what the server sets", served.asked("reply", "a\\x23b", file), listed(SET)
    yield "the same without an escape", served.asked("reply", "a#b", file), listed(SET)
    yield "of no account", served.asked("reply", "nobody", file), ("", "unknown account\n", 2)
    yield "of an account in capitals", served.asked("reply", "NEMO", file), ("", "unknown account\n", 2)


def account_file(folder, profile):
    """Writes the account file with a profile, and gives its path."""
    lists = [", ".join(f"'{text}'" for text, *_ in rows) for rows in (profile, OWN)]
    path = os.path.join(folder, "accounts.toml")
    with open(path, "w", encoding="ascii") as file:
        file.write(ACCOUNTS.format(profile=lists[0], own=lists[1], secret=SECRET.decode()))
    return path


def login(folder, port):
    """A login by radclient: what it prints, and the request and the answer that passed by."""
    path = os.path.join(folder, "login")
    with open(path, "w", encoding="ascii") as file:
        file.write(LOGIN)
    with (
        socket.socket(socket.AF_INET, socket.SOCK_DGRAM) as front,
        socket.socket(socket.AF_INET, socket.SOCK_DGRAM) as back,
    ):
        front.bind((served.HOST, 0))
        back.connect((served.HOST, int(port)))
        for one in (front, back):
            one.settimeout(WAIT)
        words = ["radclient", "-x", "-r", "1", "-t", str(WAIT), "-f", path]
        words += ["%s:%d" % front.getsockname(), "auth", SECRET.decode()]
        run = subprocess.Popen(words, stdin=subprocess.DEVNULL, stdout=subprocess.PIPE, stderr=subprocess.STDOUT, text=True)
        try:
            request, asker = front.recvfrom(4096)
            back.send(request)
            answer = back.recv(4096)
            front.sendto(answer, asker)
            printed, _ = run.communicate(timeout=WAIT)
        finally:
            run.kill()
            run.wait()
    return printed, request, answer


def captured(path, request, answer):
    """Writes a capture file (pcap, raw IP) with a request to the port 1812 and its answer, over IPv4."""
    with open(path, "wb") as file:
        file.write(struct.pack("<IHHiIII", 0xA1B2C3D4, 2, 4, 0, 0, 65535, 101))
        for second, (source, to, octets) in enumerate(((40_000, 1812, request), (1812, 40_000, answer))):
            datagram = struct.pack(">HHHH", source, to, 8 + len(octets), 0) + octets
            host = socket.inet_aton(served.HOST)
            head = struct.pack(">BBHHHBBH4s4s", 0x45, 0, 20 + len(datagram), 0, 0, 64, 17, 0, host, host)
            packet = head + datagram
            file.write(struct.pack("<IIII", second, 0, len(packet), len(packet)) + packet)


def shown(folder, request, answer):
    """What tshark reads of an answer: what it says of the authenticator, and the attributes."""
    path = os.path.join(folder, "login.pcap")
    captured(path, request, answer)
    words = ["tshark", "-r", path, "-Y", "radius.code == 2", "-V", "-O", "radius"]
    words += ["-o", f"radius.shared_secret:{SECRET.decode()}", "-o", "radius.validate_authenticator:TRUE"]
    run = subprocess.run(words, capture_output=True, timeout=WAIT, check=False, text=True)
    return AUTHENTICATOR.findall(run.stdout), SHOWN.findall(run.stdout)


def cases_of_login(case, folder, port, profile):
    """A login of an account with this profile, read by both."""
    printed, request, answer = login(folder, port)
    _, _, received = printed.partition("Received Access-Accept ")
    lines = [line.strip() for line in received.splitlines()[1:] if line.startswith("\t")]
    wanted = [TIMEOUT, *profile, *OWN]
    yield f"{case}: radclient, what stands first", [line.split()[0] for line in lines[:2]], FIRST
    yield f"{case}: radclient", lines[2:], [line or text for text, line, _ in wanted]
    if shutil.which("tshark"):
        authenticators, attributes = shown(folder, request, answer)
        yield f"{case}: tshark, the authenticator", authenticators, ["correct"]
        yield f"{case}: tshark, what stands first", [name for name, *_ in attributes[:2]], FIRST
        yield f"{case}: tshark", attributes[2:], [row for *_, row in wanted]


def cases_of_serve(folder):
    """`radlimit serve`."""
    with served.Server(account_file(folder, PROFILE), 2**64 - 1) as server:
        yield from cases_of_login("radlimit serve", folder, server.ports[0], PROFILE)


def cases_of_daemon(folder):
    """`radlimitd run`, and a reload of another profile."""
    account_file(folder, PROFILE)
    ports = served.free_ports()
    file = served.daemon_file(folder, ports, 1)
    server = served.daemon(file)
    try:
        yield "radlimitd run", served.greeting(server, WAIT), "new history: 0 sessions\n"
        yield from cases_of_login("radlimitd run", folder, ports[0], PROFILE)
        _, _, answer = login(folder, ports[0])
        came = [served.attribute(kind, value).hex() for kind, value in list(served.attributes_of(answer))[2:]]
        printed = [line or text for text, line, _ in (TIMEOUT, *PROFILE, *OWN)]
        yield "radlimitd reply, what came", served.asked("reply", "nemo", file), listed(zip(printed, came, strict=True))
        account_file(folder, OTHER)
        yield "another profile", served.asked("reload", file), ("as before\n", "", 0)
        yield from cases_of_login("radlimitd run, another profile", folder, ports[0], OTHER)
    finally:
        server.kill()
        server.communicate()


def main():
    if sys.argv[1:]:
        sys.exit(__doc__)
    rows = []
    if not shutil.which("tshark"):
        print("left out: accepts in a capture file, in replies (no tshark here)")
    if os.path.exists(FREERADIUS):
        rows += cases_of_names()
    else:
        print(f"left out: names beside FreeRADIUS's, in replies (no {FREERADIUS} here)")
    for cases in (cases_of_serve, cases_of_daemon, cases_of_reply):
        with tempfile.TemporaryDirectory() as folder:
            rows += cases(folder)
    served.verdict(rows)


main()
