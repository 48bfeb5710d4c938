#!/usr/bin/env bash
# Starts radlimitd on free ports of all addresses, IPv6 and IPv4, with networks that stand for clients and with
# Status-Server, asks it with FreeRADIUS's radclient over ::1 and 127.0.0.1, and looks at each answer. It exits with 0
# only where every answer was the right one.
#
# usage: tests/programs/networks.sh [PROGRAM]        PROGRAM: the program radlimitd, as it was built if it is not given
#
# It wants Linux with the address ::1, Python 3 and radclient (Debian's package freeradius-utils).
set -euo pipefail

if ! grep -q ' lo$' /proc/net/if_inet6 2> /dev/null; then
    echo "not possible here: networks (this machine has no address ::1)"
    echo "0 passed, 0 failed"
    exit 0
fi
top=$(cd "$(dirname "$0")/../.." && pwd)
program=${1:-$top/crates/radlimitd/out/radlimitd}
folder=$(mktemp -d)
said=$folder/said

server=
trap 'kill -9 "$server" 2> /dev/null || true; wait "$server" 2> /dev/null || true; rm -rf "$folder"' EXIT

. "$top/tests/lib/radclient.bash"

# Writes the server's file, with ports that nobody has.
prepare() {
    read -r auth acct < <(free_ports)
    rm -rf "$folder/state"
    cat > "$folder/radlimitd.toml" << END
accounts = "accounts.toml"
state = "state"

[[listen]]
address = "::"
auth = $auth
acct = $acct
status_server = true

[[network]]
prefix = "::/0"
client = "10.255.0.1"

[[network]]
prefix = "::1/128"
client = "10.255.0.2"

[[network]]
prefix = "127.0.0.8/29"
client = "10.255.0.3"
END
}

# Starts the server, and waits until it says what it found.
start() {
    : > "$said"
    "$program" run "$folder/radlimitd.toml" 2> "$said" &
    server=$!
    until [ -s "$said" ]; do
        kill -0 "$server" 2> /dev/null || return 1
        sleep 0.1
    done
    kill -0 "$server" 2> /dev/null
}

# Two access servers of one network ask from one port, at once and over and over. How many answers came to the one that
# had asked, and how many to the other.
answers_of_two() {
    PYTHONPATH="$top" python3 -B - "$auth" "$source" << 'END'
import select
import socket
import sys
import time
from tests.lib.packets import access_request, attribute, is_answer

server, port = ("127.0.0.1", int(sys.argv[1])), int(sys.argv[2])
secret, own, astray = b"of two access servers", 0, 0
sockets = [socket.socket(socket.AF_INET, socket.SOCK_DGRAM) for _ in range(2)]
for one, host in zip(sockets, ("127.0.0.9", "127.0.0.10")):
    one.bind((host, port))
for turn in range(100):
    requests = []
    for at, one in enumerate(sockets):
        name = attribute(1, b"nobody") + attribute(32, b"pop%d" % at)
        requests.append(access_request(turn, secret, name, bytes([at, turn] * 8), b"wrong", True))
    for at in (0, 1, 0, 1):
        sockets[at].sendto(requests[at], server)
    end, left = time.monotonic() + 30, 4
    while left and time.monotonic() < end:
        for one in select.select(sockets, [], [], 0.1)[0]:
            answer = one.recv(4096)
            at, left = sockets.index(one), left - 1
            if is_answer(answer, requests[at], secret):
                own += 1
            elif is_answer(answer, requests[1 - at], secret):
                astray += 1
print(own, astray)
END
}

# What a Status-Server packet gets whose Message-Authenticator is wrong: its answer's octets, in hexadecimal digits.
answer_to_wrong_status() {
    PYTHONPATH="$top" python3 -B - "$auth" << 'END'
import socket
import struct
import sys
from tests.lib.packets import attribute

attributes = attribute(80, bytes(range(16)))
packet = struct.pack(">BBH", 12, 1, 20 + len(attributes)) + bytes(16) + attributes
with socket.socket(socket.AF_INET6, socket.SOCK_DGRAM) as one:
    one.settimeout(1)
    one.sendto(packet, ("::1", int(sys.argv[1])))
    try:
        print(one.recv(4096).hex())
    except TimeoutError:
        print("no answer")
END
}

# How many moves the history has, but for ticks.
moves() { "$program" lines "$folder/state/log-1" | grep -cv ' tick' || true; }

cat > "$folder/accounts.toml" << 'END'
version = 3
client = [
    { address = "127.0.0.1", secret = "of this machine itself" },
    { address = "10.255.0.1", secret = "of every IPv6 address" },
    { address = "10.255.0.2", secret = "of ::1, which is one" },
    { address = "10.255.0.3", secret = "of two access servers" },
]
account = [
    { name = "nemo", password = "arctangent", places = 1 },
    { name = "ishmael", password = "call me", places = 1 },
]
END
chmod 600 "$folder/accounts.toml"
read -r source _ < <(free_ports)
begin

nas='NAS-Identifier = "pop1"'
nemo='User-Name = "nemo"'
pap='User-Password = "arctangent"'
session='Acct-Session-Id = "s1"'
# radclient signs a request that has this
signed='Message-Authenticator = 0x00'

# Sends a packet over ::1, as the client of its network, and looks at the answer; and one over 127.0.0.1.
from_ipv6() { host='[::1]' expect "$1" "$2" "$3" "$4" 'of ::1, which is one' "${@:5}"; }
from_ipv4() { host=127.0.0.1 expect "$1" "$2" "$3" "$4" 'of this machine itself' "${@:5}"; }

shows 'what a check says of a network' 'network ::1/128: access servers without NAS-Identifier and NAS-IP-Address count as one' \
    "$("$program" check "$folder/radlimitd.toml" | grep '^network ::1')"
from_ipv6 'a login over IPv6' Access-Accept 'Class = ' auth "$nemo" "$pap" "$nas" "$signed"
class=$(sed -n 's/^[[:space:]]*\(Class = 0x[0-9a-f]*\)$/\1/p' <<< "$received")
from_ipv6 'a login beside it' Access-Reject 'Session limit reached' auth "$nemo" "$pap" "$nas" "$signed"
from_ipv6 'the session starts' Accounting-Response '' acct 'Acct-Status-Type = Start' "$nemo" "$nas" "$session" "$class"
from_ipv4 'a login beside it over IPv4' Access-Reject 'Session limit reached' auth "$nemo" "$pap" "$nas" "$signed"
from_ipv4 'another account over IPv4' Access-Accept 'Class = ' auth 'User-Name = "ishmael"' 'User-Password = "call me"' "$nas" "$signed"
from_ipv6 'the session stops' Accounting-Response '' acct 'Acct-Status-Type = Stop' "$nemo" "$nas" "$session" "$class"
from_ipv4 'a login after it, over IPv4' Access-Accept 'Class = ' auth "$nemo" "$pap" "$nas" "$signed"
shows 'answers to each of two with one port' '400 0' "$(answers_of_two)"

moves_before=$(moves)
from_ipv6 'the status, of logins' Access-Accept 'Message-Authenticator = ' status:auth "$nas" "$signed"
from_ipv6 'the status, of accounting' Accounting-Response '' status:acct "$nas" "$signed"
from_ipv4 'the status over IPv4' Access-Accept 'Message-Authenticator = ' status:auth "$nas" "$signed"
shows 'the status, signed wrong' 'no answer' "$(answer_to_wrong_status)"
shows 'what waits at the sockets of all addresses' 'sockets: 0 octets wait, 0 datagrams found no room' \
    "$("$program" status "$folder/radlimitd.toml" | grep '^sockets: ')"
"$program" stop "$folder/radlimitd.toml"
status=0
wait "$server" || status=$?
shows 'stopped, its status' 0 "$status"
shows 'moves of the history, as before the status' "$moves_before" "$(moves)"

verdict
