#!/usr/bin/env bash
# Starts radlimitd on free ports of 127.0.0.1 with a folder of its own, lets a session start, kills the server, starts it
# again, adds an account while it runs, and looks at each answer. It exits with 0 only where every answer was the right one.
#
# usage: tests/programs/radclient-run.sh [PROGRAM]        PROGRAM: the program radlimitd, as it was built if it is not given
#
# It wants Linux, Python 3 and radclient (Debian's package freeradius-utils).
set -euo pipefail

top=$(cd "$(dirname "$0")/../.." && pwd)
program=${1:-$top/crates/radlimitd/out/radlimitd}
folder=$(mktemp -d)
said=$folder/said

server=
trap 'kill -9 "$server" 2> /dev/null || true; wait "$server" 2> /dev/null || true; rm -rf "$folder"' EXIT

. "$top/tests/lib/radclient.bash"

# Starts the server, and waits until it says what it found.
start() {
    : > "$said"
    "$program" run "$folder/radlimitd.toml" 2> "$said" &
    server=$!
    until [ -s "$said" ]; do
        kill -0 "$server" 2> /dev/null || return 1
        sleep 0.1
    done
    kill -0 "$server" 2> /dev/null
}

# What it says that it found.
greeting() { grep -E '^(new history|generation )' "$said"; }

# Writes its file, with ports that nobody has.
prepare() {
    read -r auth acct < <(free_ports)
    rm -rf "$folder/state"
    cat > "$folder/radlimitd.toml" << END
accounts = "accounts.toml"
state = "state"
listen = [{ address = "127.0.0.1", auth = $auth, acct = $acct }]
END
}

# The octets of the answer to the first request of this script, in hexadecimal digits. The request is the same each time,
# as an access server repeats it: the same octets, from the same port.
first_answer() {
    PYTHONPATH="$top" python3 -B - "$auth" "$source" << 'END'
import socket
import sys
from tests.lib.packets import access_request, attribute

with socket.socket(socket.AF_INET, socket.SOCK_DGRAM) as one:
    one.bind(("127.0.0.1", int(sys.argv[2])))
    one.settimeout(60)
    names = attribute(1, b"nemo") + attribute(32, b"pop1")
    request = access_request(1, b"testing-on-this-machine", names, bytes(range(16)), b"arctangent", True)
    one.sendto(request, ("127.0.0.1", int(sys.argv[1])))
    print(one.recv(4096).hex())
END
}

# The status and the text of a server that does not start.
refused() {
    local text status=0
    text=$("$program" run "$folder/radlimitd.toml" 2>&1) || status=$?
    echo "$text, status $status"
}

install -m 600 "$top/examples/with-radclient.toml" "$folder/accounts.toml"
# a request is sent again some steps later, on a slow machine too
sed -i 's/^version = 3$/&\nkeep_secs = 60/' "$folder/accounts.toml"
read -r source _ < <(free_ports)
begin

nas='NAS-Identifier = "pop1"'
name='User-Name = "nemo"'
pap='User-Password = "arctangent"'
session='Acct-Session-Id = "s1"'
# radclient signs a request that has this
signed='Message-Authenticator = 0x00'

# Sends a packet as the client 127.0.0.1, and looks at the answer.
from_client() { expect "$1" "$2" "$3" "$4" testing-on-this-machine "${@:5}"; }

shows 'a server on a new folder' 'new history: 0 sessions' "$(greeting)"
shows 'a second one' 'busy, status 2' "$(refused)"
answer_before=$(first_answer)
shows 'a login by PAP, its code' 02 "${answer_before:0:2}"
class="Class = 0x$(sed -n 's/.*1912\([0-9a-f]\{32\}\).*/\1/p' <<< "$answer_before")"
from_client 'a login beside it' Access-Reject 'Session limit reached' auth "$name" "$pap" "$nas" "$signed"
from_client 'the session starts' Accounting-Response '' acct \
    'Acct-Status-Type = Start' "$name" "$nas" "$session" "$class"

{ kill -9 "$server" && wait "$server"; } 2> /dev/null || true
start || {
    echo "the server has not started again: $(cat "$said")" >&2
    exit 1
}

shows 'killed, and started again' 'generation 1: 1 sessions' "$(greeting)"
shows 'the first request again, its answer' "$answer_before" "$(first_answer)"

cat >> "$folder/accounts.toml" << 'END'

[[account]]
name = "dora"
password = "pass of dora"
places = 1
ports = 1
END
shows 'an account is added' '1 of 1 sessions go on' "$("$program" reload "$folder/radlimitd.toml")"
from_client 'a login of it' Access-Accept 'Class = ' auth 'User-Name = "dora"' 'User-Password = "pass of dora"' "$nas" "$signed"
shows 'the first request once more, its answer' "$answer_before" "$(first_answer)"
from_client 'a login beside the session' Access-Reject 'Session limit reached' auth "$name" "$pap" "$nas" "$signed"
from_client 'the session stops' Accounting-Response '' acct 'Acct-Status-Type = Stop' "$name" "$nas" "$session" "$class"
from_client 'a login after it' Access-Accept 'Class = ' auth "$name" "$pap" "$nas" "$signed"

class=$(sed -n 's/.*\(Class = 0x[0-9a-f]*\).*/\1/p' <<< "$received")
from_client 'its session starts' Accounting-Response '' acct \
    'Acct-Status-Type = Start' "$name" "$nas" 'Acct-Session-Id = "s2"' "$class"
link=$("$program" sessions nemo "$folder/radlimitd.toml")
shows 'the link of nemo' 'nemo 127.0.0.1 nas=pop1 s2 live' "${link% age=*}"
shows 'the access server has forgotten it' freed "$("$program" free "$(cut -d' ' -f1-4 <<< "$link")" "$folder/radlimitd.toml")"
shows 'its Stop is recorded' 1 "$("$program" lines "$folder"/state/log-3 | grep -c ' stop account=nemo .* session=s2 -> done')"
from_client 'a login after that' Access-Accept 'Class = ' auth "$name" "$pap" "$nas" "$signed"

shows 'what its accounts hold' 'places 4, held 2' "$("$program" status "$folder/radlimitd.toml" |
    awk '$1 == "places" { places = $2 } $1 == "held" { held = $2 } END { printf "places %s, held %s", places, held }')"
"$program" stop "$folder/radlimitd.toml"
status=0
wait "$server" || status=$?
shows 'stopped, its status' 0 "$status"

verdict
