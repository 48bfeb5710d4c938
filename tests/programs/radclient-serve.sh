#!/usr/bin/env bash
# Starts a server on free ports of 127.0.0.1, asks it with FreeRADIUS's radclient, and looks at each answer. It exits
# with 0 only where every answer was the right one, and ends the server by its process id.
#
# usage: tests/programs/radclient-serve.sh [PROGRAM]        PROGRAM: the program radlimit, ./radlimit if it is not given
#
# It wants Linux, Python 3 and radclient (Debian's package freeradius-utils).
set -euo pipefail

top=$(cd "$(dirname "$0")/../.." && pwd)
program=${1:-$top/radlimit}
folder=$(mktemp -d)
said=$folder/said
accounts=$folder/accounts.toml

server=
trap 'kill "$server" 2> /dev/null || true; wait "$server" 2> /dev/null || true; rm -rf "$folder"' EXIT

. "$top/tests/lib/radclient.bash"

# Takes ports that nobody has.
prepare() { read -r auth acct < <(free_ports); }

# Starts the server, and waits for its sockets as long as the process is there.
start() {
    "$program" serve "$accounts" 127.0.0.1 "$auth" "$acct" 18446744073709551615 2> "$said" &
    server=$!
    until bound "$auth" && bound "$acct"; do
        kill -0 "$server" 2> /dev/null || return 1
        sleep 0.1
    done
}

cp "$top/examples/with-radclient.toml" "$accounts"
cat >> "$accounts" << 'END'

[[client]]
address = "127.0.0.3"
secret = "testing-without-signing"
signed = false
END
# the first use of ./radlimit builds the program, and says on standard error how far that is
if [ $# = 0 ]; then
    "$program" replay < "$top/examples/access-request.script" > /dev/null
fi

begin

# The same from the client 127.0.0.1, from 127.0.0.2, and from 127.0.0.3, which need not sign.
from_first() { expect "$1" "$2" "$3" "$4" testing-on-this-machine "${@:5}"; }
from_second() { expect "$1" "$2" "$3" "$4" testing-on-this-machine-too 'Packet-Src-IP-Address = 127.0.0.2' "${@:5}"; }
from_third() { expect "$1" "$2" "$3" "$4" testing-without-signing 'Packet-Src-IP-Address = 127.0.0.3' "${@:5}"; }

nas='NAS-Identifier = "pop1"'
name='User-Name = "nemo"'
pap='User-Password = "arctangent"'
session='Acct-Session-Id = "s1"'
# radclient signs a request that has this
signed='Message-Authenticator = 0x00'

from_first 'a wrong password' Access-Reject 'Message-Authenticator = ' auth \
    "$name" 'User-Password = "arctangents"' "$nas" "$signed"
from_first 'a login by PAP' Access-Accept 'Port-Limit = 1' auth "$name" "$pap" "$nas" "$signed"
class=$(sed -n 's/^[[:space:]]*\(Class = 0x[0-9a-f]*\)$/\1/p' <<< "$received")
from_first 'a login beside it' Access-Reject 'Session limit reached' auth "$name" "$pap" "$nas" "$signed"
from_first 'the session starts' Accounting-Response '' acct \
    'Acct-Status-Type = Start' "$name" "$nas" "$session" "$class"
from_first 'it goes on' Accounting-Response '' acct \
    'Acct-Status-Type = Interim-Update' "$name" "$nas" "$session" "$class"
from_first 'a login beside it' Access-Reject 'Session limit reached' auth "$name" "$pap" "$nas" "$signed"
from_first 'it stops' Accounting-Response '' acct 'Acct-Status-Type = Stop' "$name" "$nas" "$session" "$class"
from_first 'a login by CHAP' Access-Accept 'Class = ' auth "$name" 'CHAP-Password = "arctangent"' "$nas" "$signed"
from_first 'a login beside it' Access-Reject 'Session limit reached' auth "$name" "$pap" "$nas" "$signed"
from_first 'the access server restarts' Accounting-Response '' acct 'Acct-Status-Type = Accounting-On' "$nas"
from_first 'a login after that' Access-Accept '' auth "$name" "$pap" "$nas" "$signed"

other=('User-Name = "ishmael"' 'User-Password = "call me"' "$nas")
from_second 'an unsigned login' '' '' auth "${other[@]}"
# that no answer came was the server's word, and not its end
from_second 'a signed one after it' Access-Accept 'Message-Authenticator = ' auth "${other[@]}" "$signed"
from_third 'an unsigned login of a client that need not sign' Access-Accept 'Message-Authenticator = ' auth "${other[@]}"
from_third 'the same through a proxy' '' '' auth "${other[@]}" 'Proxy-State = 0x01'
from_third 'a signed one through a proxy' Access-Reject 'Proxy-State = 0x01' auth "${other[@]}" 'Proxy-State = 0x01' "$signed"

verdict
