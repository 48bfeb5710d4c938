#!/usr/bin/env bash
# RADIUS over TLS (RFC 6614) across a network that is not trusted: starts radlimitd, a radsecproxy in front of it on the
# same machine, and a radsecproxy where the access servers are, all on free ports of 127.0.0.1 with certificates of their
# own. It asks the far one with FreeRADIUS's radclient as an access server would, and looks at each answer. It exits with 0
# only where every answer was the right one.
#
# usage: examples/radsecproxy.sh [PROGRAM]        PROGRAM: the program radlimitd, as it was built if it is not given
#
# It wants Linux, Python 3, openssl, and Debian's packages radsecproxy and freeradius-utils.
set -euo pipefail
umask 077

top=$(cd "$(dirname "$0")/.." && pwd)
program=${1:-$top/crates/radlimitd/out/radlimitd}
folder=$(mktemp -d)

processes=()
stop_all() {
    { kill -9 "${processes[@]}" && wait "${processes[@]}"; } 2> /dev/null || true
    processes=()
}
trap 'stop_all; rm -rf "$folder"' EXIT

. "$top/tests/lib/radclient.bash"

# A certificate of an authority, for 127.0.0.1: certificate AUTHORITY NAME
certificate() {
    quietly openssl req -newkey rsa:2048 -nodes -subj "/CN=$2" -keyout "$folder/$2.key" -out "$folder/$2.csr"
    quietly openssl x509 -req -days 2 -in "$folder/$2.csr" -CA "$folder/$1.crt" -CAkey "$folder/$1.key" -CAcreateserial \
        -extfile <(echo 'subjectAltName = IP:127.0.0.1') -out "$folder/$2.crt"
}

# An authority that signs certificates.
authority() {
    quietly openssl req -x509 -newkey rsa:2048 -nodes -days 2 -subj "/CN=$1" -keyout "$folder/$1.key" -out "$folder/$1.crt"
}

# What a radsecproxy says of itself, and whom it believes: tls_of NAME
tls_of() {
    cat << END
tls ours {
    CACertificateFile $folder/authority.crt
    CertificateFile $folder/$1.crt
    CertificateKeyFile $folder/$1.key
}
END
}

# The files of radlimitd, of the radsecproxy beside it, and of the one at the access servers, who has the certificate NAME.
write_files() {
    cat > "$folder/accounts.toml" << 'END'
version = 3

[[client]]
address = "127.0.0.1"                   # the radsecproxy beside it
secret = "secret-of-this-machine-alone"

[[account]]
name = "nemo"
password = "arctangent"
places = 1
END
    cat > "$folder/radlimitd.toml" << END
accounts = "accounts.toml"
state = "state"
listen = [{ address = "127.0.0.1", auth = $auth, acct = $acct }]
END
    { tls_of near && cat; } > "$folder/near.conf" << END
ListenTLS 127.0.0.1:$tls
client far {
    host 127.0.0.1
    type tls
    tls ours
    matchCertificateAttribute CN:/^far$/
}
server logins {
    host 127.0.0.1
    port $auth
    type udp
    secret secret-of-this-machine-alone
}
server accounting {
    host 127.0.0.1
    port $acct
    type udp
    secret secret-of-this-machine-alone
}
realm * {
    server logins
    accountingServer accounting
}
END
    { tls_of "$1" && cat; } > "$folder/far.conf" << END
ListenUDP 127.0.0.1:$far_auth
ListenUDP 127.0.0.1:$far_acct
client access-server {
    host 127.0.0.1
    type udp
    secret secret-of-access-server-1
}
server near {
    host 127.0.0.1
    port $tls
    type tls
    tls ours
    matchCertificateAttribute CN:/^near$/
}
realm * {
    server near
    accountingServer near
}
END
}

# Starts a radsecproxy.
proxy() {
    radsecproxy -f -c "$folder/$1.conf" > "$folder/said-$1" 2>&1 &
    processes+=($!)
}

# Writes all files, with ports that nobody has, and for the far one with this certificate.
prepare() {
    stop_all
    rm -rf "$folder/state"
    read -r auth acct < <(free_ports)
    read -r far_auth far_acct < <(free_ports)
    read -r tls _ < <(free_ports)
    write_files "$1"
}

# Starts all three.
start() {
    "$program" run "$folder/radlimitd.toml" 2> "$folder/said" &
    processes+=($!)
    proxy near
    proxy far
    until "$program" status "$folder/radlimitd.toml" > /dev/null 2>&1 && bound "$far_auth" && bound "$far_acct"; do
        for one in "${processes[@]}"; do kill -0 "$one" 2> /dev/null || return 1; done
        sleep 0.1
    done
}

# Sends a packet as the access server, to the far radsecproxy, and looks at the answer.
from_server() {
    local auth=$far_auth acct=$far_acct
    again=yes expect "$1" "$2" "$3" "$4" secret-of-access-server-1 'NAS-Identifier = "pop1"' "${@:5}"
}
login() {
    from_server "$1" "$2" "$3" auth 'User-Name = "nemo"' 'User-Password = "arctangent"' 'Message-Authenticator = 0x00'
}

# The account's links, without their ages.
links() { "$program" sessions nemo "$folder/radlimitd.toml" | sed 's/ age=.*//'; }

authority authority
certificate authority near
certificate authority far
authority stranger
certificate stranger other
begin far

login 'a login through both' Access-Accept 'Class = '
class=$(sed -n 's/^[[:space:]]*\(Class = 0x[0-9a-f]*\)$/\1/p' <<< "$received")
login 'a login beside it' Access-Reject 'Session limit reached'
from_server 'its session starts' Accounting-Response '' acct \
    'Acct-Status-Type = Start' 'User-Name = "nemo"' 'Acct-Session-Id = "s1"' "$class"
shows 'the link of nemo' 'nemo 127.0.0.1 nas=pop1 s1 live' "$(links)"
# radsecproxy answers accounting without a User-Name by itself
from_server 'an Accounting-On' Accounting-Response '' acct 'Acct-Status-Type = Accounting-On'
shows 'it has not arrived' 'nemo 127.0.0.1 nas=pop1 s1 live' "$(links)"
from_server 'an Accounting-On with a User-Name' Accounting-Response '' acct \
    'Acct-Status-Type = Accounting-On' 'User-Name = "pop1"'
shows 'it has' '' "$(links)"

begin other
login 'a login by a proxy whose certificate is of another authority' '' ''
shows 'nothing came of it' '' "$(links)"

verdict
