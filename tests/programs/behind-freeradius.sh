#!/usr/bin/env bash
# Starts two radlimitd and a FreeRADIUS in front of them on free ports of this machine, with the files of
# examples/freeradius-passes-on, asks FreeRADIUS as an access server would, kills a radlimitd, starts it again, and looks at
# each answer. It exits with 0 only where every answer was the right one.
#
# usage: tests/programs/behind-freeradius.sh [PROGRAM]    PROGRAM: the program radlimitd, as it was built if it is not given
#
# It wants Linux, Python 3, and Debian's packages freeradius and freeradius-utils, whose configuration it can read.
set -euo pipefail
umask 077

top=$(cd "$(dirname "$0")/../.." && pwd)
program=${1:-$top/crates/radlimitd/out/radlimitd}
folder=$(mktemp -d)
raddb=$folder/raddb
home_address=([1]=127.0.0.21 [2]=127.0.0.22)
home_process=()

proxy=
# The processes that have been started.
processes() { echo "$proxy" "${home_process[@]}"; }
trap '{ kill -9 $(processes); wait $(processes); } 2> /dev/null || true; rm -rf "$folder"' EXIT

. "$top/tests/lib/radclient.bash"

# A UDP port that nobody has, nor the next one.
free_pair() {
    local one
    while read -r one _ < <(free_ports); do
        if ! bound $((one + 1)); then
            echo "$one"
            return
        fi
    done
}

# Writes the files of FreeRADIUS with addresses and ports of this machine.
write_files() {
    cp -r /etc/freeradius/3.0 "$raddb"
    rm "$raddb"/sites-enabled/* "$raddb"/mods-enabled/eap
    cp -r "$top"/examples/freeradius-passes-on/* "$raddb"
    sed -i -e 's/192\.0\.2\.100/127.0.0.1/' "$raddb/clients.conf"
    sed -i -e "s/192\.0\.2\.10$/${home_address[1]}/; s/192\.0\.2\.11$/${home_address[2]}/; s/= 1812/= $home/" \
        "$raddb/proxy.conf"
    sed -i -e "s/192\.0\.2\.1$/127.0.0.1/; s/= 1812/= $auth/; s/= 1813/= $acct/" "$raddb/sites-enabled/radlimit"
    mkdir -p "$folder/log/radacct" "$folder/run/freeradius"
    # it stays the user that it is started by
    sed -i -e "s,^localstatedir = .*,localstatedir = $folder,; s,^logdir = .*,logdir = $folder/log,; \
        s,^raddbdir = .*,raddbdir = $raddb,; s/^[[:space:]]*\(user\|group\) = freerad/#&/" "$raddb/radiusd.conf"
}

# Writes the files of both radlimitd: with the client FreeRADIUS, and eight accounts of one place.
write_homes() {
    local at name
    sed '/^\[\[client\]\]/,$d' "$top/examples/with-radclient.toml" > "$folder/accounts.toml"
    printf '[[client]]\naddress = "127.0.0.1"\nsecret = "secret-of-freeradius-here"\n' >> "$folder/accounts.toml"
    for name in "${names[@]}"; do
        printf '[[account]]\nname = "%s"\npassword = "arctangent"\nplaces = 1\nports = 1\n' "$name" >> "$folder/accounts.toml"
    done
    for at in 1 2; do
        printf 'accounts = "accounts.toml"\nstate = "state-%s"\nlisten = [{ address = "%s", auth = %s, acct = %s, status_server = true }]\n' \
            "$at" "${home_address[at]}" "$home" $((home + 1)) > "$folder/home-$at.toml"
    done
}

# Starts a radlimitd, and waits until it answers at its control.
start_home() {
    "$program" run "$folder/home-$1.toml" 2> "$folder/said-$1" &
    home_process[$1]=$!
    until "$program" status "$folder/home-$1.toml" > /dev/null 2>&1; do
        kill -0 "${home_process[$1]}" 2> /dev/null || return 1
        sleep 0.1
    done
}

# Kills a radlimitd.
kill_home() {
    { kill -9 "${home_process[$1]}" && wait "${home_process[$1]}"; } 2> /dev/null || true
}

# Writes all files, with ports that nobody has.
prepare() {
    { kill -9 $(processes); wait $(processes); } 2> /dev/null || true
    read -r auth acct < <(free_ports)
    home=$(free_pair)
    rm -rf "${folder:?}"/*
    write_files
    write_homes
}

# Starts everything.
start() {
    start_home 1 && start_home 2 || return 1
    freeradius -d "$raddb" -f -l stdout > "$folder/proxy-said" 2>&1 &
    proxy=$!
    until bound "$auth" && bound "$acct"; do
        kill -0 "$proxy" 2> /dev/null || return 1
        sleep 0.1
    done
}

# A number that the status of a radlimitd has: held 1
number() {
    "$program" status "$folder/home-$2.toml" | awk -v word="$1" '$1 == word { print $2 }'
}

names=(nemo ishmael ahab starbuck queequeg stubb flask pip)
begin

# Sends a packet as the access server, and looks at the answer.
from_server() { expect "$1" "$2" "$3" "$4" secret-of-access-server-1 'NAS-Identifier = "pop1"' "${@:5}"; }
login() {
    from_server "$1" "$2" "$3" auth "User-Name = \"$4\"" 'User-Password = "arctangent"' 'Message-Authenticator = 0x00'
}
account() { from_server "$1" "$2" '' acct "Acct-Status-Type = $3" "User-Name = \"$4\"" "Acct-Session-Id = \"$4-1\""; }

login 'a login' Access-Accept 'Class = ' nemo
account 'its session starts' Accounting-Response Start nemo
login 'a login beside it' Access-Reject 'Session limit reached' nemo
shows 'records of it for billing' 1 "$(cat "$folder"/log/radacct/*/detail-* | grep -c 'Acct-Session-Id = "nemo-1"')"
first=1 other=2
if [ "$(number live 2)" = 1 ]; then first=2 other=1; fi
shows 'nemo is counted by one of both' '1 and 0' "$(number live $first) and $(number live $other)"

for name in "${names[@]:1}"; do account "a session of $name starts" Accounting-Response Start "$name"; done
shows 'sessions of both' 8 $(($(number live 1) + $(number live 2)))
if [ "$(number live $other)" = 0 ]; then shows 'both have some' yes no; fi

from_server 'the access server starts again' Accounting-Response '' acct 'Acct-Status-Type = Accounting-On'
sleep 0.5
shows 'sessions of both' 0 $(($(number live 1) + $(number live 2)))

login 'a login' Access-Accept 'Class = ' nemo
account 'its session starts' Accounting-Response Start nemo

kill_home $first
(sleep 1 && exec "$program" run "$folder/home-$first.toml" 2> "$folder/said-$first") &
home_process[first]=$!
again=yes login 'its server is killed, and back when a login is sent again' Access-Reject 'Session limit reached' nemo

kill_home $first
login 'its server is killed, and stays away' '' '' nemo
account 'its accounting' '' Interim-Update nemo
echo 'FreeRADIUS gives it up after 6 seconds'
sleep 8
login 'a login goes to the other one' Access-Accept 'Class = ' nemo
account 'its accounting too' Accounting-Response Interim-Update nemo
shows 'sessions there' 1 "$(number live $other)"

start_home $first
shows 'started again, it has the session' 1 "$(number live $first)"
echo 'FreeRADIUS asks it every 6 seconds, and uses it again after three answers'
sleep 25
login 'a login' Access-Reject 'Session limit reached' nemo
account 'its session stops' Accounting-Response Stop nemo
shows 'sessions there' 0 "$(number live $first)"

verdict
