#!/usr/bin/env bash
# Starts a radlimitd, a FreeRADIUS that checks logins and a directory on free ports of this machine, with the files of
# examples/freeradius-checks, and logs in by PAP, MS-CHAP, EAP-MD5, PEAP and TTLS: each login has a place, its Start binds to
# that, and the second login beside it is rejected, by EAP with an EAP-Failure. Then it kills the radlimitd, and looks at what
# a login gets, as the policy is closed and as it is open. It exits with 0 only where every answer was the right one.
#
# usage: tests/programs/freeradius-checks.sh [PROGRAM]    PROGRAM: the program radlimitd, as it was built if it is not given
#
# It wants Linux, Python 3, and Debian's packages freeradius, freeradius-rest, freeradius-utils, eapoltest and sqlite3; and
# for the part on directories slapd, ldap-utils and freeradius-ldap, without which that part is left out.
set -euo pipefail
umask 077

top=$(cd "$(dirname "$0")/../.." && pwd)
files=$top/examples/freeradius-checks
program=${1:-$top/crates/radlimitd/out/radlimitd}
folder=$(mktemp -d)
raddb=$folder/raddb
radius='' limit='' directory=''
trap '{ kill -9 $radius $limit $directory; wait $radius $limit $directory; } 2> /dev/null || true; rm -rf "$folder"' EXIT

. "$top/tests/lib/radclient.bash"

# Whether the part on directories can be run.
has_directory() { [ -x /usr/sbin/slapd ] && [ -e /usr/lib/freeradius/rlm_ldap.so ] && command -v slappasswd > /dev/null; }

# A TCP port that nobody has.
free_tcp() {
    python3 -c 'import socket; s = socket.socket(); s.bind(("127.0.0.1", 0)); print(s.getsockname()[1])'
}

# The NT hash of a password.
nt_hash() {
    smbencrypt "$1" 2> "$folder/smbencrypt-said" | awk '{ print $2 }' && return
    cat "$folder/smbencrypt-said" >&2
    return 1
}

# Adds a user to the table of SQL: a name, an attribute and its value.
user() {
    printf "INSERT INTO radcheck (username, attribute, op, value) VALUES ('%s', '%s', ':=', '%s');\n" "$@"
}

# Writes the files of FreeRADIUS, with addresses and ports of this machine.
write_raddb() {
    local of_ishmael of_starbuck
    of_ishmael=$(nt_hash pequod)
    of_starbuck=$(nt_hash coffee)
    cp -r /etc/freeradius/3.0 "$raddb"
    rm "$raddb"/sites-enabled/*
    cp -r "$files"/{clients.conf,proxy.conf,mods-enabled,policy.d,sites-enabled} "$raddb"
    if ! has_directory; then
        rm "$raddb/mods-enabled/ldap"
        sed -i '/if (notfound) {/,/}/d' "$raddb"/sites-enabled/*
    fi
    sed -i 's/192\.0\.2\.100/127.0.0.0\/8/' "$raddb/clients.conf"
    sed -i "s/192\.0\.2\.10$/127.0.0.1/; s/= 1813/= $home_acct/" "$raddb/proxy.conf"
    sed -i "s/192\.0\.2\.1$/127.0.0.1/; s/= 1812/= $auth/; s/= 1813/= $acct/" "$raddb/sites-enabled/radlimit"
    sed -i "s/8613/$ask/" "$raddb/mods-enabled/radlimit"
    sed -i "s,/etc/freeradius/3.0/users.sqlite,$folder/users.sqlite," "$raddb/mods-enabled/sql"
    [ ! -e "$raddb/mods-enabled/ldap" ] || sed -i "s/:389/:$ldap/" "$raddb/mods-enabled/ldap"
    mkdir -p "$folder/log/radacct" "$folder/run/freeradius"
    # it stays the user that it is started by
    sed -i -e "s,^localstatedir = .*,localstatedir = $folder,; s,^logdir = .*,logdir = $folder/log,; \
        s,^raddbdir = .*,raddbdir = $raddb,; s/^[[:space:]]*\(user\|group\) = freerad/#&/" "$raddb/radiusd.conf"
    {
        cat "$files/users.sql"
        user nemo Crypt-Password "$(openssl passwd -6 nautilus)"
        user ishmael NT-Password "$of_ishmael"
        user ahab Cleartext-Password whale
        user starbuck NT-Password "$of_starbuck"
        user queequeg@example.org Crypt-Password "$(openssl passwd -6 harpoon)"
        user unknown Crypt-Password "$(openssl passwd -6 nobody)"
    } | sqlite3 "$folder/users.sqlite"
}

# what the account of ishmael has for its accepts, as radclient prints it
attributes=('Cisco-AVPair = "a=b"' 'Cisco-AVPair = "c=d"' 'Filter-Id = "a\"b\\c"' 'Filter-Id = "gold"'
    'Framed-IP-Address = 192.0.2.7' 'Framed-Interface-Id = a00:27ff:fe0e:1' 'Framed-Route = "192.0.2.0/28 192.0.2.7"'
    'Framed-Route = "198.51.100.0/28"' 'Huawei-AVpair = "a=b"' 'Huawei-QoS-Profile-Type = L2TP' 'Tunnel-Type:1 = L2TP'
    'Tunnel-Type:2 = VLAN')
# the same: what is by its numbers in the account file has a name there
numbered=('Attr-26.2011.82 = 0x613d62')
named=('Huawei-Data-Filter = "a=b"')

# Writes the files of radlimitd.
write_limit() {
    local name
    sed -e "s,192\.0\.2\.10\",127.0.0.1\"\nauth = $home\nacct = $home_acct,; s,8613,$ask,; s,192\.0\.2\.1\",127.0.0.1\"," \
        -e "s,/var/lib/radlimit/state,state," "$files/radlimitd.toml" > "$folder/radlimitd.toml"
    sed '/^\[\[account\]\]/,$d; s/192\.0\.2\.1"/127.0.0.1"/' "$files/accounts.toml" > "$folder/accounts.toml"
    for name in nemo ishmael ahab starbuck queequeg@example.org pip; do
        printf '[[account]]\nname = "%s"\nplaces = 1\nports = 1\nsession_timeout = 3600\n' "$name"
        if [ "$name" = ishmael ]; then echo "reply = [$(printf "'%s', " "${attributes[@]}" "${numbered[@]}")]"; fi
    done >> "$folder/accounts.toml"
    echo token-of-radlimitd-here > "$folder/ask-token"
}

# Starts radlimitd, and waits until it answers at its control.
start_limit() {
    "$program" run "$folder/radlimitd.toml" 2>> "$folder/limit-said" &
    limit=$!
    until "$program" status "$folder/radlimitd.toml" > /dev/null 2>&1; do
        kill -0 "$limit" 2> /dev/null || return 1
        sleep 0.1
    done
}

# Kills it.
kill_limit() { { kill -9 "$limit" && wait "$limit"; } 2> /dev/null || true; }

# Starts FreeRADIUS.
start_radius() {
    freeradius -d "$raddb" -f -l stdout >> "$folder/radius-said" 2>&1 &
    radius=$!
    until bound "$auth" && bound "$acct"; do
        kill -0 "$radius" 2> /dev/null || return 1
        sleep 0.1
    done
}

# Starts a directory with one user, whose password is {SSHA}.
start_directory() {
    mkdir "$folder/directory"
    printf '%s\n' "include /etc/ldap/schema/core.schema" "include /etc/ldap/schema/cosine.schema" \
        "include /etc/ldap/schema/inetorgperson.schema" "pidfile $folder/slapd.pid" "modulepath /usr/lib/ldap" \
        "moduleload back_mdb" "database mdb" 'suffix "dc=example,dc=org"' "directory $folder/directory" > "$folder/slapd.conf"
    printf '%s\n' "dn: dc=example,dc=org" "objectClass: dcObject" "objectClass: organization" "o: example" "dc: example" "" \
        "dn: ou=people,dc=example,dc=org" "objectClass: organizationalUnit" "ou: people" "" \
        "dn: uid=pip,ou=people,dc=example,dc=org" "objectClass: inetOrgPerson" "uid: pip" "cn: pip" "sn: pip" \
        "userPassword: $(slappasswd -h '{SSHA}' -s cabin)" > "$folder/people.ldif"
    slapadd -f "$folder/slapd.conf" -l "$folder/people.ldif" 2> "$folder/directory-said" || return 1
    /usr/sbin/slapd -d 0 -f "$folder/slapd.conf" -h "ldap://127.0.0.1:$ldap" 2>> "$folder/directory-said" &
    directory=$!
}

# Writes all files, with ports that nobody has.
prepare() {
    { kill -9 $radius $limit $directory; wait $radius $limit $directory; } 2> /dev/null || true
    read -r auth acct < <(free_ports)
    read -r home home_acct < <(free_ports)
    ask=$(free_tcp) ldap=$(free_tcp)
    rm -rf "${folder:?}"/*
    write_raddb
    write_limit
}

# Starts everything.
start() {
    start_limit || return 1
    if has_directory; then start_directory || return 1; fi
    start_radius
}

begin

nas='NAS-Identifier = "pop1"'

# Sends a packet as the access server, and looks at the answer.
from_server() { expect "$1" "$2" "$3" "$4" secret-of-access-server-1 "$nas" "${@:5}"; }
login() { from_server "$1" "$2" "$3" auth "User-Name = \"$4\"" "$5 = \"$6\"" 'Message-Authenticator = 0x00'; }
class() { sed -n 's/^[[:space:]]*Class = //p' <<< "$received"; }
# Tells of a session of an account: account WHAT STATUS NAME [CLASS [SESSION]]
account() {
    from_server "$1" Accounting-Response '' acct "Acct-Status-Type = $2" "User-Name = \"$3\"" "Acct-Session-Id = \"${5:-1}-of-$3\"" \
        ${4:+"Class = $4"}
}

# The sessions of an account, as radlimitd has them: how many are live, and how many are reserved.
sessions() {
    "$program" sessions "$1" "$folder/radlimitd.toml" | awk '/ live /{ live++ } / reserved /{ kept++ } END { print live + 0, kept + 0 }'
}

# Logs in by EAP, and looks at the last packet: by_eap WHAT CODE EAP RESULT NAME METHOD PASSWORD [PHASE2]. Then the variables
# mark and user have the Class and the User-Name of an accept.
by_eap() {
    local key=WPA-EAP outer=anonymous@example.org flag=
    if [ "$6" = MD5 ]; then key=IEEE8021X outer=$5 flag=-n; fi
    printf 'network={\n key_mgmt=%s\n eap=%s\n anonymous_identity="%s"\n identity="%s"\n password="%s"\n%s}\n' \
        "$key" "$6" "$outer" "$5" "$7" "${8:+ phase2=\"auth=$8\"
}" > "$folder/eap.conf"
    eapol_test -c "$folder/eap.conf" -a 127.0.0.1 -p "$auth" -s secret-of-access-server-1 -N 32:s:pop1 -t 60 $flag \
        > "$folder/eap" 2>&1 || true
    local last
    last=$(awk '/^RADIUS message: code=/{ text = ""; on = 1 } on { text = text $0 "\n" } /^STA .*Received RADIUS/{ on = 0 }
        END { printf "%s", text }' <(sed -n '/^Received RADIUS message/,$p' "$folder/eap" | grep -v '^SUCCESS\|^FAILURE'))
    mark=$(awk '/^   Attribute 25 /{ getline; sub(/.*Value: /, "0x"); print }' <<< "$last")
    user=$(awk "/^   Attribute 1 /{ getline; gsub(/.*Value: '|'/, \"\"); print }" <<< "$last")
    local code eap result
    code=$(sed -n 's/^RADIUS message: code=\([0-9]*\) .*/\1/p' <<< "$last" | tail -1)
    eap=$(awk '/^   Attribute 79 /{ getline; sub(/.*Value: /, ""); print substr($0, 1, 2) }' <<< "$last" | tail -1)
    result=$(tail -1 "$folder/eap")
    shows "$1" "$2 $3 $4" "$code $eap $result"
}

# ---- what a trusted client passes on, and nobody has checked
secret=$(sed -n 's/^secret = "\(.*\)"/\1/p' "$folder/accounts.toml")
passed_on() { auth=$home expect "$1" Access-Reject '' auth "$secret" "$nas" 'User-Name = "nemo"' "$2" 'Message-Authenticator = 0x00'; }
passed_on 'MS-CHAP that nobody has checked' 'MS-CHAP-Password = "wrong"'
passed_on 'MS-CHAP of version 2' 'MS-CHAP2-Response = 0x00'
passed_on 'EAP' 'EAP-Message = 0x02000009016e656d6f'
passed_on 'Digest' 'Attr-103 = 0x3636323966616534'
passed_on 'Digest as FreeRADIUS sends it' 'Digest-Response = "6629fae49393a05397450978507c4ef1"'
shows 'they have no place' '0 0' "$(sessions nemo)"
for _ in {1..30}; do
    causes=$(grep -c 'account=nemo cause=reject_unchecked_credential' "$folder/limit-said" || true)
    [ "$causes" -lt 5 ] || break
    sleep 0.1
done
shows 'and a cause of their own' 5 "$causes"

# ---- PAP from SQL, with a hash
login 'PAP, a wrong password' Access-Reject '' nemo User-Password wrong
shows 'it has no place' '0 0' "$(sessions nemo)"
login 'PAP' Access-Accept 'Class = ' nemo User-Password nautilus
shows 'its place is reserved' '0 1' "$(sessions nemo)"
account 'its Start' Start nemo "$(class)"
shows 'it binds to that' '1 0' "$(sessions nemo)"
login 'PAP beside it' Access-Reject 'Session limit reached' nemo User-Password nautilus
shows 'records for billing' 1 "$(cat "$folder"/log/radacct/*/detail-* | grep -c 'Acct-Session-Id = "1-of-nemo"')"

# ---- MS-CHAP from SQL, with a hash
login 'MS-CHAP' Access-Accept 'Class = ' ishmael MS-CHAP-Password pequod
shows 'what its account has' "$(printf '%s\n' "${attributes[@]}" "${named[@]}" | LC_ALL=C sort)" \
    "$(sed 's/^[[:space:]]*//' <<< "$received" | grep -E '^(Cisco-AVPair|Filter-Id|Framed-|Huawei-|Tunnel-)' | LC_ALL=C sort)"
account 'its Start' Start ishmael "$(class)"
shows 'it binds to its place' '1 0' "$(sessions ishmael)"
login 'MS-CHAP beside it' Access-Reject 'Session limit reached' ishmael MS-CHAP-Password pequod

# ---- EAP: an accept has EAP-Success (03), a reject EAP-Failure (04)
for one in 'ahab MD5 whale' 'starbuck PEAP coffee MSCHAPV2' 'queequeg@example.org TTLS harpoon PAP'; do
    read -r name method password phase <<< "$one"
    by_eap "EAP-$method" 2 03 SUCCESS "$name" "$method" "$password" "$phase"
    shows 'the accept names the account' "$name" "$user"
    account 'its Start' Start "$user" "$mark"
    shows 'it binds to its place' '1 0' "$(sessions "$name")"
    by_eap "EAP-$method beside it" 3 04 FAILURE "$name" "$method" "$password" "$phase"
done

# ---- a directory
if has_directory; then
    login 'from a directory, {SSHA}' Access-Accept 'Class = ' pip User-Password cabin
    login 'beside it' Access-Reject 'Session limit reached' pip User-Password cabin
fi

# ---- an account that radlimitd does not have
login 'no such account' Access-Reject '' unknown User-Password nobody

# ---- by the control
shows 'radlimitd ask' 'radlimitd: session limit reached' \
    "radlimitd: $("$program" ask nemo key=1 nas_identifier=pop1 "$folder/radlimitd.toml" 2>&1 || true)"

# ---- radlimitd is killed
account 'nemo stops' Stop nemo
kill_limit
login 'radlimitd is away, closed' Access-Reject '' nemo User-Password nautilus
by_eap 'the same by EAP' 3 04 FAILURE starbuck PEAP coffee MSCHAPV2
start_limit
shows 'it is back, with its sessions' '0 0, 1 0' "$(sessions nemo), $(sessions ishmael)"
login 'a login' Access-Accept 'Class = ' nemo User-Password nautilus
account 'its Start' Start nemo "$(class)" 2
account 'its Stop' Stop nemo '' 2

{ kill -9 "$radius" && wait "$radius"; } 2> /dev/null || true
sed -i '/^radlimit_away {/,/^}/{ s/^    radlimit_refuse$/    ok/ }' "$raddb/policy.d/radlimit"
start_radius
kill_limit
login 'radlimitd is away, open' Access-Accept '' nemo User-Password nautilus
shows 'the accept has no Class' '' "$(class)"
start_limit
account 'its Start' Start nemo '' 3
shows 'from its Start on it is counted' '1 0' "$(sessions nemo)"
login 'a login beside it' Access-Reject 'Session limit reached' nemo User-Password nautilus
from_server 'the access server starts again' Accounting-Response '' acct 'Acct-Status-Type = Accounting-On'
shows 'all of its sessions have ended' '0 0, 0 0' "$(sessions nemo), $(sessions ishmael)"

verdict
