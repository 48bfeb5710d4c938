# What the scripts share that ask a server with FreeRADIUS's radclient, the ports of which are auth and acct. top is the
# folder of the repository, program is the server, folder is where the files are that say of each process what it said, and
# passed and failed count what was looked at.
passed=0 failed=0
# the most seconds that an answer may take, on a machine that does much else too
patience=60

if ! command -v "$program" > /dev/null; then
    echo "$program is not there: \`./radlimit prove\` builds it; or name a build that is not proved" >&2
    exit 1
fi

# Two UDP ports that nobody has.
free_ports() {
    PYTHONPATH="$top" python3 -Bc 'from tests.lib.ports import free_ports; print(*free_ports())'
}

# Whether a UDP socket is bound on this port.
bound() {
    grep -q "^ *[0-9]*: [0-9A-F]*:$(printf %04X "$1") " /proc/net/udp
}

# Whether one of the processes could not have a port, as another program took it in between.
port_was_taken() {
    grep -qisE 'cannot be bound|address already in use' "$folder"/*said*
}

# Prepares a start by the script's function prepare, in which a step that fails ends the script, and starts what it wants by
# its function start: on other ports, up to three times in all, where a port was taken. Both are handed these words.
begin() {
    local turn
    for turn in 1 2 3; do
        prepare "$@"
        if start "$@"; then return; fi
        port_was_taken || break
        echo "a port was taken, after turn $turn"
    done
    echo 'not all has started; this was said:' >&2
    tail -n 30 "$folder"/*said* >&2
    exit 1
}

# Runs a command, and shows what it says only where it fails.
quietly() {
    local words
    words=$("$@" 2>&1) && return
    echo "$words" >&2
    return 1
}

# Sends a packet and looks at the answer:
# expect WHAT CODE PATTERN auth|acct|status:auth|status:acct SECRET ATTRIBUTE..
# CODE is the answer's name, or nothing where none may come; PATTERN, if there is one, stands in a line of it. Where the
# variable again is set, it is sent each three seconds until it is answered. It goes to the address host, or 127.0.0.1. A
# status packet goes to one of both ports.
expect() {
    local what=$1 code=$2 pattern=$3 kind=$4 secret=$5
    shift 5
    local port=$auth wait=$patience count=1
    if [ "${kind#status:}" = acct ]; then port=$acct; fi
    if [ -n "${again:-}" ]; then wait=3 count=$((patience / 3)); fi
    if [ -z "$code" ]; then wait=1 count=${again:+3}; fi
    answer=$(printf '%s\n' "$@" | radclient -x -r "${count:-1}" -t "$wait" "${host:-127.0.0.1}:$port" "${kind%:*}" "$secret" 2>&1) || true
    received=$(sed -n '/^Received /,$p' <<< "$answer")
    local found
    found=$(sed -n 's/^Received \([A-Za-z-]*\) .*/\1/p' <<< "$received")
    if [ "$found" = "$code" ] && { [ -z "$pattern" ] || grep -q -- "$pattern" <<< "$received"; }; then
        echo "$what: ${code:-no answer}"
        passed=$((passed + 1))
    else
        echo "$what: wanted ${code:-no answer}${pattern:+ with $pattern}, and found:"
        sed 's/^/    /' <<< "$answer"
        failed=$((failed + 1))
    fi
}

# Looks at what something is: shows WHAT EXPECTED FOUND
shows() {
    if [ "$2" = "$3" ]; then
        echo "$1: $3"
        passed=$((passed + 1))
    else
        echo "$1: wanted $2, and found $3"
        failed=$((failed + 1))
    fi
}

# Says how much was right, and ends the script.
verdict() {
    echo "$passed passed, $failed failed"
    exit $((failed > 0))
}
