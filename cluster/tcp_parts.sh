# What tcp.sh and host_tcp.sh share. They source it behind parts.sh. `made` is a folder in which named pipes are. INTO
# is the one that lines go to which come by TCP.

# is_address ADDRESS: whether it ends with a port.
is_address() {
    [[ $1 =~ ^..*:[0-9]+$ ]] && [ $((10#${1##*:})) -le 65535 ]
}

# wants_supervisor: SUPERVISOR in the environment has to be an address.
wants_supervisor() {
    is_address "${SUPERVISOR-}" || refuses "SUPERVISOR isn't HOST:PORT: '${SUPERVISOR-}'"
}

# takes_addresses NAME ADDRESS..: they are three or five, and one that isn't the supervisor is number `me` of them.
takes_addresses() {
    local name=$1 address
    shift
    for address in "$@"; do is_address "$address" || refuses "an address isn't HOST:PORT: '$address'"; done
    members=$# addresses=("$@")
    [ $members = 3 ] || [ $members = 5 ] || refuses "there are $members addresses, not three or five"
    [ "$role" = supervise ] || [[ $me =~ ^[0-4]$ && $me -lt $members ]] || refuses "there is no $name $me of $members"
}

# listen PORT: puts whole lines from any connection into the pipe. A port that is still in use is tried again.
listen() {
    while true; do
        socat -u "TCP-LISTEN:$1,fork,reuseaddr" SYSTEM:./whole_lines.py || sleep 0.2
    done
}

# reach NAME ADDRESS: what comes through the pipe of that name goes to the address; 6:18 is how long TCP waits, in
# milliseconds.
reach() {
    while true; do
        socat -u - "TCP:$2,connect-timeout=2,setsockopt-int=6:18:3000" <>"$made/$1" || true
        timeout 0.2 cat <>"$made/$1" >/dev/null || true
    done 2>/dev/null
}

# reaches NAME ADDRESS
reaches() {
    mkfifo "$made/$1"
    part bash -c 'reach "$@"' bash "$@"
}

# meets PORT: makes the pipes, and reaches all members; what comes at the port goes into the pipe `in`.
meets() {
    local k
    made=$(mktemp -d)
    trap 'end_parts; rm -rf "$made"' EXIT
    trap 'exit 1' HUP INT TERM
    mkfifo "$made/in"
    cd -- "$here"
    export made INTO=$made/in
    export -f listen reach
    for ((k = 0; k < members; k++)); do reaches "$k" "${addresses[k]}"; done
    part bash -c 'listen "$1"' bash "$1"
}
