#!/usr/bin/env bash
# One node of three or five, whose letters go to the others by TCP (socat, in Debian's packages). Start it on each host,
# and the supervisor on one of them.
#
# Usage: cluster/tcp.sh node K FILE [--new] [--journal JOURNAL] ADDRESS..
#        cluster/tcp.sh supervise PORT PLAN CUTS ADDRESS..
#
# `node` is node K over the database FILE, of as many nodes as there are addresses: three or five. `--new` makes the
# file; without it the node goes on over one that is there. `--journal` appends what the node read and replied to a
# file, for `upsched audit`. `supervise` is the supervisor, which the nodes reach at its port; `upsched check` looks at
# the plan first.
#
# ADDRESS.. are HOST:PORT of node 0, 1 and so on; SUPERVISOR in the environment is that of the supervisor. What is sent
# to a host that isn't there is lost, and so is what no answer comes for within three seconds. Whoever reaches a port
# can write letters: keep the ports in a network of their own, or go through ssh.
set -euo pipefail
here=$(cd -- "$(dirname -- "${BASH_SOURCE[0]}")" && pwd)
. "$here/parts.sh"
. "$here/tcp_parts.sh"
wants_usage "$@"
role=$1 words=()

case $role in
supervise)
    [ $# -gt 4 ] || refuses 'supervise takes PORT PLAN CUTS ADDRESS..; --help says more'
    port=$2 plan=$(absolute "$3") cuts=$4
    is_number "$port" 1 65535 || refuses "PORT is '$port', not 1 to 65535"
    wants_cuts "$cuts"
    shift 4
    ;;
node)
    [ $# -gt 3 ] || refuses 'node takes K FILE [--new] [--journal JOURNAL] ADDRESS..; --help says more'
    me=$2 words=(--store "$(absolute "$3")")
    shift 3
    while [[ ${1-} == --* ]]; do
        case $1 in
        --new) words+=(--new) ;;
        --journal)
            [ $# -gt 1 ] || refuses '--journal takes a file'
            words+=(--journal "$(absolute "$2")")
            shift
            ;;
        *) refuses "$1 is no option of node" ;;
        esac
        shift
    done
    wants_supervisor
    ;;
*) refuses "'$role' is neither node nor supervise" ;;
esac
takes_addresses node "$@"
[ "$role" = node ] || look_at "$plan"

# node K WORD..
node() {
    ../upsched node "$1" "${@:2}" <>"$made/in" | ./carry.py "$1" "$made"
}

# supervise MEMBERS PLAN CUTS
supervise() {
    python3 supervisor.py "$@" <>"$made/in" | while read -r k line; do echo "$line" 3<>"$made/$k" >&3; done
}

export -f node supervise
if [ "$role" = supervise ]; then
    look_at "$plan"
    meets "$port"
    part bash -o pipefail -c 'supervise "$@"' bash "$members" "$plan" "$cuts"
else
    meets "${addresses[me]##*:}"
    reaches replies "$SUPERVISOR"
    part bash -o pipefail -c 'node "$@"' bash "$me" --members "$members" "${words[@]}"
fi
wait $!
