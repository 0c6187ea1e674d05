#!/usr/bin/env bash
# One host of three or five over a folder, whose letters go to the others by TCP (socat, in Debian's packages). Start it
# on each machine, or all on one with another port each, and the supervisor on one of them.
#
# Usage: cluster/host_tcp.sh host K FOLDER [--new|--join] [--places P] [--journal JOURNAL] ADDRESS..
#        cluster/host_tcp.sh supervise PORT PLAN CUTS [--places P] ADDRESS..
#
# `host` is host K of as many as there are addresses, three or five, over FOLDER, which is made with --new or --join. An
# epoch has P places, 1 to 999000, the same for all (65536). `--new` begins a host, once in its life. `--join` is a new
# machine in the place of one whose disk is gone, which has to be off for good: it waits for a state, and the supervisor
# sees to it that this is far enough. Without either the host goes on over its folder. One that ends is started again
# (host_keeper.py). `--journal` appends what the host read and replied to a file, for epoch_journals.py.
#
# `supervise` is the supervisor, which the hosts reach at its port. It offers the plan's commands and then CUTS cuts,
# has hosts go on, tells those that lag, and has those join that are too far behind or wait. `upsched check` looks at
# the plan first. It ends when all is released; the hosts go on.
#
# ADDRESS.. are HOST:PORT of host 0, 1 and so on; SUPERVISOR in the environment is that of the supervisor. What is sent
# to a host that isn't there is lost, and so is what no answer comes for within three seconds. Whoever reaches a port
# can write letters: keep the ports in a network of their own, or go through ssh.
set -euo pipefail
here=$(cd -- "$(dirname -- "${BASH_SOURCE[0]}")" && pwd)
. "$here/parts.sh"
. "$here/tcp_parts.sh"
wants_usage "$@"
role=$1 begins='' places=65536 words=()

# option NAME [VALUE]: takes it; how many words that are.
option() {
    case $role$1 in
    host--new | host--join)
        [ -z "$begins" ] || refuses "$begins and $1 don't go together"
        begins=$1 took=1
        return
        ;;
    host--places | supervise--places | host--journal) [ $# -gt 1 ] || refuses "$1 takes a word" ;;
    *) refuses "$1 is no option of $role" ;;
    esac
    took=2
    [ "$1" != --places ] || places=$2
    [ "$1" != --journal ] || words=(--journal "$(absolute "$2")")
}

case $role in
supervise)
    [ $# -gt 4 ] || refuses 'supervise takes PORT PLAN CUTS [--places P] ADDRESS..; --help says more'
    port=$2 plan=$(absolute "$3") cuts=$4
    is_number "$port" 1 65535 || refuses "PORT is '$port', not 1 to 65535"
    wants_cuts "$cuts"
    shift 4
    ;;
host)
    [ $# -gt 3 ] || refuses 'host takes K FOLDER [--new|--join] .. ADDRESS..; --help says more'
    me=$2 folder=$(absolute "$3")
    wants_supervisor
    shift 3
    ;;
*) refuses "'$role' is neither host nor supervise" ;;
esac
while [[ ${1-} == --* ]]; do
    option "$@"
    shift "$took"
done
wants_places "$places"
takes_addresses host "$@"
places=$((10#$places))

# host K WORD..
host() {
    ./host_keeper.py "$folder" ../upsched host "$@" <>"$made/in" | ./carry.py "$1" "$made"
}

# supervise MEMBERS PLACES PLAN CUTS
supervise() {
    exec python3 host_supervisor.py "$@" <>"$made/in" >"$made/asked"
}

export folder=${folder-}
export -f host supervise
if [ "$role" = supervise ]; then
    look_at "$plan"
    meets "$port"
    mkfifo "$made/asked"
    part python3 host_carry.py 0 "$made"
    part bash -c 'supervise "$@"' bash "$members" "$places" "$plan" "$((10#$cuts))"
else
    [ -z "$begins" ] || { mkdir -p -- "$folder" && words+=("$begins"); }
    meets "${addresses[me]##*:}"
    reaches replies "$SUPERVISOR"
    words=(--members "$members" --places "$places" --store "$folder" "${words[@]}")
    part bash -o pipefail -c 'host "$@"' bash "$me" "${words[@]}"
fi
wait $!
