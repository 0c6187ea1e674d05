#!/usr/bin/env bash
# Three hosts in this machine's memory, or five, each a process, with named pipes between them. They go on from epoch to
# epoch. Ends when all is released.
#
# Usage: cluster/host_pipes.sh PLAN [CUTS] [--places P] [--members M]
#
# `upsched check` looks at the plan first. CUTS cuts like the plan's last one follow it (none). An epoch has P places, 1
# to 999000 (65536), and there are M hosts, 3 or 5 (3).
set -euo pipefail
here=$(cd -- "$(dirname -- "${BASH_SOURCE[0]}")" && pwd)
. "$here/parts.sh"
wants_usage "$@"
plan='' cuts='' places=65536 members=3

while [ $# -gt 0 ]; do
    case $1 in
    --places | --members)
        [ $# -gt 1 ] || refuses "$1 takes a number"
        [ "$1" = --places ] && places=$2 || members=$2
        shift
        ;;
    -*) refuses "$1 is no option" ;;
    *)
        [ -z "$cuts" ] || refuses "'$1' is one word too many"
        [ -z "$plan" ] && plan=$1 || cuts=$1
        ;;
    esac
    shift
done
[ -n "$plan" ] || refuses 'no plan'
cuts=${cuts:-0}
wants_cuts "$cuts"
wants_places "$places"
[ "$members" = 3 ] || [ "$members" = 5 ] || refuses "--members is '$members', not 3 or 5"
look_at "$plan"
pipes=$(mktemp -d)
trap 'end_parts; rm -rf "$pipes"' EXIT
trap 'exit 1' HUP INT TERM
mkfifo "$pipes/asked" "$pipes/replies"
for ((k = 0; k < members; k++)); do mkfifo "$pipes/$k" "$pipes/from-$k"; done

# host K
host() {
    exec "$here/../upsched" host "$1" --members "$members" --places "$places" <>"$pipes/$1" >"$pipes/from-$1"
}

# supervise WORD..
supervise() {
    exec python3 "$here/host_supervisor.py" "$@" <>"$pipes/replies" >"$pipes/asked"
}

export here pipes members places
export -f host supervise
part python3 "$here/host_carry.py" "$members" "$pipes"
for ((k = 0; k < members; k++)); do part bash -c 'host "$1"' bash "$k"; done
part bash -c 'supervise "$@"' bash "$members" "$((10#$places))" "$plan" "$((10#$cuts))"
wait $!
