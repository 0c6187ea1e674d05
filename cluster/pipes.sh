#!/usr/bin/env bash
# Three nodes in this machine's memory, each a process, with named pipes between them. Ends when all is released.
#
# Usage: cluster/pipes.sh PLAN [CUTS]
#
# `upsched check` looks at the plan first. CUTS cuts like the plan's last one follow it (none).
#
# A line goes into a pipe by one write of less than 4096 bytes, so lines of several writers don't mix. A longer letter
# is lost: a node that takes over behind some 40 open votes needs another transport.
set -euo pipefail
here=$(cd -- "$(dirname -- "${BASH_SOURCE[0]}")" && pwd)
. "$here/parts.sh"
wants_usage "$@"
[[ $1 != -* ]] || refuses "$1 is no option"
[ $# -le 2 ] || refuses "'$3' is one word too many"
wants_cuts "${2:-0}"
look_at "$1"
pipes=$(mktemp -d)
trap 'end_parts; rm -rf "$pipes"' EXIT
trap 'exit 1' HUP INT TERM
mkfifo "$pipes/0" "$pipes/1" "$pipes/2" "$pipes/replies"

# node K
node() {
    "$here/../upsched" node "$1" --members 3 <>"$pipes/$1" | while IFS= read -r line; do
        [ ${#line} -lt 4000 ] || continue
        [[ $line != letter* ]] || { read -r _ to digits <<<"$line" && echo "letter $digits" >"$pipes/$to"; }
        echo "$1 $line" >"$pipes/replies"
    done
}

# supervise PLAN [CUTS]
supervise() {
    python3 "$here/supervisor.py" 3 "$@" <>"$pipes/replies" |
        while read -r k line; do echo "$line" >"$pipes/$k"; done
}

export here pipes
export -f node supervise
for k in 0 1 2; do part bash -c 'node "$1"' bash "$k"; done
part bash -o pipefail -c 'supervise "$@"' bash "$@"
wait $!
