#!/usr/bin/env bash
# Times the proved program on made scripts over many places of the log: events a second and peak memory
# of each, and how much longer an event takes in the longest script than in the shortest (at most 1.5 is wanted).
#
# Kinds of scripts (bench/scripts.py says what each holds), of about 1,000, 10,000 and 100,000 events:
#   places     votes counted at places that stay open
#   leads      leads over learned places
#   prepares   Prepares over learned places
#   takeover   one Promise that reports 1,000, 10,000 and 100,000 votes
#
# Usage: bench/places.sh [KIND..]
set -euo pipefail
. "$(dirname -- "${BASH_SOURCE[0]}")/common.sh"
needs_program

[ $# -gt 0 ] || set -- places leads prepares takeover
for kind in "$@"; do
    echo "$kind"
    for count in 1000 10000 100000; do
        python3 "$root/bench/scripts.py" "$kind" "$count" >"$made/script.toml"
        measure run "$(grep -c '^\[\[event' "$made/script.toml")" "$made/script.toml"
    done | awk '
        { printf "  %6d events: %8d a second, peak %6.1f MiB\n", $1, $2, $3 }
        NR == 1 { first = $4 }
        { last = $4 }
        END { printf "  time an event, longest script to shortest: %.2f\n", last / first }'
done
