#!/usr/bin/env bash
# Times the proved program on made plans of cuts: commands a second and peak memory of each, and how
# much longer a command takes in the longest plan than in the shortest (at most 1.5 is wanted).
#
# Kinds of plans (bench/plans.py says what each holds), of 1,000, 10,000 and 100,000 commands:
#   mixed      flows of all kinds
#   full       unsolicited grants that fill every cut
#   waiting    118 requests wait at every cut
#   channels   255 channels
#   flows      1,000 and 8,191 flows on one channel, and about 20,000 commands
#
# Usage: bench/cuts.sh [KIND..]
set -euo pipefail
. "$(dirname -- "${BASH_SOURCE[0]}")/common.sh"
needs_program

[ $# -gt 0 ] || set -- mixed full waiting channels flows
for kind in "$@"; do
    echo "$kind"
    counts="1000 10000 100000"
    [ "$kind" != flows ] || counts="1000 8191"
    for count in $counts; do
        python3 "$root/bench/plans.py" "$kind" "$count" >"$made/plan.toml"
        measure maps "$(grep -c '^\[\[command' "$made/plan.toml")" "$made/plan.toml"
    done | awk '
        { printf "  %6d commands: %8d a second, peak %6.1f MiB\n", $1, $2, $3 }
        NR == 1 { first = $4 }
        { last = $4 }
        END { printf "  time a command, last plan to first: %.2f\n", last / first }'
done
