#!/usr/bin/env bash
# Times a scheduler and a modem whose flow is renewed 10,000, 100,000 and 1,000,000 times, each time for 100 minislots:
# renewals a second, peak memory and, in brackets, how many times the time and the memory are those of 10,000 renewals,
# each of which should be at most 1.5. What the modem keeps at the end is printed too.
# What it builds is proved first, in a temporary workspace, which takes a few minutes. With `unproved` it is built
# without proof, by `rt try`, and runs 10,000 renewals, of which nothing is timed.
#
# Usage: bench/renewals.sh [unproved]
set -euo pipefail
. "$(dirname -- "${BASH_SOURCE[0]}")/common.sh"
workspace_over renewals modem grant_machine flow_state minislot_time anyhow
if [ "${1-}" = unproved ]; then
    cd "$workspace"
    rt try --seconds 1800 -- 10000
    exit
fi
(cd "$workspace" && rt run --jobs "${BENCH_JOBS:-1}" -- 10000)
for count in 10000 100000 1000000; do
    "$workspace/out/renewals_bench" "$count"
    python3 "$root/bench/measure.py" "$workspace/out/renewals_bench" "$count" "$count" .
done | awk '
    /kept$/ { kept = $0; next }
    NR == 2 { peak = $3; time = $4 }
    { printf "%s; %d a second [%.2f], peak %.1f MiB [%.2f]\n", kept, $2, $4 / time, $3, $3 / peak }'
