#!/usr/bin/env bash
# Puts a fault at each call on each node's records, in turn, through scripts: refused, broken with the write kept, and
# broken without it. Compares each run, and that in which the node restarts at once, with the run of the script in which
# the event that failed is replaced: by a crash of the node, by deliver_then_crash where the write of a deliver is
# there, or, of a failed restart, by nothing. Tells each that differs, and how many there were. A lead whose write is in
# doubt is passed over. What it builds is proved first, in a temporary workspace, which takes a few minutes; with
# `unproved` it is built without proof, by `rt try`.
#
# Usage: bench/faults.sh [unproved] [SCRIPT..]   all of examples/scripts, where none is said
set -euo pipefail
. "$(dirname -- "${BASH_SOURCE[0]}")/common.sh"
how=run_over
if [ "${1-}" = unproved ]; then
    how=try_over
    shift
fi
[ $# -gt 0 ] || set -- "$root"/examples/scripts/*.toml
scripts=()
for script in "$@"; do scripts+=("$(realpath -- "$script")"); done
arguments=("${scripts[@]}")
"$how" faults replication_tests faulty_records network_script script_text seats world_events node ballots anyhow
