#!/usr/bin/env bash
# Plays made scripts to two modems: one comes to each minislot, the other to those that `next_event` gives. It compares
# what both answer and, after each MAP, the clock, leases, wants and what is kept from the clock on. It ends with status
# 1 where something differs. What it builds is proved first, in a temporary workspace, which takes a few minutes. With
# `unproved` it is built without proof, by `rt try`.
#
# Usage: bench/skipped.sh [unproved] [COUNT]   COUNT scripts, 10,000 if not given
set -euo pipefail
. "$(dirname -- "${BASH_SOURCE[0]}")/common.sh"
how=run_over
[ "${1-}" != unproved ] || { how=try; shift; }
count=${1:-10000}
if [ "$how" = try ]; then
    workspace_over skipped modem grant_machine minislot_time anyhow
    cd "$workspace"
    rt try --seconds 1800 -- "$count"
    exit
fi
arguments=("$count")
run_over skipped modem grant_machine minislot_time anyhow
