#!/usr/bin/env bash
# Times nodes that work on requests with a thread each: records a second of 3 and of 5 nodes with 10,000 turns each;
# and, in one thread over 3 nodes, how long a record and a carrier's pick take on average behind 1,000, 10,000 and
# 100,000 records. What it builds is proved first, in a temporary workspace, which takes a few minutes. The word `quick`
# leaves out the 100,000.
#
# Usage: bench/live.sh [quick]
set -euo pipefail
. "$(dirname -- "${BASH_SOURCE[0]}")/common.sh"
arguments=("$@")
run_over live upsched_live node_worker seats ballots command_log flow_state grant_machine anyhow
