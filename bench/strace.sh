#!/usr/bin/env bash
# Runs the proved program as a node over a file under strace (Debian's package), and reads from the trace when each
# reply went out: behind the sync of every write before it, and before the next line was read. Prints how many replies
# and syncs there were; ends with status 1 where a reply went out too early, or not by itself.
#
# Usage: bench/strace.sh
set -euo pipefail
. "$(dirname -- "${BASH_SOURCE[0]}")/common.sh"
needs_program
python3 "$root/bench/strace.py" "$program" "$made"
