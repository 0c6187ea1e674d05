#!/usr/bin/env bash
# Compares the replies of `upsched scheduler` with what `maps` prints: every plan of the examples, as tables and by
# bytes, in lines and as JSON. Tries hostile inputs. Then measures both on a made plan (bench/plans.py mixed), a command
# whose reply is waited for, and the memory over many lines.
#
# Usage: bench/scheduler.sh [COMMANDS [LINES]]: 60000 turns of the plan and 10000000 lines, where nothing is said.
# PROGRAM in the environment names another program than the proved one.
set -euo pipefail
. "$(dirname -- "${BASH_SOURCE[0]}")/common.sh"
program=${PROGRAM:-$program}
needs_program
python3 "$root/bench/scheduler.py" "$program" "$made" "$@"
