#!/usr/bin/env bash
# Times learn and advance of a log with 1,000, 10,000 and 100,000 places, which hold requests and cuts by turns: places
# a second and, in brackets, how many times the time a place is that with 1,000 places, which should be at most 1.5; and
# encode and decode of a MAP body of 240 elements: bytes a second. What it builds is proved first, in a temporary
# workspace, which takes a few minutes.
set -euo pipefail
. "$(dirname -- "${BASH_SOURCE[0]}")/common.sh"
run_over log command_log flow_state grant_machine map_body anyhow
