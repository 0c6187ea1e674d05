#!/usr/bin/env bash
# How long `upsched audit` takes over the journals of three nodes, with so many lines in all (1,000,000), and how much
# memory it has at most. The goal is 60 seconds and 1 GB. The journals are made by bench/journal.py, by the rules and
# without the program.
#
# Usage: bench/journal.sh [LINES]
set -euo pipefail
. "$(dirname -- "${BASH_SOURCE[0]}")/common.sh"
needs_program
python3 "$root/bench/journal.py" --program "$program" --lines "${1:-1000000}" --folder "$made"
