#!/usr/bin/env bash
# Runs the proved program on plans, scripts, bodies, files of tables and lines for a scheduler that are made from a
# seed to hurt: cut, doubled, bit-flipped, of extreme numbers, deeply nested, with a byte order mark, not UTF-8, 10 MB
# on one line, empty, of 100,000 tables, and scripts in which nodes learn command bytes that are none. Tells each run
# that ends by a signal or with a status other than 0 to 2, that ends with 1 or 2 and tells nothing, that writes more
# than one line on standard error (without --verbose), or that takes more than 100 times the processor time of a good
# text of the same length. The texts of these are left in a folder, which is named.
#
# Usage: bench/hostile.sh [COUNT [SEED [FIRST]]]   10000 cases of seed 1 from number 0 on, where nothing is said
set -uo pipefail
. "$(dirname -- "${BASH_SOURCE[0]}")/common.sh"
needs_program
python3 "$root/bench/hostile.py" "$program" "$made" "${1:-10000}" "${2:-1}" "${3:-0}" && exit
kept=$(mktemp -d)
mv -- "$made"/case-* "$kept" && echo "the texts: $kept"
exit 1
