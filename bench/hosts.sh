#!/usr/bin/env bash
# Measures three processes of `upsched host` with records in memory, whose letters a carrier (Python, and C for each
# line) takes among them: places a second over 1,000,000 places in epochs of 65,536, with 64 offers in flight; the
# delays from an offer to its release on all three, at borders of epochs and elsewhere; the memory of each behind
# 131,072 places and at the end; and how long one takes that is 60,000 places behind, by `tell`. In the same run three
# processes of `upsched node`, up to their 100,000 places. It prints each goal beside what was found.
#
# With the word `quick` epochs have 4,096 places, 65,536 in all, and it takes some 30 seconds. Its figures have no
# goals.
#
# With the word `files` the hosts have folders: places a second beside three nodes over files; the memory, the disk and
# a start of hosts at the last place of an epoch of 65,536, with 1,000 flows; a new machine, from `--join` to its first
# vote; how long a host takes to go on in the next epoch, and how many syncs (strace, Debian's package, counts them);
# and the disk behind 10 and behind 1,000 epochs of 1,000 places. PROCESS_BENCH_DIR in the environment is where files
# go.
#
# Usage: bench/hosts.sh [files] [quick]
set -euo pipefail
. "$(dirname -- "${BASH_SOURCE[0]}")/common.sh"
needs_program
bench=hosts
[ "${1-}" != files ] || bench=host_files
python3 "$root/bench/$bench.py" --program "$program" "$@"
