#!/usr/bin/env bash
# Measures three processes of `upsched node` whose letters a carrier (Python, and C for each line) takes among them:
# places a second, and the delay from an offer to its release on all three, with 1, 8 and 64 offers in flight; how
# long a node that lags takes to catch up, by `tell` and by `lead`; and the memory of each. In memory, and over files
# with their syncs; at 1,000 and 100,000 places behind. In the same run: etcd's puts of the same values (three members
# on this machine, over its JSON gateway), and sqlite3's synced writes, two a place in each of three processes. It
# prints each goal beside what was found. Beside the wall times it prints the processor time of each node and of the
# carrier.
#
# Wants Debian's etcd-server and etcd-client. PROCESS_BENCH_DIR is where the files lie, on a disk. The word `quick`
# leaves out the 100,000; with `no-files` these are measured in memory alone, since over files they take a quarter of an
# hour.
#
# Usage: bench/process.sh [quick|no-files]
set -euo pipefail
. "$(dirname -- "${BASH_SOURCE[0]}")/common.sh"
needs_program
for it in etcd etcdctl; do
    command -v $it >/dev/null || { echo "$0: no $it: it is in Debian's etcd-server and etcd-client" >&2 && exit 1; }
done
python3 "$root/bench/process.py" --program "$program" "$@"
