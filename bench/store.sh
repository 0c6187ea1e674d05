#!/usr/bin/env bash
# Counts the calls a second of vote, votes_from (the last 10 rows), put_promised and put_vote of records in SQL tables
# with 1,000, 10,000 and 100,000 votes, on a disk in memory and in files with their syncs, and the same statements by
# sqlite3 (through Python, WAL with synchronous = FULL) in the same run. A write to a file should take at most 3 times
# sqlite3's wall time; where one takes longer, it ends with status 1.
# What it builds is proved first, in a temporary workspace, which takes several minutes.
set -euo pipefail
. "$(dirname -- "${BASH_SOURCE[0]}")/common.sh"
run_over store acceptor_store acceptor ballots sqlite sqlite_disk anyhow | python3 "$root/bench/store.py"
