#!/usr/bin/env bash
# Times vote, put_vote at the end and promised of records in memory with 1,000, 10,000 and 100,000 votes:
# nanoseconds a call and, in brackets, how many times that of a tenth of the votes, which should be at most 1.5.
# What it builds is proved first, in a temporary workspace, which takes a minute or two.
set -euo pipefail
. "$(dirname -- "${BASH_SOURCE[0]}")/common.sh"
run_over records ballots acceptor anyhow
