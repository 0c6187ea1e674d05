#!/usr/bin/env bash
# Times `Machine::apply` and `Node::receive` apart from any text, by 1,000, 10,000 and 100,000 commands and letters
# that are made in memory: calls a second and, in brackets, how many times the time a call is that of 1,000 calls,
# which should be at most 1.5.
# What it builds is proved first, in a temporary workspace, which takes a few minutes.
set -euo pipefail
. "$(dirname -- "${BASH_SOURCE[0]}")/common.sh"
run_over calls node acceptor ballots grant_machine flow_state anyhow
