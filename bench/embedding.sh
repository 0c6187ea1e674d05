#!/usr/bin/env bash
# Runs the programs of docs/embedding.md, bench/drawing, bench/simulator and bench/embedding, and compares what each
# prints with the file `stdout` beside it. The status is 1 where they differ.
# What it builds is proved first, in a temporary workspace; with `unproved` it is built without proof, by `rt try`.
# ./check reads the lines `compare NAME DEP..` and does the same with the libraries that it kept.
#
# Usage: bench/embedding.sh [unproved]
set -euo pipefail
. "$(dirname -- "${BASH_SOURCE[0]}")/common.sh"
how=run_over
[ "${1-}" != unproved ] || how=try_over
arguments=()

# compare NAME DEP..: runs bench/NAME over these crates and libraries, and compares what it prints.
compare() {
    rm -rf "$made"/crates*
    "$how" "$@" >"$made/stdout"
    diff "$root/bench/$1/stdout" "$made/stdout" && echo "bench/$1 prints what it should"
}

compare drawing map_body anyhow
compare embedding node acceptor ballots command_log modem grant_machine flow_state map_body minislot_time anyhow
compare simulator modem grant_machine flow_state minislot_time anyhow
