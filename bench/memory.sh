#!/usr/bin/env bash
# Refuses each request for memory of a plan or script in turn. A program runs the text so that what wanted is asked
# again, and once more with crashes in place of the events at which a node wanted memory, and compares all answers and
# what is lent. Printed for each text: how many requests were refused, after how many of them all was the same, and how
# many runs can't be compared, since they couldn't begin or a second run met the refusal. Any run that ends in another
# way is told by the number of its request, and the status is 1. What it builds is proved first, in a temporary
# workspace, which takes a few minutes. With `unproved` it is built without proof, by `rt try`, and refuses in each text
# the one request of this number, or none where no number is said.
#
# Usage: bench/memory.sh [unproved [NUMBER]] [FILE..]
# A FILE is of examples: plans/NAME.toml or scripts/NAME.toml. Where none is named, those of the worked rows are taken.
set -euo pipefail
. "$(dirname -- "${BASH_SOURCE[0]}")/common.sh"
proves=yes refused=()
if [ "${1-}" = unproved ]; then
    proves=
    shift
    if [[ ${1-} =~ ^[0-9]+$ ]]; then
        refused=(--fail-alloc "$1")
        shift
    fi
fi
[ $# -gt 0 ] ||
    set -- plans/{first_grant,fullest_map,wider_jitter}.toml scripts/{one_leader,wrapped_time,missed_map}.toml

workspace_over memory network_script script_text seats world_events node ballots grant_machine
if [ -z "$proves" ]; then
    mkdir "$made/cases"
    for text in "$@"; do
        name=$(basename -- "$text")
        cp -- "$root/examples/$text" "$made/cases/$name"
        case $text in
            plans/*) echo plan ;;
            *) echo script ;;
        esac >"$made/cases/$name.args"
    done
    cd "$workspace"
    rt try --seconds 1800 ${refused[@]+"${refused[@]}"} --cases "$made/cases"
    exit
fi
(cd "$workspace" && rt run --jobs "${BENCH_JOBS:-1}" -- script <"$root/examples/scripts/one_leader.toml")
cc -O1 -shared -fPIC -o "$made/refuse.so" "$root/bench/memory/refuse.c" -ldl
status=0
for text in "$@"; do
    python3 "$root/bench/memory/sweep.py" "$made/refuse.so" "$workspace/out/memory_bench" "$root/examples/$text" ||
        status=1
done
exit $status
