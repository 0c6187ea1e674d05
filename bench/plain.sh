#!/usr/bin/env bash
# Compares the codec, the scheduler, the modem and the node with the same in plain Rust, written for speed
# (bench/plain).
#
# First what both answer, byte for byte, to 100,000 made commands without cuts' settings, changes of channels and flows
# for ranging, to as many of all kinds, and to as many bodies (valid and damaged ones), events of four modems and events
# of three or five nodes. Then what a call costs, in nanoseconds of
# processor time (by turns, medians of nine runs) and, where valgrind is there, in instructions: for each kind
# of work plain Rust's, upsched's and the ratio. Then how many bytes of the heap a flow takes, a request that waits, a
# vote, a place and an interval of a modem. Last a run of three nodes by the proved program, where it is there, without
# the reading of its text (bench/beside.py).
#
# What is built of upsched is proved first, in a temporary workspace, which takes several minutes; plain Rust is
# built by cargo. With `quick` there are 10,000 inputs of each kind, three runs of one round, and no
# instructions. With `unproved` upsched's side is built without proof, by `rt try`, which compares 1,000 inputs
# of each kind and times nothing.
#
# Usage: bench/plain.sh [quick|unproved]
set -euo pipefail
. "$(dirname -- "${BASH_SOURCE[0]}")/common.sh"
mode=${1-}
kinds="commands all_commands bodies modems nodes"
seeds="0 1 2 3"
count=25000 runs=9 rounds=1000
[ "$mode" != quick ] || count=2500 runs=3 rounds=1
[ "$mode" != unproved ] || count=250

export CARGO_TARGET_DIR=$made/target
cargo build --quiet --release --manifest-path "$root/bench/plain/Cargo.toml"
cargo test --quiet --release --manifest-path "$root/bench/plain/Cargo.toml" >"$made/tests"
plain=$made/target/release/plain
workspace_over plain_side node acceptor ballots command_log grant_machine flow_state map_body minislot_time modem \
    byteorder hex anyhow
cp "$root/bench/plain_side/timing.rt.in" "$workspace/src/timing.rt"
side=$workspace/out/plain_side_bench

# answers KIND FILE: what upsched answers to a file of inputs.
answers() {
    if [ "$mode" = unproved ]; then
        (cd "$workspace" && rt try --seconds 1800 -- replay "$1" <"$2")
    else
        "$side" replay "$1" <"$2"
    fi
}

if [ "$mode" != unproved ]; then
    "$plain" made commands 1 1 >"$made/one"
    (cd "$workspace" && rt run --jobs "${BENCH_JOBS:-1}" -- replay commands <"$made/one") >"$made/proof" || {
        cat "$made/proof" >&2
        exit 1
    }
fi
for kind in $kinds; do
    for seed in $seeds; do
        "$plain" made "$kind" "$seed" "$count" >"$made/inputs"
        "$plain" replay "$kind" <"$made/inputs" >"$made/wanted"
        answers "$kind" "$made/inputs" >"$made/answers"
        cmp "$made/wanted" "$made/answers" || {
            echo "$0: answers to $kind of seed $seed differ" >&2
            exit 1
        }
    done
    echo "$kind: the same answers to $((4 * count)), byte for byte"
done
[ "$mode" != unproved ] || exit 0

mkdir "$made/shapes"
"$plain" shapes "$made/shapes" >"$made/shapes/names"
instructions=
[ "$mode" = quick ] || ! command -v valgrind >/dev/null || instructions=instructions
echo "$(lscpu | sed -n 's/^Model name: *//p'), $(nproc) processors, $(date +%F)"
python3 "$root/bench/plain.py" "$plain" "$side" "$made/shapes" "$runs" "$rounds" $instructions
mkdir "$made/held"
cc -O1 -shared -fPIC -o "$made/held.so" "$root/bench/plain/held.c" -ldl
python3 "$root/bench/beside.py" held "$plain" "$side" "$made/held.so" "$made/held"
if [ -x "$program" ]; then
    python3 "$root/bench/beside.py" run "$plain" "$program" "$made"
else
    echo "no proved program (./upsched --build): its runs aren't timed"
fi
