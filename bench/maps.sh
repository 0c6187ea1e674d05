#!/usr/bin/env bash
# Times the proved program on made plans: commands a second and peak memory of each, and how much
# longer a command takes in the longest plan than in the shortest (at most 1.5 is wanted).
#
# Kinds of plans, all with 8 channels and a cut of 4096 minislots after each 118 requests:
#   requests   240 best-effort flows
#   service    240 flows, every fourth of unsolicited grants and every fourth polled
#   far        as service, each due from 0 on at every minislot, and each cut a billion
#              minislots after the one before
#
# Usage: bench/maps.sh [KIND..]
set -euo pipefail
. "$(dirname -- "${BASH_SOURCE[0]}")/common.sh"
needs_program

# plan KIND COUNT: a plan of so many commands.
plan() {
    awk -v kind="$1" -v count="$2" '
        function command(keys) {
            if (made == count) exit
            made++
            print "[[command]]\n" keys
        }
        function flow(ch, k,    keys) {
            keys = "kind = \"flow\"\nch = " ch "\nmodem = " ch * 1000 + k "\ntag = 1\n"
            if (kind != "requests" && k % 4 == 1)
                return keys "service = \"ugs\"\nsize = 4\ninterval = " interval "\njitter = 0\nbase = " base
            if (kind != "requests" && k % 4 == 2)
                return keys "service = \"poll\"\ninterval = " interval "\njitter = 0\nbase = " base
            return keys "service = \"best_effort\"\npriority = " k % 8
        }
        # The next flow that may ask, in turn over all channels.
        function next_flow() {
            do {
                turn = (turn + 1) % 240
                sid = int(turn / 8) + 1
            } while (kind != "requests" && (sid - 1) % 4 == 1)
        }
        BEGIN {
            far = kind == "far"
            interval = far ? 1 : 2048
            base = far ? 0 : 1000
            for (ch = 0; ch < 8; ch++)
                command("kind = \"channel\"\nch = " ch "\nucd = 1\nshort_max = 16\n" \
                    "ranging = [2, 5]\ndata = [3, 8]\nbase = 1000")
            for (k = 0; k < 30; k++)
                for (ch = 0; ch < 8; ch++)
                    command(flow(ch, k))
            for (round = 0; ; round++) {
                for (k = 0; k < 118; k++) {
                    next_flow()
                    command("kind = \"request\"\nch = " turn % 8 "\nsid = " sid "\nn = " 1 + (k * 7) % 40 \
                        "\nsent = " ++sent)
                }
                not_before = sprintf("%.0f", far ? round * 1000000000 : 0)
                command("kind = \"cut\"\nch = " round % 8 "\nlen = 4096\nnot_before = " not_before "\nack = " sent)
            }
        }'
}

[ $# -gt 0 ] || set -- requests service far
for kind in "$@"; do
    echo "$kind"
    for count in 1000 10000 100000; do
        plan "$kind" "$count" >"$made/plan.toml"
        measure maps "$count" "$made/plan.toml"
    done | awk '
        { printf "  %6d commands: %8d a second, peak %6.1f MiB\n", $1, $2, $3 }
        NR == 1 { first = $4 }
        { last = $4 }
        END { printf "  time a command, longest plan to shortest: %.2f\n", last / first }'
done
