#!/usr/bin/env bash
# Times the proved program on made scripts of 1,000, 10,000 and 100,000 events over three nodes with one leader: events
# a second and peak memory of each, and how much longer an event takes in the longest script than in the shortest (at
# most 1.5 is wanted).
#
# Node 0 leads, and proposes a channel, 32 best-effort flows, and then requests, with a cut of 4096 minislots after each
# 32 of them. Two nodes vote for each command; nodes 0 and 1 learn it. Each node releases once, at the end.
#
# Usage: bench/run.sh
set -euo pipefail
. "$(dirname -- "${BASH_SOURCE[0]}")/common.sh"
needs_program

# script COUNT: a script of so many events.
script() {
    awk -v count="$1" '
        function event(keys) {
            if (made == count - 2) {
                print "[[event]]\nkind = \"release\"\nnode = 0\nnow = 0"
                print "[[event]]\nkind = \"release\"\nnode = 1\nnow = 0"
                exit
            }
            made++
            print "[[event]]\n" keys
        }
        function deliver(letter) { event("kind = \"deliver\"\nletter = " letter) }
        function command(i) {
            if (i == 0)
                return "kind = \"channel\", ch = 1, ucd = 7, short_max = 16, ranging = [2, 5], data = [3, 8], " \
                    "base = 1000"
            if (i <= 32)
                return "kind = \"flow\", ch = 1, modem = " i ", tag = 1, service = \"best_effort\", priority = " i % 8
            if (i % 33 == 0)
                return "kind = \"cut\", ch = 1, len = 4096, not_before = 0, ack = " i
            return "kind = \"request\", ch = 1, sid = " i % 33 ", n = " 1 + i % 40 ", sent = " i
        }
        BEGIN {
            print "members = 3"
            event("kind = \"lead\"\nnode = 0")
            deliver(0); deliver(1); deliver(3); deliver(4)
            for (i = 0; ; i++) {
                event("kind = \"offer\"\nnode = 0\ncommand = { " command(i) " }")
                first = 5 + 9 * i
                deliver(first); deliver(first + 1)
                deliver(first + 3); deliver(first + 6)
                deliver(first + 4); deliver(first + 7)
            }
        }'
}

for count in 1000 10000 100000; do
    script "$count" >"$made/script.toml"
    measure run "$count" "$made/script.toml"
done | awk '
    { printf "%6d events: %8d a second, peak %6.1f MiB\n", $1, $2, $3 }
    NR == 1 { first = $4 }
    { last = $4 }
    END { printf "time an event, longest script to shortest: %.2f\n", last / first }'
