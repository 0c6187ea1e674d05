#!/usr/bin/env bash
# Times the proved program on made scripts with modems: events a second and peak memory of each, and how much longer an
# event takes in the longest script than in the shortest (at most 1.5 is wanted).
#
#   follow: scripts of 1,000, 10,000 and 100,000 events. A modem has a flow of unsolicited grants; it hears each MAP at
#           its start and is asked what it sends in 13 of its minislots.
#   ahead:  the same events, but all MAPs are heard at the first one's start, before any minislot comes.
#   many:   10, 100 and 1,000 modems that hear 40 MAPs of 4096 minislots each.
#
# Usage: bench/modems.sh follow | ahead | many
set -euo pipefail
. "$(dirname -- "${BASH_SOURCE[0]}")/common.sh"
needs_program

# What the scripts share: node 0 leads; a value that it offers is voted for by two nodes and learned by node 0.
shared='
    function event(keys) { print "[[event]]\n" keys; made++ }
    function deliver(letter) { event("kind = \"deliver\"\nletter = " letter) }
    function lead() { event("kind = \"lead\"\nnode = 0"); deliver(0); deliver(1); deliver(3); deliver(4) }
    function offer(command,    first) {
        event("kind = \"offer\"\nnode = 0\ncommand = { " command " }")
        first = 5 + 9 * offered++
        deliver(first); deliver(first + 1); deliver(first + 3); deliver(first + 6)
    }
    function channel() {
        offer("kind = \"channel\", ch = 1, ucd = 7, short_max = 16, ranging = [2, 5], data = [3, 8], base = 1000")
    }
    function cut(len) { offer("kind = \"cut\", ch = 1, len = " len ", not_before = 0, ack = 0") }
    function release() { event("kind = \"release\"\nnode = 0\nnow = 0") }
    function hear(modem, output, near) {
        event("kind = \"hear\"\nmodem = " modem "\noutput = " output "\nnear = " near)
    }
    function tick(slot) { event("kind = \"tick\"\nmodem = 0\nch = 1\nslot = " slot "\nrandom = 0") }
    function ticks(map,    j) { for (j = 0; j < 13; j++) tick(1000 + 40 * map + 3 * j) }'

# follow COUNT, ahead COUNT: some COUNT events over one modem.
one_modem() {
    awk -v count="$1" -v ahead="$2" "$shared"'
        BEGIN {
            print "members = 3\nmodems = [50]"
            lead(); channel()
            offer("kind = \"flow\", ch = 1, modem = 50, tag = 1, service = \"ugs\", size = 4, interval = 10, " \
                "jitter = 4, base = 1000")
            release(); hear(0, 0, 0); hear(0, 1, 0)
            maps = int((count - made) / 20)
            for (i = 0; i < maps; i++) {
                cut(40); release(); hear(0, 2 + i, ahead ? 1000 : 1000 + 40 * i)
                if (!ahead) ticks(i)
            }
            if (ahead) for (i = 0; i < maps; i++) ticks(i)
        }'
}
follow() { one_modem "$1" 0; }
ahead() { one_modem "$1" 1; }

# many COUNT: so many modems.
many() {
    awk -v count="$1" "$shared"'
        BEGIN {
            printf "members = 3\nmodems = [1"
            for (m = 2; m <= count; m++) printf ", %d", m
            print "]"
            lead(); channel()
            for (m = 1; m <= count; m++)
                offer("kind = \"flow\", ch = 1, modem = " m ", tag = 1, service = \"best_effort\", priority = 0")
            for (i = 0; i < 40; i++) cut(4096)
            release()
            for (m = 0; m < count; m++) {
                hear(m, 0, 0); hear(m, 1 + m, 0)
                for (i = 0; i < 40; i++) hear(m, 1 + count + i, 1000 + 4096 * i)
            }
        }'
}

case ${1-} in
    follow | ahead) counts='1000 10000 100000' ;;
    many) counts='10 100 1000' ;;
    *) echo "usage: $0 follow | ahead | many" >&2; exit 2 ;;
esac
for count in $counts; do
    "$1" "$count" >"$made/script.toml"
    measure run "$(grep -c '^\[\[event\]\]' "$made/script.toml")" "$made/script.toml"
done | awk '
    { printf "%6d events: %8d a second, peak %6.1f MiB\n", $1, $2, $3 }
    NR == 1 { first = $4 }
    { last = $4 }
    END { printf "time an event, longest script to shortest: %.2f\n", last / first }'
