#!/usr/bin/env bash
# Reads what `upsched capture` writes of each plan of the examples by Wireshark (tshark of Debian's package), and
# compares each field with the lines of `upsched show`, the CRC with zlib's, and the HCS with tshark's. It ends with
# status 1 where one differs. It is no test, since the gate has no tshark.
set -euo pipefail
. "$(dirname -- "${BASH_SOURCE[0]}")/common.sh"
needs_program
command -v tshark >/dev/null || {
    echo "$0: no tshark: apt-get install tshark" >&2
    exit 1
}
python3 "$root/bench/wireshark.py" "$program" "$made" "$root/examples"
