#!/usr/bin/env bash
# Each word that looks at a plan, a script or a body, on every example that is good: it ends with status 0 and has
# nothing to say on standard error. What is to be JSON is read by jq (of Debian's package), a line an object, and a
# picture by a reader of XML. It prints how many of each there were, and ends with status 1 where one was otherwise.
#
# Usage: bench/sights.sh [PROGRAM]
set -euo pipefail
. "$(dirname -- "${BASH_SOURCE[0]}")/common.sh"
program=$(readlink -f -- "${1:-$program}")
needs_program
command -v jq >/dev/null || {
    echo "$0: no jq: apt-get install jq" >&2
    exit 1
}
cd "$root/examples"
calls=0 objects=0 pictures=0 bad=0

# says WORD..: how the program ended, with its lines in the files out and err.
says() {
    calls=$((calls + 1))
    if ! "$program" "$@" </dev/null >"$made/out" 2>"$made/err" || [ -s "$made/err" ]; then
        echo "$* ends otherwise: $(head -c 200 "$made/err")"
        bad=$((bad + 1))
    fi
}

# says_json WORD..: likewise, and jq reads each line as an object.
says_json() {
    local lines read
    says "$@" --json
    lines=$(wc -l <"$made/out")
    if read=$(jq -c 'select(type == "object")' <"$made/out" | wc -l) && [ "$read" = "$lines" ]; then
        objects=$((objects + read))
    else
        echo "$* --json: jq reads $read objects in $lines lines"
        bad=$((bad + 1))
    fi
}

# draws WORD..: likewise, and what is printed is XML.
draws() {
    says draw "$@"
    pictures=$((pictures + 1))
    if ! python3 -c 'import sys, xml.dom.minidom; xml.dom.minidom.parse(sys.argv[1])' "$made/out"; then
        echo "draw $* prints no XML"
        bad=$((bad + 1))
    fi
}

for plan in plans/*.toml live/*.toml; do
    says maps "$plan"
    says_json maps "$plan"
    says check "$plan"
    says capture "$plan"
    says stats "$plan"
    says_json stats "$plan"
    draws "$plan" --plan
    says draw "$plan" --plan --text
    says script --members 3 --plan "$plan" --modems 50,51
done
for script in scripts/*.toml; do
    says run "$script"
    says run "$script" --trace
    says_json run "$script"
    says_json run "$script" --trace
    says check "$script"
    draws "$script"
    draws "$script" --maps
    says draw "$script" --maps --text
done
for body in bodies/*.hex; do
    digits=$(cat -- "$body")
    says show "$digits"
    says show "$digits" --names
    says_json show "$digits"
done
echo "$calls calls, $objects objects read by jq, $pictures pictures read as XML, $bad otherwise"
[ "$bad" -eq 0 ]
