#!/usr/bin/env bash
# Runs ./upsched as it may be called: with paths that hold spaces, quotes, a leading dash or an equals sign, above the
# caller's folder or by a link, with texts on standard input or in a pipe, with standard descriptors that are closed,
# full or a pipe that nobody reads, and over a folder that can't be written. Tells each call that ends otherwise than
# wanted, and how many do as wanted.
#
# The launcher's other two parts are tried with a stand-in for the kit (launcher_kit.sh), which builds nothing: with
# `unproved` the one that calls `rt try`, as where nothing can be kept; with `kept` the one that keeps what was built,
# also through all that may go wrong with what is kept (launcher_kept.sh; CHECK is a function of it, and then nothing
# else is tried). With `edits` it puts each edit of bench/launcher/ into the launcher, and tells which of them `kept`
# doesn't refuse.
#
# PROGRAM, or the word `-`, is the program that the launcher comes to call: else the proved one, or where that isn't
# there the one that is built without proof and kept, whole.
#
# Usage: bench/launcher.sh [proved|unproved|kept|edits [PROGRAM [CHECK..]]]
set -uo pipefail
. "$(dirname -- "${BASH_SOURCE[0]}")/common.sh"
. "$root/bench/launcher_kit.sh"
. "$root/bench/launcher_kept.sh"
trap 'kill $(jobs -p) 2>/dev/null; rm -rf "$made"' EXIT
mode=${1-proved}
if [ $# -gt 1 ] && [ "$2" != - ]; then
    program=$(readlink -f -- "$2")
elif [ ! -x "$program" ]; then
    program=$("$root/quick/keep.sh" whole) || exit 1
fi
needs_program
if [ "$mode" = edits ]; then
    tries_edits "${@:3}"
    exit
fi

repository=$made/'the repository'
mkdir -- "$repository" "$made/above" "$made/above/here"
copies_launcher "$repository"
: >"$made/builds"
export XDG_CACHE_HOME=$made/'a cache'
makes_kit "$made/kit"
case $mode in
    proved) mkdir -- "$repository/crates/upsched/out" && cp -- "$program" "$repository/crates/upsched/out/upsched" ;;
    unproved) rm -- "$made/kit/KIT-ID" ;;
esac
PATH=$made/kit/bin:$PATH
upsched=$repository/upsched

cd "$made/above/here" || exit 1
plan=$root/examples/plans/first_grant.toml
script=$root/examples/scripts/one_leader.toml
body=$root/examples/bodies/first_grant.hex
cp -- "$plan" 'with space.toml'
cp -- "$plan" "quo'te\".toml"
cp -- "$plan" ./-dash.toml
cp -- "$plan" 'is=equal.toml'
cp -- "$plan" 'a*b?[c].toml'
cp -- "$plan" ../above.toml
cp -- "$script" script.toml
printf 'kind = "\377"\n' >no_text.toml
printf '%s\n' 'command = 3' >no_array.toml
ln -s -- "$repository/upsched" ../link
mkdir -- 'st ore' closed_to_all
chmod 755 -- "$made"
chmod 555 -- closed_to_all

right=0 wrong=0
# What the launcher says beside the program's own lines.
beside='^upsched: (no proved program here|not kept: (no file KIT-ID|.* is another user.s)|building without proof, once$|built without proof, kept)'

# wants NAME STATUS OUTPUT ERRORS: how the last call ended, with the first line of each. Of a build without proof lines
# more tell, and none of the tool's.
wants() {
    local first_output='' first_errors
    read -r first_output <"$made/output" || :
    first_errors=$(grep -vE "$beside" "$made/errors" | head -n 1)
    if [ "$ended" = "$2" ] && [[ $first_output == $3 ]] && [[ $first_errors == $4 ]] &&
        ! grep -qE '^(checked|run|races)' "$made/errors"; then
        right=$((right + 1))
    else
        is_wrong "$1: status $ended, '$first_output', '$first_errors'"
    fi
}

# tells_how_many: and ends.
tells_how_many() {
    echo "$right as wanted, $wrong not"
    [ "$wrong" -eq 0 ]
    exit
}

# calls NAME STATUS OUTPUT ERRORS WORD..
calls() {
    local name=$1 status=$2 output=$3 errors=$4
    shift 4
    "${launcher:-$upsched}" "$@" >"$made/output" 2>"$made/errors"
    ended=$?
    wants "$name" "$status" "$output" "$errors"
}

# builds_nothing COMMAND..: runs it, and tells where that built something.
builds_nothing() {
    : >"$made/builds"
    "$@"
    [ ! -s "$made/builds" ] || { echo "$2: built something first"; wrong=$((wrong + 1)); }
}

# builds NAME COMMAND..: runs it, and tells where the build without proof that it took isn't that.
builds() {
    local build=quick_$1
    [ "$mode$1" != unprovedwhole ] || build=upsched
    shift
    : >"$made/builds"
    "$@"
    [ ! -s "$made/builds" ] || [ "$(cat "$made/builds")" = "$build" ] || {
        echo "$2: built $(cat "$made/builds")"
        wrong=$((wrong + 1))
    }
}

if [ "$mode" = kept ]; then
    tries_kept "${@:3}"
    [ $# -lt 3 ] || tells_how_many
fi
grant='1 channel 1 ucd 7'
misread='error: *'
[ "$mode" = proved ] || misread="upsched: these words aren't understood"
calls 'a space' 0 "$grant" '' maps 'with space.toml'
calls 'quotes' 0 "$grant" '' maps "quo'te\".toml"
calls 'a leading dash' 0 "$grant" '' maps ./-dash.toml
calls 'a leading dash behind --' 0 "$grant" '' maps -- -dash.toml
calls 'a leading dash and no --' 2 '' "$misread" maps -dash.toml
calls 'an equals sign' 0 "$grant" '' maps 'is=equal.toml'
calls 'a pattern' 0 "$grant" '' maps 'a*b?[c].toml'
calls 'above' 0 "$grant" '' maps ../above.toml
calls 'down and above' 0 "$grant" '' maps 'st ore/../../above.toml'
builds_nothing calls 'no file' 1 '' 'upsched: cannot read nowhere.toml' maps nowhere.toml
builds_nothing calls 'no file for run' 1 '' 'upsched: cannot read nowhere.toml' run nowhere.toml --store 'st ore'
builds_nothing calls 'no file for live' 1 '' 'upsched: cannot read nowhere.toml' live --turns 5 nowhere.toml
builds_nothing calls 'a folder' 1 '' 'upsched: cannot read .' maps .
builds_nothing calls 'a folder for live' 1 '' 'upsched: cannot read st ore' live 'st ore'
builds_nothing calls 'no text' 1 '' 'upsched: cannot read no_text.toml' run no_text.toml
builds_nothing calls 'an empty word' 1 '' 'upsched: cannot read ' maps ''
builds_nothing calls 'no word' 2 '' "$misread"
builds_nothing calls 'no command' 2 '' "$misread" frobnicate
builds_nothing calls 'help' 0 'A DOCSIS upstream scheduler*' '' --help
builds_nothing calls 'help on a command' 0 'Applies a plan*' '' maps --help
builds_nothing calls 'help on a command, by its name' 0 'Applies a plan*' '' help maps
builds_nothing calls 'the version' 0 'upsched 0.1.0' '' --version
builds_nothing calls 'two files, one of them missing' 2 '' "$misread" maps nowhere.toml script.toml
builds_nothing calls 'too many turns' 2 '' "$misread" live --turns 1000001 nowhere.toml
builds_nothing calls 'live without a plan' 2 '' "$misread" live
builds_nothing calls 'no such option' 2 '' "$misread" maps --store x nowhere.toml
builds_nothing calls 'a store that is none' 2 '' "$misread" run nowhere.toml --store
builds_nothing calls 'a word that is no text' 2 '' "$misread" maps $'\377.toml'
builds maps calls 'no array' 1 '' 'upsched: plan 2 BadCommand 1' maps no_array.toml
builds run calls 'a script' 0 '0 sent 3' '' run --verbose script.toml
builds whole calls 'threads' 0 'audit yes' '' live ../above.toml --turns=200
builds whole calls 'a store with a space' 0 '0 sent 3' '' run script.toml --store 'st ore'
builds whole calls 'the store again' 1 '' 'upsched: store not fresh' run script.toml --store='st ore'
builds whole calls 'no such store' 1 '' 'upsched: store' run script.toml --store nowhere
if [ "$mode" = unproved ]; then
    builds_nothing calls 'a node' 6 '' "upsched: node: a build that isn't kept *" node 0 --members 3
    builds_nothing calls 'JSON' 6 '' "upsched: maps: a build that isn't kept *" maps --json ../above.toml
else
    calls 'a node' 0 'node 0 of 3 fresh' '' node 0 --members 3 </dev/null
    calls 'no member' 2 '' 'error: *' node 3 --members 3 </dev/null
    calls 'a host' 0 'host 0 of 3 places 5' '' host 0 --members 3 --places 5 </dev/null
    calls 'no places' 2 '' 'error: *' host 0 --members 3 --places 0 </dev/null
fi
launcher=../link calls 'by a link' 0 "$grant" '' maps 'with space.toml'

# halves FILE: its text, with five seconds between its halves.
halves() {
    local size
    size=$(stat -c %s -- "$1")
    head -c $((size / 2)) -- "$1"
    sleep 5
    tail -c +$((size / 2 + 1)) -- "$1"
}

mkdir -- 'an other store'
calls 'standard input' 0 "$grant" '' maps - <"$plan"
calls 'standard input behind --' 0 "$grant" '' maps -- - <"$plan"
calls 'standard input by its path' 0 "$grant" '' maps /dev/stdin <"$plan"
calls 'standard input of run, with a store' 0 '0 sent 3' '' run - --store 'an other store' <"$script"
[ -f 'an other store/node-1.db' ] || { echo 'standard input of run, with a store: no records'; wrong=$((wrong + 1)); }
calls 'standard input of live' 0 'audit yes' '' live --turns 200 - <"$plan"
calls 'standard input of show' 0 'channel 1 ucd 7 start 1000 *' '' show - <"$body"
calls 'a text with a fault on standard input' 1 '' 'upsched: plan 2 BadCommand 1' maps - <no_array.toml
calls 'no text on standard input' 1 '' 'upsched: cannot read -' maps - <no_text.toml
calls 'a folder on standard input' 1 '' 'upsched: cannot read -' maps - <.
calls 'no digits on standard input' 1 '' 'upsched: hex' show - <no_text.toml
calls 'too many digits on standard input' 1 '' 'upsched: more than 131071 bytes *' show - < <(head -c 200000 /dev/zero)
calls 'a pipe in two halves' 0 "$grant" '' maps - < <(halves "$plan")
calls 'two halves, by the path' 0 "$grant" '' maps /dev/stdin < <(halves "$plan")
calls 'a pipe of its own' 0 "$grant" '' maps <(halves "$plan")
"$upsched" maps 'with space.toml' >"$made/output" 2>"$made/errors" <&-
ended=$?
wants 'standard input closed' 0 "$grant" ''
: >"$made/output"
"$upsched" maps 'with space.toml' 2>"$made/errors" >&-
ended=$?
wants 'standard output closed' 1 '' 'upsched: output'
mkdir closed
"$upsched" run script.toml --store closed 2>"$made/errors" >&-
ended=$?
wants 'standard output closed, with a store' 1 '' 'upsched: output'
calls 'its store' 1 '' 'upsched: store not fresh' run script.toml --store closed
: >"$made/errors"
"$upsched" maps nowhere.toml >"$made/output" 2>&-
ended=$?
wants 'standard error closed' 1 '' ''
"$upsched" maps 'with space.toml' 2>"$made/errors" >/dev/full
ended=$?
: >"$made/output"
wants 'standard output full' 1 '' 'upsched: output'
python3 "$root/bench/plans.py" mixed 20000 >long.toml
if [ "$mode" = unproved ]; then
    calls 'a long text' 6 '' 'upsched: no answer: *' maps long.toml
    python3 "$root/bench/plans.py" mixed 4000 >long.toml
fi
"$upsched" maps long.toml 2>"$made/errors" | head -n 1 >"$made/output"
ended=${PIPESTATUS[0]}
wants 'a pipe that nobody reads on' 1 '1 *' 'upsched: output'
if [ "$(id -u)" = 0 ]; then
    chmod -R go+rX -- "$made"
    setpriv --reuid=65534 --regid=65534 --clear-groups "$upsched" run script.toml --store closed_to_all \
        >"$made/output" 2>"$made/errors"
    ended=$?
else
    "$upsched" run script.toml --store closed_to_all >"$made/output" 2>"$made/errors"
    ended=$?
fi
wants 'a store without write permission' 1 '' 'upsched: store'
[ -z "$(ls -A closed_to_all)" ] || { echo 'a store without write permission has files'; wrong=$((wrong + 1)); }
tells_how_many
