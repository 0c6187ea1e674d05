# What the scripts of this folder share. They source it behind `set -euo pipefail`.

parts=()

# usage: the comment that the script begins with.
usage() {
    sed -n '2,/^[^#]/{/^#/s/^# \{0,1\}//p}' "$0"
}

# wants_usage WORD..: without words, or with --help, the script is its usage: then it ends.
wants_usage() {
    case ${1-} in
    '') usage >&2 && exit 2 ;;
    -h | --help) usage && exit 0 ;;
    esac
}

# refuses LINE: says why these words can't be used, and ends.
refuses() {
    echo "${0##*/}: $1" >&2
    exit 2
}

# is_number WORD FIRST LAST: whether it is a whole number, not below the first one and not above the last one.
is_number() {
    [[ $1 =~ ^[0-9]{1,9}$ ]] && [ "$((10#$1))" -ge "$2" ] && [ "$((10#$1))" -le "$3" ]
}

# wants_cuts CUTS
wants_cuts() {
    is_number "$1" 0 999999999 || refuses "CUTS is '$1', no number up to 999999999"
}

# wants_places PLACES
wants_places() {
    is_number "$1" 1 999000 || refuses "--places is '$1', not 1 to 999000"
}

# look_at PLAN: has `upsched check` look at it. What it warns of goes to standard error, and a fault ends the script.
look_at() {
    local told
    if ! told=$("$here/../upsched" check "$1"); then
        [ -z "$told" ] || echo "$told" >&2
        exit 1
    fi
    [[ $told != *$'\n'* ]] || echo "${told#*$'\n'}" >&2
}

# absolute PATH
absolute() {
    [[ $1 == /* ]] && echo "$1" || echo "$PWD/$1"
}

# part COMMAND..: starts it in a session and a process group of its own.
part() {
    setsid "$@" &
    parts+=($!)
}

# end_parts: ends what `part` started, with all that these started, and nothing else.
end_parts() {
    local it
    for it in "${parts[@]}"; do
        kill -- "-$it" 2>/dev/null || kill "$it" 2>/dev/null || true
    done
}
