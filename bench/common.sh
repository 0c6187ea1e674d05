# What the benchmarks begin with; they source it. `root` is the repository, and `made` a folder for what
# a benchmark makes, which goes as it ends.
root=$(CDPATH='' cd -- "$(dirname -- "${BASH_SOURCE[0]}")/.." && pwd -P)
made=$(mktemp -d)
trap 'rm -rf "$made"' EXIT
program=$root/crates/upsched/out/upsched

# Ends the benchmark where no proved program is there.
needs_program() {
    [ -x "$program" ] && return
    echo "$0: no proved program: ./upsched --build makes it" >&2
    exit 1
}

# measure COMMAND COUNT FILE: runs the proved program on the file, which has so many commands or events.
measure() {
    python3 "$root/bench/measure.py" "$program" "$@"
}

# closure NAME..: of these crates and libraries, those of the repository, and all that they stand on there.
closure() {
    awk -v tops="$*" -f "$root/quick/closure.awk" "$root/crates.txt"
}

# workspace_over NAME DEP..: makes a workspace of its own for the sources bench/NAME/*.rt.in over these crates and
# libraries; its folder is `workspace`.
workspace_over() {
    local bench=${1}_bench sources=$root/bench/$1 source crate
    shift
    workspace=$made/crates/$bench
    mkdir -p "$workspace/src"
    for source in "$sources"/*.rt.in; do
        cp "$source" "$workspace/src/$(basename -- "$source" .in)"
    done
    for crate in $(closure "$@"); do
        cp -r "$root/crates/$crate" "$made/crates"
        grep -E "^$crate:" "$root/crates.txt" >>"$made/crates.txt"
    done
    echo "$bench: $*" >>"$made/crates.txt"
}

# run_over NAME DEP..: proves and runs that. The program's words are those of the array `arguments`, if there is one.
run_over() {
    workspace_over "$@"
    (cd "$workspace" && rt run --jobs "${BENCH_JOBS:-1}" ${arguments[@]+-- "${arguments[@]}"})
}

# try_over NAME DEP..: as run_over, with a build that isn't proved and stops at what a proof rules out. Each word is a
# file, of which the program gets a copy under its last name.
try_over() {
    local word given=()
    workspace_over "$@"
    for word in "${arguments[@]}"; do given+=(--data "$(basename -- "$word")=$word"); done
    (cd "$workspace" && rt try --seconds 1800 "${given[@]}" -- "${arguments[@]##*/}")
}
