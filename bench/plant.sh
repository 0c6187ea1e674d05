#!/usr/bin/env bash
# Lists the wrong bodies that the contracts of crates let through: plant.sh [NAME..], all libraries where none is named.
# `rt plant` works in a scratch copy of the crate and of those that it is built on, over the work that checks kept. Each
# crate has MINUTES (10) and MOST (400) bodies. Printed: what `rt plant` prints, behind the crate's name.
# docs/REFUSED.md says why each survivor is right.
set -euo pipefail
. "$(dirname -- "${BASH_SOURCE[0]}")/common.sh"

names=("$@")
if [ $# -eq 0 ]; then
    mapfile -t names < <(cd "$root/crates" && ls -d */src/lib.rt | cut -d/ -f1 | grep -v '_tests$')
fi
for name in "${names[@]}"; do
    for crate in $(closure "$name"); do
        [ -d "$made/crates/$crate" ] && continue
        mkdir -p "$made/crates/$crate"
        for part in src specs proofs out; do
            [ ! -d "$root/crates/$crate/$part" ] || cp -a "$root/crates/$crate/$part" "$made/crates/$crate"
        done
        grep -E "^$crate( [^:]*)?:" "$root/crates.txt" >>"$made/crates.txt"
    done
    echo "== $name"
    (cd "$made/crates/$name" &&
        "$root/bench/plant.py" --minutes "${MINUTES:-10}" --max "${MOST:-400}" --jobs "${PLANT_JOBS:-1}") || true
done
