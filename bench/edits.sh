#!/usr/bin/env bash
# Tries the wrong bodies of crates/NAME/more-fails/, which the gate doesn't try, and those of must-fail/: of the crates
# named, or of all. Each is put into a copy of its crate, which the prover has to refuse at a goal that is false, over
# the work that earlier checks kept. An edit that was refused isn't tried again until its crate changes, but for
# `--all`. A line an edit tells where the prover stops. The status is 1 where one isn't refused, or only since a proof
# names what it took away.
#
# Usage: bench/edits.sh [--all] [NAME..]
set -euo pipefail
exec "$(dirname -- "${BASH_SOURCE[0]}")/../check" --edits "$@"
