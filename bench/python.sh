#!/usr/bin/env bash
# What the Python package costs (python/, over c/out/libupsched.so.0, which `make -C c shared` makes), beside the proved
# program and the simulation in C++, where these are there: microseconds of processor time.
#
# Usage: bench/python.sh [COMMANDS [SECONDS]]: so many commands of bench/plans.py mixed (60000), and so many simulated
# seconds (4) at the loads 0.2 and 0.5.
set -euo pipefail
. "$(dirname -- "${BASH_SOURCE[0]}")/common.sh"
commands=${1:-60000}
seconds=${2:-4}
python=${PYTHON:-python3}

"$python" "$root/bench/plans.py" mixed "$commands" >"$made/plan.toml"
"$python" "$root/bench/python.py" "$made/plan.toml"
if [ -x "$program" ]; then
    echo "upsched maps of the same plan: $(measure maps "$commands" "$made/plan.toml")"
fi
for load in 0.2 0.5; do
    echo "load $load, $seconds s"
    "$python" "$root/python/sim.py" "$seconds" "$load" >"$made/python.out"
    if [ -x "$root/c/out/sim" ]; then
        "$root/c/out/sim" "$seconds" "$load" | diff "$made/python.out" -
    fi
done
