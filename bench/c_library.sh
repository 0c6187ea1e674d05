#!/usr/bin/env bash
# The libraries for C and C++ (crates/upsched_c, crates/upsched_c_node, include/, c/), tried from C; no part of the
# gate. It builds the clients with gcc and g++, warnings as errors, and runs them: as they are, under the sanitizers,
# and where valgrind is there under its memcheck and helgrind; lets each request for memory fail in turn; and compares
# what it says of spoilt bodies, commands and letters with what the proved program prints, where one is there. The
# status is 1 where something differs.
#
# Usage: bench/c_library.sh [SECONDS [SEED]]: the fuzz target runs so long (5), and 40 times as many inputs are spoilt.
set -euo pipefail
top=$(cd -- "$(dirname -- "${BASH_SOURCE[0]}")/.." && pwd)
seconds=${1:-5}
seed=${2:-1}
program=${PROGRAM:-$top/crates/upsched/out/upsched}
cd "$top/c"
make -s CC=gcc CXX=g++ check
work=$(mktemp -d)
trap 'rm -rf "$work"' EXIT
lib=out/libupsched.a
node=out/libupsched_node.a
warn=(-Wall -Wextra -pedantic -Werror -I../include)

echo "== sanitizers"
clean=(-g -O1 -fsanitize=address,undefined -fno-sanitize-recover=all)
for client in rows agrees codec_fuzz mutate; do
  gcc -std=c99 "${clean[@]}" "${warn[@]}" "$client.c" "$lib" -o "$work/$client"
done
gcc -std=gnu99 "${clean[@]}" "${warn[@]}" threads.c "$lib" -pthread -o "$work/threads"
for client in node node_agrees mutate_node; do
  gcc -std=c99 "${clean[@]}" "${warn[@]}" "$client.c" "$node" -o "$work/$client"
done
gcc -std=gnu99 "${clean[@]}" "${warn[@]}" node_threads.c "$node" -pthread -o "$work/node_threads"
g++ -std=c++17 "${clean[@]}" "${warn[@]}" failover.cpp "$node" -o "$work/failover"
g++ -std=c++17 "${clean[@]}" "${warn[@]}" both.cpp "$lib" "$node" -o "$work/both"
g++ -std=c++17 "${clean[@]}" "${warn[@]}" sim.cpp "$lib" -o "$work/sim"
g++ -std=c++17 "${clean[@]}" "${warn[@]}" commands.cpp "$lib" -o "$work/commands"
g++ -std=c++17 "${clean[@]}" "${warn[@]}" saved.cpp "$lib" -o "$work/saved"
"$work/agrees"
"$work/node_agrees"
"$work/rows" | diff - rows.stdout
"$work/commands" | diff - commands.stdout
"$work/saved" | diff - saved.stdout
"$work/node" | diff - node.stdout
"$work/failover" | diff - failover.stdout
"$work/both"
"$work/threads"
"$work/node_threads"
"$work/codec_fuzz" "$seconds" "$seed"
"$work/sim" 0.05 0.5 events 2>/dev/null > "$work/sim.out"

echo "== the simulation by events and by ticks"
for load in 0.2 0.5 0.9 1.5; do
  echo "load $load"
  out/sim 4 "$load" events > "$work/events"
  out/sim 4 "$load" ticks | diff "$work/events" -
done

echo "== each request for memory fails"
gcc -std=c99 -g -O1 "${warn[@]}" -Wl,--wrap=malloc,--wrap=realloc no_memory.c "$lib" -o "$work/no_memory"
"$work/no_memory"
gcc -std=c99 -g -O1 "${warn[@]}" -Wl,--wrap=malloc,--wrap=realloc node_no_memory.c "$node" -o "$work/node_no_memory"
"$work/node_no_memory"

echo "== valgrind"
if ! command -v valgrind > "$work/which"; then
  echo "no valgrind (Debian's package has it): nothing sees into the archive" >&2
else
  memcheck=(valgrind -q --leak-check=full --error-exitcode=9)
  "${memcheck[@]}" out/agrees
  "${memcheck[@]}" out/rows | diff - rows.stdout
  "${memcheck[@]}" out/node_agrees
  "${memcheck[@]}" out/node | diff - node.stdout
  "${memcheck[@]}" out/failover | diff - failover.stdout
  "${memcheck[@]}" out/both
  "${memcheck[@]}" out/mutate_node "$seed" 2000 > "$work/mutated" 2> "$work/letters"
  "${memcheck[@]}" out/codec_fuzz 1 "$seed"
  "${memcheck[@]}" "$work/no_memory"
  "${memcheck[@]}" "$work/node_no_memory"
  "${memcheck[@]}" out/sim 0.02 0.5 events 2>/dev/null > "$work/sim.out"
  valgrind -q --tool=helgrind --error-exitcode=9 out/threads
  valgrind -q --tool=helgrind --error-exitcode=9 out/node_threads
fi

if [ ! -x "$program" ]; then
  echo "no proved program at $program: what it prints of spoilt inputs isn't compared" >&2
  exit
fi

# What `upsched show` says of bodies, one after another.
echo "== spoilt bodies"
count=$((seconds * 40))
"$work/mutate" bodies "$seed" "$count" > "$work/bodies"
grep -E '^[0-9a-f]*$' "$work/bodies" | while IFS= read -r digits; do
  echo "$digits"
  "$program" show "$digits" 2>&1 || true
done > "$work/shown"
diff "$work/bodies" "$work/shown"
echo "$count bodies: the same lines as the program's, $(grep -c '^upsched: body' "$work/shown") of them faults"

# A script of one leader that proposes each value, and releases all outputs.
echo "== spoilt commands"
count=$((seconds * 40))
"$work/mutate" values "$seed" "$count" > "$work/outputs" 2> "$work/values"
{
  printf 'members = 3\nevent = [{ kind = "lead", node = 0 },'
  for letter in 0 1 3 4; do printf '{ kind = "deliver", letter = %d },' "$letter"; done
  base=5
  while IFS= read -r digits; do
    printf '\n{ kind = "offer", node = 0, value = "%s" },' "$digits"
    for step in 0 1 3 6; do printf '{ kind = "deliver", letter = %d },' $((base + step)); done
    base=$((base + 9))
  done < "$work/values"
  printf '\n{ kind = "release", node = 0, now = 0 }]\n'
} > "$work/script.toml"
"$program" run "$work/script.toml" | grep '^place ' | sed 's/ *$//' > "$work/released"
diff "$work/outputs" "$work/released"
echo "$count commands: the same outputs as the program's, $(grep -c ' refused ' "$work/released") of them refusals"

# A node of the program that reads each letter as a line.
echo "== spoilt letters"
count=$((seconds * 2000))
"$work/mutate_node" "$seed" "$count" > "$work/answers" 2> "$work/letters"
"$program" node 0 --members 3 < "$work/letters" > "$work/replies" || true
sed -e '/^node 0 of 3 /d' -e 's/^\(error 5 NoLetter\) .*/\1/' "$work/replies" > "$work/replied"
diff "$work/answers" "$work/replied"
echo "$count letters: the same replies as the program's, $(grep -c '^error 5' "$work/replied") of them faults"
