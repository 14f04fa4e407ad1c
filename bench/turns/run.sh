#!/bin/sh
# Prints turns per second at one counter, of the turn lock and of std's Mutex, for 1, 2, 4 and 16 threads.
# It builds the program over copies of this repository's crates, in a temporary repository of its own. The
# copies take along what earlier checks kept, so that little is proved again. (The sources end in .txt, since
# a repository has no .rt or .antt file outside its listed crates.)
set -eu
here=$(cd "$(dirname "$0")" && pwd)
root=$(mktemp -d)
trap 'rm -rf "$root"' EXIT
bench=$root/crates/turn_bench
mkdir -p "$bench/src" "$bench/proofs/counted_in_turns" "$bench/proofs/take_turns"
for name in cm_names cm_turn; do
    cp -r "$here/../../crates/$name" "$root/crates/$name"
done
cp "$here/main.rt.txt" "$bench/src/main.rt"
cp "$here/counted_in_turns.Answers.antt.txt" "$bench/proofs/counted_in_turns/Answers.antt"
cp "$here/take_turns.Invariants.antt.txt" "$bench/proofs/take_turns/Invariants.antt"
cp "$here/../../HANDLES" "$root/HANDLES"
cat > "$root/crates.txt" <<LIST
cm_names: thiserror
cm_turn may_wait=2 tests_may=Threads+Wait: atomic_table cm_names
turn_bench: cm_names cm_turn
LIST
git -C "$root" init -q
cd "$bench"
rt run
