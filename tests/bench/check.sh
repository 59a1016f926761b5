#!/usr/bin/env bash
# Times the proved check and the peer's side by side: on the stored corpus by size, reading alone, the tallies and the page too, on the files that are slowest
# against the peer, and on files that grow; and measures the stack. First it tells how many tables the compiler made of the matches of `node_tree`: 6, or reading is slower.
set -eu
cd "$(dirname "$0")/../.."
(cd tests/peer && cargo build --release --offline 2> /dev/null)
tools/build.sh oat_c
out=$(mktemp -d)
trap 'rm -r "$out"' EXIT
rustc --edition 2021 -O tests/bench/check.rs --extern oat_peer=tests/peer/target/release/liboat_peer.rlib -L target/staticlib -l static=oat_c -o "$out/check"
echo "tables of node_tree: $(objdump -h target/staticlib/liboat_c.a | grep -c Lswitch.table.node_tree || true)"
echo "corpus"
"$out/check" tests/vectors/check.bin
echo "reading alone"
"$out/check" -read tests/vectors/check.bin
echo "tallies"
"$out/check" -tally tests/vectors/check.bin
echo "page"
"$out/check" -page tests/vectors/check.bin
echo "slowest of the corpus against the peer"
"$out/check" -each tests/vectors/check.bin > "$out/each"
head -n 12 "$out/each"
echo "growth"
python3 tests/bench/growth.py "$out"
for file in names_64 names_512 names_4096 scopes_64 scopes_512 scopes_4096 structs_64 structs_512 structs_4096 full_4096 deep_100 unlike_100; do
    (cd "$out" && ./check -each "$file")
done
echo "literals"
for file in declared_4 turned_4 falling_4 declared_40 turned_40 falling_40 declared_1024 turned_1024 falling_1024; do
    (cd "$out" && ./check -each "$file")
done
echo "stack"
cc -O2 -I include tests/bench/stack.c -L target/staticlib -l:liboat_c.a -lpthread -o "$out/stack"
"$out/stack" tests/vectors/check.bin
"$out/stack" "$out/unlike_100"
