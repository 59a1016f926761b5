#!/usr/bin/env bash
# Times reading the largest file and a small one, and the worst subtype question.
set -eu
cd "$(dirname "$0")/../.."
tools/build.sh oat_c
out=$(mktemp -d)
cc -O2 tests/bench/bench.c -L target/staticlib -l:liboat_c.a -o "$out/bench"
pair=$(python3 tests/bench/files.py "$out")
"$out/bench" read "$out/largest"
"$out/bench" read examples/one_global.oat
"$out/bench" sub $pair "$out/worst"
rm -r "$out"
