#!/usr/bin/env bash
# Writes the input and the expected output of crates/read_vectors: the vectors of the rules, then the peer's.
set -eu
cd "$(dirname "$0")/../.."
cat tests/vectors/rules.bin tests/vectors/read.bin > crates/read_vectors/stdin
cat tests/vectors/rules.txt tests/vectors/read.txt > crates/read_vectors/stdout
