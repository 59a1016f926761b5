#!/usr/bin/env bash
# Answers every stored vector with the static library, and compares (driver.rs).
set -eu
cd "$(dirname "$0")/../.."
tests/link/library.sh
mkdir -p target/tests
rustc --edition 2021 -D warnings -O tests/vectors/driver.rs -L target/staticlib -l static=oat_c -o target/tests/driver
target/tests/driver compare tests/vectors
echo "tests/vectors: every answer is the stored one"
