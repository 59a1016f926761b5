#!/bin/sh
# Writes the stored vectors, tests/vectors/*.bin and *.txt, anew, and the input and the expected output of the programs that run over them.
set -eu
cd "$(dirname "$0")"
cargo run --offline --release --quiet -- vectors ../vectors
cd ../..
tests/reading/vectors.py tests/vectors
tests/buffers/pack.py
for set in check:check sub:subtype limits:limit tallies:tally pages:page buffers:buffer; do
    crate=crates/${set#*:}_vectors
    cp "tests/vectors/${set%:*}.bin" "$crate/stdin"
    cp "tests/vectors/${set%:*}.txt" "$crate/stdout"
done
tests/reading/pack.sh
