#!/usr/bin/env bash
# Proves and builds programs and the static library: target/bin/NAME of a program, target/staticlib/liboat_c.a of oat_c. What is there and newer than every
# file of a crate stays as it is.
#     tools/build.sh NAME ..       oat_check, oat_read, oat_console, check_vectors, .. or oat_c
set -euo pipefail
cd "$(dirname "$0")/.."
[ $# -gt 0 ] || { echo "usage: tools/build.sh NAME .." >&2; exit 2; }
log=$(mktemp)
began=$(mktemp)
trap 'rm "$log" "$began"' EXIT
for name; do
    if [ "$name" = oat_c ]; then
        built=target/staticlib/liboat_c.a made=crates/oat_c/out/liboat_c.a verb=lib
    else
        built=target/bin/$name made=crates/$name/out/$name verb=run
    fi
    if [ -e "$built" ] && [ -z "$(find crates crates.txt -name out -prune -o -newer "$built" -type f -print -quit)" ]; then
        continue
    fi
    # what is built is as old as its beginning, so that a file changed meanwhile is seen
    touch "$began"
    # `rt run` also runs what it has built: on an empty input, and what it prints is of no matter
    (cd "crates/$name" && rt "$verb" < /dev/null) > "$log" 2>&1 || { cat "$log"; exit 1; }
    mkdir -p "$(dirname "$built")"
    cp "$made" "$built"
    touch -r "$began" "$built"
done
