#!/usr/bin/env bash
# Builds the static library, target/staticlib/liboat_c.a, where it is missing or older than a file of a crate.
set -eu
"$(dirname "$0")"/../../tools/build.sh oat_c
