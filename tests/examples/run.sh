#!/usr/bin/env bash
# Runs the proved programs oat_check and oat_read, built by `tools/build.sh oat_check oat_read`, over every example, and compares what
# they print with the answer in the text beside it: all of it, and of reading the number, 0 where it is not 1 to 5.
set -eu
cd "$(dirname "$0")/../.."
for file in examples/*.oat; do
    answer=$(sed -n '/^Answer:$/,$s/^    //p' "${file%.oat}.txt")
    diff <(echo "$answer") <(target/bin/oat_check < "$file") || { echo "$file differs"; exit 1; }
    case ${answer%% *} in [1-5]) read=${answer%% *} ;; *) read=0 ;; esac
    diff <(echo "$read") <(target/bin/oat_read < "$file") || { echo "$file differs in reading"; exit 1; }
done
echo "tests/examples: every answer is that of its text"
