#!/usr/bin/env bash
# Runs the proved programs oat_check and oat_read, built by `tools/build.sh oat_check oat_read`, or those of the folder that the first word
# names, where standard input or standard output fails: it is told on standard error, and a file that cannot be read has no answer. Then the script
# `oat_check`: it prints what its program prints, and ends with status 0, 1 or 2.
set -eu
programs=$(realpath "${1:-$(dirname "$0")/../../target/bin}")
cd "$(dirname "$0")/../.."
folder=$(mktemp -d)
trap 'rm -r "$folder"' EXIT
for place in built not_built killed silent; do
    mkdir -p "$folder/$place/target/bin"
    cp oat_check "$folder/$place"
done
mkdir "$folder"/linked
ln -s ../built/oat_check "$folder"/linked
ln -s "$programs"/oat_check "$folder"/built/target/bin
printf '#!/bin/sh\nkill $$\n' > "$folder"/killed/target/bin/oat_check
printf '#!/bin/sh\necho 0 0 0\n' > "$folder"/silent/target/bin/oat_check
chmod +x "$folder"/*/target/bin/oat_check

# says STATUS OUTPUT ERRORS COMMAND: the command ends with this status, with this on standard output and this on standard error
says() {
    local status=0
    (eval "$4") > "$folder"/output 2> "$folder"/errors || status=$?
    if [ "$status" != "$1" ] || ! cmp <(printf "$2") "$folder"/output || ! cmp <(printf "$3") "$folder"/errors; then
        echo "tests/programs: '$4' ends with status $status, output and errors:"
        cat "$folder"/output "$folder"/errors
        exit 1
    fi
}

for name in oat_check oat_read; do
    says 0 '' "$name: standard input: Is a directory\n" '"$programs"/$name < "$folder"'
    says 0 '' "$name: standard input: Bad file descriptor\n" '"$programs"/$name <&-'
    says 0 '' "$name: standard output: No space left on device\n" '"$programs"/$name < examples/pan_levels.oat > /dev/full'
    says 0 '' "$name: standard output: Bad file descriptor\n" '"$programs"/$name < examples/pan_levels.oat >&-'
    # the digit of the status, on descriptor 3
    says 0 '0' '' '"$programs"/$name < examples/pan_levels.oat 3>&1 > /dev/null'
    says 0 '1' '' '"$programs"/$name < examples/void_array.oat 3>&1 > /dev/null'
    says 0 '2' "$name: standard input: Is a directory\n" '"$programs"/$name < "$folder" 3>&1 > /dev/null'
    says 0 '2' "$name: standard output: No space left on device\n" '"$programs"/$name < examples/void_array.oat 3>&1 > /dev/full'
done

for place in built linked; do
    says 0 '0 0 0\n' '' '"$folder"/$place/oat_check < /dev/null'
    says 1 '11 5 3\n' '' '"$folder"/$place/oat_check < examples/pan_c_not_below_a.oat'
    says 2 '' 'oat_check: standard input: Is a directory\n' '"$folder"/$place/oat_check < "$folder"'
    says 2 '' 'oat_check: standard input: Bad file descriptor\n' '"$folder"/$place/oat_check <&-'
    says 2 '' '' '"$folder"/$place/oat_check < "$folder" 2>&-'
    says 2 '' '' '"$folder"/$place/oat_check < "$folder" 2> /dev/full'
    says 2 '' 'oat_check: standard output: No space left on device\n' '"$folder"/$place/oat_check < examples/pan_levels.oat > /dev/full'
    says 2 '' 'oat_check: standard output: Bad file descriptor\n' '"$folder"/$place/oat_check < examples/pan_levels.oat >&-'
done
says 2 '' "oat_check: not built yet: run 'tools/build.sh oat_check' in the repository\n" '"$folder"/not_built/oat_check < /dev/null'
says 143 '' '' '"$folder"/killed/oat_check < /dev/null 2> /dev/null'
says 2 '0 0 0\n' 'oat_check: the program did not tell how it ended\n' '"$folder"/silent/oat_check < /dev/null'

for file in examples/*.oat; do
    "$programs"/oat_check < "$file" > "$folder"/answer
    case $(cat "$folder"/answer) in '0 '*) status=0 ;; *) status=1 ;; esac
    says $status "$(cat "$folder"/answer)\n" '' '"$folder"/linked/oat_check < "$file"'
done
echo "tests/programs: failed reads and writes are told, and the script oat_check ends as it should"
