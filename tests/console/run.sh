#!/usr/bin/env bash
# Runs the console, built by `tools/build.sh oat_console`, or the program that the first word names, through the script `oat`, and compares what it
# prints with tests/console/expected.txt: a line `$ COMMAND` for each case, then the lines of standard output, then those of standard error, which
# begin with `error: `. The commands run in a folder that has the examples and the files of tests/console.
set -eu
program=$(realpath "${1:-$(dirname "$0")/../../target/bin/oat_console}")
cd "$(dirname "$0")/../.."
expected=$PWD/tests/console/expected.txt
folder=$(mktemp -d)
trap 'rm -r "$folder"' EXIT
mkdir -p "$folder"/console/target/bin "$folder"/not_built "$folder"/linked "$folder"/files/folder
cp oat "$folder"/console
cp oat "$folder"/not_built
ln -s ../console/oat "$folder"/linked
ln -s "$program" "$folder"/console/target/bin/oat_console
cp examples/*.oat tests/console/*.oat "$folder"/files
cd "$folder"/files
head -c 45069 /dev/zero > too_long.oat
PATH=$folder/console:$PATH

# what the commands name besides: a name that is too long for a path, and a file in two parts, as a pipe may hand it out
long=$(printf 'x%.0s' {1..4097})
two_parts() { head -c 50 "$1"; sleep 0.1; tail -c +51 "$1"; }

sed -n 's/^\$ //p' "$expected" | while read -r command; do
    echo "\$ $command"
    eval "$command" < /dev/null 2> ../errors || true
    sed 's/^/error: /' ../errors
done > ../printed
diff "$expected" ../printed
echo "tests/console: the console prints what is expected"
