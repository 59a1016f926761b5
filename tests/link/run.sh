#!/usr/bin/env bash
# Links the programs of examples/c and examples/rust with the static library, runs them on examples, and compares what they print with
# tests/link/expected.txt and, of tallies and pages, tests/link/tallies.txt and tests/link/pages.txt.
#     tests/link/run.sh            compare
#     tests/link/run.sh --expect   write the three files from the peer's answers (after cargo build --release in tests/peer)
set -eu
cd "$(dirname "$0")/../.."
peer=tests/peer/target/release/oat_peer

# each example with a subtype question, and limits: B below A and not the other way round; C not below A; A? not below A; questions and checks that
# compare several pairs; a type that is not there; refused files; the least limits that let a file pass, one part and one level fewer, limits out
# of their range, also before 1; zero bytes, whose types are 0 to 3, also under the least limits and under limits out of their range, and one byte
cases() {
    cat <<'END'
pan_levels 0 0
pan_b_below_a 5 4
pan_a_not_below_b 4 5
pan_c_not_below_a 5 4
null_not_a_pan 5 4
null_tested 4 5
arrays_invariant 7 6
parameters_turn_round 7 6
parameters_not_covariant 7 6
pairs_compared 8 7
pairs_compared 7 8
pairs_up_to_a_break 8 8
one_global 4 0
struct_twice 4 4
cut_short 0 0
void_array 0 0
nested_calls 4 4 5 6
nested_calls 4 4 4 6
nested_calls 4 4 5 5
nested_calls 9 9 0 100
nested_calls 4 4 201 100
nested_calls 4 4 200 0
cut_short 0 0 200 101
new_pan 2 2
new_pan 0 1
new_pan 4 0
new_pan 0 4 1 1
new_pan 0 0 0 100
one_byte 0 0
END
}

# each example whose expressions are tallied, and limits: equal types under two numbers, structs, nullables and function types, no expression at all,
# zero bytes, the least limits that let a file pass, and refusals of each sort
tallied() {
    cat <<'END'
equal_types
pan_levels
null_tested
pairs_compared
same_name_inner
fields_in_any_order
new_pan
new_pan 1 1
nested_calls 5 6
nested_calls 4 6
nested_calls 5 5
nested_calls 0 100
var_twice
pan_c_not_below_a
cut_short
one_byte
END
}

# each example whose page is printed, and limits: a full page, and one with rows behind it, binders of every sort, no row, zero bytes, the least limits
# that let a file pass, and refusals of each sort
paged() {
    cat <<'END'
one_global
pan_levels
same_name_inner
page_and_two_rows
new_pan
new_pan 1 1
nested_calls 5 6
nested_calls 4 6
nested_calls 5 5
nested_calls 0 100
var_twice
pan_c_not_below_a
cut_short
one_byte
END
}

if [ "${1:-}" = --expect ]; then
    low() { for n; do printf "\\x$(printf %02x $((n % 256)))\\x$(printf %02x $((n / 256)))\\0\\0"; done; }
    cases | while read -r name a b limits; do
        file="examples/$name.oat"
        { low "$(stat -c %s "$file")" ${limits:-200 100}; cat "$file"; } | "$peer" limitbatch | sed '1,2d;$d'
        read -r said pairs < <("$peer" sub "$a" "$b" $limits < "$file")
        case $said in [0-9]*) said="refused under $said" ;; esac
        echo "type $a below type $b: $said, pairs $pairs"
    done > tests/link/expected.txt
    tallied | while read -r name limits; do "$peer" tally $limits < "examples/$name.oat"; done > tests/link/tallies.txt
    paged | while read -r name limits; do "$peer" page $limits < "examples/$name.oat"; done > tests/link/pages.txt
    exit
fi

out=$(mktemp -d)
trap 'rm -r "$out"' EXIT
tests/link/library.sh
for name in check tally page; do
    cc -std=c11 -Wall -Wextra -Werror -O2 -I include "examples/c/$name.c" -L target/staticlib -l:liboat_c.a -o "$out/${name}_c"
    rustc --edition 2021 -D warnings -O "examples/rust/$name.rs" -L target/staticlib -l static=oat_c -o "$out/${name}_rust"
done
for program in check_c check_rust; do
    cases | while read -r name a b limits; do "$out/$program" "examples/$name.oat" "$a" "$b" $limits; done > "$out/$program.txt"
    diff tests/link/expected.txt "$out/$program.txt"
    echo "tests/link: $program prints what is expected"
done

# runs both programs of a name on the examples that a function lists, and compares with a file
compare() {
    for program in "$1_c" "$1_rust"; do
        "$2" | while read -r name limits; do "$out/$program" "examples/$name.oat" $limits; done > "$out/$program.txt"
        diff "$3" "$out/$program.txt"
        echo "tests/link: $program prints what is expected"
    done
}
compare tally tallied tests/link/tallies.txt
compare page paged tests/link/pages.txt
