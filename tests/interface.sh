#!/usr/bin/env bash
# The C interface and the Rust bindings with a library: tests/interface.sh [LIBRARY]
# The C example, compiled as C and as C++, and the Rust example must print the rehearsed answers of document 01 and the
# known answer of every stored case, and `valid` for each proof. Each buffer may be a null pointer with length 0.
set -euo pipefail
cd "$(dirname "$0")/.."
library=$(realpath "${1:-${RULES_LIBRARY:-target/staticlib/librules.a}}")
work=$(mktemp -d)
trap 'rm -rf "$work"' EXIT

warnings=(-Wall -Wextra -Wpedantic -Werror)
example=examples/c/rules_example.c
"${CC:-cc}" -std=c99 "${warnings[@]}" -O2 -I include -o "$work/c" $example "$library"
"${CXX:-c++}" -std=c++11 "${warnings[@]}" -O2 -I include -o "$work/cxx" -x c++ $example -x none "$library"
RULES_LIBRARY=$library cargo build --release --offline --quiet --manifest-path bindings/rust/Cargo.toml --example answer
cp bindings/rust/target/release/examples/answer "$work/rust"

# Null pointers with length 0, in each place, as C and as C++.
"${CC:-cc}" -std=c99 "${warnings[@]}" -O2 -I include -o "$work/null" tests/null_buffers.c "$library"
"$work/null"
"${CXX:-c++}" -std=c++11 "${warnings[@]}" -O2 -I include -o "$work/nullxx" -x c++ tests/null_buffers.c -x none "$library"
"$work/nullxx"

compared=0
# expect FILE SHEET [BUDGET [ANSWER_BYTES [PROOFS]]]: what all three print for a sheet.
expect() {
    local expected=$1 program
    shift
    for program in c cxx rust; do
        if ! "$work/$program" "$@" >"$work/printed" || ! cmp -s "$expected" "$work/printed"; then
            echo "interface: $program $* differs" >&2
            diff -a "$expected" "$work/printed" >&2 || true
            exit 1
        fi
        compared=$((compared + 1))
    done
}
# expect_text TEXT SHEET [BUDGET [ANSWER_BYTES [PROOFS]]]
expect_text() {
    printf '%b' "$1" >"$work/expected"
    shift
    expect "$work/expected" "$@"
}
# A clause of so many members, p each time.
members() {
    printf 'P\tp\t0\nA\t0\n'
    for ((node = 0; node < $1 - 1; node++)); do printf '&\t%d\t0\n' "$node"; done
    printf 'C\t%d\nQ\t0\n' $(($1 - 1))
}

# Document 01, "Rehearsed sheets": budgets, the answer buffer, limits; examples of README.md and docs/SHEETS.md. The others are stored cases.
strobe=examples/strobe.sheet
proved='R\tproved\t3\nD\tclause\t1\nvalid\n'
expect_text "$proved" $strobe 3
expect_text 'R\tspent\t2\n' $strobe 2
expect_text "$proved" $strobe 3 22
expect_text 'X\t12\t0\n' $strobe 3 21
expect_text "$proved" $strobe 50000
expect_text 'X\t3\t0\n' $strobe 50001
expect_text 'X\t3\t0\n' $strobe 0
: >"$work/empty"
expect_text 'X\t11\t1\n' "$work/empty"
expect_text 'R\tproved\t11\nB\t0\tSTROBE\nB\t1\tOld_Vic\nD\tclause\t1\tOld_Vic\nD\tclause\t2\nvalid\n' examples/capitals.sheet
expect_text 'R\tproved\t31\nB\t0\t514\nD\tclause\t1\t514\t7\nD\tand\nD\tclause\t3\nD\tclause\t4\nvalid\n' examples/channels.sheet
# Request W-207: the house's rules come before suppositions, and with `O latest` after them.
for example in house doors; do
    (printf 'O\tlatest\n' && cat "examples/$example.sheet") >"$work/$example"
done
expect_text 'R\tproved\t13\nD\tclause\t1\nD\tall\t!0@1\nD\tassume\nD\tclause\t2\nD\tclause\t3\nvalid\n' examples/house.sheet
expect_text 'R\tproved\t15\nD\tclause\t1\nD\tall\t!0@1\nD\tassume\nD\tclause\t3\nD\tclause\t4\nvalid\n' "$work/house"
# doors UNITS PLACE PLACE PLACE SHEET: the places are those of the rules used under the supposition.
doors() {
    local first="R\tproved\t$1\nB\t0\tcue_12\nD\tclause\t1\tcue_12\nD\tand\nD\tclause\t6\nD\tall\t!0@1\nD\tassume\nD\tsome\twarning\n"
    local second="D\tand\nD\tclause\t$2\t!0@1\nD\tclause\t$3\twarning\nD\tright\nD\tsome\t_0@1\nD\tclause\t$4\t_0@1\nvalid\n"
    expect_text "$first$second" "$5"
}
doors 56 4 2 5 examples/doors.sheet
doors 59 5 3 6 "$work/doors"
# Request W-204: a unit for each of the five nodes of g(1,g(2,3)).
expect_text 'R\tspent\t9\n' tests/cases/w204_range_check_through_n.sheet 9
members 64 >"$work/members64"
expect_text 'R\tproved\t2\nD\tclause\t1\nvalid\n' "$work/members64"
members 65 >"$work/members65"
expect_text 'X\t9\t67\n' "$work/members65"

for sheet in tests/cases/*.sheet; do
    for budget in 256 50000; do
        cp "${sheet%.sheet}.$budget" "$work/expected"
        if [[ $(head -c 8 "$work/expected") == $'R\tproved' ]]; then
            echo valid >>"$work/expected"
        fi
        expect "$work/expected" "$sheet" "$budget"
    done
done
# Request W-206: the units told suffice, and one fewer are spent, also where the last act looks through a binding.
for sheet in tests/cases/w206_*.sheet; do
    cp "${sheet%.sheet}.50000" "$work/expected"
    units=$(head -n 1 "$work/expected" | cut -f 3)
    if [[ $(head -c 8 "$work/expected") == $'R\tproved' ]]; then
        echo valid >>"$work/expected"
    fi
    expect "$work/expected" "$sheet" "$units"
    expect_text "R\\tspent\\t$((units - 1))\\n" "$sheet" $((units - 1))
done
# Request W-202: the runs for several proofs, each of which is checked by itself. The examples bring their own table and work buffer, so
# the cases in which these are too short are left out, but for those in which another refusal comes first.
for sheet in tests/cases/ways/*.sheet; do
    read -r budget proofs _ _ answer <"${sheet%.sheet}.args"
    cp "${sheet%.sheet}.want" "$work/expected"
    case $(head -c 3 "$work/expected") in
    $'X\t2' | $'X\t5') continue ;;
    esac
    sed -n 's/^R\tproved\t.*/valid/p' "${sheet%.sheet}.want" >>"$work/expected"
    # No text is over 65,535 bytes, so a longer buffer answers as one of so many.
    expect "$work/expected" "$sheet" "$budget" $((answer < 65535 ? answer : 65535)) "$proofs"
done
# One proof asked for is what rules_run finds.
for sheet in tests/cases/*.sheet; do
    cp "${sheet%.sheet}.256" "$work/expected"
    sed -n 's/^R\tproved\t.*/valid/p' "${sheet%.sheet}.256" >>"$work/expected"
    expect "$work/expected" "$sheet" 256 16384 1
done
echo "interface: $compared outputs of the C, C++ and Rust examples, all as expected"
