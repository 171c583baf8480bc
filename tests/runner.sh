#!/usr/bin/env bash
# The sheet runner on every stored case, byte for byte: tests/runner.sh PROGRAM [ARGUMENT...]
# The program reads a sheet from standard input and prints its answer text, or `X`, number and line. With a number as its last argument
# it asks for so many proofs.
set -euo pipefail
if [[ $# -eq 0 ]]; then
    echo "usage: tests/runner.sh PROGRAM [ARGUMENT...]" >&2
    exit 2
fi
cases=$(realpath "$(dirname "$0")/cases")
work=$(mktemp -d)
trap 'rm -rf "$work"' EXIT

compared=0
# expect NAME EXPECTED PROGRAM...: what the program prints for its standard input.
expect() {
    local name=$1 expected=$2
    shift 2
    if ! "$@" >"$work/printed" || ! cmp -s "$expected" "$work/printed"; then
        echo "runner: $name differs" >&2
        diff -a "$expected" "$work/printed" >&2 || true
        exit 1
    fi
    compared=$((compared + 1))
}
# expect_text NAME TEXT PROGRAM...
expect_text() {
    printf '%b' "$2" >"$work/expected"
    expect "$1" "$work/expected" "${@:3}"
}

for sheet in "$cases"/*.sheet; do
    expect "$(basename "$sheet")" "${sheet%.sheet}.256" "$@" <"$sheet"
done
if ((compared < 100)); then
    echo "runner: only $compared stored cases found" >&2
    exit 1
fi

# Refusal 1 and its limit: 16,384 bytes are read (and the 1,025th node refused), one more is too many, and so is a lot.
printf 'Y\n%.0s' {1..8192} >"$work/full"
expect_text '16,384 bytes' 'X\t7\t1025\n' "$@" <"$work/full"
(cat "$work/full" && printf Y) >"$work/over"
expect_text '16,385 bytes' 'X\t1\t0\n' "$@" <"$work/over"
printf 'Y\n%.0s' {1..200000} >"$work/large"
expect_text '400,000 bytes' 'X\t1\t0\n' "$@" <"$work/large"
expect_text 'nothing' 'X\t11\t1\n' "$@" </dev/null

# The answer buffer's limit and the budget's: 16,384 bytes and 256 units are told, one more is refusal 12 or spent.
boundaries=$(dirname "$cases")/boundaries.py
for limit in 'text 16384' 'units 256'; do
    # shellcheck disable=SC2086
    python3 "$boundaries" $limit "$work/limit"
    expect "$limit" "$work/limit.text" "$@" <"$work/limit.sheet"
done
python3 "$boundaries" text 16385 "$work/limit"
expect_text 'text 16385' 'X\t12\t0\n' "$@" <"$work/limit.sheet"
python3 "$boundaries" units 257 "$work/limit"
expect_text 'units 257' 'R\tspent\t256\n' "$@" <"$work/limit.sheet"

# Request W-202: with a number it prints the text with at most so many proofs; what is no number from 1 to 64 is refusal 13. The stored
# runs with the runner's budget and a table that is long enough; those that are refused under 12 have a shorter answer buffer.
before=$compared
# docs/SHEETS.md, "The other ways".
expect_text 'examples/ways.sheet' \
    'R\tproved\t10\nB\t0\told_vic\nD\tclause\t1\told_vic\nD\tleft\nD\tclause\t2\nR\tproved\t18\nB\t0\told_vic\nD\tclause\t1\told_vic\nD\tright\nD\tclause\t3\nR\tproved\t21\nB\t0\tlyric\nD\tclause\t1\tlyric\nD\tright\nD\tclause\t4\nR\tno\t24\n' \
    "$@" 4 <"$(dirname "$cases")/../examples/ways.sheet"
for sheet in "$cases"/ways/*.sheet; do
    read -r budget proofs table _ <"${sheet%.sheet}.args"
    want=${sheet%.sheet}.want
    if ((budget == 256 && table >= 8192)) && [[ $(head -c 4 "$want") != $'X\t12' ]]; then
        expect "$(basename "$sheet")" "$want" "$@" "$proofs" <"$sheet"
    fi
done
if ((compared < before + 10)); then
    echo "runner: only $((compared - before)) stored runs for several proofs found" >&2
    exit 1
fi
for sheet in "$cases"/s01_*.sheet; do
    expect "$(basename "$sheet") 1" "${sheet%.sheet}.256" "$@" 1 <"$sheet"
done
strobe=$cases/s01_strobe.sheet
expect_text '64 proofs' 'R\tproved\t3\nD\tclause\t1\nR\tno\t3\n' "$@" 64 <"$strobe"
for none in '' 0 00 01 65 064 100 65535 65536 65537 4294967296 4294967297 18446744073709551617 +1 -1 ' 1' '1 ' 1x x 1.0 $'1\n' $'1\t1'; do
    expect_text "argument '$none'" 'X\t13\t0\n' "$@" "$none" <"$strobe"
done
# The answer buffer's limit is the whole text's: four proofs of 16,384 bytes are told, with the line after them or one byte more it is 12.
python3 "$boundaries" proofs 16384 "$work/limit"
expect 'proofs 16384' "$work/limit.text" "$@" 4 <"$work/limit.sheet"
expect_text 'proofs 16384 and no' 'X\t12\t0\n' "$@" 5 <"$work/limit.sheet"
python3 "$boundaries" proofs 16385 "$work/limit"
expect_text 'proofs 16385' 'X\t12\t0\n' "$@" 4 <"$work/limit.sheet"

# A sheet that comes in pieces is one sheet.
mkfifo "$work/pipe"
(for piece in 1:5 6:9 15:1000; do
    tail -c "+${piece%:*}" "$cases/s01_strobe.sheet" | head -c "${piece#*:}"
    sleep 0.1
done) >"$work/pipe" &
expect 'a sheet in pieces' "$cases/s01_strobe.256" "$@" <"$work/pipe"
wait
echo "runner: $compared outputs, all as expected"
