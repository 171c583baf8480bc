#!/usr/bin/env bash
# The answer checker on the stored cases and the stored texts: tests/checker.sh PROGRAM
# A text that says proved is valid. Without its last LF its last line breaks; without its last line the line after the others is missing; one
# line more is surplus. A text of no or spent breaks at its first line. A refused sheet is refused with the stored number and line.
set -euo pipefail
program=$(realpath "${1:?usage: tests/checker.sh PROGRAM}")
cases=$(realpath "$(dirname "$0")/cases")
work=$(mktemp -d)
trap 'rm -rf "$work"' EXIT

compared=0
# expect SHEET TEXT EXPECTED
expect() {
    local printed
    printed=$("$program" "$1" "$2")
    if [[ $printed != "$3" ]]; then
        echo "checker: $(basename "$1"): $printed, expected $3" >&2
        exit 1
    fi
    compared=$((compared + 1))
}

for sheet in "$cases"/*.sheet; do
    text=${sheet%.sheet}.256
    lines=$(wc -l <"$text")
    case $(head -c 4 "$text") in
    $'R\tpr')
        expect "$sheet" "$text" valid
        head -c -1 "$text" >"$work/unended"
        expect "$sheet" "$work/unended" $'not valid\t'"$lines"
        head -n -1 "$text" >"$work/short"
        expect "$sheet" "$work/short" $'not valid\t'"$lines"
        (cat "$text" && printf 'D\ttrue\n') >"$work/long"
        expect "$sheet" "$work/long" $'not valid\t'"$((lines + 1))"
        ;;
    R*) expect "$sheet" "$text" $'not valid\t1' ;;
    # Refusal 12 is the engine's: the sheet is right, and the text that tells the refusal is none.
    $'X\t12') expect "$sheet" "$text" $'not valid\t1' ;;
    *) expect "$sheet" "$text" "$(cat "$text")" ;;
    esac
done
if ((compared < 100)); then
    echo "checker: only $compared texts compared" >&2
    exit 1
fi

# The texts with a verdict of their own.
of_cases=$compared
for sheet in "$cases"/checks/*.sheet; do
    expect "$sheet" "${sheet%.sheet}.text" "$(cat "${sheet%.sheet}.verdict")"
done
if ((compared < of_cases + 20)); then
    echo "checker: only $((compared - of_cases)) stored texts found" >&2
    exit 1
fi

# Request W-202: of a text with several proofs each by itself is valid; more of the text is not, from the second R line on.
of_texts=$compared
for sheet in "$cases"/ways/*.sheet; do
    text=${sheet%.sheet}.want
    if [[ $(head -c 1 "$text") == R ]]; then
        rm -f "$work"/part.*
        awk -v part="$work/part." '/^R\t/ { number++ } { print > (part number) }' "$text"
        for part in "$work"/part.*; do
            if [[ $(head -c 8 "$part") == $'R\tproved' ]]; then
                expect "$sheet" "$part" valid
            else
                expect "$sheet" "$part" $'not valid\t1'
            fi
        done
        second=$(awk '/^R\t/ && ++number == 2 { print NR }' "$text")
        if [[ -n $second ]]; then
            expect "$sheet" "$text" $'not valid\t'"$second"
        fi
    fi
done
if ((compared < of_texts + 100)); then
    echo "checker: only $((compared - of_texts)) parts of texts with several proofs found" >&2
    exit 1
fi

# The checker knows neither the runner's answer buffer nor its budget: texts past them are valid too.
boundaries=$(dirname "$cases")/boundaries.py
for limit in 'text 16384' 'text 16385' 'units 257'; do
    # shellcheck disable=SC2086
    python3 "$boundaries" $limit "$work/limit"
    expect "$work/limit.sheet" "$work/limit.text" valid
done

# Refusal 4: a text over 65,535 bytes. Refusal 5: a text of over 31,000 LF bytes. Refusal 1 comes before both.
strobe=$cases/s01_strobe.sheet
head -c 65535 /dev/zero | tr '\0' a >"$work/full"
expect "$strobe" "$work/full" $'not valid\t1'
head -c 65536 /dev/zero | tr '\0' a >"$work/over"
expect "$strobe" "$work/over" $'X\t4\t0'
head -c 31000 /dev/zero | tr '\0' '\n' >"$work/lines"
expect "$strobe" "$work/lines" $'not valid\t1'
head -c 31001 /dev/zero | tr '\0' '\n' >"$work/more"
expect "$strobe" "$work/more" $'X\t5\t0'
head -c 16385 /dev/zero | tr '\0' Y >"$work/sheet"
expect "$work/sheet" "$work/over" $'X\t1\t0'
echo "checker: $compared verdicts, all as expected"
