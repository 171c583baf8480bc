#!/usr/bin/env bash
# Proves the products and puts them in target/: target/staticlib/librules.a, the library for C and Rust, target/bin/sheet_runner and
# target/bin/answer_checker. With arguments only those named: tools/products.sh [rules] [sheet_runner] [answer_checker]
# Proofs begin with what rt proved before on this machine. Where nothing of a program changed, it is not checked again.
set -euo pipefail
cd "$(dirname "$0")/.."
log=$(mktemp)
trap 'rm -f "$log"' EXIT

# in_crate NAME COMMAND...: a command of rt in a crate's folder; what it says is shown where it fails.
in_crate() {
    local name=$1
    shift
    if ! (cd "crates/$name" && "$@") >"$log" 2>&1; then
        tail -n 40 "$log" >&2
        echo "products: $name is not proved and built" >&2
        exit 1
    fi
}
# put FILE PRODUCT: an unchanged product stays as it is.
put() {
    cmp -s "$1" "$2" || install -D -m "$3" "$1" "$2"
    echo "$2"
}

[[ $# -gt 0 ]] || set -- rules sheet_runner answer_checker
for product in "$@"; do
    case $product in
    # The crate rules_c is the library's C interface: C and Rust link it under the library's name.
    rules)
        in_crate rules_c rt lib
        put crates/rules_c/out/librules_c.a target/staticlib/librules.a 644
        ;;
    # rt builds a program by running it, here on the crate's own example.
    sheet_runner)
        in_crate sheet_runner rt run <crates/sheet_runner/stdin
        put crates/sheet_runner/out/sheet_runner target/bin/sheet_runner 755
        ;;
    answer_checker)
        in_crate answer_checker rt run -- data/sheet data/text
        put crates/answer_checker/out/answer_checker target/bin/answer_checker 755
        ;;
    *)
        echo "usage: tools/products.sh [rules] [sheet_runner] [answer_checker]" >&2
        exit 2
        ;;
    esac
done
