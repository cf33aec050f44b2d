#!/usr/bin/env bash
# Compares sheetlog with the second implementation: on the stored inputs, whose expected outputs stand beside them, and on
# inputs drawn from fixed seeds. Ends with a status other than 0 at the first difference.
#   tests/sheetlog.sh            compare
#   tests/sheetlog.sh --store    write the expected outputs of the stored inputs anew, by the second implementation
set -euo pipefail
root="$(cd "$(dirname "${BASH_SOURCE[0]}")/.." && pwd)"
stored="$root/tests/sheetlog"
proved="$root/target/bin/sheetlog"
second="$root/reference/target/release/sheetlog"
lines="$root/reference/target/release/lines"
work="$(mktemp -d)"
trap 'rm -rf "$work"' EXIT
compared=0

(cd "$root/reference" && cargo build --release --offline --quiet)

if [ "${1:-}" = --store ]; then
    for input in "$stored"/*.in; do
        "$second" <"$input" >"${input%.in}.out"
    done
    exit 0
fi

# The proved program: nothing is proved again that has not changed.
"$root/tools/program" sheetlog >"$work/rt" 2>&1 || { cat "$work/rt"; exit 1; }

# compare NAME INPUT [EXPECTED]
compare() {
    "$proved" <"$2" >"$work/proved"
    "$second" <"$2" >"$work/second"
    cmp "$work/proved" "$work/second" || { echo "sheetlog: $1: the implementations differ"; exit 1; }
    if [ $# -eq 3 ]; then
        cmp "$work/proved" "$3" || { echo "sheetlog: $1: not as stored"; exit 1; }
    fi
    compared=$((compared + 1))
}

for input in "$stored"/*.in; do
    compare "$(basename "$input")" "$input" "${input%.in}.out"
done

for option in calm typical split rough wild; do
    for n in 4 7 10 13 16; do
        for seed in 1 2 3; do
            "$lines" calls "$seed" "$n" "$option" >"$work/input"
            compare "calls $seed $n $option" "$work/input"
        done
    done
done

for seed in 1 2 3; do
    "$lines" near "$seed" 20000 >"$work/input"
    compare "near $seed" "$work/input"
    "$lines" bytes "$seed" 200000 >"$work/input"
    compare "bytes $seed" "$work/input"
done

# Lines of megabytes, across blocks, with a call after them; and one that no line feed ends.
{ head -c 3000000 /dev/zero | tr '\0' 1; echo; echo "O 4"; head -c 300000 /dev/zero | tr '\0' ' '; } >"$work/input"
compare "long lines" "$work/input"

# Lines that a block's end cuts at every place: 8,192 bytes are read at a time.
for length in 8189 8190 8191 8192 8193 8194; do
    { head -c "$length" /dev/zero | tr '\0' '\n'; echo "O 4"; echo "T 1 0"; } >"$work/input"
    compare "block $length" "$work/input"
done

echo "sheetlog: $compared inputs, no difference"
