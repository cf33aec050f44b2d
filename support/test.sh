#!/usr/bin/env bash
# Builds sidebyside with warnings as errors, runs its tests, and runs it on the cases: what it prints, its exit status, and its page.
# tools/archive must have written target/staticlib/libyardbook.a.
#   support/test.sh            compare
#   support/test.sh --store    write the stored states and what is expected of the cases anew
set -euo pipefail
cd "$(dirname "${BASH_SOURCE[0]}")/.."

fail() {
    echo "support: $1" >&2
    exit 1
}

library=target/staticlib/libyardbook.a
[ -f "$library" ] || fail "$library is missing: run tools/archive"
export CARGO_TARGET_DIR=$PWD/support/target
export YARDBOOK_LIB=$PWD/target/staticlib
cargo=(--manifest-path support/Cargo.toml --release --offline --locked --quiet)
cargo build "${cargo[@]}" --bins --examples
program=$CARGO_TARGET_DIR/release/sidebyside
cases=$PWD/support/cases
check=$PWD/support/check_page.py
out=$PWD/target/support
rm -rf "$out"
mkdir -p "$out"

# A case's two inputs beside each other, from its folder, so that names are short: what is printed, the status, and the page's counts.
run_case() { # CASE
    local status=0
    (cd "$cases/$1" && "$program" left.* right.* --html "$out/$1.html") || status=$?
    echo
    echo "exit $status"
    "$check" "$out/$1.html"
}

# The states that no input of sheetlog gives.
"$CARGO_TARGET_DIR/release/examples/cases" "$out/states"
if [ "${1:-}" = --store ]; then
    for state in "$out"/states/*.state; do
        name=$(basename "$state" .state)
        cp "$state" "$cases/${name%-*}/${name##*-}.state"
    done
    for case in "$cases"/*/; do run_case "$(basename "$case")" >"$case/expected"; done
    exit 0
fi

cargo test "${cargo[@]}"

for state in "$out"/states/*.state; do
    name=$(basename "$state" .state)
    cmp "$state" "$cases/${name%-*}/${name##*-}.state" || fail "the stored state of $name is another"
done
[ "$(find "$cases" -name '*.state' | wc -l)" -eq "$(find "$out/states" -type f | wc -l)" ] || fail "a stored state has no maker"
count=0
for case in "$cases"/*/; do
    name=$(basename "$case")
    run_case "$name" >"$out/$name.out"
    diff -u "$case/expected" "$out/$name.out" || fail "case $name differs"
    # Without a page the same is printed, and the other way round the same status.
    status=0
    (cd "$case" && "$program" left.* right.*) >"$out/plain" || status=$?
    sed '/^exit /,$d' "$case/expected" | head -n -1 | diff -u - "$out/plain" || fail "case $name prints something else without a page"
    back=0
    (cd "$case" && "$program" right.* left.*) >/dev/null || back=$?
    [ "$status" -eq "$back" ] || fail "case $name: status $status, turned round $back"
    count=$((count + 1))
done

# Inputs that are neither, files that cannot be read or written, and wrong commands: exit 2, one line, nothing printed.
good=$cases/agreement/left.in
refused() { # TEXT WORDS...
    local status=0
    "$program" "${@:2}" >"$out/printed" 2>"$out/message" || status=$?
    [ "$status" -eq 2 ] || fail "status $status, not 2: ${*:2}"
    [ ! -s "$out/printed" ] || fail "refused, but something is printed: ${*:2}"
    [ "$(wc -l <"$out/message")" -eq 1 ] || fail "not one line: ${*:2}"
    grep -qF "$1" "$out/message" || fail "no '$1' from: ${*:2}"
}
: >"$out/empty"
head -c -4 "$cases/damaged/right.state" >"$out/short.state"
cat "$cases/damaged/right.state" "$out/short.state" >"$out/long.state"
sed 's/$/\r/' "$good" >"$out/returns.in"
printf 'O 4' >"$out/one.in"
for side in left right; do
    place() { if [ "$side" = left ]; then refused "$1" "$2" "$good"; else refused "$1" "$good" "$2"; fi; }
    place "it is empty" "$out/empty"
    place "no line of it is a call" "$out/short.state"
    place "no line of it is a call" "$out/long.state"
    place "carriage return" "$out/returns.in"
    place "no line feed" "$out/one.in"
    place "no line of it is a call" README.md
    place "cannot be read" "$out/absent"
    place "cannot be read" "$out"
    place "has more than" /dev/zero
done
usage="usage: sidebyside LEFT RIGHT [--html FILE]"
refused "$usage"
refused "$usage" "$good"
refused "$usage" "$good" "$good" "$good"
refused "$usage" "$good" "$good" --html
refused "$usage" "$good" "$good" --html --html
refused "$usage" "$good" "$good" --page "$out/page"
refused "$usage" "$good" "$good" --html "$out/page" --html "$out/page"
refused "cannot be written" "$good" "$good" --html "$out/absent/page"
cp "$good" "$out/kept.in"
refused "is an input" "$out/kept.in" "$good" --html "$out/kept.in"
refused "is an input" "$good" "$out/kept.in" --html "$out/../support/kept.in"
ln "$out/kept.in" "$out/hard.html"
ln -s kept.in "$out/soft.html"
for link in hard soft; do refused "is an input" "$out/kept.in" "$good" --html "$out/$link.html"; done
cmp "$good" "$out/kept.in" || fail "an input is written over"
"$program" --help | grep -qxF "$usage" || fail "--help has not the usage"
status=0
"$program" "$good" "$good" >/dev/full 2>"$out/message" || status=$?
[ "$status" -eq 2 ] || fail "status $status where nothing can be printed"
{
    sleep 0.2
    status=0
    "$program" "$good" "$cases/agreement/right.state" || status=$?
    echo "$status" >"$out/status"
} | true
[ "$(cat "$out/status")" -eq 0 ] || fail "a reader that has gone away is a failure"

# A name of odd characters stands escaped in the page, and a full group of sixteen is drawn whole.
odd="$out/<a & \"b\">"$'\x01\e[31m.in'
cp "$good" "$odd"
"$program" --html "$out/odd.html" "$odd" "$good" >"$out/printed"
"$check" "$out/odd.html" >/dev/null
if LC_ALL=C grep -q $'[\x01\e]' "$out/printed" "$out/odd.html"; then fail "a control character of a name is printed"; fi
{
    echo "O 16"
    for round in {1..32}; do
        for member in {0..15}; do
            echo "V $round $member $((round == 1 ? 0 : 65535)) 0 0 $((100 * round + member))$(printf ' 0%.0s' {1..13})"
        done
    done
} >"$out/sixteen.in"
"$program" "$out/sixteen.in" "$out/sixteen.in" --html "$out/sixteen.html" >"$out/printed"
grep -qF "The journals are the same: 481 entries." "$out/printed" || fail "sixteen members have another journal"
"$check" "$out/sixteen.html" >"$out/counts"
printf '%s vertex 512 strong 7936 weak 0\n' left right | diff -u - "$out/counts" || fail "sixteen members are not drawn whole"
echo "support: $count cases, no difference"
