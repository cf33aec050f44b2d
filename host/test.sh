#!/usr/bin/env bash
# Builds the example programs with warnings as errors, runs them, and compares what they print with host/cases and, on the same calls,
# with sheetlog, the proved one and the second implementation's. Tests host/install, and builds against what it has installed.
# tools/archive must have written target/staticlib/libyardbook.a.
set -euo pipefail
cd "$(dirname "${BASH_SOURCE[0]}")/.."
unset DESTDIR

fail() {
    echo "host: $1" >&2
    exit 1
}

library=target/staticlib/libyardbook.a
[ -f "$library" ] || fail "$library is missing: run tools/archive"
out=target/host
mkdir -p "$out"
warnings=(-Wall -Wextra -Wpedantic -Wconversion -Wshadow -Werror)

# The archive uses nothing but memset: it allocates nothing and has no variables.
nm "$library" >"$out/symbols"
awk '
    $1 == "U" && $2 != "memset" { print "host: the archive uses " $2; bad = 1 }
    $2 ~ /^[BbDdC]$/ { print "host: the archive has the variable " $3; bad = 1 }
    END { exit bad }
' "$out/symbols" >&2

# The version of the Rust crate is the header's.
version=$(sed -n 's/^version = "\(.*\)"$/\1/p' host/rust/Cargo.toml)
grep -qxF "#define YARDBOOK_VERSION \"$version\"" host/yardbook.h || fail "host/yardbook.h has not the version of host/rust/Cargo.toml, $version"

# The header is C as well as C++.
gcc -std=c11 "${warnings[@]}" -fsyntax-only -x c host/yardbook.h
g++ -std=c++20 -O2 "${warnings[@]}" -fno-exceptions host/example.cpp "$library" -o "$out/example"
CARGO_TARGET_DIR="$PWD/$out/rust" cargo build --quiet --offline --locked --manifest-path host/rust/Cargo.toml --example groups
CARGO_TARGET_DIR="$PWD/$out/reference" cargo build --quiet --offline --locked --release --manifest-path reference/Cargo.toml --bin sheetlog

# What host/install refuses, without writing anything. DESTDIR keeps a wrong run within the folder.
install=$PWD/host/install
place="$PWD/$out/install test"
rm -rf "$place"
mkdir -p "$place/bare/host"
refused() { # STATUS TEXT COMMAND...
    local status=0
    DESTDIR="$place/none" "${@:3}" >/dev/null 2>"$out/message" || status=$?
    [ "$status" -eq "$1" ] || fail "status $status, not $1: ${*:3}"
    grep -qF "$2" "$out/message" || fail "no '$2' from: ${*:3}"
    [ ! -e "$place/none" ] || fail "refused, but something is written: ${*:3}"
}
refused 2 "usage: host/install PREFIX" "$install"
refused 2 "usage: host/install PREFIX" "$install" a b
refused 2 "usage: host/install PREFIX" "$install" ""
refused 2 "usage: host/install PREFIX" "$install" --help
cp host/install host/yardbook.h host/yardbook.hpp "$place/bare/host"
refused 1 "run tools/archive" "$place/bare/host/install" a

# An installation from another folder into a relative prefix, whatever the umask.
(cd "$place" && umask 077 && "$install" "the first" >/dev/null)
cmp host/yardbook.h "$place/the first/include/yardbook.h"
cmp host/yardbook.hpp "$place/the first/include/yardbook.hpp"
cmp "$library" "$place/the first/lib/libyardbook.a"
grep -qxF "Version: $version" "$place/the first/lib/pkgconfig/yardbook.pc" || fail "yardbook.pc has not the version $version"
[ "$(find "$place/the first" -type f | wc -l)" -eq 4 ] || fail "host/install has not written four files"
[ -z "$(find "$place/the first" ! -perm -444 -o -type d ! -perm -111)" ] || fail "host/install has written what not all may read"

# The same one with DESTDIR before an absolute prefix, and over files that are there already.
DESTDIR="$place/stage" "$install" "$place/usr" >/dev/null
diff -r "$place/the first" "$place/stage$place/usr" || fail "host/install with DESTDIR differs"
find "$place/stage" -type f | while IFS= read -r file; do
    echo "an earlier one" >"$file"
    chmod 400 "$file"
done
DESTDIR="$place/stage" "$install" "$place/usr" >/dev/null
diff -r "$place/the first" "$place/stage$place/usr" || fail "host/install over an earlier installation differs"

# The flags in a folder's yardbook.pc: as they stand there, and by pkg-config where it is there.
read_flags() {
    local line name
    local -A value=([pcfiledir]=$1)
    while IFS= read -r line; do
        for name in "${!value[@]}"; do line=${line//"\${$name}"/"${value[$name]}"}; done
        case $line in
        Cflags:* | Libs:*) printf '%s\n' "${line#*:}" ;;
        *=*) value[${line%%=*}]=${line#*=} ;;
        esac
    done <"$1/yardbook.pc"
}
ask_flags() { PKG_CONFIG_PATH='' PKG_CONFIG_LIBDIR=$1 pkg-config --cflags --libs yardbook; }
ways=(read_flags)
if command -v pkg-config >/dev/null; then ways+=(ask_flags); fi

# Built against the installed files alone, after they were moved: the sources stand where no other header is found.
mv "$place/the first" "$place/a moved one"
cp host/example.c host/example.cpp "$place"
examples=(cpp rust)
for way in "${ways[@]}"; do
    "$way" "$place/a moved one/lib/pkgconfig" | xargs printf '%s\n' >"$out/flags"
    mapfile -t flags <"$out/flags"
    gcc -std=c11 -O2 "${warnings[@]}" "$place/example.c" "${flags[@]}" -o "$place/c"
    g++ -std=c++20 -O2 "${warnings[@]}" -fno-exceptions "$place/example.cpp" "${flags[@]}" -o "$place/cpp"
    for side in c cpp; do
        "$place/$side" >"$out/installed_${side}_$way.out"
        examples+=("installed_${side}_$way")
    done
done

# The proved program: nothing is proved again that has not changed.
tools/program sheetlog >"$out/rt" 2>&1 || { cat "$out/rt" >&2; exit 1; }

# The groups that a watcher follows.
for case in sample two_leaders sightings carried digests; do
    cat "host/cases/$case.out" >&3
    target/bin/sheetlog <"host/cases/$case.in" >&4
    "$out/reference/release/sheetlog" <"host/cases/$case.in" >&5
done 3>"$out/watched" 4>"$out/sheetlog.out" 5>"$out/second.out"
for side in sheetlog second; do
    diff -u "$out/watched" "$out/$side.out" || fail "$side differs"
done

# sheetlog, fed the calls, admits all of them and comes to the lists, which stand in the case so many times.
comes_to_lists() { # CALLS CASE TIMES
    local program
    grep '^[LJ]' "$2" >"$out/lists"
    for program in target/bin/sheetlog "$out/reference/release/sheetlog"; do
        "$program" <"$1" >"$out/taken"
        if grep '^[^0LJ]' "$out/taken" >&2; then fail "$program refuses some call of $1"; fi
        for ((i = 0; i < $3; i++)); do tail -n 2 "$out/taken"; done | diff -u "$out/lists" - || fail "$program has not the lists of $2"
    done
}

# The group that its members run: each member's lists are those of all that they sent.
{ echo "O 4"; grep '^[VTN]' host/cases/members.out; } >"$out/sent"
comes_to_lists "$out/sent" host/cases/members.out 4

# The group with a buffer: its lists are those of the same vertices in order.
comes_to_lists host/cases/pending.in host/cases/pending.out 1

# What the examples print: all of these groups, and before the last one those of the bundles and of the buffer, for which sheetlog has
# no lines.
cat "$out/watched" host/cases/bundle.out host/cases/pending.out host/cases/members.out >"$out/expected"
"$out/example" >"$out/cpp.out"
"$out/rust/debug/examples/groups" >"$out/rust.out"
for example in "${examples[@]}"; do
    diff -u "$out/expected" "$out/$example.out" || fail "$example differs"
done
echo "host: the C, C++ and Rust examples agree with sheetlog, and those built against the installed files too"
