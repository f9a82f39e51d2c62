#!/bin/sh
# The library as a host uses it: from C and C++ through the header, from Rust through the wrapper, and against the independent
# implementation on files by chance. It installs what is missing, on an x86-64 or an Arm Debian 12 (tools/x86).
#
#   tests/host.sh [-n FILES] [-s SEED]     the files by chance, 20,000 without -n
set -eu
cd "$(dirname "$0")/.."

strict='-Wall -Wextra -pedantic -Werror -O2 -Iinclude'
library=target/staticlib/libhost.a
made=target/x86

sh tools/x86 archive
mkdir -p "$made"
# shellcheck disable=SC2086
for program in examples/judge tests/header; do
    sh tools/x86 cc -std=c99 $strict -o "$made/$(basename "$program")" "$program.c" "$library"
    sh tools/x86 c++ -x c++ -fsyntax-only $strict "$program.c"
done
sh tools/x86 run "$made/header" examples/squaring.design
# Only an x86-64 machine's own C++ compiler makes what the archive can be linked with.
if [ "$(uname -m)" = x86_64 ]; then
    # shellcheck disable=SC2086
    sh tools/x86 c++ -x c++ $strict -o "$made/header-c++" tests/header.c -x none "$library"
    "$made/header-c++" examples/squaring.design
fi

# The example's lines are those of the stored table of cases, and its exit statuses those that it says.
failed=0
tab=$(printf '\t')
while IFS=$tab read -r name answer; do
    status=0
    found=$(sh tools/x86 run "$made/judge" "crates/cases/data/$name") || status=$?
    case $answer in accepted*) expected=0 ;; *) expected=1 ;; esac
    if [ "$found" != "$answer" ] || [ "$status" != "$expected" ]; then
        echo "host: $name: '$found', status $status, and not '$answer'" >&2
        failed=1
    fi
done <crates/cases/data/TABLE
for arguments in '/no/such/file' 'one two'; do
    status=0
    # shellcheck disable=SC2086
    sh tools/x86 run "$made/judge" $arguments >/dev/null 2>&1 || status=$?
    if [ "$status" != 2 ]; then
        echo "host: judge $arguments: status $status and not 2" >&2
        failed=1
    fi
done
[ "$failed" = 0 ]
echo "host: C and C++ programs agree with the header and with $(wc -l <crates/cases/data/TABLE) cases"

if ! sh tools/x86 cargo test --quiet --release -p dansevik-host -p dansevik-compare >"$made/host.log" 2>&1; then
    tail -n 40 "$made/host.log" >&2
    exit 1
fi
echo 'host: the Rust wrapper passes its tests, within the stack that it says'
sh tools/x86 cargo run --quiet --release -p dansevik-compare --bin compare -- "$@"
