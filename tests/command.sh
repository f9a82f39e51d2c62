#!/bin/sh
# The command as a person uses it. It would catch a wrong exit status, output on refusal, and inputs cut short.
set -u
cd "$(dirname "$0")/.." || exit 1
room=$(mktemp -d) || exit 1
trap 'rm -rf "$room"' EXIT
trap 'exit 1' HUP INT TERM
failed=0

# expect STATUS NAME COMMAND..: the command ends with that status; what it wrote is in $room/out and $room/err
expect() {
    status=$1 name=$2
    shift 2
    "$@" >"$room/out" 2>"$room/err" </dev/null
    got=$?
    if [ "$got" != "$status" ]; then
        echo "command: $name: status $got and not $status" >&2
        failed=1
    fi
}

# same NAME FILE FILE
same() {
    if ! cmp -s "$2" "$3"; then
        echo "command: $1: not what it should be" >&2
        failed=1
    fi
}

# says NAME LINE: that line on standard error, and nothing on standard output
says() {
    if ! grep -qxF "$2" "$room/err" || [ -s "$room/out" ]; then
        echo "command: $1: said '$(cat "$room/err")' and not '$2', or wrote something" >&2
        failed=1
    fi
}

# explains NAME SENTENCE: the last line on standard error
explains() {
    if [ "$(tail -n 1 "$room/err")" != "$2" ]; then
        echo "command: $1: explained '$(tail -n 1 "$room/err")' and not '$2'" >&2
        failed=1
    fi
}

# wrote NAME LINE: just that line on standard output
wrote() {
    if [ "$(cat "$room/out")" != "$2" ]; then
        echo "command: $1: wrote '$(cat "$room/out")' and not '$2'" >&2
        failed=1
    fi
}

expect 0 'pack' ./dansevik pack examples/squaring.records
same 'pack' "$room/out" examples/squaring.design
expect 0 'unpack' ./dansevik unpack examples/squaring.design
same 'unpack' "$room/out" examples/squaring.records

expect 0 'judge' ./dansevik judge examples/squaring.design
wrote 'judge' 'accepted 2 16'
expect 1 'a refused design' ./dansevik judge crates/cases/data/b
wrote 'a refused design' 'refused 11 at 12'
explains 'a refused design' 'record 12: instance 0 is used at offset 2, and at offset 0 by record 9: with its delay 2 that is longer than the delay 3 of component 1'
expect 1 'an early read' ./dansevik judge examples/incident-early.design
wrote 'an early read' 'refused 12 at 21'
explains 'an early read' 'record 21: output 1 of invocation 0 is available for [2, 3) but required during [1, 2)'
expect 0 'the mended design' ./dansevik judge examples/incident-mended.design
wrote 'the mended design' 'accepted 2 24'
expect 1 'nothing judged' ./dansevik judge
wrote 'nothing judged' 'refused 1 at 0'

expect 0 'lower' ./dansevik lower examples/squaring.design
same 'lower' "$room/out" crates/lower/stdout
expect 1 'a refused design, lowered' ./dansevik lower crates/cases/data/b
wrote 'a refused design, lowered' 'refused 11 at 12'
expect 0 'list' ./dansevik list examples/squaring.design
wrote 'list' "$(printf 'start 0 0 0\nstart 2 0 0\nend')"
expect 0 'list of a component' ./dansevik list --component 0 examples/squaring.design
wrote 'list of a component' "$(printf 'start 0 0 0\nend')"
expect 1 'list of no component' ./dansevik list --component 18446744073709551615 examples/squaring.design
wrote 'list of no component' 'refused 14 at 18446744073709551615'
explains 'list of no component' 'component 18446744073709551615 is absent'
expect 1 'a list too long' ./dansevik list crates/printouts/data/rows-4097
wrote 'a list too long' 'refused 13 at 0'
explains 'a list too long' 'the listing has more than 4,096 rows or more than 4,096 units'
expect 2 'list of no number' ./dansevik list --component one examples/squaring.design
expect 2 'list of too great a number' ./dansevik list --component 18446744073709551616 examples/squaring.design
says 'list of too great a number' 'usage: list [COMPONENT]'
expect 2 'list of nothing' ./dansevik list --component

expect 0 'show' ./dansevik show examples/incident-early.design
same 'show' "$room/out" examples/incident-early.shown
expect 0 'assemble' ./dansevik assemble examples/squaring.text
same 'assemble' "$room/out" examples/squaring.records
printf 'component 0 leaf delay 2\n input [0, 1) wide 3\n' >"$room/wrong.text"
expect 1 'a wrong text' ./dansevik assemble "$room/wrong.text"
[ -s "$room/out" ] && { echo 'command: a wrong text: something was written' >&2; failed=1; }
grep -q '^line 2: ' "$room/err" || { echo "command: a wrong text: said '$(cat "$room/err")'" >&2; failed=1; }

expect 1 'nothing packed' ./dansevik pack
says 'nothing packed' 'refused 1 at 0'
explains 'nothing packed' 'the list has 0 bytes; a list has 16 for each of 1 to 3,968 records'
head -c 65552 /dev/zero >"$room/long"
expect 1 'a list too long' ./dansevik pack "$room/long"
says 'a list too long' 'refused 1 at 0'
{ cat examples/squaring.design; printf 'x'; } >"$room/odd"
expect 1 'a file with a byte more' ./dansevik unpack "$room/odd"
says 'a file with a byte more' 'refused 1 at 0'
head -c 66048 /dev/zero >"$room/blocks"
expect 1 'a file of 129 blocks' ./dansevik unpack "$room/blocks"
says 'a file of 129 blocks' 'refused 1 at 0'
expect 1 'a file of 129 blocks, judged' ./dansevik judge "$room/blocks"
wrote 'a file of 129 blocks, judged' 'refused 1 at 0'
{ printf 'x'; tail -c +2 examples/squaring.design; } >"$room/damaged"
expect 1 'a damaged block' ./dansevik unpack "$room/damaged"
says 'a damaged block' 'refused 2 at 0'
explains 'a damaged block' 'block 0: its last four bytes are not the check of those before'

expect 0 'help' ./dansevik help
for verb in judge lower list show assemble pack unpack; do
    expect 0 "help of $verb" ./dansevik "$verb" --help
    head -n 1 "$room/out" | grep -q "^usage: dansevik $verb" || { echo "command: help of $verb: none" >&2; failed=1; }
done
expect 2 'no command' ./dansevik
expect 2 'a wrong command' ./dansevik simplify
expect 2 'no such file' ./dansevik pack "$room/none"
expect 2 'too many words' ./dansevik pack one two
expect 2 'an unknown option' ./dansevik judge --quick

[ "$failed" = 0 ] && echo 'command: as it should be'
exit "$failed"
