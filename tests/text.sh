#!/bin/sh
# The text form: the stored examples are what their texts make; what `show` writes `assemble` reads back to the byte, for every example, every
# case file and a thousand lists by chance; and what is no such text is answered with its line and what was expected there, quickly.
# It would catch a text that loses something, a picture that is no comment, a wrong line number, and anything written beside a refusal.
set -u
cd "$(dirname "$0")/.." || exit 1
room=$(mktemp -d) || exit 1
trap 'rm -rf "$room"' EXIT
trap 'exit 1' HUP INT TERM
failed=0

fail() {
    echo "text: $*" >&2
    failed=1
}

for program in show assemble unpack; do
    [ -x "target/bin/$program" ] || sh tools/build "$program" || exit 1
done

# run NAME WORDS..: the proved program, on standard input
run() {
    sh tools/program "$@"
}

# back FILE: the file's record list comes back from its text; a file whose blocks do not pass gets unpack's line
back() {
    run unpack <"$1" >"$room/list" 2>"$room/refusal"
    run show <"$1" >"$room/text" 2>"$room/err"
    [ -s "$room/err" ] && fail "$1: show wrote on standard error"
    if [ -s "$room/refusal" ]; then
        cmp -s "$room/text" "$room/refusal" || fail "$1: show did not say the refusal of its blocks"
        return
    fi
    run assemble <"$room/text" >"$room/back" 2>"$room/err"
    cmp -s "$room/list" "$room/back" || fail "$1: not the same list: $(head -n 1 "$room/err")"
}

# says NAME LINE: assemble says just that line of what stands in $room/in, and writes nothing
says() {
    timeout 10 sh tools/program assemble <"$room/in" >"$room/out" 2>"$room/err" || fail "$1: did not end well in ten seconds"
    [ -s "$room/out" ] && fail "$1: wrote something"
    [ "$(cat "$room/err")" = "$2" ] || fail "$1: said '$(head -c 200 "$room/err")' and not '$2'"
}

# wrong TEXT WHAT: a text of one line
wrong() {
    printf '%s\n' "$1" >"$room/in"
    says "'$1'" "line 1: expected $2"
}

# like NAME: assemble makes of $room/in the squaring example's list
like() {
    run assemble <"$room/in" >"$room/out" 2>"$room/err"
    cmp -s "$room/out" examples/squaring.records || fail "$1: not the squaring example: $(head -n 1 "$room/err")"
}

sh examples/make.sh --check || failed=1
files=0
for file in examples/*.design crates/cases/data/*; do
    case $file in */TABLE) continue ;; esac
    back "$file"
    files=$((files + 1))
done

# margins and numbers that follow from the place may be left out; blanks, line ends and comments are free
cp examples/squaring.shown "$room/in"
like 'as shown'
sed 's/^ *[0-9]* *//' examples/squaring.shown >"$room/in"
like 'no margin'
sed 's/^ *[0-9]* *//; s/^\(component\|input\|output\|instance\|invocation\|argument\|connection\) [0-9]*/\1/' examples/squaring.shown >"$room/in"
like 'no numbers of their place'
sed 's/^ *[0-9]* /999 /; s/\[/ [ /; s/)/ ) /; s/$/ # all\r/' examples/squaring.shown >"$room/in"
like 'other blanks, other margins, carriage returns'
grep -v '^#' examples/squaring.shown | head -c -1 >"$room/in"
like 'no line end'
printf 'raw 07 00 ff 0A 00 00 00 00 00 00 00 00 00 00 00 FF' >"$room/in"
[ "$(run assemble <"$room/in" | od -An -tx1 | tr -d ' \n')" = 0700ff0a0000000000000000000000ff ] || fail 'raw bytes'

wrong 'componet 0 leaf delay 2' 'component, input, output, instance, invocation, argument, connection or raw'
wrong '12' 'component, input, output, instance, invocation, argument, connection or raw'
wrong 'component 1 leaf delay 2' 'the number that follows from the place, 0'
wrong 'component 0 root delay 2' "'leaf' or 'built'"
wrong 'component 0 leaf 2' "'delay' and a number from 1 to 1024"
wrong 'component 0 leaf delay 0' "'delay' and a number from 1 to 1024"
wrong 'component 0 leaf delay 1025' "'delay' and a number from 1 to 1024"
wrong 'component 0 leaf delay 18446744073709551618' "'delay' and a number from 1 to 1024"
wrong 'component 0 leaf delay 2 3' 'the end of the line'
wrong 'input 0 [1, 1) width 8' "an interval '[s, e)', s less than e and e at most 1024"
wrong 'input 0 [0, 1025) width 8' "an interval '[s, e)', s less than e and e at most 1024"
wrong 'output 0 [0, 1] width 8' "an interval '[s, e)', s less than e and e at most 1024"
wrong 'output 0 [0, 1) width 65' "'width' and a number from 1 to 64"
wrong 'instance 0 of component 64' "'of component' and a number from 0 to 63"
wrong 'invocation 0 of instance 32 at 0' "'of instance' and a number from 0 to 31"
wrong 'invocation 0 of instance 0 at 1024' "'at' and an offset from 0 to 1023"
wrong 'argument 0 new 0' "a source: 'own', 'inv' or 'const'"
wrong 'argument 0 own 16' "an own input's number from 0 to 15"
wrong 'connection 0 inv 0' "an invocation's number from 0 to 63 and its output's from 0 to 15"
wrong 'connection 0 const 18446744073709551616' 'a constant from 0 to 18446744073709551615'
wrong 'raw 07 00' 'sixteen bytes, two hexadecimal digits each'
wrong 'raw 7 0 0 0 0 0 0 0 0 0 0 0 0 0 0 0' 'sixteen bytes, two hexadecimal digits each'

: >"$room/in"
says 'nothing' 'line 1: expected a record'
printf '\n\n# only a comment\n' >"$room/in"
says 'a comment' 'line 4: expected a record'
{ grep -v '^#' examples/squaring.shown; echo 'argument 3 own 0'; } >"$room/in"
says 'a number that is not the place'"'"'s' 'line 17: expected the number that follows from the place, 2'
yes 'component leaf delay 1' | head -n 3968 >"$room/in"
[ "$(run assemble <"$room/in" | wc -c)" = 63488 ] || fail '3968 records: not a list of so many'
yes 'component leaf delay 1' | head -n 3969 >"$room/in"
says '3969 records' 'line 3969: expected at most 3968 records'
head -c 30000000 /dev/zero | tr '\0' 'a' >"$room/in"
says 'one long line' 'line 1: expected a line of at most 4096 bytes'
head -c 30000000 /dev/zero >"$room/in"
says 'zeros' 'line 1: expected a line of at most 4096 bytes'
head -c 100000 target/bin/show >"$room/in"
run assemble <"$room/in" >"$room/out" 2>"$room/err"
[ "$(wc -l <"$room/err")" = 1 ] && [ ! -s "$room/out" ] || fail 'a program as text: not one line'
head -c 70000000 /dev/zero | tr '\0' '\n' >"$room/in"
says 'seventy million lines' 'line 67108865: expected a text of at most 67108864 bytes'

lists=$(sh tools/cargo run --release --quiet --bin texts -- -n 1000 sh tools/program) || failed=1
echo "text: $lists"
[ "$failed" = 0 ] && echo "text: $files files as text and back, and everything else as it should be"
exit "$failed"
