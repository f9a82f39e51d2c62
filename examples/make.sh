#!/bin/sh
# Makes, from each example's text, what is stored beside it: NAME.design (the packed file), NAME.verdict (the verdict's line), NAME.shown,
# NAME.lowered and NAME.listed (the file as `show`, `lower` and `list` write it) and NAME.svg (the picture of its last component). With
# --check it changes nothing and says which stored file differs; its status is then 1.
set -eu
root=$(cd "$(dirname "$0")/.." && pwd -P)
room=$(mktemp -d)
trap 'rm -rf "$room"' EXIT
trap 'exit 1' HUP INT TERM

# run NAME WORDS..: the proved program, on standard input
run() {
    sh "$root/tools/program" "$@"
}

# one NAME: everything that belongs to that example, into $room
one() {
    run assemble <"$root/examples/$1.text" >"$room/$1.records"
    [ -s "$room/$1.records" ] || { echo "examples: $1.text was not assembled" >&2; exit 1; }
    run pack <"$room/$1.records" >"$room/$1.design"
    run judge <"$room/$1.design" >"$room/$1.verdict"
    run show <"$room/$1.design" >"$room/$1.shown"
    run show --svg <"$room/$1.design" >"$room/$1.svg"
    run lower <"$room/$1.design" >"$room/$1.lowered"
    run list <"$room/$1.design" >"$room/$1.listed"
}

for program in assemble pack judge show lower list; do
    [ -x "$root/target/bin/$program" ] || sh "$root/tools/build" "$program" || exit 2
done

check=${1:-}
count=0
status=0
for text in "$root"/examples/*.text; do
    name=$(basename "$text" .text)
    one "$name"
    count=$((count + 1))
    for kind in design verdict shown svg lowered listed; do
        if [ "$check" != --check ]; then
            cp "$room/$name.$kind" "$root/examples/$name.$kind"
        elif ! cmp -s "$room/$name.$kind" "$root/examples/$name.$kind"; then
            echo "examples: $name.$kind is not what $name.text makes" >&2
            status=1
        fi
    done
done
[ "$status" = 0 ] && echo "examples: $count, as stored"
exit "$status"
