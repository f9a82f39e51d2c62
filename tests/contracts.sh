#!/bin/sh
# tools/contracts on crates made for it. It would catch a public function that it passes over, contracts over several lines that
# it misreads, and a list that keeps what is gone.
set -u
cd "$(dirname "$0")/.." || exit 1
room=$(mktemp -d) || exit 1
trap 'rm -rf "$room"' EXIT
trap 'exit 1' HUP INT TERM
mkdir -p "$room/tools" "$room/crates/one/src" "$room/crates/one/out/rlib/src"
cp tools/contracts "$room/tools/contracts"
failed=0

# fresh: the crates and their two lists, which agree
fresh() {
    cat >"$room/crates/one/src/lib.rt" <<'TEXT'
// pub fn said_only() ensures { "
pub fn promised(x: u8) -> u8
    ensures { result ≡ x }
{
    let brace = b"} ensures {";
    let other = b'{';
    x
}

pub fn prints(fd: i32) {
    if fd == 1 {
        io::write_all(fd, b"\"{");
    }
}

impl Pair {
    pub fn asking(
        self,
        n: usize,
    ) -> usize
        requires small {
            (n < 4) × { n }
        }
        ensures { result ≡ n }
    {
        n
    }

    fn inner(self) {}
}
TEXT
    cat >"$room/crates/one/src/part.rt" <<'TEXT'
pub extern "C" fn exported(x: u8) -> u8
    // ensures
{
    x
}
TEXT
    # What rt has made is no source.
    printf 'pub fn made() {}\n' >"$room/crates/one/out/rlib/src/lib.rt"
    printf 'one::part::exported  ground\none::prints  ground\n' >"$room/tools/without-ensures.txt"
    printf 'one::Pair::asking  ground\n' >"$room/tools/with-requires.txt"
}

# says NAME LINE: the script fails, and says that line
says() {
    if sh "$room/tools/contracts" >"$room/out" 2>"$room/err" || ! grep -qxF "contracts: $2" "$room/err"; then
        echo "contracts: $1: said '$(cat "$room/err")' and not '$2'" >&2
        failed=1
    fi
    fresh
}

fresh
if ! sh "$room/tools/contracts" >"$room/out" 2>&1 || [ "$(cat "$room/out")" != 'contracts: 4 public functions and such types, 2 without ensures, 1 with a requires, each with its ground' ]; then
    echo "contracts: crates that agree with their lists: said '$(cat "$room/out")'" >&2
    failed=1
fi
printf '\npub fn more() -> bool {\n    true\n}\n' >>"$room/crates/one/src/lib.rt"
says 'a function that promises nothing' 'crates/one/src/lib.rt:32: one::more is without ensures, and tools/without-ensures.txt has no ground for it'
printf '\nimpl Pair {\n    pub fn more(self)\n        ensures { result }\n        requires { self }\n    {}\n}\n' >>"$room/crates/one/src/part.rt"
says 'a method that asks' 'crates/one/src/part.rt:8: one::part::Pair::more has a requires, and tools/with-requires.txt has no ground for it'
cat >>"$room/crates/one/src/part.rt" <<'TEXT'

impl<'a> Told<'a> for Pair<'a, [u8; 2]> {
    pub fn array(self) -> [u8; 2]
        ensures { result }
        requires { self }
    {}
}
TEXT
says 'a method of a generic type that hands back an array' 'crates/one/src/part.rt:8: one::part::Pair::array has a requires, and tools/with-requires.txt has no ground for it'
cat >>"$room/crates/one/src/part.rt" <<'TEXT'

pub trait Told: Drop {
    fn told<T>(&self) -> [u8; 2];
}
TEXT
says "a public trait's method that promises nothing" 'crates/one/src/part.rt:8: one::part::Told::told is without ensures, and tools/without-ensures.txt has no ground for it'
cat >>"$room/crates/one/src/part.rt" <<'TEXT'

#[derive(Clone, Copy)]
pub struct Asking<'a> {
    pub few: &'a [u8],
    ghost small: { length few.now ≤ 4 },
}

pub struct Plain {
    few: u8,
}
TEXT
says 'a type that asks' 'crates/one/src/part.rt:8: one::part::Asking has a requires, and tools/with-requires.txt has no ground for it'
cat >>"$room/crates/one/src/part.rt" <<'TEXT'

pub enum Shown<'a> {
    One(&'a u8),
}

struct Inner;

impl fmt::Display for Inner {
}

impl fmt::Display for Shown<'_> {
    fn fmt<W: fmt::Write>(&self, f: &mut fmt::Formatter<W>) -> fmt::Result {
        Ok(())
    }
}
TEXT
says 'a type that is printed, and promises nothing of it' 'crates/one/src/part.rt:16: one::part::Shown::fmt is without ensures, and tools/without-ensures.txt has no ground for it'
sed 's/pub fn prints/fn prints/' "$room/crates/one/src/lib.rt" >"$room/changed" && mv "$room/changed" "$room/crates/one/src/lib.rt"
says 'a function that is gone' 'tools/without-ensures.txt:2: one::prints: no public function of that name is without ensures any more: take the line out'
rm "$room/crates/one/src/part.rt"
says 'a file that is gone' 'tools/without-ensures.txt:1: one::part::exported: no public function of that name is without ensures any more: take the line out'
echo 'one::Pair::asking' >"$room/tools/with-requires.txt"
says 'no ground' 'tools/with-requires.txt:1: one::Pair::asking without a ground'

[ "$failed" = 0 ] && echo 'contracts: what is on no list is found, and what is gone'
exit "$failed"
