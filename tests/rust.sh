#!/bin/sh
# The independent implementation in rust/: its own tests, then the proved programs against it, on the cases and on designs by
# chance, valid and damaged. It would catch an answer or a printed row that either has wrong.
set -eu
cd "$(dirname "$0")/.."

sh tools/cargo test --quiet --release
echo 'rust: the independent implementation agrees with itself and with the cases'
for program in judge lower list; do
    sh tools/cargo run --quiet --release --bin differ -- -n 300 "$program" sh tools/program "$program"
done
