#!/bin/sh
# The rows of lower in a real simulator: every example and 300 designs by chance as a Verilog shift register with guards, each
# cycle compared with the timetable of the records. It would catch a guard that is a cycle too long, too short or too late, a
# wrong source, a state too few, and two guards at once.
#
#     tests/simulator.sh [COMMAND ARGUMENTS..]
#
# The command reads a file on standard input and prints its rows, such as './dansevik lower'; it is run in the repository's
# root, for the examples and 40 of the designs. The others, and all without a command, are printed by the implementation in
# rust/. SEED=N takes other designs. Icarus Verilog is installed from Debian's packages where it is missing.
set -eu
cd "$(dirname "$0")/.."

if ! command -v iverilog >/dev/null 2>&1 || ! command -v vvp >/dev/null 2>&1; then sh tools/x86 install iverilog; fi
exec sh tools/cargo run --release --quiet --bin simulate -- -n 300 -p 40 -s "${SEED:-1}" examples/*.design ${1:+--} "$@"
