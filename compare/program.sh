#!/bin/sh
# compare/program.sh [PROGRAMS | time]: binding, lookup and velocity curves of the port against the Rust's, on generated
# programs, good and damaged; or the time of a block's test. It needs the Rust as ../shared/oracle, cargo and the kit.
set -eu
cd "$(dirname "$0")/.."
here=$PWD
work=$here/target/compare/program
# what the driver calls: a crate of its own, outside the gate
compare/tree.sh "$here" "$work" program_calls compare/program exact program
printf 'exact:\nprogram: exact\nprogram_calls staticlib: exact program\n' >"$work/crates.txt"
(cd "$work/crates/program_calls" && rt lib) >&2
PROGRAM_LIB_DIR=$work/crates/program_calls/out exec cargo run --offline --release -q --manifest-path compare/program/Cargo.toml --target-dir "$work/cargo" -- "$@"
