#!/bin/sh
# compare/numbers.sh exact [MILLIONS [STRIDE] | time] | powers [times | pairs] | trig [STRIDE] | log [time]
# Proves the port's numbers, builds them as a C library, links one driver of this folder with it and runs that.
# exact: against Rust's own operators, bit for bit. The others: the largest error of the seven float functions, and times.
set -eu
cd "$(dirname "$0")/.."
driver=$1
shift
case $driver in exact) library=exact_calls ;; *) library=fx ;; esac
(cd "crates/$library" && rt lib) >&2
mkdir -p target/compare
rustc --edition 2021 -O -L "crates/$library/out" -l static="$library" -o "target/compare/$driver" "compare/$driver.rs"
exec "target/compare/$driver" "$@"
