#!/bin/sh
# compare/kernel.sh all [READS] | bench: the port's kernels, spans, loop wraps and filters against the Rust's, bit for bit; or
# ns a frame of both. It needs the Rust's files as ../shared/docs/src, cargo and the kit.
set -eu
cd "$(dirname "$0")/.."
here=$PWD
work=$here/target/compare/kernel
# what the driver calls: a crate of its own, outside the gate
compare/tree.sh "$here" "$work" kernel_calls compare/kernel exact filter interp
printf 'exact:\nfilter: exact\ninterp: exact\nkernel_calls staticlib: exact filter interp\n' >"$work/crates.txt"
(cd "$work/crates/kernel_calls" && rt lib) >&2
export RUST_SRC="$here/../shared/docs/src/src" KERNEL_LIB_DIR="$work/crates/kernel_calls/out"
exec cargo run --offline --release -q --manifest-path compare/kernel/Cargo.toml --target-dir "$work/cargo" -- "$@"
