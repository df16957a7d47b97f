#!/bin/sh
# compare/gain.sh SETS: cents, velocity gain, crossfade, pan, the cookbook's coefficients and a region's filters against the
# Rust's, which calls the port's own seven float functions. It needs the Rust as ../shared, cargo and the kit.
set -eu
cd "$(dirname "$0")/.."
here=$PWD
work=$here/target/compare/gain
compare/tree.sh "$here" "$work" gain_calls compare/gain exact elementary program filter gain filter_design
cat >"$work/crates.txt" <<'LIST'
exact:
elementary: exact
program: exact
filter: exact
gain: exact elementary program
filter_design: exact elementary filter program gain
gain_calls staticlib: exact elementary program filter gain filter_design
LIST
(cd "$work/crates/gain_calls" && rt lib) >&2
# the oracle with accessors to what the Rust keeps private
rm -rf "$work/oracle"
cp -r ../shared/oracle "$work/oracle"
chmod -R u+w "$work/oracle"
for f in filters sample_voice; do cat "compare/gain/$f.append.rs" >>"$work/oracle/src/append/$f.rs"; done
cp compare/gain/compare.rs "$work/oracle/src/bin/compare.rs"
cd "$work/oracle"
export ORACLE_SEEDS="$here/../shared/docs/src" ORACLE_FX_DIR="$work/crates/gain_calls/out" ORACLE_FX_LIB=gain_calls
exec cargo run --offline --release -q --features fx_extern --bin compare --target-dir "$work/cargo" -- "$@"
