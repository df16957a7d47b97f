#!/bin/sh
# compare/player.sh all [FRAMES] | bench: whole players of the port against the Rust's, every frame and state bit for bit; or
# ns a frame of both. The Rust calls the port's own seven float functions. It needs the Rust as ../shared, cargo and the kit.
set -eu
cd "$(dirname "$0")/.."
here=$PWD
work=$here/target/compare/player
# what the driver calls: a crate of its own, outside the gate
compare/tree.sh "$here" "$work" player_calls compare/player exact elementary program envelope filter interp lanes gain filter_design player segments
cat >"$work/crates.txt" <<'LIST'
exact:
elementary: exact
program: exact
envelope: exact elementary program
filter: exact
interp: exact
lanes: exact interp
gain: exact elementary program
filter_design: exact elementary filter program gain
player: exact elementary envelope filter filter_design gain interp program
segments: exact elementary envelope filter filter_design gain interp lanes program player
player_calls staticlib: exact elementary envelope filter filter_design gain interp lanes program player segments
LIST
(cd "$work/crates/player_calls" && rt lib) >&2
# the oracle with accessors to what the Rust keeps private
rm -rf "$work/oracle"
cp -r ../shared/oracle "$work/oracle"
chmod -R u+w "$work/oracle"
cat compare/player/sample_voice.append.rs >>"$work/oracle/src/append/sample_voice.rs"
cp compare/player/compare.rs "$work/oracle/src/bin/compare.rs"
cd "$work/oracle"
export ORACLE_SEEDS="$here/../shared/docs/src" ORACLE_FX_DIR="$work/crates/player_calls/out" ORACLE_FX_LIB=player_calls
exec cargo run --offline --release -q --features fx_extern --bin compare --target-dir "$work/cargo" -- "$@"
