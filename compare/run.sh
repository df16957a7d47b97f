#!/bin/sh
# compare/run.sh desk|block COUNT [SEED] | short|short_block [LENGTH] | store desk|block | print desk|block SCRIPT_SEED
# Scripts made from a seed, good and damaged, to the port's lister and to the same program over the Rust, which calls the port's
# own seven float functions; what both write is compared byte for byte. short, short_block: every sequence of LENGTH events (3) over
# small kits. store: the scripts that the gate replays and the Rust's answers are written anew. It needs the Rust as
# ../shared/oracle, cargo and the kit. PORT=PROGRAM takes another program for the port's.
set -eu
cd "$(dirname "$0")/.."
here=$PWD
work=$here/target/compare/run
rust=$here/target/compare/oracle
scripts=$work/cargo/release/scripts
case ${1-}:${2-} in
    desk:* | short:*) lister=desk ;;
    block:* | short_block:*) lister=block ;;
    store:desk | store:block) lister=$2 ;;
    print:*) lister= ;;
    *) sed -n '2,6s/^# //p' "$here/compare/run.sh" >&2; exit 2 ;;
esac
mkdir -p "$work"
cargo build --offline --release -q --manifest-path compare/run/Cargo.toml --target-dir "$work/cargo"
[ -n "$lister" ] || exec "$scripts" "$@"
(cd crates/fx && rt lib) >&2
ORACLE_FX_DIR=$here/crates/fx/out ORACLE_FX_LIB=fx cargo build --offline --release -q --features fx_extern --bins \
    --manifest-path ../shared/oracle/Cargo.toml --target-dir "$rust"
if [ "$1" = store ]; then exec "$scripts" store "$rust/release/${lister}_oracle" "$lister" "compare/replay/$lister.txt" "crates/${lister}_replay" 40 7; fi
[ -n "${PORT-}" ] || (cd "crates/${lister}_lister" && rt run </dev/null >/dev/null)
exec "$scripts" "${PORT-crates/${lister}_lister/out/${lister}_lister}" "$rust/release/${lister}_oracle" "$work" "$@"
