#!/bin/sh
# bench/run.sh [all | table | growth | counts | shares | write] [ROUNDS] [LOAD]: the port beside the Rust on the same loads.
# table: microseconds of processor time a block of both and their ratio, each run a process, the two in turn, ROUNDS times (11).
# growth: cost against players, records, regions, voices and frames. counts: the port's instructions and copies a block. shares: where
# its time goes. all: the four. write: the four, into docs/SPEED.md. It needs the Rust as ../shared (or SHARED=FOLDER), cargo and the
# kit; counts needs valgrind, shares perf.
set -eu
shared=$(cd "${SHARED:-$(dirname "$0")/../../shared}" && pwd)
cd "$(dirname "$0")/.."
here=$PWD
work=$here/target/bench
what=${1:-all}
rounds=${2:-11}
case $what in all | table | growth | counts | shares | write) ;; *) sed -n '2,6s/^# //p' bench/run.sh >&2; exit 2 ;; esac

# The port's side: a program over the voice, proved and compiled as any program of the repository, in a tree of its own.
mkdir -p "$work"
below="$(sed -n 's/^voice: //p' crates.txt) voice"
compare/tree.sh "$here" "$work" bench bench/port $below
printf '3 ' >"$work/crates/bench/stdout" # on no input: no sample
{ for c in $below; do grep "^$c:" crates.txt; done; echo "bench: $below io libc"; } >"$work/crates.txt"
port=$work/crates/bench/out/bench
(cd "$work/crates/bench" && rt run </dev/null) >"$work/check.log" 2>&1 || { cat "$work/check.log" >&2; exit 1; }

# The Rust's side and the driver: the oracle with one program more, which calls the port's own seven float functions.
(cd crates/fx && rt lib) >&2
rm -rf "$work/oracle"
cp -r "$shared/oracle" "$work/oracle"
chmod -R u+w "$work/oracle"
mkdir "$work/oracle/src/bin/voices"
cp bench/rust/*.rs "$work/oracle/src/bin/voices"
(cd "$work/oracle" && ORACLE_SEEDS=$shared/docs/src ORACLE_FX_DIR=$here/crates/fx/out ORACLE_FX_LIB=fx \
    cargo build --offline --release -q --features fx_extern --bin voices --target-dir "$work/cargo")
voices=$work/cargo/release/voices
# What counts the copies.
rustc --edition 2024 -O -C panic=abort --crate-type cdylib -o "$work/libcopies.so" bench/copies.rs

run() { "$voices" "$port" "$work" "$@" || status=1; }
all() {
    kept=$(git diff --quiet HEAD -- crates && echo "of commit" || echo "changed after commit")
    echo "Measured: crates/ $kept $(git log -1 --format=%h -- crates), $rounds rounds;$(sed -n '/^model name/{s/.*://p;q}' /proc/cpuinfo), $(nproc) processors; $(rustc --version | cut -d' ' -f1,2)."
    printf '\n### Beside the Rust\n\n'
    run table "$rounds"
    printf '\n### Growth\n'
    run growth "$rounds"
    printf '\n### Instructions and copies a block\n\n'
    run counts
    printf '\n### Where the time goes\n\n'
    run shares
}
status=0
case $what in
    all) all ;;
    write)
        all >"$work/measured"
        sed -e '/^<!-- measured -->$/,/^<!-- end -->$/{//!d;}' -e "/^<!-- measured -->\$/r $work/measured" docs/SPEED.md >"$work/SPEED.md"
        cp "$work/SPEED.md" docs/SPEED.md
        ;;
    *) run "$what" "$rounds" ${3+"$3"} ;;
esac
exit $status
