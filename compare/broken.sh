#!/bin/sh
# compare/broken.sh [COUNT]: puts each fault of compare/broken.txt into a copy of the port, one at a time, builds the two replays of it
# without a proof, and says which script first shows the fault: of COUNT (3000) generated ones, seed 1, and of the stored sample. It
# ends with status 1 if one is not noticed. It needs what compare/run.sh has built.
set -eu
cd "$(dirname "$0")/.."
count=${1-3000}
work=$PWD/target/compare/broken
rust=$PWD/target/compare/oracle/release
scripts=$PWD/target/compare/run/cargo/release/scripts
mkdir -p "$work"
unnoticed=0 n=0

# Which generated script shows it.
generated() { # LISTER
    # one script without a parting line: the replay does what the lister does
    "$scripts" "$work/$1_replay" "$rust/$1_oracle" "$work" "$1" "$count" 1 >"$work/said" || true
    sed -n 's/^DIFFERENT script \([0-9]*\),.*/script \1/p' "$work/said" | head -1
}
# Which part of the stored sample, counted from 1.
stored() { # LISTER
    "$work/$1_replay" <"crates/$1_replay/stdin" >"$work/out" || true
    cmp -s "$work/out" "crates/$1_replay/stdout" && return
    line=$(cmp "$work/out" "crates/$1_replay/stdout" 2>&1 | sed -n 's/.*line \([0-9]*\)$/\1/p')
    echo "part $(($(head -n "${line:-1}" "crates/$1_replay/stdout" | grep -c '^=$') + 1))"
}

while read -r _ what; do
    read -r _ file
    IFS= read -r old
    IFS= read -r new
    read -r _ || true
    n=$((n + 1))
    rm -rf "$work/tree"
    mkdir "$work/tree"
    cp -r crates crates.txt "$work/tree"
    old=${old#old: } new=${new#new: }
    [ "$(grep -cF -- "$old" "$work/tree/$file")" -ge 1 ] || { echo "fault $n: $file has no line '$old'" >&2; exit 2; }
    OLD=$old NEW=$new perl -0pi -e 's/\Q$ENV{OLD}\E/$ENV{NEW}/' "$work/tree/$file"
    seen=
    for lister in desk block; do
        compare/unproved.sh "$work/tree" "${lister}_replay" "$work/${lister}_replay"
        said=$(generated $lister)
        kept=$(stored $lister)
        echo "$n. $what ($file): $lister: generated ${said:-not noticed}, stored ${kept:-not noticed}"
        seen=$seen$said$kept
    done
    [ -n "$seen" ] || unnoticed=$((unnoticed + 1))
done <compare/broken.txt
echo "$n faults, $unnoticed not noticed"
[ "$unnoticed" -eq 0 ]
