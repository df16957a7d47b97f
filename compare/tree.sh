#!/bin/sh
# compare/tree.sh ROOT TREE NAME FOLDER CRATE..: makes the crate NAME in the tree TREE of its own, beside copies of the repository's CRATEs:
# FOLDER/*.rt.txt are its sources (calls.rt.txt its lib.rt), FOLDER/FUNCTION.Answers.antt.txt and the like its proofs. Outside the gate, which
# takes .rt and .antt files in listed crates alone.
set -eu
root=$1 tree=$2 name=$3 folder=$4
shift 4
for c in "$@"; do
    mkdir -p "$tree/crates/$c"
    for d in src specs proofs; do
        rm -rf "${tree:?}/crates/$c/$d"
        [ ! -d "$root/crates/$c/$d" ] || cp -r "$root/crates/$c/$d" "$tree/crates/$c/$d"
    done
done
own=$tree/crates/$name
rm -rf "$own/src" "$own/proofs"
mkdir -p "$own/src"
for f in "$folder"/*.rt.txt; do
    file=$(basename "$f" .txt)
    [ "$file" != calls.rt ] || file=lib.rt
    cp "$f" "$own/src/$file"
done
for f in "$folder"/*.antt.txt; do
    [ -e "$f" ] || continue
    proof=$(basename "$f" .antt.txt)
    to=$own/proofs/$(echo "${proof%.*}" | tr . /)
    mkdir -p "$to"
    cp "$f" "$to/${proof##*.}.antt"
done
