#!/bin/sh
# tools/design_count.sh [COMMIT]: counts in src/, point by point, what docs/DESIGN-PASS.md is about, in this tree or at a commit.
# The commands find most of the places and some lines that are none; the places themselves, found by reading, stand in
# tools/design_places.tsv.
set -eu
cd "$(dirname "$0")/.."
if [ $# -gt 0 ]; then
    tree=$(mktemp -d)
    trap 'rm -rf "$tree"' EXIT
    git archive "$1" crates | tar -x -C "$tree"
    cd "$tree"
fi
lines() { # lines POINT WHAT PATTERN: how many lines of the sources match
    n=$(find crates/*/src -name '*.rt' -print0 | xargs -0 cat | grep -cE "$3" || true)
    printf '%s  %5d  %s\n' "$1" "$n" "$2"
}
heads() { # heads POINT WHAT PATTERN: how many functions have such parameters
    n=$(find crates/*/src -name '*.rt' -print0 | xargs -0 cat | tr '\n' ' ' | grep -oE 'fn [a-z_0-9]+(<[^(]*>)?\([^)]*\)' | grep -cE "$3" || true)
    printf '%s  %5d  %s\n' "$1" "$n" "$2"
}
lines 1 "variants that mean none or done" '^ +(Nobody|Never|Unlimited|Nothing|Absent|Unlooped|EveryTime|AnyDraw|NoCrossfade|NoCurve|Silence|Done|Unreadable)(\(.*\))?,'
lines 1 "own Option or Result built or matched" '\b(OffBy|OffAt|Limit|FirstOff|Victim|MaybeU32|LoopPoints|Seq|Rand|XfVel|Found|SampleOf|Bound|Curve|MaybeLoop|MaybeNote|Answer)::[A-Z]'
lines 1 "flags with a value beside them" '\b(stereo|placed|stored|silent|done|all|gain_curve|read|fits|over|ok|taken|named|on|present|ignored|waits|connected|yes): bool'
lines 1 "numbers that mean none" '0x(ffff_ffff|FFFF_FFFF)\b|\bNONE\b|NO_PARTS|-1\.0f64|8193\.0|\bid: 0,|u64::MAX'
lines 1 "numbers for kinds" '\b(kind|what|mended|letter|form|number|trigger|loop_mode): (u8|u32|u64)\b'
n=$(find crates/*/src -name '*.rt' -print0 | xargs -0 cat | grep -ohE 'fn [a-z0-9_]+' | sed 's/fn //' | sort -u |
    sed -E 's/^(end|inner|is|show|put|biquad)_//; s/_(starts|slots|places|pair|many|all|four|one|f32|f64|u8|u16|u32|u64|usize|i32|i64|mono|both|coeffs|up|down|plus|minus|note|region|[0-9]+)(_.*)?$//' |
    grep -vE '^(rt|fx)_' | sort | uniq -d | wc -l)
printf '2  %5d  stems of names that two functions share\n' "$n"
n=$(for f in $(find crates/*/src -name '*.rt'); do grep -ohE '^(pub )?fn [a-z_0-9]+' "$f" | sed 's/pub //' | sort -u; done | sort | uniq -d | wc -l)
printf '2  %5d  names of functions in two files\n' "$n"
lines 3 "loops" '^\s*('"'"'[a-z]+: )?(while|for|loop)\b'
lines 3 "while loops" '^\s*while\b'
lines 3 "for loops over a range of numbers" '^\s*for [a-z_]+ in [0-9a-z_]+\.\.'
lines 3 "counters stepped by hand" '^\s+[a-z]+(\.line)? [+-]= 1;$'
lines 4 "fields copied under their own names" '^\s+([a-z_0-9]+): [a-z]+\.\1,?$'
lines 4 "fields named twice" '^\s+([a-z_0-9]+): \1,$'
lines 4 "arms that answer a bool" '=> (true|false),?$'
lines 4 "arms from a number to an enum" '^\s+([0-9]+|_) => [A-Z][A-Za-z0-9]+::[A-Z]'
lines 4 "equality and numbers of enums" 'fn (same_[a-z0-9_]+|(state|kernel|loop|off)_number|number_of)\('
lines 4 "functions that print" 'fn (put|print|show|bits|space|end|named|row|end_line|say|told)(_[a-z_]+)?\('
lines 4 "a test that returns false or true" '^\s+return (false|true);'
lines 5 "the fact of a region's 392 words" 'requires.*length r\.now ≡ 392'
lines 5 "the fact that players are in order" 'requires.*PlayersOk'
lines 5 "requires" '^\s+requires '
heads 5 "words and samples side by side" 'words: &(mut )?\[u32\].*samples: &(mut )?\[u32\]'
heads 5 "session and voice side by side" ': Session,.*: SampleVoice'
lines 6 "counts beside arrays" '\bcount: (usize|u8|u32)|_count: u32|n_filters: u8'
lines 6 "arrays of a fixed size" ': (&mut |&)?\[[A-Za-z0-9]+; [0-9]+\]'
heads 6 "a slice with a place or a count beside it" '(&(mut )?\[[uf](8|32|64)\]),[^)]*\b(n|k|m|at|start|total): (usize|u32)'
lines 7 "matches and tests on kinds" 'match (kind|by|mode|k|letter|what|trigger|shape|s|d|first|bound|c) \{|\bkind ==|\.kind ==|<= c\.kind|form ==|k == [01] \{'
lines 7 "flags that pick a step" 'if (placed|stored|suited|stereo|cold\.stereo|gain_curve|g\.all|c\.silent|parted|letter == .*) \{'
