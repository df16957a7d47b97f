#!/bin/sh
# compare/stack.sh PROGRAM FUNCTION: the stack that a call of FUNCTION can take at most in the compiled crates/PROGRAM/out/PROGRAM, in bytes, and
# the chain of calls that takes it. Read from the frames: each function's pushes and its frame, with 8 bytes for each call; no function
# calls itself or through a pointer. Calls into the C library (memcpy, memset) count their return address alone.
set -eu
cd "$(dirname "$0")/.."
objdump -d --no-show-raw-insn "crates/$1/out/$1" | awk -v root="$2" '
    function hex(s,   i, n) { n = 0; s = tolower(s); for (i = 3; i <= length(s); i++) n = n * 16 + index("0123456789abcdef", substr(s, i, 1)) - 1; return n }
    function name_in(s) { sub(/^[^<]*</, "", s); sub(/>[^>]*$/, "", s); return s }
    /^[0-9a-f]+ <.*>:$/ { f = name_in($0); frame[f] = 0; probed = 0; next }
    $2 == "push" { frame[f] += 8 }
    $2 == "sub" && $3 ~ /,%r11$/ && last == "%rsp,%r11" { split($3, p, /[$,]/); frame[f] += hex(p[2]); probed = 1 }
    $2 == "sub" && $3 ~ /,%rsp$/ { split($3, p, /[$,]/); if (!(probed && p[2] == "0x1000")) frame[f] += hex(p[2]) }
    $2 == "call" && /</ { calls[f] = calls[f] "\n" name_in($0) }
    $2 == "call" && !/</ { indirect[f] = 1 }
    $2 ~ /^jmp/ && /</ && $0 !~ /\+0x[0-9a-f]+>/ { t = name_in($0); if (t != f) calls[f] = calls[f] "\n" t }
    { last = $3 }
    function depth(g,   a, n, i, d, best, next_is) {
        if (g in known) return known[g]
        if (busy[g]) { print "a function that calls itself: " g; exit 1 }
        busy[g] = 1; best = 0; next_is = ""
        n = split(calls[g], a, "\n")
        for (i = 2; i <= n; i++) { d = depth(a[i]); if (d > best) { best = d; next_is = a[i] } }
        busy[g] = 0; chain[g] = next_is
        if (indirect[g]) print "a call through a pointer in " g
        return known[g] = 8 + frame[g] + best
    }
    END {
        if (!(root in frame)) { print "no function " root " in the program: it may stand within its caller"; exit 1 }
        print depth(root) " bytes for a call of " root
        for (g = root; g != ""; g = chain[g]) print "  " 8 + frame[g] " " g
    }'
