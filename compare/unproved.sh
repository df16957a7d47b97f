#!/bin/sh
# compare/unproved.sh ROOT NAME OUT: builds the program NAME of the repository ROOT as OUT without a proof, at -O3: for broken copies, which
# nothing could prove. `rt try` compiles a program for its checked run; here it finds a compiler that works at -O3 and keeps what it
# makes. It needs the kit and cc.
set -eu
root=$(cd "$1" && pwd) name=$2
out=$(cd "$(dirname "$3")" && pwd)/$(basename "$3")
kit=$(dirname "$(dirname "$(readlink -f "$(command -v rt)")")")
work=$(mktemp -d)
trap 'rm -rf "$work"' EXIT
# rt takes the kit that it lies in: this one differs in its compiler alone
mkdir -p "$work/kit/bin" "$work/kit/toolchain/bin"
for f in "$kit"/*; do case ${f##*/} in bin | toolchain) ;; *) ln -s "$f" "$work/kit" ;; esac; done
for f in "$kit"/bin/*; do case ${f##*/} in rt | rtlib.py) cp "$f" "$work/kit/bin" ;; *) ln -s "$f" "$work/kit/bin" ;; esac; done
ln -s "$kit/toolchain/lib" "$work/kit/toolchain"
for f in "$kit"/toolchain/bin/*; do [ "${f##*/}" = clang ] || ln -s "$f" "$work/kit/toolchain/bin"; done
cat >"$work/kit/toolchain/bin/clang" <<CLANG
#!/bin/sh
"$kit/toolchain/bin/clang" "\$@" || exit
for w in "\$@"; do
    shift
    case \$w in -O0) w=-O3 ;; -fsanitize=*) continue ;; module.o) w=$work/program.o ;; esac
    set -- "\$@" "\$w"
done
exec "$kit/toolchain/bin/clang" "\$@"
CLANG
chmod +x "$work/kit/toolchain/bin/clang"
# the run itself does not matter, and may want more stack than it is given
(cd "$root/crates/$name" && "$work/kit/bin/rt" try </dev/null) >"$work/said" 2>&1 || [ -f "$work/program.o" ] || { cat "$work/said" >&2; exit 1; }
cc -pie "$work/program.o" "$kit/c/libos_c.a" "$kit/c/liblibc_c.a" -lm -o "$out"
