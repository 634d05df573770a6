#!/bin/sh
# Builds libanb from the proved archive of crates/anb_c, with cc, ld, objcopy and ar alone:
#   capi/build.sh                    into capi/out
#   capi/build.sh --prefix <folder>  the same, and installs it there
# The archive is made by `rt lib`, which proves it first where nothing is kept of that.
set -eu

here=$(cd "$(dirname "$0")" && pwd)
crate=$here/../crates/anb_c
out=$here/out
prefix=
while [ $# -gt 0 ]; do
    case $1 in
    --prefix) prefix=$2; shift 2 ;;
    *) echo "usage: capi/build.sh [--prefix <folder>]" >&2; exit 2 ;;
    esac
done

# The kit's heap, over the C library's malloc, lies beside rt.
kit=$(dirname "$(dirname "$(readlink -f "$(command -v rt)")")")
heap=$kit/c/liblibc_c.a
[ -f "$heap" ] || { echo "capi/build.sh: no $heap" >&2; exit 1; }

(cd "$crate" && rt lib >&2)

rm -rf "$out/work"
mkdir -p "$out/work"
cd "$out/work"
ar x "$crate/out/libanb_c.a"
ar x "$heap"
# One object, whose names outside are those of anb.h alone.
ld -r -o all.o ./*.o
sed -n 's/^[a-z].*[ *]\(anb_[a-z_]*\)(.*/--keep-global-symbol=\1/p' "$here/anb.h" > names
objcopy $(cat names) all.o anb.o
objcopy --strip-unneeded anb.o
cd "$out"
rm -f libanb.a
ar rcs libanb.a work/anb.o
cc -shared -o libanb.so.0 -Wl,-soname,libanb.so.0 -Wl,-z,text -Wl,-z,defs -Wl,-z,relro -Wl,-z,now \
    -Wl,--whole-archive libanb.a -Wl,--no-whole-archive
ln -sf libanb.so.0 libanb.so
rm -rf work
echo "built $out/libanb.a and $out/libanb.so.0"

if [ -n "$prefix" ]; then
    mkdir -p "$prefix"
    prefix=$(cd "$prefix" && pwd)
    install -Dm644 "$here/anb.h" -t "$prefix/include"
    install -Dm644 libanb.a -t "$prefix/lib"
    install -Dm755 libanb.so.0 -t "$prefix/lib"
    ln -sf libanb.so.0 "$prefix/lib/libanb.so"
    install -Dm644 "$here/anb.3" -t "$prefix/share/man/man3"
    mkdir -p "$prefix/lib/pkgconfig"
    sed "s|@prefix@|$prefix|" "$here/anb.pc.in" > "$prefix/lib/pkgconfig/anb.pc"
    echo "installed under $prefix"
fi
