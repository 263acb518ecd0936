#!/bin/sh
# compile.sh OUT TARGET [-O3|-Os]: compiles OUT/module.ll with the kit's clang for TARGET, a line of the file `targets`, to
# OUT/TARGET/libkrakobran.a. Beside it stand its code as text, module.s, and the frame of each function, module.su.
#
# Three things of the module's text change: its data layout and its triple, to those that this clang gives an empty file for the
# target, and the attribute "target-cpu"="x86-64-v2", which goes, so that the flags decide. With -Os the attribute optsize takes its
# place, as in a module made of C. "probe-stack" stays; a target without inline stack probes ignores it.
set -eu
here=$(cd "$(dirname "$0")" && pwd -P)
. "$here/kit.sh"
out=$1 target=$2 level=${3:--O3}
line=$(awk -F'  +' -v name="$target" '$1 == name { print $2 }' "$here/targets")
[ -n "$line" ] || { echo "no target $target; there are: $(awk -F'  +' '!/^#/ { print $1 }' "$here/targets" | tr '\n' ' ')" >&2; exit 2; }
mkdir -p "$out/$target"
cd "$out/$target"
set -- $line # the triple and its flags
triple=$1
shift

echo 'int x;' | "$bin/clang" --target="$triple" "$@" -ffreestanding -S -emit-llvm -x c - -o empty.ll
layout=$(grep '^target datalayout' empty.ll) name=$(grep '^target triple' empty.ll)
case $level in -Os) size=' optsize' ;; *) size= ;; esac
sed -e "s|^target datalayout.*|$layout|" -e "s|^target triple.*|$name|" -e "s| \"target-cpu\"=\"[^\"]*\"|$size|" ../module.ll > module.ll
# The flags of the kit's own compilation of the archive, but for the machine's.
set -- --target="$triple" "$@" --no-default-config -Werror -Wno-override-module -ffunction-sections -fdata-sections \
    -mllvm -trap-unreachable -mllvm -no-trap-after-noreturn -mllvm -no-x86-call-frame-opt -mllvm -disable-machine-licm \
    -mllvm -disable-postra-machine-licm -mllvm -sink-common-insts=false "$level" -fstack-usage -x ir module.ll
"$bin/clang" "$@" -S -o module.s
"$bin/clang" "$@" -c -o module.o
echo "$level" > level
rm -f libkrakobran.a
"$bin/llvm-ar" rcsD --format=gnu libkrakobran.a module.o
echo "$target, $level: $out/$target/libkrakobran.a, $(wc -c < libkrakobran.a) octets"
