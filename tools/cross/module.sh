#!/bin/sh
# module.sh OUT: proves crate capi and keeps the LLVM module of its archive as OUT/module.ll.
# `rt lib` hands the module to the kit's clang and removes it afterwards. So the kit is shadowed by a folder of links to it, in which
# clang alone is a script: it copies the module, then runs the kit's clang with the same arguments. rt itself is copied, since it finds
# the kit from where its files stand. Proofs, lowering and archive are the kit's own, and nothing of the kit is written to.
set -eu
here=$(cd "$(dirname "$0")" && pwd -P)
. "$here/kit.sh"
repo=$(cd "$here/../.." && pwd -P)
mkdir -p "$1"
out=$(cd "$1" && pwd -P)
shadow=$out/shadow

# FROM TO NAME..: links all of the folder FROM in the folder TO but these names.
link_but() {
    from=$1 to=$2
    shift 2
    mkdir -p "$to"
    for f in "$from"/*; do case " $* " in *" ${f##*/} "*) ;; *) ln -s "$f" "$to/" ;; esac; done
}
rm -rf "$shadow" "$out/module.bc"
link_but "$kit" "$shadow/kit" bin toolchain
link_but "$kit/bin" "$shadow/kit/bin" rt rtlib.py
cp "$kit/bin/rt" "$kit/bin/rtlib.py" "$shadow/kit/bin"
link_but "$kit/toolchain" "$shadow/kit/toolchain" bin
link_but "$bin" "$shadow/kit/toolchain/bin" clang
cat > "$shadow/kit/toolchain/bin/clang" <<END
#!/bin/sh
for f; do case \$f in *.bc) cp "\$f" '$out/module.bc' ;; esac; done
exec '$bin/clang' "\$@"
END
chmod +x "$shadow/kit/toolchain/bin/clang"

(cd "$repo/crates/capi" && "$shadow/kit/bin/rt" lib)
rm -rf "$shadow"
"$bin/clang" --target=x86_64-unknown-linux-gnu -S -emit-llvm -x ir -Xclang -disable-llvm-passes -O1 "$out/module.bc" -o "$out/module.ll"
