# Sourced by the scripts beside it: finds the kit by the path of rt, and its clang.
rt=${RT:-rt}
kit=$(dirname "$(dirname "$(readlink -f "$(command -v "$rt")")")")
bin=$kit/toolchain/bin
[ -x "$bin/clang" ] || { echo "no clang of the kit at $bin" >&2; exit 2; }
