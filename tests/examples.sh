#!/usr/bin/env bash
# Runs the examples that `make` has built, in C, C++, Python and Rust, and a program that is built against an installed library, and
# compares what they print with what is expected. A line for each case; status 1 if one fails. What is missing on this machine is
# named in a line of its own, and its case is left out.
. "$(dirname -- "${BASH_SOURCE[0]}")/lib.sh" || exit 2
CC=${CC:-cc} CXX=${CXX:-c++}

# NAME STATUS COMMAND..: runs a command, and holds its output to $dir/expected and its status to STATUS.
try() {
    local name=$1 status=$2 wrong='' found
    shift 2
    "$@" > "$dir/out" 2>&1
    found=$?
    [ "$found" -eq "$status" ] || wrong+=", status $found and not $status"
    cmp -s "$dir/out" "$dir/expected" || wrong+=", output: $(head -c 400 "$dir/out")"
    verdict "$name" "$wrong"
}

# The receiver fed the list of feed.c, as docs/C.md has it.
fed() {
    sed -n '/^    1 at 10: /,/^    closed runs /s/^    //p' "$root/docs/C.md"
}

fed > "$dir/expected"
try 'feed.c, its own list' 0 "$root/target/feed"
printf '2 at 0: in order, jump size 1\n1 at 9: reordered, extent 1, late by 9\n3 at 9: refused 6\n' > "$dir/expected"
printf 'L 2, duplicates 0, in order 1\nclosed runs 1, sum of squares 1, open run 0\n' >> "$dir/expected"
try 'feed.c, from standard input' 0 "$root/target/feed" 2 < <(printf '2 0\n1 9\n3 9\n')
echo 'refused 4' > "$dir/expected"
try 'feed.c, K of 0' 1 "$root/target/feed" 0
try 'feed.c, K of 2 to the 32 and 1' 1 "$root/target/feed" 4294967297
{
    printf '1 at 7: in order, jump size 0\n'
    printf '1 at 7: duplicate\n%.0s' {2..4096}
    printf '1 at 7: refused 11, the receiver is full; its counts:\n'
    printf 'L 1, duplicates 4095, in order 1\nclosed runs 0, sum of squares 0, open run 1\n'
    printf 'a fresh receiver takes this arrival and the next ones\n1 at 7: in order, jump size 0\n'
    printf 'L 1, duplicates 0, in order 1\nclosed runs 0, sum of squares 0, open run 1\n'
} > "$dir/expected"
try 'feed.c, an arrival more than a receiver accepts' 0 "$root/target/feed" 1 < <(printf '1 7\n%.0s' {1..4097})

{
    printf 'label ""\nL 5, reordered 1, duplicates 0, in order 4\nreordered ratio 0.2000\ntotal of disorder 2\n'
    printf 'needs 2 packets, 200 octets, 30 microseconds\n'
    cat "$example_report"
} > "$dir/expected"
try 'figures.c, the example' 0 "$root/target/figures" "$example"
{
    printf 'label "cellar"\nL 0, reordered 0, duplicates 0, in order 0\nreordered ratio undefined\ntotal of disorder 0\n'
    printf 'needs 0 packets, 0 octets, 0 microseconds\n'
    printf 'sent 1 arrivals 0\nend 0 0 0 0 0 0\n'
} > "$dir/expected"
try 'figures.c, a sample without arrivals' 0 "$root/target/figures" < <(printf '\0\6cellar\0\1\0\144\0\0')
echo 'refused 1' > "$dir/expected"
try 'figures.c, an empty file' 1 "$root/target/figures" < /dev/null

if have "$CXX" 'vectors.cpp'; then
    printf 'refused 0, 12 octets\nrefused 0, 54 octets\nL 0, reordered 0\nL 3, reordered 1\nan empty file: refused 1\n' \
        > "$dir/expected"
    try 'vectors.cpp' 0 "$root/target/vectors"
fi

if have python3 'counts.py'; then
    export PYTHONPATH=$root/bindings/python PYTHONDONTWRITEBYTECODE=1
    {
        echo 'L 5, reordered 1, duplicates 0, in order 4'
        cat "$example_report"
    } > "$dir/expected"
    try 'counts.py, the example' 0 python3 "$root/examples/counts.py" "$example"
    echo 'refused 1' > "$dir/expected"
    try 'counts.py, an empty file' 1 python3 "$root/examples/counts.py" /dev/null
fi

if have rustc 'counts.rs'; then
    : > "$dir/expected"
    try 'counts.rs, compiled' 0 rustc --edition 2021 -D warnings -O -L "$root/target" -l static=krakobran -o "$dir/counts" \
        "$root/examples/counts.rs"
    printf 'L 5, reordered 1, duplicates 0, in order 4
closed runs 1, sum of squares 16, open run 0
' > "$dir/expected"
    try 'counts.rs, the example' 0 "$dir/counts" "$example"
    echo 'refused 1' > "$dir/expected"
    try 'counts.rs, an empty file' 1 "$dir/counts" /dev/null
fi

# The header is one text for C99 to C17 and C++98 to C++17, without a warning; C11 and C++11 refuse one with a field out of its place.
: > "$dir/expected"
echo '#include "krakobran.h"' > "$dir/header.c"
for standard in c99 c11 c17; do
    try "the header, $standard" 0 "$CC" -std=$standard -Wall -Wextra -Wpedantic -Werror -I"$root/include" -fsyntax-only "$dir/header.c"
done
sed 's/^    uint64_t closed;$/    uint64_t exchanged;/; s/^    uint64_t squares;$/    uint64_t closed;/; s/exchanged/squares/' \
    "$root/include/krakobran.h" > "$dir/krakobran.h"
"$CC" -std=c11 -I"$dir" -fsyntax-only "$dir/header.c" > "$dir/out" 2>&1
verdict 'the header with two fields exchanged' "$(grep -q 'counts_figures.closed has another offset' "$dir/out" || echo ', it is accepted')"
rm "$dir/krakobran.h"
if have "$CXX" 'the header in C++'; then
    cp "$dir/header.c" "$dir/header.cpp"
    for standard in c++98 c++11 c++17; do
        try "the header, $standard" 0 "$CXX" -std=$standard -Wall -Wextra -Werror -I"$root/include" -fsyntax-only "$dir/header.cpp"
    done
fi
if have nm 'the exports of the archive'; then
    nm "$root/target/libkrakobran.a" 2>&1 | sed -n 's/^[0-9a-f]* T \(krakobran_.*\)/\1/p' | LC_ALL=C sort > "$dir/out"
    sed -n 's/^\(uint64_t\|void\) \(krakobran_[a-z0-9_]*\)(.*/\2/p' "$root/include/krakobran.h" | LC_ALL=C sort > "$dir/expected"
    same 'the archive exports what the header declares' "$dir/out" "$dir/expected"
fi

# Installed below a folder, and linked from there as an archive and as a shared object.
: > "$dir/expected"
try 'make install' 0 make -s -C "$root" install DESTDIR="$dir/root" PREFIX=/usr
if have pkg-config 'a program against the installed library'; then
    export PKG_CONFIG_PATH=$dir/root/usr/lib/pkgconfig PKG_CONFIG_SYSROOT_DIR=$dir/root
    read -ra flags <<< "$(pkg-config --cflags --libs krakobran)"
    try 'linked as a shared object' 0 "$CC" -o "$dir/shared" "$root/examples/feed.c" "${flags[@]}"
    try 'linked as an archive' 0 "$CC" -o "$dir/static" "$root/examples/feed.c" -Wl,-Bstatic "${flags[@]}" -Wl,-Bdynamic
    fed > "$dir/expected"
    LD_LIBRARY_PATH=$dir/root/usr/lib try 'run with the shared object' 0 "$dir/shared"
    try 'run with the archive' 0 "$dir/static"
    echo "$version" > "$dir/expected"
    try 'the version of the pkg-config file' 0 pkg-config --modversion krakobran
fi

finish
