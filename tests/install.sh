#!/usr/bin/env bash
# What `make install`, `make uninstall` and `make dist` do: installs below folders of its own, runs the installed command on a path
# without the kit, and uses the library by pkg-config and CMake from where it was unpacked.
. "$(dirname -- "${BASH_SOURCE[0]}")/lib.sh" || exit 2

make=(make -s --no-print-directory -C "$root")

# A path on which there is nothing but what the installed command needs.
bare "$dir/bare" bash env awk base64 cat dirname head readlink tr

# NAME: the installed command does what that of the checkout does, and says the same, wherever its folder is.
same_command() {
    local arguments list
    path=$dir/bare
    for arguments in "report $example" "report --csv $example" "report --json $example" \
        "import log 290 100 $root/examples/supplier.log" "export log $example" "export owamp $example" \
        "check $example $root/crates/cmd_report/stdout" "worse $example $root/crates/cmd_picture/stdin" "picture $root/crates/cmd_picture/stdin" \
        "summary $root/crates/cmd_summary/stdin" "summary --all $example" "follow 290 $root/examples/supplier.log" \
        'help' 'help worse' '--version'; do
        read -ra list <<< "$arguments"
        "$root/krakobran" "${list[@]}" > "$dir/expected"
        try "$1: ${arguments//"$root/"/}" 0 '' "${list[@]}"
    done
    cp "$example_report" "$dir/expected"
    try "$1: report of the example" 0 'this is the report of an example' report
    path=$PATH
}

# The files of a tree, by their names in it.
tree() {
    (cd "$1" && find . ! -type d | LC_ALL=C sort)
}

# Below a prefix, which can be moved.
"${make[@]}" install PREFIX="$dir/one" > "$dir/out" 2>&1 || cat "$dir/out"
cat > "$dir/expected" << EOF
./bin/krakobran
./include/krakobran.h
./lib/cmake/krakobran/krakobran-config-version.cmake
./lib/cmake/krakobran/krakobran-config.cmake
./lib/libkrakobran.a
./lib/libkrakobran.so
./lib/libkrakobran.so.${version%.*}
./lib/libkrakobran.so.$version
./lib/pkgconfig/krakobran.pc
./libexec/krakobran/cmd_check
./libexec/krakobran/cmd_export
./libexec/krakobran/cmd_follow
./libexec/krakobran/cmd_import
./libexec/krakobran/cmd_picture
./libexec/krakobran/cmd_refusal
./libexec/krakobran/cmd_report
./libexec/krakobran/cmd_summary
./libexec/krakobran/cmd_table
./libexec/krakobran/cmd_worse
./libexec/krakobran/example.sample
./libexec/krakobran/krakobran.txt
./share/bash-completion/completions/krakobran
./share/krakobran/python/krakobran.py
./share/man/man1/krakobran.1
./share/zsh/site-functions/_krakobran
EOF
tree "$dir/one" > "$dir/out"
same 'what is installed' "$dir/out" "$dir/expected"
cp "$dir/expected" "$dir/files"
mv "$dir/one" "$dir/another place"
krakobran="$dir/another place/bin/krakobran"
same_command 'installed and moved'
ln -s "$krakobran" "$dir/link"
krakobran=$dir/link
cp "$example_report" "$dir/expected"
try 'installed, by a link' 0 '' report "$example"

# It never builds: with the kit on the path it neither builds an old program nor a missing one.
mkdir "$dir/kit"
printf '#!/bin/sh\necho built >> %s\n' "$dir/built" > "$dir/kit/rt"
chmod +x "$dir/kit/rt"
path=$dir/kit:$PATH
touch -d '2000-01-01' "$dir/another place/libexec/krakobran/cmd_report"
try 'installed, an old program' 0 '' report "$example"
rm "$dir/another place/libexec/krakobran/cmd_report"
: > "$dir/expected"
try 'installed, a missing program' 2 'libexec/krakobran/cmd_report: there is no such program; install krakobran again' report "$example"
verdict 'installed, nothing is built' "$([ ! -e "$dir/built" ] || echo ', rt was run')"
path=$PATH

# The folders that packagers set.
folders=(PREFIX=/usr BINDIR=/usr/games LIBEXECDIR=/usr/lib/x86 MANDIR=/usr/man LIBDIR=/usr/lib/x86)
"${make[@]}" install DESTDIR="$dir/staged" "${folders[@]}" > "$dir/out" 2>&1 || cat "$dir/out"
sed -e 's|/bin/|/games/|; s|/libexec/|/lib/x86/|; s|/share/man/|/man/|; s#^\./lib/\(lib\|cmake\|pkg\)#./lib/x86/\1#' "$dir/files" |
    sed 's|^\./|./usr/|' | LC_ALL=C sort > "$dir/expected"
tree "$dir/staged" > "$dir/out"
same 'what is installed in other folders' "$dir/out" "$dir/expected"
krakobran=$dir/staged/usr/games/krakobran
same_command 'installed in other folders'
verdict 'no path of the staging folder is written' "$(grep -rlI "$dir" "$dir/staged" | sed 's/^/, /')"
"${make[@]}" uninstall DESTDIR="$dir/staged" "${folders[@]}" > "$dir/out" 2>&1
: > "$dir/expected"
tree "$dir/staged" > "$dir/out"
same 'what is left of it' "$dir/out" "$dir/expected"

# The packed tree.
"${make[@]}" dist > "$dir/out" 2>&1 || cat "$dir/out"
name=krakobran-$version-x86_64
mkdir "$dir/unpacked"
tar -xzf "$root/target/$name.tar.gz" -C "$dir/unpacked"
cp "$dir/files" "$dir/expected"
tree "$dir/unpacked/$name" > "$dir/out"
same 'what is packed' "$dir/out" "$dir/expected"
krakobran=$dir/unpacked/$name/bin/krakobran
same_command 'unpacked'

# The library from there, by pkg-config, from Python and by CMake.
if have pkg-config 'the unpacked pkg-config file'; then
    read -ra flags <<< "$(PKG_CONFIG_PATH=$dir/unpacked/$name/lib/pkgconfig pkg-config --cflags --libs krakobran)"
    "${CC:-cc}" -o "$dir/feed" "$root/examples/feed.c" "${flags[@]}" -Wl,-rpath,"$dir/unpacked/$name/lib"
    "$dir/feed" > "$dir/out"
    "$root/target/feed" > "$dir/expected"
    same 'a program by the unpacked pkg-config file' "$dir/out" "$dir/expected"
fi
if have python3 'the unpacked binding for Python'; then
    PYTHONPATH=$dir/unpacked/$name/share/krakobran/python PYTHONDONTWRITEBYTECODE=1 python3 "$root/examples/counts.py" "$example" \
        > "$dir/out" 2>&1
    { echo 'L 5, reordered 1, duplicates 0, in order 4' && cat "$example_report"; } > "$dir/expected"
    same 'a program by the unpacked binding for Python' "$dir/out" "$dir/expected"
fi
if have cmake 'the CMake package'; then
    mkdir "$dir/project"
    cp "$root/examples/feed.c" "$dir/project"
    cat > "$dir/project/CMakeLists.txt" << EOF
cmake_minimum_required(VERSION 3.10)
project(feed C)
find_package(krakobran ${version%.*} REQUIRED)
foreach(kind krakobran static)
    add_executable(feed_\${kind} feed.c)
    target_link_libraries(feed_\${kind} krakobran::\${kind})
endforeach()
EOF
    cmake -S "$dir/project" -B "$dir/project/build" -DCMAKE_PREFIX_PATH="$dir/unpacked/$name" > "$dir/cmake" 2>&1 &&
        cmake --build "$dir/project/build" >> "$dir/cmake" 2>&1 || cat "$dir/cmake"
    "$root/target/feed" > "$dir/expected"
    for kind in krakobran static; do
        "$dir/project/build/feed_$kind" > "$dir/out"
        same "a program by CMake, krakobran::$kind" "$dir/out" "$dir/expected"
    done
    # Another major version, and before 1.0.0 another minor version, is refused.
    minor=${version#*.} minor=${minor%%.*}
    for other in $((${version%%.*} + 1)) "0.$((minor - 1))" "0.$((minor + 1))"; do
        sed -i "s/find_package(krakobran [0-9.]*/find_package(krakobran $other/" "$dir/project/CMakeLists.txt"
        cmake -S "$dir/project" -B "$dir/project/$other" -DCMAKE_PREFIX_PATH="$dir/unpacked/$name" > "$dir/cmake" 2>&1
        verdict "CMake refuses version $other" "$([ $? -ne 0 ] || echo ', it does not')"
    done
fi

# LDFLAGS reach the shared object.
"${make[@]}" -n -W target/libkrakobran.a target/libkrakobran.so LDFLAGS=-Wl,--as-needed > "$dir/out"
verdict 'LDFLAGS' "$(grep -q -e '--as-needed.*-shared' "$dir/out" || echo ", $(cat "$dir/out")")"

# The completion in bash.
# WORD..: prints what the last one can become.
complete_words() {
    bash -c '. "$0/tools/completion.bash" && COMP_WORDS=("$@") && COMP_CWORD=$(($# - 1)) && _krakobran && echo "${COMPREPLY[*]}"' \
        "$root" "$@"
}
complete_words krakobran '' > "$dir/out"
complete_words krakobran re >> "$dir/out"
complete_words krakobran import '' >> "$dir/out"
complete_words krakobran report --v >> "$dir/out"
complete_words krakobran report x >> "$dir/out"
complete_words krakobran import log --b >> "$dir/out"
complete_words krakobran import log --bits '' >> "$dir/out"
printf '%s\n' 'report summary import export check worse picture follow help --help --version' report 'log owamp' --version '' --bits '8 10' > "$dir/expected"
same 'the completion for bash' "$dir/out" "$dir/expected"
if have zsh 'the completion for zsh'; then
    verdict 'the completion for zsh' "$(zsh -n "$root/tools/completion.zsh" 2>&1 | sed 's/^/, /')"
fi

finish
