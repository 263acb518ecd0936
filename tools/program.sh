#!/bin/sh
# program.sh NAME..: proves and builds programs of crates/, and the libraries below them, and puts each into target/bin. What the kit says
# goes to standard error. `rt run` proves, builds and runs a program: here it runs on empty input and with no argument, with which each
# program ends with status 0.
set -eu
root=$(cd "$(dirname "$0")/.." && pwd -P)
mkdir -p "$root/target/bin"
for name; do
    (cd "$root/crates/$name" && exec rt run) < /dev/null > /dev/null
    # A program that runs can't be written to, so it is replaced.
    cp "$root/crates/$name/out/$name" "$root/target/bin/$name.new"
    mv "$root/target/bin/$name.new" "$root/target/bin/$name"
done
